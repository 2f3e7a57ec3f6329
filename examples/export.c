/* Writes the movie bytes of a p-code patch, SWF19's action records, to standard output.
 *
 *     scripts/staticlib
 *     gcc -std=c99 -O2 -I include -o export examples/export.c -L target/staticlib -lpcode_c
 *     ./export [FILE]        reads FILE, or standard input
 *
 * No end record is added: a tag that holds the bytes is closed with a zero byte. A patch that is refused writes nothing but a line on
 * standard error, `export: refused N at P`, and `, line L, column C` where P is in the text; include/pcode.h tells what N and P mean.
 * The exit status is 0 if the patch was exported, 1 if it was refused, 2 if there was no patch to read or nowhere to write.
 *
 * Stack: a main thread usually has enough (`ulimit -s`); to call pcode_export from another thread, give that PCODE_THREAD_STACK bytes
 * (pthread_attr_setstacksize). */
#include <errno.h>
#include <stdbool.h>
#include <stdint.h>
#include <stdio.h>
#include <stdlib.h>
#include <string.h>

#include "pcode.h"

/* A longer text is refused with 1, so one byte more than the limit is all that has to be read of it. */
enum { ROOM = PCODE_MOST_BYTES + 1 };

static uint8_t text[ROOM];
static uint8_t movie[PCODE_MOST_MOVIE];

/* Says on standard error what failed; the exit status of such a run. */
static int failed(const char *what)
{
    fprintf(stderr, "export: %s: %s\n", what, strerror(errno));
    return 2;
}

/* The first byte of a token, or of an action's name; the text's end where there is none. A refused export left the table as it was, so
 * the text is lexed into it; there is room for a token for each byte. */
static uint64_t byte_of(size_t length, uint64_t *tokens, uint64_t place, bool of_action)
{
    uint64_t count[1], token[5];
    pcode_lex(text, length, tokens, length, count);
    for (uint64_t i = 0; i < count[0]; i++) {
        pcode_token(tokens[i], token);
        if (of_action && PCODE_KIND(token[0]) != PCODE_KIND_ACTION_NAME)
            continue;
        if (place == 0)
            return token[1];
        place--;
    }
    return length;
}

static void tell_refusal(size_t length, uint64_t *tokens, uint64_t refusal, uint64_t place)
{
    uint64_t at[2];
    bool of_token = refusal == PCODE_REFUSED_NOT_GRAMMATICAL || refusal == PCODE_REFUSED_TOO_DEEP;
    bool of_action = refusal == PCODE_REFUSED_NO_LABEL || refusal == PCODE_REFUSED_UNCODABLE;
    fprintf(stderr, "export: refused %llu at %llu", (unsigned long long)refusal, (unsigned long long)place);
    if (of_token || of_action)
        place = byte_of(length, tokens, place, of_action);
    if (refusal != PCODE_REFUSED_TOO_LONG) {
        pcode_line_column(text, length, (size_t)place, at);
        fprintf(stderr, ", line %llu, column %llu", (unsigned long long)at[0], (unsigned long long)at[1]);
    }
    fprintf(stderr, "\n");
}

/* Exports the text over tables that hold any reading of it and into an output that holds any movie: 5, 8 and 12 are no answers then. */
static int export_text(size_t length)
{
    size_t words = length + 2;
    uint64_t *tables = (uint64_t *)malloc(5 * words * sizeof *tables);
    if (tables == NULL)
        return failed("no memory for the tables");
    uint64_t *tokens = tables;
    uint64_t *actions = tokens + words;
    uint64_t *operands = actions + words;
    uint64_t *levels = operands + words;
    uint64_t *labels = levels + words;

    /* five counts and the bytes that were written; of a refusal, its place in told[0] */
    uint64_t told[6];
    uint64_t refusal = pcode_export(text, length, tokens, words, actions, words, operands, words, levels, words, labels, words, false,
                                    movie, sizeof movie, told);
    if (refusal == 0)
        fwrite(movie, 1, (size_t)told[5], stdout);
    else
        tell_refusal(length, tokens, refusal, told[0]);

    free(tables);
    return refusal == 0 ? 0 : 1;
}

int main(int argc, char **argv)
{
    if (argc > 2) {
        fprintf(stderr, "usage: export [FILE]\n");
        return 2;
    }
    FILE *in = argc == 2 ? fopen(argv[1], "rb") : stdin;
    if (in == NULL)
        return failed(argv[1]);

    size_t length = fread(text, 1, ROOM, in);
    if (ferror(in))
        return failed(argc == 2 ? argv[1] : "standard input");
    if (in != stdin)
        fclose(in);

    int status = export_text(length);
    if (fflush(stdout) != 0 || ferror(stdout))
        return failed("standard output");
    return status;
}
