/* Prints the labels of a p-code patch, one to a line: label LEVEL NAME POSITION.
 *
 *     scripts/staticlib
 *     gcc -std=c99 -O2 -I include -o labels examples/labels.c -L target/staticlib -lpcode_c
 *     ./labels [FILE]        reads FILE, or standard input
 *
 * A patch that is refused prints `refused N at P`, and `, line L, column C` where P is in the text; include/pcode.h tells what N and P
 * mean. The exit status is 0 if the patch was read, 1 if it was refused, 2 if there was no patch to read or nowhere to print.
 *
 * Stack: a main thread usually has enough (`ulimit -s`); to call pcode_read from another thread, give that PCODE_THREAD_STACK bytes
 * (pthread_attr_setstacksize). */
#include <errno.h>
#include <stdint.h>
#include <stdio.h>
#include <stdlib.h>
#include <string.h>

#include "pcode.h"

/* A longer text is refused with 1, so one byte more than the limit is all that has to be read of it. */
enum { ROOM = PCODE_MOST_BYTES + 1 };

/* Says on standard error what failed; the exit status of such a run. */
static int failed(const char *what)
{
    fprintf(stderr, "labels: %s: %s\n", what, strerror(errno));
    return 2;
}

/* The lines of all labels. The tables are those that pcode_read filled. */
static void print_labels(const uint8_t *text, const uint64_t *tokens, const uint64_t *labels, uint64_t count)
{
    for (uint64_t i = 0; i < count; i++) {
        uint64_t label[3]; /* its level, the token that names it, its position */
        uint64_t token[5]; /* kind, span, and in token[3] and token[4] the bounds of the raw text */
        pcode_label(labels[i], label);
        pcode_token(tokens[label[1]], token);
        printf("label %llu ", (unsigned long long)label[0]);
        fwrite(text + token[3], 1, (size_t)(token[4] - token[3]), stdout);
        printf(" %llu\n", (unsigned long long)label[2]);
    }
}

/* The first byte of a token, or the text's end where there are no more tokens. A refused reading left the table as it was, so the text
 * is lexed into it; there is room for a token for each byte. */
static uint64_t byte_of(const uint8_t *text, size_t length, uint64_t *tokens, uint64_t place)
{
    uint64_t count[1], token[5];
    pcode_lex(text, length, tokens, length, count);
    if (place >= count[0])
        return length;
    pcode_token(tokens[place], token);
    return token[1];
}

static void print_refusal(const uint8_t *text, size_t length, uint64_t *tokens, uint64_t refusal, uint64_t place)
{
    uint64_t at[2];
    printf("refused %llu at %llu", (unsigned long long)refusal, (unsigned long long)place);
    if (refusal == PCODE_REFUSED_NOT_GRAMMATICAL || refusal == PCODE_REFUSED_TOO_DEEP)
        place = byte_of(text, length, tokens, place);
    if (refusal != PCODE_REFUSED_TOO_LONG) {
        pcode_line_column(text, length, (size_t)place, at);
        printf(", line %llu, column %llu", (unsigned long long)at[0], (unsigned long long)at[1]);
    }
    printf("\n");
}

/* Reads the text into tables that hold any reading of it, a word for each byte and two more: 5 and 8 are no answers then. */
static int list(const uint8_t *text, size_t length)
{
    size_t words = length + 2;
    uint64_t *tables = malloc(5 * words * sizeof *tables);
    if (tables == NULL)
        return failed("no memory for the tables");
    uint64_t *tokens = tables;
    uint64_t *actions = tokens + words;
    uint64_t *operands = actions + words;
    uint64_t *levels = operands + words;
    uint64_t *labels = levels + words;

    /* the counts of tokens, actions, operands, levels and labels; of a refusal, its place in out[0] */
    uint64_t out[5];
    uint64_t refusal = pcode_read(text, length, tokens, words, actions, words, operands, words, levels, words, labels, words, out);
    if (refusal == 0)
        print_labels(text, tokens, labels, out[4]);
    else
        print_refusal(text, length, tokens, refusal, out[0]);

    free(tables);
    return refusal == 0 ? 0 : 1;
}

int main(int argc, char **argv)
{
    if (argc > 2) {
        fprintf(stderr, "usage: labels [FILE]\n");
        return 2;
    }
    FILE *in = argc == 2 ? fopen(argv[1], "rb") : stdin;
    if (in == NULL)
        return failed(argv[1]);

    static uint8_t text[ROOM];
    size_t length = fread(text, 1, ROOM, in);
    if (ferror(in))
        return failed(argc == 2 ? argv[1] : "standard input");
    if (in != stdin)
        fclose(in);

    int status = list(text, length);
    if (fflush(stdout) != 0 || ferror(stdout))
        return failed("standard output");
    return status;
}
