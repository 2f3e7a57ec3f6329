/* Runs each call of include/pcode.h on a stack that was painted beforehand, counts the bytes from its top down to the lowest that
 * lost its paint, and holds them to a limit. compare/stack builds and runs it; it prints a line for each call and text.
 * Exit status: 0 if every call keeps to its limit, 1 if one does not, 2 if this could not be found out. */
#define _GNU_SOURCE
#include <signal.h>
#include <stdbool.h>
#include <stdint.h>
#include <stdio.h>
#include <stdlib.h>
#include <string.h>
#include <sys/mman.h>
#include <ucontext.h>
#include <unistd.h>

#include "pcode.h"

enum { LONGEST = PCODE_MOST_BYTES, PLACES = LONGEST + 2, STACK = 8 << 20, GUARD = 1 << 16 };
static const uint64_t PAINT = 0xA5C3965A3C69F00D;

/* What the calls are given and write is not on the stack. */
static uint8_t text[LONGEST];
static size_t length;
static uint64_t tokens[PLACES], actions[PLACES], operands[PLACES], levels[PLACES], labels[PLACES];
static uint8_t movie[PCODE_MOST_MOVIE];
static uint64_t answer, out[6];
static int32_t integer[1];
static int64_t height[1];

/* ---- the texts: as many pieces as fit, then line feeds */

static bool add(size_t size, const char *piece)
{
    size_t n = strlen(piece);
    if (length + n > size)
        return false;
    memcpy(text + length, piece, n);
    length += n;
    return true;
}

/* Lines as patches have them, with a label of its own for each jump. */
static void ordinary(size_t size)
{
    char lines[256];
    unsigned i = 0;
    do
        snprintf(lines, sizeof lines,
                 "Push \"_root\"\nGetVariable\nPush \"score\", 10\nGetMember\nLess2\nIf skip%u\n"
                 "Push register1, -2.5, true\nStoreRegister 1\nCallMethod\nPop\nskip%u: With {\nTrace\n}\n",
                 i, i);
    while (i++, add(size, lines));
}

/* A token for each byte, and as many operands as can be. */
static void values(size_t size)
{
    add(size, "Push 1");
    while (add(size, ",1"))
        ;
}

static void one_label(size_t size)
{
    while (add(size, "a:"))
        ;
}

/* An underscore and a number to the base 64: short, and no word of the language. */
static const char *name_of(unsigned n)
{
    static const char letters[] = "0123456789abcdefghijklmnopqrstuvwxyzABCDEFGHIJKLMNOPQRSTUVWXYZ_$";
    static char name[16];
    size_t at = sizeof name - 1;
    do
        name[--at] = letters[n % 64];
    while ((n /= 64) != 0);
    name[--at] = '_';
    return name + at;
}

static void distinct_labels(size_t size)
{
    char label[16];
    unsigned i = 0;
    do
        snprintf(label, sizeof label, "%s:", name_of(i));
    while (i++, add(size, label));
}

/* Labels and actions: each jump to its own label, so that none goes too far. */
static void jumps(size_t size)
{
    char line[48];
    unsigned i = 0;
    do
        snprintf(line, sizeof line, "%s:Jump %s\n", name_of(i), name_of(i));
    while (i++, add(size, line));
}

/* As many actions as can be. */
static void many_actions(size_t size)
{
    while (add(size, "Or\n"))
        ;
}

static void many_levels(size_t size)
{
    while (add(size, "With{}\n"))
        ;
}

static void nested(size_t size, int depth, const char *open, const char *close)
{
    for (int i = 0; i < depth; i++)
        add(size, open);
    for (int i = 0; i < depth; i++)
        add(size, close);
}

static void nested_with(size_t size)
{
    nested(size, 64, "With{", "}\n");
}

/* The catch block of the innermost is the 64th that is open. */
static void nested_try(size_t size)
{
    nested(size, 63, "Try \"t\"{", "}\ncatch{}\nfinally{}\n");
}

/* Labels in the innermost of 64 blocks: deep and many at once. */
static void nested_labels(size_t size)
{
    for (int i = 0; i < 64; i++)
        add(size, "With{");
    distinct_labels(size - 64 * strlen("}\n"));
    for (int i = 0; i < 64; i++)
        add(size, "}\n");
}

/* Refused with 6 at the end: a line there starts with a comma. */
static void refused_lines(size_t size)
{
    ordinary(size - 2);
    add(size, "\n,");
}

static void refused_values(size_t size)
{
    values(size - 2);
    add(size, "\n,");
}

static void refused_labels(size_t size)
{
    distinct_labels(size - 2);
    add(size, "\n,");
}

/* Refused with 10 at its last action, once all others have been looked at. */
static void jump_to_nowhere(size_t size)
{
    jumps(size - strlen("Jump a\n"));
    add(size, "Jump a\n");
}

/* ---- the calls; a small one is made with several arguments */

static void call_nothing(void)
{
}

static void call_lex(void)
{
    answer = pcode_lex(text, length, tokens, PLACES, out);
}

static void call_read(void)
{
    answer = pcode_read(text, length, tokens, PLACES, actions, PLACES, operands, PLACES, levels, PLACES, labels, PLACES, out);
}

static void export_into(size_t bytes)
{
    answer = pcode_export(text, length, tokens, PLACES, actions, PLACES, operands, PLACES, levels, PLACES, labels, PLACES, false, movie,
                          bytes, out);
}

static void call_export(void)
{
    export_into(sizeof movie);
}

static void call_export_short(void)
{
    export_into(0);
}

/* Words that differ in every part of an entry. */
static uint64_t word(unsigned i)
{
    return i * UINT64_C(0x0123456789ABCDEF);
}

static void call_token(void)
{
    for (unsigned i = 0; i < 64; i++)
        pcode_token((uint64_t)i << 56 | word(i) >> 8, out);
}

static void call_action(void)
{
    for (unsigned i = 0; i < 64; i++)
        pcode_action(word(i), out);
}

static void call_operand(void)
{
    for (unsigned i = 0; i < 64; i++)
        pcode_operand(word(i), out);
}

static void call_level(void)
{
    for (unsigned i = 0; i < 64; i++) {
        uint64_t words[PCODE_LEVEL_WORDS] = {word(i), word(i + 1)};
        pcode_level(words, out, height);
    }
}

static void call_label(void)
{
    for (unsigned i = 0; i < 64; i++)
        pcode_label(word(i), out);
}

static void call_raw_text(void)
{
    for (size_t end = 0; end < 64; end++)
        pcode_raw_text(text, LONGEST, 7, end, out);
}

static void call_delta(void)
{
    for (size_t action = 0; action < 100; action++)
        pcode_delta(action, 3, true, integer);
}

static void call_action_name(void)
{
    static uint8_t name[PCODE_MOST_NAME];
    for (size_t action = 0; action < 102; action++)
        pcode_action_name(action, name, sizeof name);
}

static void call_line_column(void)
{
    for (size_t at = 0; at <= LONGEST; at += LONGEST / 8)
        pcode_line_column(text, LONGEST, at, out);
}

/* Each kind of token with each raw text. */
static void call_value(void)
{
    static const char *const raw[] = {"0", "-2147483648", "2147483648", "-90071992547.40992e-11", "1e400", "infinity", "nan", "name"};
    for (size_t i = 0; i < sizeof raw / sizeof *raw; i++)
        for (uint64_t kind = 0; kind < 19; kind++)
            pcode_value((const uint8_t *)raw[i], strlen(raw[i]), kind * 65536, 0, strlen(raw[i]), integer, out);
}

/* ---- the limits, in bytes of stack: what was measured on x86-64 for the worst texts, and some ten percent more. They are what
 * include/pcode.h promises, and stand there. */

enum { SIZES = 5 };
static const size_t sizes[SIZES] = {256, 1024, 4096, 16384, 65536};
#define READ_LIMITS {PCODE_READ_STACK_4096, PCODE_READ_STACK_4096, PCODE_READ_STACK_4096, PCODE_READ_STACK_16384, PCODE_READ_STACK}
#define EXPORT_LIMITS {PCODE_EXPORT_STACK_1024, PCODE_EXPORT_STACK_1024, PCODE_EXPORT_STACK_4096, PCODE_EXPORT_STACK, PCODE_EXPORT_STACK}
#define LEX_LIMITS {PCODE_LEX_STACK_1024, PCODE_LEX_STACK_1024, PCODE_LEX_STACK_4096, PCODE_LEX_STACK, PCODE_LEX_STACK}

/* A call whose stack depends on the text; no limit stands where the text has no room. */
static const struct on_text {
    const char *name;
    void (*call)(void);
    const char *text;
    void (*make)(size_t);
    uint64_t answer;
    size_t limits[SIZES];
} on_texts[] = {
    {"pcode_read", call_read, "ordinary lines", ordinary, 0, READ_LIMITS},
    {"pcode_read", call_read, "Push 1,1,..", values, 0, READ_LIMITS},
    {"pcode_read", call_read, "one label", one_label, 0, READ_LIMITS},
    {"pcode_read", call_read, "distinct labels", distinct_labels, 0, READ_LIMITS},
    {"pcode_read", call_read, "nested labels", nested_labels, 0,
     {0, PCODE_READ_STACK_4096, PCODE_READ_STACK_4096, PCODE_READ_STACK_16384, PCODE_READ_STACK}},
    {"pcode_read", call_read, "many levels", many_levels, 0, READ_LIMITS},
    {"pcode_read", call_read, "64 nested With", nested_with, 0,
     {0, PCODE_READ_STACK_4096, PCODE_READ_STACK_4096, PCODE_READ_STACK_16384, PCODE_READ_STACK}},
    {"pcode_read", call_read, "63 nested Try", nested_try, 0, {0, 0, PCODE_READ_STACK_4096, PCODE_READ_STACK_16384, PCODE_READ_STACK}},
    {"pcode_read", call_read, "refused lines", refused_lines, 6, READ_LIMITS},
    {"pcode_read", call_read, "refused Push 1,1,..", refused_values, 6, READ_LIMITS},
    {"pcode_read", call_read, "refused labels", refused_labels, 6, READ_LIMITS},
    {"pcode_export", call_export, "ordinary lines", ordinary, 0, EXPORT_LIMITS},
    {"pcode_export", call_export, "many actions", many_actions, 0, EXPORT_LIMITS},
    {"pcode_export", call_export, "jumps", jumps, 0, EXPORT_LIMITS},
    {"pcode_export", call_export, "one label", one_label, 0, EXPORT_LIMITS},
    {"pcode_export", call_export, "distinct labels", distinct_labels, 0, EXPORT_LIMITS},
    {"pcode_export", call_export, "nested labels", nested_labels, 0,
     {0, PCODE_EXPORT_STACK_1024, PCODE_EXPORT_STACK_4096, PCODE_EXPORT_STACK, PCODE_EXPORT_STACK}},
    {"pcode_export", call_export, "many levels", many_levels, 0, EXPORT_LIMITS},
    {"pcode_export", call_export, "64 nested With", nested_with, 0,
     {0, PCODE_EXPORT_STACK_1024, PCODE_EXPORT_STACK_4096, PCODE_EXPORT_STACK, PCODE_EXPORT_STACK}},
    {"pcode_export", call_export, "63 nested Try", nested_try, 0, {0, 0, PCODE_EXPORT_STACK_4096, PCODE_EXPORT_STACK, PCODE_EXPORT_STACK}},
    {"pcode_export", call_export, "refused lines", refused_lines, 6, EXPORT_LIMITS},
    {"pcode_export", call_export, "jump to nowhere", jump_to_nowhere, 10, EXPORT_LIMITS},
    {"pcode_export", call_export, "refused Push 1,1,..", values, 11, {0, 0, 0, 0, PCODE_EXPORT_STACK}},
    {"pcode_export", call_export_short, "output too short", jumps, 12, EXPORT_LIMITS},
    {"pcode_lex", call_lex, "ordinary lines", ordinary, 0, LEX_LIMITS},
    {"pcode_lex", call_lex, "Push 1,1,..", values, 0, LEX_LIMITS},
    {"pcode_lex", call_lex, "distinct labels", distinct_labels, 0, LEX_LIMITS},
};

/* None of these may take more than PCODE_OTHER_STACK; most take far less. */
static const struct small {
    const char *name;
    void (*call)(void);
    size_t limit;
} smalls[] = {
    {"pcode_token", call_token, 64},   {"pcode_action", call_action, 64}, {"pcode_operand", call_operand, 64},
    {"pcode_level", call_level, 96},   {"pcode_label", call_label, 64},   {"pcode_raw_text", call_raw_text, 64},
    {"pcode_delta", call_delta, 540},  {"pcode_value", call_value, 600},  {"pcode_action_name", call_action_name, PCODE_OTHER_STACK},
    {"pcode_line_column", call_line_column, 80},
};

/* ---- measuring */

static uint64_t *stack;
static ucontext_t here, there;

static void failed(const char *what)
{
    fprintf(stderr, "stack: %s\n", what);
    exit(2);
}

/* A call ran into the guard below the painted stack. */
static void overflowed(int signal)
{
    static const char message[] = "a call takes over 8 MB\nstack: FAILED\n";
    (void)signal;
    _exit(write(STDOUT_FILENO, message, sizeof message - 1) < 0 ? 2 : 1);
}

static void prepare(void)
{
    static uint8_t aside[1 << 16];
    stack_t handling = {.ss_sp = aside, .ss_size = sizeof aside};
    struct sigaction action = {.sa_handler = overflowed, .sa_flags = SA_ONSTACK};
    uint8_t *area = mmap(NULL, GUARD + STACK, PROT_READ | PROT_WRITE, MAP_PRIVATE | MAP_ANONYMOUS, -1, 0);
    if (area == MAP_FAILED || mprotect(area, GUARD, PROT_NONE) != 0)
        failed("no stack to paint");
    if (sigaltstack(&handling, NULL) != 0 || sigaction(SIGSEGV, &action, NULL) != 0)
        failed("no way to see a stack run over");
    stack = (uint64_t *)(area + GUARD);
}

/* The bytes of stack that a function takes, with those of switching to it. */
static size_t depth_of(void (*function)(void))
{
    size_t words = STACK / sizeof *stack, i = 0;
    for (i = 0; i < words; i++)
        stack[i] = PAINT;
    if (getcontext(&there) != 0)
        failed("no context to run in");
    there.uc_stack.ss_sp = stack;
    there.uc_stack.ss_size = STACK;
    there.uc_link = &here;
    makecontext(&there, function, 0);
    if (swapcontext(&here, &there) != 0)
        failed("no context to run in");
    for (i = 0; i < words && stack[i] == PAINT; i++)
        ;
    return (words - i) * sizeof *stack;
}

static size_t switching;

/* Measures one call and prints its line; whether it keeps to its limit. */
static bool keeps(const char *name, void (*call)(void), const char *what, size_t limit)
{
    size_t took = depth_of(call) - switching;
    printf("%-17s %-20s %6zu %8zu %8zu%s\n", name, what, length, took, limit, took > limit ? "  OVER" : "");
    return took <= limit;
}

int main(void)
{
    bool kept = true;
    setvbuf(stdout, NULL, _IOLBF, BUFSIZ);
    prepare();
    switching = depth_of(call_nothing);
    printf("%-17s %-20s %6s %8s %8s\n", "call", "text", "bytes", "stack", "limit");
    for (const struct on_text *c = on_texts; c < on_texts + sizeof on_texts / sizeof *on_texts; c++)
        for (int i = 0; i < SIZES; i++) {
            if (c->limits[i] == 0)
                continue;
            length = 0;
            c->make(sizes[i]);
            while (add(sizes[i], "\n"))
                ;
            kept = keeps(c->name, c->call, c->text, c->limits[i]) && kept;
            if (answer != c->answer)
                failed("the call gives another answer than the text was made for");
        }
    length = 0;
    for (const struct small *c = smalls; c < smalls + sizeof smalls / sizeof *smalls; c++)
        kept = keeps(c->name, c->call, "", c->limit) && kept;
    puts(kept ? "stack: ok, every call keeps to its limit" : "stack: FAILED, a call takes more than its limit");
    if (fflush(stdout) != 0 || ferror(stdout))
        failed("nowhere to print");
    return kept ? 0 : 1;
}
