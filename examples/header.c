/* Holds the constants of include/pcode.h to what the calls answer. examples/run builds it as C and as C++ and runs both. */
#include <stdbool.h>
#include <stdint.h>
#include <stdio.h>
#include <string.h>

#include "pcode.h"

enum { PLACES = PCODE_MOST_BYTES + 2 }; /* words: the most that the table of levels takes */
static char text[PLACES];
static uint64_t tokens[PLACES], actions[PLACES], operands[PLACES], levels[PLACES], labels[PLACES], out[5], told[6];
static uint8_t movie[PCODE_MOST_MOVIE];
static int wrong = 0;

static void same(const char *what, uint64_t got, uint64_t expected)
{
    if (got == expected)
        return;
    printf("header: %s is %lu in the header, %lu of the call\n", what, (unsigned long)expected, (unsigned long)got);
    wrong = 1;
}

static const struct {
    const char *text;
    uint64_t kind, carried;
} kinds[] = {
    {"\n", PCODE_KIND_NEWLINE, 0},          {"\"s\"", PCODE_KIND_STRING, 0},          {"1.5", PCODE_KIND_FLOAT, 0},
    {"1", PCODE_KIND_INTEGER, 0},           {"register7", PCODE_KIND_REGISTER, 7},    {"constant300", PCODE_KIND_CONSTANT, 300},
    {"With", PCODE_KIND_ACTION_NAME, 99},   {"name", PCODE_KIND_IDENTIFIER, 0},       {":", PCODE_KIND_COLON, 0},
    {",", PCODE_KIND_COMMA, 0},             {"{", PCODE_KIND_OPEN_BRACE, 0},          {"}", PCODE_KIND_CLOSE_BRACE, 0},
    {"true", PCODE_KIND_TRUE, 0},           {"false", PCODE_KIND_FALSE, 0},           {"null", PCODE_KIND_NULL, 0},
    {"undefined", PCODE_KIND_UNDEFINED, 0}, {"catch", PCODE_KIND_CATCH, 0},           {"finally", PCODE_KIND_FINALLY, 0},
    {"?", PCODE_KIND_UNKNOWN, 0},           {"\"s", PCODE_KIND_STRING, 1},
};

static const struct {
    const char *text;
    uint64_t value;
} values[] = {
    {"null", PCODE_VALUE_NULL},       {"undefined", PCODE_VALUE_UNDEFINED}, {"\"s\"", PCODE_VALUE_STRING},
    {"1", PCODE_VALUE_INTEGER},       {"1.5", PCODE_VALUE_FLOAT},           {"true", PCODE_VALUE_TRUE},
    {"false", PCODE_VALUE_FALSE},     {"register7", PCODE_VALUE_REGISTER},  {"constant300", PCODE_VALUE_CONSTANT},
    {"9007199254740993", PCODE_VALUE_LONG},
};

static const struct {
    const char *text;
    uint64_t refusal;
} refusals[] = {
    {"\xff", PCODE_REFUSED_NOT_UTF8},
    {"\"", PCODE_REFUSED_LONE_QUOTE},
    {"\"\xc3\xa9", PCODE_REFUSED_CUT_CHARACTER},
    {",", PCODE_REFUSED_NOT_GRAMMATICAL},
};

static uint64_t read_into(const char *s, size_t n, size_t token_places, size_t places)
{
    return pcode_read((const uint8_t *)s, n, tokens, token_places, actions, places, operands, places, levels, places, labels, places, out);
}

static uint64_t export_into(const char *s, size_t bytes, bool as_printed)
{
    return pcode_export((const uint8_t *)s, strlen(s), tokens, PLACES, actions, PLACES, operands, PLACES, levels, PLACES, labels, PLACES,
                        as_printed, movie, bytes, told);
}

/* The first token of a text. */
static void first(const char *s, uint64_t token[5])
{
    pcode_lex((const uint8_t *)s, strlen(s), tokens, PLACES, out);
    pcode_token(tokens[0], token);
}

/* So many blocks within one another. */
static uint64_t nest(int depth)
{
    size_t n = 0;
    for (int i = 0; i < depth; i++, n += 5)
        memcpy(text + n, "With{", 5);
    for (int i = 0; i < depth; i++, n += 2)
        memcpy(text + n, "}\n", 2);
    return read_into(text, n, PLACES, PLACES);
}

static void check_tokens(void)
{
    uint64_t token[5], value[4];
    int32_t integer[1];
    for (size_t i = 0; i < sizeof kinds / sizeof *kinds; i++) {
        first(kinds[i].text, token);
        same(kinds[i].text, PCODE_KIND(token[0]), kinds[i].kind);
        same("what it carries", PCODE_CARRIED(token[0]), kinds[i].carried);
    }
    for (size_t i = 0; i < sizeof values / sizeof *values; i++) {
        first(values[i].text, token);
        pcode_value((const uint8_t *)values[i].text, strlen(values[i].text), token[0], token[3], token[4], integer, value);
        same(values[i].text, value[0], values[i].value);
    }
    same("no value", pcode_value((const uint8_t *)",", 1, PCODE_KIND_COMMA * 65536, 0, 1, integer, value), PCODE_REFUSED_NO_VALUE);
}

static void check_refusals(void)
{
    int32_t delta[1];
    memset(text, ' ', PLACES);
    same("the longest text", read_into(text, PCODE_MOST_BYTES, PLACES, PLACES), 0);
    same("a longer one", read_into(text, PCODE_MOST_BYTES + 1, PLACES, PLACES), PCODE_REFUSED_TOO_LONG);
    for (size_t i = 0; i < sizeof refusals / sizeof *refusals; i++)
        same(refusals[i].text, read_into(refusals[i].text, strlen(refusals[i].text), PLACES, PLACES), refusals[i].refusal);
    same("no token table", read_into("Add", 3, 0, PLACES), PCODE_REFUSED_TOKEN_TABLE_SHORT);
    same("no other table", read_into("Add", 3, PLACES, 0), PCODE_REFUSED_TABLE_SHORT);
    same("the deepest blocks", nest(PCODE_MOST_BLOCKS), 0);
    same("deeper ones", nest(PCODE_MOST_BLOCKS + 1), PCODE_REFUSED_TOO_DEEP);
    same("CallFunction", pcode_delta(11, 0, false, delta), PCODE_REFUSED_UNDETERMINED);
}

static void check_levels(void)
{
    static const char s[] = "CallFunction\nWith{}\nTry \"t\"{}\ncatch{}\nfinally{}\n";
    static const uint64_t blocks[] = {PCODE_BLOCK_TOP, PCODE_BLOCK_BODY, PCODE_BLOCK_TRY, PCODE_BLOCK_CATCH, PCODE_BLOCK_FINALLY};
    uint64_t level[6];
    int64_t height[1];
    same("five levels", read_into(s, strlen(s), PLACES, 5 * PCODE_LEVEL_WORDS), 0);
    for (size_t i = 0; i < 5; i++) {
        pcode_level(levels + PCODE_LEVEL_WORDS * i, level, height);
        same("a level's block", level[0], blocks[i]);
        same("its net", level[3], i == 0 ? PCODE_NET_UNDETERMINED : PCODE_NET_HEIGHT);
        same("its unclosed strings", level[5], 0);
    }
    same("a word too few", read_into(s, strlen(s), PLACES, 5 * PCODE_LEVEL_WORDS - 1), PCODE_REFUSED_TABLE_SHORT);
    same("for the levels", out[0], 2);
}

/* Strings without their closing quote: two in the body, one in the top level. */
static void check_unclosed(void)
{
    static const char s[] = "With{\nPush \"a\", \"b\nGotoLabel \"cd\n}\nPush 1, \"e\\\"\n";
    static const uint64_t flags[] = {0, 1, 1, 0, 1}, counts[] = {1, 2};
    uint64_t operand[3], level[6];
    int64_t height[1];
    same("unclosed strings", read_into(s, strlen(s), PLACES, PLACES), 0);
    same("operands", out[2], 5);
    for (size_t i = 0; i < 5; i++) {
        pcode_operand(operands[i], operand);
        same("an operand's flag", operand[2], flags[i]);
    }
    for (size_t i = 0; i < 2; i++) {
        pcode_level(levels + PCODE_LEVEL_WORDS * i, level, height);
        same("a level's unclosed strings", level[5], counts[i]);
    }
}

/* GetUrl2 is the one action whose bytes go by as_printed: LoadVariables, and method 1. */
static void check_export(void)
{
    static const char url[] = "GetUrl2 true, false, 1";
    same("the most bytes of a movie", PCODE_MOST_MOVIE, 10 * (uint64_t)PCODE_MOST_BYTES);
    same("a jump to nowhere", export_into("Jump a", PCODE_MOST_MOVIE, false), PCODE_REFUSED_NO_LABEL);
    same("a long number", export_into("Add\nPush 9007199254740993", PCODE_MOST_MOVIE, false), PCODE_REFUSED_UNCODABLE);
    same("its action", told[0], 1);
    same("too few bytes", export_into(url, 3, false), PCODE_REFUSED_OUTPUT_SHORT);
    same("the bytes needed", told[0], 4);
    same("as many", export_into(url, 4, false), 0);
    same("the operands", told[2], 3);
    same("the bytes written", told[5], 4);
    same("the bits as players have them", movie[3], 0x81);
    same("and as printed", export_into(url, 4, true) + movie[3], 0x41);
}

static void check_names(void)
{
    uint8_t name[PCODE_MOST_NAME + 1];
    size_t longest = 0;
    for (size_t action = 0; action < 100; action++) {
        size_t length = pcode_action_name(action, name, sizeof name);
        longest = length > longest ? length : longest;
    }
    same("the longest name", longest, PCODE_MOST_NAME);
}

int main(void)
{
    check_tokens();
    check_refusals();
    check_levels();
    check_unclosed();
    check_export();
    check_names();
    return wrong;
}
