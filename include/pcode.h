/* The p-code reader for C. Link libpcode_c.a (`scripts/staticlib`) and the C library, nothing else.
 *
 *     size_t n = text_len + 2;     // tables of as many words hold any reading of the text
 *     uint64_t out[5], label[3], token[5];
 *     uint64_t refusal = pcode_read(text, text_len, tokens, n, actions, n, operands, n, levels, n, labels, n, out);
 *     if (refusal != 0)
 *         printf("refused %llu at %llu\n", (unsigned long long)refusal, (unsigned long long)out[0]);
 *     else
 *         for (uint64_t i = 0; i < out[4]; i++) {
 *             pcode_label(labels[i], label);           // its level, token and position
 *             pcode_token(tokens[label[1]], token);    // its name: the bytes of the text from token[3] up to token[4]
 *         }
 *
 * Whole programs are examples/labels.c and, for a movie's bytes, examples/export.c. The words are those of document 01
 * (docs/01-scope.md); all numbering starts at 0, but that of lines and columns at 1.
 *
 * What is asked of the caller: each pointer points to as many elements as the length beside it or the size in its brackets says and is
 * not NULL, even where that length is 0; it is aligned as its type asks, a uint64_t or int64_t to 8 bytes, an int32_t to 4; what is
 * written through a pointer overlaps nothing else that is passed. Any bytes, lengths, words and numbers are answered.
 *
 * What a call does: it writes what is told here and nothing else. It keeps no pointer, has no state and allocates nothing, so threads
 * may call at the same time with tables and out of their own. Its stack depends on the length of the text: the constants PCODE_.._STACK,
 * in bytes. The worst text found takes 1,836,288 of pcode_read and 3,671,888 of pcode_export, so give a thread that calls them 6,291,456
 * (PCODE_THREAD_STACK). A main thread usually has 8,388,608.
 *
 * A call that can refuse returns 0, or the number of the refusal. A refusal changes no table and no output. Its place goes to out[0] of
 * pcode_lex and pcode_read, the rest of out staying as it was, and to told[0] of pcode_export likewise; pcode_delta and pcode_value then
 * write nothing.
 *   1  a text over 65,536 bytes, or a value count over 65,536 given to pcode_delta; place 0
 *   2  not UTF-8 as Rust's str requires; the place is the count of leading valid bytes
 *   3  an opening quote directly before a line feed or the end; the place is the quote's byte
 *   4  an unclosed string whose last character is over one byte; the place is the quote's byte
 *   5  a token table with too few places; the place is the number of tokens
 *   6  reading: not in the grammar; the place is the first token that no grammatical list has after those before it, or the
 *      number of tokens where the text merely ends early. pcode_value: a token without a value; place 0
 *   7  a block opens while 64 are open; the place is the token of its brace
 *   8  another table with too few places; the place is 0 for actions, 1 operands, 2 levels, 3 labels: the lowest that is too short
 *   9  an action whose delta is undetermined; place 0
 *  10  an If or Jump whose label is not in its level; the place is the number of that action
 *  11  an action that cannot be coded: a number that is a long (pcode_value), a zero byte in a string, a GetUrl2 method above 3, operands
 *      or a body of over 65,535 bytes, or a jump over 32,767 bytes ahead or 32,768 back; the place is the number of that action
 *  12  an output with too few bytes; the place is how many are needed
 * They are tried in this order, but of 3 and 4, of 6 and 7, and of 10 and 11 the earlier place wins; how long a body is and how far a
 * jump goes is asked only where no action has another fault. pcode_lex gives 1 to 5, pcode_read 1 to 8, pcode_export 1 to 8 and 10 to 12,
 * pcode_delta 1 and 9, pcode_value 1 and 6.
 *
 * So the place of 2, 3 and 4 is a byte of the text, and that of 6 and 7 an entry of the token table, which pcode_read left as it was.
 * pcode_lex gives the tokens, and they the byte; a place that is their number is the text's end:
 *
 *     pcode_lex(text, text_len, tokens, n, count);                        // 0: what is refused with 6 or 7 can be lexed
 *     if (out[0] < count[0]) pcode_token(tokens[out[0]], token); else token[1] = text_len;
 *     pcode_line_column(text, text_len, (size_t)token[1], place);         // place[0] is the line, place[1] the column
 *
 * The place of 10 and 11 is an action: its name is the token of the kind PCODE_KIND_ACTION_NAME that has as many of that kind before it.
 * About 10 the author of the patch writes the label into the block that the jump stands in, since no jump leaves its block. About 11 the
 * author writes a number with fewer digits, makes two of a Push or of a body, or jumps by way of another label. About 12 the caller lends
 * as many bytes as the place says.
 *
 * What is returned and written is proved, for every argument: the contracts in crates/pcode_c/src/lib.rt, over the definitions of
 * crates/c_tokens/specs, crates/c_entries/specs and crates/c_export/specs. Stack and time are not.
 */
#ifndef PCODE_H
#define PCODE_H

#include <stdbool.h>
#include <stddef.h>
#include <stdint.h>

#ifdef __cplusplus
extern "C" {
#endif

/* ---- constants */

#define PCODE_VERSION "2.1"
#define PCODE_VERSION_MAJOR 2
#define PCODE_VERSION_MINOR 1

#define PCODE_MOST_BYTES 65536  /* of a text: a longer one is refused */
#define PCODE_MOST_MOVIE 655360 /* bytes that a text exports to */
#define PCODE_MOST_BLOCKS 64    /* that may be open at once */
#define PCODE_MOST_NAME 15      /* bytes of an action's name */
#define PCODE_LEVEL_WORDS 2     /* of a level in its table; each other entry has one word */

/* Bytes of stack, measured for the worst texts that were found, and some ten percent more; compare/stack holds the calls to them. The
 * number behind a name is the length of text, in bytes, up to which it holds; without one it holds for any text. */
#define PCODE_READ_STACK_4096 182000
#define PCODE_READ_STACK_16384 1155000
#define PCODE_READ_STACK 2020000
#define PCODE_EXPORT_STACK_1024 160000
#define PCODE_EXPORT_STACK_4096 309000
#define PCODE_EXPORT_STACK 4040000
#define PCODE_LEX_STACK_1024 9400
#define PCODE_LEX_STACK_4096 72500
#define PCODE_LEX_STACK 590000
#define PCODE_OTHER_STACK 1900
#define PCODE_THREAD_STACK 6291456 /* for a thread that makes any of these calls: the most of them, and room for its own */

/* The kinds of tokens, and the parts of a kind's number (out[0] of pcode_token). */
#define PCODE_KIND(number) ((number) / 65536)    /* one of PCODE_KIND_NEWLINE to PCODE_KIND_UNKNOWN */
#define PCODE_CARRIED(number) ((number) % 65536) /* register, constant or number of the action; 1 of an unclosed string; else 0 */
enum {
    PCODE_KIND_NEWLINE = 0,
    PCODE_KIND_STRING = 1,
    PCODE_KIND_FLOAT = 2,
    PCODE_KIND_INTEGER = 3,
    PCODE_KIND_REGISTER = 4,
    PCODE_KIND_CONSTANT = 5,
    PCODE_KIND_ACTION_NAME = 6,
    PCODE_KIND_IDENTIFIER = 7,
    PCODE_KIND_COLON = 8,
    PCODE_KIND_COMMA = 9,
    PCODE_KIND_OPEN_BRACE = 10,
    PCODE_KIND_CLOSE_BRACE = 11,
    PCODE_KIND_TRUE = 12,
    PCODE_KIND_FALSE = 13,
    PCODE_KIND_NULL = 14,
    PCODE_KIND_UNDEFINED = 15,
    PCODE_KIND_CATCH = 16,
    PCODE_KIND_FINALLY = 17,
    PCODE_KIND_UNKNOWN = 18
};

/* The refusals, as listed above. */
enum {
    PCODE_REFUSED_TOO_LONG = 1,
    PCODE_REFUSED_NOT_UTF8 = 2,
    PCODE_REFUSED_LONE_QUOTE = 3,
    PCODE_REFUSED_CUT_CHARACTER = 4,
    PCODE_REFUSED_TOKEN_TABLE_SHORT = 5,
    PCODE_REFUSED_NOT_GRAMMATICAL = 6, /* of pcode_read */
    PCODE_REFUSED_NO_VALUE = 6,        /* of pcode_value */
    PCODE_REFUSED_TOO_DEEP = 7,
    PCODE_REFUSED_TABLE_SHORT = 8,
    PCODE_REFUSED_UNDETERMINED = 9,
    PCODE_REFUSED_NO_LABEL = 10,
    PCODE_REFUSED_UNCODABLE = 11,
    PCODE_REFUSED_OUTPUT_SHORT = 12
};

/* The cases of a value (out[0] of pcode_value). */
enum {
    PCODE_VALUE_NULL = 0,
    PCODE_VALUE_UNDEFINED = 1,
    PCODE_VALUE_STRING = 2,
    PCODE_VALUE_INTEGER = 3,
    PCODE_VALUE_FLOAT = 4,
    PCODE_VALUE_TRUE = 5,
    PCODE_VALUE_FALSE = 6,
    PCODE_VALUE_REGISTER = 7,
    PCODE_VALUE_CONSTANT = 8,
    PCODE_VALUE_LONG = 9
};

/* Which block a level is, and whether its net is a height (out[0] and out[3] of pcode_level). */
enum {
    PCODE_BLOCK_TOP = 0,
    PCODE_BLOCK_BODY = 1,
    PCODE_BLOCK_TRY = 2,
    PCODE_BLOCK_CATCH = 3,
    PCODE_BLOCK_FINALLY = 4
};
enum {
    PCODE_NET_HEIGHT = 0,
    PCODE_NET_UNDETERMINED = 1
};

/* ---- a text into tables, a 64-bit word for each entry, two for a level */

/* Lexing alone: all tokens of a text at the front of the table; what stands behind them stays. out[0]: their number, at most text_len, so
 * that a table of text_len places is never too short. */
uint64_t pcode_lex(const uint8_t *text, size_t text_len, uint64_t *table, size_t table_len, uint64_t out[1]);

/* Reading: the tokens, actions, operands, levels and labels of a text at the front of the lent tables; what stands behind them stays.
 * out[0] to out[4]: how many of each there are. Never too short are text_len places for tokens and text_len / 2 + 1 for each other table.
 * Level k takes words 2 k and 2 k + 1 of its table, so that a level table has half as many places as words; a last word alone is none.
 *   tokens    in the order of the text, as pcode_lex gives them
 *   actions   as written, an outer action before its body
 *   operands  by action, then as written: its string, value, number, bool, register and label tokens outside its blocks, one each; a
 *             function's count too; not the target of a Try without a catch block
 *   levels    as their brace opens; level 0 is the top level, which is always there
 *   labels    by level, then as first written; a label written again has one entry, with its new position */
uint64_t pcode_read(const uint8_t *text, size_t text_len, uint64_t *tokens, size_t tokens_len, uint64_t *actions,
                    size_t actions_len, uint64_t *operands, size_t operands_len, uint64_t *levels, size_t levels_len,
                    uint64_t *labels, size_t labels_len, uint64_t out[5]);

/* Export: the movie's own bytes of a text, SWF19's action records, at the front of out; what stands behind them stays. The tables are
 * filled as by pcode_read. told[0] to told[4]: its counts. told[5]: how many bytes were written, at most ten for each byte of the text, so
 * that an output of 10 * text_len bytes is never too short, nor one of PCODE_MOST_MOVIE for any text.
 * No end record is added: whoever puts the bytes into a tag closes it with a zero byte, unless the last action is an End, which is one.
 * as_printed: the order of GetUrl2's bits. false, for a movie that is to be played: LoadVariables is 0x80, LoadTarget 0x40, and the method
 * has the two lowest bits. true: as SWF19 prints them, mirrored, LoadVariables 0x01, LoadTarget 0x02, and the method in the two highest;
 * players take them for something else. */
uint64_t pcode_export(const uint8_t *text, size_t text_len, uint64_t *tokens, size_t tokens_len, uint64_t *actions,
                      size_t actions_len, uint64_t *operands, size_t operands_len, uint64_t *levels, size_t levels_len,
                      uint64_t *labels, size_t labels_len, bool as_printed, uint8_t *out, size_t out_len, uint64_t told[6]);

/* ---- the entry of a table's word, a level's of its two. These refuse nothing: a word that no table held gives some entry, whose
 * numbers may lie anywhere.
 * The ranges are those of a word that pcode_read wrote; `tokens`, `actions`, .. stand for its counts. */

/* A token. out[0]: the number of its kind, 65,536 times the place in TokenKind (0 Newline, 1 String, 2 Float, 3 Integer, 4 Register,
 * 5 Constant, 6 ActionName, 7 Identifier, 8 Colon, 9 Comma, 10 OpenBrace, 11 CloseBrace, 12 True, 13 False, 14 Null, 15 Undefined,
 * 16 Catch, 17 Finally, 18 Unknown) plus what it carries: the register up to 255, the constant up to 65,535, the number of the action
 * up to 99, 1 for a string without its closing quote, else 0; PCODE_KIND and PCODE_CARRIED take it apart, and to ask for a string by
 * its number alone would miss the unclosed ones. out[1], out[2]: start and end of its span, start < end <= text_len.
 * out[3], out[4]: start and end of its raw text, a string's without its quotes (an unclosed one's without its last byte instead), any
 * other's the span; start <= end <= text_len. An end is the byte behind the last. */
void pcode_token(uint64_t word, uint64_t out[5]);

/* An action. out[0]: its number, 0 Add to 99 With in the order of ActionName (pcode_action_name). out[1]: its level, < levels. out[2]: its
 * first entry in the operand table. out[3]: how many operand entries it has, one after the other; out[2] + out[3] <= operands. */
void pcode_action(uint64_t word, uint64_t out[4]);

/* An operand. out[0]: its action, < actions. out[1]: its token, < tokens. out[2]: 1 where it is a string without its closing quote, whose
 * last byte is then lost, else 0. */
void pcode_operand(uint64_t word, uint64_t out[3]);

/* A level, of its two words: level k is pcode_level(levels + PCODE_LEVEL_WORDS * k, ..). out[0]: which block it is, 0 top, 1 body, 2 try,
 * 3 catch, 4 finally. out[1]: the action whose block it is, < actions; 0 for the top level. out[2]: how many actions it has, bodies not
 * counted. out[3]: 0 where its net is a height, 1 where it is undetermined. out[4]: its first action whose delta is undetermined,
 * < actions, else 0. out[5]: how many unclosed strings there are among the operands of its own actions, bodies not counted. height[0]: the
 * height, the sum of its own actions' deltas, -196,608 to 65,536; 0 where the net is undetermined. */
void pcode_level(const uint64_t words[2], uint64_t out[6], int64_t height[1]);

/* A label. out[0]: its level, < levels. out[1]: the token that first names it, < tokens. out[2]: the position it was given last: the number
 * of actions before it in its level, at most that level's action count. */
void pcode_label(uint64_t word, uint64_t out[3]);

/* ---- tokens and actions by themselves */

/* The raw text from start up to end (out[3] and out[4] of pcode_token), as bounds in the text: out[0], out[1] are start and end, or 0 and 0
 * where those are out of order or past the text. Refuses nothing. */
void pcode_raw_text(const uint8_t *text, size_t text_len, size_t start, size_t end, uint64_t out[2]);

/* What an action pushes less what it pops: out[0], from -3 to 65,536. The action is given by its number (pcode_action's out[0]); one that
 * no action has counts as 0. values: the value count of a Push (its operand count); only a Push makes use of it, but over 65,536 it is
 * refused with 1 for any action. name_is_empty: whether the raw text of the first operand is empty; only a DefineFunction and
 * a DefineFunction2 make use of it. 9 for CallFunction, CallMethod, ImplementsOp, InitArray, InitObject, NewMethod, StartDrag. */
uint64_t pcode_delta(size_t action, size_t values, bool name_is_empty, int32_t out[1]);

/* The name of an action, given by its number, as document 01 spells it: 0 Add to 99 With. Returns its length in bytes, 1 to 15, or 0 for a
 * number that no action has: asked for 0, 1, 2, .. until it returns 0, it gives all names. The name goes to the front of `name`, with no
 * zero byte behind it; what stands behind it stays. Where `name` has fewer places than that, nothing is written. */
size_t pcode_action_name(size_t action, uint8_t *name, size_t name_len);

/* The value of a token, given by the number of its kind (pcode_token's out[0]; for other numbers: 18 * 65,536 and above are an Unknown's;
 * below, what a kind does not carry is passed over, and a register is taken modulo 256) and the bounds of its raw text (out[3], out[4]).
 * out[0]: the case, 0 null, 1 undefined, 2 string, 3 integer, 4 double, 5 true, 6 false, 7 register, 8 constant, 9 long (a number that is
 * kept as it was typed): PCODE_VALUE_... integer[0]: the number of an integer, a register or a constant, else 0. out[1]: the IEEE 754 bits
 * of a double, those of nan always 0x7FF8000000000000, else 0. out[2], out[3]: the bounds of the raw text of a string or a long, else 0.
 * 6 where there is no value, and where the bounds are out of order or past the text, whatever the kind. */
uint64_t pcode_value(const uint8_t *text, size_t text_len, uint64_t kind, size_t start, size_t end, int32_t integer[1],
                     uint64_t out[4]);

/* ---- places */

/* Where a byte of a text stands. out[0]: its line, out[1]: its column, both from 1. A line ends with a line feed, a carriage return, or
 * a carriage return and a line feed; a column counts characters, not bytes. A place past the end is taken as the end. Refuses nothing: the
 * text may have any length and need not be UTF-8 (what counts as a character is each byte but those from 128 to 191). */
void pcode_line_column(const uint8_t *text, size_t text_len, size_t at, uint64_t out[2]);

#ifdef __cplusplus
}
#endif

#endif
