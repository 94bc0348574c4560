/*
 * Vireopatch: reads MOS assembly source into flat tables.
 *
 * C99. Link libvireopatch.a, which `rt lib --cpu=x86-64` in crates/vireopatch writes; it wants memset and nothing else. The functions are written in Rattle, and
 * each is proved to meet its contract (crates/vireopatch/src/lib.rt). The gate compares the constants here with the crates', and runs the
 * examples; nothing proves a declaration.
 *
 * Of every call
 *
 * Result. A call returns 0 for an answer, or the number of a refusal (VIREOPATCH_TOO_LONG and so on). It sets every number behind its
 * pointers, refused or not; what stood there before is not read.
 *
 * Pointers. None may be null, not even one whose length is 0: that one need only be aligned. A text is read at its first LEN bytes, a table is
 * read and written at its first LEN words, and nothing else is touched. A word is a uint32_t, of 4 bytes; the table `roots` alone has words of
 * type size_t. Tables and numbers have the alignment of their C type. What a call writes (tables, numbers) may not overlap anything else that
 * is handed to the same call. No pointer is kept. A length in bytes is at most PTRDIFF_MAX.
 *
 * A bool is C's _Bool: one byte, 0 or 1.
 *
 * Threads. There is no global state, no allocation, no input or output. Any number of threads may call at once, each with tables of its own;
 * they may share a text that nobody writes.
 *
 * Stack. The level limit is at most 64, which bounds the recursion. library/README.md has measurements.
 */
#ifndef VIREOPATCH_H
#define VIREOPATCH_H

#include <stdbool.h>
#include <stddef.h>
#include <stdint.h>

#ifdef __cplusplus
extern "C" {
#endif

/* Refusals: what a call returns where it gives no answer. `*given` is then the number said here; it is 0 for an answer. */
enum {
    VIREOPATCH_ANSWERED              = 0,
    VIREOPATCH_TOO_LONG              = 1,   /* the text has over VIREOPATCH_MAX_TEXT bytes; gives its length */
    VIREOPATCH_HIGH_BYTE             = 2,   /* a byte of 128 or more; gives the first such place */
    VIREOPATCH_SCOPE_TOO_LARGE       = 3,   /* the starting scope number is over VIREOPATCH_MAX_SCOPE; gives it */
    VIREOPATCH_LEVEL_TOO_LARGE       = 4,   /* the level limit is over VIREOPATCH_MAX_LEVEL; gives it */
    VIREOPATCH_TOO_DEEP              = 5,   /* some attempt goes to a level above the limit; gives the limit */
    VIREOPATCH_NO_ROOM_FOR_ROWS      = 6,   /* gives the number of rows needed; in vireopatch_text_words, of top rows */
    VIREOPATCH_NO_ROOM_FOR_ERRORS    = 7,   /* gives the number of errors needed */
    VIREOPATCH_NO_ROOM_FOR_REQUESTS  = 8,   /* gives the number of requests needed */
    VIREOPATCH_VALUE_TOO_LARGE       = 9,   /* a number above VIREOPATCH_MAX_VALUE */
    VIREOPATCH_NOT_A_NUMBER          = 10,  /* anything but `true`, `false` (any letter case) or one or more digits of the base; any text, if the type is none */
    VIREOPATCH_NO_ITEM               = 11,  /* gives the first place that starts no item of trivia */
    VIREOPATCH_NO_ROOM_FOR_ITEMS     = 12,  /* gives the number of items needed */
    VIREOPATCH_NO_SUBTREE            = 13,  /* gives the count at which none ends */
    VIREOPATCH_TOO_MANY_TEXTS        = 27,  /* over VIREOPATCH_MAX_TEXTS texts; gives their number */
    VIREOPATCH_WRONG_TEXT            = 28   /* trivia above the length, or a length over VIREOPATCH_MAX_TEXT; gives the first such index */
};

/* Limits of the arguments. */
#define VIREOPATCH_MAX_TEXT  65536u
#define VIREOPATCH_MAX_SCOPE 1000000u
#define VIREOPATCH_MAX_LEVEL 64u
#define VIREOPATCH_MAX_VALUE UINT64_C(9223372036854775807)
#define VIREOPATCH_MAX_TEXTS 1000u

/*
 * The words of a row, and how many there are. Rows stand children first, in the order of the text, then the parent. Trivia (blanks, line
 * ends, comments) is tlow to low, equal if there is none; the body is low to high. Places are byte offsets in the text. The line is 1 plus the
 * LF bytes of the text before low, those of the row's trivia too; a CR counts nothing.
 */
enum {
    VIREOPATCH_ROW_KIND   = 0,  /* VIREOPATCH_KIND_.. */
    VIREOPATCH_ROW_SIZE   = 1,  /* the rows of its subtree, itself included */
    VIREOPATCH_ROW_TLOW   = 2,
    VIREOPATCH_ROW_LOW    = 3,
    VIREOPATCH_ROW_HIGH   = 4,
    VIREOPATCH_ROW_DETAIL = 5,  /* what the kind says; 0 for a kind that says nothing */
    VIREOPATCH_ROW_LINE   = 6,  /* the line that its body begins on, counted from 1 */
    VIREOPATCH_ROW_WORDS  = 7
};

/* The words of an error. */
enum {
    VIREOPATCH_ERROR_CODE  = 0,  /* VIREOPATCH_CODE_.. */
    VIREOPATCH_ERROR_LOW   = 1,
    VIREOPATCH_ERROR_HIGH  = 2,
    VIREOPATCH_ERROR_WORDS = 3
};

/* The words of an import request: from the file name's opening quote to its last piece, without the closing quote. */
enum {
    VIREOPATCH_REQUEST_LOW   = 0,
    VIREOPATCH_REQUEST_HIGH  = 1,
    VIREOPATCH_REQUEST_WORDS = 2
};

/* The words of an item of trivia. */
enum {
    VIREOPATCH_ITEM_KIND  = 0,  /* VIREOPATCH_TRIVIA_.. */
    VIREOPATCH_ITEM_LOW   = 1,
    VIREOPATCH_ITEM_HIGH  = 2,
    VIREOPATCH_ITEM_WORDS = 3
};

/* The words of a text in a list of shares. */
enum {
    VIREOPATCH_TEXT_TRIVIA = 0,  /* the trivia bytes of its top rows */
    VIREOPATCH_TEXT_LENGTH = 1,
    VIREOPATCH_TEXT_WORDS  = 2
};

/*
 * Words that are enough for every text of N bytes: it has at most 4N + 1 rows, N + 1 errors and N requests, and a run of N bytes at most N
 * items. Real texts have fewer rows; a refusal names the need.
 */
#define VIREOPATCH_ROWS_ENOUGH(n)     (((size_t)4 * (n) + 1) * VIREOPATCH_ROW_WORDS)
#define VIREOPATCH_ERRORS_ENOUGH(n)   (((size_t)(n) + 1) * VIREOPATCH_ERROR_WORDS)
#define VIREOPATCH_REQUESTS_ENOUGH(n) ((size_t)(n) * VIREOPATCH_REQUEST_WORDS)
#define VIREOPATCH_ITEMS_ENOUGH(n)    ((size_t)(n) * VIREOPATCH_ITEM_WORDS)

/* Codes of errors. 3, 4 and 5 sit at the empty place where the wanted part would begin, before trivia; 1 at the end of the text. */
enum {
    VIREOPATCH_CODE_UNTERMINATED_COMMENT = 1,
    VIREOPATCH_CODE_UNEXPECTED_TEXT      = 2,  /* the body of an error row */
    VIREOPATCH_CODE_EXPECTED_EXPRESSION  = 3,
    VIREOPATCH_CODE_CONFIGURATION_OBJECT = 4,
    VIREOPATCH_CODE_CLOSING_DELIMITER    = 5
};

/* Kinds of rows. 1 to 24 are statements and other tokens. The detail is 0 where none is named. */
enum {
    VIREOPATCH_KIND_ALIGN                      = 1,  /* `.align` */
    VIREOPATCH_KIND_ASSERT                     = 2,  /* `.assert` */
    VIREOPATCH_KIND_BRACES                     = 3,  /* a block as a statement (detail: scope number) */
    VIREOPATCH_KIND_CONFIG                     = 4,  /* a config map */
    VIREOPATCH_KIND_CONFIG_PAIR                = 5,  /* `key = value` in a config map */
    VIREOPATCH_KIND_DATA                       = 6,  /* `.byte`, `.word`, `.dword` */
    VIREOPATCH_KIND_DEFINITION                 = 7,  /* `.define` */
    VIREOPATCH_KIND_EOF                        = 8,  /* the end of the text; its body is what no statement took */
    VIREOPATCH_KIND_ERROR                      = 9,  /* text that no statement took */
    VIREOPATCH_KIND_EXPRESSION                 = 10, /* an expression as a config value */
    VIREOPATCH_KIND_IF                         = 11, /* `.if` */
    VIREOPATCH_KIND_IMPORT                     = 12, /* `.import` (detail: scope number) */
    VIREOPATCH_KIND_FILE                       = 13, /* `.file` */
    VIREOPATCH_KIND_INSTRUCTION                = 14, /* a mnemonic, with or without an operand */
    VIREOPATCH_KIND_LABEL                      = 15, /* `name:`, with or without a block */
    VIREOPATCH_KIND_LOOP                       = 16, /* `.loop` (detail: scope number) */
    VIREOPATCH_KIND_MACRO_DEFINITION           = 17, /* `.macro` */
    VIREOPATCH_KIND_MACRO_INVOCATION           = 18, /* a macro call as a statement */
    VIREOPATCH_KIND_PROGRAM_COUNTER_DEFINITION = 19, /* `* = expression` */
    VIREOPATCH_KIND_SEGMENT                    = 20, /* `.segment` */
    VIREOPATCH_KIND_TEST                       = 21, /* `.test` */
    VIREOPATCH_KIND_TEXT                       = 22, /* `.text` */
    VIREOPATCH_KIND_TRACE                      = 23, /* `.trace` */
    VIREOPATCH_KIND_VARIABLE_DEFINITION        = 24, /* `.var`, `.const` */
    VIREOPATCH_KIND_BLOCK                      = 30, /* braces and what stands in them */
    VIREOPATCH_KIND_OPERAND                    = 31, /* an operand (detail: VIREOPATCH_MODE_..) */
    VIREOPATCH_KIND_STRING                     = 32, /* a string with its pieces and paths */
    VIREOPATCH_KIND_BINARY                     = 33, /* an expression of two and an operator */
    VIREOPATCH_KIND_FACTOR                     = 34, /* a factor (detail: VIREOPATCH_FACTOR_.., added) */
    VIREOPATCH_KIND_CURRENT_PC                 = 35, /* `*` as a factor */
    VIREOPATCH_KIND_PARENS                     = 36, /* an expression in parentheses */
    VIREOPATCH_KIND_CALL                       = 37, /* a call in an expression */
    VIREOPATCH_KIND_IDENTIFIER                 = 38, /* a path as a factor */
    VIREOPATCH_KIND_NUMBER                     = 39, /* a number: its type (49) and its text (50) */
    VIREOPATCH_KIND_STRING_FACTOR              = 40, /* a string as a factor */
    VIREOPATCH_KIND_CHAR                       = 41, /* a character (detail: its byte) */
    VIREOPATCH_KIND_WORD                       = 42, /* a directive, `else`, `from`, `as`, a config key */
    VIREOPATCH_KIND_NAME                       = 43, /* a name */
    VIREOPATCH_KIND_PATH                       = 44, /* names joined by `.` */
    VIREOPATCH_KIND_PIECE                      = 45, /* a piece of a string */
    VIREOPATCH_KIND_MNEMONIC                   = 46, /* a mnemonic (detail: VIREOPATCH_MNEMONIC_..) */
    VIREOPATCH_KIND_REGISTER                   = 47, /* a register (detail: VIREOPATCH_REGISTER_..) */
    VIREOPATCH_KIND_OPERATOR                   = 48, /* an operator (detail: VIREOPATCH_OPERATOR_..) */
    VIREOPATCH_KIND_NUMBER_TYPE                = 49, /* a number's type (detail: VIREOPATCH_NUMBER_..); empty for a decimal */
    VIREOPATCH_KIND_NUMBER_TEXT                = 50, /* a number's text, for vireopatch_value */
    VIREOPATCH_KIND_MODIFIER                   = 51, /* `>` or `<` before a path (detail: VIREOPATCH_MODIFIER_..) */
    VIREOPATCH_KIND_DATA_SIZE                  = 52, /* the word of a data statement (detail: VIREOPATCH_DATA_..) */
    VIREOPATCH_KIND_VARIABLE_TYPE              = 53, /* `.const` or `.var` (detail: VIREOPATCH_VARIABLE_..) */
    VIREOPATCH_KIND_ENCODING                   = 54, /* a text's encoding (detail: VIREOPATCH_ENCODING_..) */
    VIREOPATCH_KIND_IMPORT_ARGUMENT            = 55, /* a path of an import, with or without `as` and another */
    VIREOPATCH_KIND_CONFIG_VALUE               = 56  /* the value of a config pair */
};

/* Details of a kind. Each counts from 1. */

/* 31, an operand's addressing mode. 3 (implied) never comes: such an instruction has no operand. */
enum {
    VIREOPATCH_MODE_ABSOLUTE_OR_ZP = 1,  /* `1`, `1,x` */
    VIREOPATCH_MODE_IMMEDIATE      = 2,  /* `#1` */
    VIREOPATCH_MODE_IMPLIED        = 3,
    VIREOPATCH_MODE_INDIRECT       = 4,  /* `(1,x)` */
    VIREOPATCH_MODE_OUTER_INDIRECT = 5   /* `(1)`, `(1),y` */
};

/* 34, the marks before a factor: 1, 2, or 3 for both. */
enum {
    VIREOPATCH_FACTOR_NOT      = 1,  /* `!` */
    VIREOPATCH_FACTOR_NEGATIVE = 2   /* `-` */
};

/* 46, mnemonics. */
enum {
    VIREOPATCH_MNEMONIC_ADC = 1, VIREOPATCH_MNEMONIC_AND = 2, VIREOPATCH_MNEMONIC_ASL = 3, VIREOPATCH_MNEMONIC_BCC = 4,
    VIREOPATCH_MNEMONIC_BCS = 5, VIREOPATCH_MNEMONIC_BEQ = 6, VIREOPATCH_MNEMONIC_BIT = 7, VIREOPATCH_MNEMONIC_BMI = 8,
    VIREOPATCH_MNEMONIC_BNE = 9, VIREOPATCH_MNEMONIC_BPL = 10, VIREOPATCH_MNEMONIC_BRK = 11, VIREOPATCH_MNEMONIC_BVC = 12,
    VIREOPATCH_MNEMONIC_BVS = 13, VIREOPATCH_MNEMONIC_CLC = 14, VIREOPATCH_MNEMONIC_CLD = 15, VIREOPATCH_MNEMONIC_CLI = 16,
    VIREOPATCH_MNEMONIC_CLV = 17, VIREOPATCH_MNEMONIC_CMP = 18, VIREOPATCH_MNEMONIC_CPX = 19, VIREOPATCH_MNEMONIC_CPY = 20,
    VIREOPATCH_MNEMONIC_DEC = 21, VIREOPATCH_MNEMONIC_DEX = 22, VIREOPATCH_MNEMONIC_DEY = 23, VIREOPATCH_MNEMONIC_EOR = 24,
    VIREOPATCH_MNEMONIC_INC = 25, VIREOPATCH_MNEMONIC_INX = 26, VIREOPATCH_MNEMONIC_INY = 27, VIREOPATCH_MNEMONIC_JMP = 28,
    VIREOPATCH_MNEMONIC_JSR = 29, VIREOPATCH_MNEMONIC_LDA = 30, VIREOPATCH_MNEMONIC_LDX = 31, VIREOPATCH_MNEMONIC_LDY = 32,
    VIREOPATCH_MNEMONIC_LSR = 33, VIREOPATCH_MNEMONIC_NOP = 34, VIREOPATCH_MNEMONIC_ORA = 35, VIREOPATCH_MNEMONIC_PHA = 36,
    VIREOPATCH_MNEMONIC_PHP = 37, VIREOPATCH_MNEMONIC_PLA = 38, VIREOPATCH_MNEMONIC_PLP = 39, VIREOPATCH_MNEMONIC_ROL = 40,
    VIREOPATCH_MNEMONIC_ROR = 41, VIREOPATCH_MNEMONIC_RTI = 42, VIREOPATCH_MNEMONIC_RTS = 43, VIREOPATCH_MNEMONIC_SBC = 44,
    VIREOPATCH_MNEMONIC_SEC = 45, VIREOPATCH_MNEMONIC_SED = 46, VIREOPATCH_MNEMONIC_SEI = 47, VIREOPATCH_MNEMONIC_STA = 48,
    VIREOPATCH_MNEMONIC_STX = 49, VIREOPATCH_MNEMONIC_STY = 50, VIREOPATCH_MNEMONIC_TAX = 51, VIREOPATCH_MNEMONIC_TAY = 52,
    VIREOPATCH_MNEMONIC_TSX = 53, VIREOPATCH_MNEMONIC_TXA = 54, VIREOPATCH_MNEMONIC_TXS = 55, VIREOPATCH_MNEMONIC_TYA = 56
};

/* 47, registers. */
enum {
    VIREOPATCH_REGISTER_X = 1,
    VIREOPATCH_REGISTER_Y = 2
};

/* 48, operators. */
enum {
    VIREOPATCH_OPERATOR_ADD   = 1,  /* `+` */
    VIREOPATCH_OPERATOR_SUB   = 2,  /* `-` */
    VIREOPATCH_OPERATOR_MUL   = 3,  /* `*` */
    VIREOPATCH_OPERATOR_DIV   = 4,  /* `/` */
    VIREOPATCH_OPERATOR_MOD   = 5,  /* `%` */
    VIREOPATCH_OPERATOR_SHL   = 6,  /* `<<` */
    VIREOPATCH_OPERATOR_SHR   = 7,  /* `>>` */
    VIREOPATCH_OPERATOR_XOR   = 8,  /* `^` */
    VIREOPATCH_OPERATOR_EQ    = 9,  /* `==` */
    VIREOPATCH_OPERATOR_NE    = 10, /* `!=` */
    VIREOPATCH_OPERATOR_GT    = 11, /* `>` */
    VIREOPATCH_OPERATOR_GT_EQ = 12, /* `>=` */
    VIREOPATCH_OPERATOR_LT    = 13, /* `<` */
    VIREOPATCH_OPERATOR_LT_EQ = 14, /* `<=` */
    VIREOPATCH_OPERATOR_AND   = 15, /* `&&` */
    VIREOPATCH_OPERATOR_OR    = 16  /* `||` */
};

/* 49, number types. */
enum {
    VIREOPATCH_NUMBER_HEX = 1,  /* `$` */
    VIREOPATCH_NUMBER_DEC = 2,  /* no mark; `true` and `false` too, in any letter case */
    VIREOPATCH_NUMBER_BIN = 3   /* `%` */
};

/* 51, address modifiers. */
enum {
    VIREOPATCH_MODIFIER_HIGH_BYTE = 1,  /* `>` */
    VIREOPATCH_MODIFIER_LOW_BYTE  = 2   /* `<` */
};

/* 52, data sizes. */
enum {
    VIREOPATCH_DATA_BYTE  = 1,  /* `.byte` */
    VIREOPATCH_DATA_WORD  = 2,  /* `.word` */
    VIREOPATCH_DATA_DWORD = 3   /* `.dword` */
};

/* 53, variable types. */
enum {
    VIREOPATCH_VARIABLE_CONSTANT = 1,  /* `.const` */
    VIREOPATCH_VARIABLE_VARIABLE = 2   /* `.var` */
};

/* 54, encodings. 4 (unspecified) never comes: such a text has no row 54. */
enum {
    VIREOPATCH_ENCODING_ASCII       = 1,
    VIREOPATCH_ENCODING_PETSCII     = 2,
    VIREOPATCH_ENCODING_PETSCREEN   = 3,
    VIREOPATCH_ENCODING_UNSPECIFIED = 4
};

/* Kinds of items of trivia. */
enum {
    VIREOPATCH_TRIVIA_WHITESPACE    = 1,  /* blanks and tabs */
    VIREOPATCH_TRIVIA_NEWLINE       = 2,  /* LF or CRLF */
    VIREOPATCH_TRIVIA_BLOCK_COMMENT = 3,  /* block comments nest */
    VIREOPATCH_TRIVIA_LINE_COMMENT  = 4,  /* without its line end */
    VIREOPATCH_TRIVIA_UNTERMINATED  = 5   /* a block comment that runs to the end of the text */
};

/*
 * Reads a text.
 *
 * text, text_len    the text; bytes under 128
 * scope             the starting state: the last scope number that was given, 0 for a first text, at most VIREOPATCH_MAX_SCOPE
 * swallow           the starting state: whether the next report is lost; false for a first text
 * level             the level limit, at most VIREOPATCH_MAX_LEVEL. The level is 0 at the start and one more inside each brace of a block or
 *                   config map and each parenthesis of an expression, call or operand, in every attempt to read
 * rows, rows_len    a table for rows, rows_len words; its room is rows_len / VIREOPATCH_ROW_WORDS, rounded down
 * errors, errors_len      the same for errors
 * requests, requests_len  the same for import requests, which stand in the order in which the imports are finished
 * row_count, error_count, request_count   set to the number of records of each kind; 0 for a refusal
 * end_scope, end_swallow  set to the state to read a next text from; the starting state for a refusal. (end_scope may be above
 *                   VIREOPATCH_MAX_SCOPE. A next call from it is refused.)
 * given             set to what the refusal gives; 0 for an answer
 *
 * Returns 0, or the first of these that applies: 1, 2, 3, 4, 5, 6, 7, 8.
 *
 * Tables afterwards. Answer: the records, and 0 in every word behind the last record. 1 to 4: as they were. 5 to 8: 0 in every word of all
 * three. Errors are no refusal: a text with mistakes is answered, with rows for what was read.
 */
uint32_t vireopatch_read(
    const uint8_t *text, size_t text_len,
    size_t scope, bool swallow, size_t level,
    uint32_t *rows, size_t rows_len,
    uint32_t *errors, size_t errors_len,
    uint32_t *requests, size_t requests_len,
    size_t *row_count, size_t *error_count, size_t *request_count,
    size_t *end_scope, bool *end_swallow,
    size_t *given);

/*
 * The value of a number's text.
 *
 * number_type       VIREOPATCH_NUMBER_..: the detail of the row of kind 49
 * text, text_len    the text of the row of kind 50, where it stands in the text that was read: `text + low, high - low` of that row, without the
 *                   mark. Any bytes, any length
 * value             set to the value; 0 for a refusal
 *
 * The outcome depends on number_type and these bytes alone, and zeros before one or more digits change nothing: 65,535 zeros and a 1 are 1.
 *
 * `true` is 1 and `false` is 0, in any letter case and in each of the three types. Hexadecimal digits may be of either case too. There is no
 * sign. Where number_type is none of VIREOPATCH_NUMBER_.., no text is a number, `true` and `false` neither: 10.
 *
 * Returns 0, or the first of these that applies: 10, 9. Each gives 0.
 */
uint32_t vireopatch_value(
    uint32_t number_type,
    const uint8_t *text, size_t text_len,
    uint64_t *value);

/*
 * Lists the items of one trivia run, as tlow to low of a row is one.
 *
 * text, text_len    the run, and nothing else
 * table, table_len  a table for items, table_len words; its room is table_len / VIREOPATCH_ITEM_WORDS, rounded down
 * count             set to the number of items; 0 for a refusal
 * given             set to what the refusal gives; 0 for an answer
 *
 * Returns 0, or the first of these that applies: 1, 2, 11, 12.
 *
 * The table afterwards. Answer: the items, and 0 in every word behind the last. 1, 2, 11: as it was. 12: 0 in every word.
 */
uint32_t vireopatch_items(
    const uint8_t *text, size_t text_len,
    uint32_t *table, size_t table_len,
    size_t *count, size_t *given);

/*
 * From a row count to the last subtree, so that the subtrees of a table, or of a row, can be walked from the last to the first: begin with
 * row_count, go on with `before` until it is 0.
 *
 * rows, rows_len    a table of rows; nothing is written
 * count             how many rows count
 * root              set to the number of the last subtree's root, counted from 0; 0 for a refusal
 * before            set to how many rows stand before that subtree; 0 for a refusal
 * given             set to what the refusal gives; 0 for an answer
 *
 * Returns 0, or 13: for a count of 0, a count above the rows that the table holds, or a root whose size is 0 or over the count.
 */
uint32_t vireopatch_walk(
    const uint32_t *rows, size_t rows_len,
    size_t count,
    size_t *root, size_t *before, size_t *given);

/*
 * How much of a list of texts is trivia, and which of them have the largest shares. A text's share is its trivia over its length, 0 for a text
 * of no bytes.
 *
 * words, words_len  the list, VIREOPATCH_TEXT_WORDS words a text, as vireopatch_text_words gives them; an unpaired last word is ignored.
 *                   Nothing is written
 * numerator, denominator  set to the pooled share, all trivia over all lengths, in lowest terms; 0 over 1 for no trivia or no bytes; 0 and 0
 *                   for a refusal
 * count             set to how many of the largest there are: 3, or the number of texts if that is less; 0 for a refusal
 * first, second, third    set to their indexes, counted from 0: the largest share first, equal ones by earlier index; 0 for one that is
 *                   absent, and for a refusal
 * given             set to what the refusal gives; 0 for an answer
 *
 * Returns 0, or the first of these that applies: 27, 28. Shares are compared exactly.
 */
uint32_t vireopatch_shares(
    const uint32_t *words, size_t words_len,
    uint64_t *numerator, uint64_t *denominator,
    size_t *count, size_t *first, size_t *second, size_t *third,
    size_t *given);

/*
 * The two words of a text for vireopatch_shares, from its reading: the trivia bytes of its top rows, and its length. The trivia of a row is
 * tlow to low; the row of kind 8, the end, is a top row too.
 *
 * text, text_len    the text that was read
 * rows, rows_len    the table of rows that vireopatch_read filled for it; nothing is written
 * count             its row_count; with fewer rows, or none, the words are of those rows' top rows alone
 * roots, roots_len  a table for the numbers of the top rows, counted from 0, first to last: roots_len words of type size_t. `count` words are
 *                   always enough
 * trivia, length    set to the two words; 0 for a refusal
 * given             set to what the refusal gives; 0 for an answer
 *
 * Returns 0, or the first of these that applies: 13, for rows and a count that are no subtrees one behind the other; 6, for fewer words in
 * roots than there are top rows; 28, which gives 0, for a text over VIREOPATCH_MAX_TEXT or rows with more trivia than it has bytes. A text's
 * own reading has had neither 13 nor 28 in any run, but that is not proved.
 *
 * The table afterwards. Answer and 28: the top rows, and 0 in every word behind the last. 13: as it was. 6: 0 in every word.
 */
uint32_t vireopatch_text_words(
    const uint8_t *text, size_t text_len,
    const uint32_t *rows, size_t rows_len,
    size_t count,
    size_t *roots, size_t roots_len,
    uint32_t *trivia, uint32_t *length, size_t *given);

#ifdef __cplusplus
}
#endif

#endif
