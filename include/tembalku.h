/* Tembalku: evaluates a dealer's CASE rule over a table of targets.
 *
 * For makers of displays. Link with libtembalku.a (`tools/build_library.sh`); `tools/install.sh` puts it, a shared object and this header in
 * place. docs/FORMAT.md has the bytes of rules, tables and answers, the meaning of a rule at a row, and the order in which refusals are
 * tested; docs/REFUSALS.md explains the refusals.
 *
 * Every function of the library
 * - takes any bytes: there is no rule and no table that it must not be given;
 * - ends, reads and writes only what it was lent, and keeps nothing between calls;
 * - answers one number: below TEMBALKU_RULE_ACCEPTED (256) it is a refusal, a value of tembalku_refusal, never 0; else what the function says.
 *   Only tembalku_text_validate refuses nothing: its number is a place.
 *
 * What the caller sees to: a pointer and its length name memory that is there; a pointer isn't NULL, even if its length is 0; a buffer that
 * is written overlaps no other argument. Pointers need no alignment. The stack that calls were seen to need is in docs/ARCHITECTURE.md
 * (Memory); 256 KB were enough in every measurement.
 *
 * The library's functions are proved. The helpers at the end of this file, `static inline`, are not: they are tested (tools/test_library.c).
 */
#ifndef TEMBALKU_H
#define TEMBALKU_H

#include <stddef.h>
#include <stdint.h>
#include <string.h>

#ifdef __cplusplus
extern "C" {
#endif

#define TEMBALKU_VERSION_MAJOR 0
#define TEMBALKU_VERSION_MINOR 3
#define TEMBALKU_VERSION_PATCH 0
#define TEMBALKU_VERSION "0.3.0"

/* Limits: more is refused (1, 9, 10, 10, 6). */
#define TEMBALKU_RULE_MOST 4096
#define TEMBALKU_TABLE_MOST 65536
#define TEMBALKU_ROWS_MOST 512
#define TEMBALKU_COLUMNS_MOST 16
#define TEMBALKU_BRANCHES_MOST 32

/* Bytes of a full work buffer: fewer are refused (14). */
#define TEMBALKU_WORK_BYTES 65536

/* Bytes of output as the program caserun lends them: an answer that is longer is refused (17). */
#define TEMBALKU_OUTPUT_BYTES 65536

/* Bytes of the longest answer: 512 rows with a null and 65,535 bytes of text. An output of this length is never too short. */
#define TEMBALKU_OUTPUT_MOST 67670

/* Bytes that hold every projection: a rule's column index is a byte. */
#define TEMBALKU_PROJECTION_MOST 256

/* What answers count from: those about a rule alone, those about a table, and the answer of an evaluation and those about it. */
#define TEMBALKU_RULE_ACCEPTED 256u
#define TEMBALKU_TABLE_ACCEPTED 65536u
#define TEMBALKU_ANSWERED 65536u

/* What tembalku_table_null_count says of a column that the table doesn't have. */
#define TEMBALKU_NO_COLUMN 256u

/* Types of columns, values and answers. */
enum tembalku_type {
    TEMBALKU_BOOLEAN = 1,
    TEMBALKU_INT32 = 2,
    TEMBALKU_INT64 = 3,
    TEMBALKU_FLOAT64 = 4,
    TEMBALKU_UTF8 = 5
};

/* Strategies, by the root CASE. */
enum tembalku_strategy {
    TEMBALKU_NO_EXPRESSION = 1,
    TEMBALKU_WITH_EXPRESSION = 2,
    TEMBALKU_INFALLIBLE_EXPR_OR_NULL = 3,
    TEMBALKU_SCALAR_OR_SCALAR = 4,
    TEMBALKU_EXPRESSION_OR_EXPRESSION = 5,
    TEMBALKU_WITH_EXPR_SCALAR_LOOKUP_TABLE = 6
};

/* Refusals. The library's functions give 1 to 17 and 25; 18 to 21 are the result builder's. tembalku_refusal_sentence says what each means
 * and what to do about it. */
enum tembalku_refusal {
    TEMBALKU_REFUSED_RULE_SIZE = 1,
    TEMBALKU_REFUSED_RULE_CUT = 2,
    TEMBALKU_REFUSED_RULE_CONTENT = 3,
    TEMBALKU_REFUSED_RULE_DEPTH = 4,
    TEMBALKU_REFUSED_CASE_EMPTY = 5,
    TEMBALKU_REFUSED_CASE_BRANCHES = 6,
    TEMBALKU_REFUSED_RULE_TYPES = 7,
    TEMBALKU_REFUSED_CONSTANT_CAST = 8,
    TEMBALKU_REFUSED_TABLE_FIELDS = 9,
    TEMBALKU_REFUSED_TABLE_SIZE = 10,
    TEMBALKU_REFUSED_TABLE_CONTENT = 11,
    TEMBALKU_REFUSED_TABLE_NULL = 12,
    TEMBALKU_REFUSED_FIT = 13,
    TEMBALKU_REFUSED_WORK_SIZE = 14,
    TEMBALKU_REFUSED_CAST = 15,
    TEMBALKU_REFUSED_TEXT_SIZE = 16,
    TEMBALKU_REFUSED_OUTPUT_SIZE = 17,
    TEMBALKU_REFUSED_BUILDER_ROW = 18,
    TEMBALKU_REFUSED_BUILDER_LENGTH = 19,
    TEMBALKU_REFUSED_BUILDER_HELD = 20,
    TEMBALKU_REFUSED_BUILDER_WHOLE = 21,
    TEMBALKU_REFUSED_NULL_COUNT = 25
};

/* Reads a rule. Gives its refusal (1 to 8), or 256 and the number of the result's type (tembalku_type). */
uint32_t tembalku_rule_read(const uint8_t *rule, size_t rule_len);

/* The strategy of a rule. Gives its refusal (1 to 8), or 256 and the number of the root CASE's strategy (tembalku_strategy). */
uint32_t tembalku_rule_strategy(const uint8_t *rule, size_t rule_len);

/* The nullability of a rule: the nullable byte that its answers carry (docs/FORMAT.md). Gives its refusal (1 to 8), or 256 and the byte, 0
 * or 1. An ELSE that is try-cast from Int64 to Int32, or from Float64 to an integer, counts as nullable, whatever its value. */
uint32_t tembalku_rule_nullable(const uint8_t *rule, size_t rule_len);

/* The projection of a rule: the indexes of the columns that it names, each once, rising. Gives its refusal (1 to 8), or 256 and their
 * number, at most 256. They are written to the front of `columns`, a byte each, if all of them fit into columns_len bytes; what lies
 * behind them is untouched. If they don't fit, or at a refusal, all of `columns` is untouched. */
size_t tembalku_rule_projection(const uint8_t *rule, size_t rule_len, uint8_t *columns, size_t columns_len);

/* Reads a table. Gives its refusal (9 to 12, 25), or 65,536 and the number of its rows. */
uint32_t tembalku_table_read(const uint8_t *table, size_t table_len);

/* How many rows of a table's column, counted from 0, are null. Gives the table's refusal (9 to 12, 25), or 65,536 and their number; or 256
 * (TEMBALKU_NO_COLUMN), which is no refusal, if the table is accepted and has no such column. */
size_t tembalku_table_null_count(const uint8_t *table, size_t table_len, size_t column);

/* Evaluates a rule over a table. Gives a refusal (1 to 17, 25), or 65,536 and the length of the answer in bytes.
 *
 * The answer stands at the front of `output`. It is one column in the layout of a table's (tag 2, 6, 3, 5 for text, 4): its type is the
 * result's, its nullable byte the rule's nullability, its tag 6 the number of its nulls, its tag 3 empty if it holds none. It has an entry
 * for each row of the table, in the table's order: what the rule gives at that row (docs/FORMAT.md). Spare bits and values under nulls are
 * zero, texts under nulls empty.
 *
 * Afterwards: `work` is zero in all its work_len bytes at an answer and at 15 to 17, and untouched at 1 to 14 and 25. `output` is untouched
 * behind an answer, and all of it at a refusal. */
size_t tembalku_evaluate(const uint8_t *rule, size_t rule_len,
                         const uint8_t *table, size_t table_len,
                         uint8_t *work, size_t work_len,
                         uint8_t *output, size_t output_len);

/* How many entries of an answer of so many rows are null. Gives the refusal (9 to 11, 25) of bytes that are no column of so many rows, or
 * 65,536 and their number. A column without tag 6, or with a mark of 0 and a null, is taken too. */
size_t tembalku_answer_null_count(const uint8_t *answer, size_t answer_len, size_t rows);

/* Tests a text: gives text_len if it is well-formed UTF-8, else the place of the first byte at which no whole character stands. Refuses
 * nothing. */
size_t tembalku_text_validate(const uint8_t *text, size_t text_len);

/* ---- Helpers: reading an answer, and the sentence of a refusal. Not proved. ---- */

/* What a refusal means and what to do about it, as docs/REFUSALS.md has it; empty for a number that is no refusal. */
static inline const char *tembalku_refusal_sentence(uint32_t number) {
    switch (number) {
    case TEMBALKU_REFUSED_RULE_SIZE:
        return "The rule is empty or has more than 4,096 bytes: send it again, or write a shorter one.";
    case TEMBALKU_REFUSED_RULE_CUT:
        return "The rule is cut off, or one of its parts claims more bytes than there are: make the file again.";
    case TEMBALKU_REFUSED_RULE_CONTENT:
        return "The rule holds a byte that means nothing at its place, or bytes too many: make the file again with a tool that writes this layout.";
    case TEMBALKU_REFUSED_RULE_DEPTH:
        return "The rule is nested too deep: at most 8 levels, and at most 3 CASEs inside each other; write it flatter.";
    case TEMBALKU_REFUSED_CASE_EMPTY:
        return "A CASE has no WHEN: give it at least one.";
    case TEMBALKU_REFUSED_CASE_BRANCHES:
        return "A CASE has more than 32 WHENs: move some of them into a CASE in its ELSE.";
    case TEMBALKU_REFUSED_RULE_TYPES:
        return "Types don't go together, or a column is named in two ways: cast one side to the other's type, if there is such a cast, and mark a column alike each time.";
    case TEMBALKU_REFUSED_CONSTANT_CAST:
        return "A constant doesn't fit the integer type that it is cast to, wherever in the rule it stands: correct the constant, or use a try-cast.";
    case TEMBALKU_REFUSED_TABLE_FIELDS:
        return "The table is empty, too long, cut off or out of order: the display's program must write it anew.";
    case TEMBALKU_REFUSED_TABLE_SIZE:
        return "There are more than 512 targets or 16 columns: hand over fewer at a time.";
    case TEMBALKU_REFUSED_TABLE_CONTENT:
        return "A column's type, mark, length or offset is wrong: the display's program must write the table anew.";
    case TEMBALKU_REFUSED_TABLE_NULL:
        return "A column that is marked as never null holds a null: mark it nullable, or fill the value in.";
    case TEMBALKU_REFUSED_FIT:
        return "The rule was made for other columns than the table has: make it with this display's columns, types and null marks.";
    case TEMBALKU_REFUSED_WORK_SIZE:
        return "The work buffer has fewer than 65,536 bytes: the display's program must lend more.";
    case TEMBALKU_REFUSED_CAST:
        return "A target's value doesn't fit the integer type that the rule casts it to, or is a NaN: use a try-cast, which gives null, or test the value in an earlier WHEN.";
    case TEMBALKU_REFUSED_TEXT_SIZE:
        return "The classes' texts have more than 65,535 bytes in all: use shorter texts, or fewer targets at a time.";
    case TEMBALKU_REFUSED_OUTPUT_SIZE:
        return "The output buffer is shorter than the answer: the display's program must lend more.";
    case TEMBALKU_REFUSED_BUILDER_ROW:
        return "A list of rows names a row that isn't there, or doesn't rise: correct the program that builds the result.";
    case TEMBALKU_REFUSED_BUILDER_LENGTH:
        return "There are not as many values as rows in the list: correct the program that builds the result.";
    case TEMBALKU_REFUSED_BUILDER_HELD:
        return "A row is given a second time: correct the program that builds the result.";
    case TEMBALKU_REFUSED_BUILDER_WHOLE:
        return "A whole result comes after a part, or something comes after a whole: correct the program that builds the result.";
    case TEMBALKU_REFUSED_NULL_COUNT:
        return "A column's null count isn't the number of its nulls, in two bytes: the display's program must write the right count, or none.";
    default:
        return "";
    }
}

/* The number of a table's rows; 0 if the table is refused. */
static inline size_t tembalku_table_rows(const uint8_t *table, size_t table_len) {
    uint32_t said = tembalku_table_read(table, table_len);
    return said < TEMBALKU_TABLE_ACCEPTED ? 0 : said - TEMBALKU_TABLE_ACCEPTED;
}

/* An answer whose bytes tembalku_answer_read has looked at. It points into them and owns nothing. */
struct tembalku_answer {
    int type;                /* a value of tembalku_type; 0 if the bytes were no answer */
    int nullable;            /* the answer's nullable byte */
    size_t rows;             /* its entries are those of rows 0 to rows - 1 */
    size_t null_count;       /* how many of them are null */
    const uint8_t *validity; /* a bit for each row, or NULL if no entry is null */
    const uint8_t *offsets;  /* rows + 1 offsets of four bytes, for text only, else NULL */
    const uint8_t *values;
};

/* A little-endian number of at most eight bytes. */
static inline uint64_t tembalku_number(const uint8_t *at, size_t bytes) {
    uint64_t number = 0;
    while (bytes > 0) number = number << 8 | at[--bytes];
    return number;
}

/* The bit of a row in a bitmap. */
static inline int tembalku_bit(const uint8_t *map, size_t row) { return map[row >> 3] >> (row & 7) & 1; }

/* The content of the field of a tag at the place *at, its length in *content_len and *at moved behind it; NULL if there is none. */
static inline const uint8_t *tembalku_field(const uint8_t *bytes, size_t bytes_len, size_t *at, uint8_t tag, size_t *content_len) {
    size_t place = *at;
    if (bytes_len - place < 3 || bytes[place] != tag) return NULL;
    *content_len = (size_t)tembalku_number(bytes + place + 1, 2);
    if (bytes_len - place - 3 < *content_len) return NULL;
    *at = place + 3 + *content_len;
    return bytes + place + 3;
}

/* The offsets of `rows` texts begin at 0, never fall and end at text_len. */
static inline int tembalku_offsets_rise(const uint8_t *offsets, size_t rows, size_t text_len) {
    size_t row;
    if (tembalku_number(offsets, 4) != 0) return 0;
    for (row = 0; row < rows; row++) {
        if (tembalku_number(offsets + 4 * row, 4) > tembalku_number(offsets + 4 * row + 4, 4)) return 0;
    }
    return tembalku_number(offsets + 4 * rows, 4) == text_len;
}

/* The length of tag 4 for a type of numbers or Booleans. */
static inline size_t tembalku_values_len(int type, size_t rows) {
    return type == TEMBALKU_BOOLEAN ? (rows + 7) >> 3 : type == TEMBALKU_INT32 ? 4 * rows : 8 * rows;
}

/* How many of the first `rows` rows are null, by their validity bits; NULL has none. */
static inline size_t tembalku_nulls(const uint8_t *validity, size_t rows) {
    size_t row, nulls = 0;
    for (row = 0; validity != NULL && row < rows; row++) nulls += !tembalku_bit(validity, row);
    return nulls;
}

/* The parts of an answer behind its tag 2; 0 if they aren't as docs/FORMAT.md lists them. */
static inline int tembalku_answer_parts(struct tembalku_answer *answer, const uint8_t *bytes, size_t bytes_len, size_t at) {
    size_t count_len = 0, validity_len = 0, offsets_len = 0, values_len = 0, rows = answer->rows;
    const uint8_t *count = tembalku_field(bytes, bytes_len, &at, 6, &count_len);
    const uint8_t *validity = count == NULL ? NULL : tembalku_field(bytes, bytes_len, &at, 3, &validity_len);
    if (validity == NULL || count_len != 2 || (validity_len != 0 && validity_len != (rows + 7) >> 3)) return 0;
    answer->validity = validity_len == 0 ? NULL : validity;
    answer->null_count = tembalku_nulls(answer->validity, rows);
    if (tembalku_number(count, 2) != answer->null_count) return 0;
    if (answer->type == TEMBALKU_UTF8) {
        answer->offsets = tembalku_field(bytes, bytes_len, &at, 5, &offsets_len);
        if (answer->offsets == NULL || offsets_len != 4 * (rows + 1)) return 0;
    }
    answer->values = tembalku_field(bytes, bytes_len, &at, 4, &values_len);
    if (answer->values == NULL || at != bytes_len) return 0;
    if (answer->type == TEMBALKU_UTF8) return tembalku_offsets_rise(answer->offsets, rows, values_len);
    return values_len == tembalku_values_len(answer->type, rows);
}

/* Looks at an answer: the bytes at the front of the output, of the length that tembalku_evaluate gave (what it said less TEMBALKU_ANSWERED),
 * and the number of the table's rows, which the answer itself doesn't have. Gives 1, or 0 if the bytes are no answer for so many rows;
 * then it has no rows and type 0. Takes any bytes. */
static inline int tembalku_answer_read(struct tembalku_answer *answer, const uint8_t *bytes, size_t bytes_len, size_t rows) {
    const struct tembalku_answer none = {0, 0, 0, 0, NULL, NULL, NULL};
    size_t at = 0, head_len = 0;
    const uint8_t *head = tembalku_field(bytes, bytes_len, &at, 2, &head_len);
    *answer = none;
    if (rows > TEMBALKU_ROWS_MOST || head == NULL || head_len != 2) return 0;
    if (head[0] < TEMBALKU_BOOLEAN || head[0] > TEMBALKU_UTF8 || head[1] > 1) return 0;
    answer->type = head[0];
    answer->nullable = head[1];
    answer->rows = rows;
    if (tembalku_answer_parts(answer, bytes, bytes_len, at)) return 1;
    *answer = none;
    return 0;
}

/* The entry of a row is null. So is that of a row that the answer doesn't have. */
static inline int tembalku_answer_is_null(const struct tembalku_answer *answer, size_t row) {
    return row >= answer->rows || (answer->validity != NULL && !tembalku_bit(answer->validity, row));
}

/* The answer has the type, and a value at the row. */
static inline int tembalku_answer_has(const struct tembalku_answer *answer, int type, size_t row) {
    return answer->type == type && !tembalku_answer_is_null(answer, row);
}

/* The value of a row's entry: 0, false or empty where it is null or of another type. */
static inline int tembalku_answer_boolean(const struct tembalku_answer *answer, size_t row) {
    return tembalku_answer_has(answer, TEMBALKU_BOOLEAN, row) && tembalku_bit(answer->values, row);
}

static inline int32_t tembalku_answer_int32(const struct tembalku_answer *answer, size_t row) {
    int32_t value = 0;
    if (tembalku_answer_has(answer, TEMBALKU_INT32, row)) {
        uint32_t bits = (uint32_t)tembalku_number(answer->values + 4 * row, 4);
        memcpy(&value, &bits, sizeof value);
    }
    return value;
}

static inline int64_t tembalku_answer_int64(const struct tembalku_answer *answer, size_t row) {
    int64_t value = 0;
    if (tembalku_answer_has(answer, TEMBALKU_INT64, row)) {
        uint64_t bits = tembalku_number(answer->values + 8 * row, 8);
        memcpy(&value, &bits, sizeof value);
    }
    return value;
}

static inline double tembalku_answer_float64(const struct tembalku_answer *answer, size_t row) {
    double value = 0;
    if (tembalku_answer_has(answer, TEMBALKU_FLOAT64, row)) {
        uint64_t bits = tembalku_number(answer->values + 8 * row, 8);
        memcpy(&value, &bits, sizeof value);
    }
    return value;
}

/* The text's first byte, and its length in *text_len. No byte of zero ends it. It stands in the answer's bytes. */
static inline const uint8_t *tembalku_answer_text(const struct tembalku_answer *answer, size_t row, size_t *text_len) {
    size_t from, to;
    *text_len = 0;
    if (!tembalku_answer_has(answer, TEMBALKU_UTF8, row)) return (const uint8_t *)"";
    from = (size_t)tembalku_number(answer->offsets + 4 * row, 4);
    to = (size_t)tembalku_number(answer->offsets + 4 * row + 4, 4);
    *text_len = to - from;
    return answer->values + from;
}

#ifdef __cplusplus
}
#endif

#endif
