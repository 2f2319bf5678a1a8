/* Tests the library through include/tembalku.h: each function with good, refused and zero-length arguments, every refusal from 1 to 17 and 25,
 * what an evaluation leaves in both buffers and around them, and the header's helpers on good, cut and changed answers.
 * tools/test_library.sh builds and runs it. Prints each check that fails, and how many there were; fails where one does. */
#define _DEFAULT_SOURCE
#include <inttypes.h>
#include <stdio.h>
#include <stdlib.h>
#include <string.h>
#include <sys/mman.h>

#include "tembalku.h"

static unsigned checks, failures;

#define CHECK(holds, ...) check((holds), __LINE__, __VA_ARGS__)

static void check(int holds, int line, const char *what, size_t got) {
    checks++;
    if (holds) return;
    failures++;
    printf("line %d: %s: %zu\n", line, what, got);
}

/* ---- rules and tables ---- */

typedef struct {
    const uint8_t *bytes;
    size_t len;
} input;

#define INPUT(name, ...) \
    static const uint8_t name##_bytes[] = {__VA_ARGS__}; \
    static const input name = {name##_bytes, sizeof name##_bytes}

#define TRUE 0x11, 3, 0, 1, 0, 1
#define INT32(n) 0x11, 6, 0, 2, 0, n, 0, 0, 0
#define INT64(n) 0x11, 10, 0, 3, 0, n, 0, 0, 0, 0, 0, 0, 0
#define COLUMN(index, type, nullable) 0x10, 3, 0, index, type, nullable
#define NULLS(n) 6, 2, 0, n, 0

/* CASE WHEN c0 THEN 1 ELSE 0 END, over true, null, false, true: the strategy is 4 */
INPUT(rule, 0x19, 26, 0, 2, 1, COLUMN(0, 1, 1), INT32(1), INT32(0));
INPUT(table, 1, 2, 0, 4, 0, 2, 2, 0, 1, 1, 3, 1, 0, 0x0D, 4, 1, 0, 0x09);
INPUT(answer, 2, 2, 0, 2, 0, NULLS(0), 3, 0, 0, 4, 16, 0, 1, 0, 0, 0, 0, 0, 0, 0, 0, 0, 0, 0, 1, 0, 0, 0);

/* one for each other strategy */
INPUT(rule_1, 0x19, 32, 0, 0, 2, COLUMN(0, 1, 1), INT32(1), COLUMN(0, 1, 1), INT32(2));
INPUT(rule_2, 0x19, 26, 0, 1, 1, COLUMN(3, 2, 0), INT32(7), INT32(1));
INPUT(rule_3, 0x19, 14, 0, 0, 1, COLUMN(2, 1, 0), COLUMN(1, 5, 1));
INPUT(rule_5, 0x19, 17, 0, 0, 1, COLUMN(0, 1, 1), INT32(1));
INPUT(rule_6, 0x19, 44, 0, 1, 2, COLUMN(3, 2, 0), INT32(7), INT32(1), INT32(8), INT32(2));

/* an ELSE of Int64 below a THEN of Int32, whose try-cast may turn null, and one of Int32 below a THEN of Int64 */
INPUT(narrowed_else, 0x19, 30, 0, 2, 1, COLUMN(0, 1, 1), INT32(1), INT64(5));
INPUT(widened_else, 0x19, 30, 0, 2, 1, COLUMN(0, 1, 1), INT64(1), INT32(5));

/* refused as rules: the number is in the name */
INPUT(refused_2, 0x19, 26, 0, 2, 1, COLUMN(0, 1, 1), INT32(1), 0x11, 6, 0, 2, 0, 0, 0, 0);
INPUT(refused_3, 0x18, 26, 0, 2, 1, COLUMN(0, 1, 1), INT32(1), INT32(0));
INPUT(refused_3_behind, 0x19, 26, 0, 2, 1, COLUMN(0, 1, 1), INT32(1), INT32(0), 0);
INPUT(refused_4, 0x19, 35, 0, 0, 1, 0x12, 24, 0, 0x12, 21, 0, 0x12, 18, 0, 0x12, 15, 0, 0x12, 12, 0, 0x12, 9, 0, 0x12, 6, 0, COLUMN(0, 1, 1),
      TRUE);
INPUT(refused_5, 0x19, 2, 0, 0, 0);
INPUT(refused_6, 0x19, 2, 0, 0, 33);
INPUT(refused_7, 0x19, 26, 0, 2, 1, COLUMN(0, 2, 1), INT32(1), INT32(0));
/* CASE WHEN c0 THEN CAST(2147483648 AS Int32) END */
INPUT(refused_8, 0x19, 25, 0, 0, 1, COLUMN(0, 1, 1), 0x15, 14, 0, 2, 0x11, 10, 0, 3, 0, 0, 0, 0, 0x80, 0, 0, 0, 0);

/* refused as tables */
INPUT(refused_9, 1, 2, 0, 4, 0, 2, 2, 0, 1, 1, 3, 1, 0, 0x0D, 4, 1, 0);
INPUT(refused_10, 1, 2, 0, 1, 2);
INPUT(refused_11, 1, 2, 0, 4, 0, 2, 2, 0, 6, 1, 3, 1, 0, 0x0D, 4, 1, 0, 0x09);
INPUT(refused_12, 1, 2, 0, 4, 0, 2, 2, 0, 1, 0, 3, 1, 0, 0x0D, 4, 1, 0, 0x09);

/* the same table with its null count; refused with counts of another value or length: 4 rows, of which one is null, and four spare bits */
INPUT(counted, 1, 2, 0, 4, 0, 2, 2, 0, 1, 1, NULLS(1), 3, 1, 0, 0x0D, 4, 1, 0, 0x09);
INPUT(refused_25, 1, 2, 0, 4, 0, 2, 2, 0, 1, 1, NULLS(0), 3, 1, 0, 0x0D, 4, 1, 0, 0x09);
INPUT(refused_25_spare, 1, 2, 0, 4, 0, 2, 2, 0, 1, 1, NULLS(5), 3, 1, 0, 0x0D, 4, 1, 0, 0x09);
INPUT(refused_25_values, 1, 2, 0, 4, 0, 2, 2, 0, 1, 1, NULLS(3), 3, 1, 0, 0x0D, 4, 1, 0, 0x09);
INPUT(refused_25_high, 1, 2, 0, 4, 0, 2, 2, 0, 1, 1, 6, 2, 0, 1, 1, 3, 1, 0, 0x0D, 4, 1, 0, 0x09);
INPUT(refused_25_none, 1, 2, 0, 4, 0, 2, 2, 0, 1, 1, NULLS(1), 3, 0, 0, 4, 1, 0, 0x09);
INPUT(refused_25_no_rows, 1, 2, 0, 0, 0, 2, 2, 0, 1, 1, NULLS(1), 3, 0, 0, 4, 0, 0);
INPUT(refused_25_of_0, 1, 2, 0, 4, 0, 2, 2, 0, 1, 1, 6, 0, 0, 3, 1, 0, 0x0D, 4, 1, 0, 0x09);
INPUT(refused_25_of_1, 1, 2, 0, 4, 0, 2, 2, 0, 1, 1, 6, 1, 0, 1, 3, 1, 0, 0x0D, 4, 1, 0, 0x09);
INPUT(refused_25_of_3, 1, 2, 0, 4, 0, 2, 2, 0, 1, 1, 6, 3, 0, 1, 0, 0, 3, 1, 0, 0x0D, 4, 1, 0, 0x09);
/* before what is wrong in the next column, and behind 12 of its own */
INPUT(refused_25_first, 1, 2, 0, 4, 0, 2, 2, 0, 1, 1, NULLS(0), 3, 1, 0, 0x0D, 4, 1, 0, 0x09, 2);
INPUT(refused_12_first, 1, 2, 0, 4, 0, 2, 2, 0, 1, 0, NULLS(0), 3, 1, 0, 0x0D, 4, 1, 0, 0x09);
/* a count that is cut, doubled or behind another field, and 11 of the same column before it and behind it */
INPUT(refused_9_cut, 1, 2, 0, 4, 0, 2, 2, 0, 1, 1, 6, 2);
INPUT(refused_9_past, 1, 2, 0, 4, 0, 2, 2, 0, 1, 1, 6, 13, 0, 1, 0, 3, 1, 0, 0x0D, 4, 1, 0, 0x09);
INPUT(refused_9_twice, 1, 2, 0, 4, 0, 2, 2, 0, 1, 1, NULLS(1), NULLS(1), 3, 1, 0, 0x0D, 4, 1, 0, 0x09);
INPUT(refused_9_behind_3, 1, 2, 0, 4, 0, 2, 2, 0, 1, 1, 3, 1, 0, 0x0D, NULLS(1), 4, 1, 0, 0x09);
INPUT(refused_9_behind_4, 1, 2, 0, 4, 0, 2, 2, 0, 1, 1, 3, 1, 0, 0x0D, 4, 1, 0, 0x09, NULLS(1));
INPUT(refused_11_before, 1, 2, 0, 4, 0, 2, 2, 0, 6, 1, 6, 2);
INPUT(refused_11_behind, 1, 2, 0, 4, 0, 2, 2, 0, 1, 1, NULLS(0), 3, 2, 0, 0x0D, 0, 4, 1, 0, 0x09);

/* no rows, and no columns */
INPUT(no_rows, 1, 2, 0, 0, 0, 2, 2, 0, 1, 1, 3, 0, 0, 4, 0, 0);
INPUT(no_columns, 1, 2, 0, 4, 0);

/* CASE WHEN true THEN CAST(c0 AS Int32) END, over 7 and 2147483648 */
INPUT(narrow, 0x19, 18, 0, 0, 1, TRUE, 0x15, 7, 0, 2, COLUMN(0, 3, 0));
INPUT(too_wide, 1, 2, 0, 2, 0, 2, 2, 0, 3, 0, 3, 0, 0, 4, 16, 0, 7, 0, 0, 0, 0, 0, 0, 0, 0, 0, 0, 0x80, 0, 0, 0, 0);

/* three rows of each type, the second null: true false; -2 5; -3 2^40; -0.0 2.5; "boat" ""; two columns have their null count */
INPUT(types, 1, 2, 0, 3, 0,
      2, 2, 0, 1, 1, NULLS(1), 3, 1, 0, 5, 4, 1, 0, 0xF9,
      2, 2, 0, 2, 1, 3, 1, 0, 5, 4, 12, 0, 0xFE, 0xFF, 0xFF, 0xFF, 9, 9, 9, 9, 5, 0, 0, 0,
      2, 2, 0, 3, 1, 3, 1, 0, 5, 4, 24, 0, 0xFD, 0xFF, 0xFF, 0xFF, 0xFF, 0xFF, 0xFF, 0xFF, 9, 9, 9, 9, 9, 9, 9, 9, 0, 0, 0, 0, 0, 1, 0, 0,
      2, 2, 0, 4, 1, 3, 1, 0, 5, 4, 24, 0, 0, 0, 0, 0, 0, 0, 0, 0x80, 9, 9, 9, 9, 9, 9, 9, 9, 0, 0, 0, 0, 0, 0, 4, 0x40,
      2, 2, 0, 5, 1, NULLS(1), 3, 1, 0, 5, 5, 16, 0, 0, 0, 0, 0, 4, 0, 0, 0, 6, 0, 0, 0, 6, 0, 0, 0, 4, 6, 0, 'b', 'o', 'a', 't', 9, 9);

/* CASE WHEN true THEN column END: the column's entries */
static uint8_t column_rule[] = {0x19, 14, 0, 0, 1, TRUE, COLUMN(0, 1, 1)};

/* ---- buffers ---- */

#define MARGIN 64
#define MOST (70000 + 2 * MARGIN)

static uint8_t work[MOST], output[MOST], columns[MOST];

/* A byte that depends on its place, never zero. */
static uint8_t filler(size_t place) { return (uint8_t)(1 + place % 251); }

static void fill(uint8_t *buffer) {
    for (size_t i = 0; i < MOST; i++) buffer[i] = filler(i);
}

/* How many bytes of a buffer from one place of what was lent to another are no longer the filler. */
static size_t changed(const uint8_t *buffer, size_t from, size_t to) {
    size_t count = 0;
    for (size_t i = MARGIN + from; i < MARGIN + to; i++) count += buffer[i] != filler(i);
    return count;
}

static size_t not_zero(const uint8_t *buffer, size_t len) {
    size_t count = 0;
    for (size_t i = MARGIN; i < MARGIN + len; i++) count += buffer[i] != 0;
    return count;
}

/* How many bytes before and behind what was lent are changed. */
static size_t margins_changed(const uint8_t *buffer, size_t len) {
    size_t count = changed(buffer, len, MOST - MARGIN);
    for (size_t i = 0; i < MARGIN; i++) count += buffer[i] != filler(i);
    return count;
}

/* Evaluates, and checks both buffers by what was said. */
static size_t evaluate(int line, input r, input t, size_t work_len, size_t output_len) {
    fill(work);
    fill(output);
    size_t said = tembalku_evaluate(r.bytes, r.len, t.bytes, t.len, work + MARGIN, work_len, output + MARGIN, output_len);
    size_t answer_len = said < TEMBALKU_RULE_ACCEPTED ? 0 : said - TEMBALKU_ANSWERED;
    check(said >= 1 && (said <= 17 || said == 25 || said >= TEMBALKU_ANSWERED), line, "no number of an evaluation", said);
    check(answer_len <= output_len, line, "an answer longer than the output", said);
    if (said <= 14 || said == 25) {
        check(changed(work, 0, work_len) == 0, line, "bytes of the work buffer changed", changed(work, 0, work_len));
    } else {
        check(not_zero(work, work_len) == 0, line, "bytes of the work buffer not zero", not_zero(work, work_len));
    }
    check(changed(output, answer_len, output_len) == 0, line, "bytes of the output changed", changed(output, answer_len, output_len));
    check(margins_changed(work, work_len) == 0, line, "bytes around the work buffer changed", margins_changed(work, work_len));
    check(margins_changed(output, output_len) == 0, line, "bytes around the output changed", margins_changed(output, output_len));
    return said;
}

#define EVALUATE(r, t, work_len, output_len) evaluate(__LINE__, r, t, work_len, output_len)

/* ---- the functions ---- */

/* What the functions about a rule say of one that is refused. */
static void test_refused_rule(input r, uint32_t number) {
    size_t said;
    CHECK(tembalku_rule_read(r.bytes, r.len) == number, "rule_read, not", number);
    CHECK(tembalku_rule_strategy(r.bytes, r.len) == number, "rule_strategy, not", number);
    CHECK(tembalku_rule_nullable(r.bytes, r.len) == number, "rule_nullable, not", number);
    fill(columns);
    said = tembalku_rule_projection(r.bytes, r.len, columns + MARGIN, 256);
    CHECK(said == number, "rule_projection, not", number);
    CHECK(changed(columns, 0, 256) == 0 && margins_changed(columns, 256) == 0, "columns changed at", number);
    said = EVALUATE(r, table, TEMBALKU_WORK_BYTES, TEMBALKU_OUTPUT_MOST);
    CHECK(said == number, "evaluate, not", number);
    said = EVALUATE(r, refused_9, 0, 0);
    CHECK(said == number, "evaluate with all else bad, not", number);
}

static void test_refused_rules(void) {
    static const uint8_t long_rule[TEMBALKU_RULE_MOST + 1];
    const input empty = {rule.bytes, 0}, too_long = {long_rule, sizeof long_rule}, longest = {long_rule, TEMBALKU_RULE_MOST};
    test_refused_rule(empty, TEMBALKU_REFUSED_RULE_SIZE);
    test_refused_rule(too_long, TEMBALKU_REFUSED_RULE_SIZE);
    test_refused_rule(longest, TEMBALKU_REFUSED_RULE_CONTENT);
    test_refused_rule(refused_2, TEMBALKU_REFUSED_RULE_CUT);
    test_refused_rule(refused_3, TEMBALKU_REFUSED_RULE_CONTENT);
    test_refused_rule(refused_3_behind, TEMBALKU_REFUSED_RULE_CONTENT);
    test_refused_rule(refused_4, TEMBALKU_REFUSED_RULE_DEPTH);
    test_refused_rule(refused_5, TEMBALKU_REFUSED_CASE_EMPTY);
    test_refused_rule(refused_6, TEMBALKU_REFUSED_CASE_BRANCHES);
    test_refused_rule(refused_7, TEMBALKU_REFUSED_RULE_TYPES);
    test_refused_rule(refused_8, TEMBALKU_REFUSED_CONSTANT_CAST);
    for (size_t len = 0; len < rule.len; len++) {
        input cut = {rule.bytes, len};
        test_refused_rule(cut, len == 0 ? TEMBALKU_REFUSED_RULE_SIZE : TEMBALKU_REFUSED_RULE_CUT);
    }
}

static void test_refused_table(input t, uint32_t number) {
    size_t said = tembalku_table_read(t.bytes, t.len);
    CHECK(said == number, "table_read", said);
    CHECK(tembalku_table_rows(t.bytes, t.len) == 0, "rows of a refused table", tembalku_table_rows(t.bytes, t.len));
    for (size_t column = 0; column < 3; column++) {
        said = tembalku_table_null_count(t.bytes, t.len, column);
        CHECK(said == number, "table_null_count", said);
    }
    said = EVALUATE(rule, t, TEMBALKU_WORK_BYTES, TEMBALKU_OUTPUT_MOST);
    CHECK(said == number, "evaluate", said);
    said = EVALUATE(rule, t, 0, 0);
    CHECK(said == number, "evaluate without buffers", said);
}

static void test_refused_tables(void) {
    static const uint8_t long_table[TEMBALKU_TABLE_MOST + 1] = {1, 2, 0, 4, 0};
    const input empty = {table.bytes, 0}, too_long = {long_table, sizeof long_table};
    test_refused_table(empty, TEMBALKU_REFUSED_TABLE_FIELDS);
    test_refused_table(too_long, TEMBALKU_REFUSED_TABLE_FIELDS);
    test_refused_table(refused_9, TEMBALKU_REFUSED_TABLE_FIELDS);
    test_refused_table(refused_10, TEMBALKU_REFUSED_TABLE_SIZE);
    test_refused_table(refused_11, TEMBALKU_REFUSED_TABLE_CONTENT);
    test_refused_table(refused_12, TEMBALKU_REFUSED_TABLE_NULL);
}

static void test_refused_counts(void) {
    test_refused_table(refused_25, TEMBALKU_REFUSED_NULL_COUNT);
    test_refused_table(refused_25_spare, TEMBALKU_REFUSED_NULL_COUNT);
    test_refused_table(refused_25_values, TEMBALKU_REFUSED_NULL_COUNT);
    test_refused_table(refused_25_high, TEMBALKU_REFUSED_NULL_COUNT);
    test_refused_table(refused_25_none, TEMBALKU_REFUSED_NULL_COUNT);
    test_refused_table(refused_25_no_rows, TEMBALKU_REFUSED_NULL_COUNT);
    test_refused_table(refused_25_of_0, TEMBALKU_REFUSED_NULL_COUNT);
    test_refused_table(refused_25_of_1, TEMBALKU_REFUSED_NULL_COUNT);
    test_refused_table(refused_25_of_3, TEMBALKU_REFUSED_NULL_COUNT);
    test_refused_table(refused_25_first, TEMBALKU_REFUSED_NULL_COUNT);
    test_refused_table(refused_12_first, TEMBALKU_REFUSED_TABLE_NULL);
    test_refused_table(refused_9_cut, TEMBALKU_REFUSED_TABLE_FIELDS);
    test_refused_table(refused_9_past, TEMBALKU_REFUSED_TABLE_FIELDS);
    test_refused_table(refused_9_twice, TEMBALKU_REFUSED_TABLE_FIELDS);
    test_refused_table(refused_9_behind_3, TEMBALKU_REFUSED_TABLE_FIELDS);
    test_refused_table(refused_9_behind_4, TEMBALKU_REFUSED_TABLE_FIELDS);
    test_refused_table(refused_11_before, TEMBALKU_REFUSED_TABLE_CONTENT);
    test_refused_table(refused_11_behind, TEMBALKU_REFUSED_TABLE_CONTENT);
    for (size_t len = 6; len < counted.len; len++) {
        input cut = {counted.bytes, len};
        test_refused_table(cut, TEMBALKU_REFUSED_TABLE_FIELDS);
    }
}

/* Type, strategy, nullability and projection of a rule that is accepted. */
static void test_rule(input r, uint32_t type, uint32_t strategy, uint32_t nullable, input projection) {
    size_t said;
    CHECK(tembalku_rule_read(r.bytes, r.len) == 256 + type, "rule_read", tembalku_rule_read(r.bytes, r.len));
    CHECK(tembalku_rule_strategy(r.bytes, r.len) == 256 + strategy, "rule_strategy", tembalku_rule_strategy(r.bytes, r.len));
    CHECK(tembalku_rule_nullable(r.bytes, r.len) == 256 + nullable, "rule_nullable", tembalku_rule_nullable(r.bytes, r.len));
    for (size_t len = 0; len <= TEMBALKU_PROJECTION_MOST; len++) {
        size_t written = len < projection.len ? 0 : projection.len;
        fill(columns);
        said = tembalku_rule_projection(r.bytes, r.len, columns + MARGIN, len);
        CHECK(said == 256 + projection.len, "rule_projection", said);
        CHECK(memcmp(columns + MARGIN, projection.bytes, written) == 0, "the projection's columns, room for", len);
        CHECK(changed(columns, written, len) == 0 && margins_changed(columns, len) == 0, "columns changed behind the projection", len);
    }
}

static void test_rules(void) {
    INPUT(first, 0);
    INPUT(fourth, 3);
    INPUT(two, 1, 2);
    test_rule(rule, TEMBALKU_INT32, TEMBALKU_SCALAR_OR_SCALAR, 0, first);
    test_rule(rule_1, TEMBALKU_INT32, TEMBALKU_NO_EXPRESSION, 1, first);
    test_rule(rule_2, TEMBALKU_INT32, TEMBALKU_WITH_EXPRESSION, 1, fourth);
    test_rule(rule_3, TEMBALKU_UTF8, TEMBALKU_INFALLIBLE_EXPR_OR_NULL, 1, two);
    test_rule(rule_5, TEMBALKU_INT32, TEMBALKU_EXPRESSION_OR_EXPRESSION, 1, first);
    test_rule(rule_6, TEMBALKU_INT32, TEMBALKU_WITH_EXPR_SCALAR_LOOKUP_TABLE, 1, fourth);
    test_rule(narrowed_else, TEMBALKU_INT32, TEMBALKU_SCALAR_OR_SCALAR, 1, first);
    test_rule(widened_else, TEMBALKU_INT64, TEMBALKU_SCALAR_OR_SCALAR, 0, first);
}

static void test_tables(void) {
    CHECK(tembalku_table_read(table.bytes, table.len) == 65540, "table_read", tembalku_table_read(table.bytes, table.len));
    CHECK(tembalku_table_rows(table.bytes, table.len) == 4, "table_rows", tembalku_table_rows(table.bytes, table.len));
    CHECK(tembalku_table_read(no_rows.bytes, no_rows.len) == 65536, "table_read", tembalku_table_read(no_rows.bytes, no_rows.len));
    CHECK(tembalku_table_rows(types.bytes, types.len) == 3, "table_rows", tembalku_table_rows(types.bytes, types.len));
}

static void check_nulls(int line, input t, size_t column, size_t want) {
    size_t said = tembalku_table_null_count(t.bytes, t.len, column);
    check(said == want, line, "table_null_count", said);
}

#define NULL_COUNT(t, column, want) check_nulls(__LINE__, t, column, want)

/* The null counts of columns, with tag 6 and without, and of columns that aren't there. */
static void test_null_counts(void) {
    NULL_COUNT(table, 0, TEMBALKU_TABLE_ACCEPTED + 1);
    NULL_COUNT(counted, 0, TEMBALKU_TABLE_ACCEPTED + 1);
    NULL_COUNT(counted, 1, TEMBALKU_NO_COLUMN);
    NULL_COUNT(counted, 16, TEMBALKU_NO_COLUMN);
    NULL_COUNT(counted, (size_t)-1, TEMBALKU_NO_COLUMN);
    NULL_COUNT(no_columns, 0, TEMBALKU_NO_COLUMN);
    NULL_COUNT(no_rows, 0, TEMBALKU_TABLE_ACCEPTED);
    NULL_COUNT(too_wide, 0, TEMBALKU_TABLE_ACCEPTED);
    for (size_t column = 0; column < 5; column++) NULL_COUNT(types, column, TEMBALKU_TABLE_ACCEPTED + 1);
    NULL_COUNT(types, 5, TEMBALKU_NO_COLUMN);
    CHECK(tembalku_table_read(counted.bytes, counted.len) == 65540, "table_read", tembalku_table_read(counted.bytes, counted.len));
    size_t said = EVALUATE(rule, counted, TEMBALKU_WORK_BYTES, answer.len);
    CHECK(said == TEMBALKU_ANSWERED + answer.len, "evaluate over a table with its null count", said);
    CHECK(memcmp(output + MARGIN, answer.bytes, answer.len) == 0, "the answer's bytes are others", said);
}

/* As many rows as there can be, every count of nulls: the first rows are null, the spare bits are set. */
static void test_all_null_counts(void) {
    static uint8_t most[5 + 5 + 5 + 3 + 64 + 3 + 64] = {1, 2, 0, 0, 0, 2, 2, 0, 1, 1, 6, 2, 0, 0, 0, 3, 0, 0};
    for (size_t rows = 0; rows <= TEMBALKU_ROWS_MOST; rows += rows % 8 == 7 || rows < 9 ? 1 : 7) {
        size_t map = (rows + 7) / 8;
        const input t = {most, 21 + 2 * map};
        most[3] = (uint8_t)(rows & 255);
        most[4] = (uint8_t)(rows >> 8);
        most[16] = (uint8_t)map;
        memset(most + 18, 0xFF, map);
        most[18 + map] = 4;
        most[19 + map] = (uint8_t)map;
        most[20 + map] = 0;
        for (size_t nulls = 0; nulls <= rows; nulls++) {
            if (nulls > 0) most[18 + (nulls - 1) / 8] &= (uint8_t)~(1u << ((nulls - 1) & 7));
            most[13] = (uint8_t)(nulls & 255);
            most[14] = (uint8_t)(nulls >> 8);
            NULL_COUNT(t, 0, TEMBALKU_TABLE_ACCEPTED + nulls);
            most[13] ^= 1;
            NULL_COUNT(t, 0, TEMBALKU_REFUSED_NULL_COUNT);
        }
    }
}

/* 512 rows of a text of 127 bytes are 65,024 bytes, the most that fits so; of 128 bytes they are one too many. */
static void test_text_size(void) {
    static const uint8_t rows_bytes[] = {1, 2, 0, 0, 2};
    uint8_t text_rule[3 + 2 + 6 + 3 + 2 + 128] = {0x19, 0, 0, 0, 1, TRUE, 0x11, 0, 0, 5, 0};
    const input rows = {rows_bytes, sizeof rows_bytes};
    for (uint8_t len = 127; len <= 128; len++) {
        const input r = {text_rule, 16 + (size_t)len};
        text_rule[1] = (uint8_t)(13 + len);
        text_rule[12] = (uint8_t)(2 + len);
        size_t said = EVALUATE(r, rows, TEMBALKU_WORK_BYTES, TEMBALKU_OUTPUT_MOST);
        CHECK(said == (len == 127 ? 65536 + 5 + 5 + 3 + 3 + 4 * 513 + 3 + 127 * 512u : 16u), "text of 512 rows", said);
        said = EVALUATE(r, rows, TEMBALKU_WORK_BYTES, 0);
        CHECK(said == (len == 127 ? 17u : 16u), "text of 512 rows, no output", said);
    }
}

static void test_evaluate(void) {
    size_t said = EVALUATE(rule, table, TEMBALKU_WORK_BYTES, TEMBALKU_OUTPUT_MOST);
    CHECK(said == TEMBALKU_ANSWERED + answer.len, "evaluate", said);
    CHECK(memcmp(output + MARGIN, answer.bytes, answer.len) == 0, "the answer's bytes are others", said);
    said = EVALUATE(rule, table, 70000, answer.len);
    CHECK(said == TEMBALKU_ANSWERED + answer.len, "evaluate with a large work buffer and an output just long enough", said);
    CHECK(memcmp(output + MARGIN, answer.bytes, answer.len) == 0, "the answer's bytes are others", said);
    for (size_t len = 0; len < answer.len; len++) {
        said = EVALUATE(rule, table, TEMBALKU_WORK_BYTES, len);
        CHECK(said == TEMBALKU_REFUSED_OUTPUT_SIZE, "evaluate with too short an output", said);
    }
    said = EVALUATE(rule, no_columns, 0, 0);
    CHECK(said == TEMBALKU_REFUSED_FIT, "evaluate without the rule's column", said);
    said = EVALUATE(rule, table, TEMBALKU_WORK_BYTES - 1, 0);
    CHECK(said == TEMBALKU_REFUSED_WORK_SIZE, "evaluate with too short a work buffer", said);
    said = EVALUATE(rule, no_rows, 0, 0);
    CHECK(said == TEMBALKU_REFUSED_WORK_SIZE, "evaluate without a work buffer", said);
    said = EVALUATE(narrow, too_wide, TEMBALKU_WORK_BYTES, 0);
    CHECK(said == TEMBALKU_REFUSED_CAST, "evaluate with a value that doesn't fit", said);
    said = EVALUATE(rule, no_rows, TEMBALKU_WORK_BYTES, 16);
    CHECK(said == TEMBALKU_ANSWERED + 16, "evaluate over no rows", said);
    test_text_size();
}

/* ---- the helpers ---- */

/* The entries of a column of the table `types`, by every helper: the others than the type's give 0. */
static void check_entry(const struct tembalku_answer *a, size_t row) {
    size_t len;
    int type = a->type, first = row == 0, value = row == 0 || row == 2;
    double float64 = tembalku_answer_float64(a, row), want = type != 4 || !value ? 0.0 : first ? -0.0 : 2.5;
    const uint8_t *text = tembalku_answer_text(a, row, &len);
    CHECK(tembalku_answer_is_null(a, row) == !value, "is_null at row", row);
    CHECK(tembalku_answer_boolean(a, row) == (type == 1 && first), "boolean at row", row);
    CHECK(tembalku_answer_int32(a, row) == (type != 2 || !value ? 0 : first ? -2 : 5), "int32 at row", row);
    CHECK(tembalku_answer_int64(a, row) == (type != 3 || !value ? 0 : first ? -3 : INT64_C(1099511627776)), "int64 at row", row);
    CHECK(memcmp(&float64, &want, sizeof want) == 0, "float64 at row", row);
    CHECK(len == (type == 5 && first ? 4u : 0u) && memcmp(text, "boat", len) == 0, "text at row", row);
}

/* Bytes at the end of a page behind which none can be read. */
static uint8_t *at_page_end(size_t len) {
    static uint8_t *pages;
    size_t size = 65536;
    if (pages == NULL) {
        pages = mmap(NULL, 2 * size, PROT_READ | PROT_WRITE, MAP_PRIVATE | MAP_ANONYMOUS, -1, 0);
        if (pages == MAP_FAILED || mprotect(pages + size, size, PROT_NONE) != 0) {
            printf("no memory for the test\n");
            exit(1);
        }
    }
    return pages + size - len;
}

static volatile unsigned sink;

/* Every helper at rows inside and outside: a read past the answer's bytes ends the program. */
static void touch(const struct tembalku_answer *a) {
    for (size_t row = 0; row <= a->rows + 9; row++) {
        size_t len;
        const uint8_t *text = tembalku_answer_text(a, row, &len);
        for (size_t i = 0; i < len; i++) sink += text[i];
        sink += (unsigned)tembalku_answer_is_null(a, row) + (unsigned)tembalku_answer_boolean(a, row);
        sink += (unsigned)tembalku_answer_int32(a, row) + (unsigned)tembalku_answer_int64(a, row);
        sink += tembalku_answer_float64(a, row) < 1.0;
    }
    sink += (unsigned)a->null_count;
}

/* Bytes with tag 6 behind tag 2 are an answer for the helper where they are a column for the library, and both count the same nulls. */
static void compare_reading(const uint8_t *bytes, size_t len, size_t rows) {
    struct tembalku_answer a;
    int read = tembalku_answer_read(&a, bytes, len, rows);
    size_t said = tembalku_answer_null_count(bytes, len, rows), nulls = 0;
    touch(&a);
    for (size_t row = 0; row < a.rows; row++) nulls += (size_t)tembalku_answer_is_null(&a, row);
    CHECK(a.null_count == nulls, "the helper's null count", a.null_count);
    if (read) {
        CHECK(said == TEMBALKU_ANSWERED + nulls, "answer_null_count of an answer", said);
    } else if (len > 5 && bytes[5] == 6) {
        CHECK(said == 9 || said == 10 || said == 11 || said == 25, "answer_null_count of what is no answer", said);
    }
}

/* An answer that is cut or changed in a byte. Of three rows the second is null. */
static void test_other_bytes(const uint8_t *bytes, size_t len, size_t rows) {
    struct tembalku_answer a;
    for (size_t cut = 0; cut < len; cut++) {
        uint8_t *place = memcpy(at_page_end(cut), bytes, cut);
        CHECK(!tembalku_answer_read(&a, place, cut, rows) && a.type == 0 && a.rows == 0, "an answer cut to", cut);
        CHECK(tembalku_answer_null_count(place, cut, rows) == 9, "answer_null_count of an answer cut to", cut);
        touch(&a);
    }
    uint8_t *place = memcpy(at_page_end(len), bytes, len);
    for (size_t other = 0; other <= 600; other++) {
        int same = other == rows || (bytes[3] == TEMBALKU_BOOLEAN && other == 2);
        CHECK(tembalku_answer_read(&a, place, len, other) == same, "an answer read with other rows", other);
        compare_reading(place, len, other);
    }
    for (size_t i = 0; i < len; i++) {
        for (unsigned b = 0; b < 256; b++) {
            place[i] = (uint8_t)b;
            compare_reading(place, len, rows);
        }
        place[i] = bytes[i];
    }
}

static void check_none(int line, input bytes, size_t rows) {
    struct tembalku_answer a;
    check(!tembalku_answer_read(&a, bytes.bytes, bytes.len, rows) && a.type == 0 && a.rows == 0, line, "bytes that are no answer, rows", rows);
    touch(&a);
}

#define NO_ANSWER(bytes, rows) check_none(__LINE__, bytes, rows)

/* Bytes that are almost an answer. */
static void test_no_answers(void) {
    INPUT(byte_behind, 2, 2, 0, 2, 0, NULLS(0), 3, 0, 0, 4, 4, 0, 7, 0, 0, 0, 0);
    INPUT(type_0, 2, 2, 0, 0, 0, NULLS(0), 3, 0, 0, 4, 8, 0, 7, 0, 0, 0, 0, 0, 0, 0);
    INPUT(type_6, 2, 2, 0, 6, 0, NULLS(0), 3, 0, 0, 4, 8, 0, 7, 0, 0, 0, 0, 0, 0, 0);
    INPUT(mark_2, 2, 2, 0, 2, 2, NULLS(0), 3, 0, 0, 4, 4, 0, 7, 0, 0, 0);
    INPUT(head_of_3, 2, 3, 0, 2, 0, 0, NULLS(0), 3, 0, 0, 4, 4, 0, 7, 0, 0, 0);
    INPUT(long_validity, 2, 2, 0, 2, 1, NULLS(0), 3, 2, 0, 1, 0, 4, 4, 0, 7, 0, 0, 0);
    INPUT(short_validity, 2, 2, 0, 1, 1, NULLS(0), 3, 1, 0, 1, 4, 2, 0, 7, 1);
    INPUT(first_offset_1, 2, 2, 0, 5, 0, NULLS(0), 3, 0, 0, 5, 8, 0, 1, 0, 0, 0, 2, 0, 0, 0, 4, 2, 0, 'a', 'b');
    INPUT(last_offset_1, 2, 2, 0, 5, 0, NULLS(0), 3, 0, 0, 5, 8, 0, 0, 0, 0, 0, 1, 0, 0, 0, 4, 2, 0, 'a', 'b');
    INPUT(offsets_of_number, 2, 2, 0, 2, 0, NULLS(0), 3, 0, 0, 5, 8, 0, 0, 0, 0, 0, 4, 0, 0, 0, 4, 4, 0, 7, 0, 0, 0);
    static const uint8_t many_bytes[16 + 65] = {2, 2, 0, 1, 0, NULLS(0), 3, 0, 0, 4, 65, 0};
    const input many = {many_bytes, sizeof many_bytes};
    NO_ANSWER(byte_behind, 1);
    NO_ANSWER(type_0, 1);
    NO_ANSWER(type_6, 1);
    NO_ANSWER(mark_2, 1);
    NO_ANSWER(head_of_3, 1);
    NO_ANSWER(long_validity, 1);
    NO_ANSWER(short_validity, 9);
    NO_ANSWER(first_offset_1, 1);
    NO_ANSWER(last_offset_1, 1);
    NO_ANSWER(offsets_of_number, 1);
    NO_ANSWER(many, 513);
    NO_ANSWER(many, (size_t)-1);
}

static void check_answer_nulls(int line, input bytes, size_t rows, size_t want) {
    size_t said = tembalku_answer_null_count(bytes.bytes, bytes.len, rows);
    check(said == want, line, "answer_null_count", said);
}

#define ANSWER_NULLS(bytes, rows, want) check_answer_nulls(__LINE__, bytes, rows, want)

/* One row that is null, with counts that are missing, wrong, doubled or misplaced; of two of them the first in the order of FORMAT.md. */
static void test_answer_counts(void) {
    INPUT(right, 2, 2, 0, 1, 1, NULLS(1), 3, 1, 0, 0, 4, 1, 0, 0);
    INPUT(never_null, 2, 2, 0, 1, 0, NULLS(1), 3, 1, 0, 0, 4, 1, 0, 0);
    INPUT(none, 2, 2, 0, 1, 1, 3, 1, 0, 0, 4, 1, 0, 0);
    INPUT(of_0, 2, 2, 0, 1, 1, 6, 0, 0, 3, 1, 0, 0, 4, 1, 0, 0);
    INPUT(of_1, 2, 2, 0, 1, 1, 6, 1, 0, 1, 3, 1, 0, 0, 4, 1, 0, 0);
    INPUT(of_3, 2, 2, 0, 1, 1, 6, 3, 0, 1, 0, 0, 3, 1, 0, 0, 4, 1, 0, 0);
    INPUT(too_few, 2, 2, 0, 1, 1, NULLS(0), 3, 1, 0, 0, 4, 1, 0, 0);
    INPUT(spare_bits, 2, 2, 0, 1, 1, NULLS(8), 3, 1, 0, 0, 4, 1, 0, 0);
    INPUT(high_byte, 2, 2, 0, 1, 1, 6, 2, 0, 1, 1, 3, 1, 0, 0, 4, 1, 0, 0);
    INPUT(twice, 2, 2, 0, 1, 1, NULLS(1), NULLS(1), 3, 1, 0, 0, 4, 1, 0, 0);
    INPUT(behind_3, 2, 2, 0, 1, 1, 3, 1, 0, 0, NULLS(1), 4, 1, 0, 0);
    INPUT(wrong_and_left_over, 2, 2, 0, 1, 1, NULLS(0), 3, 1, 0, 0, 4, 1, 0, 0, 0);
    INPUT(left_over, 2, 2, 0, 1, 1, NULLS(1), 3, 1, 0, 0, 4, 1, 0, 0, 0);
    struct tembalku_answer a;
    CHECK(tembalku_answer_read(&a, right.bytes, right.len, 1) && a.null_count == 1 && a.nullable == 1, "an answer of a null", 1);
    CHECK(tembalku_answer_read(&a, never_null.bytes, never_null.len, 1) && a.null_count == 1 && a.nullable == 0, "a null under the mark", 0);
    NO_ANSWER(none, 1);
    NO_ANSWER(of_0, 1);
    NO_ANSWER(of_1, 1);
    NO_ANSWER(of_3, 1);
    NO_ANSWER(too_few, 1);
    NO_ANSWER(spare_bits, 1);
    NO_ANSWER(high_byte, 1);
    NO_ANSWER(twice, 1);
    NO_ANSWER(behind_3, 1);
    ANSWER_NULLS(right, 1, TEMBALKU_ANSWERED + 1);
    ANSWER_NULLS(never_null, 1, TEMBALKU_ANSWERED + 1);
    ANSWER_NULLS(none, 1, TEMBALKU_ANSWERED + 1);
    ANSWER_NULLS(none, 8, TEMBALKU_ANSWERED + 8);
    ANSWER_NULLS(spare_bits, 8, TEMBALKU_ANSWERED + 8);
    ANSWER_NULLS(of_0, 1, TEMBALKU_REFUSED_NULL_COUNT);
    ANSWER_NULLS(of_1, 1, TEMBALKU_REFUSED_NULL_COUNT);
    ANSWER_NULLS(of_3, 1, TEMBALKU_REFUSED_NULL_COUNT);
    ANSWER_NULLS(too_few, 1, TEMBALKU_REFUSED_NULL_COUNT);
    ANSWER_NULLS(spare_bits, 1, TEMBALKU_REFUSED_NULL_COUNT);
    ANSWER_NULLS(high_byte, 1, TEMBALKU_REFUSED_NULL_COUNT);
    ANSWER_NULLS(wrong_and_left_over, 1, TEMBALKU_REFUSED_NULL_COUNT);
    ANSWER_NULLS(left_over, 1, TEMBALKU_REFUSED_TABLE_FIELDS);
    ANSWER_NULLS(twice, 1, TEMBALKU_REFUSED_TABLE_FIELDS);
    ANSWER_NULLS(behind_3, 1, TEMBALKU_REFUSED_TABLE_FIELDS);
    ANSWER_NULLS(right, 9, TEMBALKU_REFUSED_TABLE_CONTENT);
    ANSWER_NULLS(right, 513, TEMBALKU_REFUSED_TABLE_SIZE);
    ANSWER_NULLS(left_over, (size_t)-1, TEMBALKU_REFUSED_TABLE_SIZE);
}

/* ---- texts ---- */

/* A text, and the place that tembalku_text_validate gives: its length if it is well-formed. */
typedef struct {
    const char *text;
    size_t len, place;
} text_case;

#define FORMED(text) {text, sizeof text - 1, sizeof text - 1}
#define ILL_FORMED(text, place) {text, sizeof text - 1, place}

/* Both ends of each line of the Unicode Standard's table, what lies beyond them, and cut sequences. */
static const text_case texts[] = {
    FORMED(""), FORMED("boat"), FORMED("\0"), FORMED("a\0b"), FORMED("\x7F"), FORMED("Bl\xC3\xA5ne"), FORMED("\xEF\xBB\xBFname"),
    FORMED("\xC2\x80"), FORMED("\xDF\xBF"), FORMED("\xE0\xA0\x80"), FORMED("\xE0\xBF\xBF"), FORMED("\xE1\x80\x80"), FORMED("\xEC\xBF\xBF"),
    FORMED("\xED\x80\x80"), FORMED("\xED\x9F\xBF"), FORMED("\xEE\x80\x80"), FORMED("\xEF\xBF\xBF"), FORMED("\xEF\xB7\x90"),
    FORMED("\xF0\x90\x80\x80"), FORMED("\xF0\xBF\xBF\xBF"), FORMED("\xF1\x80\x80\x80"), FORMED("\xF3\xBF\xBF\xBF"),
    FORMED("\xF4\x80\x80\x80"), FORMED("\xF4\x8F\xBF\xBF"), FORMED("\xE6\xBC\xA2\xE5\xAD\x97 \xF0\x9F\x9A\xA2"),
    ILL_FORMED("\x80", 0), ILL_FORMED("\xBF", 0), ILL_FORMED("a\x80", 1), ILL_FORMED("\xC0\x80", 0), ILL_FORMED("\xC1\xBF", 0),
    ILL_FORMED("\xC2\x7F", 0), ILL_FORMED("\xC2\xC0", 0), ILL_FORMED("\xDF\x7F", 0), ILL_FORMED("\xE0\x9F\xBF", 0), ILL_FORMED("\xE0\xC0\x80", 0),
    ILL_FORMED("\xE1\x7F\x80", 0), ILL_FORMED("\xE1\x80\x7F", 0), ILL_FORMED("\xEC\xC0\x80", 0), ILL_FORMED("\xED\xA0\x80", 0),
    ILL_FORMED("\xED\xBF\xBF", 0), ILL_FORMED("\xEF\xBF\xC0", 0), ILL_FORMED("\xF0\x8F\xBF\xBF", 0), ILL_FORMED("\xF0\x90\x7F\x80", 0),
    ILL_FORMED("\xF0\x90\x80\x7F", 0), ILL_FORMED("\xF3\xC0\x80\x80", 0), ILL_FORMED("\xF4\x90\x80\x80", 0), ILL_FORMED("\xF4\x7F\x80\x80", 0),
    ILL_FORMED("\xF5\x80\x80\x80", 0), ILL_FORMED("\xF8\x88\x80\x80\x80", 0), ILL_FORMED("\xFE", 0), ILL_FORMED("\xFF", 0),
    ILL_FORMED("\xC3", 0), ILL_FORMED("\xE6\xBC", 0), ILL_FORMED("\xE6", 0), ILL_FORMED("\xF0\x9F\x9A", 0), ILL_FORMED("\xF0\x9F", 0),
    ILL_FORMED("\xF0", 0), ILL_FORMED("Bl\xE5ne", 2), ILL_FORMED("Bl\xC3", 2), ILL_FORMED("Bl\xC3\xA5\xA5", 4), ILL_FORMED("\xE6\xBC\xA2\xE5\xAD", 3),
    ILL_FORMED("12345678\xE5", 8), ILL_FORMED("1234567\xC3\xA5\xFF", 9), ILL_FORMED("a\xED\xA0\x80\xED\xB0\x80", 1)};

/* A text at the end of a page. */
static void test_text(text_case t) {
    const uint8_t *bytes = memcpy(at_page_end(t.len), t.text, t.len);
    CHECK(tembalku_text_validate(bytes, t.len) == t.place, "text_validate", tembalku_text_validate(bytes, t.len));
}

/* A text of characters of one to four bytes, cut at each place: the place of the character that is cut. */
static void test_cut_texts(void) {
    static const text_case name = FORMED("a\xC3\xA5\xE6\xBC\xA2\xF0\x9F\x9A\xA2");
    for (size_t cut = 0; cut <= name.len; cut++) {
        int between = cut == 0 || cut == 1 || cut == 3 || cut == 6 || cut == 10;
        size_t place = tembalku_text_validate((const uint8_t *)name.text, cut);
        CHECK(place == (between ? cut : cut < 3 ? 1u : cut < 6 ? 3u : 6u), "the place of a cut character", place);
    }
}

/* A byte that is wrong at each place of letters, of each length up to 40, at the end of a page; and none that is. */
static void test_long_texts(void) {
    static const uint8_t wrong[] = {0x80, 0xC3, 0xE5, 0xF4, 0xFF};
    for (size_t len = 0; len <= 40; len++) {
        uint8_t *text = memset(at_page_end(len), 'a', len);
        CHECK(tembalku_text_validate(text, len) == len, "letters", len);
        for (size_t place = 0; place < len; place++) {
            for (size_t i = 0; i < sizeof wrong; i++) {
                text[place] = wrong[i];
                CHECK(tembalku_text_validate(text, len) == place, "a wrong byte at", place);
            }
            text[place] = 'a';
        }
    }
}

static void test_texts(void) {
    for (size_t i = 0; i < sizeof texts / sizeof *texts; i++) test_text(texts[i]);
    test_cut_texts();
    test_long_texts();
}

static void test_helpers(void) {
    struct tembalku_answer a;
    const input r = {column_rule, sizeof column_rule};
    for (uint8_t type = 1; type <= 5; type++) {
        column_rule[14] = (uint8_t)(type - 1);
        column_rule[15] = type;
        size_t said = EVALUATE(r, types, TEMBALKU_WORK_BYTES, TEMBALKU_OUTPUT_MOST);
        CHECK(said > TEMBALKU_ANSWERED, "the column's rule", said);
        int read = tembalku_answer_read(&a, output + MARGIN, said - TEMBALKU_ANSWERED, 3);
        CHECK(read && a.type == type && a.nullable == 1 && a.rows == 3 && a.null_count == 1, "answer_read", type);
        for (size_t row = 0; row < 5; row++) check_entry(&a, row);
        test_other_bytes(output + MARGIN, said - TEMBALKU_ANSWERED, 3);
    }
    CHECK(tembalku_answer_read(&a, answer.bytes, answer.len, 4) && a.validity == NULL && a.null_count == 0, "an answer without nulls", a.rows);
    CHECK(tembalku_answer_int32(&a, 0) == 1 && tembalku_answer_int32(&a, 1) == 0 && tembalku_answer_int32(&a, 3) == 1, "its entries", a.rows);
}

/* Twenty Booleans, whose bits lie in three bytes: null at every third row, true at two in five of the others. */
static void test_bits(void) {
    INPUT(bits, 2, 2, 0, 1, 1, NULLS(7), 3, 3, 0, 0xB6, 0x6D, 0x0B, 4, 3, 0, 0x22, 0x0C, 0x01);
    struct tembalku_answer a;
    CHECK(tembalku_answer_read(&a, bits.bytes, bits.len, 20) && a.null_count == 7, "an answer of rows", 20);
    for (size_t row = 0; row < 20; row++) {
        CHECK(tembalku_answer_is_null(&a, row) == (row % 3 == 0), "is_null at row", row);
        CHECK(tembalku_answer_boolean(&a, row) == (row % 3 != 0 && row % 5 < 2), "boolean at row", row);
    }
}

/* Answers without entries: of a Boolean, and of text, which has one offset. */
static void test_no_entries(void) {
    INPUT(boolean, 2, 2, 0, 1, 1, NULLS(0), 3, 0, 0, 4, 0, 0);
    INPUT(text, 2, 2, 0, 5, 0, NULLS(0), 3, 0, 0, 5, 4, 0, 0, 0, 0, 0, 4, 0, 0);
    struct tembalku_answer a;
    CHECK(tembalku_answer_read(&a, boolean.bytes, boolean.len, 0) && a.type == 1 && a.nullable == 1, "no Booleans", 0);
    touch(&a);
    const uint8_t *place = memcpy(at_page_end(text.len), text.bytes, text.len);
    CHECK(tembalku_answer_read(&a, place, text.len, 0) && a.type == 5 && a.nullable == 0, "no texts", 0);
    touch(&a);
}

/* As many rows as there can be. */
static void test_most_rows(void) {
    static const uint8_t most[16 + TEMBALKU_ROWS_MOST / 8] = {2, 2, 0, 1, 0, NULLS(0), 3, 0, 0, 4, TEMBALKU_ROWS_MOST / 8, 0};
    struct tembalku_answer a;
    CHECK(tembalku_answer_read(&a, most, sizeof most, TEMBALKU_ROWS_MOST) && a.rows == TEMBALKU_ROWS_MOST, "an answer of rows", TEMBALKU_ROWS_MOST);
    touch(&a);
}

static void test_sentences(void) {
    for (uint32_t number = 1; number <= 21; number++) CHECK(strlen(tembalku_refusal_sentence(number)) > 20, "no sentence", number);
    CHECK(strlen(tembalku_refusal_sentence(25)) > 20, "no sentence", 25);
    CHECK(strcmp(tembalku_refusal_sentence(0), "") == 0, "a sentence for", 0);
    CHECK(strcmp(tembalku_refusal_sentence(22), "") == 0, "a sentence for", 22);
    CHECK(strcmp(tembalku_refusal_sentence(65537), "") == 0, "a sentence for", 65537);
}

int main(void) {
    test_refused_rules();
    test_refused_tables();
    test_refused_counts();
    test_rules();
    test_tables();
    test_null_counts();
    test_all_null_counts();
    test_evaluate();
    test_helpers();
    test_no_answers();
    test_answer_counts();
    test_texts();
    test_bits();
    test_no_entries();
    test_most_rows();
    test_sentences();
    printf("%u checks of the library, %u failed\n", checks, failures);
    return failures != 0;
}
