/* stream_library < FRAMES: the library's answers to many cases, for compare_rust.py. A frame is a length of 4 bytes, little-endian, and a
 * rule, then the same for a table. Each gives three lines: the answers to the rule (reading, strategy, nullability, projection with its
 * count), as the header has them; `refused` with the number or the answer's bytes in hex; and what is said of null counts: of the table's
 * columns, up to the first that isn't there, and of the answer, or 0. */
#include <stdio.h>
#include <stdlib.h>
#include "tembalku.h"

static uint8_t work[TEMBALKU_WORK_BYTES], output[TEMBALKU_OUTPUT_MOST], columns[TEMBALKU_PROJECTION_MOST];

/* The bytes of the next part of a frame, in memory of exactly that length; NULL at the end. */
static uint8_t *part(size_t *length) {
    uint8_t head[4];
    if (fread(head, 1, 4, stdin) != 4) return NULL;
    *length = head[0] | head[1] << 8 | head[2] << 16 | (size_t)head[3] << 24;
    uint8_t *bytes = malloc(*length ? *length : 1);
    if (!bytes || fread(bytes, 1, *length, stdin) != *length) exit(2);
    return bytes;
}

static void about_rule(const uint8_t *rule, size_t length) {
    printf("%u %u %u", tembalku_rule_read(rule, length), tembalku_rule_strategy(rule, length), tembalku_rule_nullable(rule, length));
    size_t count = tembalku_rule_projection(rule, length, columns, sizeof columns);
    printf(" %zu", count);
    for (size_t i = 0; i + TEMBALKU_RULE_ACCEPTED < count; i++) printf(" %u", columns[i]);
    putchar('\n');
}

static size_t evaluate(const uint8_t *rule, size_t rule_length, const uint8_t *table, size_t table_length) {
    static const char digits[] = "0123456789abcdef";
    size_t said = tembalku_evaluate(rule, rule_length, table, table_length, work, sizeof work, output, sizeof output);
    if (said < TEMBALKU_ANSWERED) {
        printf("refused %zu\n", said);
        return said;
    }
    for (size_t i = 0; i < said - TEMBALKU_ANSWERED; i++) {
        putchar(digits[output[i] >> 4]);
        putchar(digits[output[i] & 15]);
    }
    putchar('\n');
    return said;
}

static void about_nulls(const uint8_t *table, size_t length, size_t said) {
    size_t column = 0, nulls;
    do {
        nulls = tembalku_table_null_count(table, length, column++);
        printf("%zu ", nulls);
    } while (nulls >= TEMBALKU_TABLE_ACCEPTED);
    size_t rows = tembalku_table_rows(table, length);
    printf("%zu\n", said < TEMBALKU_ANSWERED ? 0 : tembalku_answer_null_count(output, said - TEMBALKU_ANSWERED, rows));
}

int main(void) {
    size_t rule_length, table_length;
    for (uint8_t *rule; (rule = part(&rule_length)) != NULL;) {
        uint8_t *table = part(&table_length);
        if (!table) return 2;
        about_rule(rule, rule_length);
        about_nulls(table, table_length, evaluate(rule, rule_length, table, table_length));
        free(rule);
        free(table);
    }
    return 0;
}
