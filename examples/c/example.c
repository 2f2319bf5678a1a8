/* Evaluates a rule over a table, both held in memory, and prints the answer's entries. Their bytes: docs/FORMAT.md. */
#include <inttypes.h>
#include <stdio.h>
#include <string.h>

#include "tembalku.h"

/* CASE WHEN c0 THEN 1 ELSE 0 END */
static const uint8_t rule[] = {0x19, 0x1A, 0x00, 0x02, 0x01, 0x10, 0x03, 0x00, 0x00, 0x01, 0x01, 0x11, 0x06, 0x00, 0x02,
                               0x00, 0x01, 0x00, 0x00, 0x00, 0x11, 0x06, 0x00, 0x02, 0x00, 0x00, 0x00, 0x00, 0x00};
/* four rows, one Boolean column, of which one row is null: true, null, false, true */
static const uint8_t table[] = {0x01, 0x02, 0x00, 0x04, 0x00, 0x02, 0x02, 0x00, 0x01, 0x01, 0x06, 0x02,
                                0x00, 0x01, 0x00, 0x03, 0x01, 0x00, 0x0D, 0x04, 0x01, 0x00, 0x09};

static uint8_t work[TEMBALKU_WORK_BYTES];
static uint8_t output[TEMBALKU_OUTPUT_MOST];

/* Prints the value of an entry that isn't null as the program caserun lists it. */
static void print_value(const struct tembalku_answer *answer, size_t row) {
    if (answer->type == TEMBALKU_BOOLEAN) {
        printf(tembalku_answer_boolean(answer, row) ? "true" : "false");
    } else if (answer->type == TEMBALKU_INT32) {
        printf("%" PRId32, tembalku_answer_int32(answer, row));
    } else if (answer->type == TEMBALKU_INT64) {
        printf("%" PRId64, tembalku_answer_int64(answer, row));
    } else if (answer->type == TEMBALKU_FLOAT64) {
        double value = tembalku_answer_float64(answer, row);
        uint64_t bits;
        memcpy(&bits, &value, sizeof bits);
        printf("%016" PRIx64, bits);
    } else {
        size_t len;
        const uint8_t *text = tembalku_answer_text(answer, row, &len);
        putchar('t');
        for (size_t i = 0; i < len; i++) printf("%02x", text[i]);
    }
}

/* Prints the whole listing of an answer. */
static void list(const struct tembalku_answer *answer) {
    printf("rows %zu type %d nullable %d\n", answer->rows, answer->type, answer->nullable);
    for (size_t row = 0; row < answer->rows; row++) {
        printf("%zu ", row);
        if (tembalku_answer_is_null(answer, row)) {
            printf("null");
        } else {
            print_value(answer, row);
        }
        putchar('\n');
    }
}

int main(void) {
    struct tembalku_answer answer;
    size_t said = tembalku_evaluate(rule, sizeof rule, table, sizeof table, work, sizeof work, output, sizeof output);
    if (said < TEMBALKU_RULE_ACCEPTED) {
        printf("refused %zu: %s\n", said, tembalku_refusal_sentence((uint32_t)said));
        return 1;
    }
    if (!tembalku_answer_read(&answer, output, said - TEMBALKU_ANSWERED, tembalku_table_rows(table, sizeof table))) {
        printf("no answer\n");
        return 1;
    }
    list(&answer);
    printf("nulls: %zu in column 0, %zu in the answer\n", tembalku_table_null_count(table, sizeof table, 0) - TEMBALKU_TABLE_ACCEPTED,
           answer.null_count);
    return 0;
}
