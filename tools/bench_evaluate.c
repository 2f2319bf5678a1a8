/* bench_evaluate time|answer|once RULE TABLE: evaluates the rule of one file over the table of another through the library.
 *
 * time    prints the strategy and the median nanoseconds of a whole call, of reading the rule, of reading the table and of clearing the work buffer
 * answer  prints the answer's bytes in hex, or `refused` and the number
 * once    only evaluates, for counting instructions and measuring the stack
 *
 * The exit status is 1 for a refusal.
 */
#include <stdio.h>
#include <stdlib.h>
#include <string.h>
#include <time.h>
#include "tembalku.h"

#define SAMPLES 20000

static uint8_t rule[5000], table[70000], work[TEMBALKU_WORK_BYTES], output[TEMBALKU_OUTPUT_MOST];
static size_t rule_length, table_length;
static volatile size_t said;
static double samples[SAMPLES];

static size_t load(const char *path, uint8_t *to, size_t most) {
    FILE *f = fopen(path, "rb");
    if (!f) exit(2);
    size_t n = fread(to, 1, most, f);
    fclose(f);
    return n;
}

static double now(void) {
    struct timespec t;
    clock_gettime(CLOCK_MONOTONIC, &t);
    return t.tv_sec * 1e9 + t.tv_nsec;
}

static void whole(void) { said = tembalku_evaluate(rule, rule_length, table, table_length, work, sizeof work, output, sizeof output); }
static void read_rule(void) { said = tembalku_rule_read(rule, rule_length); }
static void read_table(void) { said = tembalku_table_read(table, table_length); }
static void clear(void) { memset(work, 0, sizeof work); __asm__ volatile("" ::"r"(work) : "memory"); }

static int rising(const void *a, const void *b) {
    double x = *(const double *)a, y = *(const double *)b;
    return (x > y) - (x < y);
}

/* The median of samples of about 50 microseconds, after a fifth of the time for warming up. */
static double median(void (*call)(void), double seconds) {
    long warm = 0, count = 0;
    double from = now();
    while (now() - from < seconds * 2e8) call(), warm++;
    long calls = (long)(warm * 5e4 / (seconds * 2e8));
    if (calls < 1) calls = 1;
    for (from = now(); count < SAMPLES && now() - from < seconds * 1e9; count++) {
        double start = now();
        for (long i = 0; i < calls; i++) call();
        samples[count] = (now() - start) / calls;
    }
    qsort(samples, count, sizeof samples[0], rising);
    return samples[count / 2];
}

static void print_answer(size_t answer) {
    if (answer < TEMBALKU_ANSWERED) {
        printf("refused %zu\n", answer);
        return;
    }
    for (size_t i = 0; i < answer - TEMBALKU_ANSWERED; i++) printf("%02x", output[i]);
    printf("\n");
}

int main(int argc, char **argv) {
    if (argc != 4) return 2;
    rule_length = load(argv[2], rule, sizeof rule), table_length = load(argv[3], table, sizeof table);
    whole();
    size_t answer = said;
    if (!strcmp(argv[1], "answer")) print_answer(answer);
    if (!strcmp(argv[1], "time")) {
        double times[] = {median(whole, 1), median(read_rule, 0.2), median(read_table, 0.2), median(clear, 0.2)};
        unsigned strategy = tembalku_rule_strategy(rule, rule_length) - TEMBALKU_RULE_ACCEPTED;
        printf("%u %.0f %.0f %.0f %.0f\n", strategy, times[0], times[1], times[2], times[3]);
    }
    return answer < TEMBALKU_ANSWERED;
}
