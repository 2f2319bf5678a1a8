/* bench time|once rule|table FILE: reads a rule or a table through the library, outside of the gate.
 *
 * time  prints the answer and the nanoseconds of a reading, the best of several rounds
 * once  reads it once, for a count of its instructions */
#include <stdint.h>
#include <stdio.h>
#include <stdlib.h>
#include <string.h>
#include <time.h>

#include "tembalku.h"

typedef uint32_t reading(const uint8_t *, size_t);

static double now(void) {
    struct timespec t;
    clock_gettime(CLOCK_MONOTONIC, &t);
    return t.tv_sec * 1e9 + t.tv_nsec;
}

static uint8_t *load(const char *path, size_t *size) {
    FILE *f = fopen(path, "rb");
    if (!f) { perror(path); exit(1); }
    fseek(f, 0, SEEK_END);
    *size = ftell(f);
    rewind(f);
    uint8_t *b = malloc(*size + 1);
    if (fread(b, 1, *size, f) != *size) { perror(path); exit(1); }
    fclose(f);
    return b;
}

static double best(reading *read, const uint8_t *bytes, size_t size) {
    volatile uint32_t said = 0;
    double least = 1e18;
    for (int round = 0; round < 20; round++) {
        int times = 200;
        double start = now();
        for (int k = 0; k < times; k++) said = read(bytes, size);
        double took = (now() - start) / times;
        if (took < least) least = took;
    }
    (void)said;
    return least;
}

int main(int count, char **args) {
    if (count != 4) { fputs("usage: bench time|once rule|table FILE\n", stderr); return 2; }
    size_t size;
    uint8_t *bytes = load(args[3], &size);
    reading *read = strcmp(args[2], "table") == 0 ? tembalku_table_read : tembalku_rule_read;
    uint32_t said = read(bytes, size);
    if (strcmp(args[1], "time") == 0) printf("%u %.0f\n", said, best(read, bytes, size));
    free(bytes);
    return 0;
}
