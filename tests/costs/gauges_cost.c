/*
 * Comparisons whose instructions callgrind counts: gauges_cost CASE makes the
 * lists and the call, and prints rows read and lines written.
 */
#include <stdio.h>
#include <stdlib.h>
#include <string.h>

#include "kagutin_gauges.h"

enum { MOST = KAGUTIN_MAX_READINGS };

struct shape {
    const char *name;
    unsigned rows[2], from[2], step[2];
};

static const struct shape shapes[] = {
    {"equal", {MOST, MOST}, {0, 0}, {1, 1}},    {"in-turn", {MOST, MOST}, {0, 1}, {2, 2}},
    {"apart", {MOST, MOST}, {0, MOST}, {1, 1}}, {"first-only", {MOST, 0}, {0, 0}, {1, 1}},
    {"sparse", {MOST, 48}, {0, 0}, {1, 30}},    {"one-row", {0, 1}, {0, 0}, {1, 1}},
};

static size_t fill(uint8_t *strip, unsigned rows, unsigned from, unsigned step)
{
    unsigned i;

    for (i = 0; i < rows; i++, strip += KAGUTIN_READING_SIZE) {
        unsigned minute = from + i * step, level = 1000 + i * 37 % 100;

        strip[0] = (uint8_t)(minute & 0xff);
        strip[1] = (uint8_t)(minute >> 8);
        strip[2] = (uint8_t)(level & 0xff);
        strip[3] = (uint8_t)(level >> 8);
    }
    return (size_t)rows * KAGUTIN_READING_SIZE;
}

int main(int count, char **words)
{
    static uint8_t first[KAGUTIN_READING_SIZE * MOST], second[KAGUTIN_READING_SIZE * MOST], report[2 * KAGUTIN_LINE_SIZE * MOST];
    size_t i;

    for (i = 0; i < sizeof shapes / sizeof shapes[0]; i++) {
        const struct shape *shape = &shapes[i];
        size_t a, b;
        struct kagutin_comparison result;

        if (count == 1) {
            puts(shape->name);
            continue;
        }
        if (strcmp(words[1], shape->name) != 0)
            continue;
        a = fill(first, shape->rows[0], shape->from[0], shape->step[0]);
        b = fill(second, shape->rows[1], shape->from[1], shape->step[1]);
        result = kagutin_compare_gauges(first, a, second, b, report, sizeof report, 20);
        printf("%u %llu\n", shape->rows[0] + shape->rows[1],
               (unsigned long long)(result.agreeing + result.differing + result.only_first + result.only_second));
        return result.code != 0;
    }
    return count != 1;
}
