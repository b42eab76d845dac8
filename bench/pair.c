/* bench/pair.c STEP RAMP LEVEL DECORRELATION ACCELERATION: what bench/pair measures the program for two files against,
 * in plain C with the same promise: the roll's comma file on standard input and the acceleration's on descriptor 4,
 * each through a buffer of 64 KiB, a line of each in turn; one line to standard output. It refuses what the program
 * refuses, in the same order: 1, 10, 12, 2, 3, 4. */
#include <stdbool.h>
#include <stdint.h>
#include <stdio.h>
#include <stdlib.h>
#include <string.h>
#include <unistd.h>

#include "line.h"

typedef struct {
    int from;
    bool over;
    size_t at, end;
    uint8_t text[65536];
} File;

enum { LINE, END, WRONG };

/* The next line, of the time `want`. None has more than 31 bytes. */
static inline int next(File *f, uint64_t want, int64_t *x) {
    while (f->end - f->at < 31 && !f->over) {
        memmove(f->text, f->text + f->at, f->end - f->at);
        f->end -= f->at;
        f->at = 0;
        ssize_t got = read(f->from, f->text + f->end, sizeof f->text - f->end);
        if (got < 0) exit(2);
        f->over = got == 0;
        f->end += (size_t)got;
    }
    if (f->at == f->end) return END;
    size_t place = line(f->text, f->end, f->at, want, x);
    if (!place) return WRONG;
    f->at = place;
    return LINE;
}

static int refused(uint64_t line, int number, int more) {
    printf("refused\t%llu\t%d", (unsigned long long)line, number);
    if (more) printf("\t%d", more);
    putchar('\n');
    return 1;
}

static bool bad(int64_t x) { return x > 1000000 || x < -1000000; }

int main(int argc, char **argv) {
    static File roll = {.from = 0}, acceleration = {.from = 4};
    if (argc != 6) return 2;
    uint64_t item[5];
    const uint64_t low[] = {1, 0, 1, 0, 1}, high[] = {10000, 1000000, 1000000, 10000000, 1000000};
    const int number[] = {1, 2, 3, 4, 6};
    for (int k = 0; k < 5; k++) {
        item[k] = strtoull(argv[k + 1], 0, 10);
        if (item[k] < low[k] || item[k] > high[k]) return refused(0, 1, number[k]);
    }
    uint64_t step = item[0], ramp = item[1], level = item[2], apart = item[3], beside = item[4];
    uint64_t i = 0, outside = 0, crossings = 0, groups = 0, largest = 0, last_crossing = 0, last_chosen = 0, first = 0;
    int channel = 0, left, right;
    bool before = false;
    for (;; i++) {
        int64_t x = 0, y = 0;
        left = next(&roll, i * step, &x);
        if (left == WRONG) return refused(i + 1, 10, 1);
        right = next(&acceleration, i * step, &y);
        if (right == WRONG) return refused(i + 1, 10, 2);
        if (left == END || right == END) break;
        if (!outside && (bad(x) || bad(y))) {
            outside = i + 1;
            channel = bad(x) ? 1 : 2;
        }
        bool above = (uint64_t)llabs(x) > level || (uint64_t)llabs(y) > beside;
        if (above && !before && i > ramp) {
            if (crossings == 0 || (i - last_chosen) * step >= apart) {
                largest++;
                last_chosen = i;
            }
            groups += crossings == 0 || (i - last_crossing) * step >= apart;
            if (crossings++ == 0) first = i;
            last_crossing = i;
        }
        before = above;
    }
    /* of the longer file all lines are judged, too */
    if (left != right) {
        int64_t x = 0;
        File *longer = left == LINE ? &roll : &acceleration;
        int came;
        uint64_t k = i + 1;
        while ((came = next(longer, k * step, &x)) == LINE) k++;
        return came == WRONG ? refused(k + 1, 10, left == LINE ? 1 : 2) : refused(0, 12, 0);
    }
    if (outside) return refused(outside, 2, channel);
    if (i > ramp + 1 + 10000000 / step) return refused(0, 3, 0);
    if (i < ramp + 2) return refused(0, 4, 0);
    uint64_t last = (crossings ? first : i - 1) - ramp;
    printf("%llu\t%llu\t%llu\t%llu\t", (unsigned long long)i, (unsigned long long)crossings,
           (unsigned long long)groups, (unsigned long long)largest);
    if (crossings)
        printf("%llu\t", (unsigned long long)((first - ramp) * step));
    else
        printf("-\t");
    printf("%llu\n", (unsigned long long)(last * step));
    return 0;
}
