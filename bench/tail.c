/* 4,096 peaks sorted and summed over all of them by the library (chim_tail_fit), beside plain C that sorts a copy by
 * qsort and adds up log2: microseconds, best of several runs, for lists of several kinds. The copies must agree, and
 * the sums within what the library promises. */
#include <math.h>
#include <stdint.h>
#include <stdio.h>
#include <stdlib.h>
#include <string.h>
#include <time.h>

#include "chimenickel.h"

double plain_fit(const uint32_t *peaks, size_t n, size_t k, uint32_t *sorted);

enum { PEAKS = 4096, RUNS = 1000 };

static double now(void) {
    struct timespec t;
    clock_gettime(CLOCK_MONOTONIC, &t);
    return t.tv_sec * 1e6 + t.tv_nsec / 1e3;
}

static int downwards(const void *a, const void *b) {
    uint32_t x = *(const uint32_t *)a, y = *(const uint32_t *)b;
    return (x < y) - (x > y);
}

static void fill(uint32_t *peaks, const char *kind) {
    uint32_t seed = 12345;
    for (size_t i = 0; i < PEAKS; i++) {
        seed = seed * 1664525u + 1013904223u;
        peaks[i] = *kind == 'e' ? 777 : 1 + (seed >> 8) % (*kind == 'f' ? 100 : 1000000);
    }
    if (*kind == 'd' || *kind == 'u')
        qsort(peaks, PEAKS, sizeof *peaks, downwards);
    for (size_t i = 0; *kind == 'u' && i < PEAKS / 2; i++) {
        uint32_t x = peaks[i];
        peaks[i] = peaks[PEAKS - 1 - i], peaks[PEAKS - 1 - i] = x;
    }
}

int main(void) {
    static const char *const kinds[] = {"any order", "few values", "downwards", "upwards", "equal"};
    static uint32_t peaks[PEAKS], ours[PEAKS], theirs[PEAKS];
    printf("%-12s %10s %10s %12s\n", "peaks", "fit", "plain C", "plain/fit");
    for (size_t kind = 0; kind < sizeof kinds / sizeof *kinds; kind++) {
        fill(peaks, kinds[kind]);
        double fit = 1e18, plain = 1e18;
        for (int run = 0; run < RUNS; run++) {
            uint64_t sum;
            double t0 = now();
            uint64_t answer = chim_tail_fit(peaks, PEAKS, PEAKS, ours, PEAKS, &sum);
            double t1 = now();
            double exact = plain_fit(peaks, PEAKS, PEAKS, theirs);
            double t2 = now();
            if (answer != CHIM_TAKEN || memcmp(ours, theirs, sizeof ours) != 0 || fabs(exact - sum) > 2.0 * PEAKS) {
                printf("the two differ: %llu, %.0f and %.0f\n", (unsigned long long)answer, (double)sum, exact);
                return 1;
            }
            if (t1 - t0 < fit) fit = t1 - t0;
            if (t2 - t1 < plain) plain = t2 - t1;
        }
        printf("%-12s %7.1f us %7.1f us %12.2f\n", kinds[kind], fit, plain, plain / fit);
    }
    return 0;
}
