/* 4,096 peaks in any order sorted and summed by the library (chim_tail_fit), and the same with the rate beyond the
 * records from the sorted list after it (chim_extrapolate), for tails of several lengths: microseconds, best of several
 * runs. */
#include <stdint.h>
#include <stdio.h>

#include "chimenickel.h"
#include "clock.h"

enum { PEAKS = 4096, RUNS = 1000 };

int main(void) {
    static const uint64_t tails[] = {41, 512, PEAKS};
    static uint32_t peaks[PEAKS], sorted[PEAKS];
    uint32_t seed = 12345;
    for (size_t i = 0; i < PEAKS; i++) {
        seed = seed * 1664525u + 1013904223u;
        peaks[i] = 20000 + (seed >> 8) % 15000;
    }
    printf("%-12s %10s %12s %10s %10s\n", "tail", "fit", "extrapolate", "both", "both/fit");
    for (size_t i = 0; i < sizeof tails / sizeof *tails; i++) {
        double fit = 1e18, beyond = 1e18, both = 1e18;
        for (int run = 0; run < RUNS; run++) {
            uint64_t sum, letter, times[CHIM_TIMES_NUMBERS];
            double t0 = now();
            uint64_t fitted = chim_tail_fit(peaks, PEAKS, tails[i], sorted, PEAKS, &sum);
            double t1 = now();
            uint64_t answer = chim_extrapolate(sorted, PEAKS, tails[i], 40000, 500, 1000000, 7200000, times, CHIM_TIMES_NUMBERS, &letter);
            double t2 = now();
            if (fitted != CHIM_TAKEN || answer != CHIM_TAKEN) {
                printf("refused: %llu, %llu\n", (unsigned long long)fitted, (unsigned long long)answer);
                return 1;
            }
            least(&fit, t1 - t0), least(&beyond, t2 - t1), least(&both, t2 - t0);
        }
        printf("%-12llu %7.1f us %9.1f us %7.1f us %10.2f\n", (unsigned long long)tails[i], fit / 1e3, beyond / 1e3, both / 1e3, both / fit);
    }
    return 0;
}
