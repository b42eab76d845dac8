/* The envelope peaks of a record of 10,000,001 samples by the library (chim_envelope_find), beside plain C that goes
 * over it in the same passes: nanoseconds a sample, best of several runs, for rolls of several periods. The answers
 * must agree. */
#include <math.h>
#include <stddef.h>
#include <stdint.h>
#include <stdio.h>
#include <stdlib.h>
#include <string.h>

#include "chimenickel.h"
#include "clock.h"

uint64_t plain_envelope(uint64_t step, uint64_t ramp, uint64_t tau, const int32_t *samples, size_t n, uint32_t *sizes, uint32_t *times, size_t places);

enum { SAMPLES = 10000001, STEP = 1, RAMP = 0, RUNS = 9 };

/* a roll of that many samples a period, its amplitude swelling and sinking, with some noise; 0 for noise alone, which
 * changes its sign at any sample */
static void fill(int32_t *samples, double period) {
    uint32_t seed = 12345;
    for (size_t i = 0; i < SAMPLES; i++) {
        seed = seed * 1664525u + 1013904223u;
        double noise = (int32_t)(seed >> 16) % 2001 - 1000;
        if (period == 0)
            samples[i] = (int32_t)(noise * 10);
        else {
            double wide = 12000 + 7000 * sin(i / (period * 2.3)) + 4000 * sin(i / (period * 0.71));
            samples[i] = (int32_t)(wide * sin(i * 6.283185307 / period) + noise * (period > 1000 ? 0 : 0.2));
        }
    }
}

int main(void) {
    static const struct {
        const char *name;
        double period;
        uint64_t tau;
    } kinds[] = {{"12,000 a period", 12000, 30000}, {"1,200 a period", 1200, 3000}, {"120 a period", 120, 300}, {"24 a period", 24, 60}, {"24 a period, tau 0", 24, 0},
                 {"noise alone", 0, 10}};
    int32_t *samples = malloc(SAMPLES * sizeof *samples);
    uint32_t *sizes = calloc(SAMPLES, sizeof *sizes), *times = calloc(SAMPLES, sizeof *times);
    uint32_t *theirs = calloc(SAMPLES, sizeof *theirs), *moments = calloc(SAMPLES, sizeof *moments);
    if (samples == NULL || sizes == NULL || times == NULL || theirs == NULL || moments == NULL)
        return 1;
    printf("%-20s %9s %9s %9s %10s\n", "samples", "peaks", "find", "plain C", "plain/find");
    for (size_t k = 0; k < sizeof kinds / sizeof *kinds; k++) {
        fill(samples, kinds[k].period);
        double find = 1e18, plain = 1e18;
        uint64_t number = 0;
        for (int run = 0; run < RUNS; run++) {
            double t0 = now();
            uint64_t answer = chim_envelope_find(STEP, RAMP, kinds[k].tau, samples, SAMPLES, sizes, SAMPLES, times, SAMPLES, &number);
            double t1 = now();
            uint64_t handed = plain_envelope(STEP, RAMP, kinds[k].tau, samples, SAMPLES, theirs, moments, SAMPLES);
            double t2 = now();
            if (answer != CHIM_TAKEN || number != handed || memcmp(sizes, theirs, handed * sizeof *sizes) != 0 ||
                memcmp(times, moments, handed * sizeof *times) != 0) {
                printf("the answers differ\n");
                return 1;
            }
            least(&find, t1 - t0);
            least(&plain, t2 - t1);
        }
        printf("%-20s %9llu %9.2f %9.2f %10.2f\n", kinds[k].name, (unsigned long long)number, find / SAMPLES, plain / SAMPLES, plain / find);
    }
    return 0;
}
