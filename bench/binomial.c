/* bench/binomial.c: records added to a sum, and the bounds and rates of sums, by the library (chim_sum_add,
 * chim_sum_bounds, chim_sum_rates) and by plain C: nanoseconds a call, the best of several runs in turn. Both have to
 * come to the same. */
#include <stdint.h>
#include <stdio.h>
#include <string.h>

#include "chimenickel.h"
#include "clock.h"

uint64_t plain_add(uint64_t *s, size_t len, const uint64_t *r, size_t r_len, uint64_t *carried);
uint64_t plain_bounds(const uint64_t *s, size_t len, uint64_t *bounds, size_t bounds_len, uint64_t *carried);
uint64_t plain_rates(const uint64_t *s, size_t len, double *estimate, double *lower, double *upper, uint64_t *carried);

enum { SUMS = 1000, RUNS = 300 };

static uint64_t sums[SUMS][CHIM_SUM_NUMBERS], bounds[2][SUMS][CHIM_BOUNDS_NUMBERS];
static double rates[2][SUMS][3];

int main(void) {
    /* a record of twenty minutes with 3 failures, and sums of any size */
    uint64_t record[CHIM_RECORD_NUMBERS], sum[2][CHIM_SUM_NUMBERS], carried, channel, refused = 0, seed = 7;
    int32_t roll[2400] = {0}, acceleration[2400] = {0};
    roll[100] = roll[2000] = 41000, acceleration[900] = 9900;
    refused |= chim_record_open(500, 20, 40000, 20000, 9810, record, CHIM_RECORD_NUMBERS, &carried);
    refused |= chim_record_feed(record, CHIM_RECORD_NUMBERS, roll, 2400, acceleration, 2400, &carried, &channel);
    for (int i = 0; i < SUMS; i++) {
        seed = seed * 6364136223846793005u + 1442695040888963407u;
        sums[i][0] = 500, sums[i][2] = (1 + (seed >> 33) % 100000000) >> (seed >> 60), sums[i][1] = (seed >> 20) % 10001;
        if (sums[i][1] > sums[i][2])
            sums[i][1] = sums[i][2];
    }
    double best[6] = {1e18, 1e18, 1e18, 1e18, 1e18, 1e18};
    for (int run = 0; run < RUNS; run++) {
        double t[7];
        for (int k = 0; k < 2; k++)
            refused |= chim_sum_open(500, sum[k], CHIM_SUM_NUMBERS, &carried);
        t[0] = now();
        for (int i = 0; i < SUMS; i++) refused |= chim_sum_add(sum[0], CHIM_SUM_NUMBERS, record, CHIM_RECORD_NUMBERS, &carried);
        t[1] = now();
        for (int i = 0; i < SUMS; i++) refused |= plain_add(sum[1], CHIM_SUM_NUMBERS, record, CHIM_RECORD_NUMBERS, &carried);
        t[2] = now();
        for (int i = 0; i < SUMS; i++) refused |= chim_sum_bounds(sums[i], CHIM_SUM_NUMBERS, bounds[0][i], CHIM_BOUNDS_NUMBERS, &carried);
        t[3] = now();
        for (int i = 0; i < SUMS; i++) refused |= plain_bounds(sums[i], CHIM_SUM_NUMBERS, bounds[1][i], CHIM_BOUNDS_NUMBERS, &carried);
        t[4] = now();
        for (int i = 0; i < SUMS; i++) refused |= chim_sum_rates(sums[i], CHIM_SUM_NUMBERS, &rates[0][i][0], &rates[0][i][1], &rates[0][i][2], &carried);
        t[5] = now();
        for (int i = 0; i < SUMS; i++) refused |= plain_rates(sums[i], CHIM_SUM_NUMBERS, &rates[1][i][0], &rates[1][i][1], &rates[1][i][2], &carried);
        t[6] = now();
        for (int k = 0; k < 6; k++)
            if (t[k + 1] - t[k] < best[k]) best[k] = t[k + 1] - t[k];
    }
    if (refused || memcmp(sum[0], sum[1], sizeof sum[0]) || memcmp(bounds[0], bounds[1], sizeof bounds[0]) || memcmp(rates[0], rates[1], sizeof rates[0])) {
        printf("the two differ\n");
        return 1;
    }
    printf("%-10s %10s %10s %12s\n", "", "library", "plain C", "plain/ours");
    static const char *const kinds[] = {"add", "bounds", "rates"};
    for (int k = 0; k < 3; k++)
        printf("%-10s %7.2f ns %7.2f ns %12.2f\n", kinds[k], best[2 * k] / SUMS, best[2 * k + 1] / SUMS, best[2 * k + 1] / best[2 * k]);
    return 0;
}
