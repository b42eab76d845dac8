/* bench/condition.c: a loading condition of 64 campaigns, judged and reported by the library (chim_condition_judge,
 * chim_condition_report) and by plain C: nanoseconds a campaign, the best of several runs in turn. Both have to come to
 * the same, and to write the same bytes. */
#include <stdint.h>
#include <stdio.h>
#include <string.h>

#include "chimenickel.h"
#include "clock.h"

uint64_t plain_judge(const uint64_t (*campaigns)[5], size_t situations, uint64_t *carried);
uint64_t plain_report(const uint64_t (*campaigns)[5], size_t situations, uint8_t *out, size_t room, uint64_t *carried);
extern uint32_t upper_rows[65], lower_rows[65];

enum { SITUATIONS = CHIM_MOST_SITUATIONS, RUNS = 200, CALLS = 200 };

typedef const uint64_t (*rows)[5];

/* Campaigns at one failure in two hours. `all accepted`: 20 to 40 quiet hours each. `as they come`: up to 40 records,
 * of which some fail, so that all letters are there. `full`: 100,000 records and 64 failures each, the longest
 * lines. */
static void fill(uint64_t (*c)[5], const char *kind) {
    uint32_t seed = 13;
    uint64_t carried;
    for (size_t i = 0; i < SITUATIONS; i++) {
        seed = seed * 1664525u + 1013904223u;
        uint64_t records = *kind == 'f' ? 0 : (seed >> 16) % 41;
        if (*kind == 'f')
            memcpy(c[i], (uint64_t[]){7200000, 100000, 64, 1000000000000, 1}, sizeof c[i]);
        else
            chim_campaign_open(7200000, c[i], CHIM_CAMPAIGN_NUMBERS, &carried);
        for (uint64_t k = 0; k < records + (strcmp(kind, "all accepted") == 0 ? 40 : 0); k++) {
            seed = seed * 1664525u + 1013904223u;
            uint64_t failed = strcmp(kind, "as they come") == 0 && (seed >> 16) % 4 < i % 4;
            chim_campaign_enter(c[i], CHIM_CAMPAIGN_NUMBERS, failed, failed ? 1 + (seed >> 8) % 1800000 : 1800000, &carried);
        }
    }
}

int main(void) {
    static const char *const kinds[] = {"all accepted", "as they come", "full"};
    static uint64_t c[SITUATIONS][5];
    static uint8_t ours[CHIM_REPORT_BYTES], theirs[CHIM_REPORT_BYTES];
    for (uint64_t n = 0; n <= 64; n++) {
        upper_rows[n] = chim_upper_row(n);
        lower_rows[n] = chim_lower_row(n);
    }
    printf("%-14s %8s %10s %10s %12s %10s %10s %12s\n", "campaigns", "bytes", "judge", "plain C", "plain/judge", "report", "plain C", "plain/report");
    for (size_t kind = 0; kind < sizeof kinds / sizeof *kinds; kind++) {
        fill(c, kinds[kind]);
        double best[4] = {1e18, 1e18, 1e18, 1e18};
        uint64_t said[4] = {0}, refused[4] = {0};
        for (int run = 0; run < RUNS; run++) {
            double t[5];
            t[0] = now();
            for (int k = 0; k < CALLS; k++) refused[0] |= chim_condition_judge((rows)c, SITUATIONS, &said[0]);
            t[1] = now();
            for (int k = 0; k < CALLS; k++) refused[1] |= plain_judge((rows)c, SITUATIONS, &said[1]);
            t[2] = now();
            for (int k = 0; k < CALLS; k++) refused[2] |= chim_condition_report((rows)c, SITUATIONS, ours, sizeof ours, &said[2]);
            t[3] = now();
            for (int k = 0; k < CALLS; k++) refused[3] |= plain_report((rows)c, SITUATIONS, theirs, sizeof theirs, &said[3]);
            t[4] = now();
            for (int k = 0; k < 4; k++)
                if (t[k + 1] - t[k] < best[k]) best[k] = t[k + 1] - t[k];
        }
        if (refused[0] | refused[1] | refused[2] | refused[3] || said[0] != said[1] || said[2] != said[3] || memcmp(ours, theirs, said[2]) != 0) {
            printf("the two differ\n");
            return 1;
        }
        for (int k = 0; k < 4; k++) best[k] /= (double)CALLS * SITUATIONS;
        printf("%-14s %8llu %7.2f ns %7.2f ns %12.2f %7.2f ns %7.2f ns %12.2f\n", kinds[kind], (unsigned long long)said[2], best[0], best[1], best[1] / best[0],
               best[2], best[3], best[3] / best[2]);
    }
    return 0;
}
