/* Calls of two bureaus at one table beside plain C on a table of its own: nanoseconds a call, best of several runs, on
 * a table with one job and on a full one. The answers and the tables are compared. */
#include <stdint.h>
#include <stdio.h>
#include <string.h>

#include "chimenickel.h"
#include "clock.h"

typedef uint64_t place[CHIM_PLACE_NUMBERS];

uint64_t plain_take(place *t, size_t len, uint64_t bureau, uint64_t standard, uint64_t *carried);
uint64_t plain_enter(place *t, size_t len, uint64_t bureau, uint64_t i, uint64_t failed, uint64_t exposure, uint64_t *carried);
uint64_t plain_verdict(place *t, size_t len, uint64_t bureau, uint64_t i, double *lower, double *upper, uint64_t *carried);
uint64_t plain_give_back(place *t, size_t len, uint64_t bureau, uint64_t i, uint64_t *carried);
extern uint32_t upper_rows[65], lower_rows[65];

enum { CALLS = 5000, RUNS = 200 };

static place ours[CHIM_BENCH_PLACES], theirs[CHIM_BENCH_PLACES];

/* `jobs` jobs, each with a few records */
static void fill(place *t, unsigned jobs) {
    memset(t, 0, sizeof ours);
    for (unsigned i = 0; i < jobs; i++) {
        uint64_t row[6] = {1 + i % 2, 7200000, 20, 3, 20 * 1500000, 0};
        memcpy(t[i], row, sizeof row);
    }
}

/* one kind of call, CALLS times: verdicts of the jobs in turn; a record entered in job 0, whose figures are put back at
 * once; a job given back and taken again */
static uint64_t run(int kind, int plain, place *t, unsigned jobs, unsigned calls) {
    uint64_t sum = 0, carried, kept[6];
    double lower = 0, upper = 0;
    for (unsigned k = 0; k < calls; k++) {
        uint64_t i = k % jobs, bureau = 1 + i % 2;
        switch (kind) {
        case 0:
            sum += plain ? plain_verdict(t, CHIM_BENCH_PLACES, bureau, i, &lower, &upper, &carried)
                         : chim_bench_verdict(t, CHIM_BENCH_PLACES, bureau, i, &lower, &upper, &carried);
            break;
        case 1:
            memcpy(kept, t[i], sizeof kept);
            sum += plain ? plain_enter(t, CHIM_BENCH_PLACES, bureau, i, 0, 1000, &carried)
                         : chim_bench_enter(t, CHIM_BENCH_PLACES, bureau, i, 0, 1000, &carried);
            sum += t[i][4];
            memcpy(t[i], kept, sizeof kept);
            break;
        default:
            if (k % 2 == 0)
                sum += plain ? plain_give_back(t, CHIM_BENCH_PLACES, 1, 0, &carried) : chim_bench_give_back(t, CHIM_BENCH_PLACES, 1, 0, &carried);
            else
                sum += plain ? plain_take(t, CHIM_BENCH_PLACES, 1, 7200000, &carried) : chim_bench_take(t, CHIM_BENCH_PLACES, 1, 7200000, &carried);
        }
        sum += carried + (uint64_t)(lower * 1e9) + (uint64_t)(upper * 1e9);
    }
    return sum;
}

int main(void) {
    static const char *kinds[] = {"verdict", "enter", "give back, take"};
    static const unsigned fills[] = {1, 32};
    for (unsigned n = 0; n <= 64; n++) {
        upper_rows[n] = chim_upper_row(n);
        lower_rows[n] = chim_lower_row(n);
    }
    printf("%-18s %6s %12s %12s %14s\n", "call", "jobs", "library", "plain C", "library/plain");
    for (int kind = 0; kind < 3; kind++)
        for (int f = 0; f < 2; f++) {
            double best = 1e18, plain = 1e18;
            for (int r = 0; r < RUNS; r++) {
                fill(ours, fills[f]);
                fill(theirs, fills[f]);
                double t0 = now();
                uint64_t a = run(kind, 0, ours, fills[f], CALLS);
                double t1 = now();
                uint64_t b = run(kind, 1, theirs, fills[f], CALLS);
                double t2 = now();
                if (a != b || memcmp(ours, theirs, sizeof ours) != 0) {
                    printf("%s with %u jobs: the answers or the tables differ\n", kinds[kind], fills[f]);
                    return 1;
                }
                if (t1 - t0 < best) best = t1 - t0;
                if (t2 - t1 < plain) plain = t2 - t1;
            }
            printf("%-18s %6u %9.1f ns %9.1f ns %14.2f\n", kinds[kind], fills[f], best / CALLS, plain / CALLS, best / plain);
        }
    return 0;
}
