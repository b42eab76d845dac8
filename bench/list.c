/* Listing a whole record, and searching it for its first crossing, beside plain C, and plain Rust for the list, doing
 * the same: nanoseconds a sample of both channels, best of several runs. Plain C writes as it goes, and leaves a list
 * that it refuses half written; "C twice" counts first, as one has to who leaves it as it stood. */
#include <stddef.h>
#include <stdint.h>
#include <stdio.h>
#include <stdlib.h>
#include <string.h>

#include "channels.h"
#include "chimenickel.h"
#include "clock.h"
#include "plain.h"

enum { MOST = 10000000, STEP = 1, RAMP = 0, LEVEL = 40000, ACCELERATION_LEVEL = 9810 };

int main(void) {
    static const struct {
        const char *name;
        size_t n, every;
        uint64_t decorrelation;
        int alone;
    } kinds[] = {{"10,000,000: never above", MOST, 0, 5000, 0},
                 {"10,000,000: every 100,000th", MOST, 100000, 5000, 0},
                 {"10,000,000: every 1,000th", MOST, 1000, 5000, 0},
                 {"10,000,000: every second", MOST, 2, 5000, 0},
                 {"10,000,000: every second, all counted", MOST, 2, 0, 0},
                 {"10,000,000: every 100,000th, zeros lent", MOST, 100000, 5000, 1},
                 {"100,000: never above", 100000, 0, 5000, 0},
                 {"100,000: every 10,000th", 100000, 10000, 5000, 0},
                 {"100,000: every second", 100000, 2, 5000, 0},
                 {"100,000: every second, all counted", 100000, 2, 0, 0},
                 {"100,000: every 10,000th, zeros lent", 100000, 10000, 5000, 1}};
    int32_t *roll = malloc(MOST * sizeof *roll), *acceleration = malloc(MOST * sizeof *acceleration);
    uint32_t *ours = malloc(MOST * sizeof *ours), *theirs = malloc(MOST * sizeof *theirs);
    if (roll == NULL || acceleration == NULL || ours == NULL || theirs == NULL)
        return 1;
    memset(ours, 0, MOST * sizeof *ours);
    memset(theirs, 0, MOST * sizeof *theirs);
    printf("%-40s %9s %9s %9s %9s %6s %6s %7s %11s %9s %6s\n", "samples: above a level", "list", "plain C", "Rust", "C twice", "C/list", "Rust/..", "twice/..", "search", "plain C", "ratio");
    for (size_t k = 0; k < sizeof kinds / sizeof *kinds; k++) {
        size_t n = kinds[k].n;
        fill(roll, acceleration, n, kinds[k].every, kinds[k].alone);
        double list = 1e18, plain = 1e18, rust = 1e18, twice = 1e18, search = 1e18, plainly = 1e18;
        for (int run = 0; run < (n == MOST ? 15 : 400); run++) {
            uint64_t number = 0, channel;
            double t0 = now();
            uint64_t answer = chim_record_list(STEP, RAMP, LEVEL, kinds[k].decorrelation, ACCELERATION_LEVEL, roll, n, acceleration, n, ours, MOST, &number, &channel);
            double t1 = now();
            uint64_t counted = plain_list(STEP, RAMP, LEVEL, kinds[k].decorrelation, ACCELERATION_LEVEL, roll, acceleration, n, theirs, MOST);
            double t2 = now();
            Items items = {STEP, RAMP, LEVEL, kinds[k].decorrelation, ACCELERATION_LEVEL};
            uint64_t also = rust_list(&items, roll, acceleration, n, theirs, MOST);
            double t3 = now();
            size_t place = chim_record_first_crossing(roll, n, acceleration, n, RAMP, LEVEL, ACCELERATION_LEVEL);
            double t4 = now();
            size_t at = plain_search(roll, acceleration, n, RAMP, LEVEL, ACCELERATION_LEVEL);
            double t5 = now();
            uint64_t again = plain_list(STEP, RAMP, LEVEL, kinds[k].decorrelation, ACCELERATION_LEVEL, roll, acceleration, n, theirs, 0);
            if (again <= MOST)
                again = plain_list(STEP, RAMP, LEVEL, kinds[k].decorrelation, ACCELERATION_LEVEL, roll, acceleration, n, theirs, MOST);
            double t6 = now();
            if (answer != CHIM_TAKEN || number != counted || number != also || number != again || memcmp(ours, theirs, counted * sizeof *ours) != 0 || place != at) {
                printf("the answers differ\n");
                return 1;
            }
            least(&list, t1 - t0);
            least(&plain, t2 - t1);
            least(&rust, t3 - t2);
            least(&search, t4 - t3);
            least(&plainly, t5 - t4);
            least(&twice, t6 - t5);
        }
        printf("%-40s %6.3f ns %6.3f ns %6.3f ns %6.3f ns %6.2f %7.2f %8.2f", kinds[k].name, list / n, plain / n, rust / n, twice / n, plain / list, rust / list, twice / list);
        /* where a crossing stands at the second sample there is nothing to search */
        if (kinds[k].every == 2)
            printf("\n");
        else
            printf(" %8.3f ns %6.3f ns %6.2f\n", search / n, plainly / n, plainly / search);
    }
    free(roll);
    free(acceleration);
    free(ours);
    free(theirs);
    return 0;
}
