/* Feeding roll and acceleration as one piece, beside plain C, plain Rust and a sum of both slices: nanoseconds a sample
 * of each, best of several runs. 11,000,000 are the most that a record takes, 88 MB; 100,000 stay in the processor's
 * cache. */
#include <stddef.h>
#include <stdint.h>
#include <stdio.h>
#include <stdlib.h>
#include <string.h>

#include "channels.h"
#include "chimenickel.h"
#include "clock.h"
#include "plain.h"

enum { MOST = 11000000, FEW = 100000, LEVEL = 40000, DECORRELATION = 5000, ACCELERATION_LEVEL = 9810 };

/* what a record is opened by */
typedef struct {
    uint64_t step, ramp;
} Job;

static int32_t *roll, *acceleration;

/* the groups and the largest set of a record that is opened and fed as one piece, as one number; one past any such for
 * a refusal */
static uint64_t counted(Job job, size_t n) {
    uint64_t record[CHIM_RECORD_NUMBERS], carried, channel;
    if (chim_record_open(job.step, job.ramp, LEVEL, DECORRELATION, ACCELERATION_LEVEL, record, CHIM_RECORD_NUMBERS, &carried) != CHIM_TAKEN ||
        chim_record_feed(record, CHIM_RECORD_NUMBERS, roll, n, acceleration, n, &carried, &channel) != CHIM_TAKEN)
        return UINT64_MAX;
    return record[11] << 32 | record[7];
}

static uint64_t plainly_counted(Job job, size_t n) {
    uint64_t crossings, largest = 0;
    return plain_feed(job.step, job.ramp, LEVEL, DECORRELATION, ACCELERATION_LEVEL, roll, acceleration, n, &crossings, &largest) << 32 | largest;
}

static uint64_t counted_in_rust(Job job, size_t n) {
    uint64_t largest = 0;
    Items items = {job.step, job.ramp, LEVEL, DECORRELATION, ACCELERATION_LEVEL};
    return rust_feed(&items, roll, acceleration, n, &largest) << 32 | largest;
}

/* the place of the first bad sample and its channel as a piece's refusal tells them; the number of samples where a
 * piece is refused for its length alone */
static uint64_t bad(Job job, size_t n) {
    uint64_t record[CHIM_RECORD_NUMBERS], carried = 0, channel = 0;
    chim_record_open(job.step, job.ramp, LEVEL, DECORRELATION, ACCELERATION_LEVEL, record, CHIM_RECORD_NUMBERS, &carried);
    uint64_t answer = chim_record_feed(record, CHIM_RECORD_NUMBERS, roll, n, acceleration, n, &carried, &channel);
    return (answer == CHIM_SAMPLE ? carried : n) << 2 | channel;
}

static uint64_t plainly_bad(Job job, size_t n) {
    (void)job;
    uint64_t channel, place = plain_first_bad(roll, acceleration, n, &channel);
    return place << 2 | channel;
}

/* a row: what the library and plain C take, Rust where it is asked, and a sum; 1 if their answers differ */
static int row(const char *name, Job job, size_t n, uint64_t (*ours)(Job, size_t), uint64_t (*theirs)(Job, size_t), uint64_t (*in_rust)(Job, size_t)) {
    double library = 1e18, plain = 1e18, rust = 1e18, sum = 1e18;
    volatile int64_t sink = 0;
    for (int run = 0; run < (n < MOST ? 400 : 15); run++) {
        double t0 = now();
        uint64_t a = ours(job, n);
        double t1 = now();
        uint64_t b = theirs(job, n);
        double t2 = now();
        uint64_t c = in_rust == NULL ? a : in_rust(job, n);
        double t3 = now();
        sink += plain_sum(roll, n) + plain_sum(acceleration, n);
        double t4 = now();
        if (a != b || a != c) {
            printf("the answers differ: %llu, %llu and %llu\n", (unsigned long long)a, (unsigned long long)b, (unsigned long long)c);
            return 1;
        }
        least(&library, t1 - t0);
        least(&plain, t2 - t1);
        least(&rust, t3 - t2);
        least(&sum, t4 - t3);
    }
    printf("%-38s %7.3f ns %7.3f ns", name, library / n, plain / n);
    if (in_rust == NULL)
        printf(" %10s %7.3f ns %7.2f %7s", "", sum / n, plain / library, "");
    else
        printf(" %7.3f ns %7.3f ns %7.2f %7.2f", rust / n, sum / n, plain / library, rust / library);
    printf(" %8.2f\n", library / sum);
    return 0;
}

int main(void) {
    static const struct {
        const char *name;
        size_t n, every;
        int alone;
    } kinds[] = {{"11,000,000: never above", MOST, 0, 0},
                 {"11,000,000: every 100,000th", MOST, 100000, 0},
                 {"11,000,000: every 1,000th", MOST, 1000, 0},
                 {"11,000,000: every second", MOST, 2, 0},
                 {"11,000,000: every 1,000th, zeros lent", MOST, 1000, 1},
                 {"100,000: never above", FEW, 0, 0},
                 {"100,000: every 10,000th", FEW, 10000, 0},
                 {"100,000: every 1,000th", FEW, 1000, 0},
                 {"100,000: every second", FEW, 2, 0},
                 {"100,000: every 1,000th, zeros lent", FEW, 1000, 1}};
    static const Job most = {1, 1000000}, few = {1, 0}, short_of_room = {1000, 0};
    roll = malloc((MOST + 2) * sizeof *roll);
    acceleration = malloc((MOST + 2) * sizeof *acceleration);
    int differ = roll == NULL || acceleration == NULL;
    printf("%-38s %10s %10s %10s %10s %7s %7s %8s\n", "samples: above a level", "feed", "plain C", "Rust", "sum", "C/feed", "Rust/..", "feed/sum");
    for (size_t k = 0; k < sizeof kinds / sizeof *kinds && !differ; k++) {
        fill(roll, acceleration, kinds[k].n, kinds[k].every, kinds[k].alone);
        differ = row(kinds[k].name, kinds[k].n < MOST ? few : most, kinds[k].n, counted, plainly_counted, counted_in_rust);
    }
    printf("%-38s %10s %10s %10s %10s %7s %7s %8s\n", "samples: which is bad", "look", "plain C", "", "sum", "C/look", "", "look/sum");
    if (!differ) {
        fill(roll, acceleration, MOST + 2, 0, 0);
        acceleration[MOST - 1] = acceleration[FEW - 1] = 1000001;
        differ = row("100,000: the last", few, FEW, bad, plainly_bad, NULL);
        acceleration[FEW - 1] = 0;
        differ |= row("100,000: none, no room", short_of_room, FEW, bad, plainly_bad, NULL);
        differ |= row("11,000,000: the last", most, MOST, bad, plainly_bad, NULL);
        acceleration[MOST - 1] = 0;
        differ |= row("11,000,002: none, no room", most, MOST + 2, bad, plainly_bad, NULL);
        memset(acceleration, 0, (MOST + 2) * sizeof *acceleration);
        differ |= row("100,000: none, no room, zeros lent", short_of_room, FEW, bad, plainly_bad, NULL);
    }
    free(roll);
    free(acceleration);
    return differ;
}
