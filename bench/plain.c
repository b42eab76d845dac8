/* What feeding, listing and searching are measured against: one pass each in plain C that does the same work over both
 * channels (range check, crossings, groups, walk, times; the first crossing), and a sum of a slice, which a compiler
 * vectorises. Compiled apart from the callers, so that nothing is folded into it. */
#include <stdbool.h>
#include <stddef.h>
#include <stdint.h>
#include <stdlib.h>

#include "plain.h"

static bool bad(int32_t x) { return x < -1000000 || x > 1000000; }

static bool above(int32_t x, uint64_t level, int32_t y, uint64_t acceleration_level) {
    return (uint64_t)llabs(x) > level || (uint64_t)llabs(y) > acceleration_level;
}

/* the groups; a number past any count for a bad sample */
uint64_t plain_feed(uint64_t step, uint64_t ramp, uint64_t level, uint64_t decorrelation, uint64_t acceleration_level, const int32_t *roll,
                    const int32_t *acceleration, size_t n, uint64_t *crossings, uint64_t *largest_set) {
    uint64_t groups = 0, last_crossing = 0, largest = 0, last_chosen = 0, met = 0;
    bool before = false;
    for (size_t i = 0; i < n; i++) {
        if (bad(roll[i]) || bad(acceleration[i]))
            return UINT64_MAX;
        bool now = above(roll[i], level, acceleration[i], acceleration_level);
        if (i > ramp && !before && now) {
            if (met == 0 || (i - last_chosen) * step >= decorrelation) {
                largest++;
                last_chosen = i;
            }
            groups += met == 0 || (i - last_crossing) * step >= decorrelation;
            last_crossing = i;
            met++;
        }
        before = now;
    }
    *crossings = met;
    *largest_set = largest;
    return groups;
}

/* the number of counted times, those for which there is a place written; a number past any count for a bad sample */
uint64_t plain_list(uint64_t step, uint64_t ramp, uint64_t level, uint64_t decorrelation, uint64_t acceleration_level, const int32_t *roll,
                    const int32_t *acceleration, size_t n, uint32_t *times, size_t places) {
    uint64_t counted = 0, last_crossing = 0;
    bool before = false;
    for (size_t i = 0; i < n; i++) {
        if (bad(roll[i]) || bad(acceleration[i]))
            return UINT64_MAX;
        bool now = above(roll[i], level, acceleration[i], acceleration_level);
        if (i > ramp && !before && now) {
            if (counted == 0 || (i - last_crossing) * step >= decorrelation) {
                if (counted < places)
                    times[counted] = (uint32_t)((i - ramp) * step);
                counted++;
            }
            last_crossing = i;
        }
        before = now;
    }
    return counted;
}

size_t plain_search(const int32_t *roll, const int32_t *acceleration, size_t n, uint64_t ramp, uint64_t level, uint64_t acceleration_level) {
    for (size_t i = ramp + 1; i < n; i++)
        if (!above(roll[i - 1], level, acceleration[i - 1], acceleration_level) && above(roll[i], level, acceleration[i], acceleration_level))
            return i;
    return n;
}

/* the first place with a bad sample; *channel is 1 for the roll, 2 for the acceleration, 0 for none */
size_t plain_first_bad(const int32_t *roll, const int32_t *acceleration, size_t n, uint64_t *channel) {
    for (size_t i = 0; i < n; i++)
        if (bad(roll[i]) || bad(acceleration[i])) {
            *channel = bad(roll[i]) ? 1 : 2;
            return i;
        }
    *channel = 0;
    return n;
}

int64_t plain_sum(const int32_t *samples, size_t n) {
    int64_t sum = 0;
    for (size_t i = 0; i < n; i++)
        sum += samples[i];
    return sum;
}
