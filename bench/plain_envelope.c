/* What finding envelope peaks is measured against: plain C that goes over the record in the same passes, from run to
 * run. Compiled apart from its caller, so that nothing is folded into it. */
#include <stddef.h>
#include <stdint.h>
#include <stdlib.h>

struct peak {
    uint32_t size, time;
};

struct run {
    size_t length, place;
    uint32_t size;
};

/* the run that starts at samples[0] */
static struct run first_run(const int32_t *samples, size_t n) {
    struct run r = {0, 0, 0};
    if (n == 0)
        return r;
    if (samples[0] < 0) {
        for (; r.length < n && samples[r.length] <= 0; r.length++)
            if ((uint32_t)-samples[r.length] > r.size) {
                r.size = (uint32_t)-samples[r.length];
                r.place = r.length;
            }
    } else {
        for (; r.length < n && samples[r.length] >= 0; r.length++)
            if ((uint32_t)samples[r.length] > r.size) {
                r.size = (uint32_t)samples[r.length];
                r.place = r.length;
            }
    }
    return r;
}

static size_t second_run(const int32_t *timed, size_t n) {
    size_t start = 0;
    while (start < n && timed[start] == 0)
        start++;
    return start + first_run(timed + start, n - start).length;
}

/* how many peaks there are, and their sum */
static uint64_t count(const int32_t *timed, size_t n, uint64_t *sum) {
    uint64_t number = 0;
    size_t i = second_run(timed, n);
    *sum = 0;
    for (struct run r = first_run(timed + i, n - i); i + r.length < n; r = first_run(timed + i, n - i)) {
        number++;
        *sum += r.size;
        i += r.length;
    }
    return number;
}

/* the number of peaks handed out, those for which there are places written */
static uint64_t hand(uint64_t step, uint64_t tau, uint64_t number, uint64_t sum, const int32_t *timed, size_t n, uint32_t *sizes, uint32_t *times,
                     size_t places) {
    struct peak best = {0, 0}, top = {0, 0};
    uint64_t stretches = 0, chains = 0;
    uint32_t latest = 0;
    int was = 0;
    size_t i = second_run(timed, n);
    for (struct run r = first_run(timed + i, n - i); i + r.length < n; r = first_run(timed + i, n - i)) {
        struct peak p = {r.size, (uint32_t)((i + r.place) * step)};
        int high = (uint64_t)p.size * number > sum;
        if (stretches > 0 && high == was) {
            if (p.size > best.size)
                best = p;
        } else {
            if (stretches > 1 && was) { /* a high stretch with a peak on both sides */
                if (chains > 0 && best.time <= latest + tau) {
                    if (best.size > top.size)
                        top = best;
                } else {
                    if (chains > 0 && chains <= places)
                        sizes[chains - 1] = top.size, times[chains - 1] = top.time;
                    chains++;
                    top = best;
                }
                latest = best.time;
            }
            stretches++;
            best = p;
            was = high;
        }
        i += r.length;
    }
    if (chains > 0 && chains <= places)
        sizes[chains - 1] = top.size, times[chains - 1] = top.time;
    return chains;
}

/* the number of peaks handed out; a number past any for a bad sample or too few places */
uint64_t plain_envelope(uint64_t step, uint64_t ramp, uint64_t tau, const int32_t *samples, size_t n, uint32_t *sizes, uint32_t *times, size_t places) {
    for (size_t i = 0; i < n; i++)
        if (samples[i] < -1000000 || samples[i] > 1000000)
            return UINT64_MAX;
    uint64_t sum, number = count(samples + ramp, n - ramp, &sum);
    uint64_t needed = hand(step, tau, number, sum, samples + ramp, n - ramp, sizes, times, 0);
    if (needed > places)
        return UINT64_MAX;
    return hand(step, tau, number, sum, samples + ramp, n - ramp, sizes, times, places);
}
