/* What the bench's calls are measured against: the table checked, judged and worked on in plain C, over the same rows
 * of numbers. Compiled apart from the caller, so that nothing is folded into it. */
#include <stdbool.h>
#include <stddef.h>
#include <stdint.h>

enum { PLACES = 32, MOST_JOBS = 16 };

typedef uint64_t place[6];

extern uint32_t upper_rows[65], lower_rows[65];
uint32_t upper_rows[65], lower_rows[65];

static bool campaign_ok(const uint64_t *c) {
    uint64_t q = c[0], m = c[1], n = c[2], t = c[3], f = c[4];
    return f <= 1 && q >= 1 && q <= 100000000000 && m <= 100000 && n <= 64 && n <= m && t >= m && t <= m * 10000000 && (!f || n >= 1) &&
           (f || m == 0 || n < m) && (m != 0 || !f) && (n != 64 || f);
}

/* whether the table keeps its relations; how many places each bureau has, and the lowest free one */
static bool table_ok(place *t, size_t len, unsigned jobs[3], uint64_t *lowest) {
    if (len != PLACES)
        return false;
    jobs[0] = jobs[1] = jobs[2] = 0;
    *lowest = PLACES;
    for (uint64_t i = 0; i < PLACES; i++) {
        const uint64_t *p = t[i];
        if (p[0] > 2)
            return false;
        if (p[0] != 0) {
            if (!campaign_ok(p + 1))
                return false;
        } else {
            if (p[1] | p[2] | p[3] | p[4] | p[5])
                return false;
            if (*lowest == PLACES)
                *lowest = i;
        }
        jobs[p[0]]++;
    }
    return jobs[1] <= MOST_JOBS && jobs[2] <= MOST_JOBS;
}

/* 8, 13, or 0 */
static uint64_t called(place *t, size_t len, uint64_t bureau, unsigned jobs[3], uint64_t *lowest) {
    if (!table_ok(t, len, jobs, lowest))
        return 8;
    return bureau == 1 || bureau == 2 ? 0 : 13;
}

/* 8, 13, 15, or 0 */
static uint64_t own(place *t, size_t len, uint64_t bureau, uint64_t i) {
    unsigned jobs[3];
    uint64_t lowest, refused = called(t, len, bureau, jobs, &lowest);
    return refused ? refused : i < PLACES && t[i][0] == bureau ? 0 : 15;
}

uint64_t plain_take(place *t, size_t len, uint64_t bureau, uint64_t standard, uint64_t *carried) {
    unsigned jobs[3];
    uint64_t lowest, refused = called(t, len, bureau, jobs, &lowest);
    *carried = 0;
    if (refused)
        return refused;
    if (jobs[bureau] >= MOST_JOBS)
        return 14;
    if (standard < 1 || standard > 100000000000) {
        *carried = 5;
        return 1;
    }
    t[lowest][0] = bureau;
    t[lowest][1] = standard;
    *carried = lowest;
    return 0;
}

uint64_t plain_enter(place *t, size_t len, uint64_t bureau, uint64_t i, uint64_t failed, uint64_t exposure, uint64_t *carried) {
    *carried = 0;
    uint64_t refused = own(t, len, bureau, i);
    if (refused)
        return refused;
    uint64_t *c = t[i] + 1;
    if (failed > 1 || exposure < 1 || exposure > 10000000)
        return 8;
    if (c[1] == 100000)
        return 5;
    if (c[2] == 64)
        return 6;
    c[1]++;
    c[2] += failed;
    c[3] += exposure;
    c[4] = failed;
    return 0;
}

uint64_t plain_verdict(place *t, size_t len, uint64_t bureau, uint64_t i, double *lower, double *upper, uint64_t *carried) {
    *carried = 0;
    uint64_t refused = own(t, len, bureau, i);
    if (refused)
        return refused;
    const uint64_t *c = t[i] + 1;
    uint64_t q = c[0], n = c[2], exposure = c[3], l = lower_rows[n];
    *lower = *upper = 0;
    if (c[1] == 0)
        return 0;
    uint64_t u = upper_rows[n - c[4] + 1];
    if (exposure * 1000000 < l * q) {
        *carried = 2;
        *lower = (double)l / (double)(exposure * 1000);
    } else if (u * q < exposure * 1000000) {
        *carried = 1;
        *upper = (double)u / (double)(exposure * 1000);
    } else {
        *carried = 3;
        *lower = (double)l / (double)(exposure * 1000);
        *upper = (double)u / (double)(exposure * 1000);
    }
    return 0;
}

uint64_t plain_give_back(place *t, size_t len, uint64_t bureau, uint64_t i, uint64_t *carried) {
    *carried = 0;
    uint64_t refused = own(t, len, bureau, i);
    if (refused)
        return refused;
    for (int k = 0; k < 6; k++)
        t[i][k] = 0;
    return 0;
}
