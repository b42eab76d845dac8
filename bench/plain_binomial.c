/* What a sum of records is measured against: the relations of the sum and of the record checked in plain C, the
 * half-width by the float's square root, put right by one where it has to be. Compiled apart from the caller, so that
 * nothing is folded into it. */
#include <math.h>
#include <stdbool.h>
#include <stddef.h>
#include <stdint.h>

enum { MOST_FAILURES = 10000, MOST_SAMPLES = 100000000, SUM = 3, BOUNDS = 4, RECORD = 14 };

static bool sum_ok(const uint64_t *s, size_t len) {
    return len == SUM && s[0] >= 1 && s[0] <= 10000 && s[1] <= MOST_FAILURES && s[2] <= MOST_SAMPLES && s[1] <= s[2];
}

static bool record_ok(const uint64_t *r, size_t len) {
    if (len != RECORD || r[0] < 1 || r[0] > 10000 || r[1] > 1000000 || r[2] < 1 || r[2] > 1000000 || r[3] > 10000000 || r[5] > 2000000 || r[12] < 1 ||
        r[12] > 1000000 || r[13] > 2000000)
        return false;
    uint64_t n = r[4];
    if (n > r[1] + 1 + 10000000 / r[0] || (n == 0 && (r[5] != 0 || r[13] != 0)) || r[7] > r[6])
        return false;
    if (r[8] == 0)
        return r[6] == 0 && r[7] == 0 && r[9] == 0 && r[10] == 0 && r[11] == 0;
    return r[7] >= 1 && n > r[1] && r[6] <= n - 1 - r[1] && r[8] > r[1] && r[8] <= r[9] && r[9] < n && r[9] <= r[10] && r[10] < n && r[11] >= 1 && r[11] <= r[7];
}

uint64_t plain_add(uint64_t *s, size_t len, const uint64_t *r, size_t r_len, uint64_t *carried) {
    *carried = 0;
    if (!sum_ok(s, len) || !record_ok(r, r_len))
        return 8;
    if (r[4] < r[1] + 2)
        return 4;
    if (r[0] != s[0]) {
        *carried = 1;
        return 1;
    }
    uint64_t n = s[1] + r[11], p = s[2] + r[4] - r[1];
    if (n > MOST_FAILURES || p > MOST_SAMPLES)
        return 11;
    s[1] = n, s[2] = p;
    return 0;
}

static uint64_t half_width(uint64_t n, uint64_t p) {
    if (p == 0)
        return 0;
    uint64_t a = 3841600 * n * (p - n), m = (uint64_t)sqrt((double)a / (double)p);
    while (m > 0 && (m - 1) * (m - 1) * p >= a)
        m--;
    while (m * m * p < a)
        m++;
    return m;
}

uint64_t plain_bounds(const uint64_t *s, size_t len, uint64_t *bounds, size_t bounds_len, uint64_t *carried) {
    *carried = 0;
    if (!sum_ok(s, len) || bounds_len != BOUNDS)
        return 8;
    uint64_t e = 1000 * s[1], m = half_width(s[1], s[2]);
    bounds[0] = e, bounds[1] = e > m ? e - m : 0, bounds[2] = e + m, bounds[3] = s[0] * s[2];
    *carried = s[2] != 0;
    return 0;
}

uint64_t plain_rates(const uint64_t *s, size_t len, double *estimate, double *lower, double *upper, uint64_t *carried) {
    *carried = 0;
    if (!sum_ok(s, len))
        return 8;
    *estimate = *lower = *upper = 0;
    if (s[2] == 0)
        return 0;
    uint64_t e = 1000 * s[1], m = half_width(s[1], s[2]);
    double time = (double)(s[0] * s[2]);
    *estimate = (double)e / time, *lower = (double)(e > m ? e - m : 0) / time, *upper = (double)(e + m) / time;
    *carried = 1;
    return 0;
}
