/* What a loading condition is measured against: the rows checked and judged in plain C, and the report written by one
 * snprintf for each line, with the same promise: it is written aside first, so that a buffer too short for it keeps its
 * bytes. Compiled apart from the caller, so that nothing is folded into it. */
#include <stdbool.h>
#include <stddef.h>
#include <stdint.h>
#include <stdio.h>
#include <string.h>

enum { MOST = 64, BYTES = 1832 };

extern uint32_t upper_rows[65], lower_rows[65];
uint32_t upper_rows[65], lower_rows[65];

static bool campaign_ok(const uint64_t *c) {
    uint64_t q = c[0], m = c[1], n = c[2], t = c[3], f = c[4];
    return f <= 1 && q >= 1 && q <= 100000000000 && m <= 100000 && n <= 64 && n <= m && t >= m && t <= m * 10000000 && (!f || n >= 1) &&
           (f || m == 0 || n < m) && (n != 64 || f);
}

static uint64_t censored(const uint64_t *c) { return c[1] == 0 ? 0 : c[2] - c[4] + 1; }

static char letter(const uint64_t *c) {
    if (c[1] == 0)
        return 'E';
    if (c[3] * 1000000 < lower_rows[c[2]] * c[0])
        return 'R';
    return c[3] * 1000000 > upper_rows[censored(c)] * c[0] ? 'A' : 'C';
}

/* 18, 8, or 0 */
static uint64_t checked(const uint64_t (*c)[5], size_t n, uint64_t *carried) {
    *carried = 0;
    if (n == 0 || n > MOST)
        return 18;
    for (size_t i = 0; i < n; i++)
        if (!campaign_ok(c[i])) {
            *carried = i + 1;
            return 8;
        }
    return 0;
}

uint64_t plain_judge(const uint64_t (*c)[5], size_t n, uint64_t *carried) {
    uint64_t refused = checked(c, n, carried);
    if (refused)
        return refused;
    bool rejected = false, accepted = true;
    for (size_t i = 0; i < n; i++) {
        char l = letter(c[i]);
        rejected |= l == 'R';
        accepted &= l == 'A';
    }
    *carried = rejected ? 2 : accepted ? 1 : 3;
    return 0;
}

uint64_t plain_report(const uint64_t (*c)[5], size_t n, uint8_t *out, size_t room, uint64_t *carried) {
    uint64_t refused = checked(c, n, carried), records = 0, failures = 0, exposure = 0, blocks = 0;
    if (refused)
        return refused;
    char text[BYTES + 1];
    size_t at = 0;
    bool rejected = false, accepted = true;
    for (size_t i = 0; i < n; i++) {
        char l = letter(c[i]);
        unsigned long long billed = (c[i][2] + 4) / 5;
        at += (size_t)snprintf(text + at, sizeof text - at, "%zu\t%llu\t%llu\t%llu\t%c\t%llu\n", i + 1, (unsigned long long)c[i][2], (unsigned long long)censored(c[i]),
                               (unsigned long long)c[i][3], l, billed);
        records += c[i][1], failures += c[i][2], exposure += c[i][3], blocks += billed;
        rejected |= l == 'R';
        accepted &= l == 'A';
    }
    at += (size_t)snprintf(text + at, sizeof text - at, "total\t%llu\t%llu\t%llu\t%llu\t%c\n", (unsigned long long)records, (unsigned long long)failures,
                           (unsigned long long)exposure, (unsigned long long)blocks, rejected ? 'R' : accepted ? 'A' : 'O');
    *carried = at;
    if (at > room)
        return 7;
    memcpy(out, text, at);
    return 0;
}
