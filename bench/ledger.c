/* bench/ledger.c: 100,000 records, 63 of them failed, written as a job sheet and read back, by the library and by plain
 * C in one process, the best of 25 runs in turn; prints nanoseconds a record and how many times as long as the library
 * each took. All have to write the same bytes and find the same records.
 *
 * write     chim_sheet_write: every record judged before a byte is written
 * snprintf  the same judgements and one snprintf for each line, writing as it goes
 * records   chim_sheet_records: every line judged before a record is written
 * strtoull  three strtoull for each line of the text in memory, with the sheet's own checks, that keep the same
 *           promise: one pass to judge, a second to write
 * as it goes  the same in one pass, which leaves half the records at a bad line
 * fgets     that for each line that fgets reads from the file */
#include <stdint.h>
#include <stdio.h>
#include <stdlib.h>
#include <string.h>

#include "chimenickel.h"
#include "clock.h"

enum { RECORDS = 100000, RUNS = 25, LONGEST = 10000000, ROWS = 64 };

static long by_snprintf(uint64_t q, const int32_t *x, size_t n, char *out, size_t room) {
    if (q < 1 || q > 100000000000) return -1;
    long at = snprintf(out, room, "standard\t%llu\n", (unsigned long long)q), failures = 0;
    for (size_t i = 0; i < n; i++) {
        long t = labs((long)x[i]);
        if (t == 0 || t > LONGEST || i == RECORDS || failures == ROWS) return -1;
        at += snprintf(out + at, room - (size_t)at, "%zu\t%d\t%ld\n", i + 1, x[i] < 0, t);
        failures += x[i] < 0;
    }
    return at;
}

/* One number of a sheet: decimal, no leading zero but for 0 itself, ended by the byte `end`. */
static inline int number(char **p, char end, unsigned long long *v) {
    char *next;
    if (**p < '0' || **p > '9' || (**p == '0' && (*p)[1] >= '0' && (*p)[1] <= '9')) return 0;
    *v = strtoull(*p, &next, 10);
    if (*next != end || next - *p > 12) return 0;
    *p = next + 1;
    return 1;
}

static inline int line(char *text, size_t i, size_t *failures, int32_t *x, char **after) {
    unsigned long long k, f, t;
    char *p = text;
    if (!number(&p, '\t', &k) || !number(&p, '\t', &f) || !number(&p, '\n', &t) || k != i + 1 || f > 1) return 0;
    if (t == 0 || t > LONGEST || i == RECORDS || *failures == ROWS) return 0;
    *failures += f;
    *x = f ? -(int32_t)t : (int32_t)t;
    *after = p;
    return 1;
}

static int head(char *text, uint64_t *q, char **after) {
    unsigned long long v;
    char *p = text + 9;
    if (strncmp(text, "standard\t", 9) || !number(&p, '\n', &v) || v < 1 || v > 100000000000) return 0;
    *q = v;
    *after = p;
    return 1;
}

static long as_it_goes(char *text, size_t bytes, int32_t *x, uint64_t *q) {
    char *p;
    size_t i = 0, failures = 0;
    if (!head(text, q, &p)) return -1;
    for (; p < text + bytes; i++)
        if (!line(p, i, &failures, x + i, &p)) return -1;
    return (long)i;
}

static long by_strtoull(char *text, size_t bytes, int32_t *x, size_t places, uint64_t *q) {
    char *p;
    int32_t one;
    size_t i = 0, failures = 0;
    if (!head(text, q, &p)) return -1;
    for (; p < text + bytes; i++)
        if (!line(p, i, &failures, &one, &p)) return -1;
    return i > places ? -1 : as_it_goes(text, bytes, x, q);
}

static long by_fgets(const char *name, int32_t *x, uint64_t *q) {
    FILE *f = fopen(name, "r");
    char text[66], *p;
    size_t i = 0, failures = 0;
    if (!f || !fgets(text, sizeof text, f) || !head(text, q, &p)) return -1;
    for (; fgets(text, sizeof text, f); i++)
        if (!line(text, i, &failures, x + i, &p)) return -1;
    fclose(f);
    return (long)i;
}

int main(int argc, char **argv) {
    if (argc != 2) return 2;
    static int32_t x[RECORDS], found[4][RECORDS];
    const size_t room = 22 + 18 * (size_t)RECORDS;
    uint8_t *out = malloc(room + 1);
    char *other = malloc(room + 1);
    uint64_t q = 7200000, bytes = 0, standard, line_number, column, count;
    srand(1);
    for (size_t i = 0; i < RECORDS; i++) {
        x[i] = i % 3 ? 1 + rand() % LONGEST : 1800000;
        if (i % 1587 == 1000) x[i] = -x[i] / 2 - 1;
    }
    double best[6];
    for (int k = 0; k < 6; k++) best[k] = 1e18;
    for (int run = 0; run < RUNS; run++) {
        double t[8];
        t[0] = now();
        if (chim_sheet_write(q, x, RECORDS, out, room, &bytes)) return 1;
        t[1] = now();
        if (by_snprintf(q, x, RECORDS, other, room) != (long)bytes) return 1;
        t[2] = now();
        if (memcmp(out, other, bytes)) return 1;
        if (!run) {
            FILE *f = fopen(argv[1], "wb");
            if (!f || fwrite(out, 1, bytes, f) != bytes || fclose(f)) return 2;
        }
        other[bytes] = 0;
        t[3] = now();
        if (chim_sheet_records(out, bytes, found[0], RECORDS, &standard, &line_number, &column, &count) || standard != q || count != RECORDS) return 1;
        t[4] = now();
        if (by_strtoull(other, bytes, found[1], RECORDS, &standard) != RECORDS || standard != q) return 1;
        t[5] = now();
        if (as_it_goes(other, bytes, found[2], &standard) != RECORDS || standard != q) return 1;
        t[6] = now();
        if (by_fgets(argv[1], found[3], &standard) != RECORDS || standard != q) return 1;
        t[7] = now();
        for (int k = 0; k < 6; k++) {
            int from = k < 2 ? k : k + 1;
            if (t[from + 1] - t[from] < best[k]) best[k] = t[from + 1] - t[from];
        }
    }
    for (int k = 0; k < 4; k++)
        if (memcmp(found[k], x, sizeof x)) return 1;
    const char *names[] = {"write", "snprintf", "records", "strtoull", "as it goes", "fgets"};
    for (int k = 0; k < 6; k++) printf("%-10s %8.2f ns a record %8.2f\n", names[k], best[k] / RECORDS, best[k] / best[k < 2 ? 0 : 2]);
    return 0;
}
