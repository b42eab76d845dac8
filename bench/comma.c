/* bench/comma.c FILE STEP: reads the file of samples into memory and times, best of several runs in turn over the same
 * bytes, the proved reader and four others in plain C; prints nanoseconds a line and how many times as long each took.
 * All five have to find the same samples.
 *
 * proved      chim_comma_read: every refusal judged over all lines, nothing written before all is judged
 * same        a hand-written loop that keeps the same promise: one pass to judge, a second to write
 * loop        a hand-written loop that writes as it goes, and so leaves half a record at a bad line
 * stdio       fgets, strtoull, strtod, a line at a time, writing as it goes */
#include <stdint.h>
#include <stdio.h>
#include <stdlib.h>
#include <string.h>

#include "chimenickel.h"
#include "clock.h"
#include "line.h"

static long loop(const uint8_t *s, size_t n, uint64_t step, int32_t *out) {
    long k = 0;
    int64_t x;
    for (size_t i = 0; i < n; k++) {
        i = line(s, n, i, (uint64_t)k * step, &x);
        if (!i || x > 1000000 || x < -1000000) return -1;
        out[k] = (int32_t)x;
    }
    return k;
}

static long same(const uint8_t *s, size_t n, uint64_t step, int32_t *out, size_t places) {
    size_t k = 0, bad = 0;
    int64_t x;
    for (size_t i = 0; i < n; k++) {
        i = line(s, n, i, k * step, &x);
        if (!i) return -1;
        bad += x > 1000000 || x < -1000000;
    }
    if (bad || k > places) return -1;
    k = 0;
    for (size_t i = 0; i < n; k++) {
        i = line(s, n, i, k * step, &x);
        out[k] = (int32_t)x;
    }
    return (long)k;
}

static long stdio(const char *name, uint64_t step, int32_t *out) {
    FILE *f = fopen(name, "r");
    char text[128], *end;
    long k = 0;
    while (fgets(text, sizeof text, f)) {
        if (strtoull(text, &end, 10) != (uint64_t)k * step || *end != ',') return -1;
        double x = strtod(end + 1, &end) * 1000;
        if (*end != '\n' || x > 1000000 || x < -1000000) return -1;
        out[k++] = (int32_t)(x < 0 ? x - 0.5 : x + 0.5);
    }
    fclose(f);
    return k;
}

int main(int argc, char **argv) {
    if (argc != 3) return 2;
    uint64_t step = strtoull(argv[2], 0, 10), carried = 0;
    FILE *f = fopen(argv[1], "rb");
    if (!f) return 2;
    fseek(f, 0, SEEK_END);
    size_t n = (size_t)ftell(f), lines = 0;
    rewind(f);
    uint8_t *s = malloc(n + 1);
    if (fread(s, 1, n, f) != n) return 2;
    for (size_t i = 0; i < n; i++) lines += s[i] == '\n';
    int32_t *out[4];
    double best[4] = {1e18, 1e18, 1e18, 1e18};
    for (int k = 0; k < 4; k++) out[k] = calloc(lines + 1, sizeof **out);
    for (int run = 0; run < 25; run++) {
        double t[5];
        t[0] = now();
        if (chim_comma_read(s, n, step, out[0], lines, &carried) || carried != lines) return 1;
        t[1] = now();
        if (same(s, n, step, out[1], lines) != (long)lines) return 1;
        t[2] = now();
        if (loop(s, n, step, out[2]) != (long)lines) return 1;
        t[3] = now();
        if (run < 5 && stdio(argv[1], step, out[3]) != (long)lines) return 1;
        t[4] = now();
        for (int k = 0; k < 4; k++)
            if ((k < 3 || run < 5) && t[k + 1] - t[k] < best[k]) best[k] = t[k + 1] - t[k];
    }
    for (int k = 1; k < 4; k++)
        if (memcmp(out[0], out[k], lines * sizeof **out)) return 1;
    const char *names[] = {"proved", "same", "loop", "stdio"};
    for (int k = 0; k < 4; k++) printf("%-8s %8.2f ns a line %8.2f\n", names[k], best[k] / (double)lines, best[k] / best[0]);
    return 0;
}
