/* What bin/peaks is measured against: plain C that reads a whole comma file into memory, judges each line as document
 * 02 has it, and writes the peaks that plain_envelope.c finds. With a word instead of a file it writes such a file of
 * 10,000,001 lines at 1 ms: a slow roll, or noise. */
#include <math.h>
#include <stdint.h>
#include <stdio.h>
#include <stdlib.h>
#include <string.h>

uint64_t plain_envelope(uint64_t step, uint64_t ramp, uint64_t tau, const int32_t *samples, size_t n, uint32_t *sizes, uint32_t *times, size_t places);

static void make(int noise) {
    uint32_t s = 7;
    for (int i = 0; i < 10000001; i++) {
        s = s * 1664525u + 1013904223u;
        int x = noise ? (int)(s >> 16) % 20001 - 10000 : (int)lround(9000 * sin(i / 730.0) + 1000 * sin(i / 190.0));
        printf("%d,%s%d.%03d\n", i, x < 0 ? "-" : "", abs(x) / 1000, abs(x) % 1000);
    }
}

/* the lines of text: their number, or 0 where one is wrong */
static size_t parse(const char *p, const char *end, int32_t *samples) {
    size_t n = 0;
    while (p < end) {
        uint64_t time = 0, size = 0;
        const char *start = p;
        while (p < end && *p >= '0' && *p <= '9')
            time = time * 10 + (uint64_t)(*p++ - '0');
        if (p == start || (*start == '0' && p > start + 1) || p - start > 12 || time != n || p == end || *p++ != ',')
            return 0;
        int minus = p < end && *p == '-';
        p += minus;
        start = p;
        while (p < end && *p >= '0' && *p <= '9')
            size = size * 10 + (uint64_t)(*p++ - '0');
        if (p == start || (*start == '0' && p > start + 1) || p - start > 12)
            return 0;
        size *= 1000;
        if (p < end && *p == '.') {
            uint64_t unit = 100;
            start = ++p;
            for (; p < end && *p >= '0' && *p <= '9' && p - start < 3; unit /= 10)
                size += (uint64_t)(*p++ - '0') * unit;
            if (p == start)
                return 0;
        }
        if (p == end || *p++ != '\n' || size > 1000000)
            return 0;
        samples[n++] = minus ? -(int32_t)size : (int32_t)size;
    }
    return n;
}

int main(int count, char **words) {
    if (count > 1 && (!strcmp(words[1], "slow") || !strcmp(words[1], "noise"))) {
        make(*words[1] == 'n');
        return 0;
    }
    static uint32_t sizes[4000000], times[4000000];
    size_t room = 1 << 20, len = 0, got;
    char *text = malloc(room);
    while ((got = fread(text + len, 1, room - len, stdin)) > 0)
        if ((len += got) == room)
            text = realloc(text, room *= 2);
    int32_t *samples = malloc((len / 4 + 1) * sizeof *samples);
    size_t n = parse(text, text + len, samples);
    if (n < 2)
        return 1;
    uint64_t handed = plain_envelope(1, 0, 0, samples, n, sizes, times, 4000000);
    for (uint64_t i = 0; i < handed; i++)
        printf("%u.%03u\t%u\n", sizes[i] / 1000, sizes[i] % 1000, times[i]);
}
