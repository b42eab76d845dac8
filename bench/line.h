/* A line of a comma file in plain C, for the benchmarks that read one. */
#include <stddef.h>
#include <stdint.h>

/* One line at s[i], the line of the time `want`: the place after it and the sample, or 0 where it is wrong. */
static inline size_t line(const uint8_t *s, size_t n, size_t i, uint64_t want, int64_t *sample) {
    uint64_t t = 0, v = 0, unit = 100;
    size_t from = i;
    while (i < n && s[i] >= '0' && s[i] <= '9' && i - from < 13) t = t * 10 + (s[i++] - '0');
    if (i == from || i - from > 12 || (s[from] == '0' && i - from > 1) || t != want) return 0;
    if (i >= n || s[i++] != ',') return 0;
    int minus = i < n && s[i] == '-';
    i += minus;
    from = i;
    while (i < n && s[i] >= '0' && s[i] <= '9' && i - from < 13) v = v * 10 + (s[i++] - '0');
    if (i == from || i - from > 12 || (s[from] == '0' && i - from > 1)) return 0;
    v *= 1000;
    if (i < n && s[i] == '.') {
        from = ++i;
        while (i < n && s[i] >= '0' && s[i] <= '9' && i - from < 4) {
            v += unit * (s[i++] - '0');
            unit /= 10;
        }
        if (i == from || i - from > 3) return 0;
    }
    if (i >= n || s[i++] != '\n') return 0;
    *sample = minus ? -(int64_t)v : (int64_t)v;
    return i;
}
