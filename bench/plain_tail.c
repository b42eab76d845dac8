/* What fitting a tail is measured against: a copy sorted by qsort, and log2 of each ratio in double precision, in units
 * of 1/65,536. Compiled apart from the caller, so that nothing is folded into it. */
#include <math.h>
#include <stdint.h>
#include <stdlib.h>
#include <string.h>

static int downwards(const void *a, const void *b) {
    uint32_t x = *(const uint32_t *)a, y = *(const uint32_t *)b;
    return (x < y) - (x > y);
}

double plain_fit(const uint32_t *peaks, size_t n, size_t k, uint32_t *sorted) {
    double sum = 0;
    memcpy(sorted, peaks, n * sizeof *peaks);
    qsort(sorted, n, sizeof *sorted, downwards);
    for (size_t i = 0; i < k; i++)
        sum += log2((double)sorted[i] / sorted[k - 1]);
    return sum * 65536;
}
