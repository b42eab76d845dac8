/* The two slices that feeding and listing are timed on. */
#include <stddef.h>
#include <stdint.h>

/* a roll within 39 degrees and an acceleration within 9,000 mm/s2; at every `every`-th sample (0: never) one of them is
 * above its level, in turn. With `alone` it is always the roll, and zeros are lent for the acceleration */
static void fill(int32_t *roll, int32_t *acceleration, size_t n, size_t every, int alone) {
    uint32_t seed = 12345;
    for (size_t i = 0; i < n; i++) {
        seed = seed * 1664525u + 1013904223u;
        int32_t x = (int32_t)(seed >> 16) % 39000, y = (int32_t)(seed >> 13 & 0x7fff) % 9000;
        roll[i] = seed & 128 ? -x : x;
        acceleration[i] = alone ? 0 : seed & 64 ? -y : y;
        if (every != 0 && i % every == every - 1) {
            if (alone || i / every % 2 == 0)
                roll[i] = 41000;
            else
                acceleration[i] = -9900;
        }
    }
}
