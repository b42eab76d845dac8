/* What feeding, listing and searching are measured against: plain.c, and plain.rs for feeding and listing. */
#include <stddef.h>
#include <stdint.h>

uint64_t plain_feed(uint64_t step, uint64_t ramp, uint64_t level, uint64_t decorrelation, uint64_t acceleration_level, const int32_t *roll,
                    const int32_t *acceleration, size_t n, uint64_t *crossings, uint64_t *largest_set);
uint64_t plain_list(uint64_t step, uint64_t ramp, uint64_t level, uint64_t decorrelation, uint64_t acceleration_level, const int32_t *roll,
                    const int32_t *acceleration, size_t n, uint32_t *times, size_t places);
size_t plain_search(const int32_t *roll, const int32_t *acceleration, size_t n, uint64_t ramp, uint64_t level, uint64_t acceleration_level);
size_t plain_first_bad(const int32_t *roll, const int32_t *acceleration, size_t n, uint64_t *channel);
int64_t plain_sum(const int32_t *samples, size_t n);

/* what a record is counted by, for Rust */
typedef struct {
    uint64_t step, ramp, level, decorrelation, acceleration_level;
} Items;
uint64_t rust_feed(const Items *items, const int32_t *roll, const int32_t *acceleration, size_t n, uint64_t *largest_set);
uint64_t rust_list(const Items *items, const int32_t *roll, const int32_t *acceleration, size_t n, uint32_t *times, size_t places);
