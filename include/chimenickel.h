/* Chimenickel: the proved failure counter, for C and whatever calls C.
 *
 * Numbers. A function that may refuse answers 0, or one of the refusal numbers below, and always writes *carried: with
 * a refusal what that refusal returns (0 for nothing), and with 0 the answer where it is one number, else 0. A refusal
 * leaves every state, slice and rate as it stood.
 *
 *   No.  given exactly when                                                     *carried
 *   1    an opening item is outside its range;                                  the item's number, the lowest
 *        a record that is to be added to a sum has another step                 1
 *   2    a sample is outside -1,000,000 to 1,000,000                            its place in the piece, the first; of two
 *                                                                               slices the lower, and *channel says whose
 *   3    the timed length of the record would pass 10,000,000 ms, on a sheet an exposure;   0
 *        the last time of a comma file would need more than 12 digits
 *   4    ending, adding, listing or finding peaks with fewer than ramp + 2 samples,   0
 *        or beginning a second pass after so few; on a sheet exposure 0
 *   5    entering into a campaign of 100,000 records                            0
 *   6    entering into a campaign with 64 failures                              0
 *   7    more counted times, peaks, samples, records or bytes than the slice has the number of places needed
 *   8    a state's array has another length, or numbers that are no state;      0
 *        a flag is neither 0 nor 1, or a result's exposure not 1 to 10,000,000
 *        a campaign of a loading condition is no state                          the situation's number, the lowest
 *   9    a line of a job sheet is malformed                                     the line's number
 *   10   a line of a comma file is malformed or has a wrong time                the line's number
 *   11   a sum would have more than 10,000 failures or 100,000,000 samples      0
 *   12   the roll and the acceleration that are lent have unequal lengths       0
 *   13   a bureau other than 1 or 2                                             0
 *   14   taking a job for a bureau that has 16 already                          0
 *   15   a place that is not in the table, or not the bureau's own              0
 *   16   a list of more than 4,096 peaks, or k outside 2 to its length          0
 *   17   a peak is 0 or above 1,000,000;                                        its place in the list, the first
 *        where the list is to lie downwards, above the one before it
 *   18   a loading condition of no campaign, or of more than 64                 0
 *   19   fewer timed samples than peaks in the tail, or more than 100,000,000   0
 *   20   a level below the last peak of the tail                                that peak
 *   21   a tail without spread                                                  0
 *
 * Where several hold, the first in the order that stands at the function is given.
 *
 * Memory. A slice is a pointer and the number of its elements. Pointers are aligned and never NULL, not even of an
 * empty slice, and memory that a function writes overlaps nothing else that it is lent; whatever numbers stand there,
 * the answer is defined. No function keeps a pointer, allocates, or touches anything but its arguments, so calls on
 * different states may run at the same time.
 *
 * States. A state is an array of numbers that the caller keeps, copies and stores as it likes. Any change to one is
 * either another sound state or refusal 8 at its next use.
 *
 *   record, 14 numbers                                   campaign, 5 numbers
 *   0  step, ms                   1 to 10,000            0  standard: one failure in so many ms   1 to 100,000,000,000
 *   1  ramp, samples              0 to 1,000,000         1  records M                             0 to 100,000
 *   2  level of the roll          1 to 1,000,000         2  failures N                            0 to 64
 *   3  decorrelation time, ms     0 to 10,000,000        3  exposure T, ms                        M to M * 10,000,000
 *   4  samples so far, n                                 4  1 if the last record failed, else 0
 *   5  last roll x: 2x, and -2x - 1 for x below 0; 0 to 2,000,000
 *   6  crossings
 *   7  largest set: the most crossings pairwise at least the decorrelation time apart
 *   8  place of the first crossing, 0 for none
 *   9  place of the last crossing in the largest set, 0 for none
 *   10 place of the last crossing, 0 for none; not before number 9, and below n
 *   11 groups, the counted failures; from 1 to the largest set where there is a crossing
 *   12 level of the acceleration  1 to 1,000,000
 *   13 last acceleration, as number 5
 *
 * A record watches roll and acceleration together. It is above where the roll is above its level, or the acceleration
 * above its own, by magnitude; a crossing is a sample above after one that was above in neither. A job of one channel
 * lends zeros for the other, which are above no level, and gives any level for it.
 *
 * A group is a run of successive crossings, each less than the decorrelation time after the crossing just before it. It
 * is counted once, by its first crossing. A record had 10 numbers and a result 4 before groups were counted, and a
 * record 12 while it had one channel; arrays of those lengths are refused by 8.
 *
 * A result, 5 numbers, is what a record comes to when it is ended: crossings, counted failures (the groups), the first
 * failure's place (0 for none), exposure in ms, largest set. A campaign takes of it whether there is a first failure
 * and the exposure, and nothing else.
 *
 * A sum, 3 numbers, adds up records by the binomial method: the step of them all in ms (0), the counted failures N (1),
 * 0 to 10,000, and the timed samples P (2), 0 to 100,000,000, N at most P.
 *
 * Peaks in pieces need two passes over a record's samples, each a state of its own.
 *
 *   first pass, 10 numbers                               second pass, 24 numbers
 *   0  step, ms                   1 to 10,000            0 to 5  as in the first pass
 *   1  samples after the ramp so far, n                  6  stretches of peaks opened, 0 to n
 *   2  runs of one sign opened    0 to n                 7 to 9    the last peak
 *   3 to 5  the largest sample of the open run           10 to 12  the largest of the open stretch
 *   6  peaks so far               0 to n                 13 chains of kept peaks opened, 0 to n
 *   7  their sum                                         14 to 16  the last kept peak
 *   8  ramp, samples              0 to 1,000,000         17 to 19  the largest of the open chain
 *   9  how many of the ramp's samples are to come;       20 decorrelation time, ms, 0 to 10,000,000
 *      0 once there is a sample after it                 21 peaks of the record, from the first pass
 *                                                        22 their sum, from the first pass
 *                                                        23 as number 9 of the first pass
 *
 * Three numbers for a sample or a peak: 1 below zero, else 0; its magnitude, 0 to 1,000,000; its time in ms after the
 * ramp, 0 to 10,000,000.
 *
 * Rolls and their level are in thousandths of a degree, accelerations and theirs in mm/s2, times in ms, rates in
 * failures a second. Items 1 to 4 are a record's first four numbers, item 5 is the standard, item 6 a record's number
 * 12.
 *
 * Example: the start of examples/c/campaign.c, which CI compiles and runs. A roll that crosses 40 degrees, fed in two
 * pieces with zeros lent for the acceleration, is ended; its result can be looked at before it enters a campaign at one
 * failure in two hours. The verdict then is CHIM_REJECT.
 *
 *   uint64_t campaign[CHIM_CAMPAIGN_NUMBERS], record[CHIM_RECORD_NUMBERS], result[CHIM_RESULT_NUMBERS], carried, channel;
 *   chim_campaign_open(7200000, campaign, CHIM_CAMPAIGN_NUMBERS, &carried);
 *   chim_record_open(500, 0, 40000, 2000, 9810, record, CHIM_RECORD_NUMBERS, &carried);
 *   const int32_t roll[] = {0, 41000, 39000, 41000, 39000, 41000, 0}, zeros[7] = {0};
 *   chim_record_feed(record, CHIM_RECORD_NUMBERS, roll, 3, zeros, 3, &carried, &channel);
 *   chim_record_feed(record, CHIM_RECORD_NUMBERS, roll + 3, 4, zeros, 4, &carried, &channel);
 *   chim_record_end(record, CHIM_RECORD_NUMBERS, result, CHIM_RESULT_NUMBERS, &carried);
 *   chim_campaign_enter_result(campaign, CHIM_CAMPAIGN_NUMBERS, result, CHIM_RESULT_NUMBERS, &carried);
 */
#ifndef CHIMENICKEL_H
#define CHIMENICKEL_H

#include <stddef.h>
#include <stdint.h>

/* 3.1.2, each of the last two in three digits. The first number is that of the library's name for the loader,
 * libchimenickel.so.3, and grows when an array's length does; the second when a function is added. */
#define CHIM_VERSION 3001002

#ifdef __cplusplus
extern "C" {
#endif

enum { CHIM_RECORD_NUMBERS = 14, CHIM_RESULT_NUMBERS = 5, CHIM_CAMPAIGN_NUMBERS = 5, CHIM_SUM_NUMBERS = 3, CHIM_BOUNDS_NUMBERS = 4, CHIM_TIMES_NUMBERS = 3, CHIM_SURVEY_NUMBERS = 10, CHIM_HANDING_NUMBERS = 24, CHIM_BENCH_PLACES = 32, CHIM_PLACE_NUMBERS = 6 };

/* The most situations of a loading condition, and room for the report of any. */
enum { CHIM_MOST_SITUATIONS = 64, CHIM_REPORT_BYTES = 1832 };

/* The places of a result. */
enum { CHIM_CROSSINGS = 0, CHIM_COUNTED = 1, CHIM_FIRST = 2, CHIM_EXPOSURE = 3, CHIM_LARGEST_SET = 4 };

/* The places of a sum's bounds. */
enum { CHIM_ESTIMATE = 0, CHIM_LOWER = 1, CHIM_UPPER = 2, CHIM_TIME = 3 };

/* The places of the times beyond the records. */
enum { CHIM_ESTIMATED = 0, CHIM_LONGEST_ACCEPTED = 1, CHIM_SHORTEST_REJECTED = 2 };

enum {
    CHIM_TAKEN = 0,
    CHIM_ITEM = 1,
    CHIM_SAMPLE = 2,
    CHIM_TOO_LONG = 3,
    CHIM_TOO_SHORT = 4,
    CHIM_CAMPAIGN_FULL = 5,
    CHIM_ROWS_USED_UP = 6,
    CHIM_ROOM = 7,
    CHIM_BROKEN_STATE = 8,
    CHIM_LINE = 9,
    CHIM_COMMA_LINE = 10,
    CHIM_SUM_FULL = 11,
    CHIM_UNEQUAL = 12,
    CHIM_NO_BUREAU = 13,
    CHIM_BUREAU_FULL = 14,
    CHIM_NOT_ITS_OWN = 15,
    CHIM_TAIL = 16,
    CHIM_PEAK = 17,
    CHIM_CONDITION = 18,
    CHIM_TIMED_SAMPLES = 19,
    CHIM_LOW_LEVEL = 20,
    CHIM_NO_SPREAD = 21
};

/* The channels of a record. */
enum { CHIM_ROLL = 1, CHIM_ACCELERATION = 2 };

enum { CHIM_NO_RECORD = 0, CHIM_ACCEPT = 1, CHIM_REJECT = 2, CHIM_CONTINUE = 3 };

/* What a loading condition comes to. */
enum { CHIM_ACCEPTED = 1, CHIM_REJECTED = 2, CHIM_OPEN = 3 };

/* ---- a record: roll and acceleration at a fixed step
 *
 * Every call that has *channel writes it: with 2 CHIM_ROLL or CHIM_ACCELERATION, the roll where both are bad at the
 * lower place, and else 0. */

/* Puts a record without samples into `state`. Refuses 8 (the array's length), 1 with the lowest of items 1 to 4
 * and 6. */
uint64_t chim_record_open(uint64_t step, uint64_t ramp, uint64_t level, uint64_t decorrelation, uint64_t acceleration_level, uint64_t *state,
                          size_t state_len, uint64_t *carried);

/* Feeds the next piece of the record, both slices cut at the same place; cut anywhere, the pieces of a record lead to
 * the state of the whole. Refuses 8, 12, 2, 3. */
uint64_t chim_record_feed(uint64_t *state, size_t state_len, const int32_t *roll, size_t roll_len, const int32_t *acceleration,
                          size_t acceleration_len, uint64_t *carried, uint64_t *channel);

/* Ends the record in `state`, which is read and not changed: its result into `result`. Refuses 8 (the record, or the
 * result's length), 4. */
uint64_t chim_record_end(const uint64_t *state, size_t state_len, uint64_t *result, size_t result_len, uint64_t *carried);

/* The place of the first crossing of a whole record, and the length if there is none. It never refuses: samples and
 * numbers of any size are compared as they are, and of unequal slices only the places that both have, the length being
 * that of the shorter. */
size_t chim_record_first_crossing(const int32_t *roll, size_t roll_len, const int32_t *acceleration, size_t acceleration_len, uint64_t ramp,
                                  uint64_t level, uint64_t acceleration_level);

/* Writes the counted times of a whole record, each group's by its first crossing, in order, from the start of `times`,
 * whose other places stay; *carried is their number. Refuses 1, 12, 2, 3, 4, 7. */
uint64_t chim_record_list(uint64_t step, uint64_t ramp, uint64_t level, uint64_t decorrelation, uint64_t acceleration_level, const int32_t *roll,
                          size_t roll_len, const int32_t *acceleration, size_t acceleration_len, uint32_t *times, size_t times_len,
                          uint64_t *carried, uint64_t *channel);

/* ---- a campaign: many records */

/* Puts a campaign without a record into `state`. Refuses 8 (the array's length), 1 with item 5. */
uint64_t chim_campaign_open(uint64_t standard, uint64_t *state, size_t state_len, uint64_t *carried);

/* Enters a result into the campaign in `state` by what a campaign takes of it: whether there is a first failure (1) or
 * not (0), and the exposure, 1 to 10,000,000 ms. Refuses 8 (the state, the flag, the exposure), 5, 6. */
uint64_t chim_campaign_enter(uint64_t *state, size_t state_len, uint64_t failed, uint64_t exposure, uint64_t *carried);

/* Enters a result by its five numbers, as chim_record_end left them; only the first failure's place and the exposure
 * are read, and the result is not changed. Refuses 8 (the state, the result's length, its exposure), 5, 6. */
uint64_t chim_campaign_enter_result(uint64_t *state, size_t state_len, const uint64_t *result, size_t result_len,
                                    uint64_t *carried);

/* *carried is the censored count N*. Refuses 8. */
uint64_t chim_campaign_censored(const uint64_t *state, size_t state_len, uint64_t *carried);

/* *carried is the verdict; accept sets *upper, reject *lower, continue both, and a rate that the verdict does not carry
 * is set to 0. Refuses 8. */
uint64_t chim_campaign_verdict(const uint64_t *state, size_t state_len, double *lower, double *upper, uint64_t *carried);

/* The estimate of the rate and its 95% bounds; *carried is 1, and 0 while there is no record, when the rates are 0.
 * Refuses 8. */
uint64_t chim_campaign_rates(const uint64_t *state, size_t state_len, double *estimate, double *lower, double *upper, uint64_t *carried);

/* ---- a sum of records that go on past a failure: the binomial method */

/* Puts the sum of no records into `state`, all of them to be at this step. Refuses 8 (the array's length), 1 with
 * item 1. */
uint64_t chim_sum_open(uint64_t step, uint64_t *state, size_t state_len, uint64_t *carried);

/* Adds a record, which is read and not changed, to the sum in `state`: N grows by its groups, P by its timed samples,
 * n less the ramp. Refuses 8 (the sum, the record), 4, 1 with item 1 if its step is not the sum's, 11. */
uint64_t chim_sum_add(uint64_t *state, size_t state_len, const uint64_t *added, size_t added_len, uint64_t *carried);

/* The estimate and its 95% bounds in thousandths of a failure, and the time P * D in ms, into `bounds`: 1,000 N, and
 * 1,000 N less and plus the half-width, the least whole number whose square times P is at least 1,960^2 * N * (P - N);
 * the lower one is 0 where that falls below. *carried is 1, and 0 while there is no record, when all four are 0.
 * Refuses 8 (the sum, or the length of `bounds`). */
uint64_t chim_sum_bounds(const uint64_t *state, size_t state_len, uint64_t *bounds, size_t bounds_len, uint64_t *carried);

/* Each of the three over the time: the estimate of the rate and its 95% bounds; *carried is 1, and 0 while there is no
 * record, when the rates are 0. Refuses 8. */
uint64_t chim_sum_rates(const uint64_t *state, size_t state_len, double *estimate, double *lower, double *upper, uint64_t *carried);

/* ---- the bench: one table of 32 places that bureaus 1 and 2 share
 *
 * A table is 32 rows of six numbers, 192 in all: the owner (0 free, 1 or 2), then the five of its campaign, all zeros
 * where the place is free. 192 zeros are an empty bench: uint64_t table[CHIM_BENCH_PLACES][CHIM_PLACE_NUMBERS] = {{0}}.
 * table_len is the number of rows, 32. Each function refuses 8 first of all, for a table of another length or one that
 * breaks these relations (at most 16 places a bureau, every campaign sound), and 13. Whatever calls the other bureau
 * makes in between, a bureau is answered as at a table of its own; only which place it gets depends on both. Two calls
 * at one table must not run at the same time. */

/* Takes a job at this standard: *carried is its place, the lowest that is free, which holds a campaign without a record
 * then. Refuses 8, 13, 14, 1 with item 5. */
uint64_t chim_bench_take(uint64_t (*table)[6], size_t table_len, uint64_t bureau, uint64_t standard, uint64_t *carried);

/* Enters a result as chim_campaign_enter does, into the campaign in the bureau's place. Refuses 8, 13, 15, 8 (the flag
 * or the exposure), 5, 6. */
uint64_t chim_bench_enter(uint64_t (*table)[6], size_t table_len, uint64_t bureau, uint64_t place, uint64_t failed, uint64_t exposure,
                          uint64_t *carried);

/* What chim_campaign_verdict tells, of the campaign in the bureau's place. Refuses 8, 13, 15. */
uint64_t chim_bench_verdict(uint64_t (*table)[6], size_t table_len, uint64_t bureau, uint64_t place, double *lower, double *upper,
                            uint64_t *carried);

/* What chim_campaign_rates tells, of the campaign in the bureau's place. Refuses 8, 13, 15. */
uint64_t chim_bench_rates(uint64_t (*table)[6], size_t table_len, uint64_t bureau, uint64_t place, double *estimate, double *lower,
                          double *upper, uint64_t *carried);

/* Gives the bureau's place back: it is free and all zeros then. Refuses 8, 13, 15. */
uint64_t chim_bench_give_back(uint64_t (*table)[6], size_t table_len, uint64_t bureau, uint64_t place, uint64_t *carried);

/* ---- a loading condition: one campaign for each design situation, 1 to 64
 *
 * Campaigns are rows of five numbers each, as above, and `situations` is the number of rows; a situation's number is
 * that of its row, 1 for the first. Each campaign is judged at its own standard. Rows are read and not changed. C
 * before C23 has no way from rows that are not const to rows that are, which gcc -pedantic says; the cast is
 * (const uint64_t(*)[5])rows. */

/* *carried is what the condition comes to: one rejected campaign makes it CHIM_REJECTED, it takes every campaign to
 * make it CHIM_ACCEPTED, and anything else leaves it CHIM_OPEN; one without a record is neither accepted nor rejected.
 * Refuses 18, 8 with the lowest situation. */
uint64_t chim_condition_judge(const uint64_t (*campaigns)[5], size_t situations, uint64_t *carried);

/* Writes the condition's report into `out`, whose other bytes stay; *carried is its length. Fields are parted by a tab,
 * lines ended by LF. A line for each situation has its number, N, N*, T, the verdict's letter (A, R, C; E while there
 * is no record) and the blocks billed, of five failures each, one that is begun counted too. The last line has the word
 * total, the sums of M, N, T and the blocks, and A, R or O for what the condition comes to. Refuses 18, 8 with the
 * lowest situation, 7 with the bytes needed. Room for 40 bytes and 28 for each situation is always enough. */
uint64_t chim_condition_report(const uint64_t (*campaigns)[5], size_t situations, uint8_t *out, size_t room, uint64_t *carried);

/* ---- a job sheet: `text` is the whole of it, as bin/tally reads it */

/* Puts the campaign that the sheet ends in into `state`; *line is then 0. Refuses 8 (the array's length; *line is 0),
 * then by the sheet's first bad line, whose number is in *line: 9, then on line 1 1, on later lines 4, 3, 5, 6. *column
 * is where a malformed line (9) is at fault, in bytes, 1 for the first: the first strange byte of the first bad field,
 * or that field's start; 0 where the line as a whole is at fault (absent, over 64 bytes, no LF, wrong number of
 * fields), and 0 for every other answer. */
uint64_t chim_sheet_read(const uint8_t *text, size_t text_len, uint64_t *state, size_t state_len, uint64_t *line, uint64_t *column, uint64_t *carried);

/* Writes the sheet of a standard, one failure in `standard` ms, and its records, lent in order as exposures in ms with
 * a minus on the failed ones, into `out`, whose other bytes stay; *carried is its length. Refuses 1 with item 5; then
 * record by record 4, 3, 5, 6, the first record at fault deciding, INT32_MIN being a failed record that is too long;
 * then 7 with the bytes needed. Room for 22 bytes and 18 for each record is always enough. */
uint64_t chim_sheet_write(uint64_t standard, const int32_t *records, size_t records_len, uint8_t *out, size_t out_len, uint64_t *carried);

/* Reads the records of a whole job sheet into `records`, in the form that chim_sheet_write takes, whose other places
 * stay; *standard is its standard and *carried their number, *line and *column are 0. Refuses as chim_sheet_read does,
 * with *line and *column; then 7 with the places needed, on line 0. On a refusal *standard is 0. */
uint64_t chim_sheet_records(const uint8_t *text, size_t text_len, int32_t *records, size_t records_len, uint64_t *standard, uint64_t *line, uint64_t *column,
                            uint64_t *carried);

/* ---- the envelope peaks of a whole record, one channel at a time */

/* Samples from the ramp on, in runs of one sign (a zero belongs to the run before it, at the start to none), give a
 * peak for each run but the first and the last: its largest magnitude, at the first sample that has it. High are those
 * above the mean of all. Of each stretch of high peaks that has one which is not high on both sides the largest is
 * kept, of kept peaks each at most the decorrelation time after the one before the largest is handed out, both times
 * the first on a tie. Writes the magnitudes to the start of `sizes` and the times in ms after the ramp to the start of
 * `times`, whose other places stay; *carried is their number. Refuses 1 (items 1, 2 and 4; there is no level), 2, 3, 4,
 * 7 if either slice is too short. */
uint64_t chim_envelope_find(uint64_t step, uint64_t ramp, uint64_t decorrelation, const int32_t *samples, size_t samples_len, uint32_t *sizes, size_t sizes_len,
                            uint32_t *times, size_t times_len, uint64_t *carried);

/* ---- the envelope peaks of a record that comes in pieces, for records that are not held: its samples are handed over
 * twice, from the first one on, the ramp's too, and cut anywhere, each pass in its own way. The first pass finds how
 * many peaks there are and their sum, which say what is high; the second hands out each peak as it is settled. Whatever
 * the cuts, these are the peaks of chim_envelope_find, and no call is refused where that refuses nothing. That both
 * passes are lent the same samples is the caller's to see to. */

/* Puts a first pass without samples into `state`. Refuses 8 (the array's length), 1 with the lower of items 1 and 2. */
uint64_t chim_peaks_survey(uint64_t step, uint64_t ramp, uint64_t *state, size_t state_len, uint64_t *carried);

/* The first pass with the next piece. Refuses 8, 2, 3. */
uint64_t chim_peaks_take(uint64_t *state, size_t state_len, const int32_t *samples, size_t samples_len,
                         uint64_t *carried);

/* Puts the second pass without samples into `state`, once the first, in `survey`, has had all of them; it is read and
 * not changed, so that one first pass serves several decorrelation times. Refuses 8 (the array's length, the first
 * pass), 1 with item 4, 4. */
uint64_t chim_peaks_begin(const uint64_t *survey, size_t survey_len, uint64_t decorrelation, uint64_t *state,
                          size_t state_len, uint64_t *carried);

/* The second pass with the next piece: the magnitudes and times of the peaks that it settled, in order, to the start of
 * `sizes` and `times`, whose other places stay; *carried is their number. Refuses 8, 2, 3, 7 with the number of the
 * piece's samples after the ramp if either slice has fewer places, however many peaks there are. */
uint64_t chim_peaks_hand_over(uint64_t *state, size_t state_len, const int32_t *samples, size_t samples_len,
                              uint32_t *sizes, size_t sizes_len, uint32_t *times, size_t times_len, uint64_t *carried);

/* After the last piece: the peak that the record's end settles, in *size and *time, and 1 in *carried; where there is
 * none all three are 0. The second pass is read and not changed. Refuses 8. */
uint64_t chim_peaks_last(const uint64_t *state, size_t state_len, uint32_t *size, uint32_t *time, uint64_t *carried);

/* ---- the tail of a list of peaks, thousandths of a degree or mm/s2 */

/* Writes the peaks sorted downwards, Y(1), Y(2), .., to the start of `sorted`, whose other places stay; *carried is the
 * Hill sum over the k largest: the logarithms to base 2 of Y(i) / Y(k), i from 1 to k, added up in units of 1/65,536.
 * Each is never above the exact figure and at most 1 below, and 0 for a peak that is Y(k), so the sum is at most k - 1
 * below. Document 001's shape of the tail (11) is xi = sum * ln 2 / (65,536 * k). Refuses 16, 17, 7. */
uint64_t chim_tail_fit(const uint32_t *peaks, size_t peaks_len, uint64_t k, uint32_t *sorted, size_t sorted_len, uint64_t *carried);

/* The rate beyond the records: from peaks that lie downwards, as chim_tail_fit leaves them at the start of `sorted`, a
 * tail of the first k, a level (item 3), a step (item 1), the timed samples of all records and a standard (item 5),
 * three times in ms: at most the estimated mean time between failures at the level, the longest standard found to be
 * accepted (0 for none), the shortest found to be rejected (0 for none). The standard's letter goes to *carried:
 * CHIM_ACCEPT, CHIM_REJECT or CHIM_CONTINUE. Refuses 8 for another number of times; 1 with the lowest of items 1, 3 and
 * 5; 16; 17 with the first place; 19; 20 with the k-th peak; 21 where the Hill sum is 0 or the exponent by the
 * library's figures 64 or more, as with clipped records. */
uint64_t chim_extrapolate(const uint32_t *peaks, size_t peaks_len, uint64_t k, uint64_t level, uint64_t step,
                          uint64_t samples, uint64_t standard, uint64_t *times, size_t times_len, uint64_t *carried);

/* ---- a simulator's comma file: one sample a line, ended by LF: time in ms, comma, roll in degrees with at most three
 * decimals; times start at 0 and grow by the step */

/* Reads the whole text into `samples`, thousandths of a degree, whose other places stay; *carried is their number. Each
 * refusal is judged over all lines: 1 for the step, 10, 2 with the sample's place, 7 with the number of samples. */
uint64_t chim_comma_read(const uint8_t *text, size_t text_len, uint64_t step, int32_t *samples, size_t samples_len, uint64_t *carried);

/* Writes samples as such a text into `out`, always with three decimals, whose other bytes stay; *carried is its length.
 * Refuses 1 for the step, 2, 3, 7 with the bytes needed. */
uint64_t chim_comma_write(const int32_t *samples, size_t samples_len, uint64_t step, uint8_t *out, size_t out_len, uint64_t *carried);

/* ---- the quantile table, in millionths of an expected failure: row n from 1 to 64, and 0 for any other n */
uint32_t chim_upper_row(uint64_t n);
uint32_t chim_lower_row(uint64_t n);

/* ---- the CHIM_VERSION of the header that the library was made with; it is beside the proof */
uint64_t chim_version(void);

#ifdef __cplusplus
}
#endif

#endif
