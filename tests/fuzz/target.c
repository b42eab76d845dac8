/* A fuzz target over the whole C interface. The first byte of the input picks a part; the rest is a sheet, or numbers
 * and samples to call with. What has to hold whatever comes: a refusal leaves every lent array as it stood, what is
 * handed out is never refused as broken, a piece cut anywhere leads to the same record, a record's channels changed for
 * each other give the same failures, a sheet's campaign is that of its records, a bureau's call leaves the other's
 * places, a comma file that is read is written and read again, a sheet's records are refused as the sheet is, and
 * written they are the sheet, envelope peaks are samples of the record, apart as they have to be, and the same in two
 * passes cut anywhere, a pass of any numbers is refused and left or goes on, a loading condition is what its campaigns
 * are told one by one, and a sum has the groups and the samples of the records that were added. */
#include <inttypes.h>
#include <stdint.h>
#include <stdio.h>
#include <stdlib.h>
#include <string.h>

#include "chimenickel.h"

static void hold(int fact) {
    if (!fact)
        abort();
}

/* the input, taken apart from the front; 0 when it is used up */
static const uint8_t *in;
static size_t left;

static uint64_t number(size_t bytes) {
    uint64_t n = 0;
    for (size_t i = 0; i < bytes && left > 0; i++, in++, left--)
        n = n << 8 | *in;
    return n;
}

/* the records of a sheet that answered so: they are read where there is room, refused as the sheet is, and written they
 * are that sheet again */
static void records(uint64_t answer, uint64_t line, uint64_t column) {
    enum { MOST = 1024 };
    static int32_t places[MOST], before[MOST];
    static uint8_t text[22 + 18 * MOST];
    uint64_t standard = 7, l = 7, k = 7, carried, bytes;
    for (size_t i = 0; i < MOST; i++)
        places[i] = before[i] = (int32_t)i;
    uint64_t read = chim_sheet_records(in, left, places, MOST, &standard, &l, &k, &carried);
    hold(read == answer || (answer == CHIM_TAKEN && read == CHIM_ROOM && carried > MOST));
    hold(l == line && k == column);
    if (read != CHIM_TAKEN) {
        hold(standard == 0 && memcmp(places, before, sizeof places) == 0);
        return;
    }
    hold(carried <= MOST && memcmp(places + carried, before + carried, (MOST - carried) * sizeof *places) == 0);
    hold(chim_sheet_write(standard, places, carried, text, sizeof text, &bytes) == CHIM_TAKEN);
    hold(bytes == left && memcmp(text, in, left) == 0);
}

/* a standard and records: what is written reads back as they are, and a refusal leaves the bytes */
static void ledger(void) {
    enum { MOST = 128 };
    int32_t list[MOST], back[MOST + 1];
    uint8_t text[22 + 18 * MOST];
    uint64_t standard = number(5), places = number(2), n = 0, line, column, carried, bytes, q;
    for (; n < MOST && left > 0; n++)
        list[n] = (int32_t)(uint32_t)number(number(1) % 4 + 1);
    size_t room = places % (sizeof text + 1);
    memset(text, 7, sizeof text);
    uint64_t answer = chim_sheet_write(standard, list, n, text, room, &bytes);
    if (answer != CHIM_TAKEN) {
        hold(answer == CHIM_ITEM || (answer >= CHIM_TOO_LONG && answer <= CHIM_ROOM));
        hold(answer != CHIM_ROOM || (bytes > room && bytes <= 22 + 18 * n));
        for (size_t i = 0; i < sizeof text; i++)
            hold(text[i] == 7);
        return;
    }
    hold(bytes <= room);
    for (size_t i = bytes; i < sizeof text; i++)
        hold(text[i] == 7);
    hold(chim_sheet_records(text, bytes, back, MOST, &q, &line, &column, &carried) == CHIM_TAKEN && q == standard && carried == n);
    hold(memcmp(back, list, n * sizeof *list) == 0);
}

static void sheet(void) {
    uint64_t state[CHIM_CAMPAIGN_NUMBERS] = {7, 7, 7, 7, 7}, before[CHIM_CAMPAIGN_NUMBERS], line = 7, column = 7, carried = 7;
    memcpy(before, state, sizeof state);
    uint64_t answer = chim_sheet_read(in, left, state, CHIM_CAMPAIGN_NUMBERS, &line, &column, &carried);
    if (answer == CHIM_TAKEN) {
        double lower, upper;
        hold(line == 0 && column == 0);
        hold(chim_campaign_verdict(state, CHIM_CAMPAIGN_NUMBERS, &lower, &upper, &carried) == CHIM_TAKEN);
    } else {
        hold(answer != CHIM_BROKEN_STATE && answer != CHIM_SAMPLE && answer != CHIM_ROOM && answer <= CHIM_LINE);
        hold(line >= 1 && line <= left + 1);
        hold(answer == CHIM_LINE ? carried == line && column <= 64 : column == 0);
        hold(memcmp(before, state, sizeof state) == 0);
    }
    records(answer, line, column);
}

/* a comma file: what is read lies within its range, is written and read back, and a refusal leaves the samples; samples
 * that are written read back */
static void comma(void) {
    enum { MOST = 1024 };
    static int32_t samples[MOST], again[MOST];
    static uint8_t text[40 * MOST];
    uint64_t step = number(2), places = number(2) % (MOST + 1), carried;
    for (size_t i = 0; i < MOST; i++)
        samples[i] = again[i] = (int32_t)i;
    uint64_t answer = chim_comma_read(in, left, step, samples, places, &carried);
    if (answer != CHIM_TAKEN) {
        hold(answer == CHIM_ITEM || answer == CHIM_COMMA_LINE || answer == CHIM_SAMPLE || answer == CHIM_ROOM);
        hold(answer != CHIM_COMMA_LINE || (carried >= 1 && carried <= left));
        hold(memcmp(samples, again, sizeof samples) == 0);
        return;
    }
    size_t n = carried;
    hold(n <= places);
    hold(memcmp(samples + n, again + n, (MOST - n) * sizeof *samples) == 0);
    for (size_t i = 0; i < n; i++)
        hold(samples[i] >= -1000000 && samples[i] <= 1000000);
    hold(chim_comma_write(samples, n, step, text, sizeof text, &carried) == CHIM_TAKEN);
    size_t bytes = carried;
    hold(chim_comma_read(text, bytes, step, again, n, &carried) == CHIM_TAKEN && carried == n);
    hold(memcmp(samples, again, n * sizeof *samples) == 0);
}

/* both channels of a record: samples within three bytes, most accelerations 0; `roll` is as long as `acceleration`, or
 * one of the two is cut shorter */
enum { MOST_SAMPLES = 512 };
typedef struct {
    int32_t roll[MOST_SAMPLES], acceleration[MOST_SAMPLES];
    size_t roll_len, acceleration_len;
} Channels;

static void channels(Channels *c) {
    size_t cut = number(1), n = 0;
    for (; left > 0 && n < MOST_SAMPLES; n++) {
        uint64_t how = number(1);
        c->roll[n] = (int32_t)number(3) - (how & 1 ? 8388608 : 0);
        c->acceleration[n] = how & 4 ? (int32_t)number(3) - (how & 2 ? 8388608 : 0) : 0;
    }
    c->roll_len = c->acceleration_len = n;
    if (cut % 8 == 6)
        c->roll_len = cut / 8 < n ? cut / 8 : n;
    if (cut % 8 == 7)
        c->acceleration_len = cut / 8 < n ? cut / 8 : n;
}

/* whether a sample is bad, and whether the record is above at a place that both channels have */
static int bad(int32_t x) { return x < -1000000 || x > 1000000; }

static int above(const Channels *c, size_t i, uint64_t level, uint64_t acceleration_level) {
    return (uint64_t)llabs(c->roll[i]) > level || (uint64_t)llabs(c->acceleration[i]) > acceleration_level;
}

/* that refusals 12 and 2 are given as they have to be, by an answer that no earlier refusal came before */
static void told_of(const Channels *c, uint64_t answer, uint64_t place, uint64_t channel) {
    hold((answer == CHIM_UNEQUAL) == (c->roll_len != c->acceleration_len));
    if (answer == CHIM_UNEQUAL) {
        hold(place == 0 && channel == 0);
        return;
    }
    size_t first = 0;
    while (first < c->roll_len && !bad(c->roll[first]) && !bad(c->acceleration[first]))
        first++;
    hold((answer == CHIM_SAMPLE) == (first < c->roll_len));
    hold(answer == CHIM_SAMPLE ? place == first && channel == (bad(c->roll[first]) ? CHIM_ROLL : CHIM_ACCELERATION) : channel == 0);
}

/* a record's numbers with the channels changed for each other */
static void swap(uint64_t *state) {
    uint64_t level = state[2], last = state[5];
    state[2] = state[12], state[12] = level;
    state[5] = state[13], state[13] = last;
}

/* a record: opened by the input, or any numbers at all; fed whole, in two pieces, and with the channels changed for
 * each other */
static void record(void) {
    uint64_t whole[CHIM_RECORD_NUMBERS], cut[CHIM_RECORD_NUMBERS], turned[CHIM_RECORD_NUMBERS], before[CHIM_RECORD_NUMBERS], carried, channel;
    if (number(1) % 2 == 0) {
        memset(whole, 0, sizeof whole);
        if (chim_record_open(number(2), number(1), number(3), number(2), number(3), whole, CHIM_RECORD_NUMBERS, &carried) != CHIM_TAKEN)
            return;
        const int32_t none[] = {0};
        hold(chim_record_feed(whole, CHIM_RECORD_NUMBERS, none, 0, none, 0, &carried, &channel) == CHIM_TAKEN);
    } else {
        for (size_t i = 0; i < CHIM_RECORD_NUMBERS; i++)
            whole[i] = number(1 + i % 3);
    }
    memcpy(before, whole, sizeof whole);
    memcpy(cut, whole, sizeof whole);
    memcpy(turned, whole, sizeof whole);
    swap(turned);
    static Channels c;
    size_t at = number(1);
    channels(&c);
    at = at < c.roll_len ? at : c.roll_len;
    uint64_t answer = chim_record_feed(whole, CHIM_RECORD_NUMBERS, c.roll, c.roll_len, c.acceleration, c.acceleration_len, &carried, &channel);
    if (answer == CHIM_BROKEN_STATE)
        hold(carried == 0 && channel == 0);
    else
        told_of(&c, answer, carried, channel);
    uint64_t place, other;
    hold(chim_record_feed(turned, CHIM_RECORD_NUMBERS, c.acceleration, c.acceleration_len, c.roll, c.roll_len, &place, &other) == answer);
    hold(place == carried && (other == 0) == (channel == 0));
    swap(turned);
    hold(memcmp(turned, whole, sizeof whole) == 0);
    if (answer != CHIM_TAKEN) {
        hold(answer == CHIM_BROKEN_STATE || answer == CHIM_UNEQUAL || answer == CHIM_SAMPLE || answer == CHIM_TOO_LONG);
        hold(memcmp(before, whole, sizeof whole) == 0);
        return;
    }
    size_t n = c.roll_len;
    hold(chim_record_feed(cut, CHIM_RECORD_NUMBERS, c.roll, at, c.acceleration, at, &carried, &channel) == CHIM_TAKEN);
    hold(chim_record_feed(cut, CHIM_RECORD_NUMBERS, c.roll + at, n - at, c.acceleration + at, n - at, &carried, &channel) == CHIM_TAKEN);
    hold(memcmp(cut, whole, sizeof whole) == 0);
    uint64_t campaign[CHIM_CAMPAIGN_NUMBERS], result[CHIM_RESULT_NUMBERS];
    answer = chim_record_end(whole, CHIM_RECORD_NUMBERS, result, CHIM_RESULT_NUMBERS, &carried);
    hold(answer == CHIM_TAKEN || answer == CHIM_TOO_SHORT);
    if (answer != CHIM_TAKEN)
        return;
    hold(result[CHIM_COUNTED] <= result[CHIM_LARGEST_SET] && result[CHIM_LARGEST_SET] <= result[CHIM_CROSSINGS]);
    hold((result[CHIM_COUNTED] == 0) == (result[CHIM_FIRST] == 0));
    hold(chim_campaign_open(7200000, campaign, CHIM_CAMPAIGN_NUMBERS, &carried) == CHIM_TAKEN);
    uint64_t again[CHIM_CAMPAIGN_NUMBERS];
    memcpy(again, campaign, sizeof again);
    hold(chim_campaign_enter(campaign, CHIM_CAMPAIGN_NUMBERS, result[CHIM_FIRST] != 0, result[CHIM_EXPOSURE], &carried) == CHIM_TAKEN);
    hold(chim_campaign_enter_result(again, CHIM_CAMPAIGN_NUMBERS, result, CHIM_RESULT_NUMBERS, &carried) == CHIM_TAKEN);
    hold(memcmp(campaign, again, sizeof again) == 0);
}

/* the groups of a whole record, by their first crossings' times: a run of crossings, each less than `decorrelation`
 * after the one just before it */
static size_t groups(uint64_t step, uint64_t ramp, uint64_t level, uint64_t decorrelation, uint64_t acceleration_level, const Channels *c,
                     uint32_t *firsts) {
    size_t number = 0;
    uint64_t before = 0;
    for (size_t i = 1; i < c->roll_len; i++) {
        uint64_t time = (i - ramp) * step;
        if (i <= ramp || above(c, i - 1, level, acceleration_level) || !above(c, i, level, acceleration_level))
            continue;
        if (number == 0 || time - before >= decorrelation)
            firsts[number++] = (uint32_t)time;
        before = time;
    }
    return number;
}

/* the search for the first crossing, among the places that both channels have */
static void search(const Channels *c, uint64_t ramp, uint64_t level, uint64_t acceleration_level) {
    size_t n = c->roll_len < c->acceleration_len ? c->roll_len : c->acceleration_len, place = ramp + 1;
    while (place < n && (above(c, place - 1, level, acceleration_level) || !above(c, place, level, acceleration_level)))
        place++;
    hold(chim_record_first_crossing(c->roll, c->roll_len, c->acceleration, c->acceleration_len, ramp, level, acceleration_level) == (place < n ? place : n));
}

/* listing into a slice of any length: beyond its places nothing is written, and a refusal writes nothing; the times are
 * those of the groups, as many as the record has when it is fed and ended */
static void list(void) {
    enum { PLACES = 16 };
    uint64_t step = number(2), ramp = number(1), level = number(3), decorrelation = number(2), acceleration_level = number(3);
    uint64_t places = number(1) % (PLACES + 1), carried = 0, channel = 7;
    static Channels c;
    uint32_t times[PLACES + 1];
    channels(&c);
    memset(times, 0xa5, sizeof times);
    uint64_t answer = chim_record_list(step, ramp, level, decorrelation, acceleration_level, c.roll, c.roll_len, c.acceleration, c.acceleration_len, times, places,
                                       &carried, &channel);
    if (answer == CHIM_ITEM)
        hold(channel == 0);
    else
        told_of(&c, answer, carried, channel);
    size_t written = answer == CHIM_TAKEN ? carried : 0;
    hold(written <= places);
    for (size_t i = written; i <= PLACES; i++)
        hold(times[i] == 0xa5a5a5a5);
    for (size_t i = 0; i < written; i++)
        hold(times[i] <= 10000000 && (i == 0 || times[i] >= times[i - 1] + decorrelation));
    search(&c, ramp, level, acceleration_level);
    if (answer != CHIM_TAKEN && answer != CHIM_ROOM)
        return;
    uint32_t firsts[MOST_SAMPLES];
    size_t number = groups(step, ramp, level, decorrelation, acceleration_level, &c, firsts);
    hold(carried == number && memcmp(times, firsts, written * sizeof *times) == 0);
    uint64_t state[CHIM_RECORD_NUMBERS], result[CHIM_RESULT_NUMBERS];
    hold(chim_record_open(step, ramp, level, decorrelation, acceleration_level, state, CHIM_RECORD_NUMBERS, &carried) == CHIM_TAKEN);
    hold(chim_record_feed(state, CHIM_RECORD_NUMBERS, c.roll, c.roll_len, c.acceleration, c.roll_len, &carried, &channel) == CHIM_TAKEN);
    hold(chim_record_end(state, CHIM_RECORD_NUMBERS, result, CHIM_RESULT_NUMBERS, &carried) == CHIM_TAKEN);
    hold(result[CHIM_COUNTED] == number);
    hold(chim_record_feed(state, 12, c.roll, c.roll_len, c.acceleration, c.roll_len, &carried, &channel) == CHIM_BROKEN_STATE);
}

/* a campaign of any numbers, and records entered into it */
static void campaign(void) {
    uint64_t state[CHIM_CAMPAIGN_NUMBERS], before[CHIM_CAMPAIGN_NUMBERS], carried;
    double x = -1, y = -1, z = -1;
    for (size_t i = 0; i < CHIM_CAMPAIGN_NUMBERS; i++)
        state[i] = number(i == 4 ? 1 : 1 + i);
    while (left > 0) {
        memcpy(before, state, sizeof state);
        uint64_t sound = chim_campaign_verdict(state, CHIM_CAMPAIGN_NUMBERS, &x, &y, &carried);
        hold(sound == CHIM_TAKEN ? carried <= CHIM_CONTINUE : sound == CHIM_BROKEN_STATE && x == -1 && y == -1);
        hold(chim_campaign_rates(state, CHIM_CAMPAIGN_NUMBERS, &x, &y, &z, &carried) == sound);
        hold(chim_campaign_censored(state, CHIM_CAMPAIGN_NUMBERS, &carried) == sound);
        uint64_t answer = chim_campaign_enter(state, CHIM_CAMPAIGN_NUMBERS, number(1) % 3, number(4), &carried);
        if (answer == CHIM_TAKEN) {
            hold(sound == CHIM_TAKEN && state[1] == before[1] + 1);
            hold(chim_campaign_censored(state, CHIM_CAMPAIGN_NUMBERS, &carried) == CHIM_TAKEN && carried == before[2] + 1);
        } else {
            hold(memcmp(before, state, sizeof state) == 0);
            return;
        }
    }
}

/* a sum of any numbers, and records of any samples added to it: bounds and rates are refused alike, the half-width is
 * the least, and a record that is taken adds what its result counts and its samples after the ramp */
static void sum(void) {
    enum { MOST = 64 };
    uint64_t state[CHIM_SUM_NUMBERS], before[CHIM_SUM_NUMBERS], carried, channel;
    for (size_t i = 0; i < CHIM_SUM_NUMBERS; i++)
        state[i] = number(i + 2);
    do {
        uint64_t bounds[CHIM_BOUNDS_NUMBERS] = {7, 7, 7, 7}, some, p = state[2];
        double e = -1, l = -1, u = -1;
        uint64_t sound = chim_sum_bounds(state, CHIM_SUM_NUMBERS, bounds, CHIM_BOUNDS_NUMBERS, &some);
        hold(chim_sum_rates(state, CHIM_SUM_NUMBERS, &e, &l, &u, &carried) == sound && carried == some);
        if (sound != CHIM_TAKEN) {
            hold(sound == CHIM_BROKEN_STATE && bounds[0] == 7 && bounds[3] == 7 && e == -1 && l == -1 && u == -1);
        } else {
            uint64_t n = 1000 * state[1], m = bounds[CHIM_UPPER] - n, a = 3841600 * state[1] * (p - state[1]);
            hold(some == (p != 0) && bounds[CHIM_ESTIMATE] == n && bounds[CHIM_LOWER] == (m < n ? n - m : 0) && bounds[CHIM_TIME] == p * state[0]);
            hold(m * m * p >= a && (m == 0 || (m - 1) * (m - 1) * p < a));
            hold(l <= e && e <= u && (p == 0 || u == (double)bounds[CHIM_UPPER] / (double)bounds[CHIM_TIME]));
        }
        uint64_t record[CHIM_RECORD_NUMBERS], result[CHIM_RESULT_NUMBERS], step = number(1) % 2 ? state[0] : number(2), ramp = number(1) % 4;
        int32_t roll[MOST], acceleration[MOST];
        size_t n = 0, most = number(1) % MOST;
        if (chim_record_open(step, ramp, 40000, number(2), 9810, record, CHIM_RECORD_NUMBERS, &carried) != CHIM_TAKEN)
            return;
        for (; left > 0 && n < most; n++) {
            uint64_t loud = number(1);
            roll[n] = loud & 1 ? 41000 : 0;
            acceleration[n] = loud & 2 ? 9811 : 0;
        }
        hold(chim_record_feed(record, CHIM_RECORD_NUMBERS, roll, n, acceleration, n, &carried, &channel) == CHIM_TAKEN);
        memcpy(before, state, sizeof state);
        uint64_t answer = chim_sum_add(state, CHIM_SUM_NUMBERS, record, CHIM_RECORD_NUMBERS, &carried);
        uint64_t ended = chim_record_end(record, CHIM_RECORD_NUMBERS, result, CHIM_RESULT_NUMBERS, &some);
        hold((answer == CHIM_BROKEN_STATE) == (sound != CHIM_TAKEN) && carried == (answer == CHIM_ITEM));
        if (answer != CHIM_TAKEN) {
            hold(memcmp(before, state, sizeof state) == 0);
            hold(answer != CHIM_TOO_SHORT || ended == CHIM_TOO_SHORT);
            hold(answer != CHIM_ITEM || step != state[0]);
            hold(answer != CHIM_SUM_FULL || before[1] + result[CHIM_COUNTED] > 10000 || before[2] + n - ramp > 100000000);
        } else {
            hold(ended == CHIM_TAKEN && state[0] == step && state[1] == before[1] + result[CHIM_COUNTED] && state[2] == before[2] + n - ramp);
        }
    } while (left > 0);
}

/* a bench: an empty one, or any numbers at all; calls of any bureau about any place */
static void bench(void) {
    uint64_t table[CHIM_BENCH_PLACES][CHIM_PLACE_NUMBERS] = {{0}}, before[CHIM_BENCH_PLACES][CHIM_PLACE_NUMBERS], carried;
    double x = -1, y = -1, z = -1;
    int sound = number(1) % 4 != 0;
    for (size_t i = 0; !sound && i < CHIM_BENCH_PLACES; i++)
        for (size_t k = 0; k < CHIM_PLACE_NUMBERS; k++)
            table[i][k] = number(1) % 4;
    while (left > 0) {
        memcpy(before, table, sizeof table);
        uint64_t bureau = number(1) % 4, place = number(1) % 34, what = number(1) % 5, answer;
        int entered = what == 1;
        switch (what) {
        case 0: answer = chim_bench_take(table, CHIM_BENCH_PLACES, bureau, number(2), &carried); break;
        case 1: answer = chim_bench_enter(table, CHIM_BENCH_PLACES, bureau, place, number(1) % 3, number(3), &carried); break;
        case 2: answer = chim_bench_verdict(table, CHIM_BENCH_PLACES, bureau, place, &x, &y, &carried); break;
        case 3: answer = chim_bench_rates(table, CHIM_BENCH_PLACES, bureau, place, &x, &y, &z, &carried); break;
        default: answer = chim_bench_give_back(table, CHIM_BENCH_PLACES, bureau, place, &carried);
        }
        hold(answer == CHIM_TAKEN || memcmp(before, table, sizeof table) == 0);
        hold(answer != CHIM_TAKEN || bureau == 1 || bureau == 2);
        hold(answer != CHIM_BROKEN_STATE || !sound || entered);
        /* no call changes a place of the other bureau, and what is left is a table again */
        for (size_t i = 0; i < CHIM_BENCH_PLACES; i++)
            hold(before[i][0] == 0 || before[i][0] == bureau || memcmp(before[i], table[i], sizeof table[i]) == 0);
        if (answer == CHIM_TAKEN)
            hold(chim_bench_give_back(table, CHIM_BENCH_PLACES, 3, 0, &carried) == CHIM_NO_BUREAU);
    }
}

/* a tail of any peaks, into a slice of any length: sorted downwards with the same sum, k figures of less than 20 whole
 * units each, and nothing beyond */
static void tail(void) {
    enum { MOST = 64 };
    uint32_t peaks[MOST], sorted[MOST + 1];
    uint64_t k = number(1), places = number(1) % (MOST + 1), carried = 0, before = 0, after = 0;
    size_t n = 0;
    while (left > 0 && n < MOST)
        peaks[n++] = (uint32_t)number(3) % 1048576;
    memset(sorted, 0xa5, sizeof sorted);
    uint64_t answer = chim_tail_fit(peaks, n, k, sorted, places, &carried);
    size_t written = answer == CHIM_TAKEN ? n : 0;
    hold(answer == CHIM_TAKEN || answer == CHIM_TAIL || (answer == CHIM_PEAK && carried < n) || (answer == CHIM_ROOM && carried == n && places < n));
    hold(answer != CHIM_TAKEN || (k >= 2 && k <= n && n <= places && carried < k * 20 * 65536));
    for (size_t i = written; i <= MOST; i++)
        hold(sorted[i] == 0xa5a5a5a5);
    for (size_t i = 0; i < written; i++) {
        hold(i == 0 || sorted[i] <= sorted[i - 1]);
        before += peaks[i], after += sorted[i];
    }
    hold(before == after);
}

/* the rate beyond the records from any peaks, as they come and sorted: a refusal leaves the times, and without one they
 * are in order, the letter is that of the standard, and a shorter one that was accepted is accepted again */
static void beyond(void) {
    enum { MOST = 64 };
    uint32_t peaks[MOST], sorted[MOST];
    uint64_t k = number(1), level = number(3), step = number(2), samples = number(4), standard = number(5), carried = 0, sum = 0;
    uint64_t times[CHIM_TIMES_NUMBERS + 1], places = number(1) % 16 == 0 ? number(1) % 5 : CHIM_TIMES_NUMBERS;
    size_t n = 0;
    while (left > 0 && n < MOST)
        peaks[n++] = (uint32_t)number(3) % 1048576;
    for (int turn = 0; turn < 2; turn++) {
        const uint32_t *list = turn == 0 ? peaks : sorted;
        if (turn == 1 && chim_tail_fit(peaks, n, k, sorted, MOST, &sum) != CHIM_TAKEN)
            return;
        memset(times, 0xa5, sizeof times);
        size_t lent = places <= CHIM_TIMES_NUMBERS ? places : CHIM_TIMES_NUMBERS + 1;
        uint64_t answer = chim_extrapolate(list, n, k, level, step, samples, standard, times, lent, &carried);
        for (size_t i = answer == CHIM_TAKEN ? CHIM_TIMES_NUMBERS : 0; i <= CHIM_TIMES_NUMBERS; i++)
            hold(times[i] == 0xa5a5a5a5a5a5a5a5);
        hold(answer == CHIM_TAKEN || answer == CHIM_BROKEN_STATE || answer == CHIM_ITEM || answer == CHIM_TAIL || answer == CHIM_PEAK
             || answer == CHIM_TIMED_SAMPLES || answer == CHIM_LOW_LEVEL || answer == CHIM_NO_SPREAD);
        hold(turn == 0 || answer != CHIM_PEAK);
        hold(answer != CHIM_LOW_LEVEL || (carried == list[k - 1] && level < carried));
        if (answer != CHIM_TAKEN)
            continue;
        uint64_t e = times[CHIM_ESTIMATED], a = times[CHIM_LONGEST_ACCEPTED], b = times[CHIM_SHORTEST_REJECTED], letter = carried;
        hold(lent == CHIM_TIMES_NUMBERS && a <= e && e <= 100000000000 && (b == 0 || (e < b && b <= 100000000000)));
        hold(letter == (standard <= a ? CHIM_ACCEPT : b != 0 && standard >= b ? CHIM_REJECT : CHIM_CONTINUE));
        if (letter == CHIM_ACCEPT)
            hold(chim_extrapolate(list, n, k, level, step, samples, standard / 2 + 1, times, lent, &carried) == CHIM_TAKEN && carried == CHIM_ACCEPT);
    }
}

/* the same samples in two passes, cut at a place in each: refused where the whole record is, and else handed out as its
 * peaks */
static void two_passes(uint64_t step, uint64_t ramp, uint64_t tau, const int32_t *samples, size_t n, size_t cut, size_t other) {
    enum { MOST = 256 };
    uint64_t first[CHIM_SURVEY_NUMBERS], second[CHIM_HANDING_NUMBERS], carried, k;
    uint32_t sizes[MOST], times[MOST], ours[MOST + 1], when[MOST + 1];
    uint64_t whole = chim_envelope_find(step, ramp, tau, samples, n, sizes, MOST, times, MOST, &k);
    uint64_t refused = chim_peaks_survey(step, ramp, first, CHIM_SURVEY_NUMBERS, &carried);
    if (refused == CHIM_TAKEN)
        refused = chim_peaks_take(first, CHIM_SURVEY_NUMBERS, samples, cut, &carried);
    if (refused == CHIM_TAKEN)
        refused = chim_peaks_take(first, CHIM_SURVEY_NUMBERS, samples + cut, n - cut, &carried);
    if (refused == CHIM_TAKEN)
        refused = chim_peaks_begin(first, CHIM_SURVEY_NUMBERS, tau, second, CHIM_HANDING_NUMBERS, &carried);
    hold(refused == whole);
    if (refused != CHIM_TAKEN)
        return;
    uint64_t found, more, last;
    hold(chim_peaks_hand_over(second, CHIM_HANDING_NUMBERS, samples, other, ours, MOST, when, MOST, &found) == CHIM_TAKEN);
    hold(chim_peaks_hand_over(second, CHIM_HANDING_NUMBERS, samples + other, n - other, ours + found, MOST - found, when + found, MOST - found, &more) ==
         CHIM_TAKEN);
    hold(chim_peaks_last(second, CHIM_HANDING_NUMBERS, ours + found + more, when + found + more, &last) == CHIM_TAKEN);
    hold(found + more + last == k);
    hold(memcmp(ours, sizes, k * sizeof *ours) == 0 && memcmp(when, times, k * sizeof *when) == 0);
}

/* passes of any numbers: refused and left as they stood, or taken, and then taken again */
static void any_pass(void) {
    enum { MOST = 64 };
    int32_t samples[MOST];
    size_t n = 0;
    uint64_t first[CHIM_SURVEY_NUMBERS], second[CHIM_HANDING_NUMBERS], before[CHIM_HANDING_NUMBERS], carried;
    uint32_t sizes[MOST], times[MOST], size = 5, time = 6;
    for (size_t i = 0; i < CHIM_SURVEY_NUMBERS; i++)
        first[i] = number(i == 7 ? 3 : i % 2 + 1);
    for (size_t i = 0; i < CHIM_HANDING_NUMBERS; i++)
        second[i] = number(i == 22 ? 3 : i == 3 || i == 7 || i == 10 || i == 14 || i == 17 ? 1 : i % 2 + 1);
    while (left > 0 && n < MOST)
        samples[n++] = (int32_t)number(1) - 128;
    memcpy(before, first, sizeof first);
    if (chim_peaks_take(first, CHIM_SURVEY_NUMBERS, samples, n, &carried) == CHIM_TAKEN)
        hold(chim_peaks_take(first, CHIM_SURVEY_NUMBERS, samples, 0, &carried) == CHIM_TAKEN);
    else
        hold(memcmp(before, first, sizeof first) == 0);
    memcpy(before, second, sizeof second);
    if (chim_peaks_hand_over(second, CHIM_HANDING_NUMBERS, samples, n, sizes, MOST, times, MOST, &carried) == CHIM_TAKEN)
        hold(carried <= n && chim_peaks_last(second, CHIM_HANDING_NUMBERS, &size, &time, &carried) == CHIM_TAKEN);
    else
        hold(memcmp(before, second, sizeof second) == 0);
}

/* the envelope peaks of any samples, into slices of any lengths: more than the decorrelation time apart, each a sample
 * of that size at that time, and nothing beyond; with places enough the same call is taken */
static void envelope(void) {
    enum { MOST = 256 };
    int32_t samples[MOST];
    uint32_t sizes[MOST + 1], times[MOST + 1];
    uint64_t step = number(2), ramp = number(1), tau = number(2), few = number(1), many = number(1), carried = 0, again = 0;
    size_t n = 0;
    if (few == 255) {
        any_pass();
        return;
    }
    while (left > 0 && n < MOST)
        samples[n++] = (int32_t)number(1) - 128;
    memset(sizes, 0xa5, sizeof sizes);
    memset(times, 0xa5, sizeof times);
    uint64_t answer = chim_envelope_find(step, ramp, tau, samples, n, sizes, few, times, many, &carried);
    size_t written = answer == CHIM_TAKEN ? carried : 0;
    hold(answer == CHIM_TAKEN || answer == CHIM_ITEM || answer == CHIM_TOO_LONG || answer == CHIM_TOO_SHORT || answer == CHIM_ROOM);
    hold(answer != CHIM_ITEM || (carried == 1 && (step == 0 || step > 10000)));
    hold(answer != CHIM_ROOM || few < carried || many < carried);
    hold(written <= few && written <= many);
    for (size_t i = written; i <= MOST; i++)
        hold(sizes[i] == 0xa5a5a5a5 && times[i] == 0xa5a5a5a5);
    for (size_t i = 0; i < written; i++) {
        hold(times[i] % step == 0 && ramp + times[i] / step < n);
        hold((uint32_t)labs(samples[ramp + times[i] / step]) == sizes[i]);
        hold(i == 0 || times[i] > times[i - 1] + tau);
    }
    if (answer == CHIM_ROOM)
        hold(chim_envelope_find(step, ramp, tau, samples, n, sizes, MOST, times, MOST, &again) == CHIM_TAKEN && again == carried);
    two_passes(step, ramp, tau, samples, n, few % (n + 1), many % (n + 1));
}

/* one campaign of a condition: any numbers, or one that records were entered into */
static void situation(uint64_t *state) {
    uint64_t carried, kind = number(1) % 8;
    for (size_t k = 0; k < CHIM_CAMPAIGN_NUMBERS; k++)
        state[k] = kind == 0 ? number(k == 4 ? 1 : 1 + k) : 0;
    if (kind == 0)
        return;
    chim_campaign_open(1 + number(3), state, CHIM_CAMPAIGN_NUMBERS, &carried);
    for (; kind > 1; kind--)
        chim_campaign_enter(state, CHIM_CAMPAIGN_NUMBERS, number(1) % 2, 1 + number(3) % 10000000, &carried);
}

/* what the report's line at `at` has to be, by what the campaign alone is told; the place after it */
static size_t one_line(const uint8_t *report, size_t at, const uint64_t *state, size_t i, uint64_t told) {
    char line[64];
    uint64_t censored;
    hold(chim_campaign_censored(state, CHIM_CAMPAIGN_NUMBERS, &censored) == CHIM_TAKEN);
    int n = snprintf(line, sizeof line, "%zu\t%" PRIu64 "\t%" PRIu64 "\t%" PRIu64 "\t%c\t%" PRIu64 "\n", i + 1, state[2], censored, state[3], "EARC"[told],
                     state[2] / 5 + (state[2] % 5 != 0));
    hold(memcmp(report + at, line, (size_t)n) == 0);
    return at + (size_t)n;
}

/* a loading condition of up to 66 campaigns, into a buffer of any length: judged and reported alike, refused by the
 * first campaign that is refused alone, told by what each is told alone, and nothing beyond the report */
static void condition(void) {
    enum { MOST = CHIM_MOST_SITUATIONS + 2, BYTES = CHIM_REPORT_BYTES };
    static uint64_t rows[MOST][CHIM_CAMPAIGN_NUMBERS], before[MOST][CHIM_CAMPAIGN_NUMBERS], told[MOST];
    static uint8_t report[BYTES + 1];
    const uint64_t(*lent)[CHIM_CAMPAIGN_NUMBERS] = (const uint64_t(*)[CHIM_CAMPAIGN_NUMBERS])rows;
    uint64_t n = number(1) % (MOST + 1), room = number(2) % (BYTES + 1), come = 7, bytes = 7, broken = 0, sums[4] = {0};
    int rejected = 0, accepted = 1;
    for (size_t i = 0; i < n; i++) {
        double lower, upper;
        if (left > 0 || i == 0)
            situation(rows[i]);
        else
            memcpy(rows[i], rows[0], sizeof rows[i]);
        if (chim_campaign_verdict(rows[i], CHIM_CAMPAIGN_NUMBERS, &lower, &upper, &told[i]) != CHIM_TAKEN && broken == 0)
            broken = i + 1;
        rejected |= told[i] == CHIM_REJECT;
        accepted &= told[i] == CHIM_ACCEPT;
    }
    memcpy(before, rows, sizeof rows);
    memset(report, 0xa5, sizeof report);
    uint64_t judged = chim_condition_judge(lent, n, &come), answer = chim_condition_report(lent, n, report, room, &bytes);
    hold(memcmp(before, rows, sizeof rows) == 0);
    hold((judged == CHIM_CONDITION) == (n == 0 || n > CHIM_MOST_SITUATIONS));
    size_t at = 0;
    if (judged != CHIM_TAKEN) {
        hold(answer == judged && bytes == come);
        hold(judged == CHIM_CONDITION ? come == 0 : judged == CHIM_BROKEN_STATE && broken != 0 && come == broken);
    } else {
        hold(broken == 0 && come == (rejected ? CHIM_REJECTED : accepted ? CHIM_ACCEPTED : CHIM_OPEN));
        hold(answer == (bytes > room ? CHIM_ROOM : CHIM_TAKEN) && bytes <= 40 + 28 * n);
    }
    if (answer == CHIM_TAKEN) {
        for (size_t i = 0; i < n; i++) {
            at = one_line(report, at, rows[i], i, told[i]);
            for (size_t k = 0; k < 3; k++)
                sums[k] += rows[i][k + 1];
            sums[3] += (rows[i][2] + 4) / 5;
        }
        char line[64];
        int last = snprintf(line, sizeof line, "total\t%" PRIu64 "\t%" PRIu64 "\t%" PRIu64 "\t%" PRIu64 "\t%c\n", sums[0], sums[1], sums[2], sums[3], " ARO"[come]);
        hold(memcmp(report + at, line, (size_t)last) == 0);
        at += (size_t)last;
        hold(at == bytes);
    }
    for (; at <= BYTES; at++)
        hold(report[at] == 0xa5);
}

int LLVMFuzzerTestOneInput(const uint8_t *data, size_t size) {
    in = data, left = size;
    switch (number(1) % 12) {
    case 0: sheet(); break;
    case 1: record(); break;
    case 2: list(); break;
    case 3: campaign(); break;
    case 4: tail(); break;
    case 5: bench(); break;
    case 6: comma(); break;
    case 7: ledger(); break;
    case 8: envelope(); break;
    case 9: condition(); break;
    case 10: sum(); break;
    case 11: beyond(); break;
    }
    return 0;
}
