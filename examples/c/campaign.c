/* A campaign at one failure in 7,200,000 ms (two hours): a roll that crosses 40 degrees, then quiet records by their
 * exposure; at the end its loading condition, with a second situation that has no record yet, and the first record by
 * the binomial method. */
#include "chimenickel.h"
#include <inttypes.h>
#include <stdio.h>
#include <string.h>

static void verdict(const uint64_t *campaign) {
    uint64_t carried;
    double lower, upper;
    if (chim_campaign_verdict(campaign, CHIM_CAMPAIGN_NUMBERS, &lower, &upper, &carried) != CHIM_TAKEN)
        return;
    printf("M = %" PRIu64 ", N = %" PRIu64 ", T = %" PRIu64 " ms: ", campaign[1], campaign[2], campaign[3]);
    switch (carried) {
    case CHIM_ACCEPT: printf("accept, at most %.9f per second\n", upper); break;
    case CHIM_REJECT: printf("reject, at least %.9f per second\n", lower); break;
    case CHIM_CONTINUE: printf("continue, %.9f to %.9f per second\n", lower, upper); break;
    default: printf("no record\n");
    }
}

int main(void) {
    uint64_t campaign[CHIM_CAMPAIGN_NUMBERS], record[CHIM_RECORD_NUMBERS], result[CHIM_RESULT_NUMBERS], carried, channel;
    chim_campaign_open(7200000, campaign, CHIM_CAMPAIGN_NUMBERS, &carried);
    chim_record_open(500, 0, 40000, 2000, 9810, record, CHIM_RECORD_NUMBERS, &carried);
    const int32_t roll[] = {0, 41000, 39000, 41000, 39000, 41000, 0}, zeros[7] = {0};
    chim_record_feed(record, CHIM_RECORD_NUMBERS, roll, 3, zeros, 3, &carried, &channel);
    chim_record_feed(record, CHIM_RECORD_NUMBERS, roll + 3, 4, zeros, 4, &carried, &channel);
    chim_record_end(record, CHIM_RECORD_NUMBERS, result, CHIM_RESULT_NUMBERS, &carried);
    printf("crossings %" PRIu64 ", counted %" PRIu64 ", largest set %" PRIu64 ", first failure at sample %" PRIu64 ", exposure %" PRIu64 " ms\n",
           result[CHIM_CROSSINGS], result[CHIM_COUNTED], result[CHIM_LARGEST_SET], result[CHIM_FIRST], result[CHIM_EXPOSURE]);
    chim_campaign_enter_result(campaign, CHIM_CAMPAIGN_NUMBERS, result, CHIM_RESULT_NUMBERS, &carried);
    verdict(campaign);

    for (int i = 0; i < 25; i++) {
        chim_campaign_enter(campaign, CHIM_CAMPAIGN_NUMBERS, 0, 1800000, &carried);
        if (i == 9 || i == 24)
            verdict(campaign);
    }

    const int32_t bad[] = {0, 2000000};
    uint64_t refusal = chim_record_feed(record, CHIM_RECORD_NUMBERS, bad, 2, zeros, 2, &carried, &channel);
    printf("refused: %" PRIu64 " (%" PRIu64 ")\n", refusal, carried);

    uint32_t times[4];
    refusal = chim_record_list(500, 0, 40000, 2000, 9810, roll, 7, zeros, 7, times, 4, &carried, &channel);
    printf("counted times:");
    for (uint64_t i = 0; refusal == CHIM_TAKEN && i < carried; i++)
        printf(" %" PRIu32, times[i]);
    printf(" ms\n");

    int32_t records[26], back[26];
    uint8_t sheet[22 + 18 * 26];
    uint64_t bytes, standard, line, column;
    for (int i = 0; i < 26; i++)
        records[i] = i ? 1800000 : -(int32_t)result[CHIM_EXPOSURE];
    refusal = chim_sheet_write(7200000, records, 26, sheet, sizeof sheet, &bytes);
    if (refusal == CHIM_TAKEN)
        refusal = chim_sheet_records(sheet, bytes, back, 26, &standard, &line, &column, &carried);
    if (refusal == CHIM_TAKEN)
        printf("sheet: %" PRIu64 " bytes, standard %" PRIu64 " ms, %" PRIu64 " records read back, %s\n", bytes, standard, carried,
               memcmp(back, records, sizeof records) ? "others" : "the same");

    uint64_t situations[2][CHIM_CAMPAIGN_NUMBERS];
    uint8_t report[CHIM_REPORT_BYTES];
    memcpy(situations[0], campaign, sizeof campaign);
    chim_campaign_open(7200000, situations[1], CHIM_CAMPAIGN_NUMBERS, &carried);
    refusal = chim_condition_report((const uint64_t(*)[CHIM_CAMPAIGN_NUMBERS])situations, 2, report, sizeof report, &bytes);
    if (refusal == CHIM_TAKEN)
        fwrite(report, 1, bytes, stdout);

    uint64_t sum[CHIM_SUM_NUMBERS], bounds[CHIM_BOUNDS_NUMBERS];
    chim_sum_open(500, sum, CHIM_SUM_NUMBERS, &carried);
    chim_sum_add(sum, CHIM_SUM_NUMBERS, record, CHIM_RECORD_NUMBERS, &carried);
    refusal = chim_sum_bounds(sum, CHIM_SUM_NUMBERS, bounds, CHIM_BOUNDS_NUMBERS, &carried);
    if (refusal == CHIM_TAKEN)
        printf("binomial: N = %" PRIu64 ", P = %" PRIu64 ", %" PRIu64 " to %" PRIu64 " thousandths of a failure in %" PRIu64 " ms\n", sum[1], sum[2],
               bounds[CHIM_LOWER], bounds[CHIM_UPPER], bounds[CHIM_TIME]);
    return 0;
}
