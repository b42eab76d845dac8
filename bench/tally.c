// The job of `tally` in plain C with stdio, as one would write it by hand: a line at a time with getline, fields by
// strtoull, output by printf. It checks what document 01 asks of a line. Its argument is the table, as
// crates/run_rows/stdout has it.
#include <inttypes.h>
#include <stdio.h>
#include <stdlib.h>
#include <string.h>

static uint64_t upper[65], lower[65];

// A number of 1 to 12 digits, no leading zero but for 0 itself, ended by `end`; 0 where it is none.
static char *number(char *at, char end, uint64_t *value) {
    if (*at < '0' || *at > '9') return 0;
    char *next;
    *value = strtoull(at, &next, 10);
    if (*next != end || next - at > 12 || (*at == '0' && next - at > 1)) return 0;
    return next + 1;
}

static int refused(uint64_t line, int why) {
    printf("refused\t%" PRIu64 "\t%d\n", line, why);
    return 0;
}

int main(int argc, char **argv) {
    FILE *rows = fopen(argv[1], "r");
    char which[8];
    uint64_t row, n;
    while (fscanf(rows, "%7s %" SCNu64 " %" SCNu64, which, &n, &row) == 3) (which[0] == 'u' ? upper : lower)[n] = row;
    char *line = 0;
    size_t room = 0;
    uint64_t q = 0, records = 0, failures = 0, exposure = 0, count = 0;
    ssize_t got;
    while ((got = getline(&line, &room, stdin)) > 0) {
        count++;
        char *at = line, *end = line + got;
        if (got > 64 || line[got - 1] != '\n') return refused(count, 9);
        if (count == 1) {
            if (strncmp(line, "standard\t", 9) || number(line + 9, '\n', &q) != end) return refused(1, 9);
            if (q < 1 || q > 100000000000) return refused(1, 1);
            continue;
        }
        uint64_t index, failed, time;
        if (!(at = number(at, '\t', &index)) || !(at = number(at, '\t', &failed)) || number(at, '\n', &time) != end) return refused(count, 9);
        if (index != records + 1 || failed > 1) return refused(count, 9);
        if (time == 0) return refused(count, 4);
        if (time > 10000000) return refused(count, 3);
        if (records == 100000) return refused(count, 5);
        if (failures == 64) return refused(count, 6);
        uint64_t censored = failures + 1;
        records++, failures += failed, exposure += time;
        char letter = exposure * 1000000 < lower[failures] * q ? 'R' : exposure * 1000000 > upper[censored] * q ? 'A' : 'C';
        printf("%" PRIu64 "\t%" PRIu64 "\t%" PRIu64 "\t%" PRIu64 "\t%c\n", records, failures, censored, exposure, letter);
    }
    return count == 0 ? refused(1, 9) : 0;
}
