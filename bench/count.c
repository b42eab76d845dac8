/* bench/count.c FILE STEP RAMP LEVEL DECORRELATION RUNS PROGRAM..: what a line of a comma file costs, in nanoseconds of
 * processor time, best of RUNS in turn over the same file.
 *
 * entry       chim_comma_read of the whole text, which is in memory already
 * program     PROGRAM with the four items, the file on standard input: what bin/count runs; reading the file is in it
 * plain       a plain C program of the same promise in a process of its own: the file in pieces of 64 KiB, every line
 *             judged, failures counted
 * reading     the same pieces read and looked at by nobody
 *
 * Both programs have to write the same line. */
#include <fcntl.h>
#include <stdbool.h>
#include <stdint.h>
#include <stdio.h>
#include <stdlib.h>
#include <string.h>
#include <sys/resource.h>
#include <sys/wait.h>
#include <unistd.h>

#include "chimenickel.h"
#include "clock.h"
#include "line.h"

typedef struct {
    uint64_t step, ramp, level, decorrelation;
} Items;

/* One record's failures, sample by sample, as document 01 counts them. */
typedef struct {
    uint64_t samples, crossings, groups, largest, last_crossing, last_chosen, first;
    bool before;
} Counts;

static inline void sample(const Items *items, Counts *c, int64_t x) {
    bool above = (uint64_t)llabs(x) > items->level;
    uint64_t i = c->samples++;
    if (above && !c->before && i > items->ramp) {
        if (c->crossings == 0 || (i - c->last_chosen) * items->step >= items->decorrelation) {
            c->largest++;
            c->last_chosen = i;
        }
        c->groups += c->crossings == 0 || (i - c->last_crossing) * items->step >= items->decorrelation;
        if (c->crossings++ == 0) c->first = i;
        c->last_crossing = i;
    }
    c->before = above;
}

/* The line that bin/count writes, or its refusal. */
static int plain(const Items *items, int in, char *out, size_t room) {
    static uint8_t text[65536];
    Counts c = {0};
    size_t kept = 0;
    uint64_t outside = 0;
    for (;;) {
        ssize_t got = read(in, text + kept, sizeof text - kept);
        if (got < 0) return 2;
        size_t n = kept + (size_t)got, at = 0, next;
        int64_t x = 0;
        while (at < n && (next = line(text, n, at, c.samples * items->step, &x))) {
            if (!outside && (x > 1000000 || x < -1000000)) outside = c.samples + 1;
            sample(items, &c, x);
            at = next;
        }
        kept = n - at;
        if (kept && (got == 0 || kept >= 31 || memchr(text + at, '\n', kept)))
            return snprintf(out, room, "refused\t%llu\t10\n", (unsigned long long)c.samples + 1), 1;
        if (got == 0) break;
        memmove(text, text + at, kept);
    }
    if (outside) return snprintf(out, room, "refused\t%llu\t2\n", (unsigned long long)outside), 1;
    if (c.samples * items->step > 10000000) return snprintf(out, room, "refused\t0\t3\n"), 1;
    if (c.samples <= items->ramp + 1) return snprintf(out, room, "refused\t0\t4\n"), 1;
    uint64_t last = (c.crossings ? c.first : c.samples - 1) - items->ramp;
    char first[24] = "-";
    if (c.crossings) snprintf(first, sizeof first, "%llu", (unsigned long long)((c.first - items->ramp) * items->step));
    snprintf(out, room, "%llu\t%llu\t%llu\t%llu\t%s\t%llu\n", (unsigned long long)c.samples, (unsigned long long)c.crossings,
             (unsigned long long)c.groups, (unsigned long long)c.largest, first, (unsigned long long)(last * items->step));
    return 0;
}

static double spent(const struct rusage *u) {
    return (u->ru_utime.tv_sec + u->ru_stime.tv_sec) * 1e9 + (u->ru_utime.tv_usec + u->ru_stime.tv_usec) * 1e3;
}

/* Runs one way in a process of its own, what it writes into `out`, and gives its processor time. */
static double run(int way, const Items *items, char **argv, char **program, char *out, size_t room) {
    int pipes[2];
    if (pipe(pipes)) exit(2);
    pid_t child = fork();
    if (child == 0) {
        int in = open(argv[1], O_RDONLY);
        if (in < 0) _exit(2);
        if (way == 1) {
            dup2(in, 0);
            dup2(pipes[1], 1);
            dup2(open("/dev/null", O_WRONLY), 3);
            execvp(program[0], program);
            _exit(2);
        }
        char said[256] = "";
        if (way == 2)
            plain(items, in, said, sizeof said);
        else {
            static uint8_t text[65536];
            while (read(in, text, sizeof text) > 0) {
            }
        }
        if (write(pipes[1], said, strlen(said)) < 0) _exit(2);
        _exit(0);
    }
    close(pipes[1]);
    size_t n = 0;
    ssize_t got;
    while ((got = read(pipes[0], out + n, room - 1 - n)) > 0) n += (size_t)got;
    out[n] = 0;
    close(pipes[0]);
    struct rusage used;
    int status;
    wait4(child, &status, 0, &used);
    if (!WIFEXITED(status)) exit(2);
    return spent(&used);
}

int main(int argc, char **argv) {
    if (argc < 8) return 2;
    Items items = {strtoull(argv[2], 0, 10), strtoull(argv[3], 0, 10), strtoull(argv[4], 0, 10), strtoull(argv[5], 0, 10)};
    int runs = atoi(argv[6]);
    char *program[32];
    int words = 0;
    for (int k = 7; k < argc && words < 27; k++) program[words++] = argv[k];
    for (int k = 2; k < 6; k++) program[words++] = argv[k];
    program[words] = 0;
    FILE *f = fopen(argv[1], "rb");
    if (!f) return 2;
    fseek(f, 0, SEEK_END);
    size_t n = (size_t)ftell(f), lines = 0;
    rewind(f);
    uint8_t *s = malloc(n + 1);
    if (fread(s, 1, n, f) != n) return 2;
    for (size_t i = 0; i < n; i++) lines += s[i] == '\n';
    int32_t *out = calloc(lines + 1, sizeof *out);
    double best[4] = {1e18, 1e18, 1e18, 1e18};
    char said[4][256] = {""};
    for (int k = 0; k < runs; k++) {
        struct rusage a, b;
        uint64_t carried = 0;
        getrusage(RUSAGE_SELF, &a);
        if (chim_comma_read(s, n, items.step, out, lines, &carried) || carried != lines) return 1;
        getrusage(RUSAGE_SELF, &b);
        least(&best[0], spent(&b) - spent(&a));
        for (int way = 1; way < 4; way++) least(&best[way], run(way, &items, argv, program, said[way], sizeof said[way]));
    }
    if (!*said[1] || strcmp(said[1], said[2])) {
        fprintf(stderr, "program: %splain:   %s", said[1], said[2]);
        return 1;
    }
    const char *names[] = {"entry", "program", "plain", "reading"};
    for (int way = 0; way < 4; way++) printf("%-8s %8.2f ns a line %8.2f\n", names[way], best[way] / (double)lines, best[way] / best[0]);
    return 0;
}
