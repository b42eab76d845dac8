/* Turns simulators' own files into the comma files that chimenickel count reads: bin/convert says how it is asked. It
 * is outside the proof. One pass over each file, in a memory that does not depend on its length; files are read by as
 * many processes as there are cores. Outputs are written aside and take their places together when all files were read,
 * so that nothing is half written. Ends with 0, with 2 and a sentence, or with 3 for words that are none of its own.
 *
 * Numbers are read as decimals, digit by digit, and never as binary fractions: what is written is the number of the
 * file rounded to thousandths, halves to the even one. Radians are multiplied by 180/pi to 35 digits, and a product
 * that lies within 10^-26 of a half is an error. */
#define _GNU_SOURCE
#include <ctype.h>
#include <errno.h>
#include <fcntl.h>
#include <inttypes.h>
#include <signal.h>
#include <stdarg.h>
#include <stdint.h>
#include <stdio.h>
#include <stdlib.h>
#include <string.h>
#include <sys/mman.h>
#include <sys/stat.h>
#include <sys/wait.h>
#include <unistd.h>

enum { PIECE = 1 << 18, LONGEST_LINE = 1 << 17, CHANNELS = 2, WORDS = 640 };
static const uint64_t LIMB = 1000000000, UNIT = 1000000000000000000; /* 10^9, 10^18 */
static const uint64_t LATEST_MS = 999999999999, LARGEST = 999999999999999; /* 12 digits, and thousandths of 12 digits */

/* ---- what is asked */
typedef struct {
    const char *name; /* a column's name, or NULL where its number is given */
    int number;       /* 1 for the first; 0 for none */
} Column;

static struct {
    uint64_t step;
    Column time, channel[CHANNELS];
    long header;
    char delimiter; /* ' ' for any run of blanks and tabs */
    int seconds, radians;
    const char *to;
} asked = {0, {NULL, 1}, {{NULL, 0}, {NULL, 0}}, -1, ',', 0, 0, NULL};

static const char *const CHANNEL[CHANNELS] = {"roll", "acceleration"};
static const char *const ENDING[CHANNELS] = {".csv", ".acceleration.csv"};

/* ---- how a file came out: shared by the process that read it and the first one */
typedef struct {
    int done;
    uint64_t samples, rounded[CHANNELS], most[CHANNELS]; /* by how much at most, in 10^-18 of a thousandth */
    char fault[WORDS];
} Outcome;

static Outcome *outcome; /* of the file that this process reads */
static const char *reading;
static uint64_t line;

__attribute__((noreturn, format(printf, 1, 2))) static void fault(const char *form, ...) {
    va_list words;
    int n = snprintf(outcome->fault, WORDS, line ? "%s, line %" PRIu64 ": " : "%s: ", reading, line);
    va_start(words, form);
    if (n > 0 && n < WORDS)
        vsnprintf(outcome->fault + n, WORDS - (size_t)n, form, words);
    va_end(words);
    _exit(2);
}

__attribute__((noreturn)) static void stop(const char *form, const char *name, const char *why) {
    fprintf(stderr, "convert: ");
    fprintf(stderr, form, name, why);
    fputc('\n', stderr);
    exit(2);
}

/* ---- numbers */
typedef struct {
    int negative, more; /* more: digits that are not 0 after the 18 of the fraction */
    uint64_t whole, fraction; /* fraction in 10^-18 */
} Decimal;

/* The number that the text is, times 10^shift; a sentence if it is none or too large. */
static Decimal decimal(const char *at, const char *end, int shift) {
    static const uint64_t TENS[] = {1, 10, 100, 1000, 10000, 100000, 1000000, 10000000, 100000000, 1000000000,
                                    10000000000, 100000000000, 1000000000000, 10000000000000, 100000000000000,
                                    1000000000000000, 10000000000000000, 100000000000000000};
    Decimal x = {0, 0, 0, 0};
    const char *text = at, *digits;
    long point = -1, power, count = 0, exponent = 0;
    int sign = 1;
    if (at < end && (*at == '-' || *at == '+'))
        x.negative = *at++ == '-';
    digits = at;
    for (; at < end; at++) {
        if (*at == '.' && point < 0)
            point = count;
        else if (*at >= '0' && *at <= '9')
            count++;
        else
            break;
    }
    if (count == 0)
        fault("'%.*s' is no number", (int)(end - text > 40 ? 40 : end - text), text);
    if (point < 0)
        point = count;
    const char *behind = at;
    if (at < end && (*at == 'e' || *at == 'E' || *at == 'd' || *at == 'D')) { /* Fortran writes 1.5D+01 */
        at++;
        if (at < end && (*at == '-' || *at == '+'))
            sign = *at++ == '-' ? -1 : 1;
        if (at == end)
            fault("'%.*s' is no number", (int)(end - text > 40 ? 40 : end - text), text);
        for (; at < end && *at >= '0' && *at <= '9'; at++)
            exponent = exponent < 100000 ? exponent * 10 + (*at - '0') : exponent;
    }
    if (at != end)
        fault("'%.*s' is no number", (int)(end - text > 40 ? 40 : end - text), text);
    power = point + sign * exponent + shift; /* that of the first digit, plus 1 */
    for (at = digits; at < behind; at++) {
        if (*at == '.')
            continue;
        unsigned digit = (unsigned)(*at - '0');
        power--;
        if (power >= 0) {
            if (x.whole > UNIT)
                fault("'%.*s' is too large", (int)(end - text > 40 ? 40 : end - text), text);
            x.whole = x.whole * 10 + digit;
        } else if (power >= -18)
            x.fraction += digit * TENS[18 + power];
        else
            x.more |= digit != 0;
    }
    for (; power > 0 && x.whole; power--) {
        if (x.whole > UNIT)
            fault("'%.*s' is too large", (int)(end - text > 40 ? 40 : end - text), text);
        x.whole *= 10;
    }
    return x;
}

/* Radians in 10^-15 become thousandths of a degree: times 180,000/pi, in figures of nine digits. */
static Decimal degrees(Decimal radians) {
    static const uint64_t RATIO[4] = {814105170, 876798154, 513082320, 57295779}; /* 180,000/pi in 10^-30 */
    const uint64_t by[5] = {radians.fraction % LIMB, radians.fraction / LIMB, radians.whole % LIMB,
                            radians.whole / LIMB % LIMB, radians.whole / UNIT};
    uint64_t product[10] = {0};
    for (int i = 0; i < 5; i++) {
        uint64_t carry = 0;
        for (int k = 0; k < 4; k++) {
            uint64_t sum = product[i + k] + by[i] * RATIO[k] + carry;
            product[i + k] = sum % LIMB;
            carry = sum / LIMB;
        }
        product[i + 4] += carry;
    }
    /* the product is in 10^-63; seven figures of nine digits are after the point */
    Decimal x = {radians.negative, 0, product[7] + product[8] * LIMB, product[6] * LIMB + product[5]};
    x.more = (product[4] | product[3] | product[2] | product[1] | product[0] | (uint64_t)radians.more) != 0;
    /* what is left out of the ratio, and of the radians, could only matter next to a half */
    if ((x.fraction == UNIT / 2 && product[4] < 10) || (x.fraction == UNIT / 2 - 1 && product[4] >= LIMB - 10))
        fault("these radians lie too near to half a thousandth of a degree");
    return x;
}

/* To the nearest whole, halves to the even one; how far that was goes into the outcome. */
static int64_t nearest(Decimal x, int channel) {
    const uint64_t half = UNIT / 2;
    int up = x.fraction > half || (x.fraction == half && (x.more || (x.whole & 1)));
    if (x.fraction || x.more) {
        uint64_t by = up ? UNIT - x.fraction : x.fraction + (uint64_t)(x.more != 0);
        outcome->rounded[channel]++;
        if (by > outcome->most[channel])
            outcome->most[channel] = by;
    }
    x.whole += (uint64_t)up;
    if (x.whole > LARGEST)
        fault("the number is too large for a comma file");
    return x.negative ? -(int64_t)x.whole : (int64_t)x.whole;
}

/* ---- outputs */
typedef struct {
    int file;
    size_t used;
    char held[PIECE];
} Output;

static Output output[CHANNELS];

static void flush(Output *out) {
    for (size_t at = 0; at < out->used;) {
        ssize_t n = write(out->file, out->held + at, out->used - at);
        if (n < 0 && errno != EINTR)
            line = 0, fault("what is made of it cannot be written (%s)", strerror(errno));
        at += n > 0 ? (size_t)n : 0;
    }
    out->used = 0;
}

/* What a write did not tell, as over a network, closing does. */
static void finish(Output *out) {
    flush(out);
    if (close(out->file))
        fault("what is made of it cannot be written (%s)", strerror(errno));
}

static void put(Output *out, uint64_t ms, int64_t sample) {
    char digits[24];
    int n = 0;
    if (out->used > PIECE - 64)
        flush(out);
    char *to = out->held + out->used;
    do
        digits[n++] = (char)('0' + ms % 10);
    while (ms /= 10);
    while (n)
        *to++ = digits[--n];
    *to++ = ',';
    if (sample < 0)
        *to++ = '-';
    uint64_t size = sample < 0 ? (uint64_t)-sample : (uint64_t)sample, small = size % 1000;
    size /= 1000;
    do
        digits[n++] = (char)('0' + size % 10);
    while (size /= 10);
    while (n)
        *to++ = digits[--n];
    *to++ = '.';
    *to++ = (char)('0' + small / 100);
    *to++ = (char)('0' + small / 10 % 10);
    *to++ = (char)('0' + small % 10);
    *to++ = '\n';
    out->used = (size_t)(to - out->held);
}

/* ---- lines */
typedef struct {
    const char *at, *end;
} Field;

static int blank(char c) { return c == ' ' || c == '\t'; }

/* Where the field that starts at `at` ends. What stands in quotes ends nothing; a quote in there is written twice. */
static const char *field_end(const char *at, const char *end) {
    const char *quote = at, *closing;
    while (quote < end && blank(*quote) && *quote != asked.delimiter)
        quote++;
    for (; quote < end && *quote == '"'; at = quote = closing + 1)
        if ((closing = memchr(quote + 1, '"', (size_t)(end - quote - 1))) == NULL)
            break;
    if (asked.delimiter == ' ') {
        while (at < end && !blank(*at))
            at++;
        return at;
    }
    at = memchr(at, asked.delimiter, (size_t)(end - at));
    return at ? at : end;
}

/* Field number `wanted`, 1 for the first, without blanks and quotes round it; 0 if the line has fewer. */
static int field(const char *at, const char *end, int wanted, Field *found) {
    for (int number = 1;; number++) {
        while (asked.delimiter == ' ' && at < end && blank(*at))
            at++;
        if (asked.delimiter == ' ' && at == end)
            return 0;
        *found = (Field){at, field_end(at, end)};
        if (number == wanted)
            break;
        if (found->end == end)
            return 0;
        at = found->end + 1;
    }
    while (found->at < found->end && blank(*found->at))
        found->at++;
    while (found->at < found->end && blank(found->end[-1]))
        found->end--;
    if (found->end - found->at >= 2 && *found->at == '"' && found->end[-1] == '"')
        found->at++, found->end--;
    return 1;
}

static Column columns[1 + CHANNELS]; /* time, roll, acceleration: this file's */

/* A name that two columns have could be either channel; of times each line's is looked at, and the first will do. */
static void look_up(Column *column, const char *at, const char *end) {
    Field name;
    if (column->name == NULL)
        return;
    for (int number = 1; field(at, end, number, &name); number++)
        if (strlen(column->name) == (size_t)(name.end - name.at) &&
            memcmp(column->name, name.at, (size_t)(name.end - name.at)) == 0) {
            if (column->number > 0 && column != &columns[0])
                fault("columns %d and %d are both named %s", column->number, number, column->name);
            if (column->number < 0)
                column->number = number;
        }
    if (column->number < 0)
        fault("there is no column named %s", column->name);
}

/* The time of the next sample is due: where the file has times, this line's has to be it. */
static void on_time(const char *at, const char *end, uint64_t due) {
    Field text;
    if (due > LATEST_MS)
        fault("the time needs more than 12 digits");
    if (columns[0].number == 0)
        return;
    if (!field(at, end, columns[0].number, &text))
        fault("there is no column %d", columns[0].number);
    Decimal ms = decimal(text.at, text.end, asked.seconds ? 3 : 0);
    int length = (int)(text.end - text.at > 40 ? 40 : text.end - text.at);
    if (ms.fraction || ms.more || ms.whole % asked.step)
        fault("the time %.*s is no whole multiple of the step", length, text.at);
    if (ms.whole != due || (ms.negative && ms.whole))
        fault("the time is %.*s where %" PRIu64 " ms is due", length, text.at, due);
}

static void one_line(const char *at, const char *end) {
    static int ended;
    Field text;
    line++;
    if (end - at > LONGEST_LINE)
        fault("the line is longer than %d bytes", LONGEST_LINE);
    if (end > at && end[-1] == '\r')
        end--;
    if ((long)line <= asked.header) {
        if ((long)line == asked.header)
            for (int i = 0; i <= CHANNELS; i++)
                look_up(&columns[i], at, end);
        return;
    }
    const char *first = at;
    while (first < end && blank(*first))
        first++;
    if (first == end) { /* blank lines may stand at the end */
        ended = 1;
        return;
    }
    if (ended)
        fault("a line stands after blank ones");
    uint64_t ms = outcome->samples * asked.step;
    on_time(at, end, ms);
    for (int i = 0; i < CHANNELS; i++) {
        if (columns[1 + i].number == 0)
            continue;
        if (!field(at, end, columns[1 + i].number, &text))
            fault("there is no column %d", columns[1 + i].number);
        Decimal x = i == 0 && asked.radians ? degrees(decimal(text.at, text.end, 15)) : decimal(text.at, text.end, 3);
        put(&output[i], ms, nearest(x, i));
    }
    outcome->samples++;
}

/* ---- a file */
static pid_t unpacker;

/* A descriptor from which the text comes: the file's own, or what gzip makes of it. */
static int opened(const char *path) {
    int file = path ? open(path, O_RDONLY | O_CLOEXEC) : 0, ends[2];
    unsigned char start[2] = {0, 0};
    struct stat what;
    if (file < 0)
        fault("it cannot be opened (%s)", strerror(errno));
    if (fstat(file, &what) == 0 && S_ISDIR(what.st_mode))
        fault("it is a directory");
    if (!S_ISREG(what.st_mode) || pread(file, start, 2, 0) != 2 || start[0] != 0x1f || start[1] != 0x8b)
        return file;
    if (pipe(ends) || (unpacker = fork()) < 0)
        fault("gzip cannot be started (%s)", strerror(errno));
    if (unpacker == 0) {
        dup2(file, 0);
        dup2(ends[1], 1);
        dup2(open("/dev/null", O_WRONLY), 2);
        close(ends[0]);
        unsetenv("GZIP"); /* somebody's own words for it, of which it takes few and ends at others */
        execlp("gzip", "gzip", "-dc", (char *)NULL);
        _exit(127);
    }
    close(ends[1]);
    return ends[0];
}

static void convert(const char *path) {
    static char held[LONGEST_LINE + PIECE];
    size_t used = 0;
    int file = opened(path), status;
    columns[0] = asked.time, columns[1] = asked.channel[0], columns[2] = asked.channel[1];
    for (int first = 1;;) {
        ssize_t n = read(file, held + used, PIECE);
        if (n < 0 && errno == EINTR)
            continue;
        if (n < 0)
            line = 0, fault("it cannot be read (%s)", strerror(errno));
        char *at = held, *end = held + used + n, *stop_;
        if (first && used + (size_t)n < 3 && n > 0) {
            used += (size_t)n;
            continue;
        }
        if (first && end - held >= 3 && memcmp(held, "\xef\xbb\xbf", 3) == 0)
            at += 3;
        if (first && end - held >= 2 && (memcmp(held, "\xff\xfe", 2) == 0 || memcmp(held, "\xfe\xff", 2) == 0))
            fault("it is in UTF-16, and not in UTF-8");
        if (first && end - held >= 2 && memcmp(held, "\x1f\x8b", 2) == 0)
            fault("it is packed by gzip, which is unpacked from a file and not from a pipe");
        first = 0;
        while ((stop_ = memchr(at, '\n', (size_t)(end - at)))) {
            one_line(at, stop_);
            at = stop_ + 1;
        }
        if (n == 0) {
            /* what gzip could not unpack is told before the line at which it broke off */
            if (unpacker && (waitpid(unpacker, &status, 0) < 0 || status))
                line = 0, fault("gzip cannot unpack it");
            if (at < end)
                one_line(at, end);
            break;
        }
        used = (size_t)(end - at);
        if (used > LONGEST_LINE)
            line++, fault("the line is longer than %d bytes", LONGEST_LINE);
        memmove(held, at, used);
    }
    close(file);
    if ((long)line < asked.header)
        fault("the header has %ld lines, and the file ends here", asked.header);
    line = 0;
    if (outcome->samples == 0)
        fault("there are no samples");
    for (int i = 0; i < CHANNELS; i++)
        if (columns[1 + i].number)
            finish(&output[i]);
}

/* ---- all files */
static char *made(const char *a, const char *b, const char *c) {
    size_t n = strlen(a) + strlen(b) + strlen(c) + 1;
    char *text = malloc(n);
    if (text == NULL)
        stop("%s%s", "there is no memory", "");
    snprintf(text, n, "%s%s%s", a, b, c);
    return text;
}

/* A file without a name, under TMPDIR (or /tmp) as for the other commands. */
static int nameless(void) {
    const char *folder = getenv("TMPDIR");
    char *name = made(folder && *folder ? folder : "/tmp", "/chimenickel-convert.XXXXXX", "");
    int file = mkostemp(name, O_CLOEXEC);
    if (file < 0)
        stop("%s cannot be made (%s)", name, strerror(errno));
    unlink(name);
    return file;
}

/* FOLDER/NAME.csv and the like; NAME is the file's without its folder, .gz and its last ending. */
static char *place(const char *path, int channel) {
    const char *slash = strrchr(path, '/');
    char *name = made(slash ? slash + 1 : path, "", ""), *point;
    size_t n = strlen(name);
    if (n > 3 && strcmp(name + n - 3, ".gz") == 0)
        name[n - 3] = 0;
    point = strrchr(name, '.');
    if (point && point != name)
        *point = 0;
    return made(made(asked.to, "/", name), ENDING[channel], "");
}

static int is_asked(int channel) { return asked.channel[channel].number || asked.channel[channel].name; }

static void tell(const char *name, const Outcome *done) {
    fprintf(stderr, "convert: %s: %" PRIu64 " samples", name, done->samples);
    for (int i = 0; i < CHANNELS; i++) {
        if (!is_asked(i))
            continue;
        fprintf(stderr, "; %s: %" PRIu64 " rounded", CHANNEL[i], done->rounded[i]);
        if (done->rounded[i]) {
            char by[24];
            int n = snprintf(by, sizeof by, "%018" PRIu64, done->most[i]);
            while (n > 1 && by[n - 1] == '0')
                by[--n] = 0;
            fprintf(stderr, ", by at most %s%s %s", done->most[i] == UNIT ? "0.001" : "0.000",
                    done->most[i] == UNIT ? "" : by, i ? "m/s2" : "degrees");
        }
    }
    fputc('\n', stderr);
}

static int copied(int from, int to) {
    static char held[PIECE];
    ssize_t n;
    lseek(from, 0, SEEK_SET);
    while ((n = read(from, held, PIECE)) > 0)
        for (ssize_t at = 0; at < n;) {
            ssize_t k = write(to, held + at, (size_t)(n - at));
            if (k < 0)
                return 0;
            at += k;
        }
    return n == 0;
}

/* what is to go where nothing comes of it: processes that read, and files that were written aside */
static char *(*aside_names)[CHANNELS];
static pid_t *children;
static int files;

static void clear_away(void) {
    for (int i = 0; i < files; i++)
        if (children[i] > 0)
            kill(children[i], SIGKILL);
    for (int i = 0; i < files; i++)
        for (int k = 0; k < CHANNELS; k++)
            if (aside_names[i][k])
                unlink(aside_names[i][k]);
}

static void ended(int signal_) {
    (void)signal_;
    clear_away();
    _exit(2);
}

/* What is to be done when this is ended from outside; what nohup and the like have ignored stays ignored. */
static void on_end(void (*handler)(int)) {
    static const int ENDS[] = {SIGINT, SIGTERM, SIGHUP};
    for (int i = 0; i < 3; i++) {
        struct sigaction now;
        if (sigaction(ENDS[i], NULL, &now) == 0 && now.sa_handler != SIG_IGN)
            signal(ENDS[i], handler);
    }
}

static int is_one(const struct stat *a, const struct stat *b) {
    return a->st_ino == b->st_ino && a->st_dev == b->st_dev;
}

/* Ends where two names stand for one pipe, of which neither would get the whole; and where a file cannot have its
 * place: another has it, a folder does, or what stands there is to be read. */
static void look_at_places(char **paths, int count, char *(*places)[CHANNELS]) {
    struct stat there, *read_ = calloc((size_t)count, sizeof *read_);
    if (read_ == NULL)
        stop("%s%s", "there is no memory", "");
    for (int i = 0; i < count; i++) {
        if (stat(paths[i], &read_[i]))
            read_[i].st_nlink = 0;
        for (int j = 0; j < i && read_[i].st_nlink && !S_ISREG(read_[i].st_mode); j++)
            if (is_one(&read_[i], &read_[j]))
                stop("%s and %s are one input, which can be read only once", paths[j], paths[i]);
    }
    for (int i = 0; i < count; i++)
        for (int k = 0; k < CHANNELS; k++) {
            if (!is_asked(k))
                continue;
            /* one file's acceleration may meet another's roll */
            for (int j = 0; j < i; j++)
                for (int other = 0; other < CHANNELS; other++)
                    if (places[j][other] && strcmp(places[i][k], places[j][other]) == 0)
                        stop("%s and another file would both be written to %s", paths[i], places[i][k]);
            if (stat(places[i][k], &there))
                continue;
            if (S_ISDIR(there.st_mode))
                stop("%s is a directory%s", places[i][k], "");
            for (int j = 0; j < count; j++)
                if (read_[j].st_nlink && is_one(&there, &read_[j]))
                    stop("%s would be written over, and is to be read", paths[j], "");
        }
    free(read_);
}

static int all(char **paths, int count) {
    int running = 0, failed = 0, aside = -1, next = 0;
    long cores = sysconf(_SC_NPROCESSORS_ONLN);
    size_t room = sizeof(Outcome) * (size_t)count;
    Outcome *outcomes = mmap(NULL, room, PROT_READ | PROT_WRITE, MAP_SHARED | MAP_ANONYMOUS, -1, 0);
    char *(*places)[CHANNELS] = calloc((size_t)count, sizeof *places);
    mode_t mask = umask(0);
    umask(mask);
    aside_names = calloc((size_t)count, sizeof *aside_names);
    children = calloc((size_t)count, sizeof *children);
    if (outcomes == MAP_FAILED || places == NULL || aside_names == NULL || children == NULL)
        stop("%s%s", "there is no memory", "");
    for (int i = 0; i < count && asked.to; i++)
        for (int k = 0; k < CHANNELS; k++)
            if (is_asked(k))
                places[i][k] = place(paths[i], k);
    if (asked.to)
        look_at_places(paths, count, places);
    else
        aside = nameless();
    files = count;
    on_end(ended);
    while (next < count || running) {
        if (next < count && running < (cores > 0 ? cores : 1)) {
            int why[CHANNELS] = {0};
            for (int k = 0; k < CHANNELS; k++) {
                output[k].file = aside;
                if (places[next][k] == NULL)
                    continue;
                /* by a name that nobody has: somebody else may write to the same place */
                char *name = made(places[next][k], ".XXXXXX", "");
                output[k].file = mkostemp(name, O_CLOEXEC);
                why[k] = errno;
                if (output[k].file < 0)
                    continue;
                aside_names[next][k] = name;
                fchmod(output[k].file, 0666 & ~mask); /* a file system without modes goes without */
            }
            pid_t child = fork();
            if (child < 0) {
                const char *said = strerror(errno);
                clear_away();
                stop("%s (%s)", "a process cannot be started", said);
            }
            if (child == 0) {
                on_end(SIG_DFL);
                outcome = &outcomes[next];
                reading = paths[next] ? paths[next] : "standard input";
                for (int k = 0; k < CHANNELS; k++)
                    if (output[k].file < 0 && is_asked(k))
                        fault("%s cannot be written (%s)", places[next][k], strerror(why[k]));
                convert(paths[next]);
                outcome->done = 1;
                _exit(0);
            }
            for (int k = 0; k < CHANNELS; k++)
                if (output[k].file != aside)
                    close(output[k].file);
            children[next++] = child;
            running++;
            continue;
        }
        pid_t gone = wait(NULL);
        for (int i = 0; gone > 0 && i < next; i++)
            if (children[i] == gone)
                children[i] = 0, running--;
    }
    for (int i = 0; i < count; i++)
        if (!outcomes[i].done) {
            if (outcomes[i].fault[0])
                fprintf(stderr, "convert: %s\n", outcomes[i].fault);
            else
                fprintf(stderr, "convert: %s: what read it was ended from outside\n",
                        paths[i] ? paths[i] : "standard input");
            failed = 1;
        }
    if (failed) {
        clear_away();
        return 2;
    }
    if (asked.to)
        on_end(SIG_IGN); /* all take their places, or none */
    for (int i = 0; i < count && asked.to; i++)
        for (int k = 0; k < CHANNELS; k++) {
            if (!is_asked(k))
                continue;
            if (rename(aside_names[i][k], places[i][k])) {
                const char *said = strerror(errno);
                clear_away();
                stop("%s cannot be written (%s)", places[i][k], said);
            }
            aside_names[i][k] = NULL;
        }
    if (asked.to == NULL && !copied(aside, 1))
        stop("%s: %s", "standard output", strerror(errno));
    for (int i = 0; i < count; i++)
        tell(paths[i] ? paths[i] : "standard input", &outcomes[i]);
    return 0;
}

/* ---- words */
__attribute__((noreturn)) static void wrong(void) { exit(3); }

static uint64_t whole(const char *word, uint64_t most) {
    uint64_t n = 0;
    if (*word == 0 || (*word == '0' && word[1]))
        wrong();
    for (; *word; word++) {
        if (*word < '0' || *word > '9' || n > most / 10)
            wrong();
        n = n * 10 + (uint64_t)(*word - '0');
    }
    if (n > most)
        wrong();
    return n;
}

static Column column(const char *word) {
    Column found = {word, -1};
    const char *at = word;
    while (*at >= '0' && *at <= '9')
        at++;
    if (*at == 0) {
        found.name = NULL;
        found.number = (int)whole(word, 100000);
        if (found.number == 0)
            wrong();
    }
    return found;
}

static char delimiter(const char *word) {
    if (strcmp(word, "tab") == 0)
        return '\t';
    if (strcmp(word, "blank") == 0)
        return ' ';
    if (strlen(word) != 1 || isalnum((unsigned char)*word) || strchr(".+-\"\r\n ", *word))
        wrong();
    return *word;
}

int main(int count, char **words) {
    char *none[] = {NULL};
    int at = 1;
    struct stat folder;
    int closed = fcntl(0, F_GETFD) < 0;
    if (closed && open("/", O_RDONLY)) /* or a file would take its number; a directory can be read by nobody */
        stop("%s (%s)", "standard input is closed", strerror(errno));
    signal(SIGCHLD, SIG_DFL); /* where it is ignored from outside nobody can wait for a process */
    for (; at < count && strncmp(words[at], "--", 2) == 0; at++) {
        const char *name = words[at] + 2, *value = at + 1 < count ? words[at + 1] : NULL;
        if (strcmp(name, "seconds") == 0)
            asked.seconds = 1;
        else if (strcmp(name, "radians") == 0)
            asked.radians = 1;
        else if (strcmp(name, "no-time") == 0)
            asked.time = (Column){NULL, 0};
        else {
            if (value == NULL)
                wrong();
            at++;
            if (strcmp(name, "step") == 0)
                asked.step = whole(value, 10000);
            else if (strcmp(name, "time") == 0)
                asked.time = column(value);
            else if (strcmp(name, "roll") == 0)
                asked.channel[0] = column(value);
            else if (strcmp(name, "acceleration") == 0)
                asked.channel[1] = column(value);
            else if (strcmp(name, "header") == 0)
                asked.header = (long)whole(value, 100000);
            else if (strcmp(name, "delimiter") == 0)
                asked.delimiter = delimiter(value);
            else if (strcmp(name, "to") == 0)
                asked.to = value;
            else
                wrong();
        }
    }
    int named = asked.time.name || asked.channel[0].name || asked.channel[1].name;
    int both = asked.channel[0].number && asked.channel[1].number;
    if (asked.channel[0].number == 0 && asked.channel[1].number == 0)
        asked.channel[0].number = 2;
    if (asked.header < 0)
        asked.header = named;
    if (asked.step == 0 || (named && asked.header == 0))
        wrong();
    /* without a folder one channel of one file goes to standard output */
    if (asked.to == NULL && (both || count - at > 1))
        wrong();
    if (asked.to && at == count)
        wrong();
    if (closed && at == count)
        stop("%s%s", "standard input is closed", "");
    for (int i = at; i < count; i++)
        if (words[i][0] == '-')
            wrong();
    if (asked.to && (stat(asked.to, &folder) || !S_ISDIR(folder.st_mode)))
        stop("%s is no folder%s", asked.to, "");
    return all(at < count ? words + at : none, at < count ? count - at : 1);
}
