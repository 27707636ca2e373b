/* Plays a history, which is calls as text, through the compiled functions and prints what they answer;
 * tests/histories/README.md describes both. No rule of the settlement stands here: a line is taken apart, the function
 * called, and its answer written down. The history is the file named, or else standard input. Nothing is allocated: what
 * a line can bring has a fixed size, and a line that brings more is an input error. */
#include "sallowbingo.h"

#include <inttypes.h>
#include <stdio.h>
#include <string.h>

#define BLANKS " \t\r"
#define COUNT(a) (sizeof(a) / sizeof(*(a)))

enum {
    LINE_MOST = 65536, /* bytes of a line, with the 0 at its end */
    LIST_MOST = 4096   /* numbers of a list, and words of an hour buffer */
};

typedef sallowbingo_answer answer;

typedef struct {
    uint32_t at[LIST_MOST];
    size_t count;
} list;

/* What is left of a line, and the first thing wrong with it, NULL for nothing. */
typedef struct {
    char *rest;
    const char *wrong;
} reader;

/* The point: its record as the last call left it, and its store. */
static sallowbingo_record record;
static uint32_t store[SALLOWBINGO_STORE];

/* What a call is lent: the numbers of its line, as hours or currents or copied into marks, and the hour buffer. */
static list numbers, hours;
static uint8_t marks[LIST_MOST];

static size_t accepted, refused;

/* TAKING A LINE APART. After something wrong the reader goes on without meaning, and nothing is called. */

static void complain(reader *in, const char *text) {
    if (!in->wrong) in->wrong = text;
}

/* Cuts the next word off; the empty one at the end of the line. */
static char *next_word(reader *in) {
    char *word = in->rest + strspn(in->rest, BLANKS);
    in->rest = word + strcspn(word, BLANKS);
    if (*in->rest) *in->rest++ = 0;
    return word;
}

/* Nothing is left of the line, and nothing was wrong with it. */
static int whole(reader *in) {
    if (*next_word(in)) complain(in, "words left over");
    return !in->wrong;
}

/* The digits at the start of a text, as a number up to `most`, and the text moved behind them. */
static uint64_t digits(reader *in, char **text, uint64_t most) {
    uint64_t value = 0;
    if (**text < '0' || **text > '9') complain(in, "number expected");
    for (; **text >= '0' && **text <= '9'; ++*text) {
        uint64_t digit = (uint64_t)(**text - '0');
        if (value > (most - digit) / 10) complain(in, "number too large");
        else value = value * 10 + digit;
    }
    return value;
}

/* A word that is one number. */
static uint64_t number(reader *in, uint64_t most) {
    char *word = next_word(in);
    uint64_t value = digits(in, &word, most);
    if (*word) complain(in, "number expected");
    return value;
}

static uint32_t number32(reader *in) { return (uint32_t)number(in, UINT32_MAX); }
static sallowbingo_kwh volume(reader *in) { return (sallowbingo_kwh){number(in, UINT64_MAX)}; }

/* Adds a number so many times. */
static void add(reader *in, uint32_t value, uint64_t times) {
    if (times > LIST_MOST - numbers.count) {
        complain(in, "list too long");
        return;
    }
    for (; times; times--) numbers.at[numbers.count++] = value;
}

/* VALUE or VALUExN, and the text moved behind it. */
static void read_item(reader *in, char **text, uint32_t most) {
    uint32_t value = (uint32_t)digits(in, text, most);
    uint64_t times = 1;
    if (**text == 'x') {
        ++*text;
        times = digits(in, text, UINT32_MAX);
    }
    add(in, value, times);
}

/* PATTERN or COUNT*PATTERN: the pattern's items, then copies of them. */
static void read_group(reader *in, char *text, uint32_t most) {
    char *star = strchr(text, '*');
    uint64_t times = 1;
    size_t start = numbers.count;
    if (star) {
        times = digits(in, &text, UINT32_MAX);
        if (text != star) complain(in, "number expected");
        text = star + 1;
    }
    read_item(in, &text, most);
    while (*text == ',') ++text, read_item(in, &text, most);
    if (*text) complain(in, "number expected");
    size_t length = numbers.count - start;
    if (length * times > LIST_MOST - start) complain(in, "list too long");
    if (in->wrong) return;
    for (size_t k = length; k < length * times; k++) numbers.at[start + k] = numbers.at[start + k - length];
    numbers.count = start + length * times;
}

/* NUMBERS, each up to `most`: groups to the end of the line, or the word `none`. */
static void read_numbers(reader *in, uint32_t most) {
    char *word = next_word(in);
    numbers.count = 0;
    if (strcmp(word, "none") == 0) return;
    do read_group(in, word, most);
    while (!in->wrong && *(word = next_word(in)));
}

/* CURRENTS: `-`, or numbers separated by commas. */
static void read_currents(reader *in) {
    char *word = next_word(in);
    numbers.count = 0;
    if (strcmp(word, "-") == 0) return;
    add(in, (uint32_t)digits(in, &word, UINT32_MAX), 1);
    while (*word == ',') ++word, add(in, (uint32_t)digits(in, &word, UINT32_MAX), 1);
    if (*word) complain(in, "number expected");
}

/* THE CALLS, each with its arguments taken off the line. A line with something wrong calls nothing, and its answer has no
 * meaning. */

static const answer no_answer;

static answer open_point(reader *in) {
    sallowbingo_contract asked;
    sallowbingo_date date;
    asked.billing = number32(in);
    asked.control = number32(in);
    asked.basis = number32(in);
    asked.power.kw = number32(in);
    asked.cable.amperes = number32(in);
    asked.cable.volts = number32(in);
    asked.cable.cosine = number32(in);
    asked.cable.phases = number32(in);
    date.year = number32(in);
    date.month = number32(in);
    uint32_t place = number32(in);
    read_currents(in);
    if (!whole(in)) return no_answer;
    return sallowbingo_open_point(asked, date, numbers.at, numbers.count, place, store, SALLOWBINGO_STORE);
}

static answer billing_hours(reader *in) {
    read_numbers(in, UINT32_MAX);
    if (!whole(in)) return no_answer;
    return sallowbingo_read_billing_hours(record, store, SALLOWBINGO_STORE, numbers.at, numbers.count);
}

static answer control_hours(reader *in) {
    read_numbers(in, UINT32_MAX);
    if (!whole(in)) return no_answer;
    return sallowbingo_read_control_hours(record, store, SALLOWBINGO_STORE, numbers.at, numbers.count);
}

static answer billing_volume(reader *in) {
    sallowbingo_kwh read = volume(in);
    return whole(in) ? sallowbingo_read_billing_volume(record, store, SALLOWBINGO_STORE, read) : no_answer;
}

static answer control_volume(reader *in) {
    sallowbingo_kwh read = volume(in);
    return whole(in) ? sallowbingo_read_control_volume(record, store, SALLOWBINGO_STORE, read) : no_answer;
}

static answer neighbour(reader *in) {
    uint32_t source = number32(in);
    sallowbingo_kwh read = volume(in);
    return whole(in) ? sallowbingo_read_neighbour(record, store, SALLOWBINGO_STORE, source, read) : no_answer;
}

static answer failure(reader *in) {
    uint32_t reason = number32(in);
    return whole(in) ? sallowbingo_fail(record, store, SALLOWBINGO_STORE, reason) : no_answer;
}

static answer admission(reader *in) {
    return whole(in) ? sallowbingo_admit(record, store, SALLOWBINGO_STORE) : no_answer;
}

static answer denial(reader *in) {
    return whole(in) ? sallowbingo_deny(record, store, SALLOWBINGO_STORE) : no_answer;
}

static answer permission(reader *in) {
    return whole(in) ? sallowbingo_permit(record, store, SALLOWBINGO_STORE) : no_answer;
}

/* The hour buffer is lent full of 7, so that a word the closing leaves out is seen in its hash. */
static answer close_month(reader *in) {
    hours.count = number32(in);
    if (hours.count > LIST_MOST) complain(in, "hour buffer too long");
    read_numbers(in, UINT8_MAX);
    if (!whole(in)) return no_answer;
    for (size_t k = 0; k < numbers.count; k++) marks[k] = (uint8_t)numbers.at[k];
    for (size_t k = 0; k < hours.count; k++) hours.at[k] = 7;
    return sallowbingo_close(record, store, SALLOWBINGO_STORE, marks, numbers.count, hours.at, hours.count);
}

typedef answer (*call)(reader *in);

/* The call of that name, NULL for none. */
static call named(const char *word) {
    static const struct {
        const char *word;
        call does;
    } calls[] = {
        {"open", open_point},
        {"billing-hours", billing_hours},
        {"control-hours", control_hours},
        {"billing-volume", billing_volume},
        {"control-volume", control_volume},
        {"neighbour", neighbour},
        {"failure", failure},
        {"admission", admission},
        {"denial", denial},
        {"permission", permission},
        {"close", close_month},
    };
    for (size_t k = 0; k < COUNT(calls); k++)
        if (strcmp(word, calls[k].word) == 0) return calls[k].does;
    return NULL;
}

/* WHAT IS PRINTED */

static uint64_t hash(const uint32_t *words, size_t count) {
    uint64_t x = 14695981039346656037u;
    for (size_t k = 0; k < count; k++) x = (x ^ words[k]) * 1099511628211u;
    return x;
}

/* The figures of a month that was closed, and the sums of its days. */
static void print_closing(sallowbingo_date month, sallowbingo_figures f) {
    printf("  %" PRIu32 "-%02" PRIu32 " ground %" PRIu32 " volume %" PRIu64 " sum %" PRIu64 " days %" PRIu64
           " capacity %" PRIu32 "\n  days",
           month.year, month.month, f.ground, f.volume.kwh, f.sum.kwh, f.days, f.capacity.kw);
    uint32_t days = sallowbingo_month_days(month.year, month.month);
    for (uint32_t day = 0; day < days; day++) {
        uint64_t sum = 0;
        for (uint32_t hour = 0; hour < 24; hour++) sum += hours.at[24 * day + hour];
        printf(" %" PRIu64, sum);
    }
    printf(" hash %016" PRIx64 "\n", hash(hours.at, hours.count));
}

/* A reading, and what stands behind it on the line. */
static void print_reading(sallowbingo_reading r, const char *after) {
    if (r.given) printf("%" PRIu64 "%s", r.volume.kwh, after);
    else printf("-%s", after);
}

static void print_record(const sallowbingo_record *r) {
    printf("%" PRIu32 "-%02" PRIu32 " run %" PRIu32 " serving %" PRIu32 " denials %" PRIu32 " fault %" PRIu64
           " latest %" PRIu64 " years ",
           r->date.year, r->date.month, r->service.run, r->service.serving, r->service.denials, r->service.fault,
           r->past.latest);
    for (size_t month = 0; month < 12; month++) printf("%" PRIu32 "%s", r->past.years[month], month < 11 ? "," : " readings ");
    print_reading(r->readings.billing, ",");
    print_reading(r->readings.control, ",");
    print_reading(r->readings.first, ",");
    print_reading(r->readings.second, " ");
    printf("total %" PRIu64, r->total.kwh);
}

static void print_point(void) {
    printf("  point ");
    if (record.opened) print_record(&record);
    else printf("none");
    printf(" store %016" PRIx64 "\n", hash(store, SALLOWBINGO_STORE));
}

/* PLAYING */

/* One line. The open month is kept from before the call, since a closing opens the next one. */
static void play_line(size_t line, reader *in) {
    sallowbingo_date month = record.date;
    call does = named(next_word(in));
    answer a = no_answer;
    if (does) a = does(in);
    else complain(in, "unknown word");
    if (in->wrong) {
        printf("%zu error %s\n", line, in->wrong);
        return;
    }
    record = a.after;
    if (a.refusal) printf("%zu refused %" PRIu32, line, a.refusal), refused++;
    else printf("%zu ok", line), accepted++;
    if (a.figures.wrong_day) printf(" day %" PRIu64, a.figures.wrong_day);
    printf("\n");
    if (does == close_month && !a.refusal) print_closing(month, a.figures);
    print_point();
}

/* The next line without its end, and whether it was cut to its first bytes. 0 at the end of the file. */
static int read_line(FILE *from, char *line, int *cut) {
    size_t length = 0;
    int c;
    *cut = 0;
    while ((c = getc(from)) != EOF && c != '\n') {
        if (length < LINE_MOST - 1) line[length++] = (char)c;
        else *cut = 1;
    }
    line[length] = 0;
    return c != EOF || length > 0;
}

/* A line that is empty or starts with # is no call. */
static int is_call(const char *line) { return *line != '#' && line[strspn(line, BLANKS)] != 0; }

static void play(FILE *from) {
    static char line[LINE_MOST];
    int cut;
    for (size_t k = 0; k < SALLOWBINGO_STORE; k++) store[k] = 9;
    for (size_t at = 1; read_line(from, line, &cut); at++) {
        reader in = {line, cut ? "line too long" : NULL};
        if (is_call(line)) play_line(at, &in);
    }
    printf("calls %zu accepted %zu refused %zu\n", accepted + refused, accepted, refused);
}

int main(int argc, char **argv) {
    FILE *from = argc > 1 ? fopen(argv[1], "r") : stdin;
    if (!from) {
        perror(argv[1]);
        return 2;
    }
    play(from);
    if (ferror(from) || fflush(stdout)) {
        perror("play");
        return 2;
    }
    return 0;
}
