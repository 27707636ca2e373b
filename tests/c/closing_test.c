/* The closing through C: its refusals, alone and together; the nine grounds, on volumes small enough to work out by hand;
 * what a closing leaves in buffer, rows and record; the past, the run and the marks; and the limits. The comments work out
 * the expected values from document 01. tests/c/marks_test.c has the days whose marks are wrong. */
#include "point.h"

typedef sallowbingo_figures figures;

/* Marks to spare, like the buffer's words. The hours a meter reads, and the whole buffer that a closing has to leave. */
static uint8_t marks[2 * HOURS];
static uint32_t metered[HOURS], expected[HOURS];

/* WHAT A CLOSING IS GIVEN */

/* Rows 0 to 11 are full of 5, the rows of this month's readings full of 6, and the words past the store's end above every
 * limit; no hour is marked, the buffer is full of 7, and no hour is expected. A row counts only where the record names a
 * year for it. */
static void begin(void) {
    for (size_t k = 0; k < ROOM; k++) store[k] = k < 12 * HOURS ? 5 : k < SALLOWBINGO_STORE ? 6 : UINT32_MAX;
    for (size_t k = 0; k < COUNT(buffer); k++) buffer[k] = 7;
    memset(marks, 0, sizeof marks);
    memset(expected, 0, sizeof expected);
    remember();
}

/* So many words, then 0 to the end of the row or buffer. */
static void fill(uint32_t *row, uint32_t word, size_t count) {
    for (size_t h = 0; h < HOURS; h++) row[h] = h < count ? word : 0;
}

static uint32_t *row(size_t number) { return store + HOURS * number; }

/* Marks peak hours of a day, from one on, and the capacity hour. */
static void mark(size_t day, size_t first, size_t peaks, size_t capacity) {
    for (size_t h = first; h < first + peaks; h++) marks[24 * day + h] |= 1;
    marks[24 * day + capacity] |= 2;
}

static record holding(record r, uint32_t year, uint32_t month) {
    r.past.years[month - 1] = year;
    return r;
}

/* The row of a month holds that year, and the month is the latest past. */
static record keeping(record r, uint32_t year, uint32_t month) {
    r = holding(r, year, month);
    r.past.latest = 12 * year + month;
    return r;
}

static record with_run(record r, uint32_t run) {
    r.service.run = run;
    return r;
}

static record with_billing(record r, uint64_t volume) {
    r.readings.billing = (sallowbingo_reading){1, kwh(volume)};
    return r;
}

static record with_control(record r, uint64_t volume) {
    r.readings.control = (sallowbingo_reading){1, kwh(volume)};
    return r;
}

static record with_first(record r, uint64_t volume) {
    r.readings.first = (sallowbingo_reading){1, kwh(volume)};
    return r;
}

static record with_second(record r, uint64_t volume) {
    r.readings.second = (sallowbingo_reading){1, kwh(volume)};
    return r;
}

/* WHAT IT LEAVES */

/* A record after a closing: the readings gone, and run, total and open month as named here. */
static record after(record r, uint32_t run, uint64_t total, uint32_t year, uint32_t month) {
    r.readings = zeros().readings;
    r.service.run = run, r.total.kwh = total, r.date = on(year, month);
    return r;
}

static figures of(uint32_t ground, uint64_t volume, uint64_t sum, uint64_t days, uint32_t capacity) {
    return (figures){ground, kwh(volume), {capacity}, kwh(sum), days, 0};
}

static int same_figures(figures a, figures b) {
    return a.ground == b.ground && a.volume.kwh == b.volume.kwh && a.capacity.kw == b.capacity.kw
        && a.sum.kwh == b.sum.kwh && a.days == b.days && a.wrong_day == b.wrong_day;
}

/* The buffer holds the expected hours, and the words past its end are as they were. */
static int handed_out(void) {
    return memcmp(buffer, expected, sizeof expected) == 0
        && memcmp(buffer + HOURS, buffer_was + HOURS, sizeof buffer - sizeof expected) == 0;
}

/* Rows 12 and 13 are 0; on grounds 1 and 2 the month's row is the whole buffer; every other word is as it was. */
static int kept(uint32_t ground, uint32_t month) {
    for (size_t k = 0; k < ROOM; k++) {
        uint32_t word = was[k];
        if (ground <= 2 && k / HOURS == month - 1) word = buffer[k % HOURS];
        if (k / HOURS == 12 || k / HOURS == 13) word = 0;
        if (store[k] != word) return 0;
    }
    return 1;
}

/* A closing of a month with that many hours, all lengths right. The bytes past the lent marks are no marks at all. */
static answer close_month(record r, size_t count) {
    static uint8_t lent[COUNT(marks)];
    memset(lent, 255, sizeof lent);
    memcpy(lent, marks, count);
    return sallowbingo_close(r, store, SALLOWBINGO_STORE, lent, count, buffer, HOURS);
}

/* That closing is accepted with those figures, and leaves that record, the expected hours and the rows as they should be;
 * where not, what it gave is shown. */
static int closes(record r, size_t count, figures f, record left) {
    remember();
    answer a = close_month(r, count);
    int hours = handed_out(), rows = kept(f.ground, r.date.month), fields = same(a.after, left);
    if (a.refusal == 0 && same_figures(a.figures, f) && hours && rows && fields) return 1;
    printf("  refusal %u ground %u volume %llu sum %llu days %llu capacity %u; as expected: hours %d rows %d record %d\n",
           a.refusal, a.figures.ground, (unsigned long long)a.figures.volume.kwh, (unsigned long long)a.figures.sum.kwh,
           (unsigned long long)a.figures.days, a.figures.capacity.kw, hours, rows, fields);
    return 0;
}

/* REFUSALS */

/* The lengths that a closing is lent, and its record. */
typedef struct {
    record r;
    size_t words, marks, hours;
} closing;

/* A closing of February 2023 that is accepted, with a past, a run and readings behind it. */
static closing good(void) {
    begin();
    mark(3, 8, 16, 9);
    record r = with_run(keeping(fresh(agreed(1, 2, 100), 2023, 2), 2022, 2), 2);
    return (closing){with_second(with_control(r, 700), 28), SALLOWBINGO_STORE, 672, HOURS};
}

/* The closing is refused with that number, and names that day, counted from 1, or none with 0. */
static int gives_day(closing c, uint32_t number, uint64_t day) {
    remember();
    answer a = sallowbingo_close(c.r, store, c.words, marks, c.marks, buffer, c.hours);
    return refused_for_day(a, number, day, c.r);
}

static int gives(closing c, uint32_t number) { return gives_day(c, number, 0); }

/* In the order in which they are asked. */
static const uint32_t numbers[] = {1, 2, 3, 40, 41, 42, 43, 46, 44, 45};

/* With 42, 43 and 46 a closing names that day, which is counted from 0 here, and with all others none. */
static int gives_on(closing c, uint32_t number, size_t day) {
    return gives_day(c, number, number == 42 || number == 43 || number == 46 ? day + 1 : 0);
}

/* Makes a number apply; where it is about the marks, on that day, and each at hours of its own: 41 at hour 20, 42 by 17
 * peaks from hour 0 with the capacity hour among them, 43 by two capacity hours, 18 and 19, 46 by a peak at hour 21, for
 * which the day has to be without a capacity hour. */
static void spoil(closing *c, uint32_t number, size_t day) {
    switch (number) {
    case 1: c->words--; break;
    case 2: c->r.total.kwh = 30000000000001; break;
    case 3: c->r.date = on(3000, 1), c->marks = 744; break;
    case 40: c->marks--; break;
    case 41: marks[24 * day + 20] = 4; break;
    case 42: mark(day, 0, 17, 0); break;
    case 43: marks[24 * day + 18] = marks[24 * day + 19] = 2; break;
    case 46: marks[24 * day + 21] = 1; break;
    case 44: c->hours--; break;
    default: row(13)[743] = 1000001;
    }
}

static int alone(uint32_t number, size_t day) {
    closing c = good();
    spoil(&c, number, day);
    return gives_on(c, number, day);
}

/* Both apply, one on the month's last day and the other on its first, or the other way round: the one asked first wins. */
static int wins(uint32_t first, uint32_t other) {
    closing c = good();
    spoil(&c, first, 27), spoil(&c, other, 0);
    int last = gives_on(c, first, 27);
    c = good();
    spoil(&c, first, 0), spoil(&c, other, 27);
    return gives_on(c, first, 0) && last;
}

/* All numbers from the k-th on apply, on one day; 46 on a day of its own, since the others have capacity hours. */
static int first_of(size_t k, size_t day, size_t own) {
    closing c = good();
    for (size_t n = k; n < COUNT(numbers); n++) spoil(&c, numbers[n], numbers[n] == 46 ? own : day);
    return gives_on(c, numbers[k], numbers[k] == 46 ? own : day);
}

static void refusals_alone(void) {
    closing c = good();
    CHECK(close_month(c.r, c.marks).refusal == 0);
    for (size_t day = 0; day < 28; day += 9) {
        CHECK(alone(1, day));
        CHECK(alone(2, day));
        CHECK(alone(3, day));
        CHECK(alone(40, day));
        CHECK(alone(41, day));
        CHECK(alone(42, day));
        CHECK(alone(43, day));
        CHECK(alone(46, day));
        CHECK(alone(44, day));
        CHECK(alone(45, day));
    }
}

static void refusals_in_pairs(void) {
    CHECK(wins(1, 2)), CHECK(wins(1, 3)), CHECK(wins(1, 40)), CHECK(wins(1, 41));
    CHECK(wins(1, 42)), CHECK(wins(1, 43)), CHECK(wins(1, 44)), CHECK(wins(1, 45));
    CHECK(wins(2, 3)), CHECK(wins(2, 40)), CHECK(wins(2, 41)), CHECK(wins(2, 42));
    CHECK(wins(2, 43)), CHECK(wins(2, 44)), CHECK(wins(2, 45)), CHECK(wins(3, 40));
    CHECK(wins(3, 41)), CHECK(wins(3, 42)), CHECK(wins(3, 43)), CHECK(wins(3, 44));
    CHECK(wins(3, 45)), CHECK(wins(40, 41)), CHECK(wins(40, 42)), CHECK(wins(40, 43));
    CHECK(wins(40, 44)), CHECK(wins(40, 45)), CHECK(wins(41, 42)), CHECK(wins(41, 43));
    CHECK(wins(41, 44)), CHECK(wins(41, 45)), CHECK(wins(42, 43)), CHECK(wins(42, 44));
    CHECK(wins(42, 45)), CHECK(wins(43, 44)), CHECK(wins(43, 45)), CHECK(wins(44, 45));
    /* 46 is asked after 43 and before 44 */
    CHECK(wins(1, 46)), CHECK(wins(2, 46)), CHECK(wins(3, 46)), CHECK(wins(40, 46));
    CHECK(wins(41, 46)), CHECK(wins(42, 46)), CHECK(wins(43, 46)), CHECK(wins(46, 44));
    CHECK(wins(46, 45));
    for (size_t k = 0; k < COUNT(numbers); k++) {
        CHECK(first_of(k, 0, 27));
        CHECK(first_of(k, 27, 0));
        CHECK(first_of(k, 0, 1));
        CHECK(first_of(k, 27, 26));
    }
}

/* Some wrong lengths of store, marks and buffer, and nothing lent at all. */
static void other_lengths(void) {
    static const size_t stores[] = {0, 1, 744, 10415, 10417, ROOM}, buffers[] = {0, 1, 672, 743, 745, 2 * HOURS};
    static const size_t counts[] = {0, 1, 24, 671, 673, 696, 720, 744, 2 * HOURS};
    closing c = good();
    for (size_t k = 0; k < COUNT(stores); k++) c = good(), c.words = stores[k], CHECK(gives(c, 1));
    for (size_t k = 0; k < COUNT(counts); k++) c = good(), c.marks = counts[k], CHECK(gives(c, 40));
    for (size_t k = 0; k < COUNT(buffers); k++) c = good(), c.hours = buffers[k], CHECK(gives(c, 44));
    c = good();
    CHECK(refused(sallowbingo_close(c.r, NULL, 0, marks, 672, buffer, HOURS), 1, c.r));
    CHECK(refused(sallowbingo_close(c.r, store, SALLOWBINGO_STORE, NULL, 0, buffer, HOURS), 40, c.r));
    CHECK(refused(sallowbingo_close(c.r, store, SALLOWBINGO_STORE, marks, 672, NULL, 0), 44, c.r));
    CHECK(refused(sallowbingo_close(c.r, store, SALLOWBINGO_STORE, NULL, 0, NULL, 0), 40, c.r));
    CHECK(refused(sallowbingo_close(c.r, NULL, 0, NULL, 0, NULL, 0), 1, c.r));
    CHECK(refused(sallowbingo_close(zeros(), NULL, 0, NULL, 0, NULL, 0), 1, zeros()));
    CHECK(refused(sallowbingo_close(zeros(), store, SALLOWBINGO_STORE, NULL, 0, NULL, 0), 2, zeros()));
    /* T of the other lengths of month: 696, 720 and 744 */
    static const sallowbingo_date months[] = {{2024, 2}, {2023, 4}, {2023, 1}, {2100, 2}};
    static const size_t right[] = {696, 720, 744, 672};
    for (size_t k = 0; k < COUNT(months); k++) {
        c = good(), c.r = fresh(agreed(1, 2, 100), months[k].year, months[k].month);
        c.marks = right[k] - 1, CHECK(gives(c, 40));
        c.marks = right[k] + 1, CHECK(gives(c, 40));
        CHECK(close_month(c.r, right[k]).refusal == 0);
    }
}

/* Records outside document 01's limits. tests/c/point_test.c takes every field of the record, for every call. */
static void other_records(void) {
    closing c = good();
    c.r.opened = 0, CHECK(gives(c, 2));
    c = good(), c.r.date.month = 13, CHECK(gives(c, 2));
    c = good(), c.r.date = on(3000, 2), CHECK(gives(c, 2));
    c = good(), c.r.date = on(3001, 1), CHECK(gives(c, 2));
    c = good(), c.r.service.run = 12001, CHECK(gives(c, 2));
    c = good(), c.r.past.years[1] = 2023, CHECK(gives(c, 2));
    c = good(), c.r.past.latest = 12 * 2022 + 3, CHECK(gives(c, 2));
    c = good(), c.r.readings.control.volume.kwh = 672000001, CHECK(gives(c, 2));
    c = good(), c.r.contract.control = 0, CHECK(gives(c, 2));
    c = good(), memset(&c.r, 255, sizeof c.r), CHECK(gives(c, 2));
    /* January 3000 has T 744, so that a volume above 744,000,000 is 2 there and that volume itself 3 */
    c = good(), c.r.date = on(3000, 1), c.r.readings.control.volume.kwh = 744000001, CHECK(gives(c, 2));
    c = good(), c.r.date = on(3000, 1), c.r.readings.control.volume.kwh = 744000000, CHECK(gives(c, 3));
}

/* Marks at the first and the last hour of a month and of a day. */
static void other_marks(void) {
    static const size_t places[] = {0, 23, 24, 671};
    for (size_t k = 0; k < COUNT(places); k++) {
        closing c = good();
        marks[places[k]] = 4, CHECK(gives(c, 41));
        marks[places[k]] = 255, CHECK(gives(c, 41));
        marks[places[k]] = 1, CHECK(gives_on(c, 46, places[k] / 24)); /* a peak hour on a day without a capacity hour */
        marks[places[k]] = 3, CHECK(close_month(c.r, 672).refusal == 0);
    }
    closing c = good();
    mark(5, 0, 24, 0), CHECK(gives_on(c, 42, 5));
    c = good(), mark(5, 0, 17, 20), CHECK(gives_on(c, 42, 5));
    c = good(), mark(5, 0, 16, 20), CHECK(close_month(c.r, 672).refusal == 0);
    c = good(), memset(marks + 120, 1, 17), CHECK(gives_on(c, 42, 5)); /* 17 peaks without a capacity hour: 42 and 46 */
    c = good(), memset(marks + 120, 1, 16), CHECK(gives_on(c, 46, 5));
    c = good(), marks[120] = marks[143] = 2, CHECK(gives_on(c, 43, 5));
    c = good(), marks[120] = marks[143] = 3, CHECK(gives_on(c, 43, 5));
    /* a capacity hour is the last of one day and the first of the next */
    c = good(), marks[143] = marks[144] = 2, CHECK(close_month(c.r, 672).refusal == 0);
    /* 16 peaks that end one day and 16 that begin the next */
    c = good(), mark(5, 8, 16, 23), mark(6, 0, 16, 0), CHECK(close_month(c.r, 672).refusal == 0);
}

/* Each row's first and last word, one above its limit and at it, whether the row counts or not. */
static void other_words(void) {
    for (size_t number = 0; number < 14; number++) {
        uint32_t most = number < 12 ? 3000000 : 1000000;
        for (size_t h = 0; h < HOURS; h += HOURS - 1) {
            closing c = good();
            row(number)[h] = most + 1, CHECK(gives(c, 45));
            row(number)[h] = UINT32_MAX, CHECK(gives(c, 45));
            row(number)[h] = most, CHECK(close_month(c.r, 672).refusal == 0);
        }
    }
}

/* THE GROUNDS */

/* Ground 1, February 2023: 1 in each hour, but 3 and 4 in the capacity hours of two days. V = 670 + 3 + 4 = 677, C = 7,
 * d = 2, capacity 3.5 and so 4. The other readings and the year before make no difference. */
static void ground_1(void) {
    begin();
    record r = with_run(keeping(fresh(agreed(1, 2, 100), 2023, 2), 2022, 2), 5);
    r.total.kwh = 1000;
    fill(metered, 1, 672);
    metered[9] = 3, metered[24 + 9] = 4;
    r = sallowbingo_read_billing_hours(r, store, SALLOWBINGO_STORE, metered, 672).after;
    r = sallowbingo_read_control_volume(r, store, SALLOWBINGO_STORE, kwh(99)).after;
    r = sallowbingo_read_neighbour(r, store, SALLOWBINGO_STORE, 1, kwh(50)).after;
    mark(0, 8, 4, 9), mark(1, 8, 4, 9);
    memcpy(expected, metered, sizeof metered);
    CHECK(closes(r, 672, of(1, 677, 7, 2, 4), keeping(after(r, 0, 1677, 2023, 3), 2023, 2)));
    /* Row 12 full of 6 to its last word: only the first 696 are February 2024's. V = 6 × 696. */
    begin();
    r = fresh(agreed(1, 1, 100), 2024, 2);
    r.readings.billing.given = r.readings.control.given = 1;
    fill(expected, 6, 696);
    CHECK(closes(r, 696, of(1, 4176, 0, 0, 0), keeping(after(r, 0, 4176, 2024, 3), 2024, 2)));
    /* A reading of zeros is a reading. */
    begin();
    r = fresh(agreed(1, 0, 100), 2023, 1);
    r.readings.billing.given = 1;
    fill(row(12), 0, 744);
    CHECK(closes(r, 744, of(1, 0, 0, 0, 0), keeping(after(r, 0, 0, 2023, 2), 2023, 1)));
    /* Denials, service and the last fault stay as they are. */
    begin();
    r = fresh(agreed(1, 0, 100), 2023, 12);
    r.readings.billing.given = 1, r.service.denials = 1, r.service.fault = 12 * 2023 + 12, r.service.run = 2;
    fill(expected, 6, 744);
    CHECK(closes(r, 744, of(1, 4464, 0, 0, 0), keeping(after(r, 0, 4464, 2024, 1), 2023, 12)));
}

/* A closing of April 2023, 720 hours, on ground 2, with run 1 before it and hour 9 as the only capacity hour. */
static int ground_2(record r, uint64_t volume, uint32_t capacity) {
    return closes(r, 720, of(2, volume, capacity, 1, capacity), keeping(after(r, 0, volume, 2023, 5), 2023, 4));
}

/* April 2023 with an integral billing meter, P = 3, and peaks at hours 8 to 11 with capacity hour 9: n = 4, n × P = 12. */
static record integral_april(uint64_t volume) {
    begin();
    mark(0, 8, 4, 9);
    return with_run(with_billing(fresh(agreed(2, 1, 3), 2023, 4), volume), 1);
}

/* Hours 8 to 11 as named, and every other hour of April. */
static void expect_april(uint32_t h8, uint32_t h9, uint32_t h10, uint32_t h11, uint32_t others) {
    fill(expected, others, 720);
    expected[8] = h8, expected[9] = h9, expected[10] = h10, expected[11] = h11;
}

static void grounds_2(void) {
    /* N is the first, 22: V = 750 - 22 = 728, A = 12, 3 on each peak; 716 on the other 716 hours, 1 each. */
    record r = with_second(with_first(integral_april(750), 22), 500);
    expect_april(3, 3, 3, 3, 1);
    CHECK(ground_2(r, 728, 3));
    r = with_second(integral_april(750), 22), expect_april(3, 3, 3, 3, 1); /* the second alone */
    CHECK(ground_2(r, 728, 3));
    r = with_second(with_first(integral_april(728), 0), 500), expect_april(3, 3, 3, 3, 1); /* a first of 0 */
    CHECK(ground_2(r, 728, 3));
    r = integral_april(728), expect_april(3, 3, 3, 3, 1); /* none */
    CHECK(ground_2(r, 728, 3));
    /* V = 5 is less than 12: 5/4, 10/4, 15/4, 20/4 are 1.25, 2.5, 3.75, 5, rounded half up 1, 3, 4, 5 */
    r = integral_april(5), expect_april(1, 2, 1, 1, 0);
    CHECK(ground_2(r, 5, 2));
    /* V = 13: the one that is left goes to the 358th of the 716 other hours, where 358/716 is a half. Eight of them lie
     * before the peaks, and so it is hour 357 + 4. */
    r = integral_april(13), expect_april(3, 3, 3, 3, 0), expected[361] = 1;
    CHECK(ground_2(r, 13, 3));
    /* N above B, and equal to it: V = 0, and the row of zeros is kept */
    r = with_first(integral_april(10), 12);
    CHECK(ground_2(r, 0, 0));
    r = with_first(integral_april(10), 10);
    CHECK(ground_2(r, 0, 0));
    /* P of a cable: 100 × 230 × 900 / 500,000 = 41.4, so 41; V = 4 × 41 + 716 = 880 */
    r = integral_april(880), r.contract = cabled(2, 1, (sallowbingo_cable){100, 230, 0, 3}), expect_april(41, 41, 41, 41, 1);
    CHECK(ground_2(r, 880, 41));
    /* P = 0, the share of a power: A = 0 */
    r = integral_april(716), r.contract = shared(2, 1, 0), expect_april(0, 0, 0, 0, 1);
    CHECK(ground_2(r, 716, 0));
    /* The capacity hour may lie off the peaks: hour 20 and not 9; billing goes before control. */
    r = with_control(integral_april(728), 0), marks[9] = 1, marks[20] = 2, expect_april(3, 3, 3, 3, 1);
    CHECK(ground_2(r, 728, 1));
    /* No peaks: 721 evenly over 720 hours, of which the 360th gets 2: 721 × 360/720 = 360.5, rounded 361 */
    r = integral_april(721), memset(marks, 0, sizeof marks), fill(expected, 1, 720), expected[359] = 2;
    CHECK(closes(r, 720, of(2, 721, 0, 0, 0), keeping(after(r, 0, 721, 2023, 5), 2023, 4)));
}

/* Ground 3, February 2023: 2 in each hour, 9 in hour 5, the only capacity hour. V = 671 × 2 + 9 = 1,351. The run, here 7,
 * and two denials make no difference; neither does the past, and no row is kept. */
static void ground_3(void) {
    begin();
    record r = with_run(keeping(fresh(agreed(1, 1, 100), 2023, 2), 2022, 2), 7);
    fill(metered, 2, 672);
    metered[5] = 9, marks[5] = 2;
    r = sallowbingo_read_control_hours(r, store, SALLOWBINGO_STORE, metered, 672).after;
    r = sallowbingo_read_neighbour(r, store, SALLOWBINGO_STORE, 2, kwh(50)).after;
    r.service.denials = 2, r.service.serving = 0;
    memcpy(expected, metered, sizeof metered);
    CHECK(closes(r, 672, of(3, 1351, 9, 1, 9), after(r, 8, 1351, 2023, 3)));
    /* without a past, beside an integral billing meter; row 13 is full of 6 to its last word */
    begin();
    r = fresh(agreed(2, 1, 100), 2023, 2);
    r.readings.control.given = 1;
    fill(expected, 6, 672);
    CHECK(closes(r, 672, of(3, 4032, 0, 0, 0), after(r, 1, 4032, 2023, 3)));
    /* both readings: billing goes first */
    begin();
    r.readings.billing = (sallowbingo_reading){1, kwh(672)};
    fill(expected, 1, 672);
    CHECK(closes(r, 672, of(2, 672, 0, 0, 0), keeping(after(r, 0, 672, 2023, 3), 2023, 2)));
}

/* February 2023 with an integral control meter, P = 3, and a past, February 2022, whose hours are all 0 so far. */
static record control_february(uint32_t run, uint64_t volume) {
    begin();
    fill(row(1), 0, 672);
    return with_run(with_control(keeping(fresh(agreed(1, 2, 3), 2023, 2), 2022, 2), volume), run);
}

static void ground_4(void) {
    /* V = 10 - 3 = 7 by 3, 0, 1: 5, 0, 2, example d). Peaks make no difference, but C is hour 0: 5. R is 1, then 2. */
    for (uint32_t run = 0; run < 2; run++) {
        record r = with_first(control_february(run, 10), 3);
        row(1)[0] = 3, row(1)[2] = 1;
        mark(0, 0, 2, 0);
        expected[0] = 5, expected[2] = 2;
        CHECK(closes(r, 672, of(4, 7, 5, 1, 5), after(r, run + 1, 7, 2023, 3)));
    }
    /* N above K: V = 0 */
    record r = with_second(control_february(0, 10), 11);
    row(1)[0] = 3;
    CHECK(closes(r, 672, of(4, 0, 0, 0, 0), after(r, 1, 0, 2023, 3)));
    /* a past of zeros: all weights are 1, and of 673 the 336th hour gets 2: 673 × 336/672 = 336.5, rounded 337 */
    r = control_february(0, 673);
    fill(expected, 1, 672), expected[335] = 2;
    CHECK(closes(r, 672, of(4, 673, 0, 0, 0), after(r, 1, 673, 2023, 3)));
    /* 10 by 1, 1, 1: 3, 4, 3, example b) */
    r = control_february(0, 10);
    row(1)[100] = row(1)[101] = row(1)[671] = 1;
    expected[100] = expected[671] = 3, expected[101] = 4;
    CHECK(closes(r, 672, of(4, 10, 0, 0, 0), after(r, 1, 10, 2023, 3)));
    /* A past that is short: February 2023 in April. Hour 504 counts again at hour 672, so 7 is shared as 4 and 3; the
     * row's own word 672 is not of February. */
    r = with_control(keeping(fresh(agreed(1, 2, 3), 2023, 4), 2023, 2), 7);
    begin(), fill(row(1), 0, 672), row(1)[504] = 1, row(1)[672] = 1000;
    expected[504] = 4, expected[672] = 3;
    CHECK(closes(r, 720, of(4, 7, 0, 0, 0), after(r, 1, 7, 2023, 5)));
    /* A past that is long: January 2023 in February. Its hour 700 has no place. */
    r = with_control(keeping(fresh(agreed(1, 2, 3), 2023, 2), 2023, 1), 7);
    begin(), fill(row(0), 0, 744), row(0)[0] = row(0)[700] = 1;
    expected[0] = 7;
    CHECK(closes(r, 672, of(4, 7, 0, 0, 0), after(r, 1, 7, 2023, 3)));
}

/* Example k): P = 3, V = 6, peaks at hours 8 and 9 with capacity hour 8: A = min(6, 2 × 3) = 6, n = 2, d = 1. The past
 * puts C' = 4 into hour 8 by weights 2 and 1: 6 < 2 × 4, ground 6. By 1 and 1 it puts 3: 6 < 2 × 3 is false, ground 5. */
static void grounds_5_and_6(void) {
    for (uint32_t run = 2; run < 4; run++) {
        record r = control_february(run, 6);
        mark(0, 8, 2, 8), row(1)[8] = 2, row(1)[100] = 1;
        expected[8] = 4, expected[100] = 2;
        CHECK(closes(r, 672, of(6, 6, 4, 1, 4), after(r, run + 1, 6, 2023, 3)));
        r = control_february(run, 6);
        mark(0, 8, 2, 8), row(1)[8] = 1, row(1)[100] = 1;
        expected[8] = 3, expected[9] = 3;
        CHECK(closes(r, 672, of(5, 6, 3, 1, 3), after(r, run + 1, 6, 2023, 3)));
    }
    /* Four days of that kind: n = 8, d = 4, V = 24 = A. The past itself sums to 24, so its hours are ground 4's, and C' =
     * 4 + 3 + 3 + 3 = 13: 24 × 4 = 96 < 8 × 13 = 104, ground 6. Capacity is 3.25, rounded 3, no more than A/n = 3. */
    record r = control_february(2, 24);
    for (size_t day = 0; day < 4; day++) mark(day, 8, 2, 8), row(1)[24 * day + 8] = expected[24 * day + 8] = day ? 3 : 4;
    row(1)[100] = expected[100] = 11;
    CHECK(closes(r, 672, of(6, 24, 13, 4, 3), after(r, 3, 24, 2023, 3)));
    /* The same with C' = 12, 96 < 96 is false: 3 on each peak. */
    r = control_february(2, 24);
    for (size_t day = 0; day < 4; day++) {
        mark(day, 8, 2, 8), row(1)[24 * day + 8] = 3;
        expected[24 * day + 8] = expected[24 * day + 9] = 3;
    }
    row(1)[100] = 12;
    CHECK(closes(r, 672, of(5, 24, 12, 4, 3), after(r, 3, 24, 2023, 3)));
    /* V above n × P: V = 12, A = 6, by weights 2 and 1: C' = 8, 6 × 1 < 2 × 8, ground 6 */
    r = control_february(2, 12);
    mark(0, 8, 2, 8), row(1)[8] = 2, row(1)[100] = 1;
    expected[8] = 8, expected[100] = 4;
    CHECK(closes(r, 672, of(6, 12, 8, 1, 8), after(r, 3, 12, 2023, 3)));
}

/* Ground 5 by the other conditions. */
static void grounds_5(void) {
    /* No past: V = 700 - 20 = 680, A = 4 × 3 = 12, 668 on the other 668 hours. R is 1; then 2; then 3. */
    for (uint32_t run = 0; run < 3; run++) {
        begin(), mark(0, 8, 4, 9);
        record r = with_run(with_first(with_control(fresh(agreed(1, 2, 3), 2023, 2), 700), 20), run);
        fill(expected, 1, 672);
        for (size_t h = 8; h < 12; h++) expected[h] = 3;
        CHECK(closes(r, 672, of(5, 680, 3, 1, 3), after(r, run + 1, 680, 2023, 3)));
    }
    /* R = 3 and n = 0, though there are capacity hours and the past has all its volume in one: evenly */
    record r = control_february(2, 672);
    marks[30] = 2, row(1)[30] = 1;
    fill(expected, 1, 672);
    CHECK(closes(r, 672, of(5, 672, 1, 1, 1), after(r, 3, 672, 2023, 3)));
    /* V = 0: 0 < 0 is false */
    r = control_february(2, 0);
    mark(0, 8, 2, 8), row(1)[8] = 1;
    CHECK(closes(r, 672, of(5, 0, 0, 1, 0), after(r, 3, 0, 2023, 3)));
}

/* Ground 7: February 2024 from February 2023, example n). Hours 504 to 527 have 4 and come again as hours 672 to 695; the
 * others have 1. V = 648 + 24 × 4 + 24 × 4 = 840. The only capacity hour is 672: C = 4. */
static void ground_7(void) {
    for (uint32_t control = 0; control < 3; control++) {
        begin();
        record r = with_second(keeping(fresh(agreed(1, control, 1), 2024, 2), 2023, 2), 30);
        fill(row(1), 1, 744);
        for (size_t h = 504; h < 528; h++) row(1)[h] = 4;
        fill(expected, 1, 696);
        for (size_t h = 0; h < 24; h++) expected[504 + h] = expected[672 + h] = 4;
        marks[672] = 2;
        CHECK(closes(r, 696, of(7, 840, 4, 1, 4), after(r, 1, 840, 2024, 3)));
    }
    /* a longer past, January 2023 in February: its first 672 hours, 5 each */
    begin();
    record r = keeping(fresh(agreed(2, 0, 1), 2023, 2), 2023, 1);
    fill(expected, 5, 672);
    CHECK(closes(r, 672, of(7, 3360, 0, 0, 0), after(r, 1, 3360, 2023, 3)));
    /* and on basis 3 */
    begin();
    r.contract = cabled(2, 0, (sallowbingo_cable){100, 230, 0, 3});
    fill(expected, 5, 672);
    CHECK(closes(r, 672, of(7, 3360, 0, 0, 0), after(r, 1, 3360, 2023, 3)));
}

static void ground_8(void) {
    /* no past: 4 kW over 672 hours, and over 744 with a share of 10 kW by 1, 1, 1 at place 2, which is 3, example g) */
    begin(), mark(0, 8, 4, 9);
    record r = fresh(agreed(1, 2, 4), 2023, 2);
    fill(expected, 4, 672);
    CHECK(closes(r, 672, of(8, 2688, 4, 1, 4), after(r, 1, 2688, 2023, 3)));
    static const uint32_t currents[] = {1, 1, 1};
    begin(), mark(0, 8, 4, 9);
    r = sallowbingo_open_point(shared(1, 0, 10), on(2023, 3), currents, 3, 2, store, SALLOWBINGO_STORE).after;
    fill(expected, 3, 744);
    CHECK(closes(r, 744, of(8, 2232, 3, 1, 3), after(r, 1, 2232, 2023, 4)));
    /* a share of 0 */
    begin();
    r = fresh(shared(2, 1, 0), 2023, 4);
    CHECK(closes(r, 720, of(8, 0, 0, 0, 0), after(r, 1, 0, 2023, 5)));
    /* the greatest power: 1,000,000 × 744; d = 31, C = 31,000,000 */
    begin();
    r = fresh(agreed(1, 0, 1000000), 2023, 5);
    for (size_t day = 0; day < 31; day++) mark(day, 0, 16, 23);
    fill(expected, 1000000, 744);
    CHECK(closes(r, 744, of(8, 744000000, 31000000, 31, 1000000), after(r, 1, 744000000, 2023, 6)));
}

/* Example e): 41.4 kWh an hour over April's 720 hours are 29,808. 41.4, 82.8, 124.2, 165.6 and 207 are rounded 41, 83,
 * 124, 166 and 207: five hours have 41, 42, 41, 42, 41, over and over. With one phase 13.8 an hour, 9,936: 13.8, 27.6,
 * 41.4, 55.2 and 69 are rounded 14, 28, 41, 55, 69, and the hours are 14, 14, 13, 14, 14. */
static void ground_9(void) {
    static const uint32_t three[] = {41, 42, 41, 42, 41}, one[] = {14, 14, 13, 14, 14};
    begin(), mark(0, 8, 4, 9), mark(1, 8, 4, 9);
    record r = fresh(cabled(1, 2, (sallowbingo_cable){100, 230, 0, 3}), 2023, 4);
    for (size_t h = 0; h < 720; h++) expected[h] = three[h % 5];
    /* capacity hours 9 and 33: the fifth and the fourth of five, 41 + 42 = 83, 41.5 rounded 42 */
    CHECK(closes(r, 720, of(9, 29808, 83, 2, 42), after(r, 1, 29808, 2023, 5)));
    begin();
    r = fresh(cabled(2, 0, (sallowbingo_cable){100, 230, 900, 1}), 2023, 4);
    for (size_t h = 0; h < 720; h++) expected[h] = one[h % 5];
    CHECK(closes(r, 720, of(9, 9936, 0, 0, 0), after(r, 1, 9936, 2023, 5)));
    /* Example f): the formula at 720 hours is 1.5 and so 2, though at 1 it is 0; 2 × (h + 1) / 720 is a half at hour
     * 179 and one and a half at hour 539. R = 3, so the past doesn't count. */
    begin();
    r = with_run(keeping(fresh(cabled(1, 1, (sallowbingo_cable){1, 25, 125, 1}), 2023, 4), 2022, 4), 2);
    expected[179] = expected[539] = 1;
    CHECK(closes(r, 720, of(9, 2, 0, 0, 0), after(r, 3, 2, 2023, 5)));
    /* the greatest cable: 2,000 × 250,000 × 1,000 / 500,000 = 1,000,000 an hour, in a leap February */
    begin();
    r = fresh(cabled(1, 1, (sallowbingo_cable){2000, 250000, 1000, 3}), 2400, 2);
    fill(expected, 1000000, 696);
    CHECK(closes(r, 696, of(9, 696000000, 0, 0, 0), after(r, 1, 696000000, 2400, 3)));
}

/* HALVES, in a closing. The comments name what a floor, and what a half rounded down, would give. */

/* February 2023 on ground 4: a volume by the weights of hours 100, 101 and 671. Hour 101 is the only capacity hour. */
static int splits(uint64_t volume, const uint32_t weights[3], const uint32_t hours[3]) {
    static const size_t places[] = {100, 101, 671};
    record r = control_february(0, volume);
    for (size_t k = 0; k < COUNT(places); k++) row(1)[places[k]] = weights[k], expected[places[k]] = hours[k];
    marks[101] = 2;
    return closes(r, 672, of(4, volume, hours[1], 1, hours[1]), after(r, 1, volume, 2023, 3));
}

#define LIST(...) (const uint32_t[]){__VA_ARGS__}

static void halves_by_weight(void) {
    /* 3.33, 6.67, 10: 3, 7, 10, example b); the floors 3, 6, 10 */
    CHECK(splits(10, LIST(1, 1, 1), LIST(3, 4, 3)));
    /* 2.5, 5: 3, 5, example c) by weights; a floor and a half rounded down 2, 5 */
    CHECK(splits(5, LIST(1, 1, 0), LIST(3, 2, 0)));
    /* 0.5, 1: 1, 1; a floor and a half rounded down 0, 1 */
    CHECK(splits(1, LIST(1, 1, 0), LIST(1, 0, 0)));
    /* 0.5, 1.5, 2: 1, 2, 2; a floor and a half rounded down 0, 1, 2; a half to the even number 0, 2, 2 */
    CHECK(splits(2, LIST(1, 2, 1), LIST(1, 1, 0)));
    /* 1.25, 3.75, 5: 1, 4, 5, no half among them; the floors 1, 3, 5 */
    CHECK(splits(5, LIST(1, 2, 1), LIST(1, 3, 1)));
    /* By 1,000,001 of 2,000,003, just less than a half, 0; by 1,000,001 of 2,000,001, just above it, 1. */
    CHECK(splits(1, LIST(1000001, 1000002, 0), LIST(0, 1, 0)));
    CHECK(splits(1, LIST(1000001, 1000000, 0), LIST(1, 0, 0)));
    /* 336 by a past of zeros, as in example c): 0.5, 1, 1.5 .. are 1, 1, 2 .., so 1 and 0 by turns; a floor and a half
     * rounded down give 0 and 1 by turns, and nothing to hour 0, the capacity hour */
    record r = control_february(0, 336);
    marks[0] = 2;
    for (size_t h = 0; h < 672; h += 2) expected[h] = 1;
    CHECK(closes(r, 672, of(4, 336, 1, 1, 1), after(r, 1, 336, 2023, 3)));
}

/* The peak rule, on ground 5, peaks at hours 8 and 9 with capacity hour 8 and P = 3. */
static void halves_by_peaks(void) {
    /* V = 5, all of it on the peaks: 2.5 and 5, so 3 and 2, example h); a floor and a half rounded down give 2 and 3 */
    begin(), mark(0, 8, 2, 8);
    record r = with_control(fresh(agreed(1, 2, 3), 2023, 2), 5);
    expected[8] = 3, expected[9] = 2;
    CHECK(closes(r, 672, of(5, 5, 3, 1, 3), after(r, 1, 5, 2023, 3)));
    /* V = 341: A = 6; 335 over the other 670 hours, 0.5, 1, 1.5 .., so 1 and 0 by turns, 8 of them before the peaks */
    begin(), mark(0, 8, 2, 8);
    r = with_control(r, 341);
    for (size_t h = 0; h < 672; h += 2) expected[h] = 1;
    expected[8] = expected[9] = 3;
    CHECK(closes(r, 672, of(5, 341, 3, 1, 3), after(r, 1, 341, 2023, 3)));
}

/* The test between grounds 6 and 5 takes the hours as shared. V = 7 by 1 and 1: 3.5, rounded 4, so C' = 4, and 6 × 1 <
 * 2 × 4 is ground 6. With C' = 3 of a floor or a half rounded down, 6 × 1 < 2 × 3 would be false. */
static void half_decides(void) {
    record r = control_february(2, 7);
    mark(0, 8, 2, 8), row(1)[8] = row(1)[100] = 1;
    expected[8] = 4, expected[100] = 3;
    CHECK(closes(r, 672, of(6, 7, 4, 1, 4), after(r, 3, 7, 2023, 3)));
    /* The other way round: the capacity hour, 104, is the second with a weight and has 3, so ground 5. A floor or a
     * half rounded down would give it 4, and ground 6. The peaks, 104 and 105, get 3 each, and the one that is left
     * goes to the 335th of the other 670 hours, where 335/670 is a half: hour 334 + 2. */
    r = control_february(2, 7);
    mark(4, 8, 2, 8), row(1)[100] = row(1)[104] = 1;
    expected[104] = expected[105] = 3, expected[336] = 1;
    CHECK(closes(r, 672, of(5, 7, 3, 1, 3), after(r, 3, 7, 2023, 3)));
}

/* P on basis 2: at that place in the list of currents a point gets that share of the power, and March 2023 on ground 8
 * has it in each of its 744 hours. */
static int gets(uint32_t power, const uint32_t *currents, size_t points, size_t place, uint32_t share) {
    begin(), mark(0, 8, 4, 9);
    sallowbingo_contract asked = shared(1, 0, power);
    answer a = sallowbingo_open_point(asked, on(2023, 3), currents, points, place, store, SALLOWBINGO_STORE);
    if (a.refusal != 0 || !same(a.after, fresh(shared(1, 0, share), 2023, 3))) return 0;
    fill(expected, share, 744);
    return closes(a.after, 744, of(8, 744 * share, share, 1, share), after(a.after, 1, 744 * share, 2023, 4));
}

static void halves_of_power(void) {
    /* 10 kW by 1, 1, 1: 3.33, 6.67, 10 are rounded 3, 7, 10; the floors 3, 6, 10 give place 1 3 and place 2 4 */
    CHECK(gets(10, LIST(1, 1, 1), 3, 0, 3));
    CHECK(gets(10, LIST(1, 1, 1), 3, 1, 4));
    CHECK(gets(10, LIST(1, 1, 1), 3, 2, 3));
    /* 5 kW by 1, 1: 2.5, rounded 3; a floor and a half rounded down give 2 and 3 */
    CHECK(gets(5, LIST(1, 1), 2, 0, 3));
    CHECK(gets(5, LIST(1, 1), 2, 1, 2));
    /* 1 kW by 1, 1: all of it at place 0, and a share of 0 at place 1 */
    CHECK(gets(1, LIST(1, 1), 2, 0, 1));
    CHECK(gets(1, LIST(1, 1), 2, 1, 0));
}

/* THE PAST, THE RUN AND THE MARKS */

/* April 2024. Row k has 10 + k in every hour; the past is named by its row, 12 for none. */
static int takes(record r, size_t past) {
    begin();
    for (size_t k = 0; k < 12; k++) fill(row(k), (uint32_t)(10 + k), 744);
    uint32_t hour = past < 12 ? (uint32_t)(10 + past) : 1;
    fill(expected, hour, 720);
    return closes(r, 720, of(past < 12 ? 7 : 8, 720 * hour, 0, 0, 0), after(r, 1, 720 * hour, 2024, 5));
}

static void choice_of_past(void) {
    record r = fresh(agreed(1, 0, 1), 2024, 4);
    CHECK(takes(r, 12));
    CHECK(takes(holding(keeping(r, 2024, 3), 2023, 4), 3)); /* the same month last year, before a later one */
    CHECK(takes(keeping(r, 2023, 4), 3));
    CHECK(takes(holding(r, 2023, 4), 3));                   /* with no latest past named */
    CHECK(takes(holding(keeping(r, 2024, 3), 2022, 4), 2)); /* two years back is not last year */
    CHECK(takes(holding(r, 2022, 4), 12));
    CHECK(takes(keeping(r, 2022, 4), 3));                   /* but it may be the latest */
    CHECK(takes(keeping(r, 2024, 1), 0));
    CHECK(takes(keeping(r, 2023, 12), 11));
    CHECK(takes(holding(keeping(r, 2023, 1), 2024, 3), 0)); /* the latest is the one named */
    CHECK(takes(holding(holding(r, 2024, 3), 2024, 1), 12));
}

/* A past of February counts 696 hours of 2024 and 672 of 2023. Row 1 has 1, but 4 in hour 504 and 9 in hour 672. March 2024
 * has hour 672 itself, and from hour 696 on the row's hours 528 on: V = 742 + 4 + 9 = 755. March 2023 has hour 504 again
 * at 672: V = 742 + 4 + 4 = 750. The row's words from 696 on are of neither. */
static void length_of_past(void) {
    for (uint32_t year = 2023; year < 2025; year++) {
        begin();
        record r = keeping(fresh(agreed(1, 0, 1), year, 3), year, 2);
        uint32_t last = year == 2024 ? 9 : 4;
        fill(row(1), 1, 744);
        for (size_t h = 696; h < HOURS; h++) row(1)[h] = 50;
        row(1)[504] = 4, row(1)[672] = 9;
        fill(expected, 1, 744);
        expected[504] = 4, expected[672] = last;
        CHECK(closes(r, 744, of(7, 746 + last, 0, 0, 0), after(r, 1, 746 + last, year, 4)));
    }
}

/* February 2023 with a past of 5 in every hour and P = 1: R at most 2 gives ground 7, 5 × 672, else 8, 672. */
static int missed(uint32_t run, uint32_t denials, uint32_t ground) {
    begin();
    record r = with_run(keeping(fresh(agreed(1, 0, 1), 2023, 2), 2022, 2), run);
    r.service.denials = denials;
    uint32_t hour = ground == 7 ? 5 : 1;
    fill(expected, hour, 672);
    return closes(r, 672, of(ground, 672 * hour, 0, 0, 0), after(r, run + 1, 672 * hour, 2023, 3));
}

static void run_and_denials(void) {
    CHECK(missed(0, 0, 7)), CHECK(missed(1, 0, 7)), CHECK(missed(2, 0, 8)), CHECK(missed(3, 0, 8));
    CHECK(missed(0, 1, 7)), CHECK(missed(1, 1, 7)), CHECK(missed(2, 1, 8));
    CHECK(missed(0, 2, 8)), CHECK(missed(1, 2, 8)), CHECK(missed(2, 2, 8)), CHECK(missed(5, 2, 8));
    CHECK(missed(11999, 0, 8));
    /* with two denials a control volume takes ground 6 at run 0: example k) again */
    record r = control_february(0, 6);
    r.service.denials = 2;
    mark(0, 8, 2, 8), row(1)[8] = 2, row(1)[100] = 1;
    expected[8] = 4, expected[100] = 2;
    CHECK(closes(r, 672, of(6, 6, 4, 1, 4), after(r, 1, 6, 2023, 3)));
    /* only the state at closing counts: a reading taken while out of service is one that the record may hold */
    begin();
    r = fresh(agreed(1, 0, 1), 2023, 2);
    r.readings.billing.given = 1, r.service.serving = 0, r.service.denials = 2;
    fill(expected, 6, 672);
    CHECK(closes(r, 672, of(1, 4032, 0, 0, 0), keeping(after(r, 0, 4032, 2023, 3), 2023, 2)));
}

/* C and d over the days: hour 5 of three days has these volumes, every other hour 2; C/3 is rounded half up. */
static int capacity_is(uint32_t first, uint32_t second, uint32_t third, uint32_t capacity) {
    begin();
    record r = fresh(agreed(1, 0, 1), 2023, 2);
    r.readings.billing.given = 1;
    fill(row(12), 2, 672);
    row(12)[5] = first, row(12)[24 * 13 + 5] = second, row(12)[24 * 27 + 5] = third;
    for (size_t k = 0; k < 3; k++) marks[24 * (k < 2 ? 13 * k : 27) + 5] = 2;
    memcpy(expected, row(12), sizeof expected);
    uint64_t sum = first + second + third, volume = 669 * 2 + sum;
    return closes(r, 672, of(1, volume, sum, 3, capacity), keeping(after(r, 0, volume, 2023, 3), 2023, 2));
}

static void capacities(void) {
    CHECK(capacity_is(0, 0, 0, 0));
    CHECK(capacity_is(0, 0, 1, 0)); /* 0.33 */
    CHECK(capacity_is(1, 0, 1, 1)); /* 0.67 */
    CHECK(capacity_is(1, 1, 2, 1)); /* 1.33 */
    CHECK(capacity_is(3, 1, 1, 2)); /* 1.67 */
    CHECK(capacity_is(1000000, 1000000, 1000000, 1000000));
    /* all 28 days of February: 6 × 28 = 168 */
    begin();
    record r = fresh(agreed(1, 1, 1), 2023, 2);
    r.readings.control.given = 1;
    for (size_t day = 0; day < 28; day++) marks[24 * day + (day % 24)] = 2;
    fill(expected, 6, 672);
    CHECK(closes(r, 672, of(3, 4032, 168, 28, 6), after(r, 1, 4032, 2023, 3)));
}

/* MONTH AFTER MONTH */

/* Example m): 1 kW, no reading, January to March 2023: 744 + 672 + 744 = 2,160. */
static void example_m(void) {
    static const size_t lengths[] = {744, 672, 744};
    uint64_t total = 0;
    begin();
    answer a = sallowbingo_open_point(agreed(1, 0, 1), on(2023, 1), NULL, 0, 0, store, SALLOWBINGO_STORE);
    for (uint32_t k = 0; k < 3; k++) {
        record r = a.after;
        fill(expected, 1, lengths[k]);
        total += lengths[k];
        CHECK(closes(r, lengths[k], of(8, lengths[k], 0, 0, 0), after(r, k + 1, total, 2023, k + 2)));
        a.after = after(r, k + 1, total, 2023, k + 2);
    }
    CHECK(total == 2160);
}

/* From November 2022 on, P = 1: read, 2 in every hour, 1,440; missed, R = 1, the past stretched to 744 hours, 1,488; a
 * control volume of 744, R = 2, shared by November's equal hours, 1 each; missed, R = 3, 672; read again, 3 in every hour,
 * 2,232. In December the year ends. The months between are estimated and never the past. */
static void five_months(void) {
    begin();
    record r = sallowbingo_open_point(agreed(1, 2, 1), on(2022, 11), NULL, 0, 0, store, SALLOWBINGO_STORE).after, next;
    fill(metered, 2, 720), fill(expected, 2, 720);
    r = sallowbingo_read_billing_hours(r, store, SALLOWBINGO_STORE, metered, 720).after;
    next = keeping(after(r, 0, 1440, 2022, 12), 2022, 11);
    CHECK(closes(r, 720, of(1, 1440, 0, 0, 0), next));
    r = next, next = after(r, 1, 1440 + 1488, 2023, 1);
    fill(expected, 2, 744);
    CHECK(closes(r, 744, of(7, 1488, 0, 0, 0), next));
    r = sallowbingo_read_control_volume(next, store, SALLOWBINGO_STORE, kwh(744)).after;
    next = after(r, 2, 2928 + 744, 2023, 2);
    fill(expected, 1, 744);
    CHECK(closes(r, 744, of(4, 744, 0, 0, 0), next));
    r = next, next = after(r, 3, 3672 + 672, 2023, 3);
    fill(expected, 1, 672);
    CHECK(closes(r, 672, of(8, 672, 0, 0, 0), next));
    fill(metered, 3, 744), fill(expected, 3, 744);
    r = sallowbingo_read_billing_hours(next, store, SALLOWBINGO_STORE, metered, 744).after;
    next = keeping(after(r, 0, 4344 + 2232, 2023, 4), 2023, 3);
    CHECK(closes(r, 744, of(1, 2232, 0, 0, 0), next));
    CHECK(next.past.years[10] == 2022 && next.past.years[11] == 0 && next.past.years[0] == 0 && next.total.kwh == 6576);
    /* April: the latest past is March, its first 720 hours, though November's row is held as well */
    fill(expected, 3, 720);
    CHECK(closes(next, 720, of(7, 2160, 0, 0, 0), after(next, 1, 8736, 2023, 5)));
}

/* After a closing each reading can be given again, and rows 12 and 13 are written from nothing. */
static void readings_again(void) {
    begin();
    record r = sallowbingo_open_point(agreed(1, 1, 1), on(2023, 1), NULL, 0, 0, store, SALLOWBINGO_STORE).after;
    fill(metered, 3, 744);
    r = sallowbingo_read_billing_hours(r, store, SALLOWBINGO_STORE, metered, 744).after;
    r = sallowbingo_read_control_hours(r, store, SALLOWBINGO_STORE, metered, 744).after;
    r = sallowbingo_read_neighbour(r, store, SALLOWBINGO_STORE, 1, kwh(4)).after;
    r = sallowbingo_read_neighbour(r, store, SALLOWBINGO_STORE, 2, kwh(4)).after;
    CHECK(r.readings.billing.given && r.readings.control.given && r.readings.first.given && r.readings.second.given);
    answer a = close_month(r, 744);
    CHECK(a.refusal == 0 && row(0)[743] == 3 && row(12)[0] == 0 && row(12)[743] == 0 && row(13)[743] == 0);
    a = sallowbingo_read_billing_hours(a.after, store, SALLOWBINGO_STORE, metered, 672);
    CHECK(a.refusal == 0 && a.after.readings.billing.given == 1 && row(12)[671] == 3 && row(12)[672] == 0);
    a = sallowbingo_read_control_hours(a.after, store, SALLOWBINGO_STORE, metered, 672);
    CHECK(a.refusal == 0 && row(13)[671] == 3 && row(13)[672] == 0);
    a = sallowbingo_read_neighbour(a.after, store, SALLOWBINGO_STORE, 1, kwh(4));
    CHECK(a.refusal == 0);
    /* a refused closing leaves all of this, and the right one then takes it */
    remember();
    CHECK(refused(sallowbingo_close(a.after, store, SALLOWBINGO_STORE, marks, 671, buffer, HOURS), 40, a.after));
    fill(expected, 3, 672);
    CHECK(closes(a.after, 672, of(1, 2016, 0, 0, 0), keeping(after(a.after, 0, 2232 + 2016, 2023, 3), 2023, 2)));
}

/* December 2999 closes like any other; then January 3000 stands open, and no closing follows. */
static void end_of_calendar(void) {
    begin();
    record r = keeping(fresh(agreed(1, 0, 1), 2999, 12), 2998, 12), next = after(r, 1, 3720, 3000, 1);
    fill(expected, 5, 744);
    CHECK(closes(r, 744, of(7, 3720, 0, 0, 0), next));
    remember();
    CHECK(refused(close_month(next, 744), 3, next));
    begin();
    r.readings.billing.given = 1, next = keeping(after(r, 0, 4464, 3000, 1), 2999, 12);
    fill(expected, 6, 744);
    CHECK(closes(r, 744, of(1, 4464, 0, 0, 0), next));
    CHECK(next.past.latest == 36000);
    remember();
    CHECK(refused(close_month(next, 744), 3, next));
}

/* LIMITS */

/* Nothing is refused because it would take total or run past its limit; the next call finds them there. P = 1 in February
 * 2023 gives 672. */
static void past_the_limits(void) {
    begin();
    record r = fresh(agreed(1, 0, 1), 2023, 2), next;
    r.total.kwh = 29999999999328, next = after(r, 1, 30000000000000, 2023, 3);
    fill(expected, 1, 672);
    CHECK(closes(r, 672, of(8, 672, 0, 0, 0), next));
    CHECK(close_month(next, 744).refusal == 0);
    for (uint64_t over = 1; over <= 672; over += 671) {
        begin();
        r.total.kwh = 29999999999328 + over, next = after(r, 1, 30000000000000 + over, 2023, 3);
        fill(expected, 1, 672);
        CHECK(closes(r, 672, of(8, 672, 0, 0, 0), next));
        remember();
        CHECK(refused(close_month(next, 744), 2, next));
        CHECK(refused(sallowbingo_deny(next, store, SALLOWBINGO_STORE), 2, next));
    }
    begin();
    r = with_run(fresh(agreed(1, 0, 1), 2023, 2), 11999), next = after(r, 12000, 672, 2023, 3);
    fill(expected, 1, 672);
    CHECK(closes(r, 672, of(8, 672, 0, 0, 0), next));
    begin();
    r = with_run(r, 12000), next = after(r, 12001, 672, 2023, 3);
    fill(expected, 1, 672);
    CHECK(closes(r, 672, of(8, 672, 0, 0, 0), next));
    remember();
    CHECK(refused(close_month(next, 744), 2, next));
    CHECK(refused(sallowbingo_admit(next, store, SALLOWBINGO_STORE), 2, next));
    /* at run 12,000 a reading makes it 0 */
    begin();
    fill(row(12), 1, 672), fill(expected, 1, 672), r.readings.billing.given = 1;
    CHECK(closes(r, 672, of(1, 672, 0, 0, 0), keeping(after(r, 0, 672, 2023, 3), 2023, 2)));
}

/* The greatest volumes. January 2023, 16 peaks a day and P = 0: the month's 744,000,000 go to 8 × 31 = 248 hours, 3,000,000
 * each, the most that a row may hold; the capacity hour, 23, is one of them: C = 31 × 3,000,000. A year later that row is
 * the past. */
static void greatest_hours(void) {
    begin();
    for (size_t day = 0; day < 31; day++) mark(day, 0, 16, 23);
    record r = with_billing(fresh(shared(2, 0, 0), 2023, 1), 744000000), next;
    for (size_t h = 0; h < 744; h++) expected[h] = h % 24 < 16 ? 0 : 3000000;
    next = keeping(after(r, 0, 744000000, 2023, 2), 2023, 1);
    CHECK(closes(r, 744, of(2, 744000000, 93000000, 31, 3000000), next));
    next.date = on(2024, 1);
    CHECK(closes(next, 744, of(7, 744000000, 93000000, 31, 3000000), after(next, 1, 1488000000, 2024, 2)));
    /* a row of 3,000,000 in every hour, as number 45 lets it be: 744 × 3,000,000 = 2,232,000,000 */
    begin(), mark(0, 0, 16, 23);
    fill(row(0), 3000000, 744), fill(expected, 3000000, 744);
    CHECK(closes(next, 744, of(7, 2232000000, 3000000, 1, 3000000), after(next, 1, 2976000000, 2024, 2)));
    /* the greatest control volume shared by it: 1,000,000 each */
    begin(), mark(0, 0, 16, 23);
    fill(row(0), 3000000, 744), fill(expected, 1000000, 744);
    next.contract = agreed(2, 2, 1000000), next = with_control(next, 744000000);
    CHECK(closes(next, 744, of(4, 744000000, 1000000, 1, 1000000), after(next, 1, 1488000000, 2024, 2)));
    /* Half a kWh an hour less, 743,999,628: 999,999.5, 1,999,999, 2,999,998.5 .. are rounded half up, and so even hours
     * get 1,000,000 and odd ones, the capacity hour among them, 999,999. */
    record less = with_control(next, 743999628);
    for (size_t h = 1; h < 744; h += 2) expected[h] = 999999;
    CHECK(closes(less, 744, of(4, 743999628, 999999, 1, 999999), after(less, 1, 1487999628, 2024, 2)));
    fill(expected, 1000000, 744);
    /* The greatest volume on few peaks: n = 16, P = 1,000,000, A = 16,000,000; the other 728 hours get 1,000,000 each. By
     * the past C' is 1,000,000 as well: 16,000,000 × 1 < 16 × 1,000,000 is false, ground 5. */
    next = with_run(next, 2);
    CHECK(closes(next, 744, of(5, 744000000, 1000000, 1, 1000000), after(next, 3, 1488000000, 2024, 2)));
    /* With all of the past in the capacity hour, ground 6: 744,000,000 in one hour. */
    begin(), mark(0, 0, 16, 23);
    fill(row(0), 0, 744), row(0)[23] = 1, expected[23] = 744000000;
    CHECK(closes(next, 744, of(6, 744000000, 744000000, 1, 744000000), after(next, 3, 1488000000, 2024, 2)));
}

int main(void) {
    refusals_alone();
    refusals_in_pairs();
    other_lengths();
    other_records();
    other_marks();
    other_words();
    ground_1();
    grounds_2();
    ground_3();
    ground_4();
    grounds_5_and_6();
    grounds_5();
    ground_7();
    ground_8();
    ground_9();
    halves_by_weight();
    halves_by_peaks();
    half_decides();
    halves_of_power();
    choice_of_past();
    length_of_past();
    run_and_denials();
    capacities();
    example_m();
    five_months();
    readings_again();
    end_of_calendar();
    past_the_limits();
    greatest_hours();
    return check_tally();
}
