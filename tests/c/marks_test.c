/* Which day's marks are wrong: request E8 of document 02 through C. A closing asks 42, over 16 peak hours in a day,
 * then 43, two or more capacity hours in a day, then 46, peak hours without a capacity hour, each of the whole month
 * before the next, and after them 44 and 45. It names the first day with the fault of the number that it returns. With
 * every other number, and where a call is accepted, that figure is 0. Days are counted from 1 here, as the closing
 * counts them. */
#include "point.h"

#define NO_DAY 0

enum { DAY = 24 };

/* A month of each length, from 28 days to 31. */
static const sallowbingo_date months[] = {{2023, 2}, {2024, 2}, {2023, 4}, {2023, 1}};

/* Days are written as 24 marks. These are right. */
static const char *const right[] = {
    "000000000000000000000000", /* no working day */
    "311111111111111100000000", /* 16 peak hours from the first hour on, which is the capacity hour */
    "000000001111111111111113", /* 16 peak hours to the last hour, which is the capacity hour */
    "111111110000000211111111", /* 16 peak hours at both ends, and the capacity hour at another hour */
    "000000000003000000000000", /* one hour, both peak and capacity hour */
    "200000000000000000000000", /* a capacity hour, the first, and no peak hour */
    "000000000000000000000002", /* the same with the last */
};

/* These have one fault each, for which a closing gives that number. */
typedef struct {
    uint32_t number;
    const char *marks;
} fault;
static const fault faults[] = {
    {42, "311111111111111110000000"}, /* 17 peak hours, and the capacity hour among them */
    {42, "000000011111111111111113"},
    {42, "111111111000000211111111"}, /* 17 as well, and the capacity hour at another hour */
    {42, "111111111113111111111111"}, /* 24 peak hours */
    {43, "220000000000000000000000"}, {43, "200000000000000000000002"}, {43, "222222222222222222222222"},
    {43, "311111111111111100000002"}, /* 16 peak hours and two capacity hours */
    {46, "100000000000000000000000"}, {46, "000000000000000000000001"}, {46, "111111110000000011111111"},
    {46, "000000001111111111111111"}, /* 16 peak hours and no capacity hour */
};

/* The numbers in the order in which a closing asks them, with the first of their faults. */
static const struct {
    uint32_t number;
    size_t first;
} asked[] = {{42, 0}, {43, 4}, {46, 8}};
enum { FAULTS_EACH = 4 };

/* THE CLOSING OF A MONTH */

/* The point, the days of its month, and what is lent, with marks to spare. */
static record point;
static size_t days, words, count, room;
static uint8_t marks[2 * HOURS];

static void set(size_t day, const char *digits) {
    for (size_t h = 0; h < DAY; h++) marks[DAY * (day - 1) + h] = (uint8_t)(digits[h] - '0');
}

static uint8_t *mark(size_t day, size_t hour) { return marks + DAY * (day - 1) + hour; }

/* A month whose days have these marks. The point has a past, a fault, a denial, a run, readings and a total behind it,
 * and the words of its store are at their limits. The words past the store's end and the bytes past the month's marks
 * are above every limit. */
static void begin(size_t length, const char *digits) {
    point = fresh(agreed(1, 2, 100), months[length - 28].year, months[length - 28].month);
    point.past.years[11] = 2022, point.past.latest = 2022 * 12 + 12;
    point.service.run = 1, point.service.denials = 1, point.service.fault = 2022 * 12 + 6;
    point.readings.control = (sallowbingo_reading){1, kwh(700)};
    point.readings.second = (sallowbingo_reading){1, kwh(9)};
    point.total = kwh(123456);
    for (size_t k = 0; k < ROOM; k++)
        store[k] = k < 12 * HOURS ? 3000000 : k < SALLOWBINGO_STORE ? 1000000 : UINT32_MAX;
    for (size_t k = 0; k < COUNT(buffer); k++) buffer[k] = 7;
    days = length, words = SALLOWBINGO_STORE, count = DAY * length, room = HOURS;
    memset(marks, 255, sizeof marks);
    for (size_t day = 1; day <= days; day++) set(day, digits);
}

static answer close_month(void) {
    remember();
    return sallowbingo_close(point, store, words, marks, count, buffer, room);
}

/* The closing is refused with that number and names that day, and record, store and buffer are as they were; where not,
 * what it gave is shown. */
static int refuses(uint32_t number, size_t day) {
    answer a = close_month();
    if (refused_for_day(a, number, day, point)) return 1;
    printf("  %zu days: refusal %u, day %llu where %u and %zu are due\n", days, a.refusal,
           (unsigned long long)a.figures.wrong_day, number, day);
    return 0;
}

/* The closing is accepted with so many working days, and names no day. The month is to begin again after it. */
static int accepts(uint64_t working) {
    answer a = close_month();
    if (a.refusal == 0 && a.figures.wrong_day == NO_DAY && a.figures.days == working && a.figures.ground != 0) return 1;
    printf("  %zu days: refusal %u, day %llu, %llu working days where %llu are due\n", days, a.refusal,
           (unsigned long long)a.figures.wrong_day, (unsigned long long)a.figures.days, (unsigned long long)working);
    return 0;
}

/* ONE FAULT */

/* Those marks on each day of a month in turn, among days that are right: the number of the fault, and the day. */
static int on_each_day(size_t length, const char *others, fault f) {
    begin(length, others);
    for (size_t day = 1; day <= length; day++) {
        set(day, f.marks);
        if (!refuses(f.number, day)) return 0;
        set(day, others);
    }
    return 1;
}

static void alone(void) {
    for (size_t length = 28; length <= 31; length++)
        for (size_t k = 0; k < COUNT(right); k++) {
            begin(length, right[k]);
            CHECK(accepts(k == 0 ? 0 : length));
            for (size_t n = 0; n < COUNT(faults); n++) CHECK(on_each_day(length, right[k], faults[n]));
        }
}

/* Two days of a month have the fault of one number, in two forms: the first of them is named. */
static int first_is_named(uint32_t number, const char *first, const char *second) {
    begin(31, right[1]);
    for (size_t day = 1; day <= 31; day++)
        for (size_t later = day + 1; later <= 31; later++) {
            set(day, first), set(later, second);
            if (!refuses(number, day)) return 0;
            set(day, right[1]), set(later, right[1]);
        }
    return 1;
}

static void two_days(void) {
    for (size_t k = 0; k < COUNT(asked); k++)
        for (size_t n = 0; n < FAULTS_EACH; n++) {
            const fault *f = faults + asked[k].first;
            CHECK(f[n].number == asked[k].number);
            CHECK(first_is_named(f[n].number, f[n].marks, f[(n + 1) % FAULTS_EACH].marks));
        }
}

/* All days from one on have the fault; then that day alone is put right, and the next is named. */
static void from_a_day_on(void) {
    for (size_t length = 28; length <= 31; length++)
        for (size_t n = 0; n < COUNT(faults); n++) {
            begin(length, faults[n].marks);
            for (size_t day = 1; day <= length; day++) {
                CHECK(refuses(faults[n].number, day));
                set(day, right[n % COUNT(right)]);
            }
            CHECK(accepts(n % COUNT(right) == 0 ? 0 : length));
        }
}

/* FAULTS OF SEVERAL NUMBERS */

/* A fault that is asked first and another one, on every two days of a month: the first number, and its own day. */
static int goes_before(fault first, fault other) {
    begin(31, right[0]);
    for (size_t day = 1; day <= 31; day++)
        for (size_t beside = 1; beside <= 31; beside++) {
            if (beside == day) continue;
            set(day, first.marks), set(beside, other.marks);
            if (!refuses(first.number, day)) return 0;
            set(day, right[0]), set(beside, right[0]);
        }
    return 1;
}

static void earlier_days_of_another_fault(void) {
    const fault *peaks = faults, *capacity = faults + 4, *none = faults + 8;
    for (size_t n = 0; n < FAULTS_EACH; n++) {
        CHECK(goes_before(peaks[n], capacity[n]));
        CHECK(goes_before(peaks[n], none[n]));
        CHECK(goes_before(capacity[n], none[n]));
    }
    begin(31, right[1]), set(20, capacity[0].marks), set(3, none[0].marks);
    CHECK(refuses(43, 20));
    begin(31, right[1]), set(31, peaks[0].marks), set(1, capacity[0].marks);
    CHECK(refuses(42, 31));
    begin(31, right[1]), set(5, none[0].marks), set(9, capacity[0].marks);
    CHECK(refuses(43, 9));
    /* every day is wrong, and the last alone has over 16 peak hours; then it has two capacity hours */
    begin(30, none[0].marks), set(30, peaks[0].marks);
    CHECK(refuses(42, 30));
    set(30, capacity[0].marks);
    CHECK(refuses(43, 30));
    set(30, none[0].marks);
    CHECK(refuses(46, 1));
}

/* A day that has two faults counts for the number asked first, and for the other one once the first is put right. */
static void two_faults_on_a_day(void) {
    static const char *const peaks_and_capacity = "333333333333333333333333";
    static const char *const capacity = "333333333333333300000000";
    static const char *const peaks_and_none = "111111111111111111111111";
    static const char *const none = "111111111111111100000000";
    for (size_t day = 4; day <= 28; day++) {
        begin(28, right[2]);
        set(1, faults[8].marks), set(3, faults[4].marks), set(day, peaks_and_capacity);
        CHECK(refuses(42, day));
        set(day, capacity);
        CHECK(refuses(43, 3));
        set(3, right[2]);
        CHECK(refuses(43, day));
        set(day, right[1]);
        CHECK(refuses(46, 1));
        set(day, peaks_and_none);
        CHECK(refuses(42, day));
        set(day, none);
        CHECK(refuses(46, 1));
        set(1, right[2]);
        CHECK(refuses(46, day));
        set(day, right[1]);
        CHECK(accepts(28));
    }
}

/* A byte that is no mark goes before the faults of days, on a wrong day itself and on any other one: 41 and no day. */
static void no_mark(void) {
    static const uint8_t bytes[] = {4, 5, 6, 7, 128, 255};
    static const size_t hours[] = {0, 8, 23}, other_days[] = {1, 11, 12, 13, 29};
    for (size_t n = 0; n < COUNT(faults); n++)
        for (size_t k = 0; k < COUNT(bytes); k++)
            for (size_t d = 0; d < COUNT(other_days); d++)
                for (size_t h = 0; h < COUNT(hours); h++) {
                    begin(29, right[1]), set(12, faults[n].marks);
                    *mark(other_days[d], hours[h]) = bytes[k];
                    CHECK(refuses(41, NO_DAY));
                }
    /* where a 4 stands for the capacity hour, the day would be one without */
    begin(29, right[0]), set(12, "000000001111111111140000");
    CHECK(refuses(41, NO_DAY));
    *mark(12, 19) = 0;
    CHECK(refuses(46, 12));
}

/* All is wrong, and each closing has one thing less: the order in which the numbers are asked. */
static void one_after_the_other(void) {
    begin(31, right[1]);
    set(2, faults[8].marks), set(17, faults[4].marks), set(31, faults[0].marks), *mark(9, 23) = 4;
    store[13 * HOURS + 743] = 1000001, store[0] = 3000001;
    record good = point;
    point.date = on(3000, 1), point.total.kwh = 30000000000001, words--, count--, room--;
    CHECK(refuses(1, NO_DAY));
    words = SALLOWBINGO_STORE;
    CHECK(refuses(2, NO_DAY));
    point.total = good.total;
    CHECK(refuses(3, NO_DAY));
    point = good;
    CHECK(refuses(40, NO_DAY));
    count = 744;
    CHECK(refuses(41, NO_DAY));
    *mark(9, 23) = 0;
    CHECK(refuses(42, 31));
    set(31, right[1]);
    CHECK(refuses(43, 17));
    set(17, right[1]);
    CHECK(refuses(46, 2));
    set(2, right[1]);
    CHECK(refuses(44, NO_DAY));
    room = HOURS;
    CHECK(refuses(45, NO_DAY));
    store[0] = 3000000;
    CHECK(refuses(45, NO_DAY));
    store[13 * HOURS + 743] = 1000000;
    CHECK(accepts(31));
}

/* With another hour buffer, none at all and a word of the store above its limit, the day is still looked for. */
static void before_buffer_and_store(void) {
    static const size_t rooms[] = {0, 1, 672, 743, 745, 2 * HOURS};
    for (size_t n = 0; n < COUNT(faults); n++)
        for (size_t k = 0; k < COUNT(rooms); k++) {
            begin(28, right[2]), set(19, faults[n].marks), room = rooms[k];
            CHECK(refuses(faults[n].number, 19));
            store[12 * HOURS] = UINT32_MAX;
            CHECK(refuses(faults[n].number, 19));
            room = HOURS;
            CHECK(refuses(faults[n].number, 19));
            answer a = sallowbingo_close(point, store, words, marks, count, NULL, 0);
            CHECK(refused_for_day(a, faults[n].number, 19, point));
        }
}

/* WHAT A DAY MAY HAVE */

/* 16 peak hours and 17, from any hour on; one capacity hour and two, at any hours. */
static void limits_of_a_day(void) {
    for (size_t first = 0; first <= DAY - 17; first++)
        for (size_t capacity = 0; capacity < DAY; capacity++) {
            begin(30, right[0]), memset(mark(13, first), 1, 16), *mark(13, capacity) |= 2;
            CHECK(accepts(1));
            begin(30, right[0]), memset(mark(13, first), 1, 17), *mark(13, capacity) |= 2;
            CHECK(refuses(42, 13));
        }
    begin(30, right[0]);
    for (size_t first = 0; first < DAY; first++)
        for (size_t second = first + 1; second < DAY; second++) {
            *mark(30, first) = *mark(30, second) = 2;
            CHECK(refuses(43, 30));
            set(30, right[0]);
        }
}

/* A peak hour and a capacity hour at any two hours of a day, or at the same one; either without the other. */
static void any_hours(void) {
    for (size_t peak = 0; peak < DAY; peak++) {
        for (size_t capacity = 0; capacity < DAY; capacity++) {
            begin(28, right[0]), *mark(28, peak) |= 1, *mark(28, capacity) |= 2;
            CHECK(accepts(1));
        }
        begin(28, right[0]), *mark(28, peak) = 1;
        CHECK(refuses(46, 28));
        *mark(28, peak) = 2;
        CHECK(accepts(1));
    }
}

/* So many hours of a day, and as many more as it may have: none of them is another day's. */
static void counts_of_a_day(void) {
    for (size_t hours = 1; hours <= DAY; hours++) {
        begin(31, right[0]), memset(mark(16, DAY - hours), 1, hours), *mark(16, DAY - hours) = 3;
        CHECK(hours <= 16 ? accepts(1) : refuses(42, 16));
        begin(31, right[0]), memset(mark(16, 0), 2, hours);
        CHECK(hours <= 1 ? accepts(1) : refuses(43, 16));
        begin(31, right[0]), memset(mark(16, 0), 1, hours);
        CHECK(refuses(hours <= 16 ? 46 : 42, 16));
    }
}

/* The last hour of a day and the first of the next are hours of two days. */
static void neighbouring_days(void) {
    for (size_t day = 1; day < 29; day++) {
        begin(29, right[0]), *mark(day, 23) = *mark(day + 1, 0) = 2;
        CHECK(accepts(2));
        begin(29, right[0]), set(day, right[2]), set(day + 1, right[1]);
        CHECK(accepts(2));
        begin(29, right[0]), *mark(day, 23) = 1, *mark(day + 1, 0) = 2;
        CHECK(refuses(46, day));
        begin(29, right[0]), *mark(day, 23) = 2, *mark(day + 1, 0) = 1;
        CHECK(refuses(46, day + 1));
        begin(29, right[0]), *mark(day, 22) = *mark(day, 23) = *mark(day + 1, 0) = 2;
        CHECK(refuses(43, day));
        begin(29, right[0]), *mark(day, 23) = *mark(day + 1, 0) = *mark(day + 1, 1) = 2;
        CHECK(refuses(43, day + 1));
    }
}

/* THE MONTH OF samples/wrong-days.txt, with other calls between the closings. They name no day, and a closing that was
 * refused leaves no trace in the accepted one. */

static const char *const off = "000000000000000000000000", *const working = "000000003111111111000000";
static const char *const lacking = "000000001111111111000000", *const doubled = "000000003111111113000000";

/* April 2023 begins on a Saturday and has 20 working days. The 3rd and the 4th lack a capacity hour, the 14th has two,
 * and the 30th, a Sunday, has 17 peak hours. */
static void april(void) {
    begin(30, off);
    for (size_t day = 1; day <= 30; day++)
        if (day % 7 > 2 || day % 7 == 0) set(day, working);
    set(3, lacking), set(4, lacking), set(14, doubled), set(30, "000000031111111111111111");
}

/* The call is accepted without figures, and the point is as it left it. */
static int goes_on(answer a) {
    point = a.after;
    return a.refusal == 0 && no_figures(a);
}

static void calls_between(void) {
    april();
    CHECK(refuses(42, 30));
    remember();
    CHECK(refused(sallowbingo_read_control_volume(point, store, words, kwh(5)), 22, point));
    CHECK(refused(sallowbingo_admit(point, store, words), 32, point));
    CHECK(refused(sallowbingo_fail(point, store, words, 5), 31, point));
    CHECK(refused(sallowbingo_open_point(agreed(1, 0, 0), on(2023, 4), NULL, 0, 0, store, words), 12, zeros()));
    set(30, off);
    CHECK(refuses(43, 14));
    CHECK(goes_on(sallowbingo_permit(point, store, words)));
    CHECK(goes_on(sallowbingo_read_neighbour(point, store, words, 1, kwh(0))));
    CHECK(goes_on(sallowbingo_fail(point, store, words, 4)));
    set(14, working);
    CHECK(refuses(46, 3));
    CHECK(goes_on(sallowbingo_admit(point, store, words)));
    CHECK(goes_on(sallowbingo_deny(point, store, words)));
    set(3, working);
    CHECK(refuses(46, 4));
    set(4, working);
    CHECK(accepts(20));
}

/* 20 in each hour, but on working days 30 at hour 8, the capacity hour, and 60 at hours 9 to 17: 850 on a working day
 * and 480 on another. V = 20 × 850 + 10 × 480 = 21,800, C = 20 × 30 = 600, d = 20, capacity 30. With hour 17 as the
 * capacity hour of the 14th C would be 630 and capacity 31.5, so 32. */
static void figures_of_april(void) {
    static uint32_t metered[720];
    static const char *const fixed[] = {off, working, working, working};
    static const size_t fixed_days[] = {30, 14, 3, 4};
    static const uint32_t numbers[] = {42, 43, 46, 46};
    april();
    answer a = sallowbingo_open_point(agreed(1, 0, 100), on(2023, 4), NULL, 0, 0, store, words);
    CHECK(goes_on(a));
    for (size_t h = 0; h < 720; h++) {
        size_t day = h / DAY + 1, hour = h % DAY;
        int works = day % 7 > 2 || day % 7 == 0;
        metered[h] = works && hour == 8 ? 30 : works && hour > 8 && hour < 18 ? 60 : 20;
    }
    CHECK(goes_on(sallowbingo_read_billing_hours(point, store, words, metered, 720)));
    for (size_t k = 0; k < COUNT(fixed); k++) {
        CHECK(refuses(numbers[k], fixed_days[k]));
        set(fixed_days[k], fixed[k]);
    }
    a = close_month();
    CHECK(a.refusal == 0 && a.figures.ground == 1 && a.figures.wrong_day == NO_DAY);
    CHECK(a.figures.volume.kwh == 21800 && a.figures.sum.kwh == 600);
    CHECK(a.figures.days == 20 && a.figures.capacity.kw == 30);
    CHECK(memcmp(buffer, metered, sizeof metered) == 0 && buffer[720] == 0);
    CHECK(a.after.total.kwh == 21800 && a.after.past.latest == 2023 * 12 + 4 && a.after.service.run == 0);
}

int main(void) {
    alone();
    two_days();
    from_a_day_on();
    earlier_days_of_another_fault();
    two_faults_on_a_day();
    no_mark();
    one_after_the_other();
    before_buffer_and_store();
    limits_of_a_day();
    any_hours();
    counts_of_a_day();
    neighbouring_days();
    calls_between();
    figures_of_april();
    return check_tally();
}
