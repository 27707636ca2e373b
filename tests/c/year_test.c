/* One year of one delivery point, as a billing program calls it: an opening, twelve months with readings, failures,
 * denials and refused calls among them, and twelve closings. The point has an interval billing meter, an integral control
 * meter and an agreed power of 2 kW. The comments work out every expected value from document 01; R is the run plus 1, and
 * at least 3 with two denials. */
#include "year.h"

enum { POWER = 2 };

/* The hours of an interval meter. */
static uint32_t metered[HOURS];

/* February's reading, and the past that it is for longer months: 1 in each hour, 3 in hour 9 of each day, 13 in the first
 * hour 9. An hour after February's last is that of seven days before, so the pattern of the days goes on. The first day
 * has 23 + 13 = 36, another 23 + 3 = 26; 28 days 36 + 27 × 26 = 738, 30 days 790, 31 days 816. */
static void by_february(uint32_t *hours, size_t days) {
    fill(hours, days, 1, 1);
    for (size_t day = 0; day < days; day++) hours[DAY * day + 9] = 3;
    hours[9] = 13;
}

/* THE YEAR */

/* Openings that are refused, for the month, the meter, the power, the cable, the place in a list of two, the store, and
 * the power beside an integral billing meter; then one that is accepted. The words of the store are 9 before it, so
 * that an opening that left some is seen. */
static record opening(void) {
    static const uint32_t currents[] = {10, 20};
    sallowbingo_contract asked = agreed(SALLOWBINGO_METER_INTERVAL, SALLOWBINGO_METER_INTEGRAL, POWER), wrong = asked;
    sallowbingo_date january = on(YEAR, 1);
    for (size_t k = 0; k < ROOM; k++) store[k] = 9;
    begin();
    CHECK(refused(sallowbingo_open_point(asked, on(SALLOWBINGO_YEAR_MIN - 1, 12), NULL, 0, 0, store, WORDS),
                  SALLOWBINGO_REFUSAL_OPENING_MONTH, zeros()));
    wrong.billing = SALLOWBINGO_METER_NONE;
    CHECK(refused(sallowbingo_open_point(wrong, january, NULL, 0, 0, store, WORDS), SALLOWBINGO_REFUSAL_METER_KIND, zeros()));
    wrong = asked, wrong.power.kw = SALLOWBINGO_POWER_MAX + 1;
    CHECK(refused(sallowbingo_open_point(wrong, january, NULL, 0, 0, store, WORDS), SALLOWBINGO_REFUSAL_BASIS, zeros()));
    wrong = asked, wrong.basis = SALLOWBINGO_BASIS_CABLE;
    wrong.cable = (sallowbingo_cable){SALLOWBINGO_AMPERES_MAX, SALLOWBINGO_VOLTS_MAX, SALLOWBINGO_COSINE_MAX, 2};
    CHECK(refused(sallowbingo_open_point(wrong, january, NULL, 0, 0, store, WORDS), SALLOWBINGO_REFUSAL_CABLE_VALUE, zeros()));
    wrong = asked, wrong.basis = SALLOWBINGO_BASIS_SHARED;
    CHECK(refused(sallowbingo_open_point(wrong, january, currents, COUNT(currents), 2, store, WORDS),
                  SALLOWBINGO_REFUSAL_CURRENTS, zeros()));
    CHECK(refused(sallowbingo_open_point(asked, january, NULL, 0, 0, store, WORDS - 1), SALLOWBINGO_REFUSAL_STORE_LENGTH,
                  zeros()));
    wrong = asked, wrong.billing = SALLOWBINGO_METER_INTEGRAL, wrong.power.kw = SALLOWBINGO_INTEGRAL_POWER_MAX + 1;
    CHECK(refused(sallowbingo_open_point(wrong, january, NULL, 0, 0, store, WORDS), SALLOWBINGO_REFUSAL_INTEGRAL_METER,
                  zeros()));
    record r = zeros();
    CHECK(accepted(sallowbingo_open_point(asked, january, NULL, 0, 0, store, WORDS), &r));
    CHECK(same(r, fresh(asked, YEAR, 1)));
    for (size_t row = 0; row < SALLOWBINGO_ROWS; row++) CHECK(row_holds(row, expected));
    CHECK(store[WORDS] == 9);
    return r;
}

/* No reading and no past: ground 8, V = 2 × 744 = 1,488, 2 in each hour. One working day, its capacity hour 2. */
static record january(record r) {
    begin();
    CHECK(refused(sallowbingo_permit(r, store, WORDS), SALLOWBINGO_REFUSAL_NO_DENIAL, r));
    CHECK(refused(sallowbingo_admit(r, store, WORDS), SALLOWBINGO_REFUSAL_IN_SERVICE, r));
    CHECK(refused(sallowbingo_read_billing_volume(r, store, WORDS, kwh(5)), SALLOWBINGO_REFUSAL_NO_SUCH_METER, r));
    CHECK(refused(sallowbingo_read_control_hours(r, store, WORDS, metered, 744), SALLOWBINGO_REFUSAL_NO_SUCH_METER, r));
    mark(0, 8, 4, 9);
    fill(expected, 31, 2, 2);
    answer a = close_month(r, 31);
    CHECK_CLOSED(a, (closing){SALLOWBINGO_GROUND_POWER,
                             .volume = 1488, .c = 2, .d = 1, .capacity = 2, .total = 1488, .run = 1});
    return a.after;
}

/* A billing reading: ground 1, hours as read, V = 738. Twenty working days with hour 9 as capacity hour:
 * C = 13 + 19 × 3 = 70, d = 20, capacity 3.5 and so 4. The total is 1,488 + 738 = 2,226. */
static record february(record r) {
    begin();
    by_february(metered, 28);
    CHECK(refused(sallowbingo_read_billing_hours(r, store, WORDS, metered, 744), SALLOWBINGO_REFUSAL_HOUR_COUNT, r));
    metered[671] = SALLOWBINGO_HOUR_READ_MAX + 1;
    CHECK(refused(sallowbingo_read_billing_hours(r, store, WORDS, metered, 672), SALLOWBINGO_REFUSAL_TOO_LARGE, r));
    metered[671] = 1;
    CHECK(accepted(sallowbingo_read_billing_hours(r, store, WORDS, metered, 672), &r));
    by_february(expected, 28);
    CHECK(row_holds(SALLOWBINGO_ROW_BILLING, expected));
    remember();
    CHECK(refused(sallowbingo_read_billing_hours(r, store, WORDS, metered, 672), SALLOWBINGO_REFUSAL_ALREADY_GIVEN, r));
    for (size_t day = 0; day < 20; day++) mark(day, 8, 4, 9);
    answer a = close_month(r, 28);
    CHECK_CLOSED(a, (closing){SALLOWBINGO_GROUND_BILLING_HOURS,
                             .volume = 738, .c = 70, .d = 20, .capacity = 4, .total = 2226, .run = 0});
    return a.after;
}

/* No reading, R = 1, and February as the past: ground 7, its hours, V = 816. Two working days, C = 13 + 3 = 16,
 * capacity 8. The total is 2,226 + 816 = 3,042. Before that, closings with wrong marks, and the day that each names. */
static record march(record r) {
    begin();
    by_february(expected, 31);
    CHECK(refused(close_month(r, 28), SALLOWBINGO_REFUSAL_MARK_COUNT, r));
    mark(3, 0, SALLOWBINGO_PEAK_HOURS_MAX + 1, 0);
    CHECK(refused_for_day(close_month(r, 31), SALLOWBINGO_REFUSAL_PEAK_HOURS, 4, r));
    memset(marks, SALLOWBINGO_MARK_ORDINARY, sizeof marks);
    marks[9] = SALLOWBINGO_MARK_PEAK;
    marks[DAY * 30 + 9] = marks[DAY * 30 + 10] = SALLOWBINGO_MARK_CAPACITY;
    CHECK(refused_for_day(close_month(r, 31), SALLOWBINGO_REFUSAL_CAPACITY_HOURS, 31, r));
    marks[DAY * 30 + 10] = SALLOWBINGO_MARK_ORDINARY;
    CHECK(refused_for_day(close_month(r, 31), SALLOWBINGO_REFUSAL_NO_CAPACITY_HOUR, 1, r));
    mark(0, 8, 4, 9), mark(30, 8, 4, 9);
    answer a = close_month(r, 31);
    CHECK_CLOSED(a, (closing){SALLOWBINGO_GROUND_PAST,
                             .volume = 816, .c = 16, .d = 2, .capacity = 8, .total = 3042, .run = 1});
    return a.after;
}

/* A denial, a control volume of 400 and a neighbour's, of whose sources the first counts, 5; R = 2: ground 4, V = 395
 * shared by February, S = 790. So hour h gets s(h)/2, rounded half up, less the same at h - 1. Every day's sum is even,
 * so within a day s is 1 to 9, then even at hour 9, then goes on by 1: even hours get 1, odd ones 0. 9/2 is rounded 5,
 * so hour 9 gets 12/2 - 5 = 1, on the first day 22/2 - 5 = 6. C = 6 + 1 + 1 = 8, d = 3, capacity 2 2/3 and so 3. The
 * total is 3,042 + 395 = 3,437. */
static record april(record r) {
    begin();
    CHECK(accepted(sallowbingo_deny(r, store, WORDS), &r));
    CHECK(refused(sallowbingo_read_control_volume(r, store, WORDS, kwh(720 * SALLOWBINGO_HOUR_READ_MAX + 1)),
                  SALLOWBINGO_REFUSAL_TOO_LARGE, r));
    CHECK(refused(sallowbingo_read_neighbour(r, store, WORDS, 3, kwh(5)), SALLOWBINGO_REFUSAL_NO_SUCH_METER, r));
    CHECK(accepted(sallowbingo_read_control_volume(r, store, WORDS, kwh(400)), &r));
    CHECK(accepted(sallowbingo_read_neighbour(r, store, WORDS, SALLOWBINGO_NEIGHBOUR_CONTROL, kwh(100)), &r));
    CHECK(accepted(sallowbingo_read_neighbour(r, store, WORDS, SALLOWBINGO_NEIGHBOUR_BILLING, kwh(5)), &r));
    CHECK(refused(sallowbingo_read_neighbour(r, store, WORDS, SALLOWBINGO_NEIGHBOUR_BILLING, kwh(5)),
                  SALLOWBINGO_REFUSAL_ALREADY_GIVEN, r));
    fill(expected, 30, 1, 0);
    for (size_t day = 0; day < 30; day++) expected[DAY * day + 9] = 1;
    expected[9] = 6;
    for (size_t day = 0; day < 3; day++) mark(day, 8, 4, 9);
    answer a = close_month(r, 30);
    CHECK_CLOSED(a, (closing){SALLOWBINGO_GROUND_CONTROL_BY_PAST,
                             .volume = 395, .c = 8, .d = 3, .capacity = 3, .total = 3437, .run = 2});
    return a.after;
}

/* A billing reading that the second denial discards; a control volume of 830 and a neighbour's of 14, V = 816; R = 3.
 * n = 8, so A = min(816, 8 × 2) = 16, and d = 2. By February, whose S is 816 too, each hour is February's, C' = 13 + 3 =
 * 16. A × d = 32 is less than n × C' = 128: ground 6, February's hours, capacity 8. The total is 3,437 + 816 = 4,253. */
static record may(record r) {
    begin();
    fill(metered, 31, 6, 6);
    CHECK(accepted(sallowbingo_read_billing_hours(r, store, WORDS, metered, 744), &r));
    CHECK(accepted(sallowbingo_deny(r, store, WORDS), &r));
    CHECK(!r.readings.billing.given && r.service.denials == SALLOWBINGO_DENIALS_MAX);
    CHECK(row_holds(SALLOWBINGO_ROW_BILLING, expected));
    remember();
    CHECK(refused(sallowbingo_deny(r, store, WORDS), SALLOWBINGO_REFUSAL_TWO_DENIALS, r));
    CHECK(refused(sallowbingo_read_billing_hours(r, store, WORDS, metered, 744), SALLOWBINGO_REFUSAL_BILLING_BARRED, r));
    CHECK(accepted(sallowbingo_read_control_volume(r, store, WORDS, kwh(830)), &r));
    CHECK(accepted(sallowbingo_read_neighbour(r, store, WORDS, SALLOWBINGO_NEIGHBOUR_BILLING, kwh(14)), &r));
    mark(0, 8, 4, 9), mark(1, 8, 4, 9);
    by_february(expected, 31);
    answer a = close_month(r, 31);
    CHECK_CLOSED(a, (closing){SALLOWBINGO_GROUND_CONTROL_BY_PAST_GREATER,
                             .volume = 816, .c = 16, .d = 2, .capacity = 8, .total = 4253, .run = 3});
    return a.after;
}

/* A permission, which leaves the run: R = 4. A control volume of 400, the neighbour's second source 10, V = 390. Five days
 * with peaks at 8 to 11 and capacity hour 11: n = 20, A = 40, d = 5. By February an hour 11 has an exact share of 390/790
 * and so at most 1, C' at most 5: A × d = 200 is not less than n × C', at most 100. Ground 5: 2 in each peak hour; 350
 * evenly over the other 700, 0.5, 1, 1.5 .. rounded half up 1, 1, 2 .., so 1 and 0 by turns, and a day has an even
 * number of them before and after its peaks.
 * C = 5 × 2 = 10, capacity 2. The total is 4,253 + 390 = 4,643. */
static record june(record r) {
    begin();
    CHECK(accepted(sallowbingo_permit(r, store, WORDS), &r));
    CHECK(refused(sallowbingo_permit(r, store, WORDS), SALLOWBINGO_REFUSAL_NO_DENIAL, r));
    CHECK(accepted(sallowbingo_read_control_volume(r, store, WORDS, kwh(400)), &r));
    CHECK(accepted(sallowbingo_read_neighbour(r, store, WORDS, SALLOWBINGO_NEIGHBOUR_CONTROL, kwh(10)), &r));
    fill(expected, 30, 1, 0);
    for (size_t day = 0; day < 5; day++) {
        mark(day, 8, 4, 11);
        for (size_t h = 8; h < 12; h++) expected[DAY * day + h] = 2;
    }
    answer a = close_month(r, 30);
    CHECK_CLOSED(a, (closing){SALLOWBINGO_GROUND_CONTROL_PEAK_RULE,
                             .volume = 390, .c = 10, .d = 5, .capacity = 2, .total = 4643, .run = 4});
    return a.after;
}

/* A billing reading that a fault discards, and no control reading; R = 5, so the past is no ground: ground 8, V = 1,488.
 * No hour is marked, so C = 0, d = 0 and capacity 0. The total is 4,643 + 1,488 = 6,131. */
static record july(record r) {
    begin();
    CHECK(accepted(sallowbingo_read_billing_hours(r, store, WORDS, metered, 744), &r));
    remember();
    CHECK(refused(sallowbingo_fail(r, store, WORDS, SALLOWBINGO_FAILURE_TAKEN_DOWN + 1), SALLOWBINGO_REFUSAL_REASON, r));
    CHECK(accepted(sallowbingo_fail(r, store, WORDS, SALLOWBINGO_FAILURE_FAULT), &r));
    CHECK(!r.readings.billing.given && !r.service.serving && r.service.fault == 12 * YEAR + 7);
    CHECK(row_holds(SALLOWBINGO_ROW_BILLING, expected));
    remember();
    CHECK(refused(sallowbingo_fail(r, store, WORDS, SALLOWBINGO_FAILURE_LOSS), SALLOWBINGO_REFUSAL_OUT_OF_SERVICE, r));
    CHECK(refused(sallowbingo_read_billing_hours(r, store, WORDS, metered, 744), SALLOWBINGO_REFUSAL_BILLING_BARRED, r));
    fill(expected, 31, 2, 2);
    answer a = close_month(r, 31);
    CHECK_CLOSED(a, (closing){SALLOWBINGO_GROUND_POWER,
                             .volume = 1488, .c = 0, .d = 0, .capacity = 0, .total = 6131, .run = 5});
    return a.after;
}

/* An admission and then a loss, one month after July's fault: the run becomes 0 and R = 1. Ground 7, February's hours,
 * V = 816. Hours 9 of days 0, 28 and 30 are capacity hours: C = 13 + 3 + 3 = 19, d = 3, capacity 6 1/3 and so 6. The total
 * is 6,131 + 816 = 6,947. */
static record august(record r) {
    begin();
    CHECK(accepted(sallowbingo_admit(r, store, WORDS), &r));
    CHECK(refused(sallowbingo_admit(r, store, WORDS), SALLOWBINGO_REFUSAL_IN_SERVICE, r));
    CHECK(r.service.run == 5);
    CHECK(accepted(sallowbingo_fail(r, store, WORDS, SALLOWBINGO_FAILURE_LOSS), &r));
    CHECK(r.service.run == 0 && r.service.fault == 12 * YEAR + 8);
    mark(0, 9, 1, 9), mark(28, 9, 1, 9), mark(30, 9, 1, 9);
    by_february(expected, 31);
    answer a = close_month(r, 31);
    CHECK_CLOSED(a, (closing){SALLOWBINGO_GROUND_PAST,
                             .volume = 816, .c = 19, .d = 3, .capacity = 6, .total = 6947, .run = 1});
    return a.after;
}

/* An admission and a billing reading of zeros, which is a reading: ground 1, V = 0, C = 0, d = 2, capacity 0. The total
 * stays 6,947. */
static record september(record r) {
    begin();
    CHECK(accepted(sallowbingo_admit(r, store, WORDS), &r));
    CHECK(accepted(sallowbingo_read_billing_hours(r, store, WORDS, expected, 720), &r));
    mark(4, 8, 4, 9), mark(5, 8, 4, 9);
    answer a = close_month(r, 30);
    CHECK_CLOSED(a, (closing){SALLOWBINGO_GROUND_BILLING_HOURS,
                             .volume = 0, .c = 0, .d = 2, .capacity = 0, .total = 6947, .run = 0});
    return a.after;
}

/* A control volume of 372 and R = 1: ground 4 by September, whose hours are 0, so all weights are taken as 1. Hour h gets
 * (h + 1)/2 less h/2, each rounded half up: even hours 1, odd ones 0. Capacity hours 10, 10 and 9 of three days: C = 2,
 * 1 + 1 + 0, d = 3, capacity 2/3 and so 1. The total is 6,947 + 372 = 7,319. Before that, closings with a wrong mark
 * and buffer. */
static record october(record r) {
    begin();
    CHECK(accepted(sallowbingo_read_control_volume(r, store, WORDS, kwh(372)), &r));
    CHECK(refused(sallowbingo_read_control_volume(r, store, WORDS, kwh(372)), SALLOWBINGO_REFUSAL_ALREADY_GIVEN, r));
    mark(0, 8, 4, 10), mark(1, 8, 4, 10), mark(2, 8, 4, 9);
    marks[743] = SALLOWBINGO_MARK_BOTH + 1;
    CHECK(refused(close_month(r, 31), SALLOWBINGO_REFUSAL_MARK, r));
    marks[743] = SALLOWBINGO_MARK_ORDINARY;
    CHECK(refused(sallowbingo_close(r, store, WORDS, marks, 744, buffer, SALLOWBINGO_ROW - 1),
                  SALLOWBINGO_REFUSAL_BUFFER_LENGTH, r));
    fill(expected, 31, 1, 0);
    answer a = close_month(r, 31);
    CHECK_CLOSED(a, (closing){SALLOWBINGO_GROUND_CONTROL_BY_PAST,
                             .volume = 372, .c = 2, .d = 3, .capacity = 1, .total = 7319, .run = 1});
    return a.after;
}

/* A billing reading of 0 on the first day, 1 on the second and so on to 29, beside control and neighbour readings that
 * then make no difference: ground 1, V = 24 × (0 + .. + 29) = 24 × 435 = 10,440. Capacity hours on days 10 and 11: C = 21,
 * d = 2, capacity 10.5 and so 11. The total is 7,319 + 10,440 = 17,759. */
static record november(record r) {
    begin();
    for (size_t h = 0; h < 720; h++) expected[h] = (uint32_t)(h / DAY);
    CHECK(refused(sallowbingo_read_billing_hours(r, store, WORDS + 1, expected, 720), SALLOWBINGO_REFUSAL_STORE_LENGTH, r));
    CHECK(refused(sallowbingo_read_billing_hours(zeros(), store, WORDS, expected, 720), SALLOWBINGO_REFUSAL_RECORD, zeros()));
    CHECK(accepted(sallowbingo_read_billing_hours(r, store, WORDS, expected, 720), &r));
    CHECK(accepted(sallowbingo_read_control_volume(r, store, WORDS, kwh(99)), &r));
    CHECK(accepted(sallowbingo_read_neighbour(r, store, WORDS, SALLOWBINGO_NEIGHBOUR_BILLING, kwh(50)), &r));
    CHECK(accepted(sallowbingo_deny(r, store, WORDS), &r));
    CHECK(accepted(sallowbingo_permit(r, store, WORDS), &r));
    mark(10, 16, 8, 20), mark(11, 16, 8, 20);
    answer a = close_month(r, 30);
    CHECK_CLOSED(a, (closing){SALLOWBINGO_GROUND_BILLING_HOURS,
                             .volume = 10440, .c = 21, .d = 2, .capacity = 11, .total = 17759, .run = 0});
    return a.after;
}

/* No reading, R = 1, and November as the past: ground 7. Its day 30 is November's day 23, so V = 10,440 + 24 × 23 =
 * 10,992. Capacity hours on days 0 and 30: C = 0 + 23, d = 2, capacity 11.5 and so 12. The total is 17,759 + 10,992 =
 * 28,751. Before that, closings of a spoiled store and in January 3000. */
static record december(record r) {
    record over = r;
    begin();
    for (size_t h = 0; h < 744; h++) expected[h] = (uint32_t)(h < 720 ? h / DAY : 23);
    store[SALLOWBINGO_ROW * 3] = SALLOWBINGO_PAST_HOUR_MAX + 1;
    CHECK(refused(close_month(r, 31), SALLOWBINGO_REFUSAL_STORE_WORD, r));
    store[SALLOWBINGO_ROW * 3] = 0;
    over.date = on(SALLOWBINGO_YEAR_MAX + 1, 1);
    CHECK(refused(close_month(over, 31), SALLOWBINGO_REFUSAL_CALENDAR_OVER, over));
    mark(0, 8, 4, 9), mark(30, 8, 4, 9);
    answer a = close_month(r, 31);
    CHECK_CLOSED(a, (closing){SALLOWBINGO_GROUND_PAST,
                             .volume = 10992, .c = 23, .d = 2, .capacity = 12, .total = 28751, .run = 1});
    return a.after;
}

/* What the year leaves: January 2024 open, the last fault August's, the run 1; rows for February, September and November
 * alone, November the latest; no reading; every other row 0; the words past the store's end as they were. */
static void after_december(record r) {
    record left = fresh(agreed(SALLOWBINGO_METER_INTERVAL, SALLOWBINGO_METER_INTEGRAL, POWER), YEAR + 1, 1);
    left.service.run = 1, left.service.fault = 12 * YEAR + 8;
    left.past.years[1] = left.past.years[8] = left.past.years[10] = YEAR;
    left.past.latest = 12 * YEAR + 11;
    left.total.kwh = 28751;
    CHECK(same(r, left));
    for (size_t row = 0; row < SALLOWBINGO_ROWS; row++) {
        memset(expected, 0, sizeof expected);
        if (row == 1) by_february(expected, 28);
        for (size_t h = 0; row == 10 && h < 720; h++) expected[h] = (uint32_t)(h / DAY);
        CHECK(row_holds(row, expected));
    }
    int past_the_end = 1;
    for (size_t k = WORDS; k < ROOM; k++) past_the_end &= store[k] == 9;
    CHECK(past_the_end);
}

int main(void) {
    record r = opening();
    r = january(r), r = february(r), r = march(r), r = april(r), r = may(r), r = june(r);
    r = july(r), r = august(r), r = september(r), r = october(r), r = november(r), r = december(r);
    after_december(r);
    return check_tally();
}
