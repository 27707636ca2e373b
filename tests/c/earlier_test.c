/* Points with an integral billing meter and P = 1,000,000, the greatest. An opening refuses them with 15 (request E3 of
 * document 02), and records of them that were opened earlier go on. Such records are made by hand here, on each basis,
 * and go through a year of calls and twelve closings. The comments work out every expected value from document 01; R is
 * the run plus 1, and at least 3 with two denials. */
#include "year.h"

#define MILLION 1000000u

/* The contracts: an agreed power, all of a power that is shared, and 2,000 × 250,000 × 1,000 / 500,000 = 1,000,000. */
static sallowbingo_contract large(uint32_t basis, uint32_t control) {
    if (basis == SALLOWBINGO_BASIS_CABLE)
        return cabled(SALLOWBINGO_METER_INTEGRAL, control, (sallowbingo_cable){2000, 250000, 1000, 3});
    sallowbingo_contract c = agreed(SALLOWBINGO_METER_INTEGRAL, control, MILLION);
    c.basis = basis;
    return c;
}

/* The ground of a month that is estimated by the power. On either, V is 1,000,000 for each of T hours. */
static uint32_t by_power(record r) {
    return r.contract.basis == SALLOWBINGO_BASIS_CABLE ? SALLOWBINGO_GROUND_CABLE : SALLOWBINGO_GROUND_POWER;
}

/* An opening on that contract, in a list of one, is refused with 15 and leaves every word. The store is the point's
 * own, and has its words again in any case. */
static int not_opened(sallowbingo_contract c) {
    static const uint32_t one[] = {1};
    remember();
    answer a = sallowbingo_open_point(c, on(YEAR, 1), one, COUNT(one), 0, store, WORDS);
    int is = refused(a, SALLOWBINGO_REFUSAL_INTEGRAL_METER, zeros());
    memcpy(store, was, sizeof store);
    return is;
}

/* January 2023 is open. December 2022 was read, 5 in each hour: the total is 744 × 5 = 3,720. The words past the
 * store's end are 9. */
static record opened_earlier(sallowbingo_contract c) {
    for (size_t k = 0; k < ROOM; k++) store[k] = k < WORDS ? 0 : 9;
    fill(store + SALLOWBINGO_ROW * 11, 31, 5, 5);
    record r = fresh(c, YEAR, 1);
    r.past.years[11] = YEAR - 1, r.past.latest = 12 * (YEAR - 1) + 12, r.total.kwh = 3720;
    return r;
}

/* THE YEAR, beside an integral control meter. */

/* January's hours, and the past that they are for a shorter month: 1 in each hour, but 1,000,000 in hours 8 to 11 of
 * the first day. 31 days have 740 + 4,000,000 = 4,000,740, 30 days 4,000,716, 28 days 4,000,668. */
static void by_january(uint32_t *hours, size_t days) {
    fill(hours, days, 1, 1);
    for (size_t h = 8; h < 12; h++) hours[h] = MILLION;
}

/* A billing reading of 4,000,760; N is the first source's, 20: ground 2, V = 4,000,740. n = 4, so A = 4 × 1,000,000,
 * which is less than V: 1,000,000 on each peak and 1 on each of 740 others. C = 1,000,000, d = 1. The total is 3,720 +
 * 4,000,740 = 4,004,460. */
static record january(record r) {
    begin();
    CHECK(refused(sallowbingo_read_billing_hours(r, store, WORDS, expected, 744),
                  SALLOWBINGO_REFUSAL_NO_SUCH_METER, r));
    CHECK(refused(sallowbingo_read_control_hours(r, store, WORDS, expected, 744),
                  SALLOWBINGO_REFUSAL_NO_SUCH_METER, r));
    CHECK(refused(sallowbingo_admit(r, store, WORDS), SALLOWBINGO_REFUSAL_IN_SERVICE, r));
    CHECK(refused(sallowbingo_permit(r, store, WORDS), SALLOWBINGO_REFUSAL_NO_DENIAL, r));
    CHECK(accepted(sallowbingo_read_billing_volume(r, store, WORDS, kwh(4000760)), &r));
    CHECK(r.readings.billing.given && r.readings.billing.volume.kwh == 4000760);
    CHECK(accepted(sallowbingo_read_neighbour(r, store, WORDS, SALLOWBINGO_NEIGHBOUR_CONTROL, kwh(999)), &r));
    CHECK(accepted(sallowbingo_read_neighbour(r, store, WORDS, SALLOWBINGO_NEIGHBOUR_BILLING, kwh(20)), &r));
    CHECK(refused(sallowbingo_read_billing_volume(r, store, WORDS, kwh(1)), SALLOWBINGO_REFUSAL_ALREADY_GIVEN, r));
    mark(0, 8, 4, 9);
    by_january(expected, 31);
    answer a = close_month(r, 31);
    CHECK_CLOSED(a, (closing){SALLOWBINGO_GROUND_BILLING_VOLUME,
                             .volume = 4000740, .c = MILLION, .d = 1, .capacity = MILLION, .total = 4004460, .run = 0});
    return a.after;
}

/* A billing reading that a fault discards; R = 1, and January as the past: ground 7, V = 4,000,668. Hour 9 of two days
 * is the capacity hour: C = 1,000,000 + 1, d = 2, capacity 500,000.5 and so 500,001. The total is 4,004,460 + 4,000,668
 * = 8,005,128. */
static record february(record r) {
    begin();
    CHECK(accepted(sallowbingo_read_billing_volume(r, store, WORDS, kwh(5)), &r));
    CHECK(accepted(sallowbingo_fail(r, store, WORDS, SALLOWBINGO_FAILURE_FAULT), &r));
    CHECK(!r.readings.billing.given && r.readings.billing.volume.kwh == 0);
    CHECK(!r.service.serving && r.service.fault == 12 * YEAR + 2 && r.service.run == 0);
    CHECK(untouched());
    CHECK(refused(sallowbingo_fail(r, store, WORDS, SALLOWBINGO_FAILURE_LOSS), SALLOWBINGO_REFUSAL_OUT_OF_SERVICE, r));
    CHECK(refused(sallowbingo_read_billing_volume(r, store, WORDS, kwh(5)), SALLOWBINGO_REFUSAL_BILLING_BARRED, r));
    mark(0, 8, 4, 9), mark(1, 8, 4, 9);
    by_january(expected, 28);
    answer a = close_month(r, 28);
    CHECK_CLOSED(a, (closing){SALLOWBINGO_GROUND_PAST,
                             .volume = 4000668, .c = 1000001, .d = 2, .capacity = 500001, .total = 8005128, .run = 1});
    return a.after;
}

/* An admission; a control volume of 8,001,500, and the neighbour's second source alone, 20; R = 2: ground 4, V =
 * 8,001,480, twice January's 4,000,740, so each hour is twice January's, P or not. Capacity hours on days 0, 4 and 5: C
 * = 2,000,000 + 2 + 2, d = 3, capacity 666,668. The total is 8,005,128 + 8,001,480 = 16,006,608. */
static record march(record r) {
    begin();
    CHECK(accepted(sallowbingo_admit(r, store, WORDS), &r));
    CHECK(refused(sallowbingo_read_neighbour(r, store, WORDS, 3, kwh(5)), SALLOWBINGO_REFUSAL_NO_SUCH_METER, r));
    CHECK(accepted(sallowbingo_read_control_volume(r, store, WORDS, kwh(8001500)), &r));
    CHECK(accepted(sallowbingo_read_neighbour(r, store, WORDS, SALLOWBINGO_NEIGHBOUR_CONTROL, kwh(20)), &r));
    mark(0, 8, 4, 11), mark(4, 8, 4, 9), mark(5, 8, 4, 9);
    fill(expected, 31, 2, 2);
    for (size_t h = 8; h < 12; h++) expected[h] = 2 * MILLION;
    answer a = close_month(r, 31);
    CHECK_CLOSED(a, (closing){SALLOWBINGO_GROUND_CONTROL_BY_PAST,
                             .volume = 8001480, .c = 2000004, .d = 3, .capacity = 666668, .total = 16006608, .run = 2});
    return a.after;
}

/* A control volume of 4,000,716, R = 3. It is January's sum over 720 hours, so that ground 4's hours are January's. n =
 * 8, d = 1, A = V, since 8 × 1,000,000 is more; C' = 1,000,000: A × d = 4,000,716 is less than n × C' = 8,000,000,
 * ground 6. The total is 16,006,608 + 4,000,716 = 20,007,324. */
static record april(record r) {
    begin();
    CHECK(refused(sallowbingo_read_control_volume(r, store, WORDS, kwh(720000001)), SALLOWBINGO_REFUSAL_TOO_LARGE, r));
    CHECK(accepted(sallowbingo_read_control_volume(r, store, WORDS, kwh(4000716)), &r));
    mark(0, 8, 8, 9);
    by_january(expected, 30);
    answer a = close_month(r, 30);
    CHECK_CLOSED(a, (closing){SALLOWBINGO_GROUND_CONTROL_BY_PAST_GREATER,
                             .volume = 4000716, .c = MILLION, .d = 1, .capacity = MILLION,
                             .total = 20007324, .run = 3});
    return a.after;
}

/* A denial; a control volume of 4,002,220, R = 4. The peaks are hours 8 to 11 of the third day, n = 4, A = 4,000,000, d
 * = 1. By January the capacity hour has an exact share of 4,002,220 / 4,000,740 and so at most 2: 4,000,000 is not less
 * than 4 × 2. Ground 5: 1,000,000 on each peak, 2,220 over 740 others, 3 each. The total is 20,007,324 + 4,002,220 =
 * 24,009,544. */
static record may(record r) {
    begin();
    CHECK(accepted(sallowbingo_deny(r, store, WORDS), &r));
    CHECK(accepted(sallowbingo_read_control_volume(r, store, WORDS, kwh(4002220)), &r));
    CHECK(refused(sallowbingo_read_control_volume(r, store, WORDS, kwh(1)), SALLOWBINGO_REFUSAL_ALREADY_GIVEN, r));
    mark(2, 8, 4, 11);
    fill(expected, 31, 3, 3);
    for (size_t h = 8; h < 12; h++) expected[2 * DAY + h] = MILLION;
    answer a = close_month(r, 31);
    CHECK_CLOSED(a, (closing){SALLOWBINGO_GROUND_CONTROL_PEAK_RULE,
                             .volume = 4002220, .c = MILLION, .d = 1, .capacity = MILLION,
                             .total = 24009544, .run = 4});
    return a.after;
}

/* A billing reading that the second denial discards; R = 5: by the power, V = 1,000,000 × 720, 1,000,000 in each hour.
 * Two capacity hours: C = 2,000,000, d = 2. The total is 24,009,544 + 720,000,000 = 744,009,544. */
static record june(record r) {
    begin();
    CHECK(accepted(sallowbingo_read_billing_volume(r, store, WORDS, kwh(7)), &r));
    CHECK(accepted(sallowbingo_deny(r, store, WORDS), &r));
    CHECK(!r.readings.billing.given && r.service.denials == SALLOWBINGO_DENIALS_MAX);
    CHECK(refused(sallowbingo_deny(r, store, WORDS), SALLOWBINGO_REFUSAL_TWO_DENIALS, r));
    CHECK(refused(sallowbingo_read_billing_volume(r, store, WORDS, kwh(7)), SALLOWBINGO_REFUSAL_BILLING_BARRED, r));
    mark(0, 8, 4, 9), mark(1, 8, 4, 20);
    fill(expected, 30, MILLION, MILLION);
    answer a = close_month(r, 30);
    CHECK_CLOSED(a, (closing){by_power(r), .volume = 720000000, .c = 2 * MILLION, .d = 2, .capacity = MILLION,
                             .total = 744009544, .run = 5});
    return a.after;
}

/* A permission; a loss five months after February's fault makes the run 0, and R = 1: ground 7, January's hours, V =
 * 4,000,740. C = 1,000,000, d = 1. The total is 744,009,544 + 4,000,740 = 748,010,284. */
static record july(record r) {
    begin();
    CHECK(accepted(sallowbingo_permit(r, store, WORDS), &r));
    CHECK(r.service.denials == 0 && r.service.run == 5);
    CHECK(refused(sallowbingo_permit(r, store, WORDS), SALLOWBINGO_REFUSAL_NO_DENIAL, r));
    CHECK(refused(sallowbingo_fail(r, store, WORDS, SALLOWBINGO_FAILURE_TAKEN_DOWN + 1),
                  SALLOWBINGO_REFUSAL_REASON, r));
    CHECK(accepted(sallowbingo_fail(r, store, WORDS, SALLOWBINGO_FAILURE_LOSS), &r));
    CHECK(r.service.run == 0 && r.service.fault == 12 * YEAR + 7);
    mark(0, 8, 1, 8);
    by_january(expected, 31);
    answer a = close_month(r, 31);
    CHECK_CLOSED(a, (closing){SALLOWBINGO_GROUND_PAST,
                             .volume = 4000740, .c = MILLION, .d = 1, .capacity = MILLION,
                             .total = 748010284, .run = 1});
    return a.after;
}

/* Out of service until the admission. A billing reading of 10 and a neighbour's of 12: ground 2, V = 0, and August
 * becomes the past. C = 0, d = 1. The total stays 748,010,284. */
static record august(record r) {
    begin();
    CHECK(refused(sallowbingo_read_billing_volume(r, store, WORDS, kwh(10)), SALLOWBINGO_REFUSAL_BILLING_BARRED, r));
    CHECK(accepted(sallowbingo_admit(r, store, WORDS), &r));
    CHECK(refused(sallowbingo_admit(r, store, WORDS), SALLOWBINGO_REFUSAL_IN_SERVICE, r));
    CHECK(accepted(sallowbingo_read_billing_volume(r, store, WORDS, kwh(10)), &r));
    CHECK(accepted(sallowbingo_read_neighbour(r, store, WORDS, SALLOWBINGO_NEIGHBOUR_BILLING, kwh(12)), &r));
    mark(0, 8, 4, 9);
    answer a = close_month(r, 31);
    CHECK_CLOSED(a, (closing){SALLOWBINGO_GROUND_BILLING_VOLUME,
                             .volume = 0, .c = 0, .d = 1, .capacity = 0, .total = 748010284, .run = 0});
    return a.after;
}

/* A control volume of 360 and R = 1: ground 4 by August, whose hours are 0, so all weights are taken as 1. Hour h gets
 * (h + 1)/2 less h/2, each rounded half up: even hours 1, odd ones 0. Capacity hours 10 and 9: C = 1 + 0, d = 2,
 * capacity a half and so 1. The total is 748,010,284 + 360 = 748,010,644. Before that, closings with wrong marks and
 * buffer. */
static record september(record r) {
    begin();
    CHECK(accepted(sallowbingo_read_control_volume(r, store, WORDS, kwh(360)), &r));
    CHECK(refused(close_month(r, 31), SALLOWBINGO_REFUSAL_MARK_COUNT, r));
    mark(0, 8, 4, 10), mark(1, 8, 4, 9);
    CHECK(refused(sallowbingo_close(r, store, WORDS, marks, 720, buffer, 743), SALLOWBINGO_REFUSAL_BUFFER_LENGTH, r));
    fill(expected, 30, 1, 0);
    answer a = close_month(r, 30);
    CHECK_CLOSED(a, (closing){SALLOWBINGO_GROUND_CONTROL_BY_PAST,
                             .volume = 360, .c = 1, .d = 2, .capacity = 1, .total = 748010644, .run = 1});
    return a.after;
}

/* The greatest billing reading, 744 × 1,000,000: ground 2. n = 16, A = 16,000,000, and the other 728,000,000 go over
 * 728 hours: 1,000,000 in each hour of the month. The total is 748,010,644 + 744,000,000 = 1,492,010,644. */
static record october(record r) {
    begin();
    CHECK(refused(sallowbingo_read_billing_volume(r, store, WORDS, kwh(744000001)), SALLOWBINGO_REFUSAL_TOO_LARGE, r));
    CHECK(accepted(sallowbingo_read_billing_volume(r, store, WORDS, kwh(744000000)), &r));
    mark(0, 0, 16, 0);
    fill(expected, 31, MILLION, MILLION);
    answer a = close_month(r, 31);
    CHECK_CLOSED(a, (closing){SALLOWBINGO_GROUND_BILLING_VOLUME, .volume = 744000000, .c = MILLION, .d = 1,
                             .capacity = MILLION, .total = 1492010644, .run = 0});
    return a.after;
}

/* The verification interval is over, which discards the reading and leaves the last fault; R = 1: ground 7, October's
 * first 720 hours, V = 720,000,000. No hour is marked. The total is 1,492,010,644 + 720,000,000 = 2,212,010,644. */
static record november(record r) {
    begin();
    CHECK(accepted(sallowbingo_read_billing_volume(r, store, WORDS, kwh(9)), &r));
    CHECK(accepted(sallowbingo_fail(r, store, WORDS, SALLOWBINGO_FAILURE_VERIFICATION), &r));
    CHECK(!r.readings.billing.given && r.service.fault == 12 * YEAR + 7);
    fill(expected, 30, MILLION, MILLION);
    answer a = close_month(r, 30);
    CHECK_CLOSED(a, (closing){SALLOWBINGO_GROUND_PAST,
                             .volume = 720000000, .c = 0, .d = 0, .capacity = 0, .total = 2212010644, .run = 1});
    return a.after;
}

/* An admission, and the meter is taken down, which leaves the run; R = 2: ground 7. The past is December 2022, before
 * the later October: 5 in each hour, V = 3,720. C = 5 + 5, d = 2, capacity 5. The total is 2,212,010,644 + 3,720 =
 * 2,212,014,364. */
static record december(record r) {
    begin();
    CHECK(accepted(sallowbingo_admit(r, store, WORDS), &r));
    CHECK(accepted(sallowbingo_fail(r, store, WORDS, SALLOWBINGO_FAILURE_TAKEN_DOWN), &r));
    CHECK(r.service.run == 1);
    mark(0, 8, 4, 9), mark(30, 8, 4, 9);
    fill(expected, 31, 5, 5);
    answer a = close_month(r, 31);
    CHECK_CLOSED(a, (closing){SALLOWBINGO_GROUND_PAST,
                             .volume = 3720, .c = 10, .d = 2, .capacity = 5, .total = 2212014364, .run = 2});
    return a.after;
}

/* What the year leaves: January 2024 open, the meter down, the contract as it was, the last fault July's, the run 2;
 * rows for January, August, October and, of 2022, December; every other row 0; the words past the store's end as they
 * were. */
static void after_december(record r, sallowbingo_contract c) {
    record left = fresh(c, YEAR + 1, 1);
    left.service.serving = 0, left.service.run = 2, left.service.fault = 12 * YEAR + 7;
    left.past.years[0] = left.past.years[7] = left.past.years[9] = YEAR, left.past.years[11] = YEAR - 1;
    left.past.latest = 12 * YEAR + 10;
    left.total.kwh = 2212014364;
    CHECK(same(r, left));
    for (size_t row = 0; row < SALLOWBINGO_ROWS; row++) {
        memset(expected, 0, sizeof expected);
        if (row == 0) by_january(expected, 31);
        if (row == 9) fill(expected, 31, MILLION, MILLION);
        if (row == 11) fill(expected, 31, 5, 5);
        CHECK(row_holds(row, expected));
    }
    int past_the_end = 1;
    for (size_t k = WORDS; k < ROOM; k++) past_the_end &= store[k] == 9;
    CHECK(past_the_end);
}

/* An opening on the contract is refused before the year and after it, beside the point that goes on. */
static void year(sallowbingo_contract c) {
    record r = opened_earlier(c);
    CHECK(not_opened(c));
    r = january(r), r = february(r), r = march(r), r = april(r), r = may(r), r = june(r);
    r = july(r), r = august(r), r = september(r), r = october(r), r = november(r), r = december(r);
    after_december(r, c);
    CHECK(not_opened(c));
    CHECK(accepted(sallowbingo_admit(r, store, WORDS), &r));
    CHECK(accepted(sallowbingo_read_billing_volume(r, store, WORDS, kwh(744000000)), &r));
}

/* OTHER CONTROL METERS */

/* January to April 2023 beside an interval control meter. January: 3 in each hour, but 1,000,000 in hour 9, the
 * capacity hour: ground 3, V = 743 × 3 + 1,000,000 = 1,002,229, total 3,720 + 1,002,229 = 1,005,949. February: R = 2,
 * ground 7 by December 2022, V = 5 × 672 = 3,360, total 1,009,309. March: R = 3, by the power, V = 744,000,000, total
 * 745,009,309. April: a billing reading of 720, evenly without peaks, total 745,010,029. */
static void interval_control(sallowbingo_contract c) {
    static uint32_t metered[HOURS];
    record r = opened_earlier(c);
    begin();
    CHECK(not_opened(c));
    CHECK(refused(sallowbingo_read_control_volume(r, store, WORDS, kwh(5)), SALLOWBINGO_REFUSAL_NO_SUCH_METER, r));
    fill(metered, 31, 3, 3), metered[9] = MILLION;
    CHECK(accepted(sallowbingo_read_control_hours(r, store, WORDS, metered, 744), &r));
    CHECK(row_holds(SALLOWBINGO_ROW_CONTROL, metered));
    memcpy(expected, metered, sizeof metered), mark(0, 8, 4, 9);
    answer a = close_month(r, 31);
    CHECK_CLOSED(a, (closing){SALLOWBINGO_GROUND_CONTROL_HOURS,
                             .volume = 1002229, .c = MILLION, .d = 1, .capacity = MILLION, .total = 1005949, .run = 1});
    begin(), fill(expected, 28, 5, 5);
    a = close_month(a.after, 28);
    CHECK_CLOSED(a, (closing){SALLOWBINGO_GROUND_PAST, .volume = 3360, .total = 1009309, .run = 2});
    begin(), fill(expected, 31, MILLION, MILLION);
    a = close_month(a.after, 31);
    CHECK_CLOSED(a, (closing){by_power(r), .volume = 744000000, .total = 745009309, .run = 3});
    begin(), fill(expected, 30, 1, 1);
    r = a.after;
    CHECK(accepted(sallowbingo_read_billing_volume(r, store, WORDS, kwh(720)), &r));
    a = close_month(r, 30);
    CHECK_CLOSED(a, (closing){SALLOWBINGO_GROUND_BILLING_VOLUME, .volume = 720, .total = 745010029, .run = 0});
}

/* January and February 2023 without a control meter. R = 1, ground 7 by December 2022, V = 3,720, total 7,440; then two
 * denials make R 3: by the power, V = 672,000,000, total 672,007,440. */
static void no_control(sallowbingo_contract c) {
    record r = opened_earlier(c);
    begin();
    CHECK(not_opened(c));
    CHECK(refused(sallowbingo_read_control_volume(r, store, WORDS, kwh(5)), SALLOWBINGO_REFUSAL_NO_SUCH_METER, r));
    CHECK(refused(sallowbingo_read_control_hours(r, store, WORDS, expected, 744),
                  SALLOWBINGO_REFUSAL_NO_SUCH_METER, r));
    fill(expected, 31, 5, 5);
    answer a = close_month(r, 31);
    CHECK_CLOSED(a, (closing){SALLOWBINGO_GROUND_PAST, .volume = 3720, .total = 7440, .run = 1});
    begin(), fill(expected, 28, MILLION, MILLION);
    r = a.after;
    CHECK(accepted(sallowbingo_deny(r, store, WORDS), &r) && accepted(sallowbingo_deny(r, store, WORDS), &r));
    a = close_month(r, 28);
    CHECK_CLOSED(a, (closing){by_power(r), .volume = 672000000, .total = 672007440, .run = 2});
}

int main(void) {
    for (uint32_t basis = SALLOWBINGO_BASIS_AGREED; basis <= SALLOWBINGO_BASIS_CABLE; basis++) {
        year(large(basis, SALLOWBINGO_METER_INTEGRAL));
        interval_control(large(basis, SALLOWBINGO_METER_INTERVAL));
        no_control(large(basis, SALLOWBINGO_METER_NONE));
    }
    return check_tally();
}
