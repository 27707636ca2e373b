/* Holds the names of the header to the archive. A value at a named limit passes, and the value just outside it gives
 * the refusal that the header names; every kind, reason, source, mark and ground is the one that its name says. */
#include "point.h"

#define REFUSED_AS(name) SALLOWBINGO_REFUSAL_##name
#define ACCEPTED REFUSED_AS(NONE)

/* The hours of January, and marks for them. */
static uint32_t hours[HOURS];
static uint8_t marks[HOURS];

static uint32_t asked_in(sallowbingo_contract c, uint32_t year, uint32_t month) {
    return sallowbingo_open_point(c, on(year, month), NULL, 0, 0, store, SALLOWBINGO_STORE).refusal;
}

static uint32_t asked(sallowbingo_contract c) { return asked_in(c, 2024, 1); }

static record opened(sallowbingo_contract c) {
    return sallowbingo_open_point(c, on(2024, 1), NULL, 0, 0, store, SALLOWBINGO_STORE).after;
}

static sallowbingo_contract meters(uint32_t billing, uint32_t control) { return agreed(billing, control, 1); }

static record january(void) { return opened(meters(SALLOWBINGO_METER_INTERVAL, SALLOWBINGO_METER_INTEGRAL)); }

static answer close_month(record r) {
    return sallowbingo_close(r, store, SALLOWBINGO_STORE, marks, HOURS, buffer, SALLOWBINGO_ROW);
}

static void mark_all(uint8_t mark) { memset(marks, mark, sizeof marks); }

static void calendar(void) {
    sallowbingo_contract c = meters(SALLOWBINGO_METER_INTERVAL, SALLOWBINGO_METER_NONE);
    CHECK(asked_in(c, SALLOWBINGO_YEAR_MIN, 1) == ACCEPTED);
    CHECK(asked_in(c, SALLOWBINGO_YEAR_MIN - 1, 12) == REFUSED_AS(OPENING_MONTH));
    CHECK(asked_in(c, SALLOWBINGO_YEAR_MAX, 12) == ACCEPTED);
    CHECK(asked_in(c, SALLOWBINGO_YEAR_MAX + 1, 1) == REFUSED_AS(OPENING_MONTH));
    record r = opened(c);
    r.date = on(SALLOWBINGO_YEAR_MAX + 1, 1);
    CHECK(close_month(r).refusal == REFUSED_AS(CALENDAR_OVER));
}

static void power(void) {
    CHECK(asked(agreed(1, 0, SALLOWBINGO_POWER_MIN)) == ACCEPTED);
    CHECK(asked(agreed(1, 0, SALLOWBINGO_POWER_MIN - 1)) == REFUSED_AS(BASIS));
    CHECK(asked(agreed(1, 0, SALLOWBINGO_POWER_MAX)) == ACCEPTED);
    CHECK(asked(agreed(1, 0, SALLOWBINGO_POWER_MAX + 1)) == REFUSED_AS(BASIS));
}

/* With an integral billing meter. An interval one takes more. */
static void integral_power(void) {
    const uint32_t interval = SALLOWBINGO_METER_INTERVAL, integral = SALLOWBINGO_METER_INTEGRAL;
    CHECK(asked(agreed(integral, 0, SALLOWBINGO_INTEGRAL_POWER_MAX)) == ACCEPTED);
    CHECK(asked(agreed(integral, 0, SALLOWBINGO_INTEGRAL_POWER_MAX + 1)) == REFUSED_AS(INTEGRAL_METER));
    CHECK(asked(agreed(integral, 0, SALLOWBINGO_POWER_MAX)) == REFUSED_AS(INTEGRAL_METER));
    CHECK(asked(agreed(interval, integral, SALLOWBINGO_INTEGRAL_POWER_MAX + 1)) == ACCEPTED);
    CHECK(SALLOWBINGO_INTEGRAL_POWER_MAX == 669 && REFUSED_AS(INTEGRAL_METER) == 15); /* as document 02 has them */
    record r = opened(agreed(integral, 0, 1));
    r.contract.power.kw = SALLOWBINGO_POWER_MAX;
    CHECK(sallowbingo_read_billing_volume(r, store, SALLOWBINGO_STORE, kwh(1)).refusal == ACCEPTED);
}

/* An opening on a share of a power, among so many points with that current. */
static uint32_t in_list(size_t points, uint32_t amperes) {
    uint32_t currents[SALLOWBINGO_POINTS_MAX + 1];
    for (size_t k = 0; k < COUNT(currents); k++) currents[k] = amperes;
    sallowbingo_contract c = agreed(1, 0, 100);
    c.basis = SALLOWBINGO_BASIS_SHARED;
    return sallowbingo_open_point(c, on(2024, 1), currents, points, 0, store, SALLOWBINGO_STORE).refusal;
}

static void points(void) {
    CHECK(in_list(SALLOWBINGO_POINTS_MIN, SALLOWBINGO_AMPERES_MIN) == ACCEPTED);
    CHECK(in_list(SALLOWBINGO_POINTS_MIN - 1, SALLOWBINGO_AMPERES_MIN) == REFUSED_AS(CURRENTS));
    CHECK(in_list(SALLOWBINGO_POINTS_MAX, SALLOWBINGO_AMPERES_MAX) == ACCEPTED);
    CHECK(in_list(SALLOWBINGO_POINTS_MAX + 1, SALLOWBINGO_AMPERES_MAX) == REFUSED_AS(CURRENTS));
    CHECK(in_list(SALLOWBINGO_POINTS_MAX, SALLOWBINGO_AMPERES_MAX + 1) == REFUSED_AS(CURRENTS));
    CHECK(in_list(SALLOWBINGO_POINTS_MAX, SALLOWBINGO_AMPERES_MIN - 1) == REFUSED_AS(CURRENTS));
}

static sallowbingo_contract on_cable(uint32_t amperes, uint32_t volts, uint32_t cosine, uint32_t phases) {
    sallowbingo_contract c = agreed(1, 0, 0);
    c.basis = SALLOWBINGO_BASIS_CABLE;
    c.cable = (sallowbingo_cable){amperes, volts, cosine, phases};
    return c;
}

static void cable(void) {
    const uint32_t one = SALLOWBINGO_PHASES_ONE, three = SALLOWBINGO_PHASES_THREE;
    CHECK(asked(on_cable(SALLOWBINGO_AMPERES_MIN, SALLOWBINGO_VOLTS_MIN, 0, one)) == ACCEPTED);
    CHECK(asked(on_cable(SALLOWBINGO_AMPERES_MIN - 1, SALLOWBINGO_VOLTS_MIN, 0, one)) == REFUSED_AS(CABLE_VALUE));
    CHECK(asked(on_cable(SALLOWBINGO_AMPERES_MIN, SALLOWBINGO_VOLTS_MIN - 1, 0, one)) == REFUSED_AS(CABLE_VALUE));
    const uint32_t most[] = {SALLOWBINGO_AMPERES_MAX, SALLOWBINGO_VOLTS_MAX, SALLOWBINGO_COSINE_MAX};
    CHECK(asked(on_cable(most[0], most[1], most[2], three)) == ACCEPTED);
    CHECK(asked(on_cable(most[0] + 1, most[1], most[2], three)) == REFUSED_AS(CABLE_VALUE));
    CHECK(asked(on_cable(most[0], most[1] + 1, most[2], three)) == REFUSED_AS(CABLE_VALUE));
    CHECK(asked(on_cable(most[0], most[1], most[2] + 1, three)) == REFUSED_AS(CABLE_VALUE));
    CHECK(asked(on_cable(most[0], most[1], most[2], 2)) == REFUSED_AS(CABLE_VALUE));
    CHECK(sallowbingo_cable_formula(100, 230, 0, three, 720) == 29808);
    CHECK(sallowbingo_cable_formula(100, 230, SALLOWBINGO_COSINE_MISSING, three, 720) == 29808);
    CHECK(sallowbingo_cable_formula(100, 230, SALLOWBINGO_COSINE_MISSING, one, 720) == 9936);
    CHECK(sallowbingo_cable_formula(100, 230, 0, three, SALLOWBINGO_HOURS_MAX) == 362664);
    CHECK(sallowbingo_cable_formula(100, 230, 0, three, SALLOWBINGO_HOURS_MAX + 1) == SALLOWBINGO_REFUSED);
}

/* What a point with those meters answers to the hours and to the volume of each. */
static void readings_of(uint32_t billing, uint32_t control, const uint32_t expected[4]) {
    record r = opened(meters(billing, control));
    CHECK(sallowbingo_read_billing_hours(r, store, SALLOWBINGO_STORE, hours, HOURS).refusal == expected[0]);
    CHECK(sallowbingo_read_billing_volume(r, store, SALLOWBINGO_STORE, kwh(1)).refusal == expected[1]);
    CHECK(sallowbingo_read_control_hours(r, store, SALLOWBINGO_STORE, hours, HOURS).refusal == expected[2]);
    CHECK(sallowbingo_read_control_volume(r, store, SALLOWBINGO_STORE, kwh(1)).refusal == expected[3]);
}

static void kinds(void) {
    const uint32_t none = SALLOWBINGO_METER_NONE, interval = SALLOWBINGO_METER_INTERVAL;
    const uint32_t integral = SALLOWBINGO_METER_INTEGRAL, not = REFUSED_AS(NO_SUCH_METER);
    readings_of(interval, integral, (const uint32_t[]){ACCEPTED, not, not, ACCEPTED});
    readings_of(integral, interval, (const uint32_t[]){not, ACCEPTED, ACCEPTED, not});
    readings_of(interval, none, (const uint32_t[]){ACCEPTED, not, not, not});
    CHECK(asked(meters(none, none)) == REFUSED_AS(METER_KIND));
    CHECK(asked(meters(interval, integral + 1)) == REFUSED_AS(METER_KIND));
    sallowbingo_contract c = meters(interval, none);
    c.basis = SALLOWBINGO_BASIS_CABLE + 1;
    CHECK(asked(c) == REFUSED_AS(BASIS));
    c.basis = SALLOWBINGO_BASIS_AGREED;
    CHECK(asked(c) == ACCEPTED);
}

static uint32_t billing_hours(record r, size_t count) {
    return sallowbingo_read_billing_hours(r, store, SALLOWBINGO_STORE, hours, count).refusal;
}

/* A reading whose last hour is that one. */
static uint32_t read_hours(uint32_t last) {
    hours[HOURS - 1] = last;
    uint32_t refusal = billing_hours(january(), HOURS);
    hours[HOURS - 1] = 0;
    return refusal;
}

static void readings(void) {
    const uint64_t most = (uint64_t)HOURS * SALLOWBINGO_HOUR_READ_MAX;
    CHECK(read_hours(SALLOWBINGO_HOUR_READ_MAX) == ACCEPTED);
    CHECK(read_hours(SALLOWBINGO_HOUR_READ_MAX + 1) == REFUSED_AS(TOO_LARGE));
    record r = january();
    CHECK(sallowbingo_read_control_volume(r, store, SALLOWBINGO_STORE, kwh(most)).refusal == ACCEPTED);
    CHECK(sallowbingo_read_control_volume(r, store, SALLOWBINGO_STORE, kwh(most + 1)).refusal == REFUSED_AS(TOO_LARGE));
    answer first = sallowbingo_read_neighbour(r, store, SALLOWBINGO_STORE, SALLOWBINGO_NEIGHBOUR_BILLING, kwh(5));
    answer second = sallowbingo_read_neighbour(r, store, SALLOWBINGO_STORE, SALLOWBINGO_NEIGHBOUR_CONTROL, kwh(6));
    CHECK(first.refusal == ACCEPTED && first.after.readings.first.volume.kwh == 5);
    CHECK(second.refusal == ACCEPTED && second.after.readings.second.volume.kwh == 6);
    const uint32_t outside[] = {SALLOWBINGO_NEIGHBOUR_BILLING - 1, SALLOWBINGO_NEIGHBOUR_CONTROL + 1};
    for (size_t k = 0; k < COUNT(outside); k++)
        CHECK(sallowbingo_read_neighbour(r, store, SALLOWBINGO_STORE, outside[k], kwh(5)).refusal
              == REFUSED_AS(NO_SUCH_METER));
}

/* The month that a failure for that reason keeps as the last fault, or its refusal. */
static uint64_t fault_of(uint32_t reason) {
    answer a = sallowbingo_fail(january(), store, SALLOWBINGO_STORE, reason);
    return a.refusal == ACCEPTED ? a.after.service.fault : a.refusal;
}

static void reasons(void) {
    const uint64_t month = 2024 * 12 + 1;
    CHECK(fault_of(SALLOWBINGO_FAILURE_FAULT) == month);
    CHECK(fault_of(SALLOWBINGO_FAILURE_LOSS) == month);
    CHECK(fault_of(SALLOWBINGO_FAILURE_VERIFICATION) == 0);
    CHECK(fault_of(SALLOWBINGO_FAILURE_TAKEN_DOWN) == 0);
    CHECK(SALLOWBINGO_FAILURE_LOSS == 2 && SALLOWBINGO_FAILURE_VERIFICATION == 3); /* as document 01 numbers them */
    CHECK(fault_of(SALLOWBINGO_FAILURE_FAULT - 1) == REFUSED_AS(REASON));
    CHECK(fault_of(SALLOWBINGO_FAILURE_TAKEN_DOWN + 1) == REFUSED_AS(REASON));
}

/* Calls that come at the wrong time, or with a wrong count. */
static void occasions(void) {
    record r = january(), out = r, twice = r;
    out.service.serving = 0, twice.service.denials = SALLOWBINGO_DENIALS_MAX;
    CHECK(billing_hours(out, HOURS) == REFUSED_AS(BILLING_BARRED));
    CHECK(billing_hours(twice, HOURS) == REFUSED_AS(BILLING_BARRED));
    CHECK(billing_hours(r, HOURS - 1) == REFUSED_AS(HOUR_COUNT));
    record once = sallowbingo_read_control_volume(r, store, SALLOWBINGO_STORE, kwh(1)).after;
    CHECK(sallowbingo_read_control_volume(once, store, SALLOWBINGO_STORE, kwh(1)).refusal == REFUSED_AS(ALREADY_GIVEN));
    CHECK(sallowbingo_fail(out, store, SALLOWBINGO_STORE, 1).refusal == REFUSED_AS(OUT_OF_SERVICE));
    CHECK(sallowbingo_admit(r, store, SALLOWBINGO_STORE).refusal == REFUSED_AS(IN_SERVICE));
    CHECK(sallowbingo_permit(r, store, SALLOWBINGO_STORE).refusal == REFUSED_AS(NO_DENIAL));
    CHECK(sallowbingo_close(r, store, SALLOWBINGO_STORE, marks, HOURS - 1, buffer, SALLOWBINGO_ROW).refusal
          == REFUSED_AS(MARK_COUNT));
}

/* The record's own limits, seen by a denial. */
static uint32_t denied(record r) { return sallowbingo_deny(r, store, SALLOWBINGO_STORE).refusal; }

static void records(void) {
    record run = january(), denials = january(), total = january();
    run.service.run = SALLOWBINGO_RUN_MAX;
    CHECK(denied(run) == ACCEPTED);
    run.service.run++;
    CHECK(denied(run) == REFUSED_AS(RECORD));
    denials.service.denials = SALLOWBINGO_DENIALS_MAX;
    CHECK(denied(denials) == REFUSED_AS(TWO_DENIALS));
    denials.service.denials++;
    CHECK(denied(denials) == REFUSED_AS(RECORD));
    total.total = kwh(SALLOWBINGO_TOTAL_MAX);
    CHECK(denied(total) == ACCEPTED);
    total.total.kwh++;
    CHECK(denied(total) == REFUSED_AS(RECORD));
}

/* The refusal of a closing with that word at that place of a store that is 0 elsewhere. */
static uint32_t closed_with(size_t place, uint32_t word) {
    record r = january();
    store[place] = word;
    return close_month(r).refusal;
}

static void stores(void) {
    const size_t past_end = SALLOWBINGO_ROW * SALLOWBINGO_ROW_BILLING - 1, end = SALLOWBINGO_STORE - 1;
    const size_t control = SALLOWBINGO_ROW * SALLOWBINGO_ROW_CONTROL;
    CHECK(SALLOWBINGO_ROW * SALLOWBINGO_ROWS == SALLOWBINGO_STORE);
    CHECK(closed_with(past_end, SALLOWBINGO_PAST_HOUR_MAX) == ACCEPTED);
    CHECK(closed_with(past_end, SALLOWBINGO_PAST_HOUR_MAX + 1) == REFUSED_AS(STORE_WORD));
    CHECK(closed_with(past_end + 1, SALLOWBINGO_HOUR_READ_MAX) == ACCEPTED);
    CHECK(closed_with(past_end + 1, SALLOWBINGO_HOUR_READ_MAX + 1) == REFUSED_AS(STORE_WORD));
    CHECK(closed_with(end, SALLOWBINGO_HOUR_READ_MAX) == ACCEPTED);
    CHECK(closed_with(end, SALLOWBINGO_HOUR_READ_MAX + 1) == REFUSED_AS(STORE_WORD));
    record r = opened(meters(SALLOWBINGO_METER_INTERVAL, SALLOWBINGO_METER_INTERVAL));
    hours[0] = 3;
    sallowbingo_read_control_hours(r, store, SALLOWBINGO_STORE, hours, HOURS);
    CHECK(store[control] == 3);
    sallowbingo_read_billing_hours(r, store, SALLOWBINGO_STORE, hours, HOURS);
    CHECK(store[past_end + 1] == 3);
    CHECK(sallowbingo_deny(r, store, SALLOWBINGO_STORE - 1).refusal == REFUSED_AS(STORE_LENGTH));
    CHECK(sallowbingo_deny(r, store, SALLOWBINGO_STORE + 1).refusal == REFUSED_AS(STORE_LENGTH));
    for (size_t off = 0; off <= 2; off += 2)
        CHECK(sallowbingo_close(r, store, SALLOWBINGO_STORE, marks, HOURS, buffer, SALLOWBINGO_ROW - 1 + off).refusal
              == REFUSED_AS(BUFFER_LENGTH));
}

static sallowbingo_reading given(uint64_t volume) { return (sallowbingo_reading){1, kwh(volume)}; }

/* A closing on ground 8, 1 kWh an hour, with a first day of so many peak hours, one of them a capacity hour. */
static answer closed_with_peaks(size_t count) {
    record r = january();
    mark_all(SALLOWBINGO_MARK_ORDINARY);
    memset(marks, SALLOWBINGO_MARK_PEAK, count);
    marks[0] = SALLOWBINGO_MARK_BOTH;
    return close_month(r);
}

static void mark_names(void) {
    CHECK(closed_with_peaks(SALLOWBINGO_PEAK_HOURS_MAX).refusal == ACCEPTED);
    CHECK(closed_with_peaks(SALLOWBINGO_PEAK_HOURS_MAX + 1).refusal == REFUSED_AS(PEAK_HOURS));
    answer a = closed_with_peaks(2);
    CHECK(a.figures.sum.kwh == 1 && a.figures.days == 1);
    record r = january();
    mark_all(SALLOWBINGO_MARK_ORDINARY);
    marks[0] = SALLOWBINGO_MARK_PEAK;
    CHECK(close_month(r).refusal == REFUSED_AS(NO_CAPACITY_HOUR));
    marks[1] = SALLOWBINGO_MARK_CAPACITY;
    CHECK(close_month(r).refusal == ACCEPTED);
    marks[2] = SALLOWBINGO_MARK_CAPACITY;
    CHECK(close_month(r).refusal == REFUSED_AS(CAPACITY_HOURS));
    CHECK(REFUSED_AS(CAPACITY_HOURS) == 43 && REFUSED_AS(NO_CAPACITY_HOUR) == 46); /* as document 02 has them */
    r = january(), marks[2] = SALLOWBINGO_MARK_ORDINARY;
    marks[1] = SALLOWBINGO_MARK_BOTH + 1;
    CHECK(close_month(r).refusal == REFUSED_AS(MARK));
    /* 10 kWh an hour by the peak rule with 1 kW: an hour that is a peak gets 1 */
    mark_all(SALLOWBINGO_MARK_ORDINARY);
    r.readings.control = given(10 * HOURS);
    marks[9] = SALLOWBINGO_MARK_BOTH;
    CHECK(close_month(r).refusal == ACCEPTED && buffer[9] == 1);
    marks[9] = SALLOWBINGO_MARK_CAPACITY;
    CHECK(close_month(r).refusal == ACCEPTED && buffer[9] == 10);
    mark_all(SALLOWBINGO_MARK_ORDINARY);
}

/* That point with a past: January 2023, all of it in hour 9. */
static record with_past(record r) {
    r.past.years[0] = 2023, r.past.latest = 2023 * 12 + 1;
    memset(store, 0, sizeof store);
    store[9] = 5;
    return r;
}

static uint32_t ground(record r) { return close_month(r).figures.ground; }

static void grounds(void) {
    const uint32_t interval = SALLOWBINGO_METER_INTERVAL, integral = SALLOWBINGO_METER_INTEGRAL;
    record hourly = opened(meters(interval, interval)), r = hourly;
    r.readings.control = given(0);
    CHECK(ground(r) == SALLOWBINGO_GROUND_CONTROL_HOURS);
    r.readings.billing = given(0);
    CHECK(ground(r) == SALLOWBINGO_GROUND_BILLING_HOURS);
    record whole = opened(meters(integral, integral));
    r = whole, r.readings.billing = given(100);
    CHECK(ground(r) == SALLOWBINGO_GROUND_BILLING_VOLUME);
    /* 100 kWh of a control meter; 1 kW in one peak hour, hour 9, which is the capacity hour */
    mark_all(SALLOWBINGO_MARK_ORDINARY);
    marks[9] = SALLOWBINGO_MARK_BOTH;
    r = whole, r.readings.control = given(100);
    CHECK(ground(r) == SALLOWBINGO_GROUND_CONTROL_PEAK_RULE);
    CHECK(ground(with_past(r)) == SALLOWBINGO_GROUND_CONTROL_BY_PAST);
    r.service.run = 2;
    CHECK(ground(with_past(r)) == SALLOWBINGO_GROUND_CONTROL_BY_PAST_GREATER);
    CHECK(ground(with_past(hourly)) == SALLOWBINGO_GROUND_PAST);
    CHECK(ground(hourly) == SALLOWBINGO_GROUND_POWER);
    CHECK(ground(opened(on_cable(100, 230, 0, SALLOWBINGO_PHASES_THREE))) == SALLOWBINGO_GROUND_CABLE);
}

int main(void) {
    calendar();
    power();
    integral_power();
    points();
    cable();
    kinds();
    readings();
    reasons();
    occasions();
    records();
    stores();
    mark_names();
    grounds();
    return check_tally();
}
