/* What the C tests of a point share: records made and compared by hand, and the store and the hour buffer that are lent,
 * with what they held before a call. */
#ifndef POINT_H
#define POINT_H

#include "sallowbingo.h"

#include "check.h"

#include <string.h>

typedef sallowbingo_record record;
typedef sallowbingo_answer answer;

/* A store and an hour buffer with words to spare, so that a wrong length can be lent and a word written past the end is
 * seen. */
#define ROOM (2 * SALLOWBINGO_STORE)
#define HOURS SALLOWBINGO_ROW
static uint32_t store[ROOM], was[ROOM], buffer[2 * HOURS], buffer_was[2 * HOURS];

static inline int same_reading(sallowbingo_reading a, sallowbingo_reading b) {
    return a.given == b.given && a.volume.kwh == b.volume.kwh;
}

static inline int same_contract(sallowbingo_contract a, sallowbingo_contract b) {
    return a.billing == b.billing && a.control == b.control && a.basis == b.basis && a.power.kw == b.power.kw
        && a.cable.amperes == b.cable.amperes && a.cable.volts == b.cable.volts && a.cable.cosine == b.cable.cosine
        && a.cable.phases == b.cable.phases;
}

static inline int same(record a, record b) {
    return a.opened == b.opened && same_contract(a.contract, b.contract) && a.date.year == b.date.year
        && a.date.month == b.date.month && a.service.run == b.service.run && a.service.serving == b.service.serving
        && a.service.denials == b.service.denials && a.service.fault == b.service.fault
        && memcmp(a.past.years, b.past.years, sizeof a.past.years) == 0 && a.past.latest == b.past.latest
        && same_reading(a.readings.billing, b.readings.billing) && same_reading(a.readings.control, b.readings.control)
        && same_reading(a.readings.first, b.readings.first) && same_reading(a.readings.second, b.readings.second)
        && a.total.kwh == b.total.kwh;
}

/* No figure but the wrong day, which is 0 for none. */
static inline int only_wrong_day(answer a, uint64_t day) {
    return a.figures.ground == 0 && a.figures.volume.kwh == 0 && a.figures.capacity.kw == 0 && a.figures.sum.kwh == 0
        && a.figures.days == 0 && a.figures.wrong_day == day;
}

static inline int no_figures(answer a) { return only_wrong_day(a, 0); }

static inline record zeros(void) {
    record r;
    memset(&r, 0, sizeof r);
    return r;
}

static inline sallowbingo_contract agreed(uint32_t billing, uint32_t control, uint32_t power) {
    sallowbingo_contract c = zeros().contract;
    c.billing = billing, c.control = control, c.basis = 1, c.power.kw = power;
    return c;
}

/* The contract on basis 2, with the agreed power or in a record the share, and on basis 3. */
static inline sallowbingo_contract shared(uint32_t billing, uint32_t control, uint32_t power) {
    sallowbingo_contract c = agreed(billing, control, power);
    c.basis = 2;
    return c;
}

static inline sallowbingo_contract cabled(uint32_t billing, uint32_t control, sallowbingo_cable cable) {
    sallowbingo_contract c = agreed(billing, control, 0);
    c.basis = 3, c.cable = cable;
    return c;
}

static inline sallowbingo_date on(uint32_t year, uint32_t month) { return (sallowbingo_date){year, month}; }
static inline sallowbingo_kwh kwh(uint64_t v) { return (sallowbingo_kwh){v}; }

/* The record of a point that was opened, by hand. */
static inline record fresh(sallowbingo_contract c, uint32_t year, uint32_t month) {
    record r = zeros();
    r.opened = 1, r.contract = c, r.date = on(year, month), r.service.serving = 1;
    return r;
}

static inline void remember(void) {
    memcpy(was, store, sizeof store);
    memcpy(buffer_was, buffer, sizeof buffer);
}

static inline int untouched(void) {
    return memcmp(was, store, sizeof store) == 0 && memcmp(buffer_was, buffer, sizeof buffer) == 0;
}

/* The answer is that refusal, with the record given and no figure but that wrong day, and store and buffer are as they
 * were. */
static inline int refused_for_day(answer a, uint32_t number, uint64_t day, record given) {
    return a.refusal == number && same(a.after, given) && only_wrong_day(a, day) && untouched();
}

/* The same with no figures at all. */
static inline int refused(answer a, uint32_t number, record given) { return refused_for_day(a, number, 0, given); }

#endif
