/* The calls on a point through C. Short histories worked out by hand from document 01, one with interval meters and one
 * with integral ones, and readings at the limits of each length of month; then bad input: stores of other lengths, records
 * of any bits, hours of any length and value, any number for year, month, kind, basis, reason, source and volume. Each
 * gives a number of document 01, or 15 of document 02, the record as given and the store as it was. */
#include "point.h"

#include <stddef.h>

static uint32_t hours[1000000];
static uint8_t marks[672];

/* THE TEN CALLS that take a record, each with arguments that fit a point of the contract given with it; a closing has no
 * marks but ordinary ones. */
enum { BILLING_HOURS, BILLING_VOLUME, CONTROL_HOURS, CONTROL_VOLUME, NEIGHBOUR, FAIL, ADMIT, DENY, PERMIT, CLOSE, CALLS };

static answer call_on(int which, record r, uint32_t *lent, size_t words) {
    switch (which) {
    case BILLING_HOURS: return sallowbingo_read_billing_hours(r, lent, words, hours, 672);
    case BILLING_VOLUME: return sallowbingo_read_billing_volume(r, lent, words, kwh(5));
    case CONTROL_HOURS: return sallowbingo_read_control_hours(r, lent, words, hours, 672);
    case CONTROL_VOLUME: return sallowbingo_read_control_volume(r, lent, words, kwh(5));
    case NEIGHBOUR: return sallowbingo_read_neighbour(r, lent, words, 1, kwh(5));
    case FAIL: return sallowbingo_fail(r, lent, words, 1);
    case ADMIT: return sallowbingo_admit(r, lent, words);
    case DENY: return sallowbingo_deny(r, lent, words);
    case PERMIT: return sallowbingo_permit(r, lent, words);
    default: return sallowbingo_close(r, lent, words, marks, COUNT(marks), buffer, HOURS);
    }
}

static answer call(int which, record r, size_t words) { return call_on(which, r, store, words); }

/* No refusal, or one that document 01 lets that call give with a store of the right length: 2, 3 or the call's own. Where
 * a call has fewer of its own than there is room for, 0 fills the rest. */
static int may_give(int which, uint32_t number) {
    static const uint32_t own[CALLS][5] = {
        [BILLING_HOURS] = {20, 21, 22, 23, 24}, [BILLING_VOLUME] = {20, 21, 22, 24}, [CONTROL_HOURS] = {20, 22, 23, 24},
        [CONTROL_VOLUME] = {20, 22, 24}, [NEIGHBOUR] = {20, 22, 24}, [FAIL] = {30, 31}, [ADMIT] = {32}, [DENY] = {33},
        [PERMIT] = {34}, [CLOSE] = {40},
    };
    int may = number == 0 || number == 2 || number == 3;
    for (size_t k = 0; k < COUNT(own[which]); k++) may |= number == own[which][k];
    return may;
}

/* A point that accepts that call in February 2023. */
static record ready(int which) {
    int volumes = which == BILLING_VOLUME || which == CONTROL_VOLUME;
    record r = fresh(agreed(volumes ? 2 : 1, volumes ? 2 : 1, 100), 2023, 2);
    if (which == ADMIT) r.service.serving = 0;
    if (which == PERMIT) r.service.denials = 1;
    return r;
}

static void restore(void) {
    memcpy(store, was, sizeof store);
    memcpy(buffer, buffer_was, sizeof buffer);
}

static void fill_store(void) {
    for (size_t k = 0; k < ROOM; k++) store[k] = (uint32_t)(k * 2654435761u);
    remember();
}

/* Words of any bits, or where a closing is to be accepted up to the limit that it alone looks at. */
static void fill_for(int which) {
    fill_store();
    for (size_t k = 0; k < ROOM && which == CLOSE; k++) store[k] %= 1000001;
    remember();
}

static void fill_hours(uint32_t word) {
    for (size_t h = 0; h < COUNT(hours); h++) hours[h] = word;
}

static int accepted(answer a, record after) { return a.refusal == 0 && same(a.after, after) && no_figures(a); }

static int row_is(size_t row, uint32_t word, size_t count) {
    for (size_t h = 0; h < 744; h++)
        if (store[744 * row + h] != (h < count ? word : 0)) return 0;
    return 1;
}

/* No word but those of a row has changed. */
static int only_row(size_t row) {
    return memcmp(store, was, 744 * row * 4) == 0
        && memcmp(store + 744 * (row + 1), was + 744 * (row + 1), (ROOM - 744 * (row + 1)) * 4) == 0;
}

/* The words of the store are 0, and those past its end as they were. */
static int cleared(void) {
    int clear = 1;
    for (size_t k = 0; k < SALLOWBINGO_STORE; k++) clear &= store[k] == 0;
    return clear && memcmp(store + SALLOWBINGO_STORE, was + SALLOWBINGO_STORE, SALLOWBINGO_STORE * 4) == 0;
}

/* An opening in February 2023 is accepted, keeps that contract and clears a store that was full. */
static int opens(sallowbingo_contract asked, const uint32_t *currents, size_t points, size_t place, sallowbingo_contract kept) {
    fill_store();
    answer a = sallowbingo_open_point(asked, on(2023, 2), currents, points, place, store, SALLOWBINGO_STORE);
    return accepted(a, fresh(kept, 2023, 2)) && cleared();
}

static void openings(void) {
    static const uint32_t currents[] = {1, 1, 1};
    fill_store();
    answer a = sallowbingo_open_point(agreed(1, 2, 100), on(2023, 2), NULL, 0, 9, store, SALLOWBINGO_STORE);
    CHECK(accepted(a, fresh(agreed(1, 2, 100), 2023, 2)));
    CHECK(cleared());
    /* example g): 10 kW by 1, 1, 1: 3.33, 6.67 and 10, rounded half up 3, 7, 10; place 2 gets 10 - 7, place 1 7 - 3 */
    sallowbingo_contract shared = agreed(2, 0, 10), kept = agreed(2, 0, 3);
    shared.basis = kept.basis = 2;
    shared.cable.volts = 230;
    CHECK(accepted(sallowbingo_open_point(shared, on(2014, 1), currents, 3, 2, store, SALLOWBINGO_STORE), fresh(kept, 2014, 1)));
    kept.power.kw = 4;
    a = sallowbingo_open_point(shared, on(2014, 1), currents, 3, 1, store, SALLOWBINGO_STORE);
    CHECK(accepted(a, fresh(kept, 2014, 1)));
    /* 1 kW, place 0: 0.33, rounded 0 */
    shared.power.kw = 1, kept.power.kw = 0;
    CHECK(accepted(sallowbingo_open_point(shared, on(2014, 1), currents, 3, 0, store, SALLOWBINGO_STORE), fresh(kept, 2014, 1)));
    /* a cable, kept as given; the power asked for is not used and kept as 0 */
    sallowbingo_contract cable = agreed(1, 1, 77), alone = agreed(1, 1, 0);
    cable.basis = alone.basis = 3;
    cable.cable = alone.cable = (sallowbingo_cable){100, 230, 0, 3};
    CHECK(accepted(sallowbingo_open_point(cable, on(2999, 12), NULL, 0, 0, store, SALLOWBINGO_STORE), fresh(alone, 2999, 12)));
}

/* A list of 64, the longest, with equal currents. Place k gets (k + 1)/64 of the power less k/64 of it, each rounded
 * half up. Of 100, 63/64 are 98.4 and 62/64 96.9: place 63 gets 100 - 98, and place 62 98 - 97. 1 kW goes to place 31,
 * where 32/64 is a half. In the last line power times current, summed up, passes a multiple of 2^32. */
static void longest_list(void) {
    static uint32_t list[64];
    static const struct {
        uint32_t current, power, share;
        size_t place;
    } shared[] = {{1, 64, 1, 63}, {1, 100, 2, 63}, {1, 100, 1, 62}, {1, 1, 1, 31}, {1, 1, 0, 30}, {1, 1, 0, 32},
                  {1, 1, 0, 63}, {2000, 1000000, 15625, 63}, {2000, 1000000, 15625, 62}};
    for (size_t k = 0; k < COUNT(shared); k++) {
        for (size_t n = 0; n < COUNT(list); n++) list[n] = shared[k].current;
        sallowbingo_contract asked = agreed(1, 1, shared[k].power), kept = agreed(1, 1, shared[k].share);
        asked.basis = kept.basis = 2;
        CHECK(opens(asked, list, 64, shared[k].place, kept));
    }
}

/* Arguments that the basis doesn't use are at their worst, and kept as 0. */
static void unused_arguments(void) {
    static const uint32_t one[] = {1}, bad[65];
    static const sallowbingo_cable worst = {UINT32_MAX, UINT32_MAX, UINT32_MAX, UINT32_MAX};
    sallowbingo_contract c = agreed(1, 2, 100), kept = c;
    c.cable = worst;
    CHECK(opens(c, NULL, 0, 0, kept));
    CHECK(opens(c, NULL, 0, SIZE_MAX, kept));
    CHECK(opens(c, bad, 65, 65, kept));
    c.basis = kept.basis = 2;
    CHECK(opens(c, one, 1, 0, kept));
    c.basis = kept.basis = 3, c.power.kw = UINT32_MAX, kept.power.kw = 0;
    c.cable = kept.cable = (sallowbingo_cable){2000, 250000, 1000, 1};
    CHECK(opens(c, NULL, 0, SIZE_MAX, kept));
    CHECK(opens(c, bad, 65, 65, kept));
}

#define REFUSED(number, contract, date, currents, points, place, words) \
    CHECK(refused(sallowbingo_open_point(contract, date, currents, points, place, store, words), number, zeros()))

/* Lengths of the store, dates and kinds of meter. */
static void opening_refused(void) {
    sallowbingo_contract good = agreed(1, 2, 100);
    fill_store();
    static const size_t lengths[] = {0, 1, 744, 10415, 10417, ROOM};
    for (size_t k = 0; k < COUNT(lengths); k++) {
        REFUSED(1, zeros().contract, on(0, 0), NULL, 0, 0, lengths[k]);
        REFUSED(1, good, on(2023, 2), NULL, 0, 0, lengths[k]);
    }
    static const uint32_t far[] = {0, 1, 2013, 3000, 3001, 4294967295u};
    for (size_t k = 0; k < COUNT(far); k++) {
        REFUSED(10, good, on(far[k], 1), NULL, 0, 0, SALLOWBINGO_STORE);
        if (far[k] != 1) REFUSED(10, good, on(2023, far[k]), NULL, 0, 0, SALLOWBINGO_STORE);
        if (far[k] != 1) REFUSED(11, agreed(far[k], 0, 0), on(2023, 2), NULL, 0, 0, SALLOWBINGO_STORE);
        if (far[k] > 2) REFUSED(11, agreed(1, far[k], 0), on(2023, 2), NULL, 0, 0, SALLOWBINGO_STORE);
    }
    REFUSED(10, good, on(2023, 13), NULL, 0, 0, SALLOWBINGO_STORE);
    REFUSED(11, agreed(3, 2, 100), on(2023, 2), NULL, 0, 0, SALLOWBINGO_STORE);
    REFUSED(11, agreed(1, 3, 100), on(2023, 2), NULL, 0, 0, SALLOWBINGO_STORE);
}

/* Bases, powers and cable values. */
static void basis_refused(void) {
    sallowbingo_contract good = agreed(1, 2, 100), c;
    fill_store();
    static const uint32_t bases[] = {0, 4, 2013, 3000, 4294967295u};
    for (size_t k = 0; k < COUNT(bases); k++) {
        c = good, c.basis = bases[k];
        REFUSED(12, c, on(2023, 2), NULL, 0, 0, SALLOWBINGO_STORE);
    }
    static const uint32_t powers[] = {0, 1000001, 4294967295u};
    for (size_t k = 0; k < COUNT(powers); k++) {
        REFUSED(12, agreed(1, 2, powers[k]), on(2023, 2), NULL, 0, 0, SALLOWBINGO_STORE);
        c = agreed(1, 2, powers[k]), c.basis = 2;
        REFUSED(12, c, on(2023, 2), NULL, 0, 0, SALLOWBINGO_STORE);
    }
    static const sallowbingo_cable bad[] = {{0, 230, 900, 1},    {2001, 230, 900, 1}, {4294967295u, 230, 900, 1},
                                            {1, 0, 900, 1},      {1, 250001, 900, 1}, {1, 230, 1001, 1},
                                            {1, 230, 900, 0},    {1, 230, 900, 2},    {1, 230, 900, 4294967295u}};
    for (size_t k = 0; k < COUNT(bad); k++) {
        c = good, c.basis = 3, c.cable = bad[k];
        REFUSED(13, c, on(2023, 2), NULL, 0, 0, SALLOWBINGO_STORE);
    }
}

/* Lists of currents and places in them. */
static void list_refused(void) {
    static const uint32_t list[] = {1, 2000, 1, 0, 1, 2001};
    static uint32_t long_list[65];
    for (size_t k = 0; k < 65; k++) long_list[k] = 1;
    sallowbingo_contract c = agreed(1, 2, 100);
    c.basis = 2;
    fill_store();
    REFUSED(14, c, on(2023, 2), NULL, 0, 0, SALLOWBINGO_STORE);
    REFUSED(14, c, on(2023, 2), list, 2, 2, SALLOWBINGO_STORE);
    REFUSED(14, c, on(2023, 2), list, 2, SIZE_MAX, SALLOWBINGO_STORE);
    REFUSED(14, c, on(2023, 2), list, 4, 0, SALLOWBINGO_STORE);
    REFUSED(14, c, on(2023, 2), list + 4, 2, 0, SALLOWBINGO_STORE);
    REFUSED(14, c, on(2023, 2), long_list, 65, 0, SALLOWBINGO_STORE);
    REFUSED(14, c, on(2023, 2), long_list, 64, 64, SALLOWBINGO_STORE);
}

/* E3 OF DOCUMENT 02. With an integral billing meter an opening takes a P of 669 and refuses one of 670 with 15. Here P
 * has three ways to come about, and each opening finds a full store, which a refused one leaves full. */

/* Basis 1: P is the agreed power. An interval billing meter takes any; the control meter makes no difference. */
static void integral_agreed(void) {
    static const uint32_t taken[] = {1, 668, 669}, not_taken[] = {670, 671, 1339, 65536 + 669, 999999, 1000000};
    for (uint32_t control = 0; control <= 2; control++) {
        for (size_t k = 0; k < COUNT(taken); k++) {
            sallowbingo_contract integral = agreed(2, control, taken[k]), interval = agreed(1, control, taken[k]);
            CHECK(opens(integral, NULL, 0, 0, integral) && opens(interval, NULL, 0, 0, interval));
        }
        for (size_t k = 0; k < COUNT(not_taken); k++) {
            sallowbingo_contract interval = agreed(1, control, not_taken[k]);
            CHECK(opens(interval, NULL, 0, 0, interval));
            fill_store();
            REFUSED(15, agreed(2, control, not_taken[k]), on(2023, 2), NULL, 0, 0, SALLOWBINGO_STORE);
        }
    }
}

/* A share is accepted and kept with an interval billing meter, and with an integral one too where it is at most 669, and
 * is refused where it is more; each with every control meter. */
static int shares(uint32_t power, const uint32_t *list, size_t points, size_t place, uint32_t share) {
    int right = 1;
    for (uint32_t control = 0; control <= 2; control++) {
        right &= opens(shared(1, control, power), list, points, place, shared(1, control, share));
        fill_store();
        sallowbingo_contract asked = shared(2, control, power);
        answer a = sallowbingo_open_point(asked, on(2023, 2), list, points, place, store, SALLOWBINGO_STORE);
        record kept = fresh(shared(2, control, share), 2023, 2);
        right &= share <= 669 ? accepted(a, kept) && cleared() : refused(a, 15, zeros());
    }
    return right;
}

/* Basis 2: P is the point's share, so neither the agreed power nor another point's share. */
static void integral_shared(void) {
    static const uint32_t equal[64] = {[0 ... 63] = 7}, unequal[] = {1, 2000};
    CHECK(shares(669, equal, 1, 0, 669) && shares(670, equal, 1, 0, 670)); /* a list of one has it all */
    /* 1,339 by 1, 1: the running sums 669.5 and 1,339 are rounded 670 and 1,339, so 670 and 669 */
    CHECK(shares(1339, equal, 2, 0, 670));
    CHECK(shares(1339, equal, 2, 1, 669));
    CHECK(shares(1338, equal, 2, 0, 669) && shares(1338, equal, 2, 1, 669));
    CHECK(shares(1340, equal, 2, 0, 670) && shares(1340, equal, 2, 1, 670));
    /* 2,008 by 1, 1, 1: 669.33, 1,338.67 and 2,008 are rounded 669, 1,339 and 2,008, so 669, 670 and 669 */
    CHECK(shares(2008, equal, 3, 0, 669));
    CHECK(shares(2008, equal, 3, 1, 670));
    CHECK(shares(2008, equal, 3, 2, 669));
    /* 42,817 by 64 equal ones: 669 and a 64th each; the 64ths reach a half at place 31, which gets the odd kW */
    CHECK(shares(42817, equal, 64, 30, 669) && shares(42817, equal, 64, 32, 669));
    CHECK(shares(42817, equal, 64, 0, 669) && shares(42817, equal, 64, 63, 669));
    CHECK(shares(42817, equal, 64, 31, 670));
    /* the greatest power by 1 and 2,000: 1,000,000 / 2,001 = 499.75, rounded 500, and 999,500 for the other */
    CHECK(shares(1000000, unequal, 2, 0, 500));
    CHECK(shares(1000000, unequal, 2, 1, 999500));
    CHECK(shares(1000000, equal, 1, 0, 1000000));
    CHECK(shares(1, equal, 2, 1, 0)); /* a share of 0 */
}

/* A cable is kept as given, with that billing meter and each control meter; the power asked for is not used. */
static int on_cable(uint32_t billing, sallowbingo_cable cable, uint32_t asked) {
    int right = 1;
    for (uint32_t control = 0; control <= 2; control++) {
        sallowbingo_contract kept = cabled(billing, control, cable), c = kept;
        c.power.kw = asked;
        right &= opens(c, NULL, 0, 0, kept);
    }
    return right;
}

/* Basis 3: P is the formula at t = 1, rounded half up. With three phases it is I × U × c / 500,000, and 669.5 is a
 * product of 334,750,000; with one phase / 1,500,000 and 1,004,250,000. A missing cosine counts as 900. */
static void integral_cabled(void) {
    static const sallowbingo_cable taken[] = {
        {1338, 250, 1000, 3}, /* 334,500,000: 669 */
        {31, 64661, 167, 3},  /* 334,749,997: 669.499994, the greatest product below the half */
        {8, 46493, 0, 3},     /* 8 × 46,493 × 900 = 334,749,600: 669.4992 */
        {501, 64661, 31, 1},  /* 1,004,249,991: 669.499994, the greatest below it with one phase */
        {1338, 750, 1000, 1}, /* 1,003,500,000: 669 */
        {1, 1, 1, 1},         /* 0 */
    };
    static const sallowbingo_cable not_taken[] = {
        {1339, 250, 1000, 3},     /* 334,750,000: 669.5, rounded 670 */
        {5, 74389, 0, 3},         /* 5 × 74,389 × 900 = 334,750,500: 669.501 */
        {1340, 250, 1000, 3},     /* 335,000,000: 670 */
        {1339, 750, 1000, 1},     /* 1,004,250,000: 669.5 */
        {501, 64661, 31, 3},      /* 1,004,249,991 / 500,000 = 2,008.5 */
        {2000, 250000, 1000, 1},  /* 333,333.3 */
        {2000, 250000, 1000, 3},  /* 1,000,000 */
    };
    for (size_t k = 0; k < COUNT(taken); k++) {
        CHECK(on_cable(2, taken[k], 0) && on_cable(2, taken[k], 1000000));
        CHECK(on_cable(1, taken[k], 0));
    }
    for (size_t k = 0; k < COUNT(not_taken); k++) {
        CHECK(on_cable(1, not_taken[k], 0));
        fill_store();
        for (uint32_t control = 0; control <= 2; control++) {
            sallowbingo_contract c = cabled(2, control, not_taken[k]);
            REFUSED(15, c, on(2023, 2), NULL, 0, 0, SALLOWBINGO_STORE);
            c.power.kw = 1;
            REFUSED(15, c, on(2023, 2), NULL, 0, 9, SALLOWBINGO_STORE);
        }
    }
}

/* On basis 1 neither the cable nor the list has a say in P: the greatest cable, and a list that would halve 1,338. */
static void integral_unused(void) {
    static const uint32_t halves[] = {1, 1};
    sallowbingo_contract c = agreed(2, 1, 669);
    c.cable = (sallowbingo_cable){2000, 250000, 1000, 3};
    CHECK(opens(c, NULL, 0, 0, agreed(2, 1, 669)));
    c = agreed(2, 1, 1338);
    fill_store();
    REFUSED(15, c, on(2023, 2), halves, 2, 0, SALLOWBINGO_STORE);
    c.cable = (sallowbingo_cable){1, 1, 1, 1};
    REFUSED(15, c, on(2023, 2), halves, 2, 0, SALLOWBINGO_STORE);
}

/* 15 comes last. Each opening here would be refused with it, were it not for one thing more that is wrong. */
static void integral_comes_last(void) {
    static const uint32_t wrong[] = {2000, 0}, high[] = {2000, 2001};
    static uint32_t long_list[65];
    for (size_t k = 0; k < COUNT(long_list); k++) long_list[k] = k == 0 ? 2000 : 1;
    sallowbingo_contract first = agreed(2, 2, 1000000), second = shared(2, 2, 1000000), c;
    fill_store();
    REFUSED(1, first, on(2023, 2), NULL, 0, 0, SALLOWBINGO_STORE - 1);
    REFUSED(10, first, on(2013, 12), NULL, 0, 0, SALLOWBINGO_STORE);
    REFUSED(10, second, on(2023, 13), long_list, 64, 0, SALLOWBINGO_STORE);
    REFUSED(11, agreed(2, 3, 670), on(2023, 2), NULL, 0, 0, SALLOWBINGO_STORE);
    REFUSED(11, agreed(3, 2, 670), on(2023, 2), NULL, 0, 0, SALLOWBINGO_STORE);
    REFUSED(12, agreed(2, 2, 1000001), on(2023, 2), NULL, 0, 0, SALLOWBINGO_STORE);
    REFUSED(12, shared(2, 2, 1000001), on(2023, 2), long_list, 64, 0, SALLOWBINGO_STORE);
    c = first, c.basis = 0, REFUSED(12, c, on(2023, 2), NULL, 0, 0, SALLOWBINGO_STORE);
    c = first, c.basis = 4, c.cable = (sallowbingo_cable){2000, 250000, 1000, 3};
    REFUSED(12, c, on(2023, 2), NULL, 0, 0, SALLOWBINGO_STORE);
    static const sallowbingo_cable bad[] = {{2001, 250000, 1000, 3}, {2000, 250001, 1000, 3}, {2000, 250000, 1001, 3},
                                            {2000, 250000, 1000, 2}, {UINT32_MAX, UINT32_MAX, UINT32_MAX, 3}};
    for (size_t k = 0; k < COUNT(bad); k++)
        REFUSED(13, cabled(2, 0, bad[k]), on(2023, 2), NULL, 0, 0, SALLOWBINGO_STORE);
    REFUSED(14, second, on(2023, 2), NULL, 0, 0, SALLOWBINGO_STORE);
    REFUSED(14, second, on(2023, 2), wrong, 2, 0, SALLOWBINGO_STORE);
    REFUSED(14, second, on(2023, 2), high, 2, 0, SALLOWBINGO_STORE);
    REFUSED(14, second, on(2023, 2), long_list, 65, 0, SALLOWBINGO_STORE);
    REFUSED(14, second, on(2023, 2), long_list, 64, 64, SALLOWBINGO_STORE);
    /* with nothing more wrong, in the calendar's first month and its last */
    REFUSED(15, first, on(2014, 1), NULL, 0, 0, SALLOWBINGO_STORE);
    REFUSED(15, second, on(2999, 12), long_list, 64, 0, SALLOWBINGO_STORE);
}

/* February 2023, T 672, each state by hand: every reading once. */
static record history_readings(record r) {
    answer a = sallowbingo_read_billing_hours(r, store, SALLOWBINGO_STORE, hours, 672);
    r.readings.billing.given = 1;
    CHECK(accepted(a, r) && row_is(12, 7, 672) && only_row(12));
    remember();
    CHECK(refused(sallowbingo_read_billing_hours(r, store, SALLOWBINGO_STORE, hours, 672), 22, r));
    a = sallowbingo_read_control_hours(r, store, SALLOWBINGO_STORE, hours, 672);
    r.readings.control.given = 1;
    CHECK(accepted(a, r) && row_is(13, 7, 672) && only_row(13));
    remember();
    CHECK(refused(sallowbingo_read_control_volume(r, store, SALLOWBINGO_STORE, kwh(1)), 20, r));
    a = sallowbingo_read_neighbour(r, store, SALLOWBINGO_STORE, 2, kwh(672000000));
    r.readings.second.given = 1, r.readings.second.volume.kwh = 672000000;
    CHECK(accepted(a, r) && untouched());
    CHECK(refused(sallowbingo_read_neighbour(r, store, SALLOWBINGO_STORE, 2, kwh(0)), 22, r));
    a = sallowbingo_read_neighbour(r, store, SALLOWBINGO_STORE, 1, kwh(0));
    r.readings.first.given = 1;
    CHECK(accepted(a, r) && untouched());
    return r;
}

/* The second denial discards the billing reading; after a permission it is given again. The run, 5 by now, stays. */
static record history_denials(record r) {
    answer a = sallowbingo_deny(r, store, SALLOWBINGO_STORE);
    r.service.denials = 1;
    CHECK(accepted(a, r) && untouched());
    a = sallowbingo_deny(r, store, SALLOWBINGO_STORE);
    r.service.denials = 2, r.readings.billing.given = 0;
    CHECK(accepted(a, r) && row_is(12, 0, 0) && only_row(12));
    remember();
    CHECK(refused(sallowbingo_deny(r, store, SALLOWBINGO_STORE), 33, r));
    CHECK(refused(sallowbingo_read_billing_hours(r, store, SALLOWBINGO_STORE, hours, 672), 21, r));
    r.service.run = 5;
    a = sallowbingo_permit(r, store, SALLOWBINGO_STORE);
    r.service.denials = 0;
    CHECK(accepted(a, r) && untouched());
    CHECK(refused(sallowbingo_permit(r, store, SALLOWBINGO_STORE), 34, r));
    a = sallowbingo_read_billing_hours(r, store, SALLOWBINGO_STORE, hours, 672);
    r.readings.billing.given = 1;
    CHECK(accepted(a, r) && row_is(12, 7, 672) && only_row(12));
    remember();
    return r;
}

/* The first fault leaves the run, and discards the reading; a second in the same month is a repeat. */
static void history_faults(record r) {
    CHECK(refused(sallowbingo_admit(r, store, SALLOWBINGO_STORE), 32, r));
    answer a = sallowbingo_fail(r, store, SALLOWBINGO_STORE, 2);
    r.service.serving = 0, r.service.fault = 2023 * 12 + 2, r.readings.billing.given = 0;
    CHECK(accepted(a, r) && row_is(12, 0, 0) && only_row(12));
    remember();
    CHECK(refused(sallowbingo_fail(r, store, SALLOWBINGO_STORE, 5), 30, r));
    a = sallowbingo_admit(r, store, SALLOWBINGO_STORE);
    r.service.serving = 1;
    CHECK(accepted(a, r) && untouched());
    a = sallowbingo_fail(r, store, SALLOWBINGO_STORE, 1);
    r.service.serving = 0, r.service.run = 0;
    CHECK(accepted(a, r) && untouched());
}

static void history(void) {
    memset(store, 0, sizeof store);
    remember();
    fill_hours(7);
    history_faults(history_denials(history_readings(fresh(agreed(1, 1, 100), 2023, 2))));
}

/* Volumes of integral meters in a month with that limit, T × 1,000,000: the record keeps them, the store stays. */
static record integral_readings(record r, uint64_t limit) {
    CHECK(refused(sallowbingo_read_billing_volume(r, store, SALLOWBINGO_STORE, kwh(limit + 1)), 24, r));
    answer a = sallowbingo_read_billing_volume(r, store, SALLOWBINGO_STORE, kwh(limit));
    r.readings.billing = (sallowbingo_reading){1, kwh(limit)};
    CHECK(accepted(a, r) && untouched());
    CHECK(refused(sallowbingo_read_billing_volume(r, store, SALLOWBINGO_STORE, kwh(0)), 22, r));
    CHECK(refused(sallowbingo_read_billing_hours(r, store, SALLOWBINGO_STORE, hours, (size_t)(limit / 1000000)), 20, r));
    CHECK(refused(sallowbingo_read_control_volume(r, store, SALLOWBINGO_STORE, kwh(limit + 1)), 24, r));
    a = sallowbingo_read_control_volume(r, store, SALLOWBINGO_STORE, kwh(limit));
    r.readings.control = (sallowbingo_reading){1, kwh(limit)};
    CHECK(accepted(a, r) && untouched());
    CHECK(refused(sallowbingo_read_control_volume(r, store, SALLOWBINGO_STORE, kwh(0)), 22, r));
    CHECK(refused(sallowbingo_read_control_hours(r, store, SALLOWBINGO_STORE, hours, (size_t)(limit / 1000000)), 20, r));
    return r;
}

/* The second denial makes the billing volume 0 and not given; row 12 becomes 0 too, whatever it held. */
static void integral_denials(record r, uint64_t limit) {
    answer a = sallowbingo_deny(r, store, SALLOWBINGO_STORE);
    r.service.denials = 1;
    CHECK(accepted(a, r) && untouched());
    a = sallowbingo_deny(r, store, SALLOWBINGO_STORE);
    r.service.denials = 2, r.readings.billing = (sallowbingo_reading){0, kwh(0)};
    CHECK(accepted(a, r) && row_is(12, 0, 0) && only_row(12));
    remember();
    CHECK(refused(sallowbingo_read_billing_volume(r, store, SALLOWBINGO_STORE, kwh(limit)), 21, r));
    a = sallowbingo_permit(r, store, SALLOWBINGO_STORE);
    r.service.denials = 0;
    CHECK(accepted(a, r) && untouched());
    CHECK(refused(sallowbingo_read_billing_volume(r, store, SALLOWBINGO_STORE, kwh(limit + 1)), 24, r));
    a = sallowbingo_read_billing_volume(r, store, SALLOWBINGO_STORE, kwh(limit - 1));
    r.readings.billing = (sallowbingo_reading){1, kwh(limit - 1)};
    CHECK(accepted(a, r) && untouched());
    CHECK(refused(sallowbingo_read_billing_volume(r, store, SALLOWBINGO_STORE, kwh(limit)), 22, r));
}

/* So does a failure of any reason; 1 and 2 are kept as the last fault. A volume of 0 counts as given. */
static void integral_failure(record r, uint32_t reason) {
    answer a = sallowbingo_fail(r, store, SALLOWBINGO_STORE, reason);
    r.service.serving = 0, r.readings.billing = (sallowbingo_reading){0, kwh(0)};
    if (reason <= 2) r.service.fault = 12 * r.date.year + r.date.month;
    CHECK(accepted(a, r) && row_is(12, 0, 0) && only_row(12));
    remember();
    CHECK(refused(sallowbingo_read_billing_volume(r, store, SALLOWBINGO_STORE, kwh(1)), 21, r));
    CHECK(refused(sallowbingo_read_control_volume(r, store, SALLOWBINGO_STORE, kwh(1)), 22, r));
    a = sallowbingo_admit(r, store, SALLOWBINGO_STORE);
    r.service.serving = 1;
    CHECK(accepted(a, r) && untouched());
    a = sallowbingo_read_billing_volume(r, store, SALLOWBINGO_STORE, kwh(0));
    r.readings.billing.given = 1;
    CHECK(accepted(a, r) && untouched());
    CHECK(refused(sallowbingo_read_billing_volume(r, store, SALLOWBINGO_STORE, kwh(0)), 22, r));
}

/* Integral meters in February 2024, T 696, and in March 2023, T 744. */
static void integral_history(void) {
    static const sallowbingo_date months[] = {{2024, 2}, {2023, 3}};
    static const uint64_t limits[] = {696000000, 744000000};
    for (size_t k = 0; k < COUNT(months); k++) {
        fill_store();
        record r = integral_readings(fresh(agreed(2, 2, 100), months[k].year, months[k].month), limits[k]);
        integral_denials(r, limits[k]);
        for (uint32_t reason = 1; reason <= 4; reason++) {
            fill_store();
            integral_failure(r, reason);
        }
    }
}

/* Readings of T hours, each of the most that an hour may have, then of the most that a word may. Words of the row from T
 * on become 0, whatever they held, and no word of another row changes. */
static void full_hours(record r, size_t count) {
    fill_store();
    fill_hours(4294967295u);
    CHECK(refused(sallowbingo_read_billing_hours(r, store, SALLOWBINGO_STORE, hours, count), 24, r));
    CHECK(refused(sallowbingo_read_control_hours(r, store, SALLOWBINGO_STORE, hours, count), 24, r));
    fill_hours(1000000);
    for (size_t wrong = count - 1; wrong <= count + 1; wrong += 2) {
        CHECK(refused(sallowbingo_read_billing_hours(r, store, SALLOWBINGO_STORE, hours, wrong), 23, r));
        CHECK(refused(sallowbingo_read_control_hours(r, store, SALLOWBINGO_STORE, hours, wrong), 23, r));
    }
    answer a = sallowbingo_read_billing_hours(r, store, SALLOWBINGO_STORE, hours, count);
    r.readings.billing.given = 1;
    CHECK(accepted(a, r) && row_is(12, 1000000, count) && only_row(12));
    remember();
    a = sallowbingo_read_control_hours(r, store, SALLOWBINGO_STORE, hours, count);
    r.readings.control.given = 1;
    CHECK(accepted(a, r) && row_is(13, 1000000, count) && only_row(13));
}

/* The lengths by hand: 28, 29, 30 and 31 days. */
static void each_length(void) {
    sallowbingo_contract hourly = agreed(1, 1, 100);
    full_hours(fresh(hourly, 2023, 2), 672);
    full_hours(fresh(hourly, 2024, 2), 696);
    full_hours(fresh(hourly, 2100, 2), 672);
    full_hours(fresh(hourly, 2400, 2), 696);
    full_hours(fresh(hourly, 2023, 4), 720);
    full_hours(fresh(hourly, 2014, 1), 744);
    full_hours(fresh(hourly, 2999, 12), 744);
}

/* Example l), through the calls: faults in January 2023 and January 2024 repeat; with February 2024 they don't. */
static void repeats(void) {
    record r = fresh(agreed(1, 0, 100), 2024, 1), s = r;
    r.service.run = 5, r.service.fault = 2023 * 12 + 1;
    CHECK(sallowbingo_fail(r, store, SALLOWBINGO_STORE, 1).after.service.run == 0);
    CHECK(sallowbingo_fail(r, store, SALLOWBINGO_STORE, 1).after.service.fault == 2024 * 12 + 1);
    CHECK(sallowbingo_fail(r, store, SALLOWBINGO_STORE, 3).after.service.run == 5);
    CHECK(sallowbingo_fail(r, store, SALLOWBINGO_STORE, 4).after.service.fault == 2023 * 12 + 1);
    s = r, s.date = on(2024, 2);
    CHECK(sallowbingo_fail(s, store, SALLOWBINGO_STORE, 1).after.service.run == 5);
    CHECK(sallowbingo_fail(s, store, SALLOWBINGO_STORE, 1).after.service.fault == 2024 * 12 + 2);
}

static void lengths(void) {
    static const size_t words[] = {0, 1, 744, 10415, 10417, ROOM};
    for (int which = 0; which < CALLS; which++) {
        fill_for(which);
        for (size_t k = 0; k < COUNT(words); k++) {
            CHECK(refused(call(which, ready(which), words[k]), 1, ready(which)));
            CHECK(refused(call(which, zeros(), words[k]), 1, zeros()));
        }
        CHECK(call(which, ready(which), SALLOWBINGO_STORE).refusal == 0);
        restore();
        record end = ready(which);
        end.date = on(3000, 1);
        CHECK(refused(call(which, end, SALLOWBINGO_STORE), 3, end));
    }
}

#define OUTSIDE(change) r = ready(which), change, CHECK(refused(call(which, r, SALLOWBINGO_STORE), 2, r))

/* Each field one outside its limits, or not 0 where it has to be: first the contract and the open month. */
static void fields_agreed(void) {
    record r;
    fill_store();
    for (int which = 0; which < CALLS; which++) {
        OUTSIDE(r.opened = 0);
        OUTSIDE(r.opened = 2);
        OUTSIDE(r.opened = 4294967295u);
        OUTSIDE(r.contract.billing = 0);
        OUTSIDE(r.contract.billing = 3);
        OUTSIDE(r.contract.control = 3);
        OUTSIDE(r.contract.basis = 0);
        OUTSIDE(r.contract.basis = 4);
        OUTSIDE(r.contract.basis = 3);
        OUTSIDE(r.contract.power.kw = 1000001);
        OUTSIDE(r.contract.cable.amperes = 1);
        OUTSIDE(r.contract.cable.volts = 1);
        OUTSIDE(r.contract.cable.cosine = 1);
        OUTSIDE(r.contract.cable.phases = 1);
        OUTSIDE((r.contract.basis = 2, r.contract.cable.phases = 1));
        OUTSIDE((r.contract.basis = 3, r.contract.power.kw = 1, r.contract.cable = (sallowbingo_cable){1, 1, 0, 1}));
        OUTSIDE((r.contract.basis = 3, r.contract.power.kw = 0, r.contract.cable = (sallowbingo_cable){2001, 1, 0, 1}));
        OUTSIDE((r.contract.basis = 3, r.contract.power.kw = 0, r.contract.cable = (sallowbingo_cable){1, 250001, 0, 1}));
        OUTSIDE((r.contract.basis = 3, r.contract.power.kw = 0, r.contract.cable = (sallowbingo_cable){1, 1, 1001, 1}));
        OUTSIDE((r.contract.basis = 3, r.contract.power.kw = 0, r.contract.cable = (sallowbingo_cable){1, 1, 0, 2}));
        OUTSIDE(r.date.year = 2013);
        OUTSIDE(r.date.year = 3000);
        OUTSIDE(r.date.month = 0);
        OUTSIDE(r.date.month = 13);
    }
}

/* Then what has happened since the opening. */
static void fields_since(void) {
    record r;
    fill_store();
    for (int which = 0; which < CALLS; which++) {
        OUTSIDE(r.service.run = 12001);
        OUTSIDE(r.service.serving = 2);
        OUTSIDE(r.service.denials = 3);
        OUTSIDE(r.service.fault = 2014 * 12);
        OUTSIDE(r.service.fault = 2023 * 12 + 3);
        OUTSIDE(r.service.fault = UINT64_MAX);
        OUTSIDE(r.past.years[0] = 2013);
        OUTSIDE(r.past.years[1] = 2023);
        OUTSIDE(r.past.years[11] = 4294967295u);
        OUTSIDE(r.past.latest = 2023 * 12 + 1);
        OUTSIDE((r.past.years[1] = 2022, r.past.latest = 2022 * 12 + 3));
        OUTSIDE(r.past.latest = UINT64_MAX);
        OUTSIDE(r.readings.billing.given = 2);
        OUTSIDE(r.readings.billing.volume.kwh = 1);
        OUTSIDE(r.readings.control.given = 2);
        OUTSIDE(r.readings.control.volume.kwh = 1);
        OUTSIDE((r.contract.billing = 1, r.readings.billing = (sallowbingo_reading){1, kwh(1)}));
        OUTSIDE((r.contract.control = 1, r.readings.control = (sallowbingo_reading){1, kwh(1)}));
        OUTSIDE((r.contract.billing = 2, r.readings.billing = (sallowbingo_reading){1, kwh(672000001)}));
        OUTSIDE((r.contract.control = 2, r.readings.control = (sallowbingo_reading){1, kwh(672000001)}));
        OUTSIDE((r.contract.control = 0, r.readings.control.given = 1));
        OUTSIDE(r.readings.first.given = 2);
        OUTSIDE(r.readings.first.volume.kwh = 1);
        OUTSIDE((r.readings.first.given = 1, r.readings.first.volume.kwh = 672000001));
        OUTSIDE((r.readings.second.given = 1, r.readings.second.volume.kwh = UINT64_MAX));
        OUTSIDE(r.total.kwh = 30000000000001);
    }
}

#define WITHIN(change) r = ready(which), change, CHECK(within(which, call(which, r, SALLOWBINGO_STORE))), restore()

static int within(int which, answer a) { return a.refusal != 2 && may_give(which, a.refusal); }

/* Each field exactly at its limit: the call may have a refusal of its own, but not 2. A record may have any P beside an
 * integral billing meter, and no call refuses it with an opening's number. */
static void fields_within(void) {
    record r;
    for (int which = 0; which < CALLS; which++) {
        fill_for(which);
        WITHIN(r.contract.power.kw = 0);
        WITHIN(r.contract.power.kw = 1000000);
        WITHIN((r.contract.basis = 2, r.contract.power.kw = 0));
        WITHIN((r.contract.basis = 3, r.contract.power.kw = 0, r.contract.cable = (sallowbingo_cable){1, 1, 0, 1}));
        WITHIN((r.contract.basis = 3, r.contract.power.kw = 0, r.contract.cable = (sallowbingo_cable){2000, 250000, 1000, 3}));
        WITHIN(r.contract = agreed(2, 2, 670));
        WITHIN(r.contract = agreed(2, 2, 1000000));
        WITHIN(r.contract = shared(2, 1, 1000000));
        WITHIN(r.contract = cabled(2, 0, (sallowbingo_cable){2000, 250000, 1000, 3}));
        WITHIN(r.date = on(2014, 1));
        WITHIN(r.date = on(2999, 12));
        WITHIN(r.service.run = 12000);
        WITHIN(r.service.denials = 2);
        WITHIN(r.service.fault = 2023 * 12 + 2);
        WITHIN(r.service.fault = 2014 * 12 + 1);
        WITHIN(r.past.years[0] = 2023);
        WITHIN(r.past.years[1] = 2022);
        WITHIN((r.past.years[0] = 2014, r.past.latest = 2014 * 12 + 1));
        WITHIN((r.past.years[0] = 2023, r.past.latest = 2023 * 12 + 1));
        WITHIN((r.contract.billing = 1, r.readings.billing.given = 1));
        WITHIN((r.contract.control = 1, r.readings.control.given = 1));
        WITHIN((r.contract.billing = 2, r.readings.billing = (sallowbingo_reading){1, kwh(672000000)}));
        WITHIN((r.contract.control = 2, r.readings.control = (sallowbingo_reading){1, kwh(672000000)}));
        WITHIN((r.readings.first = (sallowbingo_reading){1, kwh(672000000)}));
        WITHIN((r.readings.second = (sallowbingo_reading){1, kwh(672000000)}));
        WITHIN(r.total.kwh = 30000000000000);
    }
}

static uint64_t seed = 88172645463325252ull;
static uint64_t next(void) {
    seed ^= seed << 13, seed ^= seed >> 7, seed ^= seed << 17;
    return seed;
}

/* Records of any bits: all set, and at random. */
static void any_bits(void) {
    fill_store();
    record r;
    for (int which = 0; which < CALLS; which++) {
        memset(&r, 0xFF, sizeof r);
        CHECK(refused(call(which, r, SALLOWBINGO_STORE), 2, r));
        for (int k = 0; k < 2000; k++) {
            unsigned char *at = (unsigned char *)&r;
            for (size_t b = 0; b < sizeof r; b++) at[b] = (unsigned char)(next() >> 32);
            answer a = call(which, r, SALLOWBINGO_STORE);
            CHECK(a.refusal == 2 && same(a.after, r) && no_figures(a));
        }
        CHECK(untouched());
    }
}

/* Where each field of a record is, and whether it has 32 or 64 bits. */
#define FIELD(name) {offsetof(record, name), sizeof((record *)0)->name}
#define READING(name) FIELD(readings.name.given), FIELD(readings.name.volume.kwh)
static const struct {
    size_t at, bytes;
} places[] = {
    FIELD(opened), FIELD(contract.billing), FIELD(contract.control), FIELD(contract.basis), FIELD(contract.power.kw),
    FIELD(contract.cable.amperes), FIELD(contract.cable.volts), FIELD(contract.cable.cosine), FIELD(contract.cable.phases),
    FIELD(date.year), FIELD(date.month), FIELD(service.run), FIELD(service.serving), FIELD(service.denials),
    FIELD(service.fault), FIELD(past.years[0]), FIELD(past.years[1]), FIELD(past.years[2]), FIELD(past.years[3]),
    FIELD(past.years[4]), FIELD(past.years[5]), FIELD(past.years[6]), FIELD(past.years[7]), FIELD(past.years[8]),
    FIELD(past.years[9]), FIELD(past.years[10]), FIELD(past.years[11]), FIELD(past.latest), READING(billing),
    READING(control), READING(first), READING(second), FIELD(total.kwh),
};

/* Overwrites one field by random bits, a small number, or its value one more or less. */
static record with_one_changed(record r) {
    size_t field = (size_t)(next() % COUNT(places));
    unsigned char *at = (unsigned char *)&r + places[field].at;
    uint64_t wide = 0;
    uint32_t word = 0;
    if (places[field].bytes == 8) memcpy(&wide, at, 8);
    else memcpy(&word, at, 4), wide = word;
    switch ((next() >> 32) % 4) {
    case 0: wide = next(); break;
    case 1: wide = (next() >> 32) % 16; break;
    case 2: wide++; break;
    default: wide--;
    }
    word = (uint32_t)wide;
    if (places[field].bytes == 8) memcpy(at, &wide, 8);
    else memcpy(at, &word, 4);
    return r;
}

/* A point that accepts that call too, with a past, a fault, a total and a reading behind it. */
static record grown(int which) {
    record r = ready(which);
    r.service.run = 3, r.service.fault = 2022 * 12 + 2;
    r.past.years[0] = 2023, r.past.years[1] = 2022, r.past.years[11] = 2014, r.past.latest = 2023 * 12 + 1;
    r.readings.second = (sallowbingo_reading){1, kwh(9)}, r.total.kwh = 123456789012;
    return r;
}

/* Records that are right but for one field, which may be right as well. Only an accepted closing has figures. */
static void any_field(void) {
    int passed = 0, stopped = 0;
    fill_hours(7);
    for (int which = 0; which < CALLS; which++) {
        fill_for(which);
        CHECK(call(which, grown(which), SALLOWBINGO_STORE).refusal == 0);
        restore();
        for (int k = 0; k < 2000; k++) {
            record r = with_one_changed(k % 2 ? ready(which) : grown(which));
            answer a = call(which, r, SALLOWBINGO_STORE);
            CHECK(may_give(which, a.refusal) && no_figures(a) == (which != CLOSE || a.refusal != 0));
            if (a.refusal == 0) passed++, restore();
            else stopped++, CHECK(refused(a, a.refusal, r));
        }
    }
    CHECK(passed > 1000 && stopped > 1000);
}

/* Nothing lent: no store of 0 words, and no hours of a count of 0. */
static void nothing_lent(void) {
    record hourly = fresh(agreed(1, 1, 100), 2023, 2);
    fill_store();
    for (int which = 0; which < CALLS; which++) {
        CHECK(refused(call_on(which, ready(which), NULL, 0), 1, ready(which)));
        CHECK(refused(call_on(which, zeros(), NULL, 0), 1, zeros()));
    }
    answer a = sallowbingo_open_point(agreed(1, 2, 100), on(2023, 2), NULL, 0, 0, NULL, 0);
    CHECK(refused(a, 1, zeros()));
    CHECK(refused(sallowbingo_read_billing_hours(hourly, store, SALLOWBINGO_STORE, NULL, 0), 23, hourly));
    CHECK(refused(sallowbingo_read_control_hours(hourly, store, SALLOWBINGO_STORE, NULL, 0), 23, hourly));
    CHECK(refused(sallowbingo_read_billing_hours(hourly, NULL, 0, NULL, 0), 1, hourly));
    CHECK(refused(sallowbingo_read_control_hours(hourly, NULL, 0, NULL, 0), 1, hourly));
}

/* Hours of any length and value, and any number for volume, source and reason. */
static void arguments(void) {
    static const size_t counts[] = {0, 1, 671, 673, 744, 745, 10416, COUNT(hours)};
    record hourly = fresh(agreed(1, 1, 100), 2023, 2), whole = fresh(agreed(2, 2, 100), 2023, 2);
    fill_store();
    fill_hours(4294967295u);
    for (size_t k = 0; k < COUNT(counts); k++) {
        CHECK(refused(sallowbingo_read_billing_hours(hourly, store, SALLOWBINGO_STORE, hours, counts[k]), 23, hourly));
        CHECK(refused(sallowbingo_read_control_hours(hourly, store, SALLOWBINGO_STORE, hours, counts[k]), 23, hourly));
    }
    for (size_t at = 0; at < 672; at += 671) {
        for (size_t h = 0; h < 672; h++) hours[h] = h == at ? 1000001 : 1000000;
        CHECK(refused(sallowbingo_read_billing_hours(hourly, store, SALLOWBINGO_STORE, hours, 672), 24, hourly));
        CHECK(refused(sallowbingo_read_control_hours(hourly, store, SALLOWBINGO_STORE, hours, 672), 24, hourly));
    }
    static const uint64_t volumes[] = {672000001, 1ull << 32, UINT64_MAX};
    for (size_t k = 0; k < COUNT(volumes); k++) {
        CHECK(refused(sallowbingo_read_billing_volume(whole, store, SALLOWBINGO_STORE, kwh(volumes[k])), 24, whole));
        CHECK(refused(sallowbingo_read_control_volume(whole, store, SALLOWBINGO_STORE, kwh(volumes[k])), 24, whole));
        CHECK(refused(sallowbingo_read_neighbour(whole, store, SALLOWBINGO_STORE, 1, kwh(volumes[k])), 24, whole));
        CHECK(refused(sallowbingo_read_neighbour(whole, store, SALLOWBINGO_STORE, 2, kwh(volumes[k])), 24, whole));
    }
    static const uint32_t numbers[] = {0, 5, 6, 4294967295u};
    for (size_t k = 0; k < COUNT(numbers); k++) {
        CHECK(refused(sallowbingo_read_neighbour(whole, store, SALLOWBINGO_STORE, numbers[k], kwh(5)), 20, whole));
        CHECK(refused(sallowbingo_fail(whole, store, SALLOWBINGO_STORE, numbers[k]), 31, whole));
    }
    CHECK(refused(sallowbingo_read_neighbour(whole, store, SALLOWBINGO_STORE, 3, kwh(5)), 20, whole));
    CHECK(refused(sallowbingo_read_billing_hours(whole, store, SALLOWBINGO_STORE, hours, 672), 20, whole));
    CHECK(refused(sallowbingo_read_control_hours(whole, store, SALLOWBINGO_STORE, hours, 672), 20, whole));
    CHECK(refused(sallowbingo_read_billing_volume(hourly, store, SALLOWBINGO_STORE, kwh(5)), 20, hourly));
}

int main(void) {
    openings();
    longest_list();
    unused_arguments();
    opening_refused();
    basis_refused();
    list_refused();
    integral_agreed();
    integral_shared();
    integral_cabled();
    integral_unused();
    integral_comes_last();
    history();
    integral_history();
    each_length();
    repeats();
    lengths();
    fields_agreed();
    fields_since();
    fields_within();
    any_bits();
    any_field();
    nothing_lent();
    arguments();
    return check_tally();
}
