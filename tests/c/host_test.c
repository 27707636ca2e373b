/* Calls the two functions of the billing host over their limits and just outside each of them, and compares them with
 * the formula in wide integers, with the C library's calendar and with a table of months. */
#define _DEFAULT_SOURCE
#include "sallowbingo.h"

#include "check.h"

#include <string.h>
#include <time.h>

/* The formula, rounded half up: the whole part of twice the quotient plus one, halved. */
static uint64_t formula(uint64_t amperes, uint64_t volts, uint64_t cosine, uint64_t phases, uint64_t hours) {
    unsigned __int128 top = (unsigned __int128)amperes * volts * (cosine == 0 ? 900 : cosine) * hours;
    unsigned __int128 bottom = phases == 1 ? 1500000 : 500000;
    return (uint64_t)((2 * top / bottom + 1) / 2);
}

static int inside(uint64_t amperes, uint64_t volts, uint64_t cosine, uint64_t phases, uint64_t hours) {
    return amperes >= 1 && amperes <= 2000 && volts >= 1 && volts <= 250000 && cosine <= 1000
        && (phases == 1 || phases == 3) && hours <= 8760;
}

/* Every combination of the values at the limits, just inside, just outside and far outside. */
static void formula_over_limits(void) {
    static const uint64_t amperes[] = {0, 1, 2, 100, 1999, 2000, 2001, (1ull << 32) + 100, UINT64_MAX};
    static const uint64_t volts[] = {0, 1, 25, 230, 249999, 250000, 250001, (1ull << 32) + 230, UINT64_MAX};
    static const uint64_t cosine[] = {0, 1, 125, 899, 900, 999, 1000, 1001, 1ull << 32, UINT64_MAX};
    static const uint64_t phases[] = {0, 1, 2, 3, 4, (1ull << 32) + 1, UINT64_MAX};
    static const uint64_t hours[] = {0, 1, 672, 720, 744, 8759, 8760, 8761, 1ull << 32, UINT64_MAX};
    for (size_t i = 0; i < COUNT(amperes); i++)
        for (size_t u = 0; u < COUNT(volts); u++)
            for (size_t c = 0; c < COUNT(cosine); c++)
                for (size_t f = 0; f < COUNT(phases); f++)
                    for (size_t t = 0; t < COUNT(hours); t++) {
                        uint64_t got = sallowbingo_cable_formula(amperes[i], volts[u], cosine[c], phases[f], hours[t]);
                        if (inside(amperes[i], volts[u], cosine[c], phases[f], hours[t]))
                            CHECK(got == formula(amperes[i], volts[u], cosine[c], phases[f], hours[t]));
                        else
                            CHECK(got == SALLOWBINGO_REFUSED);
                    }
}

static void formula_examples(void) {
    CHECK(sallowbingo_cable_formula(100, 230, 0, 3, 720) == 29808);
    CHECK(sallowbingo_cable_formula(100, 230, 0, 1, 720) == 9936);
    CHECK(sallowbingo_cable_formula(1, 25, 125, 1, 720) == 2);
    CHECK(sallowbingo_cable_formula(1, 25, 125, 1, 719) == 1);
    CHECK(sallowbingo_cable_formula(2000, 250000, 1000, 3, 8760) == 8760000000ull);
    CHECK(sallowbingo_cable_formula(2000, 250000, 1000, 3, 1) == 1000000);
    CHECK(sallowbingo_cable_formula(100, 230, 0, 3, 0) == 0);
}

/* Random values inside the limits. */
static void formula_at_random(void) {
    uint64_t s = 88172645463325252ull;
    for (int k = 0; k < 1000000; k++) {
        uint64_t v[5];
        for (int j = 0; j < 5; j++) {
            s ^= s << 13, s ^= s >> 7, s ^= s << 17;
            v[j] = s >> 16;
        }
        uint64_t amperes = v[0] % 2000 + 1, volts = v[1] % 250000 + 1, cosine = v[2] % 1001;
        uint64_t phases = v[3] % 2 * 2 + 1, hours = v[4] % 8761;
        CHECK(sallowbingo_cable_formula(amperes, volts, cosine, phases, hours) == formula(amperes, volts, cosine, phases, hours));
    }
}

/* The start of a month by the C library. */
static time_t start_of(int year, int month) {
    struct tm tm;
    memset(&tm, 0, sizeof tm);
    tm.tm_year = year - 1900;
    tm.tm_mon = month - 1;
    tm.tm_mday = 1;
    return timegm(&tm);
}

static void every_month(void) {
    for (int year = 2014; year <= 2999; year++)
        for (int month = 1; month <= 12; month++) {
            time_t days = (start_of(year, month + 1) - start_of(year, month)) / 86400;
            CHECK((time_t)sallowbingo_month_days((uint64_t)year, (uint64_t)month) == days);
        }
}

/* By a table, which divides by nothing: every fourth year from 2016 on has a day more, but for seven that are listed. */
static void every_month_by_table(void) {
    static const uint32_t table[] = {31, 28, 31, 30, 31, 30, 31, 31, 30, 31, 30, 31};
    static const uint64_t common[] = {2100, 2200, 2300, 2500, 2600, 2700, 2900};
    uint64_t fourth = 2016, months = 0, days = 0;
    size_t met = 0;
    for (uint64_t year = 2014; year <= 2999; year++) {
        int listed = met < COUNT(common) && year == common[met];
        for (uint64_t month = 1; month <= COUNT(table); month++, months++) {
            uint32_t length = month == 2 && year == fourth && !listed ? 29 : table[month - 1];
            CHECK(sallowbingo_month_days(year, month) == length);
            days += length;
        }
        fourth += year == fourth ? 4 : 0;
        met += listed ? 1 : 0;
    }
    CHECK(met == COUNT(common));
    CHECK(months == 11832);
    CHECK(days == 986 * 365 + 239); /* 246 fourth years, seven of them without the day */
}

static void months_outside(void) {
    for (uint64_t month = 0; month <= 14; month++) {
        CHECK(sallowbingo_month_days(2013, month) == 0);
        CHECK(sallowbingo_month_days(3000, month) == 0);
        CHECK(sallowbingo_month_days(0, month) == 0);
        CHECK(sallowbingo_month_days((1ull << 32) + 2024, month) == 0);
        CHECK(sallowbingo_month_days(UINT64_MAX, month) == 0);
    }
    for (uint64_t year = 2014; year <= 2999; year++) {
        CHECK(sallowbingo_month_days(year, 0) == 0);
        CHECK(sallowbingo_month_days(year, 13) == 0);
        CHECK(sallowbingo_month_days(year, (1ull << 32) + 2) == 0);
        CHECK(sallowbingo_month_days(year, UINT64_MAX) == 0);
    }
}

static void month_examples(void) {
    CHECK(sallowbingo_month_days(2023, 2) == 28);
    CHECK(sallowbingo_month_days(2024, 2) == 29);
    CHECK(sallowbingo_month_days(2100, 2) == 28);
    CHECK(sallowbingo_month_days(2400, 2) == 29);
    CHECK(sallowbingo_month_days(2014, 1) == 31);
    CHECK(sallowbingo_month_days(2999, 12) == 31);
}

int main(void) {
    formula_over_limits();
    formula_examples();
    formula_at_random();
    every_month();
    every_month_by_table();
    months_outside();
    month_examples();
    return check_tally();
}
