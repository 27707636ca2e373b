/* Sallowbingo: one electricity delivery point, month by month, and the two
 * functions that a billing host calls on plain numbers.
 *
 * Every function ends on every input and needs no check beforehand: a value
 * outside the limits gives the refusal named here. Nothing is allocated and no
 * state is kept but the record and the store, which are the caller's. So calls on
 * different points may run at the same time, each with an hour buffer of its own;
 * the calls on one point come one after another.
 *
 * Volumes are whole kWh and powers whole kW. 'Document 01' is the specification
 * with requests E2, E3 and E8 of document 02; T is the hours of the open month,
 * 24 times its days. */
#ifndef SALLOWBINGO_H
#define SALLOWBINGO_H

#include <stddef.h>
#include <stdint.h>

#ifdef __cplusplus
extern "C" {
#endif

/* LIMITS. A name that ends in _MIN or _MAX is itself still allowed. */

/* The first and the last year of the calendar. */
#define SALLOWBINGO_YEAR_MIN 2014u
#define SALLOWBINGO_YEAR_MAX 2999u

/* An agreed power in kW. */
#define SALLOWBINGO_POWER_MIN 1u
#define SALLOWBINGO_POWER_MAX 1000000u

/* P in kW, the point's own power, at an opening with an integral billing meter. */
#define SALLOWBINGO_INTEGRAL_POWER_MAX 669u

/* The points that share an agreed power. */
#define SALLOWBINGO_POINTS_MIN 1u
#define SALLOWBINGO_POINTS_MAX 64u

/* A cable: amperes, volts (phase, nominal), thousandths of cos phi. A cosine of
 * 0 means missing and counts as SALLOWBINGO_COSINE_MISSING. */
#define SALLOWBINGO_AMPERES_MIN 1u
#define SALLOWBINGO_AMPERES_MAX 2000u
#define SALLOWBINGO_VOLTS_MIN 1u
#define SALLOWBINGO_VOLTS_MAX 250000u
#define SALLOWBINGO_COSINE_MAX 1000u
#define SALLOWBINGO_COSINE_MISSING 900u

/* The hours that the cable formula is asked for. */
#define SALLOWBINGO_HOURS_MAX 8760u

/* An hour that a meter reads, in kWh. A volume that is read is at most T times
 * as much. */
#define SALLOWBINGO_HOUR_READ_MAX 1000000u

/* A word of a past row, rows 0 to 11 of the store, in kWh. */
#define SALLOWBINGO_PAST_HOUR_MAX 3000000u

/* The peak hours of a day. */
#define SALLOWBINGO_PEAK_HOURS_MAX 16u

/* The run of missed months, the denials and the running total in kWh. */
#define SALLOWBINGO_RUN_MAX 12000u
#define SALLOWBINGO_DENIALS_MAX 2u
#define SALLOWBINGO_TOTAL_MAX UINT64_C(30000000000000)

/* The words of a row of the store, and of the hour buffer of a closing; the
 * rows of a store; the words of a store. Rows 0 to 11 hold the hours of January
 * to December, row 12 this month's billing hours and row 13 its control hours. */
#define SALLOWBINGO_ROW 744u
#define SALLOWBINGO_ROWS 14u
#define SALLOWBINGO_STORE 10416u
#define SALLOWBINGO_ROW_BILLING 12u
#define SALLOWBINGO_ROW_CONTROL 13u

/* What the cable formula answers where a value is outside its limits. */
#define SALLOWBINGO_REFUSED UINT64_MAX

/* KINDS */

/* A meter. A billing meter is interval or integral, a control meter may be none. */
#define SALLOWBINGO_METER_NONE 0u
#define SALLOWBINGO_METER_INTERVAL 1u
#define SALLOWBINGO_METER_INTEGRAL 2u

/* The basis of the power: an agreed power, a share of one, a cable. */
#define SALLOWBINGO_BASIS_AGREED 1u
#define SALLOWBINGO_BASIS_SHARED 2u
#define SALLOWBINGO_BASIS_CABLE 3u

/* The phases of a cable. */
#define SALLOWBINGO_PHASES_ONE 1u
#define SALLOWBINGO_PHASES_THREE 3u

/* The reason of a failure. A fault or loss at most 12 months after an earlier
 * fault or loss sets the run to 0. */
#define SALLOWBINGO_FAILURE_FAULT 1u
#define SALLOWBINGO_FAILURE_LOSS 2u
#define SALLOWBINGO_FAILURE_VERIFICATION 3u /* the verification interval is over */
#define SALLOWBINGO_FAILURE_TAKEN_DOWN 4u

/* The source of a neighbour reading. The billing meter's counts where both are given. */
#define SALLOWBINGO_NEIGHBOUR_BILLING 1u
#define SALLOWBINGO_NEIGHBOUR_CONTROL 2u

/* The mark of an hour. */
#define SALLOWBINGO_MARK_ORDINARY 0u
#define SALLOWBINGO_MARK_PEAK 1u
#define SALLOWBINGO_MARK_CAPACITY 2u
#define SALLOWBINGO_MARK_BOTH 3u

/* The ground of a closing. A control volume goes by the past for the first two
 * missed months (4); later, or with two denials, by the past where that puts
 * more on a capacity hour, on average, than the peak rule on a peak hour (6); and
 * by the peak rule otherwise, so always without a past, and in such a month
 * without peak hours (5). */
#define SALLOWBINGO_GROUND_BILLING_HOURS 1u
#define SALLOWBINGO_GROUND_BILLING_VOLUME 2u
#define SALLOWBINGO_GROUND_CONTROL_HOURS 3u
#define SALLOWBINGO_GROUND_CONTROL_BY_PAST 4u
#define SALLOWBINGO_GROUND_CONTROL_PEAK_RULE 5u
#define SALLOWBINGO_GROUND_CONTROL_BY_PAST_GREATER 6u
#define SALLOWBINGO_GROUND_PAST 7u
#define SALLOWBINGO_GROUND_POWER 8u
#define SALLOWBINGO_GROUND_CABLE 9u

/* The number of a refusal. Of those that apply the lowest is returned, but for
 * NO_CAPACITY_HOUR, 46, which a closing asks before 44 and 45. */
typedef enum sallowbingo_refusal {
    /* The call is accepted. */
    SALLOWBINGO_REFUSAL_NONE = 0,

    /* Anyone. */

    /* The store is not SALLOWBINGO_STORE words. */
    SALLOWBINGO_REFUSAL_STORE_LENGTH = 1,
    /* The record is not open, a field is outside its limits or not 0 where it
     * has to be, the last fault is neither 0 nor in 2014 to 2999 or is after the
     * open month, a row's month or the latest past is not before it, the latest
     * past month is not in its row, or a reading is given of a form that the
     * contract lacks or with too large a volume. */
    SALLOWBINGO_REFUSAL_RECORD = 2,
    /* The calendar is over: January 3000 is open. */
    SALLOWBINGO_REFUSAL_CALENDAR_OVER = 3,

    /* Contract staff, at the opening. */

    /* The year is outside the calendar, or the month is not 1 to 12. */
    SALLOWBINGO_REFUSAL_OPENING_MONTH = 10,
    /* The billing meter is not of kind 1 or 2, or the control meter not of kind 0 to 2. */
    SALLOWBINGO_REFUSAL_METER_KIND = 11,
    /* The basis is not 1 to 3, or the power on basis 1 or 2 is 0 or above SALLOWBINGO_POWER_MAX. */
    SALLOWBINGO_REFUSAL_BASIS = 12,
    /* On basis 3 a value of the cable is outside its limits. */
    SALLOWBINGO_REFUSAL_CABLE_VALUE = 13,
    /* On basis 2 the list is empty or above SALLOWBINGO_POINTS_MAX, a current is
     * outside the limits of amperes, or the place is outside the list. */
    SALLOWBINGO_REFUSAL_CURRENTS = 14,
    /* The billing meter is integral and P, the point's own power, is above
     * SALLOWBINGO_INTEGRAL_POWER_MAX. */
    SALLOWBINGO_REFUSAL_INTEGRAL_METER = 15,

    /* Meter readers. */

    /* There is no such meter, the meter reads in the other form, or the
     * neighbour source is not 1 or 2. */
    SALLOWBINGO_REFUSAL_NO_SUCH_METER = 20,
    /* A billing reading comes while the point is out of service or has two denials. */
    SALLOWBINGO_REFUSAL_BILLING_BARRED = 21,
    /* The reading is already given this month. */
    SALLOWBINGO_REFUSAL_ALREADY_GIVEN = 22,
    /* There are not T hours. */
    SALLOWBINGO_REFUSAL_HOUR_COUNT = 23,
    /* An hour is above SALLOWBINGO_HOUR_READ_MAX, or a volume above T times that. */
    SALLOWBINGO_REFUSAL_TOO_LARGE = 24,

    /* Network firm. */

    /* A failure comes while the point is out of service. */
    SALLOWBINGO_REFUSAL_OUT_OF_SERVICE = 30,
    /* The reason of a failure is not 1 to 4. */
    SALLOWBINGO_REFUSAL_REASON = 31,
    /* An admission comes while the point is in service. */
    SALLOWBINGO_REFUSAL_IN_SERVICE = 32,
    /* A denial comes when there are two. */
    SALLOWBINGO_REFUSAL_TWO_DENIALS = 33,
    /* A permission comes when there is no denial. */
    SALLOWBINGO_REFUSAL_NO_DENIAL = 34,

    /* Settlement, at the closing, which asks them in the order 40, 41, 42, 43, 46,
     * 44, 45. With 42, 43 and 46 wrong_day is the first day with that fault. */

    /* There are not T marks. */
    SALLOWBINGO_REFUSAL_MARK_COUNT = 40,
    /* A mark is above 3. */
    SALLOWBINGO_REFUSAL_MARK = 41,
    /* A day has over SALLOWBINGO_PEAK_HOURS_MAX peak hours. */
    SALLOWBINGO_REFUSAL_PEAK_HOURS = 42,
    /* A day has two or more capacity hours. */
    SALLOWBINGO_REFUSAL_CAPACITY_HOURS = 43,
    /* The hour buffer is not SALLOWBINGO_ROW words. */
    SALLOWBINGO_REFUSAL_BUFFER_LENGTH = 44,
    /* A word of the store is above SALLOWBINGO_PAST_HOUR_MAX in rows 0 to 11, or
     * above SALLOWBINGO_HOUR_READ_MAX in row 12 or 13. */
    SALLOWBINGO_REFUSAL_STORE_WORD = 45,
    /* A day has peak hours without a capacity hour. Asked after 43 and before 44. */
    SALLOWBINGO_REFUSAL_NO_CAPACITY_HOUR = 46
} sallowbingo_refusal;

/* STRUCTS. Flags are 1 for yes and 0 for no, and any other value is outside the
 * limits. The last fault and the latest past are numbers of months, year * 12 +
 * month, and 0 for none.
 *
 * Bytes between the fields hold anything: records are compared and kept field by
 * field, never as memory. */

/* A power in kW. */
typedef struct {
    uint32_t kw;
} sallowbingo_kw;

/* A volume in kWh. */
typedef struct {
    uint64_t kwh;
} sallowbingo_kwh;

/* A month of the calendar, month 1 to 12. */
typedef struct {
    uint32_t year, month;
} sallowbingo_date;

/* A cable: I, U (phase, nominal), thousandths of cos phi, phases 1 or 3. */
typedef struct {
    uint32_t amperes, volts, cosine, phases;
} sallowbingo_cable;

/* The kinds of the meters, and the basis with its power or its cable. Asked for
 * at the opening, the power is the agreed one; in a record it is the point's
 * own. In a record the field that the basis doesn't use is 0. */
typedef struct {
    uint32_t billing, control, basis;
    sallowbingo_kw power;
    sallowbingo_cable cable;
} sallowbingo_contract;

/* The run of missed months, whether the point is in service, the denials, and
 * the month of the last fault, 0 or in 2014 to 2999 and not after the open one. */
typedef struct {
    uint32_t run, serving, denials;
    uint64_t fault;
} sallowbingo_service;

/* The year that the row of each calendar month holds, 0 for none or 2014 to
 * 2999, and the latest past month, which is in its row. All lie before the open
 * month. */
typedef struct {
    uint32_t years[12];
    uint64_t latest;
} sallowbingo_past;

/* Whether the reading is given, and the volume of an integral or neighbour one,
 * else 0. */
typedef struct {
    uint32_t given;
    sallowbingo_kwh volume;
} sallowbingo_reading;

/* This month's readings: of the billing and the control meter, and of the
 * neighbour's sources 1 and 2. */
typedef struct {
    sallowbingo_reading billing, control, first, second;
} sallowbingo_readings;

/* What a point keeps beside the store: date is the open month, total the sum of
 * all month volumes. */
typedef struct {
    uint32_t opened;
    sallowbingo_contract contract;
    sallowbingo_date date;
    sallowbingo_service service;
    sallowbingo_past past;
    sallowbingo_readings readings;
    sallowbingo_kwh total;
} sallowbingo_record;

/* Of an accepted closing, else 0: ground, month volume, capacity, C (the sum of
 * the volumes in the capacity hours) and d (the working days). Capacity is C / d
 * rounded half up, and 0 if d is 0.
 * Of a closing refused with 42, 43 or 46, else 0: wrong_day, the first day of the
 * month with the fault of that number, 1 for the month's first. A day that has only
 * faults of other numbers does not count. */
typedef struct {
    uint32_t ground;
    sallowbingo_kwh volume;
    sallowbingo_kw capacity;
    sallowbingo_kwh sum;
    uint64_t days;
    uint64_t wrong_day;
} sallowbingo_figures;

/* The number of the refusal, a sallowbingo_refusal; the record after the call,
 * which is the record given where the call was refused, and zeros where that was
 * an opening; and the figures. */
typedef struct {
    uint32_t refusal;
    sallowbingo_record after;
    sallowbingo_figures figures;
} sallowbingo_answer;

/* THE LAYOUT that the archive was compiled with. A compiler that lays a struct
 * out in another way stops here. */

#ifdef __cplusplus
#define SALLOWBINGO_ASSERT(fact, text) static_assert(fact, text)
#else
#define SALLOWBINGO_ASSERT(fact, text) _Static_assert(fact, text)
#endif
#define SALLOWBINGO_SIZE(type, bytes) SALLOWBINGO_ASSERT(sizeof(type) == (bytes), "size of " #type)
#define SALLOWBINGO_OFFSET(type, field, bytes) \
    SALLOWBINGO_ASSERT(offsetof(type, field) == (bytes), "offset of " #field " in " #type)

SALLOWBINGO_ASSERT(sizeof(size_t) == 8, "lengths have 64 bits");
SALLOWBINGO_ASSERT(SALLOWBINGO_STORE == SALLOWBINGO_ROWS * SALLOWBINGO_ROW, "a store is its rows");

SALLOWBINGO_SIZE(sallowbingo_kw, 4);
SALLOWBINGO_OFFSET(sallowbingo_kw, kw, 0);

SALLOWBINGO_SIZE(sallowbingo_kwh, 8);
SALLOWBINGO_OFFSET(sallowbingo_kwh, kwh, 0);

SALLOWBINGO_SIZE(sallowbingo_date, 8);
SALLOWBINGO_OFFSET(sallowbingo_date, year, 0);
SALLOWBINGO_OFFSET(sallowbingo_date, month, 4);

SALLOWBINGO_SIZE(sallowbingo_cable, 16);
SALLOWBINGO_OFFSET(sallowbingo_cable, amperes, 0);
SALLOWBINGO_OFFSET(sallowbingo_cable, volts, 4);
SALLOWBINGO_OFFSET(sallowbingo_cable, cosine, 8);
SALLOWBINGO_OFFSET(sallowbingo_cable, phases, 12);

SALLOWBINGO_SIZE(sallowbingo_contract, 32);
SALLOWBINGO_OFFSET(sallowbingo_contract, billing, 0);
SALLOWBINGO_OFFSET(sallowbingo_contract, control, 4);
SALLOWBINGO_OFFSET(sallowbingo_contract, basis, 8);
SALLOWBINGO_OFFSET(sallowbingo_contract, power, 12);
SALLOWBINGO_OFFSET(sallowbingo_contract, cable, 16);

SALLOWBINGO_SIZE(sallowbingo_service, 24);
SALLOWBINGO_OFFSET(sallowbingo_service, run, 0);
SALLOWBINGO_OFFSET(sallowbingo_service, serving, 4);
SALLOWBINGO_OFFSET(sallowbingo_service, denials, 8);
SALLOWBINGO_OFFSET(sallowbingo_service, fault, 16);

SALLOWBINGO_SIZE(sallowbingo_past, 56);
SALLOWBINGO_OFFSET(sallowbingo_past, years, 0);
SALLOWBINGO_OFFSET(sallowbingo_past, latest, 48);

SALLOWBINGO_SIZE(sallowbingo_reading, 16);
SALLOWBINGO_OFFSET(sallowbingo_reading, given, 0);
SALLOWBINGO_OFFSET(sallowbingo_reading, volume, 8);

SALLOWBINGO_SIZE(sallowbingo_readings, 64);
SALLOWBINGO_OFFSET(sallowbingo_readings, billing, 0);
SALLOWBINGO_OFFSET(sallowbingo_readings, control, 16);
SALLOWBINGO_OFFSET(sallowbingo_readings, first, 32);
SALLOWBINGO_OFFSET(sallowbingo_readings, second, 48);

SALLOWBINGO_SIZE(sallowbingo_record, 200);
SALLOWBINGO_OFFSET(sallowbingo_record, opened, 0);
SALLOWBINGO_OFFSET(sallowbingo_record, contract, 4);
SALLOWBINGO_OFFSET(sallowbingo_record, date, 36);
SALLOWBINGO_OFFSET(sallowbingo_record, service, 48);
SALLOWBINGO_OFFSET(sallowbingo_record, past, 72);
SALLOWBINGO_OFFSET(sallowbingo_record, readings, 128);
SALLOWBINGO_OFFSET(sallowbingo_record, total, 192);

SALLOWBINGO_SIZE(sallowbingo_figures, 48);
SALLOWBINGO_OFFSET(sallowbingo_figures, ground, 0);
SALLOWBINGO_OFFSET(sallowbingo_figures, volume, 8);
SALLOWBINGO_OFFSET(sallowbingo_figures, capacity, 16);
SALLOWBINGO_OFFSET(sallowbingo_figures, sum, 24);
SALLOWBINGO_OFFSET(sallowbingo_figures, days, 32);
SALLOWBINGO_OFFSET(sallowbingo_figures, wrong_day, 40);

SALLOWBINGO_SIZE(sallowbingo_answer, 256);
SALLOWBINGO_OFFSET(sallowbingo_answer, refusal, 0);
SALLOWBINGO_OFFSET(sallowbingo_answer, after, 8);
SALLOWBINGO_OFFSET(sallowbingo_answer, figures, 208);

#undef SALLOWBINGO_OFFSET
#undef SALLOWBINGO_SIZE
#undef SALLOWBINGO_ASSERT

/* THE BILLING HOST'S TWO FUNCTIONS */

/* The volume in whole kWh that a cable can carry in some hours:
 * amperes * volts * cosine * hours / 1,500,000 with one phase and / 500,000
 * with three, rounded half up.
 *   amperes  1 to 2,000
 *   volts    phase, nominal, 1 to 250,000
 *   cosine   thousandths of cos phi, 1 to 1,000; 0 means missing and counts as 900
 *   phases   1 or 3
 *   hours    0 to 8,760
 * Any other value gives SALLOWBINGO_REFUSED. */
uint64_t sallowbingo_cable_formula(uint64_t amperes, uint64_t volts, uint64_t cosine, uint64_t phases, uint64_t hours);

/* The length of a month in days: January 2014 to December 2999, months 1 to 12.
 * Any other month gives 0. */
uint32_t sallowbingo_month_days(uint64_t year, uint64_t month);

/* THE CALLS ON A POINT
 *
 * The record goes in and comes back by value; the store is the caller's, an
 * array of SALLOWBINGO_STORE words, lent with its length in words. A record of
 * any bits may be handed in: one that is outside document 01's limits is refused.
 *
 * Every pointer is aligned for its type and valid for the length that is lent
 * with it, and the arrays that are lent to one call do not overlap. With length 0
 * a pointer may be null. One list is excepted: the currents of an opening whose
 * basis is not 2 may be any pointer with any length. The store before an opening
 * and the hour buffer before a closing may hold anything.
 *
 * The lowest number that applies is returned, but a closing asks 46 before 44 and
 * 45. A refused call leaves every array as it was and answers the record given; a
 * refused opening answers a record of zeros. The figures of a refused call are 0,
 * but for wrong_day of a closing refused with 42, 43 or 46. 'Refusals: 1 to 3' are
 * STORE_LENGTH, RECORD and CALENDAR_OVER. */

/* Opens a point in the month of date, in service, with all else 0 or missing,
 * and clears the store. On basis 1 or 2 the power asked for is the agreed one;
 * on basis 2 it is shared in list order by the currents of the points' cables,
 * one word a point, and place is the point's own in that list, counted from 0:
 * the points up to any one have together the whole kW nearest to what is theirs,
 * and of two equally near the greater.
 * Where the basis is not 2, and also where it is no basis, currents, points and
 * place are not looked at. They may be anything then: the pointer may point
 * nowhere or be out of alignment, whatever number of points stands beside it.
 * With an integral billing meter P is at most SALLOWBINGO_INTEGRAL_POWER_MAX. P
 * is the point's own: on basis 1 the agreed power, on basis 2 the point's share
 * of it, on basis 3 what sallowbingo_cable_formula gives for 1 hour. The opening
 * alone looks at this. A record with an integral billing meter and a greater P
 * that was opened earlier goes on, and no other call refuses it for that.
 * Refusals: 1 STORE_LENGTH, 10 OPENING_MONTH, 11 METER_KIND, 12 BASIS,
 * 13 CABLE_VALUE, 14 CURRENTS, 15 INTEGRAL_METER. */
sallowbingo_answer sallowbingo_open_point(sallowbingo_contract asked, sallowbingo_date date, const uint32_t *currents,
                                          size_t points, size_t place, uint32_t *store, size_t words);

/* Takes this month's hours of an interval billing meter into row 12, once a
 * month, and again where the reading was discarded; count is T.
 * Refusals: 1 to 3, 20 NO_SUCH_METER, 21 BILLING_BARRED, 22 ALREADY_GIVEN,
 * 23 HOUR_COUNT, 24 TOO_LARGE. */
sallowbingo_answer sallowbingo_read_billing_hours(sallowbingo_record record, uint32_t *store, size_t words,
                                                  const uint32_t *hours, size_t count);

/* Takes this month's hours of an interval control meter into row 13, once a
 * month; count is T. It may also come while the point is out of service or has
 * two denials.
 * Refusals: 1 to 3, 20 NO_SUCH_METER, 22 ALREADY_GIVEN, 23 HOUR_COUNT,
 * 24 TOO_LARGE. */
sallowbingo_answer sallowbingo_read_control_hours(sallowbingo_record record, uint32_t *store, size_t words,
                                                  const uint32_t *hours, size_t count);

/* Takes this month's volume of an integral billing meter, once a month, and
 * again where the reading was discarded.
 * Refusals: 1 to 3, 20 NO_SUCH_METER, 21 BILLING_BARRED, 22 ALREADY_GIVEN,
 * 24 TOO_LARGE. */
sallowbingo_answer sallowbingo_read_billing_volume(sallowbingo_record record, const uint32_t *store, size_t words,
                                                   sallowbingo_kwh volume);

/* Takes this month's volume of an integral control meter, once a month. It may
 * also come while the point is out of service or has two denials.
 * Refusals: 1 to 3, 20 NO_SUCH_METER, 22 ALREADY_GIVEN, 24 TOO_LARGE. */
sallowbingo_answer sallowbingo_read_control_volume(sallowbingo_record record, const uint32_t *store, size_t words,
                                                   sallowbingo_kwh volume);

/* Takes this month's volume of a neighbour, once a month for each source. A
 * closing takes it off the volume of an integral meter, never below 0; source 1
 * counts where both are given.
 * Refusals: 1 to 3, 20 NO_SUCH_METER (the source), 22 ALREADY_GIVEN (from that
 * source), 24 TOO_LARGE. */
sallowbingo_answer sallowbingo_read_neighbour(sallowbingo_record record, const uint32_t *store, size_t words,
                                              uint32_t source, sallowbingo_kwh volume);

/* Takes the point out of service for a SALLOWBINGO_FAILURE_ reason, and discards
 * this month's billing reading. With fault or loss the month is kept as that of
 * the last fault, and the run becomes 0 if the one before is at most 12 months
 * back.
 * Refusals: 1 to 3, 30 OUT_OF_SERVICE, 31 REASON. */
sallowbingo_answer sallowbingo_fail(sallowbingo_record record, uint32_t *store, size_t words, uint32_t reason);

/* Admits the point back into service.
 * Refusals: 1 to 3, 32 IN_SERVICE. */
sallowbingo_answer sallowbingo_admit(sallowbingo_record record, const uint32_t *store, size_t words);

/* Adds a denial of access. The second one discards this month's billing reading.
 * Refusals: 1 to 3, 33 TWO_DENIALS. */
sallowbingo_answer sallowbingo_deny(sallowbingo_record record, uint32_t *store, size_t words);

/* Permits access: the denials become 0. The run stays.
 * Refusals: 1 to 3, 34 NO_DENIAL. */
sallowbingo_answer sallowbingo_permit(sallowbingo_record record, const uint32_t *store, size_t words);

/* Closes the open month and opens the next; after December 2999 that is January
 * 3000, and every later call but an opening is refused, with 3 where neither 1
 * nor 2 applies. marks has count bytes, which is T, one SALLOWBINGO_MARK_ an
 * hour. hours has room words, which is SALLOWBINGO_ROW; it gets the month's
 * hours, and 0 from T on. The figures are ground, month volume, capacity, C (sum)
 * and d (days). On grounds 1 and 2 the hours become the month's row and the
 * latest past, and the run is 0; otherwise the run grows by 1. The total grows by
 * the month volume, and this month's readings are cleared.
 * Refusals, in the order in which they are asked, each of the whole month before
 * the next: 1 to 3, 40 MARK_COUNT, 41 MARK, 42 PEAK_HOURS, 43 CAPACITY_HOURS,
 * 46 NO_CAPACITY_HOUR, 44 BUFFER_LENGTH, 45 STORE_WORD. With 42, 43 and 46 wrong_day
 * is the first day with that fault; where its marks are put right, the next closing
 * names the next one. */
sallowbingo_answer sallowbingo_close(sallowbingo_record record, uint32_t *store, size_t words, const uint8_t *marks,
                                     size_t count, uint32_t *hours, size_t room);

#ifdef __cplusplus
}
#endif

#endif
