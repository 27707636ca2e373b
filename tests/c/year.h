/* What the C tests of a year share: marks and expected hours, calls that a record goes on from, and what a closing has
 * to give. */
#ifndef YEAR_H
#define YEAR_H

#include "point.h"

#define WORDS SALLOWBINGO_STORE

enum { YEAR = 2023, DAY = 24 };

/* What a closing is lent, and the hours that it has to hand out. */
static uint8_t marks[HOURS];
static uint32_t expected[HOURS];

/* No hour is marked or expected, and every word of the buffer is 7, so that a word that a closing leaves is seen. */
static inline void begin(void) {
    memset(marks, SALLOWBINGO_MARK_ORDINARY, sizeof marks);
    memset(expected, 0, sizeof expected);
    for (size_t k = 0; k < COUNT(buffer); k++) buffer[k] = 7;
    remember();
}

/* The call is accepted without figures, and the record goes on as it left it. */
static inline int accepted(answer a, record *r) {
    *r = a.after;
    return a.refusal == SALLOWBINGO_REFUSAL_NONE && no_figures(a);
}

/* Marks peak hours of a day, from one on, and the capacity hour. */
static inline void mark(size_t day, size_t first, size_t peaks, size_t capacity) {
    for (size_t h = first; h < first + peaks; h++) marks[DAY * day + h] |= SALLOWBINGO_MARK_PEAK;
    marks[DAY * day + capacity] |= SALLOWBINGO_MARK_CAPACITY;
}

/* The same word in every even hour of so many days, and one in every odd hour. */
static inline void fill(uint32_t *hours, size_t days, uint32_t even, uint32_t odd) {
    for (size_t h = 0; h < DAY * days; h++) hours[h] = h % 2 == 0 ? even : odd;
}

static inline answer close_month(record r, size_t days) {
    remember();
    return sallowbingo_close(r, store, WORDS, marks, DAY * days, buffer, SALLOWBINGO_ROW);
}

/* The buffer holds the expected hours and 0 after them, and the words past its end are as they were. */
static inline int handed_out(void) {
    return memcmp(buffer, expected, sizeof expected) == 0
        && memcmp(buffer + HOURS, buffer_was + HOURS, sizeof buffer - sizeof expected) == 0;
}

/* What a closing gives: ground, month volume, C, d and capacity, and the total and the run that it leaves. */
typedef struct {
    uint32_t ground;
    uint64_t volume, c, d, capacity, total, run;
} closing;

/* The closing is accepted and gives that, no day is wrong, and the hours are those expected. */
#define CHECK_CLOSED(a, ...)                             \
    do {                                                 \
        closing given = __VA_ARGS__;                     \
        CHECK(a.refusal == SALLOWBINGO_REFUSAL_NONE);    \
        CHECK(a.figures.ground == given.ground);         \
        CHECK(a.figures.volume.kwh == given.volume);     \
        CHECK(a.figures.sum.kwh == given.c);             \
        CHECK(a.figures.days == given.d);                \
        CHECK(a.figures.wrong_day == 0);                 \
        CHECK(a.figures.capacity.kw == given.capacity);  \
        CHECK(a.after.total.kwh == given.total);         \
        CHECK(a.after.service.run == given.run);         \
        CHECK(handed_out());                             \
    } while (0)

/* A row of the store holds those words. */
static inline int row_holds(size_t row, const uint32_t *hours) {
    return memcmp(store + SALLOWBINGO_ROW * row, hours, SALLOWBINGO_ROW * sizeof *hours) == 0;
}

#endif
