// A C++ program over the installed header and archive: the length of a month, and a point that is opened.
#include <sallowbingo.h>

#include <cstdio>

static uint32_t store[SALLOWBINGO_STORE];

int main() {
    sallowbingo_contract asked = {};
    asked.billing = SALLOWBINGO_METER_INTERVAL, asked.basis = SALLOWBINGO_BASIS_AGREED, asked.power.kw = 100;
    sallowbingo_answer a = sallowbingo_open_point(asked, {2024, 2}, nullptr, 0, 0, store, SALLOWBINGO_STORE);
    bool good = sallowbingo_month_days(2024, 2) == 29 && a.refusal == SALLOWBINGO_REFUSAL_NONE
        && a.after.contract.power.kw == 100 && a.after.date.month == 2;
    a = sallowbingo_permit(a.after, store, SALLOWBINGO_STORE);
    good = good && a.refusal == SALLOWBINGO_REFUSAL_NO_DENIAL;
    if (!good) std::puts("a call answered something else");
    return good ? 0 : 1;
}
