//! The limits that the table of fields names, against the archive.

use crate::rows::{read, ROWS};
use sallowbingo::{Record, Refusal, STORE};

/// An agreed power in the calendar's first month, with no reading, no past and no fault.
const FIRST: &str = "opened=1 contract.billing=1 contract.basis=1 date.year=2014 date.month=1";

/// A cable after the calendar's last month, with every reading, and in its rows the calendar's first month and its last.
const LAST: &str = "opened=1 contract.billing=2 contract.control=2 contract.basis=3 \
    contract.cable.amperes=1 contract.cable.volts=1 contract.cable.phases=1 \
    date.year=3000 date.month=1 past.years.1=2014 past.years.12=2999 \
    readings.billing.given=1 readings.control.given=1 readings.first.given=1 readings.second.given=1";

/// Whether number 2 lets one of the two records pass with this number in a field.
fn passes(place: usize, number: u64) -> bool {
    let store = vec![0; STORE];
    [FIRST, LAST].into_iter().any(|base| {
        let mut numbers = read(base).unwrap();
        numbers[place] = number;
        Record::from_numbers(numbers).unwrap().permit(&store) != Err(Refusal::Record)
    })
}

#[test]
fn every_number_has_limits() {
    assert!(ROWS.iter().all(|row| !row.limits.is_empty() && row.greatest() <= row.widest));
}

#[test]
fn numbers_at_the_limits_pass() {
    for (place, row) in ROWS.iter().enumerate() {
        for number in row.limits.iter().flat_map(|range| [*range.start(), *range.end()]) {
            assert!(passes(place, number), "{}={number}", row.name);
        }
    }
}

#[test]
fn numbers_beside_the_limits_are_refused() {
    for (place, row) in ROWS.iter().enumerate() {
        let allowed = |number: &u64| row.limits.iter().any(|range| range.contains(number));
        for number in row.edges().into_iter().filter(|number| !allowed(number)) {
            assert!(!passes(place, number), "{}={number}", row.name);
        }
    }
}

/// An opening with an integral billing meter takes a P of 669 at most. A record is not bound by that.
#[test]
fn an_integral_meter_does_not_limit_the_power_of_a_record() {
    let store = vec![0; STORE];
    let passes = |fields: &str| {
        let text = format!("opened=1 contract.billing=2 date.year=2023 date.month=1 {fields}");
        Record::from_numbers(read(&text).unwrap()).unwrap().permit(&store) == Err(Refusal::NoDenial)
    };
    for power in [0, 669, 670, 1_000_000] {
        assert!(passes(&format!("contract.basis=1 contract.power={power}")), "basis 1, {power}");
        assert!(passes(&format!("contract.basis=2 contract.power={power}")), "basis 2, {power}");
    }
    let cable = "contract.cable.amperes=2000 contract.cable.volts=250000 contract.cable.cosine=1000";
    assert!(passes(&format!("contract.basis=3 {cable} contract.cable.phases=3")));
}
