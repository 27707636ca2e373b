//! Refused calls: each number, and that record, store and hour buffer are as before.

use super::{place, Point, AGREED, CABLE};
use sallowbingo::{basis, meter, open, reason, source, Cable, Contract, Date, Kw, Kwh, Record, Refusal, FIELDS, STORE};

type Call = fn(&mut Point) -> Result<(), Refusal>;

/// A call, what it is made on, and what refuses it.
type Refused = (Refusal, fn() -> Point, Call);

/// An integral billing meter beside the other's control meter and power.
const INTEGRAL: Contract = Contract { billing: meter::INTEGRAL, ..AGREED };

/// A point in January 2023 whose row of December 2022 is filled.
fn interval() -> Point {
    let mut p = Point::open(AGREED, 2022, 12);
    p.record.read_billing_hours(&mut p.store, &[5; 744]).unwrap();
    p.close(&[0; 744]).unwrap();
    p
}

/// The same with all readings of January given.
fn read() -> Point {
    let mut p = interval();
    p.record.read_billing_hours(&mut p.store, &[6; 744]).unwrap();
    p.record.read_control_volume(&p.store, Kwh(800)).unwrap();
    p.record.read_neighbour(&p.store, source::BILLING, Kwh(11)).unwrap();
    p.record.read_neighbour(&p.store, source::CONTROL, Kwh(22)).unwrap();
    p
}

fn failed() -> Point {
    let mut p = interval();
    p.record.fail(&mut p.store, reason::TAKEN_DOWN).unwrap();
    p
}

fn denied_twice() -> Point {
    let mut p = interval();
    p.record.deny(&mut p.store).unwrap();
    p.record.deny(&mut p.store).unwrap();
    p
}

/// A point with an integral billing and an interval control meter in April 2023, both read.
fn integral() -> Point {
    let mut p = Point::open(CABLE, 2023, 4);
    p.record.read_billing_volume(&p.store, Kwh(9_000)).unwrap();
    p.record.read_control_hours(&mut p.store, &[3; 720]).unwrap();
    p
}

/// The same, not read.
fn unread() -> Point {
    Point::open(CABLE, 2023, 4)
}

/// A point without a control meter.
fn alone() -> Point {
    Point::open(Contract { control: meter::NONE, ..AGREED }, 2023, 1)
}

/// A point in January 3000.
fn over() -> Point {
    let mut p = Point::open(AGREED, 2999, 12);
    p.record.read_billing_hours(&mut p.store, &[5; 744]).unwrap();
    p.close(&[0; 744]).unwrap();
    assert_eq!(p.record.date(), Date { year: 3000, month: 1 });
    p
}

/// A point whose record has another number in one field.
fn forged(name: &str, number: u64) -> Point {
    let p = interval();
    let mut numbers = p.record.numbers();
    numbers[place(name)] = number;
    Point { record: Record::from_numbers(numbers).unwrap(), ..p }
}

/// Every method, on arguments that are right in January.
const METHODS: [Call; 10] = [
    |p| p.record.read_billing_hours(&mut p.store, &[6; 744]),
    |p| p.record.read_control_hours(&mut p.store, &[6; 744]),
    |p| p.record.read_billing_volume(&p.store, Kwh(800)),
    |p| p.record.read_control_volume(&p.store, Kwh(800)),
    |p| p.record.read_neighbour(&p.store, source::BILLING, Kwh(11)),
    |p| p.record.fail(&mut p.store, reason::FAULT),
    |p| p.record.admit(&p.store),
    |p| p.record.deny(&mut p.store),
    |p| p.record.permit(&p.store),
    |p| close(p, &[0; 744]),
];

/// A closing, without the day that a refused one may name.
fn close(p: &mut Point, marks: &[u8]) -> Result<(), Refusal> {
    p.close(marks)?;
    Ok(())
}

fn ask(p: &mut Point, contract: Contract, currents: &[u32], place: usize) -> Result<(), Refusal> {
    open(contract, Date { year: 2023, month: 1 }, currents, place, &mut p.store).map(drop)
}

fn ask_in(p: &mut Point, year: u32, month: u32) -> Result<(), Refusal> {
    open(AGREED, Date { year, month }, &[], 0, &mut p.store).map(drop)
}

const OPENING: [(Refusal, Call); 20] = [
    (Refusal::StoreLength, |p| open(AGREED, Date { year: 2023, month: 1 }, &[], 0, &mut p.store[1..]).map(drop)),
    (Refusal::StoreLength, |_| open(AGREED, Date { year: 2023, month: 1 }, &[], 0, &mut []).map(drop)),
    (Refusal::OpeningMonth, |p| ask_in(p, 2013, 12)),
    (Refusal::OpeningMonth, |p| ask_in(p, 3000, 1)),
    (Refusal::OpeningMonth, |p| ask_in(p, 2023, 13)),
    (Refusal::MeterKind, |p| ask(p, Contract { billing: meter::NONE, ..AGREED }, &[], 0)),
    (Refusal::MeterKind, |p| ask(p, Contract { control: 3, ..AGREED }, &[], 0)),
    (Refusal::Basis, |p| ask(p, Contract { basis: 4, ..AGREED }, &[], 0)),
    (Refusal::Basis, |p| ask(p, Contract { power: Kw(0), ..AGREED }, &[], 0)),
    (Refusal::CableValue, |p| ask(p, Contract { cable: Cable { amperes: 0, ..CABLE.cable }, ..CABLE }, &[], 0)),
    (Refusal::CableValue, |p| ask(p, Contract { cable: Cable { volts: 0, ..CABLE.cable }, ..CABLE }, &[], 0)),
    (Refusal::CableValue, |p| ask(p, Contract { cable: Cable { cosine: 1_001, ..CABLE.cable }, ..CABLE }, &[], 0)),
    (Refusal::CableValue, |p| ask(p, Contract { cable: Cable { phases: 2, ..CABLE.cable }, ..CABLE }, &[], 0)),
    (Refusal::Currents, |p| ask(p, Contract { basis: basis::SHARED, ..AGREED }, &[], 0)),
    (Refusal::Currents, |p| ask(p, Contract { basis: basis::SHARED, ..AGREED }, &[1; 65], 0)),
    (Refusal::Currents, |p| ask(p, Contract { basis: basis::SHARED, ..AGREED }, &[1, 2_001], 0)),
    (Refusal::Currents, |p| ask(p, Contract { basis: basis::SHARED, ..AGREED }, &[1, 1], 2)),
    (Refusal::IntegralMeter, |p| ask(p, Contract { power: Kw(670), ..INTEGRAL }, &[], 0)),
    (Refusal::IntegralMeter, |p| ask(p, Contract { basis: basis::SHARED, power: Kw(1_339), ..INTEGRAL }, &[1, 1], 0)),
    (Refusal::IntegralMeter, |p| {
        ask(p, Contract { cable: Cable { amperes: 1_339, volts: 250, cosine: 1_000, phases: 3 }, ..CABLE }, &[], 0)
    }),
];

const READING: [Refused; 24] = [
    (Refusal::NoSuchMeter, unread, |p| p.record.read_billing_hours(&mut p.store, &[6; 720])),
    (Refusal::NoSuchMeter, interval, |p| p.record.read_control_hours(&mut p.store, &[6; 744])),
    (Refusal::NoSuchMeter, interval, |p| p.record.read_billing_volume(&p.store, Kwh(800))),
    (Refusal::NoSuchMeter, alone, |p| p.record.read_control_volume(&p.store, Kwh(800))),
    (Refusal::NoSuchMeter, interval, |p| p.record.read_neighbour(&p.store, 0, Kwh(11))),
    (Refusal::NoSuchMeter, interval, |p| p.record.read_neighbour(&p.store, 3, Kwh(11))),
    (Refusal::BillingBarred, failed, |p| p.record.read_billing_hours(&mut p.store, &[6; 744])),
    (Refusal::BillingBarred, denied_twice, |p| p.record.read_billing_hours(&mut p.store, &[6; 744])),
    (Refusal::AlreadyGiven, read, |p| p.record.read_billing_hours(&mut p.store, &[8; 744])),
    (Refusal::AlreadyGiven, read, |p| p.record.read_control_volume(&p.store, Kwh(801))),
    (Refusal::AlreadyGiven, read, |p| p.record.read_neighbour(&p.store, source::BILLING, Kwh(12))),
    (Refusal::AlreadyGiven, read, |p| p.record.read_neighbour(&p.store, source::CONTROL, Kwh(23))),
    (Refusal::AlreadyGiven, integral, |p| p.record.read_billing_volume(&p.store, Kwh(9_001))),
    (Refusal::AlreadyGiven, integral, |p| p.record.read_control_hours(&mut p.store, &[4; 720])),
    (Refusal::HourCount, interval, |p| p.record.read_billing_hours(&mut p.store, &[6; 743])),
    (Refusal::HourCount, interval, |p| p.record.read_billing_hours(&mut p.store, &[])),
    (Refusal::HourCount, unread, |p| p.record.read_control_hours(&mut p.store, &[6; 744])),
    (Refusal::HourCount, unread, |p| p.record.read_control_hours(&mut p.store, &[])),
    (Refusal::TooLarge, interval, |p| p.record.read_billing_hours(&mut p.store, &[1_000_001; 744])),
    (Refusal::TooLarge, unread, |p| p.record.read_control_hours(&mut p.store, &[1_000_001; 720])),
    (Refusal::TooLarge, unread, |p| p.record.read_billing_volume(&p.store, Kwh(720_000_001))),
    (Refusal::TooLarge, interval, |p| p.record.read_control_volume(&p.store, Kwh(744_000_001))),
    (Refusal::TooLarge, interval, |p| p.record.read_neighbour(&p.store, source::BILLING, Kwh(744_000_001))),
    (Refusal::TooLarge, interval, |p| p.record.read_neighbour(&p.store, source::CONTROL, Kwh(u64::MAX))),
];

const NETWORK: [Refused; 6] = [
    (Refusal::OutOfService, failed, |p| p.record.fail(&mut p.store, reason::FAULT)),
    (Refusal::Reason, read, |p| p.record.fail(&mut p.store, 0)),
    (Refusal::Reason, read, |p| p.record.fail(&mut p.store, 5)),
    (Refusal::InService, read, |p| p.record.admit(&p.store)),
    (Refusal::TwoDenials, denied_twice, |p| p.record.deny(&mut p.store)),
    (Refusal::NoDenial, read, |p| p.record.permit(&p.store)),
];

/// Marks of January whose first day begins with these.
fn marks(first: &[u8]) -> Vec<u8> {
    let mut marks = vec![0; 744];
    marks[..first.len()].copy_from_slice(first);
    marks
}

/// A point whose store has this word at a place.
fn stored(place: usize, word: u32) -> Point {
    let mut p = read();
    p.store[place] = word;
    p
}

/// A closing that is lent so many words of the hour buffer.
fn close_into(p: &mut Point, marks: &[u8], room: usize) -> Result<(), Refusal> {
    p.record.close(&mut p.store, marks, &mut p.hours[..room])?;
    Ok(())
}

const CLOSING: [Refused; 11] = [
    (Refusal::MarkCount, read, |p| close(p, &[])),
    (Refusal::MarkCount, read, |p| close(p, &[0; 743])),
    (Refusal::Mark, read, |p| close(p, &marks(&[4]))),
    (Refusal::PeakHours, read, |p| close(p, &marks(&[3, 1, 1, 1, 1, 1, 1, 1, 1, 1, 1, 1, 1, 1, 1, 1, 1]))),
    (Refusal::CapacityHours, read, |p| close(p, &marks(&[2, 2]))),
    (Refusal::NoCapacityHour, read, |p| close(p, &marks(&[1]))),
    (Refusal::BufferLength, read, |p| close_into(p, &[0; 744], 743)),
    (Refusal::BufferLength, read, |p| close_into(p, &[0; 744], 0)),
    (Refusal::StoreWord, || stored(0, 3_000_001), |p| close(p, &[0; 744])),
    (Refusal::StoreWord, || stored(12 * 744, 1_000_001), |p| close(p, &[0; 744])),
    (Refusal::StoreWord, || stored(STORE - 1, u32::MAX), |p| close(p, &[0; 744])),
];

/// The call is refused with this, and nothing is changed.
fn check(refusal: Refusal, mut point: Point, call: Call) {
    let before = point.clone();
    assert_eq!(call(&mut point), Err(refusal));
    assert!(point.record == before.record, "{refusal}: the record changed");
    assert!(point.store == before.store, "{refusal}: the store changed");
    assert!(point.hours == before.hours, "{refusal}: the hours changed");
}

fn check_all(calls: &[Refused]) {
    for &(refusal, point, call) in calls {
        check(refusal, point(), call);
    }
}

#[test]
fn store_of_another_length() {
    for call in METHODS {
        for words in [0, 744, STORE - 1, STORE + 1] {
            let mut p = read();
            p.store.resize(words, 0);
            check(Refusal::StoreLength, p, call);
        }
    }
}

#[test]
fn record_that_no_point_can_have() {
    for call in METHODS {
        for numbers in [[0; FIELDS], [u32::MAX.into(); FIELDS]] {
            check(Refusal::Record, Point { record: Record::from_numbers(numbers).unwrap(), ..read() }, call);
        }
        check(Refusal::Record, forged("opened", 2), call); // neither open nor not
        check(Refusal::Record, forged("contract.cable.amperes", 1), call); // a cable on basis 1
        check(Refusal::Record, forged("service.run", 12_001), call);
        check(Refusal::Record, forged("past.latest", 2023 * 12 + 1), call); // latest past in the open month
        check(Refusal::Record, forged("total", 30_000_000_000_001), call);
    }
}

#[test]
fn calendar_over() {
    for call in METHODS {
        check(Refusal::CalendarOver, over(), call);
    }
}

#[test]
fn openings() {
    for (refusal, call) in OPENING {
        check(refusal, read(), call);
    }
}

#[test]
fn readings() {
    check_all(&READING);
}

#[test]
fn network_firm() {
    check_all(&NETWORK);
}

#[test]
fn closings() {
    check_all(&CLOSING);
}

#[test]
fn every_refusal_is_met_here() {
    let tables = [&READING[..], &NETWORK, &CLOSING].concat();
    let opening = OPENING.iter().map(|(refusal, _)| *refusal);
    let mut met: Vec<_> = tables.iter().map(|(refusal, _, _)| *refusal).chain(opening).collect();
    met.extend([Refusal::StoreLength, Refusal::Record, Refusal::CalendarOver]); // by every method
    met.sort();
    met.dedup();
    assert_eq!(met, Refusal::ALL);
}

#[test]
fn lowest_number_first() {
    // no meter of that form (20), out of service (21) and no hours (23)
    check(Refusal::NoSuchMeter, failed(), |p| p.record.read_control_hours(&mut p.store, &[]));
    check(Refusal::BillingBarred, failed(), |p| p.record.read_billing_hours(&mut p.store, &[]));
    // a place outside the list (14), and an integral meter with too much power by any place in it (15)
    check(Refusal::Currents, read(), |p| {
        ask(p, Contract { basis: basis::SHARED, power: Kw(1_000_000), ..INTEGRAL }, &[1, 1], 2)
    });
    // a power above its limit (12), and above that of an integral meter (15)
    check(Refusal::Basis, read(), |p| ask(p, Contract { power: Kw(1_000_001), ..INTEGRAL }, &[], 0));
    // a mark above 3 (41) in marks that are too few (40), with no buffer (44)
    check(Refusal::MarkCount, read(), |p| close_into(p, &[9], 0));
}

/// Peak hours without a capacity hour (46) go before a wrong hour buffer (44) and a word of the store (45).
#[test]
fn no_capacity_hour_before_buffer_and_store() {
    check(Refusal::NoCapacityHour, stored(0, 3_000_001), |p| close_into(p, &marks(&[1]), 0));
    check(Refusal::NoCapacityHour, stored(0, 3_000_001), |p| close(p, &marks(&[1])));
    check(Refusal::BufferLength, stored(0, 3_000_001), |p| close_into(p, &marks(&[3]), 0));
}
