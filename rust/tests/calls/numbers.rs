//! The record as numbers, and what it says of the point.

use super::{day, place, Point, AGREED, CABLE};
use crate::rows::{read, write, ROWS};
use sallowbingo::{reason, source, Date, Kwh, Record, FIELDS};

/// December 2022 closed with 5 kWh an hour, and in January 2023 a fault, an admission, a denial and all readings.
fn full() -> Point {
    let mut p = Point::open(AGREED, 2022, 12);
    let (december, january) = (p.all_days([5; 24]), p.all_days(day(30, 6, 6)));
    p.record.read_billing_hours(&mut p.store, &december).unwrap();
    p.close(&p.all_days([0; 24])).unwrap();
    p.record.fail(&mut p.store, reason::FAULT).unwrap();
    p.record.admit(&p.store).unwrap();
    p.record.deny(&mut p.store).unwrap();
    p.record.read_billing_hours(&mut p.store, &january).unwrap();
    p.record.read_control_volume(&p.store, Kwh(500_000_000)).unwrap();
    p.record.read_neighbour(&p.store, source::BILLING, Kwh(11)).unwrap();
    p.record.read_neighbour(&p.store, source::CONTROL, Kwh(22)).unwrap();
    p
}

/// The last fault is of 2023 × 12 + 1 and the latest past of 2022 × 12 + 12; the total is 744 × 5.
#[test]
fn fields_of_a_full_record() {
    let fields = "opened=1 contract.billing=1 contract.control=2 contract.basis=1 contract.power=10 \
        date.year=2023 date.month=1 service.serving=1 service.denials=1 service.fault=24277 \
        past.years.12=2022 past.latest=24276 readings.billing.given=1 \
        readings.control.given=1 readings.control.volume=500000000 \
        readings.first.given=1 readings.first.volume=11 readings.second.given=1 readings.second.volume=22 total=3720";
    assert_eq!(write(&full().record.numbers()), fields);
}

/// February was missed, a meter taken down is no fault, and the failure discarded the billing reading.
#[test]
fn fields_of_a_cable_and_of_a_missed_month() {
    let mut p = Point::open(CABLE, 2022, 1);
    p.record.read_billing_volume(&p.store, Kwh(40_000)).unwrap();
    p.close(&p.all_days([0; 24])).unwrap();
    let february = p.close(&p.all_days([0; 24])).unwrap();
    p.record.deny(&mut p.store).unwrap();
    p.record.read_billing_volume(&p.store, Kwh(3_000)).unwrap();
    p.record.fail(&mut p.store, reason::TAKEN_DOWN).unwrap();
    let fields = "opened=1 contract.billing=2 contract.control=1 contract.basis=3 \
        contract.cable.amperes=100 contract.cable.volts=230 contract.cable.phases=3 \
        date.year=2022 date.month=3 service.run=1 service.denials=1 past.years.1=2022 past.latest=24265";
    assert_eq!(write(&p.record.numbers()), format!("{fields} total={}", 40_000 + february.volume.0));
}

#[test]
fn record_made_again_goes_on() {
    let mut p = full();
    p.record = Record::from_numbers(p.record.numbers()).unwrap();
    assert!(p == full());
    let closing = p.close(&p.all_days([0; 24])).unwrap();
    assert_eq!((closing.ground, closing.volume), (1, Kwh(31 * (30 + 23 * 6))));
}

/// The numbers 1, 2, 3 and so on.
fn counted() -> [u64; FIELDS] {
    std::array::from_fn(|place| place as u64 + 1)
}

#[test]
fn any_numbers_that_fit_make_a_record_and_come_back() {
    for numbers in [[0; FIELDS], [1; FIELDS], [u32::MAX.into(); FIELDS], counted()] {
        assert_eq!(Record::from_numbers(numbers).unwrap().numbers(), numbers);
    }
}

#[test]
fn only_wide_fields_hold_64_bits() {
    for (place, row) in ROWS.iter().enumerate() {
        let mut numbers = full().record.numbers();
        numbers[place] = 1 << 32;
        let record = Record::from_numbers(numbers);
        let fits = row.widest == u64::MAX;
        assert_eq!(record.map(|record| record.numbers()), fits.then_some(numbers), "{}", row.name);
    }
    let wide = ["service.fault", "past.latest", "readings.billing.volume", "readings.second.volume", "total"];
    assert!(wide.into_iter().all(|name| ROWS[place(name)].widest == u64::MAX));
}

/// The fields of a record and their numbers, as Debug shows them line by line.
fn shown(record: &Record) -> Vec<(String, u64)> {
    let text = format!("{record:#?}");
    let (mut path, mut element, mut fields) = (Vec::new(), 0, Vec::new());
    for line in text.lines().skip(2).map(|line| line.trim().trim_end_matches(',')) {
        let (name, value) = line.split_once(": ").unwrap_or(("", line));
        if !name.is_empty() {
            path.push(name.to_string());
            element = usize::from(value == "[");
        }
        match value.parse() {
            Ok(number) if element > 0 => {
                fields.push((format!("{}.{element}", path.join(".")), number));
                element += 1;
            }
            Ok(number) => fields.push((path.join("."), number)),
            Err(_) => {}
        }
        if matches!(value, ")" | "]" | "}") || !name.is_empty() && value.parse::<u64>().is_ok() {
            path.pop();
        }
    }
    fields
}

#[test]
fn names_are_those_of_the_structs() {
    let names = ROWS.iter().map(|row| row.name.clone());
    let record = Record::from_numbers(counted()).unwrap();
    assert_eq!(shown(&record), names.zip(counted()).collect::<Vec<_>>());
}

#[test]
fn text_names_the_numbers() {
    assert_eq!(read(&write(&counted())), Ok(counted()));
    assert_eq!((write(&[0; FIELDS]), read("")), (String::new(), Ok([0; FIELDS])));
    assert_eq!(write(&read::<FIELDS>("total=7  past.years.2=2020 opened=0").unwrap()), "past.years.2=2020 total=7");
}

#[test]
fn text_that_is_no_record() {
    let wrong = |text: &str| read::<FIELDS>(text).unwrap_err();
    assert_eq!(wrong("opened"), "opened: NAME=NUMBER is due");
    assert_eq!(wrong("date.day=3"), "date.day: no field of the record");
    assert_eq!(wrong("past.years.0=2020"), "past.years.0: no field of the record");
    assert_eq!(wrong("date.year=2O23"), "date.year=2O23: no number of 64 bits");
    assert_eq!(wrong("total=18446744073709551616"), "total=18446744073709551616: no number of 64 bits");
    assert_eq!(wrong("date.year=4294967296"), "date.year=4294967296: the field has 32 bits");
    assert_eq!(wrong("date.year=2023 date.year=2023"), "date.year: named twice");
}

#[test]
fn what_the_record_says() {
    let Point { record, .. } = full();
    assert_eq!(record.date(), Date { year: 2023, month: 1 });
    assert_eq!(record.month_hours(), 744);
    assert_eq!(record.total(), Kwh(744 * 5));
    assert_eq!((record.run(), record.in_service(), record.denials()), (0, true, 1));
}

#[test]
fn hours_of_the_open_month() {
    let hours = |year, month| {
        let mut numbers = full().record.numbers();
        (numbers[place("date.year")], numbers[place("date.month")]) = (year, month);
        Record::from_numbers(numbers).unwrap().month_hours()
    };
    assert_eq!(hours(2024, 2), 696);
    assert_eq!(hours(2023, 2), 672);
    assert_eq!(hours(2023, 4), 720);
    assert_eq!(hours(3000, 1), 744);
    assert_eq!([hours(3000, 2), hours(2013, 12), hours(2023, 13)], [0; 3]);
}
