//! The day that a closing names when it is refused for its marks, by request E8. Days are counted from 1.

use super::{day, working_day, Point, AGREED};
use sallowbingo::{mark, source, Figures, Kw, Kwh, Record, Refusal, RefusedClosing, FIELDS};

/// A day on which the capacity hour is forgotten, and one that has a second capacity hour.
const FORGOTTEN: [u8; 24] = day(mark::PEAK, mark::PEAK, mark::ORDINARY);
const SECOND: [u8; 24] = day(mark::BOTH, mark::BOTH, mark::ORDINARY);

/// 17 peak hours, the first of them the capacity hour.
const LONG: [u8; 24] = {
    let mut day = [mark::ORDINARY; 24];
    let mut hour = 7;
    while hour < 24 {
        day[hour] = if hour == 7 { mark::BOTH } else { mark::PEAK };
        hour += 1;
    }
    day
};

/// Each number with a day that has its fault alone.
const FAULTS: [(Refusal, [u8; 24]); 3] =
    [(Refusal::PeakHours, LONG), (Refusal::CapacityHours, SECOND), (Refusal::NoCapacityHour, FORGOTTEN)];

/// A point with readings in a month of each length.
fn months() -> [Point; 4] {
    [(2023, 2), (2024, 2), (2023, 4), (2023, 1)].map(|(year, month)| {
        let mut p = Point::open(AGREED, year, month);
        p.record.read_control_volume(&p.store, Kwh(800)).unwrap();
        p.record.read_neighbour(&p.store, source::CONTROL, Kwh(11)).unwrap();
        p
    })
}

/// Working days, but for these.
fn marks(p: &Point, others: &[(usize, [u8; 24])]) -> Vec<u8> {
    let mut marks = p.all_days(working_day());
    for (number, day) in others {
        marks[24 * (number - 1)..24 * number].copy_from_slice(day);
    }
    marks
}

/// The closing is refused with this and names that day, and nothing is changed.
fn check(p: &mut Point, others: &[(usize, [u8; 24])], refusal: Refusal, day: usize) {
    let before = p.clone();
    let refused = RefusedClosing { refusal, wrong_day: Some(day as u64) };
    assert_eq!(p.close(&marks(p, others)), Err(refused));
    assert!(*p == before, "{refused}: the point changed");
}

#[test]
fn each_fault_on_each_day() {
    for mut p in months() {
        for day in 1..=p.record.month_hours() / 24 {
            for (refusal, wrong) in FAULTS {
                check(&mut p, &[(day, wrong)], refusal, day);
            }
        }
    }
}

#[test]
fn first_of_two_days() {
    let [.., mut p] = months();
    for (first, second) in [(1, 2), (1, 31), (9, 10), (14, 24), (30, 31)] {
        for (refusal, wrong) in FAULTS {
            check(&mut p, &[(first, wrong), (second, wrong)], refusal, first);
        }
    }
}

#[test]
fn day_with_another_fault_does_not_count() {
    let [.., mut p] = months();
    check(&mut p, &[(3, FORGOTTEN), (20, SECOND)], Refusal::CapacityHours, 20);
    check(&mut p, &[(1, SECOND), (31, LONG)], Refusal::PeakHours, 31);
    check(&mut p, &[(5, FORGOTTEN), (9, SECOND)], Refusal::CapacityHours, 9);
    check(&mut p, &[(1, FORGOTTEN), (2, SECOND), (3, LONG)], Refusal::PeakHours, 3);
}

/// Two faults on one day: 24 peak and capacity hours are 42 and 43, 24 peak hours 42 and 46.
#[test]
fn two_faults_on_a_day() {
    let [.., mut p] = months();
    for both in [[mark::BOTH; 24], [mark::PEAK; 24]] {
        check(&mut p, &[(2, SECOND), (4, FORGOTTEN), (12, both)], Refusal::PeakHours, 12);
    }
}

/// Refusals before the days are looked at, with wrong days behind them, and refusals after that.
#[test]
fn other_refusals_name_no_day() {
    let [.., p] = months();
    let wrong = marks(&p, &[(5, LONG), (6, SECOND), (7, FORGOTTEN)]);
    let no_mark = marks(&p, &[(5, LONG), (8, [4; 24])]);
    let close = |change: fn(&mut Point), marks: &[u8], room: usize| {
        let mut p = p.clone();
        change(&mut p);
        p.record.close(&mut p.store, marks, &mut p.hours[..room]).unwrap_err()
    };
    let right = p.all_days(working_day());
    let too_great: fn(&mut Point) = |p| p.store[0] = 3_000_001;
    let refused = [
        (Refusal::StoreLength, close(|p| p.store.truncate(1), &wrong, 744)),
        (Refusal::Record, close(|p| p.record = Record::from_numbers([0; FIELDS]).unwrap(), &wrong, 744)),
        (Refusal::MarkCount, close(|_| {}, &wrong[1..], 744)),
        (Refusal::Mark, close(|_| {}, &no_mark, 744)),
        (Refusal::BufferLength, close(too_great, &right, 743)),
        (Refusal::StoreWord, close(too_great, &right, 744)),
    ];
    for (refusal, given) in refused {
        assert_eq!(given, RefusedClosing { refusal, wrong_day: None });
    }
}

/// After the calendar's end the marks are not looked at.
#[test]
fn calendar_over_names_no_day() {
    let mut p = Point::open(AGREED, 2999, 12);
    p.close(&p.all_days(working_day())).unwrap();
    let wrong = marks(&p, &[(1, FORGOTTEN)]);
    assert_eq!(p.close(&wrong), Err(RefusedClosing { refusal: Refusal::CalendarOver, wrong_day: None }));
}

/// January put right day by day, as calendar staff do it. Then V = 800 - 11 = 789 goes by the peak rule: 620 on 62 peak
/// hours, 10 each, and 169 over the 682 others. C = 31 × 10.
#[test]
fn put_right_day_by_day() {
    let [.., mut p] = months();
    check(&mut p, &[(3, FORGOTTEN), (4, FORGOTTEN), (14, SECOND), (30, LONG)], Refusal::PeakHours, 30);
    check(&mut p, &[(3, FORGOTTEN), (4, FORGOTTEN), (14, SECOND)], Refusal::CapacityHours, 14);
    check(&mut p, &[(3, FORGOTTEN), (4, FORGOTTEN)], Refusal::NoCapacityHour, 3);
    check(&mut p, &[(4, FORGOTTEN)], Refusal::NoCapacityHour, 4);
    let (volume, capacity, sum) = (Kwh(789), Kw(10), Kwh(310));
    let figures = Figures { ground: 5, volume, capacity, sum, days: 31, wrong_day: 0 };
    assert_eq!(p.close(&marks(&p, &[])), Ok(figures));
}

/// Where a function answers a [`Refusal`], `?` leaves the day out.
#[test]
fn becomes_a_refusal() {
    fn total(p: &mut Point, marks: &[u8]) -> Result<Kwh, Refusal> {
        p.close(marks)?;
        Ok(p.record.total())
    }
    let [.., mut p] = months();
    let (wrong, right) = (marks(&p, &[(3, FORGOTTEN)]), marks(&p, &[]));
    assert_eq!(total(&mut p, &wrong), Err(Refusal::NoCapacityHour));
    assert_eq!(total(&mut p, &right), Ok(Kwh(789)));
}
