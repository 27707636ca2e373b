//! What a run has met: grounds, refusal numbers, lengths of past and month, and situations, each counted.

use crate::case::{Act, Step};
use crate::reference::calls::{Call, Opening};
use crate::reference::point::{Closed, Record, BILLING, CONTROL};
use crate::reference::rules::{
    days_of, hours_of, is_capacity, neighbour_volume, peak_hours, year_and_month, Contract, BIG_LOAD,
};
use crate::sides::{Met, Sides, ROW, STORE};

/// The numbers of document 01, and of the requests of document 02.
const NUMBERS: [usize; 26] =
    [1, 2, 3, 10, 11, 12, 13, 14, 15, 20, 21, 22, 23, 24, 30, 31, 32, 33, 34, 40, 41, 42, 43, 44, 45, 46];

const SITUATIONS: [&str; 80] = [
    "opening in January to April 2014",
    "opening on basis 1",
    "opening on basis 2",
    "opening on basis 3",
    "opening on basis 2 that gives P = 0",
    "opening of a point that is open",
    "refused opening of a point that is open",
    "half in the sharing of a power",
    "opening refused with 15 on basis 1",
    "opening refused with 15 on basis 2",
    "opening refused with 15 on basis 3",
    "opening refused with 15 at P = 670 on basis 1",
    "opening refused with 15 at P = 670 on basis 2",
    "opening refused with 15 at P = 670 on basis 3",
    "opening refused with 15 by a cable below 670 kW",
    "opening refused with 1 that 15 would refuse too",
    "opening refused with 10 that 15 would refuse too",
    "opening refused with 11 that 15 would refuse too",
    "opening refused with 12 that 15 would refuse too",
    "opening refused with 13 that 15 would refuse too",
    "opening refused with 14 that 15 would refuse too",
    "integral meter with P = 669 opened on basis 1",
    "integral meter with P = 669 opened on basis 2",
    "integral meter with P = 669 opened on basis 3",
    "integral meter opened with P below 670 of an agreed power of 670 or more",
    "interval meter with P of 670 or more opened",
    "hours read, all 1,000,000",
    "volume of T × 1,000,000 read",
    "reading discarded by a failure",
    "reading discarded by the second denial",
    "fault 12 months after the last",
    "fault 13 months after the last",
    "closing held against the book",
    "closing of a forged point",
    "closing of the 60th month of a history",
    "closing of December 2999",
    "closing of a February of 29 days",
    "closing of February in a year divisible by 100",
    "R made 3 by two denials",
    "N above the reading, ground 2",
    "N above the reading, grounds 4 to 6",
    "past of last year's month",
    "past of the latest month",
    "weights that sum to 0, ground 4",
    "weights that sum to 0, ground 6",
    "peak rule without peak hours",
    "peak rule, V within n × P",
    "peak rule, V above n × P",
    "ground 6 on basis 1",
    "ground 6 on basis 2",
    "ground 6 on basis 3",
    "closing without a working day",
    "half in a sharing by the past",
    "half in the peak rule",
    "half in an even sharing, ground 9",
    "closing of an integral meter with P of 670 or more on basis 1",
    "closing of an integral meter with P of 670 or more on basis 2",
    "closing of an integral meter with P of 670 or more on basis 3",
    "42 on the first day",
    "42 on a middle day",
    "42 on the last day",
    "43 on the first day",
    "43 on a middle day",
    "43 on the last day",
    "46 on the first day",
    "46 on a middle day",
    "46 on the last day",
    "42 with two or more such days",
    "43 with two or more such days",
    "46 with two or more such days",
    "42 with a day of 43 before",
    "42 with a day of 46 before",
    "43 with a day of 46 before",
    "42 on a day of 43",
    "42 on a day of 46",
    "46 where 44 applies too",
    "46 where 45 applies too",
    "closing refused with 1 to 3 that has a day of 42, 43 or 46",
    "closing refused with 40 that has a day of 42, 43 or 46",
    "closing refused with 41 that has a day of 42, 43 or 46",
];

#[derive(Clone)]
pub struct Tally {
    pub calls: u64,
    pub histories: u64,
    grounds: [u64; 10],
    numbers: [u64; 47],
    /// By the days of the past and of the month, from 28.
    lengths: [[u64; 4]; 4],
    situations: [u64; SITUATIONS.len()],
}

impl Tally {
    pub fn new() -> Tally {
        Tally {
            calls: 0,
            histories: 0,
            grounds: [0; 10],
            numbers: [0; 47],
            lengths: [[0; 4]; 4],
            situations: [0; SITUATIONS.len()],
        }
    }

    pub fn note(&mut self, step: &Step, met: &Met, sides: &Sides) {
        if !step.is_call() {
            return;
        }
        self.calls += 1;
        self.numbers[met.number as usize] += 1;
        if let Some(closed) = &met.closed {
            self.grounds[closed.ground as usize] += 1;
            if let Some((past, _)) = past_used(closed, &met.before) {
                self.lengths[days(past) - 28][days((met.before.year, met.before.month)) - 28] += 1;
            }
        }
        for (count, is_met) in self.situations.iter_mut().zip(situations(step, met, sides)) {
            *count += is_met as u64;
        }
    }

    pub fn add(&mut self, other: &Tally) {
        fn sum(own: &mut [u64], other: &[u64]) {
            own.iter_mut().zip(other).for_each(|(a, b)| *a += b);
        }
        self.calls += other.calls;
        self.histories += other.histories;
        sum(&mut self.grounds, &other.grounds);
        sum(&mut self.numbers, &other.numbers);
        sum(self.lengths.as_flattened_mut(), other.lengths.as_flattened());
        sum(&mut self.situations, &other.situations);
    }

    /// Every count with its name. A run is complete where none is 0.
    pub fn counts(&self) -> Vec<(String, u64)> {
        let mut counts: Vec<(String, u64)> = Vec::new();
        counts.extend((1..=9).map(|ground| (format!("ground {ground}"), self.grounds[ground])));
        counts.extend(NUMBERS.map(|number| (format!("refusal {number}"), self.numbers[number])));
        for past in 0..4 {
            let name = |days: usize| format!("past of {} days for {}", past + 28, days + 28);
            counts.extend((0..4).map(|days| (name(days), self.lengths[past][days])));
        }
        counts.extend(SITUATIONS.iter().zip(self.situations).map(|(name, count)| (name.to_string(), count)));
        counts
    }
}

fn days((year, month): (u32, u32)) -> usize {
    days_of(year as u64, month as u64) as usize
}

/// The year and month of the past whose row a closing on ground 4, 6 or 7 used, and whether it is last year's.
fn past_used(closed: &Closed, before: &Record) -> Option<((u32, u32), bool)> {
    if !matches!(closed.ground, 4 | 6 | 7) {
        return None;
    }
    let last_year = before.year - 1;
    if before.years[before.month as usize - 1] == last_year {
        return Some(((last_year, before.month), true));
    }
    let (year, month) = year_and_month(before.latest as u64);
    Some(((year as u32, month as u32), false))
}

fn situations(step: &Step, met: &Met, sides: &Sides) -> [bool; SITUATIONS.len()] {
    let mut flags = [false; SITUATIONS.len()];
    match &step.act {
        Act::Open(opening) => {
            flags[..8].copy_from_slice(&of_opening(opening, met, sides));
            flags[8..26].copy_from_slice(&of_big_load(opening, met));
        }
        Act::Call(Call::Close { marks }) => {
            if let Some(closed) = &met.closed {
                flags[32..55].copy_from_slice(&of_closing(marks, closed, &met.before, sides));
                flags[55..58].copy_from_slice(&big_integral_on(&met.before.contract));
            } else {
                flags[58..].copy_from_slice(&of_wrong_days(marks, step, met, sides));
            }
        }
        Act::Call(call) if met.number == 0 => flags[26..32].copy_from_slice(&of_call(call, met, sides)),
        _ => {}
    }
    flags
}

fn of_opening(opening: &Opening, met: &Met, sides: &Sides) -> [bool; 8] {
    let accepted = met.number == 0;
    let contract = &sides.record.contract;
    let basis = |number: u32| accepted && contract.basis == number;
    [
        accepted && sides.record.year == 2014 && sides.record.month <= 4,
        basis(1),
        basis(2),
        basis(3),
        basis(2) && contract.power == 0,
        accepted && met.before.is_open(),
        !accepted && met.before.is_open(),
        basis(2) && has_half(opening.power as u64, &opening.currents),
    ]
}

/// What an opening meets of number 15, by the contract that it asks for.
fn of_big_load(opening: &Opening, met: &Met) -> [bool; 18] {
    let asked = Contract::from_opening(opening);
    let kilowatts = asked.kilowatts();
    let [on_1, on_2, on_3] = big_integral_on(&asked).map(|big| big && met.number == 15);
    let least = kilowatts == BIG_LOAD;
    let too = |number: u32| met.number == number && asked.is_big_integral();
    let integral = met.number == 0 && asked.billing == 2;
    let most = |basis: u32| integral && asked.basis == basis && kilowatts == BIG_LOAD - 1;
    [
        on_1,
        on_2,
        on_3,
        on_1 && least,
        on_2 && least,
        on_3 && least,
        on_3 && asked.formula(1_000) < 1_000 * BIG_LOAD,
        too(1),
        too(10),
        too(11),
        too(12),
        too(13),
        too(14),
        most(1),
        most(2),
        most(3),
        integral && asked.basis == 2 && opening.power as u64 >= BIG_LOAD,
        met.number == 0 && asked.billing == 1 && kilowatts >= BIG_LOAD,
    ]
}

/// Whether the contract is one that 15 refuses at an opening, on bases 1 to 3.
fn big_integral_on(contract: &Contract) -> [bool; 3] {
    [1, 2, 3].map(|basis| contract.basis == basis && contract.is_big_integral())
}

fn of_call(call: &Call, met: &Met, sides: &Sides) -> [bool; 6] {
    let before = &met.before;
    let most = before.t() as u64 * 1_000_000;
    let is_most = |hours: &[u32]| hours.iter().all(|hour| *hour == 1_000_000);
    let discarded = before.given[BILLING] == 1 && sides.record.given[BILLING] == 0;
    let fault_after = |months: u64| {
        matches!(call, Call::Failure { reason: 1 | 2 })
            && before.fault != 0
            && before.open_index() - before.fault as u64 == months
    };
    [
        matches!(call, Call::BillingHours(hours) | Call::ControlHours(hours) if is_most(hours)),
        matches!(call, Call::BillingVolume(volume) | Call::ControlVolume(volume) if *volume == most),
        discarded && matches!(call, Call::Failure { .. }),
        discarded && matches!(call, Call::Denial),
        fault_after(12),
        fault_after(13),
    ]
}

fn of_closing(marks: &[u8], closed: &Closed, before: &Record, sides: &Sides) -> [bool; 23] {
    let ground = closed.ground;
    let neighbours = [2, 3].map(|which| (before.given[which] == 1).then_some(before.volumes[which]));
    let above = |which: usize| neighbour_volume(&neighbours) > before.volumes[which];
    let past = past_used(closed, before);
    let no_weight = past.is_some_and(|(month, _)| row_is_empty(month, sides));
    let peaks = peak_hours(marks);
    let peak_rule = ground == 2 || ground == 5;
    let in_peaks = closed.volume <= peaks * before.contract.kilowatts();
    let february = before.month == 2;
    let (basis, t) = (before.contract.basis, marks.len());
    [
        sides.follows_list(),
        !sides.follows_list(),
        sides.months() == 60,
        before.year == 2999 && before.month == 12,
        february && days((before.year, 2)) == 29,
        february && before.year % 100 == 0,
        ground > 3 && before.denials == 2 && before.run < 2,
        ground == 2 && above(BILLING),
        (4..=6).contains(&ground) && above(CONTROL),
        past.is_some_and(|(_, last_year)| last_year),
        past.is_some_and(|(_, last_year)| !last_year),
        ground == 4 && no_weight && closed.volume > 0,
        ground == 6 && no_weight && closed.volume > 0,
        peak_rule && peaks == 0,
        peak_rule && peaks > 0 && in_peaks,
        peak_rule && peaks > 0 && !in_peaks,
        ground == 6 && basis == 1,
        ground == 6 && basis == 2,
        ground == 6 && basis == 3,
        closed.working_days == 0,
        matches!(ground, 4 | 6) && past.is_some_and(|(month, _)| half_by_past(closed.volume, month, t, sides)),
        peak_rule && half_in_peaks(closed.volume, peaks, before.contract.kilowatts(), t),
        ground == 9 && has_half(closed.volume, &vec![1; t]),
    ]
}

/// Whether a day has the fault of 42, of 43 and of 46.
fn faults(day: &[u8]) -> [bool; 3] {
    let peaks = peak_hours(day);
    let capacity_hours = day.iter().filter(|mark| is_capacity(**mark)).count();
    [peaks > 16, capacity_hours > 1, peaks > 0 && capacity_hours == 0]
}

/// What a refused closing meets of E8, by the number and day that it is refused with.
fn of_wrong_days(marks: &[u8], step: &Step, met: &Met, sides: &Sides) -> [bool; 22] {
    let days: Vec<[bool; 3]> = marks.chunks(24).map(faults).collect();
    let (first, last) = (met.wrong_day == 1, met.wrong_day == days.len() as u64);
    let is = |number: u32| met.number == number;
    let again = |fault: usize| days.iter().filter(|day| day[fault]).count() > 1;
    let before = |fault: usize| days.iter().take(met.wrong_day as usize - 1).any(|day| day[fault]);
    let besides = |fault: usize| days[met.wrong_day as usize - 1][fault];
    let (past, readings) = sides.store[..STORE].split_at(12 * ROW);
    let bad_store = past.iter().any(|word| *word > 3_000_000) || readings.iter().any(|word| *word > 1_000_000);
    let wrong = days.as_flattened().contains(&true);
    [
        is(42) && first,
        is(42) && !first && !last,
        is(42) && last,
        is(43) && first,
        is(43) && !first && !last,
        is(43) && last,
        is(46) && first,
        is(46) && !first && !last,
        is(46) && last,
        is(42) && again(0),
        is(43) && again(1),
        is(46) && again(2),
        is(42) && before(1),
        is(42) && before(2),
        is(43) && before(2),
        is(42) && besides(1),
        is(42) && besides(2),
        is(46) && step.room != ROW,
        is(46) && bad_store,
        (is(1) || is(2) || is(3)) && wrong,
        is(40) && wrong,
        is(41) && wrong,
    ]
}

/// Whether V × s(h)/S is a whole number and a half at an hour, so that it tells where a half goes. S is above 0.
fn has_half(volume: u64, weights: &[u32]) -> bool {
    let all: u128 = weights.iter().map(|weight| *weight as u128).sum();
    let mut so_far = 0;
    weights.iter().any(|weight| {
        so_far += *weight as u128;
        2 * volume as u128 * so_far % (2 * all) == all
    })
}

/// The same of a volume shared by the past, whose hour h is its hour h - 168 where it is short, over t hours.
fn half_by_past(volume: u64, (year, month): (u32, u32), t: usize, sides: &Sides) -> bool {
    let row = &sides.store[ROW * (month as usize - 1)..][..hours_of(year as u64, month as u64)];
    let weights: Vec<u32> = (0..t).map(|h| row.get(h).copied().unwrap_or_else(|| row[h - 168])).collect();
    has_half(volume, if weights.iter().all(|weight| *weight == 0) { &[1; ROW][..t] } else { &weights })
}

/// The same of one of the two parts of the peak rule over t hours.
fn half_in_peaks(volume: u64, peaks: u64, kilowatts: u64, t: usize) -> bool {
    let part = volume.min(peaks * kilowatts);
    let even = |volume: u64, hours: usize| hours > 0 && has_half(volume, &vec![1; hours]);
    even(part, peaks as usize) || even(volume - part, t - peaks as usize)
}

/// Whether the past's row is 0 in all of that month's hours. A closing on ground 4, 6 or 7 leaves it as it was.
fn row_is_empty((year, month): (u32, u32), sides: &Sides) -> bool {
    let t = hours_of(year as u64, month as u64);
    sides.store[ROW * (month as usize - 1)..][..t].iter().all(|word| *word == 0)
}
