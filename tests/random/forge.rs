//! Forged records and stores: sound ones that no history need have left, and fields at random, at their limits and one
//! outside.

use crate::case::Forged;
use crate::dice::Dice;
use crate::kernel;
use crate::numbers::{from_numbers, numbers, FIELDS};
use crate::reference::point::{self, Record, BILLING, CONTROL};
use crate::reference::rules::{index, Contract};
use crate::rows::{Row, ROWS};
use crate::sides::{ROW, STORE};
use crate::values::{self, MILLION};

const TOTAL: u64 = point::TOTAL_LIMIT;
const WIDE: u64 = u64::MAX;

/// A forged record and store; `base` and `store` are what a history left.
pub fn forged(dice: &mut Dice, base: &Record, store: &[u32]) -> Forged {
    let live = dice.percent(40) && base.is_open();
    let record = if live { base.clone() } else { sound(dice) };
    let mut words = if live { vec![(0, store[..STORE].to_vec())] } else { rows(dice, &record) };
    let mut fields = numbers(&kernel::as_raw(&record));
    if live || dice.percent(50) {
        for _ in 0..dice.pick(&[1, 1, 1, 2, 3]) {
            let place = dice.below(FIELDS as u64) as usize;
            fields[place] = value(dice, &ROWS[place], &record) & ROWS[place].widest;
        }
    } else if dice.percent(10) {
        fields = std::array::from_fn(|place| (dice.next() >> dice.below(64)) & ROWS[place].widest);
    }
    if dice.percent(15) {
        words.push(edge_word(dice));
    }
    Forged { record: from_numbers(fields).expect("every number was cut to its field"), words }
}

/// A record that number 2 lets pass.
fn sound(dice: &mut Dice) -> Record {
    let mut opening = values::earlier_opening(dice);
    if dice.percent(3) {
        (opening.year, opening.month) = (3000, 1);
    }
    let mut record = Record {
        contract: Contract::from_opening(&opening),
        year: opening.year,
        month: opening.month,
        run: dice.pick(&[0, 0, 1, 1, 2, 3, 40, 11_999, 12_000]),
        serving: dice.below(2) as u32,
        denials: dice.pick(&[0, 0, 1, 2]),
        total: dice.pick(&[0, 1_000, TOTAL - 1, TOTAL]),
        ..Record::default()
    };
    if record.contract.basis != 3 && dice.percent(5) {
        record.contract.power = 0;
    }
    forge_months(dice, &mut record);
    if dice.percent(3) {
        forge_leap_years(dice, &mut record);
    }
    forge_readings(dice, &mut record);
    record
}

/// A February of 29 days whose past is one too, which a history meets only after four years without a reading.
fn forge_leap_years(dice: &mut Dice, record: &mut Record) {
    let past = 2016 + 4 * dice.below(10) as u32;
    (record.year, record.month) = (past + 4, 2);
    (record.fault, record.years, record.latest) = (0, [0; 12], past * 12 + 2);
    record.years[1] = past;
}

/// The last fault, the rows' years and the latest past, all before the open month or, for the fault, not after it.
fn forge_months(dice: &mut Dice, record: &mut Record) {
    let open = record.open_index();
    let fault = open - dice.pick(&[0, 1, 11, 12, 13, 24]);
    if dice.percent(50) && fault >= index(2014, 1) && record.year < 3000 {
        record.fault = fault as u32;
    }
    for month in 1..=12 {
        let year = (record.year as u64).saturating_sub(dice.pick(&[0, 1, 1, 2, 3, 4, 8]));
        if dice.percent(60) && year >= 2014 && index(year, month) < open {
            record.years[month as usize - 1] = year as u32;
        }
    }
    let row = dice.pick(&[0, 1, 1, 1, 2, 3, 4, 5, 6, 7, 8, 9, 10, 11]);
    if record.years[row] != 0 {
        record.latest = index(record.years[row] as u64, row as u64 + 1) as u32;
    }
}

fn forge_readings(dice: &mut Dice, record: &mut Record) {
    let (kinds, t) = ([record.contract.billing, record.contract.control, 2, 2], record.t());
    for (which, chance) in [(BILLING, 15), (CONTROL, 60), (2, 20), (3, 20)] {
        if kinds[which] == 0 || !dice.percent(chance) {
            continue;
        }
        record.given[which] = 1;
        if kinds[which] == 2 {
            record.volumes[which] = values::volume(dice, t);
        }
    }
}

/// The store: hours in the rows that a closing may read, words past a month's end among them, and 0 elsewhere.
fn rows(dice: &mut Dice, record: &Record) -> Vec<(usize, Vec<u32>)> {
    let mut words = Vec::new();
    let own = record.month as usize - 1;
    let latest = (record.latest as usize + 11) % 12;
    for (row, limit) in [(own, 3 * MILLION), (latest, 3 * MILLION), (12, MILLION), (13, MILLION)] {
        if dice.percent(80) {
            words.push((ROW * row, values::hours(dice, ROW, limit)));
        }
    }
    words
}

/// A word at its row's limit or above it, at an end of the rows or anywhere.
fn edge_word(dice: &mut Dice) -> (usize, Vec<u32>) {
    let place = match dice.below(3) {
        0 => dice.pick(&[0, 12 * ROW - 1, 12 * ROW, STORE - 1]),
        _ => dice.below(STORE as u64) as usize,
    };
    let limit = if place < 12 * ROW { 3_000_000 } else { 1_000_000 };
    (place, vec![dice.pick(&[limit, limit + 1, limit + 1, u32::MAX])])
}

/// A number for a field: where a rule holds it against the open month, one near that, else one at its limits or
/// outside; or any number.
fn value(dice: &mut Dice, row: &Row, record: &Record) -> u64 {
    let (year, month, most) = (record.year as u64, record.month as u64, record.t() as u64 * MILLION);
    let (before, after, widest) = (year.saturating_sub(1), year + 1, row.widest);
    let shift = dice.below(64);
    let any = dice.next() >> shift;
    match row.name.as_str() {
        "date.year" => dice.pick(&[0, 2013, 2014, before, after, 2999, 3000, 3001, widest, any]),
        "date.month" => dice.pick(&[0, 1, 2, 12, 13, month + 1, month.saturating_sub(1), widest, any]),
        "service.fault" => fault(dice, record, any),
        "past.latest" => latest(dice, record, any),
        name if name.starts_with("past.years.") => {
            dice.pick(&[0, 1, 2013, 2014, before, year, after, 2999, 3000, widest, any])
        }
        name if name.ends_with(".volume") => dice.pick(&[0, 1, most, most + 1, widest, any]),
        _ => dice.pick(&tries(row, any)),
    }
}

/// The edges of a field's limits and what a rule turns on beside them; any number where they are more than a few kinds.
fn tries(row: &Row, any: u64) -> Vec<u64> {
    let mut tries = row.edges();
    tries.extend_from_slice(match row.name.as_str() {
        "contract.billing" | "contract.control" => &[4],
        "service.run" => &[2, 3, 11_999],
        "total" => &[TOTAL - 1],
        _ => &[],
    });
    tries.sort();
    tries.dedup();
    if row.greatest() > 3 {
        tries.push(any);
    }
    tries
}

/// A month of the last fault: of the calendar's ends, or near a year before the open month, or near that.
fn fault(dice: &mut Dice, record: &Record, any: u64) -> u64 {
    let open = record.open_index();
    let [before_13, before_12, before_1] = [13, 12, 1].map(|months| open.saturating_sub(months));
    dice.pick(&[0, 1, 24_168, 24_169, before_13, before_12, before_1, open, open + 1, 36_000, 36_001, WIDE, any])
}

/// A latest past: of the calendar's ends, near the open month, or in its row.
fn latest(dice: &mut Dice, record: &Record, any: u64) -> u64 {
    let open = record.open_index();
    let row = dice.below(12);
    let held = index(record.years[row as usize] as u64, row + 1);
    let [before_12, before_1] = [12, 1].map(|months| open.saturating_sub(months));
    dice.pick(&[0, 24_168, 24_169, before_12, before_1, open, open + 1, held, held, 36_001, WIDE, any])
}
