//! Arguments of calls: good ones at and between their limits, and bad ones one outside.

use crate::dice::Dice;
use crate::reference::calls::Opening;
use crate::reference::rules::{cable_formula, index, year_and_month, Contract, BIG_LOAD};

pub const MILLION: u64 = 1_000_000;
const MOST: u32 = u32::MAX;

/// A month to open: near both ends of the calendar, near leap years and the years that are none, or any.
pub fn month(dice: &mut Dice) -> (u32, u32) {
    let (first, last) = dice.pick(&[
        (index(2014, 1), index(2014, 4)),
        (index(2994, 12), index(2999, 12)),
        (index(2999, 6), index(2999, 12)),
        (index(2019, 1), index(2024, 12)),
        (index(2095, 1), index(2101, 12)),
        (index(2395, 1), index(2401, 12)),
        (index(2014, 1), index(2999, 12)),
    ]);
    let (year, month) = year_and_month(dice.from_to(first, last));
    (year as u32, month as u32)
}

pub fn power(dice: &mut Dice) -> u32 {
    match dice.below(5) {
        0 => dice.pick(&[1, 2, 999_999, 1_000_000]),
        1 => dice.from_to(1, MILLION) as u32,
        2 => dice.from_to(1, 1_000) as u32,
        _ => dice.from_to(1, 12) as u32,
    }
}

fn current(dice: &mut Dice) -> u32 {
    match dice.below(3) {
        0 => dice.pick(&[1, 2_000]),
        _ => dice.from_to(1, 2_000) as u32,
    }
}

fn currents(dice: &mut Dice) -> Vec<u32> {
    let points = match dice.below(3) {
        0 => dice.pick(&[1, 64]),
        _ => dice.from_to(1, 64),
    };
    if dice.percent(25) {
        return vec![current(dice); points as usize]; // an odd power then comes to a half
    }
    (0..points).map(|_| current(dice)).collect()
}

/// An opening that is accepted.
pub fn opening(dice: &mut Dice) -> Opening {
    let mut opening = earlier_opening(dice);
    if Contract::from_opening(&opening).is_big_integral() {
        opening.billing = 1;
    }
    opening
}

/// An opening that no number but 15 refuses, as records opened earlier have it. What its basis does not use may be
/// anything.
pub fn earlier_opening(dice: &mut Dice) -> Opening {
    let (year, month) = month(dice);
    let currents = currents(dice);
    let mut opening = Opening {
        billing: dice.pick(&[1, 2, 2]),
        control: dice.pick(&[0, 1, 2, 2]),
        basis: dice.from_to(1, 3) as u32,
        power: power(dice),
        amperes: current(dice),
        volts: dice.pick(&[1, 2, 25, 230, 10_000, 249_999, 250_000]),
        cosine: dice.pick(&[0, 1, 125, 899, 900, 1_000]),
        phases: dice.pick(&[1, 3]),
        year,
        month,
        place: dice.below(currents.len() as u64) as u32,
        currents,
    };
    if dice.percent(15) {
        let kilowatts = dice.pick(&[BIG_LOAD - 1, BIG_LOAD]);
        give_power(dice, &mut opening, kilowatts);
    }
    if dice.percent(20) {
        spoil_unused(dice, &mut opening);
    }
    opening
}

/// An opening that 15 refuses and no other number, many of them at the limit.
fn big_opening(dice: &mut Dice) -> Opening {
    let mut opening = Opening { billing: 2, ..earlier_opening(dice) };
    if dice.percent(50) || !Contract::from_opening(&opening).is_big_integral() {
        let more = dice.from_to(BIG_LOAD, 5_000);
        let kilowatts = dice.pick(&[BIG_LOAD, BIG_LOAD, BIG_LOAD + 1, more]);
        give_power(dice, &mut opening, kilowatts);
    }
    opening
}

/// Makes P so many kW by what the opening's basis uses. A list or cable is drawn until it has that P, for which a few
/// tries are enough.
fn give_power(dice: &mut Dice, o: &mut Opening, kilowatts: u64) {
    for _ in 0..100 {
        match o.basis {
            1 => o.power = kilowatts as u32,
            2 => give_list(dice, o, kilowatts),
            _ => give_cable(dice, o, kilowatts),
        }
        if Contract::from_opening(o).kilowatts() == kilowatts {
            return;
        }
    }
}

/// A list of which a place has about that share.
fn give_list(dice: &mut Dice, o: &mut Opening, kilowatts: u64) {
    o.currents = currents(dice);
    o.place = dice.below(o.currents.len() as u64) as u32;
    let all: u64 = o.currents.iter().map(|current| *current as u64).sum();
    let own = o.currents[o.place as usize] as u64;
    let power = dice.from_to((kilowatts - 1) * all / own, (kilowatts + 1) * all / own);
    o.power = power.clamp(1, MILLION) as u32;
}

/// A cable of as few volts as are rounded to that P, or of as many; with some of these currents 669.5 kW come out.
fn give_cable(dice: &mut Dice, o: &mut Opening, kilowatts: u64) {
    let any = current(dice);
    o.amperes = dice.pick(&[2, 26, 103, 1_339, any, any, any, any]);
    o.cosine = dice.pick(&[0, 125, 899, 900, 1_000]);
    o.phases = dice.pick(&[1, 3]);
    let volts = if dice.percent(50) { least_volts(o, kilowatts) } else { least_volts(o, kilowatts + 1) - 1 };
    o.volts = volts.clamp(1, 250_000);
}

/// The least volts with which the cable has that power or more, one above their limit where none have.
fn least_volts(o: &Opening, kilowatts: u64) -> u32 {
    let (mut below, mut least) = (0, 250_001);
    while least - below > 1 {
        let volts = (below + least) / 2;
        let is_enough = cable_formula(o.amperes, volts, o.cosine, o.phases, 1) >= kilowatts;
        *(if is_enough { &mut least } else { &mut below }) = volts;
    }
    least
}

fn spoil_unused(dice: &mut Dice, o: &mut Opening) {
    if o.basis == 3 {
        o.power = dice.pick(&[0, 1_000_001, MOST]);
    } else {
        (o.amperes, o.volts, o.cosine, o.phases) = (dice.pick(&[0, 2_001]), dice.pick(&[0, 250_001]), 1_001, 2);
    }
    if o.basis != 2 {
        o.currents = vec![0; dice.pick(&[0, 1, 65])];
        o.place = dice.pick(&[0, 64, MOST]);
    }
}

/// An opening that is refused: with one to three arguments outside their limits, most by one, or with a big load at an
/// integral meter, or with both.
pub fn bad_opening(dice: &mut Dice) -> Opening {
    let big = dice.percent(50);
    let mut opening = if big { big_opening(dice) } else { opening(dice) };
    let spoiled = if big { dice.pick(&[0, 0, 1, 2]) } else { dice.from_to(1, 3) };
    for _ in 0..spoiled {
        spoil_opening(dice, &mut opening);
    }
    opening
}

fn spoil_opening(dice: &mut Dice, o: &mut Opening) {
    match dice.below(16) {
        0 => o.year = dice.pick(&[0, 2013, 3000, MOST]),
        1 => o.month = dice.pick(&[0, 13, MOST]),
        2 => o.billing = dice.pick(&[0, 3, MOST]),
        3 => o.control = dice.pick(&[3, MOST]),
        4 => o.basis = dice.pick(&[0, 4, MOST]),
        5 => (o.basis, o.power) = (dice.pick(&[1, 2]), dice.pick(&[0, 1_000_001, MOST])),
        6 => (o.basis, o.amperes) = (3, dice.pick(&[0, 2_001, MOST])),
        7 => (o.basis, o.volts) = (3, dice.pick(&[0, 250_001, MOST])),
        8 => (o.basis, o.cosine) = (3, dice.pick(&[1_001, MOST])),
        9 => (o.basis, o.phases) = (3, dice.pick(&[0, 2, 4, MOST])),
        10 => (o.basis, o.currents) = (2, Vec::new()),
        11 => {
            (o.basis, o.currents) = (2, vec![5; dice.pick(&[65, 66, 200])]);
            o.power = dice.pick(&[o.power, 1_000_000]); // of which a share is a big load
        }
        12 | 13 if !o.currents.is_empty() => {
            let at = dice.below(o.currents.len() as u64) as usize;
            o.basis = 2;
            o.currents[at] = dice.pick(&[0, 2_001, MOST]);
            o.power = dice.pick(&[o.power, 1_000_000]);
        }
        _ => (o.basis, o.place) = (2, dice.pick(&[o.currents.len() as u32, 64, MOST])),
    }
}

/// A volume up to T × 1,000,000.
pub fn volume(dice: &mut Dice, t: usize) -> u64 {
    let most = t as u64 * MILLION;
    match dice.below(12) {
        0 => 0,
        1 => dice.pick(&[1, most - 1, most]),
        2 => dice.from_to(0, most),
        3 | 4 => dice.below(20),
        5..=7 => dice.below(1_000),
        _ => dice.below(100_000),
    }
}

pub fn bad_volume(dice: &mut Dice, t: usize) -> u64 {
    let most = t as u64 * MILLION;
    dice.pick(&[most + 1, most + 1, most + 2, 2 * most, 1 << 32, 1 << 63, u64::MAX])
}

/// Hours up to a limit: all 0, one alone, all at the limit, days alike, or any.
pub fn hours(dice: &mut Dice, t: usize, limit: u64) -> Vec<u32> {
    let top = dice.pick(&[1, 2, 3, 60, 1_000, limit]).min(limit);
    match dice.below(8) {
        0 => vec![0; t],
        1 => {
            let mut alone = vec![0; t];
            alone[dice.below(t as u64) as usize] = dice.from_to(1, top) as u32;
            alone
        }
        2 => vec![dice.pick(&[1, limit as u32]); t],
        3 => {
            let day: Vec<u32> = (0..24).map(|_| dice.from_to(0, top) as u32).collect();
            day.iter().copied().cycle().take(t).collect()
        }
        _ => (0..t).map(|_| dice.from_to(0, top) as u32).collect(),
    }
}

/// Hours of another length, or with one above 1,000,000, or both.
pub fn bad_hours(dice: &mut Dice, t: usize) -> Vec<u32> {
    let mut read = hours(dice, t, MILLION);
    let kind = dice.below(4);
    if kind != 0 {
        let at = dice.below(t as u64) as usize;
        read[at] = dice.pick(&[1_000_001, 1_000_001, 3_000_000, MOST]);
    }
    if kind < 2 {
        read.resize(other_length(dice, t), 0);
    }
    read
}

/// A length that is not T.
fn other_length(dice: &mut Dice, t: usize) -> usize {
    let lengths = [0, 1, t - 24, t - 1, t + 1, t + 24, 672, 696, 720, 744, 745];
    loop {
        let length = dice.pick(&lengths);
        if length != t {
            return length;
        }
    }
}

/// Marks that no number refuses.
pub fn marks(dice: &mut Dice, t: usize) -> Vec<u8> {
    let mut marks = vec![0; t];
    let (working, most_peaks) = dice.pick(&[(0, 0), (70, 8), (70, 16), (100, 16), (20, 3), (70, 0), (3, 1)]);
    for day in marks.chunks_mut(24) {
        if !dice.percent(working) {
            continue;
        }
        let peaks = if dice.percent(20) { most_peaks } else { dice.from_to(0, most_peaks) };
        let first = dice.below(24);
        for hour in first..first + peaks {
            day[hour as usize % 24] = 1;
        }
        day[dice.below(24) as usize] += 2;
    }
    marks
}

/// Marks with one to three things wrong, now and then of one kind, and some of another length.
pub fn bad_marks(dice: &mut Dice, t: usize) -> Vec<u8> {
    let mut marks = marks(dice, t);
    let only = dice.percent(40).then(|| dice.below(WRONG_KINDS));
    for _ in 0..dice.pick(&[1, 1, 2, 3]) {
        let kind = only.unwrap_or_else(|| dice.below(WRONG_KINDS));
        let start = 24 * place_of_day(dice, t / 24);
        spoil_day(dice, kind, &mut marks[start..start + 24]);
    }
    if dice.percent(15) {
        marks.resize(other_length(dice, t), 0);
    }
    marks
}

/// A day of the month, counted from 0: often the first or the last.
fn place_of_day(dice: &mut Dice, days: usize) -> usize {
    match dice.below(6) {
        0 => 0,
        1 => days - 1,
        _ => dice.below(days as u64) as usize,
    }
}

/// How many kinds of wrong days there are, by how often each comes.
const WRONG_KINDS: u64 = 12;

fn spoil_day(dice: &mut Dice, kind: u64, day: &mut [u8]) {
    match kind {
        0 => day[dice.below(24) as usize] = dice.pick(&[4, 5, 128, 255]),
        1..=3 => spoil_peaks(dice, day),
        4..=6 => spoil_capacity(dice, day),
        _ => leave_peaks_alone(dice, day),
    }
}

/// Seventeen or more peak hours in the day; of capacity hours most often one, or those that it had, or two more.
fn spoil_peaks(dice: &mut Dice, day: &mut [u8]) {
    let peaks = dice.pick(&[17, 17, 18, 24]);
    for hour in day.iter_mut().take(peaks) {
        *hour |= 1;
    }
    match dice.below(10) {
        0..=2 => {}
        3 | 4 => spoil_capacity(dice, day),
        _ if day.iter().any(|mark| *mark >= 2) => {}
        _ => day[0] |= 2,
    }
}

/// Two capacity hours in the day or, where it had one, now and then three; its peak hours stay.
fn spoil_capacity(dice: &mut Dice, day: &mut [u8]) {
    let first = dice.below(23) as usize;
    let second = if dice.percent(50) { first + 1 } else { dice.from_to(first as u64 + 1, 23) as usize };
    day[first] |= 2;
    day[second] |= 2;
}

/// Peak hours without a capacity hour: those that the day has, or one, or 16.
fn leave_peaks_alone(dice: &mut Dice, day: &mut [u8]) {
    day.iter_mut().for_each(|mark| *mark &= 1);
    let peaks = dice.pick(&[0, 1, 16]);
    if peaks > 0 || day.iter().all(|mark| *mark == 0) {
        day.fill(0);
        let first = dice.below(25 - peaks.max(1)) as usize;
        day[first..][..peaks.max(1) as usize].fill(1);
    }
}

/// Whether a day has peak hours and no capacity hour.
pub fn has_peaks_alone(marks: &[u8]) -> bool {
    marks.chunks(24).any(|day| day.contains(&1) && !day.iter().any(|mark| *mark >= 2))
}
