// A closing in plain safe Rust, written from document 01: the arguments, the checks and the arrays of `sallowbingo_close`.
#![forbid(unsafe_code)]

pub const ROW: usize = 744;
pub const STORE: usize = 14 * ROW;
pub const BILLING_ROW: usize = 12;
pub const CONTROL_ROW: usize = 13;
const MILLION: u64 = 1_000_000;

#[allow(dead_code)] // a benchmark calls few of its functions
#[path = "../rust/src/raw.rs"]
pub mod raw;

pub use raw::{Answer, Cable, Contract, Date, Figures, Kw, Kwh, Past, Reading, Readings, Record, Service};

// Months.

impl Date {
    // year × 12 + month
    pub fn number(self) -> u64 {
        u64::from(self.year) * 12 + u64::from(self.month)
    }

    fn of_number(number: u64) -> Date {
        Date { year: ((number - 1) / 12) as u32, month: ((number - 1) % 12) as u32 + 1 }
    }

    // T of a month from 1 to 12
    pub fn hours(self) -> usize {
        const DAYS: [usize; 12] = [31, 28, 31, 30, 31, 30, 31, 31, 30, 31, 30, 31];
        let leap = self.year % 4 == 0 && (self.year % 100 != 0 || self.year % 400 == 0);
        24 * if leap && self.month == 2 { 29 } else { DAYS[self.row()] }
    }

    fn row(self) -> usize {
        self.month as usize - 1
    }

    fn next(self) -> Date {
        match self.month {
            12 => Date { year: self.year + 1, month: 1 },
            _ => Date { month: self.month + 1, ..self },
        }
    }

    fn is_in_calendar(self) -> bool {
        (2014..=2999).contains(&self.year) && (1..=12).contains(&self.month)
    }
}

// Number 2.

fn cable_is_valid(c: &Cable) -> bool {
    (1..=2_000).contains(&c.amperes) && (1..=250_000).contains(&c.volts) && c.cosine <= 1_000 && matches!(c.phases, 1 | 3)
}

fn contract_is_valid(c: &Contract) -> bool {
    let basis = match c.basis {
        1 | 2 => u64::from(c.power.0) <= MILLION && c.cable == Cable::default(),
        3 => c.power.0 == 0 && cable_is_valid(&c.cable),
        _ => false,
    };
    matches!(c.billing, 1 | 2) && c.control <= 2 && basis
}

fn is_month_number(number: u64) -> bool {
    (2014 * 12 + 1..=2999 * 12 + 12).contains(&number)
}

fn service_is_valid(s: &Service, open: Date) -> bool {
    let fault = s.fault == 0 || is_month_number(s.fault) && s.fault <= open.number();
    s.run <= 12_000 && s.serving <= 1 && s.denials <= 2 && fault
}

fn past_is_valid(p: &Past, open: Date) -> bool {
    let is_before = |date: Date| date.is_in_calendar() && date.number() < open.number();
    let in_its_row = |date: Date| is_before(date) && p.years[date.row()] == date.year;
    p.years.iter().zip(1..).all(|(&year, month)| year == 0 || is_before(Date { year, month }))
        && (p.latest == 0 || is_month_number(p.latest) && in_its_row(Date::of_number(p.latest)))
}

fn reading_is_valid(g: &Reading, has: bool, integral: bool, limit: u64) -> bool {
    match g.given {
        0 => g.volume.0 == 0,
        1 => has && g.volume.0 <= if integral { limit } else { 0 },
        _ => false,
    }
}

fn readings_are_valid(g: &Readings, c: &Contract, limit: u64) -> bool {
    reading_is_valid(&g.billing, true, c.billing == 2, limit)
        && reading_is_valid(&g.control, c.control != 0, c.control == 2, limit)
        && reading_is_valid(&g.first, true, true, limit)
        && reading_is_valid(&g.second, true, true, limit)
}

fn is_valid(r: &Record) -> bool {
    r.opened == 1
        && (r.date.is_in_calendar() || r.date == Date { year: 3000, month: 1 })
        && contract_is_valid(&r.contract)
        && service_is_valid(&r.service, r.date)
        && past_is_valid(&r.past, r.date)
        && readings_are_valid(&r.readings, &r.contract, r.date.hours() as u64 * MILLION)
        && r.total.0 <= 30_000_000_000_000
}

// Marks and store: numbers 41 to 43, 46 and 45.

fn is_peak(mark: u8) -> bool {
    mark == 1 || mark == 3
}

fn is_capacity(mark: u8) -> bool {
    mark == 2 || mark == 3
}

// n and d
struct Survey {
    peaks: u64,
    days: u64,
}

// The number of a refusal, and the day whose marks are wrong, 0 for none.
struct Refused {
    number: u32,
    wrong_day: u64,
}

impl From<u32> for Refused {
    fn from(number: u32) -> Refused {
        Refused { number, wrong_day: 0 }
    }
}

fn peaks_of(day: &[u8]) -> usize {
    day.iter().filter(|&&m| is_peak(m)).count()
}

fn capacities_of(day: &[u8]) -> usize {
    day.iter().filter(|&&m| is_capacity(m)).count()
}

// The first fault of the days in the order of 42, 43 and 46, of marks that have one.
fn wrong_day(marks: &[u8]) -> Refused {
    let first = |is_wrong: fn(&[u8]) -> bool| marks.chunks_exact(24).position(is_wrong);
    let faults = [
        (42, first(|day| peaks_of(day) > 16)),
        (43, first(|day| capacities_of(day) > 1)),
        (46, first(|day| peaks_of(day) > 0 && capacities_of(day) == 0)),
    ];
    let found = faults.into_iter().find_map(|(number, day)| day.map(|k| Refused { number, wrong_day: k as u64 + 1 }));
    found.expect("a day is wrong")
}

fn survey(marks: &[u8]) -> Result<Survey, Refused> {
    if marks.iter().any(|&m| m > 3) {
        return Err(41.into());
    }
    let mut survey = Survey { peaks: 0, days: 0 };
    let mut wrong = false;
    for day in marks.chunks_exact(24) {
        let (peaks, capacities) = (peaks_of(day), capacities_of(day));
        wrong |= peaks > 16 || capacities > 1 || peaks > 0 && capacities == 0;
        survey.peaks += peaks as u64;
        survey.days += u64::from(capacities > 0);
    }
    if wrong { Err(wrong_day(marks)) } else { Ok(survey) }
}

// Whether a word is above the limit, for number 45.
fn any_above(words: &[u32], limit: u32) -> bool {
    words.iter().any(|&w| w > limit)
}

// The same without an early return, so that the compiler can take several words at a time.
fn any_above_folded(words: &[u32], limit: u32) -> bool {
    words.iter().fold(false, |above, &w| above | (w > limit))
}

fn check(scan: impl Fn(&[u32], u32) -> bool, r: &Record, store: &[u32], marks: &[u8], hours: &[u32]) -> Result<Survey, Refused> {
    if store.len() != STORE {
        return Err(1.into());
    }
    if !is_valid(r) {
        return Err(2.into());
    }
    if r.date.year == 3000 {
        return Err(3.into());
    }
    if marks.len() != r.date.hours() {
        return Err(40.into());
    }
    let survey = survey(marks)?;
    if hours.len() != ROW {
        return Err(44.into());
    }
    let (past, readings) = store.split_at(ROW * BILLING_ROW);
    if scan(past, 3_000_000) || scan(readings, 1_000_000) {
        return Err(45.into());
    }
    Ok(survey)
}

// x / d rounded half up, and 0 where d is 0.
fn half_up(x: u64, d: u64) -> u64 {
    if d == 0 { 0 } else { (2 * x + d) / (2 * d) }
}

// Sharing.

// A sharing under way: V and S, and of both what the hours so far have.
struct Sharing {
    volume: u64,
    whole: u64,
    passed: u64,
    done: u64,
}

impl Sharing {
    fn new(volume: u64, whole: u64) -> Sharing {
        Sharing { volume, whole, passed: 0, done: 0 }
    }

    // The share of the next hour.
    fn next(&mut self, weight: u64) -> u32 {
        self.passed += weight;
        let before = self.done;
        self.done = half_up(self.volume * self.passed, self.whole);
        (self.done - before) as u32
    }
}

fn sum_of(hours: &[u32]) -> u64 {
    hours.iter().map(|&h| u64::from(h)).sum()
}

fn share_evenly(volume: u64, hours: &mut [u32]) {
    let mut sharing = Sharing::new(volume, hours.len() as u64);
    for hour in hours {
        *hour = sharing.next(1);
    }
}

// The weights that stand in the hours become shares of the volume.
fn share_by_weights(volume: u64, hours: &mut [u32]) {
    let whole = sum_of(hours);
    if whole == 0 {
        return share_evenly(volume, hours);
    }
    let mut sharing = Sharing::new(volume, whole);
    for hour in hours {
        *hour = sharing.next(u64::from(*hour));
    }
}

fn peak_rule(volume: u64, power: u64, peaks: u64, marks: &[u8], hours: &mut [u32]) {
    if peaks == 0 {
        return share_evenly(volume, hours);
    }
    let part = volume.min(peaks * power);
    let mut on = Sharing::new(part, peaks);
    let mut off = Sharing::new(volume - part, hours.len() as u64 - peaks);
    for (hour, &mark) in hours.iter_mut().zip(marks) {
        *hour = if is_peak(mark) { on.next(1) } else { off.next(1) };
    }
}

// The hours of the past, whose hour h is its hour h - 168 where it is short.
fn copy_past(past: &[u32], hours: &mut [u32]) {
    let own = past.len().min(hours.len());
    let (front, rest) = hours.split_at_mut(own);
    front.copy_from_slice(&past[..own]);
    rest.copy_from_slice(&past[own - 168..][..rest.len()]);
}

fn capacity_sum(marks: &[u8], hours: &[u32]) -> u64 {
    hours.iter().zip(marks).filter(|(_, &m)| is_capacity(m)).map(|(&h, _)| u64::from(h)).sum()
}

// The grounds.

fn formula(c: &Cable, t: u64) -> u64 {
    let cosine = if c.cosine == 0 { 900 } else { c.cosine };
    let divisor = if c.phases == 1 { 1_500_000 } else { 500_000 };
    (u64::from(c.amperes) * u64::from(c.volts) * u64::from(cosine) * t + divisor / 2) / divisor
}

fn row(store: &[u32], row: usize, t: usize) -> &[u32] {
    &store[ROW * row..ROW * row + t]
}

fn past<'a>(r: &Record, store: &'a [u32]) -> Option<&'a [u32]> {
    let last_year = Date { year: r.date.year - 1, ..r.date };
    let date = if r.past.years[r.date.row()] == last_year.year {
        last_year
    } else if r.past.latest != 0 {
        Date::of_number(r.past.latest)
    } else {
        return None;
    };
    Some(row(store, date.row(), date.hours()))
}

// Fills the month's hours. The first ground that fits, and the month volume.
fn settle(r: &Record, survey: &Survey, store: &[u32], marks: &[u8], hours: &mut [u32]) -> (u32, u64) {
    let Record { contract, readings, service, .. } = r;
    let t = hours.len();
    let neighbour = [readings.first, readings.second].iter().find(|g| g.given == 1).map_or(0, |g| g.volume.0);
    let power = if contract.basis == 3 { formula(&contract.cable, 1) } else { u64::from(contract.power.0) };

    if readings.billing.given == 1 {
        if contract.billing == 1 {
            hours.copy_from_slice(row(store, BILLING_ROW, t));
            return (1, sum_of(hours));
        }
        let volume = readings.billing.volume.0.saturating_sub(neighbour);
        peak_rule(volume, power, survey.peaks, marks, hours);
        return (2, volume);
    }

    let missed = if service.denials == 2 { (service.run + 1).max(3) } else { service.run + 1 };
    let past = past(r, store);

    if readings.control.given == 1 {
        if contract.control == 1 {
            hours.copy_from_slice(row(store, CONTROL_ROW, t));
            return (3, sum_of(hours));
        }
        let volume = readings.control.volume.0.saturating_sub(neighbour);
        if let Some(past) = past {
            if missed <= 2 {
                copy_past(past, hours);
                share_by_weights(volume, hours);
                return (4, volume);
            }
            if survey.peaks > 0 {
                copy_past(past, hours);
                share_by_weights(volume, hours);
                let part = volume.min(survey.peaks * power);
                if part * survey.days < survey.peaks * capacity_sum(marks, hours) {
                    return (6, volume);
                }
            }
        }
        peak_rule(volume, power, survey.peaks, marks, hours);
        return (5, volume);
    }

    match past {
        Some(past) if missed <= 2 => {
            copy_past(past, hours);
            (7, sum_of(hours))
        }
        _ if contract.basis == 3 => {
            let volume = formula(&contract.cable, t as u64);
            share_evenly(volume, hours);
            (9, volume)
        }
        _ => {
            let volume = power * t as u64;
            share_evenly(volume, hours);
            (8, volume)
        }
    }
}

fn close_by(scan: impl Fn(&[u32], u32) -> bool, r: Record, store: &mut [u32], marks: &[u8], hours: &mut [u32]) -> Answer {
    let survey = match check(scan, &r, store, marks, hours) {
        Ok(survey) => survey,
        Err(Refused { number, wrong_day }) => {
            return Answer { refusal: number, after: r, figures: Figures { wrong_day, ..Figures::default() } };
        }
    };
    let (month, rest) = hours.split_at_mut(r.date.hours());
    let (ground, volume) = settle(&r, &survey, store, marks, month);
    rest.fill(0);
    let sum = capacity_sum(marks, month);

    let mut after = Record { date: r.date.next(), readings: Readings::default(), total: Kwh(r.total.0 + volume), ..r };
    if ground <= 2 {
        store[ROW * r.date.row()..][..ROW].copy_from_slice(hours);
        after.past.years[r.date.row()] = r.date.year;
        after.past.latest = r.date.number();
        after.service.run = 0;
    } else {
        after.service.run += 1;
    }
    store[ROW * BILLING_ROW..].fill(0);
    let capacity = Kw(half_up(sum, survey.days) as u32);
    let figures = Figures { ground, volume: Kwh(volume), capacity, sum: Kwh(sum), days: survey.days, wrong_day: 0 };
    Answer { refusal: 0, after, figures }
}

#[inline(never)]
pub fn close(r: Record, store: &mut [u32], marks: &[u8], hours: &mut [u32]) -> Answer {
    close_by(any_above, r, store, marks, hours)
}

// The same closing with the other scan.
#[inline(never)]
pub fn close_folded(r: Record, store: &mut [u32], marks: &[u8], hours: &mut [u32]) -> Answer {
    close_by(any_above_folded, r, store, marks, hours)
}
