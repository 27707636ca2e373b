// Counts of what the fuzzer met, taken from the answers.

use std::collections::BTreeMap;

#[derive(Default)]
pub struct Met {
    pub inputs: u64,
    bytes: u64,
    lines: u64,
    calls: u64,
    accepted: u64,
    refusals: BTreeMap<u64, u64>,
    /// Of the refusals that name a day, by the number and where in the month the day is.
    days: BTreeMap<(u64, &'static str), u64>,
    errors: BTreeMap<u64, u64>,
    grounds: BTreeMap<u64, u64>,
}

/// The refusals that a history file can reach.
const REFUSALS: [u64; 23] = [2, 3, 10, 11, 12, 13, 14, 15, 20, 21, 22, 23, 24, 30, 31, 32, 33, 34, 40, 41, 42, 43, 46];
/// Those that name a day, and where: every month has 28 days, and the last day of any is a late one.
const DAY_REFUSALS: [u64; 3] = [42, 43, 46];
const PLACES: [&str; 3] = ["day 1", "days 2 to 27", "days 28 to 31"];

impl Met {
    pub fn input(&mut self, text: &[u8]) {
        self.inputs += 1;
        self.bytes += text.len() as u64;
        self.lines += text.split(|byte| *byte == b'\n').count() as u64 - u64::from(text.last() == Some(&b'\n'));
    }

    pub fn answers(&mut self, printed: &[u8]) {
        for record in printed.split(|byte| *byte == b'\n') {
            let field = |number: usize| {
                let digits = record.split(|byte| *byte == b'\t').nth(number).unwrap_or(b"0");
                digits.iter().fold(0, |value, digit| value * 10 + u64::from(digit - b'0'))
            };
            if record.starts_with(b"call") {
                self.call(field(3), field(4));
            } else if record.starts_with(b"error") {
                *self.errors.entry(field(3)).or_default() += 1;
            } else if record.starts_with(b"sheet") {
                *self.grounds.entry(field(5)).or_default() += 1;
            }
        }
    }

    fn call(&mut self, refusal: u64, day: u64) {
        self.calls += 1;
        if refusal == 0 {
            self.accepted += 1;
        } else {
            *self.refusals.entry(refusal).or_default() += 1;
        }
        let place = match day {
            0 => return,
            1 => PLACES[0],
            2..=27 => PLACES[1],
            _ => PLACES[2],
        };
        *self.days.entry((refusal, place)).or_default() += 1;
    }

    pub fn print(&self) {
        println!("inputs {}", self.inputs);
        println!("bytes {}", self.bytes);
        println!("lines {}", self.lines);
        println!("calls {}", self.calls);
        println!("accepted {}", self.accepted);
        println!("refused {}", self.calls - self.accepted);
        for (name, counts) in [("refusal", &self.refusals), ("error", &self.errors), ("ground", &self.grounds)] {
            counts.iter().for_each(|(number, count)| println!("{name} {number}: {count}"));
        }
        self.days.iter().for_each(|((number, place), count)| println!("refusal {number} on {place}: {count}"));
        println!("accepted closings {}", self.grounds.values().sum::<u64>());
    }

    /// The errors, grounds, refusals and their days that were not met, by name.
    pub fn missing(&self) -> Vec<String> {
        let refusals = REFUSALS.into_iter().map(|number| ("refusal", &self.refusals, number));
        let errors = (1..=20).map(|number| ("error", &self.errors, number));
        let grounds = (1..=9).map(|number| ("ground", &self.grounds, number));
        let all = refusals.chain(errors).chain(grounds);
        let missing = all.filter(|(_, counts, number)| !counts.contains_key(number));
        let missing = missing.map(|(name, _, number)| format!("{name} {number}"));
        let days = DAY_REFUSALS.into_iter().flat_map(|number| PLACES.map(|place| (number, place)));
        let days = days.filter(|day| !self.days.contains_key(day));
        missing.chain(days.map(|(number, place)| format!("refusal {number} on {place}"))).collect()
    }
}
