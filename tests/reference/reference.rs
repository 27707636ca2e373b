// Reference program for document 01, "Estimated consumption at a delivery point", and
// requests E2, "The odd kWh drifts to the month's end", E3, "No integral meter on big loads", and
// E8, "Which day's marks are wrong", of document 02.
//
// Two accounts of the specification stand here side by side:
//   point  a record and a store of 10,416 words, changed call by call;
//   book   the opening, the accepted calls and the closings worked out, looked back over.
// They share only `rules` (months, marks, sharing, power, peak rule, contract, closing rules)
// and `calls` (the arguments of a call).
//
// Compile: rustc --edition 2021 -O -o reference reference.rs
// Test:    rustc --edition 2021 -O --test -o tests reference.rs && ./tests
// Use from another program: #[path = "reference.rs"] mod reference;
//
// A remark "reading N" points to number N of READINGS.md.

/// The arguments of the calls, as plain numbers, unchecked.
#[forbid(unsafe_code)]
#[allow(dead_code)]
pub mod calls {
    /// What an opening is given.
    #[derive(Clone, Debug, Default, PartialEq, Eq)]
    pub struct Opening {
        pub billing: u32,
        pub control: u32,
        pub basis: u32,
        pub power: u32,
        pub amperes: u32,
        pub volts: u32,
        pub cosine: u32,
        pub phases: u32,
        pub year: u32,
        pub month: u32,
        pub place: u32,
        pub currents: Vec<u32>,
    }

    /// Every other call. The hour buffer of a closing is not an argument of this kind: it is lent.
    #[derive(Clone, Debug, PartialEq, Eq)]
    pub enum Call {
        BillingHours(Vec<u32>),
        BillingVolume(u64),
        ControlHours(Vec<u32>),
        ControlVolume(u64),
        Neighbour { source: u32, volume: u64 },
        Failure { reason: u32 },
        Admission,
        Denial,
        Permission,
        Close { marks: Vec<u8> },
    }
}

/// The calculation: months, marks, sharing, power, peak rule, contract, and the rules of a closing.
/// Nothing here knows of a record, a store or a book.
#[forbid(unsafe_code)]
#[allow(dead_code)]
pub mod rules {
    use super::calls::Opening;

    pub const FIRST_YEAR: u64 = 2014;
    pub const LAST_YEAR: u64 = 2999;
    /// The longest month has 31 × 24 hours; rows and hour buffer have this many words.
    pub const ROW: usize = 744;
    /// The limit of an hour read, of a power, and (times T) of a volume.
    pub const MILLION: u64 = 1_000_000;
    /// The least P of a big load: "670 kW or more" (02, E3).
    pub const BIG_LOAD: u64 = 670;

    // ---- Months ----

    /// "The lengths of the twelve months are a constant table, February by the Gregorian calendar."
    pub const DAYS: [u64; 12] = [31, 28, 31, 30, 31, 30, 31, 31, 30, 31, 30, 31];

    pub fn is_leap(year: u64) -> bool {
        (year % 4 == 0 && year % 100 != 0) || year % 400 == 0
    }

    /// Days of a calendar month; 0 if there is no such calendar month. Any year is taken here,
    /// because the record may stand at January 3000.
    pub fn days_of(year: u64, month: u64) -> u64 {
        match month {
            2 if is_leap(year) => 29,
            1..=12 => DAYS[month as usize - 1],
            _ => 0,
        }
    }

    /// "T is 24 times the days (003)."
    pub fn hours_of(year: u64, month: u64) -> usize {
        24 * days_of(year, month) as usize
    }

    /// "Months run from January 2014 to December 2999."
    pub fn in_calendar(year: u64, month: u64) -> bool {
        (FIRST_YEAR..=LAST_YEAR).contains(&year) && (1..=12).contains(&month)
    }

    /// A month as one number: "year × 12 + month".
    pub fn index(year: u64, month: u64) -> u64 {
        year.saturating_mul(12).saturating_add(month)
    }

    /// The year and month (1 to 12) of such a number.
    pub fn year_and_month(index: u64) -> (u64, u64) {
        let before = index.saturating_sub(1);
        (before / 12, before % 12 + 1)
    }

    /// For the billing host: "a month outside those above gives 0 for its length" (reading 10).
    pub fn host_month_length(year: u64, month: u64) -> u64 {
        if in_calendar(year, month) {
            days_of(year, month)
        } else {
            0
        }
    }

    // ---- Marks ----

    /// "0 ordinary, 1 planned peak, 2 capacity hour, 3 both."
    pub fn is_peak(mark: u8) -> bool {
        mark == 1 || mark == 3
    }

    pub fn is_capacity(mark: u8) -> bool {
        mark == 2 || mark == 3
    }

    /// "n is the count of peak hours".
    pub fn peak_hours(marks: &[u8]) -> u64 {
        marks.iter().filter(|m| is_peak(**m)).count() as u64
    }

    /// "A day is a working day if it has a capacity hour; ... d of working days."
    pub fn working_days(marks: &[u8]) -> u64 {
        let works = |day: &&[u8]| day.iter().any(|m| is_capacity(*m));
        marks.chunks(24).filter(works).count() as u64
    }

    /// "C is the sum of the volumes in the capacity hours."
    pub fn capacity_sum(hours: &[u64], marks: &[u8]) -> u64 {
        let pairs = hours.iter().zip(marks);
        pairs.filter(|(_, m)| is_capacity(**m)).map(|(v, _)| *v).sum()
    }

    /// "Capacity is C/d rounded half up, and 0 if d = 0".
    pub fn capacity(sum: u64, days: u64) -> u64 {
        half_up(sum as u128, days as u128)
    }

    /// Quotient rounded half up, as capacity, cable formula and shares are; 0 for a divisor of 0.
    fn half_up(dividend: u128, divisor: u128) -> u64 {
        if divisor == 0 {
            return 0;
        }
        narrow((2 * dividend + divisor) / (2 * divisor))
    }

    fn narrow(value: u128) -> u64 {
        value.min(u64::MAX as u128) as u64
    }

    // ---- Sharing a volume ----

    /// An exact share as a fraction: V × w(h) over S, or a whole value over 1.
    #[derive(Clone, Copy, Debug, PartialEq, Eq)]
    pub struct Exact {
        pub numerator: u128,
        pub denominator: u128,
    }

    impl Exact {
        /// "an hour is less than one kWh from it when hour × S and V × w(h) differ by less than S"
        pub fn is_near(&self, hour: u64) -> bool {
            (hour as u128 * self.denominator).abs_diff(self.numerator) < self.denominator
        }
    }

    /// "If S = 0, all weights are taken as 1 (H)."
    fn usable(weights: &[u64]) -> Vec<u64> {
        if weights.iter().all(|w| *w == 0) {
            vec![1; weights.len()]
        } else {
            weights.to_vec()
        }
    }

    fn sum_of(values: &[u64]) -> u128 {
        values.iter().map(|v| *v as u128).sum()
    }

    /// "hour h gets floor(V × s(h)/S) less that same floor at h−1 (0 before the first)", where "each
    /// floor becomes a rounding half up of the same quotient" (02, E2; reading 24).
    pub fn share(volume: u64, weights: &[u64]) -> Vec<u64> {
        let weights = usable(weights);
        let all = sum_of(&weights);
        let mut so_far: u128 = 0;
        let mut rounded_before: u64 = 0;
        let mut hours = Vec::with_capacity(weights.len());
        for weight in &weights {
            so_far += *weight as u128;
            let rounded = half_up(volume as u128 * so_far, all);
            hours.push(rounded - rounded_before);
            rounded_before = rounded;
        }
        hours
    }

    /// "Its exact share is V × w(h)/S".
    pub fn exact_shares(volume: u64, weights: &[u64]) -> Vec<Exact> {
        let weights = usable(weights);
        let denominator = sum_of(&weights);
        let exact = |w: &u64| Exact { numerator: volume as u128 * *w as u128, denominator };
        weights.iter().map(exact).collect()
    }

    // ---- Power and the cable formula ----

    /// The cable formula for t hours: "I × U × c × t / 1,500,000 with one phase, / 500,000 with
    /// three, rounded half up (H)"; "c thousandths ... where 0 means missing and counts as 900".
    /// No caller has more than 8,760 hours; the bound keeps any numbers within u128.
    pub fn cable_formula(amperes: u32, volts: u32, cosine: u32, phases: u32, t: u64) -> u64 {
        let c: u128 = if cosine == 0 { 900 } else { cosine as u128 };
        let divisor = if phases == 1 { 1_500_000 } else { 500_000 };
        let product = amperes as u128 * volts as u128 * c;
        half_up(product.saturating_mul(t.min(8_760) as u128), divisor)
    }

    /// "I amperes 1 to 2,000, U volts (phase, nominal) 1 to 250,000, c ... up to 1,000, ...
    /// phases 1 or 3"
    pub fn cable_is_sound(amperes: u32, volts: u32, cosine: u32, phases: u32) -> bool {
        (1..=2_000).contains(&amperes)
            && (1..=250_000).contains(&volts)
            && cosine <= 1_000
            && (phases == 1 || phases == 3)
    }

    /// For the billing host: "There t is 0 to 8,760; a value outside these limits gives 2^64−1".
    pub fn host_cable_formula(i: u32, u: u32, c: u32, phases: u32, t: u64) -> u64 {
        if cable_is_sound(i, u, c, phases) && t <= 8_760 {
            cable_formula(i, u, c, phases, t)
        } else {
            u64::MAX
        }
    }

    /// Basis 2: "an agreed power for 1 to 64 points, shared in list order by the currents of their
    /// cables (000, 004), and the point's place in the list, counted from 0; the share may be 0".
    /// "Sharing of power among points changes too" (02, E2; reading 25).
    pub fn share_of_power(power: u32, currents: &[u32], place: u32) -> u64 {
        let weights: Vec<u64> = currents.iter().map(|c| *c as u64).collect();
        let shares = share(power as u64, &weights);
        shares.get(place as usize).copied().unwrap_or(0)
    }

    // ---- Contract ----

    /// The contract as the record keeps it: "basis with P ... or the cable values as given; fields
    /// that the basis doesn't use are 0".
    #[derive(Clone, Debug, Default, PartialEq, Eq)]
    pub struct Contract {
        /// 1 interval, 2 integral.
        pub billing: u32,
        /// 0 none, 1 interval, 2 integral.
        pub control: u32,
        /// 1 agreed power, 2 share of an agreed power, 3 cable.
        pub basis: u32,
        /// P in kW on bases 1 and 2, else 0.
        pub power: u32,
        pub amperes: u32,
        pub volts: u32,
        pub cosine: u32,
        pub phases: u32,
    }

    impl Contract {
        /// The contract that an (accepted) opening makes. Arguments that the basis doesn't use are
        /// passed over (reading 9).
        pub fn from_opening(opening: &Opening) -> Contract {
            let meters = Contract {
                billing: opening.billing,
                control: opening.control,
                basis: opening.basis,
                ..Contract::default()
            };
            match opening.basis {
                1 => Contract { power: opening.power, ..meters },
                2 => {
                    let p = share_of_power(opening.power, &opening.currents, opening.place);
                    Contract { power: p.min(u32::MAX as u64) as u32, ..meters }
                }
                3 => Contract {
                    amperes: opening.amperes,
                    volts: opening.volts,
                    cosine: opening.cosine,
                    phases: opening.phases,
                    ..meters
                },
                _ => meters,
            }
        }

        /// The cable formula with this contract's cable.
        pub fn formula(&self, t: u64) -> u64 {
            cable_formula(self.amperes, self.volts, self.cosine, self.phases, t)
        }

        /// P in kW. "P on basis 3 is the formula at t = 1."
        pub fn kilowatts(&self) -> u64 {
            if self.basis == 3 {
                self.formula(1)
            } else {
                self.power as u64
            }
        }

        /// "Network firms no longer accept an integral billing meter where P is 670 kW or more."
        /// (02, E3; reading 26) A record opened earlier may have such a contract.
        pub fn is_big_integral(&self) -> bool {
            self.billing == 2 && self.kilowatts() >= BIG_LOAD
        }
    }

    // ---- Closing ----

    /// A billing or control reading: hours from an interval meter, a volume from an integral one.
    #[derive(Clone, Debug, PartialEq, Eq)]
    pub enum Reading {
        Hours(Vec<u64>),
        Volume(u64),
    }

    /// All that the rules of a closing look at. Point and book each find these in their own way.
    #[derive(Clone, Debug)]
    pub struct Facts {
        pub contract: Contract,
        pub year: u64,
        pub month: u64,
        pub marks: Vec<u8>,
        pub billing: Option<Reading>,
        pub control: Option<Reading>,
        /// Neighbour readings of source 1 and of source 2.
        pub neighbours: [Option<u64>; 2],
        pub run: u64,
        pub denials: u64,
        /// The past's own hours, as many as its month has.
        pub past: Option<Vec<u64>>,
    }

    /// What a closing gives.
    #[derive(Clone, Debug, PartialEq, Eq)]
    pub struct Outcome {
        pub ground: u32,
        pub volume: u64,
        pub hours: Vec<u64>,
        pub exact: Vec<Exact>,
        pub capacity_sum: u64,
        pub working_days: u64,
        pub capacity: u64,
    }

    /// The hours of a ground before the figures are added.
    struct Spread {
        ground: u32,
        volume: u64,
        hours: Vec<u64>,
        exact: Vec<Exact>,
    }

    /// "N is the first if given, else the second, else 0 (000)."
    pub fn neighbour_volume(neighbours: &[Option<u64>; 2]) -> u64 {
        neighbours[0].or(neighbours[1]).unwrap_or(0)
    }

    /// "R is the run plus 1, and 3 if that is less while denials are 2."
    pub fn effective_run(run: u64, denials: u64) -> u64 {
        let next = run.saturating_add(1);
        if denials == 2 {
            next.max(3)
        } else {
            next
        }
    }

    /// "Hour h of the past, where it lacks that hour, is its hour h − 168 (H)."
    pub fn stretch(past: &[u64], t: usize) -> Vec<u64> {
        let hour = |h: usize| match past.get(h) {
            Some(value) => *value,
            None => past.get(h.saturating_sub(168)).copied().unwrap_or(0),
        };
        (0..t).map(hour).collect()
    }

    /// "A = min(V, n × P)": the one place where a power times hours becomes a volume.
    pub fn peak_part(volume: u64, peaks: u64, kilowatts: u64) -> u64 {
        volume.min(peaks.saturating_mul(kilowatts))
    }

    /// Ground 6: "n > 0, and A × d < n × C'".
    pub fn beats_peak_rule(a: u64, n: u64, d: u64, c: u64) -> bool {
        n > 0 && (a as u128) * (d as u128) < (n as u128) * (c as u128)
    }

    /// "in 1, 3 and 7 the sum of the hours"; exact shares there are "the value itself".
    fn as_they_are(ground: u32, hours: Vec<u64>) -> Spread {
        let whole = |v: &u64| Exact { numerator: *v as u128, denominator: 1 };
        let exact = hours.iter().map(whole).collect();
        Spread { ground, volume: hours.iter().sum(), hours, exact }
    }

    fn shared(ground: u32, volume: u64, weights: &[u64]) -> Spread {
        let hours = share(volume, weights);
        Spread { ground, volume, hours, exact: exact_shares(volume, weights) }
    }

    /// "A = min(V, n × P) is shared evenly over the peak hours, V − A evenly over the others (000).
    /// If n = 0, V goes evenly over all hours." There are others: a day has at most 16 peak hours.
    pub fn peak_rule(volume: u64, kilowatts: u64, marks: &[u8]) -> (Vec<u64>, Vec<Exact>) {
        let n = peak_hours(marks);
        if n == 0 {
            let even = vec![1; marks.len()];
            return (share(volume, &even), exact_shares(volume, &even));
        }
        let a = peak_part(volume, n, kilowatts);
        let peak: Vec<u64> = marks.iter().map(|m| is_peak(*m) as u64).collect();
        let other: Vec<u64> = marks.iter().map(|m| !is_peak(*m) as u64).collect();
        let (on, off) = (share(a, &peak), share(volume - a, &other));
        let (on_exact, off_exact) = (exact_shares(a, &peak), exact_shares(volume - a, &other));
        let pick =
            |h: usize| if peak[h] == 1 { (on[h], on_exact[h]) } else { (off[h], off_exact[h]) };
        (0..marks.len()).map(pick).unzip()
    }

    fn by_peak_rule(ground: u32, volume: u64, facts: &Facts, marks: &[u8]) -> Spread {
        let (hours, exact) = peak_rule(volume, facts.contract.kilowatts(), marks);
        Spread { ground, volume, hours, exact }
    }

    /// Grounds 4, 6 and 5: an integral control reading that leaves the volume V.
    fn by_control_volume(
        volume: u64,
        facts: &Facts,
        marks: &[u8],
        past: Option<Vec<u64>>,
    ) -> Spread {
        if let Some(past) = past {
            let by_past = shared(4, volume, &past);
            if effective_run(facts.run, facts.denials) <= 2 {
                return by_past;
            }
            let (n, d) = (peak_hours(marks), working_days(marks));
            let a = peak_part(volume, n, facts.contract.kilowatts());
            // "C' is C over ground 4's hours."
            if beats_peak_rule(a, n, d, capacity_sum(&by_past.hours, marks)) {
                return Spread { ground: 6, ..by_past };
            }
        }
        by_peak_rule(5, volume, facts, marks)
    }

    /// Grounds 7, 8 and 9: neither billing nor control reading.
    fn without_reading(facts: &Facts, t: usize, past: Option<Vec<u64>>) -> Spread {
        if let Some(past) = past {
            if effective_run(facts.run, facts.denials) <= 2 {
                return as_they_are(7, past);
            }
        }
        let even = vec![1; t];
        if facts.contract.basis == 3 {
            shared(9, facts.contract.formula(t as u64), &even)
        } else {
            shared(8, facts.contract.kilowatts().saturating_mul(t as u64), &even)
        }
    }

    /// The table of grounds: "First that fits".
    fn spread(facts: &Facts, marks: &[u8]) -> Spread {
        let t = marks.len();
        let neighbour = neighbour_volume(&facts.neighbours);
        let past = facts.past.as_ref().map(|own| stretch(own, t));
        let exactly_t =
            |read: &Vec<u64>| (0..t).map(|h| read.get(h).copied().unwrap_or(0)).collect();
        match (&facts.billing, &facts.control) {
            (Some(Reading::Hours(read)), _) => as_they_are(1, exactly_t(read)),
            (Some(Reading::Volume(b)), _) => {
                by_peak_rule(2, b.saturating_sub(neighbour), facts, marks)
            }
            (None, Some(Reading::Hours(read))) => as_they_are(3, exactly_t(read)),
            (None, Some(Reading::Volume(k))) => {
                by_control_volume(k.saturating_sub(neighbour), facts, marks, past)
            }
            (None, None) => without_reading(facts, t, past),
        }
    }

    /// The rules under "Closing": ground, hours, exact shares, month volume, and C, d, capacity.
    pub fn settle(facts: &Facts) -> Outcome {
        let t = hours_of(facts.year, facts.month);
        let marks: Vec<u8> = (0..t).map(|h| facts.marks.get(h).copied().unwrap_or(0)).collect();
        let spread = spread(facts, &marks);
        let sum = capacity_sum(&spread.hours, &marks);
        let days = working_days(&marks);
        Outcome {
            ground: spread.ground,
            volume: spread.volume,
            hours: spread.hours,
            exact: spread.exact,
            capacity_sum: sum,
            working_days: days,
            capacity: capacity(sum, days),
        }
    }
}

/// The point: a record and a store, each call as specified, with every refusal number.
/// A refusal is Err(number); that of a closing, and of `apply`, is Err(Refusal), which has the day
/// too. Checks come first and in the order of their numbers, but 46 before 44, changes after them,
/// so that a refused call leaves record, store and hour buffer as they were; only a refused opening
/// makes the record zeros.
#[forbid(unsafe_code)]
#[allow(dead_code)]
pub mod point {
    use super::calls::{Call, Opening};
    use super::rules::*;

    pub const STORE: usize = 10_416;
    pub const BILLING_ROW: usize = 12;
    pub const CONTROL_ROW: usize = 13;
    /// "January 3000 (T 744) included": the month that is open when the calendar is over.
    pub const OVER_YEAR: u64 = 3000;
    /// The earliest year that a row may hold (reading 2).
    pub const EARLIEST_ROW_YEAR: u64 = FIRST_YEAR;
    pub const RUN_LIMIT: u32 = 12_000;
    pub const TOTAL_LIMIT: u64 = 30_000_000_000_000;

    /// Places in `given` and `volumes`.
    pub const BILLING: usize = 0;
    pub const CONTROL: usize = 1;
    pub const NEIGHBOUR_1: usize = 2;
    pub const NEIGHBOUR_2: usize = 3;

    /// "The record". All zeros is a record that is not open (reading 11).
    #[derive(Clone, Debug, Default, PartialEq, Eq)]
    pub struct Record {
        pub contract: Contract,
        /// The open year and month.
        pub year: u32,
        pub month: u32,
        /// "run of missed months (0 to 12,000)"
        pub run: u32,
        /// 1 in service, 0 out.
        pub serving: u32,
        /// "denials 0 to 2"
        pub denials: u32,
        /// "month of the last fault, 0 for none", as year × 12 + month.
        pub fault: u32,
        /// "for each calendar month the year its row holds, 0 for none"
        pub years: [u32; 12],
        /// "the latest past month, 0 for none", as year × 12 + month.
        pub latest: u32,
        /// "for each of this month's readings whether it is given", 1 or 0.
        pub given: [u32; 4],
        /// "and the volume of an integral or neighbour one, else 0"
        pub volumes: [u64; 4],
        /// "running total, at most 30,000,000,000,000"
        pub total: u64,
    }

    impl Record {
        pub fn is_open(&self) -> bool {
            self.year != 0
        }

        /// The open month as year × 12 + month.
        pub fn open_index(&self) -> u64 {
            index(self.year as u64, self.month as u64)
        }

        /// T of the open month.
        pub fn t(&self) -> usize {
            hours_of(self.year as u64, self.month as u64)
        }

        fn volume_limit(&self) -> u64 {
            self.t() as u64 * MILLION
        }
    }

    /// The figures that an accepted closing returns; the hours are in the hour buffer.
    #[derive(Clone, Copy, Debug, PartialEq, Eq)]
    pub struct Closed {
        pub ground: u32,
        pub volume: u64,
        pub capacity_sum: u64,
        pub working_days: u64,
        pub capacity: u64,
    }

    /// Why a call was refused: the number, and the day of which "with 42, 43 and the new number the
    /// closing returns the first such day, counted from 1; otherwise that figure is 0" (02, E8).
    #[derive(Clone, Copy, Debug, PartialEq, Eq)]
    pub struct Refusal {
        pub number: u32,
        pub wrong_day: u64,
    }

    /// Every other number: "otherwise that figure is 0" (reading 29).
    impl From<u32> for Refusal {
        fn from(number: u32) -> Refusal {
            Refusal { number, wrong_day: 0 }
        }
    }

    fn refuse_if(condition: bool, number: u32) -> Result<(), u32> {
        if condition {
            Err(number)
        } else {
            Ok(())
        }
    }

    fn row(number: usize) -> std::ops::Range<usize> {
        744 * number..744 * number + 744
    }

    // ---- Anyone: 1, 2, 3 ----

    /// "1 store not 10,416 words; 2 record not open, ...; 3 the calendar is over (year 3000)."
    pub fn check_anyone(record: &Record, store: &[u32]) -> Result<(), u32> {
        refuse_if(store.len() != STORE, 1)?;
        refuse_if(!record_is_sound(record), 2)?;
        refuse_if(record.year as u64 == OVER_YEAR, 3)
    }

    /// The whole of number 2.
    pub fn record_is_sound(record: &Record) -> bool {
        record.is_open()
            && contract_is_sound(&record.contract)
            && open_month_is_sound(record)
            && state_is_sound(record)
            && fault_is_sound(record)
            && rows_are_sound(record)
            && latest_is_sound(record)
            && (0..4).all(|which| reading_is_sound(record, which))
    }

    /// "billing meter 1 interval or 2 integral; control meter 0 none, 1 interval, 2 integral; basis
    /// with P, 0 to 1,000,000, or the cable values as given; fields that the basis doesn't use are
    /// 0" (reading 1 on P).
    fn contract_is_sound(c: &Contract) -> bool {
        let meters = (1..=2).contains(&c.billing) && c.control <= 2;
        let no_cable = c.amperes == 0 && c.volts == 0 && c.cosine == 0 && c.phases == 0;
        let basis = match c.basis {
            1 | 2 => c.power as u64 <= MILLION && no_cable,
            3 => c.power == 0 && cable_is_sound(c.amperes, c.volts, c.cosine, c.phases),
            _ => false,
        };
        meters && basis
    }

    /// "open year and month, January 3000 (T 744) included"
    fn open_month_is_sound(record: &Record) -> bool {
        let (year, month) = (record.year as u64, record.month as u64);
        in_calendar(year, month) || (year == OVER_YEAR && month == 1)
    }

    /// "run of missed months (0 to 12,000); in or out of service; denials 0 to 2; ... running
    /// total, at most 30,000,000,000,000"
    fn state_is_sound(record: &Record) -> bool {
        record.run <= RUN_LIMIT
            && record.serving <= 1
            && record.denials <= 2
            && record.total <= TOTAL_LIMIT
    }

    /// "a last fault neither 0 nor in 2014 to 2999, a date after the open month"
    fn fault_is_sound(record: &Record) -> bool {
        let fault = record.fault as u64;
        let (year, month) = year_and_month(fault);
        fault == 0 || (in_calendar(year, month) && fault <= record.open_index())
    }

    /// "a date after the open month (a row's year ... not before it)": the row of calendar month m
    /// with year y stands for the month (y, m), which has to be before the open one.
    fn rows_are_sound(record: &Record) -> bool {
        (1u64..).zip(&record.years).all(|(month, year)| {
            let year = *year as u64;
            let before = index(year, month) < record.open_index();
            year == 0 || (year >= EARLIEST_ROW_YEAR && before)
        })
    }

    /// "(... the latest past not before it), the latest past month not in its row"
    fn latest_is_sound(record: &Record) -> bool {
        let latest = record.latest as u64;
        let (year, month) = year_and_month(latest);
        let in_its_row =
            year >= EARLIEST_ROW_YEAR && record.years[month as usize - 1] as u64 == year;
        latest == 0 || (latest < record.open_index() && in_its_row)
    }

    /// "a reading given of a form the contract lacks or with a volume above T × 1,000,000"; a
    /// reading not given, and one in hours, has volume 0 ("else 0").
    fn reading_is_sound(record: &Record, which: usize) -> bool {
        let (given, volume) = (record.given[which], record.volumes[which]);
        let (lacking, in_hours) = match which {
            BILLING => (false, record.contract.billing == 1),
            CONTROL => (record.contract.control == 0, record.contract.control == 1),
            _ => (false, false),
        };
        match given {
            0 => volume == 0,
            1 => !lacking && if in_hours { volume == 0 } else { volume <= record.volume_limit() },
            _ => false,
        }
    }

    // ---- Opening: 1, 10 to 15 ----

    /// "Opening clears the store; the point is in service, the named month is open, all else is 0
    /// or missing." "An opening refused returns a record of zeros, not open".
    pub fn open(record: &mut Record, store: &mut [u32], opening: &Opening) -> Result<(), u32> {
        *record = Record::default();
        check_opening(store, opening)?;
        store.fill(0);
        record.contract = Contract::from_opening(opening);
        record.year = opening.year;
        record.month = opening.month;
        record.serving = 1;
        Ok(())
    }

    fn check_opening(store: &[u32], o: &Opening) -> Result<(), u32> {
        refuse_if(store.len() != STORE, 1)?;
        // "10 year or month; 11 meter kind"
        refuse_if(!in_calendar(o.year as u64, o.month as u64), 10)?;
        refuse_if(!(1..=2).contains(&o.billing) || o.control > 2, 11)?;
        // "12 basis not 1 to 3, or power 0 or above 1,000,000 on basis 1 or 2"
        let power_is_sound = (1..=MILLION).contains(&(o.power as u64));
        refuse_if(!(1..=3).contains(&o.basis) || (o.basis != 3 && !power_is_sound), 12)?;
        // "13 cable value on basis 3"
        let cable = cable_is_sound(o.amperes, o.volts, o.cosine, o.phases);
        refuse_if(o.basis == 3 && !cable, 13)?;
        // "14 on basis 2, list empty or above 64, a current outside 1 to 2,000, or place outside
        // the list"
        refuse_if(o.basis == 2 && !list_is_sound(&o.currents, o.place), 14)?;
        // "Such an opening is turned down; 669 passes. Records opened earlier go on, so the check
        // is made at opening only. (New: 15, after 14.)" (02, E3; readings 26 and 27)
        refuse_if(Contract::from_opening(o).is_big_integral(), 15)
    }

    fn list_is_sound(currents: &[u32], place: u32) -> bool {
        (1..=64).contains(&currents.len())
            && currents.iter().all(|c| (1..=2_000).contains(c))
            && (place as usize) < currents.len()
    }

    // ---- Meter readers: 20 to 24 ----

    /// "21 billing reading while out of service or with denials 2"
    fn billing_is_barred(record: &Record) -> bool {
        record.serving == 0 || record.denials == 2
    }

    /// Checks 23 and 24 of a reading in hours.
    fn check_hours(record: &Record, hours: &[u32]) -> Result<(), u32> {
        refuse_if(hours.len() != record.t(), 23)?;
        refuse_if(hours.iter().any(|h| *h as u64 > MILLION), 24)
    }

    /// "readings are written only into their own row"; "Unused words are 0" (reading 6).
    fn write_hours(row: &mut [u32], hours: &[u32]) {
        for (h, word) in row.iter_mut().enumerate() {
            *word = hours.get(h).copied().unwrap_or(0);
        }
    }

    pub fn billing_hours(record: &mut Record, store: &mut [u32], hours: &[u32]) -> Result<(), u32> {
        check_anyone(record, store)?;
        refuse_if(record.contract.billing != 1, 20)?;
        refuse_if(billing_is_barred(record), 21)?;
        refuse_if(record.given[BILLING] == 1, 22)?;
        check_hours(record, hours)?;
        write_hours(&mut store[row(BILLING_ROW)], hours);
        record.given[BILLING] = 1;
        Ok(())
    }

    pub fn billing_volume(record: &mut Record, store: &mut [u32], volume: u64) -> Result<(), u32> {
        check_anyone(record, store)?;
        refuse_if(record.contract.billing != 2, 20)?;
        refuse_if(billing_is_barred(record), 21)?;
        take_volume(record, BILLING, volume)
    }

    pub fn control_hours(record: &mut Record, store: &mut [u32], hours: &[u32]) -> Result<(), u32> {
        check_anyone(record, store)?;
        refuse_if(record.contract.control != 1, 20)?;
        refuse_if(record.given[CONTROL] == 1, 22)?;
        check_hours(record, hours)?;
        write_hours(&mut store[row(CONTROL_ROW)], hours);
        record.given[CONTROL] = 1;
        Ok(())
    }

    pub fn control_volume(record: &mut Record, store: &mut [u32], volume: u64) -> Result<(), u32> {
        check_anyone(record, store)?;
        refuse_if(record.contract.control != 2, 20)?;
        take_volume(record, CONTROL, volume)
    }

    /// "A neighbour reading is of source 1 (its billing meter) or 2 (its control meter)".
    pub fn neighbour(
        record: &mut Record,
        store: &mut [u32],
        source: u32,
        volume: u64,
    ) -> Result<(), u32> {
        check_anyone(record, store)?;
        let which = match source {
            1 => NEIGHBOUR_1,
            2 => NEIGHBOUR_2,
            _ => return Err(20),
        };
        take_volume(record, which, volume)
    }

    /// "22 already given; ... 24 ... a volume above T × 1,000,000"
    fn take_volume(record: &mut Record, which: usize, volume: u64) -> Result<(), u32> {
        refuse_if(record.given[which] == 1, 22)?;
        refuse_if(volume > record.volume_limit(), 24)?;
        record.given[which] = 1;
        record.volumes[which] = volume;
        Ok(())
    }

    // ---- Network firm: 30 to 34 ----

    /// "Failure and the second denial discard this month's billing reading: it is no longer given,
    /// and its row 12 and volume become 0." (reading 5)
    fn discard_billing(record: &mut Record, store: &mut [u32]) {
        record.given[BILLING] = 0;
        record.volumes[BILLING] = 0;
        store[row(BILLING_ROW)].fill(0);
    }

    /// "With reason 1 or 2: if there was an earlier 1 or 2 at most 12 months back (year × 12 +
    /// month; the same month counts), the run becomes 0; then, repeat or not, the month is kept as
    /// the last fault."
    pub fn failure(record: &mut Record, store: &mut [u32], reason: u32) -> Result<(), u32> {
        check_anyone(record, store)?;
        refuse_if(record.serving == 0, 30)?;
        refuse_if(!(1..=4).contains(&reason), 31)?;
        record.serving = 0;
        if reason <= 2 {
            let now = record.open_index();
            if record.fault != 0 && now - record.fault as u64 <= 12 {
                record.run = 0;
            }
            record.fault = now as u32;
        }
        discard_billing(record, store);
        Ok(())
    }

    /// "Admission: back in service." "32 admission while in service"
    pub fn admission(record: &mut Record, store: &[u32]) -> Result<(), u32> {
        check_anyone(record, store)?;
        refuse_if(record.serving == 1, 32)?;
        record.serving = 1;
        Ok(())
    }

    /// "Denial: one more." "33 denial with two"
    pub fn denial(record: &mut Record, store: &mut [u32]) -> Result<(), u32> {
        check_anyone(record, store)?;
        refuse_if(record.denials == 2, 33)?;
        record.denials += 1;
        if record.denials == 2 {
            discard_billing(record, store);
        }
        Ok(())
    }

    /// "Permission: denials 0." "34 permission with none"
    pub fn permission(record: &mut Record, store: &[u32]) -> Result<(), u32> {
        check_anyone(record, store)?;
        refuse_if(record.denials == 0, 34)?;
        record.denials = 0;
        Ok(())
    }

    // ---- Settlement, closing: 40 to 46 ----

    /// "40 not T marks; 41 mark above 3; 42 over 16 peak hours in a day"; "43 now means two or more
    /// capacity hours in a day, and peak hours without one has its own number. ... (New: 46, checked
    /// after 43 and before 44, an exception to the lowest number.)" (02, E8; readings 19 and 28)
    fn check_marks(marks: &[u8], t: usize) -> Result<(), Refusal> {
        let capacity_hours = |day: &[u8]| day.iter().filter(|m| is_capacity(**m)).count();
        refuse_if(marks.len() != t, 40)?;
        refuse_if(marks.iter().any(|m| *m > 3), 41)?;
        refuse_first_day(marks, |day| peak_hours(day) > 16, 42)?;
        refuse_first_day(marks, |day| capacity_hours(day) >= 2, 43)?;
        refuse_first_day(marks, |day| peak_hours(day) > 0 && capacity_hours(day) == 0, 46)
    }

    /// "the closing returns the first such day, counted from 1"
    fn refuse_first_day(
        marks: &[u8],
        is_wrong: impl Fn(&[u8]) -> bool,
        number: u32,
    ) -> Result<(), Refusal> {
        match marks.chunks(24).position(is_wrong) {
            Some(before) => Err(Refusal { number, wrong_day: before as u64 + 1 }),
            None => Ok(()),
        }
    }

    /// "45 a word above 3,000,000 in rows 0 to 11, or above 1,000,000 in 12 or 13" (reading 12).
    fn store_is_sound(store: &[u32]) -> bool {
        let (past, readings) = store.split_at(744 * BILLING_ROW);
        past.iter().all(|w| *w <= 3_000_000) && readings.iter().all(|w| *w <= 1_000_000)
    }

    fn words(store: &[u32], row: usize, count: usize) -> Vec<u64> {
        store[744 * row..744 * row + count].iter().map(|w| *w as u64).collect()
    }

    /// "The past is the row of the same month last year, if it holds that year; else the latest
    /// past month; else none." Its length is that of the month the row holds.
    fn past(record: &Record, store: &[u32]) -> Option<Vec<u64>> {
        let own_row = record.month as usize - 1;
        let last_year = record.year - 1;
        let (year, month) = if record.years[own_row] == last_year {
            (last_year as u64, record.month as u64)
        } else if record.latest != 0 {
            year_and_month(record.latest as u64)
        } else {
            return None;
        };
        Some(words(store, month as usize - 1, hours_of(year, month)))
    }

    /// A billing or control reading as the record and the store's row hold it.
    fn reading(record: &Record, store: &[u32], which: usize) -> Option<Reading> {
        let (kind, row) = match which {
            BILLING => (record.contract.billing, BILLING_ROW),
            _ => (record.contract.control, CONTROL_ROW),
        };
        match (record.given[which], kind) {
            (1, 1) => Some(Reading::Hours(words(store, row, record.t()))),
            (1, 2) => Some(Reading::Volume(record.volumes[which])),
            _ => None,
        }
    }

    /// What the rules of the closing look at, from record and store.
    fn facts(record: &Record, store: &[u32], marks: &[u8]) -> Facts {
        let neighbour = |which: usize| (record.given[which] == 1).then_some(record.volumes[which]);
        Facts {
            contract: record.contract.clone(),
            year: record.year as u64,
            month: record.month as u64,
            marks: marks.to_vec(),
            billing: reading(record, store, BILLING),
            control: reading(record, store, CONTROL),
            neighbours: [neighbour(NEIGHBOUR_1), neighbour(NEIGHBOUR_2)],
            run: record.run as u64,
            denials: record.denials as u64,
            past: past(record, store),
        }
    }

    pub fn close(
        record: &mut Record,
        store: &mut [u32],
        buffer: &mut [u32],
        marks: &[u8],
    ) -> Result<Closed, Refusal> {
        check_anyone(record, store)?;
        check_marks(marks, record.t())?;
        refuse_if(buffer.len() != ROW, 44)?;
        refuse_if(!store_is_sound(store), 45)?;
        let outcome = settle(&facts(record, store, marks));
        // "The hour buffer has 744 words, 0 from T on."
        for (h, word) in buffer.iter_mut().enumerate() {
            let hour = outcome.hours.get(h).copied().unwrap_or(0);
            *word = hour.min(u32::MAX as u64) as u32;
        }
        keep_month(record, store, buffer, outcome.ground);
        record.total += outcome.volume;
        start_next_month(record, store);
        Ok(Closed {
            ground: outcome.ground,
            volume: outcome.volume,
            capacity_sum: outcome.capacity_sum,
            working_days: outcome.working_days,
            capacity: outcome.capacity,
        })
    }

    /// "in grounds 1 and 2 only, the hours become that calendar month's row and the latest past,
    /// and the run is 0; otherwise the run grows by 1."
    fn keep_month(record: &mut Record, store: &mut [u32], buffer: &[u32], ground: u32) {
        if ground > 2 {
            record.run += 1;
            return;
        }
        let own_row = record.month as usize - 1;
        store[row(own_row)].copy_from_slice(buffer);
        record.years[own_row] = record.year;
        record.latest = record.open_index() as u32;
        record.run = 0;
    }

    /// "rows 12 and 13 and the readings clear, the next month opens."
    fn start_next_month(record: &mut Record, store: &mut [u32]) {
        store[row(BILLING_ROW)].fill(0);
        store[row(CONTROL_ROW)].fill(0);
        record.given = [0; 4];
        record.volumes = [0; 4];
        if record.month == 12 {
            record.year += 1;
            record.month = 1;
        } else {
            record.month += 1;
        }
    }

    /// One call of any kind; an accepted closing gives its figures.
    pub fn apply(
        record: &mut Record,
        store: &mut [u32],
        buffer: &mut [u32],
        call: &Call,
    ) -> Result<Option<Closed>, Refusal> {
        match call {
            Call::BillingHours(hours) => billing_hours(record, store, hours)?,
            Call::BillingVolume(volume) => billing_volume(record, store, *volume)?,
            Call::ControlHours(hours) => control_hours(record, store, hours)?,
            Call::ControlVolume(volume) => control_volume(record, store, *volume)?,
            Call::Neighbour { source, volume } => neighbour(record, store, *source, *volume)?,
            Call::Failure { reason } => failure(record, store, *reason)?,
            Call::Admission => admission(record, store)?,
            Call::Denial => denial(record, store)?,
            Call::Permission => permission(record, store)?,
            Call::Close { marks } => return close(record, store, buffer, marks).map(Some),
        }
        Ok(None)
    }
}

/// The book: "It keeps the opening, the accepted calls and what it worked out at closings."
/// "nothing comes from record or store": it is told only arguments and whether they were accepted.
#[forbid(unsafe_code)]
#[allow(dead_code)]
pub mod book {
    use super::calls::{Call, Opening};
    use super::rules::*;

    /// An accepted call and its month, counted from 0 at the opening: "A call's month is the
    /// opening's plus one for each closing before it."
    #[derive(Clone, Debug)]
    struct Entry {
        month: usize,
        call: Call,
    }

    #[derive(Clone, Debug)]
    pub struct Book {
        opening: Opening,
        entries: Vec<Entry>,
        /// What was worked out at the closings; place k is the closing of month k.
        outcomes: Vec<Outcome>,
    }

    impl Book {
        /// A book of an accepted opening.
        pub fn new(opening: &Opening) -> Book {
            Book { opening: opening.clone(), entries: Vec::new(), outcomes: Vec::new() }
        }

        /// One call's arguments and whether it was accepted. "A refused call adds nothing." (reading
        /// 30) For an accepted closing the book gives what it worked out.
        pub fn feed(&mut self, call: &Call, accepted: bool) -> Option<&Outcome> {
            if !accepted {
                return None;
            }
            let month = self.this_month();
            let worked_out = match call {
                Call::Close { marks } => Some(settle(&self.look_back(marks))),
                _ => None,
            };
            self.entries.push(Entry { month, call: call.clone() });
            self.outcomes.push(worked_out?);
            self.outcomes.last()
        }

        /// What the book worked out at the closings so far.
        pub fn outcomes(&self) -> &[Outcome] {
            &self.outcomes
        }

        fn this_month(&self) -> usize {
            self.outcomes.len()
        }

        /// "With these, the marks and the opening's contract, the rules under Closing give ground,
        /// hours, exact shares and month volume."
        fn look_back(&self, marks: &[u8]) -> Facts {
            let opened = index(self.opening.year as u64, self.opening.month as u64);
            let (year, month) = year_and_month(opened + self.this_month() as u64);
            Facts {
                contract: Contract::from_opening(&self.opening),
                year,
                month,
                marks: marks.to_vec(),
                billing: self.billing_reading(),
                control: self.control_reading(),
                neighbours: [self.neighbour_reading(1), self.neighbour_reading(2)],
                run: self.run(),
                denials: self.denials_before(self.entries.len()),
                past: self.past(),
            }
        }

        /// "This month's calls are those since the last closing, or else the opening." Latest
        /// first, each with its place in the book.
        fn this_months_calls(&self) -> impl Iterator<Item = (usize, &Call)> {
            let now = self.this_month();
            let all = self.entries.iter().enumerate().rev();
            all.take_while(move |(_, e)| e.month == now).map(|(place, e)| (place, &e.call))
        }

        /// "Billing reading: this month's last, unless a later failure or second denial discarded
        /// it."
        fn billing_reading(&self) -> Option<Reading> {
            for (place, call) in self.this_months_calls() {
                match call {
                    Call::Failure { .. } => return None,
                    Call::Denial if self.is_second_denial(place) => return None,
                    Call::BillingHours(hours) => return Some(in_hours(hours)),
                    Call::BillingVolume(volume) => return Some(Reading::Volume(*volume)),
                    _ => {}
                }
            }
            None
        }

        /// "Control and neighbour readings: this month's."
        fn control_reading(&self) -> Option<Reading> {
            self.this_months_calls().find_map(|(_, call)| match call {
                Call::ControlHours(hours) => Some(in_hours(hours)),
                Call::ControlVolume(volume) => Some(Reading::Volume(*volume)),
                _ => None,
            })
        }

        fn neighbour_reading(&self, wanted: u32) -> Option<u64> {
            self.this_months_calls().find_map(|(_, call)| match call {
                Call::Neighbour { source, volume } if *source == wanted => Some(*volume),
                _ => None,
            })
        }

        /// "Denials: those since the last permission, or else the opening", up to a place.
        fn denials_before(&self, place: usize) -> u64 {
            let earlier = self.entries[..place].iter().rev();
            let since = earlier.take_while(|e| e.call != Call::Permission);
            since.filter(|e| e.call == Call::Denial).count() as u64
        }

        /// "the second is the one that makes them 2"
        fn is_second_denial(&self, place: usize) -> bool {
            self.denials_before(place) == 1
        }

        /// "Run: the closings since the latest of the opening, a closing on ground 1 or 2, and a
        /// repeat".
        fn run(&self) -> u64 {
            let mut closings = 0;
            for (place, entry) in self.entries.iter().enumerate().rev() {
                match entry.call {
                    Call::Close { .. } if self.closed_by_reading(entry.month) => break,
                    Call::Close { .. } => closings += 1,
                    _ if self.is_repeat(place) => break,
                    _ => {}
                }
            }
            closings
        }

        /// "a repeat, which is a failure of reason 1 or 2 at most 12 months after an earlier one of
        /// reason 1 or 2"
        fn is_repeat(&self, place: usize) -> bool {
            let this = &self.entries[place];
            let earlier = self.entries[..place].iter().rev();
            let mut near = earlier.take_while(|e| this.month - e.month <= 12);
            is_fault(&this.call) && near.any(|e| is_fault(&e.call))
        }

        /// Whether month k was closed on ground 1 or 2.
        fn closed_by_reading(&self, month: usize) -> bool {
            self.outcomes.get(month).is_some_and(|o| o.ground == 1 || o.ground == 2)
        }

        /// "Past: the book's hours of the same month last year, if closed on ground 1 or 2; else of
        /// the latest closing on 1 or 2; else none."
        fn past(&self) -> Option<Vec<u64>> {
            let last_year = self.this_month().checked_sub(12);
            let same_month = last_year.filter(|k| self.closed_by_reading(*k));
            let latest = || (0..self.this_month()).rev().find(|k| self.closed_by_reading(*k));
            let month = same_month.or_else(latest)?;
            Some(self.outcomes[month].hours.clone())
        }
    }

    fn is_fault(call: &Call) -> bool {
        matches!(call, Call::Failure { reason: 1 | 2 })
    }

    fn in_hours(hours: &[u32]) -> Reading {
        Reading::Hours(hours.iter().map(|h| *h as u64).collect())
    }
}

/// The text format of histories, as in tests/histories/README.md.
#[forbid(unsafe_code)]
#[allow(dead_code)]
pub mod text {
    use super::calls::{Call, Opening};
    use std::str::{FromStr, SplitWhitespace};

    /// A line of a history. A closing also says how many words its hour buffer has.
    #[derive(Clone, Debug, PartialEq, Eq)]
    pub enum Step {
        Open(Opening),
        Call { call: Call, words: usize },
    }

    /// Longer lists and buffers are cut here. Their length alone already decides the answer (23,
    /// 40 or 44, or a lower number), so cutting changes nothing.
    const LONGEST: usize = 100_000;

    /// The step of a line; None for a line that is skipped.
    pub fn step(line: &str) -> Result<Option<Step>, String> {
        let line = line.trim();
        if line.is_empty() || line.starts_with('#') {
            return Ok(None);
        }
        let mut words = line.split_whitespace();
        let name = words.next().unwrap_or("");
        let step = match name {
            "open" => Step::Open(opening(&mut words)?),
            "close" => {
                let size = number::<u32>(words.next())? as usize;
                let call = Call::Close { marks: numbers(&mut words)? };
                Step::Call { call, words: size.min(LONGEST) }
            }
            _ => Step::Call { call: plain_call(name, &mut words)?, words: 0 },
        };
        match words.next() {
            None => Ok(Some(step)),
            Some(word) => Err(format!("one word too many: {word}")),
        }
    }

    fn plain_call(name: &str, words: &mut SplitWhitespace) -> Result<Call, String> {
        Ok(match name {
            "billing-hours" => Call::BillingHours(numbers(words)?),
            "control-hours" => Call::ControlHours(numbers(words)?),
            "billing-volume" => Call::BillingVolume(number(words.next())?),
            "control-volume" => Call::ControlVolume(number(words.next())?),
            "neighbour" => {
                let source = number(words.next())?;
                Call::Neighbour { source, volume: number(words.next())? }
            }
            "failure" => Call::Failure { reason: number(words.next())? },
            "admission" => Call::Admission,
            "denial" => Call::Denial,
            "permission" => Call::Permission,
            _ => return Err(format!("no such call: {name}")),
        })
    }

    /// BILLING CONTROL BASIS POWER AMPERES VOLTS COSINE PHASES YEAR MONTH PLACE CURRENTS
    fn opening(words: &mut SplitWhitespace) -> Result<Opening, String> {
        let mut next = || number::<u32>(words.next());
        Ok(Opening {
            billing: next()?,
            control: next()?,
            basis: next()?,
            power: next()?,
            amperes: next()?,
            volts: next()?,
            cosine: next()?,
            phases: next()?,
            year: next()?,
            month: next()?,
            place: next()?,
            currents: currents(words.next())?,
        })
    }

    /// "`CURRENTS` is `-` for an empty list, or numbers separated by commas."
    fn currents(word: Option<&str>) -> Result<Vec<u32>, String> {
        match word {
            None => Err("currents are missing".to_string()),
            Some("-") => Ok(Vec::new()),
            Some(list) => list.split(',').map(|item| number(Some(item))).collect(),
        }
    }

    fn number<T: FromStr>(word: Option<&str>) -> Result<T, String> {
        let word = word.ok_or("a number is missing")?;
        let plain = !word.is_empty() && word.bytes().all(|b| b.is_ascii_digit());
        let parsed = if plain { word.parse().ok() } else { None };
        parsed.ok_or_else(|| format!("not a number that fits: {word}"))
    }

    /// "`NUMBERS` is one or more blank-separated groups. A group is `PATTERN` or `COUNT*PATTERN`".
    fn numbers<T: FromStr + Copy>(words: &mut SplitWhitespace) -> Result<Vec<T>, String> {
        let groups: Vec<&str> = words.collect();
        let mut list = Vec::new();
        match groups.as_slice() {
            [] => return Err("numbers are missing".to_string()),
            ["none"] => return Ok(list),
            _ => {}
        }
        for group in groups {
            let (count, items) = match group.split_once('*') {
                Some((count, items)) => (number::<u64>(Some(count))? as usize, items),
                None => (1, group),
            };
            let pattern: Vec<T> = pattern(items)?;
            let fitting = (LONGEST - list.len()).min(count.saturating_mul(pattern.len()));
            list.extend(pattern.iter().copied().cycle().take(fitting));
        }
        Ok(list)
    }

    /// "a pattern is comma-separated items; an item is `VALUE` or `VALUExN`"
    fn pattern<T: FromStr + Copy>(items: &str) -> Result<Vec<T>, String> {
        let mut list: Vec<T> = Vec::new();
        for item in items.split(',') {
            let (value, times) = match item.split_once('x') {
                Some((value, times)) => (value, number::<u64>(Some(times))? as usize),
                None => (item, 1),
            };
            let value: T = number(Some(value))?;
            let fitting = times.min(LONGEST - list.len());
            list.extend(std::iter::repeat(value).take(fitting));
        }
        Ok(list)
    }
}

/// Plays a history on the point, prints what tests/histories/README.md asks for, and holds it against the book.
#[forbid(unsafe_code)]
#[allow(dead_code)]
pub mod player {
    use super::book::Book;
    use super::calls::{Call, Opening};
    use super::point::{self, Closed, Record, Refusal};
    use super::rules::{hours_of, Outcome, ROW};
    use super::text::{self, Step};
    use std::fmt::Write;

    pub struct Player {
        pub record: Record,
        pub store: Vec<u32>,
        /// The book since the last opening; none if that was refused.
        pub book: Option<Book>,
        /// The sum of all hours handed out since the last accepted opening.
        pub handed_out: u128,
        pub accepted: u64,
        pub refused: u64,
    }

    /// Why a history ended early.
    pub enum Stop {
        Disagree(String),
        Unreadable(String),
    }

    impl Player {
        /// "The store has 10,416 words and is all 9 before the first line. The record before the
        /// first line is all zeros, not open."
        pub fn new() -> Player {
            Player {
                record: Record::default(),
                store: vec![9; point::STORE],
                book: None,
                handed_out: 0,
                accepted: 0,
                refused: 0,
            }
        }

        /// Plays one line and adds its output.
        pub fn line(&mut self, number: usize, line: &str, out: &mut String) -> Result<(), Stop> {
            let unreadable = |why| Stop::Unreadable(format!("line {number}: {why}"));
            let Some(step) = text::step(line).map_err(unreadable)? else {
                return Ok(());
            };
            let closing = match step {
                Step::Open(opening) => self.open(&opening).map(|()| None),
                Step::Call { call, words } => self.call(&call, words, out)?,
            };
            match closing {
                Ok(lines) => {
                    self.accepted += 1;
                    let _ = write!(out, "{number} ok\n{}", lines.unwrap_or_default());
                }
                Err(refusal) => {
                    self.refused += 1;
                    let _ = writeln!(out, "{}", refusal_line(number, refusal));
                }
            }
            let _ = writeln!(out, "{}", state_line(&self.record, &self.store));
            Ok(())
        }

        fn open(&mut self, opening: &Opening) -> Result<(), Refusal> {
            let answer = point::open(&mut self.record, &mut self.store, opening);
            self.book = answer.is_ok().then(|| Book::new(opening));
            self.handed_out = 0;
            Ok(answer?)
        }

        /// Any other call. The inner result is the point's answer: the extra lines of a closing, or
        /// the refusal; the outer one fails if point and book disagree.
        fn call(
            &mut self,
            call: &Call,
            words: usize,
            out: &mut String,
        ) -> Result<Result<Option<String>, Refusal>, Stop> {
            let mut buffer = vec![7u32; words];
            let (year, month) = (self.record.year, self.record.month);
            let answer = point::apply(&mut self.record, &mut self.store, &mut buffer, call);
            let worked_out = match &mut self.book {
                Some(book) => book.feed(call, answer.is_ok()),
                None => None,
            };
            let Ok(Some(closed)) = answer else {
                return Ok(answer.map(|_| None));
            };
            let t = hours_of(year as u64, month as u64).min(buffer.len());
            self.handed_out += buffer[..t].iter().map(|w| *w as u128).sum::<u128>();
            let lines = closing_lines(year, month, &closed, &buffer, t);
            let difference = match worked_out {
                Some(outcome) => differences(outcome, &closed, &buffer, t),
                None => "the book has no closing".to_string(),
            };
            if !difference.is_empty() || self.handed_out != self.record.total as u128 {
                let sums = format!("handed out {} total {}", self.handed_out, self.record.total);
                out.push_str(&lines);
                return Err(Stop::Disagree(format!("{year}-{month:02} {difference} {sums}")));
            }
            Ok(Ok(Some(lines)))
        }
    }

    /// What the book's closing and the point's differ in; empty if nothing.
    fn differences(book: &Outcome, closed: &Closed, buffer: &[u32], t: usize) -> String {
        let hours: Vec<u64> = buffer[..t].iter().map(|w| *w as u64).collect();
        let near =
            book.exact.len() == t && book.exact.iter().zip(&hours).all(|(e, h)| e.is_near(*h));
        let book_figures = (book.capacity_sum, book.working_days, book.capacity);
        let checks = [
            ("ground", book.ground == closed.ground),
            ("volume", book.volume == closed.volume),
            ("hours", book.hours == hours),
            (
                "figures",
                book_figures == (closed.capacity_sum, closed.working_days, closed.capacity),
            ),
            ("exact shares", near),
            ("length of the buffer", buffer.len() == ROW),
            ("words after the month", buffer[t..].iter().all(|w| *w == 0)),
        ];
        let failed: Vec<&str> = checks.iter().filter(|c| !c.1).map(|c| c.0).collect();
        failed.join(", ")
    }

    /// "LINE refused NUMBER", and "LINE refused NUMBER day DAY" where the refusal has a day.
    fn refusal_line(line: usize, refusal: Refusal) -> String {
        match refusal.wrong_day {
            0 => format!("{line} refused {}", refusal.number),
            day => format!("{line} refused {} day {day}", refusal.number),
        }
    }

    fn closing_lines(year: u32, month: u32, closed: &Closed, buffer: &[u32], t: usize) -> String {
        let day_sum = |day: &[u32]| day.iter().map(|w| *w as u64).sum::<u64>().to_string();
        let days: Vec<String> = buffer[..t].chunks(24).map(day_sum).collect();
        format!(
            "  {year}-{month:02} ground {} volume {} sum {} days {} capacity {}\n  days {} hash {}\n",
            closed.ground,
            closed.volume,
            closed.capacity_sum,
            closed.working_days,
            closed.capacity,
            days.join(" "),
            hash(buffer),
        )
    }

    /// "start with x = 14695981039346656037; for each word x = (x XOR w) × 1099511628211, modulo
    /// 2^64"
    pub fn hash(words: &[u32]) -> String {
        let step = |x: u64, w: &u32| (x ^ *w as u64).wrapping_mul(1_099_511_628_211);
        format!("{:016x}", words.iter().fold(14_695_981_039_346_656_037, step))
    }

    fn state_line(record: &Record, store: &[u32]) -> String {
        if !record.is_open() {
            return format!("  point none store {}", hash(store));
        }
        let years: Vec<String> = record.years.iter().map(|y| y.to_string()).collect();
        let reading = |which: usize| match record.given[which] {
            0 => "-".to_string(),
            _ => record.volumes[which].to_string(),
        };
        let readings: Vec<String> = (0..4).map(reading).collect();
        format!(
            "  point {}-{:02} run {} serving {} denials {} fault {} latest {} years {} readings {} total {} store {}",
            record.year,
            record.month,
            record.run,
            record.serving,
            record.denials,
            record.fault,
            record.latest,
            years.join(","),
            readings.join(","),
            record.total,
            hash(store),
        )
    }

    /// Plays a whole history from the start. The text is the output up to its end or to the stop.
    pub fn play(history: &str) -> (String, Option<Stop>) {
        let mut player = Player::new();
        let mut out = String::new();
        for (place, line) in history.lines().enumerate() {
            if let Err(stop) = player.line(place + 1, line, &mut out) {
                return (out, Some(stop));
            }
        }
        let calls = player.accepted + player.refused;
        let _ =
            writeln!(out, "calls {calls} accepted {} refused {}", player.accepted, player.refused);
        (out, None)
    }
}

/// Reads a file, or standard input.
#[allow(dead_code)]
fn read_history(path: Option<&str>) -> std::io::Result<String> {
    match path {
        Some(path) => std::fs::read_to_string(path),
        None => std::io::read_to_string(std::io::stdin()),
    }
}

/// Plays one history and prints its output. Status 0, 1 if point and book disagree, 2 if the
/// history cannot be read.
#[allow(dead_code)]
fn play_and_print(path: Option<&str>) -> u8 {
    use std::io::Write;
    let history = match read_history(path) {
        Ok(history) => history,
        Err(why) => {
            eprintln!("{}: {why}", path.unwrap_or("standard input"));
            return 2;
        }
    };
    let (mut text, stop) = player::play(&history);
    let status = match stop {
        None => 0,
        Some(player::Stop::Disagree(what)) => {
            text.push_str(&format!("DISAGREE {what}\n"));
            1
        }
        Some(player::Stop::Unreadable(what)) => {
            eprintln!("{what}");
            2
        }
    };
    match std::io::stdout().write_all(text.as_bytes()) {
        Ok(()) => status,
        Err(_) => 2,
    }
}

/// Plays the histories named as arguments, or the one on standard input.
#[allow(dead_code)]
fn main() -> std::process::ExitCode {
    let paths: Vec<String> = std::env::args().skip(1).collect();
    let mut status = 0;
    if paths.is_empty() {
        status = play_and_print(None);
    }
    for path in &paths {
        status = play_and_print(Some(path));
        if status != 0 {
            break;
        }
    }
    std::process::ExitCode::from(status)
}

#[cfg(test)]
mod tests {
    use super::book::Book;
    use super::calls::{Call, Opening};
    use super::player::{play, Player, Stop};
    use super::point::{self, Record, Refusal, BILLING, CONTROL, NEIGHBOUR_1, STORE};
    use super::rules::*;

    // ---- The table of examples ----

    #[test]
    fn example_a_february() {
        let days: Vec<u64> = [2023, 2024, 2100, 2400].iter().map(|y| days_of(*y, 2)).collect();
        assert_eq!(days, [28, 29, 28, 29]);
        assert_eq!(host_month_length(2024, 2), 29);
        assert_eq!(
            [host_month_length(2013, 12), host_month_length(3000, 1), host_month_length(2024, 13)],
            [0; 3]
        );
    }

    #[test]
    fn examples_b_c_d_sharing() {
        // "so example b) reads 3, 4, 3; the other examples with sharing are worked again by the
        // same rule": 3 1/3, 6 2/3 and 10 are 3, 7 and 10; 2 1/2 is 3; 5 1/4 is 5.
        assert_eq!(share(10, &[1, 1, 1]), [3, 4, 3]);
        assert_eq!(share(5, &[0, 0]), [3, 2]);
        assert_eq!(share(7, &[3, 0, 1]), [5, 0, 2]);
    }

    #[test]
    fn examples_e_f_cable() {
        assert_eq!(host_cable_formula(100, 230, 0, 3, 720), 29_808);
        assert_eq!(host_cable_formula(100, 230, 0, 1, 720), 9_936);
        assert_eq!(host_cable_formula(1, 25, 125, 1, 720), 2);
        assert_eq!(host_cable_formula(1, 25, 125, 1, 0), 0);
        let outside = [
            host_cable_formula(0, 230, 0, 3, 720),
            host_cable_formula(2_001, 230, 0, 3, 720),
            host_cable_formula(100, 0, 0, 3, 720),
            host_cable_formula(100, 250_001, 0, 3, 720),
            host_cable_formula(100, 230, 1_001, 3, 720),
            host_cable_formula(100, 230, 0, 2, 720),
            host_cable_formula(100, 230, 0, 3, 8_761),
        ];
        assert_eq!(outside, [u64::MAX; 7]);
        assert_eq!(cable_formula(u32::MAX, u32::MAX, u32::MAX, 3, u64::MAX), u64::MAX);
    }

    #[test]
    fn example_g_list() {
        assert_eq!(share_of_power(10, &[1, 1, 1], 0), 3);
        assert_eq!(share_of_power(10, &[1, 1, 1], 1), 4);
        assert_eq!(share_of_power(10, &[1, 1, 1], 2), 3);
        assert_eq!(share_of_power(10, &[1, 1, 1], 3), 0);
    }

    #[test]
    fn examples_h_i_peak_rule() {
        let marks = [0, 1, 0, 1, 0, 0];
        assert_eq!(peak_rule(10, 3, &marks).0, [1, 3, 1, 3, 1, 1]);
        assert_eq!(peak_rule(5, 3, &marks).0, [0, 3, 0, 2, 0, 0]);
        assert_eq!(peak_rule(4, 0, &marks).0, [1, 0, 1, 0, 1, 1]);
        assert_eq!(peak_rule(10, 3, &[0, 0, 2]).0, [3, 4, 3]);
    }

    #[test]
    fn examples_j_k_capacity() {
        assert_eq!(capacity(7, 2), 4);
        assert_eq!(capacity(7, 0), 0);
        assert!(!beats_peak_rule(6, 2, 1, 3));
        assert!(beats_peak_rule(6, 2, 1, 4));
    }

    #[test]
    fn example_l_repeated_fault() {
        for (year, month, run) in [(2024, 1, 0), (2024, 2, 13)] {
            let (mut record, mut store) = opened(1, 2);
            ok(point::failure(&mut record, &mut store, 1));
            ok(point::admission(&mut record, &store));
            while (record.year, record.month) != (year, month) {
                close_plainly(&mut record, &mut store);
            }
            ok(point::failure(&mut record, &mut store, 2));
            assert_eq!(record.run, run);
            assert_eq!(record.fault, year * 12 + month);
        }
    }

    #[test]
    fn example_m_three_months_without_reading() {
        let (mut record, mut store) = opened(1, 0);
        record.contract.power = 1;
        let grounds: Vec<u32> =
            (0..3).map(|_| close_plainly(&mut record, &mut store).ground).collect();
        assert_eq!((record.total, record.run, grounds), (2_160, 3, vec![8, 8, 8]));
    }

    #[test]
    fn example_n_shorter_past() {
        let february: Vec<u64> = (0..672).collect();
        let hours = stretch(&february, hours_of(2024, 2));
        assert_eq!((hours.len(), hours[671], hours[672], hours[695]), (696, 671, 504, 527));
    }

    // ---- Sharing ----

    /// A half goes to the greater number, so to the earlier hour; the last hour makes up V.
    #[test]
    fn halves_in_shares() {
        assert_eq!(share(1, &[1, 1]), [1, 0]);
        assert_eq!(share(3, &[1, 1]), [2, 1]);
        assert_eq!(share(1, &[1, 1, 1, 1]), [0, 1, 0, 0]);
        assert_eq!(share(2, &[1, 1, 1, 1]), [1, 0, 1, 0]);
        assert_eq!(share(1, &[5, 0, 0, 5]), [1, 0, 0, 0]);
        assert_eq!(share(1, &[499, 501]), [0, 1]);
        assert_eq!(share_of_power(1, &[16, 16], 0), 1);
        assert_eq!(share_of_power(1, &[16, 16], 1), 0);
    }

    #[test]
    fn shares_of_one_hour_and_of_nothing() {
        for volume in [0, 1, 744_000_000, u64::MAX] {
            assert_eq!(share(volume, &[1]), [volume]);
            assert_eq!(share(volume, &[3_000_000]), [volume]);
            assert_eq!(share(volume, &[0]), [volume]);
        }
        assert_eq!(share(0, &[1, 0, 2]), [0, 0, 0]);
        assert_eq!(share(0, &[0, 0, 0]), [0, 0, 0]);
        assert_eq!(share(5, &[]), [0; 0]);
    }

    /// A volume and its weights: small and large ones, all weights 0 too, in a list of 1 to 744.
    fn any_sharing(dice: &mut Dice) -> (u64, Vec<u64>) {
        let mut one_of = |limits: &[u64]| limits[dice.below(limits.len() as u64) as usize];
        let volumes = one_of(&[1, 10, 1_000, 744_000_000]);
        let lengths = one_of(&[1, 3, 24, 64, 744]);
        let top = one_of(&[0, 1, 2, 50, 2_000, 3_000_000]);
        let volume = dice.below(volumes + 1);
        (volume, (0..=dice.below(lengths)).map(|_| dice.below(top + 1)).collect())
    }

    /// "If S = 0, all weights are taken as 1 (H)."
    fn taken(weights: &[u64]) -> Vec<i128> {
        let none = weights.iter().all(|w| *w == 0);
        weights.iter().map(|w| if none { 1 } else { *w as i128 }).collect()
    }

    /// "Users still see sums that fit and hours less than one kWh from their share" (02, E2), the
    /// latter "when hour × S and V × w(h) differ by less than S". A weight of 0 has a share of 0.
    #[test]
    fn shares_of_random_lists() {
        let (mut dice, mut single, mut even, mut idle) = (Dice(2), 0, 0, 0);
        for _ in 0..20_000 {
            let (volume, weights) = any_sharing(&mut dice);
            let (hours, taken) = (share(volume, &weights), taken(&weights));
            assert_eq!(hours.len(), weights.len());
            assert_eq!(hours.iter().sum::<u64>(), volume, "{volume} by {weights:?}");
            let s: i128 = taken.iter().sum();
            for (weight, hour) in taken.iter().zip(&hours) {
                let apart = (*hour as i128 * s - volume as i128 * weight).abs();
                assert!(apart < s, "{volume} by {weights:?}: {hour} for {weight}");
                assert!(*weight > 0 || *hour == 0, "{volume} by {weights:?}: {hour} for 0");
                idle += (*weight == 0) as u32;
            }
            let exact = exact_shares(volume, &weights);
            assert!(exact.iter().zip(&hours).all(|(e, h)| e.is_near(*h)), "{volume}: {weights:?}");
            single += (hours.len() == 1) as u32;
            even += weights.iter().all(|w| *w == 0) as u32;
        }
        assert!(single > 1_000 && even > 1_000 && idle > 1_000, "{single} {even} {idle}");
    }

    /// Hours 0 to h have together V × s(h)/S rounded half up: that quotient lies at most one half
    /// below their sum and less than one half above it.
    #[test]
    fn running_sums_of_random_lists() {
        let (mut dice, mut halves) = (Dice(20), 0);
        for _ in 0..20_000 {
            let (volume, weights) = any_sharing(&mut dice);
            let taken = taken(&weights);
            let s: i128 = taken.iter().sum();
            let (mut so_far, mut together) = (0, 0);
            for (weight, hour) in taken.iter().zip(share(volume, &weights)) {
                so_far += *weight;
                together += hour as i128;
                let above = 2 * volume as i128 * so_far - 2 * together * s;
                assert!((-s..s).contains(&above), "{volume} by {weights:?}: {together}");
                halves += (above == -s) as u32;
            }
        }
        assert!(halves > 1_000, "{halves}");
    }

    /// A record opened earlier keeps its P (reading 25): P is worked out at the opening alone, and
    /// a record with another P is sound and settles by that.
    #[test]
    fn a_record_keeps_its_power() {
        let (mut record, mut store) = (Record::default(), vec![9; STORE]);
        let one_of_three = Opening {
            basis: 2,
            power: 10,
            currents: vec![1, 1, 1],
            place: 2,
            ..contract_of_40_kw(1, 0)
        };
        ok(point::open(&mut record, &mut store, &one_of_three));
        assert_eq!(record.contract.power, 3);
        record.contract.power = 4;
        assert_eq!(close_plainly(&mut record, &mut store).volume, 4 * 744);
        assert_eq!(record.contract.power, 4);
    }

    // ---- Helpers ----

    fn ok<T>(answer: Result<T, impl Into<Refusal>>) -> T {
        answer.unwrap_or_else(|refusal| panic!("refused: {:?}", refusal.into()))
    }

    fn contract_of_40_kw(billing: u32, control: u32) -> Opening {
        Opening {
            billing,
            control,
            basis: 1,
            power: 40,
            year: 2023,
            month: 1,
            ..Opening::default()
        }
    }

    /// A point of 40 kW, opened in January 2023.
    fn opened(billing: u32, control: u32) -> (Record, Vec<u32>) {
        let (mut record, mut store) = (Record::default(), vec![9; STORE]);
        ok(point::open(&mut record, &mut store, &contract_of_40_kw(billing, control)));
        (record, store)
    }

    fn close_plainly(record: &mut Record, store: &mut [u32]) -> point::Closed {
        let marks = vec![0; record.t()];
        ok(point::close(record, store, &mut [7; 744], &marks))
    }

    /// Asserts that a call is refused with this number and no day, and changes nothing.
    fn refuses(record: &Record, store: &[u32], call: Call, number: u32) {
        refuses_with(record, store, 744, call, number)
    }

    /// The same of a closing with an hour buffer of so many words; it may be a number with a day.
    fn refuses_with(
        record: &Record,
        store: &[u32],
        words: usize,
        call: Call,
        refusal: impl Into<Refusal>,
    ) {
        let (mut record_after, mut store_after) = (record.clone(), store.to_vec());
        let mut buffer = vec![7; words];
        let answer = point::apply(&mut record_after, &mut store_after, &mut buffer, &call);
        assert_eq!(answer, Err(refusal.into()), "{call:?}");
        assert_eq!(&record_after, record);
        assert_eq!(store_after, store);
        assert_eq!(buffer, vec![7; words]);
    }

    /// Asserts that an opening is refused with this number, makes the record zeros, keeps the store.
    fn refuses_opening(opening: Opening, number: u32) {
        let (mut record, mut store) = opened(1, 1);
        store.fill(9);
        assert_eq!(point::open(&mut record, &mut store, &opening), Err(number), "{opening:?}");
        assert_eq!((record, store), (Record::default(), vec![9; STORE]));
    }

    fn every_call() -> Vec<Call> {
        vec![
            Call::BillingHours(vec![1; 744]),
            Call::BillingVolume(1),
            Call::ControlHours(vec![1; 744]),
            Call::ControlVolume(1),
            Call::Neighbour { source: 1, volume: 1 },
            Call::Failure { reason: 1 },
            Call::Admission,
            Call::Denial,
            Call::Permission,
            Call::Close { marks: vec![0; 744] },
        ]
    }

    // ---- Refusal numbers ----

    #[test]
    fn number_1_store() {
        let (record, store) = opened(1, 2);
        for call in every_call() {
            refuses(&record, &store[1..], call.clone(), 1);
            refuses(&Record::default(), &[], call, 1);
        }
        let (mut record, mut short) = (Record::default(), vec![9; STORE + 1]);
        let bad_everywhere = Opening::default();
        assert_eq!(point::open(&mut record, &mut short, &bad_everywhere), Err(1));
        assert_eq!(short, vec![9; STORE + 1]);
    }

    #[test]
    fn number_2_not_open_and_number_3_over() {
        let (record, store) = opened(1, 2);
        let over = Record { year: 3000, month: 1, ..record };
        for call in every_call() {
            refuses(&Record::default(), &store, call.clone(), 2);
            refuses(&over, &store, call.clone(), 3);
            refuses(&Record { month: 2, ..over.clone() }, &store, call, 2);
        }
    }

    /// Asserts number 2 for a change of one field, and that the unchanged record is sound.
    fn forged(base: &Record, change: impl Fn(&mut Record)) {
        let mut record = base.clone();
        change(&mut record);
        assert!(point::record_is_sound(base));
        refuses(&record, &vec![0; STORE], Call::Denial, 2);
    }

    fn sound(base: &Record, change: impl Fn(&mut Record)) {
        let mut record = base.clone();
        change(&mut record);
        assert!(point::record_is_sound(&record), "{record:?}");
    }

    #[test]
    fn number_2_contract_and_state() {
        let (base, _) = opened(1, 2);
        forged(&base, |r| r.contract.billing = 0);
        forged(&base, |r| r.contract.billing = 3);
        forged(&base, |r| r.contract.control = 3);
        forged(&base, |r| r.contract.basis = 0);
        forged(&base, |r| r.contract.basis = 4);
        forged(&base, |r| r.contract.power = 1_000_001);
        sound(&base, |r| r.contract.power = 0);
        forged(&base, |r| r.contract.amperes = 1);
        forged(&base, |r| r.contract.volts = 1);
        forged(&base, |r| r.contract.cosine = 1);
        forged(&base, |r| r.contract.phases = 1);
        forged(&base, |r| r.year = 2013);
        forged(&base, |r| r.year = 3001);
        forged(&base, |r| r.month = 0);
        forged(&base, |r| r.month = 13);
        forged(&base, |r| r.run = 12_001);
        sound(&base, |r| r.run = 12_000);
        forged(&base, |r| r.serving = 2);
        forged(&base, |r| r.denials = 3);
        forged(&base, |r| r.total = 30_000_000_000_001);
        sound(&base, |r| r.total = 30_000_000_000_000);
    }

    #[test]
    fn number_2_cable() {
        let (mut base, _) = opened(2, 1);
        let cable = Contract {
            basis: 3,
            power: 0,
            amperes: 100,
            volts: 230,
            cosine: 0,
            phases: 3,
            ..base.contract
        };
        base.contract = cable;
        forged(&base, |r| r.contract.power = 1);
        forged(&base, |r| r.contract.amperes = 0);
        forged(&base, |r| r.contract.amperes = 2_001);
        forged(&base, |r| r.contract.volts = 0);
        forged(&base, |r| r.contract.volts = 250_001);
        forged(&base, |r| r.contract.cosine = 1_001);
        forged(&base, |r| r.contract.phases = 2);
    }

    #[test]
    fn number_2_dates() {
        let (base, _) = opened(1, 2);
        forged(&base, |r| r.fault = 2014 * 12);
        sound(&base, |r| r.fault = 2014 * 12 + 1);
        sound(&base, |r| r.fault = 2023 * 12 + 1);
        forged(&base, |r| r.fault = 2023 * 12 + 2);
        forged(&base, |r| r.fault = u32::MAX);
        let over = Record { year: 3000, ..base.clone() };
        forged(&over, |r| r.fault = 3000 * 12 + 1);
        sound(&over, |r| r.fault = 2999 * 12 + 12);
        forged(&base, |r| r.years[0] = 2023);
        sound(&base, |r| r.years[0] = 2022);
        forged(&base, |r| r.years[11] = 2023);
        forged(&base, |r| r.years[11] = 2013);
        forged(&base, |r| r.years[5] = u32::MAX);
        forged(&base, |r| r.latest = 2022 * 12 + 12);
        forged(&base, |r| r.latest = 5);
        sound(&base, |r| (r.latest, r.years[11]) = (2022 * 12 + 12, 2022));
        forged(&base, |r| (r.latest, r.years[11]) = (2022 * 12 + 12, 2021));
        forged(&base, |r| r.latest = 2023 * 12 + 1);
        forged(&base, |r| r.latest = u32::MAX);
    }

    #[test]
    fn number_2_readings() {
        let (base, _) = opened(1, 2);
        for which in 0..4 {
            forged(&base, |r| r.given[which] = 2);
            forged(&base, |r| r.volumes[which] = 1);
        }
        sound(&base, |r| r.given[BILLING] = 1);
        forged(&base, |r| (r.given[BILLING], r.volumes[BILLING]) = (1, 1));
        sound(&base, |r| (r.given[CONTROL], r.volumes[CONTROL]) = (1, 744_000_000));
        forged(&base, |r| (r.given[CONTROL], r.volumes[CONTROL]) = (1, 744_000_001));
        forged(&base, |r| (r.given[NEIGHBOUR_1], r.volumes[NEIGHBOUR_1]) = (1, 744_000_001));
        let (without, _) = opened(1, 0);
        forged(&without, |r| r.given[CONTROL] = 1);
        let (interval, _) = opened(1, 1);
        forged(&interval, |r| (r.given[CONTROL], r.volumes[CONTROL]) = (1, 1));
    }

    #[test]
    fn numbers_10_to_12_opening() {
        let good = contract_of_40_kw(1, 2);
        for (year, month) in [(2013, 12), (3000, 1), (2023, 0), (2023, 13)] {
            refuses_opening(Opening { year, month, billing: 7, ..good.clone() }, 10);
        }
        for (billing, control) in [(0, 0), (3, 0), (1, 3)] {
            refuses_opening(Opening { billing, control, basis: 9, ..good.clone() }, 11);
        }
        for (basis, power) in [(0, 40), (4, 40), (1, 0), (1, 1_000_001), (2, 0), (2, 1_000_001)] {
            refuses_opening(Opening { basis, power, ..good.clone() }, 12);
        }
    }

    #[test]
    fn numbers_13_and_14_opening() {
        let cable = Opening {
            basis: 3,
            amperes: 1,
            volts: 1,
            cosine: 0,
            phases: 1,
            ..contract_of_40_kw(1, 2)
        };
        refuses_opening(Opening { amperes: 0, ..cable.clone() }, 13);
        refuses_opening(Opening { volts: 250_001, ..cable.clone() }, 13);
        refuses_opening(Opening { cosine: 1_001, ..cable.clone() }, 13);
        refuses_opening(Opening { phases: 2, ..cable }, 13);
        let list = |currents: Vec<u32>, place| Opening {
            basis: 2,
            currents,
            place,
            ..contract_of_40_kw(1, 2)
        };
        refuses_opening(list(vec![], 0), 14);
        refuses_opening(list(vec![1; 65], 0), 14);
        refuses_opening(list(vec![1, 0], 0), 14);
        refuses_opening(list(vec![1, 2_001], 0), 14);
        refuses_opening(list(vec![1, 1], 2), 14);
    }

    // ---- Number 15: no integral billing meter on big loads (02, E3) ----

    /// Asserts that this P passes with an interval billing meter, and with an integral one where
    /// it is below 670 and else not, whatever the control meter.
    fn asks_for_power(opening: &Opening, kilowatts: u64) {
        for control in 0..=2 {
            let with = |billing| Opening { billing, control, ..opening.clone() };
            assert_eq!(Contract::from_opening(&with(2)).kilowatts(), kilowatts, "{opening:?}");
            let (mut record, mut store) = (Record::default(), vec![9; STORE]);
            ok(point::open(&mut record, &mut store, &with(1)));
            if kilowatts >= 670 {
                refuses_opening(with(2), 15);
            } else {
                ok(point::open(&mut record, &mut store, &with(2)));
                assert_eq!(record.contract, Contract::from_opening(&with(2)));
            }
        }
    }

    #[test]
    fn number_15_agreed_power() {
        for power in [1, 668, 669, 670, 671, 999_999, 1_000_000] {
            asks_for_power(&Opening { power, ..contract_of_40_kw(1, 0) }, power as u64);
        }
    }

    /// P of one point of a list, in January 2023.
    fn one_of_list(power: u32, currents: &[u32], place: u32) -> Opening {
        Opening { basis: 2, currents: currents.to_vec(), place, power, ..contract_of_40_kw(1, 0) }
    }

    /// The share is compared and not the agreed power. Of 1,339 kW by 1, 1 the first place has
    /// 669.5 rounded half up, and the second what is left.
    #[test]
    fn number_15_share_of_power() {
        let shares: [(u32, &[u32], u32, u64); 10] = [
            (1_339, &[1, 1], 0, 670),
            (1_339, &[1, 1], 1, 669),
            (1_338, &[1, 1], 0, 669),
            (1_340, &[1, 1], 1, 670),
            (669, &[7], 0, 669),
            (670, &[7], 0, 670),
            (1_000_000, &[1, 1_999], 0, 500),
            (1_000_000, &[1, 1_999], 1, 999_500),
            (1_000_000, &[1, 2_000, 2_000], 0, 250),
            (1_000_000, &[1, 2_000, 2_000], 2, 499_875),
        ];
        for (power, currents, place, kilowatts) in shares {
            asks_for_power(&one_of_list(power, currents, place), kilowatts);
        }
        asks_for_power(&one_of_list(1, &[1, 1, 1, 1], 3), 0);
    }

    fn by_cable(amperes: u32, volts: u32, cosine: u32, phases: u32) -> Opening {
        Opening { basis: 3, amperes, volts, cosine, phases, ..contract_of_40_kw(1, 0) }
    }

    /// "P on basis 3 is the formula at t = 1", rounded half up: 669.5 is 670.
    #[test]
    fn number_15_cable() {
        let cables = [
            (by_cable(2, 167_374, 1_000, 3), 669), // 669.496
            (by_cable(2, 167_375, 1_000, 3), 670), // 669.5
            (by_cable(6, 167_374, 1_000, 1), 669), // 669.496
            (by_cable(6, 167_375, 1_000, 1), 670), // 669.5
            (by_cable(1_339, 250, 1_000, 3), 670), // 669.5
            (by_cable(8, 46_493, 0, 3), 669),      // 669.4992, c counts as 900
            (by_cable(5, 74_389, 0, 3), 670),      // 669.501
            (by_cable(5, 74_389, 900, 3), 670),
            (by_cable(1_338, 250, 1_000, 3), 669), // 669
            (by_cable(1_340, 250, 1_000, 3), 670), // 670
            (by_cable(1, 1, 1, 1), 0),
            (by_cable(2_000, 250_000, 1_000, 3), 1_000_000),
        ];
        for (opening, kilowatts) in cables {
            asks_for_power(&opening, kilowatts);
            // "fields that the basis doesn't use": no agreed power counts here (reading 9).
            asks_for_power(&Opening { power: 1_000_000, ..opening }, kilowatts);
        }
        let unused = by_cable(2_000, 250_000, 1_000, 3);
        asks_for_power(&Opening { basis: 1, power: 669, ..unused }, 669);
    }

    /// "(New: 15, after 14.)" and "The lowest number that applies is returned."
    #[test]
    fn number_15_comes_last() {
        let big = Opening { power: 1_000_000, ..contract_of_40_kw(2, 2) };
        refuses_opening(big.clone(), 15);
        let (mut record, mut short) = (Record::default(), vec![9; STORE - 1]);
        assert_eq!(point::open(&mut record, &mut short, &big), Err(1));
        refuses_opening(Opening { year: 3000, ..big.clone() }, 10);
        refuses_opening(Opening { month: 13, ..big.clone() }, 10);
        refuses_opening(Opening { control: 3, ..big.clone() }, 11);
        refuses_opening(Opening { billing: 3, ..big.clone() }, 11);
        refuses_opening(Opening { basis: 4, ..big.clone() }, 12);
        refuses_opening(Opening { power: 1_000_001, ..big.clone() }, 12);
        let integral = |opening: Opening| Opening { billing: 2, ..opening };
        refuses_opening(integral(by_cable(2_000, 250_001, 1_000, 3)), 13);
        refuses_opening(integral(by_cable(2_000, 250_000, 1_001, 3)), 13);
        refuses_opening(integral(by_cable(2_000, 250_000, 1_000, 2)), 13);
        refuses_opening(integral(one_of_list(1_000_000, &[1; 65], 0)), 14);
        refuses_opening(integral(one_of_list(1_000_000, &[1, 2_001], 0)), 14);
        refuses_opening(integral(one_of_list(1_000_000, &[1, 2_001], 1)), 14);
        refuses_opening(integral(one_of_list(1_000_000, &[1, 0], 0)), 14);
        refuses_opening(integral(one_of_list(1_000_000, &[1, 1], 2)), 14);
    }

    /// "Records opened earlier go on": record and store of a point that was opened earlier, by an
    /// opening that 15 turns down. They are those of an interval meter but for the meter's kind.
    fn opened_earlier(opening: &Opening) -> (Record, Vec<u32>) {
        let (mut record, mut store) = (Record::default(), vec![9; STORE]);
        ok(point::open(&mut record, &mut store, &Opening { billing: 1, ..opening.clone() }));
        record.contract.billing = 2;
        assert_eq!(record.contract, Contract::from_opening(opening));
        refuses_opening(opening.clone(), 15);
        (record, store)
    }

    /// One of each basis: 1,000 kW, 999,500 kW and 1,000,000 kW.
    fn big_integral_openings() -> [Opening; 3] {
        let agreed = Opening { power: 1_000, ..contract_of_40_kw(2, 0) };
        let list = Opening { billing: 2, ..one_of_list(1_000_000, &[1, 1_999], 1) };
        let cable = Opening { billing: 2, ..by_cable(2_000, 250_000, 1_000, 3) };
        [agreed, list, cable]
    }

    #[test]
    fn records_opened_earlier_close() {
        let volumes = [(8, 744_000), (8, 743_628_000), (9, 744_000_000)];
        for (opening, (ground, without)) in big_integral_openings().iter().zip(volumes) {
            let (mut record, mut store) = opened_earlier(opening);
            assert!(point::record_is_sound(&record));
            ok(point::billing_volume(&mut record, &mut store, 1_000_000));
            assert_eq!(close_plainly(&mut record, &mut store).ground, 2);
            // January is even: its first 672 hours have 1,000,000 × 672/744 rounded half up.
            let february = close_plainly(&mut record, &mut store);
            assert_eq!((february.ground, february.volume), (7, 903_226));
            ok(point::denial(&mut record, &mut store));
            ok(point::denial(&mut record, &mut store));
            let march = close_plainly(&mut record, &mut store);
            assert_eq!((march.ground, march.volume), (ground, without));
        }
    }

    /// Their book goes on too, from the opening as it was made (reading 27).
    #[test]
    fn books_of_records_opened_earlier_agree() {
        let (mut dice, mut grounds) = (Dice(670), [0; 10]);
        for round in 0..60 {
            let opening = &big_integral_openings()[round % 3];
            let opening = Opening { control: dice.below(3) as u32, ..opening.clone() };
            play_random_history(&mut dice, &opening, opened_earlier(&opening), &mut grounds);
        }
        // Ground 6 is not asked for: with so big a P it seldom comes up.
        assert!([2, 3, 4, 5, 7, 8, 9].iter().all(|ground| grounds[*ground] > 0), "{grounds:?}");
    }

    #[test]
    fn numbers_20_to_24_readings() {
        let (mut record, mut store) = opened(1, 2);
        refuses(&record, &store, Call::BillingVolume(1), 20);
        refuses(&record, &store, Call::ControlHours(vec![1; 744]), 20);
        refuses(&record, &store, Call::Neighbour { source: 0, volume: u64::MAX }, 20);
        refuses(&record, &store, Call::Neighbour { source: 3, volume: 0 }, 20);
        refuses(&opened(2, 0).0, &store, Call::ControlVolume(1), 20);
        refuses(&opened(2, 0).0, &store, Call::BillingHours(vec![1; 744]), 20);
        refuses(&Record { serving: 0, ..record.clone() }, &store, Call::BillingHours(vec![]), 21);
        refuses(&Record { denials: 2, ..record.clone() }, &store, Call::BillingHours(vec![]), 21);
        refuses(&record, &store, Call::BillingHours(vec![2_000_000; 743]), 23);
        refuses(&record, &store, Call::BillingHours(vec![1_000_001; 744]), 24);
        refuses(&record, &store, Call::ControlVolume(744_000_001), 24);
        refuses(&record, &store, Call::Neighbour { source: 2, volume: 744_000_001 }, 24);
        ok(point::billing_hours(&mut record, &mut store, &[1_000_000; 744]));
        ok(point::control_volume(&mut record, &mut store, 744_000_000));
        ok(point::neighbour(&mut record, &mut store, 1, 5));
        refuses(&record, &store, Call::BillingHours(vec![]), 22);
        refuses(&record, &store, Call::ControlVolume(u64::MAX), 22);
        refuses(&record, &store, Call::Neighbour { source: 1, volume: 0 }, 22);
        ok(point::neighbour(&mut record, &mut store, 2, 5));
    }

    #[test]
    fn numbers_30_to_34_network() {
        let (record, store) = opened(1, 2);
        let out = Record { serving: 0, ..record.clone() };
        refuses(&out, &store, Call::Failure { reason: 9 }, 30);
        refuses(&record, &store, Call::Failure { reason: 0 }, 31);
        refuses(&record, &store, Call::Failure { reason: 5 }, 31);
        refuses(&record, &store, Call::Admission, 32);
        refuses(&Record { denials: 2, ..record.clone() }, &store, Call::Denial, 33);
        refuses(&record, &store, Call::Permission, 34);
    }

    /// Marks of so many days, 0 but for the first hours of the days named, counted from 1.
    fn marked(days: usize, first_hours: &[(usize, &[u8])]) -> Vec<u8> {
        let mut marks = vec![0; 24 * days];
        for (day, hours) in first_hours {
            marks[24 * (day - 1)..][..hours.len()].copy_from_slice(hours);
        }
        marks
    }

    /// A closing of January with such marks.
    fn close_with(first_hours: &[(usize, &[u8])]) -> Call {
        Call::Close { marks: marked(31, first_hours) }
    }

    fn on_day(number: u32, wrong_day: u64) -> Refusal {
        Refusal { number, wrong_day }
    }

    /// Days that nothing refuses: the most peak hours, and a capacity hour alone.
    const GOOD: [&[u8]; 2] = [&[3, 1, 1, 1, 1, 1, 1, 1, 1, 1, 1, 1, 1, 1, 1, 1], &[2]];
    /// Days with the faults of 42, 43 and 46, one each.
    const TOO_MANY_PEAKS: &[u8] = &[3, 1, 1, 1, 1, 1, 1, 1, 1, 1, 1, 1, 1, 1, 1, 1, 1];
    const TWO_CAPACITY_HOURS: &[u8] = &[2, 3];
    const NO_CAPACITY_HOUR: &[u8] = &[1];
    const WRONG_DAYS: [(u32, &[u8]); 3] =
        [(42, TOO_MANY_PEAKS), (43, TWO_CAPACITY_HOURS), (46, NO_CAPACITY_HOUR)];

    #[test]
    fn numbers_40_to_46_closing() {
        let (record, mut store) = opened(1, 2);
        refuses_with(&record, &store, 0, Call::Close { marks: vec![9; 743] }, 40);
        refuses_with(&record, &store, 0, close_with(&[(1, &[4; 20])]), 41);
        refuses_with(&record, &store, 0, close_with(&[(1, &[1; 17])]), on_day(42, 1));
        refuses_with(&record, &store, 0, close_with(&[(1, &[2, 2])]), on_day(43, 1));
        refuses_with(&record, &store, 0, close_with(&[(1, &[1; 16])]), on_day(46, 1));
        refuses_with(&record, &store, 743, close_with(&[]), 44);
        for (place, value) in
            [(0, 3_000_001), (8_927, 3_000_001), (8_928, 1_000_001), (10_415, 1_000_001)]
        {
            store[place] = value;
            refuses(&record, &store, close_with(&[]), 45);
            store[place] = value - 1;
        }
        let (mut buffer, good) = ([7; 744], close_with(&[(1, GOOD[0]), (31, GOOD[1])]));
        assert!(point::apply(&mut record.clone(), &mut store, &mut buffer, &good).is_ok());
    }

    // ---- The days of 42, 43 and 46 ----

    /// A record whose open month is this one of 2024, and a store of 0.
    fn month_of_2024(month: u32) -> (Record, Vec<u32>) {
        let (record, store) = opened(1, 2);
        (Record { year: 2024, month, ..record }, store)
    }

    /// One wrong day, the first, the last and each between, in months of 29, 30 and 31 days, and
    /// good days around it.
    #[test]
    fn the_wrong_day_of_a_month() {
        for (month, days) in [(2, 29), (4, 30), (5, 31)] {
            let (record, store) = month_of_2024(month);
            let good: Vec<(usize, &[u8])> = (1..=days).map(|day| (day, GOOD[day % 2])).collect();
            let good = marked(days, &good);
            ok(point::close(&mut record.clone(), &mut store.clone(), &mut [7; 744], &good));
            for (number, wrong) in WRONG_DAYS {
                for day in 1..=days {
                    let mut marks = good.clone();
                    marks[24 * (day - 1)..24 * day].fill(0);
                    marks[24 * (day - 1)..][..wrong.len()].copy_from_slice(wrong);
                    let refusal = on_day(number, day as u64);
                    refuses_with(&record, &store, 744, Call::Close { marks }, refusal);
                }
            }
        }
    }

    /// Each number is asked of the whole month before the next one, and the day is the first with
    /// the fault of the number that is returned.
    #[test]
    fn the_number_before_the_day() {
        let (record, store) = opened(1, 2);
        let refused = |first_hours: &[(usize, &[u8])], number: u32, day: u64| {
            refuses_with(&record, &store, 744, close_with(first_hours), on_day(number, day));
        };
        refused(&[(3, NO_CAPACITY_HOUR), (20, TWO_CAPACITY_HOURS)], 43, 20);
        refused(&[(1, NO_CAPACITY_HOUR), (30, TWO_CAPACITY_HOURS), (31, TOO_MANY_PEAKS)], 42, 31);
        refused(&[(1, TWO_CAPACITY_HOURS), (30, NO_CAPACITY_HOUR), (31, TOO_MANY_PEAKS)], 42, 31);
        refused(&[(5, TOO_MANY_PEAKS), (6, TWO_CAPACITY_HOURS), (7, NO_CAPACITY_HOUR)], 42, 5);
        for (number, wrong) in WRONG_DAYS {
            refused(&[(9, wrong), (10, wrong)], number, 9);
            refused(&[(2, wrong), (16, wrong), (31, wrong)], number, 2);
        }
    }

    /// A day may have over 16 peak hours and either of the other faults; it has one of these at
    /// most. As far as 42 goes, such a day is like any other.
    #[test]
    fn a_day_with_two_faults() {
        let (record, store) = opened(1, 2);
        let peaks_and_two = [3; 17];
        let peaks_and_none = [1; 17];
        for both in [peaks_and_two, peaks_and_none] {
            let call = close_with(&[(12, &both)]);
            refuses_with(&record, &store, 744, call, on_day(42, 12));
            let call = close_with(&[(4, &both), (12, TOO_MANY_PEAKS)]);
            refuses_with(&record, &store, 744, call, on_day(42, 4));
        }
        let call = close_with(&[(2, &peaks_and_none), (3, &peaks_and_two), (1, NO_CAPACITY_HOUR)]);
        refuses_with(&record, &store, 744, call, on_day(42, 2));
    }

    /// "checked after 43 and before 44, an exception to the lowest number": 46 also where 44 or 45
    /// applies, and 42 and 43 as well.
    #[test]
    fn the_day_before_buffer_and_store() {
        let (record, store) = opened(1, 2);
        for (number, wrong) in WRONG_DAYS {
            for place in [0, 8_928] {
                let mut store = store.clone();
                store[place] = 3_000_001;
                let call = close_with(&[(31, wrong)]);
                refuses_with(&record, &store, 744, call.clone(), on_day(number, 31));
                refuses_with(&record, &store, 743, call, on_day(number, 31));
            }
            refuses_with(&record, &store, 0, close_with(&[(8, wrong)]), on_day(number, 8));
        }
    }

    /// "otherwise that figure is 0", though days are wrong: 1 to 3, 40 and 41 come before 42.
    #[test]
    fn no_day_with_other_numbers() {
        let (record, store) = opened(1, 2);
        let over = Record { year: 3000, ..record.clone() };
        for (_, wrong) in WRONG_DAYS {
            let call = close_with(&[(2, wrong)]);
            refuses(&record, &store[1..], call.clone(), 1);
            refuses(&Record::default(), &store, call.clone(), 2);
            refuses(&over, &store, call, 3);
            let marks = marked(30, &[(2, wrong)]);
            refuses(&record, &store, Call::Close { marks }, 40);
            refuses(&record, &store, close_with(&[(2, wrong), (31, &[4])]), 41);
            refuses(&record, &store, close_with(&[(2, wrong), (1, &[4])]), 41);
        }
    }

    /// Marks of all kinds but those above 3: each day gets some peak hours and capacity hours, and
    /// in some days more or fewer than are allowed.
    fn marks_with_wrong_days(dice: &mut Dice) -> Vec<u8> {
        let mut marks = vec![0; 744];
        let wrong = [0, 1, 3, 10][dice.below(4) as usize];
        let peaks_if_wrong = [16, 24][dice.below(2) as usize];
        let capacity_if_wrong = 1 + dice.below(3);
        for day in marks.chunks_mut(24) {
            let is_wrong = dice.below(31) < wrong;
            let most_capacity = if is_wrong { capacity_if_wrong } else { 1 };
            let capacity = dice.below(most_capacity + 1) as usize;
            let most_peaks = match (is_wrong, capacity) {
                (true, _) => peaks_if_wrong,
                (false, 0) => 0,
                (false, _) => 16,
            };
            day[..dice.below(most_peaks + 1) as usize].fill(1);
            day[20..20 + capacity].iter_mut().for_each(|mark| *mark += 2);
        }
        marks
    }

    /// What is asked of each day by itself, and of the faults found the lowest number, then the
    /// lowest day.
    #[test]
    fn wrong_days_of_random_marks() {
        let (mut dice, mut met) = (Dice(8), [0; 50]);
        let (record, store) = opened(1, 2);
        for _ in 0..5_000 {
            let marks = marks_with_wrong_days(&mut dice);
            let mut faults = Vec::new();
            for (day, hours) in (1..).zip(marks.chunks(24)) {
                let peaks = hours.iter().filter(|mark| **mark % 2 == 1).count();
                let capacity = hours.iter().filter(|mark| **mark >= 2).count();
                faults.extend((peaks >= 17).then_some((42, day)));
                faults.extend((capacity > 1).then_some((43, day)));
                faults.extend((peaks > 0 && capacity < 1).then_some((46, day)));
            }
            let expected = faults.into_iter().min().map(|(number, day)| on_day(number, day));
            let (mut record, mut store) = (record.clone(), store.clone());
            let answer = point::close(&mut record, &mut store, &mut [7; 744], &marks);
            assert_eq!(answer.err(), expected, "{marks:?}");
            met[expected.map_or(0, |refusal| refusal.number as usize)] += 1;
        }
        assert!([0, 42, 43, 46].iter().all(|number| met[*number] > 200), "{met:?}");
    }

    // ---- Turns that a closing takes ----

    #[test]
    fn discarded_reading_may_be_given_again() {
        let (mut record, mut store) = opened(1, 2);
        ok(point::billing_hours(&mut record, &mut store, &[5; 744]));
        ok(point::failure(&mut record, &mut store, 4));
        assert_eq!((record.given[BILLING], record.fault, store.iter().max()), (0, 0, Some(&0)));
        ok(point::admission(&mut record, &store));
        ok(point::billing_hours(&mut record, &mut store, &[6; 744]));
        assert_eq!(close_plainly(&mut record, &mut store).volume, 6 * 744);
        assert_eq!((record.latest, record.years[0], store[0]), (2023 * 12 + 1, 2023, 6));
    }

    #[test]
    fn unreadable_lines_stop_without_panic() {
        let lines = [
            "close",
            "close 1",
            "failure",
            "failure -1",
            "open 1",
            "neighbour 1",
            "x",
            "close 744 5x",
            "billing-hours 1*",
            "billing-volume 99999999999999999999",
            "admission 1",
            "close 744 256",
        ];
        for line in lines {
            assert!(matches!(play(line).1, Some(Stop::Unreadable(_))), "{line}");
        }
        let long = "close 4294967295 4000000000*0x4000000000,1x0\nclose 0 9*1x0\nclose 0 none";
        assert!(play(long).1.is_none());
    }

    // ---- Random histories: point against book, refusals, and the rows ----

    struct Dice(u64);

    impl Dice {
        fn below(&mut self, limit: u64) -> u64 {
            self.0 = self
                .0
                .wrapping_mul(6_364_136_223_846_793_005)
                .wrapping_add(1_442_695_040_888_963_407);
            (self.0 >> 33) % limit
        }
    }

    fn any_opening(dice: &mut Dice) -> Opening {
        Opening {
            billing: 1 + dice.below(2) as u32,
            control: dice.below(3) as u32,
            basis: 1 + dice.below(3) as u32,
            power: 1 + dice.below(60) as u32,
            amperes: 1 + dice.below(200) as u32,
            volts: 230,
            cosine: dice.below(1_001) as u32,
            phases: 1 + 2 * dice.below(2) as u32,
            year: 2023 + dice.below(2) as u32,
            month: 1 + dice.below(12) as u32,
            place: dice.below(3) as u32,
            currents: vec![16, 25, 63],
        }
    }

    fn any_hours(dice: &mut Dice, t: usize) -> Vec<u32> {
        let top = [1, 3, 50, 1_000][dice.below(4) as usize];
        (0..t).map(|_| dice.below(top) as u32).collect()
    }

    fn any_marks(dice: &mut Dice, t: usize) -> Vec<u8> {
        let mut marks = vec![0; t];
        if dice.below(4) == 0 {
            return marks;
        }
        for day in marks.chunks_mut(24) {
            if dice.below(3) == 0 {
                continue;
            }
            let peaks = dice.below(9) as usize;
            day[8..8 + peaks].fill(1);
            day[8 + dice.below(9) as usize] += 2;
        }
        marks
    }

    fn any_call(dice: &mut Dice, record: &Record) -> Call {
        let t = record.t();
        let volume = dice.below(60_000);
        match dice.below(18) {
            0 => Call::BillingHours(any_hours(dice, t)),
            1 => Call::BillingVolume(volume),
            2 | 3 => Call::ControlHours(any_hours(dice, t)),
            4..=7 => Call::ControlVolume(volume),
            8 => Call::Neighbour { source: dice.below(3) as u32, volume },
            9 => Call::Failure { reason: dice.below(6) as u32 },
            10 => Call::Admission,
            11 => Call::Denial,
            12 => Call::Permission,
            _ => Call::Close { marks: any_marks(dice, t) },
        }
    }

    /// "Each of rows 0 to 11 equals the whole hour buffer after the last accepted closing of that
    /// calendar month, in any year, on ground 1 or 2, and is all 0 if there was none."
    fn expected_rows(opening: &Opening, book: &Book) -> Vec<Vec<u32>> {
        let mut rows = vec![vec![0; 744]; 12];
        for (k, outcome) in book.outcomes().iter().enumerate() {
            if outcome.ground <= 2 {
                let mut hours: Vec<u32> = outcome.hours.iter().map(|h| *h as u32).collect();
                hours.resize(744, 0);
                rows[(opening.month as usize - 1 + k) % 12] = hours;
            }
        }
        rows
    }

    /// Plays calls on the record and store that the opening left, and holds them against its book.
    fn play_random_history(
        dice: &mut Dice,
        opening: &Opening,
        (mut record, mut store): (Record, Vec<u32>),
        grounds: &mut [u32; 10],
    ) {
        let (mut book, mut handed_out) = (Book::new(opening), 0);
        for _ in 0..300 {
            let call = any_call(dice, &record);
            let before = (record.clone(), store.clone());
            let mut buffer = [7; 744];
            let answer = point::apply(&mut record, &mut store, &mut buffer, &call);
            let outcome = book.feed(&call, answer.is_ok());
            if answer.is_err() {
                assert_eq!((&record, &store, buffer), (&before.0, &before.1, [7; 744]));
            }
            if let Ok(Some(closed)) = answer {
                let outcome = outcome.expect("the book closes too");
                let t = before.0.t();
                assert_eq!((outcome.ground, outcome.volume), (closed.ground, closed.volume));
                assert!(outcome.hours.iter().zip(&buffer[..t]).all(|(a, b)| *a == *b as u64));
                assert!(outcome.exact.iter().zip(&outcome.hours).all(|(e, h)| e.is_near(*h)));
                assert!(buffer[t..].iter().all(|w| *w == 0));
                handed_out += buffer.iter().map(|w| *w as u64).sum::<u64>();
                grounds[closed.ground as usize] += 1;
            }
            assert!(point::record_is_sound(&record));
            assert_eq!(record.total, handed_out);
        }
        assert_eq!(store[..744 * 12], expected_rows(opening, &book).concat()[..]);
    }

    #[test]
    fn random_histories_agree() {
        let (mut dice, mut grounds) = (Dice(2_023), [0; 10]);
        for _ in 0..200 {
            let opening = any_opening(&mut dice);
            let (mut record, mut store) = (Record::default(), vec![9; STORE]);
            ok(point::open(&mut record, &mut store, &opening));
            play_random_history(&mut dice, &opening, (record, store), &mut grounds);
        }
        assert!(grounds[1..].iter().all(|count| *count > 0), "{grounds:?}");
        println!("closings by ground 1 to 9: {:?}", &grounds[1..]);
    }

    // ---- Forged records: no call panics, and a refused one changes nothing ----

    fn forge_one_field(dice: &mut Dice, record: &mut Record) {
        let values = [0, 1, 2, 3, 4, 12, 13, 900, 2_013, 2_014, 2_022, 2_023, 2_999, 3_000, 24_168]
            .into_iter()
            .chain([
                24_169,
                24_276,
                24_277,
                24_278,
                36_000,
                36_001,
                1_000_000,
                1_000_001,
                u32::MAX,
            ]);
        let values: Vec<u32> = values.collect();
        let value = values[dice.below(values.len() as u64) as usize];
        let place = dice.below(12) as usize;
        match dice.below(18) {
            0 => record.contract.billing = value,
            1 => record.contract.control = value,
            2 => record.contract.basis = value,
            3 => record.contract.power = value,
            4 => record.contract.amperes = value,
            5 => record.contract.volts = value,
            6 => record.contract.cosine = value,
            7 => record.contract.phases = value,
            8 => record.year = value,
            9 => record.month = value,
            10 => record.run = value,
            11 => record.serving = value,
            12 => record.denials = value,
            13 => record.fault = value,
            14 => record.years[place] = value,
            15 => record.latest = value,
            16 => record.given[place % 4] = value,
            _ => record.volumes[place % 4] = value as u64 * 1_000,
        }
    }

    #[test]
    fn forged_records_never_panic() {
        let (mut dice, mut accepted) = (Dice(3_000), 0);
        for round in 0..20_000 {
            let (mut record, mut store) = opened(1 + round % 2, round % 3);
            for _ in 0..1 + dice.below(3) {
                forge_one_field(&mut dice, &mut record);
            }
            store[dice.below(STORE as u64) as usize] = dice.below(3_000_002) as u32;
            let call = any_call(&mut dice, &record);
            let before = (record.clone(), store.clone());
            let mut buffer = [7; 744];
            let answer = point::apply(&mut record, &mut store, &mut buffer, &call);
            if answer.is_err() {
                assert_eq!((&record, &store, buffer), (&before.0, &before.1, [7; 744]));
            }
            if let Ok(Some(closed)) = answer {
                accepted += 1;
                assert_eq!(buffer.iter().map(|w| *w as u64).sum::<u64>(), closed.volume);
            }
        }
        assert!(accepted > 100, "{accepted}");
    }

    #[test]
    fn a_false_book_is_noticed() {
        let mut player = Player::new();
        let mut out = String::new();
        assert!(player.line(1, "open 1 0 1 40 0 0 0 0 2023 1 0 -", &mut out).is_ok());
        player.book = Some(Book::new(&contract_of_40_kw(1, 0)));
        player.record.contract.power = 41;
        let stop = player.line(2, "close 744 31*0x24", &mut out);
        assert!(matches!(stop, Err(Stop::Disagree(_))));
    }
}
