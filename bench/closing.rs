// A whole closing with all its checks, the proved one through C against plain safe Rust: first that both agree, then how
// long each takes on each ground with 744 hours, in the same run.
//
//     bench/run            compares and times
//     bench/run --check    compares only, and prints 'N passed, M failed'
mod common;
#[path = "../rust/src/fields.rs"]
mod fields;
#[path = "../rust/src/numbers.rs"]
mod numbers;
mod plain;
#[allow(dead_code)] // records as text are the random histories'
#[path = "../tests/random/rows.rs"]
mod rows;

use common::{median, Random, Tests};
use numbers::{from_numbers, numbers, FIELDS};
use plain::raw::{self, sallowbingo_close, sallowbingo_open_point};
use plain::{Answer, Cable, Contract, Date, Figures, Kw, Kwh, Past, Reading, Record, BILLING_ROW, CONTROL_ROW, ROW, STORE};
use rows::ROWS;
use std::hint::black_box;
use std::time::{Duration, Instant};

fn open_point(asked: Contract, date: Date, store: &mut [u32]) -> Answer {
    unsafe { sallowbingo_open_point(asked, date, std::ptr::null(), 0, 0, store.as_mut_ptr(), store.len()) }
}

#[inline(always)]
fn close_proved(r: Record, store: &mut [u32], marks: &[u8], hours: &mut [u32]) -> Answer {
    unsafe { sallowbingo_close(r, store.as_mut_ptr(), store.len(), marks.as_ptr(), marks.len(), hours.as_mut_ptr(), hours.len()) }
}

// What a closing is handed; its hour buffer has `room` words.
struct Case {
    name: &'static str,
    ground: u32,
    record: Record,
    store: Vec<u32>,
    marks: Vec<u8>,
    room: usize,
}

// The data that is timed: January 2024 of a point whose rows hold all of 2023.

const JANUARY: Date = Date { year: 2024, month: 1 };
const AGREED: Contract = Contract { billing: 1, control: 2, basis: 1, power: Kw(900), cable: Cable { amperes: 0, volts: 0, cosine: 0, phases: 0 } };

fn given(volume: u64) -> Reading {
    Reading { given: 1, volume: Kwh(volume) }
}

// The hours of a month: 300 to 549 kWh, and 250 more from 8 to 21.
fn load(random: &mut Random, hours: &mut [u32]) {
    for (h, hour) in hours.iter_mut().enumerate() {
        *hour = 300 + random.next(250) as u32 + if (8..21).contains(&(h % 24)) { 250 } else { 0 };
    }
}

// The month begins on a Monday, and its first day is a holiday: 22 working days, with planned peaks from 8 to 12 and from
// 17 to 21 and a capacity hour between 7 and 21.
fn january_marks(random: &mut Random) -> Vec<u8> {
    let mut marks = vec![0; JANUARY.hours()];
    for (day, hours) in marks.chunks_exact_mut(24).enumerate() {
        if day != 0 && day % 7 < 5 {
            hours[8..12].fill(1);
            hours[17..21].fill(1);
            hours[7 + random.next(14) as usize] |= 2;
        }
    }
    marks
}

// A point in January 2024 after an opening and the year 2023, and what has to be different in the record for the ground.
// It is opened with an interval billing meter, since an opening takes an integral one up to 669 kW only, and then has the
// meter that is asked for, as a record that was opened earlier has.
fn case(name: &'static str, ground: u32, asked: Contract, change: fn(&mut Record)) -> Case {
    let mut random = Random(20_240_101);
    let mut store = vec![9; STORE];
    let mut record = open_point(Contract { billing: 1, ..asked }, JANUARY, &mut store).after;
    record.contract.billing = asked.billing;
    for month in 1..=12 {
        let date = Date { year: 2023, month };
        load(&mut random, &mut store[ROW * (month as usize - 1)..][..date.hours()]);
        record.past.years[month as usize - 1] = 2023;
        record.past.latest = date.number();
    }
    record.total = Kwh(4_000_000);
    change(&mut record);
    for (reading, kind, row) in [(record.readings.billing, asked.billing, BILLING_ROW), (record.readings.control, asked.control, CONTROL_ROW)] {
        if reading.given == 1 && kind == 1 {
            load(&mut random, &mut store[ROW * row..][..JANUARY.hours()]);
        }
    }
    for (row, _) in record.past.years.iter().enumerate().filter(|(_, &year)| year == 0) {
        store[ROW * row..][..ROW].fill(0);
    }
    Case { name, ground, record, store, marks: january_marks(&mut random), room: ROW }
}

fn cases() -> Vec<Case> {
    let only_february = |r: &mut Record| {
        r.past = Past { years: [0, 2023, 0, 0, 0, 0, 0, 0, 0, 0, 0, 0], latest: Date { year: 2023, month: 2 }.number() };
        r.readings.control = given(430_000);
    };
    let cable = Cable { amperes: 600, volts: 400, cosine: 0, phases: 3 };
    vec![
        case("1", 1, AGREED, |r| r.readings.billing = given(0)),
        case("2", 2, Contract { billing: 2, ..AGREED }, |r| {
            r.readings.billing = given(430_000);
            r.readings.first = given(17_000);
        }),
        case("3", 3, Contract { control: 1, ..AGREED }, |r| r.readings.control = given(0)),
        case("4", 4, AGREED, |r| r.readings.control = given(430_000)),
        case("5", 5, AGREED, |r| {
            r.service.run = 3;
            r.readings.control = given(430_000);
        }),
        case("6", 6, Contract { power: Kw(500), ..AGREED }, |r| {
            r.service.run = 3;
            r.readings.control = given(430_000);
        }),
        case("7", 7, AGREED, |_| ()),
        case("8", 8, AGREED, |r| r.service.run = 3),
        case("9", 9, Contract { basis: 3, power: Kw(0), cable, ..AGREED }, |r| r.service.run = 3),
        case("4, past of 672 hours", 4, AGREED, only_february),
        case("5, no past", 5, AGREED, |r| {
            r.past = Past::default();
            r.readings.control = given(430_000);
        }),
    ]
}

// Comparing.

// Hands a case to both closings, and says what they answered.
fn compare_case(tests: &mut Tests, name: &str, case: &Case) -> Answer {
    let Case { record, marks, .. } = case;
    let before: Vec<u32> = (7..).take(case.room).collect();
    let (mut proved_store, mut proved_hours) = (case.store.clone(), before.clone());
    let proved = close_proved(*record, &mut proved_store, marks, &mut proved_hours);
    for (side, close) in [("Rust", plain::close as fn(_, &mut _, &_, &mut _) -> _), ("Rust, folded scan", plain::close_folded)] {
        let (mut store, mut hours) = (case.store.clone(), before.clone());
        let answer: Answer = close(*record, &mut store, marks, &mut hours);
        tests.check(&format!("{name}: the answer of {side}"), answer == proved);
        tests.check(&format!("{name}: the store of {side}"), store == proved_store);
        tests.check(&format!("{name}: the hours of {side}"), hours == proved_hours);
    }
    let untouched = proved_store == case.store && proved_hours == before && proved.after == *record;
    let none = Figures { wrong_day: proved.figures.wrong_day, ..Figures::default() };
    tests.check(&format!("{name}: all stays if refused"), proved.refusal == 0 || untouched && proved.figures == none);
    proved
}

fn pick<T: Copy>(random: &mut Random, list: &[T]) -> T {
    list[random.next(list.len() as u64) as usize]
}

fn any_contract(random: &mut Random) -> Contract {
    let contract = Contract { billing: pick(random, &[1, 2]), control: pick(random, &[0, 1, 2, 2, 2]), ..Contract::default() };
    match pick(random, &[1, 2, 3]) {
        3 => {
            let cable = Cable {
                amperes: pick(random, &[1, 600, 2_000]),
                volts: pick(random, &[1, 400, 250_000]),
                cosine: pick(random, &[0, 1, 777, 1_000]),
                phases: pick(random, &[1, 3]),
            };
            Contract { basis: 3, cable, ..contract }
        }
        basis => Contract { basis, power: Kw(pick(random, &[0, 1, 400, 900, 1_000_000])), ..contract },
    }
}

fn any_reading(random: &mut Random, has: bool, integral: bool, limit: u64) -> Reading {
    match has && random.next(2) == 0 {
        true if integral => given(pick(random, &[0, 1, 743, 17_000, 430_000, limit - 1, limit])),
        true => given(0),
        false => Reading::default(),
    }
}

// A record that passes number 2.
fn any_record(random: &mut Random) -> Record {
    let year = pick(random, &[2014, 2015, 2023, 2024, 2025, 2100, 2400, 2999]);
    let date = if random.next(30) == 0 { Date { year: 3000, month: 1 } } else { Date { year, month: 1 + random.next(12) as u32 } };
    let contract = any_contract(random);
    let limit = date.hours() as u64 * 1_000_000;
    let mut record = Record { opened: 1, contract, date, ..Record::default() };
    record.service.run = pick(random, &[0, 0, 1, 1, 2, 3, 12_000]);
    record.service.serving = pick(random, &[0, 1]);
    record.service.denials = pick(random, &[0, 0, 1, 2]);
    record.service.fault = pick(random, &[0, date.number().min(36_000), 2014 * 12 + 1]);
    let rows = random.next(4);
    for row in 0..12 {
        let back = (row + 1 >= date.month) as u32 + pick(random, &[0, 0, 0, 1]);
        if random.next(3) < rows && 2014 + back <= date.year {
            record.past.years[row as usize] = date.year - back;
        }
    }
    let row = random.next(12) as usize;
    if record.past.years[row] != 0 {
        record.past.latest = Date { year: record.past.years[row], month: row as u32 + 1 }.number();
    }
    let read = random.next(3) == 0;
    record.readings.billing = any_reading(random, read, contract.billing == 2, limit);
    record.readings.control = any_reading(random, contract.control != 0, contract.control == 2, limit);
    record.readings.first = any_reading(random, true, true, limit);
    record.readings.second = any_reading(random, true, true, limit);
    record.total = Kwh(pick(random, &[0, 4_000_000, 30_000_000_000_000]));
    record
}

fn any_marks(random: &mut Random, t: usize) -> Vec<u8> {
    let (mut marks, most) = (vec![0; t], pick(random, &[0, 4, 16]));
    for day in marks.chunks_exact_mut(24).filter(|_| most > 0) {
        if random.next(7) < 5 {
            for _ in 0..random.next(most + 1) {
                day[random.next(24) as usize] = 1;
            }
            day[random.next(24) as usize] |= 2;
        }
    }
    marks
}

fn any_case(random: &mut Random) -> Case {
    let record = any_record(random);
    let most = pick(random, &[0, 1, 700, 1_000_000, 3_000_000]);
    let mut store: Vec<u32> = (0..STORE).map(|_| random.next(most + 1) as u32).collect();
    for word in &mut store[ROW * BILLING_ROW..] {
        *word %= 1_000_001;
    }
    Case { name: "", ground: 0, record, store, marks: any_marks(random, record.date.hours()), room: ROW }
}

// Puts a number at a limit or just beyond it into a field of the record: at the field's own limits, or at those that the
// open month sets; or opens the month after the calendar, or the one after that.
fn forge(random: &mut Random, r: &mut Record) {
    if random.next(26) == 0 {
        r.date = Date { year: 3000, month: pick(random, &[1, 2]) };
        return;
    }
    let (mut fields, place) = (numbers(r), random.next(FIELDS as u64) as usize);
    let (row, open, year) = (&ROWS[place], r.date.number(), u64::from(r.date.year));
    let limit = pick(random, &[672, 696, 720, 744]) * 1_000_000;
    let mut tries = row.edges();
    match row.name.as_str() {
        "service.fault" | "past.latest" => tries.extend([open.saturating_sub(1), open, open + 1, (1 << 32) + open]),
        name if name.starts_with("past.years.") => tries.extend([year, year + 1]),
        name if name.ends_with(".volume") => tries.extend([limit, limit + 1]),
        _ => (),
    }
    fields[place] = pick(random, &tries) & row.widest;
    *r = from_numbers(fields).expect("every number was cut to its field");
}

// Gives a case a cause of refusal, or one that just misses it.
fn spoil(random: &mut Random, case: &mut Case) {
    let day = 24 * random.next(28) as usize;
    match random.next(10) {
        0 => case.store.resize(pick(random, &[0, ROW, STORE - 1, STORE + 1]), 0),
        1..=4 => forge(random, &mut case.record),
        5 => case.marks.resize(pick(random, &[0, 24, 671, 672, 696, 720, 744, 745]), 0),
        6 if day + 24 <= case.marks.len() => {
            case.marks[day..day + 24].fill(0);
            case.marks[day..day + pick(random, &[16, 17, 24])].fill(1);
            case.marks[day + 3] = 3;
        }
        7 if day + 24 <= case.marks.len() => case.marks[day + random.next(24) as usize] ^= pick(random, &[1, 2, 3, 4, 255]),
        8 => case.room = pick(random, &[0, 743, 744, 745]),
        _ if !case.store.is_empty() => {
            let k = random.next(case.store.len() as u64) as usize;
            case.store[k] = pick(random, &[1_000_000, 1_000_001, 3_000_000, 3_000_001, u32::MAX]);
        }
        _ => (),
    }
}

// Closings of January with two wrong days: over 16 peaks, these and two capacity hours, two capacity hours, or peaks alone.
// A wrong day has the marks that stand here in its first hours, and none behind them.
fn compare_wrong_days(tests: &mut Tests) {
    let mut many = [1; 17];
    many[16] = 3;
    let (many, both, two, alone): (&[u8], &[u8], &[u8], &[u8]) = (&many, &[3; 17], &[2; 2], &[1]);
    let faults = [
        ("42 behind 43", (2, two), (31, many), ROW, (42, 31)),
        ("42 and 43 on a day", (4, alone), (9, both), ROW, (42, 9)),
        ("43 behind 46", (3, alone), (20, two), ROW, (43, 20)),
        ("46 twice", (31, alone), (5, alone), ROW, (46, 5)),
        ("46 before 44", (1, alone), (2, alone), ROW - 1, (46, 1)),
    ];
    for (name, one, other, room, expected) in faults {
        let mut case = Case { room, ..case("1", 1, AGREED, |r| r.readings.billing = given(0)) };
        for (day, marks) in [one, other] {
            let hours = &mut case.marks[24 * (day - 1)..][..24];
            hours.fill(0);
            hours[..marks.len()].copy_from_slice(marks);
        }
        let answer = compare_case(tests, name, &case);
        tests.check(&format!("{name}: number and day"), (answer.refusal, answer.figures.wrong_day) == expected);
    }
}

fn compare(tests: &mut Tests) {
    for case in cases() {
        let name = format!("ground {}", case.name);
        let answer = compare_case(tests, &name, &case);
        tests.check(&format!("{name}: closes on it"), answer.refusal == 0 && answer.figures.ground == case.ground);
    }
    compare_wrong_days(tests);
    let (mut random, mut numbers, mut grounds) = (Random(88172645463325252), [0; 47], [0; 10]);
    for round in 0..6000 {
        let mut case = any_case(&mut random);
        for _ in 0..round % 3 {
            spoil(&mut random, &mut case);
        }
        let answer = compare_case(tests, "variations", &case);
        numbers[answer.refusal as usize] += 1;
        grounds[answer.figures.ground as usize] += 1;
    }
    for number in [1, 2, 3, 40, 41, 42, 43, 44, 45, 46] {
        tests.check(&format!("variations: some refused with {number}"), numbers[number] > 0);
    }
    for ground in 1..=9 {
        tests.check(&format!("variations: some on ground {ground}"), grounds[ground] > 0);
    }
}

// Timing.

const STORES: usize = 8;
const ROUNDS: usize = 25;

// One sample: the mean time of 200 calls, in nanoseconds. A closing changes its store, so each call has one of its own,
// made again from the case before the clock starts.
fn sample(case: &Case, stores: &mut [Vec<u32>], hours: &mut [u32], close: impl Fn(Record, &mut [u32], &[u8], &mut [u32]) -> Answer) -> f64 {
    let mut spent = Duration::ZERO;
    for _ in 0..ROUNDS {
        stores.iter_mut().for_each(|store| store.copy_from_slice(&case.store));
        let start = Instant::now();
        for store in stores.iter_mut() {
            black_box(close(black_box(case.record), black_box(store), black_box(&case.marks), black_box(hours)));
        }
        spent += start.elapsed();
    }
    spent.as_nanos() as f64 / (ROUNDS * STORES) as f64
}

// The medians of 100 samples each, and the ratios of the proved closing's to the others. Each round after a warming up
// takes one sample of every ground and side in turn, so that a disturbance falls on all alike.
fn measure() {
    let cases = cases();
    let mut samples = vec![[const { Vec::new() }; 3]; cases.len()];
    let (mut stores, mut hours) = (vec![vec![0; STORE]; STORES], vec![0; ROW]);
    for round in 0..110 {
        for (case, lists) in cases.iter().zip(&mut samples) {
            let times = [
                sample(case, &mut stores, &mut hours, close_proved),
                sample(case, &mut stores, &mut hours, plain::close),
                sample(case, &mut stores, &mut hours, plain::close_folded),
            ];
            if round >= 10 {
                lists.iter_mut().zip(times).for_each(|(list, time)| list.push(time));
            }
        }
    }
    println!("{:24} {:>11} {:>11} {:>7} {:>15} {:>7}", "closing on ground", "Rattle ns", "Rust ns", "ratio", "folded scan ns", "ratio");
    for (case, lists) in cases.iter().zip(samples) {
        let [proved, rust, folded] = lists.map(median);
        println!("{:24} {proved:11.1} {rust:11.1} {:7.3} {folded:15.1} {:7.3}", case.name, proved / rust, proved / folded);
    }
}

fn main() {
    common::run(compare, measure)
}
