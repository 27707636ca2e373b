//! Random histories and forged points, played through the compiled calls and through the reference.
//!
//!     random [--calls N] [--seed S] [--threads T]   plays N calls and prints what was met; a difference is shrunk
//!     random --history N [--seed S]                 plays the history of that number
//!     random --find N                               only says after how many of N calls there is a difference, the
//!                                                   host's functions last
//!     random --case FILE..                          plays kept cases
//!
//! `tests/random/run` builds and runs it. The last line is 'N passed, M failed'.

#[path = "../../rust/src/call.rs"]
mod call;
mod case;
mod crash;
mod dice;
#[path = "../../rust/src/fields.rs"]
mod fields;
mod forge;
mod history;
mod host;
mod kernel;
#[path = "../../rust/src/numbers.rs"]
mod numbers;
#[path = "../../rust/src/raw.rs"]
mod raw;
#[allow(dead_code)]
#[path = "../reference/reference.rs"]
mod reference;
mod rows;
mod shrink;
mod sides;
mod tally;
mod values;

use case::{Act, Step};
use dice::Dice;
use history::Plan;
use sides::{guarded, Sides};
use std::process::exit;
use std::sync::atomic::{AtomicBool, Ordering};
use std::time::Instant;
use tally::Tally;

/// A history in which the sides differ, and the calls made before it.
struct Failure {
    steps: Vec<Step>,
    how: String,
    calls: u64,
    place: u64,
}

/// Plays one step and keeps it, for the shrinking.
struct Table<'a> {
    sides: Sides,
    steps: Vec<Step>,
    tally: &'a mut Tally,
}

impl Table<'_> {
    /// Whether the step was an accepted closing.
    fn play(&mut self, step: Step) -> Result<bool, String> {
        self.steps.push(step);
        let step = &self.steps[self.steps.len() - 1];
        let met = guarded(|| self.sides.step(step)).inspect_err(|_| self.tally.calls += 1)?;
        self.tally.note(step, &met, &self.sides);
        Ok(met.closed.is_some())
    }
}

fn play_list(table: &mut Table, dice: &mut Dice, most_months: u64) -> Result<(), String> {
    let mut plan = Plan::new(dice, most_months);
    while let Some(step) = plan.next(dice, &table.sides.record) {
        if table.play(step)? {
            plan.closed(dice);
        }
    }
    Ok(())
}

/// Forged points: each gets a few calls, most of them closings.
fn play_forged(table: &mut Table, dice: &mut Dice) -> Result<(), String> {
    let (base, store) = (table.sides.record.clone(), table.sides.store.clone());
    for _ in 0..dice.from_to(10, 60) {
        table.play(Step::new(Act::Forge(Box::new(forge::forged(dice, &base, &store)))))?;
        for _ in 0..dice.from_to(1, 3) {
            let record = &table.sides.record;
            let closing = dice.percent(60);
            let act = if closing { history::closing(dice, record, 15) } else { history::any_call(dice, record) };
            let step = history::lend(dice, act);
            table.play(step)?;
        }
    }
    Ok(())
}

/// One history of up to 60 months, or a shorter one and forged points after it.
fn play_one(seed: u64, place: u64, tally: &mut Tally) -> Result<(), Failure> {
    crash::playing(seed, place);
    let mut dice = Dice::new(seed, place);
    let mut table = Table { sides: Sides::new(), steps: Vec::new(), tally };
    let forging = dice.percent(25);
    let played = play_list(&mut table, &mut dice, if forging { 6 } else { 60 });
    let played = played.and_then(|()| if forging { play_forged(&mut table, &mut dice) } else { Ok(()) });
    let steps = table.steps;
    tally.histories += 1;
    played.map_err(|how| Failure { steps, how, calls: tally.calls, place })
}

/// From so many calls on, everything that is counted has to be met.
const COMPLETE: u64 = 200_000;

/// Whether a difference was found, so that the other threads need not go on.
static FOUND: AtomicBool = AtomicBool::new(false);

/// Histories `first`, `first + every` and so on, until the calls are made or another thread has found a difference.
fn play_many(seed: u64, calls: u64, first: u64, every: u64) -> Result<Tally, Failure> {
    let mut tally = Tally::new();
    let mut place = first;
    while tally.calls < calls && !FOUND.load(Ordering::Relaxed) {
        play_one(seed, place, &mut tally).inspect_err(|_| FOUND.store(true, Ordering::Relaxed))?;
        place += every;
    }
    Ok(tally)
}

fn report_failure(seed: u64, failure: Failure) -> ! {
    let Failure { steps, how, calls, place } = failure;
    println!("difference after {calls} calls, seed {seed}, history {place}: {how}");
    std::panic::set_hook(Box::new(|_| {})); // a panic is shown once, and not at each try of the shrinking
    let small = shrink::shrink(steps);
    let (at, how) = shrink::difference(&small).expect("a shrunk case still differs");
    println!("# shrunk to {} steps; at step {}: {how}", small.len(), at + 1);
    print!("{}", case::write(&small));
    println!("0 passed, 1 failed");
    exit(1);
}

fn play_random(seed: u64, calls: u64, threads: u64) -> ! {
    println!("seed {seed}");
    let start = Instant::now();
    let share = calls.div_ceil(threads);
    let results: Vec<Result<Tally, Failure>> = std::thread::scope(|scope| {
        let handles: Vec<_> =
            (0..threads).map(|first| scope.spawn(move || play_many(seed, share, first, threads))).collect();
        handles.into_iter().map(|handle| handle.join().expect("a thread that plays does not panic")).collect()
    });
    let mut tally = Tally::new();
    for result in results {
        match result {
            Ok(part) => tally.add(&part),
            Err(failure) => report_failure(seed, failure),
        }
    }
    let mut tests = vec![(format!("no difference in {} calls", tally.calls), true)];
    let mut counts = tally.counts();
    for (name, host) in host::compare(seed, calls / 4) {
        let how = host.differs.as_ref().map_or("", |(_, how)| how);
        tests.push((format!("no difference of the {name} {how}"), host.differs.is_none()));
        counts.push((format!("{name} within its limits"), host.given));
        counts.push((format!("{name} outside them"), host.refused));
    }
    for (name, count) in counts {
        println!("{count:>12}  {name}");
        if calls >= COMPLETE {
            tests.push((format!("{name} is met"), count > 0));
        }
    }
    let seconds = start.elapsed().as_secs_f64();
    println!("{} calls in {} histories, seed {seed}, {seconds:.1} s", tally.calls, tally.histories);
    finish(&tests)
}

/// The first difference: of the calls on a point, or else of the host's functions.
fn find(calls: u64) -> ! {
    if let Err(Failure { calls, how, .. }) = play_many(1, calls, 0, 1) {
        println!("difference after {calls} calls: {how}");
        exit(1);
    }
    for (name, host) in host::compare(1, calls) {
        if let Some((calls, how)) = host.differs {
            println!("difference after {calls} calls: {name} {how}");
            exit(1);
        }
    }
    println!("no difference in {calls} calls");
    exit(0)
}

fn play_cases(files: &[String]) -> ! {
    let mut tests = Vec::new();
    for file in files {
        let steps = std::fs::read_to_string(file).map_err(|error| error.to_string()).and_then(|text| case::read(&text));
        let wrong = match steps {
            Ok(steps) if steps.is_empty() => Some("no step".to_string()),
            Ok(steps) if case::read(&case::write(&steps)).as_ref() != Ok(&steps) => {
                Some("read back as another".to_string())
            }
            Ok(steps) => shrink::difference(&steps).map(|(place, how)| format!("step {}: {how}", place + 1)),
            Err(error) => Some(error),
        };
        let name = wrong.as_ref().map_or(file.clone(), |wrong| format!("{file}: {wrong}"));
        tests.push((name, wrong.is_none()));
    }
    finish(&tests)
}

fn finish(tests: &[(String, bool)]) -> ! {
    let failed = tests.iter().filter(|(_, ok)| !ok).count();
    for (name, _) in tests.iter().filter(|(_, ok)| !ok) {
        println!("FAIL {name}");
    }
    println!("{} passed, {failed} failed", tests.len() - failed);
    exit((failed > 0 || tests.is_empty()) as i32)
}

fn play_history(seed: u64, place: u64) -> ! {
    match play_one(seed, place, &mut Tally::new()) {
        Ok(()) => finish(&[(format!("history {place} of seed {seed}"), true)]),
        Err(failure) => report_failure(seed, failure),
    }
}

fn usage() -> ! {
    eprintln!("usage: random [--calls N] [--seed S] [--threads T] | --history N [--seed S] | --find N | --case FILE..");
    exit(2);
}

fn main() {
    crash::watch();
    let words: Vec<String> = std::env::args().skip(1).collect();
    if words.first().is_some_and(|word| word == "--case") {
        play_cases(&words[1..]);
    }
    let (mut calls, mut seed, mut threads, mut history) = (300_000, 1, 1, None);
    for pair in words.chunks(2) {
        let Some(value) = pair.get(1).and_then(|word| word.parse().ok()) else { usage() };
        match pair[0].as_str() {
            "--find" => find(value),
            "--history" => history = Some(value),
            "--seed" => seed = value,
            "--calls" if value > 0 => calls = value,
            "--threads" if value > 0 => threads = value,
            _ => usage(),
        }
    }
    match history {
        Some(place) => play_history(seed, place),
        None => play_random(seed, calls, threads),
    }
}
