//! A test case: steps on a point, and their text. The text is that of `tests/histories`, with three lines more:
//!
//!     lend WORDS           the next call is lent that many words of the store
//!     record NAME=N ..     the record becomes this one, 0 in each field that is not named, and the store all 0
//!     store START NUMBERS  the words of the store from START on become these; it follows a record
//!
//! Before the first line the record is all 0, and the store's words are 9,000, 9,001 and so on.

use crate::numbers::{from_numbers, numbers};
use crate::raw;
use crate::reference::calls::{Call, Opening};
use crate::reference::text;
use crate::rows;
use crate::sides::{ROW, SPARE, STORE};
use std::fmt::Write;

#[derive(Clone, Debug, PartialEq)]
pub enum Act {
    Open(Opening),
    Call(Call),
    Forge(Box<Forged>),
}

/// A record put in the place of the point's, and words put into a store of 0.
#[derive(Clone, Debug, PartialEq)]
pub struct Forged {
    pub record: raw::Record,
    pub words: Vec<(usize, Vec<u32>)>,
}

/// An act, the words of the store that it is lent, and those of a closing's hour buffer.
#[derive(Clone, Debug, PartialEq)]
pub struct Step {
    pub act: Act,
    pub lent: usize,
    pub room: usize,
}

impl Step {
    /// With the whole store and an hour buffer of the right length.
    pub fn new(act: Act) -> Step {
        Step { act, lent: STORE, room: ROW }
    }

    pub fn is_call(&self) -> bool {
        !matches!(self.act, Act::Forge(_))
    }

    pub fn is_opening(&self) -> bool {
        matches!(self.act, Act::Open(_))
    }
}

// Writing.

pub fn write(steps: &[Step]) -> String {
    let mut out = String::new();
    for step in steps {
        if step.is_call() && step.lent != STORE {
            writeln!(out, "lend {}", step.lent).unwrap();
        }
        match &step.act {
            Act::Open(opening) => writeln!(out, "{}", opening_line(opening)).unwrap(),
            Act::Call(call) => writeln!(out, "{}", call_line(call, step.room)).unwrap(),
            Act::Forge(forged) => write_forged(&mut out, forged),
        }
    }
    out
}

fn write_forged(out: &mut String, forged: &Forged) {
    let record = format!("record {}", rows::write(&numbers(&forged.record)));
    writeln!(out, "{}", record.trim_end()).unwrap(); // all 0, it names no field
    for (start, words) in &forged.words {
        writeln!(out, "store {start} {}", list(words)).unwrap();
    }
}

fn joined<T: ToString>(values: &[T], between: &str) -> String {
    values.iter().map(T::to_string).collect::<Vec<_>>().join(between)
}

fn opening_line(o: &Opening) -> String {
    let plain =
        [o.billing, o.control, o.basis, o.power, o.amperes, o.volts, o.cosine, o.phases, o.year, o.month, o.place];
    let currents = if o.currents.is_empty() { "-".to_string() } else { joined(&o.currents, ",") };
    format!("open {} {currents}", joined(&plain, " "))
}

fn call_line(call: &Call, room: usize) -> String {
    match call {
        Call::BillingHours(hours) => format!("billing-hours {}", list(hours)),
        Call::ControlHours(hours) => format!("control-hours {}", list(hours)),
        Call::BillingVolume(volume) => format!("billing-volume {volume}"),
        Call::ControlVolume(volume) => format!("control-volume {volume}"),
        Call::Neighbour { source, volume } => format!("neighbour {source} {volume}"),
        Call::Failure { reason } => format!("failure {reason}"),
        Call::Admission => "admission".to_string(),
        Call::Denial => "denial".to_string(),
        Call::Permission => "permission".to_string(),
        Call::Close { marks } => format!("close {room} {}", list(marks)),
    }
}

/// The format's NUMBERS: equal days together, and equal numbers of a day together.
fn list<T: Copy + PartialEq + ToString>(values: &[T]) -> String {
    if values.is_empty() {
        return "none".to_string();
    }
    let mut groups = Vec::new();
    let mut days = values.chunks(24).peekable();
    while let Some(day) = days.next() {
        let mut times = 1;
        while days.next_if(|next| *next == day).is_some() {
            times += 1;
        }
        let items = items(day);
        groups.push(if times == 1 { items } else { format!("{times}*{items}") });
    }
    groups.join(" ")
}

fn items<T: Copy + PartialEq + ToString>(day: &[T]) -> String {
    let item = |equal: &[T]| match equal.len() {
        1 => equal[0].to_string(),
        times => format!("{}x{times}", equal[0].to_string()),
    };
    day.chunk_by(|a, b| a == b).map(item).collect::<Vec<_>>().join(",")
}

// Reading.

pub fn read(text: &str) -> Result<Vec<Step>, String> {
    let mut steps: Vec<Step> = Vec::new();
    let mut lent = STORE;
    for (place, line) in text.lines().enumerate() {
        let wrong = |error: String| format!("line {}: {error}", place + 1);
        let (word, rest) = line.trim().split_once(' ').unwrap_or((line.trim(), ""));
        match word {
            "lend" => lent = rest.parse().ok().filter(|l| *l <= STORE + SPARE).ok_or(wrong("no length".to_string()))?,
            "record" => steps.push(Step::new(Act::Forge(Box::new(read_record(rest).map_err(wrong)?)))),
            "store" => read_store(rest, &mut steps).map_err(wrong)?,
            _ => {
                if let Some(step) = text::step(line).map_err(wrong)? {
                    steps.push(read_call(step, lent).map_err(wrong)?);
                    lent = STORE;
                }
            }
        }
    }
    if lent != STORE {
        return Err("no call follows the last lend".to_string());
    }
    Ok(steps)
}

fn read_call(step: text::Step, lent: usize) -> Result<Step, String> {
    match step {
        text::Step::Open(opening) => Ok(Step { lent, ..Step::new(Act::Open(opening)) }),
        text::Step::Call { call, words } if words <= ROW + SPARE => {
            let room = if matches!(call, Call::Close { .. }) { words } else { ROW };
            Ok(Step { act: Act::Call(call), lent, room })
        }
        text::Step::Call { words, .. } => Err(format!("an hour buffer of {words} words")),
    }
}

fn read_record(rest: &str) -> Result<Forged, String> {
    let record = from_numbers(rows::read(rest)?).ok_or("a number does not fit its field")?;
    Ok(Forged { record, words: Vec::new() })
}

/// The reading of hours in the histories' format takes the numbers apart.
fn read_store(rest: &str, steps: &mut [Step]) -> Result<(), String> {
    let (start, list) = rest.split_once(' ').ok_or("a start and numbers are due")?;
    let start: usize = start.parse().map_err(|_| "no start")?;
    let Some(text::Step::Call { call: Call::BillingHours(words), .. }) = text::step(&format!("billing-hours {list}"))?
    else {
        return Err("numbers are due".to_string());
    };
    match steps.last_mut().map(|step| &mut step.act) {
        Some(Act::Forge(forged)) if start + words.len() <= STORE => forged.words.push((start, words)),
        _ => return Err("words within the store are due, after a record".to_string()),
    }
    Ok(())
}
