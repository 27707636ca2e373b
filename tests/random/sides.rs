//! Kernel and reference side by side: a step is made on both, and all that it left is compared.

use crate::case::{Act, Forged, Step};
use crate::kernel;
use crate::raw::{self, Figures, Kw, Kwh};
use crate::reference::book::Book;
use crate::reference::calls::{Call, Opening};
use crate::reference::point::{self, Closed, Record, Refusal};
use crate::reference::rules::Outcome;
use std::fmt::Debug;
use std::panic::{catch_unwind, AssertUnwindSafe};

pub const STORE: usize = 10_416;
pub const ROW: usize = 744;
/// Words past the end of the store and of the hour buffer, which no call may touch.
pub const SPARE: usize = 16;

/// What a step met, for the count of what a run has seen.
pub struct Met {
    /// The refusal, 0 for none.
    pub number: u32,
    /// The day that a refused closing names, 0 for none.
    pub wrong_day: u64,
    pub closed: Option<Closed>,
    /// The reference's record before the step.
    pub before: Record,
}

/// What the reference answers a call.
type Expected = Result<Option<Closed>, Refusal>;

/// The list of demand 3 since its accepted opening.
struct List {
    book: Book,
    /// The sums of all hours handed out and of the book's month volumes.
    handed: u64,
    volumes: u64,
    /// Rows 0 to 11 as the closings on ground 1 or 2 handed them out.
    rows: Vec<u32>,
}

pub struct Sides {
    kernel: raw::Record,
    kernel_store: Vec<u32>,
    kernel_hours: Vec<u32>,
    pub record: Record,
    pub store: Vec<u32>,
    hours: Vec<u32>,
    /// The store and the hour buffer that the last accepted call left.
    accepted_store: Vec<u32>,
    accepted_hours: Vec<u32>,
    list: Option<List>,
}

fn same<T: PartialEq + Debug>(what: &str, kernel: T, reference: T) -> Result<(), String> {
    if kernel == reference {
        return Ok(());
    }
    Err(format!("{what}: kernel {kernel:?}, expected {reference:?}"))
}

fn same_words(what: &str, kernel: &[u32], reference: &[u32]) -> Result<(), String> {
    if kernel == reference {
        return Ok(());
    }
    same(&format!("length of {what}"), kernel.len(), reference.len())?;
    let at = kernel.iter().zip(reference).position(|(k, r)| k != r).unwrap_or(0);
    same(&format!("{what}, word {at}"), kernel[at], reference[at])
}

/// What it answers; a panic on the way is a difference too.
pub fn guarded<T>(play: impl FnOnce() -> Result<T, String>) -> Result<T, String> {
    catch_unwind(AssertUnwindSafe(play)).unwrap_or_else(|panic| {
        let text = panic.downcast_ref::<String>().cloned();
        let text = text.or_else(|| panic.downcast_ref::<&str>().map(|text| text.to_string()));
        Err(format!("panic: {}", text.unwrap_or_default()))
    })
}

impl Sides {
    pub fn new() -> Sides {
        let store: Vec<u32> = (0..STORE + SPARE).map(|k| 9_000 + k as u32).collect();
        let hours: Vec<u32> = (0..ROW + SPARE).map(|k| 7_000_000 + k as u32).collect();
        Sides {
            kernel: raw::Record::default(),
            kernel_store: store.clone(),
            kernel_hours: hours.clone(),
            record: Record::default(),
            accepted_store: store.clone(),
            accepted_hours: hours.clone(),
            store,
            hours,
            list: None,
        }
    }

    /// Whether the point is one that a history of accepted and refused calls has led to.
    pub fn follows_list(&self) -> bool {
        self.list.is_some()
    }

    /// The months closed since the opening.
    pub fn months(&self) -> usize {
        self.list.as_ref().map_or(0, |list| list.book.outcomes().len())
    }

    /// Makes the step on both sides, or says what differs.
    pub fn step(&mut self, step: &Step) -> Result<Met, String> {
        let before = self.record.clone();
        let answer = match &step.act {
            Act::Open(opening) => self.open(opening, step.lent)?,
            Act::Call(call) => self.call(call, step)?,
            Act::Forge(forged) => {
                self.forge(forged);
                Ok(None)
            }
        };
        let Refusal { number, wrong_day } = answer.err().unwrap_or(0.into());
        Ok(Met { number, wrong_day, closed: answer.ok().flatten(), before })
    }

    /// Both sides get the record, and a store of 0 but for the words. The list of demand 3 ends here.
    fn forge(&mut self, forged: &Forged) {
        self.kernel = forged.record;
        self.record = kernel::as_reference(&forged.record);
        self.store[..STORE].fill(0);
        for (start, words) in &forged.words {
            self.store[*start..start + words.len()].copy_from_slice(words);
        }
        self.kernel_store.copy_from_slice(&self.store);
        self.accepted_store.copy_from_slice(&self.store);
        self.list = None;
    }

    fn open(&mut self, opening: &Opening, lent: usize) -> Result<Expected, String> {
        let answer = kernel::open(opening, &mut self.kernel_store[..lent]);
        let expected = point::open(&mut self.record, &mut self.store[..lent], opening);
        let number = expected.err().unwrap_or(0);
        same("refusal", answer.refusal, number)?;
        same("record", answer.after, kernel::as_raw(&self.record))?;
        same("figures", answer.figures, Figures::default())?;
        self.kernel = answer.after;
        self.compare_words(number)?;
        self.list =
            (number == 0).then(|| List { book: Book::new(opening), handed: 0, volumes: 0, rows: vec![0; 12 * ROW] });
        Ok(expected.map(|()| None).map_err(Refusal::from))
    }

    fn call(&mut self, call: &Call, step: &Step) -> Result<Expected, String> {
        let (given, t) = (self.kernel, self.record.t());
        let (store, hours) = (&mut self.kernel_store[..step.lent], &mut self.kernel_hours[..step.room]);
        let answer = kernel::call(given, store, hours, call);
        let (store, hours) = (&mut self.store[..step.lent], &mut self.hours[..step.room]);
        let expected = point::apply(&mut self.record, store, hours, call);
        let number = expected.err().map_or(0, |refusal| refusal.number);
        same("refusal", answer.refusal, number)?;
        let after = if number == 0 { kernel::as_raw(&self.record) } else { given };
        same("record", answer.after, after)?;
        same("figures", answer.figures, figures(expected))?;
        self.kernel = answer.after;
        self.compare_words(number)?;
        self.follow(call, (number == 0).then_some(t), answer.figures)?;
        Ok(expected)
    }

    /// Stores and hour buffers agree, and a refused call left the kernel's as they were.
    fn compare_words(&mut self, number: u32) -> Result<(), String> {
        same_words("store", &self.kernel_store, &self.store)?;
        same_words("hour buffer", &self.kernel_hours, &self.hours)?;
        if number != 0 {
            same_words("store after a refusal", &self.kernel_store, &self.accepted_store)?;
            return same_words("hour buffer after a refusal", &self.kernel_hours, &self.accepted_hours);
        }
        self.accepted_store.copy_from_slice(&self.kernel_store);
        self.accepted_hours.copy_from_slice(&self.kernel_hours);
        Ok(())
    }

    /// Demand 3: the book is fed the call, with T of the open month where it was accepted, and an accepted closing is
    /// held against the book.
    fn follow(&mut self, call: &Call, accepted: Option<usize>, given: Figures) -> Result<(), String> {
        let Some(list) = &mut self.list else { return Ok(()) };
        let outcome = list.book.feed(call, accepted.is_some());
        let closing = accepted.filter(|_| matches!(call, Call::Close { .. }));
        same("closing of the book", closing.is_some(), outcome.is_some())?;
        let (Some(t), Some(outcome)) = (closing, outcome) else { return Ok(()) };
        same("figures by the book", given, figures_of(outcome))?;
        same("hours and exact shares of the book", (t, t), (outcome.hours.len(), outcome.exact.len()))?;
        let handed = &self.kernel_hours[..t];
        let far = outcome.exact.iter().zip(handed).position(|(exact, hour)| !exact.is_near(*hour as u64));
        same("hour a kWh or more from its exact share", far, None)?;
        let hours: Vec<u32> = outcome.hours.iter().map(|hour| *hour as u32).collect();
        same_words("hours by the book", handed, &hours)?;
        list.handed += handed.iter().map(|hour| *hour as u64).sum::<u64>();
        list.volumes += outcome.volume;
        same("total of the hours handed out", self.kernel.total.0, list.handed)?;
        same("total of the book's volumes", self.kernel.total.0, list.volumes)?;
        if outcome.ground <= 2 {
            let month = (self.kernel.date.month as usize + 10) % 12; // the month before the open one, from 0
            list.rows[ROW * month..][..ROW].copy_from_slice(&self.kernel_hours[..ROW]);
        }
        same_words("rows last handed out", &self.kernel_store[..12 * ROW], &list.rows)
    }
}

/// All 0, but for those of an accepted closing and the day of a refused one.
fn figures(answer: Expected) -> Figures {
    match answer {
        Ok(Some(closed)) => Figures {
            ground: closed.ground,
            volume: Kwh(closed.volume),
            capacity: Kw(closed.capacity as u32),
            sum: Kwh(closed.capacity_sum),
            days: closed.working_days,
            wrong_day: 0,
        },
        Ok(None) => Figures::default(),
        Err(refusal) => Figures { wrong_day: refusal.wrong_day, ..Figures::default() },
    }
}

fn figures_of(outcome: &Outcome) -> Figures {
    Figures {
        ground: outcome.ground,
        volume: Kwh(outcome.volume),
        capacity: Kw(outcome.capacity as u32),
        sum: Kwh(outcome.capacity_sum),
        days: outcome.working_days,
        wrong_day: 0,
    }
}
