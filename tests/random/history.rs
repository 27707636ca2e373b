//! A random history: the next step from the record as it stands, so that most calls are accepted and every kind of
//! refused call comes between them.

use crate::case::{Act, Step};
use crate::dice::Dice;
use crate::reference::calls::Call;
use crate::reference::point::{Record, BILLING, CONTROL};
use crate::sides::{ROW, SPARE, STORE};
use crate::values;

/// The kinds of calls on a point.
const BILLING_READING: usize = 0;
const CONTROL_READING: usize = 1;
const NEIGHBOUR: usize = 2;
const FAILURE: usize = 3;
const ADMISSION: usize = 4;
const DENIAL: usize = 5;
const PERMISSION: usize = 6;
const CLOSING: usize = 7;
const KINDS: usize = 8;

pub struct Plan {
    months: u64,
    /// How many calls in a hundred are meant to be refused.
    bad: u64,
    /// How often each kind of call comes, and for how many months more.
    weights: [u64; KINDS],
    season: u64,
}

impl Plan {
    pub fn new(dice: &mut Dice, most_months: u64) -> Plan {
        let months = if dice.percent(20) { most_months } else { dice.from_to(1, most_months) };
        let bad = dice.pick(&[0, 5, 20, 50]);
        Plan { months, bad, weights: weights(dice), season: dice.from_to(1, 20) }
    }

    /// A month was closed.
    pub fn closed(&mut self, dice: &mut Dice) {
        self.months -= 1;
        self.season -= 1;
        if self.season == 0 {
            self.weights = weights(dice);
            self.season = dice.from_to(1, 20);
        }
    }

    /// The next step, and none where the history is over.
    pub fn next(&self, dice: &mut Dice, record: &Record) -> Option<Step> {
        if self.months == 0 {
            return None;
        }
        if !record.is_open() {
            let act = if dice.percent(10) { any_call(dice, record) } else { any_opening(dice, 25) };
            return Some(lend(dice, act));
        }
        if record.year == 3000 {
            let ends = dice.percent(20);
            let act = if dice.percent(90) { any_call(dice, record) } else { any_opening(dice, 50) };
            return (!ends).then(|| lend(dice, act));
        }
        if dice.below(500) == 0 {
            let act = any_opening(dice, 50);
            return Some(lend(dice, act));
        }
        let act = if dice.percent(self.bad) { any_call(dice, record) } else { self.fitting_call(dice, record) };
        Some(lend(dice, act))
    }

    /// A call that the record allows.
    fn fitting_call(&self, dice: &mut Dice, record: &Record) -> Act {
        let contract = &record.contract;
        let mut weights = self.weights;
        let mut keep_if = |kind: usize, allowed: bool| weights[kind] *= allowed as u64;
        keep_if(BILLING_READING, record.given[BILLING] == 0 && record.serving == 1 && record.denials < 2);
        keep_if(CONTROL_READING, record.given[CONTROL] == 0 && contract.control != 0);
        keep_if(NEIGHBOUR, record.given[2] == 0 || record.given[3] == 0);
        keep_if(FAILURE, record.serving == 1);
        keep_if(ADMISSION, record.serving == 0);
        keep_if(DENIAL, record.denials < 2);
        keep_if(PERMISSION, record.denials > 0);
        let kind = dice.weighted(&weights);
        Act::Call(call(dice, kind, record, 0))
    }
}

/// From months with every reading to years with none.
fn weights(dice: &mut Dice) -> [u64; KINDS] {
    let mut weights = [0; KINDS];
    weights[BILLING_READING] = dice.pick(&[0, 0, 2, 8, 24]);
    weights[CONTROL_READING] = dice.pick(&[0, 4, 16]);
    weights[NEIGHBOUR] = dice.pick(&[0, 1, 4]);
    weights[FAILURE] = dice.pick(&[0, 0, 1, 2]);
    weights[ADMISSION] = dice.pick(&[1, 2, 8]);
    weights[DENIAL] = dice.pick(&[0, 0, 1, 2]);
    weights[PERMISSION] = dice.pick(&[0, 1, 4]);
    weights[CLOSING] = 6;
    weights
}

/// The whole store and an hour buffer of the right length, seldom another: of the store more often at an opening, of
/// which there are few, and of the buffer with marks that 46 refuses, to tell that from 44.
pub fn lend(dice: &mut Dice, act: Act) -> Step {
    let mut step = Step::new(act);
    if dice.below(if step.is_opening() { 12 } else { 150 }) == 0 {
        step.lent = dice.pick(&[0, 1, ROW, STORE - 1, STORE + 1, STORE + SPARE]);
    }
    if let Act::Call(Call::Close { marks }) = &step.act {
        if dice.below(if values::has_peaks_alone(marks) { 5 } else { 40 }) == 0 {
            step.room = dice.pick(&[0, 1, 672, ROW - 1, ROW + 1, ROW + SPARE]);
        }
    }
    step
}

fn any_opening(dice: &mut Dice, bad: u64) -> Act {
    Act::Open(if dice.percent(bad) { values::bad_opening(dice) } else { values::opening(dice) })
}

/// A call of any kind, half of them with bad arguments.
pub fn any_call(dice: &mut Dice, record: &Record) -> Act {
    let kind = dice.below(KINDS as u64) as usize;
    Act::Call(call(dice, kind, record, 50))
}

/// A closing, and bad marks in so many of a hundred.
pub fn closing(dice: &mut Dice, record: &Record, bad: u64) -> Act {
    Act::Call(call(dice, CLOSING, record, bad))
}

/// A call of that kind for the open month, and bad arguments in so many of a hundred.
fn call(dice: &mut Dice, kind: usize, record: &Record, bad: u64) -> Call {
    let t = if record.t() == 0 { ROW } else { record.t() };
    let bad = dice.percent(bad);
    match kind {
        BILLING_READING if (record.contract.billing == 1) != (bad && dice.percent(30)) => {
            Call::BillingHours(hours(dice, t, bad))
        }
        BILLING_READING => Call::BillingVolume(volume(dice, t, bad)),
        CONTROL_READING if (record.contract.control == 1) != (bad && dice.percent(30)) => {
            Call::ControlHours(hours(dice, t, bad))
        }
        CONTROL_READING => Call::ControlVolume(volume(dice, t, bad)),
        NEIGHBOUR => {
            let source = if bad { dice.pick(&[0, 1, 2, 3, u32::MAX]) } else { dice.pick(&[1, 2]) };
            Call::Neighbour { source, volume: volume(dice, t, bad) }
        }
        FAILURE => {
            Call::Failure { reason: if bad { dice.pick(&[0, 5, u32::MAX]) } else { dice.pick(&[1, 1, 2, 3, 4]) } }
        }
        ADMISSION => Call::Admission,
        DENIAL => Call::Denial,
        PERMISSION => Call::Permission,
        _ => Call::Close { marks: if bad { values::bad_marks(dice, t) } else { values::marks(dice, t) } },
    }
}

fn hours(dice: &mut Dice, t: usize, bad: bool) -> Vec<u32> {
    if bad {
        values::bad_hours(dice, t)
    } else {
        values::hours(dice, t, values::MILLION)
    }
}

fn volume(dice: &mut Dice, t: usize, bad: bool) -> u64 {
    if bad {
        values::bad_volume(dice, t)
    } else {
        values::volume(dice, t)
    }
}
