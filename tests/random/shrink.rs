//! A failing case made small: steps are taken out and arguments made plain as long as kernel and reference still differ.

use crate::case::{Act, Forged, Step};
use crate::numbers::{from_numbers, numbers, FIELDS};
use crate::reference::calls::{Call, Opening};
use crate::reference::rules::{index, year_and_month, Contract};
use crate::sides::{guarded, Sides, ROW, STORE};

/// The place of the first step after which the sides differ, and how.
pub fn difference(steps: &[Step]) -> Option<(usize, String)> {
    let mut sides = Sides::new();
    steps.iter().enumerate().find_map(|(place, step)| guarded(|| sides.step(step)).err().map(|how| (place, how)))
}

pub fn shrink(mut steps: Vec<Step>) -> Vec<Step> {
    loop {
        let before = steps.clone();
        cut_end(&mut steps);
        drop_months(&mut steps);
        drop_steps(&mut steps);
        for place in 0..steps.len() {
            simplify(&mut steps, place);
        }
        if steps == before {
            return steps;
        }
    }
}

/// Takes the change where the sides still differ.
fn accept(steps: &mut Vec<Step>, changed: Vec<Step>) -> bool {
    let smaller = changed != *steps && difference(&changed).is_some();
    if smaller {
        *steps = changed;
    }
    smaller
}

fn cut_end(steps: &mut Vec<Step>) {
    if let Some((place, _)) = difference(steps) {
        steps.truncate(place + 1);
    }
}

/// Takes the first month out and opens a month later, so that the others keep their lengths.
fn drop_months(steps: &mut Vec<Step>) {
    let is_closing = |step: &Step| matches!(step.act, Act::Call(Call::Close { .. }));
    loop {
        let Some(opened) = steps.iter().position(|step| matches!(step.act, Act::Open(_))) else { return };
        let Some(closed) = steps.iter().position(is_closing).filter(|closed| *closed > opened) else { return };
        let mut changed = steps.clone();
        changed.drain(opened + 1..=closed);
        if let Act::Open(opening) = &mut changed[opened].act {
            let (year, month) = year_and_month(index(opening.year as u64, opening.month as u64) + 1);
            (opening.year, opening.month) = (year as u32, month as u32);
        }
        if !accept(steps, changed) {
            return;
        }
    }
}

/// Takes out as many steps at once as it can, from half of them down to one.
fn drop_steps(steps: &mut Vec<Step>) {
    let mut size = steps.len() / 2;
    while size > 0 {
        let mut start = 0;
        while start + size <= steps.len() {
            let mut changed = steps.clone();
            changed.drain(start..start + size);
            if !accept(steps, changed) {
                start += size;
            }
        }
        size /= 2;
    }
}

fn simplify(steps: &mut Vec<Step>, place: usize) {
    let mut again = true;
    while again {
        again = false;
        for step in simpler(&steps[place]) {
            let mut changed = steps.clone();
            changed[place] = step;
            if accept(steps, changed) {
                again = true;
                break;
            }
        }
    }
}

/// The whole store and a buffer of the right length, and then plainer acts.
fn simpler(step: &Step) -> Vec<Step> {
    let mut simpler = vec![Step { lent: STORE, ..step.clone() }, Step { room: ROW, ..step.clone() }];
    simpler.retain(|other| other != step);
    let acts: Vec<Act> = match &step.act {
        Act::Open(opening) => simpler_openings(opening).into_iter().map(Act::Open).collect(),
        Act::Call(call) => simpler_calls(call).into_iter().map(Act::Call).collect(),
        Act::Forge(forged) => simpler_forged(forged).into_iter().map(|less| Act::Forge(Box::new(less))).collect(),
    };
    simpler.extend(acts.into_iter().map(|act| Step { act, ..step.clone() }));
    simpler
}

/// Without some words, with plainer ones, and with a smaller number in a field; the last fields first, since the latest
/// past has to stand in its row.
fn simpler_forged(forged: &Forged) -> Vec<Forged> {
    let mut simpler = Vec::new();
    for place in 0..forged.words.len() {
        let mut less = forged.clone();
        less.words.remove(place);
        simpler.push(less);
        for words in simpler_words(&forged.words[place].1) {
            let mut plain = forged.clone();
            plain.words[place].1 = words;
            simpler.push(plain);
        }
    }
    let fields = numbers(&forged.record);
    for field in (0..FIELDS).rev() {
        for number in [0, 1, fields[field] / 2] {
            let mut less = fields;
            less[field] = number;
            if number < fields[field] {
                let record = from_numbers(less).expect("smaller numbers fit as well");
                simpler.push(Forged { record, words: forged.words.clone() });
            }
        }
    }
    simpler
}

/// On basis 1 with the power as it is given or as it comes out, without what the basis does not use, with a shorter
/// list, and with less power.
fn simpler_openings(opening: &Opening) -> Vec<Opening> {
    let mut simpler = Vec::new();
    if opening.basis != 1 {
        let powers = [opening.power, Contract::from_opening(opening).kilowatts() as u32];
        simpler.extend(powers.map(|power| Opening { basis: 1, power: power.max(1), ..opening.clone() }));
    }
    if opening.basis != 2 && !opening.currents.is_empty() {
        simpler.push(Opening { currents: Vec::new(), place: 0, ..opening.clone() });
    }
    if opening.basis != 3 && opening.phases != 0 {
        simpler.push(Opening { amperes: 0, volts: 0, cosine: 0, phases: 0, ..opening.clone() });
    }
    if opening.basis == 2 {
        simpler.extend(shorter_lists(opening));
    }
    let powers = simpler_volumes(opening.power as u64).filter(|power| *power > 0);
    simpler.extend(powers.map(|power| Opening { power: power as u32, ..opening.clone() }));
    simpler
}

/// Without currents after the place's or before it, as many at once as half the list down to one.
fn shorter_lists(opening: &Opening) -> Vec<Opening> {
    let (length, place) = (opening.currents.len(), opening.place as usize);
    let mut shorter = Vec::new();
    let mut size = length / 2;
    while size > 0 {
        if place + size < length {
            shorter.push(Opening { currents: opening.currents[..length - size].to_vec(), ..opening.clone() });
        }
        if place >= size {
            let place = (place - size) as u32;
            shorter.push(Opening { currents: opening.currents[size..].to_vec(), place, ..opening.clone() });
        }
        size /= 2;
    }
    shorter
}

/// A volume made plain, and less by ever smaller parts of it, so that the least one is near after few steps.
fn simpler_volumes(volume: u64) -> impl Iterator<Item = u64> {
    let less = (1..64).map(move |half| volume - (volume >> half));
    [0, 1].into_iter().chain(less).filter(move |v| *v < volume)
}

fn simpler_calls(call: &Call) -> Vec<Call> {
    match call {
        Call::BillingHours(hours) => simpler_words(hours).into_iter().map(Call::BillingHours).collect(),
        Call::ControlHours(hours) => simpler_words(hours).into_iter().map(Call::ControlHours).collect(),
        Call::BillingVolume(v) => simpler_volumes(*v).map(Call::BillingVolume).collect(),
        Call::ControlVolume(v) => simpler_volumes(*v).map(Call::ControlVolume).collect(),
        Call::Neighbour { source, volume: v } => {
            simpler_volumes(*v).map(|less| Call::Neighbour { source: *source, volume: less }).collect()
        }
        Call::Close { marks } => simpler_marks(marks).into_iter().map(|marks| Call::Close { marks }).collect(),
        _ => Vec::new(),
    }
}

/// All 0, all alike, the first of them alone, one half alone, no word above 1, halves of words, and a day less.
fn simpler_words(words: &[u32]) -> Vec<Vec<u32>> {
    let length = words.len();
    let most = words.iter().copied().max().unwrap_or(0);
    let used = words.iter().rposition(|word| *word != 0).map_or(0, |last| last + 1);
    let first = words.iter().position(|word| *word != 0).unwrap_or(0);
    let kept =
        |from: usize, to: usize| (0..length).map(|k| if (from..to).contains(&k) { words[k] } else { 0 }).collect();
    let mut candidates: Vec<Vec<u32>> = vec![
        vec![0; length],
        vec![1; length],
        vec![most; length],
        kept(first, first + 1),
        kept(first, used - used / 2),
        kept(used / 2, used),
        words.iter().map(|word| (*word).min(1)).collect(),
        words.iter().map(|word| word / 2).collect(),
    ];
    for day in (0..length).step_by(24) {
        let mut without = words.to_vec();
        without[day..length.min(day + 24)].fill(0);
        candidates.push(without);
    }
    let size =
        |list: &[u32]| list.iter().map(|word| *word as u64).sum::<u64>() + list.chunk_by(|a, b| a == b).count() as u64;
    candidates.into_iter().filter(|list| size(list) < size(words)).collect()
}

/// No marks, the first half of the marked days without marks, or one day.
fn simpler_marks(marks: &[u8]) -> Vec<Vec<u8>> {
    let length = marks.len();
    let without = |from: usize, to: usize| {
        let mut less = marks.to_vec();
        less[from..to.min(length)].fill(0);
        less
    };
    let used = marks.iter().rposition(|mark| *mark != 0).map_or(0, |last| last + 1);
    let mut simpler = vec![without(0, length), without(0, 24 * (used / 48))];
    simpler.extend((0..length).step_by(24).map(|day| without(day, day + 24)));
    simpler.retain(|list| list != marks);
    simpler
}
