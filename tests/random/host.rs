//! The billing host's two functions, on numbers at their limits, one outside and any.

use crate::call;
use crate::dice::Dice;
use crate::reference::rules::{host_cable_formula, host_month_length};

/// A number of the list, one beside it, or any number of 64 bits.
fn near(dice: &mut Dice, limits: &[u64]) -> u64 {
    match dice.below(20) {
        0 => {
            let shift = dice.below(64);
            dice.next() >> shift
        }
        1..=5 => dice.pick(limits),
        6 => dice.pick(limits) + 1,
        7 => dice.pick(limits).saturating_sub(1),
        _ => dice.below(limits[limits.len() - 1] + 1),
    }
}

/// The reference's numbers have 32 bits where C's have 64; what does not fit is outside the limits.
fn short(number: u64) -> u32 {
    u32::try_from(number).unwrap_or(u32::MAX)
}

/// Of one function: the calls answered with a value and with its refusal, and where and how it first differed.
#[derive(Default)]
pub struct Compared {
    pub given: u64,
    pub refused: u64,
    pub differs: Option<(u64, String)>,
}

impl Compared {
    fn note(&mut self, arguments: &[u64], kernel: u64, reference: u64, refusal: u64) {
        let count = if reference == refusal { &mut self.refused } else { &mut self.given };
        *count += 1;
        if kernel != reference && self.differs.is_none() {
            let how = format!("of {arguments:?}: kernel {kernel}, expected {reference}");
            self.differs = Some((self.given + self.refused, how));
        }
    }
}

/// Compares so many calls of each function.
pub fn compare(seed: u64, calls: u64) -> [(&'static str, Compared); 2] {
    let mut dice = Dice::new(seed, u64::MAX);
    let (mut formula, mut length) = (Compared::default(), Compared::default());
    for _ in 0..calls {
        let cable = [&[1, 2_000][..], &[1, 250_000], &[0, 1_000], &[1, 3], &[0, 8_760]].map(|l| near(&mut dice, l));
        let [i, u, c, phases, t] = cable;
        let expected = host_cable_formula(short(i), short(u), short(c), short(phases), t);
        formula.note(&cable, call::cable_formula(i, u, c, phases, t), expected, u64::MAX);
        let (year, month) = (near(&mut dice, &[2014, 2999]), near(&mut dice, &[1, 12]));
        length.note(&[year, month], call::month_days(year, month) as u64, host_month_length(year, month), 0);
    }
    [("cable formula", formula), ("month length", length)]
}
