//! The one table of the structs' fields, in the order of the C header: name, width, and limits where it is a number of
//! the record. Numbers, layout and tests are made of it, so a later field is one row here beside its line in `raw.rs`;
//! without the row nothing compiles.
//!
//! Limits are ranges: what number 2 lets stand in the field in one record or another. Beyond them no record passes.

/// Hands the table to a macro, which makes of it what it needs.
macro_rules! table {
    ($macro:ident) => {
        $macro! {
            Date {
                year: u32 [2014..=3000],
                month: u32 [1..=12],
            }
            Cable {
                amperes: u32 [0..=2_000],
                volts: u32 [0..=250_000],
                cosine: u32 [0..=1_000],
                phases: u32 [0..=1, 3..=3],
            }
            Contract {
                billing: u32 [1..=2],
                control: u32 [0..=2],
                basis: u32 [1..=3],
                power: Kw [0..=1_000_000],
                cable: Cable,
            }
            Service {
                run: u32 [0..=12_000],
                serving: u32 [0..=1],
                denials: u32 [0..=2],
                fault: u64 [0..=0, 2014 * 12 + 1..=2999 * 12 + 12],
            }
            Past {
                years: [u32; 12] [0..=0, 2014..=2999],
                latest: u64 [0..=0, 2014 * 12 + 1..=2999 * 12 + 12],
            }
            Reading {
                given: u32 [0..=1],
                volume: Kwh [0..=744 * 1_000_000],
            }
            Readings {
                billing: Reading,
                control: Reading,
                first: Reading,
                second: Reading,
            }
            Record {
                opened: u32 [1..=1],
                contract: Contract,
                date: Date,
                service: Service,
                past: Past,
                readings: Readings,
                total: Kwh [0..=30_000_000_000_000],
            }
            Figures {
                ground: u32,
                volume: Kwh,
                capacity: Kw,
                sum: Kwh,
                days: u64,
                wrong_day: u64,
            }
            Answer {
                refusal: u32,
                after: Record,
                figures: Figures,
            }
        }
    };
}
pub(crate) use table;
