//! The calls on a point through the safe functions.

#[path = "../../src/fields.rs"]
mod fields;
mod hosts;
mod integral;
mod layout;
mod limits;
mod numbers;
#[allow(dead_code)] // the layout of its structs is tested, and the calls by the crate's own functions
#[path = "../../src/raw.rs"]
mod raw;
mod refusals;
mod refused;
#[path = "../../../tests/random/rows.rs"]
mod rows;
mod wrong_days;
mod year;

use sallowbingo::{basis, mark, meter, open, Cable, Contract, Date, Figures, Kw, Record, RefusedClosing, ROW, STORE};

const NO_CABLE: Cable = Cable { amperes: 0, volts: 0, cosine: 0, phases: 0 };

/// An interval billing meter, an integral control meter and 10 kW.
const AGREED: Contract = Contract {
    billing: meter::INTERVAL,
    control: meter::INTEGRAL,
    basis: basis::AGREED,
    power: Kw(10),
    cable: NO_CABLE,
};

/// An integral billing meter, an interval control meter and a cable.
const CABLE: Contract = Contract {
    billing: meter::INTEGRAL,
    control: meter::INTERVAL,
    basis: basis::CABLE,
    power: Kw(0),
    cable: Cable { amperes: 100, volts: 230, cosine: 0, phases: 3 },
};

/// A point with its store, and the hour buffer that its closings are lent.
#[derive(Clone, PartialEq)]
struct Point {
    record: Record,
    store: Vec<u32>,
    hours: Vec<u32>,
}

impl Point {
    fn open(contract: Contract, year: u32, month: u32) -> Point {
        let mut store = vec![9; STORE];
        let record = open(contract, Date { year, month }, &[], 0, &mut store).unwrap();
        assert_eq!(store, vec![0; STORE]);
        Point { record, store, hours: vec![7; ROW] }
    }

    fn close(&mut self, marks: &[u8]) -> Result<Figures, RefusedClosing> {
        self.record.close(&mut self.store, marks, &mut self.hours)
    }

    /// The same for every day of the open month.
    fn all_days<T: Copy>(&self, day: [T; 24]) -> Vec<T> {
        day.repeat(self.record.month_hours() / 24)
    }
}

/// A day with these numbers at hours 9 and 10, and another at all others.
const fn day<T: Copy>(nine: T, ten: T, other: T) -> [T; 24] {
    let mut day = [other; 24];
    day[9] = nine;
    day[10] = ten;
    day
}

/// A working day: hours 9 and 10 are peaks, and hour 9 is the capacity hour.
fn working_day() -> [u8; 24] {
    day(mark::BOTH, mark::PEAK, mark::ORDINARY)
}

/// The place of a field among the numbers of a record.
fn place(name: &str) -> usize {
    rows::ROWS.iter().position(|row| row.name == name).unwrap()
}
