//! The C interface as `include/sallowbingo.h` declares it: its structs, field by field, and its functions.
//!
//! Names and order are the header's. `layout.rs` holds sizes and offsets to those that the archive was compiled with.

/// A power in kW.
#[repr(C)]
#[derive(Clone, Copy, Debug, Default, PartialEq, Eq, PartialOrd, Ord, Hash)]
pub struct Kw(pub u32);

/// A volume in kWh.
#[repr(C)]
#[derive(Clone, Copy, Debug, Default, PartialEq, Eq, PartialOrd, Ord, Hash)]
pub struct Kwh(pub u64);

/// A month of the calendar.
#[repr(C)]
#[derive(Clone, Copy, Debug, Default, PartialEq, Eq, PartialOrd, Ord, Hash)]
pub struct Date {
    /// 2014 to 2999; the open year is 3000 once the calendar is over.
    pub year: u32,
    /// 1 to 12.
    pub month: u32,
}

/// A cable: I, U, c and the phases of document 01.
#[repr(C)]
#[derive(Clone, Copy, Debug, Default, PartialEq, Eq, Hash)]
pub struct Cable {
    /// 1 to 2,000.
    pub amperes: u32,
    /// Phase, nominal, 1 to 250,000.
    pub volts: u32,
    /// Thousandths of cos φ, up to 1,000; 0 means missing and counts as 900.
    pub cosine: u32,
    /// 1 or 3.
    pub phases: u32,
}

/// The meters of a point and what its power is based on.
#[repr(C)]
#[derive(Clone, Copy, Debug, Default, PartialEq, Eq, Hash)]
pub struct Contract {
    /// 1 interval, 2 integral.
    pub billing: u32,
    /// 0 none, 1 interval, 2 integral.
    pub control: u32,
    /// 1 an agreed power, 2 a share of one, 3 a cable.
    pub basis: u32,
    /// On bases 1 and 2 the agreed power, 1 to 1,000,000; of a record P.
    pub power: Kw,
    /// On basis 3 alone.
    pub cable: Cable,
}

/// Run of missed months, in service (1) or out (0), denials, month of the last fault.
#[repr(C)]
#[derive(Clone, Copy, Debug, Default, PartialEq, Eq, Hash)]
pub struct Service {
    pub run: u32,
    pub serving: u32,
    pub denials: u32,
    pub fault: u64,
}

/// The year that the row of each calendar month holds, and the latest past month.
#[repr(C)]
#[derive(Clone, Copy, Debug, Default, PartialEq, Eq, Hash)]
pub struct Past {
    pub years: [u32; 12],
    pub latest: u64,
}

/// Whether a reading is given, and the volume of an integral or neighbour one, else 0.
#[repr(C)]
#[derive(Clone, Copy, Debug, Default, PartialEq, Eq, Hash)]
pub struct Reading {
    pub given: u32,
    pub volume: Kwh,
}

/// Of the billing and the control meter, and of the neighbour's sources 1 and 2.
#[repr(C)]
#[derive(Clone, Copy, Debug, Default, PartialEq, Eq, Hash)]
pub struct Readings {
    pub billing: Reading,
    pub control: Reading,
    pub first: Reading,
    pub second: Reading,
}

/// The record of a point.
#[repr(C)]
#[derive(Clone, Copy, Debug, Default, PartialEq, Eq, Hash)]
pub struct Record {
    pub opened: u32,
    pub contract: Contract,
    pub date: Date,
    pub service: Service,
    pub past: Past,
    pub readings: Readings,
    pub total: Kwh,
}

/// The figures of a closing, which it gives beside the hours.
///
/// The fields are those of `sallowbingo_figures` in the C header. [`Record::close`](crate::Record::close) hands out the
/// figures of accepted closings alone.
#[repr(C)]
#[derive(Clone, Copy, Debug, Default, PartialEq, Eq, Hash)]
pub struct Figures {
    /// 1 to 9.
    pub ground: u32,
    /// The month volume.
    pub volume: Kwh,
    /// C / d rounded half up, and 0 if d is 0.
    pub capacity: Kw,
    /// C, the sum of the volumes in the capacity hours.
    pub sum: Kwh,
    /// d, the working days.
    pub days: u64,
    /// 0 where the closing is accepted. The day of a refused one is in
    /// [`RefusedClosing::wrong_day`](crate::RefusedClosing::wrong_day).
    pub wrong_day: u64,
}

/// The number of the refusal, 0 for none; the record after the call; the figures of an accepted closing, else 0. The
/// wrong day alone is of a closing refused with 42, 43 or 46.
#[repr(C)]
#[derive(Clone, Copy, Debug, Default, PartialEq, Eq, Hash)]
pub struct Answer {
    pub refusal: u32,
    pub after: Record,
    pub figures: Figures,
}

extern "C" {
    pub fn sallowbingo_cable_formula(amperes: u64, volts: u64, cosine: u64, phases: u64, hours: u64) -> u64;
    pub fn sallowbingo_month_days(year: u64, month: u64) -> u32;
    pub fn sallowbingo_open_point(
        asked: Contract,
        date: Date,
        currents: *const u32,
        points: usize,
        place: usize,
        store: *mut u32,
        words: usize,
    ) -> Answer;
    pub fn sallowbingo_read_billing_hours(
        record: Record,
        store: *mut u32,
        words: usize,
        hours: *const u32,
        count: usize,
    ) -> Answer;
    pub fn sallowbingo_read_control_hours(
        record: Record,
        store: *mut u32,
        words: usize,
        hours: *const u32,
        count: usize,
    ) -> Answer;
    pub fn sallowbingo_read_billing_volume(record: Record, store: *const u32, words: usize, volume: Kwh) -> Answer;
    pub fn sallowbingo_read_control_volume(record: Record, store: *const u32, words: usize, volume: Kwh) -> Answer;
    pub fn sallowbingo_read_neighbour(
        record: Record,
        store: *const u32,
        words: usize,
        source: u32,
        volume: Kwh,
    ) -> Answer;
    pub fn sallowbingo_fail(record: Record, store: *mut u32, words: usize, reason: u32) -> Answer;
    pub fn sallowbingo_admit(record: Record, store: *const u32, words: usize) -> Answer;
    pub fn sallowbingo_deny(record: Record, store: *mut u32, words: usize) -> Answer;
    pub fn sallowbingo_permit(record: Record, store: *const u32, words: usize) -> Answer;
    pub fn sallowbingo_close(
        record: Record,
        store: *mut u32,
        words: usize,
        marks: *const u8,
        count: usize,
        hours: *mut u32,
        room: usize,
    ) -> Answer;
}
