//! One electricity delivery point with hourly metering, settled month by month by a verified kernel.
//!
//! A point is opened on its contract. Readings, failures, admissions, denials of access and permissions come in, and
//! each month is closed, each as one call on a [`Record`] and a store of [`STORE`] words that the caller keeps. A
//! closing gives the hours and its [`Figures`]. The rules and the numbers are those of the specification
//! *Estimated consumption at a delivery point* with requests E2, E3 and E8 of document 02, called document 01 here.
//!
//! Nothing has to be checked beforehand: arguments are plain numbers and slices of any length, a call that document 01
//! refuses gives its [`Refusal`], a closing a [`RefusedClosing`], which with 42, 43 and 46 has the first day with that
//! fault, and a refused call leaves record, store and hour buffer as they were. Nothing is allocated, and the crate needs
//! no standard library.
//!
//! ```
//! use sallowbingo::{basis, mark, meter, open, Contract, Date, Kw, Kwh, Refusal, ROW, STORE};
//!
//! let contract = Contract {
//!     billing: meter::INTERVAL,
//!     control: meter::INTEGRAL,
//!     basis: basis::AGREED,
//!     power: Kw(100),
//!     ..Contract::default()
//! };
//! let mut store = [0; STORE];
//! let mut point = open(contract, Date { year: 2023, month: 2 }, &[], 0, &mut store)?;
//!
//! // The control meter is read once a month.
//! point.read_control_volume(&store, Kwh(5_000))?;
//! let refusal = point.read_control_volume(&store, Kwh(6_000)).unwrap_err();
//! assert_eq!(refusal, Refusal::AlreadyGiven);
//! assert_eq!(refusal.to_string(), "refusal 22: the reading is already given this month");
//!
//! // One mark an hour: hour 10 of the first day is a planned peak, and the day has no capacity hour.
//! let mut marks = [mark::ORDINARY; 24 * 28];
//! marks[10] = mark::PEAK;
//! let mut hours = [0; ROW];
//! let refused = point.close(&mut store, &marks, &mut hours).unwrap_err();
//! assert_eq!((refused.refusal, refused.wrong_day), (Refusal::NoCapacityHour, Some(1)));
//! assert_eq!(refused.to_string(), "refusal 46: a day has peak hours without a capacity hour: day 1");
//!
//! // It is the capacity hour too.
//! marks[10] = mark::BOTH;
//! let figures = point.close(&mut store, &marks, &mut hours)?;
//!
//! // Ground 5: no billing reading and no past, so the volume goes by the peak rule, with the power in the peak hour
//! // and the other 4,900 kWh over the other 671 hours.
//! assert_eq!(figures.ground, 5);
//! assert_eq!(figures.volume, Kwh(5_000));
//! assert_eq!(figures.capacity, Kw(100));
//! assert_eq!(hours[10], 100);
//! assert_eq!(hours[11..672].iter().max(), Some(&8));
//!
//! assert_eq!(point.date(), Date { year: 2023, month: 3 });
//! assert_eq!(point.run(), 1);
//! assert_eq!(point.total(), Kwh(5_000));
//! # Ok::<(), Refusal>(())
//! ```
//!
//! # The archive
//!
//! The crate links `libsallowbingo.a`, which has to be of the crate's own version: the build asks pkg-config for it and
//! stops at another. With the variable `SALLOWBINGO_LIB_DIR` set, the archive in that folder is taken, and whoever sets
//! it vouches for its version.
//!
//! # Panics
//!
//! A call panics where the archive answers a number that document 01 does not have. An archive of this version never
//! does.

#![no_std]
#![deny(missing_docs)]
#![deny(unsafe_code)]

mod call;
mod fields;
mod layout;
mod numbers;
mod raw;
mod record;
mod refusal;

pub use numbers::FIELDS;
pub use raw::{Cable, Contract, Date, Figures, Kw, Kwh};
pub use record::{open, Record};
pub use refusal::{Refusal, RefusedClosing};

/// The words of a store: 14 rows.
pub const STORE: usize = 14 * ROW;

/// The words of a row of the store, and of the hour buffer of a closing.
pub const ROW: usize = 744;

/// The kinds of a meter, for a contract.
pub mod meter {
    /// No meter; a control meter only.
    pub const NONE: u32 = 0;
    /// An interval meter, which is read by the hour.
    pub const INTERVAL: u32 = 1;
    /// An integral meter, of which only the month's volume is read.
    pub const INTEGRAL: u32 = 2;
}

/// What a point's power is based on, for a contract.
pub mod basis {
    /// An agreed power.
    pub const AGREED: u32 = 1;
    /// A share of a power that is agreed for several points.
    pub const SHARED: u32 = 2;
    /// No power, but a cable.
    pub const CABLE: u32 = 3;
}

/// The reasons of a failure.
pub mod reason {
    /// A fault of the meter.
    pub const FAULT: u32 = 1;
    /// Its loss.
    pub const LOSS: u32 = 2;
    /// Its verification interval is over.
    pub const VERIFICATION: u32 = 3;
    /// It was taken down.
    pub const TAKEN_DOWN: u32 = 4;
}

/// The sources of a neighbour reading.
pub mod source {
    /// The neighbour's billing meter.
    pub const BILLING: u32 = 1;
    /// The neighbour's control meter.
    pub const CONTROL: u32 = 2;
}

/// The marks of an hour, for a closing.
pub mod mark {
    /// Neither of the two.
    pub const ORDINARY: u8 = 0;
    /// A planned peak hour; a day has at most 16.
    pub const PEAK: u8 = 1;
    /// A capacity hour; a day has at most one, and exactly one if it has peak hours.
    pub const CAPACITY: u8 = 2;
    /// Both.
    pub const BOTH: u8 = 3;
}

/// The volume that a cable can carry in some hours, rounded half up.
///
/// It is amperes × volts × cosine × hours / 1,500,000 with one phase and / 500,000 with three. None if amperes are not
/// 1 to 2,000, volts (phase, nominal) not 1 to 250,000, cosine (thousandths of cos φ, 0 for missing, which counts as
/// 900) above 1,000, phases not 1 or 3, or hours above 8,760.
///
/// ```
/// use sallowbingo::{cable_formula, Kwh};
///
/// assert_eq!(cable_formula(100, 230, 0, 3, 720), Some(Kwh(29_808)));
/// assert_eq!(cable_formula(100, 230, 0, 2, 720), None);
/// ```
pub fn cable_formula(amperes: u64, volts: u64, cosine: u64, phases: u64, hours: u64) -> Option<Kwh> {
    match call::cable_formula(amperes, volts, cosine, phases, hours) {
        u64::MAX => None,
        volume => Some(Kwh(volume)),
    }
}

/// The length of a month in days, January 2014 to December 2999; none for any other month.
///
/// ```
/// use sallowbingo::month_days;
///
/// assert_eq!(month_days(2024, 2), Some(29));
/// assert_eq!(month_days(2024, 13), None);
/// ```
pub fn month_days(year: u64, month: u64) -> Option<u32> {
    match call::month_days(year, month) {
        0 => None,
        days => Some(days),
    }
}

/// Where the hours of a closing on some ground come from; none if the number is no ground.
///
/// ```
/// use sallowbingo::ground_sentence;
///
/// assert_eq!(ground_sentence(5), Some("the control meter's volume, by the peak rule"));
/// assert_eq!(ground_sentence(10), None);
/// ```
pub const fn ground_sentence(ground: u32) -> Option<&'static str> {
    Some(match ground {
        1 => "the billing meter's hours",
        2 => "the billing meter's volume, by the peak rule",
        3 => "the control meter's hours",
        4 => "the control meter's volume, by the past",
        5 => "the control meter's volume, by the peak rule",
        6 => "the control meter's volume, by the past: more on a capacity hour than by the peak rule on a peak hour",
        7 => "the hours of the past",
        8 => "the power, in every hour",
        9 => "the cable formula, evenly",
        _ => return None,
    })
}
