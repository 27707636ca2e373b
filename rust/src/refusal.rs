//! The numbers with which a call is refused.

use core::error::Error;
use core::fmt;

/// Why a call was refused, with the number of document 01.
///
/// Where several apply, a call answers the lowest, but a closing asks [`NoCapacityHour`](Refusal::NoCapacityHour), 46,
/// after 43 and before 44 and 45. Compared with `<`, refusals go by their numbers. A refused call leaves record, store
/// and hour buffer as they were. A request of the customer may bring numbers, so a `match` has an arm for others.
///
/// ```
/// use sallowbingo::Refusal;
///
/// let refusal = Refusal::from_number(23).unwrap();
/// assert_eq!(refusal, Refusal::HourCount);
/// assert_eq!(refusal.number(), 23);
/// assert_eq!(refusal.to_string(), "refusal 23: the reading has not as many hours as the month");
/// assert_eq!(Refusal::from_number(0), None);
/// ```
#[derive(Clone, Copy, Debug, PartialEq, Eq, PartialOrd, Ord, Hash)]
#[repr(u32)]
#[non_exhaustive]
pub enum Refusal {
    /// The store has not 10,416 words.
    StoreLength = 1,
    /// The record is not open, a field is outside its limits or not 0 where it has to be, the last fault is neither
    /// none nor in 2014 to 2999 or is after the open month, a row's month or the latest past is not before it, the
    /// latest past month is not in its row, or a reading is given of a form that the contract lacks or with too large a
    /// volume.
    Record = 2,
    /// The calendar is over: the open month is January 3000.
    CalendarOver = 3,

    /// At an opening: no month from January 2014 to December 2999.
    OpeningMonth = 10,
    /// At an opening: the billing meter is not of kind 1 or 2, or the control meter not of kind 0, 1 or 2.
    MeterKind = 11,
    /// At an opening: the basis is not 1, 2 or 3, or on basis 1 or 2 the power is not 1 to 1,000,000.
    Basis = 12,
    /// At an opening on basis 3: amperes not 1 to 2,000, volts not 1 to 250,000, cosine above 1,000, or phases not 1
    /// or 3.
    CableValue = 13,
    /// At an opening on basis 2: not 1 to 64 currents, a current not 1 to 2,000, or a place outside the list.
    Currents = 14,
    /// At an opening: an integral billing meter, and a P of 670 kW or more, which is the point's own: on basis 2 its
    /// share, on basis 3 the cable formula at 1 hour.
    IntegralMeter = 15,

    /// At a reading: the contract has no such meter, or one of the other form, or the neighbour's source is not 1 or 2.
    NoSuchMeter = 20,
    /// At a billing reading: the point is out of service, or access was denied twice.
    BillingBarred = 21,
    /// At a reading: this month's is already given.
    AlreadyGiven = 22,
    /// At a reading of hours: not as many as the open month has.
    HourCount = 23,
    /// At a reading: an hour above 1,000,000, or a volume above 1,000,000 for each hour of the month.
    TooLarge = 24,

    /// At a failure: the point is out of service already.
    OutOfService = 30,
    /// At a failure: the reason is not 1 to 4.
    Reason = 31,
    /// At an admission: the point is in service.
    InService = 32,
    /// At a denial: there are two already.
    TwoDenials = 33,
    /// At a permission: there is no denial.
    NoDenial = 34,

    /// At a closing: not one mark for each hour of the month.
    MarkCount = 40,
    /// At a closing: a mark above 3.
    Mark = 41,
    /// At a closing: over 16 peak hours in a day.
    PeakHours = 42,
    /// At a closing: two or more capacity hours in a day.
    CapacityHours = 43,
    /// At a closing: the hour buffer has not 744 words.
    BufferLength = 44,
    /// At a closing: a word of the store above 3,000,000 in rows 0 to 11, or above 1,000,000 in rows 12 and 13.
    StoreWord = 45,
    /// At a closing: peak hours without a capacity hour in a day. A closing asks this before 44 and 45.
    NoCapacityHour = 46,
}

impl Refusal {
    /// All refusals, from the lowest number to the highest.
    pub const ALL: [Refusal; 26] = [
        Refusal::StoreLength,
        Refusal::Record,
        Refusal::CalendarOver,
        Refusal::OpeningMonth,
        Refusal::MeterKind,
        Refusal::Basis,
        Refusal::CableValue,
        Refusal::Currents,
        Refusal::IntegralMeter,
        Refusal::NoSuchMeter,
        Refusal::BillingBarred,
        Refusal::AlreadyGiven,
        Refusal::HourCount,
        Refusal::TooLarge,
        Refusal::OutOfService,
        Refusal::Reason,
        Refusal::InService,
        Refusal::TwoDenials,
        Refusal::NoDenial,
        Refusal::MarkCount,
        Refusal::Mark,
        Refusal::PeakHours,
        Refusal::CapacityHours,
        Refusal::BufferLength,
        Refusal::StoreWord,
        Refusal::NoCapacityHour,
    ];

    /// The refusal of a number, or none if document 01 has no such number.
    pub fn from_number(number: u32) -> Option<Refusal> {
        Refusal::ALL.into_iter().find(|refusal| refusal.number() == number)
    }

    /// The number that document 01 gives the refusal.
    pub const fn number(self) -> u32 {
        self as u32
    }

    /// What was wrong, in a sentence.
    pub const fn sentence(self) -> &'static str {
        match self {
            Refusal::StoreLength => "the store has not 10,416 words",
            Refusal::Record => "the record is not open, or a field, a month or a reading in it is outside its limits",
            Refusal::CalendarOver => "the calendar is over",
            Refusal::OpeningMonth => "the opening month is not in January 2014 to December 2999",
            Refusal::MeterKind => "the billing meter is not of kind 1 or 2, or the control meter not of kind 0 to 2",
            Refusal::Basis => "the basis is not 1 to 3, or on basis 1 or 2 the power is not 1 to 1,000,000",
            Refusal::CableValue => "a value of the cable is outside its limits",
            Refusal::Currents => "the list of currents is empty, too long or holds a wrong current, or lacks the place",
            Refusal::IntegralMeter => "an integral billing meter is not accepted where P is 670 kW or more",
            Refusal::NoSuchMeter => {
                "the point has no meter for such a reading, or the neighbour's source is not 1 or 2"
            }
            Refusal::BillingBarred => "the point is out of service, or access was denied twice",
            Refusal::AlreadyGiven => "the reading is already given this month",
            Refusal::HourCount => "the reading has not as many hours as the month",
            Refusal::TooLarge => "an hour is above 1,000,000, or a volume above that for each hour of the month",
            Refusal::OutOfService => "the point is out of service already",
            Refusal::Reason => "the reason of the failure is not 1 to 4",
            Refusal::InService => "the point is in service already",
            Refusal::TwoDenials => "access was denied twice already",
            Refusal::NoDenial => "there is no denial",
            Refusal::MarkCount => "there are not as many marks as the month has hours",
            Refusal::Mark => "a mark is above 3",
            Refusal::PeakHours => "a day has over 16 peak hours",
            Refusal::CapacityHours => "a day has two or more capacity hours",
            Refusal::BufferLength => "the hour buffer has not 744 words",
            Refusal::StoreWord => "a word of the store is above the limit of its row",
            Refusal::NoCapacityHour => "a day has peak hours without a capacity hour",
        }
    }
}

impl fmt::Display for Refusal {
    fn fmt(&self, f: &mut fmt::Formatter<'_>) -> fmt::Result {
        write!(f, "refusal {}: {}", self.number(), self.sentence())
    }
}

impl Error for Refusal {}

/// Why a closing was refused, and with 42, 43 and 46 the first day with that fault.
///
/// It becomes a [`Refusal`], without the day, by `?` or [`Refusal::from`].
///
/// ```
/// use sallowbingo::{Refusal, RefusedClosing};
///
/// let refused = RefusedClosing { refusal: Refusal::CapacityHours, wrong_day: Some(14) };
/// assert_eq!(refused.to_string(), "refusal 43: a day has two or more capacity hours: day 14");
/// assert_eq!(Refusal::from(refused), Refusal::CapacityHours);
/// ```
#[derive(Clone, Copy, Debug, PartialEq, Eq, Hash)]
pub struct RefusedClosing {
    /// Why.
    pub refusal: Refusal,
    /// With 42, 43 and 46 the first day of the month that has the fault of that number, counted from 1; else none. An
    /// earlier day may have a fault of another number.
    pub wrong_day: Option<u64>,
}

impl From<RefusedClosing> for Refusal {
    fn from(refused: RefusedClosing) -> Refusal {
        refused.refusal
    }
}

impl fmt::Display for RefusedClosing {
    fn fmt(&self, f: &mut fmt::Formatter<'_>) -> fmt::Result {
        self.refusal.fmt(f)?;
        match self.wrong_day {
            Some(day) => write!(f, ": day {day}"),
            None => Ok(()),
        }
    }
}

impl Error for RefusedClosing {}
