//! A point: its record, and the calls on it.

use crate::numbers::{self, FIELDS};
use crate::raw::{self, Answer, Contract, Date, Figures, Kwh};
use crate::{call, month_days, Refusal, RefusedClosing};

/// The record of a delivery point.
///
/// Every call brings the record up to date, and a refused one leaves it as it was. The record goes with one store of
/// [`STORE`](crate::STORE) words, which every call is lent; both are plain values, so a copy of both is a copy of the
/// point.
#[derive(Clone, Copy, Debug, PartialEq, Eq)]
pub struct Record(pub(crate) raw::Record);

/// Opens a point on its contract and in its first month, and clears the store.
///
/// On [`basis::AGREED`](crate::basis::AGREED) and [`basis::SHARED`](crate::basis::SHARED) the contract's power is the
/// agreed one. On the second it is shared by the currents of the points' cables, and `place` is the point's place in
/// that list, counted from 0: the points up to any one have together the whole kW nearest to what is theirs, and of two
/// equally near the greater. What the basis does not use is ignored, and what the store held too. Refused with 1 and
/// 10 to 15.
///
/// An integral billing meter is accepted up to a P of 669 kW. P is the point's own: the agreed power, its share of it,
/// or what [`cable_formula`](crate::cable_formula) gives for 1 hour. Only an opening looks at this: a record that was
/// opened earlier goes on with any P.
///
/// ```
/// use sallowbingo::{basis, meter, open, Contract, Date, Kw, Refusal, STORE};
///
/// let mut store = [0; STORE];
/// let mut opened = |billing, power, place| {
///     let contract = Contract { billing, basis: basis::SHARED, power: Kw(power), ..Contract::default() };
///     open(contract, Date { year: 2024, month: 2 }, &[100, 100], place, &mut store).map(drop)
/// };
///
/// // 1,339 kW for two equal cables: 670 for the first and 669 for the second.
/// assert_eq!(opened(meter::INTEGRAL, 1_339, 0), Err(Refusal::IntegralMeter));
/// assert_eq!(opened(meter::INTEGRAL, 1_339, 1), Ok(()));
/// assert_eq!(opened(meter::INTERVAL, 1_339, 0), Ok(()));
/// ```
pub fn open(
    contract: Contract,
    date: Date,
    currents: &[u32],
    place: usize,
    store: &mut [u32],
) -> Result<Record, Refusal> {
    let answer = call::open_point(contract, date, currents, place, store);
    accepted(&answer).map(|()| Record(answer.after))
}

/// Whether the call was accepted, or why it was not. The archive answers no number that is not a refusal's.
fn accepted(answer: &Answer) -> Result<(), Refusal> {
    match answer.refusal {
        0 => Ok(()),
        number => Err(Refusal::from_number(number).expect("the archive is of this crate's version")),
    }
}

/// The readings of a month, each at most once; a billing reading that was discarded may be given again.
impl Record {
    /// Reads the billing meter's hours, where it is an interval meter. Refused with 1 to 3 and 20 to 24.
    pub fn read_billing_hours(&mut self, store: &mut [u32], hours: &[u32]) -> Result<(), Refusal> {
        self.keep(call::read_billing_hours(self.0, store, hours))
    }

    /// Reads the control meter's hours, where it is an interval meter. Refused with 1 to 3, 20 and 22 to 24.
    pub fn read_control_hours(&mut self, store: &mut [u32], hours: &[u32]) -> Result<(), Refusal> {
        self.keep(call::read_control_hours(self.0, store, hours))
    }

    /// Reads the billing meter's volume, where it is an integral meter. Refused with 1 to 3, 20 to 22 and 24.
    pub fn read_billing_volume(&mut self, store: &[u32], volume: Kwh) -> Result<(), Refusal> {
        self.keep(call::read_billing_volume(self.0, store, volume))
    }

    /// Reads the control meter's volume, where it is an integral meter. Refused with 1 to 3, 20, 22 and 24.
    pub fn read_control_volume(&mut self, store: &[u32], volume: Kwh) -> Result<(), Refusal> {
        self.keep(call::read_control_volume(self.0, store, volume))
    }

    /// Reads a neighbour's volume, of its billing or its control meter (see [`source`](crate::source)). It goes off the
    /// volume of an integral meter, never below 0; the billing meter's counts where both are given. Refused with 1 to
    /// 3, 20, 22 and 24.
    pub fn read_neighbour(&mut self, store: &[u32], source: u32, volume: Kwh) -> Result<(), Refusal> {
        self.keep(call::read_neighbour(self.0, store, source, volume))
    }
}

/// The reports of the network firm.
impl Record {
    /// Takes the point out of service, for a reason of [`reason`](crate::reason), and discards this month's billing
    /// reading. A fault or a loss at most 12 months after an earlier one sets the run to 0. Refused with 1 to 3, 30 and
    /// 31.
    pub fn fail(&mut self, store: &mut [u32], reason: u32) -> Result<(), Refusal> {
        self.keep(call::fail(self.0, store, reason))
    }

    /// Takes the point back into service. Refused with 1 to 3 and 32.
    pub fn admit(&mut self, store: &[u32]) -> Result<(), Refusal> {
        self.keep(call::admit(self.0, store))
    }

    /// Counts a denial of access; the second discards this month's billing reading. Refused with 1 to 3 and 33.
    pub fn deny(&mut self, store: &mut [u32]) -> Result<(), Refusal> {
        self.keep(call::deny(self.0, store))
    }

    /// Permits access: there is no denial any more. Refused with 1 to 3 and 34.
    pub fn permit(&mut self, store: &[u32]) -> Result<(), Refusal> {
        self.keep(call::permit(self.0, store))
    }
}

/// The closing of a month.
impl Record {
    /// Closes the open month and opens the next one.
    ///
    /// `marks` has one byte for each hour of the month, see [`mark`](crate::mark). `hours` has [`ROW`](crate::ROW)
    /// words, which may hold anything; it gets the month's hours, and 0 from the month's end on. Refused with 1 to 3
    /// and 40 to 46, of which 46 is asked before 44 and 45.
    ///
    /// With 42, 43 and 46 the first day with that fault comes along; where its marks are put right, the next closing
    /// names the next one.
    ///
    /// ```
    /// use sallowbingo::{basis, mark, meter, open, Contract, Date, Kw, Refusal, RefusedClosing, ROW, STORE};
    ///
    /// let contract = Contract {
    ///     billing: meter::INTERVAL,
    ///     basis: basis::AGREED,
    ///     power: Kw(100),
    ///     ..Contract::default()
    /// };
    /// let (mut store, mut hours) = ([0; STORE], [0; ROW]);
    /// let mut point = open(contract, Date { year: 2023, month: 3 }, &[], 0, &mut store)?;
    ///
    /// // Day 3 has a peak hour and no capacity hour, day 14 two capacity hours.
    /// let mut marks = [mark::ORDINARY; 24 * 31];
    /// marks[24 * 2 + 10] = mark::PEAK;
    /// marks[24 * 13 + 10] = mark::BOTH;
    /// marks[24 * 13 + 17] = mark::BOTH;
    ///
    /// let refused = point.close(&mut store, &marks, &mut hours).unwrap_err();
    /// assert_eq!(refused, RefusedClosing { refusal: Refusal::CapacityHours, wrong_day: Some(14) });
    ///
    /// marks[24 * 13 + 17] = mark::PEAK;
    /// let refused = point.close(&mut store, &marks, &mut hours).unwrap_err();
    /// assert_eq!(refused.to_string(), "refusal 46: a day has peak hours without a capacity hour: day 3");
    ///
    /// marks[24 * 2 + 10] = mark::BOTH;
    /// let figures = point.close(&mut store, &marks, &mut hours)?;
    /// assert_eq!(figures.days, 2);
    /// # Ok::<(), Refusal>(())
    /// ```
    pub fn close(&mut self, store: &mut [u32], marks: &[u8], hours: &mut [u32]) -> Result<Figures, RefusedClosing> {
        let answer = call::close(self.0, store, marks, hours);
        let wrong_day = Some(answer.figures.wrong_day).filter(|&day| day != 0);
        self.keep(answer).map(|()| answer.figures).map_err(|refusal| RefusedClosing { refusal, wrong_day })
    }

    /// Takes over the record that the call left.
    fn keep(&mut self, answer: Answer) -> Result<(), Refusal> {
        self.0 = answer.after;
        accepted(&answer)
    }
}

/// What the record says of the point.
impl Record {
    /// The open month; January 3000 after the calendar's last.
    pub fn date(&self) -> Date {
        self.0.date
    }

    /// How many hours the open month has, and so a reading of hours and the marks: 744 in January 3000, and 0 in a
    /// month that no point can have.
    pub fn month_hours(&self) -> usize {
        match self.0.date {
            Date { year: 3000, month: 1 } => 744,
            Date { year, month } => month_days(year.into(), month.into()).map_or(0, |days| 24 * days as usize),
        }
    }

    /// The sum of all closed months' volumes.
    pub fn total(&self) -> Kwh {
        self.0.total
    }

    /// How many months were closed in a row without a billing reading; a repeated fault has set it to 0.
    pub fn run(&self) -> u32 {
        self.0.service.run
    }

    /// Whether the point is in service.
    pub fn in_service(&self) -> bool {
        self.0.service.serving == 1
    }

    /// How often access was denied since the last permission: 0 to 2.
    pub fn denials(&self) -> u32 {
        self.0.service.denials
    }
}

/// A record as plain numbers, to be kept on disk.
impl Record {
    /// The record's fields as numbers, in the order of `sallowbingo_record` in the C header.
    ///
    /// They are, field by field: whether the point is open; its contract; the open month; its service; the past, with
    /// the year that the row of each of the twelve calendar months holds; this month's readings; the total. Flags are 1
    /// or 0. The months of the last fault and of the latest past are year × 12 + month, or 0 for none. To keep a point,
    /// keep these numbers and the words of its store; [`Record::from_numbers`] makes the record again.
    pub fn numbers(&self) -> [u64; FIELDS] {
        numbers::numbers(&self.0)
    }

    /// The record of such numbers, or none if one of them does not fit its field of 32 bits.
    ///
    /// Any other numbers make a record, and nothing is checked here: the calls refuse a record outside the limits of
    /// document 01 with [`Refusal::Record`](crate::Refusal::Record).
    ///
    /// ```
    /// use sallowbingo::{basis, meter, open, Contract, Date, Kw, Record, Refusal, STORE};
    ///
    /// let contract = Contract {
    ///     billing: meter::INTERVAL,
    ///     control: meter::NONE,
    ///     basis: basis::AGREED,
    ///     power: Kw(100),
    ///     ..Contract::default()
    /// };
    /// let mut store = [0; STORE];
    /// let point = open(contract, Date { year: 2024, month: 2 }, &[], 0, &mut store)?;
    ///
    /// let mut numbers = point.numbers();
    /// assert_eq!(Record::from_numbers(numbers), Some(point));
    ///
    /// numbers[0] = 2; // the point is open with 1
    /// let mut wrong = Record::from_numbers(numbers).unwrap();
    /// assert_eq!(wrong.deny(&mut store), Err(Refusal::Record));
    ///
    /// numbers[0] = 1 << 32; // does not fit
    /// assert_eq!(Record::from_numbers(numbers), None);
    /// # Ok::<(), Refusal>(())
    /// ```
    pub fn from_numbers(numbers: [u64; FIELDS]) -> Option<Record> {
        numbers::from_numbers(numbers).map(Record)
    }
}
