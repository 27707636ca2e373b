//! Months of two points. The comments work the figures out from document 01: V is the month volume, C the sum over the
//! capacity hours, d the working days and n the peak hours.

use super::{day, working_day, Point, AGREED, CABLE};
use sallowbingo::{basis, mark, open, reason, source, Contract, Date, Figures, Kw, Kwh, Refusal, ROW, STORE};

/// What a closing has to give.
struct Month {
    ground: u32,
    volume: u64,
    sum: u64,
    days: u64,
    capacity: u32,
}

impl Point {
    /// Closes on the marks: the figures, the hours by days, and the run and the total after it.
    fn closes(&mut self, marks: &[u8], month: Month, days: &[[u32; 24]], run: u32, total: u64) {
        let Month { ground, volume, sum, days: d, capacity } = month;
        let (volume, capacity, sum) = (Kwh(volume), Kw(capacity), Kwh(sum));
        assert_eq!(self.close(marks), Ok(Figures { ground, volume, capacity, sum, days: d, wrong_day: 0 }));
        let mut hours = days.concat();
        assert_eq!(hours.len(), marks.len());
        hours.resize(ROW, 0);
        assert_eq!(self.hours, hours);
        assert_eq!((self.record.run(), self.record.total()), (run, Kwh(total)));
    }

    /// Closes a month of working days.
    fn closes_on_working_days(&mut self, month: Month, days: &[[u32; 24]], run: u32, total: u64) {
        self.closes(&self.all_days(working_day()), month, days, run, total);
    }
}

/// February of the first point: 30 at hour 9 and 6 at the 23 others, 168 a day; days 22 to 24 have twice that.
fn february() -> Vec<[u32; 24]> {
    let mut days = vec![day(30, 6, 6); 28];
    days[21..24].fill(day(60, 12, 12));
    days
}

/// The past that February is in a month with more days: days 29, 30 and 31 are its days 22, 23 and 24.
fn stretched(days: usize) -> Vec<[u32; 24]> {
    let mut past = february();
    past.extend_from_within(21..21 + days - 28);
    past
}

/// January to April 2023 with 10 kW: grounds 8, 1, 7 and 4.
fn first_months(p: &mut Point) {
    // January: no reading and no past. V = 10 × 744 = 7,440, 10 an hour; C = 31 × 10.
    let month = Month { ground: 8, volume: 7_440, sum: 310, days: 31, capacity: 10 };
    p.closes_on_working_days(month, &[[10; 24]; 31], 1, 7_440);

    // February: as read. V = 25 × 168 + 3 × 336 = 5,208; C = 25 × 30 + 3 × 60 = 930; 930 / 28 = 33.2.
    p.record.read_billing_hours(&mut p.store, &february().concat()).unwrap();
    let month = Month { ground: 1, volume: 5_208, sum: 930, days: 28, capacity: 33 };
    p.closes_on_working_days(month, &february(), 0, 12_648);

    // March: R = 1, the past is February, hours 672 to 743 its hours 504 to 575, days 22 to 24.
    // V = 5,208 + 3 × 336 = 6,216; C = 930 + 3 × 60 = 1,110; 1,110 / 31 = 35.8.
    let month = Month { ground: 7, volume: 6_216, sum: 1_110, days: 31, capacity: 36 };
    p.closes_on_working_days(month, &stretched(31), 1, 18_864);

    // April: R = 2. N is source 1: V = 13,000 - 1,240 = 11,760. The weights are February and its days 22 and 23:
    // S = 5,208 + 2 × 336 = 5,880, so each hour is twice the past's. C = 2 × (930 + 2 × 60) = 2,100.
    p.record.read_control_volume(&p.store, Kwh(13_000)).unwrap();
    p.record.read_neighbour(&p.store, source::CONTROL, Kwh(9_999)).unwrap();
    p.record.read_neighbour(&p.store, source::BILLING, Kwh(1_240)).unwrap();
    let month = Month { ground: 4, volume: 11_760, sum: 2_100, days: 30, capacity: 70 };
    let twice: Vec<_> = stretched(30).iter().map(|day| day.map(|hour| 2 * hour)).collect();
    p.closes_on_working_days(month, &twice, 2, 30_624);
}

/// May to August: grounds 6, 5, 8 and 1.
fn middle_months(p: &mut Point) {
    // May: R = 3. V = 6,216 is the sum of the weights, so ground 4's hours are the past's and C' = 1,110 as in March.
    // n = 62, A = 62 × 10 = 620; A × d = 620 × 31 = 19,220 is less than n × C' = 62 × 1,110 = 68,820.
    p.record.read_control_volume(&p.store, Kwh(6_216)).unwrap();
    let month = Month { ground: 6, volume: 6_216, sum: 1_110, days: 31, capacity: 36 };
    p.closes_on_working_days(month, &stretched(31), 3, 36_840);

    // June: R = 4, a peak at hour 9 and the capacity hour at 10. n = 30, A = 300, A × d = 9,000. The past has
    // 25 × 6 + 5 × 12 = 210 of 5,880 at hour 10, so C' is less than 5,820 × 210 / 5,880 + 30 < 238, and n × C' < 7,140.
    // Ground 5: 10 in the peaks, 5,820 - 300 = 5,520 over 690 others, 8 each. C = 30 × 8.
    p.record.read_control_volume(&p.store, Kwh(5_820)).unwrap();
    let month = Month { ground: 5, volume: 5_820, sum: 240, days: 30, capacity: 8 };
    let marks = p.all_days(day(mark::PEAK, mark::CAPACITY, mark::ORDINARY));
    p.closes(&marks, month, &[day(10, 8, 8); 30], 4, 42_660);

    // July: R = 5, no reading. V = 10 × 744. No day is a working day.
    let month = Month { ground: 8, volume: 7_440, sum: 0, days: 0, capacity: 0 };
    p.closes(&p.all_days([mark::ORDINARY; 24]), month, &[[10; 24]; 31], 5, 50_100);

    // August: a fault discards the reading; back in service the meter is read again. V = 744 × 7; C = 31 × 7.
    p.record.read_billing_hours(&mut p.store, &[8; 744]).unwrap();
    p.record.fail(&mut p.store, reason::FAULT).unwrap();
    assert!(!p.record.in_service());
    p.record.admit(&p.store).unwrap();
    assert!(p.record.in_service());
    p.record.read_billing_hours(&mut p.store, &[7; 744]).unwrap();
    let month = Month { ground: 1, volume: 5_208, sum: 217, days: 31, capacity: 7 };
    p.closes_on_working_days(month, &[[7; 24]; 31], 0, 55_308);
}

/// September to December: grounds 8, 7, 4 and 1.
fn last_months(p: &mut Point) {
    // September: two denials make R 3, although August was read. V = 10 × 720; C = 30 × 10.
    p.record.deny(&mut p.store).unwrap();
    p.record.deny(&mut p.store).unwrap();
    assert_eq!(p.record.denials(), 2);
    let month = Month { ground: 8, volume: 7_200, sum: 300, days: 30, capacity: 10 };
    p.closes_on_working_days(month, &[[10; 24]; 30], 1, 62_508);

    // October: the loss repeats August's fault, and the run becomes 0: R = 1. The past is August, 7 in each hour.
    p.record.permit(&p.store).unwrap();
    p.record.fail(&mut p.store, reason::LOSS).unwrap();
    assert_eq!((p.record.denials(), p.record.run()), (0, 0));
    let month = Month { ground: 7, volume: 5_208, sum: 217, days: 31, capacity: 7 };
    p.closes_on_working_days(month, &[[7; 24]; 31], 1, 67_716);

    // November: R = 2. N is source 2, and more than the reading: V = max(0, 500 - 800) = 0.
    p.record.read_control_volume(&p.store, Kwh(500)).unwrap();
    p.record.read_neighbour(&p.store, source::CONTROL, Kwh(800)).unwrap();
    let month = Month { ground: 4, volume: 0, sum: 0, days: 30, capacity: 0 };
    p.closes_on_working_days(month, &[[0; 24]; 30], 2, 67_716);

    // December: as read, 1 an hour but 17 and 18 in the two capacity hours. V = 742 + 35; 35 / 2 = 17.5, half up 18.
    p.record.admit(&p.store).unwrap();
    let mut days = [[1; 24]; 31];
    (days[0][9], days[1][9]) = (17, 18);
    p.record.read_billing_hours(&mut p.store, &days.concat()).unwrap();
    let mut marks = p.all_days([mark::ORDINARY; 24]);
    (marks[9], marks[33]) = (mark::BOTH, mark::BOTH);
    p.closes(&marks, Month { ground: 1, volume: 777, sum: 35, days: 2, capacity: 18 }, &days, 0, 68_493);
}

#[test]
fn year_of_an_interval_meter() {
    let mut p = Point::open(AGREED, 2023, 1);
    first_months(&mut p);
    middle_months(&mut p);
    last_months(&mut p);
    assert_eq!(p.record.date(), Date { year: 2024, month: 1 });

    // January 2024: R = 1, no row of January, so the past is December, whose row is what was read.
    assert_eq!(p.close(&[0; 744]).map(|closing| (closing.ground, closing.volume)), Ok((7, Kwh(777))));
    // February 2024: R = 2, the past is February 2023; day 29 is its day 22. V = 5,208 + 336.
    let month = Month { ground: 7, volume: 5_544, sum: 990, days: 29, capacity: 34 }; // 990 / 29 = 34.1
    p.closes_on_working_days(month, &stretched(29), 2, 68_493 + 777 + 5_544);
}

/// April to July 2024 on a cable of 100 A, 230 V, cos φ missing, three phases: 41.4 kW, so P = 41.
#[test]
fn months_of_an_integral_meter() {
    let mut p = Point::open(CABLE, 2024, 4);
    // April: no reading, no past. The formula at 720 gives 29,808, 41.4 an hour: 41.4, 82.8, 124.2, 165.6, 207 are
    // rounded 41, 83, 124, 166, 207, so 41, 42, 41, 42, 41 and so on.
    let hours: Vec<u32> = [41, 42, 41, 42, 41].repeat(144);
    let days: Vec<[u32; 24]> = hours.chunks_exact(24).map(|day| day.try_into().unwrap()).collect();
    let month = Month { ground: 9, volume: 29_808, sum: 0, days: 0, capacity: 0 };
    p.closes(&p.all_days([mark::ORDINARY; 24]), month, &days, 1, 29_808);

    // May: the control meter as read. V = 744 × 3; C = 31 × 3.
    p.record.read_control_hours(&mut p.store, &[3; 744]).unwrap();
    let month = Month { ground: 3, volume: 2_232, sum: 93, days: 31, capacity: 3 };
    p.closes_on_working_days(month, &[[3; 24]; 31], 2, 32_040);

    // June: V = 16,140 - 480 = 15,660. n = 60, A = 60 × 41 = 2,460; 13,200 over 660 others, 20 each. C = 30 × 41.
    p.record.read_billing_volume(&p.store, Kwh(16_140)).unwrap();
    p.record.read_neighbour(&p.store, source::BILLING, Kwh(480)).unwrap();
    let month = Month { ground: 2, volume: 15_660, sum: 1_230, days: 30, capacity: 41 };
    p.closes_on_working_days(month, &[day(41, 41, 20); 30], 0, 47_700);

    // July: R = 1, the past is June; day 31 is its day 24. V = 31 × (2 × 41 + 22 × 20) = 31 × 522; C = 31 × 41.
    let month = Month { ground: 7, volume: 16_182, sum: 1_271, days: 31, capacity: 41 };
    p.closes_on_working_days(month, &[day(41, 41, 20); 31], 1, 63_882);
}

/// 10 kW by 1, 1, 1: the running sums 3.33, 6.67 and 10 are rounded half up 3, 7 and 10, so 3, 4 and 3 kW; by 3, 1 the
/// sums 7.5 and 10 are 8 and 10, so 8 and 2.
#[test]
fn shared_power_goes_by_the_place() {
    let contract = Contract { basis: basis::SHARED, ..AGREED };
    let mut store = vec![0; STORE];
    let mut power = |currents: &[u32], place| -> Result<u64, Refusal> {
        let mut record = open(contract, Date { year: 2023, month: 1 }, currents, place, &mut store)?;
        let closing = record.close(&mut store, &[0; 744], &mut [0; ROW])?;
        Ok(closing.volume.0 / 744)
    };
    assert_eq!([0, 1, 2].map(|place| power(&[1, 1, 1], place)), [Ok(3), Ok(4), Ok(3)]);
    assert_eq!([0, 1].map(|place| power(&[3, 1], place)), [Ok(8), Ok(2)]);
    assert_eq!(power(&[1, 1, 1], 3), Err(Refusal::Currents));
}

/// Half a kWh an hour, by the peak rule without peaks: the running sums 0.5, 1, 1.5, 2 .. are rounded half up 1, 1, 2,
/// 2 .., so each half goes to the earlier hour. The capacity hour is the month's first: C = 1, d = 1.
#[test]
fn half_goes_to_the_earlier_hour() {
    let mut p = Point::open(AGREED, 2023, 1);
    p.record.read_control_volume(&p.store, Kwh(372)).unwrap();
    let mut marks = p.all_days([mark::ORDINARY; 24]);
    marks[0] = mark::CAPACITY;
    let by_turns: [u32; 24] = std::array::from_fn(|hour| (hour as u32 + 1) % 2);
    p.closes(&marks, Month { ground: 5, volume: 372, sum: 1, days: 1, capacity: 1 }, &[by_turns; 31], 1, 372);
}

/// The last month of the calendar closes, and no call after it but an opening.
#[test]
fn end_of_the_calendar() {
    let mut p = Point::open(AGREED, 2999, 12);
    assert_eq!(p.close(&[0; 744]).map(|closing| closing.volume), Ok(Kwh(7_440)));
    assert_eq!((p.record.date(), p.record.month_hours()), (Date { year: 3000, month: 1 }, 744));
    assert_eq!(p.close(&[0; 744]).map_err(Refusal::from), Err(Refusal::CalendarOver));
    assert!(open(AGREED, Date { year: 2999, month: 12 }, &[], 0, &mut p.store).is_ok());
}
