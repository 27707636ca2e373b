//! An integral billing meter: openings up to a P of 669 kW, number 15 from 670 on, and points that were opened earlier.

use super::{working_day, Point, AGREED};
use crate::rows::read;
use sallowbingo::{basis, meter, open, reason, source, Cable, Contract, Date, Kw, Kwh, Record, Refusal, ROW, STORE};

/// No opening looks at more of the control meter than its kind.
const CONTROLS: [u32; 3] = [meter::NONE, meter::INTERVAL, meter::INTEGRAL];

/// What an opening gives with an integral billing meter, the same with each control meter. An interval one is accepted
/// on the same contract.
fn integral(contract: Contract, currents: &[u32], place: usize) -> Result<(), Refusal> {
    let ask = |billing, control| {
        let mut store = vec![9; STORE];
        let contract = Contract { billing, control, ..contract };
        let opened = open(contract, Date { year: 2024, month: 2 }, currents, place, &mut store).map(drop);
        let left = if opened.is_ok() { 0 } else { 9 };
        assert_eq!(store, vec![left; STORE]);
        opened
    };
    assert_eq!(CONTROLS.map(|control| ask(meter::INTERVAL, control)), [Ok(()); 3]);
    let [first, second, third] = CONTROLS.map(|control| ask(meter::INTEGRAL, control));
    assert_eq!((second, third), (first, first));
    first
}

const REFUSED: Result<(), Refusal> = Err(Refusal::IntegralMeter);

#[test]
fn agreed_power() {
    let opened = |power| integral(Contract { power: Kw(power), ..AGREED }, &[], 0);
    assert_eq!([1, 668, 669].map(opened), [Ok(()); 3]);
    assert_eq!([670, 671, 1_000_000].map(opened), [REFUSED; 3]);
}

/// The running sums are rounded half up: of 1,339 by 1, 1 they are 670 (669.5) and 1,339, so 670 and 669; of 2,008 by
/// 1, 1, 1 they are 669 (669.33), 1,339 (1,338.67) and 2,008, so 669, 670 and 669. 1,000,000 / 2,001 is 499.75.
#[test]
fn share_of_a_power() {
    let opened = |power, currents: &[u32], place| {
        integral(Contract { basis: basis::SHARED, power: Kw(power), ..AGREED }, currents, place)
    };
    assert_eq!([669, 670].map(|power| opened(power, &[5], 0)), [Ok(()), REFUSED]);
    assert_eq!([0, 1].map(|place| opened(1_339, &[1, 1], place)), [REFUSED, Ok(())]);
    assert_eq!([0, 1, 2].map(|place| opened(2_008, &[1, 1, 1], place)), [Ok(()), REFUSED, Ok(())]);
    assert_eq!([0, 1].map(|place| opened(1_000_000, &[1, 2_000], place)), [Ok(()), REFUSED]);
}

/// The formula at 1 hour, rounded half up. Three phases divide by 500,000: 31 × 64,661 × 167 = 334,749,997 gives
/// 669.499994 and 1,339 × 250 × 1,000 gives 669.5; a missing cosine is 900, and 8 × 46,493 × 900 gives 669.4992,
/// 5 × 74,389 × 900 gives 669.501. One phase divides by 1,500,000: 669 and 669.5.
#[test]
fn cable() {
    let opened = |amperes, volts, cosine, phases| {
        let cable = Cable { amperes, volts, cosine, phases };
        integral(Contract { basis: basis::CABLE, cable, power: Kw(1_000_000), ..AGREED }, &[], 0)
    };
    assert_eq!([opened(31, 64_661, 167, 3), opened(1_339, 250, 1_000, 3)], [Ok(()), REFUSED]);
    assert_eq!([opened(8, 46_493, 0, 3), opened(5, 74_389, 0, 3)], [Ok(()), REFUSED]);
    assert_eq!([opened(1_338, 750, 1_000, 1), opened(1_339, 750, 1_000, 1)], [Ok(()), REFUSED]);
    assert_eq!(opened(2_000, 250_000, 1_000, 3), REFUSED);
}

/// A point in January 2023 as an earlier opening left it, with an interval control meter and P = 1,000,000.
fn earlier(fields: &str) -> Point {
    let text = "opened=1 contract.billing=2 contract.control=1 date.year=2023 date.month=1 service.serving=1";
    let record = Record::from_numbers(read(&format!("{text} {fields}")).unwrap()).unwrap();
    Point { record, store: vec![0; STORE], hours: vec![7; ROW] }
}

/// The months of such a point; `power` is the ground by which it is estimated.
fn goes_on(mut p: Point, power: u32) {
    let figures = |p: &mut Point, marks: &[u8]| p.close(marks).map(|f| (f.ground, f.volume.0, f.sum.0, f.capacity.0));

    // January: N is source 1, V = 62,000,712 - 30 = 62,000,682. n = 62, A = 62 × 1,000,000 on the peaks, and 682 over
    // 682 others. C = 31 × 1,000,000.
    p.record.read_neighbour(&p.store, source::CONTROL, Kwh(99)).unwrap();
    p.record.read_neighbour(&p.store, source::BILLING, Kwh(30)).unwrap();
    p.record.read_billing_volume(&p.store, Kwh(62_000_712)).unwrap();
    let marks = p.all_days(working_day());
    assert_eq!(figures(&mut p, &marks), Ok((2, 62_000_682, 31_000_000, 1_000_000)));
    assert_eq!(p.hours[8..12], [1, 1_000_000, 1_000_000, 1]);

    // February: the fault discards the reading. R = 1, January's hours: V = 28 × 2,000,022.
    p.record.read_billing_volume(&p.store, Kwh(5)).unwrap();
    p.record.fail(&mut p.store, reason::FAULT).unwrap();
    assert_eq!(p.record.read_billing_volume(&p.store, Kwh(5)), Err(Refusal::BillingBarred));
    assert_eq!(figures(&mut p, &[0; 672]), Ok((7, 56_000_616, 0, 0)));

    // March: the control meter as read. V = 744 × 3.
    p.record.admit(&p.store).unwrap();
    p.record.read_control_hours(&mut p.store, &[3; 744]).unwrap();
    assert_eq!(figures(&mut p, &[0; 744]), Ok((3, 2_232, 0, 0)));

    // April: R = 3. V = 1,000,000 × 720; C = 30 × 1,000,000.
    let marks = p.all_days(working_day());
    assert_eq!(figures(&mut p, &marks), Ok((power, 720_000_000, 30_000_000, 1_000_000)));

    // May: a permission after two denials, and the meter is read. V = 744, without peaks 1 an hour.
    p.record.deny(&mut p.store).unwrap();
    p.record.deny(&mut p.store).unwrap();
    p.record.permit(&p.store).unwrap();
    p.record.read_billing_volume(&p.store, Kwh(744)).unwrap();
    assert_eq!(figures(&mut p, &[0; 744]), Ok((2, 744, 0, 0)));
    assert_eq!(p.hours, [1; ROW]);
    assert_eq!(p.record.total(), Kwh(62_000_682 + 56_000_616 + 2_232 + 720_000_000 + 744));
}

#[test]
fn points_opened_earlier_go_on() {
    goes_on(earlier("contract.basis=1 contract.power=1000000"), 8);
    goes_on(earlier("contract.basis=2 contract.power=1000000"), 8);
    let cable = "contract.cable.amperes=2000 contract.cable.volts=250000 contract.cable.cosine=1000";
    goes_on(earlier(&format!("contract.basis=3 {cable} contract.cable.phases=3")), 9);
}
