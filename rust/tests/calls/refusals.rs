//! The refusals as numbers and as text.

use sallowbingo::Refusal::{self, *};
use sallowbingo::RefusedClosing;
use std::collections::BTreeSet;
use std::error::Error;

/// The numbers of document 01, 15 of request E3 and 46 of request E8.
const NUMBERS: [(Refusal, u32); 26] = [
    (StoreLength, 1),
    (Record, 2),
    (CalendarOver, 3),
    (OpeningMonth, 10),
    (MeterKind, 11),
    (Basis, 12),
    (CableValue, 13),
    (Currents, 14),
    (IntegralMeter, 15),
    (NoSuchMeter, 20),
    (BillingBarred, 21),
    (AlreadyGiven, 22),
    (HourCount, 23),
    (TooLarge, 24),
    (OutOfService, 30),
    (Reason, 31),
    (InService, 32),
    (TwoDenials, 33),
    (NoDenial, 34),
    (MarkCount, 40),
    (Mark, 41),
    (PeakHours, 42),
    (CapacityHours, 43),
    (BufferLength, 44),
    (StoreWord, 45),
    (NoCapacityHour, 46),
];

#[test]
fn numbers_are_those_of_document_01() {
    assert_eq!(Refusal::ALL, NUMBERS.map(|(refusal, _)| refusal));
    for (refusal, number) in NUMBERS {
        assert_eq!(refusal.number(), number);
        assert_eq!(Refusal::from_number(number), Some(refusal));
    }
}

#[test]
fn other_numbers_are_no_refusals() {
    let others = (0..100).chain([u32::MAX]).filter(|number| NUMBERS.iter().all(|(_, known)| known != number));
    assert!(others.map(Refusal::from_number).all(|refusal| refusal.is_none()));
}

#[test]
fn each_has_a_sentence_of_its_own() {
    let sentences: BTreeSet<_> = Refusal::ALL.into_iter().map(Refusal::sentence).collect();
    assert_eq!(sentences.len(), Refusal::ALL.len());
    assert!(!sentences.contains(""));
}

#[test]
fn shown_with_number_and_sentence() {
    let error: Box<dyn Error> = Box::new(CalendarOver);
    assert_eq!(error.to_string(), "refusal 3: the calendar is over");
    let sentence = "an integral billing meter is not accepted where P is 670 kW or more";
    assert_eq!(IntegralMeter.to_string(), format!("refusal 15: {sentence}"));
}

#[test]
fn shown_with_the_wrong_day() {
    let shown = |refusal, wrong_day| {
        let error: Box<dyn Error> = Box::new(RefusedClosing { refusal, wrong_day });
        assert!(error.source().is_none());
        error.to_string()
    };
    assert_eq!(shown(PeakHours, Some(31)), "refusal 42: a day has over 16 peak hours: day 31");
    assert_eq!(shown(CapacityHours, Some(14)), "refusal 43: a day has two or more capacity hours: day 14");
    assert_eq!(shown(NoCapacityHour, Some(1)), "refusal 46: a day has peak hours without a capacity hour: day 1");
    assert_eq!(shown(Mark, None), Mark.to_string());
}

#[test]
fn compared_by_number() {
    assert!(CapacityHours < BufferLength && StoreWord < NoCapacityHour);
    assert!(Refusal::ALL.windows(2).all(|pair| pair[0] < pair[1] && pair[0].number() < pair[1].number()));
}
