//! The two functions on plain numbers, with the examples of document 01.

use sallowbingo::{cable_formula, ground_sentence, month_days, Kwh};

#[test]
fn month_lengths() {
    // a)
    assert_eq!([2023, 2024, 2100, 2400].map(|year| month_days(year, 2)), [28, 29, 28, 29].map(Some));
    assert_eq!(month_days(2014, 1), Some(31));
    assert_eq!(month_days(2999, 12), Some(31));
    for (year, month) in [(2013, 12), (3000, 1), (2023, 0), (2023, 13), (1 << 32 | 2023, 1), (2023, 1 << 32 | 1)] {
        assert_eq!(month_days(year, month), None);
    }
}

#[test]
fn cable_volumes() {
    // e) and f)
    assert_eq!(cable_formula(100, 230, 0, 3, 720), Some(Kwh(29_808)));
    assert_eq!(cable_formula(100, 230, 0, 1, 720), Some(Kwh(9_936)));
    assert_eq!(cable_formula(1, 25, 125, 1, 720), Some(Kwh(2)));
    // 2,000 × 250,000 × 1,000 × 8,760 / 500,000
    assert_eq!(cable_formula(2_000, 250_000, 1_000, 3, 8_760), Some(Kwh(8_760_000_000)));
    assert_eq!(cable_formula(1, 1, 1, 1, 0), Some(Kwh(0)));
    assert_eq!(cable_formula(0, 230, 900, 3, 720), None);
    assert_eq!(cable_formula(100, 250_001, 900, 3, 720), None);
    assert_eq!(cable_formula(100, 230, 1_001, 3, 720), None);
    assert_eq!(cable_formula(100, 230, 900, 2, 720), None);
    assert_eq!(cable_formula(100, 230, 900, 3, 8_761), None);
}

#[test]
fn grounds_have_sentences_of_their_own() {
    let sentences: std::collections::BTreeSet<_> = (1..=9).map(|ground| ground_sentence(ground).unwrap()).collect();
    assert_eq!(sentences.len(), 9);
    assert_eq!([0, 10, u32::MAX].map(ground_sentence), [None; 3]);
}
