//! The numbers of a record by name, as the binding's table of fields has them, and records as text that names them. The
//! binding's tests and the benchmark of a closing use them too.

use crate::fields::table;
use crate::raw::*;
use std::collections::BTreeSet;
use std::ops::RangeInclusive;
use std::sync::LazyLock;

/// A number of the record.
pub struct Row {
    /// The fields that lead to it, `contract.power`, and of a row's year the calendar month, `past.years.12`.
    pub name: String,
    /// The greatest number that has room in it.
    pub widest: u64,
    /// What number 2 lets stand in it.
    pub limits: Vec<RangeInclusive<u64>>,
}

/// The rows of all numbers, in the order of the header.
pub static ROWS: LazyLock<Vec<Row>> = LazyLock::new(|| {
    let mut rows = Vec::new();
    Record::list(String::new(), &[], &mut rows);
    rows
});

impl Row {
    /// The greatest number within the limits.
    pub fn greatest(&self) -> u64 {
        self.limits.iter().map(|range| *range.end()).max().unwrap_or(0)
    }

    /// 0, the first two numbers of each range and its last, one outside on either side, and the widest, in order.
    pub fn edges(&self) -> Vec<u64> {
        let mut edges = BTreeSet::from([0, self.widest]);
        for (first, last) in self.limits.iter().map(|range| (*range.start(), *range.end())) {
            edges.extend([first.saturating_sub(1), first, first + 1, last, last.saturating_add(1)]);
        }
        edges.retain(|number| *number <= self.widest);
        edges.into_iter().collect()
    }
}

/// What has rows: a number one, several numbers and structs those of their parts.
trait Rows {
    fn list(name: String, limits: &[RangeInclusive<u64>], rows: &mut Vec<Row>);
}

macro_rules! numbers {
    ($($number:ident $widest:expr;)*) => {$(
        impl Rows for $number {
            fn list(name: String, limits: &[RangeInclusive<u64>], rows: &mut Vec<Row>) {
                rows.push(Row { name, widest: $widest, limits: limits.to_vec() });
            }
        }
    )*};
}

numbers! {
    u32 u32::MAX.into();
    u64 u64::MAX;
    Kw u32::MAX.into();
    Kwh u64::MAX;
}

impl<const N: usize> Rows for [u32; N] {
    fn list(name: String, limits: &[RangeInclusive<u64>], rows: &mut Vec<Row>) {
        for place in 1..=N {
            u32::list(format!("{name}.{place}"), limits, rows);
        }
    }
}

macro_rules! structs {
    ($($part:ident { $($field:ident: $width:ty $([$($limits:expr),*])?,)* })*) => {$(
        impl Rows for $part {
            fn list(name: String, _: &[RangeInclusive<u64>], rows: &mut Vec<Row>) {
                let before = if name.is_empty() { name } else { name + "." };
                $(<$width>::list(before.clone() + stringify!($field), &[$($($limits),*)?], rows);)*
            }
        }
    )*};
}

table! { structs }

// The text.

/// The numbers that are not 0, as `date.year=2023 date.month=1`.
pub fn write(numbers: &[u64]) -> String {
    let named = ROWS.iter().zip(numbers).filter(|(_, number)| **number != 0);
    named.map(|(row, number)| format!("{}={number}", row.name)).collect::<Vec<_>>().join(" ")
}

/// All numbers of a record from such a text, in any order; those that it does not name are 0.
pub fn read<const N: usize>(text: &str) -> Result<[u64; N], String> {
    let mut numbers = [None; N];
    for word in text.split_whitespace() {
        let (name, number) = word.split_once('=').ok_or(format!("{word}: NAME=NUMBER is due"))?;
        let place = ROWS.iter().position(|row| row.name == name).ok_or(format!("{name}: no field of the record"))?;
        let number = number.parse().map_err(|_| format!("{word}: no number of 64 bits"))?;
        if number > ROWS[place].widest {
            return Err(format!("{word}: the field has 32 bits"));
        }
        if numbers[place].replace(number).is_some() {
            return Err(format!("{name}: named twice"));
        }
    }
    Ok(numbers.map(|number| number.unwrap_or(0)))
}
