//! A record as plain numbers, in the order of `sallowbingo_record` in the C header.

use crate::fields::table;
use crate::raw::*;
use core::slice::{Iter, IterMut};

/// The numbers that a record is made of.
pub const FIELDS: usize = Record::COUNT;

pub fn numbers(record: &Record) -> [u64; FIELDS] {
    let mut numbers = [0; FIELDS];
    record.give(&mut numbers.iter_mut());
    numbers
}

/// The record of such numbers, or none if one of them does not fit its field of 32 bits.
pub fn from_numbers(numbers: [u64; FIELDS]) -> Option<Record> {
    Record::take(&mut numbers.iter())
}

/// What stands as so many numbers, one after another.
trait Numbers: Sized {
    const COUNT: usize;

    /// Puts them into the next places.
    fn give(&self, to: &mut IterMut<u64>);

    /// Takes the next ones, and is none if one of them does not fit.
    fn take(from: &mut Iter<u64>) -> Option<Self>;
}

impl Numbers for u64 {
    const COUNT: usize = 1;

    fn give(&self, to: &mut IterMut<u64>) {
        if let Some(place) = to.next() {
            *place = *self;
        }
    }

    fn take(from: &mut Iter<u64>) -> Option<u64> {
        from.next().copied()
    }
}

impl Numbers for u32 {
    const COUNT: usize = 1;

    fn give(&self, to: &mut IterMut<u64>) {
        u64::from(*self).give(to);
    }

    fn take(from: &mut Iter<u64>) -> Option<u32> {
        u64::take(from)?.try_into().ok()
    }
}

impl<const N: usize> Numbers for [u32; N] {
    const COUNT: usize = N;

    fn give(&self, to: &mut IterMut<u64>) {
        self.iter().for_each(|word| word.give(to));
    }

    fn take(from: &mut Iter<u64>) -> Option<[u32; N]> {
        let mut words = [0; N];
        for word in &mut words {
            *word = u32::take(from)?;
        }
        Some(words)
    }
}

/// A power or a volume stands as its number.
macro_rules! units {
    ($($unit:ident $number:ident;)*) => {$(
        impl Numbers for $unit {
            const COUNT: usize = 1;

            fn give(&self, to: &mut IterMut<u64>) {
                self.0.give(to);
            }

            fn take(from: &mut Iter<u64>) -> Option<$unit> {
                $number::take(from).map($unit)
            }
        }
    )*};
}

units! {
    Kw u32;
    Kwh u64;
}

/// A struct stands as its fields, in the order of the table.
macro_rules! structs {
    ($($part:ident { $($field:ident: $width:ty $([$($limits:expr),*])?,)* })*) => {$(
        impl Numbers for $part {
            const COUNT: usize = 0 $(+ <$width>::COUNT)*;

            fn give(&self, to: &mut IterMut<u64>) {
                $(self.$field.give(to);)*
            }

            fn take(from: &mut Iter<u64>) -> Option<$part> {
                Some($part { $($field: <$width>::take(from)?),* })
            }
        }
    )*};
}

table! { structs }
