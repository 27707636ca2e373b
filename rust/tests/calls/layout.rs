//! The structs of the C interface as the header lays them out.

use crate::fields::table;
use crate::raw::*;
use std::mem::{offset_of, size_of};

const HEADER: &str = include_str!("../../../include/sallowbingo.h");

/// What the header asserts of a struct's size and of the offset of each field.
macro_rules! assertions {
    ($($part:ident { $($field:ident: $width:ty $([$($limits:expr),*])?,)* })*) => {
        [$(
            size(stringify!($part), size_of::<$part>()),
            $(offset(stringify!($part), stringify!($field), offset_of!($part, $field)),)*
        )*]
    };
}

fn size(part: &str, bytes: usize) -> String {
    format!("SALLOWBINGO_SIZE(sallowbingo_{}, {bytes});", part.to_lowercase())
}

fn offset(part: &str, field: &str, bytes: usize) -> String {
    format!("SALLOWBINGO_OFFSET(sallowbingo_{}, {field}, {bytes});", part.to_lowercase())
}

#[test]
fn sizes_and_offsets_are_those_of_the_header() {
    let units = [size("Kw", 4), offset("Kw", "kw", 0), size("Kwh", 8), offset("Kwh", "kwh", 0)];
    let ours: Vec<String> = units.into_iter().chain(table! { assertions }).collect();
    let is_assertion = |line: &&str| line.starts_with("SALLOWBINGO_SIZE(") || line.starts_with("SALLOWBINGO_OFFSET(");
    let asserted: Vec<&str> = HEADER.lines().filter(is_assertion).collect();
    for (ours, asserted) in ours.iter().zip(&asserted) {
        assert_eq!(ours, asserted);
    }
    assert_eq!(ours.len(), asserted.len());
}
