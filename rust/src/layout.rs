//! Holds the structs of `raw` to the table of `fields`: each has these fields and no others, of these widths and in this
//! order, and is laid out as C lays it out where a number is aligned to its own size. What differs does not compile. The
//! sizes and offsets that come of it are those of the header, as `tests/calls/layout.rs` has it.

use crate::fields::table;
use crate::raw::*;
use core::mem::{align_of, offset_of, size_of};

// Lengths are lent as size_t, which has 64 bits.
const _: () = assert!(size_of::<usize>() == 8);

const _: () = assert!(align_of::<u32>() == 4 && size_of::<Kw>() == 4 && align_of::<Kw>() == 4);
const _: () = assert!(align_of::<u64>() == 8 && size_of::<Kwh>() == 8 && align_of::<Kwh>() == 8);

macro_rules! layout {
    ($($part:ident { $($field:ident: $width:ty $([$($limits:expr),*])?,)* })*) => {$(
        const _: fn($part) = |$part { $($field),* }| { $(let _: $width = $field;)* };
        const _: () = {
            let end = 0_usize;
            $(
                let start = end.next_multiple_of(align_of::<$width>());
                assert!(offset_of!($part, $field) == start);
                let end = start + size_of::<$width>();
            )*
            assert!(size_of::<$part>() == end.next_multiple_of(align_of::<$part>()));
        };
    )*};
}

table! { layout }
