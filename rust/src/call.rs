//! The calls of `raw` on slices: all that is unsafe stands here.
//!
//! Each function lends slices as a pointer and their length. That is what the header asks for: a slice's pointer is
//! valid for its length, a slice that is lent to be written overlaps no other, and a struct may hold any numbers.

#![allow(unsafe_code)]

use crate::raw::{self, Answer, Contract, Date, Kwh, Record};

pub fn open_point(asked: Contract, date: Date, currents: &[u32], place: usize, store: &mut [u32]) -> Answer {
    let (points, words) = (currents.len(), store.len());
    unsafe { raw::sallowbingo_open_point(asked, date, currents.as_ptr(), points, place, store.as_mut_ptr(), words) }
}

pub fn read_billing_hours(record: Record, store: &mut [u32], hours: &[u32]) -> Answer {
    unsafe { raw::sallowbingo_read_billing_hours(record, store.as_mut_ptr(), store.len(), hours.as_ptr(), hours.len()) }
}

pub fn read_control_hours(record: Record, store: &mut [u32], hours: &[u32]) -> Answer {
    unsafe { raw::sallowbingo_read_control_hours(record, store.as_mut_ptr(), store.len(), hours.as_ptr(), hours.len()) }
}

pub fn read_billing_volume(record: Record, store: &[u32], volume: Kwh) -> Answer {
    unsafe { raw::sallowbingo_read_billing_volume(record, store.as_ptr(), store.len(), volume) }
}

pub fn read_control_volume(record: Record, store: &[u32], volume: Kwh) -> Answer {
    unsafe { raw::sallowbingo_read_control_volume(record, store.as_ptr(), store.len(), volume) }
}

pub fn read_neighbour(record: Record, store: &[u32], source: u32, volume: Kwh) -> Answer {
    unsafe { raw::sallowbingo_read_neighbour(record, store.as_ptr(), store.len(), source, volume) }
}

pub fn fail(record: Record, store: &mut [u32], reason: u32) -> Answer {
    unsafe { raw::sallowbingo_fail(record, store.as_mut_ptr(), store.len(), reason) }
}

pub fn admit(record: Record, store: &[u32]) -> Answer {
    unsafe { raw::sallowbingo_admit(record, store.as_ptr(), store.len()) }
}

pub fn deny(record: Record, store: &mut [u32]) -> Answer {
    unsafe { raw::sallowbingo_deny(record, store.as_mut_ptr(), store.len()) }
}

pub fn permit(record: Record, store: &[u32]) -> Answer {
    unsafe { raw::sallowbingo_permit(record, store.as_ptr(), store.len()) }
}

pub fn close(record: Record, store: &mut [u32], marks: &[u8], hours: &mut [u32]) -> Answer {
    let (words, count, room) = (store.len(), marks.len(), hours.len());
    unsafe {
        raw::sallowbingo_close(record, store.as_mut_ptr(), words, marks.as_ptr(), count, hours.as_mut_ptr(), room)
    }
}

pub fn cable_formula(amperes: u64, volts: u64, cosine: u64, phases: u64, hours: u64) -> u64 {
    unsafe { raw::sallowbingo_cable_formula(amperes, volts, cosine, phases, hours) }
}

pub fn month_days(year: u64, month: u64) -> u32 {
    unsafe { raw::sallowbingo_month_days(year, month) }
}
