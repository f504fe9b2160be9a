//! itoa, which writes at the end of a buffer of its own.

use super::each;
use crate::values::Numbers;
use itoa::{Buffer, Integer};
use std::hint::black_box;

#[inline(always)]
fn write(value: impl Integer, out: &mut [u8]) -> usize {
    let mut buffer = Buffer::new();
    let text = buffer.format(value).as_bytes();
    out[..text.len()].copy_from_slice(text);
    text.len()
}

/// Without the copy into the slice of the caller.
#[inline(always)]
fn leave(value: impl Integer) -> usize {
    let mut buffer = Buffer::new();
    black_box(buffer.format(value)).len()
}

pub fn u64(numbers: &Numbers) -> u64 {
    each(numbers, &numbers.u64s, write)
}

pub fn i32(numbers: &Numbers) -> u64 {
    each(numbers, &numbers.i32s, write)
}

pub fn u64_left(numbers: &Numbers) -> u64 {
    each(numbers, &numbers.u64s, |value, _| leave(value))
}

pub fn i32_left(numbers: &Numbers) -> u64 {
    each(numbers, &numbers.i32s, |value, _| leave(value))
}
