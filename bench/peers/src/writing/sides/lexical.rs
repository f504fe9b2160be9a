//! lexical-core.

use super::each;
use crate::values::Numbers;
use lexical_core::write;

pub fn u64(numbers: &Numbers) -> u64 {
    each(numbers, &numbers.u64s, |value, out| write(value, out).len())
}

pub fn i32(numbers: &Numbers) -> u64 {
    each(numbers, &numbers.i32s, |value, out| write(value, out).len())
}

pub fn f64(numbers: &Numbers) -> u64 {
    each(numbers, &numbers.f64s, |value, out| write(value, out).len())
}

pub fn f32(numbers: &Numbers) -> u64 {
    each(numbers, &numbers.f32s, |value, out| write(value, out).len())
}
