//! dtoa.

use super::each;
use crate::values::Numbers;

#[inline(always)]
fn write(value: impl dtoa::Floating, mut out: &mut [u8]) -> usize {
    dtoa::write(&mut out, value).unwrap_or(0)
}

pub fn f64(numbers: &Numbers) -> u64 {
    each(numbers, &numbers.f64s, write)
}

pub fn f32(numbers: &Numbers) -> u64 {
    each(numbers, &numbers.f32s, write)
}
