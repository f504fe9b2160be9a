//! ryu: into the slice of the caller, with a test of its room, and through its buffer, as a caller
//! without `unsafe` does.

use super::each;
use crate::values::Numbers;
use ryu::{raw, Buffer, Float};

/// The most bytes that it writes.
const ROOM: usize = 24;

#[inline(always)]
fn write(value: impl Float, out: &mut [u8]) -> usize {
    let mut buffer = Buffer::new();
    let text = buffer.format(value).as_bytes();
    out[..text.len()].copy_from_slice(text);
    text.len()
}

pub fn f64(numbers: &Numbers) -> u64 {
    each(numbers, &numbers.f64s, |value, out| {
        if !value.is_finite() || out.len() < ROOM {
            return 0;
        }
        // SAFETY: there is the room that it needs
        unsafe { raw::format64(value, out.as_mut_ptr()) }
    })
}

pub fn f32(numbers: &Numbers) -> u64 {
    each(numbers, &numbers.f32s, |value, out| {
        if !value.is_finite() || out.len() < ROOM {
            return 0;
        }
        // SAFETY: there is the room that it needs
        unsafe { raw::format32(value, out.as_mut_ptr()) }
    })
}

pub fn f64_copied(numbers: &Numbers) -> u64 {
    each(numbers, &numbers.f64s, write)
}

pub fn f32_copied(numbers: &Numbers) -> u64 {
    each(numbers, &numbers.f32s, write)
}
