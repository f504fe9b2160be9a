//! The sides. Each goes over all numbers of a text, and adds up their values or bits.

#[cfg(feature = "has-atoi")]
pub mod atoi;
pub mod cxx;
#[cfg(feature = "has-lexical-core")]
pub mod lexical;
pub mod library;
#[cfg(feature = "has-minimal-lexical")]
pub mod minimal;
pub mod rust;
#[cfg(feature = "has-serde_json")]
pub mod serde;

use crate::texts::Text;

/// The sum of what a closure makes of each number.
#[inline(always)]
fn sum(bytes: &[u8], lengths: &[u8], value: impl Fn(&[u8]) -> u64) -> u64 {
    let mut total = 0u64;
    let mut rest = bytes;
    for &length in lengths {
        let (first, others) = rest.split_at(length.into());
        total = total.wrapping_add(value(first));
        rest = others;
    }
    total
}

/// The sum over the numbers without their separators.
#[inline(always)]
pub fn each(text: &Text, value: impl Fn(&[u8]) -> u64) -> u64 {
    sum(text.digits.as_bytes(), &text.digit_lengths, value)
}

/// The same for a side that reads a `str`. The texts are ASCII, so no cut is tested.
#[inline(always)]
pub fn each_str(text: &Text, value: impl Fn(&str) -> u64) -> u64 {
    // SAFETY: a part of an ASCII text is ASCII
    each(text, |it| value(unsafe { std::str::from_utf8_unchecked(it) }))
}

/// The sum over the numbers with their separators.
#[cfg(feature = "has-lexical-core")]
#[inline(always)]
pub fn each_grouped(text: &Text, value: impl Fn(&[u8]) -> u64) -> u64 {
    sum(&text.bytes, &text.lengths, value)
}
