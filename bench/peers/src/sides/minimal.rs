//! minimal-lexical, which gets the digits, and so needs a reader of the parts.

use super::each;
use crate::texts::Text;
use minimal_lexical::{parse_float, Float};

/// A sign, digits, a fraction without its last zeros, and a power of ten.
struct Parts<'a> {
    is_negative: bool,
    integer: &'a [u8],
    fraction: &'a [u8],
    exponent: i32,
}

#[inline(always)]
fn digits_end(text: &[u8], start: usize) -> usize {
    start + text[start..].iter().take_while(|byte| byte.is_ascii_digit()).count()
}

#[inline(always)]
fn parts(text: &[u8]) -> Parts<'_> {
    let is_negative = text.first() == Some(&b'-');
    let sign_end = usize::from(matches!(text.first(), Some(b'-' | b'+')));
    let start = sign_end + text[sign_end..].iter().take_while(|byte| **byte == b'0').count();
    let mut at = digits_end(text, start);
    let integer = &text[start..at];
    let mut fraction: &[u8] = &[];
    if text.get(at) == Some(&b'.') {
        let end = digits_end(text, at + 1);
        let zeros = text[at + 1..end].iter().rev().take_while(|byte| **byte == b'0').count();
        fraction = &text[at + 1..end - zeros];
        at = end;
    }
    Parts { is_negative, integer, fraction, exponent: exponent(&text[at..]) }
}

#[inline(always)]
fn exponent(text: &[u8]) -> i32 {
    if !matches!(text.first(), Some(b'e' | b'E')) {
        return 0;
    }
    let is_negative = text.get(1) == Some(&b'-');
    let start = 1 + usize::from(matches!(text.get(1), Some(b'-' | b'+')));
    let power = text[start..]
        .iter()
        .take_while(|byte| byte.is_ascii_digit())
        .fold(0i32, |x, byte| x.saturating_mul(10).saturating_add(i32::from(byte - b'0')));
    if is_negative {
        -power
    } else {
        power
    }
}

#[inline(always)]
fn nearest<F: Float>(text: &[u8]) -> (bool, F) {
    let it = parts(text);
    (it.is_negative, parse_float(it.integer.iter(), it.fraction.iter(), it.exponent))
}

pub fn f64(text: &Text) -> u64 {
    each(text, |it| {
        let (is_negative, x) = nearest::<f64>(it);
        if is_negative {
            (-x).to_bits()
        } else {
            x.to_bits()
        }
    })
}

pub fn f32(text: &Text) -> u64 {
    each(text, |it| {
        let (is_negative, x) = nearest::<f32>(it);
        u64::from(if is_negative { (-x).to_bits() } else { x.to_bits() })
    })
}
