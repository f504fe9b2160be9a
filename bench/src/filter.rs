//! The physical side: one pass over the slice that hands on what the rule keeps. There is no
//! cursor, no call for each byte, and no count.

use crate::library::Outcome;
use crate::numbers::{self, for_type, in_radix, of_value, Type};
use crate::texts::Text;
use crate::word::{Class, Rule};
use crate::work::{each, float_of, with_digit, with_eight, Kind, Way, Work};

/// The work by a filter, where there is one.
pub fn filtered<const WORD: u128>(work: Work) -> Option<Way> {
    match work {
        Work::Sum => Some(Box::new(|text| {
            let mut sum = 0u64;
            filter::<WORD>(&text.bytes, |byte| sum = sum.wrapping_add(u64::from(byte)));
            of_value(sum)
        })),
        Work::Number | Work::Peeked | Work::Handed => {
            Some(Box::new(|text| of_value(number::<WORD>(&text.bytes))))
        }
        Work::Eights => Some(Box::new(|text| of_value(number_of_eights(&text.bytes)))),
        Work::Numbers | Work::Asked => {
            Some(Box::new(|text| each(text, |text| of_value(number::<WORD>(text)))))
        }
        Work::Floats | Work::FloatsOf => Some(Box::new(|text| each(text, float::<WORD>))),
        Work::Literals | Work::Mostly | Work::Values | Work::Lines => {
            filtered::<WORD>(Work::NumberOf(Type::U64))
        }
        Work::Counted => Some(Box::new(|text| each(text, counted::<WORD>))),
        Work::Cleared => Some(Box::new(|text| of_value(sum_of_numbers::<WORD>(&text.bytes)))),
        Work::Parts => Some(Box::new(each_float)),
        Work::NumberOf(of) | Work::NumberFrom(of) if Rule::<WORD>::RADIX == 10 => {
            Some(for_type!(of, T, Box::new(numbers::each_parsed::<T>)))
        }
        Work::NumberOf(of) | Work::NumberFrom(of) => Some(Box::new(in_radix::<WORD>(of)?)),
        Work::RustLiterals => Some(Box::new(numbers::each_rust_literal)),
        Work::Nearest => Some(Box::new(numbers::each_nearest::<f64>)),
        Work::NearestF32 => Some(Box::new(numbers::each_nearest::<f32>)),
        Work::Json(Kind::Integer) | Work::JsonKind(Kind::Integer) => {
            Some(Box::new(numbers::each_parsed::<i64>))
        }
        Work::Json(Kind::Float) | Work::JsonKind(Kind::Float) => {
            Some(Box::new(numbers::each_nearest::<f64>))
        }
        Work::Stopped | Work::Digits | Work::Zeros | Work::Mantissas => None,
    }
}

/// Each number as an `f64`, added up. The sum is no value that the other sides have.
fn each_float(text: &Text) -> Outcome {
    let mut total = 0.0;
    let mut rest = &text.digits[..];
    for &length in &text.digit_lengths {
        let (first, others) = rest.split_at(length.into());
        total += first.parse::<f64>().unwrap_or(0.0);
        rest = others;
    }
    of_value(total.to_bits())
}

/// How many digits a text has.
#[inline(always)]
fn counted<const WORD: u128>(text: &[u8]) -> Outcome {
    of_value(text.iter().filter(|&&byte| Rule::<WORD>::is_digit(byte)).count() as u64)
}

/// The numbers between commas, added up.
#[inline(always)]
fn sum_of_numbers<const WORD: u128>(text: &[u8]) -> u64 {
    text.split(|&byte| byte == b',').map(number::<WORD>).fold(0, u64::wrapping_add)
}

#[inline(always)]
fn number<const WORD: u128>(text: &[u8]) -> u64 {
    let mut number = 0;
    filter::<WORD>(text, |byte| number = with_digit(number, byte));
    number
}

#[inline(always)]
fn number_of_eights(text: &[u8]) -> u64 {
    let (mut number, mut rest) = (0, text);
    while let Some((eight, others)) = rest.split_first_chunk() {
        number = with_eight(number, u64::from_le_bytes(*eight));
        rest = others;
    }
    number
}

/// The components of a number, which lie between the bytes that are neither digits nor separators.
/// All use the integer's flags.
#[inline(always)]
fn float<const WORD: u128>(text: &[u8]) -> Outcome {
    let ends = |&byte: &u8| !Rule::<WORD>::is_digit(byte) && !Rule::<WORD>::is_separator(byte);
    let mut numbers = [0; 3];
    for (value, component) in numbers.iter_mut().zip(text.split(ends)) {
        *value = number::<WORD>(component);
    }
    of_value(float_of(numbers))
}

/// Hands each kept byte to `keep`.
#[inline(always)]
fn filter<const WORD: u128>(text: &[u8], mut keep: impl FnMut(u8)) {
    if Rule::<WORD>::CONTIGUOUS {
        text.iter().for_each(|&byte| keep(byte));
        return;
    }
    let mut seen = false;
    let mut at = 0;
    while let Some(&byte) = text.get(at) {
        if !Rule::<WORD>::is_separator(byte) {
            seen |= Rule::<WORD>::is_digit(byte);
            keep(byte);
            at += 1;
            continue;
        }
        let end = span_end::<WORD>(text, at);
        if !is_dropped::<WORD>(text, at, end, seen) {
            text[at..end].iter().for_each(|&byte| keep(byte));
        }
        at = end;
    }
}

/// Where the separators end that are judged together with the one at `at`: all of its run, or only
/// itself.
#[inline(always)]
fn span_end<const WORD: u128>(text: &[u8], at: usize) -> usize {
    let mut end = at + 1;
    if Rule::<WORD>::CONSECUTIVE {
        while end < text.len() && Rule::<WORD>::is_separator(text[end]) {
            end += 1;
        }
    }
    end
}

/// Whether the separators at `at..end` are dropped. Where a run is judged as one, `at` is its
/// start, since the pass takes it whole.
#[inline(always)]
fn is_dropped<const WORD: u128>(text: &[u8], at: usize, end: usize, seen: bool) -> bool {
    if Rule::<WORD>::DROPS_ALL {
        return true;
    }
    let left = if seen { Class::Digit } else { Rule::<WORD>::class(text[..at].last()) };
    Rule::<WORD>::drops(left, Rule::<WORD>::class(text.get(end)))
}
