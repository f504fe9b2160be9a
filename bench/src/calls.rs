//! The calls that a Rust user has, and what is done by them.

use crate::library::Outcome;
use crate::numbers::{self, for_type, of_value};
use crate::texts::Text;
use crate::work::{each, float_of, with_digit, with_eight, Kind, Way, Work};

/// An iterator over the digits of a component of a number.
pub trait Digits<'a>: Iterator<Item = &'a u8> {
    /// The next kept byte, where the cursor then stands.
    fn peek(&mut self) -> Option<&'a u8>;
    /// How many digits were counted.
    fn current_count(&self) -> usize;
    /// Where the cursor stands.
    fn cursor(&self) -> usize;
    /// Whether the byte is a digit.
    fn is_digit(&self, byte: u8) -> bool;
    /// Passes the zeros that come next, and counts each. Answers how many they are.
    fn skip_zeros(&mut self) -> usize;
    /// Passes the next eight bytes, and answers them as a number. `None` if fewer are left or the
    /// component has a flag.
    fn pass_eight(&mut self) -> Option<u64>;
}

/// A text with a cursor, which its iterators share.
pub trait Buffer<'a>: Sized {
    /// The cursor at the start of a text.
    fn over(text: &'a [u8], word: u128) -> Self;
    fn integer(&mut self) -> impl Digits<'a>;
    fn fraction(&mut self) -> impl Digits<'a>;
    fn exponent(&mut self) -> impl Digits<'a>;
    /// How many digits the three components counted, or the cursor where the word has no separator.
    fn current_count(&self) -> usize;
}

/// A kind of buffers. Those with the word as a const parameter ignore the word that they are
/// handed.
pub trait Buffers: 'static {
    type Bytes<'a>: Buffer<'a>;
    /// The radix of the integer.
    fn radix(word: u128) -> u32;
}

/// The work by the calls of one kind, under a word.
pub fn drained<B: Buffers>(work: Work, word: u128) -> Way {
    match work {
        Work::Sum => Box::new(move |text| sum::<B>(&text.bytes, word)),
        Work::Number => Box::new(move |text| number::<B>(&text.bytes, word)),
        Work::Peeked => Box::new(move |text| peeked::<B>(&text.bytes, word)),
        Work::Handed => Box::new(move |text| handed::<B>(&text.bytes, word)),
        Work::Eights => Box::new(move |text| eights::<B>(&text.bytes, word)),
        Work::Numbers | Work::Asked => on_each(move |text| number::<B>(text, word)),
        Work::Stopped => on_each(move |text| stopped::<B>(text, word)),
        Work::Literals | Work::Mostly => on_each(move |text| literal::<B>(text, word)),
        Work::Values => on_each(move |text| value::<B>(text, word)),
        Work::Counted => on_each(move |text| counted::<B>(text, word)),
        Work::Cleared => Box::new(move |text| cleared::<B>(&text.bytes, word)),
        Work::Digits => on_each(move |text| digits::<B>(text, word)),
        Work::Zeros => on_each(move |text| zeros::<B>(text, word)),
        Work::Floats | Work::FloatsOf => on_each(move |text| float::<B>(text, word)),
        Work::Mantissas => on_each(move |text| mantissa::<B>(text, word)),
        Work::Lines => Box::new(move |text| lines::<B>(&text.bytes, word)),
        Work::Parts => on_each(move |text| parts::<B>(text, word)),
        Work::NumberOf(of) => {
            for_type!(of, T, on_each(move |text| numbers::parsed::<B, T>(text, word)))
        }
        Work::NumberFrom(of) => {
            for_type!(of, T, on_each(move |text| numbers::read::<B, T>(text, word)))
        }
        Work::RustLiterals => on_each(numbers::rust_literal::<B, B, B, B>),
        Work::Nearest => on_each(move |text| numbers::nearest::<B, f64>(text, word)),
        Work::NearestF32 => on_each(move |text| numbers::nearest::<B, f32>(text, word)),
        Work::Json(Kind::Integer) | Work::JsonKind(Kind::Integer) => {
            on_each(move |text| numbers::read::<B, i64>(text, word))
        }
        Work::Json(Kind::Float) | Work::JsonKind(Kind::Float) => {
            on_each(move |text| numbers::nearest_to_end::<B>(text, word))
        }
    }
}

fn on_each(work: impl Fn(&[u8]) -> Outcome + 'static) -> Way {
    Box::new(move |text: &Text| each(text, &work))
}

/// What a drain of the integer came to.
#[inline(always)]
fn outcome<'a>(value: u64, bytes: &mut impl Buffer<'a>) -> Outcome {
    let count = bytes.integer().current_count() as u64;
    Outcome { value, count, looks: 0 }
}

#[inline(always)]
fn sum<B: Buffers>(text: &[u8], word: u128) -> Outcome {
    let mut bytes = B::Bytes::over(text, word);
    let mut sum = 0u64;
    for &byte in bytes.integer() {
        sum = sum.wrapping_add(u64::from(byte));
    }
    outcome(sum, &mut bytes)
}

#[inline(always)]
fn number<B: Buffers>(text: &[u8], word: u128) -> Outcome {
    let mut bytes = B::Bytes::over(text, word);
    let number = integer_number(&mut bytes);
    outcome(number, &mut bytes)
}

#[inline(always)]
fn peeked<B: Buffers>(text: &[u8], word: u128) -> Outcome {
    let mut bytes = B::Bytes::over(text, word);
    let mut number = 0;
    let mut iter = bytes.integer();
    while let Some(&byte) = iter.peek() {
        number = with_digit(number, byte);
        iter.next();
    }
    drop(iter);
    outcome(number, &mut bytes)
}

#[inline(always)]
fn handed<B: Buffers>(text: &[u8], word: u128) -> Outcome {
    let mut bytes = B::Bytes::over(text, word);
    let number = number_of::<B>(&mut bytes);
    outcome(number, &mut bytes)
}

#[inline(never)]
fn number_of<B: Buffers>(bytes: &mut B::Bytes<'_>) -> u64 {
    integer_number(bytes)
}

#[inline(always)]
fn integer_number<'a>(bytes: &mut impl Buffer<'a>) -> u64 {
    let mut number = 0;
    for &byte in bytes.integer() {
        number = with_digit(number, byte);
    }
    number
}

/// The number that eight bytes at a time make.
#[inline(always)]
fn eights<B: Buffers>(text: &[u8], word: u128) -> Outcome {
    let mut bytes = B::Bytes::over(text, word);
    let mut number = 0u64;
    let mut iter = bytes.integer();
    while let Some(eight) = iter.pass_eight() {
        number = with_eight(number, eight);
    }
    drop(iter);
    outcome(number, &mut bytes)
}

/// The number that the digits make which come first.
#[inline(always)]
fn stopped<B: Buffers>(text: &[u8], word: u128) -> Outcome {
    let mut bytes = B::Bytes::over(text, word);
    let mut number = 0;
    pass_digits(&mut bytes.integer(), |byte| number = with_digit(number, byte));
    outcome(number, &mut bytes)
}

/// How many digits come first.
#[inline(always)]
fn digits<B: Buffers>(text: &[u8], word: u128) -> Outcome {
    let mut bytes = B::Bytes::over(text, word);
    let mut digits = 0;
    pass_digits(&mut bytes.integer(), |_| digits += 1);
    outcome(digits, &mut bytes)
}

#[inline(always)]
fn pass_digits<'a>(iter: &mut impl Digits<'a>, mut tell: impl FnMut(u8)) {
    while let Some(&byte) = iter.peek() {
        if !iter.is_digit(byte) {
            break;
        }
        tell(byte);
        iter.next();
    }
}

/// How many zeros come first.
#[inline(always)]
fn zeros<B: Buffers>(text: &[u8], word: u128) -> Outcome {
    let mut bytes = B::Bytes::over(text, word);
    let zeros = bytes.integer().skip_zeros() as u64;
    outcome(zeros, &mut bytes)
}

/// The value of the digits that lead, and where they end: nothing of a value that `u64` does not
/// hold, or where there is none.
#[inline(always)]
fn literal<B: Buffers>(text: &[u8], word: u128) -> Outcome {
    let mut bytes = B::Bytes::over(text, word);
    let mut iter = bytes.integer();
    match value_after(&mut iter, B::radix(word), 0) {
        Some((value, 1..)) => Outcome { value, count: iter.cursor() as u64, looks: 0 },
        _ => Outcome::default(),
    }
}

/// The value of the digits that lead, and how many were counted; 0 where `u64` does not hold it.
#[inline(always)]
fn value<B: Buffers>(text: &[u8], word: u128) -> Outcome {
    let mut bytes = B::Bytes::over(text, word);
    let value = value_after(&mut bytes.integer(), B::radix(word), 0).map_or(0, |read| read.0);
    outcome(value, &mut bytes)
}

/// How many digits a text has that is one literal, or none.
#[inline(always)]
fn counted<B: Buffers>(text: &[u8], word: u128) -> Outcome {
    let mut bytes = B::Bytes::over(text, word);
    let mut digits = 0;
    let mut iter = bytes.integer();
    pass_digits(&mut iter, |_| digits += 1);
    of_value(if iter.cursor() == text.len() { digits } else { 0 })
}

/// The numbers of a text, with a byte after each.
#[inline(always)]
fn cleared<B: Buffers>(text: &[u8], word: u128) -> Outcome {
    let mut total = 0u64;
    let mut rest = text;
    while !rest.is_empty() {
        let mut bytes = B::Bytes::over(rest, word);
        total = total.wrapping_add(leading_number(bytes.integer()));
        let end = bytes.integer().cursor();
        rest = &rest[end..];
    }
    Outcome { value: total, count: text.len() as u64, looks: 0 }
}

/// The number of each line, added up, and where the last one ends.
#[inline(always)]
fn lines<B: Buffers>(text: &[u8], word: u128) -> Outcome {
    let mut total = 0u64;
    let mut start = 0;
    while start < text.len() {
        let mut bytes = B::Bytes::over(&text[start..], word);
        let mut iter = bytes.integer();
        let Some((value, _)) = value_after(&mut iter, B::radix(word), 0) else {
            break;
        };
        total = total.wrapping_add(value);
        start += iter.cursor() + 1;
    }
    Outcome { value: total, count: start as u64, looks: 0 }
}

/// The value of the digits that lead, after a value, and how many they are, if `u64` holds it.
#[inline(always)]
fn value_after<'a>(iter: &mut impl Digits<'a>, radix: u32, before: u64) -> Option<(u64, usize)> {
    let mut value = before;
    let mut digits = 0;
    while let Some(digit) = iter.peek().and_then(|&byte| char::from(byte).to_digit(radix)) {
        value = value.checked_mul(radix.into())?.checked_add(digit.into())?;
        digits += 1;
        iter.next();
    }
    Some((value, digits))
}

/// The three components of a number, each with the byte that ends it.
#[inline(always)]
fn float<B: Buffers>(text: &[u8], word: u128) -> Outcome {
    let mut bytes = B::Bytes::over(text, word);
    let integer = leading_number(bytes.integer());
    let fraction = leading_number(bytes.fraction());
    let exponent = leading_number(bytes.exponent());
    let value = float_of([integer, fraction, exponent]);
    Outcome { value, count: bytes.current_count() as u64, looks: 0 }
}

/// The number that the digits make which come next. The byte that ends them is taken too.
#[inline(always)]
fn leading_number<'a>(mut iter: impl Digits<'a>) -> u64 {
    let mut number = 0;
    while let Some(&byte) = iter.next() {
        if !iter.is_digit(byte) {
            break;
        }
        number = with_digit(number, byte);
    }
    number
}

/// The integer and the fraction as one value, and the exponent; 0 where `u64` does not hold one.
#[inline(always)]
fn mantissa<B: Buffers>(text: &[u8], word: u128) -> Outcome {
    let radix = B::radix(word);
    let mut bytes = B::Bytes::over(text, word);
    let integer = component_value(bytes.integer(), radix, 0);
    let mantissa = component_value(bytes.fraction(), radix, integer);
    let exponent = value_after(&mut bytes.exponent(), radix, 0).map_or(0, |read| read.0);
    let value = float_of([0, mantissa, exponent]);
    Outcome { value, count: bytes.current_count() as u64, looks: 0 }
}

/// The value of a component that another one follows. The byte that ends it is passed.
#[inline(always)]
fn component_value<'a>(mut iter: impl Digits<'a>, radix: u32, before: u64) -> u64 {
    let value = value_after(&mut iter, radix, before).map_or(0, |read| read.0);
    iter.next();
    value
}

/// The mantissa and the decimal exponent, which is that written less the digits of the fraction;
/// and where the number ends: a sign, digits with a point before, among or after them, and an
/// exponent after `e` or `E`. Nothing where there is none, or `u64` does not hold one.
#[inline(always)]
fn parts<B: Buffers>(text: &[u8], word: u128) -> Outcome {
    let start = usize::from(matches!(text.first(), Some(b'+' | b'-')));
    let mut bytes = B::Bytes::over(&text[start..], word);
    match parts_of::<B>(&mut bytes, B::radix(word)) {
        Some(value) => {
            let end = start + bytes.integer().cursor();
            Outcome { value, count: end as u64, looks: 0 }
        }
        None => Outcome::default(),
    }
}

#[inline(always)]
fn parts_of<B: Buffers>(bytes: &mut B::Bytes<'_>, radix: u32) -> Option<u64> {
    let (mut mantissa, digits) = value_after(&mut bytes.integer(), radix, 0)?;
    let mut places = 0;
    if pass_if(bytes.integer(), |byte| byte == b'.').is_some() {
        (mantissa, places) = value_after(&mut bytes.fraction(), radix, mantissa)?;
    }
    if digits + places == 0 {
        return None;
    }
    let exponent = match pass_if(bytes.fraction(), |byte| byte == b'e' || byte == b'E') {
        Some(_) => exponent_of::<B>(bytes, radix)?,
        None => 0,
    };
    Some(float_of([0, mantissa, exponent.wrapping_sub(places as u64)]))
}

/// A sign and the digits of an exponent, if there is one.
#[inline(always)]
fn exponent_of<B: Buffers>(bytes: &mut B::Bytes<'_>, radix: u32) -> Option<u64> {
    let sign = pass_if(bytes.exponent(), |byte| byte == b'+' || byte == b'-');
    match value_after(&mut bytes.exponent(), radix, 0)? {
        (_, 0) => None,
        (value, _) if sign == Some(b'-') => Some(value.wrapping_neg()),
        (value, _) => Some(value),
    }
}

/// Passes the byte that comes next, if it is wanted.
#[inline(always)]
fn pass_if<'a>(mut iter: impl Digits<'a>, is_wanted: impl Fn(u8) -> bool) -> Option<u8> {
    let byte = *iter.peek()?;
    if !is_wanted(byte) {
        return None;
    }
    iter.next();
    Some(byte)
}
