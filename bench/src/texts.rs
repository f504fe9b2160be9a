//! The texts that are drained. They are the same in each run.

use crate::random::Random;
use std::ops::RangeInclusive;
use std::sync::atomic::{AtomicUsize, Ordering::Relaxed};

/// Bytes, and where they are many numbers, the lengths of these, and the digits alone.
#[derive(Default)]
pub struct Text {
    pub bytes: Vec<u8>,
    pub lengths: Vec<u8>,
    /// The same numbers without separators.
    pub digits: String,
    pub digit_lengths: Vec<u8>,
}

impl From<Vec<u8>> for Text {
    fn from(bytes: Vec<u8>) -> Self {
        Text { bytes, ..Text::default() }
    }
}

impl Random {
    fn within(&mut self, range: &RangeInclusive<u64>) -> u64 {
        range.start() + self.below(range.end() - range.start() + 1)
    }

    fn digit(&mut self) -> u8 {
        b'0' + self.below(10) as u8
    }

    fn letter(&mut self) -> u8 {
        b'a' + self.below(26) as u8
    }

    fn sign(&mut self) -> Option<u8> {
        [None, Some(b'-'), Some(b'+')][self.below(3) as usize]
    }

    fn one_of(&mut self, bytes: &[u8]) -> u8 {
        bytes[self.below(bytes.len() as u64) as usize]
    }

    fn hex_digit(&mut self) -> u8 {
        self.one_of(HEX)
    }

    /// A number of so many of these digits, grouped by threes where `grouped` says so.
    fn push_number(
        &mut self,
        bytes: &mut Vec<u8>,
        digits: &[u8],
        lengths: &RangeInclusive<u64>,
        grouped: bool,
    ) {
        let length = self.within(lengths);
        for at in 0..length {
            if grouped && at > 0 && (length - at).is_multiple_of(3) {
                bytes.push(b'_');
            }
            bytes.push(self.one_of(digits));
        }
    }

    /// A number of digits out of a range, with a separator after each group except the last.
    fn push_component(
        &mut self,
        bytes: &mut Vec<u8>,
        range: RangeInclusive<u64>,
        group: Option<u64>,
    ) {
        let digits = self.within(&range);
        for at in 0..digits {
            if at > 0 && group.is_some_and(|group| at.is_multiple_of(group)) {
                bytes.push(b'_');
            }
            bytes.push(self.digit());
        }
    }

    /// An integer of so many digits, without a first zero before others.
    fn push_integer(&mut self, bytes: &mut Vec<u8>, lengths: &RangeInclusive<u64>) {
        let length = self.within(lengths);
        bytes.push(if length == 1 { self.digit() } else { self.one_of(b"12345678") });
        bytes.extend((1..length).map(|_| self.digit()));
    }

    /// An integer, a point and a fraction.
    fn push_decimal(&mut self, bytes: &mut Vec<u8>, digits: RangeInclusive<u64>, grouped: bool) {
        self.push_component(bytes, digits.clone(), grouped.then_some(3));
        bytes.push(b'.');
        self.push_component(bytes, digits, grouped.then_some(3));
    }
}

/// The digits of radix 2.
pub const BINARY: &[u8] = b"01";
/// Those of radix 16, the letters in either case.
pub const HEX: &[u8] = b"0123456789abcdefABCDEF";
/// Those of radix 36.
pub const BASE_36: &[u8] = b"0123456789abcdefghijklmnopqrstuvwxyzABCDEFGHIJKLMNOPQRSTUVWXYZ";

/// How many bytes a text has, or a few more.
pub static SIZE: AtomicUsize = AtomicUsize::new(1 << 20);

/// A text of what a function gives for each position.
fn text_of(mut byte: impl FnMut(usize, &mut Random) -> u8) -> Text {
    let mut random = Random::new();
    let bytes: Vec<u8> = (0..SIZE.load(Relaxed)).map(|at| byte(at, &mut random)).collect();
    bytes.into()
}

/// Digits.
pub fn digits() -> Text {
    text_of(|_, random| random.digit())
}

/// Digits of radix 16.
pub fn hex_digits() -> Text {
    text_of(|_, random| random.hex_digit())
}

/// Digits with a separator at each third byte, between digits.
pub fn each_third() -> Text {
    text_of(|at, random| if at % 3 == 2 { b'_' } else { random.digit() })
}

/// As many digits as separators, in runs of that length.
pub fn runs(length: usize) -> Text {
    text_of(|at, random| if at / length % 2 == 1 { b'_' } else { random.digit() })
}

/// Numbers of so many bytes; grouped by threes where `grouped` says so.
pub fn numbers(lengths: RangeInclusive<u64>, grouped: bool) -> Text {
    numbers_of(lengths, grouped, Random::digit, None)
}

/// The same in radix 16.
pub fn hex_numbers(lengths: RangeInclusive<u64>, grouped: bool) -> Text {
    numbers_of(lengths, grouped, Random::hex_digit, None)
}

/// The same in radix 10, each with a comma after it.
pub fn stopped(lengths: RangeInclusive<u64>, grouped: bool) -> Text {
    numbers_of(lengths, grouped, Random::digit, Some(b','))
}

/// The same of zeros, each with a 7 after it.
pub fn zeros(lengths: RangeInclusive<u64>, grouped: bool) -> Text {
    numbers_of(lengths, grouped, |_| b'0', Some(b'7'))
}

/// Numbers of so many bytes, with the byte `end` after each.
fn numbers_of(
    lengths: RangeInclusive<u64>,
    grouped: bool,
    digit: fn(&mut Random) -> u8,
    end: Option<u8>,
) -> Text {
    let mut random = Random::new();
    let mut text = Text::default();
    while text.bytes.len() < SIZE.load(Relaxed) {
        let length = random.within(&lengths) as u8;
        for at in 0..length {
            let is_separator = grouped && at > 0 && (length - at).is_multiple_of(4);
            text.bytes.push(if is_separator { b'_' } else { digit(&mut random) });
        }
        text.bytes.extend(end);
        text.lengths.push(length + u8::from(end.is_some()));
    }
    text
}

/// Numbers of so many digits, and the same digits without separators; grouped by threes where
/// `grouped` says so.
pub fn literals(lengths: RangeInclusive<u64>, grouped: bool) -> Text {
    literals_of(lengths, grouped, |_| None, None)
}

/// The same with a sign before two of three.
pub fn signed(lengths: RangeInclusive<u64>, grouped: bool) -> Text {
    literals_of(lengths, grouped, Random::sign, None)
}

/// The same without signs, each on a line of its own.
pub fn lines(lengths: RangeInclusive<u64>, grouped: bool) -> Text {
    literals_of(lengths, grouped, |_| None, Some(b'\n'))
}

/// Numbers of so many of these digits; grouped by threes where `grouped` says so.
pub fn numbers_in(digits: &[u8], lengths: RangeInclusive<u64>, grouped: bool) -> Text {
    numbers_by(|random, bytes| random.push_number(bytes, digits, &lengths, grouped))
}

/// Literals of Rust of 4 to 16 digits, of each of some kinds as many: decimal, binary, octal and
/// hexadecimal are 0 to 3. Grouped by threes where `grouped` says so.
pub fn rust_literals(kinds: RangeInclusive<u64>, grouped: bool) -> Text {
    numbers_by(|random, bytes| {
        let (prefix, digits): (&[u8], &[u8]) = match random.within(&kinds) {
            0 => (b"", b"123456789"),
            1 => (b"0b", BINARY),
            2 => (b"0o", b"01234567"),
            _ => (b"0x", HEX),
        };
        bytes.extend(prefix);
        random.push_number(bytes, digits, &(4..=16), grouped);
    })
}

fn literals_of(
    lengths: RangeInclusive<u64>,
    grouped: bool,
    sign: fn(&mut Random) -> Option<u8>,
    end: Option<u8>,
) -> Text {
    let mut random = Random::new();
    let mut text = Text::default();
    while text.bytes.len() < SIZE.load(Relaxed) {
        let digits = random.within(&lengths) as u8;
        let start = text.bytes.len();
        let sign = sign(&mut random);
        text.bytes.extend(sign);
        text.digits.extend(sign.map(char::from));
        for at in 0..digits {
            if grouped && at > 0 && (digits - at).is_multiple_of(3) {
                text.bytes.push(b'_');
            }
            let digit = random.digit();
            text.bytes.push(digit);
            text.digits.push(digit.into());
        }
        text.bytes.extend(end);
        text.lengths.push((text.bytes.len() - start) as u8);
        text.digit_lengths.push(digits + u8::from(sign.is_some()));
    }
    text
}

/// Bytes that are neither digits nor separators.
pub fn others() -> Text {
    text_of(|_, random| random.letter())
}

/// Numbers of an integer, a fraction and an exponent of so many digits each, as `1234.56789e12`,
/// and the same without separators; with separators, as in `123_456.789_012e1_0`, where `grouped`
/// says so.
pub fn floats(digits: RangeInclusive<u64>, exponent: u64, grouped: bool) -> Text {
    numbers_by(|random, bytes| {
        random.push_decimal(bytes, digits.clone(), grouped);
        bytes.push(b'e');
        random.push_component(bytes, exponent..=exponent, grouped.then_some(1));
    })
}

/// Numbers of an integer and a fraction of so many digits each; grouped by threes likewise.
pub fn decimals(digits: RangeInclusive<u64>, grouped: bool) -> Text {
    numbers_by(|random, bytes| random.push_decimal(bytes, digits.clone(), grouped))
}

/// Numbers of 17 digits after `0.`.
pub fn fractions() -> Text {
    numbers_by(|random, bytes| {
        bytes.extend(b"0.");
        random.push_component(bytes, 17..=17, None);
    })
}

/// Zeros: an integer, some with a fraction, some with a sign.
pub fn zero_floats() -> Text {
    numbers_by(|random, bytes| {
        let zeros: [&[u8]; 4] = [b"0", b"0.0", b"-0.0", b"0.000"];
        bytes.extend(zeros[random.below(4) as usize]);
    })
}

/// Integers of JSON of so many digits, up to 19 of which `i64` holds.
pub fn json_integers(lengths: RangeInclusive<u64>) -> Text {
    numbers_by(|random, bytes| random.push_integer(bytes, &lengths))
}

/// Coordinates, as `-122.4194155`: some with a minus, up to 3 digits and a fraction of 4 to 7.
pub fn coordinates() -> Text {
    numbers_by(|random, bytes| {
        if random.below(2) == 1 {
            bytes.push(b'-');
        }
        random.push_integer(bytes, &(1..=3));
        bytes.push(b'.');
        random.push_component(bytes, 4..=7, None);
    })
}

/// Integers of up to 3 digits with an exponent of 1 or 2, as `1e3` and `25E-7`.
pub fn powers() -> Text {
    numbers_by(|random, bytes| {
        random.push_integer(bytes, &(1..=3));
        bytes.push(random.one_of(b"eE"));
        bytes.extend(random.sign());
        random.push_component(bytes, 1..=2, None);
    })
}

/// Numbers that a function adds to bytes, and the same without separators.
fn numbers_by(mut push: impl FnMut(&mut Random, &mut Vec<u8>)) -> Text {
    let mut random = Random::new();
    let mut text = Text::default();
    while text.bytes.len() < SIZE.load(Relaxed) {
        let start = text.bytes.len();
        push(&mut random, &mut text.bytes);
        let number = &text.bytes[start..];
        let plain = number.iter().filter(|&&byte| byte != b'_').map(|&byte| char::from(byte));
        let before = text.digits.len();
        text.digits.extend(plain);
        text.lengths.push(number.len() as u8);
        text.digit_lengths.push((text.digits.len() - before) as u8);
    }
    text
}

/// A digit, that many separators, and a point: a run that is kept under internal or leading with
/// consecutive.
pub fn hostile(separators: usize) -> Text {
    let mut bytes = vec![b'1'];
    bytes.resize(1 + separators, b'_');
    bytes.push(b'.');
    bytes.into()
}
