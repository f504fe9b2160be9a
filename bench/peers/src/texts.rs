//! The texts. They are the same in each run.

use crate::random::Random;

impl Random {
    fn within(&mut self, (least, most): (u64, u64)) -> u64 {
        least + self.below(most - least + 1)
    }

    fn digit(&mut self, least: u64) -> u8 {
        b'0' + (least + self.below(10 - least)) as u8
    }

    fn push_digits(&mut self, text: &mut Vec<u8>, count: u64) {
        for _ in 0..count {
            text.push(self.digit(0));
        }
    }

    /// An integer of so many digits. The first is no zero, unless it is the only one.
    fn push_integer(&mut self, text: &mut Vec<u8>, count: u64) {
        text.push(self.digit(u64::from(count > 1)));
        self.push_digits(text, count - 1);
    }

    fn push_minus(&mut self, text: &mut Vec<u8>) {
        if self.below(2) == 1 {
            text.push(b'-');
        }
    }
}

/// Many numbers.
#[derive(Default)]
pub struct Text {
    /// One after another, as the library reads them, and their lengths.
    pub bytes: Vec<u8>,
    pub lengths: Vec<u8>,
    /// The same without separators.
    pub digits: String,
    pub digit_lengths: Vec<u8>,
    /// `digits` with a comma after each number, and padding.
    pub listed: Vec<u8>,
    /// `[`, the numbers with commas between them, `]`, and padding; the length without it.
    pub array: Vec<u8>,
    pub array_length: usize,
}

/// How many bytes simdjson may read after a text.
const PADDING: usize = 64;

fn text(size: usize, mut push: impl FnMut(&mut Random, &mut Vec<u8>)) -> Text {
    let mut random = Random::new();
    let mut text = Text::default();
    text.array.push(b'[');
    while text.bytes.len() < size {
        let start = text.bytes.len();
        push(&mut random, &mut text.bytes);
        let number = &text.bytes[start..];
        let plain: Vec<u8> = number.iter().copied().filter(|byte| *byte != b'_').collect();
        text.lengths.push(number.len() as u8);
        text.digits.push_str(std::str::from_utf8(&plain).unwrap());
        text.digit_lengths.push(plain.len() as u8);
        for list in [&mut text.listed, &mut text.array] {
            list.extend(&plain);
            list.push(b',');
        }
    }
    text.array.pop();
    text.array.push(b']');
    text.array_length = text.array.len();
    text.array.extend([0; PADDING]);
    text.listed.extend([0; PADDING]);
    text
}

/// Integers of so many digits that a `u64` has.
pub fn integers(size: usize, digits: (u64, u64)) -> Text {
    text(size, |random, bytes| match random.within(digits) {
        20 => {
            bytes.extend([b'1', b'0' + random.below(8) as u8]);
            random.push_digits(bytes, 18);
        }
        count => random.push_integer(bytes, count),
    })
}

/// The same, half of them with a minus.
pub fn signed(size: usize, digits: (u64, u64)) -> Text {
    text(size, |random, bytes| {
        random.push_minus(bytes);
        let count = random.within(digits);
        random.push_integer(bytes, count);
    })
}

/// Grouped by threes. Those of 20 digits begin with `11`.
pub fn grouped(size: usize, digits: (u64, u64)) -> Text {
    text(size, |random, bytes| {
        let count = random.within(digits);
        for at in 0..count {
            if at > 0 && (count - at) % 3 == 0 {
                bytes.push(b'_');
            }
            let least = u64::from(at == 0);
            bytes.push(if count == 20 && at < 2 { b'1' } else { random.digit(least) });
        }
    })
}

/// Hexadecimal digits, letters in either case.
pub fn hexadecimal(size: usize, digits: (u64, u64)) -> Text {
    text(size, |random, bytes| {
        for _ in 0..random.within(digits) {
            bytes.push(b"0123456789abcdefABCDEF"[random.below(22) as usize]);
        }
    })
}

/// Half with a minus, so many digits before the point and after it.
pub fn coordinates(size: usize, whole: (u64, u64), fraction: (u64, u64)) -> Text {
    text(size, |random, bytes| push_coordinate(random, bytes, whole, fraction))
}

fn push_coordinate(
    random: &mut Random,
    bytes: &mut Vec<u8>,
    whole: (u64, u64),
    fraction: (u64, u64),
) {
    random.push_minus(bytes);
    let count = random.within(whole);
    random.push_integer(bytes, count);
    bytes.push(b'.');
    let count = random.within(fraction);
    random.push_digits(bytes, count);
}

/// 17 digits in [0, 1).
pub fn fractions(size: usize) -> Text {
    text(size, |random, bytes| {
        bytes.extend(b"0.");
        random.push_digits(bytes, 17);
    })
}

/// The shortest form of uniform floats in [0, 1): what a printer of JSON writes.
pub fn shortest_fractions(size: usize) -> Text {
    text(size, |random, bytes| {
        let x = (random.next() >> 11) as f64 / (1u64 << 53) as f64;
        bytes.extend(format!("{x}").bytes());
    })
}

/// The shortest form, with an exponent, of floats with random bits.
pub fn shortest(size: usize) -> Text {
    text(size, |random, bytes| {
        let x = std::iter::repeat_with(|| f64::from_bits(random.next())).find(|x| x.is_finite());
        bytes.extend(format!("{:e}", x.unwrap()).bytes());
    })
}

/// The same of `f32`.
pub fn shortest_f32(size: usize) -> Text {
    text(size, |random, bytes| {
        let x =
            std::iter::repeat_with(|| f32::from_bits(random.next() as u32)).find(|x| x.is_finite());
        bytes.extend(format!("{:e}", x.unwrap()).bytes());
    })
}

/// 1 to 3 digits with an exponent.
pub fn powers(size: usize) -> Text {
    text(size, push_power)
}

fn push_power(random: &mut Random, bytes: &mut Vec<u8>) {
    let count = random.within((1, 3));
    random.push_integer(bytes, count);
    bytes.push(b"eE"[random.below(2) as usize]);
    random.push_minus(bytes);
    let count = random.within((1, 2));
    random.push_digits(bytes, count);
}

/// Of ten numbers six integers of 1 to 4 digits, one of 5 to 15, two coordinates, and one with an
/// exponent.
pub fn mixed(size: usize) -> Text {
    text(size, |random, bytes| match random.below(10) {
        0..=5 => {
            let count = random.within((1, 4));
            random.push_integer(bytes, count);
        }
        6 => {
            let count = random.within((5, 15));
            random.push_integer(bytes, count);
        }
        7 | 8 => push_coordinate(random, bytes, (1, 3), (1, 7)),
        _ => push_power(random, bytes),
    })
}
