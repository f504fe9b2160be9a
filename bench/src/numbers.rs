//! Numbers of integer types, literals of Rust and floats: how a Rust user reads them by the calls
//! of one kind, and how std does without separators.

use crate::calls::{Buffer, Buffers, Digits};
use crate::library::Outcome;
use crate::texts::Text;
use crate::word::{Rule, RUST, RUST_16, RUST_2, RUST_8};
use std::str::{from_utf8, FromStr};

/// A type of integers.
#[derive(Clone, Copy)]
pub enum Type {
    U8,
    U16,
    U32,
    U64,
    I32,
    I64,
    U128,
}

/// An expression for a type, which it calls by a name.
macro_rules! for_type {
    ($of:expr, $name:ident, $way:expr) => {
        for_type!(
            $of, $name, $way,
            U8 = u8, U16 = u16, U32 = u32, U64 = u64, I32 = i32, I64 = i64, U128 = u128
        )
    };
    ($of:expr, $name:ident, $way:expr, $($variant:ident = $number:ty),*) => {
        match $of {
            $($crate::numbers::Type::$variant => {
                type $name = $number;
                $way
            })*
        }
    };
}
pub(crate) use for_type;

/// A number of such a type.
pub trait Number: Copy + FromStr {
    const ZERO: Self;
    const IS_SIGNED: bool;
    /// The number with one digit more, if the type has it.
    fn with_digit(self, radix: u32, digit: u32, is_negative: bool) -> Option<Self>;
    /// Its lowest 64 bits, and the others added to them.
    fn told(self) -> u64;
}

macro_rules! numbers {
    ($($number:ty)*) => {$(
        impl Number for $number {
            const ZERO: Self = 0;
            const IS_SIGNED: bool = <$number>::MIN != 0;

            #[inline(always)]
            fn with_digit(self, radix: u32, digit: u32, is_negative: bool) -> Option<Self> {
                let more = self.checked_mul(radix as Self)?;
                if is_negative {
                    more.checked_sub(digit as Self)
                } else {
                    more.checked_add(digit as Self)
                }
            }

            #[inline(always)]
            fn told(self) -> u64 {
                let others = if size_of::<Self>() > 8 { (self as u128 >> 64) as u64 } else { 0 };
                (self as u64).wrapping_add(others)
            }
        }
    )*};
}
numbers!(u8 u16 u32 u64 u128 i32 i64);

/// The number that a text is.
#[inline(always)]
pub fn parsed<B: Buffers, T: Number>(text: &[u8], word: u128) -> Outcome {
    match leading::<B, T>(text, word) {
        Some((number, end)) if end == text.len() => of_value(number.told()),
        _ => Outcome::default(),
    }
}

/// The number that a text begins with, and where it ends.
#[inline(always)]
pub fn read<B: Buffers, T: Number>(text: &[u8], word: u128) -> Outcome {
    match leading::<B, T>(text, word) {
        Some((number, end)) => Outcome { value: number.told(), count: end as u64, looks: 0 },
        None => Outcome::default(),
    }
}

#[inline(always)]
fn leading<B: Buffers, T: Number>(text: &[u8], word: u128) -> Option<(T, usize)> {
    let (is_negative, start) = match text.first() {
        Some(b'-') if T::IS_SIGNED => (true, 1),
        Some(b'+') if T::IS_SIGNED => (false, 1),
        _ => (false, 0),
    };
    let radix = B::radix(word);
    let mut bytes = B::Bytes::over(&text[start..], word);
    let mut iter = bytes.integer();
    let mut number = T::ZERO;
    let mut is_there = false;
    while let Some(digit) = iter.peek().and_then(|&byte| char::from(byte).to_digit(radix)) {
        number = number.with_digit(radix, digit, is_negative)?;
        is_there = true;
        iter.next();
    }
    is_there.then_some((number, start + iter.cursor()))
}

/// A literal of Rust, by a kind of buffers for each radix, and where it ends.
#[inline(always)]
pub fn rust_literal<Decimal, Binary, Octal, Hex>(text: &[u8]) -> Outcome
where
    Decimal: Buffers,
    Binary: Buffers,
    Octal: Buffers,
    Hex: Buffers,
{
    let after_prefix = |read: Option<(u64, usize)>| read.map(|(value, end)| (value, end + 2));
    let read = match text {
        [b'0', b'b', rest @ ..] => after_prefix(leading::<Binary, u64>(rest, RUST_2)),
        [b'0', b'o', rest @ ..] => after_prefix(leading::<Octal, u64>(rest, RUST_8)),
        [b'0', b'x', rest @ ..] => after_prefix(leading::<Hex, u64>(rest, RUST_16)),
        _ => leading::<Decimal, u64>(text, RUST),
    };
    match read {
        Some((value, end)) => Outcome { value, count: end as u64, looks: 0 },
        None => Outcome::default(),
    }
}

/// How many bytes a float without separators has at most.
const LONGEST: usize = 80;

/// The bytes of a float without separators.
struct Kept {
    bytes: [u8; LONGEST],
    len: usize,
}

impl Kept {
    #[inline(always)]
    fn push(&mut self, byte: u8) {
        if let Some(place) = self.bytes.get_mut(self.len) {
            *place = byte;
            self.len += 1;
        }
    }

    /// Adds the digits that come next, and the byte that ends them.
    #[inline(always)]
    fn push_component<'a>(&mut self, mut iter: impl Digits<'a>) {
        while let Some(&byte) = iter.next() {
            self.push(byte);
            if !iter.is_digit(byte) {
                break;
            }
        }
    }

    fn float<T: Float>(&self) -> Option<T> {
        from_utf8(&self.bytes[..self.len]).ok()?.parse().ok()
    }
}

/// `f64` and `f32`.
pub trait Float: FromStr {
    fn bits(self) -> u64;
}

impl Float for f64 {
    fn bits(self) -> u64 {
        self.to_bits()
    }
}

impl Float for f32 {
    fn bits(self) -> u64 {
        self.to_bits().into()
    }
}

/// The float that a text is: its bytes without separators, by std's `parse`.
#[inline(always)]
pub fn nearest<B: Buffers, T: Float>(text: &[u8], word: u128) -> Outcome {
    let mut kept = Kept { bytes: [0; LONGEST], len: 0 };
    let mut bytes = B::Bytes::over(text, word);
    kept.push_component(bytes.integer());
    kept.push_component(bytes.fraction());
    kept.push_component(bytes.exponent());
    of_value(kept.float().map_or(0, T::bits))
}

/// The same of an `f64`, and where the text ends.
#[inline(always)]
pub fn nearest_to_end<B: Buffers>(text: &[u8], word: u128) -> Outcome {
    Outcome { count: text.len() as u64, ..nearest::<B, f64>(text, word) }
}

/// The number of JSON that a text begins with, as its grammar says: an integer or the
/// bits of a float, and where it ends. `None` if there is none.
pub fn leading_json(text: &[u8]) -> Option<Outcome> {
    let digits = |from: usize| {
        text[from..].iter().position(|byte| !byte.is_ascii_digit()).map_or(text.len(), |at| from + at)
    };
    let start = usize::from(text.first() == Some(&b'-'));
    let integer = if text.get(start) == Some(&b'0') { start + 1 } else { digits(start) };
    if integer == start {
        return None;
    }
    let mut end = integer;
    if text.get(end) == Some(&b'.') && digits(end + 1) > end + 1 {
        end = digits(end + 1);
    }
    if matches!(text.get(end), Some(b'e' | b'E')) {
        let signed = end + 1 + usize::from(matches!(text.get(end + 1), Some(b'+' | b'-')));
        if signed <= text.len() && digits(signed) > signed {
            end = digits(signed);
        }
    }
    let number = from_utf8(&text[..end]).ok()?;
    let value = if end == integer {
        number.parse::<i64>().ok()?.told()
    } else {
        number.parse::<f64>().ok()?.bits()
    };
    Some(Outcome { value, count: end as u64, looks: 0 })
}

// ---- std, on the texts without separators

/// Each number of a type by `parse`.
pub fn each_parsed<T: Number>(text: &Text) -> Outcome {
    each_digits(text, |digits| digits.parse::<T>().map_or(0, T::told))
}

/// Each number in another radix than 10 by `from_str_radix`. Only two types have that here, since
/// where a type is parsed in several radices, a compiler makes one code for all of them.
pub fn in_radix<const WORD: u128>(of: Type) -> Option<fn(&Text) -> Outcome> {
    match of {
        Type::U64 => Some(|text| {
            let value = |it: &str| u64::from_str_radix(it, Rule::<WORD>::RADIX).unwrap_or(0);
            each_digits(text, value)
        }),
        Type::U128 => Some(|text| {
            let value = |it: &str| u128::from_str_radix(it, Rule::<WORD>::RADIX).unwrap_or(0);
            each_digits(text, |it| value(it).told())
        }),
        _ => None,
    }
}

/// Each literal of Rust: a match on the prefix, and then `from_str_radix`.
pub fn each_rust_literal(text: &Text) -> Outcome {
    each_digits(text, |digits| {
        let (radix, start) = match digits.as_bytes() {
            [b'0', b'b', ..] => (2, 2),
            [b'0', b'o', ..] => (8, 2),
            [b'0', b'x', ..] => (16, 2),
            _ => (10, 0),
        };
        u64::from_str_radix(&digits[start..], radix).unwrap_or(0)
    })
}

/// Each float by `parse`: their bits.
pub fn each_nearest<T: Float>(text: &Text) -> Outcome {
    each_digits(text, |digits| digits.parse::<T>().map_or(0, T::bits))
}

/// What each number without separators comes to, added up.
#[inline(always)]
fn each_digits(text: &Text, value: impl Fn(&str) -> u64) -> Outcome {
    let mut total = 0u64;
    let mut rest = &text.digits[..];
    for &length in &text.digit_lengths {
        let (first, others) = rest.split_at(length.into());
        total = total.wrapping_add(value(first));
        rest = others;
    }
    of_value(total)
}

/// What came to a value, without counts.
pub fn of_value(value: u64) -> Outcome {
    Outcome { value, ..Outcome::default() }
}
