//! What is done with a text, on each of the sides.

use crate::calls::drained;
use crate::filter::filtered;
use crate::fixed::Fixed;
use crate::floor::Floor;
use crate::library::{self, Export, Format, Outcome};
use crate::numbers::{rust_literal, Type};
#[cfg(feature = "original")]
use crate::original::Original;
use crate::texts::Text;
use crate::told::Side;
use crate::word::{is_constant, NONE, RUST, RUST_16, RUST_2, RUST_8};

/// What is done with a text.
#[derive(Clone, Copy)]
pub enum Work {
    /// Sums the bytes that `next` answers.
    Sum,
    /// Makes a number of them, in which each step waits for the one before.
    Number,
    /// Makes the number by `peek` and then `next`.
    Peeked,
    /// Makes the number in a function that isn't inlined and is handed the `Bytes`.
    Handed,
    /// Makes a number of eight bytes at a time: the library counts them by `increment_count_of`.
    Eights,
    /// Makes a number of each of many short texts, and adds these up.
    Numbers,
    /// The same: the library asks the looks after each, which no other side counts.
    Asked,
    /// Makes a number of the digits that begin each of many texts, by `peek`, `is_digit` and
    /// `next`.
    Stopped,
    /// Reads each of many integer literals, and adds up those that `u64` holds. In place of the
    /// filter stands `str::parse`, on the digits without separators.
    Literals,
    /// The same: the library by `read_mostly_standard`, with code of its own for one word.
    Mostly,
    /// Reads the digits of each of many integers: the library by `read_digits_of`. In place of the
    /// filter stands `str::parse` too.
    Values,
    /// Counts the digits of each of many texts that are one literal: the library by `count_digits`.
    Counted,
    /// Reads all numbers of a text: the library by one `Bytes` with `clear_counts`, and the others
    /// by a new one for each.
    Cleared,
    /// Counts the digits that begin each of many texts: the library by `pass_digits`.
    Digits,
    /// Counts the zeros that begin each of many texts: the library by `pass_zeros`.
    Zeros,
    /// Reads the integer, the fraction and the exponent of each of many numbers, each by an
    /// iterator of its own over one `Bytes`.
    Floats,
    /// The same: the library by `next_of`.
    FloatsOf,
    /// Reads integer and fraction as one value, and the exponent: the library by `read_digits_of`.
    Mantissas,
    /// Reads the number of each line of a text: the library by `read_integer_from`. In place of the
    /// filter stands `str::parse`, on each line without separators.
    Lines,
    /// Takes each of many numbers apart into mantissa and decimal exponent: the library by
    /// `read_decimal_from`. In place of the filter stands `str::parse`, which makes an `f64`.
    Parts,
    /// Parses each of many texts as a number of a type: the library by `parse_number`. In place of
    /// the filter stands `str::parse`, on the digits without separators.
    NumberOf(Type),
    /// Reads the number of a type that each of many texts begins with: the library by
    /// `read_number`.
    NumberFrom(Type),
    /// Reads each of many integer literals of Rust: the library by `read_literal`. In place of the
    /// filter stands a match on the prefix with `from_str_radix`, without separators.
    RustLiterals,
    /// Parses each of many texts as the nearest `f64`: the library by `parse_float`. The other
    /// sides copy what the iterators answer, and parse it by `str::parse`; the filter has the text
    /// without separators.
    Nearest,
    /// The same of `f32`.
    NearestF32,
    /// Reads the number of JSON that each of many texts begins with, all of one kind: the library by
    /// `read_number_of`. The other sides read an integer as an `i64`, and a float as in `Nearest`;
    /// in place of the filter stands `str::parse`.
    Json(Kind),
    /// The same: the library by the call that reads only this kind, `read_literal` or `read_float`.
    JsonKind(Kind),
}

/// A kind of numbers of JSON.
#[derive(Clone, Copy)]
pub enum Kind {
    Integer,
    Float,
}

/// One side's way to do the work.
pub type Way = Box<dyn Fn(&Text) -> Outcome>;

/// One piece of work on the sides.
pub struct Sides {
    /// The proved library, which learns the word at run time.
    pub library: Way,
    /// The same exports with the word as a constant.
    pub constant: Option<Way>,
    /// Calls in Rust that learn the word at run time.
    pub floor: Way,
    /// Calls in Rust, with the word fixed when the program is compiled.
    pub fixed: Way,
    /// The crate lexical-util, where it is there and its rules are those of the others.
    pub original: Option<Way>,
    /// One pass over the slice.
    pub filter: Option<Way>,
    /// Whether the filter comes to the same value as the others.
    filter_agrees: bool,
}

impl Sides {
    /// The work under a word, by the iterators that drop separators.
    pub fn skip<const WORD: u128>(work: Work) -> Sides {
        Sides::of::<WORD>(|format| skipping(work, format), work)
    }

    /// The work without flags, by the iterator that drops nothing; not handed in, and not on many
    /// texts.
    pub fn plain(work: Work) -> Sides {
        let export = match work {
            Work::Sum => library::digit_bench_plain_sum,
            Work::Peeked => library::digit_bench_plain_peeked,
            _ => library::digit_bench_plain_number,
        };
        Sides::of::<NONE>(|format| exported(export, format), work)
    }

    fn of<const WORD: u128>(library: impl Fn(Format) -> Way, work: Work) -> Sides {
        let at_run_time = Format { word: WORD, is_constant: false };
        let constant = Format { is_constant: true, ..at_run_time };
        Sides {
            library: library(at_run_time),
            constant: has_constant(WORD, work).then(|| library(constant)),
            floor: drained::<Floor>(work, WORD),
            fixed: match work {
                Work::RustLiterals => rust_literals(),
                _ => drained::<Fixed<WORD>>(work, WORD),
            },
            original: original::<WORD>(work),
            filter: filtered::<WORD>(work),
            filter_agrees: !matches!(work, Work::Parts),
        }
    }

    /// The sides that are there.
    pub fn named(&self) -> impl Iterator<Item = (Side, &Way)> {
        [
            (Side::Library, Some(&self.library)),
            (Side::Constant, self.constant.as_ref()),
            (Side::Floor, Some(&self.floor)),
            (Side::Fixed, Some(&self.fixed)),
            (Side::Original, self.original.as_ref()),
            (Side::Filter, self.filter.as_ref()),
        ]
        .into_iter()
        .filter_map(|(side, way)| Some((side, way?)))
    }

    /// Ends the program unless the sides agree on a text. The filter has no count.
    pub fn check(&self, name: &str, text: &Text) {
        let library = self.check_calls(name, text);
        if let Some(filter) = self.filter.as_ref().filter(|_| self.filter_agrees) {
            assert_eq!(library.value, filter(text).value, "{name}: library and filter");
        }
    }

    /// Ends the program unless the sides that have calls agree on a text.
    pub fn check_calls(&self, name: &str, text: &Text) -> Outcome {
        let library = (self.library)(text);
        for (side, way) in self.named().filter(|(side, _)| *side != Side::Filter) {
            let other = way(text);
            let side = side.name();
            assert_eq!(library.value, other.value, "{name}: library and {side}");
            assert_eq!(library.count, other.count, "{name}: counts of library and {side}");
        }
        library
    }
}

/// The library's work by the iterators that drop separators.
fn skipping(work: Work, format: Format) -> Way {
    let export = match work {
        Work::Sum => library::digit_bench_sum,
        Work::Number => library::digit_bench_number,
        Work::Peeked => library::digit_bench_peeked,
        Work::Handed => library::digit_bench_handed,
        Work::Eights => library::digit_bench_eights,
        Work::Numbers => library::digit_bench_numbers,
        Work::Asked => library::digit_bench_asked,
        Work::Stopped => library::digit_bench_stopped,
        Work::Literals => library::digit_bench_literals,
        Work::Mostly => library::digit_bench_mostly,
        Work::Values => library::digit_bench_values,
        Work::Counted => library::digit_bench_counted,
        Work::Cleared => library::digit_bench_cleared,
        Work::Digits => library::digit_bench_digits,
        Work::Zeros => library::digit_bench_zeros,
        Work::Floats => library::digit_bench_floats,
        Work::FloatsOf => library::digit_bench_floats_of,
        Work::Mantissas => library::digit_bench_mantissas,
        Work::Lines => library::digit_bench_lines,
        Work::Parts => library::digit_bench_parts,
        Work::NumberOf(of) => parsed_export(of),
        Work::NumberFrom(of) => read_export(of),
        // the language has the number 0
        Work::RustLiterals => {
            return exported(library::digit_bench_languages, Format { word: 0, ..format });
        }
        Work::Nearest => library::digit_bench_nearest,
        Work::NearestF32 => library::digit_bench_nearest_f32,
        Work::Json(_) => library::digit_bench_json_numbers,
        Work::JsonKind(Kind::Integer) => library::digit_bench_json_integers,
        Work::JsonKind(Kind::Float) => library::digit_bench_json_floats,
    };
    exported(export, format)
}

/// Whether the library has code of its own for the word as a constant, or for the language.
fn has_constant(word: u128, work: Work) -> bool {
    is_constant(word) || matches!(work, Work::RustLiterals)
}

fn parsed_export(of: Type) -> Export {
    match of {
        Type::U8 => library::digit_bench_parsed_u8,
        Type::U16 => library::digit_bench_parsed_u16,
        Type::U32 => library::digit_bench_parsed_u32,
        Type::U64 => library::digit_bench_parsed_u64,
        Type::I32 => library::digit_bench_parsed_i32,
        Type::I64 => library::digit_bench_parsed_i64,
        Type::U128 => library::digit_bench_parsed_u128,
    }
}

fn read_export(of: Type) -> Export {
    match of {
        Type::U8 => library::digit_bench_read_u8,
        Type::U16 => library::digit_bench_read_u16,
        Type::U32 => library::digit_bench_read_u32,
        Type::U64 => library::digit_bench_read_u64,
        Type::I32 => library::digit_bench_read_i32,
        Type::I64 => library::digit_bench_read_i64,
        Type::U128 => library::digit_bench_read_u128,
    }
}

/// The literals of Rust, by code for each of its words.
fn rust_literals() -> Way {
    Box::new(|text| {
        each(text, rust_literal::<Fixed<RUST>, Fixed<RUST_2>, Fixed<RUST_8>, Fixed<RUST_16>>)
    })
}

fn exported(export: Export, format: Format) -> Way {
    Box::new(move |text| library::call(export, &text.bytes, &text.lengths, format))
}

#[cfg(feature = "original")]
fn original<const WORD: u128>(work: Work) -> Option<Way> {
    crate::word::original_agrees(WORD).then(|| drained::<Original<WORD>>(work, WORD))
}

#[cfg(not(feature = "original"))]
fn original<const WORD: u128>(_work: Work) -> Option<Way> {
    None
}

/// The number that has one digit more.
#[inline(always)]
pub fn with_digit(number: u64, byte: u8) -> u64 {
    number.wrapping_mul(10).wrapping_add(u64::from(byte))
}

/// The number that has eight bytes more.
#[inline(always)]
pub fn with_eight(number: u64, eight: u64) -> u64 {
    number.wrapping_mul(31).wrapping_add(eight)
}

/// The three components of a number as one value.
#[inline(always)]
pub fn float_of([integer, fraction, exponent]: [u64; 3]) -> u64 {
    let mantissa = integer.wrapping_mul(31).wrapping_add(fraction);
    mantissa.wrapping_mul(31).wrapping_add(exponent)
}

/// What each of many texts comes to, added up.
#[inline(always)]
pub fn each(text: &Text, work: impl Fn(&[u8]) -> Outcome) -> Outcome {
    let mut total = Outcome::default();
    let mut rest = &text.bytes[..];
    for &length in &text.lengths {
        let Some((first, others)) = rest.split_at_checked(length.into()) else {
            break;
        };
        let outcome = work(first);
        total.value = total.value.wrapping_add(outcome.value);
        total.count = total.count.wrapping_add(outcome.count);
        rest = others;
    }
    total
}
