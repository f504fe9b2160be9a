//! Reading numbers from bytes, also with digit separators, and writing them, by the proved library of
//! `digits.h`.
//!
//! ```
//! use digits_sys::{forms, parse, parse_by, parse_json, parse_number, read};
//! use digits_sys::{rooms, statuses, words, write};
//!
//! assert_eq!(parse::<i32>(b"-1000"), Ok(-1000));
//! assert_eq!(parse_by::<f64>(b"1_234.5e-1", words::PYTHON_LITERAL), Ok(123.45));
//! assert_eq!(read::<u32>(b"8080/tcp", 0), Ok((8080, 4))); // the value, and where it ends
//! assert_eq!(parse_json(b"-7")?.as_i64(), Some(-7));
//! assert_eq!(parse_number(b"1_000", forms::TOML)?.as_i64(), Some(1000));
//!
//! let fault = parse::<i32>(b"10x").unwrap_err();
//! assert_eq!((fault.status, fault.at), (statuses::INVALID, 2));
//!
//! let mut out = [0; rooms::F64];
//! assert_eq!(write(0.1, &mut out), Some(&b"0.1"[..]));
//! # Ok::<(), digits_sys::Fault>(())
//! ```
//!
//! A `read` takes the number that begins at a start, and a `parse` the whole text. Positions count
//! bytes from the start of the text, from 0. A `write` gives the text of a number, at the front of a
//! slice. `digits.h` says what each call reads and writes, and its faults.

mod constants;

pub use constants::*;
use std::fmt;

/// What an outcome's status is, of [`statuses`].
#[repr(transparent)]
#[derive(Clone, Copy, Debug, PartialEq, Eq, Hash)]
pub struct Status(u32);

/// The grammar of a language or a data format, of [`forms`].
#[repr(transparent)]
#[derive(Clone, Copy, Debug, PartialEq, Eq, Hash)]
pub struct Form(u32);

/// How a float is laid out, of [`layouts`].
#[repr(transparent)]
#[derive(Clone, Copy, Debug, PartialEq, Eq, Hash)]
pub struct Layout(u32);

/// How an exponent is written, of [`exponents`].
#[repr(transparent)]
#[derive(Clone, Copy, Debug, PartialEq, Eq, Hash)]
pub struct Exponent(u32);

/// A language of literals, of [`languages`].
#[repr(transparent)]
#[derive(Clone, Copy, Debug, PartialEq, Eq, Hash)]
pub struct Language(u32);

/// A format word: radix, separator, and flags that say where separators are dropped. Those with a
/// name are in [`words`].
#[repr(C)]
#[derive(Clone, Copy, Debug, PartialEq, Eq, Hash)]
pub struct Word {
    pub low: u64,
    pub high: u64,
}

impl Word {
    /// A word of a radix from 2 to 36, a separator, or 0 for none, and flags of [`flags`].
    pub const fn new(radix: u8, separator: u8, flags: u64) -> Word {
        Word { low: flags, high: separator as u64 | (radix as u64) << 40 }
    }
}

/// Why there is no number.
#[derive(Clone, Copy, Debug, PartialEq, Eq)]
pub struct Fault {
    pub status: Status,
    /// The position of the byte at fault, or the length of the text.
    pub at: usize,
}

impl fmt::Display for Fault {
    fn fmt(&self, f: &mut fmt::Formatter<'_>) -> fmt::Result {
        let what = match self.status {
            statuses::EMPTY => "no digit",
            statuses::OVERFLOW => "too large",
            statuses::INVALID => "a byte that is no part of the number",
            statuses::EMPTY_EXPONENT => "an exponent without a digit",
            statuses::FIRST_ZERO => "a first 0, which the language refuses",
            statuses::TOO_FINE => "more places than were asked for",
            statuses::BAD_START => "a start after the end of the text",
            statuses::BAD_WORD => "a format word that isn't supported",
            statuses::BAD_PLACES => "more than 38 places",
            statuses::FULL => "no room for more numbers",
            statuses::MORE => "more of the text is needed",
            statuses::OTHER_BYTE => "another byte than the one that has to be there",
            statuses::CLOSED => "a list without a number",
            statuses::TOO_LONG => "a number that is too long for the room of the text",
            statuses::GROUP => "a group of digits that isn't of three",
            statuses::PLACES => "fewer or more places than were asked for",
            Status(status) => return write!(f, "status {status} at byte {}", self.at),
        };
        write!(f, "{what} at byte {}", self.at)
    }
}

impl std::error::Error for Fault {}

/// `digits_outcome`.
#[repr(C)]
struct Outcome {
    at: usize,
    status: Status,
}

/// The value that a call writes and the end of the number, or the call's fault.
#[inline(always)]
fn answer<T: Default>(
    text: &[u8],
    call: impl FnOnce(*const u8, usize, *mut T) -> Outcome,
) -> Result<(T, usize), Fault> {
    let mut value = T::default();
    let Outcome { at, status } = call(text.as_ptr(), text.len(), &mut value);
    match status {
        statuses::OK => Ok((value, at)),
        status => Err(Fault { status, at }),
    }
}

/// The value alone.
fn whole<T>(read: Result<(T, usize), Fault>) -> Result<T, Fault> {
    read.map(|(value, _)| value)
}

// ---- integers and floats ----

mod sealed {
    use super::{Fault, Word};

    pub trait Calls: Sized {
        fn read(text: &[u8], start: usize) -> Result<(Self, usize), Fault>;
        fn read_by(text: &[u8], start: usize, word: Word) -> Result<(Self, usize), Fault>;
        fn parse(text: &[u8]) -> Result<Self, Fault>;
        fn parse_by(text: &[u8], word: Word) -> Result<Self, Fault>;
    }
}

/// A type whose numbers are read: `i64`, `u64`, `i32`, `u32`, `f64`, `f32`.
pub trait Value: sealed::Calls {}

macro_rules! values {
    ($($type:ty: $read:ident $read_by:ident $parse:ident $parse_by:ident;)*) => {$(
        extern "C" {
            fn $read(text: *const u8, length: usize, start: usize, value: *mut $type) -> Outcome;
            fn $read_by(
                text: *const u8, length: usize, start: usize, word: Word, value: *mut $type,
            ) -> Outcome;
            fn $parse(text: *const u8, length: usize, value: *mut $type) -> Outcome;
            fn $parse_by(text: *const u8, length: usize, word: Word, value: *mut $type) -> Outcome;
        }

        // SAFETY of each call: `answer` passes a text with its length, and a place for the value.
        impl sealed::Calls for $type {
            fn read(text: &[u8], start: usize) -> Result<(Self, usize), Fault> {
                answer(text, |t, length, value| unsafe { $read(t, length, start, value) })
            }
            fn read_by(text: &[u8], start: usize, word: Word) -> Result<(Self, usize), Fault> {
                answer(text, |t, length, value| unsafe { $read_by(t, length, start, word, value) })
            }
            fn parse(text: &[u8]) -> Result<Self, Fault> {
                whole(answer(text, |t, length, value| unsafe { $parse(t, length, value) }))
            }
            fn parse_by(text: &[u8], word: Word) -> Result<Self, Fault> {
                whole(answer(text, |t, length, value| unsafe { $parse_by(t, length, word, value) }))
            }
        }

        impl Value for $type {}
    )*};
}

values! {
    i64: digits_read_i64 digits_read_i64_by digits_parse_i64 digits_parse_i64_by;
    u64: digits_read_u64 digits_read_u64_by digits_parse_u64 digits_parse_u64_by;
    i32: digits_read_i32 digits_read_i32_by digits_parse_i32 digits_parse_i32_by;
    u32: digits_read_u32 digits_read_u32_by digits_parse_u32 digits_parse_u32_by;
    f64: digits_read_f64 digits_read_f64_by digits_parse_f64 digits_parse_f64_by;
    f32: digits_read_f32 digits_read_f32_by digits_parse_f32 digits_parse_f32_by;
}

/// The number that begins at a start, and where it ends.
pub fn read<T: Value>(text: &[u8], start: usize) -> Result<(T, usize), Fault> {
    T::read(text, start)
}

/// The same by a word.
pub fn read_by<T: Value>(text: &[u8], start: usize, word: Word) -> Result<(T, usize), Fault> {
    T::read_by(text, start, word)
}

/// The number that a text is.
pub fn parse<T: Value>(text: &[u8]) -> Result<T, Fault> {
    T::parse(text)
}

/// The same by a word.
pub fn parse_by<T: Value>(text: &[u8], word: Word) -> Result<T, Fault> {
    T::parse_by(text, word)
}

// ---- decimal numbers as integers, exactly ----

extern "C" {
    fn digits_read_scaled_i64(
        text: *const u8, length: usize, start: usize, places: usize, value: *mut i64,
    ) -> Outcome;
    fn digits_read_scaled_i64_by(
        text: *const u8, length: usize, start: usize, places: usize, word: Word, point: u8,
        value: *mut i64,
    ) -> Outcome;
    fn digits_parse_scaled_i64(
        text: *const u8, length: usize, places: usize, value: *mut i64,
    ) -> Outcome;
    fn digits_parse_scaled_i64_by(
        text: *const u8, length: usize, places: usize, word: Word, point: u8, value: *mut i64,
    ) -> Outcome;
}

/// The number that begins at a start times ten to the power `places`, and where it ends: of 2
/// places `-12.5` is -1250.
pub fn read_scaled(text: &[u8], start: usize, places: usize) -> Result<(i64, usize), Fault> {
    // SAFETY: as of all calls by `answer`.
    answer(text, |t, n, value| unsafe { digits_read_scaled_i64(t, n, start, places, value) })
}

/// The same by a word, with another byte before the fraction.
pub fn read_scaled_by(
    text: &[u8],
    start: usize,
    places: usize,
    word: Word,
    point: u8,
) -> Result<(i64, usize), Fault> {
    // SAFETY: as of all calls by `answer`.
    answer(text, |t, n, value| unsafe {
        digits_read_scaled_i64_by(t, n, start, places, word, point, value)
    })
}

/// The number that a text is times ten to the power `places`.
pub fn parse_scaled(text: &[u8], places: usize) -> Result<i64, Fault> {
    // SAFETY: as of all calls by `answer`.
    whole(answer(text, |t, n, value| unsafe { digits_parse_scaled_i64(t, n, places, value) }))
}

/// The same by a word, with another byte before the fraction.
pub fn parse_scaled_by(text: &[u8], places: usize, word: Word, point: u8) -> Result<i64, Fault> {
    // SAFETY: as of all calls by `answer`.
    whole(answer(text, |t, n, value| unsafe {
        digits_parse_scaled_i64_by(t, n, places, word, point, value)
    }))
}

// ---- prices ----

extern "C" {
    fn digits_read_price_i64(
        text: *const u8, length: usize, start: usize, places: usize, separator: u8, point: u8,
        value: *mut i64,
    ) -> Outcome;
    fn digits_read_price_i64_by(
        text: *const u8, length: usize, start: usize, places: usize, word: Word, point: u8,
        value: *mut i64,
    ) -> Outcome;
    fn digits_parse_price_i64(
        text: *const u8, length: usize, places: usize, separator: u8, point: u8, value: *mut i64,
    ) -> Outcome;
    fn digits_parse_price_i64_by(
        text: *const u8, length: usize, places: usize, word: Word, point: u8, value: *mut i64,
    ) -> Outcome;
}

/// The price that begins at a start times ten to the power `places`, and where it ends: of 2 places,
/// by `,` and `.`, `1,234.50` is 123450. It has exactly so many places, and a separator between
/// groups of three digits, or by 0 no groups.
pub fn read_price(
    text: &[u8],
    start: usize,
    places: usize,
    separator: u8,
    point: u8,
) -> Result<(i64, usize), Fault> {
    // SAFETY: as of all calls by `answer`.
    answer(text, |t, n, value| unsafe {
        digits_read_price_i64(t, n, start, places, separator, point, value)
    })
}

/// The same by a word: groups are between the separators that it drops.
pub fn read_price_by(
    text: &[u8],
    start: usize,
    places: usize,
    word: Word,
    point: u8,
) -> Result<(i64, usize), Fault> {
    // SAFETY: as of all calls by `answer`.
    answer(text, |t, n, value| unsafe {
        digits_read_price_i64_by(t, n, start, places, word, point, value)
    })
}

/// The price that a text is times ten to the power `places`.
pub fn parse_price(text: &[u8], places: usize, separator: u8, point: u8) -> Result<i64, Fault> {
    // SAFETY: as of all calls by `answer`.
    whole(answer(text, |t, n, value| unsafe {
        digits_parse_price_i64(t, n, places, separator, point, value)
    }))
}

/// The same by a word.
pub fn parse_price_by(text: &[u8], places: usize, word: Word, point: u8) -> Result<i64, Fault> {
    // SAFETY: as of all calls by `answer`.
    whole(answer(text, |t, n, value| unsafe {
        digits_parse_price_i64_by(t, n, places, word, point, value)
    }))
}

// ---- integer literals of a language ----

/// An integer literal.
#[derive(Clone, Copy, Debug, PartialEq, Eq)]
pub struct Literal {
    pub value: u128,
    /// The position of its first digit, after a prefix such as `0x`.
    pub digits: usize,
    pub radix: u32,
}

/// `digits_literal`.
#[repr(C)]
#[derive(Default)]
struct LiteralParts {
    low: u64,
    high: u64,
    digits: usize,
    radix: u32,
}

extern "C" {
    fn digits_read_literal(
        text: *const u8, length: usize, start: usize, language: Language, value: *mut LiteralParts,
    ) -> Outcome;
    fn digits_read_literal_u64(
        text: *const u8, length: usize, start: usize, language: Language, value: *mut u64,
    ) -> Outcome;
}

/// The literal of a language that begins at a start, and where it ends.
pub fn read_literal(
    text: &[u8],
    start: usize,
    language: Language,
) -> Result<(Literal, usize), Fault> {
    // SAFETY: as of all calls by `answer`.
    let read = answer(text, |t, n, value: *mut LiteralParts| unsafe {
        digits_read_literal(t, n, start, language, value)
    });
    read.map(|(parts, end)| {
        let LiteralParts { low, high, digits, radix } = parts;
        (Literal { value: u128::from(low) | u128::from(high) << 64, digits, radix }, end)
    })
}

/// The same as a `u64`.
pub fn read_literal_u64(
    text: &[u8],
    start: usize,
    language: Language,
) -> Result<(u64, usize), Fault> {
    // SAFETY: as of all calls by `answer`.
    answer(text, |t, n, value| unsafe { digits_read_literal_u64(t, n, start, language, value) })
}

// ---- numbers of a form ----

/// A number of a form: `digits_number`. It is an integer of up to 128 bits, or a float.
#[repr(C)]
#[derive(Clone, Copy, Debug, Default, PartialEq)]
pub struct Number {
    value: f64,
    low: u64,
    high: u64,
    kind: u32,
    is_negative: bool,
}

impl Number {
    /// The float, or the one nearest to the integer.
    pub fn to_f64(self) -> f64 {
        self.value
    }

    /// Whether the number is an integer: `1.0` and `1e2` are floats.
    pub fn is_integer(self) -> bool {
        self.kind == kinds::INTEGER
    }

    /// Whether a minus is before an integer, also before `-0`, and its magnitude.
    pub fn integer(self) -> Option<(bool, u128)> {
        let magnitude = u128::from(self.low) | u128::from(self.high) << 64;
        self.is_integer().then_some((self.is_negative, magnitude))
    }

    /// The integer that the number is, if the type has it.
    pub fn as_i64(self) -> Option<i64> {
        let mut integer = 0;
        // SAFETY: both point to an object of their type.
        unsafe { digits_as_i64(&self, &mut integer) }.then_some(integer)
    }

    /// The integer that the number is, if the type has it.
    pub fn as_u64(self) -> Option<u64> {
        let mut integer = 0;
        // SAFETY: both point to an object of their type.
        unsafe { digits_as_u64(&self, &mut integer) }.then_some(integer)
    }
}

extern "C" {
    fn digits_read_json(
        text: *const u8, length: usize, start: usize, number: *mut Number,
    ) -> Outcome;
    fn digits_parse_json(text: *const u8, length: usize, number: *mut Number) -> Outcome;
    fn digits_read_number(
        text: *const u8, length: usize, start: usize, form: Form, number: *mut Number,
    ) -> Outcome;
    fn digits_parse_number(
        text: *const u8, length: usize, form: Form, number: *mut Number,
    ) -> Outcome;
    fn digits_as_i64(number: *const Number, integer: *mut i64) -> bool;
    fn digits_as_u64(number: *const Number, integer: *mut u64) -> bool;
}

/// The number of JSON that begins at a start, and where it ends.
pub fn read_json(text: &[u8], start: usize) -> Result<(Number, usize), Fault> {
    // SAFETY: as of all calls by `answer`.
    answer(text, |t, n, number| unsafe { digits_read_json(t, n, start, number) })
}

/// The number of JSON that a text is.
pub fn parse_json(text: &[u8]) -> Result<Number, Fault> {
    // SAFETY: as of all calls by `answer`.
    whole(answer(text, |t, n, number| unsafe { digits_parse_json(t, n, number) }))
}

/// The number of a form that begins at a start, and where it ends.
pub fn read_number(text: &[u8], start: usize, form: Form) -> Result<(Number, usize), Fault> {
    // SAFETY: as of all calls by `answer`.
    answer(text, |t, n, number| unsafe { digits_read_number(t, n, start, form, number) })
}

/// The number of a form that a text is.
pub fn parse_number(text: &[u8], form: Form) -> Result<Number, Fault> {
    // SAFETY: as of all calls by `answer`.
    whole(answer(text, |t, n, number| unsafe { digits_parse_number(t, n, form, number) }))
}

// ---- lists of numbers ----

/// What was read of a list.
#[derive(Clone, Copy, Debug, PartialEq, Eq)]
pub struct List {
    /// How many numbers were written.
    pub count: usize,
    /// Why there are no more.
    pub end: End,
}

/// Why a list was read no further.
#[derive(Clone, Copy, Debug, PartialEq, Eq)]
pub enum End {
    /// The list is over, before this position.
    Over(usize),
    /// The slice is full; the list goes on at this position.
    Full(usize),
    /// A number is missing where one has to be, or it is refused.
    Fault(Fault),
}

/// What was read of a list in a piece of a text.
#[derive(Clone, Copy, Debug, PartialEq, Eq)]
pub struct Piece {
    /// How many numbers were written.
    pub count: usize,
    /// Why there are no more.
    pub end: PieceEnd,
}

/// Why a piece was read no further.
#[derive(Clone, Copy, Debug, PartialEq, Eq)]
pub enum PieceEnd {
    /// More of the text is needed: the bytes from this position on have to come again, with what
    /// follows them.
    More(usize),
    /// The list is over, before this position.
    Over(usize),
    /// The slice is full; the list goes on at this position.
    Full(usize),
    /// A number is missing where one has to be, or it is refused.
    Fault(Fault),
}

/// What a call writes into a slice, and its outcome.
#[inline(always)]
fn fill<T>(
    text: &[u8],
    numbers: &mut [T],
    call: impl FnOnce(*const u8, usize, *mut T, usize, *mut usize) -> Outcome,
) -> (usize, Outcome) {
    let mut count = 0;
    let end = call(text.as_ptr(), text.len(), numbers.as_mut_ptr(), numbers.len(), &mut count);
    (count, end)
}

/// What a call of a list answered.
fn list((count, Outcome { at, status }): (usize, Outcome)) -> List {
    let end = match status {
        statuses::OK => End::Over(at),
        statuses::FULL => End::Full(at),
        status => End::Fault(Fault { status, at }),
    };
    List { count, end }
}

/// What a call of a whole list answered.
fn whole_list((count, Outcome { at, status }): (usize, Outcome)) -> Result<usize, Fault> {
    match status {
        statuses::OK => Ok(count),
        status => Err(Fault { status, at }),
    }
}

/// What a call of a piece answered.
fn piece((count, Outcome { at, status }): (usize, Outcome)) -> Piece {
    let end = match status {
        statuses::MORE => PieceEnd::More(at),
        statuses::OK => PieceEnd::Over(at),
        statuses::FULL => PieceEnd::Full(at),
        status => PieceEnd::Fault(Fault { status, at }),
    };
    Piece { count, end }
}

mod sealed_list {
    use super::{Fault, List, Piece};

    pub trait Calls: Sized {
        fn read_list(text: &[u8], start: usize, between: u8, numbers: &mut [Self]) -> List;
        fn parse_list(text: &[u8], between: u8, numbers: &mut [Self]) -> Result<usize, Fault>;
        fn read_piece(
            text: &[u8],
            start: usize,
            between: u8,
            is_last: bool,
            numbers: &mut [Self],
        ) -> Piece;
    }
}

/// A type whose lists are read: `i64`, `u64`, `f64`.
pub trait ListValue: sealed_list::Calls {}

macro_rules! list_values {
    ($($type:ty: $read_list:ident $parse_list:ident $read_piece:ident;)*) => {$(
        extern "C" {
            fn $read_list(
                text: *const u8, length: usize, start: usize, between: u8, numbers: *mut $type,
                room: usize, count: *mut usize,
            ) -> Outcome;
            fn $parse_list(
                text: *const u8, length: usize, between: u8, numbers: *mut $type, room: usize,
                count: *mut usize,
            ) -> Outcome;
            fn $read_piece(
                text: *const u8, length: usize, start: usize, between: u8, is_last: bool,
                numbers: *mut $type, room: usize, count: *mut usize,
            ) -> Outcome;
        }

        // SAFETY of each call: `fill` passes text and numbers with their lengths, and a place for the
        // count.
        impl sealed_list::Calls for $type {
            fn read_list(text: &[u8], start: usize, between: u8, numbers: &mut [Self]) -> List {
                list(fill(text, numbers, |t, n, to, room, count| unsafe {
                    $read_list(t, n, start, between, to, room, count)
                }))
            }
            fn parse_list(
                text: &[u8],
                between: u8,
                numbers: &mut [Self],
            ) -> Result<usize, Fault> {
                whole_list(fill(text, numbers, |t, n, to, room, count| unsafe {
                    $parse_list(t, n, between, to, room, count)
                }))
            }
            fn read_piece(
                text: &[u8],
                start: usize,
                between: u8,
                is_last: bool,
                numbers: &mut [Self],
            ) -> Piece {
                piece(fill(text, numbers, |t, n, to, room, count| unsafe {
                    $read_piece(t, n, start, between, is_last, to, room, count)
                }))
            }
        }

        impl ListValue for $type {}
    )*};
}

list_values! {
    i64: digits_read_i64_list digits_parse_i64_list digits_read_i64_piece;
    u64: digits_read_u64_list digits_parse_u64_list digits_read_u64_piece;
    f64: digits_read_f64_list digits_parse_f64_list digits_read_f64_piece;
}

extern "C" {
    fn digits_read_number_list(
        text: *const u8, length: usize, start: usize, form: Form, between: u8, numbers: *mut Number,
        room: usize, count: *mut usize,
    ) -> Outcome;
    fn digits_parse_number_list(
        text: *const u8, length: usize, form: Form, between: u8, numbers: *mut Number, room: usize,
        count: *mut usize,
    ) -> Outcome;
    fn digits_read_number_piece(
        text: *const u8, length: usize, start: usize, form: Form, between: u8, is_last: bool,
        numbers: *mut Number, room: usize, count: *mut usize,
    ) -> Outcome;
}

/// The numbers of a list that begins at a start, as many as the slice has room for. `between` is the
/// byte between two numbers, and blanks may be around it; b' ' stands for any blanks, b'\n' for a
/// line feed, which may follow the last number too.
pub fn read_list<T: ListValue>(
    text: &[u8],
    start: usize,
    between: u8,
    numbers: &mut [T],
) -> List {
    T::read_list(text, start, between, numbers)
}

/// The same of numbers of a form.
pub fn read_number_list(
    text: &[u8],
    start: usize,
    form: Form,
    between: u8,
    numbers: &mut [Number],
) -> List {
    // SAFETY: as of all calls by `fill`.
    list(fill(text, numbers, |t, n, to, room, count| unsafe {
        digits_read_number_list(t, n, start, form, between, to, room, count)
    }))
}

/// The numbers of a whole text, which has to be one list: how many they are. `INVALID` is a list that
/// is over before the text, and `FULL` one with a number more, at this position, than the slice has
/// room for. After a fault, too, the numbers before it are at the front of the slice.
pub fn parse_list<T: ListValue>(
    text: &[u8],
    between: u8,
    numbers: &mut [T],
) -> Result<usize, Fault> {
    T::parse_list(text, between, numbers)
}

/// The same of numbers of a form.
pub fn parse_number_list(
    text: &[u8],
    form: Form,
    between: u8,
    numbers: &mut [Number],
) -> Result<usize, Fault> {
    // SAFETY: as of all calls by `fill`.
    whole_list(fill(text, numbers, |t, n, to, room, count| unsafe {
        digits_parse_number_list(t, n, form, between, to, room, count)
    }))
}

// ---- blanks, and bytes around a list ----

extern "C" {
    fn digits_past_blanks(text: *const u8, length: usize, start: usize) -> usize;
    fn digits_expect_byte(text: *const u8, length: usize, start: usize, byte: u8) -> Outcome;
    fn digits_open_list(
        text: *const u8, length: usize, start: usize, opening: u8, closing: u8,
    ) -> Outcome;
}

/// The first position from a start on without a blank, or the length.
pub fn past_blanks(text: &[u8], start: usize) -> usize {
    // SAFETY: the text has this length.
    unsafe { digits_past_blanks(text.as_ptr(), text.len(), start) }
}

/// The position after a byte, which blanks may be before.
pub fn expect_byte(text: &[u8], start: usize, byte: u8) -> Result<usize, Fault> {
    // SAFETY: the text has this length.
    match unsafe { digits_expect_byte(text.as_ptr(), text.len(), start, byte) } {
        Outcome { at, status: statuses::OK } => Ok(at),
        Outcome { at, status } => Err(Fault { status, at }),
    }
}

/// What follows the byte that opens a list.
#[derive(Clone, Copy, Debug, PartialEq, Eq)]
pub enum Opened {
    /// The first number has to be at this position.
    First(usize),
    /// The list is empty. The byte that closes it is before this position.
    Closed(usize),
}

/// What follows the byte that opens a list, such as `[`, which blanks may be before.
pub fn open_list(text: &[u8], start: usize, opening: u8, closing: u8) -> Result<Opened, Fault> {
    // SAFETY: the text has this length.
    match unsafe { digits_open_list(text.as_ptr(), text.len(), start, opening, closing) } {
        Outcome { at, status: statuses::OK } => Ok(Opened::First(at)),
        Outcome { at, status: statuses::CLOSED } => Ok(Opened::Closed(at)),
        Outcome { at, status } => Err(Fault { status, at }),
    }
}

// ---- a text that comes in pieces ----

extern "C" {
    fn digits_read_scaled_i64_piece(
        text: *const u8, length: usize, start: usize, places: usize, between: u8, is_last: bool,
        numbers: *mut i64, room: usize, count: *mut usize,
    ) -> Outcome;
    fn digits_read_price_i64_piece(
        text: *const u8, length: usize, start: usize, places: usize, separator: u8, point: u8,
        between: u8, is_last: bool, numbers: *mut i64, room: usize, count: *mut usize,
    ) -> Outcome;
    fn digits_keep(text: *mut u8, room: usize, length: *mut usize, list: Outcome) -> Outcome;
    fn digits_block_start(text: *const u8, length: usize, at: usize, between: u8) -> usize;
    fn digits_sure_end(text: *const u8, length: usize) -> usize;
    fn digits_sure_end_of(text: *const u8, length: usize, form: Form) -> usize;
    fn digits_sure_end_by(text: *const u8, length: usize, word: Word) -> usize;
}

/// The numbers of a list in a piece of a text, as of [`read_list`]. What is read stays, whatever
/// follows the piece; `is_last` says that nothing does, as where a read gave 0 bytes: one of a socket
/// often gives fewer than there is room for.
pub fn read_piece<T: ListValue>(
    text: &[u8],
    start: usize,
    between: u8,
    is_last: bool,
    numbers: &mut [T],
) -> Piece {
    T::read_piece(text, start, between, is_last, numbers)
}

/// The same of numbers of a form.
pub fn read_number_piece(
    text: &[u8],
    start: usize,
    form: Form,
    between: u8,
    is_last: bool,
    numbers: &mut [Number],
) -> Piece {
    // SAFETY: as of all calls by `fill`.
    piece(fill(text, numbers, |t, n, to, room, count| unsafe {
        digits_read_number_piece(t, n, start, form, between, is_last, to, room, count)
    }))
}

/// The same of decimal numbers as integers, exactly: each times ten to the power `places`.
pub fn read_scaled_piece(
    text: &[u8],
    start: usize,
    places: usize,
    between: u8,
    is_last: bool,
    numbers: &mut [i64],
) -> Piece {
    // SAFETY: as of all calls by `fill`.
    piece(fill(text, numbers, |t, n, to, room, count| unsafe {
        digits_read_scaled_i64_piece(t, n, start, places, between, is_last, to, room, count)
    }))
}

/// The same of prices, as of [`read_price`].
#[allow(clippy::too_many_arguments)]
pub fn read_price_piece(
    text: &[u8],
    start: usize,
    places: usize,
    separator: u8,
    point: u8,
    between: u8,
    is_last: bool,
    numbers: &mut [i64],
) -> Piece {
    // SAFETY: as of all calls by `fill`.
    piece(fill(text, numbers, |t, n, to, room, count| unsafe {
        digits_read_price_i64_piece(
            t, n, start, places, separator, point, between, is_last, to, room, count,
        )
    }))
}

/// Moves the bytes from `at` on of a piece, which is the first `length` bytes of a room, to the front
/// of the room, as where a piece asked for [`More`](PieceEnd::More), and gives their number.
/// `TOO_LONG`: they fill the room, so nothing more can be read.
pub fn keep(room: &mut [u8], length: usize, at: usize) -> Result<usize, Fault> {
    let (mut kept, more) = (length, Outcome { at, status: statuses::MORE });
    // SAFETY: the room has this length, and the place for the number of bytes is none of it.
    match unsafe { digits_keep(room.as_mut_ptr(), room.len(), &mut kept, more) } {
        Outcome { status: statuses::MORE, .. } => Ok(kept),
        Outcome { at, status } => Err(Fault { status, at }),
    }
}

/// The first position from `at` on where a block of a list may begin that is read by itself: where
/// the text begins, or after `between`, by b' ' after a blank; or the length. So a text may be cut
/// anywhere: the number that is cut belongs to the block that it begins in. [`read_piece`] reads a
/// block; the one that ends where the text ends is the last.
pub fn block_start(text: &[u8], at: usize, between: u8) -> usize {
    // SAFETY: the text has this length.
    unsafe { digits_block_start(text.as_ptr(), text.len(), at, between) }
}

/// Up to where a piece is sure: what a `read` without a word answers at a start before this position
/// stays, whatever follows the piece.
pub fn sure_end(text: &[u8]) -> usize {
    // SAFETY: the text has this length.
    unsafe { digits_sure_end(text.as_ptr(), text.len()) }
}

/// The same of a `read` by a form.
pub fn sure_end_of(text: &[u8], form: Form) -> usize {
    // SAFETY: the text has this length.
    unsafe { digits_sure_end_of(text.as_ptr(), text.len(), form) }
}

/// The same of a `read` by a word.
pub fn sure_end_by(text: &[u8], word: Word) -> usize {
    // SAFETY: the text has this length.
    unsafe { digits_sure_end_by(text.as_ptr(), text.len(), word) }
}

// ---- numbers that are written ----

/// The text that a call leaves at the front of a slice. `None`: there is no room for it, or no text,
/// and nothing was written.
#[inline(always)]
fn text(places: &mut [u8], call: impl FnOnce(*mut u8, usize) -> usize) -> Option<&[u8]> {
    let length = call(places.as_mut_ptr(), places.len());
    (length > 0).then(|| &places[..length])
}

mod sealed_write {
    pub trait Calls: Sized {
        fn write(self, places: &mut [u8]) -> Option<&[u8]>;
    }
}

/// A type whose numbers are written: `i64`, `u64`, `i32`, `u32`, `f64`, `f32`.
pub trait WrittenValue: sealed_write::Calls {}

macro_rules! written_values {
    ($($type:ty: $write:ident;)*) => {$(
        extern "C" {
            fn $write(places: *mut u8, room: usize, value: $type) -> usize;
        }

        impl sealed_write::Calls for $type {
            fn write(self, places: &mut [u8]) -> Option<&[u8]> {
                // SAFETY: `text` passes places with their number.
                text(places, |to, room| unsafe { $write(to, room, self) })
            }
        }

        impl WrittenValue for $type {}
    )*};
}

written_values! {
    i64: digits_write_i64;
    u64: digits_write_u64;
    i32: digits_write_i32;
    u32: digits_write_u32;
    f64: digits_write_f64;
    f32: digits_write_f32;
}

extern "C" {
    fn digits_write_i64_grouped(
        places: *mut u8, room: usize, value: i64, separator: u8, every: u8,
    ) -> usize;
    fn digits_write_u64_grouped(
        places: *mut u8, room: usize, value: u64, separator: u8, every: u8,
    ) -> usize;
    fn digits_write_scaled_i64(
        places: *mut u8, room: usize, value: i64, decimals: usize,
    ) -> usize;
    fn digits_write_price_i64(
        places: *mut u8, room: usize, value: i64, decimals: usize, separator: u8, point: u8,
    ) -> usize;
    fn digits_write_f64_in(places: *mut u8, room: usize, value: f64, layout: Layout) -> usize;
    fn digits_write_f32_in(places: *mut u8, room: usize, value: f32, layout: Layout) -> usize;
    fn digits_write_f64_fixed(places: *mut u8, room: usize, value: f64, decimals: u32) -> usize;
    fn digits_write_f64_scientific(
        places: *mut u8, room: usize, value: f64, decimals: u32, exponent: Exponent,
    ) -> usize;
    fn digits_write_f64_of(places: *mut u8, room: usize, value: f64, form: Form) -> usize;
    fn digits_write_i64_of(places: *mut u8, room: usize, value: i64, form: Form) -> usize;
}

/// The shortest text of an integer or a float, at the front of a slice of `rooms` bytes. `None`:
/// there is no room, or the float isn't finite.
pub fn write<T: WrittenValue>(value: T, places: &mut [u8]) -> Option<&[u8]> {
    value.write(places)
}

/// The text of an integer in groups of so many digits, counted from the last one. `None` too: the
/// separator is a digit or 0.
pub fn write_i64_grouped(value: i64, separator: u8, every: u8, places: &mut [u8]) -> Option<&[u8]> {
    // SAFETY: as of all calls by `text`.
    text(places, |to, room| unsafe { digits_write_i64_grouped(to, room, value, separator, every) })
}

/// The same of a `u64`.
pub fn write_u64_grouped(value: u64, separator: u8, every: u8, places: &mut [u8]) -> Option<&[u8]> {
    // SAFETY: as of all calls by `text`.
    text(places, |to, room| unsafe { digits_write_u64_grouped(to, room, value, separator, every) })
}

/// The text of an amount in units of its last place: -1250 of 2 decimals is `-12.50`.
pub fn write_scaled(value: i64, decimals: usize, places: &mut [u8]) -> Option<&[u8]> {
    // SAFETY: as of all calls by `text`.
    text(places, |to, room| unsafe { digits_write_scaled_i64(to, room, value, decimals) })
}

/// The same with another point, and with a separator between groups of three digits, or 0 for none.
pub fn write_price(
    value: i64,
    decimals: usize,
    separator: u8,
    point: u8,
    places: &mut [u8],
) -> Option<&[u8]> {
    // SAFETY: as of all calls by `text`.
    text(places, |to, room| unsafe {
        digits_write_price_i64(to, room, value, decimals, separator, point)
    })
}

/// The shortest text of a float in a layout.
pub fn write_f64_in(value: f64, layout: Layout, places: &mut [u8]) -> Option<&[u8]> {
    // SAFETY: as of all calls by `text`.
    text(places, |to, room| unsafe { digits_write_f64_in(to, room, value, layout) })
}

/// The same of an `f32`.
pub fn write_f32_in(value: f32, layout: Layout, places: &mut [u8]) -> Option<&[u8]> {
    // SAFETY: as of all calls by `text`.
    text(places, |to, room| unsafe { digits_write_f32_in(to, room, value, layout) })
}

/// The text of a float with a fixed number of decimals.
pub fn write_fixed(value: f64, decimals: u32, places: &mut [u8]) -> Option<&[u8]> {
    // SAFETY: as of all calls by `text`.
    text(places, |to, room| unsafe { digits_write_f64_fixed(to, room, value, decimals) })
}

/// The same with one digit before the point and an exponent.
pub fn write_scientific(
    value: f64,
    decimals: u32,
    exponent: Exponent,
    places: &mut [u8],
) -> Option<&[u8]> {
    // SAFETY: as of all calls by `text`.
    text(places, |to, room| unsafe {
        digits_write_f64_scientific(to, room, value, decimals, exponent)
    })
}

/// The text of a float as a language or a data format has it. `None` too: the form has no such
/// float.
pub fn write_f64_of(value: f64, form: Form, places: &mut [u8]) -> Option<&[u8]> {
    // SAFETY: as of all calls by `text`.
    text(places, |to, room| unsafe { digits_write_f64_of(to, room, value, form) })
}

/// The same of an `i64`.
pub fn write_i64_of(value: i64, form: Form, places: &mut [u8]) -> Option<&[u8]> {
    // SAFETY: as of all calls by `text`.
    text(places, |to, room| unsafe { digits_write_i64_of(to, room, value, form) })
}
