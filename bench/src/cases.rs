//! The ordinary texts.

use crate::measure::Job;
use crate::numbers::Type::{I32, I64, U128, U16, U32, U64, U8};
use crate::texts::{
    coordinates, decimals, digits, each_third, floats, fractions, hex_digits, hex_numbers,
    json_integers, lines, literals, numbers, numbers_in, others, powers, runs, rust_literals, signed,
    stopped, zero_floats, zeros, Text, BASE_36, BINARY, HEX,
};
use crate::word::{
    I, IC, ILTC, I_16, I_2, I_IN_ALL, NONE, NONE_16, NONE_2, NONE_36, RUST,
};
use crate::work::Work::{
    Asked, Cleared, Counted, Digits, Eights, Floats, FloatsOf, Handed, Lines, Literals, Mantissas,
    Mostly, Nearest, NearestF32, Number, NumberFrom, NumberOf, Numbers, Parts, Peeked,
    RustLiterals, Stopped, Sum, Values, Zeros,
};
use crate::work::{Kind, Sides, Work};

/// What is done with one text.
struct Case {
    name: String,
    text: fn() -> Text,
    sides: Sides,
}

impl Case {
    fn run(&self, run: fn(&[Job])) {
        let text = &(self.text)();
        self.sides.check(&self.name, text);
        let job = |(side, way)| Job { case: &self.name, side, text, way };
        run(&self.sides.named().map(job).collect::<Vec<_>>());
    }
}

/// Cases: the name of each, its text, and the sides of its work.
macro_rules! cases {
    ($($name:literal: $text:expr, $kind:ident $(::<$word:ident>)? ($work:expr);)*) => {
        vec![$(Case {
            name: $name.into(),
            text: || $text,
            sides: Sides::$kind$(::<$word>)?($work),
        }),*]
    };
}

/// Runs the wanted cases: measures them, or runs them once.
pub fn run_all(run: fn(&[Job]), is_wanted: impl Fn(&str) -> bool) {
    all().iter().filter(|case| is_wanted(&case.name)).for_each(|case| case.run(run));
}

/// The cases, in the order of the table.
fn all() -> Vec<Case> {
    let groups = [
        drains(),
        short_texts(),
        other_calls(),
        literal_texts(),
        other_texts(),
        shortest_components(),
        number_texts(),
        leading_numbers(),
        other_radices(),
        float_texts(),
        json_texts(),
    ];
    groups.into_iter().flatten().collect()
}

/// Long texts, by `next`.
fn drains() -> Vec<Case> {
    cases! {
        "a: no flags, digits, sum": digits(), skip::<NONE>(Sum);
        "a: no flags, digits, number": digits(), skip::<NONE>(Number);
        "a: plain cursor, sum": digits(), plain(Sum);
        "a: plain cursor, number": digits(), plain(Number);
        "b: I, digits, sum": digits(), skip::<I>(Sum);
        "b: I, digits, number": digits(), skip::<I>(Number);
        "b: I, radix 16, digits, number": hex_digits(), skip::<I_16>(Number);
        "c: I, each third, sum": each_third(), skip::<I>(Sum);
        "c: I, each third, number": each_third(), skip::<I>(Number);
        "d: IC, each third, sum": each_third(), skip::<IC>(Sum);
        "d: IC, each third, number": each_third(), skip::<IC>(Number);
        "e: ILTC, runs of 16, number": runs(16), skip::<ILTC>(Number);
        "e: ILTC, runs of 1,000, number": runs(1000), skip::<ILTC>(Number);
    }
}

/// Many short texts.
fn short_texts() -> Vec<Case> {
    cases! {
        "f: no flags, short numbers": numbers(8..=20, false), skip::<NONE>(Numbers);
        "f: I, short numbers": numbers(8..=20, false), skip::<I>(Numbers);
        "f: I, short grouped numbers": numbers(8..=20, true), skip::<I>(Numbers);
        "f: I, radix 16, short grouped numbers": hex_numbers(8..=20, true), skip::<I_16>(Numbers);
        "f: no flags, 1 to 4 digits": numbers(1..=4, false), skip::<NONE>(Numbers);
        "f: I, 1 to 4 digits": numbers(1..=4, false), skip::<I>(Numbers);
        "f: no flags, 1 to 4 digits, looks asked": numbers(1..=4, false), skip::<NONE>(Asked);
        "f: I, 1 to 4 digits, looks asked": numbers(1..=4, false), skip::<I>(Asked);
        "n: no flags, numbers to a comma": stopped(8..=20, false), skip::<NONE>(Stopped);
        "n: I, numbers to a comma": stopped(8..=20, false), skip::<I>(Stopped);
        "n: I, grouped numbers to a comma": stopped(8..=20, true), skip::<I>(Stopped);
        "n: no flags, 1 to 4 digits to a comma": stopped(1..=4, false), skip::<NONE>(Stopped);
        "n: I, 1 to 4 digits to a comma": stopped(1..=4, false), skip::<I>(Stopped);
    }
}

/// Long texts, by `peek` and `next`, where the `Bytes` is handed in, and eight bytes at a time.
fn other_calls() -> Vec<Case> {
    cases! {
        "h: no flags, digits, peeked": digits(), skip::<NONE>(Peeked);
        "h: plain cursor, peeked": digits(), plain(Peeked);
        "h: I, digits, peeked": digits(), skip::<I>(Peeked);
        "h: I, each third, peeked": each_third(), skip::<I>(Peeked);
        "i: no flags, digits, handed in": digits(), skip::<NONE>(Handed);
        "i: I, digits, handed in": digits(), skip::<I>(Handed);
        "i: I, each third, handed in": each_third(), skip::<I>(Handed);
        "r: no flags, digits, eight at a time": digits(), skip::<NONE>(Eights);
    }
}

/// Integer literals, digits and zeros, by `digit_literals`.
fn literal_texts() -> Vec<Case> {
    cases! {
        "j: no flags, literals": literals(8..=20, false), skip::<NONE>(Literals);
        "j: I, literals": literals(8..=20, false), skip::<I>(Literals);
        "j: I, grouped literals": literals(8..=20, true), skip::<I>(Literals);
        "j: no flags, 1 to 4 digits": literals(1..=4, false), skip::<NONE>(Literals);
        "j: I, 1 to 4 digits": literals(1..=4, false), skip::<I>(Literals);
        "j: no flags, 1 to 4 digits, mostly one word": literals(1..=4, false), skip::<NONE>(Mostly);
        "p: I, grouped, count_digits": literals(8..=20, true), skip::<I>(Counted);
        "t: no flags, lines": lines(8..=18, false), skip::<NONE>(Lines);
        "t: I, grouped, lines": lines(8..=18, true), skip::<I>(Lines);
        "t: no flags, 1 to 4 digits": lines(1..=4, false), skip::<NONE>(Lines);
        "t: I, 1 to 4 digits": lines(1..=4, false), skip::<I>(Lines);
        "q: no flags, clear_counts": stopped(8..=20, false), skip::<NONE>(Cleared);
        "q: I, grouped, clear_counts": stopped(8..=20, true), skip::<I>(Cleared);
        "o: no flags, pass_digits": stopped(8..=20, false), skip::<NONE>(Digits);
        "o: I, grouped, pass_digits": stopped(8..=20, true), skip::<I>(Digits);
        "o: no flags, 1 to 4 digits, pass_digits": stopped(1..=4, false), skip::<NONE>(Digits);
        "o: I, 1 to 4 digits, pass_digits": stopped(1..=4, false), skip::<I>(Digits);
        "o: I, grouped, pass_zeros": zeros(8..=20, true), skip::<I>(Zeros);
    }
}

/// Bytes that are neither digits nor separators, and numbers of three components.
fn other_texts() -> Vec<Case> {
    cases! {
        "k: no flags, other bytes, number": others(), skip::<NONE>(Number);
        "k: I, other bytes, sum": others(), skip::<I>(Sum);
        "k: I, other bytes, number": others(), skip::<I>(Number);
        "k: I, other bytes, peeked": others(), skip::<I>(Peeked);
        "l: no flags, three components": floats(4..=9, 2, false), skip::<NONE>(Floats);
        "l: I, three grouped components": floats(4..=9, 2, true), skip::<I_IN_ALL>(Floats);
        "l: no flags, by next_of": floats(4..=9, 2, false), skip::<NONE>(FloatsOf);
        "l: I, grouped, by next_of": floats(4..=9, 2, true), skip::<I_IN_ALL>(FloatsOf);
        "l: no flags, by read_digits_of": floats(4..=9, 2, false), skip::<NONE>(Mantissas);
        "l: I, grouped, by read_digits_of": floats(4..=9, 2, true), skip::<I_IN_ALL>(Mantissas);
        "s: no flags, mantissa and exponent": floats(4..=9, 2, false), skip::<NONE>(Parts);
        "s: I, grouped, mantissa and exponent": floats(4..=9, 2, true), skip::<I_IN_ALL>(Parts);
    }
}

/// Numbers of three components, of 1 to 4 digits each.
fn shortest_components() -> Vec<Case> {
    cases! {
        "l: no flags, 1 to 4 digits": floats(1..=4, 1, false), skip::<NONE>(Floats);
        "l: I, 1 to 4 digits": floats(1..=4, 1, false), skip::<I_IN_ALL>(Floats);
        "l: no flags, 1 to 4 digits, by next_of": floats(1..=4, 1, false), skip::<NONE>(FloatsOf);
        "l: I, 1 to 4 digits, by next_of": floats(1..=4, 1, false), skip::<I_IN_ALL>(FloatsOf);
        "l: no flags, 1 to 4 digits, read_digits_of":
            floats(1..=4, 1, false), skip::<NONE>(Mantissas);
        "l: I, 1 to 4 digits, read_digits_of": floats(1..=4, 1, false), skip::<I_IN_ALL>(Mantissas);
        "s: no flags, 1 to 4 digits": floats(1..=4, 1, false), skip::<NONE>(Parts);
        "s: I, 1 to 4 digits": floats(1..=4, 1, false), skip::<I_IN_ALL>(Parts);
    }
}

/// Numbers of each type.
fn number_texts() -> Vec<Case> {
    cases! {
        "u: no flags, u64": literals(8..=20, false), skip::<NONE>(NumberOf(U64));
        "u: I, grouped, u64": literals(8..=20, true), skip::<I>(NumberOf(U64));
        "u: no flags, 1 to 4 digits, u64": literals(1..=4, false), skip::<NONE>(NumberOf(U64));
        "u: I, 1 to 4 digits, u64": literals(1..=4, false), skip::<I>(NumberOf(U64));
        "u: no flags, i64": signed(8..=20, false), skip::<NONE>(NumberOf(I64));
        "u: I, grouped, i64": signed(8..=20, true), skip::<I>(NumberOf(I64));
        "u: no flags, 1 or 2 digits, u8": literals(1..=2, false), skip::<NONE>(NumberOf(U8));
        "u: I, 1 or 2 digits, u8": literals(1..=2, false), skip::<I>(NumberOf(U8));
        "u: no flags, 1 to 4 digits, u16": literals(1..=4, false), skip::<NONE>(NumberOf(U16));
        "u: I, 1 to 4 digits, u16": literals(1..=4, false), skip::<I>(NumberOf(U16));
        "u: no flags, u32": literals(8..=9, false), skip::<NONE>(NumberOf(U32));
        "u: I, grouped, u32": literals(8..=9, true), skip::<I>(NumberOf(U32));
        "u: no flags, 1 to 4 digits, u32": literals(1..=4, false), skip::<NONE>(NumberOf(U32));
        "u: I, 1 to 4 digits, u32": literals(1..=4, false), skip::<I>(NumberOf(U32));
        "u: no flags, 5 to 7 digits, u32": literals(5..=7, false), skip::<NONE>(NumberOf(U32));
        "u: I, 5 to 7 digits, u32": literals(5..=7, false), skip::<I>(NumberOf(U32));
        "u: no flags, i32": signed(8..=9, false), skip::<NONE>(NumberOf(I32));
        "u: I, grouped, i32": signed(8..=9, true), skip::<I>(NumberOf(I32));
        "u: no flags, 1 to 4 digits, i32": signed(1..=4, false), skip::<NONE>(NumberOf(I32));
        "u: I, 1 to 4 digits, i32": signed(1..=4, false), skip::<I>(NumberOf(I32));
        "u: no flags, 4 digits, i32": signed(4..=4, false), skip::<NONE>(NumberOf(I32));
        "u: I, 4 digits, i32": signed(4..=4, false), skip::<I>(NumberOf(I32));
        "u: no flags, 1 to 4 digits, i64": signed(1..=4, false), skip::<NONE>(NumberOf(I64));
        "u: I, 1 to 4 digits, i64": signed(1..=4, false), skip::<I>(NumberOf(I64));
        "u: no flags, u128": literals(8..=20, false), skip::<NONE>(NumberOf(U128));
        "u: I, grouped, u128": literals(8..=20, true), skip::<I>(NumberOf(U128));
        "u: no flags, 1 to 4 digits, u128": literals(1..=4, false), skip::<NONE>(NumberOf(U128));
        "u: I, 1 to 4 digits, u128": literals(1..=4, false), skip::<I>(NumberOf(U128));
        "u: no flags, 20 to 39 digits, u128":
            literals(20..=39, false), skip::<NONE>(NumberOf(U128));
        "u: I, grouped, 20 to 39 digits, u128": literals(20..=39, true), skip::<I>(NumberOf(U128));
    }
}

/// Numbers that a text begins with, and literals of Rust.
fn leading_numbers() -> Vec<Case> {
    cases! {
        "v: no flags, u64": literals(8..=20, false), skip::<NONE>(NumberFrom(U64));
        "v: I, grouped, u64": literals(8..=20, true), skip::<I>(NumberFrom(U64));
        "v: no flags, 1 to 4 digits, u64": literals(1..=4, false), skip::<NONE>(NumberFrom(U64));
        "v: I, 1 to 4 digits, u64": literals(1..=4, false), skip::<I>(NumberFrom(U64));
        "v: no flags, 1 or 2 digits, u64": literals(1..=2, false), skip::<NONE>(NumberFrom(U64));
        "v: I, 1 or 2 digits, u64": literals(1..=2, false), skip::<I>(NumberFrom(U64));
        "v: no flags, 8 or 9 digits, u64": literals(8..=9, false), skip::<NONE>(NumberFrom(U64));
        "v: I, grouped, 8 or 9 digits, u64": literals(8..=9, true), skip::<I>(NumberFrom(U64));
        "v: no flags, 1 or 2 digits, u8": literals(1..=2, false), skip::<NONE>(NumberFrom(U8));
        "v: I, 1 or 2 digits, u8": literals(1..=2, false), skip::<I>(NumberFrom(U8));
        "v: no flags, 1 to 4 digits, u16": literals(1..=4, false), skip::<NONE>(NumberFrom(U16));
        "v: I, 1 to 4 digits, u16": literals(1..=4, false), skip::<I>(NumberFrom(U16));
        "v: no flags, 8 or 9 digits, u32": literals(8..=9, false), skip::<NONE>(NumberFrom(U32));
        "v: I, grouped, 8 or 9 digits, u32": literals(8..=9, true), skip::<I>(NumberFrom(U32));
        "v: no flags, 1 to 4 digits, u32": literals(1..=4, false), skip::<NONE>(NumberFrom(U32));
        "v: I, 1 to 4 digits, u32": literals(1..=4, false), skip::<I>(NumberFrom(U32));
        "v: no flags, 8 or 9 digits, i32": literals(8..=9, false), skip::<NONE>(NumberFrom(I32));
        "v: I, grouped, 8 or 9 digits, i32": literals(8..=9, true), skip::<I>(NumberFrom(I32));
        "v: no flags, 1 to 4 digits, i32": literals(1..=4, false), skip::<NONE>(NumberFrom(I32));
        "v: I, 1 to 4 digits, i32": literals(1..=4, false), skip::<I>(NumberFrom(I32));
        "v: no flags, i64": literals(8..=20, false), skip::<NONE>(NumberFrom(I64));
        "v: I, grouped, i64": literals(8..=20, true), skip::<I>(NumberFrom(I64));
        "v: no flags, 1 to 4 digits, i64": literals(1..=4, false), skip::<NONE>(NumberFrom(I64));
        "v: I, 1 to 4 digits, i64": literals(1..=4, false), skip::<I>(NumberFrom(I64));
        "v: no flags, signs, 1 to 4 digits, i64":
            signed(1..=4, false), skip::<NONE>(NumberFrom(I64));
        "v: I, signs, 1 to 4 digits, i64": signed(1..=4, false), skip::<I>(NumberFrom(I64));
        "v: no flags, u128": literals(8..=20, false), skip::<NONE>(NumberFrom(U128));
        "v: I, grouped, u128": literals(8..=20, true), skip::<I>(NumberFrom(U128));
        "v: no flags, 1 to 4 digits, u128": literals(1..=4, false), skip::<NONE>(NumberFrom(U128));
        "v: I, 1 to 4 digits, u128": literals(1..=4, false), skip::<I>(NumberFrom(U128));
        "w: literals of Rust": rust_literals(0..=3, false), skip::<RUST>(RustLiterals);
        "w: grouped literals of Rust": rust_literals(0..=3, true), skip::<RUST>(RustLiterals);
        "w: hexadecimal literals of Rust": rust_literals(3..=3, false), skip::<RUST>(RustLiterals);
        "w: grouped hexadecimal literals of Rust":
            rust_literals(3..=3, true), skip::<RUST>(RustLiterals);
    }
}

/// Integers in other radices than 10, by each of the calls that read one.
fn other_radices() -> Vec<Case> {
    let texts = [
        each_call::<NONE_16>("radix 16, no flags, 1 to 4 digits", || numbers_in(HEX, 1..=4, false)),
        each_call::<I_16>("radix 16, I, 1 to 4 digits", || numbers_in(HEX, 1..=4, false)),
        each_call::<NONE_16>("radix 16, no flags", || numbers_in(HEX, 8..=16, false)),
        each_call::<I_16>("radix 16, I, grouped", || numbers_in(HEX, 8..=16, true)),
        each_call::<NONE_2>("radix 2, no flags", || numbers_in(BINARY, 8..=60, false)),
        each_call::<I_2>("radix 2, I, grouped", || numbers_in(BINARY, 8..=60, true)),
        each_call::<NONE_36>("radix 36, no flags", || numbers_in(BASE_36, 8..=12, false)),
    ];
    texts.into_iter().flatten().collect()
}

/// The calls that read an integer, on one text.
fn each_call<const WORD: u128>(words: &str, text: fn() -> Text) -> Vec<Case> {
    let calls = [
        ("read_integer", Literals),
        ("read_number, u64", NumberFrom(U64)),
        ("parse_number, u64", NumberOf(U64)),
        ("parse_number, u128", NumberOf(U128)),
        ("read_digits_of", Values),
        ("pass_digits", Digits),
        ("iterator", Stopped),
    ];
    let case = |(call, work): (&str, Work)| Case {
        name: format!("y: {words}, {call}"),
        text,
        sides: Sides::skip::<WORD>(work),
    };
    calls.map(case).into()
}

/// Floats.
fn float_texts() -> Vec<Case> {
    cases! {
        "x: no flags, integers of 1 to 4 digits": literals(1..=4, false), skip::<NONE>(Nearest);
        "x: I, integers of 1 to 4 digits": literals(1..=4, false), skip::<I_IN_ALL>(Nearest);
        "x: no flags, integers of 8 to 15 digits": literals(8..=15, false), skip::<NONE>(Nearest);
        "x: I, grouped integers of 8 to 15 digits":
            literals(8..=15, true), skip::<I_IN_ALL>(Nearest);
        "x: no flags, integers of 8 to 20 digits": literals(8..=20, false), skip::<NONE>(Nearest);
        "x: I, grouped integers of 8 to 20 digits":
            literals(8..=20, true), skip::<I_IN_ALL>(Nearest);
        "x: no flags, 1 to 4 digits, a point": decimals(1..=4, false), skip::<NONE>(Nearest);
        "x: I, 1 to 4 digits, a point": decimals(1..=4, false), skip::<I_IN_ALL>(Nearest);
        "x: no flags, 8 to 14 digits, a point": decimals(4..=7, false), skip::<NONE>(Nearest);
        "x: I, grouped, 8 to 14 digits, a point": decimals(4..=7, true), skip::<I_IN_ALL>(Nearest);
        "x: no flags, 8 to 20 digits, a point": decimals(4..=10, false), skip::<NONE>(Nearest);
        "x: I, grouped, 8 to 20 digits, a point": decimals(4..=10, true), skip::<I_IN_ALL>(Nearest);
        "x: no flags, 1 to 4 digits, an exponent": floats(1..=4, 1, false), skip::<NONE>(Nearest);
        "x: I, 1 to 4 digits, an exponent": floats(1..=4, 1, false), skip::<I_IN_ALL>(Nearest);
        "x: no flags, 8 to 18 digits, an exponent": floats(4..=9, 2, false), skip::<NONE>(Nearest);
        "x: I, grouped, 8 to 18 digits, an exponent":
            floats(4..=9, 2, true), skip::<I_IN_ALL>(Nearest);
        "x: no flags, 18 to 40 digits": decimals(9..=20, false), skip::<NONE>(Nearest);
        "x: I, grouped, 18 to 40 digits": decimals(9..=20, true), skip::<I_IN_ALL>(Nearest);
        "x: no flags, in [0, 1) with 17 digits": fractions(), skip::<NONE>(Nearest);
        "x: I, in [0, 1) with 17 digits": fractions(), skip::<I_IN_ALL>(Nearest);
        "x: no flags, zeros": zero_floats(), skip::<NONE>(Nearest);
        "x: I, zeros": zero_floats(), skip::<I_IN_ALL>(Nearest);
        "x: no flags, f32, 1 to 4 digits, a point":
            decimals(1..=4, false), skip::<NONE>(NearestF32);
        "x: I, f32, 1 to 4 digits, a point": decimals(1..=4, false), skip::<I_IN_ALL>(NearestF32);
        "x: no flags, f32, 8 to 20 digits, a point":
            decimals(4..=10, false), skip::<NONE>(NearestF32);
        "x: I, grouped, f32, 8 to 20 digits, a point":
            decimals(4..=10, true), skip::<I_IN_ALL>(NearestF32);
        "x: no flags, f32, 8 to 18 digits, an exponent":
            floats(4..=9, 1, false), skip::<NONE>(NearestF32);
        "x: I, grouped, f32, 8 to 18 digits, an exponent":
            floats(4..=9, 1, true), skip::<I_IN_ALL>(NearestF32);
        "x: no flags, f32, in [0, 1) with 17 digits": fractions(), skip::<NONE>(NearestF32);
        "x: I, f32, in [0, 1) with 17 digits": fractions(), skip::<I_IN_ALL>(NearestF32);
    }
}

/// Numbers of JSON by `read_number_of`, and by the call that reads only their kind.
fn json_texts() -> Vec<Case> {
    let texts: [(&str, Kind, fn() -> Text); 5] = [
        ("integers of 1 to 4 digits", Kind::Integer, || json_integers(1..=4)),
        ("integers of 8 to 19 digits", Kind::Integer, || json_integers(8..=19)),
        ("coordinates", Kind::Float, coordinates),
        ("1 to 3 digits, an exponent", Kind::Float, powers),
        ("in [0, 1) with 17 digits", Kind::Float, fractions),
    ];
    texts.into_iter().flat_map(|(words, kind, text)| of_json(words, kind, text)).collect()
}

fn of_json(words: &str, kind: Kind, text: fn() -> Text) -> [Case; 2] {
    let call = match kind {
        Kind::Integer => "read_literal",
        Kind::Float => "read_float",
    };
    let works = [
        (format!("z: JSON, {words}"), Work::Json(kind)),
        (format!("z: JSON, {words}, by {call}"), Work::JsonKind(kind)),
    ];
    works.map(|(name, work)| Case { name, text, sides: Sides::skip::<NONE>(work) })
}
