//! The sides on many small texts, before anything is timed.

use crate::library::{self, Format};
use crate::numbers::{leading_json, Type};
use crate::texts::Text;
use crate::word::{in_all, with_flags, NONE};
use crate::work::{Sides, Work};

/// The longest of the texts.
const LONGEST: usize = 6;
/// A zero, another digit, the separator, and a byte that is neither.
const ALPHABET: &[u8] = b"07_.";
/// Two digits, and the bytes that a number of JSON has besides.
const JSON: &[u8] = b"07.e-+";

/// Checks each of the flag states that are named.
macro_rules! check_states {
    ($texts:expr, $($state:literal)*) => {
        $(check::<{ with_flags($state) }, { in_all(with_flags($state)) }>($texts);)*
    };
}

/// Ends the program unless the sides agree on every text of up to six of four bytes, under each of
/// the sixteen flag states.
pub fn check_all() {
    check_states!(&all_texts(ALPHABET), 0 1 2 3 4 5 6 7 8 9 10 11 12 13 14 15);
    check_json();
}

/// Checks the numbers of JSON on every text of up to six of its bytes, by a reader of its grammar
/// with `str::parse`.
fn check_json() {
    for text in all_texts(JSON) {
        let wanted = leading_json(&text.bytes).unwrap_or_default();
        for is_constant in [false, true] {
            let format = Format { word: NONE, is_constant };
            let export = library::digit_bench_json_numbers;
            let read = library::call(export, &text.bytes, &text.lengths, format);
            let name = name_of(NONE, &text);
            assert_eq!(read.value, wanted.value, "{name}: a number of JSON");
            assert_eq!(read.count, wanted.count, "{name}: where a number of JSON ends");
        }
    }
}

/// Checks the flag state of a word: in the integer only, and in all three components.
fn check<const WORD: u128, const IN_ALL: u128>(texts: &[Text]) {
    for work in [Work::Sum, Work::Number, Work::Peeked, Work::Handed] {
        let sides = Sides::skip::<WORD>(work);
        for text in texts {
            sides.check(&name_of(WORD, text), text);
        }
    }
    for work in [
        Work::Stopped,
        Work::Literals,
        Work::Values,
        Work::Counted,
        Work::Digits,
        Work::Zeros,
        Work::NumberOf(Type::U8),
        Work::NumberOf(Type::U64),
        Work::NumberOf(Type::I64),
        Work::NumberOf(Type::U128),
        Work::NumberFrom(Type::U64),
        Work::NumberFrom(Type::I64),
    ] {
        check_calls::<WORD>(work, texts);
    }
    for work in [Work::Floats, Work::FloatsOf, Work::Mantissas, Work::Nearest, Work::NearestF32] {
        check_calls::<IN_ALL>(work, texts);
    }
}

fn check_calls<const WORD: u128>(work: Work, texts: &[Text]) {
    let sides = Sides::skip::<WORD>(work);
    for text in texts {
        sides.check_calls(&name_of(WORD, text), text);
    }
}

fn name_of(word: u128, text: &Text) -> String {
    format!("word {word:#x}, {:?}", text.bytes.escape_ascii().to_string())
}

fn all_texts(alphabet: &[u8]) -> Vec<Text> {
    let mut texts: Vec<Vec<u8>> = vec![Vec::new()];
    let mut shorter = 0;
    while texts[shorter].len() < LONGEST {
        for &byte in alphabet {
            texts.push([&texts[shorter][..], &[byte]].concat());
        }
        shorter += 1;
    }
    texts.into_iter().map(one_number).collect()
}

/// Bytes as the only number of a text.
fn one_number(bytes: Vec<u8>) -> Text {
    let lengths = vec![bytes.len() as u8];
    Text { lengths, ..Text::from(bytes) }
}
