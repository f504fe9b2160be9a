//! The hostile texts: a digit, a run of separators that is kept, and a point.

use crate::library::{self, Format};
use crate::measure::Job;
use crate::texts::{self, Text};
use crate::told::{self, Side};
use crate::word::{IC, LC};
use crate::work::{Sides, Way, Work};

/// How many separators there are.
const LENGTHS: [usize; 4] = [100, 1_000, 10_000, 100_000];
/// The longest run that the other calls are measured on: their time grows with the square.
const LONGEST_SQUARE: usize = 10_000;
/// The cases.
const NAMES: [&str; 2] = ["g: IC, a kept run", "g: LC, a kept run"];

/// What the tables call a case on a run of that length.
fn name_at(name: &str, length: usize) -> String {
    format!("{name} of {length}")
}

/// Ends the program unless the sides agree on the texts, except the longest.
pub fn check_all() {
    for (name, sides) in NAMES.iter().zip(words()) {
        for length in LENGTHS.into_iter().filter(|&length| length <= LONGEST_SQUARE) {
            sides.check(&name_at(name, length), &texts::hostile(length));
        }
    }
}

/// The work under each of the words.
fn words() -> [Sides; 2] {
    [Sides::skip::<IC>(Work::Number), Sides::skip::<LC>(Work::Number)]
}

/// Runs the wanted words: measures them, or runs them once.
pub fn run_all(run: fn(&[Job]), is_wanted: impl Fn(&str) -> bool) {
    for ((name, sides), word) in NAMES.iter().zip(&words()).zip([IC, LC]) {
        if is_wanted(name) {
            run_word(run, name, sides, Format { word, is_constant: false });
        }
    }
}

/// Runs a word. The library takes turns on all lengths, since it is compared with itself.
fn run_word(run: fn(&[Job]), name: &str, sides: &Sides, format: Format) {
    let texts = LENGTHS.map(|length| (name_at(name, length), texts::hostile(length)));
    for (case, text) in &texts {
        let drained = library::call(library::digit_bench_looks, &text.bytes, &[], format);
        told::looks(case, drained.looks as f64 / text.bytes.len() as f64);
    }
    let library = texts.iter().map(|(case, text)| job(case, text, (Side::Library, &sides.library)));
    run(&library.collect::<Vec<_>>());
    for (length, (case, text)) in LENGTHS.iter().zip(&texts) {
        let is_wanted = |side: &Side| match side {
            Side::Library | Side::Constant => false,
            Side::Floor | Side::Fixed | Side::Original => *length <= LONGEST_SQUARE,
            Side::Filter => true,
        };
        let others = sides.named().filter(|(side, _)| is_wanted(side));
        run(&others.map(|other| job(case, text, other)).collect::<Vec<_>>());
    }
}

fn job<'a>(case: &'a str, text: &'a Text, (side, way): (Side, &'a Way)) -> Job<'a> {
    Job { case, side, text, way }
}
