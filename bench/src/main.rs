//! Measures the proved digit iterators beside Rust. `bench/run` builds it at several placements and
//! starts it:
//!
//! - `bench measure WORD..` tells the medians of the cases whose name holds one of the words, or of
//!   all;
//! - `bench once WORD..` does the work of those cases once, on texts of an eighth of the size, for
//!   `bench/count`.

mod agree;
mod calls;
mod cases;
mod filter;
mod fixed;
mod floor;
mod hostile;
mod library;
mod measure;
mod numbers;
#[cfg(feature = "original")]
mod original;
mod pad;
mod random;
mod task;
mod texts;
mod told;
mod word;
mod work;

use measure::Job;
use std::sync::atomic::Ordering::Relaxed;

fn main() {
    let words: Vec<String> = std::env::args().skip(1).collect();
    match words.first().map(String::as_str) {
        Some("measure") => measure(&words[1..]),
        Some("once") => {
            texts::SIZE.store(1 << 17, Relaxed);
            run(measure::run_once, &words[1..]);
        }
        _ => eprintln!("usage: bench measure|once [WORD..]"),
    }
}

fn measure(words: &[String]) {
    agree::check_all();
    hostile::check_all();
    run(measure::measure, words);
}

/// Runs the cases whose name holds one of the words: measures them, or runs them once.
fn run(run: fn(&[Job]), words: &[String]) {
    told::program(library::digit_bench_size());
    cases::run_all(run, is_one_of(words));
    hostile::run_all(run, is_one_of(words));
}

/// Whether a name holds one of the words, if there are any.
fn is_one_of(words: &[String]) -> impl Fn(&str) -> bool + '_ {
    |name| words.is_empty() || words.iter().any(|word| name.contains(word))
}
