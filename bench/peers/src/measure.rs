//! Rows that are checked, counted or timed.

use std::hint::black_box;
use std::time::{Duration, Instant};

/// How long each half of the samples takes, for each side.
const HALF: Duration = Duration::from_millis(45);

/// What is read or written.
pub trait Input {
    /// How many numbers there are.
    fn numbers(&self) -> usize;
    /// How many bytes their texts have.
    fn bytes(&self) -> usize;
}

/// A side: its name, and how many `~` stood behind it, which say what of its answer may differ from
/// that of the library.
#[derive(Clone, Copy)]
pub struct Side<I> {
    pub name: &'static str,
    pub way: fn(&I) -> u64,
    pub tildes: usize,
}

/// A row. The first side is the library.
pub struct Row<I> {
    pub name: &'static str,
    pub input: I,
    pub sides: Vec<Side<I>>,
}

/// Adds sides by their names.
macro_rules! sides {
    ($($(#[$cfg:meta])* $name:literal $way:expr;)*) => {{
        let mut sides = Vec::new();
        $($(#[$cfg])* sides.push($crate::measure::side($name, $way));)*
        sides
    }};
}

pub fn side<I>(name: &'static str, way: fn(&I) -> u64) -> Side<I> {
    let bare = name.trim_end_matches('~');
    Side { name: bare, way, tildes: name.len() - bare.len() }
}

/// Does what the program's words ask of the rows that they want: `rows` makes them, and `differing`
/// answers which sides of one differ.
pub fn run<I: Input>(
    rows: impl Fn(&str, &dyn Fn(&str) -> bool) -> Vec<Row<I>>,
    differing: impl Fn(&Row<I>) -> Vec<&'static str>,
) {
    let words: Vec<String> = std::env::args().skip(1).collect();
    let (what, words) = words.split_first().expect("check, once or measure, and words");
    let is_wanted =
        |name: &str| words.is_empty() || words.iter().any(|word| name.contains(word.as_str()));
    let mut are_same = true;
    for row in rows(what, &is_wanted) {
        for side in differing(&row) {
            eprintln!("differs: {}, {side}", row.name);
            are_same = false;
        }
        match what.as_str() {
            "once" => run_once(&row),
            "measure" => measure(&row),
            _ => println!("{}: {} sides", row.name, row.sides.len()),
        }
    }
    if !are_same {
        std::process::exit(1);
    }
}

fn run_once<I: Input>(row: &Row<I>) {
    for side in &row.sides {
        black_box(once(&|| (side.way)(&row.input)));
        println!("{}\t{}\t{}\t{}", row.name, side.name, row.input.numbers(), row.input.bytes());
    }
}

/// What callgrind counts in.
#[inline(never)]
#[unsafe(no_mangle)]
fn once(way: &dyn Fn() -> u64) -> u64 {
    way()
}

/// The least nanoseconds for a number in the first and in the second half of the samples. The sides
/// take turns, so that a slow while of the machine falls on each of them.
fn measure<I: Input>(row: &Row<I>) {
    let halves = [least(row), least(row)];
    for (at, side) in row.sides.iter().enumerate() {
        println!("{}\t{}\t{:.3}\t{:.3}", row.name, side.name, halves[0][at], halves[1][at]);
    }
}

fn least<I: Input>(row: &Row<I>) -> Vec<f64> {
    let mut least = vec![f64::MAX; row.sides.len()];
    let start = Instant::now();
    while start.elapsed() < HALF * row.sides.len() as u32 {
        for (least, side) in least.iter_mut().zip(&row.sides) {
            *least = least.min(sample(side, &row.input));
        }
    }
    least
}

fn sample<I: Input>(side: &Side<I>, input: &I) -> f64 {
    let start = Instant::now();
    black_box((side.way)(black_box(input)));
    start.elapsed().as_nanos() as f64 / input.numbers() as f64
}
