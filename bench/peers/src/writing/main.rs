//! Measures the library beside other writers of numbers. `run` builds it and starts it:
//!
//! - `writing check ROW..`: compares the texts of all sides
//! - `writing once ROW..`: each side once, for callgrind
//! - `writing measure ROW..`: times, the least of many short samples in turns

#[macro_use]
#[path = "../measure.rs"]
mod measure;
#[path = "../../../src/pad.rs"]
mod pad;
#[path = "../../../src/random.rs"]
mod random;
mod rows;
mod sides;
mod texts;
mod values;

fn main() {
    let count = |what: &str| match what {
        "once" => 1 << 12,
        "check" => 1 << 17,
        _ => 1 << 14,
    };
    measure::run(|what, is_wanted| rows::rows(count(what), is_wanted), texts::differing);
}
