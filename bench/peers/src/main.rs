//! Measures the library beside other readers of numbers. `run` builds it and starts it:
//!
//! - `reading check ROW..`: compares the sums of all sides
//! - `reading once ROW..`: each side once, for callgrind
//! - `reading measure ROW..`: times, the least of many short samples in turns

#[macro_use]
mod measure;
#[path = "../../src/pad.rs"]
mod pad;
#[path = "../../src/random.rs"]
mod random;
mod rows;
mod sides;
#[path = "../../src/task.rs"]
mod task;
mod texts;

use measure::{Input, Row};
use texts::Text;

impl Input for Text {
    fn numbers(&self) -> usize {
        self.lengths.len()
    }

    fn bytes(&self) -> usize {
        self.bytes.len()
    }
}

fn main() {
    let size = |what: &str| match what {
        "once" => 1 << 15,
        "check" => 1 << 20,
        _ => 1 << 18,
    };
    measure::run(|what, is_wanted| rows::rows(size(what), is_wanted), differing);
}

/// The sides whose sum isn't that of the library, and should be.
fn differing(row: &Row<Text>) -> Vec<&'static str> {
    let sum = (row.sides[0].way)(&row.input);
    let asked = row.sides.iter().filter(|side| side.tildes == 0);
    asked.filter(|side| (side.way)(&row.input) != sum).map(|side| side.name).collect()
}
