//! What a program tells `bench/cases.py`: lines of fields with a tab between them. `bench/count`
//! tells its instructions in the same form.

use crate::library;
use crate::pad::PAD;

/// One of those that are compared.
#[derive(Clone, Copy, PartialEq, Eq)]
pub enum Side {
    Library,
    Constant,
    Floor,
    Fixed,
    Original,
    Filter,
}

impl Side {
    /// What the tables call it.
    pub fn name(self) -> &'static str {
        match self {
            Side::Library => "Library",
            Side::Constant => "Constant",
            Side::Floor => "Floor",
            Side::Fixed => "Fixed word",
            Side::Original => "Original",
            Side::Filter => "Filter",
        }
    }
}

/// Tells what one median was, in nanoseconds for each byte.
pub fn time(case: &str, side: Side, nanoseconds: f64) {
    println!("time\t{case}\t{}\t{}\t{nanoseconds}", side.name(), PAD);
}

/// Tells how many looks at a byte the library counted, for each byte.
pub fn looks(case: &str, looks: f64) {
    println!("looks\t{case}\t{looks}");
}

/// Tells where the code of this program lies, and how large a `Bytes` is.
pub fn program(size: usize) {
    let [library, rust] = offsets();
    println!("program\t{PAD}\t{library}\t{rust}\t{size}");
}

/// How many bytes a stretch of code takes that the processor fetches and keeps as one.
const LINE: usize = 64;

/// Where in such a stretch the library's code begins, and where that of this program does.
fn offsets() -> [usize; 2] {
    [library::digit_bench_sum as *const () as usize % LINE, offsets as *const () as usize % LINE]
}
