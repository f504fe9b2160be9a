//! Rust's standard library.

use super::each;
use crate::values::Numbers;
use std::io::Write;

/// Writes by a format into the slice of the caller.
macro_rules! sides {
    ($($name:ident $field:ident $format:literal;)*) => {
        $(pub fn $name(numbers: &Numbers) -> u64 {
            each(numbers, &numbers.$field, |value, out| {
                let room = out.len();
                let mut rest = out;
                if write!(rest, $format, value).is_err() {
                    return 0;
                }
                room - rest.len()
            })
        })*
    };
}

sides! {
    u64 u64s "{}";
    i32 i32s "{}";
    f64 f64s "{:?}";
    f32 f32s "{:?}";
    plain f64s "{}";
    exponent f64s "{:e}";
    fixed f64s "{:.2}";
    scientific f64s "{:.6e}";
}
