//! The proved library, by its exports.

pub use crate::task::{Export, Format, Outcome, call};

use crate::task::Task;

/// Declares the exports.
macro_rules! exports {
    ($($export:ident)*) => {
        unsafe extern "C" {
            $(pub fn $export(task: &Task, out: &mut Outcome);)*
            pub safe fn digit_bench_size() -> usize;
        }
    };
}

exports! {
    digit_bench_sum
    digit_bench_number
    digit_bench_looks
    digit_bench_peeked
    digit_bench_handed
    digit_bench_eights
    digit_bench_cleared
    digit_bench_lines
    digit_bench_plain_sum
    digit_bench_plain_number
    digit_bench_plain_peeked
    digit_bench_numbers
    digit_bench_asked
    digit_bench_stopped
    digit_bench_literals
    digit_bench_mostly
    digit_bench_counted
    digit_bench_digits
    digit_bench_zeros
    digit_bench_floats
    digit_bench_floats_of
    digit_bench_values
    digit_bench_mantissas
    digit_bench_parts
    digit_bench_parsed_u8
    digit_bench_parsed_u16
    digit_bench_parsed_u32
    digit_bench_parsed_u64
    digit_bench_parsed_i32
    digit_bench_parsed_i64
    digit_bench_parsed_u128
    digit_bench_read_u8
    digit_bench_read_u16
    digit_bench_read_u32
    digit_bench_read_u64
    digit_bench_read_i32
    digit_bench_read_i64
    digit_bench_read_u128
    digit_bench_languages
    digit_bench_nearest
    digit_bench_nearest_f32
    digit_bench_json_numbers
    digit_bench_json_integers
    digit_bench_json_floats
}
