//! The library, by the exports of `crates/digit_bench`: with a word that is a constant, or one that
//! is known only at run time.

use crate::task::{Format, Outcome, Task, call};
use crate::texts::Text;

const DECIMAL: u128 = 10 << 104;
/// `_` between two digits.
const GROUPED: u128 = DECIMAL | (b'_' as u128) << 64 | 1 << 32;
const HEXADECIMAL: u128 = 16 << 104;

macro_rules! sides {
    ($($name:ident $export:ident $word:ident $is_constant:literal;)*) => {
        $(pub fn $name(text: &Text) -> u64 {
            unsafe extern "C" {
                fn $export(task: &Task, out: &mut Outcome);
            }
            let format = Format { word: $word, is_constant: $is_constant };
            call($export, &text.bytes, &text.lengths, format).value
        })*
    };
}

sides! {
    parse_u64 digit_bench_parsed_u64 DECIMAL true;
    read_u64 digit_bench_literals DECIMAL true;
    parse_i32 digit_bench_parsed_i32 DECIMAL true;
    parse_hexadecimal digit_bench_parsed_u64 HEXADECIMAL true;
    parse_grouped digit_bench_parsed_u64 GROUPED true;
    parse_f64 digit_bench_nearest DECIMAL true;
    parse_f32 digit_bench_nearest_f32 DECIMAL true;
    read_f64 digit_bench_json_floats DECIMAL true;
    read_number_of digit_bench_json_numbers DECIMAL true;
    parse_number_of digit_bench_json_parsed DECIMAL true;
    u64_by digit_bench_parsed_u64 DECIMAL false;
    i32_by digit_bench_parsed_i32 DECIMAL false;
    hexadecimal_by digit_bench_parsed_u64 HEXADECIMAL false;
    grouped_by digit_bench_parsed_u64 GROUPED false;
    f64_by digit_bench_nearest DECIMAL false;
    f32_by digit_bench_nearest_f32 DECIMAL false;
}
