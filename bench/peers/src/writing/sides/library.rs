//! The library, by the exports of `crates/writer_rows`.

use super::exports;

exports! {
    writer_u64s u64s u64;
    writer_i32s i32s i32;
    writer_u64s_grouped u64s u64;
    writer_f64s f64s f64;
    writer_f32s f32s f32;
    writer_f64s_plain f64s f64;
    writer_f64s_exponent f64s f64;
    writer_f64s_fixed f64s f64;
    writer_f64s_scientific f64s f64;
}
