//! The sides in C++ and C, from `cxx`.

use super::exports;

#[cfg(has_to_chars)]
exports! {
    to_chars_u64 u64s u64;
    to_chars_i32 i32s i32;
    to_chars_f64 f64s f64;
    to_chars_f32 f32s f32;
    to_chars_plain f64s f64;
    to_chars_exponent f64s f64;
    to_chars_fixed f64s f64;
    to_chars_scientific f64s f64;
}
#[cfg(has_snprintf)]
exports! {
    snprintf_u64 u64s u64;
    snprintf_i32 i32s i32;
    snprintf_f64 f64s f64;
    snprintf_f32 f32s f32;
    snprintf_fixed f64s f64;
    snprintf_scientific f64s f64;
}
#[cfg(has_double_to_string)]
exports! {
    double_to_string_f64 f64s f64;
    double_to_string_f32 f32s f32;
    double_to_string_fixed f64s f64;
    double_to_string_scientific f64s f64;
}
#[cfg(has_digits_written)]
exports! {
    c_write_u64 u64s u64;
    c_write_i32 i32s i32;
    c_write_grouped u64s u64;
    c_write_f64 f64s f64;
    c_write_f32 f32s f32;
    c_write_plain f64s f64;
    c_write_exponent f64s f64;
    c_write_fixed f64s f64;
}
