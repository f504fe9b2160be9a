//! The sides in C++ and C, from `cxx`.

use crate::texts::Text;

/// Declares the sides that go over many texts, and the field of `Text` that each reads.
macro_rules! texts {
    ($cfg:ident; $($name:ident $field:ident)*) => {
        texts! { $cfg digit_lengths; $($name $field)* }
    };
    ($cfg:ident $lengths:ident; $($name:ident $field:ident)*) => {
        #[cfg($cfg)]
        mod $cfg {
            unsafe extern "C" {
                $(pub fn $name(text: *const u8, lengths: *const u8, count: usize) -> u64;)*
            }
        }
        $(#[cfg($cfg)]
        pub fn $name(text: &Text) -> u64 {
            let lengths = &text.$lengths;
            // SAFETY: the bytes and lengths are those of `text`, and are only read
            unsafe { $cfg::$name(text.$field.as_ptr(), lengths.as_ptr(), lengths.len()) }
        })*
    };
}

/// Declares the sides that read one array.
macro_rules! arrays {
    ($cfg:ident; $($name:ident)*) => {
        $(#[cfg($cfg)]
        pub fn $name(text: &Text) -> u64 {
            unsafe extern "C" {
                fn $name(text: *const u8, len: usize) -> u64;
            }
            // SAFETY: the array is followed by padding, and is only read
            unsafe { $name(text.array.as_ptr(), text.array_length) }
        })*
    };
}

texts! { has_from_chars; from_chars_u64 digits from_chars_i32 digits from_chars_hex digits
from_chars_f64 digits from_chars_f32 digits }
texts! { has_strtod; strtod_f64 listed strtoull_u64 listed }
texts! { has_fast_float; fast_float_f64 digits fast_float_f32 digits }
texts! { has_double_conversion; double_conversion_f64 digits double_conversion_f32 digits }
texts! { has_simdjson; simdjson_f64 listed simdjson_u64 listed simdjson_number listed }
arrays! { has_simdjson; simdjson_array simdjson_doubles }
arrays! { has_rapidjson; rapidjson_array }
texts! { has_digits lengths; c_parse_u64 bytes c_parse_i32 bytes c_parse_f64 bytes
c_parse_f32 bytes c_read_u64 bytes c_read_f64 bytes c_read_json bytes c_u64_by bytes c_i32_by bytes
c_f64_by bytes c_f32_by bytes c_hexadecimal_by bytes c_grouped_by bytes c_json_by bytes }
arrays! { has_digits; c_list_u64 c_list_f64 }
