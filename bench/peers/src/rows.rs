//! The rows: what is read, and by which sides.

use crate::measure::{self, Row};
#[cfg(feature = "has-atoi")]
use crate::sides::atoi;
#[cfg(feature = "has-lexical-core")]
use crate::sides::lexical;
#[cfg(feature = "has-minimal-lexical")]
use crate::sides::minimal;
#[cfg(feature = "has-serde_json")]
use crate::sides::serde;
use crate::sides::{cxx, library, rust};
use crate::texts::{self, Text};

/// A `~` says that a side's sum may differ: it reads all numbers as floats, or its last bits are
/// wrong.
type Side = measure::Side<Text>;

fn u64s() -> Vec<Side> {
    sides! {
        "library" library::parse_u64;
        #[cfg(has_digits)] "library, from C" cxx::c_parse_u64;
        "library, within a text" library::read_u64;
        #[cfg(has_digits)] "library, within a text, from C" cxx::c_read_u64;
        "library, a word" library::u64_by;
        #[cfg(has_digits)] "library, a word, from C" cxx::c_u64_by;
        #[cfg(has_digits)] "library, a list from C" cxx::c_list_u64;
        "std" rust::u64;
        #[cfg(has_from_chars)] "from_chars" cxx::from_chars_u64;
        #[cfg(has_strtod)] "strtoull" cxx::strtoull_u64;
        #[cfg(feature = "has-lexical-core")] "lexical-core" lexical::u64;
        #[cfg(feature = "has-atoi")] "atoi" atoi::u64;
        #[cfg(feature = "has-serde_json")] "serde_json" serde::u64;
        #[cfg(has_simdjson)] "simdjson, one number" cxx::simdjson_u64;
    }
}

fn i32s() -> Vec<Side> {
    sides! {
        "library" library::parse_i32;
        #[cfg(has_digits)] "library, from C" cxx::c_parse_i32;
        "library, a word" library::i32_by;
        #[cfg(has_digits)] "library, a word, from C" cxx::c_i32_by;
        "std" rust::i32;
        #[cfg(has_from_chars)] "from_chars" cxx::from_chars_i32;
        #[cfg(feature = "has-lexical-core")] "lexical-core" lexical::i32;
    }
}

fn hexadecimals() -> Vec<Side> {
    sides! {
        "library" library::parse_hexadecimal;
        "library, a word" library::hexadecimal_by;
        #[cfg(has_digits)] "library, a word, from C" cxx::c_hexadecimal_by;
        "std" rust::hexadecimal;
        #[cfg(has_from_chars)] "from_chars" cxx::from_chars_hex;
    }
}

/// Only the library and lexical-core read the separators.
fn groups() -> Vec<Side> {
    sides! {
        "library" library::parse_grouped;
        "library, a word" library::grouped_by;
        #[cfg(has_digits)] "library, a word, from C" cxx::c_grouped_by;
        #[cfg(feature = "has-lexical-core")] "lexical-core, format" lexical::grouped_u64;
        "std, plain" rust::u64;
        #[cfg(has_from_chars)] "from_chars, plain" cxx::from_chars_u64;
        #[cfg(feature = "has-lexical-core")] "lexical-core, plain" lexical::u64;
        #[cfg(feature = "has-atoi")] "atoi, plain" atoi::u64;
    }
}

fn f64s() -> Vec<Side> {
    sides! {
        "library" library::parse_f64;
        #[cfg(has_digits)] "library, from C" cxx::c_parse_f64;
        "library, within a text" library::read_f64;
        #[cfg(has_digits)] "library, within a text, from C" cxx::c_read_f64;
        "library, a word" library::f64_by;
        #[cfg(has_digits)] "library, a word, from C" cxx::c_f64_by;
        #[cfg(has_digits)] "library, a list from C" cxx::c_list_f64;
        "std" rust::f64;
        #[cfg(has_fast_float)] "fast_float" cxx::fast_float_f64;
        #[cfg(has_from_chars)] "from_chars" cxx::from_chars_f64;
        #[cfg(has_double_conversion)] "double-conversion" cxx::double_conversion_f64;
        #[cfg(has_strtod)] "strtod" cxx::strtod_f64;
        #[cfg(feature = "has-lexical-core")] "lexical-core" lexical::f64;
        #[cfg(feature = "has-minimal-lexical")] "minimal-lexical" minimal::f64;
        #[cfg(feature = "has-serde_json")] "serde_json~" serde::f64;
        #[cfg(has_simdjson)] "simdjson, the array" cxx::simdjson_doubles;
        #[cfg(has_simdjson)] "simdjson, one number" cxx::simdjson_f64;
    }
}

fn f32s() -> Vec<Side> {
    sides! {
        "library" library::parse_f32;
        #[cfg(has_digits)] "library, from C" cxx::c_parse_f32;
        "library, a word" library::f32_by;
        #[cfg(has_digits)] "library, a word, from C" cxx::c_f32_by;
        "std" rust::f32;
        #[cfg(has_fast_float)] "fast_float" cxx::fast_float_f32;
        #[cfg(has_from_chars)] "from_chars" cxx::from_chars_f32;
        #[cfg(has_double_conversion)] "double-conversion" cxx::double_conversion_f32;
        #[cfg(feature = "has-lexical-core")] "lexical-core" lexical::f32;
        #[cfg(feature = "has-minimal-lexical")] "minimal-lexical" minimal::f32;
    }
}

fn json() -> Vec<Side> {
    sides! {
        "library" library::read_number_of;
        "library, the whole text" library::parse_number_of;
        #[cfg(has_digits)] "library, from C" cxx::c_read_json;
        #[cfg(has_digits)] "library, a form, from C" cxx::c_json_by;
        "std, all as floats~" rust::f64;
        #[cfg(feature = "has-serde_json")] "serde_json~" serde::number;
        #[cfg(feature = "has-serde_json")] "serde_json, the array~" serde::array;
        #[cfg(has_rapidjson)] "rapidjson, the array~" cxx::rapidjson_array;
        #[cfg(has_simdjson)] "simdjson, the array" cxx::simdjson_array;
        #[cfg(has_simdjson)] "simdjson, one number" cxx::simdjson_number;
    }
}

/// The rows that are wanted, over texts of about so many bytes.
pub fn rows(size: usize, is_wanted: &dyn Fn(&str) -> bool) -> Vec<Row<Text>> {
    let all: [(&'static str, fn(usize) -> Text, fn() -> Vec<Side>); 23] = [
        ("u64, 1 to 4 digits", |n| texts::integers(n, (1, 4)), u64s),
        ("u64, 8 digits", |n| texts::integers(n, (8, 8)), u64s),
        ("u64, 16 digits", |n| texts::integers(n, (16, 16)), u64s),
        ("u64, 19 digits", |n| texts::integers(n, (19, 19)), u64s),
        ("u64, 1 to 20 digits", |n| texts::integers(n, (1, 20)), u64s),
        ("i32, 1 to 9 digits, signs", |n| texts::signed(n, (1, 9)), i32s),
        ("hexadecimal u64, 1 to 4 digits", |n| texts::hexadecimal(n, (1, 4)), hexadecimals),
        ("hexadecimal u64, 8 to 16 digits", |n| texts::hexadecimal(n, (8, 16)), hexadecimals),
        ("grouped u64, 4 to 7 digits", |n| texts::grouped(n, (4, 7)), groups),
        ("grouped u64, 8 to 20 digits", |n| texts::grouped(n, (8, 20)), groups),
        ("f64, coordinates", |n| texts::coordinates(n, (1, 3), (1, 7)), f64s),
        ("f64, 13 to 15 places", |n| texts::coordinates(n, (2, 3), (13, 15)), f64s),
        ("f64, 17 digits in [0, 1)", texts::fractions, f64s),
        ("f64, shortest in [0, 1)", texts::shortest_fractions, f64s),
        ("f64, shortest of random bits", texts::shortest, f64s),
        ("f64, integers of 1 to 4 digits", |n| texts::integers(n, (1, 4)), f64s),
        ("f64, 1 to 3 digits, an exponent", texts::powers, f64s),
        ("f32, coordinates", |n| texts::coordinates(n, (1, 3), (1, 7)), f32s),
        ("f32, shortest of random bits", texts::shortest_f32, f32s),
        ("JSON, mixed", texts::mixed, json),
        ("JSON, integers of 1 to 4 digits", |n| texts::integers(n, (1, 4)), json),
        ("JSON, coordinates", |n| texts::coordinates(n, (1, 3), (1, 7)), json),
        ("JSON, 1 to 3 digits, an exponent", texts::powers, json),
    ];
    let wanted = all.into_iter().filter(|(name, _, _)| is_wanted(name));
    wanted.map(|(name, text, sides)| Row { name, input: text(size), sides: sides() }).collect()
}
