//! The rows: what is written, and by which sides.

use crate::measure::{self, Row};
#[cfg(feature = "has-dtoa")]
use crate::sides::dtoa;
#[cfg(feature = "has-itoa")]
use crate::sides::itoa;
#[cfg(feature = "has-lexical-core")]
use crate::sides::lexical;
#[cfg(feature = "has-ryu")]
use crate::sides::ryu;
use crate::sides::{cxx, library, rust};
use crate::values::{self, Numbers};

/// `~` says that a side writes as many digits in another layout, or of two as close not the even
/// one; `~~` that it may write more digits; `~~~` that it rounds a tie up, or that its text isn't in
/// the slice of the caller.
type Side = measure::Side<Numbers>;

fn u64s() -> Vec<Side> {
    sides! {
        "library" library::writer_u64s;
        #[cfg(has_digits_written)] "library, from C" cxx::c_write_u64;
        "std" rust::u64;
        #[cfg(has_to_chars)] "to_chars" cxx::to_chars_u64;
        #[cfg(has_snprintf)] "snprintf" cxx::snprintf_u64;
        #[cfg(feature = "has-itoa")] "itoa" itoa::u64;
        #[cfg(feature = "has-lexical-core")] "lexical-core" lexical::u64;
        #[cfg(feature = "has-itoa")] "itoa, its own buffer~~~" itoa::u64_left;
    }
}

fn i32s() -> Vec<Side> {
    sides! {
        "library" library::writer_i32s;
        #[cfg(has_digits_written)] "library, from C" cxx::c_write_i32;
        "std" rust::i32;
        #[cfg(has_to_chars)] "to_chars" cxx::to_chars_i32;
        #[cfg(has_snprintf)] "snprintf" cxx::snprintf_i32;
        #[cfg(feature = "has-itoa")] "itoa" itoa::i32;
        #[cfg(feature = "has-lexical-core")] "lexical-core" lexical::i32;
        #[cfg(feature = "has-itoa")] "itoa, its own buffer~~~" itoa::i32_left;
    }
}

/// Only the library writes the separators.
fn groups() -> Vec<Side> {
    sides! {
        "library" library::writer_u64s_grouped;
        #[cfg(has_digits_written)] "library, from C" cxx::c_write_grouped;
        "library, plain~" library::writer_u64s;
        "std, plain~" rust::u64;
        #[cfg(has_to_chars)] "to_chars, plain~" cxx::to_chars_u64;
        #[cfg(has_snprintf)] "snprintf, plain~" cxx::snprintf_u64;
        #[cfg(feature = "has-itoa")] "itoa, plain~" itoa::u64;
        #[cfg(feature = "has-lexical-core")] "lexical-core, plain~" lexical::u64;
    }
}

fn f64s() -> Vec<Side> {
    sides! {
        "library" library::writer_f64s;
        #[cfg(has_digits_written)] "library, from C" cxx::c_write_f64;
        "std~" rust::f64;
        #[cfg(has_to_chars)] "to_chars~~" cxx::to_chars_f64;
        #[cfg(has_double_to_string)] "double-conversion~" cxx::double_to_string_f64;
        #[cfg(feature = "has-ryu")] "ryu" ryu::f64;
        #[cfg(feature = "has-ryu")] "ryu, copied" ryu::f64_copied;
        #[cfg(feature = "has-lexical-core")] "lexical-core~" lexical::f64;
        #[cfg(feature = "has-dtoa")] "dtoa~~" dtoa::f64;
        #[cfg(has_snprintf)] "snprintf, %.17g~~" cxx::snprintf_f64;
    }
}

fn f32s() -> Vec<Side> {
    sides! {
        "library" library::writer_f32s;
        #[cfg(has_digits_written)] "library, from C" cxx::c_write_f32;
        "std~" rust::f32;
        #[cfg(has_to_chars)] "to_chars~~" cxx::to_chars_f32;
        #[cfg(has_double_to_string)] "double-conversion~" cxx::double_to_string_f32;
        #[cfg(feature = "has-ryu")] "ryu~" ryu::f32;
        #[cfg(feature = "has-ryu")] "ryu, copied~" ryu::f32_copied;
        #[cfg(feature = "has-lexical-core")] "lexical-core~" lexical::f32;
        #[cfg(feature = "has-dtoa")] "dtoa~~" dtoa::f32;
        #[cfg(has_snprintf)] "snprintf, %.9g~~" cxx::snprintf_f32;
    }
}

fn without_exponent() -> Vec<Side> {
    sides! {
        "library" library::writer_f64s_plain;
        #[cfg(has_digits_written)] "library, from C" cxx::c_write_plain;
        "std~" rust::plain;
        #[cfg(has_to_chars)] "to_chars~~" cxx::to_chars_plain;
        #[cfg(feature = "has-ryu")] "ryu~" ryu::f64;
    }
}

fn with_exponent() -> Vec<Side> {
    sides! {
        "library" library::writer_f64s_exponent;
        #[cfg(has_digits_written)] "library, from C" cxx::c_write_exponent;
        "std~" rust::exponent;
        #[cfg(has_to_chars)] "to_chars~" cxx::to_chars_exponent;
        #[cfg(feature = "has-ryu")] "ryu~" ryu::f64;
    }
}

fn fixed() -> Vec<Side> {
    sides! {
        "library" library::writer_f64s_fixed;
        #[cfg(has_digits_written)] "library, from C" cxx::c_write_fixed;
        "std" rust::fixed;
        #[cfg(has_to_chars)] "to_chars" cxx::to_chars_fixed;
        #[cfg(has_double_to_string)] "double-conversion~~~" cxx::double_to_string_fixed;
        #[cfg(has_snprintf)] "snprintf" cxx::snprintf_fixed;
    }
}

fn scientific() -> Vec<Side> {
    sides! {
        "library" library::writer_f64s_scientific;
        "std~" rust::scientific;
        #[cfg(has_to_chars)] "to_chars" cxx::to_chars_scientific;
        #[cfg(has_double_to_string)] "double-conversion~~~" cxx::double_to_string_scientific;
        #[cfg(has_snprintf)] "snprintf" cxx::snprintf_scientific;
    }
}

/// The rows that are wanted, over so many numbers.
pub fn rows(count: usize, is_wanted: &dyn Fn(&str) -> bool) -> Vec<Row<Numbers>> {
    let all: [(&'static str, fn(usize) -> Numbers, fn() -> Vec<Side>); 28] = [
        ("u64, 3 digits", |n| values::integers(n, (3, 3)), u64s),
        ("u64, 1 to 4 digits", |n| values::integers(n, (1, 4)), u64s),
        ("u64, 8 digits", |n| values::integers(n, (8, 8)), u64s),
        ("u64, 16 digits", |n| values::integers(n, (16, 16)), u64s),
        ("u64, 20 digits", |n| values::integers(n, (20, 20)), u64s),
        ("u64, 1 to 20 digits", |n| values::integers(n, (1, 20)), u64s),
        ("i32, 1 to 9 digits, signs", |n| values::signed(n, (1, 9)), i32s),
        ("grouped u64, 7 digits", |n| values::integers(n, (7, 7)), groups),
        ("grouped u64, 4 to 7 digits", |n| values::integers(n, (4, 7)), groups),
        ("grouped u64, 8 to 20 digits", |n| values::integers(n, (8, 20)), groups),
        ("f64, random bits", values::bits, f64s),
        ("f64, in [0, 1)", |n| values::below(n, 1.0), f64s),
        ("f64, coordinates", values::coordinates, f64s),
        ("f64, prices of 1 to 5 digits", |n| values::prices(n, (1, 5)), f64s),
        ("f64, 3 digits and 2 places", values::one_form, f64s),
        ("f64, whole numbers, 1 to 7 digits", |n| values::whole(n, (1, 7)), f64s),
        ("f64, powers of two", values::powers_of_two, f64s),
        ("f32, random bits", values::bits_f32, f32s),
        ("f32, coordinates", values::coordinates_f32, f32s),
        ("f64 without an exponent, coordinates", values::coordinates, without_exponent),
        ("f64 with an exponent, random bits", values::bits, with_exponent),
        ("%.2f, prices of 1 to 5 digits", |n| values::prices(n, (1, 5)), fixed),
        ("%.2f, 3 digits and 2 places", values::one_form, fixed),
        ("%.2f, in [0, 1000)", |n| values::below(n, 1000.0), fixed),
        ("%.2f, in [0, 1e22)", |n| values::below(n, 1e22), fixed),
        ("%.6e, random bits", values::bits, scientific),
        ("%.6e, coordinates", values::coordinates, scientific),
        ("%.6e, 3 digits and 2 places", values::one_form, scientific),
    ];
    let wanted = all.into_iter().filter(|(name, _, _)| is_wanted(name));
    wanted.map(|(name, input, sides)| Row { name, input: input(count), sides: sides() }).collect()
}
