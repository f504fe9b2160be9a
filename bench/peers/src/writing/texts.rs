//! What the sides have written, compared with what the library has.

use crate::measure::{Row, Side};
use crate::values::Numbers;

/// How many bytes a side wrote, and the texts between its commas.
fn written(side: &Side<Numbers>, numbers: &Numbers) -> (usize, Vec<String>) {
    let length = (side.way)(numbers) as usize;
    let out = numbers.out.borrow();
    let all = String::from_utf8_lossy(&out[..length]).into_owned();
    (length, all.split_terminator(',').map(str::to_string).collect())
}

/// The sides whose texts aren't what they should be, by the tildes of their names: none, those of
/// the library; one, the same numbers by as many digits; two, the same numbers; three, any.
pub fn differing(row: &Row<Numbers>) -> Vec<&'static str> {
    let numbers = &row.input;
    let (length, ours) = written(&row.sides[0], numbers);
    assert_eq!(ours.len(), numbers.count, "{}: not all have a text", row.name);
    numbers.bytes.set(length);
    let value = value_of(numbers);
    let is_other = |side: &&Side<Numbers>| {
        let (_, theirs) = written(side, numbers);
        let is_as = |(one, two): (&String, &String)| match side.tildes {
            0 => one == two,
            1 => value(one) == value(two) && digits(one) == digits(two),
            2 => value(one) == value(two),
            _ => true,
        };
        theirs.len() != ours.len() || !ours.iter().zip(&theirs).all(is_as)
    };
    row.sides.iter().filter(is_other).map(|side| side.name).collect()
}

/// What a text of the row's type is read as, by Rust's standard library.
fn value_of(numbers: &Numbers) -> fn(&str) -> u64 {
    if !numbers.f64s.is_empty() {
        return |text| text.parse().map(f64::to_bits).expect("a float");
    }
    if !numbers.f32s.is_empty() {
        return |text| text.parse().map(f32::to_bits).expect("a float").into();
    }
    |text| text.replace('_', "").parse::<i128>().expect("an integer") as u64
}

/// How many digits a text has, without zeros at either end, and without an exponent.
fn digits(text: &str) -> usize {
    let mantissa = text.split('e').next().unwrap_or("");
    let digits: String = mantissa.chars().filter(char::is_ascii_digit).collect();
    digits.trim_matches('0').len()
}
