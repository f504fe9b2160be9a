//! lexical-core, and with its feature `format`, which reads separators.

use super::{each, each_grouped};
use crate::texts::Text;
use lexical_core::parse;
use lexical_core_format::{parse_format, NumberFormat};

pub fn u64(text: &Text) -> u64 {
    each(text, |it| parse::<u64>(it).unwrap_or(0))
}

pub fn i32(text: &Text) -> u64 {
    each(text, |it| parse::<i32>(it).unwrap_or(0) as i64 as u64)
}

pub fn f64(text: &Text) -> u64 {
    each(text, |it| parse::<f64>(it).map_or(0, f64::to_bits))
}

pub fn f32(text: &Text) -> u64 {
    each(text, |it| parse::<f32>(it).map_or(0, |x| x.to_bits().into()))
}

/// With `_` between two digits.
pub fn grouped_u64(text: &Text) -> u64 {
    const FORMAT: NumberFormat = NumberFormat::JULIA_LITERAL;
    each_grouped(text, |it| parse_format::<u64>(it, FORMAT).unwrap_or(0))
}
