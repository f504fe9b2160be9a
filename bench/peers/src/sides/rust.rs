//! Rust's standard library.

use super::each_str;
use crate::texts::Text;

pub fn u64(text: &Text) -> u64 {
    each_str(text, |it| it.parse::<u64>().unwrap_or(0))
}

pub fn i32(text: &Text) -> u64 {
    each_str(text, |it| it.parse::<i32>().unwrap_or(0) as i64 as u64)
}

pub fn hexadecimal(text: &Text) -> u64 {
    each_str(text, |it| u64::from_str_radix(it, 16).unwrap_or(0))
}

pub fn f64(text: &Text) -> u64 {
    each_str(text, |it| it.parse::<f64>().map_or(0, f64::to_bits))
}

pub fn f32(text: &Text) -> u64 {
    each_str(text, |it| it.parse::<f32>().map_or(0, |x| x.to_bits().into()))
}
