//! serde_json.

use super::each;
use crate::texts::Text;
use serde::de::{Deserialize, Deserializer, Error, SeqAccess, Visitor};
use std::fmt;

/// An integer, or the bits of a float.
struct Number(u64);

struct NumberVisitor;

impl Visitor<'_> for NumberVisitor {
    type Value = Number;

    fn expecting(&self, f: &mut fmt::Formatter) -> fmt::Result {
        f.write_str("a number")
    }

    fn visit_u64<E: Error>(self, x: u64) -> Result<Number, E> {
        Ok(Number(x))
    }

    fn visit_i64<E: Error>(self, x: i64) -> Result<Number, E> {
        Ok(Number(x as u64))
    }

    fn visit_f64<E: Error>(self, x: f64) -> Result<Number, E> {
        Ok(Number(x.to_bits()))
    }
}

impl<'de> Deserialize<'de> for Number {
    fn deserialize<D: Deserializer<'de>>(deserializer: D) -> Result<Number, D::Error> {
        deserializer.deserialize_any(NumberVisitor)
    }
}

/// The sum of an array.
struct Sum(u64);

struct SumVisitor;

impl<'de> Visitor<'de> for SumVisitor {
    type Value = Sum;

    fn expecting(&self, f: &mut fmt::Formatter) -> fmt::Result {
        f.write_str("an array")
    }

    fn visit_seq<A: SeqAccess<'de>>(self, mut numbers: A) -> Result<Sum, A::Error> {
        let mut total = 0u64;
        while let Some(Number(x)) = numbers.next_element()? {
            total = total.wrapping_add(x);
        }
        Ok(Sum(total))
    }
}

impl<'de> Deserialize<'de> for Sum {
    fn deserialize<D: Deserializer<'de>>(deserializer: D) -> Result<Sum, D::Error> {
        deserializer.deserialize_seq(SumVisitor)
    }
}

pub fn u64(text: &Text) -> u64 {
    each(text, |it| serde_json::from_slice::<u64>(it).unwrap_or(0))
}

pub fn f64(text: &Text) -> u64 {
    each(text, |it| serde_json::from_slice::<f64>(it).map_or(0, f64::to_bits))
}

pub fn number(text: &Text) -> u64 {
    each(text, |it| serde_json::from_slice::<Number>(it).map_or(0, |x| x.0))
}

pub fn array(text: &Text) -> u64 {
    serde_json::from_slice::<Sum>(&text.array[..text.array_length]).map_or(0, |x| x.0)
}
