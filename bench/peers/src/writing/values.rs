//! The numbers. They are the same in each run.

use crate::measure::Input;
use crate::random::Random;
use std::cell::{Cell, RefCell};

/// How many bytes the text of a number may have, with the comma behind it.
const ROOM: usize = 48;

/// Many numbers of one type, and where they are written.
#[derive(Default)]
pub struct Numbers {
    pub count: usize,
    pub u64s: Vec<u64>,
    pub i32s: Vec<i32>,
    pub f64s: Vec<f64>,
    pub f32s: Vec<f32>,
    pub out: RefCell<Vec<u8>>,
    /// How many bytes the library wrote.
    pub bytes: Cell<usize>,
}

impl Input for Numbers {
    fn numbers(&self) -> usize {
        self.count
    }

    fn bytes(&self) -> usize {
        self.bytes.get()
    }
}

fn some<T>(count: usize, mut one: impl FnMut(&mut Random) -> T) -> Vec<T> {
    let mut random = Random::new();
    (0..count).map(|_| one(&mut random)).collect()
}

fn with_room(numbers: Numbers, count: usize) -> Numbers {
    Numbers { count, out: RefCell::new(vec![0; count * ROOM]), ..numbers }
}

fn f64s(count: usize, one: impl FnMut(&mut Random) -> f64) -> Numbers {
    with_room(Numbers { f64s: some(count, one), ..Numbers::default() }, count)
}

fn f32s(count: usize, one: impl FnMut(&mut Random) -> f32) -> Numbers {
    with_room(Numbers { f32s: some(count, one), ..Numbers::default() }, count)
}

impl Random {
    /// An integer of so many digits that a `u64` has. The first is no zero, unless it is the only
    /// one.
    fn integer(&mut self, (least, most): (u64, u64)) -> u64 {
        let digits = (least + self.below(most - least + 1)) as u32;
        let low = if digits == 1 { 0 } else { 10u64.pow(digits - 1) };
        let high = if digits == 20 { u64::MAX } else { 10u64.pow(digits) };
        low + self.next() % (high - low)
    }

    fn sign(&mut self) -> f64 {
        if self.below(2) == 1 {
            -1.0
        } else {
            1.0
        }
    }
}

/// Integers of so many digits.
pub fn integers(count: usize, digits: (u64, u64)) -> Numbers {
    with_room(
        Numbers { u64s: some(count, |random| random.integer(digits)), ..Numbers::default() },
        count,
    )
}

/// The same, half of them below 0.
pub fn signed(count: usize, digits: (u64, u64)) -> Numbers {
    let one = |random: &mut Random| random.integer(digits) as i32 * random.sign() as i32;
    with_room(Numbers { i32s: some(count, one), ..Numbers::default() }, count)
}

/// Floats of random bits.
pub fn bits(count: usize) -> Numbers {
    f64s(count, |random| loop {
        let x = f64::from_bits(random.next());
        if x.is_finite() {
            return x;
        }
    })
}

/// The same of `f32`.
pub fn bits_f32(count: usize) -> Numbers {
    f32s(count, |random| loop {
        let x = f32::from_bits(random.next() as u32);
        if x.is_finite() {
            return x;
        }
    })
}

/// Floats from 0 to below a number, with as many bits as they have room for.
pub fn below(count: usize, most: f64) -> Numbers {
    f64s(count, |random| (random.next() >> 11) as f64 / (1u64 << 53) as f64 * most)
}

/// A float with 1 to 3 digits before the point, and 1 to 7 after it.
fn coordinate(random: &mut Random) -> String {
    let minus = if random.below(2) == 1 { "-" } else { "" };
    let whole = random.integer((1, 3));
    let places = 1 + random.below(7) as usize;
    let fraction = random.below(10u64.pow(places as u32));
    format!("{minus}{whole}.{fraction:0places$}")
}

/// Half with a minus, so many digits before the point and after it.
pub fn coordinates(count: usize) -> Numbers {
    f64s(count, |random| coordinate(random).parse().expect("a float"))
}

/// The same of `f32`.
pub fn coordinates_f32(count: usize) -> Numbers {
    f32s(count, |random| coordinate(random).parse().expect("a float"))
}

/// Cents, in units of a hundred of them, with so many digits before the point.
pub fn prices(count: usize, digits: (u64, u64)) -> Numbers {
    f64s(count, |random| (random.integer(digits) * 100 + random.below(100)) as f64 / 100.0)
}

/// Prices of three digits and two places, of which the last is no zero.
pub fn one_form(count: usize) -> Numbers {
    f64s(count, |random| {
        let cents = random.below(10) * 10 + 1 + random.below(9);
        (random.integer((3, 3)) * 100 + cents) as f64 / 100.0
    })
}

/// Whole numbers of so many digits.
pub fn whole(count: usize, digits: (u64, u64)) -> Numbers {
    f64s(count, |random| random.integer(digits) as f64)
}

/// Powers of two, of any exponent.
pub fn powers_of_two(count: usize) -> Numbers {
    f64s(count, |random| f64::from_bits((1 + random.below(2046)) << 52))
}
