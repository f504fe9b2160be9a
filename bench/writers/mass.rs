//! Writes very many numbers, and compares their texts. `compare --mass` builds it and starts it:
//!
//! ```text
//! mass f32 THREADS            every f32, beside ryu
//! mass f64 THREADS COUNT      floats of random bits, beside ryu
//! mass amounts THREADS COUNT  amounts and prices, beside integers of Rust with a point put in
//! ```
//!
//! Each text of a float is read back by Rust's standard library. Where its digits aren't those of
//! ryu, both have to be as near to the float, by exact numbers, and the library's has to be even.
//! What differs otherwise is told, and the status is then 1.
use std::process::exit;
use std::sync::atomic::{AtomicU64, Ordering};
use std::thread;

unsafe extern "C" {
    fn writer_f32s(values: *const f32, count: usize, out: *mut u8, room: usize) -> usize;
    fn writer_f64s(values: *const f64, count: usize, out: *mut u8, room: usize) -> usize;
    fn writer_scaled(v: *const i64, n: usize, places: usize, out: *mut u8, room: usize) -> usize;
    fn writer_prices(v: *const i64, n: usize, places: usize, out: *mut u8, room: usize) -> usize;
}

/// How many numbers are written at once, and how many bytes one may take.
const BLOCK: u64 = 1 << 13;
const ROOM: usize = 80;
/// How many numbers that differ are told.
const TOLD: u64 = 20;

/// What came of many numbers, and where they are written.
#[derive(Default)]
struct Sums {
    out: Vec<u8>,
    written: u64,
    without_text: u64,
    as_near: u64,
    differ: u64,
}

impl Sums {
    /// Where so many numbers are written.
    fn room(&mut self, count: usize) -> Vec<u8> {
        let mut out = std::mem::take(&mut self.out);
        out.resize(count * ROOM, 0);
        out
    }

    fn add(&mut self, other: &Sums) {
        self.written += other.written;
        self.without_text += other.without_text;
        self.as_near += other.as_near;
        self.differ += other.differ;
    }

    fn tell(&mut self, what: &str) {
        self.differ += 1;
        if self.differ <= TOLD {
            eprintln!("differs: {what}");
        }
    }
}

/// Numbers by chance, the same ones for the same place (splitmix64).
fn chance(place: u64) -> u64 {
    let mut bits = place.wrapping_add(1).wrapping_mul(0x9e37_79b9_7f4a_7c15);
    bits = (bits ^ (bits >> 30)).wrapping_mul(0xbf58_476d_1ce4_e5b9);
    bits = (bits ^ (bits >> 27)).wrapping_mul(0x94d0_49bb_1331_11eb);
    bits ^ (bits >> 31)
}

/// A type of floats.
trait Float: Copy + std::str::FromStr {
    const WRITER: unsafe extern "C" fn(*const Self, usize, *mut u8, usize) -> usize;
    fn of_bits(bits: u64) -> Self;
    fn bits(self) -> u64;
    fn is_finite(self) -> bool;
    fn by_ryu(self, out: &mut [u8; 24]) -> usize;
    /// Its size as a whole number times a power of two.
    fn parts(self) -> (u64, i32);
}

/// The parts of a float by its bits without the sign.
fn parts_of(bits: u64, digits: u32, least: i32) -> (u64, i32) {
    let (field, low) = (bits >> digits, bits & ((1 << digits) - 1));
    if field == 0 { (low, least) } else { (low | 1 << digits, least + field as i32 - 1) }
}

impl Float for f32 {
    const WRITER: unsafe extern "C" fn(*const f32, usize, *mut u8, usize) -> usize = writer_f32s;

    fn of_bits(bits: u64) -> f32 {
        f32::from_bits(bits as u32)
    }

    fn bits(self) -> u64 {
        self.to_bits().into()
    }

    fn is_finite(self) -> bool {
        f32::is_finite(self)
    }

    fn by_ryu(self, out: &mut [u8; 24]) -> usize {
        // SAFETY: an f32 takes at most 16 bytes
        unsafe { ryu::raw::format32(self, out.as_mut_ptr()) }
    }

    fn parts(self) -> (u64, i32) {
        parts_of(self.abs().bits(), 23, -149)
    }
}

impl Float for f64 {
    const WRITER: unsafe extern "C" fn(*const f64, usize, *mut u8, usize) -> usize = writer_f64s;

    fn of_bits(bits: u64) -> f64 {
        f64::from_bits(bits)
    }

    fn bits(self) -> u64 {
        self.to_bits()
    }

    fn is_finite(self) -> bool {
        f64::is_finite(self)
    }

    fn by_ryu(self, out: &mut [u8; 24]) -> usize {
        // SAFETY: an f64 takes at most 24 bytes
        unsafe { ryu::raw::format64(self, out.as_mut_ptr()) }
    }

    fn parts(self) -> (u64, i32) {
        parts_of(self.abs().bits(), 52, -1074)
    }
}

/// The sign, the digits without zeros at either end, and the power of ten of a text.
fn decimal_of(text: &[u8]) -> (bool, u64, i32) {
    let (mut digits, mut power, mut exponent, mut is_after_point) = (0u64, 0i32, 0i32, false);
    for (at, byte) in text.iter().enumerate() {
        match byte {
            b'.' => is_after_point = true,
            b'e' => {
                let text = std::str::from_utf8(&text[at + 1..]).expect("ASCII");
                exponent = text.parse().expect("an exponent");
                break;
            }
            b'0'..=b'9' => {
                digits = digits * 10 + u64::from(byte - b'0');
                power -= i32::from(is_after_point);
            }
            _ => {}
        }
    }
    while digits != 0 && digits % 10 == 0 {
        digits /= 10;
        power += 1;
    }
    (text.first() == Some(&b'-'), digits, if digits == 0 { 0 } else { power + exponent })
}

/// Whether a whole number times a power of two is in the middle of two decimals with this sum and
/// this power of ten: by their odd parts, since `2 * m * 2^e` is `sum * 5^power * 2^power`.
fn is_middle((m, e): (u64, i32), sum: u64, power: i32) -> bool {
    let (odd, sum_odd) = (m >> m.trailing_zeros(), sum >> sum.trailing_zeros());
    let twos = e + 1 + m.trailing_zeros() as i32;
    if twos != power + sum.trailing_zeros() as i32 || power.unsigned_abs() > 27 {
        return false;
    }
    let fives = 5u128.pow(power.unsigned_abs());
    if power < 0 {
        u128::from(odd) * fives == u128::from(sum_odd)
    } else {
        u128::from(odd) == u128::from(sum_odd) * fives
    }
}

/// Whether the library's digits are as near to a float as ryu's, as many, and even.
fn is_even_of_two<F: Float>(x: F, ours: &[u8], theirs: &[u8]) -> bool {
    let (ours, theirs) = (decimal_of(ours), decimal_of(theirs));
    ours.0 == theirs.0
        && ours.2 == theirs.2
        && ours.1 % 2 == 0
        && ours.1.abs_diff(theirs.1) == 1
        && is_middle(x.parts(), ours.1 + theirs.1, ours.2)
}

/// Compares the texts of floats of these bits.
fn compare<F: Float>(bits: impl Iterator<Item = u64>, sums: &mut Sums) {
    let values: Vec<F> = bits.map(F::of_bits).collect();
    let mut out = sums.room(values.len());
    // SAFETY: the values are only read, and of `out` no byte after its end is written
    let length = unsafe { F::WRITER(values.as_ptr(), values.len(), out.as_mut_ptr(), out.len()) };
    let mut rest = std::str::from_utf8(&out[..length]).expect("ASCII");
    for x in values {
        let (text, after) = rest.split_once(',').unwrap_or(("missing", ""));
        rest = after;
        let ours = text.as_bytes();
        if !x.is_finite() {
            sums.without_text += 1;
            if !ours.is_empty() {
                sums.tell(&format!("{:x} has a text", x.bits()));
            }
            continue;
        }
        sums.written += 1;
        if text.parse::<F>().ok().map(F::bits) != Some(x.bits()) {
            sums.tell(&format!("{:x} is written {text}, which isn't read back", x.bits()));
        }
        let mut buffer = [0; 24];
        let count = x.by_ryu(&mut buffer);
        let theirs = &buffer[..count];
        if ours == theirs || decimal_of(ours) == decimal_of(theirs) {
            continue;
        }
        if is_even_of_two(x, ours, theirs) {
            sums.as_near += 1;
        } else {
            let theirs = String::from_utf8_lossy(theirs);
            sums.tell(&format!("{:x} is written {text}, by ryu {theirs}", x.bits()));
        }
    }
    sums.out = out;
}

/// The text of an amount: `Display` of its size, zeros, a point, and separators.
fn amount_of(value: i64, places: usize, is_grouped: bool) -> String {
    let digits = format!("{:0>width$}", value.unsigned_abs(), width = places + 1);
    let (whole, fraction) = digits.split_at(digits.len() - places);
    let mut text = String::from(if value < 0 { "-" } else { "" });
    for (at, digit) in whole.chars().enumerate() {
        if is_grouped && at > 0 && (whole.len() - at) % 3 == 0 {
            text.push(',');
        }
        text.push(digit);
    }
    if places > 0 {
        text.push('.');
        text.push_str(fraction);
    }
    text
}

/// Compares the texts of amounts and prices of these places, each with a comma behind it.
fn compare_amounts(from: u64, to: u64, sums: &mut Sums) {
    let values: Vec<i64> =
        (from..to).map(|at| chance(2 * at) as i64 >> (chance(2 * at + 1) % 64)).collect();
    let mut out = sums.room(values.len());
    let places = (from / BLOCK % 39) as usize;
    for (writer, is_grouped) in [(writer_scaled as Writer, false), (writer_prices, true)] {
        // SAFETY: the values are only read, and of `out` no byte after its end is written
        let length =
            unsafe { writer(values.as_ptr(), values.len(), places, out.as_mut_ptr(), out.len()) };
        let mut rest = &out[..length];
        for value in &values {
            sums.written += 1;
            let wanted = format!("{},", amount_of(*value, places, is_grouped));
            if !rest.starts_with(wanted.as_bytes()) {
                sums.tell(&format!("{value} with {places} places isn't {wanted}"));
                return;
            }
            rest = &rest[wanted.len()..];
        }
    }
}

type Writer = unsafe extern "C" fn(*const i64, usize, usize, *mut u8, usize) -> usize;

/// Does a piece of work for each block of so many numbers, by so many threads.
fn in_blocks(count: u64, threads: u64, work: fn(u64, u64, &mut Sums)) -> Sums {
    let next = AtomicU64::new(0);
    let one = || {
        let mut sums = Sums::default();
        loop {
            let from = next.fetch_add(BLOCK, Ordering::Relaxed);
            if from >= count {
                return sums;
            }
            work(from, count.min(from + BLOCK), &mut sums);
        }
    };
    let mut all = Sums::default();
    thread::scope(|scope| {
        let running: Vec<_> = (0..threads).map(|_| scope.spawn(one)).collect();
        for thread in running {
            all.add(&thread.join().expect("a thread"));
        }
    });
    all
}

fn main() {
    let words: Vec<String> = std::env::args().skip(1).collect();
    let number = |at: usize| words.get(at).and_then(|word| word.parse().ok());
    let threads = number(1).expect("how many threads");
    let sums = match (words[0].as_str(), number(2)) {
        ("f32", None) => {
            in_blocks(1 << 32, threads, |from, to, sums| compare::<f32>(from..to, sums))
        }
        ("f64", Some(count)) => {
            in_blocks(count, threads, |from, to, sums| compare::<f64>((from..to).map(chance), sums))
        }
        ("amounts", Some(count)) => in_blocks(count, threads, compare_amounts),
        _ => panic!("f32, f64 or amounts"),
    };
    println!("{}\t{}\t{}\t{}", sums.written, sums.without_text, sums.as_near, sums.differ);
    exit(i32::from(sums.differ > 0));
}
