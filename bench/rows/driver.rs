//! Makes the texts of rows, and times or counts a call of `digit_rows` over each.
//!
//! ```text
//! driver time CALLS ROWS REPEATS     the least nanoseconds a number, and the digest of the answers
//! driver once CALLS ROWS             each call once, for callgrind, and how many numbers there were
//! ```
use std::collections::HashMap;
use std::time::Instant;

// as many bytes before the code as PAD says, since the place of a loop changes its time
std::arch::global_asm!(concat!(
    ".section .text.pad,\"ax\"\n.globl pad_here\npad_here:\n.skip ",
    env!("PAD"),
    ", 0x90\n"
));

unsafe extern "C" {
    fn pad_here();
    fn digit_rows(asked: &Asked, told: &mut Told);
}

/// A text as a pointer and a length, and what is asked of it.
#[repr(C)]
struct Asked {
    text: *const u8,
    length: usize,
    call: u64,
    form: usize,
    low: u64,
    high: u64,
}

#[repr(C)]
#[derive(Clone, Copy, Default)]
struct Told {
    value: u64,
    count: u64,
}

/// How many numbers a text has.
const NUMBERS: usize = 20_000;

/// Numbers by chance, always the same ones (splitmix64).
struct Chance(u64);

impl Chance {
    fn next(&mut self) -> u64 {
        self.0 = self.0.wrapping_add(0x9e37_79b9_7f4a_7c15);
        let mut bits = self.0;
        bits = (bits ^ (bits >> 30)).wrapping_mul(0xbf58_476d_1ce4_e5b9);
        bits = (bits ^ (bits >> 27)).wrapping_mul(0x94d0_49bb_1331_11eb);
        bits ^ (bits >> 31)
    }

    fn below(&mut self, bound: u64) -> u64 {
        self.next() % bound
    }

    /// A length: `3`, or `1-4` by chance.
    fn length(&mut self, text: &str) -> u64 {
        match text.split_once('-') {
            Some((low, high)) => {
                let low: u64 = low.parse().expect("a length");
                low + self.below(high.parse::<u64>().expect("a length") - low + 1)
            }
            None => text.parse().expect("a length"),
        }
    }

    /// Digits, of which the first is no zero unless it is the only one.
    fn digits(&mut self, count: u64) -> String {
        let first = if count > 1 { 1 + self.below(9) } else { self.below(10) };
        let rest = self.places(count.saturating_sub(1));
        if count == 0 { String::new() } else { format!("{first}{rest}") }
    }

    /// Digits of any kind.
    fn places(&mut self, count: u64) -> String {
        (0..count).map(|_| char::from(b'0' + self.below(10) as u8)).collect()
    }
}

/// Digits with `_` between each three of them, from the last or from the first on.
fn grouped(digits: &str, from_last: bool) -> String {
    let mut text = String::new();
    for (index, digit) in digits.chars().enumerate() {
        let place = if from_last { digits.len() - index } else { index };
        if index > 0 && place % 3 == 0 {
            text.push('_');
        }
        text.push(digit);
    }
    text
}

/// The number of a shape that has this index.
fn number(chance: &mut Chance, shape: &str, index: usize) -> String {
    if let Some(text) = shape.strip_prefix("lit:") {
        return text.to_string();
    }
    let (shape, suffix) = shape.split_once('~').unwrap_or((shape, ""));
    let letters = shape.len() - shape.trim_start_matches(|c: char| c.is_ascii_alphabetic()).len();
    let mut text = String::new();
    let mut is_grouped = false;
    for letter in shape[..letters].chars() {
        match letter {
            's' if chance.below(2) == 0 => text.push('-'),
            'm' => text.push('-'),
            'p' => text.push('+'),
            'n' if chance.below(16) == 0 => text.push('-'),
            'f' if index % 64 == 0 => text.push('-'),
            'z' => text.push_str("0."),
            'Z' => text.push_str("000"),
            'E' => text.push_str("e-"),
            'x' => text.push_str("0x"),
            'g' => is_grouped = true,
            _ => {}
        }
    }
    let (whole, places) = match shape[letters..].split_once('.') {
        Some((whole, places)) => (whole, Some(places)),
        None => (&shape[letters..], None),
    };
    let count = chance.length(whole);
    let may_begin_with_zero = shape.contains('z') || shape.contains('E') || shape.contains('h');
    let digits = match shape.contains('h') {
        true => (0..count).map(|_| char::from(b"0123456789abcdef"[chance.below(16) as usize])).collect(),
        false if may_begin_with_zero => chance.places(count),
        false => chance.digits(count),
    };
    text.push_str(&if is_grouped { grouped(&digits, true) } else { digits });
    if let Some(places) = places {
        text.push('.');
        let count = chance.length(places);
        let digits = chance.places(count);
        text.push_str(&if is_grouped { grouped(&digits, false) } else { digits });
    }
    text + suffix
}

/// A row: a call, a shape, and what else it says.
struct Row {
    name: String,
    call: u64,
    form: usize,
    word: u128,
    text: String,
}

impl Row {
    fn of(line: &str, calls: &HashMap<String, u64>) -> Row {
        let mut words = line.split_whitespace();
        let call = words.next().expect("a call");
        let shape = words.next().expect("a shape");
        let (mut form, mut word, mut separator) = (0, 0, ",".to_string());
        let (mut list, mut fault) = (usize::MAX, usize::MAX);
        for other in words {
            let (key, value) = other.split_once('=').expect("KEY=VALUE");
            match key {
                "form" => form = value.parse().expect("a form"),
                "word" => word = u128::from_str_radix(value, 16).expect("a word"),
                "between" => {
                    separator = value.replace('b', " ").replace('n', "\n").replace('r', "\r");
                }
                "list" => list = value.parse().expect("a count"),
                "fault" => fault = value.parse().expect("a count"),
                _ => panic!("{key}"),
            }
        }
        let mut chance = Chance(7);
        let mut text = String::new();
        for index in 0..NUMBERS {
            let next = number(&mut chance, shape, index);
            text.push_str(if index % fault == fault - 1 { "x" } else { &next });
            text.push_str(if index % list == list - 1 { ";" } else { &separator });
        }
        Row {
            name: line.split_whitespace().collect::<Vec<_>>().join(" "),
            call: calls[call],
            form,
            word,
            text,
        }
    }

    fn once(&self) -> Told {
        let asked = Asked {
            text: self.text.as_ptr(),
            length: self.text.len(),
            call: self.call,
            form: self.form,
            low: self.word as u64,
            high: (self.word >> 64) as u64,
        };
        let mut told = Told::default();
        counted(&asked, &mut told);
        told
    }
}

/// What callgrind counts.
#[unsafe(no_mangle)]
#[inline(never)]
fn counted(asked: &Asked, told: &mut Told) {
    unsafe { digit_rows(asked, told) }
}

/// The lines of a file that say something.
fn lines(path: &str) -> Vec<String> {
    let text = std::fs::read_to_string(path).expect(path);
    text.lines()
        .map(|line| line.split('#').next().unwrap_or("").trim().to_string())
        .filter(|line| !line.is_empty())
        .collect()
}

fn main() {
    std::hint::black_box(pad_here as *const () as usize);
    let words: Vec<String> = std::env::args().skip(1).collect();
    let calls = lines(&words[1])
        .iter()
        .map(|line| line.split_once(' ').expect("NUMBER NAME"))
        .map(|(number, name)| (name.to_string(), number.parse().expect("a number")))
        .collect();
    for line in lines(&words[2]) {
        let row = Row::of(&line, &calls);
        if words[0] == "once" {
            let told = row.once();
            println!("{}\t{NUMBERS}\t{:x} {}", row.name, told.value, told.count);
            continue;
        }
        let repeats: usize = words[3].parse().expect("a count");
        let mut told = Told::default();
        let mut least = f64::MAX;
        for _ in 0..repeats {
            let begin = Instant::now();
            told = row.once();
            least = least.min(begin.elapsed().as_nanos() as f64 / NUMBERS as f64);
        }
        println!("{}\t{least:.3}\t{:x} {}", row.name, told.value, told.count);
    }
}
