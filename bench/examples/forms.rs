//! Reads numbers by a form: `forms NUMBER START` answers each line of standard input by a line, of
//! the number that begins at the start: `i`, `-`, `f`, `o` or `n` for an integer, one with a minus, a
//! float's bits, an integer above 128 bits, or nothing; then, in hexadecimal digits, the value and
//! the end. `bench/forms/compare` runs it.

use std::io::{stdin, stdout, BufRead, BufWriter, Write};

#[repr(C)]
struct Asked {
    text: *const u8,
    len: usize,
    start: usize,
    form: usize,
}

#[repr(C)]
#[derive(Default)]
struct Told {
    kind: u64,
    low: u64,
    high: u64,
    end: u64,
}

unsafe extern "C" {
    fn digit_bench_form(asked: &Asked, told: &mut Told);
}

fn main() {
    let mut numbers = std::env::args().skip(1).map_while(|it| it.parse().ok());
    let form = numbers.next().expect("a form's number");
    let start = numbers.next().expect("a start");
    let mut out = BufWriter::new(stdout().lock());
    for line in stdin().lock().split(b'\n') {
        let text = line.expect("a line");
        let asked = Asked { text: text.as_ptr(), len: text.len(), start, form };
        let mut told = Told::default();
        // SAFETY: the pointer is that of a slice, and the export keeps none.
        unsafe { digit_bench_form(&asked, &mut told) };
        let kind = b"ni-fo"[told.kind as usize] as char;
        let value = u128::from(told.high) << 64 | u128::from(told.low);
        writeln!(out, "{kind}{value:x} {:x}", told.end).expect("standard output");
    }
}
