//! Sums the second column of a CSV file in cents, exactly: `name,1_234.50`.

use digits_sys::{parse_scaled_by, words};
use std::io::{self, Read};

fn main() -> io::Result<()> {
    let mut text = String::new();
    io::stdin().read_to_string(&mut text)?;
    let mut sum = 0;
    for (number, line) in (1..).zip(text.lines()) {
        let field = line.split(',').nth(1).unwrap_or("");
        match parse_scaled_by(field.as_bytes(), 2, words::PYTHON_LITERAL, b'.') {
            Ok(cents) => sum += cents,
            Err(fault) => println!("line {number}: {fault} of `{field}`"),
        }
    }
    println!("sum {sum} cents");
    Ok(())
}
