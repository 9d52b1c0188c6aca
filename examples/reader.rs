//! Reads a recording on standard input, letter and expression and then the characters 0 1 P - of its elements, and prints the
//! day and the time of each report. In bindings/rust: `cargo run --example reader < RECORDING`.

use duskveyra::{time_of_day, Format, Reader};
use std::error::Error;
use std::io::{stdin, Read};

fn main() -> Result<(), Box<dyn Error>> {
    let mut bytes = stdin().lock().bytes();
    let (letter, digit) = (bytes.next(), bytes.next());
    let format = Format {
        letter: letter.transpose()?.unwrap_or(0),
        expression: digit.transpose()?.unwrap_or(0).wrapping_sub(b'0'),
    };
    let mut reader = Reader::fresh(format, 2)?;
    for character in bytes {
        let character = character?;
        let Some(symbol) = b"01P-".iter().position(|&known| known == character) else {
            continue; // a space or the end of a line
        };
        if let Some(report) = reader.feed(symbol as u8)? {
            let clock = time_of_day(report.time)?;
            println!(
                "day {}, {:02}:{:02}:{:02}.{:02}",
                report.time.day, clock.hour, clock.minute, clock.second, clock.hundredth
            );
        }
    }
    Ok(())
}
