//! Write over a million frames of G1 in succession: the library, and an earlier one where it is linked, beside Rust.

use crate::plain::Time;
use crate::{format, random, write};

const FRAMES: usize = 1_000_000;

/// Times in succession over a midnight, each with a control word of 36 bits.
fn times() -> Vec<(Time, u64)> {
    let mut state = 7;
    (0..FRAMES as u32)
        .map(|frame| {
            let hundredths = (8_000_000 + frame) % 8_640_000;
            let day = 300 + ((8_000_000 + frame) / 8_640_000) as u16;
            let control = random(&mut state) & ((1 << 36) - 1);
            let time = Time {
                year: 0,
                day,
                hundredths,
            };
            (time, control)
        })
        .collect()
}

/// All sides in the same rounds: each ratio is of two times within one round.
pub fn rows() {
    let sides = write(format(b'G', 1), &times());
    println!("\n| write, a million frames of G1 | ns per frame | library / this |");
    println!("|---|---:|---:|");
    let names = ["library", "plain Rust", "tuned Rust", "library before"];
    for (name, side) in names.iter().zip(sides.into_iter().flatten()) {
        println!("| {name} | {:.2} | {:.2} |", side.time, side.ratio);
    }
}
