//! Prints what `timelog` must print of the log on standard input.
use std::io::{Read, Write};

fn main() {
    let mut log = Vec::new();
    std::io::stdin().read_to_end(&mut log).unwrap();
    let mut out = Vec::new();
    reference::timelog(&log, &mut out);
    std::io::stdout().write_all(&out).unwrap();
}
