//! Prints what `timeread` must print of the recording on standard input.
use std::io::{Read, Write};

fn main() {
    let mut input = Vec::new();
    std::io::stdin().read_to_end(&mut input).unwrap();
    let mut out = Vec::new();
    reference::timeread(&input, &mut out);
    std::io::stdout().write_all(&out).unwrap();
}
