//! The stored calls of the modified Manchester form, which came with their answers.

use reference::*;
use std::fs::read_to_string;

const STORED: &str = concat!(env!("CARGO_MANIFEST_DIR"), "/../tests/stored/cycles.txt");

fn bytes(word: &str) -> Vec<u8> {
    let digits = word.strip_prefix("(empty)").unwrap_or(word).as_bytes();
    let byte = |pair: &[u8]| u8::from_str_radix(std::str::from_utf8(pair).unwrap(), 16).unwrap();
    digits.chunks(2).map(byte).collect()
}

fn answer(words: &[&str]) -> Result<String, Refusal> {
    let format = Format {
        letter: words[1].as_bytes()[0],
        expression: words[2].parse().unwrap(),
    };
    let count: usize = words[3].parse().unwrap();
    if words[0] == "decode" {
        let mut frame = [7; 100];
        decode_cycles(format, count, &bytes(words[4]), &mut frame)?;
        return Ok(frame
            .iter()
            .map(|&s| char::from(b"01P-"[usize::from(s)]))
            .collect());
    }
    let symbol = |c| b"01P-".iter().position(|&s| s == c).unwrap() as u8;
    let frame: Vec<u8> = words[4].bytes().map(symbol).collect();
    let mut cycles = vec![7; frame.len() * count];
    encode_cycles(format, count, &frame, &mut cycles)?;
    Ok(cycles.iter().map(|cycle| format!("{cycle:02x}")).collect())
}

#[test]
fn stored_calls() {
    for line in read_to_string(STORED).unwrap().lines() {
        let words: Vec<&str> = line.split(' ').collect();
        let answer = answer(&words).unwrap_or_else(|refusal| match refusal.index() {
            Some(index) => format!("R{}@{index}", refusal.number()),
            None => format!("R{}", refusal.number()),
        });
        assert_eq!(answer, words[6], "{}", &line[..20]);
    }
}
