//! Prints what `timelook` must find in the recording on standard input: a line
//! for each frame that is due and refused, its first element, the number and
//! the element that offends, if any, and the next frame's first element; then
//! each format that reports, forwards and backwards, with its reports.
use std::io::Read;

use reference::{read, scan, Answer, Format, Reader};

const FORMATS: [&str; 7] = ["A01234567", "B01234567", "D12", "E12", "G12", "H12", "X2"];

fn elements(format: Format) -> usize {
    match format.letter {
        b'D' | b'H' => 60,
        b'X' => 25,
        _ => 100,
    }
}

fn frames(format: Format, recording: &[u8]) {
    let n = elements(format);
    let Ok(Some((mut place, _, _))) = scan(format, recording, 0) else {
        return;
    };
    while place + n <= recording.len() {
        let Err(refusal) = read(format, &recording[place..place + n]) else {
            place += n;
            continue;
        };
        // The first frame that begins within this one, or the place where it ends.
        let next = match scan(format, recording, place + 1) {
            Ok(Some((start, _, _))) if start < place + n => start,
            _ => place + n,
        };
        let offending = refusal.index().map(|index| place + index + 1);
        let offending = offending.map_or(String::new(), |element| element.to_string());
        println!("{} {} {offending} {}", place + 1, refusal.number(), next + 1);
        place = next;
    }
}

fn reports(format: Format, recording: impl Iterator<Item = u8>) -> usize {
    let mut reader = Reader::fresh(format, 2).unwrap();
    recording
        .filter(|&symbol| matches!(reader.feed(symbol), Answer::Report(..)))
        .count()
}

fn main() {
    let mut input = Vec::new();
    std::io::stdin().read_to_end(&mut input).unwrap();
    let format = Format {
        letter: input[0],
        expression: input[1] - b'0',
    };
    let recording: Vec<u8> = input[3..]
        .iter()
        .filter_map(|character| b"01P-".iter().position(|c| c == character))
        .map(|symbol| symbol as u8)
        .collect();
    frames(format, &recording);
    for direction in ["forwards", "backwards"] {
        for formats in FORMATS {
            for &digit in &formats.as_bytes()[1..] {
                let format = Format {
                    letter: formats.as_bytes()[0],
                    expression: digit - b'0',
                };
                let symbols = recording.iter().copied();
                let count = match direction {
                    "forwards" => reports(format, symbols),
                    _ => reports(format, symbols.rev()),
                };
                if count > 0 {
                    println!("{direction} {}{} {count}", &formats[..1], digit as char);
                }
            }
        }
    }
}
