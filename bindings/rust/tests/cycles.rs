//! Frames in the modified Manchester form through the safe types: the stored calls, every symbol and every number of
//! cycles there and back, refusals in their order, and lent memory left as it was.

use duskveyra::{
    decode_cycles, encode_cycles, read, write, Format, Refusal, Time, HIGH_CYCLE, LOW_CYCLE,
    SPOILED,
};
use std::fs::read_to_string;

const STORED: &str = concat!(env!("CARGO_MANIFEST_DIR"), "/../../tests/stored/cycles.txt");
const B0: Format = Format {
    letter: b'B',
    expression: 0,
};

fn elements(word: &str) -> Vec<u8> {
    let symbol = |character| match character {
        b'0' => 0,
        b'1' => 1,
        b'P' => 2,
        b'-' => 3,
        _ => panic!("{word}"),
    };
    word.bytes().map(symbol).collect()
}

fn shown(frame: &[u8]) -> String {
    frame
        .iter()
        .map(|&s| char::from(b"01P-"[usize::from(s)]))
        .collect()
}

fn bytes(word: &str) -> Vec<u8> {
    if word == "(empty)" {
        return vec![];
    }
    (0..word.len())
        .step_by(2)
        .map(|at| u8::from_str_radix(&word[at..at + 2], 16).unwrap())
        .collect()
}

fn hexadecimal(cycles: &[u8]) -> String {
    cycles.iter().map(|cycle| format!("{cycle:02x}")).collect()
}

fn refused(refusal: Refusal) -> String {
    match refusal.index() {
        Some(index) => format!("R{}@{index}", refusal.number()),
        None => format!("R{}", refusal.number()),
    }
}

#[test]
fn stored_calls() {
    let stored = read_to_string(STORED).unwrap();
    for line in stored.lines() {
        let words: Vec<&str> = line.split(' ').collect();
        let format = Format {
            letter: words[1].as_bytes()[0],
            expression: words[2].parse().unwrap(),
        };
        let count: usize = words[3].parse().unwrap();
        let answer = if words[0] == "encode" {
            let frame = elements(words[4]);
            let mut cycles = vec![7; frame.len() * count];
            encode_cycles(format, count, &frame, &mut cycles).map(|()| hexadecimal(&cycles))
        } else {
            let mut frame = [7; 100];
            decode_cycles(format, count, &bytes(words[4]), &mut frame).map(|()| shown(&frame))
        };
        assert_eq!(answer.unwrap_or_else(refused), words[6], "{}", &line[..20]);
    }
    assert_eq!(stored.lines().count(), 17);
}

#[test]
fn there_and_back() {
    for count in (10..=100).step_by(10) {
        for letter in *b"ABG" {
            let format = Format {
                letter,
                expression: 1,
            };
            let frame: Vec<u8> = (0..100).map(|i| (i * i / 7 % 3) as u8).collect();
            let mut cycles = vec![0; 100 * count];
            encode_cycles(format, count, &frame, &mut cycles).unwrap();
            for (element, &symbol) in cycles.chunks(count).zip(&frame) {
                let highs = [2, 5, 8][usize::from(symbol)] * count / 10;
                assert!(element[..highs].iter().all(|&cycle| cycle == HIGH_CYCLE));
                assert!(element[highs..].iter().all(|&cycle| cycle == LOW_CYCLE));
            }
            let mut again = [9; 100];
            decode_cycles(format, count, &cycles, &mut again).unwrap();
            assert_eq!(again[..], frame);
        }
    }
}

#[test]
fn turned_cycles_spoil_one_element() {
    let (mut frame, mut cycles) = ([0; 100], [0; 1000]);
    let time = Time {
        year: 0,
        day: 366,
        hundredths: 8_640_000,
    };
    write(B0, time, 1, &mut frame).unwrap();
    encode_cycles(B0, 10, &frame, &mut cycles).unwrap();
    for index in 0..1000 {
        let mut damaged = cycles;
        damaged[index] = 3 - damaged[index];
        let mut again = [9; 100];
        decode_cycles(B0, 10, &damaged, &mut again).unwrap();
        assert_eq!(again[index / 10], SPOILED);
        again[index / 10] = frame[index / 10];
        assert_eq!(again, frame);
    }
    assert_eq!(read(B0, &frame).unwrap().time, time);
}

#[test]
fn refusals_in_their_order() {
    let mut lent = [9; 1000];
    let mut frame = [9; 100];
    for letter in *b"DEHXb" {
        let format = Format {
            letter,
            expression: 1,
        };
        let encoded = encode_cycles(format, 0, &[], &mut lent);
        assert_eq!(encoded, Err(Refusal::UnknownFormat));
        assert_eq!(decode_cycles(format, 0, &[0], &mut frame), encoded);
    }
    for count in [0, 5, 15, 110, u32::MAX as usize, usize::MAX] {
        let encoded = encode_cycles(B0, count, &[], &mut lent);
        assert_eq!(encoded, Err(Refusal::InvalidCycleCount));
        assert_eq!(decode_cycles(B0, count, &[0], &mut frame), encoded);
    }
    for cycles in [999, 1001] {
        let encoded = encode_cycles(B0, 10, &[3; 100], &mut vec![9; cycles]);
        assert_eq!(encoded, Err(Refusal::WrongLength));
        assert_eq!(decode_cycles(B0, 10, &vec![0; cycles], &mut frame), encoded);
    }
    let encoded = encode_cycles(B0, 10, &[0; 99], &mut lent);
    assert_eq!(encoded, Err(Refusal::WrongLength));
    let encoded = encode_cycles(B0, 10, &[3; 100], &mut lent);
    assert_eq!(encoded, Err(Refusal::UnknownSymbol));
    let mut cycles = [2; 1000];
    for index in [999, 500, 0] {
        cycles[index] = if index == 500 { 0 } else { 3 };
        let decoded = decode_cycles(B0, 10, &cycles, &mut frame);
        assert_eq!(decoded, Err(Refusal::UnknownCycle(index)));
    }
    assert_eq!((lent, frame), ([9; 1000], [9; 100]));
    assert_eq!(
        Refusal::UnknownCycle(7).to_string(),
        "refused 25: cycle neither 1 nor 2, at cycle 7"
    );
}
