//! Frames as clock cycles and back, beside one reading and one filling of the same bytes; and the hold-over forecast.

use crate::{compare, format, heading, random, row, Side};
use std::cell::RefCell;
use std::hint::black_box;

pub fn rows() {
    heading("clock cycles, a frame of B0, and forecast");
    for count in [10, 100] {
        row(
            &format!("decode_cycles, M = {count}"),
            "cycle",
            decode(count),
        );
        row(
            &format!("decode_cycles, M = {count}, against one search of the cycles"),
            "cycle",
            decode_and_search(count),
        );
        row(
            &format!("encode_cycles, M = {count}"),
            "cycle",
            encode(count),
        );
        row(
            &format!("encode_cycles, M = {count}, against one fill of the cycles"),
            "cycle",
            encode_and_fill(count),
        );
    }
    row("forecast", "call", forecast());
}

fn plain_format() -> reference::Format {
    format(b'B', 0)
}

fn library_format() -> duskveyra::Format {
    duskveyra::Format {
        letter: b'B',
        expression: 0,
    }
}

/// Any zeros, ones and marks, and their cycles.
fn prepared(count: usize) -> (Vec<u8>, Vec<u8>) {
    let mut state = 5;
    let frame: Vec<u8> = (0..100).map(|_| (random(&mut state) % 3) as u8).collect();
    let mut cycles = vec![0; 100 * count];
    reference::encode_cycles(plain_format(), count, &frame, &mut cycles).expect("a frame");
    (frame, cycles)
}

fn sum(bytes: &[u8]) -> u64 {
    bytes.iter().map(|&byte| u64::from(byte)).sum()
}

/// Rust for speed: each element's high cycles are counted, and the rest must be low.
fn tuned_decode(count: usize, cycles: &[u8], frame: &mut [u8]) -> bool {
    if !cycles.iter().all(|&cycle| cycle == 1 || cycle == 2) {
        return false;
    }
    for (symbol, element) in frame.iter_mut().zip(cycles.chunks_exact(count)) {
        let highs = element.iter().take_while(|&&cycle| cycle == 1).count();
        *symbol = if element[highs..].iter().any(|&cycle| cycle == 1) {
            3
        } else {
            match 10 * highs / count {
                2 if 10 * highs == 2 * count => 0,
                5 if 10 * highs == 5 * count => 1,
                8 if 10 * highs == 8 * count => 2,
                _ => 3,
            }
        };
    }
    true
}

fn tuned_encode(count: usize, frame: &[u8], cycles: &mut [u8]) -> bool {
    if frame.iter().any(|&symbol| symbol > 2) {
        return false;
    }
    for (element, &symbol) in cycles.chunks_exact_mut(count).zip(frame) {
        let (high, low) = element.split_at_mut([2, 5, 8][usize::from(symbol)] * count / 10);
        high.fill(1);
        low.fill(2);
    }
    true
}

fn decode(count: usize) -> Vec<Option<Side>> {
    let (_, cycles) = prepared(count);
    let lent = RefCell::new([0; 100]);
    compare(
        cycles.len(),
        &[
            Some(&|| {
                let frame = &mut *lent.borrow_mut();
                let _ =
                    duskveyra::decode_cycles(library_format(), black_box(count), &cycles, frame);
                sum(black_box(frame))
            }),
            Some(&|| {
                let frame = &mut *lent.borrow_mut();
                let _ = reference::decode_cycles(plain_format(), black_box(count), &cycles, frame);
                sum(black_box(frame))
            }),
            Some(&|| {
                let frame = &mut *lent.borrow_mut();
                tuned_decode(black_box(count), &cycles, frame);
                sum(black_box(frame))
            }),
        ],
    )
}

fn decode_and_search(count: usize) -> Vec<Option<Side>> {
    let (frame, cycles) = prepared(count);
    let expected = sum(&frame);
    let lent = RefCell::new([0; 100]);
    compare(
        cycles.len(),
        &[
            Some(&|| {
                let frame = &mut *lent.borrow_mut();
                let _ =
                    duskveyra::decode_cycles(library_format(), black_box(count), &cycles, frame);
                sum(black_box(frame))
            }),
            Some(&|| expected + u64::from(black_box(&cycles).contains(&black_box(0)))),
        ],
    )
}

fn encode(count: usize) -> Vec<Option<Side>> {
    let (frame, cycles) = prepared(count);
    let lent = RefCell::new(cycles);
    compare(
        100 * count,
        &[
            Some(&|| {
                let cycles = &mut *lent.borrow_mut();
                let _ =
                    duskveyra::encode_cycles(library_format(), black_box(count), &frame, cycles);
                u64::from(black_box(cycles)[count])
            }),
            Some(&|| {
                let cycles = &mut *lent.borrow_mut();
                let _ = reference::encode_cycles(plain_format(), black_box(count), &frame, cycles);
                u64::from(black_box(cycles)[count])
            }),
            Some(&|| {
                let cycles = &mut *lent.borrow_mut();
                tuned_encode(black_box(count), &frame, cycles);
                u64::from(black_box(cycles)[count])
            }),
        ],
    )
}

fn encode_and_fill(count: usize) -> Vec<Option<Side>> {
    let (frame, cycles) = prepared(count);
    let lent = RefCell::new(cycles);
    compare(
        100 * count,
        &[
            Some(&|| {
                let cycles = &mut *lent.borrow_mut();
                let _ =
                    duskveyra::encode_cycles(library_format(), black_box(count), &frame, cycles);
                u64::from(black_box(cycles)[0])
            }),
            Some(&|| {
                let cycles = &mut *lent.borrow_mut();
                cycles.fill(black_box(1));
                u64::from(black_box(cycles)[0])
            }),
        ],
    )
}

fn forecast() -> Vec<Option<Side>> {
    let mut state = 6;
    let offsets: Vec<f64> = (0..256)
        .map(|_| (random(&mut state) % 2001) as f64 - 1000.0)
        .collect();
    type Plain = fn(reference::Oscillator, u32) -> Result<f64, reference::Refusal>;
    let plain = black_box(reference::forecast as Plain);
    compare(
        offsets.len(),
        &[
            Some(&|| {
                offsets.iter().fold(0, |all, &offset| {
                    let oscillator = duskveyra::Oscillator {
                        error: offset * 1e-9,
                        frequency: 1e7 + offset,
                        reference: 1e7,
                        ageing: offset * 1e-18,
                    };
                    all ^ duskveyra::forecast(oscillator, 86_400).map_or(0, f64::to_bits)
                })
            }),
            Some(&|| {
                offsets.iter().fold(0, |all, &offset| {
                    let oscillator = reference::Oscillator {
                        starting_error: offset * 1e-9,
                        own_frequency: 1e7 + offset,
                        reference_frequency: 1e7,
                        ageing: offset * 1e-18,
                    };
                    all ^ plain(oscillator, 86_400).map_or(0, f64::to_bits)
                })
            }),
        ],
    )
}
