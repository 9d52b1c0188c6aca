//! Random frames as clock cycles and random cycles as frames; lent memory is compared too, refused or not.

use crate::calls::{any_format, any_frame, any_length, converted, library_format};
use crate::random::Random;
use crate::{agree, Counts};
use reference::Format;

/// How many of each call go with a stream.
const TURNS: usize = 6;

pub fn run_cycles(random: &mut Random, counts: &mut Counts) -> Result<(), String> {
    for _ in 0..TURNS {
        let format = any_format(random);
        let count = any_count(random);
        counts.encoded += u64::from(there_and_back(random, format, count)?);
        counts.decoded += u64::from(damaged(random, format, count)?);
        counts.calls += 3;
    }
    Ok(())
}

/// Mostly a multiple of ten from 10 to 100.
fn any_count(random: &mut Random) -> usize {
    match random.below(10) {
        0 => random.pick(&[0, 5, 15, 110, u32::MAX as usize, usize::MAX]),
        1 => random.index(120),
        _ => 10 * (1 + random.index(10)),
    }
}

/// Mostly as many as the format's elements have, else some other number of them.
fn cycles_length(random: &mut Random, count: usize) -> usize {
    let whole = 100 * count.min(110);
    match random.below(10) {
        0 => whole.saturating_sub(1),
        1 => whole + 1,
        2 => random.index(300),
        _ => whole,
    }
}

/// A frame, mostly one that encoding takes; decoded again it is the frame. Whether it was taken.
fn there_and_back(random: &mut Random, format: Format, count: usize) -> Result<bool, String> {
    let mut symbols = any_frame(random, format);
    if !random.once_in(4) {
        for symbol in &mut symbols {
            *symbol %= 3;
        }
    }
    let length = cycles_length(random, count);
    let cycles = converted(
        random,
        length,
        |lent| duskveyra::encode_cycles(library_format(format), count, &symbols, lent),
        |lent| reference::encode_cycles(format, count, &symbols, lent),
        || format!("encode {format:?} M {count} {symbols:?}"),
    )?;
    let Some(cycles) = cycles else {
        return Ok(false);
    };
    let again = decoded(random, format, count, &cycles, 100)?;
    agree(|| "encoded and decoded".to_string(), again, Some(symbols))?;
    Ok(true)
}

/// The cycles of elements, some of them turned, and at times one that is no cycle. Whether they were taken.
fn damaged(random: &mut Random, format: Format, count: usize) -> Result<bool, String> {
    let mut cycles = vec![1; cycles_length(random, count)];
    let tenths = random.pick(&[2, 5, 8, 7]);
    for (index, cycle) in cycles.iter_mut().enumerate() {
        let width = count.clamp(1, 110);
        if index % width >= tenths * width / 10 {
            *cycle = 2;
        }
    }
    for _ in 0..random.below(40) {
        if !cycles.is_empty() {
            let index = random.index(cycles.len());
            cycles[index] = 3 - cycles[index];
        }
    }
    if random.once_in(3) {
        for _ in 0..1 + random.below(2) {
            if !cycles.is_empty() {
                let index = random.index(cycles.len());
                cycles[index] = random.next() as u8;
            }
        }
    }
    let length = any_length(random, format);
    Ok(decoded(random, format, count, &cycles, length)?.is_some())
}

fn decoded(
    random: &mut Random,
    format: Format,
    count: usize,
    cycles: &[u8],
    length: usize,
) -> Result<Option<Vec<u8>>, String> {
    converted(
        random,
        length,
        |lent| duskveyra::decode_cycles(library_format(format), count, cycles, lent),
        |lent| reference::decode_cycles(format, count, cycles, lent),
        || format!("decode {format:?} M {count} {cycles:?}"),
    )
}
