//! The modified Manchester form: an element as clock cycles, each two half
//! levels in a byte.

use crate::formats::{Format, MARK, SPOILED};
use crate::layout::Layout;
use crate::refusal::Refusal;

const HIGH: u8 = 1;
const LOW: u8 = 2;

/// A frame as `count` cycles for each symbol; a refusal leaves them untouched.
pub fn encode_cycles(
    format: Format,
    count: usize,
    frame: &[u8],
    cycles: &mut [u8],
) -> Result<(), Refusal> {
    check(format, count, frame, cycles)?;
    if frame.iter().any(|&symbol| symbol > MARK) {
        return Err(Refusal::Symbol);
    }
    for (element, &symbol) in cycles.chunks_mut(count).zip(frame) {
        element.copy_from_slice(&element_of(count, symbol));
    }
    Ok(())
}

/// The frame of these cycles; a refusal leaves it untouched.
pub fn decode_cycles(
    format: Format,
    count: usize,
    cycles: &[u8],
    frame: &mut [u8],
) -> Result<(), Refusal> {
    check(format, count, frame, cycles)?;
    if let Some(index) = cycles.iter().position(|c| ![HIGH, LOW].contains(c)) {
        return Err(Refusal::Cycle(index));
    }
    for (symbol, element) in frame.iter_mut().zip(cycles.chunks(count)) {
        *symbol = (0..=MARK)
            .find(|&symbol| element == element_of(count, symbol))
            .unwrap_or(SPOILED);
    }
    Ok(())
}

fn check(format: Format, count: usize, frame: &[u8], cycles: &[u8]) -> Result<(), Refusal> {
    let elements = Layout::of(format)?.elements;
    if !b"ABG".contains(&format.letter) {
        return Err(Refusal::Format);
    }
    if !(10..=100).contains(&count) || count % 10 != 0 {
        return Err(Refusal::CycleCount);
    }
    if frame.len() != elements || cycles.len() != elements * count {
        return Err(Refusal::Length);
    }
    Ok(())
}

/// Two, five or eight tenths high, the rest low.
fn element_of(count: usize, symbol: u8) -> Vec<u8> {
    let highs = [2, 5, 8][usize::from(symbol)] * count / 10;
    let mut element = vec![HIGH; highs];
    element.resize(count, LOW);
    element
}
