//! Frames of A and B from the edition without the year to the one with it, and
//! back.

use std::ops::{Range, RangeInclusive};

use crate::clock::check_on_format;
use crate::formats::{Format, Time, ONE, ZERO};
use crate::frame::{put_decimal, read};
use crate::layout::Layout;
use crate::refusal::Refusal;

/// Where the year's digits stand, and control bits 1 to 9 without it.
const YEAR_PLACES: RangeInclusive<usize> = 50..=58;

const WITHOUT_YEAR: Range<u8> = 0..4;
const WITH_YEAR: Range<u8> = 4..8;

/// Puts the year into a frame of expression 0 to 3: `later` becomes a frame of
/// the expression four higher. A refusal leaves it untouched.
pub fn forward(format: Format, frame: &[u8], year: u8, later: &mut [u8]) -> Result<(), Refusal> {
    let (time, _) = read_both(format, WITHOUT_YEAR, frame, later)?;
    let layout = Layout::of(Format {
        expression: format.expression + 4,
        ..format
    })?;
    check_on_format(layout, Time { year, ..time })?;
    if frame[YEAR_PLACES].contains(&ONE) {
        return Err(Refusal::YearPlace);
    }
    later.copy_from_slice(frame);
    put_decimal(later, &layout.year, u32::from(year));
    Ok(())
}

/// Takes the year out of a frame of expression 4 to 7: `earlier` becomes a
/// frame of the expression four lower. A refusal leaves it untouched.
pub fn backward(format: Format, frame: &[u8], earlier: &mut [u8]) -> Result<(), Refusal> {
    read_both(format, WITH_YEAR, frame, earlier)?;
    earlier.copy_from_slice(frame);
    earlier[YEAR_PLACES].fill(ZERO);
    Ok(())
}

/// Read's answer, where the format is of A or B and of those expressions and
/// the lent frame has the right length too.
fn read_both(
    format: Format,
    expressions: Range<u8>,
    frame: &[u8],
    lent: &[u8],
) -> Result<(Time, u64), Refusal> {
    if !matches!(format.letter, b'A' | b'B') || !expressions.contains(&format.expression) {
        return Err(Refusal::Format);
    }
    if lent.len() != Layout::of(format)?.elements {
        return Err(Refusal::Length);
    }
    read(format, frame)
}
