//! Frames of A, B and G in the modified Manchester form.

use crate::{sys, Format, Refusal};

/// A high clock cycle: the half levels 01.
pub const HIGH_CYCLE: u8 = 1;
/// A low clock cycle: the half levels 10.
pub const LOW_CYCLE: u8 = 2;

/// Encodes each symbol of a frame as `count` clock cycles, high ones first: `count / 5` of them for a zero, `count / 2`
/// for a one, `4 * count / 5` for a mark; every cycle is set.
///
/// Refuses with 1 where the format is none of A, B and G; 24 where `count` is not a multiple of 10 from 10 to 100; 3
/// where the frame has not the format's length, or there is not room for just that many times `count` cycles; 4 for a
/// symbol above 2; in this order. A refusal leaves `cycles` as they were.
///
/// ```
/// use duskveyra::{decode_cycles, encode_cycles, read, write, Format, Time};
///
/// let format = Format { letter: b'B', expression: 2 };
/// let time = Time { year: 0, day: 191, hundredths: 5_088_000 };
/// let (mut frame, mut cycles, mut again) = ([0; 100], [0; 1000], [0; 100]);
/// write(format, time, 0, &mut frame)?;
/// encode_cycles(format, 10, &frame, &mut cycles)?;
/// assert_eq!(cycles[..10], [1, 1, 1, 1, 1, 1, 1, 1, 2, 2]); // the first element is a mark
/// decode_cycles(format, 10, &cycles, &mut again)?;
/// assert_eq!(read(format, &again)?.time, time);
/// # Ok::<(), duskveyra::Refusal>(())
/// ```
#[inline]
pub fn encode_cycles(
    format: Format,
    count: usize,
    frame: &[u8],
    cycles: &mut [u8],
) -> Result<(), Refusal> {
    // SAFETY: each pointer and length are those of one slice, and nothing else points into the lent one.
    let result = unsafe {
        sys::duskveyra_encode_cycles(
            format,
            count,
            frame.as_ptr(),
            frame.len(),
            cycles.as_mut_ptr(),
            cycles.len(),
        )
    };
    Refusal::check(result.number, 0)
}

/// Decodes the clock cycles of a frame, `count` for each symbol, from an element's first on; every symbol is set. A run
/// of high and low cycles that [`encode_cycles`] never makes is a spoiled symbol.
///
/// Refuses with 1, 24 and 3 as [`encode_cycles`] does; then 25, with its index, for the first cycle that is neither high
/// nor low. A refusal leaves `frame` as it was.
#[inline]
pub fn decode_cycles(
    format: Format,
    count: usize,
    cycles: &[u8],
    frame: &mut [u8],
) -> Result<(), Refusal> {
    // SAFETY: each pointer and length are those of one slice, and nothing else points into the lent one.
    let result = unsafe {
        sys::duskveyra_decode_cycles(
            format,
            count,
            cycles.as_ptr(),
            cycles.len(),
            frame.as_mut_ptr(),
            frame.len(),
        )
    };
    Refusal::check(result.number, result.index)
}
