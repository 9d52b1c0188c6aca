//! Frames of A and B with the year and without.

use crate::{sys, Format, Refusal};

/// Puts the year into a frame of A or B, expression 0 to 3: `later` becomes the frame of the expression four higher, with
/// the year at 50 to 58 and everything else in its place.
///
/// Refuses with 1 where the format is another; 3 where a frame has not 100 elements; 4; the lowest index that offends
/// with 5 or 6; 7; 8; 17 for a year over 99; 2 for day 366 in a year that lacks it; 18 where one of control bits 1 to 9,
/// which stand at 50 to 58, is a one; in this order. A refusal leaves `later` as it was.
#[inline]
pub fn forward(format: Format, frame: &[u8], year: u8, later: &mut [u8]) -> Result<(), Refusal> {
    // SAFETY: each pointer and length are those of one slice, and nothing else points into the lent one.
    let result = unsafe {
        sys::duskveyra_forward(
            format,
            frame.as_ptr(),
            frame.len(),
            year,
            later.as_mut_ptr(),
            later.len(),
        )
    };
    Refusal::check(result.number, result.index)
}

/// Takes the year out of a frame of A or B, expression 4 to 7: `earlier` becomes the frame of the expression four lower,
/// with zeros at 50 to 58 and everything else in its place.
///
/// Refuses with 1 where the format is another; 3 where a frame has not 100 elements; 4; the lowest index that offends
/// with 5 or 6; 7; 8; in this order. A refusal leaves `earlier` as it was.
#[inline]
pub fn backward(format: Format, frame: &[u8], earlier: &mut [u8]) -> Result<(), Refusal> {
    // SAFETY: each pointer and length are those of one slice, and nothing else points into the lent one.
    let result = unsafe {
        sys::duskveyra_backward(
            format,
            frame.as_ptr(),
            frame.len(),
            earlier.as_mut_ptr(),
            earlier.len(),
        )
    };
    Refusal::check(result.number, result.index)
}
