//! The error that an oscillator is expected to have once the code is cut.

use crate::{sys, Refusal};

/// An oscillator's four figures.
#[derive(Clone, Copy, Debug, PartialEq)]
#[repr(C)]
pub struct Oscillator {
    /// Its starting error E0, in seconds.
    pub error: f64,
    /// Its own frequency f0.
    pub frequency: f64,
    /// The reference frequency fr, in the same unit.
    pub reference: f64,
    /// Its ageing a: the change of f0/fr for each second.
    pub ageing: f64,
}

/// The most seconds that [`forecast`] takes.
pub const MOST_SECONDS: u32 = 16_777_216;

/// The expected error after so many seconds, E0 + (f0/fr - 1) t + a t t / 2, in document 02's order, each operation
/// rounded: exactly the bits of `(e0 + (f0 / fr - 1.0) * t) + t * t * a / 2.0`. It may be infinite or no number.
///
/// Refuses with 23 where a figure is not finite, the reference is 0.0 or -0.0, or there are more than [`MOST_SECONDS`].
///
/// ```
/// use duskveyra::{forecast, Oscillator};
///
/// // 10 MHz, 0.01 Hz high and 1 ms late at the cut: after an hour it is 1 ms and 3.6 microseconds off.
/// let oscillator = Oscillator { error: 0.001, frequency: 10_000_000.01, reference: 1.0e7, ageing: 0.0 };
/// let error = forecast(oscillator, 3600)?;
/// assert!((error - 0.001_003_6).abs() < 1e-12);
/// # Ok::<(), duskveyra::Refusal>(())
/// ```
#[inline]
pub fn forecast(oscillator: Oscillator, seconds: u32) -> Result<f64, Refusal> {
    // SAFETY: everything goes by value.
    let result = unsafe { sys::duskveyra_forecast(oscillator, seconds) };
    Refusal::check(result.number, 0)?;
    Ok(result.error)
}
