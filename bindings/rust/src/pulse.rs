//! Pulses: their symbol by width and period, and how far the width is off.

use crate::{sys, Refusal, Report};

/// How far the widths of zeros, ones and marks may lie from 20, 50 and 80 percent of the nominal element interval, in
/// percent of it. Any three bytes make a value of this type; a call refuses one that is not [`NARROWEST`] to [`WIDEST`]
/// with [`Refusal::InvalidWidthSetting`].
///
/// [`NARROWEST`]: WidthSettings::NARROWEST
/// [`WIDEST`]: WidthSettings::WIDEST
#[derive(Clone, Copy, Debug, PartialEq, Eq, Hash)]
#[repr(C)]
pub struct WidthSettings {
    /// Of zeros, about 20 percent.
    pub zeros: u8,
    /// Of ones, about 50 percent.
    pub ones: u8,
    /// Of marks, about 80 percent.
    pub marks: u8,
}

impl WidthSettings {
    /// The usual settings: 5, 5, 5.
    pub const USUAL: WidthSettings = WidthSettings {
        zeros: 5,
        ones: 5,
        marks: 5,
    };
    /// The least setting.
    pub const NARROWEST: u8 = 1;
    /// The greatest setting: the classes of greater ones could meet.
    pub const WIDEST: u8 = 14;
}

/// A pulse that was classified.
#[derive(Clone, Copy, Debug, PartialEq, Eq, Hash)]
pub struct Pulse {
    /// Its symbol.
    pub symbol: u8,
    /// 100 times its width less 20, 50 or 80 times the nominal interval, from -140,000,000 to 140,000,000; 0 for a
    /// spoiled element.
    pub deviation: i32,
}

/// A pulse that was classified and fed.
#[derive(Clone, Copy, Debug, PartialEq, Eq, Hash)]
pub struct FedPulse {
    /// What its symbol brought.
    pub report: Option<Report>,
    /// Its deviation, as [`classify`] gives it.
    pub deviation: i32,
}

/// Classifies one pulse by its width and its period, in the ticks of `interval`, the nominal element interval.
///
/// ```
/// use duskveyra::{classify, Pulse, WidthSettings, ONE, SPOILED};
///
/// let wide = WidthSettings { ones: 8, ..WidthSettings::USUAL };
/// assert_eq!(classify(WidthSettings::USUAL, 1_000, 430, 1_000), Ok(Pulse { symbol: SPOILED, deviation: 0 }));
/// assert_eq!(classify(wide, 1_000, 430, 1_000), Ok(Pulse { symbol: ONE, deviation: -7_000 }));
/// ```
///
/// Refuses with 10; 16; in this order.
#[inline]
pub fn classify(
    settings: WidthSettings,
    interval: u32,
    width: u32,
    period: u32,
) -> Result<Pulse, Refusal> {
    // SAFETY: no pointer is lent.
    let result = unsafe { sys::duskveyra_classify(settings, interval, width, period) };
    Refusal::check(result.number, 0)?;
    Ok(Pulse {
        symbol: result.symbol,
        deviation: result.deviation,
    })
}

/// Classifies a list of pulses: symbol i and deviation i are those of width i and period i; every one is set.
///
/// Refuses with 10; 16; 3 where the four lengths are not one; in this order. A refusal leaves `symbols` and
/// `deviations` as they were.
#[inline]
pub fn classify_list(
    settings: WidthSettings,
    interval: u32,
    widths: &[u32],
    periods: &[u32],
    symbols: &mut [u8],
    deviations: &mut [i32],
) -> Result<(), Refusal> {
    // SAFETY: each pointer and length are those of one slice, and nothing else points into the symbols or the deviations.
    let result = unsafe {
        sys::duskveyra_classify_list(
            settings,
            interval,
            widths.as_ptr(),
            widths.len(),
            periods.as_ptr(),
            periods.len(),
            symbols.as_mut_ptr(),
            symbols.len(),
            deviations.as_mut_ptr(),
            deviations.len(),
        )
    };
    Refusal::check(result.number, 0)
}
