//! A generator that several listeners hear, each with its own setting and its own damages.

use crate::{sys, Format, Refusal, Time};

/// The most listeners of a simulation.
pub const MOST_LISTENERS: usize = 8;

/// An element that comes to a listener as another symbol.
#[derive(Clone, Copy, Debug, PartialEq, Eq, Hash)]
pub struct Damage {
    /// The number of the element in the whole run, counted from 1. One that lies outside the run damages nothing.
    pub number: u64,
    /// What comes in its place, 0 to 3.
    pub symbol: u8,
}

/// Who hears a simulation.
#[derive(Clone, Copy, Debug, PartialEq, Eq, Hash)]
pub struct Listener<'a> {
    /// The setting of its reader, 2 to 5.
    pub setting: u8,
    /// Its damages, their numbers in strictly rising order.
    pub damages: &'a [Damage],
}

/// What a listener counted.
#[derive(Clone, Copy, Debug, Default, PartialEq, Eq, Hash)]
pub struct Counts {
    /// The number of the element that brought its first report, counted from 1.
    pub first: Option<u64>,
    /// The number of its reports.
    pub reports: u64,
    /// The number of those that do not give the time of a generator frame that ends there.
    pub wrong: u64,
}

/// Simulates a generator that sends so many frames from the start on, in years of that length and days of kind 0, with
/// control word 0, and up to [`MOST_LISTENERS`] listeners: the counts of each, as a fresh reader with its setting reports
/// when it is fed the damaged elements one by one.
///
/// The memory that it takes grows with the damages alone, which are copied, and the time with frames and listeners.
///
/// Refuses as [`step`](fn@crate::step) does for the start with 1; 17; 2; 14; 11; 15; then 26 for any listener's setting;
/// 27; in this order.
///
/// ```
/// use duskveyra::{simulate, Counts, Damage, Format, Listener, Time};
///
/// let format = Format { letter: b'B', expression: 0 };
/// let start = Time { year: 0, day: 191, hundredths: 0 };
/// let spoiled = [Damage { number: 450, symbol: 3 }];
/// let listeners = [
///     Listener { setting: 2, damages: &[] },
///     Listener { setting: 2, damages: &spoiled },
///     Listener { setting: 5, damages: &spoiled },
/// ];
/// let counts = simulate(format, start, 9, 365, &listeners)?;
/// assert_eq!(counts[0], Counts { first: Some(300), reports: 7, wrong: 0 });
/// assert_eq!(counts[1], Counts { first: Some(300), reports: 5, wrong: 0 });
/// assert_eq!(counts[2], Counts { first: None, reports: 0, wrong: 0 });
/// # Ok::<(), duskveyra::Refusal>(())
/// ```
pub fn simulate(
    format: Format,
    start: Time,
    frames: u32,
    year_length: u16,
    listeners: &[Listener],
) -> Result<Vec<Counts>, Refusal> {
    let settings: Vec<u8> = listeners.iter().map(|listener| listener.setting).collect();
    let damages = || listeners.iter().flat_map(|listener| listener.damages);
    let numbers: Vec<u64> = damages().map(|damage| damage.number).collect();
    let symbols: Vec<u8> = damages().map(|damage| damage.symbol).collect();
    let ends: Vec<usize> = listeners
        .iter()
        .scan(0, |end, listener| {
            *end += listener.damages.len();
            Some(*end)
        })
        .collect();
    // SAFETY: each pointer and length are those of one list, which the call reads alone.
    let result = unsafe {
        sys::duskveyra_simulate(
            format,
            start,
            frames,
            year_length,
            settings.as_ptr(),
            settings.len(),
            ends.as_ptr(),
            ends.len(),
            numbers.as_ptr(),
            numbers.len(),
            symbols.as_ptr(),
            symbols.len(),
        )
    };
    Refusal::check(result.number, 0)?;
    Ok(result.counts[..listeners.len()].iter().map(told).collect())
}

fn told(counts: &sys::Counts) -> Counts {
    Counts {
        first: (counts.first != 0).then_some(counts.first),
        reports: counts.reports,
        wrong: counts.wrong,
    }
}
