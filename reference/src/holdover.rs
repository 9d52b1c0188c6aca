//! The hold-over forecast: E = E0 + (f0/fr - 1) t + a t t / 2.

use crate::refusal::Refusal;

const MAX_SECONDS: u32 = 16_777_216;

/// E0, f0, fr and a.
#[derive(Clone, Copy, Debug)]
pub struct Oscillator {
    pub starting_error: f64,
    pub own_frequency: f64,
    pub reference_frequency: f64,
    pub ageing: f64,
}

/// The expected error after `seconds`. Each line is one rounded operation.
pub fn forecast(oscillator: Oscillator, seconds: u32) -> Result<f64, Refusal> {
    let Oscillator {
        starting_error: e0,
        own_frequency: f0,
        reference_frequency: fr,
        ageing: a,
    } = oscillator;
    if ![e0, f0, fr, a].iter().all(|x| x.is_finite()) || fr == 0.0 || seconds > MAX_SECONDS {
        return Err(Refusal::Forecast);
    }
    let t = f64::from(seconds);
    let ratio = f0 / fr;
    let offset = ratio - 1.0;
    let drift = offset * t;
    let first = e0 + drift;
    let square = t * t;
    let aged = square * a;
    let half = aged / 2.0;
    Ok(first + half)
}
