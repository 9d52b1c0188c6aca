//! Classifying pulses by width and period, and how far a width is off.

use crate::formats::{MARK, ONE, SPOILED, ZERO};
use crate::refusal::Refusal;
use crate::stream::{Answer, Reader};

const MIN_INTERVAL: u32 = 100;
const MAX_INTERVAL: u32 = 10_000_000;
const MIN_PERCENT: u8 = 1;
const MAX_PERCENT: u8 = 14;

/// How far a width may be off, in percent of the nominal interval.
#[derive(Clone, Copy, Debug, PartialEq, Eq)]
pub struct Widths {
    pub zeros: u8,
    pub ones: u8,
    pub marks: u8,
}

/// The symbol of one pulse and its deviation; `t` is the nominal element
/// interval, all three are in counter ticks.
pub fn classify(widths: Widths, t: u32, width: u32, period: u32) -> Result<(u8, i32), Refusal> {
    check(widths, t)?;
    Ok(classed(widths, t, width, period))
}

/// Classifies a list of pulses into `symbols` and `deviations`; a refusal
/// leaves them untouched.
pub fn classify_list(
    settings: Widths,
    t: u32,
    widths: &[u32],
    periods: &[u32],
    symbols: &mut [u8],
    deviations: &mut [i32],
) -> Result<(), Refusal> {
    check(settings, t)?;
    let n = widths.len();
    if n != periods.len() || n != symbols.len() || n != deviations.len() {
        return Err(Refusal::Length);
    }
    let pulses = widths.iter().zip(periods);
    let lent = symbols.iter_mut().zip(deviations);
    for ((symbol, deviation), (&width, &period)) in lent.zip(pulses) {
        (*symbol, *deviation) = classed(settings, t, width, period);
    }
    Ok(())
}

/// Classifies one pulse and feeds its symbol to a reader; the deviation is 0
/// beside a refusal.
pub fn classify_and_feed(
    reader: &mut Reader,
    widths: Widths,
    t: u32,
    width: u32,
    period: u32,
) -> (Answer, i32) {
    match classify(widths, t, width, period) {
        Ok((symbol, deviation)) => match reader.feed(symbol) {
            Answer::Refused(refusal) => (Answer::Refused(refusal), 0),
            answer => (answer, deviation),
        },
        Err(refusal) => (Answer::Refused(refusal), 0),
    }
}

fn check(widths: Widths, t: u32) -> Result<(), Refusal> {
    if !(MIN_INTERVAL..=MAX_INTERVAL).contains(&t) {
        return Err(Refusal::Interval);
    }
    let percents = [widths.zeros, widths.ones, widths.marks];
    if percents
        .iter()
        .any(|percent| !(MIN_PERCENT..=MAX_PERCENT).contains(percent))
    {
        return Err(Refusal::Width);
    }
    Ok(())
}

fn classed(widths: Widths, t: u32, width: u32, period: u32) -> (u8, i32) {
    let t = i64::from(t);
    let off_period = 100 * i64::from(period) - 100 * t;
    if off_period.abs() > 5 * t {
        return (SPOILED, 0);
    }
    let classes = [
        (ZERO, 20, widths.zeros),
        (ONE, 50, widths.ones),
        (MARK, 80, widths.marks),
    ];
    for (symbol, centre, percent) in classes {
        let off = 100 * i64::from(width) - centre * t;
        if off.abs() <= i64::from(percent) * t {
            // at most 14 percent of 10,000,000 ticks, times 100
            return (symbol, off as i32);
        }
    }
    (SPOILED, 0)
}
