//! Random hold-over forecasts: the bits of the library's against those of `reference`, any two that are no number alike.

use crate::random::Random;
use crate::{agree, plain_refused, refused, Counts};

/// How many go with a stream.
const TURNS: usize = 500;

pub fn run_forecasts(random: &mut Random, counts: &mut Counts) -> Result<(), String> {
    for _ in 0..TURNS {
        match forecast(random)? {
            Err(_) => counts.refused_forecasts += 1,
            Ok(error) if error.is_infinite() => counts.infinite += 1,
            Ok(error) if error.is_nan() => counts.no_number += 1,
            Ok(_) => {}
        }
        counts.forecasts += 1;
        counts.calls += 1;
    }
    Ok(())
}

/// What the library answers, once `reference` has agreed.
fn forecast(random: &mut Random) -> Result<Result<f64, duskveyra::Refusal>, String> {
    let figures = figures(random);
    let seconds = any_seconds(random);
    let [error, frequency, reference, ageing] = figures;
    let library = duskveyra::forecast(
        duskveyra::Oscillator {
            error,
            frequency,
            reference,
            ageing,
        },
        seconds,
    );
    let plain = reference::forecast(
        reference::Oscillator {
            starting_error: error,
            own_frequency: frequency,
            reference_frequency: reference,
            ageing,
        },
        seconds,
    );
    agree(
        || format!("forecast {:016x?} t {seconds}", figures.map(f64::to_bits)),
        library.map(bits).map_err(refused),
        plain.map(bits).map_err(plain_refused),
    )?;
    Ok(library)
}

/// None for no number.
fn bits(error: f64) -> Option<u64> {
    (!error.is_nan()).then(|| error.to_bits())
}

/// Half of them those of a real oscillator, the others any four figures.
fn figures(random: &mut Random) -> [f64; 4] {
    if random.once_in(2) {
        return [0; 4].map(|_| any_figure(random));
    }
    let reference = random.pick(&[1.0, 5e6, 1e7, 32_768.0, 9_192_631_770.0]);
    let part = |random: &mut Random| random.below(2_000_001) as f64 - 1e6;
    [
        part(random) * 1e-9,
        reference * (1.0 + part(random) * 1e-14),
        reference,
        part(random) * 1e-20,
    ]
}

/// Any bits, or those of a number near one of the borders.
fn any_figure(random: &mut Random) -> f64 {
    let sign = random.below(2) << 63;
    let bits = match random.below(10) {
        0 => 0,                                                                  // zero
        1 => 1 + random.below(1 << 52),                                          // subnormal
        2 => 0x7fef_ffff_ffff_ffff - random.below(3),                            // largest
        3 if random.once_in(4) => 0x7ff0_0000_0000_0000,                         // infinite
        3 if random.once_in(4) => 0x7ff0_0000_0000_0001 + random.below(1 << 51), // no number
        4 | 5 => 0x3ff0_0000_0000_0000 - 8 + random.below(16),                   // near one
        6 | 7 => 0x3f00_0000_0000_0000 + random.next() % (1 << 57),              // of middle size
        _ => random.next() >> 1,
    };
    f64::from_bits(bits | sign)
}

fn any_seconds(random: &mut Random) -> u32 {
    match random.below(12) {
        0 => 0,
        1 => duskveyra::MOST_SECONDS - 1 + random.below(3) as u32,
        2 => random.next() as u32,
        3 => random.pick(&[3_600, 86_400, 604_800]),
        _ => random.below(u64::from(duskveyra::MOST_SECONDS) + 1) as u32,
    }
}
