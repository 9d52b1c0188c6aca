//! The hold-over forecast through the safe types: the stored calls, and each refusal.

use duskveyra::{forecast, Oscillator, Refusal, MOST_SECONDS};
use std::fs::read_to_string;

const CALLS: &str = concat!(env!("CARGO_MANIFEST_DIR"), "/../../crates/calls");
const STEADY: Oscillator = Oscillator {
    error: 0.25,
    frequency: 1e7,
    reference: 1e7,
    ageing: 0.0,
};

#[test]
fn stored_calls() {
    let calls = read_to_string(format!("{CALLS}/data/holdover.txt")).unwrap();
    let answers = read_to_string(format!("{CALLS}/stdout")).unwrap();
    let (_, answers) = answers.split_once("== holdover.txt\n").unwrap();
    for (call, expected) in calls.lines().zip(answers.lines()) {
        let words: Vec<&str> = call.split(' ').collect();
        let figure = |word: usize| f64::from_bits(u64::from_str_radix(words[word], 16).unwrap());
        let oscillator = Oscillator {
            error: figure(1),
            frequency: figure(2),
            reference: figure(3),
            ageing: figure(4),
        };
        let answer = match forecast(oscillator, words[5].parse().unwrap()) {
            Ok(error) if error.is_nan() => "nan".into(),
            Ok(error) => format!("{:016x}", error.to_bits()),
            Err(refusal) => format!("R{}", refusal.number()),
        };
        assert_eq!(answer, expected, "{call}");
    }
    assert!(answers.lines().count() >= calls.lines().count());
}

#[test]
fn refusals() {
    let refused = Err(Refusal::InvalidForecast);
    for bad in [f64::INFINITY, f64::NEG_INFINITY, f64::NAN] {
        let each = [
            Oscillator {
                error: bad,
                ..STEADY
            },
            Oscillator {
                frequency: bad,
                ..STEADY
            },
            Oscillator {
                reference: bad,
                ..STEADY
            },
            Oscillator {
                ageing: bad,
                ..STEADY
            },
        ];
        for oscillator in each {
            assert_eq!(forecast(oscillator, 0), refused);
        }
    }
    for zero in [0.0, -0.0] {
        let oscillator = Oscillator {
            reference: zero,
            ..STEADY
        };
        assert_eq!(forecast(oscillator, 1), refused);
    }
    assert_eq!(forecast(STEADY, MOST_SECONDS), Ok(0.25));
    assert_eq!(forecast(STEADY, MOST_SECONDS + 1), refused);
    assert_eq!(forecast(STEADY, u32::MAX), refused);
}

#[test]
fn where_nothing_drifts_and_at_the_cut() {
    for seconds in [0, 1, 86_400, MOST_SECONDS] {
        assert_eq!(forecast(STEADY, seconds), Ok(0.25));
    }
    let drifting = Oscillator {
        frequency: 2e7,
        ageing: 1e300,
        ..STEADY
    };
    assert_eq!(forecast(drifting, 0), Ok(0.25));
    let overflowing = Oscillator {
        frequency: f64::MAX,
        reference: f64::MIN_POSITIVE,
        ..STEADY
    };
    assert!(forecast(overflowing, 0).unwrap().is_nan());
    assert_eq!(forecast(overflowing, 1), Ok(f64::INFINITY));
}
