//! The simulation against the plain machine over each listener's damaged list, and what document 02 says of it.

mod common;

use common::*;
use reference::{simulate, step, write, Answer, Counts, Format, Listener, Refusal, Time};

fn listener(setting: u8, damages: &[(u64, u8)]) -> Listener {
    Listener {
        setting,
        damages: damages.to_vec(),
    }
}

fn counts(first: u64, reports: u64, wrong: u64) -> Counts {
    Counts {
        first: Some(first),
        reports,
        wrong,
    }
}

/// The whole list of the generator's elements, and the time of each frame.
fn run(format: Format, start: Time, frames: u32, year_length: u16) -> (Vec<u8>, Vec<Time>) {
    let (mut elements, mut times) = (vec![], vec![]);
    let mut time = start;
    for _ in 0..frames {
        let mut frame = vec![0; table(format).0];
        write(format, time, 0, &mut frame).unwrap();
        elements.extend(frame);
        times.push(time);
        time = step(format, time, year_length, 0).unwrap();
    }
    (elements, times)
}

/// What the plain machine reports over the damaged list.
fn by_definition(format: Format, elements: &[u8], times: &[Time], listener: &Listener) -> Counts {
    let mut damaged = elements.to_vec();
    for &(number, symbol) in &listener.damages {
        let index = usize::try_from(number).unwrap().wrapping_sub(1);
        if let Some(element) = damaged.get_mut(index) {
            *element = symbol;
        }
    }
    let n = table(format).0;
    let mut machine = PlainMachine::new(format, listener.setting);
    let mut counts = Counts::default();
    for (index, &symbol) in damaged.iter().enumerate() {
        if let Answer::Report(time, _) = machine.feed(symbol) {
            let number = index + 1;
            let right = number % n == 0 && times[number / n - 1] == time;
            counts.first = counts.first.or(Some(number as u64));
            counts.reports += 1;
            counts.wrong += u64::from(!right);
        }
    }
    counts
}

/// Few damages anywhere, in and beside the run; or one bit of every frame turned, which can bring false times.
fn any_damages(random: &mut Random, format: Format, elements: &[u8]) -> Vec<(u64, u8)> {
    let n = table(format).0 as u64;
    let mut damages: Vec<(u64, u8)> = match random.below(3) {
        0 => vec![],
        1 => (0..random.below(6))
            .map(|_| {
                (
                    random.below(elements.len() as u64 + n),
                    random.below(4) as u8,
                )
            })
            .collect(),
        _ => {
            let index = random.below(n) as usize;
            let turned = (index..elements.len()).step_by(n as usize);
            turned
                .map(|index| (index as u64 + 1, elements[index] ^ 1))
                .collect()
        }
    };
    damages.sort();
    damages.dedup_by_key(|damage| damage.0);
    damages
}

#[test]
fn as_the_plain_machine() {
    let mut random = Random(0x51ed_270b);
    let (mut reports, mut wrong) = (0, 0);
    for name in FORMATS {
        let format = format(name);
        for _ in 0..40 {
            let start = random.time(format);
            let (frames, length) = (random.below(9) as u32, 365 + random.below(2) as u16);
            if step(format, start, length, 0).is_err() {
                continue;
            }
            let (elements, times) = run(format, start, frames, length);
            let listeners: Vec<Listener> = (0..random.below(9))
                .map(|_| Listener {
                    setting: random.setting(),
                    damages: any_damages(&mut random, format, &elements),
                })
                .collect();
            let expected: Vec<Counts> = listeners
                .iter()
                .map(|listener| by_definition(format, &elements, &times, listener))
                .collect();
            reports += expected.iter().map(|counts| counts.reports).sum::<u64>();
            wrong += expected.iter().map(|counts| counts.wrong).sum::<u64>();
            let simulated = simulate(format, start, frames, length, &listeners);
            assert_eq!(simulated, Ok(expected), "{name} {start:?} {listeners:?}");
        }
    }
    assert!(wrong > 100 && reports > 10 * wrong, "{reports} {wrong}");
}

/// Element 31 of B2 is the units of days, here 190 made 191 in every frame: no reader can tell.
#[test]
fn false_times() {
    let b2 = format("B2");
    let turned: Vec<(u64, u8)> = (0..10).map(|frame| (100 * frame + 31, 1)).collect();
    let mut lost = turned.clone();
    lost.remove(4);
    let listeners = [
        listener(2, &turned),
        listener(5, &turned),
        listener(2, &lost),
        listener(2, &[]),
    ];
    let expected = vec![
        counts(300, 8, 8),
        counts(600, 5, 5),
        counts(300, 6, 6),
        counts(300, 8, 0),
    ];
    assert_eq!(
        simulate(b2, time(190, 0), 10, 365, &listeners),
        Ok(expected)
    );
}

/// On one damaged list a higher setting reports a part of what a lower one reports.
#[test]
fn higher_settings() {
    let mut random = Random(77);
    for _ in 0..400 {
        let format = format(FORMATS[random.below(25) as usize]);
        let start = time(1, 0);
        let (elements, _) = run(format, start, 12, 365);
        let damages = any_damages(&mut random, format, &elements);
        let listeners = SETTINGS.map(|setting| listener(setting, &damages));
        let told = simulate(format, start, 12, 365, &listeners).unwrap();
        for pair in told.windows(2) {
            assert!(pair[0].reports >= pair[1].reports && pair[0].wrong >= pair[1].wrong);
            let (lower, higher) = (pair[0].first, pair[1].first);
            assert!(higher.is_none() || lower.is_some_and(|lower| Some(lower) <= higher));
        }
    }
}

#[test]
fn undamaged_and_none() {
    for (name, setting) in formats_and_settings() {
        let format = format(name);
        let n = table(format).0 as u64;
        let start = time(1, 0);
        let k = u64::from(setting);
        // A frame that begins at element 1 has no mark before it, and in X needs none.
        let first = k + lead(format) as u64;
        let outside = [(0, 3), (20 * n + 1, 3), (u64::MAX, 3)];
        for damages in [&[][..], &outside] {
            let simulated = simulate(format, start, 20, 365, &[listener(setting, damages)]);
            assert_eq!(simulated, Ok(vec![counts(first * n, 21 - first, 0)]));
        }
        let none = simulate(format, start, 0, 365, &[listener(setting, &[])]);
        assert_eq!(none, Ok(vec![Counts::default()]));
        assert_eq!(simulate(format, start, 3, 365, &[]), Ok(vec![]));
    }
}

/// Each number, where all later ones are due too.
#[test]
fn order_of_refusals() {
    let b0 = format("B0");
    let bad = vec![listener(6, &[(2, 4), (2, 9)]); 9];
    let refused = |format, start, length, listeners: &[Listener]| {
        let refusal = simulate(format, start, 3, length, listeners).unwrap_err();
        // With no frames too.
        assert_eq!(simulate(format, start, 0, length, listeners), Err(refusal));
        refusal
    };
    assert_eq!(
        refused(format("B8"), dated(1, 0, 1), 0, &bad),
        Refusal::Format
    );
    assert_eq!(refused(b0, dated(1, 0, 1), 0, &bad), Refusal::Year);
    assert_eq!(refused(b0, time(0, 1), 0, &bad), Refusal::Time);
    let added = time(366, 8_640_000);
    assert_eq!(refused(format("E1"), added, 0, &bad), Refusal::AddedSecond);
    assert_eq!(refused(b0, added, 365, &bad), Refusal::YearLength);
    assert_eq!(refused(b0, added, 366, &bad), Refusal::DayKind);
    for setting in [0, 1, 6, 255] {
        let mut some = vec![listener(2, &[(2, 4), (1, 9)]); 9];
        some[8].setting = setting;
        assert_eq!(refused(b0, time(1, 0), 365, &some), Refusal::Setting);
    }
    let nine = vec![listener(2, &[]); 9];
    assert_eq!(refused(b0, time(1, 0), 365, &nine), Refusal::Listener);
    for damages in [
        &[(7, 4)][..],
        &[(7, 1), (7, 1)],
        &[(7, 1), (6, 1)],
        &[(0, 0), (900, 255)],
    ] {
        let listeners = [listener(5, &[]), listener(2, damages)];
        assert_eq!(refused(b0, time(1, 0), 365, &listeners), Refusal::Listener);
    }
    let many: Vec<(u64, u8)> = (0..2_000).map(|number| (number, 3)).collect();
    assert!(simulate(b0, time(1, 0), 3, 365, &vec![listener(3, &many); 8]).is_ok());
}
