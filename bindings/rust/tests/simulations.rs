//! The simulation through the safe call: undamaged and damaged runs, false times, each refusal and their
//! order.

use duskveyra::{simulate, Counts, Damage, Format, Listener, Refusal, Time, MOST_LISTENERS};

const B2: Format = Format {
    letter: b'B',
    expression: 2,
};
const NOON: Time = Time {
    year: 0,
    day: 190,
    hundredths: 4_320_000,
};

fn listener(setting: u8, damages: &[Damage]) -> Listener<'_> {
    Listener { setting, damages }
}

fn damage(number: u64, symbol: u8) -> Damage {
    Damage { number, symbol }
}

fn counts(first: u64, reports: u64, wrong: u64) -> Counts {
    Counts {
        first: Some(first),
        reports,
        wrong,
    }
}

/// Every setting twice, undamaged: the first report comes with frame k + 1, for frame 1 has no mark before it.
#[test]
fn undamaged() {
    let all = [2, 3, 4, 5, 5, 4, 3, 2].map(|setting| listener(setting, &[]));
    for number in 0..=MOST_LISTENERS {
        let simulated = simulate(B2, NOON, 20, 365, &all[..number]).unwrap();
        assert_eq!(simulated.len(), number);
        for (listener, told) in all.iter().zip(simulated) {
            let k = u64::from(listener.setting);
            assert_eq!(told, counts(100 * (k + 1), 20 - k, 0));
        }
    }
    let none = simulate(B2, NOON, 0, 365, &all).unwrap();
    assert_eq!(none, [Counts::default(); 8]);
}

/// Frames of X need no mark before them.
#[test]
fn undamaged_in_x() {
    let x2 = Format {
        letter: b'X',
        expression: 2,
    };
    let midnight = Time {
        year: 0,
        day: 1,
        hundredths: 8_639_700,
    };
    let listeners = [listener(2, &[]), listener(5, &[])];
    let simulated = simulate(x2, midnight, 7, 365, &listeners).unwrap();
    assert_eq!(simulated, [counts(50, 6, 0), counts(125, 3, 0)]);
}

/// The units of days stand in element 31 of each frame: day 190 becomes 191, and no reader can tell.
#[test]
fn false_times() {
    let turned: Vec<Damage> = (0..10).map(|frame| damage(100 * frame + 31, 1)).collect();
    let listeners = [
        listener(2, &turned),
        listener(2, &turned[..4]),
        listener(5, &turned[..5]),
        listener(5, &[]),
    ];
    let simulated = simulate(B2, NOON, 10, 365, &listeners).unwrap();
    assert_eq!(simulated[0], counts(300, 8, 8));
    // frames 1 to 4 with day 191, then a break of one frame
    assert_eq!(simulated[1], counts(300, 7, 2));
    assert_eq!(simulated[2], counts(1000, 1, 0));
    assert_eq!(simulated[3], counts(600, 5, 0));
}

/// A damaged element breaks the row; one outside the run damages nothing; the last of the run is still in it.
#[test]
fn damages() {
    let spoiled = [damage(450, 3)];
    let outside = [damage(0, 3), damage(1001, 3), damage(u64::MAX, 3)];
    let last = [damage(0, 3), damage(1000, 3)];
    let listeners = [
        listener(2, &spoiled),
        listener(2, &outside),
        listener(2, &last),
    ];
    let simulated = simulate(B2, NOON, 10, 365, &listeners).unwrap();
    assert_eq!(
        simulated,
        [counts(300, 6, 0), counts(300, 8, 0), counts(300, 7, 0)]
    );
}

/// Each number, where all later ones are due too.
#[test]
fn refusals() {
    let twice = [damage(7, 4), damage(7, 255)];
    let bad = [listener(6, &twice); 9];
    let refused = |format, start, length, listeners: &[Listener]| {
        simulate(format, start, 3, length, listeners).unwrap_err()
    };
    let b8 = Format {
        letter: b'B',
        expression: 8,
    };
    let e1 = Format {
        letter: b'E',
        expression: 1,
    };
    let start = |year, day, hundredths| Time {
        year,
        day,
        hundredths,
    };
    assert_eq!(refused(b8, start(1, 0, 1), 0, &bad), Refusal::UnknownFormat);
    assert_eq!(refused(B2, start(1, 0, 1), 0, &bad), Refusal::InvalidYear);
    assert_eq!(refused(B2, start(0, 0, 1), 0, &bad), Refusal::InvalidTime);
    let added = start(0, 366, 8_640_000);
    assert_eq!(refused(e1, added, 0, &bad), Refusal::SecondNotCarried);
    assert_eq!(refused(B2, added, 365, &bad), Refusal::InvalidYearLength);
    assert_eq!(refused(B2, added, 366, &bad), Refusal::InvalidKind);
    let mut last = [listener(2, &twice); 9];
    last[8].setting = 1;
    assert_eq!(refused(B2, NOON, 365, &last), Refusal::InvalidSetting);
    let nine = [listener(2, &[]); 9];
    assert_eq!(refused(B2, NOON, 365, &nine), Refusal::InvalidListener);
    for damages in [
        [damage(7, 4), damage(8, 0)],
        [damage(0, 0), damage(u64::MAX, 255)],
        [damage(7, 1), damage(7, 1)],
        [damage(8, 1), damage(7, 1)],
    ] {
        let listeners = [listener(2, &[]), listener(5, &damages)];
        assert_eq!(refused(B2, NOON, 365, &listeners), Refusal::InvalidListener);
    }
    assert_eq!(Refusal::InvalidListener.number(), 27);
    assert_eq!(Refusal::InvalidListener.index(), None);
}

/// One listener's damages may begin below where another's end.
#[test]
fn each_its_own() {
    let (high, low) = ([damage(450, 3)], [damage(1, 3)]);
    let listeners = [listener(2, &high), listener(2, &low), listener(2, &high)];
    let simulated = simulate(B2, NOON, 10, 365, &listeners).unwrap();
    assert_eq!(
        simulated,
        [counts(300, 6, 0), counts(300, 8, 0), counts(300, 6, 0)]
    );
}
