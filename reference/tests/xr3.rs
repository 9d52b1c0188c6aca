//! Document 02, "XR3 tapes": what it says of letter X beside the rules of every
//! format.

mod common;

use common::*;
use reference::{
    next_after, read, scan, step, step_back, timeread, write, Answer, Format, Reader, Refusal,
    Time, MARK, SPOILED,
};

const X2: Format = Format {
    letter: b'X',
    expression: 2,
};

fn characters(symbols: &[u8]) -> String {
    let character = |&symbol: &u8| char::from(b"01P-"[usize::from(symbol)]);
    symbols.iter().map(character).collect()
}

/// The frame of midnight plus so many seconds.
fn second(seconds: u32) -> Vec<u8> {
    frame(X2, time(1, 100 * seconds), 0)
}

/// Read's answer for a frame with one element replaced.
fn replaced(from: u32, index: usize, symbol: u8) -> Result<(Time, u64), Refusal> {
    let mut bytes = second(from);
    bytes[index] = symbol;
    read(X2, &bytes)
}

#[test]
fn places() {
    assert_eq!(characters(&second(0)), "P00000000000000000000----");
    assert_eq!(characters(&second(86_399)), "P10001110110011011001----");
    // 12:34:56, the highest weight of each first.
    let clock = 12 * 3_600 + 34 * 60 + 56;
    assert_eq!(characters(&second(clock)), "P01001001101001010110----");
    for seconds in 0..86_400 {
        let at = time(1, 100 * seconds);
        assert_eq!(read(X2, &second(seconds)), Ok((at, 0)));
    }
}

#[test]
fn other_formats() {
    let others = [0, 1, 3, 4, 5, 6, 7, 8, 255].map(|expression| Format { expression, ..X2 });
    let small = Format { letter: b'x', ..X2 };
    for format in others.into_iter().chain([small]) {
        let refused = Some(Refusal::Format);
        assert_eq!(write(format, time(1, 0), 0, &mut [0; 25]).err(), refused);
        assert_eq!(read(format, &second(0)).err(), refused);
        assert_eq!(step(format, time(1, 0), 365, 0).err(), refused);
        assert_eq!(step_back(format, time(1, 0), 365, 0).err(), refused);
        assert_eq!(scan(format, &second(0), 0).err(), refused);
        assert_eq!(Reader::fresh(format, 2).err(), refused);
        assert!(!next_after(format, time(1, 0), time(1, 100)));
    }
}

/// Every second of the day, and midnight of day 1 after the last.
#[test]
fn stepping() {
    for seconds in 0..86_400 {
        let (now, next) = (
            time(1, 100 * seconds),
            time(1, 100 * ((seconds + 1) % 86_400)),
        );
        for (length, kind) in [(365, 0), (365, 1), (365, 2), (366, 0), (366, 1), (366, 2)] {
            assert_eq!(step(X2, now, length, kind), Ok(next));
            assert_eq!(step_back(X2, next, length, kind), Ok(now));
        }
        assert!(next_after(X2, now, next));
        assert!(!next_after(X2, now, time(2, next.hundredths)));
        assert!(!next_after(X2, now, now));
    }
    // A second taken does not show.
    assert!(!next_after(X2, time(1, 8_639_800), time(1, 0)));
    assert!(!next_after(X2, time(1, 8_639_900), time(1, 8_640_000)));
}

/// 1, 17, 2, 14, 9, 3 and 1, 17, 2, 14, 11, 15.
#[test]
fn order_of_refusals() {
    let written = |at, control, n| {
        let mut lent = vec![9; n];
        let answer = write(X2, at, control, &mut lent);
        assert!(answer.is_ok() || lent == vec![9; n]);
        answer
    };
    let cases = [
        (dated(1, 2, 8_640_000), Refusal::Year),
        (time(2, 8_640_000), Refusal::Time),
        (time(0, 0), Refusal::Time),
        (time(2, 0), Refusal::Time),
        (time(366, 8_639_900), Refusal::Time),
        (time(1, 8_640_050), Refusal::Time),
        (time(1, 8_640_100), Refusal::Time),
        (time(1, 50), Refusal::Time),
        (time(1, 8_640_000), Refusal::AddedSecond),
    ];
    for (at, refusal) in cases {
        assert_eq!(written(at, 1, 24), Err(refusal));
        for step in [step, step_back] {
            assert_eq!(step(X2, at, 364, 3), Err(refusal));
        }
    }
    assert_eq!(written(time(1, 0), 1, 24), Err(Refusal::Control));
    assert_eq!(written(time(1, 0), u64::MAX, 25), Err(Refusal::Control));
    assert_eq!(written(time(1, 0), 0, 24), Err(Refusal::Length));
    assert_eq!(written(time(1, 0), 0, 26), Err(Refusal::Length));
    assert_eq!(written(time(1, 0), 0, 25), Ok(()));
    for step in [step, step_back] {
        for length in [0, 364, 367, 65_535] {
            assert_eq!(step(X2, time(1, 0), length, 3), Err(Refusal::YearLength));
        }
        for kind in 3..=255 {
            assert_eq!(step(X2, time(1, 0), 365, kind), Err(Refusal::DayKind));
        }
    }
}

/// Every other symbol at every place of a frame.
#[test]
fn read_refused() {
    let at = 12 * 3_600 + 34 * 60 + 56;
    for index in 0..25 {
        for symbol in 0..=255 {
            let expected = match (index, symbol) {
                (_, 4..) => Err(Refusal::Symbol),
                (0, MARK) | (21..=24, SPOILED) => Ok((time(1, 100 * at), 0)),
                (0, _) | (_, MARK) => Err(Refusal::Mark(index)),
                (21..=24, _) | (_, SPOILED) => Err(Refusal::Element(index)),
                _ => continue,
            };
            assert_eq!(replaced(at, index, symbol), expected, "{index} {symbol}");
        }
    }
    assert_eq!(read(X2, &second(at)[..24]), Err(Refusal::Length));
    assert_eq!(
        read(X2, &[second(at), vec![3]].concat()),
        Err(Refusal::Length)
    );
    // The lowest of them, and 4 before it.
    let mut bytes = second(at);
    (bytes[3], bytes[21]) = (MARK, 0);
    assert_eq!(read(X2, &bytes), Err(Refusal::Mark(3)));
    (bytes[1], bytes[24]) = (SPOILED, 4);
    assert_eq!(read(X2, &bytes), Err(Refusal::Symbol));
    bytes[24] = SPOILED;
    assert_eq!(read(X2, &bytes), Err(Refusal::Element(1)));
}

/// Digits over 9, and 24:00:00, 00:60:00, 00:00:60 and 23:59:60.
#[test]
fn clock_refused() {
    let with = |from: &str| {
        let symbol = |c: char| "01P-".find(c).unwrap() as u8;
        read(X2, &from.chars().map(symbol).collect::<Vec<u8>>())
    };
    for refused in [
        "P10010000000000000000----",
        "P11000000000000000000----",
        "P00000011000000000000----",
        "P00000000000001100000----",
        "P10001110110011100000----",
        "P00101000000000000000----",
        "P00000000010100000000----",
        "P00000000000000001010----",
    ] {
        assert_eq!(with(refused), Err(Refusal::Digit), "{refused}");
    }
    assert_eq!(
        with("P10001110110011011001----"),
        Ok((time(1, 8_639_900), 0))
    );
}

/// No mark is asked for before a frame, and the start may be 0.
#[test]
fn scanned() {
    let frames = [second(5), second(6)].concat();
    assert_eq!(scan(X2, &frames, 0), Ok(Some((0, time(1, 500), 0))));
    for start in 1..=25 {
        assert_eq!(scan(X2, &frames, start), Ok(Some((25, time(1, 600), 0))));
    }
    for start in 26..=50 {
        assert_eq!(scan(X2, &frames, start), Ok(None));
    }
    assert_eq!(scan(X2, &frames, 51), Err(Refusal::Start));
    assert_eq!(scan(X2, &[], 0), Ok(None));
    for before in 0..=255 {
        let recording = [vec![before], second(7)].concat();
        assert_eq!(scan(X2, &recording, 0), Ok(Some((1, time(1, 700), 0))));
    }
}

/// Joined at a frame's first element, the first report comes with the last of k
/// frames, joined later in a frame, k frames after it.
#[test]
fn first_reports() {
    let frames: Vec<u8> = (86_395..86_403).flat_map(|s| second(s % 86_400)).collect();
    for (setting, join) in SETTINGS
        .map(|s| (0..25).map(move |join| (s, join)))
        .into_iter()
        .flatten()
    {
        let k = usize::from(setting);
        let expected = if join == 0 {
            25 * k
        } else {
            25 * (k + 1) - join
        };
        let first = reports(X2, setting, &frames[join..])[0];
        assert_eq!(first.0, expected, "{setting} {join}");
        let seconds = 86_394 + (join + expected) as u32 / 25;
        assert_eq!(first.1, time(1, 100 * (seconds % 86_400)));
    }
}

/// Each symbol in each place of the window of two frames: with one replaced, no
/// time but that of the second frame is reported.
#[test]
fn one_replaced_in_the_window() {
    for from in [0, 59, 3_599, 35_999, 43_199, 86_398, 86_399] {
        let window = [second(from), second((from + 1) % 86_400)].concat();
        for (index, symbol) in (0..50).flat_map(|index| (0..4).map(move |s| (index, s))) {
            let mut damaged = window.clone();
            damaged[index] = symbol;
            let reported = reports(X2, 2, &damaged);
            let right = (50, time(1, 100 * ((from + 1) % 86_400)), 0);
            let whole = damaged == window;
            assert_eq!(reported, vec![right; usize::from(whole)], "{from} {index}");
        }
    }
}

#[test]
fn printed() {
    let listing = |recording: &str| {
        let mut printed = Vec::new();
        timeread(recording.as_bytes(), &mut printed);
        String::from_utf8(printed).unwrap()
    };
    let frames: String = [86_398, 86_399, 0]
        .map(|s| characters(&second(s)))
        .join("\n");
    assert_eq!(
        listing(&format!("X2\n{frames}")),
        "50 001 23:59:59.00 000000000000\n75 001 00:00:00.00 000000000000\n\
         elements 75 reports 2\n"
    );
    assert_eq!(listing("X2\n"), "elements 0 reports 0\n");
    for first_line in ["X1", "X0", "X3", "X4", "x2", "X"] {
        assert_eq!(listing(&format!("{first_line}\n{frames}")), "refused 1\n");
    }
}

/// A symbol above 3 is refused and leaves the reader as it was.
#[test]
fn refused_among_elements() {
    let mut reader = Reader::fresh(X2, 2).unwrap();
    let mut reported = Vec::new();
    for symbol in [second(0), second(1)].concat() {
        assert_eq!(reader.feed(4), Answer::Refused(Refusal::Symbol));
        reported.push(reader.feed(symbol));
    }
    let last = reported.pop();
    assert_eq!(last, Some(Answer::Report(time(1, 100), 0)));
    assert!(reported.iter().all(|&answer| answer == Answer::Quiet));
    assert_eq!(reader.place(), 0);
}
