//! What documents 01 and 02 themselves give: the examples, the order of the
//! refusals, the step back, the leap second, the year and the converters, and
//! the stream reader with each of its settings, fed singly and in blocks, held
//! against the plain machine.

mod common;

use common::*;
use reference::{
    backward, classify, classify_and_feed, classify_list, difference, format_figures, forward,
    next_after, read, scan, step, step_back, time_of_day, timeread, write, Answer, Block, Format,
    Reader, Refusal, Stop, Time, Widths, MARK, SECOND_ADDED, SECOND_TAKEN, USUAL_DAY,
};

const LISTING: &str = "H1\n\
    P P00000000P 000100000P 001001000P 100001001P 100000000P 000000000P \
    P00000000P 100100000P 001001000P 100001001P 100000000P 000000000P";

#[test]
fn listing() {
    let mut printed = Vec::new();
    timeread(LISTING.as_bytes(), &mut printed);
    let expected = "121 191 14:09:00.00 000000000000\nelements 121 reports 1\n";
    assert_eq!(String::from_utf8(printed).unwrap(), expected);

    let mut printed = Vec::new();
    timeread(&LISTING.as_bytes()[..LISTING.len() - 1], &mut printed);
    assert_eq!(
        String::from_utf8(printed).unwrap(),
        "elements 120 reports 0\n"
    );
}

#[test]
fn figures() {
    for (name, expected) in [
        ("A0", (100, 10, 27)),
        ("A5", (100, 10, 18)),
        ("B3", (100, 100, 0)),
        ("D1", (60, 360_000, 9)),
        ("E1", (100, 1_000, 45)),
        ("G1", (100, 1, 36)),
        ("H2", (60, 6_000, 0)),
        ("X2", (25, 100, 0)),
    ] {
        assert_eq!(format_figures(format(name)), Ok(expected), "{name}");
    }
    assert_eq!(format_figures(format("D0")), Err(Refusal::Format));
    assert_eq!(time_of_day(time(191, 5_091_299)), Ok((14, 8, 32, 99)));
    assert_eq!(time_of_day(time(1, 8_639_999)), Ok((23, 59, 59, 99)));
    assert_eq!(time_of_day(time(366, 8_640_099)), Ok((23, 59, 60, 99)));
    assert_eq!(time_of_day(time(366, 8_640_100)), Err(Refusal::Time));
    assert_eq!(time_of_day(time(0, 0)), Err(Refusal::Time));
    assert_eq!(time_of_day(time(367, 0)), Err(Refusal::Time));
}

#[test]
fn written_examples() {
    let first: Vec<u8> = LISTING[5..]
        .bytes()
        .filter(|&character| character != b' ')
        .map(|character| {
            if character == b'P' {
                MARK
            } else {
                character - b'0'
            }
        })
        .take(60)
        .collect();
    assert_eq!(frame(format("H1"), time(191, 5_088_000), 0), first);

    let written = frame(format("B0"), time(1, 5_091_200), 0);
    let binary_seconds: Vec<usize> = ones(&written).into_iter().filter(|&i| i >= 80).collect();
    assert_eq!(binary_seconds, [85, 86, 87, 90, 91, 95, 96]);

    let written = frame(format("H1"), time(1, 0), 511);
    assert_eq!(ones(&written), [30, 50, 51, 52, 53, 54, 55, 56, 57, 58]);
    let mut lent = [9; 60];
    assert_eq!(
        write(format("H1"), time(1, 0), 512, &mut lent),
        Err(Refusal::Control)
    );
    assert_eq!(lent, [9; 60]);

    let mut lent = [9; 100];
    assert_eq!(write(format("B0"), time(366, 0), 0, &mut lent), Ok(()));
    assert_eq!(
        write(format("B0"), time(367, 0), 0, &mut lent),
        Err(Refusal::Time)
    );
    assert_eq!(
        write(format("D0"), time(1, 0), 0, &mut lent),
        Err(Refusal::Format)
    );

    // Bits 3 and 4 of E stand in rising index.
    assert_eq!(ones(&frame(format("E1"), time(1, 0), 0b1100)), [30, 52, 53]);
}

#[test]
fn order_of_refusals() {
    let b0 = format("B0");
    let mut lent = [9; 99];
    assert_eq!(
        write(b0, time(0, 0), 1 << 27, &mut lent),
        Err(Refusal::Time)
    );
    assert_eq!(write(b0, time(1, 50), 0, &mut lent), Err(Refusal::Time));
    assert_eq!(
        write(b0, time(1, 0), 1 << 27, &mut lent),
        Err(Refusal::Control)
    );
    assert_eq!(write(b0, time(1, 0), 0, &mut lent), Err(Refusal::Length));
    assert_eq!(lent, [9; 99]);

    let d0 = Format {
        letter: b'D',
        expression: 0,
    };
    let d1 = format("D1");
    let mut lent = [9; 59];
    let added = time(1, 8_640_000);
    for step in [step, step_back] {
        assert_eq!(step(d0, time(0, 0), 364, 3), Err(Refusal::Format));
        assert_eq!(step(b0, time(367, 0), 364, 3), Err(Refusal::Time));
        assert_eq!(step(b0, time(1, 0), 364, 3), Err(Refusal::YearLength));
        assert_eq!(step(b0, time(366, 0), 365, 3), Err(Refusal::YearLength));
        assert_eq!(step(b0, time(366, 0), 366, 3), Err(Refusal::DayKind));
        assert_eq!(step(b0, added, 364, 0), Err(Refusal::YearLength));
        assert_eq!(step(b0, added, 365, 0), Err(Refusal::DayKind));

        assert_eq!(step(d0, added, 364, 3), Err(Refusal::Format));
        assert_eq!(step(d1, time(367, 8_640_000), 364, 3), Err(Refusal::Time));
        assert_eq!(step(d1, added, 364, 3), Err(Refusal::AddedSecond));
        assert_eq!(step(d1, time(1, 0), 364, 3), Err(Refusal::YearLength));
        assert_eq!(step(d1, time(1, 0), 365, 3), Err(Refusal::DayKind));
    }
    assert_eq!(
        write(d1, time(0, 8_640_000), 512, &mut lent),
        Err(Refusal::Time)
    );
    assert_eq!(write(d1, added, 512, &mut lent), Err(Refusal::AddedSecond));
    assert_eq!(lent, [9; 59]);

    assert_eq!(scan(d0, &[2; 4], 5), Err(Refusal::Format));
    assert_eq!(scan(b0, &[2; 4], 5), Err(Refusal::Start));
    assert_eq!(scan(b0, &[2; 4], 4), Ok(None));
    for setting in 0..=255 {
        assert_eq!(Reader::fresh(d0, setting), Err(Refusal::Format));
        let expected = (!SETTINGS.contains(&setting)).then_some(Refusal::Setting);
        assert_eq!(Reader::fresh(b0, setting).err(), expected);
    }
    assert_eq!(Refusal::Setting.number(), 26);

    assert_eq!(read(d0, &[7; 99]), Err(Refusal::Format));
    assert_eq!(read(b0, &[7; 99]), Err(Refusal::Length));
    let good = frame(b0, time(1, 100), 0);
    let spoil = |changes: &[(usize, u8)]| {
        let mut bytes = good.clone();
        for &(index, symbol) in changes {
            bytes[index] = symbol;
        }
        read(b0, &bytes)
    };
    assert_eq!(spoil(&[]), Ok((time(1, 100), 0)));
    assert_eq!(spoil(&[(0, 1), (99, 7)]), Err(Refusal::Symbol));
    assert_eq!(spoil(&[(0, 1), (5, 1)]), Err(Refusal::Mark(0)));
    assert_eq!(spoil(&[(9, 3)]), Err(Refusal::Mark(9)));
    assert_eq!(spoil(&[(5, 1), (9, 0)]), Err(Refusal::Element(5)));
    assert_eq!(spoil(&[(6, 2)]), Err(Refusal::Mark(6)));
    assert_eq!(spoil(&[(88, 3), (30, 0)]), Err(Refusal::Element(88)));
    assert_eq!(spoil(&[(30, 0), (80, 0)]), Err(Refusal::Digit));
    assert_eq!(spoil(&[(80, 0)]), Err(Refusal::BinarySeconds));
}

#[test]
fn stepping() {
    let b1 = format("B1");
    let end_of_365 = time(365, 8_639_900);
    assert_eq!(step(b1, end_of_365, 365, 0), Ok(time(1, 0)));
    assert_eq!(step(b1, end_of_365, 366, 0), Ok(time(366, 0)));
    assert!(next_after(b1, end_of_365, time(1, 0)));
    assert!(next_after(b1, end_of_365, time(366, 0)));
    assert!(!next_after(b1, end_of_365, time(2, 0)));
    assert!(next_after(b1, time(366, 8_639_900), time(1, 0)));
    assert!(!next_after(b1, time(366, 8_639_900), time(367, 0)));
    assert!(!next_after(b1, time(364, 8_639_900), time(1, 0)));
    assert!(!next_after(b1, time(1, 50), time(1, 150)));
}

/// A day of each kind: where it ends, what comes next, and what lies past it.
#[test]
fn stepping_by_kind() {
    for format in formats_without_year() {
        let s = table(format).1;
        for (kind, end) in (0..3).zip(day_ends(format)) {
            let last = |day| step(format, time(day, end - s), 366, kind);
            assert_eq!(last(181), Ok(time(182, 0)), "{format:?} {kind}");
            assert_eq!(last(366), Ok(time(1, 0)), "{format:?} {kind}");
            assert_eq!(
                step(format, time(181, end - 2 * s), 365, kind),
                Ok(time(181, end - s)),
                "{format:?} {kind}"
            );
        }
    }
    for name in FORMATS.into_iter().filter(|name| has_day(format(name))) {
        for step in [step, step_back] {
            refused_by_kind(step, name);
        }
    }
}

/// What lies past the end of a day of each kind, and the kinds above 2.
fn refused_by_kind(step: fn(Format, Time, u16, u8) -> Result<Time, Refusal>, name: &str) {
    let format = format(name);
    for (kind, end) in (0..3).zip(day_ends(format)) {
        if end < 8_640_100 && leaps(format) {
            let past = step(format, time(181, end), 365, kind);
            assert_eq!(past, Err(Refusal::DayKind), "{name} {kind}");
        }
    }
    for kind in 3..=255 {
        let refused = step(format, time(181, 0), 365, kind);
        assert_eq!(refused, Err(Refusal::DayKind), "{name} {kind}");
    }
    let past = step(format, time(181, 8_640_100), 365, SECOND_ADDED);
    assert_eq!(past, Err(Refusal::Time), "{name}");
    let added = step(format, time(181, 8_640_000), 365, USUAL_DAY);
    let expected = if leaps(format) {
        Refusal::DayKind
    } else {
        Refusal::AddedSecond
    };
    assert_eq!(added, Err(expected), "{name}");
}

/// The year and the kind are the earlier time's; 11 and 15 look at the time
/// that is given.
#[test]
fn stepping_back() {
    for format in formats_without_year() {
        let s = table(format).1;
        for (kind, end) in (0..3).zip(day_ends(format)) {
            let back = |day, hundredths, length| {
                step_back(format, time(day, hundredths), length, kind)
                    .map(|before| (before.day, before.hundredths))
            };
            let last = end - s;
            assert_eq!(back(1, 0, 365), Ok((365, last)), "{format:?} {kind}");
            assert_eq!(back(1, 0, 366), Ok((366, last)), "{format:?} {kind}");
            assert_eq!(back(2, 0, 365), Ok((1, last)), "{format:?} {kind}");
            assert_eq!(back(366, 0, 366), Ok((365, last)), "{format:?} {kind}");
            assert_eq!(back(1, s, 365), Ok((1, 0)), "{format:?} {kind}");
            assert_eq!(
                back(366, last, 366),
                Ok((366, last - s)),
                "{format:?} {kind}"
            );
            // With day 365 in its place, the step would lead to day 1.
            assert_eq!(back(366, 0, 365), Err(Refusal::YearLength), "{format:?}");
        }
    }
    let b0 = format("B0");
    // A step of that kind from 8,639,800 leads to midnight.
    let past = step_back(b0, time(181, 8_639_900), 365, SECOND_TAKEN);
    assert_eq!(past, Err(Refusal::DayKind));
    assert_eq!(
        step_back(b0, time(181, 8_640_000), 365, SECOND_ADDED),
        Ok(time(181, 8_639_900))
    );
}

/// Each step returns the other's time, and so takes it: over days of every kind
/// and years of both lengths, at their borders and anywhere.
#[test]
fn step_and_step_back_are_inverse() {
    let mut random = Random(6);
    let mut taken = 0;
    for name in FORMATS {
        let (format, s) = (format(name), table(format(name)).1);
        let mut times: Vec<Time> = (0..5_000).map(|_| random.time(format)).collect();
        for day in [1, 2, 59, 60, 181, 364, 365, 366] {
            let frames = [0, 1, 2].map(|frame| frame * s);
            let ends = day_ends(format).map(|end| [end - s, end - 2 * s]);
            let borders = frames.into_iter().chain(ends.into_iter().flatten());
            times.extend(borders.map(|hundredths| time(day, hundredths)));
        }
        for from in times {
            for (length, kind) in [(365, 0), (365, 1), (365, 2), (366, 0), (366, 1), (366, 2)] {
                let next = step(format, from, length, kind);
                let before = step_back(format, from, length, kind);
                assert_eq!(next.err(), before.err());
                if let (Ok(next), Ok(before)) = (next, before) {
                    assert_eq!(step_back(format, next, length, kind), Ok(from));
                    assert_eq!(step(format, before, length, kind), Ok(from));
                    assert!(next_after(format, before, from));
                    taken += 1;
                }
            }
        }
    }
    assert!(taken > 200_000);
}

/// Up to three times follow one.
#[test]
fn next_after_by_kind() {
    let b1 = format("B1");
    let follow = |first: Time| -> Vec<(u16, u32)> {
        let days = [1, 180, 181, 182, 365, 366];
        let seconds = [0, 100, 8_639_700, 8_639_800, 8_639_900, 8_640_000];
        days.into_iter()
            .flat_map(|day| seconds.map(|hundredths| (day, hundredths)))
            .filter(|&(day, hundredths)| next_after(b1, first, time(day, hundredths)))
            .collect()
    };
    assert_eq!(follow(time(181, 8_639_700)), [(181, 8_639_800)]);
    assert_eq!(follow(time(181, 8_639_800)), [(181, 8_639_900), (182, 0)]);
    assert_eq!(follow(time(181, 8_639_900)), [(181, 8_640_000), (182, 0)]);
    assert_eq!(follow(time(181, 8_640_000)), [(182, 0)]);
    assert_eq!(
        follow(time(365, 8_639_800)),
        [(1, 0), (365, 8_639_900), (366, 0)]
    );
    assert_eq!(
        follow(time(365, 8_639_900)),
        [(1, 0), (365, 8_640_000), (366, 0)]
    );
    assert_eq!(follow(time(365, 8_640_000)), [(1, 0), (366, 0)]);
    assert_eq!(follow(time(366, 8_640_000)), [(1, 0)]);
    for name in ["D1", "E2", "H1"] {
        let (format, s) = (format(name), table(format(name)).1);
        let last = time(181, 8_640_000 - s);
        assert!(next_after(format, last, time(182, 0)));
        assert!(!next_after(format, last, time(181, 8_640_000)));
        assert!(!next_after(format, time(181, 8_640_000), time(182, 0)));
        assert!(!next_after(
            format,
            time(181, 8_640_000 - 2 * s),
            time(182, 0)
        ));
    }
}

/// 23:59:60 and straight binary seconds 86,400 in A, B and G.
#[test]
fn added_second() {
    let written = frame(format("B0"), time(1, 8_640_000), 0);
    // 60 seconds, 59 minutes, 23 hours, day 1, then 128 + 256 + 4,096 + 16,384 + 65,536.
    assert_eq!(
        ones(&written),
        [7, 8, 10, 13, 15, 17, 20, 21, 26, 30, 87, 88, 93, 95, 97]
    );
    let written = frame(format("A2"), time(1, 8_640_030), 0);
    assert_eq!(
        ones(&written),
        [7, 8, 10, 13, 15, 17, 20, 21, 26, 30, 45, 46]
    );
    let written = frame(format("G2"), time(1, 8_640_012), 0);
    assert_eq!(
        ones(&written),
        [7, 8, 10, 13, 15, 17, 20, 21, 26, 30, 45, 51]
    );

    for format in FORMATS.map(format).into_iter().filter(|&f| has_day(f)) {
        let (n, s, _) = table(format);
        for hundredths in (8_640_000..8_640_100).step_by(s as usize) {
            let mut lent = vec![9; n];
            let answer = write(format, time(366, hundredths), 0, &mut lent);
            if leaps(format) {
                assert_eq!(answer, Ok(()));
                assert_eq!(read(format, &lent), Ok((time(366, hundredths), 0)));
            } else {
                assert_eq!(answer, Err(Refusal::AddedSecond));
                assert_eq!(lent, vec![9; n]);
            }
        }
    }
}

/// The 61st second stands at 23:59 alone, in A, B and G alone, and the straight
/// binary seconds must be its own.
#[test]
fn added_second_refused() {
    let with = |name: &str, from: Time, changes: &[(usize, u8)]| {
        let mut bytes = frame(format(name), from, 0);
        for &(index, symbol) in changes {
            bytes[index] = symbol;
        }
        read(format(name), &bytes)
    };
    // Tens of seconds: 6 is 0, 1, 1 at 6 to 8.
    let sixty = [(6, 0), (7, 1), (8, 1)];
    for name in ["A1", "A2", "B1", "B2", "G1", "G2"] {
        for minute in 0..1_440 {
            let expected = if minute == 1_439 {
                Ok((time(9, 8_640_000), 0))
            } else {
                Err(Refusal::Digit)
            };
            assert_eq!(with(name, time(9, minute * 6_000), &sixty), expected);
        }
        // 23:59:61.
        let sixty_one = [(1, 1), (6, 0), (7, 1), (8, 1)];
        let answer = with(name, time(9, 8_634_000), &sixty_one);
        assert_eq!(answer, Err(Refusal::Digit));
    }
    for name in ["E1", "E2"] {
        assert_eq!(with(name, time(9, 8_634_000), &sixty), Err(Refusal::Digit));
    }
    for name in ["D1", "D2", "H1", "H2"] {
        assert_eq!(
            with(name, time(9, 8_280_000), &sixty),
            Err(Refusal::Element(7))
        );
    }
    for name in ["A0", "A3", "B0", "B3"] {
        for (from, seconds) in [
            (8_640_000, 0_u32),
            (8_640_000, 86_399),
            (8_640_000, 86_401),
            (8_639_900, 86_400),
            (0, 86_400),
        ] {
            let places = (80..89).chain(90..98);
            let bits = places
                .enumerate()
                .map(|(bit, place)| (place, (seconds >> bit & 1) as u8));
            assert_eq!(
                with(name, time(9, from), &bits.collect::<Vec<_>>()),
                Err(Refusal::BinarySeconds)
            );
        }
    }
}

#[test]
fn added_second_printed() {
    let mut input = b"G2\nP".to_vec();
    for hundredths in [8_640_098, 8_640_099] {
        let symbols = frame(format("G2"), time(59, hundredths), 0);
        input.extend(symbols.iter().map(|&symbol| b"01P-"[usize::from(symbol)]));
    }
    let mut printed = Vec::new();
    timeread(&input, &mut printed);
    assert_eq!(
        String::from_utf8(printed).unwrap(),
        "201 059 23:59:60.99 000000000000\nelements 201 reports 1\n"
    );
}

/// Where the year stands, and the control bits beside it.
#[test]
fn year_written() {
    // 1, 2, 4, 8 at 50-53, 10, 20, 40, 80 at 55-58.
    for (year, places) in [
        (0, vec![]),
        (1, vec![50]),
        (76, vec![51, 52, 55, 56, 57]),
        (89, vec![50, 53, 58]),
        (99, vec![50, 53, 55, 58]),
    ] {
        for format in formats_with_year() {
            let written = frame(format, dated(year, 1, 0), 0);
            let expected: Vec<usize> = [30].into_iter().chain(places.iter().copied()).collect();
            assert_eq!(ones(&written), expected, "{format:?} {year}");
            assert_eq!(read(format, &written), Ok((dated(year, 1, 0), 0)));
        }
    }
    for name in ["A4", "A5", "B4", "B5"] {
        let places = (60..69).chain(70..79);
        for (bit, place) in places.enumerate() {
            let written = frame(format(name), time(1, 0), 1 << bit);
            assert_eq!(ones(&written), [30, place], "{name}");
        }
        let mut lent = [9; 100];
        let answer = write(format(name), time(1, 0), 1 << 18, &mut lent);
        assert_eq!((answer, lent), (Err(Refusal::Control), [9; 100]));
    }
    for name in ["A6", "A7", "B6", "B7"] {
        let answer = write(format(name), time(1, 0), 1, &mut [9; 100]);
        assert_eq!(answer, Err(Refusal::Control));
    }
    // Straight binary seconds in 4 and 7 alone.
    let places = [30, 85, 86, 87, 90, 91, 95, 96];
    let at = time(1, 5_091_200);
    for (name, carried) in [("B4", true), ("B5", false), ("B6", false), ("B7", true)] {
        let mut written = ones(&frame(format(name), at, 0));
        written.retain(|&index| index == 30 || index >= 80);
        assert_eq!(written == places, carried, "{name}");
    }
}

#[test]
fn year_refused() {
    for name in FORMATS {
        let format = format(name);
        let last = if has_year(format) { 99 } else { 0 };
        for year in 0..=255 {
            let answer = write(format, dated(year, 1, 0), 0, &mut vec![9; table(format).0]);
            let expected = if year > last {
                Err(Refusal::Year)
            } else {
                Ok(())
            };
            assert_eq!(answer, expected, "{name} {year}");
            for step in [step, step_back] {
                let answer = step(format, dated(year, 1, 0), 365, 0);
                assert_eq!(answer.err(), expected.err(), "{name} {year}");
            }
        }
    }
    assert_eq!(
        (Refusal::Year.number(), Refusal::YearPlace.number()),
        (17, 18)
    );
}

/// 1, 17, 2, 14, 9, 3 and 1, 17, 2, 14, 11, 15.
#[test]
fn order_of_refusals_with_a_year() {
    let (b8, b4, d1) = (format("B8"), format("B4"), format("D1"));
    let mut lent = [9; 99];
    let mut written = |format, at, control| write(format, at, control, &mut lent);
    assert_eq!(written(b8, dated(100, 0, 0), 1 << 18), Err(Refusal::Format));
    assert_eq!(written(b4, dated(100, 0, 0), 1 << 18), Err(Refusal::Year));
    assert_eq!(written(b4, dated(1, 366, 0), 1 << 18), Err(Refusal::Time));
    assert_eq!(
        written(b4, dated(4, 366, 0), 1 << 18),
        Err(Refusal::Control)
    );
    assert_eq!(written(b4, dated(4, 366, 0), 0), Err(Refusal::Length));
    assert_eq!(lent, [9; 99]);
    for step in [step, step_back] {
        assert_eq!(step(b8, dated(100, 0, 0), 0, 3), Err(Refusal::Format));
        assert_eq!(step(b4, dated(100, 0, 0), 0, 3), Err(Refusal::Year));
        assert_eq!(step(d1, dated(1, 1, 8_640_000), 0, 3), Err(Refusal::Year));
        assert_eq!(step(b4, dated(1, 366, 0), 366, 3), Err(Refusal::Time));
        assert_eq!(step(b4, dated(4, 366, 0), 0, 3), Err(Refusal::DayKind));
    }
}

/// The elements of a digit whose lowest weight stands at `first`.
fn digit_at(first: usize, digit: u8) -> [(usize, u8); 4] {
    [0, 1, 2, 3].map(|bit| (first + bit, digit >> bit & 1))
}

/// Read refuses what no year is written as, and day 366 of a year without it.
#[test]
fn year_not_read() {
    for format in formats_with_year() {
        let with = |from: Time, changes: &[(usize, u8)]| {
            let mut bytes = frame(format, from, 0);
            for &(index, symbol) in changes {
                bytes[index] = symbol;
            }
            read(format, &bytes)
        };
        for first in [50, 55] {
            for digit in 10..16 {
                let refused = with(time(1, 0), &digit_at(first, digit));
                assert_eq!(refused, Err(Refusal::Digit));
            }
        }
        for year in 0..100 {
            let year_bits = [digit_at(50, year % 10), digit_at(55, year / 10)].concat();
            let expected = if year % 4 == 0 {
                Ok((dated(year, 366, 0), 0))
            } else {
                Err(Refusal::Digit)
            };
            assert_eq!(with(time(366, 0), &year_bits), expected);
        }
        assert_eq!(with(time(1, 0), &[(54, 1)]), Err(Refusal::Element(54)));
        assert_eq!(with(time(1, 0), &[(54, 2)]), Err(Refusal::Mark(54)));
        assert_eq!(with(time(1, 0), &[(58, 3)]), Err(Refusal::Element(58)));
    }
}

/// The year's own length, whichever is given, and 0 after 99.
#[test]
fn stepping_by_year() {
    for format in formats_with_year() {
        let s = table(format).1;
        for year in 0..100 {
            let next = if year == 99 { 0 } else { year + 1 };
            let last = dated(year, days_in(year), 8_640_000 - s);
            for given in [0, 364, 365, 366, 367, 65_535] {
                let stepped = |from| step(format, from, given, 0);
                assert_eq!(stepped(last), Ok(dated(next, 1, 0)));
                let back = step_back(format, dated(next, 1, 0), given, 0);
                assert_eq!(back, Ok(last));
                let day_365 = dated(year, 365, 8_640_000 - s);
                let expected = match days_in(year) {
                    365 => dated(next, 1, 0),
                    _ => dated(year, 366, 0),
                };
                assert_eq!(stepped(day_365), Ok(expected));
            }
            assert!(next_after(format, last, dated(next, 1, 0)));
            assert!(!next_after(format, last, dated(year, 1, 0)));
            assert!(!next_after(format, last, dated(next, 2, 0)));
            let leaps_to_366 =
                next_after(format, dated(year, 365, 8_640_000 - s), dated(year, 366, 0));
            assert_eq!(leaps_to_366, days_in(year) == 366);
        }
    }
    // No year is counted where none is carried.
    for format in formats_without_year() {
        let s = table(format).1;
        let last = time(366, 8_640_000 - s);
        assert_eq!(step(format, last, 366, 0), Ok(time(1, 0)));
        assert_eq!(step_back(format, time(1, 0), 366, 0), Ok(last));
    }
}

/// Each converter gives what Write gives in the other edition, and the two are
/// inverse.
#[test]
fn converted() {
    let mut random = Random(8);
    for later in formats_with_year() {
        let earlier = Format {
            expression: later.expression - 4,
            ..later
        };
        for _ in 0..2_000 {
            let (at, control) = (random.time(later), random.control(later));
            let with_year = frame(later, at, control);
            let without = frame(earlier, Time { year: 0, ..at }, control << 9);
            let mut lent = vec![9; 100];
            assert_eq!(forward(earlier, &without, at.year, &mut lent), Ok(()));
            assert_eq!(lent, with_year);
            assert_eq!(backward(later, &with_year, &mut lent), Ok(()));
            assert_eq!(lent, without);
        }
    }
}

/// A frame forward into one of n bytes, which a refusal leaves.
fn there(name: &str, bytes: &[u8], year: u8, n: usize) -> Result<(), Refusal> {
    let mut lent = vec![9; n];
    let answer = forward(format(name), bytes, year, &mut lent);
    assert!(answer.is_ok() || lent == vec![9; n]);
    answer
}

/// A frame backward into one of n bytes, which a refusal leaves.
fn back(name: &str, bytes: &[u8], n: usize) -> Result<(), Refusal> {
    let mut lent = vec![9; n];
    let answer = backward(format(name), bytes, &mut lent);
    assert!(answer.is_ok() || lent == vec![9; n]);
    answer
}

/// 1 for another letter or edition, then 3 for either frame.
#[test]
fn converters_refuse_formats_and_lengths() {
    let others = ["A8", "B8", "C0", "D4", "G4", "X2"];
    for name in FORMATS.into_iter().chain(others) {
        let later = matches!(name.as_bytes(), [b'A' | b'B', b'4'..=b'7']);
        let earlier = matches!(name.as_bytes(), [b'A' | b'B', b'0'..=b'3']);
        let expected = |fits| {
            Err(if fits {
                Refusal::Length
            } else {
                Refusal::Format
            })
        };
        assert_eq!(there(name, &[7; 100], 0, 99), expected(earlier), "{name}");
        assert_eq!(there(name, &[7; 101], 0, 100), expected(earlier), "{name}");
        assert_eq!(back(name, &[7; 100], 99), expected(later), "{name}");
        assert_eq!(back(name, &[7; 101], 100), expected(later), "{name}");
    }
}

/// 4, 5 and 6, 7, 8, 17, 2, 18.
#[test]
fn forward_refuses_in_order() {
    let with = |changes: &[(usize, u8)], year| {
        let mut bytes = frame(format("B0"), time(366, 100), 1 << 8);
        for &(index, symbol) in changes {
            bytes[index] = symbol;
        }
        there("B0", &bytes, year, 100)
    };
    assert_eq!(with(&[(0, 1), (99, 7)], 100), Err(Refusal::Symbol));
    assert_eq!(with(&[(5, 1), (30, 1)], 100), Err(Refusal::Element(5)));
    assert_eq!(with(&[(30, 1), (80, 0)], 100), Err(Refusal::Digit));
    assert_eq!(with(&[(80, 0)], 100), Err(Refusal::BinarySeconds));
    assert_eq!(with(&[], 100), Err(Refusal::Year));
    assert_eq!(with(&[], 255), Err(Refusal::Year));
    assert_eq!(with(&[], 1), Err(Refusal::Time));
    assert_eq!(with(&[], 4), Err(Refusal::YearPlace));
    assert_eq!(with(&[(58, 0), (60, 1), (78, 1)], 4), Ok(()));
}

/// A one among control bits 1 to 9 is 18. Expressions 2 and 3 have no control
/// bits: a one at their places is Read's 6.
#[test]
fn forward_refuses_control_bits_1_to_9() {
    for name in ["A0", "A1", "B0", "B1"] {
        for bit in 0..27 {
            let bytes = frame(format(name), time(1, 0), 1 << bit);
            let refused = (bit < 9).then_some(Refusal::YearPlace);
            assert_eq!(there(name, &bytes, 1, 100).err(), refused);
        }
    }
    for name in ["A2", "A3", "B2", "B3"] {
        for place in (50..59).chain(60..69).chain(70..79) {
            let mut bytes = frame(format(name), time(1, 0), 0);
            bytes[place] = 1;
            let refused = there(name, &bytes, 100, 100);
            assert_eq!(refused, Err(Refusal::Element(place)));
        }
    }
}

/// The year is in no line of `timeread`.
#[test]
fn year_not_printed() {
    let mut input = b"B6\nP".to_vec();
    for at in [dated(99, 365, 8_639_900), dated(0, 1, 0), dated(0, 1, 100)] {
        let symbols = frame(format("B6"), at, 0);
        input.extend(symbols.iter().map(|&symbol| b"01P-"[usize::from(symbol)]));
    }
    let mut printed = Vec::new();
    timeread(&input, &mut printed);
    assert_eq!(
        String::from_utf8(printed).unwrap(),
        "201 001 00:00:00.00 000000000000\n301 001 00:00:01.00 000000000000\n\
         elements 301 reports 2\n"
    );
}

#[test]
fn differences() {
    let (later, earlier) = (time(2, 0), time(1, 8_639_999));
    assert_eq!(difference(later, earlier), Ok(1));
    assert_eq!(difference(earlier, later), Ok(-1));
    assert_eq!(difference(later, later), Ok(0));
    assert_eq!(
        difference(time(366, 8_639_999), time(1, 0)),
        Ok(3_162_239_999)
    );
    assert_eq!(difference(time(0, 0), later), Err(Refusal::Time));
    assert_eq!(difference(later, time(1, 8_640_100)), Err(Refusal::Time));
    // A day counts 8,640,000 hundredths, also one with a second added.
    assert_eq!(difference(later, time(1, 8_640_000)), Ok(0));
    assert_eq!(difference(time(1, 8_640_099), later), Ok(99));
    assert_eq!(difference(later, time(1, 8_640_099)), Ok(-99));
    // No year is looked at, not even one that no format carries.
    for (first, second) in [(0, 0), (0, 1), (99, 0), (100, 1), (255, 3)] {
        let answer = difference(dated(first, 366, 0), dated(second, 1, 1));
        assert_eq!(answer, Ok(365 * 8_640_000 - 1));
        let refused = difference(dated(first, 367, 0), dated(second, 1, 1));
        assert_eq!(refused, Err(Refusal::Time));
    }
}

fn widths(zeros: u8, ones: u8, marks: u8) -> Widths {
    Widths { zeros, ones, marks }
}

#[test]
fn pulses() {
    let fives = widths(5, 5, 5);
    let found = [149, 150, 250, 251].map(|width| classify(fives, 1_000, width, 1_000));
    assert_eq!(
        found,
        [Ok((3, 0)), Ok((0, -5_000)), Ok((0, 5_000)), Ok((3, 0))]
    );
    assert_eq!(
        classify(widths(0, 5, 5), 99, 50, 99),
        Err(Refusal::Interval)
    );
    assert_eq!(classify(fives, 10_000_001, 0, 0), Err(Refusal::Interval));
    for bad in [widths(0, 5, 5), widths(5, 15, 5), widths(5, 5, 255)] {
        assert_eq!(classify(bad, 100, 20, 100), Err(Refusal::Width));
    }
    assert_eq!(classify(fives, 10_000_000, u32::MAX, u32::MAX), Ok((3, 0)));
    let widest = widths(14, 14, 14);
    assert_eq!(
        classify(widest, 10_000_000, 9_400_000, 10_000_000),
        Ok((2, 140_000_000))
    );
    assert_eq!(classify(widest, 1_000, 360, 1_051), Ok((3, 0)));
    assert_eq!(classify(widest, 1_000, 360, 1_050), Ok((1, -14_000)));

    let (mut lent, mut off) = ([9; 3], [9; 3]);
    let mut refused = |by, t, w: &[u32], p: &[u32], n: usize| {
        let answer = classify_list(by, t, w, p, &mut lent, &mut off[..n]);
        assert_eq!((lent, off), ([9; 3], [9; 3]));
        answer
    };
    let (two, three) = ([0; 2], [0; 3]);
    let zeros = widths(0, 0, 0);
    assert_eq!(refused(zeros, 99, &two, &three, 3), Err(Refusal::Interval));
    assert_eq!(refused(zeros, 100, &two, &three, 3), Err(Refusal::Width));
    assert_eq!(refused(fives, 100, &two, &three, 3), Err(Refusal::Length));
    assert_eq!(refused(fives, 100, &three, &two, 3), Err(Refusal::Length));
    assert_eq!(refused(fives, 100, &three, &three, 2), Err(Refusal::Length));
    assert_eq!(
        classify_list(fives, 100, &[21, 50, 78], &[100; 3], &mut lent, &mut off),
        Ok(())
    );
    assert_eq!((lent, off), ([0, 1, 2], [100, 0, -200]));
    assert_eq!(
        classify_list(fives, 100, &[], &[], &mut [], &mut []),
        Ok(())
    );

    let mut reader = Reader::fresh(format("H1"), 2).unwrap();
    let before = reader.clone();
    for (by, t, refusal) in [(zeros, 99, Refusal::Interval), (zeros, 100, Refusal::Width)] {
        let refused = classify_and_feed(&mut reader, by, t, 80, 100);
        assert_eq!(refused, (Answer::Refused(refusal), 0));
        assert_eq!(reader, before);
    }
    assert_eq!(
        classify_and_feed(&mut reader, fives, 100, 81, 100),
        (Answer::Quiet, 100)
    );
    assert_eq!(reader.place(), 1);
}

/// What is read back is what was written, and whatever else is accepted is
/// written as those bytes.
#[test]
fn written_and_read() {
    let mut random = Random(1);
    for name in FORMATS {
        let format = format(name);
        for _ in 0..2_000 {
            let (time, control) = (random.time(format), random.control(format));
            let mut bytes = frame(format, time, control);
            assert_eq!(read(format, &bytes), Ok((time, control)));
            for _ in 0..=random.below(3) {
                let index = random.below(bytes.len() as u64) as usize;
                bytes[index] = random.below(5) as u8;
            }
            if let Ok((time, control)) = read(format, &bytes) {
                assert_eq!(frame(format, time, control), bytes);
            }
        }
    }
}

/// A reader joining at any element j first reports (k + 1)n - j elements later,
/// in X at its first element kn.
#[test]
fn first_report() {
    let mut random = Random(2);
    for (name, setting) in formats_and_settings() {
        let format = format(name);
        let (n, frames) = (table(format).0, usize::from(setting) + 1);
        let (elements, times) = random.generator(format, frames + 1);
        for join in 0..n {
            let mut reader = Reader::fresh(format, setting).unwrap();
            let first =
                elements[join..]
                    .iter()
                    .enumerate()
                    .find_map(|(count, &symbol)| match reader.feed(symbol) {
                        Answer::Report(time, _) => Some((count + 1, time)),
                        _ => None,
                    });
            // Joined at the reference bit itself, the mark before is missing.
            let last = if join < 1 - lead(format) {
                frames - 2
            } else {
                frames - 1
            };
            assert_eq!(
                first,
                Some(((last + 1) * n - join, times[last])),
                "{name}, setting {setting}, joined at {join}"
            );
        }
    }
}

/// One replaced symbol never makes a wrong time.
#[test]
fn one_replaced() {
    let mut random = Random(3);
    for (name, setting) in formats_and_settings() {
        let format = format(name);
        let (elements, times) = random.generator(format, usize::from(setting) + 2);
        for index in 0..elements.len() {
            let mut spoiled = elements.clone();
            spoiled[index] = (spoiled[index] + 1 + random.below(3) as u8) % 4;
            right_reports(format, setting, &spoiled, &times);
        }
    }
}

/// Nor do k - 1 of them with the setting k; and a higher setting reports a part
/// of what a lower one does, whatever is replaced.
#[test]
fn several_replaced() {
    let mut random = Random(7);
    for (name, setting) in formats_and_settings() {
        let format = format(name);
        for _ in 0..500 {
            let (mut elements, times) = random.generator(format, 12);
            for _ in 1..setting {
                let index = random.below(elements.len() as u64) as usize;
                // The bits of the day and the time alone, for half of them.
                let top = 2 + 2 * random.below(2);
                if top == 4 || elements[index] != MARK {
                    elements[index] = random.below(top) as u8;
                }
            }
            right_reports(format, setting, &elements, &times);
            let mut before = reports(format, 2, &elements);
            for higher in [3, 4, 5] {
                let part = reports(format, higher, &elements);
                assert!(part.iter().all(|report| before.contains(report)));
                before = part;
            }
        }
    }
}

/// k of them may: day 1 made day 3 by one bit in each of k frames.
#[test]
fn as_many_replaced_as_the_setting() {
    for setting in SETTINGS {
        let (b1, n) = (format("B1"), 100);
        let mut elements = vec![MARK];
        for second in 0..5 {
            elements.extend(frame(b1, time(1, 100 * second), 0));
        }
        let last = usize::from(setting) - 1;
        for damaged in 0..=last {
            // The day's units begin at 30, the lowest weight first.
            elements[1 + n * damaged + 31] = 1;
            let after = reports(b1, setting, &elements[..=n * setting as usize]);
            let expected = (damaged == last).then_some(time(3, 100 * last as u32));
            assert_eq!(after.first().map(|report| report.1), expected);
        }
    }
}

/// Nor does one in or beside an added or a taken second, for any symbol.
#[test]
fn one_replaced_in_a_leap_second() {
    for name in FORMATS.into_iter().filter(|name| leaps(format(name))) {
        let format = format(name);
        let s = table(format).1;
        for (kind, end) in [(SECOND_ADDED, 8_640_100), (SECOND_TAKEN, 8_639_900)] {
            for (day, length) in [(181, 365), (365, 365), (365, 366), (366, 366)] {
                let year_of_that_length = if length == 366 { 28 } else { 99 };
                let year = if has_year(format) {
                    year_of_that_length
                } else {
                    0
                };
                let mut now = dated(year, day, end - 2 * s);
                let (mut elements, mut times) = (Vec::new(), Vec::new());
                for _ in 0..4 {
                    elements.extend(frame(format, now, 0));
                    times.push(now);
                    let kind = if now.day == day { kind } else { USUAL_DAY };
                    now = step(format, now, length, kind).expect("a step");
                }
                for index in 0..elements.len() {
                    for symbol in 0..4 {
                        let mut spoiled = elements.clone();
                        spoiled[index] = symbol;
                        let reports = right_reports(format, 2, &spoiled, &times);
                        let whole = symbol == elements[index];
                        assert!(!whole || reports == 2, "{name} {kind} {day}");
                    }
                }
            }
        }
    }
}

/// Symbols replaced, lost, put in and refused: every answer is the plain
/// machine's, and a refused symbol leaves the reader as it was.
#[test]
fn plain_machine() {
    let mut random = Random(4);
    let mut reports = 0;
    for name in FORMATS {
        let format = format(name);
        for _ in 0..40 {
            let mut elements = Vec::new();
            for _ in 0..3 {
                let frames = 3 + random.below(8) as usize;
                let (mut part, _) = random.generator(format, frames);
                for _ in 0..random.below(4) {
                    let index = random.below(part.len() as u64) as usize;
                    match random.below(4) {
                        0 => part[index] = random.below(4) as u8,
                        1 => drop(part.remove(index)),
                        2 => part.insert(index, random.below(4) as u8),
                        _ => part.insert(index, 4 + random.below(252) as u8),
                    }
                }
                elements.extend(part);
            }
            let setting = random.setting();
            let mut reader = Reader::fresh(format, setting).unwrap();
            let mut plain = PlainMachine::new(format, setting);
            for symbol in elements {
                let before = reader.clone();
                let answer = reader.feed(symbol);
                assert_eq!(answer, plain.feed(symbol));
                match answer {
                    Answer::Report(..) => reports += 1,
                    Answer::Refused(_) => assert_eq!(reader, before),
                    Answer::Quiet => {}
                }
                assert_eq!(reader.place(), plain.list.len() % table(format).0);
            }
        }
    }
    assert!(reports > 1_000);
}

/// A block against the plain machine: with any room it takes the symbols before
/// the first that the machine refuses or whose report would not fit.
#[test]
fn blocks() {
    let mut random = Random(6);
    let empty = (usize::MAX, time(0, 1), 2);
    let mut stops = [0; 3];
    for name in FORMATS {
        let format = format(name);
        for _ in 0..60 {
            let (mut elements, _) = random.generator(format, 8);
            elements.insert(0, MARK);
            if random.below(2) == 0 {
                let index = random.below(elements.len() as u64) as usize;
                elements[index] = 4 + random.below(252) as u8;
            }
            let room = random.below(10) as usize;
            let setting = random.setting();
            let mut plain = PlainMachine::new(format, setting);
            let mut expected = vec![empty; room];
            let mut block = Block {
                taken: elements.len(),
                reports: 0,
                stop: Stop::AllTaken,
            };
            for (taken, &symbol) in elements.iter().enumerate() {
                let stop = match plain.feed(symbol) {
                    Answer::Quiet => continue,
                    Answer::Report(time, control) if block.reports < room => {
                        expected[block.reports] = (taken, time, control);
                        block.reports += 1;
                        continue;
                    }
                    Answer::Report(..) => Stop::NoRoom,
                    Answer::Refused(_) => Stop::UnknownSymbol,
                };
                block.taken = taken;
                block.stop = stop;
                break;
            }
            let mut reader = Reader::fresh(format, setting).unwrap();
            let mut records = vec![empty; room];
            assert_eq!(reader.feed_block(&elements, &mut records), Ok(block));
            assert_eq!(records, expected);
            let mut singly = Reader::fresh(format, setting).unwrap();
            for &symbol in &elements[..block.taken] {
                singly.feed(symbol);
            }
            assert_eq!(reader, singly);
            stops[block.stop as usize] += 1;
        }
    }
    assert!(stops.iter().all(|&count| count > 100), "{stops:?}");
}

/// Scan against trying every start with Read.
#[test]
fn scanned() {
    let mut random = Random(5);
    for name in FORMATS {
        let format = format(name);
        let n = table(format).0;
        for _ in 0..200 {
            let (mut recording, _) = random.generator(format, 3);
            for _ in 0..random.below(6) {
                let index = random.below(recording.len() as u64) as usize;
                recording[index] = random.below(6) as u8;
            }
            let start = random.below(recording.len() as u64 + 1) as usize;
            let lead = lead(format);
            let expected = (start.max(lead)..=recording.len() - n).find_map(|a| {
                let (time, control) = read(format, &recording[a..a + n]).ok()?;
                (lead == 0 || recording[a - 1] == MARK).then_some((a, time, control))
            });
            assert_eq!(scan(format, &recording, start), Ok(expected));
        }
    }
}
