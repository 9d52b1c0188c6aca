//! Every call through the safe types: document 01's examples, each refusal and the order of refusals, the step back, the
//! leap second, the year, its text and the converters, format X, width settings and deviations, lent memory left as it was, and readers stored and made
//! again.

use duskveyra::{
    backward, classify, classify_list, difference, forward, read, scan, step, step_back, write,
    FedPulse, Format, Found, ParseTimeError, Pulse, Reader, Refusal, Report, Time, WidthSettings,
    GREATEST_SETTING, LEAST_SETTING, LONGEST_FRAME, MARK, ONE, READER_WORDS, SECOND_ADDED,
    SECOND_TAKEN, SPOILED, USUAL_DAY, ZERO,
};

const USUAL: WidthSettings = WidthSettings::USUAL;

const FORMATS: [&str; 16] = [
    "A0", "A1", "A2", "A3", "B0", "B1", "B2", "B3", "D1", "D2", "E1", "E2", "G1", "G2", "H1", "H2",
];

/// Those that carry the year.
const WITH_YEAR: [&str; 8] = ["A4", "A5", "A6", "A7", "B4", "B5", "B6", "B7"];

const LISTING: &str = "P P00000000P 000100000P 001001000P 100001001P 100000000P 000000000P \
     P00000000P 100100000P 001001000P 100001001P 100000000P 000000000P";

fn format(name: &str) -> Format {
    Format {
        letter: name.as_bytes()[0],
        expression: name.as_bytes()[1] - b'0',
    }
}

fn time(day: u16, hundredths: u32) -> Time {
    dated(0, day, hundredths)
}

fn dated(year: u8, day: u16, hundredths: u32) -> Time {
    Time {
        year,
        day,
        hundredths,
    }
}

fn symbols(text: &str) -> Vec<u8> {
    text.bytes()
        .filter(|&character| character != b' ')
        .map(|character| match character {
            b'0' => ZERO,
            b'1' => ONE,
            b'P' => MARK,
            _ => SPOILED,
        })
        .collect()
}

/// n and S of document 01's table.
fn table(format: Format) -> (usize, u32) {
    match format.letter {
        b'A' => (100, 10),
        b'B' => (100, 100),
        b'D' => (60, 360_000),
        b'E' => (100, 1_000),
        b'G' => (100, 1),
        b'X' => (25, 100),
        _ => (60, 6_000),
    }
}

/// Where days of the kinds 0, 1 and 2 end in the format's frames.
fn day_ends(format: Format) -> [u32; 3] {
    match format.letter {
        b'A' | b'B' | b'G' => [8_640_000, 8_640_100, 8_639_900],
        _ => [8_640_000; 3],
    }
}

fn frame(name: &str, at: Time, control: u64) -> Vec<u8> {
    let mut frame = vec![0xa5; table(format(name)).0];
    write(format(name), at, control, &mut frame).expect("a time and control word to write");
    frame
}

#[test]
fn write_refuses_in_order_and_leaves_the_frame() {
    let known = format("B1");
    let wrong = Format {
        letter: b'b',
        ..known
    };
    let mut lent = [0xa5; LONGEST_FRAME];
    for bad in 0..16 {
        let expected = [
            Refusal::UnknownFormat,
            Refusal::InvalidTime,
            Refusal::ControlTooLong,
            Refusal::WrongLength,
        ]
        .into_iter()
        .enumerate()
        .find(|(bit, _)| bad >> bit & 1 == 1)
        .map(|(_, refusal)| refusal);
        let answer = write(
            if bad & 1 != 0 { wrong } else { known },
            time(1, if bad & 2 != 0 { 50 } else { 0 }),
            if bad & 4 != 0 { 1 << 27 } else { 0 },
            &mut lent[..if bad & 8 != 0 { 99 } else { 100 }],
        );
        assert_eq!(answer.err(), expected);
        assert!(expected.is_none() || lent == [0xa5; LONGEST_FRAME]);
        lent = [0xa5; LONGEST_FRAME];
    }
}

#[test]
fn an_added_second_is_refused_in_order_where_it_is_not_carried() {
    let known = format("H1");
    let wrong = format("H3");
    let mut lent = [0xa5; LONGEST_FRAME];
    for bad in 0..32 {
        let first = |refusals: [Refusal; 5]| {
            let bit = (0..5).find(|bit| bad >> bit & 1 == 1);
            bit.map(|bit| refusals[bit])
        };
        let format = if bad & 1 != 0 { wrong } else { known };
        let at = time(
            if bad & 2 != 0 { 0 } else { 1 },
            if bad & 4 != 0 { 8_640_000 } else { 0 },
        );
        let answer = write(
            format,
            at,
            if bad & 8 != 0 { 512 } else { 0 },
            &mut lent[..if bad & 16 != 0 { 59 } else { 60 }],
        );
        let expected = first([
            Refusal::UnknownFormat,
            Refusal::InvalidTime,
            Refusal::SecondNotCarried,
            Refusal::ControlTooLong,
            Refusal::WrongLength,
        ]);
        assert_eq!(answer.err(), expected);
        assert!(expected.is_none() || lent == [0xa5; LONGEST_FRAME]);
        lent = [0xa5; LONGEST_FRAME];
        let expected = first([
            Refusal::UnknownFormat,
            Refusal::InvalidTime,
            Refusal::SecondNotCarried,
            Refusal::InvalidYearLength,
            Refusal::InvalidKind,
        ]);
        for step in [step, step_back] {
            let answer = step(
                format,
                at,
                if bad & 8 != 0 { 364 } else { 365 },
                if bad & 16 != 0 { 3 } else { SECOND_ADDED },
            );
            assert_eq!(answer.err(), expected);
        }
    }
}

#[test]
fn examples_of_writing_and_reading() {
    assert_eq!(
        frame("H1", time(191, 5_088_000), 0),
        symbols(LISTING)[1..61]
    );
    let written = frame("B0", time(1, 5_091_200), 0);
    let ones: Vec<usize> = (80..98).filter(|&index| written[index] == ONE).collect();
    assert_eq!(ones, [85, 86, 87, 90, 91, 95, 96]);
    assert_eq!(frame("H1", time(1, 0), 511)[50..59], [ONE; 9]);

    for name in FORMATS {
        let (n, interval) = table(format(name));
        let last = time(366, 8_640_000 - interval);
        let good = frame(name, last, 0);
        let report = Report {
            time: last,
            control: 0,
        };
        assert_eq!(read(format(name), &good), Ok(report));
        assert_eq!(
            read(format(name), &good[..n - 1]),
            Err(Refusal::WrongLength)
        );
        assert_eq!(read(format(name), &[]), Err(Refusal::WrongLength));
        for index in 0..n {
            let mut bad = good.clone();
            bad[index] = 4;
            assert_eq!(read(format(name), &bad), Err(Refusal::UnknownSymbol));
            bad[index] = SPOILED;
            let expected = match good[index] {
                MARK => Refusal::MisplacedMark(index),
                _ => Refusal::InvalidElement(index),
            };
            assert_eq!(read(format(name), &bad), Err(expected));
        }
    }

    let mut bad = frame("B2", time(366, 0), 0);
    bad[30] = ONE;
    assert_eq!(read(format("B2"), &bad), Err(Refusal::InvalidDigit));
    let mut bad = frame("B0", time(1, 100), 0);
    bad[80] = ZERO;
    assert_eq!(read(format("B0"), &bad), Err(Refusal::SecondsDiffer));
    bad[5] = ONE;
    assert_eq!(read(format("B0"), &bad), Err(Refusal::InvalidElement(5)));
    bad[0] = ONE;
    assert_eq!(read(format("B0"), &bad), Err(Refusal::MisplacedMark(0)));
}

#[test]
fn step_and_difference() {
    let b = format("B0");
    let last = time(365, 8_639_900);
    assert_eq!(step(b, last, 365, USUAL_DAY), Ok(time(1, 0)));
    assert_eq!(step(b, last, 366, USUAL_DAY), Ok(time(366, 0)));
    assert_eq!(step_back(b, time(1, 0), 365, USUAL_DAY), Ok(last));
    assert_eq!(step_back(b, time(366, 0), 366, USUAL_DAY), Ok(last));
    assert_eq!(
        step_back(b, time(1, 0), 366, USUAL_DAY),
        Ok(time(366, 8_639_900))
    );
    for step in [step, step_back] {
        assert_eq!(step(b, last, 364, 3), Err(Refusal::InvalidYearLength));
        assert_eq!(
            step(b, time(366, 0), 365, 3),
            Err(Refusal::InvalidYearLength)
        );
        assert_eq!(step(b, time(1, 50), 364, 3), Err(Refusal::InvalidTime));
        assert_eq!(
            step(format("D0"), time(0, 50), 364, 3),
            Err(Refusal::UnknownFormat)
        );
        assert_eq!(step(b, last, 366, SECOND_TAKEN), Err(Refusal::InvalidKind));
    }

    assert_eq!(difference(time(2, 0), time(1, 8_639_999)), Ok(1));
    assert_eq!(difference(time(1, 8_639_999), time(2, 0)), Ok(-1));
    assert_eq!(difference(time(9, 7), time(9, 7)), Ok(0));
    assert_eq!(
        difference(time(1, 0), time(366, 8_639_999)),
        Ok(-3_162_239_999)
    );
    assert_eq!(difference(time(1, 8_640_099), time(2, 0)), Ok(99));
    assert_eq!(difference(time(2, 0), time(1, 8_640_000)), Ok(0));
    for bad in [time(0, 0), time(367, 0), time(1, 8_640_100)] {
        assert_eq!(difference(bad, time(1, 0)), Err(Refusal::InvalidTime));
        assert_eq!(difference(time(1, 0), bad), Err(Refusal::InvalidTime));
    }
}

#[test]
fn days_of_every_kind() {
    for name in FORMATS {
        let (format, interval) = (format(name), table(format(name)).1);
        for (kind, end) in (USUAL_DAY..=SECOND_TAKEN).zip(day_ends(format)) {
            let last = time(181, end - interval);
            let before = time(181, end - 2 * interval);
            for (first, second) in [(before, last), (last, time(182, 0))] {
                let next = step(format, first, 365, kind);
                assert_eq!(next, Ok(second), "{name} {kind}");
                let back = step_back(format, second, 365, kind);
                assert_eq!(back, Ok(first), "{name} {kind}");
            }
            let expected = match end {
                8_640_100 => Refusal::InvalidTime,
                _ if day_ends(format)[1] == end => Refusal::SecondNotCarried,
                _ => Refusal::InvalidKind,
            };
            for step in [step, step_back] {
                let past = step(format, time(181, end), 365, kind);
                assert_eq!(past, Err(expected), "{name} {kind}");
            }
        }
        for kind in 3..=255 {
            for step in [step, step_back] {
                let refused = step(format, time(181, 0), 365, kind);
                assert_eq!(refused, Err(Refusal::InvalidKind), "{name} {kind}");
            }
        }
    }
}

/// The control word of a frame of the recordings below, as far as the format carries one.
fn control_of(format: Format, frame: u64) -> u64 {
    match format.expression {
        0 | 1 => frame * 37 % 512,
        _ => 0,
    }
}

/// Plays eight frames from `first` on and replays them from the last one's time, each step back told the year length and
/// the kind of the earlier time's day: the same frames from the last to the first, and the same elements turned round.
fn replay(name: &str, first: Time, year_length: u16, kind: u8) -> Vec<Time> {
    let format = format(name);
    let kind_of = |day| if day == first.day { kind } else { USUAL_DAY };
    let mut at = first;
    let (mut times, mut played) = (vec![first], frame(name, first, control_of(format, 0)));
    for number in 1..8 {
        at = step(format, at, year_length, kind_of(at.day)).expect("a step");
        times.push(at);
        played.extend(frame(name, at, control_of(format, number)));
    }
    let mut turned: Vec<u8> = Vec::new();
    for number in (0..8).rev() {
        assert_eq!(at, times[number], "{name} {year_length} {kind}");
        let mut replayed = frame(name, at, control_of(format, number as u64));
        let n = replayed.len();
        assert_eq!(replayed, played[number * n..][..n]);
        replayed.reverse();
        turned.extend(replayed);
        if number > 0 {
            let kind = kind_of(times[number - 1].day);
            at = step_back(format, at, year_length, kind).expect("a step back");
        }
    }
    assert!(turned.iter().eq(played.iter().rev()));
    times
}

#[test]
fn a_recording_replayed_backwards_is_the_recording_turned_round() {
    for name in FORMATS {
        let (format, interval) = (format(name), table(format(name)).1);
        for (kind, end) in (USUAL_DAY..=SECOND_TAKEN).zip(day_ends(format)) {
            for (day, year_length, next_day) in [
                (1, 365, 2),
                (181, 365, 182),
                (181, 366, 182),
                (365, 365, 1),
                (365, 366, 366),
                (366, 366, 1),
            ] {
                let first = time(day, end - 4 * interval);
                let times = replay(name, first, year_length, kind);
                assert_eq!(times[3], time(day, end - interval));
                assert_eq!(times[4], time(next_day, 0));
            }
        }
    }
}

#[test]
fn the_added_second_is_written_and_read_in_a_b_and_g() {
    let seconds = |frame: &[u8]| [&frame[1..5], &frame[6..9]].concat();
    for name in FORMATS {
        let (format, (n, interval)) = (format(name), table(format(name)));
        let carried = day_ends(format)[1] == 8_640_100;
        for hundredths in (8_640_000..8_640_100).step_by(interval as usize) {
            let at = time(366, hundredths);
            let mut lent = vec![0xa5; n];
            let answer = write(format, at, 0, &mut lent);
            if !carried {
                assert_eq!(answer, Err(Refusal::SecondNotCarried));
                assert_eq!(lent, vec![0xa5; n]);
                continue;
            }
            assert_eq!(answer, Ok(()));
            assert_eq!(seconds(&lent), [0, 0, 0, 0, 0, 1, 1], "{name}");
            let report = Report {
                time: at,
                control: 0,
            };
            assert_eq!(read(format, &lent), Ok(report));
            // 23:58:60.
            lent[10] = ZERO;
            assert_eq!(read(format, &lent), Err(Refusal::InvalidDigit));
        }
    }
    for name in ["A0", "A3", "B0", "B3"] {
        let good = frame(name, time(1, 8_640_000), 0);
        let ones: Vec<usize> = (80..98).filter(|&index| good[index] == ONE).collect();
        // 86,400
        assert_eq!(ones, [87, 88, 93, 95, 97]);
        let mut zero = good.clone();
        for index in ones {
            zero[index] = ZERO;
        }
        assert_eq!(read(format(name), &zero), Err(Refusal::SecondsDiffer));
    }
}

#[test]
fn days_of_every_kind_are_reported() {
    for name in FORMATS {
        let (format, interval) = (format(name), table(format(name)).1);
        for (kind, end) in (USUAL_DAY..=SECOND_TAKEN).zip(day_ends(format)) {
            let mut at = time(365, end - 2 * interval);
            let mut reader = Reader::fresh(format, 2).unwrap();
            let mut reports = Vec::new();
            assert_eq!(reader.feed(MARK), Ok(None));
            for _ in 0..4 {
                for symbol in frame(name, at, 0) {
                    reports.extend(reader.feed(symbol).unwrap());
                }
                let kind = if at.day == 365 { kind } else { USUAL_DAY };
                at = step(format, at, 365, kind).unwrap();
            }
            let times: Vec<Time> = reports.iter().map(|report| report.time).collect();
            let expected = [time(365, end - interval), time(1, 0), time(1, interval)];
            assert_eq!(times, expected, "{name} {kind}");
        }
    }
}

fn settings(zeros: u8, ones: u8, marks: u8) -> WidthSettings {
    WidthSettings { zeros, ones, marks }
}

#[test]
fn classifier() {
    assert_eq!(USUAL, settings(5, 5, 5));
    let pulses = [
        (149, 3, 0),
        (150, 0, -5_000),
        (250, 0, 5_000),
        (251, 3, 0),
        (500, 1, 0),
        (799, 2, -100),
    ];
    for (width, symbol, deviation) in pulses {
        let spoiled = Pulse {
            symbol: SPOILED,
            deviation: 0,
        };
        assert_eq!(
            classify(USUAL, 1_000, width, 1_000),
            Ok(Pulse { symbol, deviation })
        );
        assert_eq!(classify(USUAL, 1_000, width, 949), Ok(spoiled));
        assert_eq!(
            classify(settings(0, 5, 5), 99, width, 1_000),
            Err(Refusal::InvalidInterval)
        );
    }
    // every end of every class for every setting, and the greatest deviations
    for (symbol, centre) in [(ZERO, 20), (ONE, 50), (MARK, 80)] {
        for percent in WidthSettings::NARROWEST..=WidthSettings::WIDEST {
            let mut three = [1; 3];
            three[usize::from(symbol)] = percent;
            let only = settings(three[0], three[1], three[2]);
            let ticks = 100_000 * u32::from(percent);
            for (width, sign) in [
                (centre * 100_000 - ticks, -1),
                (centre * 100_000 + ticks, 1),
            ] {
                let deviation = sign * i32::from(percent) * 10_000_000;
                let found = classify(only, 10_000_000, width, 10_000_000);
                assert_eq!(found, Ok(Pulse { symbol, deviation }));
                let outside = width.wrapping_add_signed(sign);
                let found = classify(only, 10_000_000, outside, 10_000_000);
                assert_eq!(found.map(|pulse| pulse.symbol), Ok(SPOILED));
            }
        }
    }
    for bad in [0, 15, 255] {
        for bad in [
            settings(bad, 5, 5),
            settings(5, bad, 5),
            settings(5, 5, bad),
        ] {
            assert_eq!(
                classify(bad, 1_000, 200, 1_000),
                Err(Refusal::InvalidWidthSetting)
            );
        }
    }
    assert_eq!(Refusal::InvalidWidthSetting.number(), 16);
}

#[test]
fn classifier_over_lists() {
    let (mut lent, mut off) = ([0xa5; 5], [7; 5]);
    let widths = [200, 520, 790];
    let ok = classify_list(
        USUAL,
        1_000,
        &widths,
        &[1_000; 3],
        &mut lent[1..4],
        &mut off[1..4],
    );
    assert_eq!(
        (ok, lent, off),
        (Ok(()), [0xa5, 0, 1, 2, 0xa5], [7, 0, 2_000, -1_000, 7])
    );
    for odd in 0..4 {
        let n = |list| if list == odd { 2 } else { 3 };
        let (w, p) = (&widths[..n(0)], &[1_000; 3][..n(1)]);
        for (interval, by, refusal) in [
            (1_000, USUAL, Refusal::WrongLength),
            (1_000, settings(5, 15, 5), Refusal::InvalidWidthSetting),
            (99, settings(5, 15, 5), Refusal::InvalidInterval),
        ] {
            let refused = classify_list(by, interval, w, p, &mut lent[..n(2)], &mut off[..n(3)]);
            assert_eq!(refused, Err(refusal));
        }
    }
    assert_eq!(
        (lent, off),
        ([0xa5, 0, 1, 2, 0xa5], [7, 0, 2_000, -1_000, 7])
    );
    assert_eq!(
        classify_list(USUAL, 1_000, &[], &[], &mut [], &mut []),
        Ok(())
    );
}

#[test]
fn scan_finds_the_first_frame_behind_a_mark() {
    let h1 = format("H1");
    let recording = symbols(LISTING);
    let found = |at, hundredths| {
        Ok(Some(Found {
            start: at,
            report: Report {
                time: time(191, hundredths),
                control: 0,
            },
        }))
    };
    assert_eq!(scan(h1, &recording, 0), found(1, 5_088_000));
    assert_eq!(scan(h1, &recording, 1), found(1, 5_088_000));
    assert_eq!(scan(h1, &recording, 2), found(61, 5_094_000));
    assert_eq!(scan(h1, &recording, 62), Ok(None));
    assert_eq!(scan(h1, &recording, 121), Ok(None));
    assert_eq!(scan(h1, &recording, 122), Err(Refusal::StartPastEnd));
    assert_eq!(
        scan(format("H0"), &recording, 122),
        Err(Refusal::UnknownFormat)
    );
    assert_eq!(scan(h1, &[], 0), Ok(None));
    assert_eq!(scan(h1, &[255; 200], 0), Ok(None));
}

#[test]
fn the_listing_is_reported_once_at_element_121() {
    let widths = [190, 503, 800, 300];
    let deviations = [-1_000, 300, 0, 0];
    let mut reader = Reader::fresh(format("H1"), 2).unwrap();
    let mut by_pulse = reader.clone();
    for (index, symbol) in symbols(LISTING).into_iter().enumerate() {
        let before = reader.clone();
        assert_eq!(reader.feed(4), Err(Refusal::UnknownSymbol));
        assert_eq!(
            reader.feed_pulse(settings(0, 5, 5), 99, 200, 1_000),
            Err(Refusal::InvalidInterval)
        );
        assert_eq!(
            reader.feed_pulse(settings(5, 5, 15), 1_000, 200, 1_000),
            Err(Refusal::InvalidWidthSetting)
        );
        assert_eq!(reader, before);
        let expected = (index + 1 == 121).then_some(Report {
            time: time(191, 5_094_000),
            control: 0,
        });
        assert_eq!(reader.feed(symbol), Ok(expected));
        // the settings are others at each call
        let percent = 1 + (index % 9) as u8;
        let width = widths[usize::from(symbol)];
        let pulse = by_pulse.feed_pulse(settings(percent, percent, percent), 1_000, width, 1_000);
        let deviation = deviations[usize::from(symbol)];
        let report = expected;
        assert_eq!(pulse, Ok(FedPulse { report, deviation }));
        assert_eq!(reader, by_pulse);
        // Stored and made again, it goes on as before.
        reader = Reader::from_words(reader.words());
    }
}

#[test]
fn a_stream_joined_at_any_element_is_reported_within_3n() {
    for name in FORMATS {
        let (n, interval) = table(format(name));
        let mut at = time(365, 8_640_000 - 2 * interval);
        let mut stream = Vec::new();
        let mut times = Vec::new();
        for _ in 0..5 {
            stream.extend(frame(name, at, 0));
            times.push(at);
            at = step(format(name), at, 366, USUAL_DAY).unwrap();
        }
        for joined in 0..n {
            let mut reader = Reader::fresh(format(name), 2).unwrap();
            for (index, &symbol) in stream.iter().enumerate().skip(joined) {
                let due = (index + 1) % n == 0 && index + 1 >= 3 * n;
                let expected = due.then(|| Report {
                    time: times[index / n],
                    control: 0,
                });
                assert_eq!(reader.feed(symbol), Ok(expected), "{name} {joined} {index}");
            }
        }
    }
}

#[test]
fn readers_of_any_words() {
    let good = Reader::fresh(format("H1"), 2).unwrap().words();
    let mut bad = vec![[u64::MAX; READER_WORDS], [0; READER_WORDS]];
    for (word, value) in [
        (0, 256 + 72),
        (0, 65 + (1 << 32)),
        (1, 257),
        (1, 0),
        (3, 60),
    ] {
        let mut words = good;
        words[word] = value;
        bad.push(words);
    }
    for words in bad {
        let mut reader = Reader::from_words(words);
        for symbol in [0, 2, 4, 255] {
            assert_eq!(reader.feed(symbol), Err(Refusal::InvalidReader));
        }
        let pulse = reader.feed_pulse(USUAL, 1_000, 800, 1_000);
        assert_eq!(pulse, Err(Refusal::InvalidReader));
        let pulse = reader.feed_pulse(settings(0, 0, 0), 99, 800, 1_000);
        assert_eq!(pulse, Err(Refusal::InvalidInterval));
        let pulse = reader.feed_pulse(settings(0, 0, 0), 100, 800, 1_000);
        assert_eq!(pulse, Err(Refusal::InvalidWidthSetting));
        assert_eq!(reader.words(), words);
    }
    for setting in [0, 1, 6, 255, 256 + 2, u64::MAX] {
        let mut words = good;
        words[2] = setting;
        let mut reader = Reader::from_words(words);
        for symbol in [0, 2, 4, 255] {
            assert_eq!(reader.feed(symbol), Err(Refusal::InvalidSetting));
        }
        let pulse = reader.feed_pulse(USUAL, 1_000, 800, 1_000);
        assert_eq!(pulse, Err(Refusal::InvalidSetting));
        let pulse = reader.feed_pulse(settings(0, 0, 0), 99, 800, 1_000);
        assert_eq!(pulse, Err(Refusal::InvalidInterval));
        let pulse = reader.feed_pulse(settings(0, 0, 0), 100, 800, 1_000);
        assert_eq!(pulse, Err(Refusal::InvalidWidthSetting));
        assert_eq!(reader.words(), words);
        words[3] = 60;
        let mut reader = Reader::from_words(words);
        assert_eq!(reader.feed(4), Err(Refusal::InvalidReader));
    }
    for setting in 0..=255 {
        let made = Reader::fresh(format("H1"), setting);
        let is_setting = (LEAST_SETTING..=GREATEST_SETTING).contains(&setting);
        assert_eq!(made.is_ok(), is_setting);
        assert!(is_setting || made == Err(Refusal::InvalidSetting));
    }
    let mut random = 0x9e37_79b9_7f4a_7c15_u64;
    for turn in 0..10_000 {
        let mut words = good;
        words[2] = 2 + turn % 4;
        words[3] = turn % 60;
        for word in &mut words[4..] {
            random ^= random << 13;
            random ^= random >> 7;
            random ^= random << 17;
            *word = random;
        }
        let mut reader = Reader::from_words(words);
        assert_eq!(reader.feed(4), Err(Refusal::UnknownSymbol));
        assert_eq!(reader.words(), words);
        assert!(reader.feed((turn % 4) as u8).is_ok());
    }
    assert_eq!(Reader::fresh(format("D0"), 1), Err(Refusal::UnknownFormat));
}

#[test]
fn a_year_is_refused_where_none_is_carried_and_above_99() {
    for name in FORMATS.into_iter().chain(WITH_YEAR).chain(["X2"]) {
        let (format, n) = (format(name), table(format(name)).0);
        let last = if WITH_YEAR.contains(&name) { 99 } else { 0 };
        for year in 0..=255 {
            let mut lent = vec![0xa5; n];
            let refused = (year > last).then_some(Refusal::InvalidYear);
            // 17 comes before 2, and 2 before what comes after it.
            for (day, then) in [(1, None), (0, Some(Refusal::InvalidTime))] {
                let expected = refused.or(then);
                let answer = write(format, dated(year, day, 0), 0, &mut lent);
                assert_eq!(answer.err(), expected, "{name} {year}");
                for step in [step, step_back] {
                    let answer = step(format, dated(year, day, 0), 365, USUAL_DAY);
                    assert_eq!(answer.err(), expected, "{name} {year}");
                }
            }
            assert!(refused.is_none() || lent == vec![0xa5; n]);
        }
    }
    let c4 = format("C4");
    let answer = write(c4, dated(100, 0, 0), 0, &mut []);
    assert_eq!(answer, Err(Refusal::UnknownFormat));
    assert_eq!(Refusal::InvalidYear.number(), 17);
}

#[test]
fn every_fourth_year_has_day_366_and_0_follows_99() {
    for name in WITH_YEAR {
        let (format, interval) = (format(name), table(format(name)).1);
        for year in 0..100 {
            let last = 365 + u16::from(year % 4 == 0);
            let end = dated(year, last, 8_640_000 - interval);
            let next = dated((year + 1) % 100, 1, 0);
            for given in [0, 365, 366, 65_535] {
                assert_eq!(step(format, end, given, USUAL_DAY), Ok(next), "{name}");
                assert_eq!(step_back(format, next, given, USUAL_DAY), Ok(end), "{name}");
            }
            let mut lent = [0; 100];
            let answer = write(format, dated(year, 366, 0), 0, &mut lent);
            let refused = (last == 365).then_some(Refusal::InvalidTime);
            assert_eq!(answer.err(), refused, "{name} {year}");

            // The year's digits at 50 to 53 and 55 to 58, in the frame of day 366 of year 0.
            let mut bytes = frame(name, time(366, 0), 0);
            for bit in 0..4 {
                bytes[50 + bit] = (year % 10) >> bit & 1;
                bytes[55 + bit] = (year / 10) >> bit & 1;
            }
            let expected = match last {
                366 => Ok(dated(year, 366, 0)),
                _ => Err(Refusal::InvalidDigit),
            };
            let answer = read(format, &bytes).map(|report| report.time);
            assert_eq!(answer, expected, "{name} {year}");
        }
    }
}

#[test]
fn years_are_reported() {
    for name in WITH_YEAR {
        let (format, interval) = (format(name), table(format(name)).1);
        let mut reader = Reader::fresh(format, 2).unwrap();
        assert_eq!(reader.feed(MARK), Ok(None));
        let mut at = dated(99, 365, 8_640_000 - 3 * interval);
        let mut times = Vec::new();
        for _ in 0..5 {
            for symbol in frame(name, at, 0) {
                times.extend(reader.feed(symbol).unwrap().map(|report| report.time));
            }
            at = step(format, at, 365, USUAL_DAY).unwrap();
        }
        let expected = [
            dated(99, 365, 8_640_000 - 2 * interval),
            dated(99, 365, 8_640_000 - interval),
            dated(0, 1, 0),
            dated(0, 1, interval),
        ];
        assert_eq!(times, expected, "{name}");
    }
    let found = scan(
        format("B4"),
        &[&[MARK][..], &frame("B4", dated(76, 1, 0), 5)].concat(),
        0,
    );
    let report = Report {
        time: dated(76, 1, 0),
        control: 5,
    };
    assert_eq!(found, Ok(Some(Found { start: 1, report })));
    // Difference looks at no year.
    assert_eq!(difference(dated(255, 2, 0), dated(3, 1, 8_639_999)), Ok(1));
}

#[test]
fn forward_and_back_gives_the_same_frame() {
    for with in WITH_YEAR {
        let without = format!("{}{}", &with[..1], format(with).expression - 4);
        let carried = format(with).expression < 6;
        for year in 0..100 {
            let word = if carried {
                0x2_aaaa ^ u64::from(year)
            } else {
                0
            };
            let at = dated(year, 59, 8_640_000);
            let earlier = frame(&without, time(59, 8_640_000), word << 9);
            let later = frame(with, at, word);
            let mut lent = [0xa5; 102];
            let answer = forward(format(&without), &earlier, year, &mut lent[1..101]);
            assert_eq!((answer, &lent[1..101]), (Ok(()), &later[..]));
            let answer = backward(format(with), &later, &mut lent[1..101]);
            assert_eq!((answer, &lent[1..101]), (Ok(()), &earlier[..]));
            assert_eq!([lent[0], lent[101]], [0xa5; 2]);
        }
    }
}

/// A frame forward into one of n bytes, which a refusal leaves.
fn there(name: &str, bytes: &[u8], year: u8, n: usize) -> Option<Refusal> {
    let mut lent = vec![0xa5; n];
    let answer = forward(format(name), bytes, year, &mut lent);
    assert!(answer.is_ok() || lent == vec![0xa5; n]);
    answer.err()
}

/// A frame backward into one of n bytes, which a refusal leaves.
fn back(name: &str, bytes: &[u8], n: usize) -> Option<Refusal> {
    let mut lent = vec![0xa5; n];
    let answer = backward(format(name), bytes, &mut lent);
    assert!(answer.is_ok() || lent == vec![0xa5; n]);
    answer.err()
}

#[test]
fn converters_refuse_formats_and_then_lengths() {
    let others = ["A8", "C0", "D4", "G4", "X2"];
    for name in FORMATS.into_iter().chain(WITH_YEAR).chain(others) {
        let is_earlier = matches!(name.as_bytes(), [b'A' | b'B', b'0'..=b'3']);
        let is_later = WITH_YEAR.contains(&name);
        for (bytes, n) in [(&[7; 99][..], 100), (&[7; 100][..], 99), (&[], 0)] {
            let first = |fits| match fits {
                true => Some(Refusal::WrongLength),
                false => Some(Refusal::UnknownFormat),
            };
            assert_eq!(there(name, bytes, 100, n), first(is_earlier), "{name}");
            assert_eq!(back(name, bytes, n), first(is_later), "{name}");
        }
    }
}

#[test]
fn converters_refuse_in_order() {
    // Day 366 with a one among control bits 1 to 9, and what comes before.
    let good = frame("B0", time(366, 100), 1 << 8);
    let with = |changes: &[(usize, u8)], year| {
        let mut bytes = good.clone();
        for &(index, symbol) in changes {
            bytes[index] = symbol;
        }
        there("B0", &bytes, year, 100)
    };
    assert_eq!(with(&[(0, 1), (99, 4)], 100), Some(Refusal::UnknownSymbol));
    assert_eq!(with(&[(0, 1), (5, 1)], 0), Some(Refusal::MisplacedMark(0)));
    assert_eq!(with(&[(5, 1), (9, 1)], 0), Some(Refusal::InvalidElement(5)));
    assert_eq!(with(&[(30, 1), (80, 0)], 100), Some(Refusal::InvalidDigit));
    assert_eq!(with(&[(80, 0)], 100), Some(Refusal::SecondsDiffer));
    assert_eq!(with(&[], 100), Some(Refusal::InvalidYear));
    assert_eq!(with(&[], 255), Some(Refusal::InvalidYear));
    assert_eq!(with(&[], 1), Some(Refusal::InvalidTime));
    assert_eq!(with(&[], 4), Some(Refusal::YearPlaceTaken));
    assert_eq!(with(&[(58, 0)], 4), None);
    assert_eq!(Refusal::YearPlaceTaken.number(), 18);
    let mut later = frame("B4", dated(4, 366, 0), 0);
    later[50] = 1;
    assert_eq!(back("B4", &later, 100), Some(Refusal::InvalidDigit));
    later[54] = 1;
    assert_eq!(back("B4", &later, 100), Some(Refusal::InvalidElement(54)));
}

/// The time of that second of day 1 of X; the second after the last is the first.
fn second(second: u32) -> Time {
    time(1, second % 86_400 * 100)
}

#[test]
fn seconds_of_x_are_written_and_read() {
    let x2 = format("X2");
    for at in 0..86_400 {
        let written = frame("X2", second(at), 0);
        let places = [
            (1..3, at / 36_000),
            (3..7, at / 3_600 % 10),
            (7..10, at / 600 % 6),
            (10..14, at / 60 % 10),
            (14..17, at / 10 % 6),
            (17..21, at % 10),
        ];
        for (place, digit) in places {
            let value = written[place]
                .iter()
                .fold(0, |value, &bit| 2 * value + u32::from(bit));
            assert_eq!(value, digit, "{at}");
        }
        assert_eq!((written[0], &written[21..]), (MARK, &[SPOILED; 4][..]));
        let report = read(x2, &written).unwrap();
        assert_eq!((report.time, report.control), (second(at), 0));
        for kind in [USUAL_DAY, SECOND_ADDED, SECOND_TAKEN] {
            assert_eq!(step(x2, second(at), 365, kind), Ok(second(at + 1)));
            assert_eq!(step_back(x2, second(at + 1), 366, kind), Ok(second(at)));
        }
    }
}

#[test]
fn x_refuses_in_order() {
    let x2 = format("X2");
    let refusals = [
        (dated(1, 2, 8_640_000), Refusal::InvalidYear),
        (time(2, 8_640_000), Refusal::InvalidTime),
        (time(0, 0), Refusal::InvalidTime),
        (time(366, 0), Refusal::InvalidTime),
        (time(1, 50), Refusal::InvalidTime),
        (time(1, 8_640_050), Refusal::InvalidTime),
        (time(1, 8_640_000), Refusal::SecondNotCarried),
    ];
    let mut lent = [0xa5; 25];
    for (at, refusal) in refusals {
        assert_eq!(write(x2, at, 1, &mut lent[..24]), Err(refusal));
        for step in [step, step_back] {
            assert_eq!(step(x2, at, 364, 3), Err(refusal));
        }
    }
    let midnight = second(0);
    let refused = write(x2, midnight, 1, &mut lent[..24]);
    assert_eq!(refused, Err(Refusal::ControlTooLong));
    let refused = write(x2, midnight, 0, &mut lent[..24]);
    assert_eq!(refused, Err(Refusal::WrongLength));
    assert_eq!(lent, [0xa5; 25]);
    for step in [step, step_back] {
        let refused = step(x2, midnight, 364, 3);
        assert_eq!(refused, Err(Refusal::InvalidYearLength));
        assert_eq!(step(x2, midnight, 365, 3), Err(Refusal::InvalidKind));
    }
    let with = |changes: &[(usize, u8)]| {
        let mut bytes = frame("X2", second(86_399), 0);
        for &(index, symbol) in changes {
            bytes[index] = symbol;
        }
        read(x2, &bytes).map(|report| report.time)
    };
    assert_eq!(with(&[(1, 3), (24, 4)]), Err(Refusal::UnknownSymbol));
    for index in 21..25 {
        assert_eq!(with(&[(index, 0)]), Err(Refusal::InvalidElement(index)));
        assert_eq!(with(&[(index, 1)]), Err(Refusal::InvalidElement(index)));
        assert_eq!(with(&[(index, 2)]), Err(Refusal::MisplacedMark(index)));
    }
    assert_eq!(with(&[(0, 3), (2, 3)]), Err(Refusal::MisplacedMark(0)));
    assert_eq!(with(&[(20, 3)]), Err(Refusal::InvalidElement(20)));
    // 23:59:60 and 24:59:59.
    let sixty = [(14, 1), (15, 1), (16, 0), (17, 0), (20, 0)];
    assert_eq!(with(&sixty), Err(Refusal::InvalidDigit));
    assert_eq!(with(&[(4, 1), (5, 0), (6, 0)]), Err(Refusal::InvalidDigit));
    for name in ["X0", "X1", "X3", "X4", "X7", "x2"] {
        let answer = write(format(name), midnight, 0, &mut lent);
        assert_eq!(answer, Err(Refusal::UnknownFormat), "{name}");
        let refused = Reader::fresh(format(name), 2);
        assert_eq!(refused, Err(Refusal::UnknownFormat), "{name}");
    }
}

/// With element kn where the reader joins at a frame's first element, else (k + 1)n less the index that it joins at.
#[test]
fn a_stream_of_x_is_reported_without_a_mark_before_it() {
    let stream: Vec<u8> = (86_396..86_404)
        .flat_map(|at| frame("X2", second(at), 0))
        .collect();
    for setting in LEAST_SETTING..=GREATEST_SETTING {
        let k = usize::from(setting);
        for joined in 0..25 {
            let mut reader = Reader::fresh(format("X2"), setting).unwrap();
            let first = if joined == 0 { 25 * k } else { 25 * (k + 1) };
            for (index, &symbol) in stream.iter().enumerate().skip(joined) {
                let due = (index + 1) % 25 == 0 && index + 1 >= first;
                let expected = due.then(|| Report {
                    time: second(86_396 + index as u32 / 25),
                    control: 0,
                });
                assert_eq!(reader.feed(symbol), Ok(expected), "{setting} {joined}");
            }
        }
    }
    let found = |start| {
        let found = scan(format("X2"), &stream, start).unwrap();
        found.map(|found| (found.start, found.report.time))
    };
    assert_eq!(found(0), Some((0, second(86_396))));
    assert_eq!(found(1), Some((25, second(86_397))));
    assert_eq!(found(175), Some((175, second(86_403))));
    assert_eq!(found(176), None);
}

#[test]
fn times_as_text() {
    for (at, text) in [
        (dated(0, 1, 0), "00 001 00:00:00.00"),
        (dated(24, 366, 8_639_999), "24 366 23:59:59.99"),
        (dated(99, 365, 8_640_000), "99 365 23:59:60.00"),
        (dated(7, 191, 5_091_207), "07 191 14:08:32.07"),
    ] {
        assert_eq!(at.to_string(), text);
        assert_eq!(text.parse(), Ok(at));
    }
    for hundredths in (0..8_640_100).step_by(977).chain(8_633_900..8_640_100) {
        let at = dated(
            (hundredths % 100) as u8,
            1 + (hundredths % 366) as u16,
            hundredths,
        );
        assert_eq!(at.to_string().parse(), Ok(at));
    }
}

/// A time out of range has a text, too, which is not taken.
#[test]
fn texts_of_no_time() {
    for at in [
        dated(100, 1, 0),
        dated(255, 65_535, u32::MAX),
        dated(0, 0, 0),
        dated(0, 367, 0),
        dated(0, 1, 8_640_100),
    ] {
        assert_eq!(at.to_string().parse::<Time>(), Err(ParseTimeError), "{at}");
    }
    for text in [
        "",
        "00 001 00:00:00",
        "0 001 00:00:00.00",
        "00 1 00:00:00.00",
        "00 001 24:00:00.00",
        "00 001 00:60:00.00",
        "00 001 23:58:60.00",
        "00 001 22:59:60.00",
        "00 001 23:59:61.00",
        "00 001 00:00:00.0x",
        "00 001 00:00:00.00 ",
        " 00 001 00:00:00.00",
        "00-001 00:00:00.00",
        "+0 001 00:00:00.00",
        "2024 001 00:00:00.00",
        "00 ٠٠١ 00:00:00.00",
    ] {
        assert_eq!(text.parse::<Time>(), Err(ParseTimeError), "{text}");
    }
}

#[test]
fn refusals_as_errors() {
    let error: Box<dyn std::error::Error> = Box::new(Refusal::MisplacedMark(19));
    assert_eq!(
        error.to_string(),
        "refused 5: mark missing, or where none belongs, at element 19"
    );
    assert_eq!(Refusal::InvalidElement(3).index(), Some(3));
    assert_eq!(Refusal::InvalidReader.number(), 13);
    assert_eq!(Refusal::InvalidReader.index(), None);
    assert_eq!(Refusal::SecondNotCarried.number(), 14);
    assert_eq!(
        Refusal::InvalidKind.to_string(),
        "refused 15: kind of day above 2, or the time is past the day's end"
    );
}
