//! The figures of every format, the time of day, the texts of formats and refusals, and the version.

use duskveyra::{
    format_figures, library_version, time_of_day, write, Format, FormatFigures, ParseFormatError,
    Refusal, Time, TimeOfDay, VERSION,
};

/// Letter, expressions, elements, interval, and control bits without the year and with it.
type Line = (u8, &'static [u8], usize, u32, [u8; 2]);

const TABLE: [Line; 7] = [
    (b'A', &[0, 1, 2, 3, 4, 5, 6, 7], 100, 10, [27, 18]),
    (b'B', &[0, 1, 2, 3, 4, 5, 6, 7], 100, 100, [27, 18]),
    (b'D', &[1, 2], 60, 360_000, [9, 0]),
    (b'E', &[1, 2], 100, 1_000, [45, 0]),
    (b'G', &[1, 2], 100, 1, [36, 0]),
    (b'H', &[1, 2], 60, 6_000, [9, 0]),
    (b'X', &[2], 25, 100, [0, 0]),
];

fn expected(format: Format) -> Result<FormatFigures, Refusal> {
    TABLE
        .iter()
        .find(|row| row.0 == format.letter && row.1.contains(&format.expression))
        .map(
            |&(_, _, elements, interval, [without, with])| FormatFigures {
                elements,
                interval,
                control_bits: match format.expression {
                    0 | 1 => without,
                    4 | 5 => with,
                    _ => 0,
                },
            },
        )
        .ok_or(Refusal::UnknownFormat)
}

#[test]
fn figures_of_every_format() {
    for letter in 0..=u8::MAX {
        for expression in 0..=u8::MAX {
            let format = Format { letter, expression };
            let figures = format_figures(format);
            assert_eq!(figures, expected(format), "{format:?}");
            let Ok(figures) = figures else { continue };
            // what they say is what write takes
            let time = Time {
                year: 0,
                day: 1,
                hundredths: 0,
            };
            let mut frame = vec![0; figures.elements];
            let most = (1 << figures.control_bits) - 1;
            assert_eq!(write(format, time, most, &mut frame), Ok(()));
            assert_eq!(
                write(format, time, most + 1, &mut frame),
                Err(Refusal::ControlTooLong)
            );
            frame.push(0);
            assert_eq!(
                write(format, time, most, &mut frame),
                Err(Refusal::WrongLength)
            );
        }
    }
}

#[test]
fn times_of_day() {
    let at = |day, hundredths| {
        time_of_day(Time {
            year: 255,
            day,
            hundredths,
        })
    };
    let clock = |hour, minute, second, hundredth| {
        Ok(TimeOfDay {
            hour,
            minute,
            second,
            hundredth,
        })
    };
    assert_eq!(at(Time::FIRST_DAY, 0), clock(0, 0, 0, 0));
    assert_eq!(at(191, 5_091_299), clock(14, 8, 32, 99));
    assert_eq!(at(Time::LAST_DAY, 8_639_999), clock(23, 59, 59, 99));
    assert_eq!(at(1, Time::DAY_LENGTH), clock(23, 59, 60, 0));
    assert_eq!(at(1, Time::LAST_HUNDREDTH), clock(23, 59, 60, 99));
    for (day, hundredths) in [
        (0, 0),
        (367, 0),
        (u16::MAX, 0),
        (1, Time::LAST_HUNDREDTH + 1),
        (1, u32::MAX),
    ] {
        assert_eq!(at(day, hundredths), Err(Refusal::InvalidTime));
    }
    for hundredths in (0..=Time::LAST_HUNDREDTH).step_by(97) {
        let time = Time {
            year: 0,
            day: 1,
            hundredths,
        };
        let clock = time_of_day(time).unwrap();
        let text = format!(
            "00 001 {:02}:{:02}:{:02}.{:02}",
            clock.hour, clock.minute, clock.second, clock.hundredth
        );
        assert_eq!(time.to_string(), text);
    }
}

#[test]
fn texts_of_formats() {
    for (letter, expressions, ..) in TABLE {
        for &expression in expressions {
            let format = Format { letter, expression };
            let text = format.to_string();
            assert_eq!(text.parse(), Ok(format));
            assert_eq!(text.len(), 2);
        }
    }
    assert_eq!(
        "B0".parse(),
        Ok(Format {
            letter: b'B',
            expression: 0
        })
    );
    for text in [
        "", "B", "0", "B00", "0B", " B0", "B0 ", "Bx", "B-1", "É0", "é", "-0",
    ] {
        assert_eq!(text.parse::<Format>(), Err(ParseFormatError), "{text:?}");
    }
    for letter in 0..=u8::MAX {
        for expression in 0..=u8::MAX {
            let format = Format { letter, expression };
            let again = format.to_string().parse();
            assert!(
                again == Ok(format) || again == Err(ParseFormatError),
                "{format:?}"
            );
        }
    }
}

/// The texts of the header are those of this package, and each number has its own.
#[test]
fn texts_of_refusals() {
    let header = include_str!("../../../include/duskveyra.h");
    let (_, texts) = header
        .split_once("duskveyra_number_text(unsigned number)")
        .unwrap();
    let (texts, _) = texts.split_once("\n}\n").unwrap();
    let texts: Vec<&str> = texts
        .split("return \"")
        .skip(1)
        .map(|text| text.split_once("\";").unwrap().0)
        .collect();
    assert_eq!(
        (texts[0], texts[28], texts.len()),
        ("not refused", "unknown number", 29)
    );
    for (number, text) in texts[1..28].iter().enumerate() {
        let source = include_str!("../src/refusal.rs");
        assert_eq!(
            source.matches(&format!("\"{text}\"")).count(),
            1,
            "{number} {text}"
        );
    }
    let printed = |refusal: Refusal, number: usize| {
        assert_eq!(
            refusal.to_string(),
            format!("refused {number}: {}", texts[number])
        );
    };
    printed(format_figures("D0".parse().unwrap()).unwrap_err(), 1);
    printed(Refusal::InvalidTime, 2);
    printed(Refusal::InvalidDate, 22);
    printed(Refusal::InvalidListener, 27);
    assert_eq!(Refusal::Unknown(200).number(), 200);
    assert_eq!(
        Refusal::Unknown(200).to_string(),
        "refused 200: unknown number"
    );
}

#[test]
fn versions() {
    let file = include_str!("../../../VERSION").trim_end();
    assert_eq!(VERSION, file);
    let number = file.split('.').fold(0, |number, part| {
        100 * number + part.parse::<u32>().unwrap()
    });
    assert_eq!(library_version(), number);
}
