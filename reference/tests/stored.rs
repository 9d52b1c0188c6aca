//! The stored cases of `crates/calls` and `crates/recordings` against this crate: every line of each data file of calls,
//! and every recording, has the answer that stands in stdout under the file's name.

use reference::*;
use std::fs::{self, read_to_string};
use std::str::FromStr;

const CALLS: &str = concat!(env!("CARGO_MANIFEST_DIR"), "/../crates/calls");
const RECORDINGS: &str = concat!(env!("CARGO_MANIFEST_DIR"), "/../crates/recordings");

fn elements(word: &str) -> Vec<u8> {
    let mut elements = vec![];
    let mut characters = word.chars();
    if word == "(empty)" {
        return elements;
    }
    while let Some(character) = characters.next() {
        elements.push(match character {
            '0' => 0,
            '1' => 1,
            'P' => 2,
            '-' => 3,
            '?' => {
                let digits: String = characters.by_ref().take(2).collect();
                u8::from_str_radix(&digits, 16).unwrap()
            }
            _ => panic!("{word}"),
        });
    }
    elements
}

fn shown(frame: &[u8]) -> String {
    let symbol = |&s: &u8| match s {
        0 => "0".into(),
        1 => "1".into(),
        2 => "P".into(),
        3 => "-".into(),
        _ => format!("?{s:02x}"),
    };
    frame.iter().map(symbol).collect()
}

fn refused(refusal: Refusal) -> String {
    match refusal.index() {
        Some(index) => format!("R{}@{index}", refusal.number()),
        None => format!("R{}", refusal.number()),
    }
}

/// Year, day and hundredths, as in a line.
fn told(time: Time) -> String {
    format!("{} {} {}", time.year, time.day, time.hundredths)
}

fn reading((time, control): (Time, u64)) -> String {
    format!("{} {control:x}", told(time))
}

fn found(frame: Option<(usize, Time, u64)>) -> String {
    frame.map_or("none".into(), |(place, time, control)| {
        format!("{place} {}", reading((time, control)))
    })
}

/// What a call leaves in the frame of so many bytes that it is lent.
fn lent(size: usize, call: impl Fn(&mut [u8]) -> Result<(), Refusal>) -> Result<String, Refusal> {
    let before = vec![7u8; size];
    let mut frame = before.clone();
    let answer = call(&mut frame).map(|()| shown(&frame));
    assert!(answer.is_ok() || frame == before);
    answer
}

/// The reports of a fresh reader that is fed these symbols, each by the number of its last element.
fn reports(mut reader: Reader, symbols: &[u8]) -> String {
    let accepted = symbols
        .iter()
        .map(|&symbol| reader.feed(symbol))
        .filter(|answer| !matches!(answer, Answer::Refused(_)));
    let reports: Vec<String> = (1..)
        .zip(accepted)
        .filter_map(|(element, answer)| match answer {
            Answer::Report(t, control) => Some(format!("{element} {}", reading((t, control)))),
            _ => None,
        })
        .collect();
    if reports.is_empty() {
        return "none".into();
    }
    reports.join("; ")
}

/// One Feed of a reader that no call made. This crate has none such, so 13 is told here by the rule.
fn fed(format: Format, setting: u8, place: u64, symbol: u8) -> Result<String, Refusal> {
    let n = match format.letter {
        b'D' | b'H' => 60,
        b'X' => 25,
        _ => 100,
    };
    if read(format, &[]) == Err(Refusal::Format) || place >= n {
        return Err(Refusal::Reader);
    }
    match Reader::fresh(format, setting)?.feed(symbol) {
        Answer::Refused(refusal) => Err(refusal),
        _ => Ok("quiet".into()),
    }
}

/// Bytes as two hexadecimal digits each.
fn hexadecimal(bytes: &[u8]) -> String {
    if bytes.is_empty() {
        return "(empty)".into();
    }
    bytes.iter().map(|byte| format!("{byte:02x}")).collect()
}

fn bytes(word: &str) -> Vec<u8> {
    let digits = if word == "(empty)" { "" } else { word };
    let byte = |i| u8::from_str_radix(&digits[i..i + 2], 16).unwrap();
    (0..digits.len()).step_by(2).map(byte).collect()
}

/// The next place or `nofit`, and the log of so many bytes afterwards.
fn log_written(
    size: usize,
    place: usize,
    before: Report,
    report: Report,
) -> Result<String, Refusal> {
    let mut log = vec![0xaa; size];
    let next = log_write(&mut log, place, before, report);
    assert!(next.is_ok() || log.iter().all(|&byte| byte == 0xaa));
    let next = next?.map_or("nofit".into(), |next| next.to_string());
    Ok(format!("{next} {}", hexadecimal(&log)))
}

fn log_told(record: Option<(Report, usize)>) -> String {
    record.map_or("none".into(), |(report, next)| {
        format!("{} next {next}", reading((report.time, report.control)))
    })
}

/// What each listener counted: its first report or `none`, its reports, and the wrong ones.
fn counted(counts: Vec<Counts>) -> String {
    let told = |counts: &Counts| {
        let first = counts
            .first
            .map_or("none".into(), |first| first.to_string());
        format!("{first} {} {}", counts.reports, counts.wrong)
    };
    counts.iter().map(told).collect::<Vec<_>>().join("; ")
}

fn bits(error: f64) -> String {
    if error.is_nan() {
        return "nan".into();
    }
    format!("{:016x}", error.to_bits())
}

/// A call as a line of words.
struct Line<'a>(Vec<&'a str>);

impl Line<'_> {
    fn number<T: FromStr>(&self, word: usize) -> T {
        let number = self.0[word].parse();
        number.unwrap_or_else(|_| panic!("{}", self.0.join(" ")))
    }

    /// Words 1 and 2.
    fn format(&self) -> Format {
        Format {
            letter: self.0[1].as_bytes()[0],
            expression: self.number(2),
        }
    }

    /// The time of which the year is that word.
    fn time(&self, word: usize) -> Time {
        Time {
            year: self.number(word),
            day: self.number(word + 1),
            hundredths: self.number(word + 2),
        }
    }

    fn control(&self, word: usize) -> u64 {
        u64::from_str_radix(self.0[word], 16).unwrap()
    }

    /// The report of which the year is that word.
    fn report(&self, word: usize) -> Report {
        Report {
            time: self.time(word),
            control: self.control(word + 3),
        }
    }

    fn elements(&self, word: usize) -> Vec<u8> {
        elements(self.0[word])
    }

    /// Listeners apart by `;`, each a setting, `:` and damages apart by `,`, each a number, `/` and a symbol.
    fn listeners(&self, word: usize) -> Vec<Listener> {
        let damage = |damage: &str| {
            let (number, symbol) = damage.split_once('/').unwrap();
            (number.parse().unwrap(), symbol.parse().unwrap())
        };
        let listener = |listener: &str| {
            let (setting, damages) = listener.split_once(':').unwrap();
            let damages = damages.split(',').filter(|damage| !damage.is_empty());
            Listener {
                setting: setting.parse().unwrap(),
                damages: damages.map(damage).collect(),
            }
        };
        self.0[word].split(';').map(listener).collect()
    }

    fn widths(&self, word: usize) -> Widths {
        Widths {
            zeros: self.number(word),
            ones: self.number(word + 1),
            marks: self.number(word + 2),
        }
    }

    /// Words 1 to 4: the bits of each figure.
    fn oscillator(&self) -> Oscillator {
        let figure = |word| f64::from_bits(self.control(word));
        Oscillator {
            starting_error: figure(1),
            own_frequency: figure(2),
            reference_frequency: figure(3),
            ageing: figure(4),
        }
    }
}

fn answer(line: &str) -> String {
    let line = Line(line.split(' ').collect());
    let said = match line.0[0] {
        "step" => step(line.format(), line.time(3), line.number(6), line.number(7)).map(told),
        "back" => step_back(line.format(), line.time(3), line.number(6), line.number(7)).map(told),
        "write" => lent(line.number(7), |frame| {
            write(line.format(), line.time(3), line.control(6), frame)
        }),
        "read" => read(line.format(), &line.elements(3)).map(reading),
        "forward" => lent(line.number(5), |later| {
            forward(line.format(), &line.elements(3), line.number(4), later)
        }),
        "backward" => lent(line.number(4), |earlier| {
            backward(line.format(), &line.elements(3), earlier)
        }),
        "classify" => classify(
            line.widths(2),
            line.number(1),
            line.number(5),
            line.number(6),
        )
        .map(|(symbol, deviation)| format!("{symbol} {deviation}")),
        "scan" => scan(line.format(), &line.elements(3), line.number(4)).map(found),
        "feeds" => Reader::fresh(line.format(), line.number(3))
            .map(|reader| reports(reader, &line.elements(4))),
        "feed" => fed(
            line.format(),
            line.number(3),
            line.number(4),
            line.number(5),
        ),
        "logwrite" => log_written(
            line.number(1),
            line.number(2),
            line.report(3),
            line.report(7),
        ),
        "logread" => log_read(&bytes(line.0[1]), line.number(2), line.report(3)).map(log_told),
        "difference" => difference(line.time(1), line.time(4)).map(|d| d.to_string()),
        "holdover" => forecast(line.oscillator(), line.number(5)).map(bits),
        "simulate" => simulate(
            line.format(),
            line.time(3),
            line.number(6),
            line.number(7),
            &line.listeners(8),
        )
        .map(counted),
        _ => Ok("unknown call".into()),
    };
    said.unwrap_or_else(refused)
}

/// The first line that differs is shown by its number.
fn assert_same_lines(expected: &str, file: &str) {
    let stored = read_to_string(file).unwrap();
    for (number, (expected, stored)) in (1..).zip(expected.lines().zip(stored.lines())) {
        assert_eq!(expected, stored, "{file}, line {number}");
    }
    assert_eq!(expected.len(), stored.len(), "{file}");
}

#[test]
fn stored_calls() {
    let mut expected = String::new();
    for name in read_to_string(format!("{CALLS}/args")).unwrap().lines() {
        let file = name.rsplit('/').next().unwrap();
        expected += &format!("== {name}\n");
        for line in read_to_string(format!("{CALLS}/data/{file}"))
            .unwrap()
            .lines()
        {
            expected += &answer(line);
            expected.push('\n');
        }
    }
    assert_same_lines(&expected, &format!("{CALLS}/stdout"));
}

#[test]
fn stored_recordings() {
    let mut expected = Vec::new();
    for name in read_to_string(format!("{RECORDINGS}/args"))
        .unwrap()
        .lines()
    {
        expected.extend(format!("== {name}\n").bytes());
        let recording = fs::read(format!("{RECORDINGS}/data/{name}")).unwrap();
        timeread(&recording, &mut expected);
    }
    let expected = String::from_utf8(expected).unwrap();
    assert_same_lines(&expected, &format!("{RECORDINGS}/stdout"));
}
