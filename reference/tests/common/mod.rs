//! Formats by document 01's table and document 02, frames of a generator, and
//! the plain machine, for the tests of the rules.

#![allow(dead_code)] // each file of tests uses some of it

use reference::{
    next_after, read, step, write, Answer, Format, Reader, Refusal, Time, MARK, SECOND_ADDED,
};

pub const FORMATS: [&str; 25] = [
    "A0", "A1", "A2", "A3", "A4", "A5", "A6", "A7", "B0", "B1", "B2", "B3", "B4", "B5", "B6", "B7",
    "D1", "D2", "E1", "E2", "G1", "G2", "H1", "H2", "X2",
];

pub const SETTINGS: [u8; 4] = [2, 3, 4, 5];

pub fn format(name: &str) -> Format {
    let name = name.as_bytes();
    Format {
        letter: name[0],
        expression: name[1] - b'0',
    }
}

/// A time of year 0.
pub fn time(day: u16, hundredths: u32) -> Time {
    dated(0, day, hundredths)
}

pub fn dated(year: u8, day: u16, hundredths: u32) -> Time {
    Time {
        year,
        day,
        hundredths,
    }
}

/// n, S and the number of control bits by document 01's table, 18 of these
/// beside the year, and those of X.
pub fn table(format: Format) -> (usize, u32, u32) {
    let (n, s, bits) = match format.letter {
        b'A' => (100, 10, 27),
        b'B' => (100, 100, 27),
        b'D' => (60, 360_000, 9),
        b'E' => (100, 1_000, 45),
        b'G' => (100, 1, 36),
        b'H' => (60, 6_000, 9),
        b'X' => (25, 100, 0),
        _ => unreachable!(),
    };
    let bits = match format.expression {
        0 | 1 => bits,
        4 | 5 => 18,
        _ => 0,
    };
    (n, s, bits)
}

/// Whether the format carries the year.
pub fn has_year(format: Format) -> bool {
    format.expression >= 4
}

/// Whether the format carries the day; in X it is 1.
pub fn has_day(format: Format) -> bool {
    format.letter != b'X'
}

/// How many elements must stand before the first frame: a mark, in X none.
pub fn lead(format: Format) -> usize {
    usize::from(format.letter != b'X')
}

/// The formats of document 01.
pub fn formats_without_year() -> impl Iterator<Item = Format> {
    FORMATS
        .into_iter()
        .map(format)
        .filter(|&format| has_day(format) && !has_year(format))
}

pub fn formats_with_year() -> impl Iterator<Item = Format> {
    FORMATS.into_iter().map(format).filter(|&f| has_year(f))
}

pub fn days_in(year: u8) -> u16 {
    365 + u16::from(year % 4 == 0)
}

/// Whether the format carries the leap second.
pub fn leaps(format: Format) -> bool {
    b"ABG".contains(&format.letter)
}

/// Where days of the kinds 0, 1 and 2 end in the format's frames.
pub fn day_ends(format: Format) -> [u32; 3] {
    if leaps(format) {
        [8_640_000, 8_640_100, 8_639_900]
    } else {
        [8_640_000; 3]
    }
}

pub fn frame(format: Format, time: Time, control: u64) -> Vec<u8> {
    let mut frame = vec![0xa5; table(format).0];
    write(format, time, control, &mut frame).expect("a time and control word to write");
    frame
}

pub fn ones(frame: &[u8]) -> Vec<usize> {
    (0..frame.len())
        .filter(|&index| frame[index] == 1)
        .collect()
}

/// A small generator of numbers, the same at each run.
pub struct Random(pub u64);

impl Random {
    pub fn below(&mut self, limit: u64) -> u64 {
        self.0 ^= self.0 << 13;
        self.0 ^= self.0 >> 7;
        self.0 ^= self.0 << 17;
        (self.0 >> 11) % limit
    }

    pub fn time(&mut self, format: Format) -> Time {
        let s = table(format).1;
        let frames = u64::from(8_640_000 / s);
        // Half of the times lie close before the end of a day of some kind.
        let end = match self.below(3) {
            0 if leaps(format) => 8_639_900,
            1 if leaps(format) => 8_640_100,
            _ => 8_640_000,
        };
        let hundredths = match self.below(2) {
            0 => self.below(frames) as u32 * s,
            _ => end - (1 + self.below(frames.min(4)) as u32) * s,
        };
        let (year, last) = if has_year(format) {
            let year = [0, 1, 99, self.below(100) as u8][self.below(4) as usize];
            (year, days_in(year))
        } else if has_day(format) {
            (0, 366)
        } else {
            (0, 1)
        };
        let day = match self.below(4) {
            0 => last.min(365),
            1 => last,
            _ => 1 + self.below(last.into()) as u16,
        };
        dated(year, day, hundredths)
    }

    pub fn control(&mut self, format: Format) -> u64 {
        self.below(1 << table(format).2)
    }

    pub fn setting(&mut self) -> u8 {
        SETTINGS[self.below(4) as usize]
    }

    /// Frames of a generator one after another, each with its time.
    pub fn generator(&mut self, format: Format, count: usize) -> (Vec<u8>, Vec<Time>) {
        let mut elements = Vec::new();
        let mut times = Vec::new();
        let mut now = self.time(format);
        for _ in 0..count {
            elements.extend(frame(format, now, self.control(format)));
            times.push(now);
            let length = if now.day == 366 {
                366
            } else {
                365 + self.below(2) as u16
            };
            // A day with a second added holds every time.
            let kind = self.below(3) as u8;
            now = step(format, now, length, kind)
                .or_else(|_| step(format, now, length, SECOND_ADDED))
                .expect("a step");
        }
        (elements, times)
    }
}

/// The plain machine with the setting k: holds every accepted symbol and looks
/// at the last kn + 1, in X at the last kn.
pub struct PlainMachine {
    format: Format,
    setting: usize,
    pub list: Vec<u8>,
}

impl PlainMachine {
    pub fn new(format: Format, setting: u8) -> PlainMachine {
        PlainMachine {
            format,
            setting: setting.into(),
            list: Vec::new(),
        }
    }

    pub fn feed(&mut self, symbol: u8) -> Answer {
        if symbol > 3 {
            return Answer::Refused(Refusal::Symbol);
        }
        self.list.push(symbol);
        let n = table(self.format).0;
        let Some(begin) = self.list.len().checked_sub(self.setting * n) else {
            return Answer::Quiet;
        };
        let frames = self.list[begin..].chunks(n);
        let accepted: Vec<(Time, u64)> = frames
            .filter_map(|frame| read(self.format, frame).ok())
            .collect();
        let (time, control) = match accepted.last() {
            Some(&last) if accepted.len() == self.setting => last,
            _ => return Answer::Quiet,
        };
        let in_a_row = accepted
            .windows(2)
            .all(|pair| next_after(self.format, pair[0].0, pair[1].0));
        let led = lead(self.format) == 0 || begin > 0 && self.list[begin - 1] == MARK;
        if led && in_a_row {
            Answer::Report(time, control)
        } else {
            Answer::Quiet
        }
    }
}

pub fn formats_and_settings() -> impl Iterator<Item = (&'static str, u8)> {
    FORMATS
        .into_iter()
        .flat_map(|name| SETTINGS.map(|setting| (name, setting)))
}

/// Every report of the elements, by its last element counted from 1.
pub fn reports(format: Format, setting: u8, elements: &[u8]) -> Vec<(usize, Time, u64)> {
    let mut reader = Reader::fresh(format, setting).unwrap();
    let numbered = (1..).zip(elements);
    numbered
        .filter_map(|(number, &symbol)| match reader.feed(symbol) {
            Answer::Report(time, control) => Some((number, time, control)),
            _ => None,
        })
        .collect()
}

/// How many reports, each with the time of the frame that ends there.
pub fn right_reports(format: Format, setting: u8, elements: &[u8], times: &[Time]) -> usize {
    let n = table(format).0;
    let reports = reports(format, setting, elements);
    for &(number, time, _) in &reports {
        assert_eq!(number % n, 0);
        assert_eq!(time, times[number / n - 1]);
    }
    reports.len()
}
