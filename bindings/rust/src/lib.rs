//! The time code engine for Rust: safe types over the library librecorder.a.
//!
//! A symbol is one byte: [`ZERO`] (zero or index marker), [`ONE`], [`MARK`] (position identifier or reference bit) or
//! [`SPOILED`], which in format X is a missing pulse too. Every value of every argument is allowed: what is out of range
//! is refused with its number, and a refusal leaves lent memory and the reader as they were.
//!
//! ```
//! use duskveyra::{write, Format, Reader, Report, Time};
//!
//! let format = Format { letter: b'H', expression: 1 };
//! let mut reader = Reader::fresh(format, 2)?;
//! let mut frame = [0; 60];
//! // A reader with setting 2 reports with the last element of the second of two frames behind a mark.
//! assert_eq!(reader.feed(duskveyra::MARK), Ok(None));
//! write(format, Time { year: 0, day: 191, hundredths: 5_088_000 }, 0, &mut frame)?;
//! for symbol in frame {
//!     assert_eq!(reader.feed(symbol), Ok(None));
//! }
//! let time = Time { year: 0, day: 191, hundredths: 5_094_000 };
//! write(format, time, 0b101, &mut frame)?;
//! let last = frame.map(|symbol| reader.feed(symbol))[59];
//! assert_eq!(last, Ok(Some(Report { time, control: 0b101 })));
//! # Ok::<(), duskveyra::Refusal>(())
//! ```
//!
//! A day may have a second more, 23:59:60, or a second less; [`step`] and [`step_back`], its inverse, are told which.
//! Formats A, B and G carry it:
//!
//! ```
//! use duskveyra::{step, step_back, Format, Refusal, Time, SECOND_ADDED, SECOND_TAKEN, USUAL_DAY};
//!
//! let format = Format { letter: b'B', expression: 0 };
//! let last = Time { year: 0, day: 181, hundredths: 8_639_900 };
//! let added = Time { year: 0, day: 181, hundredths: 8_640_000 };
//! let midnight = Time { year: 0, day: 182, hundredths: 0 };
//! assert_eq!(step(format, last, 365, USUAL_DAY), Ok(midnight));
//! assert_eq!(step(format, last, 365, SECOND_ADDED), Ok(added));
//! assert_eq!(step(format, added, 365, SECOND_ADDED), Ok(midnight));
//! assert_eq!(step_back(format, midnight, 365, USUAL_DAY), Ok(last));
//! assert_eq!(step_back(format, midnight, 365, SECOND_ADDED), Ok(added));
//! assert_eq!(step(format, last, 365, SECOND_TAKEN), Err(Refusal::InvalidKind));
//! ```
//!
//! The expressions 4 to 7 of A and B carry the year, so that a step needs to be told no year length; [`forward`] puts the
//! year into a frame without it, and [`backward`] takes it out:
//!
//! ```
//! use duskveyra::{backward, forward, read, step, write, Format, Time, USUAL_DAY};
//!
//! let (without, with) = (Format { letter: b'B', expression: 0 }, Format { letter: b'B', expression: 4 });
//! let last = Time { year: 99, day: 365, hundredths: 8_639_900 };
//! assert_eq!(step(with, last, 0, USUAL_DAY), Ok(Time { year: 0, day: 1, hundredths: 0 }));
//!
//! let (mut earlier, mut later, mut again) = ([0; 100], [0; 100], [0; 100]);
//! write(without, Time { year: 0, ..last }, 1 << 9, &mut earlier)?;
//! forward(without, &earlier, 99, &mut later)?;
//! let report = read(with, &later)?;
//! assert_eq!((report.time, report.control), (last, 1));
//! backward(with, &later, &mut again)?;
//! assert_eq!(again, earlier);
//! # Ok::<(), duskveyra::Refusal>(())
//! ```
//!
//! Format X2 is the XR3 code of old tapes: the time of day alone, in frames that need no mark before them.
//!
//! ```
//! use duskveyra::{scan, step, write, Format, Refusal, Time, USUAL_DAY};
//!
//! let format = Format { letter: b'X', expression: 2 };
//! let last = Time { year: 0, day: 1, hundredths: 8_639_900 };
//! assert_eq!(step(format, last, 365, USUAL_DAY), Ok(Time { hundredths: 0, ..last }));
//! let mut frame = [0; 25];
//! write(format, last, 0, &mut frame)?;
//! assert_eq!(frame, [2, 1, 0, 0, 0, 1, 1, 1, 0, 1, 1, 0, 0, 1, 1, 0, 1, 1, 0, 0, 1, 3, 3, 3, 3]);
//! assert_eq!(scan(format, &frame, 0)?.map(|found| found.start), Some(0));
//! assert_eq!(write(format, Time { day: 2, ..last }, 0, &mut frame), Err(Refusal::InvalidTime));
//! # Ok::<(), duskveyra::Refusal>(())
//! ```
//!
//! A [`Log`] keeps reports in few bytes, and [`Reports`] reads them again:
//!
//! ```
//! use duskveyra::{Log, Report, Reports, Time};
//!
//! let second = |second: u32| Report { time: Time { year: 24, day: 191, hundredths: 100 * second }, control: 0 };
//! let mut log = Log::empty([0; 64]);
//! for report in (50_880..50_890).map(second) {
//!     assert!(log.add(report)?);
//! }
//! // the first has day, hundredths and year; each other the hundredths alone
//! assert_eq!(log.bytes().len(), 7 + 9 * 4);
//! let reports: Result<Vec<Report>, _> = Reports::of(log.bytes()).collect();
//! assert!(reports?.into_iter().eq((50_880..50_890).map(second)));
//! # Ok::<(), duskveyra::Refusal>(())
//! ```

#![warn(missing_docs)]

mod block;
mod calendar;
mod editions;
mod figures;
mod holdover;
mod log;
mod manchester;
mod pulse;
mod refusal;
mod simulation;
#[allow(missing_docs)]
pub mod sys;
mod time;

pub use block::{Block, Stop};
pub use calendar::{
    Asked, Calendar, Date, DateTime, ParseDateError, Windows, CALENDAR_WORDS, MOST_WINDOWS,
};
pub use editions::{backward, forward};
pub use figures::{format_figures, time_of_day, FormatFigures, ParseFormatError, TimeOfDay};
pub use holdover::{forecast, Oscillator, MOST_SECONDS};
pub use log::{log_read, log_write, Log, Reports, LONGEST_RECORD};
pub use manchester::{decode_cycles, encode_cycles, HIGH_CYCLE, LOW_CYCLE};
pub use pulse::{classify, classify_list, FedPulse, Pulse, WidthSettings};
pub use refusal::Refusal;
pub use simulation::{simulate, Counts, Damage, Listener, MOST_LISTENERS};
pub use time::{ParseTimeError, Time};

/// The version of this package, that of the header and the library beside it.
pub const VERSION: &str = env!("CARGO_PKG_VERSION");
/// Symbol of a zero or an index marker.
pub const ZERO: u8 = 0;
/// Symbol of a one.
pub const ONE: u8 = 1;
/// Symbol of a mark: a position identifier or reference bit.
pub const MARK: u8 = 2;
/// Symbol of a spoiled element, and of a missing pulse of X.
pub const SPOILED: u8 = 3;
/// Kind of a day of 86,400 seconds.
pub const USUAL_DAY: u8 = 0;
/// Kind of a day of 86,401 seconds: 23:59:60 follows 23:59:59.
pub const SECOND_ADDED: u8 = 1;
/// Kind of a day of 86,399 seconds: the next day follows 23:59:58.
pub const SECOND_TAKEN: u8 = 2;
/// The elements of the longest frame.
pub const LONGEST_FRAME: usize = 100;
/// The words of a [`Reader`].
pub const READER_WORDS: usize = 14;
/// The least setting of a [`Reader`]: how many frames in a row it asks for.
pub const LEAST_SETTING: u8 = 2;
/// The greatest setting.
pub const GREATEST_SETTING: u8 = 5;
/// The least nominal element interval, in ticks.
pub const LEAST_INTERVAL: u32 = 100;
/// The greatest nominal element interval.
pub const GREATEST_INTERVAL: u32 = 10_000_000;
/// The fewest clock cycles of an element in the modified Manchester form; it has a multiple of 10.
pub const FEWEST_CYCLES: usize = 10;
/// The most clock cycles of an element.
pub const MOST_CYCLES: usize = 100;

/// The version of the library that is linked, 10,000 times its first number, 100 times its second and its third.
#[inline]
pub fn library_version() -> u32 {
    // SAFETY: no pointer is lent.
    unsafe { sys::duskveyra_version() }
}

/// A rate letter and a coded expression. Any two bytes make a value of this type; a call refuses one that is no format
/// with [`Refusal::UnknownFormat`].
///
/// | letter | expressions | elements of a frame | frame interval in hundredths | control bits (expressions 0, 1; 4, 5) |
/// |---|---|---|---|---|
/// | A | 0 to 7 | 100 | 10 | 27; 18 |
/// | B | 0 to 7 | 100 | 100 | 27; 18 |
/// | D | 1, 2 | 60 | 360,000 | 9 |
/// | E | 1, 2 | 100 | 1,000 | 45 |
/// | G | 1, 2 | 100 | 1 | 36 |
/// | H | 1, 2 | 60 | 6,000 | 9 |
/// | X | 2 | 25 | 100 | |
#[derive(Clone, Copy, Debug, PartialEq, Eq, Hash)]
#[repr(C)]
pub struct Format {
    /// The rate letter in capital ASCII.
    pub letter: u8,
    /// The coded expression: 0 = BCD, CF, SBS; 1 = BCD, CF; 2 = BCD; 3 = BCD, SBS; 4 to 7 = 0 to 3 with the
    /// year. X, the XR3 code, has 2 alone.
    pub expression: u8,
}

/// A time and control word that a frame carries.
#[derive(Clone, Copy, Debug, PartialEq, Eq, Hash)]
#[repr(C)]
pub struct Report {
    /// The time at the leading edge of the frame's reference mark.
    pub time: Time,
    /// The control word; control bit 1 is its lowest bit.
    pub control: u64,
}

/// What [`scan`] finds.
#[derive(Clone, Copy, Debug, PartialEq, Eq, Hash)]
pub struct Found {
    /// The index of the frame's first element in the recording.
    pub start: usize,
    /// What the frame says.
    pub report: Report,
}

/// Writes a time and a control word as the symbols of one frame; every byte of `frame` is set.
///
/// Refuses with 1; 17; 2; 14; 9; 3 where `frame` has not the format's number of elements; in this order. A refusal leaves
/// `frame` as it was.
#[inline]
pub fn write(format: Format, time: Time, control: u64, frame: &mut [u8]) -> Result<(), Refusal> {
    // SAFETY: the pointer and the length are those of one lent slice, which nothing else points into.
    let result =
        unsafe { sys::duskveyra_write(format, time, control, frame.as_mut_ptr(), frame.len()) };
    Refusal::check(result.number, 0)
}

/// Reads one frame: the time and the control word that are written as these symbols.
///
/// Refuses with 1; 3; 4; the lowest index that offends with 5 or 6; 7; 8; in this order.
#[inline]
pub fn read(format: Format, frame: &[u8]) -> Result<Report, Refusal> {
    // SAFETY: the pointer and the length are those of one slice.
    let result = unsafe { sys::duskveyra_read(format, frame.as_ptr(), frame.len()) };
    Refusal::check(result.number, result.index)?;
    Ok(Report {
        time: result.time,
        control: result.control,
    })
}

/// The time of the frame after the one with this time, in a year of `year_length` days. The kind is that of the given
/// time's day: [`USUAL_DAY`], [`SECOND_ADDED`] or [`SECOND_TAKEN`]; in D, E, H and X the frames go on as usual for each.
/// A format that carries the year takes its length from the time's year, whatever is given, and year 0 comes after 99. In
/// X every day is day 1.
///
/// Refuses with 1; 17; 2; 14; 11; 15; in this order.
#[inline]
pub fn step(format: Format, time: Time, year_length: u16, kind: u8) -> Result<Time, Refusal> {
    // SAFETY: no pointer is lent.
    let result = unsafe { sys::duskveyra_step(format, time, year_length, kind) };
    Refusal::check(result.number, 0)?;
    Ok(result.time)
}

/// The time of the frame before the one with this time. The year length and the kind are those of the year and the day
/// that the earlier time belongs to; day 1 at 0 hundredths goes to that year's last frame. A format that carries the year
/// takes its length from the earlier time's year, whatever is given. With the same length and kind
/// it undoes [`step`], and [`step`] undoes it.
///
/// Refuses as [`step`] does, by the time that is given: 1; 17; 2; 14; 11; 15; in this order.
#[inline]
pub fn step_back(format: Format, time: Time, year_length: u16, kind: u8) -> Result<Time, Refusal> {
    // SAFETY: no pointer is lent.
    let result = unsafe { sys::duskveyra_step_back(format, time, year_length, kind) };
    Refusal::check(result.number, 0)?;
    Ok(result.time)
}

/// The first time less the second, within one year, in signed hundredths of a second. A day counts 8,640,000 of them,
/// whatever its kind. The years are not looked at.
///
/// Refuses with 2 where a day or hundredths are out of range; no grid of a format is asked for.
#[inline]
pub fn difference(first: Time, second: Time) -> Result<i64, Refusal> {
    // SAFETY: no pointer is lent.
    let result = unsafe { sys::duskveyra_difference(first, second) };
    Refusal::check(result.number, 0)?;
    Ok(result.hundredths)
}

/// Looks in a recording of symbols for the first frame that begins at `start` or later, and at index 1 or later, behind
/// a mark (in X at any index, behind anything or nothing); `None` where there is none. Bytes above 3 fit nowhere.
///
/// Refuses with 1; 12 where `start` is above the recording's length; in this order.
#[inline]
pub fn scan(format: Format, recording: &[u8], start: usize) -> Result<Option<Found>, Refusal> {
    // SAFETY: the pointer and the length are those of one slice.
    let result = unsafe { sys::duskveyra_scan(format, recording.as_ptr(), recording.len(), start) };
    Refusal::check(result.number, 0)?;
    Ok((result.found != 0).then_some(Found {
        start: result.start,
        report: Report {
            time: result.time,
            control: result.control,
        },
    }))
}

/// A stream reader: it receives one symbol at a time and reports with the one that ends the last of as many frames as its
/// setting says, directly one after the other behind a mark (in X behind anything or nothing), each time next after the
/// one before for some year length and some kind of day.
#[derive(Clone, Debug, PartialEq, Eq, Hash)]
pub struct Reader {
    words: [u64; READER_WORDS],
}

impl Reader {
    /// A reader that has a format and a setting, 2 to 5, and has received nothing.
    ///
    /// Refuses with 1; 26; in this order.
    #[inline]
    pub fn fresh(format: Format, setting: u8) -> Result<Reader, Refusal> {
        let mut words = [0; READER_WORDS];
        // SAFETY: the pointer points to a local of as many words as the library's reader has.
        let result = unsafe { sys::duskveyra_fresh(format, setting, &mut words) };
        Refusal::check(result.number, 0)?;
        Ok(Reader { words })
    }

    /// The reader with these words, as [`words`](Reader::words) gave them. Any words are allowed: a letter, expression or
    /// place out of range is refused with 13 when the reader is fed, a setting with 26. Of other words that no feeding
    /// made, what is reported is not promised.
    #[inline]
    pub fn from_words(words: [u64; READER_WORDS]) -> Reader {
        Reader { words }
    }

    /// The reader's words, to be stored: the letter, the expression, the setting and the place; the count of the frame
    /// under way, the newest symbols, three words of the frame's symbols and the row; the year, the day, the
    /// hundredths and the control word of the row's last frame.
    #[inline]
    pub fn words(&self) -> [u64; READER_WORDS] {
        self.words
    }

    /// Feeds one symbol: `Some` where it ended the last of as many frames that follow each other behind a mark as the
    /// setting says, with that frame's time and control word; else `None`.
    ///
    /// Refuses with 13; 26; 4; in this order, and then feeds nothing and leaves the reader as it was. A reader made by
    /// [`fresh`](Reader::fresh) and changed by feeding alone never meets 13 or 26.
    #[inline]
    pub fn feed(&mut self, symbol: u8) -> Result<Option<Report>, Refusal> {
        // SAFETY: the reader's words are lent alone.
        reported(unsafe { sys::duskveyra_feed(&mut self.words, symbol) })
    }

    /// Classifies one pulse, as [`classify`] does, and feeds its symbol. The settings may be others at each call.
    ///
    /// Refuses with 10; 16; 13; 26; in this order, and then feeds nothing and leaves the reader as it was.
    #[inline]
    pub fn feed_pulse(
        &mut self,
        settings: WidthSettings,
        interval: u32,
        width: u32,
        period: u32,
    ) -> Result<FedPulse, Refusal> {
        let words = &mut self.words;
        // SAFETY: the reader's words are lent alone.
        let result = unsafe { sys::duskveyra_feed_pulse(words, settings, interval, width, period) };
        Refusal::check(result.number, 0)?;
        Ok(FedPulse {
            report: (result.reported != 0).then_some(Report {
                time: result.time,
                control: result.control,
            }),
            deviation: result.deviation,
        })
    }
}

#[inline]
fn reported(result: sys::FeedResult) -> Result<Option<Report>, Refusal> {
    Refusal::check(result.number, 0)?;
    Ok((result.reported != 0).then_some(Report {
        time: result.time,
        control: result.control,
    }))
}
