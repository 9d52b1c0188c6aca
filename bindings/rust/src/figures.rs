//! A format's figures, the time of day, and a format's text.

use crate::{sys, Format, Refusal, Time};
use std::error::Error;
use std::fmt;
use std::str::FromStr;

/// What [`format_figures`] gives.
#[derive(Clone, Copy, Debug, PartialEq, Eq, Hash)]
pub struct FormatFigures {
    /// The elements of a frame, a byte for each.
    pub elements: usize,
    /// From a frame to the next, in hundredths of a second.
    pub interval: u32,
    /// How many bits a control word may need; 0 where the expression carries none.
    pub control_bits: u8,
}

/// What [`time_of_day`] gives.
#[derive(Clone, Copy, Debug, PartialEq, Eq, Hash, PartialOrd, Ord)]
pub struct TimeOfDay {
    /// 0 to 23.
    pub hour: u8,
    /// 0 to 59.
    pub minute: u8,
    /// 0 to 59, and 60 in a second that was added to the day.
    pub second: u8,
    /// 0 to 99.
    pub hundredth: u8,
}

/// The elements of a frame, the frame interval and the number of control bits of a format, in its own expression.
///
/// Refuses with 1.
///
/// ```
/// use duskveyra::{format_figures, Format, Refusal};
///
/// let figures = format_figures("G1".parse()?)?;
/// assert_eq!((figures.elements, figures.interval, figures.control_bits), (100, 1, 36));
/// assert_eq!(format_figures("D0".parse()?), Err(Refusal::UnknownFormat));
/// # Ok::<(), Box<dyn std::error::Error>>(())
/// ```
#[inline]
pub fn format_figures(format: Format) -> Result<FormatFigures, Refusal> {
    // SAFETY: no pointer is lent.
    let result = unsafe { sys::duskveyra_format_figures(format) };
    Refusal::check(result.number, 0)?;
    Ok(FormatFigures {
        elements: result.elements,
        interval: result.interval,
        control_bits: result.control_bits,
    })
}

/// Hour, minute, second and hundredth of a time, as its frame's digits have them: 23:59:60 from hundredth 8,640,000 on.
/// The year is not looked at.
///
/// Refuses with 2 where the day or the hundredths are out of range.
///
/// ```
/// use duskveyra::{time_of_day, Time, TimeOfDay};
///
/// let added = Time { year: 0, day: 181, hundredths: Time::DAY_LENGTH };
/// assert_eq!(time_of_day(added), Ok(TimeOfDay { hour: 23, minute: 59, second: 60, hundredth: 0 }));
/// ```
#[inline]
pub fn time_of_day(time: Time) -> Result<TimeOfDay, Refusal> {
    // SAFETY: no pointer is lent.
    let result = unsafe { sys::duskveyra_time_of_day(time) };
    Refusal::check(result.number, 0)?;
    Ok(TimeOfDay {
        hour: result.hour,
        minute: result.minute,
        second: result.second,
        hundredth: result.hundredth,
    })
}

impl Time {
    /// 2099.
    pub const LAST_YEAR: u8 = 99;
    /// The first day of a year.
    pub const FIRST_DAY: u16 = 1;
    /// The last day of a leap year.
    pub const LAST_DAY: u16 = 366;
    /// The hundredths of a usual day: a second that was added to it begins there.
    pub const DAY_LENGTH: u32 = 8_640_000;
    /// The last hundredth of an added second.
    pub const LAST_HUNDREDTH: u32 = 8_640_099;
}

/// Its text is letter and expression, `B0`.
impl fmt::Display for Format {
    fn fmt(&self, f: &mut fmt::Formatter<'_>) -> fmt::Result {
        write!(f, "{}{}", char::from(self.letter), self.expression)
    }
}

/// A text that is not a letter and a digit.
#[derive(Clone, Copy, Debug, PartialEq, Eq, Hash)]
pub struct ParseFormatError;

impl fmt::Display for ParseFormatError {
    fn fmt(&self, f: &mut fmt::Formatter<'_>) -> fmt::Result {
        f.write_str("not a letter and an expression such as B0")
    }
}

impl Error for ParseFormatError {}

impl FromStr for Format {
    type Err = ParseFormatError;

    /// Takes exactly a letter in ASCII and a decimal digit. Whether they are a format is asked by the calls.
    fn from_str(text: &str) -> Result<Format, ParseFormatError> {
        match *text.as_bytes() {
            [letter, digit] if letter.is_ascii_alphabetic() && digit.is_ascii_digit() => {
                Ok(Format {
                    letter,
                    expression: digit - b'0',
                })
            }
            _ => Err(ParseFormatError),
        }
    }
}
