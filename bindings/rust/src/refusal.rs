//! The twenty-seven numbers that a call refuses with, and what an unknown one becomes.

use std::error::Error;
use std::fmt;

/// Why a call was refused. The numbers 5 and 6 carry the index of the element, 25 that of the cycle, counted from 0.
#[derive(Clone, Copy, Debug, PartialEq, Eq, Hash)]
#[non_exhaustive]
pub enum Refusal {
    /// 1: letter or expression not among the formats.
    UnknownFormat,
    /// 2: day (366 in a year that lacks it, where the format carries the year, and in X another than 1) or hundredths
    /// out of range, or not on the format.
    InvalidTime,
    /// 3: frame not of the format's length, or lists of different lengths.
    WrongLength,
    /// 4: symbol above 3.
    UnknownSymbol,
    /// 5: mark missing, or where none belongs.
    MisplacedMark(usize),
    /// 6: a 1 or 3 as index marker, or a 3 in the place of a digit, straight binary seconds or control bit; a 0 or 1
    /// where X misses a pulse.
    InvalidElement(usize),
    /// 7: digit over 9, hours over 23, minutes or seconds over 59 (at 23:59 in A, B and G seconds over 60), day 0 or
    /// over 366, or where the format carries the year, over its last.
    InvalidDigit,
    /// 8: straight binary seconds differ from the digits.
    SecondsDiffer,
    /// 9: control word needs more bits than are carried.
    ControlTooLong,
    /// 10: nominal element interval not 100 to 10,000,000 ticks.
    InvalidInterval,
    /// 11: year length not 365 or 366, or the day is beyond it.
    InvalidYearLength,
    /// 12: start past the recording's end, or place past the log's end.
    StartPastEnd,
    /// 13: the reader's letter, expression or place out of range.
    InvalidReader,
    /// 14: a time in an added second in D, E, H or X, which do not carry it.
    SecondNotCarried,
    /// 15: kind of day above 2, or in A, B and G a time past the end of a day of that kind.
    InvalidKind,
    /// 16: a width setting not 1 to 14 percent.
    InvalidWidthSetting,
    /// 17: year over 99, or not 0 in a format that carries none.
    InvalidYear,
    /// 18: a one among control bits 1 to 9, whose places the year takes.
    YearPlaceTaken,
    /// 19: the log ends within the record.
    RecordCutShort,
    /// 20: a record's map above 15, or a field equal to the one before.
    InvalidRecord,
    /// 21: a 33rd window, or one that does not end after it starts.
    InvalidWindow,
    /// 22: a month, day or day of year that the year lacks.
    InvalidDate,
    /// 23: a figure of the oscillator not finite, its reference 0.0 or -0.0, or more than 16,777,216 seconds.
    InvalidForecast,
    /// 24: cycles of an element not a multiple of 10 from 10 to 100.
    InvalidCycleCount,
    /// 25: cycle neither 1 nor 2.
    UnknownCycle(usize),
    /// 26: the reader's setting not 2 to 5.
    InvalidSetting,
    /// 27: a listener's damages not in strictly rising order or with a symbol above 3, or a ninth listener.
    InvalidListener,
    /// A number that this package has no name for: the library of its interface gives none.
    Unknown(u8),
}

impl Refusal {
    /// The number, 1 to 27, or the unknown one.
    pub fn number(self) -> u8 {
        match self {
            Refusal::UnknownFormat => 1,
            Refusal::InvalidTime => 2,
            Refusal::WrongLength => 3,
            Refusal::UnknownSymbol => 4,
            Refusal::MisplacedMark(_) => 5,
            Refusal::InvalidElement(_) => 6,
            Refusal::InvalidDigit => 7,
            Refusal::SecondsDiffer => 8,
            Refusal::ControlTooLong => 9,
            Refusal::InvalidInterval => 10,
            Refusal::InvalidYearLength => 11,
            Refusal::StartPastEnd => 12,
            Refusal::InvalidReader => 13,
            Refusal::SecondNotCarried => 14,
            Refusal::InvalidKind => 15,
            Refusal::InvalidWidthSetting => 16,
            Refusal::InvalidYear => 17,
            Refusal::YearPlaceTaken => 18,
            Refusal::RecordCutShort => 19,
            Refusal::InvalidRecord => 20,
            Refusal::InvalidWindow => 21,
            Refusal::InvalidDate => 22,
            Refusal::InvalidForecast => 23,
            Refusal::InvalidCycleCount => 24,
            Refusal::UnknownCycle(_) => 25,
            Refusal::InvalidSetting => 26,
            Refusal::InvalidListener => 27,
            Refusal::Unknown(number) => number,
        }
    }

    /// The index of the element that offends, with the numbers 5 and 6, or of the cycle, with 25.
    pub fn index(self) -> Option<usize> {
        match self {
            Refusal::MisplacedMark(index)
            | Refusal::InvalidElement(index)
            | Refusal::UnknownCycle(index) => Some(index),
            _ => None,
        }
    }

    /// What the library returned; `index` is used with 5, 6 and 25 alone.
    pub(crate) fn check(number: u8, index: usize) -> Result<(), Refusal> {
        Err(match number {
            0 => return Ok(()),
            1 => Refusal::UnknownFormat,
            2 => Refusal::InvalidTime,
            3 => Refusal::WrongLength,
            4 => Refusal::UnknownSymbol,
            5 => Refusal::MisplacedMark(index),
            6 => Refusal::InvalidElement(index),
            7 => Refusal::InvalidDigit,
            8 => Refusal::SecondsDiffer,
            9 => Refusal::ControlTooLong,
            10 => Refusal::InvalidInterval,
            11 => Refusal::InvalidYearLength,
            12 => Refusal::StartPastEnd,
            13 => Refusal::InvalidReader,
            14 => Refusal::SecondNotCarried,
            15 => Refusal::InvalidKind,
            16 => Refusal::InvalidWidthSetting,
            17 => Refusal::InvalidYear,
            18 => Refusal::YearPlaceTaken,
            19 => Refusal::RecordCutShort,
            20 => Refusal::InvalidRecord,
            21 => Refusal::InvalidWindow,
            22 => Refusal::InvalidDate,
            23 => Refusal::InvalidForecast,
            24 => Refusal::InvalidCycleCount,
            25 => Refusal::UnknownCycle(index),
            26 => Refusal::InvalidSetting,
            27 => Refusal::InvalidListener,
            _ => Refusal::Unknown(number),
        })
    }
}

impl fmt::Display for Refusal {
    fn fmt(&self, f: &mut fmt::Formatter<'_>) -> fmt::Result {
        let why = match self {
            Refusal::UnknownFormat => "letter or expression not among the formats",
            Refusal::InvalidTime => "day or hundredths out of range, or not on the format",
            Refusal::WrongLength => {
                "frame not of the format's length, or lists of different lengths"
            }
            Refusal::UnknownSymbol => "symbol above 3",
            Refusal::MisplacedMark(_) => "mark missing, or where none belongs",
            Refusal::InvalidElement(_) => {
                "index marker not zero, a spoiled bit, or a pulse where X has none"
            }
            Refusal::InvalidDigit => "digit, clock or day out of range",
            Refusal::SecondsDiffer => "straight binary seconds differ from the digits",
            Refusal::ControlTooLong => "control word needs more bits than are carried",
            Refusal::InvalidInterval => "nominal element interval out of range",
            Refusal::InvalidYearLength => "year length not 365 or 366, or the day is beyond it",
            Refusal::StartPastEnd => "start or place past the end",
            Refusal::InvalidReader => "reader's letter, expression or place out of range",
            Refusal::SecondNotCarried => "added second in a format that does not carry it",
            Refusal::InvalidKind => "kind of day above 2, or the time is past the day's end",
            Refusal::InvalidWidthSetting => "width setting not 1 to 14 percent",
            Refusal::InvalidYear => "year over 99, or not 0 in a format that carries none",
            Refusal::YearPlaceTaken => "a one among the control bits whose places the year takes",
            Refusal::RecordCutShort => "record cut short by the log's end",
            Refusal::InvalidRecord => "map above 15, or a field equal to the one before",
            Refusal::InvalidWindow => "33rd window, or one that does not end after it starts",
            Refusal::InvalidDate => "month, day or day of year that the year lacks",
            Refusal::InvalidForecast => "figure not finite, reference zero, or too many seconds",
            Refusal::InvalidCycleCount => {
                "cycles of an element not a multiple of 10 from 10 to 100"
            }
            Refusal::UnknownCycle(_) => "cycle neither 1 nor 2",
            Refusal::InvalidSetting => "setting not 2 to 5",
            Refusal::InvalidListener => {
                "damages not rising or with a symbol above 3, or a ninth listener"
            }
            Refusal::Unknown(_) => "unknown number",
        };
        write!(f, "refused {}: {why}", self.number())?;
        match (self, self.index()) {
            (Refusal::UnknownCycle(_), Some(index)) => write!(f, ", at cycle {index}"),
            (_, Some(index)) => write!(f, ", at element {index}"),
            (_, None) => Ok(()),
        }
    }
}

impl Error for Refusal {}
