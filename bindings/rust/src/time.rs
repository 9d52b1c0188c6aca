//! Times, and their text: year, day and clock, `24 366 23:59:60.00`.

use std::error::Error;
use std::fmt;
use std::str::FromStr;

/// A year, a day of it and the hundredths of a second since midnight. Any three numbers make a value of this type; a
/// call refuses a year that the format does not carry with [`Refusal::InvalidYear`], and a day or hundredths that are
/// out of range, or not on the format, with [`Refusal::InvalidTime`]. From hundredth 8,640,000 on it lies in a second
/// that was added to its day, 23:59:60; D, E, H and X do not carry that second, and [`write`](fn@crate::write),
/// [`step`](fn@crate::step) and [`step_back`](fn@crate::step_back) refuse it there with [`Refusal::SecondNotCarried`].
///
/// Its text is the year in two digits, the day in three and the clock, and is read back as the same time. Where a format
/// carries no year, the text has 00.
///
/// ```
/// use duskveyra::Time;
///
/// let added = Time { year: 24, day: 366, hundredths: 8_640_012 };
/// assert_eq!(added.to_string(), "24 366 23:59:60.12");
/// assert_eq!("24 366 23:59:60.12".parse(), Ok(added));
/// assert!("24 367 00:00:00.00".parse::<Time>().is_err());
/// ```
///
/// [`Refusal::InvalidYear`]: crate::Refusal::InvalidYear
/// [`Refusal::InvalidTime`]: crate::Refusal::InvalidTime
/// [`Refusal::SecondNotCarried`]: crate::Refusal::SecondNotCarried
#[derive(Clone, Copy, Debug, PartialEq, Eq, Hash)]
#[repr(C)]
pub struct Time {
    /// The year from 2000, 0 to 99; 0 where the format carries none.
    pub year: u8,
    /// The day, 1 to 366; where the format carries the year, to that year's last; in X 1.
    pub day: u16,
    /// Hundredths of a second since midnight, 0 to 8,640,099.
    pub hundredths: u32,
}

/// The last minute of a day, which has a 61st second where one was added.
const LAST_MINUTE: u32 = 24 * 60 - 1;

impl fmt::Display for Time {
    fn fmt(&self, f: &mut fmt::Formatter<'_>) -> fmt::Result {
        let minute = (self.hundredths / 6_000).min(LAST_MINUTE);
        // Of a time out of range, too, no two have one text.
        let second = self.hundredths / 100 - 60 * minute;
        write!(
            f,
            "{:02} {:03} {:02}:{:02}:{second:02}.{:02}",
            self.year,
            self.day,
            minute / 60,
            minute % 60,
            self.hundredths % 100
        )
    }
}

/// A text that is not that of a time in range, as [`Time`] prints it.
#[derive(Clone, Copy, Debug, PartialEq, Eq, Hash)]
pub struct ParseTimeError;

impl fmt::Display for ParseTimeError {
    fn fmt(&self, f: &mut fmt::Formatter<'_>) -> fmt::Result {
        f.write_str("not a year, day and clock such as 24 366 23:59:60.00")
    }
}

impl Error for ParseTimeError {}

impl FromStr for Time {
    type Err = ParseTimeError;

    /// Takes exactly the texts of years 0 to 99, days 1 to 366 and hundredths 0 to 8,640,099. Whether a format carries
    /// the time is asked by the calls.
    fn from_str(text: &str) -> Result<Time, ParseTimeError> {
        time_in(text.as_bytes()).ok_or(ParseTimeError)
    }
}

fn time_in(text: &[u8]) -> Option<Time> {
    let &[y1, y2, b' ', d1, d2, d3, b' ', h1, h2, b':', m1, m2, b':', s1, s2, b'.', c1, c2] = text
    else {
        return None;
    };
    let day = number(&[d1, d2, d3])?;
    let (hour, minute) = (number(&[h1, h2])?, number(&[m1, m2])?);
    let second = number(&[s1, s2])?;
    let added = second == 60 && 60 * hour + minute == LAST_MINUTE;
    let in_range = (1..=366).contains(&day) && hour < 24 && minute < 60 && (second < 60 || added);
    in_range.then_some(Time {
        year: number(&[y1, y2])? as u8,
        day: day as u16,
        hundredths: 100 * (60 * (60 * hour + minute) + second) + number(&[c1, c2])?,
    })
}

/// The number of a few decimal digits.
fn number(digits: &[u8]) -> Option<u32> {
    digits.iter().try_fold(0, |number, digit| match digit {
        b'0'..=b'9' => Some(10 * number + u32::from(digit - b'0')),
        _ => None,
    })
}
