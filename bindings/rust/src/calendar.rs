//! Dates, and the calendar of test windows.

use std::error::Error;
use std::fmt;
use std::str::FromStr;

use crate::{sys, Refusal, Time};

/// The words of a [`Calendar`].
pub const CALENDAR_WORDS: usize = 65;

/// The most windows of a calendar.
pub const MOST_WINDOWS: usize = 32;

/// A day by its month. Any three numbers make a value of this type; a call refuses a year over 99 with
/// [`Refusal::InvalidYear`] and a month or day that the year lacks with [`Refusal::InvalidDate`].
///
/// Its text is `2024-02-29`, and is read back as the same date; a text of a date that its year lacks is refused.
///
/// ```
/// use duskveyra::{Date, Refusal};
///
/// let leap_day = Date::of_day(24, 60)?;
/// assert_eq!(leap_day.to_string(), "2024-02-29");
/// assert_eq!(leap_day.day_of_year(), Ok(60));
/// assert_eq!("2024-02-29".parse(), Ok(leap_day));
/// assert!("2023-02-29".parse::<Date>().is_err());
/// assert_eq!(Date::of_day(23, 366), Err(Refusal::InvalidDate));
/// # Ok::<(), Refusal>(())
/// ```
#[derive(Clone, Copy, Debug, PartialEq, Eq, PartialOrd, Ord, Hash)]
#[repr(C)]
pub struct Date {
    /// The year from 2000, 0 to 99.
    pub year: u8,
    /// The month, 1 to 12.
    pub month: u8,
    /// The day of the month, from 1.
    pub day: u8,
}

impl Date {
    /// Month and day from day of year.
    ///
    /// Refuses with 17 for a year over 99; 22 for a day that the year lacks; in this order.
    #[inline]
    pub fn of_day(year: u8, day: u16) -> Result<Date, Refusal> {
        // SAFETY: every value is allowed.
        let result = unsafe { sys::duskveyra_date_of_day(year, day) };
        Refusal::check(result.number, 0)?;
        Ok(result.date)
    }

    /// Day of year from month and day: it undoes [`Date::of_day`].
    ///
    /// Refuses with 17 for a year over 99; 22 for a month or day that the year lacks; in this order.
    #[inline]
    pub fn day_of_year(self) -> Result<u16, Refusal> {
        // SAFETY: every value is allowed.
        let result = unsafe { sys::duskveyra_day_of_date(self) };
        Refusal::check(result.number, 0)?;
        Ok(result.day)
    }
}

impl fmt::Display for Date {
    fn fmt(&self, f: &mut fmt::Formatter<'_>) -> fmt::Result {
        let year = 2000 + u16::from(self.year);
        write!(f, "{year}-{:02}-{:02}", self.month, self.day)
    }
}

/// A text that is not that of a date of the years 2000 to 2099, as [`Date`] prints it.
#[derive(Clone, Copy, Debug, PartialEq, Eq, Hash)]
pub struct ParseDateError;

impl fmt::Display for ParseDateError {
    fn fmt(&self, f: &mut fmt::Formatter<'_>) -> fmt::Result {
        f.write_str("not a date such as 2024-02-29")
    }
}

impl Error for ParseDateError {}

impl FromStr for Date {
    type Err = ParseDateError;

    /// Takes exactly the texts of the dates that the years 2000 to 2099 have.
    fn from_str(text: &str) -> Result<Date, ParseDateError> {
        let date = date_in(text.as_bytes()).ok_or(ParseDateError)?;
        match date.day_of_year() {
            Ok(_) => Ok(date),
            Err(_) => Err(ParseDateError),
        }
    }
}

fn date_in(text: &[u8]) -> Option<Date> {
    let &[b'2', b'0', y1, y2, b'-', m1, m2, b'-', d1, d2] = text else {
        return None;
    };
    let pair = |tens: u8, units: u8| {
        let digits = [tens, units];
        let decimal = digits.iter().all(u8::is_ascii_digit);
        decimal.then(|| 10 * (tens - b'0') + (units - b'0'))
    };
    Some(Date {
        year: pair(y1, y2)?,
        month: pair(m1, m2)?,
        day: pair(d1, d2)?,
    })
}

/// A date and hundredths of a second since its midnight, 0 to 8,640,099.
#[derive(Clone, Copy, Debug, PartialEq, Eq, Hash)]
#[repr(C)]
pub struct DateTime {
    /// The date.
    pub date: Date,
    /// The hundredths.
    pub hundredths: u32,
}

/// A calendar of up to 32 test windows, added one by one. A window's start belongs to it and its end does not; windows may
/// overlap. Moments are ordered by year, day of year, then hundredth.
///
/// ```
/// use duskveyra::{Calendar, DateTime, Time};
///
/// let at = |date: &str, hundredths| Ok::<_, duskveyra::ParseDateError>(DateTime { date: date.parse()?, hundredths });
/// let mut calendar = Calendar::empty();
/// calendar.add(at("2024-02-28", 0)?, at("2024-03-02", 0)?)?;
/// calendar.add(at("2024-02-29", 4_320_000)?, at("2024-03-01", 0)?)?;
/// let noon = Time { year: 24, day: 60, hundredths: 4_320_000 };
/// let asked = calendar.ask(noon)?;
/// assert_eq!(asked.windows.iter().collect::<Vec<_>>(), [0, 1]);
/// assert_eq!(asked.next, Some(Time { year: 24, day: 61, hundredths: 0 }));
/// # Ok::<(), Box<dyn std::error::Error>>(())
/// ```
#[derive(Clone, Copy, Debug, PartialEq, Eq, Hash)]
pub struct Calendar {
    words: [u64; CALENDAR_WORDS],
}

impl Calendar {
    /// A calendar to which nothing was added.
    #[inline]
    pub fn empty() -> Calendar {
        let mut words = [0; CALENDAR_WORDS];
        // SAFETY: the pointer is to one array of as many words.
        unsafe { sys::duskveyra_calendar_empty(&mut words) };
        Calendar { words }
    }

    /// The calendar with these words, as [`words`](Calendar::words) gave them. Any words are allowed; of other words than
    /// adding made, what is answered is not promised.
    #[inline]
    pub fn from_words(words: [u64; CALENDAR_WORDS]) -> Calendar {
        Calendar { words }
    }

    /// The calendar's words, to be stored: how many windows were added, then a word for each of 32 starts and 32 ends.
    #[inline]
    pub fn words(&self) -> [u64; CALENDAR_WORDS] {
        self.words
    }

    /// Adds a window behind those that were added before.
    ///
    /// Refuses with 17 where either year is over 99; 2 where either hundredths are over 8,640,099; 22 where either date is
    /// one that its year lacks; 21 for a 33rd window, or where the end is not after the start; in this order, and leaves
    /// the calendar as it was.
    #[inline]
    pub fn add(&mut self, start: DateTime, end: DateTime) -> Result<(), Refusal> {
        // SAFETY: the pointer is to one array of as many words, which nothing else points into.
        let result = unsafe { sys::duskveyra_calendar_add(&mut self.words, start, end) };
        Refusal::check(result.number, 0)
    }

    /// Which windows hold a time, and the next start or end after it.
    ///
    /// Refuses with 17 for a year over 99; 2 for hundredths over 8,640,099; 22 for a day that the year lacks; in this
    /// order.
    #[inline]
    pub fn ask(&self, time: Time) -> Result<Asked, Refusal> {
        // SAFETY: the pointer is to one array of as many words.
        let result = unsafe { sys::duskveyra_calendar_ask(&self.words, time) };
        Refusal::check(result.number, 0)?;
        Ok(Asked {
            windows: Windows { mask: result.mask },
            next: (result.follows != 0).then_some(result.next),
        })
    }
}

impl Default for Calendar {
    fn default() -> Calendar {
        Calendar::empty()
    }
}

/// What a calendar says of a time.
#[derive(Clone, Copy, Debug, PartialEq, Eq, Hash)]
pub struct Asked {
    /// The windows that hold it.
    pub windows: Windows,
    /// The next start or end after it: the moment alone.
    pub next: Option<Time>,
}

/// Some of a calendar's windows, as the bits of a mask: bit 0 is the first added.
#[derive(Clone, Copy, Debug, PartialEq, Eq, Hash)]
pub struct Windows {
    /// The mask.
    pub mask: u32,
}

impl Windows {
    /// The windows' numbers in the order of adding, the first added 0.
    pub fn iter(self) -> impl Iterator<Item = usize> {
        (0..MOST_WINDOWS).filter(move |window| self.mask >> window & 1 == 1)
    }
}
