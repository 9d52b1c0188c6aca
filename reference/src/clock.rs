//! Stepping and comparing times.

use crate::formats::{Format, Time};
use crate::layout::Layout;
use crate::refusal::Refusal;

/// Kind of a day with 86,400 seconds.
pub const USUAL_DAY: u8 = 0;
/// Kind of a day with a second added at its end, 23:59:60.
pub const SECOND_ADDED: u8 = 1;
/// Kind of a day without its last second, 23:59:59.
pub const SECOND_TAKEN: u8 = 2;

/// A year that the format carries, or refusal 17, a time in range that lies on
/// the format, or refusal 2, and in an added second only where the format
/// carries it, or refusal 14.
pub(crate) fn check_on_format(layout: &Layout, time: Time) -> Result<(), Refusal> {
    let last_year = if layout.carries_year {
        Time::LAST_YEAR
    } else {
        0
    };
    if time.year > last_year {
        Err(Refusal::Year)
    } else if !time.in_range()
        || time.day > layout.last_day(time.year)
        || time.hundredths % layout.interval != 0
    {
        Err(Refusal::Time)
    } else if time.in_added_second() && !layout.leap_second {
        Err(Refusal::AddedSecond)
    } else {
        Ok(())
    }
}

/// The length of that year: its own where the format carries it, else the one
/// given.
fn length_of(layout: &Layout, year: u8, given: u16) -> u16 {
    if layout.carries_year {
        Time::days_in(year)
    } else {
        given
    }
}

/// The day after which day 1 comes: the year's last, or day 1 itself where the
/// format carries no day.
fn day_before_new_year(layout: &Layout, year_length: u16) -> u16 {
    if layout.carries_day {
        year_length
    } else {
        1
    }
}

/// The hundredths of a day of that kind as the format counts them, or refusal
/// 11 or 15 for a time that no such day of such a year has.
fn day_length(layout: &Layout, time: Time, year_length: u16, kind: u8) -> Result<u32, Refusal> {
    if !matches!(year_length, 365 | 366) || time.day > year_length {
        return Err(Refusal::YearLength);
    }
    let length = match kind {
        SECOND_ADDED if layout.leap_second => Time::HUNDREDTHS_PER_DAY + 100,
        SECOND_TAKEN if layout.leap_second => Time::HUNDREDTHS_PER_DAY - 100,
        USUAL_DAY | SECOND_ADDED | SECOND_TAKEN => Time::HUNDREDTHS_PER_DAY,
        _ => return Err(Refusal::DayKind),
    };
    if time.hundredths < length {
        Ok(length)
    } else {
        Err(Refusal::DayKind)
    }
}

/// The time one frame later in a year of 365 or 366 days, which the format may
/// tell by itself; the kind is that of the given time's day.
pub fn step(format: Format, time: Time, year_length: u16, kind: u8) -> Result<Time, Refusal> {
    let layout = Layout::of(format)?;
    check_on_format(layout, time)?;
    advance(layout, time, year_length, kind)
}

/// The time one frame earlier; the year length and the kind are those of that
/// time's year and day. The checks look at the given time, as those of `step`.
/// Year 0 comes after 99.
pub fn step_back(format: Format, time: Time, year_length: u16, kind: u8) -> Result<Time, Refusal> {
    let layout = Layout::of(format)?;
    check_on_format(layout, time)?;
    let first_of_year = time.day == 1 && time.hundredths == 0;
    let year = match time.year {
        year if !(layout.carries_year && first_of_year) => year,
        0 => Time::LAST_YEAR,
        year => year - 1,
    };
    let year_length = length_of(layout, year, year_length);
    let day_length = day_length(layout, time, year_length, kind)?;
    Ok(if time.hundredths > 0 {
        Time {
            hundredths: time.hundredths - layout.interval,
            ..time
        }
    } else {
        Time {
            year,
            day: if first_of_year {
                day_before_new_year(layout, year_length)
            } else {
                time.day - 1
            },
            hundredths: day_length - layout.interval,
        }
    })
}

/// `step` for a time already known to lie on the format.
fn advance(layout: &Layout, time: Time, year_length: u16, kind: u8) -> Result<Time, Refusal> {
    let year_length = length_of(layout, time.year, year_length);
    let day_length = day_length(layout, time, year_length, kind)?;
    let hundredths = time.hundredths + layout.interval;
    Ok(if hundredths < day_length {
        Time { hundredths, ..time }
    } else if time.day < day_before_new_year(layout, year_length) {
        Time {
            year: time.year,
            day: time.day + 1,
            hundredths: 0,
        }
    } else {
        let year = match time.year {
            year if !layout.carries_year => year,
            Time::LAST_YEAR => 0,
            year => year + 1,
        };
        Time {
            year,
            day: 1,
            hundredths: 0,
        }
    })
}

/// Whether `second` is one frame after `first` in a year of either length and
/// a day of some kind.
/// Times that do not lie on the format are never next to another.
pub fn next_after(format: Format, first: Time, second: Time) -> bool {
    match Layout::of(format) {
        Ok(layout) => check_on_format(layout, first).is_ok() && follows(layout, first, second),
        Err(_) => false,
    }
}

/// `next_after` for a first time already known to lie on the format.
pub(crate) fn follows(layout: &Layout, first: Time, second: Time) -> bool {
    [365, 366].into_iter().any(|length| {
        [USUAL_DAY, SECOND_ADDED, SECOND_TAKEN]
            .into_iter()
            .any(|kind| advance(layout, first, length, kind) == Ok(second))
    })
}

/// `first` less `second` as if within one year, in hundredths of a second.
/// Every day counts as a usual one, and no year is looked at.
pub fn difference(first: Time, second: Time) -> Result<i64, Refusal> {
    if !first.in_range() || !second.in_range() {
        return Err(Refusal::Time);
    }
    let since_new_year = |time: Time| {
        i64::from(time.day) * i64::from(Time::HUNDREDTHS_PER_DAY) + i64::from(time.hundredths)
    };
    Ok(since_new_year(first) - since_new_year(second))
}
