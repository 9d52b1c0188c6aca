//! Dates, and a calendar of test windows: a list of pairs of moments, each
//! moment a year, a day of year and hundredths, compared in that order.

use crate::{Refusal, Time};

#[derive(Clone, Copy, Debug, PartialEq, Eq, Hash)]
pub struct Date {
    pub year: u8,
    pub month: u8,
    pub day: u8,
}

#[derive(Clone, Copy, Debug, PartialEq, Eq, Hash)]
pub struct DateTime {
    pub date: Date,
    pub hundredths: u32,
}

/// The days of a month, or none for a month that there is not.
fn month_length(year: u8, month: u8) -> Option<u16> {
    match month {
        1 | 3 | 5 | 7 | 8 | 10 | 12 => Some(31),
        4 | 6 | 9 | 11 => Some(30),
        2 if year % 4 == 0 => Some(29),
        2 => Some(28),
        _ => None,
    }
}

fn check_year(year: u8) -> Result<(), Refusal> {
    if year > Time::LAST_YEAR {
        return Err(Refusal::Year);
    }
    Ok(())
}

fn check_hundredths(hundredths: u32) -> Result<(), Refusal> {
    if hundredths > Time::LAST_HUNDREDTH {
        return Err(Refusal::Time);
    }
    Ok(())
}

/// Month and day from day of year, by counting the days of the year.
pub fn date_of_day(year: u8, day: u16) -> Result<Date, Refusal> {
    check_year(year)?;
    let mut dates = (1..=12).flat_map(|month| {
        let length = month_length(year, month).unwrap() as u8;
        (1..=length).map(move |day| Date { year, month, day })
    });
    let before = usize::from(day).checked_sub(1).ok_or(Refusal::Date)?;
    dates.nth(before).ok_or(Refusal::Date)
}

/// Day of year from month and day.
pub fn day_of_date(date: Date) -> Result<u16, Refusal> {
    check_year(date.year)?;
    day_in_year(date).ok_or(Refusal::Date)
}

fn day_in_year(date: Date) -> Option<u16> {
    let length = month_length(date.year, date.month)?;
    let day = u16::from(date.day);
    if !(1..=length).contains(&day) {
        return None;
    }
    let before: u16 = (1..date.month)
        .filter_map(|month| month_length(date.year, month))
        .sum();
    Some(before + day)
}

/// A moment, ordered as its members stand.
type Moment = (u8, u16, u32);

/// The windows in the order of adding, each from its start to its end.
#[derive(Clone, Debug, Default, PartialEq, Eq)]
pub struct Calendar {
    windows: Vec<(Moment, Moment)>,
}

impl Calendar {
    pub const MOST_WINDOWS: usize = 32;

    /// Each number is asked of both ends before the next.
    pub fn add(&mut self, start: DateTime, end: DateTime) -> Result<(), Refusal> {
        check_year(start.date.year)?;
        check_year(end.date.year)?;
        check_hundredths(start.hundredths)?;
        check_hundredths(end.hundredths)?;
        let moment = |at: DateTime| {
            let day = day_in_year(at.date).ok_or(Refusal::Date)?;
            Ok((at.date.year, day, at.hundredths))
        };
        let window = (moment(start)?, moment(end)?);
        if self.windows.len() == Self::MOST_WINDOWS || window.0 >= window.1 {
            return Err(Refusal::Window);
        }
        self.windows.push(window);
        Ok(())
    }

    /// The mask of the windows that hold the time, and the next start or end.
    pub fn ask(&self, time: Time) -> Result<(u32, Option<Time>), Refusal> {
        check_year(time.year)?;
        check_hundredths(time.hundredths)?;
        if !(1..=Time::days_in(time.year)).contains(&time.day) {
            return Err(Refusal::Date);
        }
        let now = (time.year, time.day, time.hundredths);
        let mut mask = 0;
        for (window, (start, end)) in self.windows.iter().enumerate() {
            if *start <= now && now < *end {
                mask |= 1 << window;
            }
        }
        let ends = self.windows.iter().flat_map(|&(start, end)| [start, end]);
        let next = ends.filter(|&moment| moment > now).min();
        let time_of = |(year, day, hundredths)| Time {
            year,
            day,
            hundredths,
        };
        Ok((mask, next.map(time_of)))
    }
}
