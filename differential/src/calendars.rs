//! Dates, good and bad, and calendars of random windows, asked at and beside their starts and ends. A refused window must
//! leave every word of the calendar.

use crate::calls::{library_time, plain_time};
use crate::random::Random;
use crate::{agree, plain_refused, refused, Counts};
use reference::Time;

/// How many dates, and how many calls on one calendar, go with a stream.
const DATES: usize = 20;
const CALLS: usize = 50;

pub fn run_calendars(random: &mut Random, counts: &mut Counts) -> Result<(), String> {
    for _ in 0..DATES {
        any_date(random, counts)?;
    }
    any_calendar(random, counts)
}

fn library_date(date: reference::Date) -> duskveyra::Date {
    duskveyra::Date {
        year: date.year,
        month: date.month,
        day: date.day,
    }
}

fn library_moment(at: reference::DateTime) -> duskveyra::DateTime {
    duskveyra::DateTime {
        date: library_date(at.date),
        hundredths: at.hundredths,
    }
}

fn some_year(random: &mut Random) -> u8 {
    random.pick(&[0, 23, 24, 24, 24, 99, 100, 255])
}

fn some_date(random: &mut Random) -> reference::Date {
    reference::Date {
        year: some_year(random),
        month: random.pick(&[0, 1, 2, 2, 3, 4, 12, 13, 255]),
        day: random.pick(&[0, 1, 28, 29, 30, 31, 32, 255]),
    }
}

fn any_date(random: &mut Random, counts: &mut Counts) -> Result<(), String> {
    let year = some_year(random);
    let day = match random.below(4) {
        0 => random.pick(&[0, 59, 60, 61, 365, 366, 367, 65535]),
        _ => random.below(367) as u16,
    };
    let expected = reference::date_of_day(year, day).map(library_date);
    agree(
        || format!("date of year {year} day {day}"),
        duskveyra::Date::of_day(year, day).map_err(refused),
        expected.map_err(plain_refused),
    )?;
    let date = some_date(random);
    agree(
        || format!("day of {date:?}"),
        library_date(date).day_of_year().map_err(refused),
        reference::day_of_date(date).map_err(plain_refused),
    )?;
    counts.calls += 2;
    Ok(())
}

/// Mostly a moment of a few days in which windows meet; else any of the borders.
fn some_moment(random: &mut Random) -> reference::DateTime {
    let date = match random.below(8) {
        0 => some_date(random),
        _ => reference::Date {
            year: 24,
            month: random.pick(&[2, 3]),
            day: random.pick(&[1, 28, 29]),
        },
    };
    let hundredths = match random.below(20) {
        0 => random.pick(&[8_640_100, u32::MAX]),
        _ => random.pick(&[0, 1, 4_320_000, 8_639_999, 8_640_099]),
    };
    reference::DateTime { date, hundredths }
}

fn some_time(random: &mut Random) -> Time {
    Time {
        year: random.pick(&[23, 24, 24, 24, 24, 24, 24, 25, 100]),
        day: random.pick(&[0, 31, 32, 59, 60, 61, 88, 89, 366, 367]),
        hundredths: random.pick(&[0, 1, 2, 4_320_000, 8_639_999, 8_640_099, 8_640_100]),
    }
}

fn any_calendar(random: &mut Random, counts: &mut Counts) -> Result<(), String> {
    let mut library = duskveyra::Calendar::empty();
    let mut plain = reference::Calendar::default();
    for _ in 0..CALLS {
        if random.below(2) == 0 {
            let (start, end) = (some_moment(random), some_moment(random));
            let before = library;
            let answer = library.add(library_moment(start), library_moment(end));
            if answer.is_err() && library != before {
                return Err(format!(
                    "refused window {start:?} to {end:?} changed the calendar"
                ));
            }
            counts.windows += u64::from(answer.is_ok());
            counts.refused_windows += u64::from(answer.is_err());
            agree(
                || format!("window {start:?} to {end:?} on {plain:?}"),
                answer.map_err(refused),
                plain.clone().add(start, end).map_err(plain_refused),
            )?;
            let _ = plain.add(start, end);
        } else {
            let time = some_time(random);
            let answer = library.ask(library_time(time));
            let answer = answer.map(|asked| (asked.windows.mask, asked.next.map(plain_time)));
            agree(
                || format!("ask {time:?} of {plain:?}"),
                answer.map_err(refused),
                plain.ask(time).map_err(plain_refused),
            )?;
        }
        counts.calls += 1;
    }
    Ok(())
}
