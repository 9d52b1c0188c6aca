//! Dates, and a calendar of test windows that is asked for times.

use crate::{compare, mix, plain, row, Side};
use plain::{Calendar, Date, DateTime, Refusal, Time};
use std::hint::black_box;

/// Times that a run asks for, a day and some hours apart.
const TIMES: u32 = 360;

fn times() -> Vec<Time> {
    let time = |k: u32| Time {
        year: 24,
        day: 1 + k as u16,
        hundredths: k * 23_999 % 8_640_000,
    };
    (0..TIMES).map(time).collect()
}

/// Windows of two months each, a day and an hour apart.
fn windows(count: u32) -> Vec<(DateTime, DateTime)> {
    let at = |month: u32, k: u32| DateTime {
        date: Date {
            year: 24,
            month: month as u8,
            day: 1 + k as u8 % 28,
        },
        hundredths: 360_000 * (k % 24),
    };
    let window = |k: u32| (at(1 + k % 10, k), at(3 + k % 10, k));
    (0..count).map(window).collect()
}

fn library_moment(at: DateTime) -> duskveyra::DateTime {
    let Date { year, month, day } = at.date;
    duskveyra::DateTime {
        date: duskveyra::Date { year, month, day },
        hundredths: at.hundredths,
    }
}

/// What an answer brings into the sum.
fn weigh(mask: u32, next: Option<(u16, u32)>) -> u64 {
    let (day, hundredths) = next.unwrap_or((0, 0));
    u64::from(mask) << 32 ^ u64::from(day) << 24 ^ u64::from(hundredths)
}

type Ask = fn(&Calendar, Time) -> Result<(u32, Option<Time>), Refusal>;
type DayOf = fn(Date) -> Result<u16, Refusal>;

fn ask_sides(count: u32) -> Vec<Option<Side>> {
    let (mut ours, mut theirs) = (duskveyra::Calendar::empty(), Calendar::default());
    for (start, end) in windows(count) {
        theirs.add(start, end).expect("a window");
        let (start, end) = (library_moment(start), library_moment(end));
        ours.add(start, end).expect("a window");
    }
    let asked = times();
    let given: Vec<duskveyra::Time> = asked.iter().copied().map(crate::library_time).collect();
    let ask = black_box(Calendar::ask as Ask);
    let library = || {
        given.iter().fold(0, |sum, &time| {
            let asked = ours.ask(time).expect("a time of the year");
            let next = asked.next.map(|next| (next.day, next.hundredths));
            mix(sum, weigh(asked.windows.mask, next))
        })
    };
    let rust = || {
        asked.iter().fold(0, |sum, &time| {
            let (mask, next) = ask(&theirs, time).expect("a time of the year");
            let next = next.map(|next| (next.day, next.hundredths));
            mix(sum, weigh(mask, next))
        })
    };
    compare(asked.len(), &[Some(&library), Some(&rust)])
}

fn day_sides() -> Vec<Option<Side>> {
    let dates: Vec<Date> = (1..=366)
        .map(|day| plain::date_of_day(24, day).expect("a day"))
        .collect();
    let given: Vec<duskveyra::Date> = dates
        .iter()
        .map(|&Date { year, month, day }| duskveyra::Date { year, month, day })
        .collect();
    let day_of = black_box(plain::day_of_date as DayOf);
    let library = || {
        given.iter().fold(0, |sum, date| {
            mix(sum, date.day_of_year().expect("a date").into())
        })
    };
    let rust = || {
        dates.iter().fold(0, |sum, &date| {
            mix(sum, day_of(date).expect("a date").into())
        })
    };
    compare(dates.len(), &[Some(&library), Some(&rust)])
}

pub fn rows() {
    for count in [1, 8, 32] {
        row(
            &format!("calendar ask, windows: {count}"),
            "call",
            ask_sides(count),
        );
    }
    row("day of a date", "call", day_sides());
}
