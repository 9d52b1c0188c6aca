//! Dates and test windows through the safe types: the stored calls, every day of every year there and back, the text of
//! dates, each number in its order, a full calendar, and a refused window that leaves the calendar.

use duskveyra::{Calendar, Date, DateTime, Refusal, Time, MOST_WINDOWS};
use std::fs::read_to_string;

const STORED: &str = concat!(
    env!("CARGO_MANIFEST_DIR"),
    "/../../tests/stored/calendar.txt"
);

fn at(year: u8, month: u8, day: u8, hundredths: u32) -> DateTime {
    let date = Date { year, month, day };
    DateTime { date, hundredths }
}

fn time(year: u8, day: u16, hundredths: u32) -> Time {
    Time {
        year,
        day,
        hundredths,
    }
}

fn answer(calendar: &mut Calendar, call: &str) -> Result<String, Refusal> {
    let mut words = call.split(' ');
    let name = match words.next() {
        Some("calendar") => words.next(),
        name => name,
    };
    let numbers: Vec<u32> = words.map(|word| word.parse().unwrap()).collect();
    let moment = |n: &[u32]| at(n[0] as u8, n[1] as u8, n[2] as u8, n[3]);
    match name {
        Some("date") => {
            let date = Date::of_day(numbers[0] as u8, numbers[1] as u16)?;
            Ok(format!("{} {}", date.month, date.day))
        }
        Some("day") => {
            let [year, month, day] = [numbers[0] as u8, numbers[1] as u8, numbers[2] as u8];
            Ok(Date { year, month, day }.day_of_year()?.to_string())
        }
        Some("add") => {
            calendar.add(moment(&numbers[..4]), moment(&numbers[4..]))?;
            Ok("ok".into())
        }
        _ => {
            let asked = calendar.ask(time(numbers[0] as u8, numbers[1] as u16, numbers[2]))?;
            let next = match asked.next {
                Some(next) => format!("{} {} {}", next.year, next.day, next.hundredths),
                None => "none".into(),
            };
            Ok(format!("{:08x} {next}", asked.windows.mask))
        }
    }
}

#[test]
fn stored_calls() {
    let stored = read_to_string(STORED).unwrap();
    let mut calendar = Calendar::empty();
    for line in stored.lines() {
        if let Some((call, expected)) = line.split_once(" => ") {
            let before = calendar;
            let answer = answer(&mut calendar, call).unwrap_or_else(|refusal| {
                assert_eq!(calendar, before);
                format!("R{}", refusal.number())
            });
            assert_eq!(answer, expected, "{line}");
        } else {
            assert_eq!(line, "calendar new");
            calendar = Calendar::default();
        }
    }
    assert_eq!(stored.lines().count(), 390);
}

#[test]
fn every_day() {
    for year in 0..=99 {
        let last = if year % 4 == 0 { 366 } else { 365 };
        let mut before = None;
        for day in 1..=last {
            let date = Date::of_day(year, day).unwrap();
            assert_eq!(date.day_of_year(), Ok(day));
            assert_eq!(date.to_string().parse(), Ok(date));
            assert!(before < Some(date));
            before = Some(date);
        }
        assert_eq!(Date::of_day(year, last + 1), Err(Refusal::InvalidDate));
        assert_eq!(Date::of_day(year, 0), Err(Refusal::InvalidDate));
    }
    assert_eq!(Date::of_day(100, 0), Err(Refusal::InvalidYear));
    assert_eq!(Date::of_day(255, 1), Err(Refusal::InvalidYear));
}

#[test]
fn every_date() {
    let mut dates = 0;
    for year in 0..=255 {
        for month in 0..=255 {
            for day in 0..=255 {
                let date = Date { year, month, day };
                match date.day_of_year() {
                    Ok(number) => {
                        assert_eq!(Date::of_day(year, number), Ok(date));
                        dates += 1;
                    }
                    Err(refusal) if year > 99 => assert_eq!(refusal, Refusal::InvalidYear),
                    Err(refusal) => assert_eq!(refusal, Refusal::InvalidDate),
                }
            }
        }
    }
    assert_eq!(dates, 75 * 365 + 25 * 366);
}

#[test]
fn texts_of_no_date() {
    for text in [
        "",
        "2024-02-30",
        "2023-02-29",
        "1999-12-31",
        "2100-01-01",
        "2024-13-01",
        "2024-00-01",
        "2024-04-31",
        "2024-1-01",
        "2024-01-1",
        "2024/01/01",
        "2024-01-01 ",
        " 2024-01-01",
        "2024-01-0a",
        "20\u{664}4-01-01",
    ] {
        assert!(text.parse::<Date>().is_err(), "{text:?}");
    }
}

#[test]
fn numbers_in_their_order() {
    let mut calendar = Calendar::empty();
    let good = at(24, 2, 29, 0);
    let last = at(99, 12, 31, 8_640_099);
    // of the end before the next number of the start
    let both = |calendar: &mut Calendar, start, end| calendar.add(start, end).unwrap_err();
    assert_eq!(
        both(&mut calendar, at(24, 2, 30, 8_640_100), at(100, 1, 1, 0)),
        Refusal::InvalidYear
    );
    assert_eq!(
        both(&mut calendar, at(24, 2, 30, 0), at(24, 1, 1, 8_640_100)),
        Refusal::InvalidTime
    );
    assert_eq!(
        both(&mut calendar, last, at(25, 2, 29, 0)),
        Refusal::InvalidDate
    );
    assert_eq!(both(&mut calendar, good, good), Refusal::InvalidWindow);
    assert_eq!(both(&mut calendar, last, good), Refusal::InvalidWindow);
    assert_eq!(calendar, Calendar::empty());
    assert_eq!(
        calendar.ask(time(100, 0, u32::MAX)),
        Err(Refusal::InvalidYear)
    );
    assert_eq!(
        calendar.ask(time(99, 0, 8_640_100)),
        Err(Refusal::InvalidTime)
    );
    assert_eq!(calendar.ask(time(99, 366, 0)), Err(Refusal::InvalidDate));
    assert_eq!(calendar.ask(time(0, 366, 0)).unwrap().next, None);
}

#[test]
fn a_full_calendar() {
    let mut calendar = Calendar::empty();
    for window in 0..MOST_WINDOWS as u32 {
        calendar
            .add(at(24, 1, 1, window), at(24, 1, 2, window))
            .unwrap();
    }
    let full = calendar;
    let start = at(24, 1, 1, 0);
    assert_eq!(
        calendar.add(start, at(24, 1, 2, 0)),
        Err(Refusal::InvalidWindow)
    );
    assert_eq!(calendar, full);
    assert_eq!(Calendar::from_words(calendar.words()), full);
    for hundredth in 0..MOST_WINDOWS as u32 {
        let asked = calendar.ask(time(24, 1, hundredth)).unwrap();
        assert_eq!(asked.windows.iter().count() as u32, hundredth + 1);
        let later = calendar.ask(time(24, 2, hundredth)).unwrap();
        let left: Vec<usize> = later.windows.iter().collect();
        assert_eq!(
            left,
            (hundredth as usize + 1..MOST_WINDOWS).collect::<Vec<_>>()
        );
    }
}
