//! The stored calls of dates and of calendars, which came with their answers.

use reference::*;
use std::fs::read_to_string;

const STORED: &str = concat!(env!("CARGO_MANIFEST_DIR"), "/../tests/stored/calendar.txt");

fn answer(calendar: &mut Calendar, words: &[&str]) -> Result<String, Refusal> {
    let number = |word: usize| words[word].parse::<u32>().unwrap();
    let date = |word: usize| Date {
        year: number(word) as u8,
        month: number(word + 1) as u8,
        day: number(word + 2) as u8,
    };
    let moment = |word: usize| DateTime {
        date: date(word),
        hundredths: number(word + 3),
    };
    match words[..2] {
        ["date", _] => {
            let date = date_of_day(number(1) as u8, number(2) as u16)?;
            Ok(format!("{} {}", date.month, date.day))
        }
        ["day", _] => Ok(day_of_date(date(1))?.to_string()),
        [_, "add"] => {
            calendar.add(moment(2), moment(6))?;
            Ok("ok".into())
        }
        _ => {
            let time = Time {
                year: number(2) as u8,
                day: number(3) as u16,
                hundredths: number(4),
            };
            let (mask, next) = calendar.ask(time)?;
            let next = next.map_or("none".into(), |t| {
                format!("{} {} {}", t.year, t.day, t.hundredths)
            });
            Ok(format!("{mask:08x} {next}"))
        }
    }
}

#[test]
fn stored_calls() {
    let mut calendar = Calendar::default();
    let mut calls = 0;
    for line in read_to_string(STORED).unwrap().lines() {
        let Some((call, expected)) = line.split_once(" => ") else {
            assert_eq!(line, "calendar new");
            calendar = Calendar::default();
            continue;
        };
        let words: Vec<&str> = call.split(' ').collect();
        let answer = answer(&mut calendar, &words)
            .unwrap_or_else(|refusal| format!("R{}", refusal.number()));
        assert_eq!(answer, expected, "{line}");
        calls += 1;
    }
    assert!(calls > 300);
}
