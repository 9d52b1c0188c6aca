//! The text programs: a format line and a stream of element characters in, or a
//! log, and a line for each report out.

use std::io::Write;

use crate::formats::{Format, Time, MARK, ONE, SPOILED, ZERO};
use crate::log::{log_read, Report};
use crate::refusal::Refusal;
use crate::stream::{Answer, Reader};

/// The reader's setting: two frames before a report.
const SETTING: u8 = 2;

/// Appends to `out` what `timeread` prints for `input`.
pub fn timeread(input: &[u8], out: &mut Vec<u8>) {
    let last_line = match listen(input, out) {
        Ok((elements, reports)) => format!("elements {elements} reports {reports}\n"),
        Err(refusal) => format!("refused {}\n", refusal.number()),
    };
    out.extend_from_slice(last_line.as_bytes());
}

/// Prints the reports and counts elements and reports.
fn listen(input: &[u8], out: &mut Vec<u8>) -> Result<(u64, u64), Refusal> {
    let [letter, digit @ b'0'..=b'9', b'\n', stream @ ..] = input else {
        return Err(Refusal::Format);
    };
    let format = Format {
        letter: *letter,
        expression: digit - b'0',
    };
    let mut reader = Reader::fresh(format, SETTING)?;
    let mut elements = 0;
    let mut reports = 0;
    for &character in stream {
        let symbol = match character {
            b'0' => ZERO,
            b'1' => ONE,
            b'P' => MARK,
            b'-' => SPOILED,
            b' ' | b'\r' | b'\n' => continue,
            _ => return Err(Refusal::Symbol),
        };
        elements += 1;
        match reader.feed(symbol) {
            Answer::Quiet => {}
            Answer::Report(time, control) => {
                reports += 1;
                print_report(out, elements, time, control);
            }
            Answer::Refused(refusal) => return Err(refusal),
        }
    }
    Ok((elements, reports))
}

/// Appends to `out` what `timelog` prints for a log: the year where `timeread`
/// has the number of the element.
pub fn timelog(log: &[u8], out: &mut Vec<u8>) {
    let (mut place, mut last, mut reports) = (0, Report::default(), 0);
    let last_line = loop {
        match log_read(log, place, last) {
            Ok(Some((report, next))) => {
                let year = report.time.year.into();
                print_report(out, year, report.time, report.control);
                reports += 1;
                (place, last) = (next, report);
            }
            Ok(None) => break format!("bytes {place} reports {reports}\n"),
            Err(refusal) => break format!("refused {} at {place}\n", refusal.number()),
        }
    };
    out.extend_from_slice(last_line.as_bytes());
}

fn print_report(out: &mut Vec<u8>, element: u64, time: Time, control: u64) {
    let (hours, minutes, seconds) = time.clock();
    let fraction = time.hundredths % 100;
    writeln!(
        out,
        "{element} {:03} {hours:02}:{minutes:02}:{seconds:02}.{fraction:02} {control:012x}",
        time.day
    )
    .expect("writing to a vector cannot fail");
}
