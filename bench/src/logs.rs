//! Records of a report log, written into a buffer and read from it.

use crate::{compare, mix, plain, row, Side};
use plain::{Refusal, Report, Time};
use std::cell::RefCell;
use std::hint::black_box;

const REPORTS: u32 = 1_000;
const ROOM: usize = 13 * REPORTS as usize;

/// One report a second, or reports of which every field differs from the one before.
fn reports(all_fields: bool) -> Vec<Report> {
    let report = |k: u32| match all_fields {
        false => Report {
            time: Time {
                year: 24,
                day: 191,
                hundredths: 100 * k,
            },
            control: 5,
        },
        true => Report {
            time: Time {
                year: (1 + k % 99) as u8,
                day: 1 + (k % 366) as u16,
                hundredths: 1 + 100 * k,
            },
            control: 5 + u64::from(k),
        },
    };
    (0..REPORTS).map(report).collect()
}

fn library_report(report: Report) -> duskveyra::Report {
    duskveyra::Report {
        time: crate::library_time(report.time),
        control: report.control,
    }
}

/// Writes all reports into one buffer; the sum is over the places.
#[inline]
fn written<R: Copy>(
    reports: &[R],
    none: R,
    log: &RefCell<Vec<u8>>,
    write: impl Fn(&mut [u8], usize, R, R) -> Option<usize>,
) -> u64 {
    let log = &mut *log.borrow_mut();
    let (mut place, mut last, mut sum) = (0, none, 0);
    for &report in reports {
        if let Some(next) = write(log, place, last, report) {
            (place, last) = (next, report);
        }
        sum = mix(sum, place as u64);
    }
    black_box(log);
    sum
}

/// Reads a whole log; the sum is over the fields and the places.
#[inline]
fn read<R: Copy>(
    log: &[u8],
    none: R,
    fields: impl Fn(R) -> u64,
    read: impl Fn(&[u8], usize, R) -> Option<(R, usize)>,
) -> u64 {
    let (mut place, mut last, mut sum) = (0, none, 0);
    while let Some((report, next)) = read(log, place, last) {
        sum = mix(sum, fields(report) ^ next as u64);
        (place, last) = (next, report);
    }
    sum
}

type Write = fn(&mut [u8], usize, Report, Report) -> Result<Option<usize>, Refusal>;
type Read = fn(&[u8], usize, Report) -> Result<Option<(Report, usize)>, Refusal>;

fn write_sides(reports: &[Report]) -> Vec<Option<Side>> {
    let none = Report::default();
    let given: Vec<duskveyra::Report> = reports.iter().copied().map(library_report).collect();
    let (ours, theirs) = (RefCell::new(vec![0; ROOM]), RefCell::new(vec![0; ROOM]));
    let write = black_box(plain::log_write as Write);
    let library = || {
        written(&given, duskveyra::Report::NONE, &ours, |log, at, p, r| {
            duskveyra::log_write(log, at, p, r).ok().flatten()
        })
    };
    let rust = || {
        written(reports, none, &theirs, |log, at, p, r| {
            write(log, at, p, r).ok().flatten()
        })
    };
    let sides = compare(reports.len(), &[Some(&library), Some(&rust)]);
    assert!(ours == theirs);
    sides
}

fn read_sides(reports: &[Report]) -> Vec<Option<Side>> {
    let none = Report::default();
    let mut log = vec![0; ROOM];
    let (mut place, mut last) = (0, none);
    for &report in reports {
        place = plain::log_write(&mut log, place, last, report)
            .expect("a report in its ranges")
            .expect("room for all");
        last = report;
    }
    let log = &log[..place];
    let read_plain = black_box(plain::log_read as Read);
    let library = || {
        read(
            log,
            duskveyra::Report::NONE,
            |r| r.control ^ u64::from(r.time.hundredths),
            |log, at, p| duskveyra::log_read(log, at, p).ok().flatten(),
        )
    };
    let rust = || {
        read(
            log,
            none,
            |r| r.control ^ u64::from(r.time.hundredths),
            |log, at, p| read_plain(log, at, p).ok().flatten(),
        )
    };
    compare(reports.len(), &[Some(&library), Some(&rust)])
}

pub fn rows() {
    for (name, all_fields) in [("hundredths alone", false), ("all fields", true)] {
        let reports = reports(all_fields);
        row(
            &format!("log write, {name}"),
            "record",
            write_sides(&reports),
        );
        row(&format!("log read, {name}"), "record", read_sides(&reports));
    }
}
