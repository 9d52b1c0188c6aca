//! Report logs: random bytes read, what was read written again, and lists of reports, good and bad, written into a buffer
//! that may be too small, read again, cut and changed. Every byte of the buffer is compared, and what stands around it.

use crate::calls::{library_time, plain_time};
use crate::random::Random;
use crate::{agree, plain_refused, refused, Counts, Refused};
use reference::{Report, Time};

/// How many of each go with a stream.
const TURNS: usize = 30;
/// Bytes on both sides of a lent log that no call may touch.
const GUARD: usize = 8;

/// What reading gave: a report and the next place, or none.
type Read = Result<Option<(Report, usize)>, Refused>;

pub fn run_logs(random: &mut Random, counts: &mut Counts) -> Result<(), String> {
    for _ in 0..TURNS {
        any_bytes(random, counts)?;
        any_write(random, counts)?;
    }
    for _ in 0..TURNS / 6 {
        any_list(random, counts)?;
    }
    Ok(())
}

fn library_report(report: Report) -> duskveyra::Report {
    duskveyra::Report {
        time: library_time(report.time),
        control: report.control,
    }
}

fn plain_report(report: duskveyra::Report) -> Report {
    Report {
        time: plain_time(report.time),
        control: report.control,
    }
}

/// Mostly a report that a record can hold, with few values for each field, so that many are as before; else one near the
/// borders or any.
fn any_report(random: &mut Random) -> Report {
    let mut report = Report {
        time: Time {
            year: random.pick(&[0, 0, 24, 99]),
            day: random.pick(&[1, 191, 191, 366]),
            hundredths: random.pick(&[0, 100, 5_088_000, 8_640_099]),
        },
        control: random.pick(&[0, 0, 5, 0xffff_ffff_ffff]),
    };
    match random.below(24) {
        0 => report.time.year = random.pick(&[100, 128, 255]),
        1 => report.time.day = random.pick(&[0, 367, 65535]),
        2 => report.time.hundredths = random.pick(&[8_640_100, 16_777_216, u32::MAX]),
        3 => report.control = 1 << random.pick(&[48, 49, 63]),
        4 => {
            report.time = Time {
                year: random.next() as u8,
                day: random.next() as u16,
                hundredths: random.next() as u32,
            };
            report.control = random.next();
        }
        5 | 6 => report.time.hundredths = random.below(8_640_100) as u32,
        7 => report.control = random.next() >> 16,
        _ => {}
    }
    report
}

fn read(log: &[u8], place: usize, before: Report) -> Result<Read, String> {
    let answer = duskveyra::log_read(log, place, library_report(before))
        .map(|found| found.map(|(report, next)| (plain_report(report), next)))
        .map_err(refused);
    let expected = reference::log_read(log, place, before).map_err(plain_refused);
    agree(
        || format!("log read {log:02x?} place {place} before {before:x?}"),
        answer,
        expected,
    )?;
    Ok(answer)
}

fn write(
    log: &mut Vec<u8>,
    place: usize,
    before: Report,
    report: Report,
) -> Result<Result<Option<usize>, Refused>, String> {
    let length = log.len();
    let mut library = vec![0x5a; length + 2 * GUARD];
    library[GUARD..GUARD + length].copy_from_slice(log);
    let mut plain = library.clone();
    let answer = duskveyra::log_write(
        &mut library[GUARD..GUARD + length],
        place,
        library_report(before),
        library_report(report),
    )
    .map_err(refused);
    let expected = reference::log_write(&mut plain[GUARD..GUARD + length], place, before, report)
        .map_err(plain_refused);
    agree(
        || format!("log write {log:02x?} place {place} before {before:x?} report {report:x?}"),
        (answer, &library),
        (expected, &plain),
    )?;
    log.copy_from_slice(&library[GUARD..GUARD + length]);
    Ok(answer)
}

/// A place in the log, at its end or past it.
fn any_place(random: &mut Random, length: usize) -> usize {
    match random.below(12) {
        0 => length + 1,
        1 => usize::MAX - random.index(3),
        _ => random.index(length + 1),
    }
}

/// Random bytes, as numbers that fields have or as any; read on from a place until that ends. A record that is read is
/// written again at its place and leaves every byte as it was.
fn any_bytes(random: &mut Random, counts: &mut Counts) -> Result<(), String> {
    let some = random.once_in(3);
    let mut log: Vec<u8> = (0..random.below(40))
        .map(|_| match some {
            true => random.next() as u8,
            false => random.pick(&[0, 0, 1, 1, 2, 3, 4, 8, 9, 15, 24, 99, 191, 0x16, 0x80]),
        })
        .collect();
    let mut place = any_place(random, log.len());
    let mut before = any_report(random);
    loop {
        counts.calls += 1;
        match read(&log, place, before)? {
            Ok(Some((report, next))) => {
                let bytes = log.clone();
                let written = write(&mut log, place, before, report)?;
                agree(
                    || format!("written again {bytes:02x?} place {place} {report:x?}"),
                    (written, &log),
                    (Ok(Some(next)), &bytes),
                )?;
                counts.calls += 1;
                counts.records += 1;
                (place, before) = (next, report);
            }
            Ok(None) => break,
            Err(_) => {
                counts.refused_records += 1;
                break;
            }
        }
    }
    Ok(())
}

fn any_write(random: &mut Random, counts: &mut Counts) -> Result<(), String> {
    let mut log = vec![random.next() as u8; random.index(20)];
    let place = any_place(random, log.len());
    let (before, report) = (any_report(random), any_report(random));
    counts.calls += 1;
    if write(&mut log, place, before, report)? == Ok(None) {
        counts.left_out += 1;
    }
    Ok(())
}

/// A list of reports tried on an empty log, and what was put in read again; then that log cut at a place and with a byte
/// changed, both sides read to their end.
fn any_list(random: &mut Random, counts: &mut Counts) -> Result<(), String> {
    let mut buffer = vec![random.next() as u8; random.index(300)];
    let mut library = duskveyra::Log::empty(buffer.clone());
    let (mut place, mut last, mut put_in) = (0, Report::default(), Vec::new());
    for _ in 0..random.below(60) {
        let report = any_report(random);
        let written = write(&mut buffer, place, last, report)?;
        let added = library.add(library_report(report)).map_err(refused);
        agree(
            || format!("add {report:x?} at {place}"),
            added,
            written.map(|next| next.is_some()),
        )?;
        counts.calls += 2;
        if let Ok(Some(next)) = written {
            (place, last) = (next, report);
            put_in.push(report);
        }
    }
    let told = || format!("a log of {} reports", put_in.len());
    let rest = library.clone().into_buffer();
    agree(told, (library.bytes(), &rest), (&buffer[..place], &buffer))?;
    let mut log = buffer[..place].to_vec();
    agree(told, reports(&log, counts)?, (put_in.clone(), None))?;
    log.truncate(random.index(place + 1));
    let (cut, _) = reports(&log, counts)?;
    agree(told, &cut[..], &put_in[..cut.len()])?;
    if !log.is_empty() {
        let index = random.index(log.len());
        log[index] = random.next() as u8;
        reports(&log, counts)?;
    }
    Ok(())
}

/// The reports of a log up to its end or to a record that is refused: by both sides, and by the library's iterator.
fn reports(log: &[u8], counts: &mut Counts) -> Result<(Vec<Report>, Option<Refused>), String> {
    let (mut place, mut last, mut list) = (0, Report::default(), Vec::new());
    let refusal = loop {
        counts.calls += 1;
        match read(log, place, last)? {
            Ok(Some((report, next))) => {
                (place, last) = (next, report);
                list.push(report);
            }
            Ok(None) => break None,
            Err(refusal) => break Some(refusal),
        }
    };
    counts.records += list.len() as u64;
    counts.refused_records += u64::from(refusal.is_some());
    let mut iterator = duskveyra::Reports::of(log);
    let mut by_iterator = Vec::new();
    let mut refused_by_iterator = None;
    for item in &mut iterator {
        match item {
            Ok(report) => by_iterator.push(plain_report(report)),
            Err(x) => refused_by_iterator = Some(refused(x)),
        }
    }
    agree(
        || format!("the reports of {log:02x?}"),
        (by_iterator, refused_by_iterator, iterator.place()),
        (list.clone(), refusal, place),
    )?;
    Ok((list, refusal))
}
