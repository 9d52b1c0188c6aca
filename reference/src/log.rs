//! The compact log of reports: a record is a byte of map and the fields that
//! differ from the report before, lowest byte first.

use crate::{Refusal, Time};

/// A time and a control word. Before the first report of a log all fields
/// count as 0, as in the default.
#[derive(Clone, Copy, Debug, Default, PartialEq, Eq, Hash)]
pub struct Report {
    pub time: Time,
    pub control: u64,
}

/// The bytes of each field, in the order of the map's bits.
const WIDTHS: [usize; 4] = [2, 3, 6, 1];

impl Report {
    fn fields(self) -> [u64; 4] {
        let Time {
            year,
            day,
            hundredths,
        } = self.time;
        [day.into(), hundredths.into(), self.control, year.into()]
    }

    fn check(self) -> Result<(), Refusal> {
        if !self.time.in_range() {
            return Err(Refusal::Time);
        }
        if self.time.year > Time::LAST_YEAR {
            return Err(Refusal::Year);
        }
        if self.control >> 48 != 0 {
            return Err(Refusal::Control);
        }
        Ok(())
    }

    /// The record of this report after another, and its length.
    fn record(self, before: Report) -> ([u8; 13], usize) {
        let (mut record, mut length) = ([0; 13], 1);
        for (bit, (now, before)) in self.fields().into_iter().zip(before.fields()).enumerate() {
            if now != before {
                let end = length + WIDTHS[bit];
                record[0] |= 1 << bit;
                record[length..end].copy_from_slice(&now.to_le_bytes()[..WIDTHS[bit]]);
                length = end;
            }
        }
        (record, length)
    }
}

/// Adds a record at a place: the next place, or none where it does not fit.
pub fn log_write(
    log: &mut [u8],
    place: usize,
    before: Report,
    report: Report,
) -> Result<Option<usize>, Refusal> {
    let rest = log.get_mut(place..).ok_or(Refusal::Start)?;
    report.check()?;
    let (record, length) = report.record(before);
    Ok(rest.get_mut(..length).map(|part| {
        part.copy_from_slice(&record[..length]);
        place + length
    }))
}

/// The report of the record at a place and the next place, or none at the
/// log's end.
pub fn log_read(
    log: &[u8],
    place: usize,
    before: Report,
) -> Result<Option<(Report, usize)>, Refusal> {
    let rest = log.get(place..).ok_or(Refusal::Start)?;
    let Some((map, mut bytes)) = rest.split_first() else {
        return Ok(None);
    };
    let mut fields = before.fields();
    let mut proper = map >> 4 == 0;
    for (bit, field) in fields.iter_mut().enumerate() {
        if map >> bit & 1 == 1 {
            let (own, after) = bytes
                .split_at_checked(WIDTHS[bit])
                .ok_or(Refusal::RecordCut)?;
            let number = own.iter().rev().fold(0, |n, &b| n << 8 | u64::from(b));
            proper &= number != *field;
            *field = number;
            bytes = after;
        }
    }
    if !proper {
        return Err(Refusal::Record);
    }
    let [day, hundredths, control, year] = fields;
    let time = Time {
        year: year as u8,
        day: day as u16,
        hundredths: hundredths as u32,
    };
    let report = Report { time, control };
    report.check()?;
    Ok(Some((report, log.len() - bytes.len())))
}
