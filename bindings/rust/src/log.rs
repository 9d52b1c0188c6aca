//! The compact log of reports.

use crate::{sys, Refusal, Report, Time};

/// The bytes of the longest record.
pub const LONGEST_RECORD: usize = 13;

impl Report {
    /// Before the first report of a log: all fields count as 0.
    pub const NONE: Report = Report {
        time: Time {
            year: 0,
            day: 0,
            hundredths: 0,
        },
        control: 0,
    };
}

/// Adds the record of a report to a log, at a place: one byte of map, then the fields that differ from the report before,
/// lowest byte first: bit 0 the day (2 bytes), bit 1 the hundredths (3), bit 2 the control word (6), bit 3 the year (1).
/// The report before is the last one put in, or [`Report::NONE`] where the log is empty; it is not checked. The answer is
/// the next place, or `None` where the record does not fit and is left out. Every byte but the record's stays.
///
/// Refuses with 12 where `place` is past the end; 2; 17; 9 for a control word over 48 bits; in this order.
#[inline]
pub fn log_write(
    log: &mut [u8],
    place: usize,
    before: Report,
    report: Report,
) -> Result<Option<usize>, Refusal> {
    // SAFETY: the pointer and the length are those of one lent slice, which nothing else points into.
    let result =
        unsafe { sys::duskveyra_log_write(log.as_mut_ptr(), log.len(), place, before, report) };
    Refusal::check(result.number, 0)?;
    Ok((result.put_in != 0).then_some(result.next))
}

/// Reads the record at a place of a log, after the report before: its report and the next place; `None` exactly at the
/// log's end.
///
/// Refuses with 12 where `place` is past the end; 19; 20; then, by the whole report, 2; 17; 9; in this order.
#[inline]
pub fn log_read(
    log: &[u8],
    place: usize,
    before: Report,
) -> Result<Option<(Report, usize)>, Refusal> {
    // SAFETY: the pointer and the length are those of one slice.
    let result = unsafe { sys::duskveyra_log_read(log.as_ptr(), log.len(), place, before) };
    Refusal::check(result.number, 0)?;
    Ok((result.found != 0).then_some((result.report, result.next)))
}

/// A log in a buffer: the buffer, the next place and the last report put in.
#[derive(Clone, Debug)]
pub struct Log<B> {
    buffer: B,
    place: usize,
    last: Report,
}

impl<B: AsRef<[u8]> + AsMut<[u8]>> Log<B> {
    /// An empty log, in a buffer with any content.
    #[inline]
    pub fn empty(buffer: B) -> Log<B> {
        Log::from_parts(buffer, 0, Report::NONE)
    }

    /// The log whose records stand before `place`, with `last` the last report put in, as a log's parts once were.
    #[inline]
    pub fn from_parts(buffer: B, place: usize, last: Report) -> Log<B> {
        Log {
            buffer,
            place,
            last,
        }
    }

    /// Adds a report: `true` where its record was put in, `false` where it does not fit and the log stays as it is.
    ///
    /// Refuses with 12 where `place` of [`from_parts`](Log::from_parts) is past the end; 2; 17; 9; in this order, and
    /// leaves the log as it is.
    #[inline]
    pub fn add(&mut self, report: Report) -> Result<bool, Refusal> {
        let next = log_write(self.buffer.as_mut(), self.place, self.last, report)?;
        if let Some(next) = next {
            self.place = next;
            self.last = report;
        }
        Ok(next.is_some())
    }

    /// The records: the buffer's bytes before the place.
    #[inline]
    pub fn bytes(&self) -> &[u8] {
        let buffer = self.buffer.as_ref();
        &buffer[..self.place.min(buffer.len())]
    }

    /// The next place.
    #[inline]
    pub fn place(&self) -> usize {
        self.place
    }

    /// The last report put in, or [`Report::NONE`].
    #[inline]
    pub fn last(&self) -> Report {
        self.last
    }

    /// The buffer, with the records before the place.
    #[inline]
    pub fn into_buffer(self) -> B {
        self.buffer
    }
}

/// The reports of a log, one after the other. At a record that is refused it gives the refusal and ends.
#[derive(Clone, Debug)]
pub struct Reports<'a> {
    log: &'a [u8],
    place: usize,
    before: Report,
    refused: bool,
}

impl<'a> Reports<'a> {
    /// Those of a log from its start. The log's end is the end of `log`.
    #[inline]
    pub fn of(log: &'a [u8]) -> Reports<'a> {
        Reports {
            log,
            place: 0,
            before: Report::NONE,
            refused: false,
        }
    }

    /// The place of the next record; where one was refused, that record's.
    #[inline]
    pub fn place(&self) -> usize {
        self.place
    }

    /// The report before that record: the last one read, or [`Report::NONE`].
    #[inline]
    pub fn before(&self) -> Report {
        self.before
    }
}

impl Iterator for Reports<'_> {
    type Item = Result<Report, Refusal>;

    #[inline]
    fn next(&mut self) -> Option<Result<Report, Refusal>> {
        if self.refused {
            return None;
        }
        match log_read(self.log, self.place, self.before) {
            Ok(found) => found.map(|(report, next)| {
                self.before = report;
                self.place = next;
                Ok(report)
            }),
            Err(refusal) => {
                self.refused = true;
                Some(Err(refusal))
            }
        }
    }
}

impl std::iter::FusedIterator for Reports<'_> {}
