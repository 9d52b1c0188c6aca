//! The plain Rust side of the benchmark: the crate `reference`, with the reader's answers as the binding gives them.

pub use reference::{
    classify, classify_list, date_of_day, day_of_date, log_read, log_write, next_after, read, scan,
    step, write, Calendar, Date, DateTime, Format, Refusal, Report, Time, Widths, USUAL_DAY,
};

use duskveyra::sys::BlockResult;
use std::slice::{from_raw_parts, from_raw_parts_mut};

pub struct Reader(reference::Reader);

impl Reader {
    pub fn fresh(format: Format, setting: u8) -> Result<Reader, Refusal> {
        reference::Reader::fresh(format, setting).map(Reader)
    }

    #[inline]
    pub fn feed(&mut self, symbol: u8) -> Result<Option<(Time, u64)>, Refusal> {
        match self.0.feed(symbol) {
            reference::Answer::Quiet => Ok(None),
            reference::Answer::Report(time, control) => Ok(Some((time, control))),
            reference::Answer::Refused(refusal) => Err(refusal),
        }
    }

    /// A block by the rule of `reference`, with its reports in five lists.
    fn put_block(&mut self, symbols: &[u8], lists: Lists) -> BlockResult {
        let mut reports = 0;
        for (taken, &symbol) in symbols.iter().enumerate() {
            // Only with the lists full can a report be one too many.
            let before = (reports == lists.indexes.len()).then(|| self.0.clone());
            let stop = match (self.0.feed(symbol), before) {
                (reference::Answer::Quiet, _) => continue,
                (reference::Answer::Report(time, control), None) => {
                    lists.indexes[reports] = taken;
                    lists.years[reports] = time.year;
                    lists.days[reports] = time.day;
                    lists.hundredths[reports] = time.hundredths;
                    lists.controls[reports] = control;
                    reports += 1;
                    continue;
                }
                (reference::Answer::Report(..), Some(before)) => {
                    self.0 = before;
                    2
                }
                (reference::Answer::Refused(_), _) => 1,
            };
            return stopped(stop, taken, reports);
        }
        stopped(0, symbols.len(), reports)
    }
}

struct Lists<'a> {
    indexes: &'a mut [usize],
    years: &'a mut [u8],
    days: &'a mut [u16],
    hundredths: &'a mut [u32],
    controls: &'a mut [u64],
}

fn stopped(stop: u8, taken: usize, reports: usize) -> BlockResult {
    BlockResult {
        number: 0,
        stop,
        taken,
        reports,
    }
}

/// A block behind a call of the library's kind: every list by pointer and length, the result by value.
pub type FeedBlock = unsafe extern "C" fn(
    *mut Reader,
    *const u8,
    usize,
    *mut usize,
    usize,
    *mut u8,
    usize,
    *mut u16,
    usize,
    *mut u32,
    usize,
    *mut u64,
    usize,
) -> BlockResult;

/// # Safety
///
/// The reader and each list are lent alone, each list with its own length.
pub unsafe extern "C" fn feed_block(
    reader: *mut Reader,
    symbols: *const u8,
    count: usize,
    indexes: *mut usize,
    indexes_length: usize,
    years: *mut u8,
    years_length: usize,
    days: *mut u16,
    days_length: usize,
    hundredths: *mut u32,
    hundredths_length: usize,
    controls: *mut u64,
    controls_length: usize,
) -> BlockResult {
    let lengths = [
        years_length,
        days_length,
        hundredths_length,
        controls_length,
    ];
    if lengths.iter().any(|&length| length != indexes_length) {
        return BlockResult {
            number: 3,
            ..stopped(0, 0, 0)
        };
    }
    // SAFETY: the caller lends the reader and each list alone, each list with its own length.
    unsafe {
        let lists = Lists {
            indexes: from_raw_parts_mut(indexes, indexes_length),
            years: from_raw_parts_mut(years, years_length),
            days: from_raw_parts_mut(days, days_length),
            hundredths: from_raw_parts_mut(hundredths, hundredths_length),
            controls: from_raw_parts_mut(controls, controls_length),
        };
        (*reader).put_block(from_raw_parts(symbols, count), lists)
    }
}
