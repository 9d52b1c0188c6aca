//! Whole blocks of symbols: single Feeds one after the other.

use crate::formats::Time;
use crate::refusal::Refusal;
use crate::stream::{Answer, Reader};

/// Why a block stopped.
#[derive(Clone, Copy, Debug, PartialEq, Eq)]
pub enum Stop {
    AllTaken,
    UnknownSymbol,
    NoRoom,
}

/// Symbols taken, reports put in, and why it stopped.
#[derive(Clone, Copy, Debug, PartialEq, Eq)]
pub struct Block {
    pub taken: usize,
    pub reports: usize,
    pub stop: Stop,
}

impl Reader {
    /// Feeds the symbols one by one and puts the reports into `records` from its
    /// start, each with the index of the symbol that brought it. It stops before
    /// a symbol above 3 and before one whose report would not fit, with the
    /// reader as before that symbol.
    pub fn feed_block(
        &mut self,
        symbols: &[u8],
        records: &mut [(usize, Time, u64)],
    ) -> Result<Block, Refusal> {
        let mut reports = 0;
        for (taken, &symbol) in symbols.iter().enumerate() {
            // Only with the records full can a report be one too many.
            let before = (reports == records.len()).then(|| self.clone());
            let stop = match (self.feed(symbol), before) {
                (Answer::Quiet, _) => continue,
                (Answer::Report(time, control), None) => {
                    records[reports] = (taken, time, control);
                    reports += 1;
                    continue;
                }
                (Answer::Report(..), Some(before)) => {
                    *self = before;
                    Stop::NoRoom
                }
                (Answer::Refused(Refusal::Symbol), _) => Stop::UnknownSymbol,
                (Answer::Refused(refusal), _) => return Err(refusal),
            };
            return Ok(Block {
                taken,
                reports,
                stop,
            });
        }
        Ok(Block {
            taken: symbols.len(),
            reports,
            stop: Stop::AllTaken,
        })
    }
}
