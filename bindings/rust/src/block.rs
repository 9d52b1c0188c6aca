//! Whole blocks of symbols.

use crate::{sys, Reader, Refusal};

/// Why a block of symbols stopped.
#[derive(Clone, Copy, Debug, PartialEq, Eq, Hash)]
#[non_exhaustive]
pub enum Stop {
    /// All symbols were taken.
    AllTaken,
    /// The next symbol is above 3.
    UnknownSymbol,
    /// The next symbol brings a report, and the lists are full.
    NoRoom,
    /// A number that this package has no name for: the library of its interface gives none.
    Unknown(u8),
}

/// What a block of symbols brought.
#[derive(Clone, Copy, Debug, PartialEq, Eq, Hash)]
pub struct Block {
    /// How many symbols were taken.
    pub taken: usize,
    /// How many reports were put in.
    pub reports: usize,
    /// Why it stopped.
    pub stop: Stop,
}

impl Reader {
    /// Feeds a block of symbols, as [`feed`](Reader::feed) would one after the other, and puts its reports into five
    /// lists of one length. Entry k of each, counted from 0, is report k: the index in this block, counted from 0, of
    /// the symbol that brought it, which is the last of its frame; then its year, day, hundredths and control word. Entries
    /// past the last report stay as they were. It stops only before the first symbol above 3, or before the first whose
    /// report would not fit; the reader is then as before that symbol.
    ///
    /// Refuses with 13; 26; 3 where the five lengths are not one; in this order, and then feeds nothing and leaves all.
    ///
    /// ```
    /// use duskveyra::{write, Block, Format, Reader, Stop, Time, MARK};
    ///
    /// let format = Format { letter: b'H', expression: 1 };
    /// let mut symbols = [MARK; 121];
    /// write(format, Time { year: 0, day: 191, hundredths: 5_088_000 }, 0, &mut symbols[1..61])?;
    /// write(format, Time { year: 0, day: 191, hundredths: 5_094_000 }, 0b101, &mut symbols[61..])?;
    ///
    /// let mut reader = Reader::fresh(format, 2)?;
    /// let (mut indexes, mut years, mut days) = ([0; 2], [0; 2], [0; 2]);
    /// let (mut hundredths, mut controls) = ([0; 2], [0; 2]);
    /// let block = reader.feed_block(
    ///     &symbols,
    ///     &mut indexes,
    ///     &mut years,
    ///     &mut days,
    ///     &mut hundredths,
    ///     &mut controls,
    /// )?;
    /// assert_eq!(block, Block { taken: 121, reports: 1, stop: Stop::AllTaken });
    /// assert_eq!((indexes, years, days), ([120, 0], [0, 0], [191, 0]));
    /// assert_eq!((hundredths, controls), ([5_094_000, 0], [0b101, 0]));
    /// # Ok::<(), duskveyra::Refusal>(())
    /// ```
    #[inline]
    pub fn feed_block(
        &mut self,
        symbols: &[u8],
        indexes: &mut [usize],
        years: &mut [u8],
        days: &mut [u16],
        hundredths: &mut [u32],
        controls: &mut [u64],
    ) -> Result<Block, Refusal> {
        // SAFETY: the reader's words are lent alone, and each pointer and length are those of one slice that nothing else
        // points into.
        let result = unsafe {
            sys::duskveyra_feed_block(
                &mut self.words,
                symbols.as_ptr(),
                symbols.len(),
                indexes.as_mut_ptr(),
                indexes.len(),
                years.as_mut_ptr(),
                years.len(),
                days.as_mut_ptr(),
                days.len(),
                hundredths.as_mut_ptr(),
                hundredths.len(),
                controls.as_mut_ptr(),
                controls.len(),
            )
        };
        Refusal::check(result.number, 0)?;
        let stop = match result.stop {
            0 => Stop::AllTaken,
            1 => Stop::UnknownSymbol,
            2 => Stop::NoRoom,
            stop => Stop::Unknown(stop),
        };
        Ok(Block {
            taken: result.taken,
            reports: result.reports,
            stop,
        })
    }
}
