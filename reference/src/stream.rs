//! The stream reader: reports a time with the element that ends the last of as
//! many good frames in succession as its setting says.

use crate::clock::follows;
use crate::formats::{Format, Time, MARK, SPOILED};
use crate::frame::decode;
use crate::layout::{Layout, MAX_ELEMENTS};
use crate::refusal::Refusal;

const MIN_SETTING: u8 = 2;
const MAX_SETTING: u8 = 5;

/// A mark and as many of the longest frames as a setting asks for at most.
const MAX_WINDOW: usize = MAX_SETTING as usize * MAX_ELEMENTS + 1;

/// What feeding one symbol gives.
#[derive(Clone, Copy, Debug, PartialEq, Eq)]
pub enum Answer {
    Quiet,
    Report(Time, u64),
    Refused(Refusal),
}

/// Hears one symbol at a time and, with the setting k, keeps the last kn + 1 of
/// them, in X the last kn.
#[derive(Clone, Debug, PartialEq, Eq)]
pub struct Reader {
    format: Format,
    layout: &'static Layout,
    setting: u8,
    /// Ring of the window's symbols, held twice in a row so that they can be
    /// seen in one piece. What has not been heard yet is spoiled.
    ring: [u8; 2 * MAX_WINDOW],
    /// Where the next symbol goes, below the window's length.
    head: usize,
    /// Symbols accepted so far, modulo n.
    place: usize,
}

impl Reader {
    /// A reader with a setting of 2 to 5 that has heard nothing.
    pub fn fresh(format: Format, setting: u8) -> Result<Reader, Refusal> {
        let layout = Layout::of(format)?;
        if !(MIN_SETTING..=MAX_SETTING).contains(&setting) {
            return Err(Refusal::Setting);
        }
        Ok(Reader {
            format,
            layout,
            setting,
            ring: [SPOILED; 2 * MAX_WINDOW],
            head: 0,
            place: 0,
        })
    }

    pub fn format(&self) -> Format {
        self.format
    }

    /// The number of symbols accepted so far, modulo n.
    pub fn place(&self) -> usize {
        self.place
    }

    /// Hears one symbol. A refused symbol changes nothing.
    pub fn feed(&mut self, symbol: u8) -> Answer {
        if symbol > SPOILED {
            return Answer::Refused(Refusal::Symbol);
        }
        self.push(symbol);
        if symbol != self.layout.last_symbol() {
            return Answer::Quiet;
        }
        match self.newest_frame() {
            Some((time, control)) => Answer::Report(time, control),
            None => Answer::Quiet,
        }
    }

    fn push(&mut self, symbol: u8) {
        let window = self.window_length();
        self.ring[self.head] = symbol;
        self.ring[self.head + window] = symbol;
        self.head = if self.head + 1 == window {
            0
        } else {
            self.head + 1
        };
        self.place = if self.place + 1 == self.layout.elements {
            0
        } else {
            self.place + 1
        };
    }

    /// The last frame's reading, if the last kn + 1 symbols are a mark and k
    /// good frames, in X the last kn k good frames, each next after the one
    /// before.
    fn newest_frame(&self) -> Option<(Time, u64)> {
        let window = &self.ring[self.head..][..self.window_length()];
        let (lead, frames) = window.split_at(self.layout.lead());
        if lead.iter().any(|&symbol| symbol != MARK) {
            return None;
        }
        let mut readings = frames
            .chunks_exact(self.layout.elements)
            .map(|frame| decode(self.layout, frame).ok());
        let first = readings.next()??;
        readings.try_fold(first, |(before, _), reading| {
            let (time, control) = reading?;
            follows(self.layout, before, time).then_some((time, control))
        })
    }

    fn window_length(&self) -> usize {
        usize::from(self.setting) * self.layout.elements + self.layout.lead()
    }
}
