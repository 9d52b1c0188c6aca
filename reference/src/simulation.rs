//! A generator that is heard by several listeners, each with its own setting
//! and its own damages.

use crate::clock::USUAL_DAY;
use crate::formats::{Format, Time, SPOILED};
use crate::layout::Layout;
use crate::refusal::Refusal;
use crate::stream::{Answer, Reader};
use crate::{step, write};

const MOST_LISTENERS: usize = 8;

/// A reader's setting, and the elements that come to it as another symbol:
/// their numbers, counted from 1, in rising order.
#[derive(Clone, Debug, PartialEq, Eq)]
pub struct Listener {
    pub setting: u8,
    pub damages: Vec<(u64, u8)>,
}

/// The number of the element that brought the first report, how many reports
/// there were, and how many of them did not give the time of a frame that ends
/// there.
#[derive(Clone, Copy, Debug, Default, PartialEq, Eq)]
pub struct Counts {
    pub first: Option<u64>,
    pub reports: u64,
    pub wrong: u64,
}

impl Listener {
    fn is_proper(&self) -> bool {
        let rising = self.damages.windows(2).all(|pair| pair[0].0 < pair[1].0);
        rising && self.damages.iter().all(|&(_, symbol)| symbol <= SPOILED)
    }

    /// What comes to the listener as that element.
    fn received(&self, number: u64, symbol: u8) -> u8 {
        match self
            .damages
            .binary_search_by_key(&number, |damage| damage.0)
        {
            Ok(index) => self.damages[index].1,
            Err(_) => symbol,
        }
    }
}

impl Counts {
    fn add(&mut self, number: u64, right: bool) {
        self.first = self.first.or(Some(number));
        self.reports += 1;
        self.wrong += u64::from(!right);
    }
}

/// So many frames with control word 0 from the start on, in years of that
/// length and usual days, heard element by element; a damage that lies outside
/// them changes nothing.
pub fn simulate(
    format: Format,
    start: Time,
    frames: u32,
    year_length: u16,
    listeners: &[Listener],
) -> Result<Vec<Counts>, Refusal> {
    step(format, start, year_length, USUAL_DAY)?;
    let mut readers = listeners
        .iter()
        .map(|listener| Reader::fresh(format, listener.setting))
        .collect::<Result<Vec<Reader>, Refusal>>()?;
    if listeners.len() > MOST_LISTENERS || !listeners.iter().all(Listener::is_proper) {
        return Err(Refusal::Listener);
    }

    let mut counts = vec![Counts::default(); listeners.len()];
    let mut frame = vec![0; Layout::of(format)?.elements];
    let mut time = start;
    let mut number = 0;
    for _ in 0..frames {
        write(format, time, 0, &mut frame)?;
        for (index, &symbol) in frame.iter().enumerate() {
            number += 1;
            let ends = index + 1 == frame.len();
            for ((listener, reader), counts) in listeners.iter().zip(&mut readers).zip(&mut counts)
            {
                if let Answer::Report(told, _) = reader.feed(listener.received(number, symbol)) {
                    counts.add(number, ends && told == time);
                }
            }
        }
        time = step(format, time, year_length, USUAL_DAY)?;
    }
    Ok(counts)
}
