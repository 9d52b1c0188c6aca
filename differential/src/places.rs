//! One element lost, or one symbol put in, at every place of a generator's stream, in every format with every setting: what is
//! reported is the generator's for the frame whose digits fill the last n.

use crate::random::Random;
use crate::streams::{digits_end, format_of, frame, sent, table, FORMATS};
use crate::{agree, by_definition, calls, fed, window};
use reference::{Format, Time, SPOILED};
use std::ops::RangeInclusive;

const SETTINGS: RangeInclusive<u8> = 2..=5;

/// What was tried, and the reports with the settings 2 to 5.
#[derive(Default)]
pub struct Tried {
    pub streams: u64,
    pub symbols: u64,
    pub reports: [u64; 4],
    /// Those whose window has the place of the loss, or the symbol that was put in.
    pub across: [u64; 4],
}

/// How a stream differs from the generator's.
#[derive(Clone, Copy, Debug)]
enum Change {
    Lost(usize),
    PutIn(usize, u8),
}

impl Change {
    /// The number, from 0, of the generator's element that stands at an index of the stream; none of a symbol that was put in.
    fn element_at(self, index: usize) -> Option<usize> {
        match self {
            Change::Lost(place) => Some(index + usize::from(index >= place)),
            Change::PutIn(place, _) if index == place => None,
            Change::PutIn(place, _) => Some(index - usize::from(index > place)),
        }
    }

    /// Whether the elements from one index to another are not consecutive ones of the generator.
    fn within(self, first: usize, last: usize) -> bool {
        match self {
            Change::Lost(place) => first < place && place <= last,
            Change::PutIn(place, _) => first <= place && place <= last,
        }
    }
}

/// A generator and a reader's setting.
struct Run {
    format: Format,
    setting: u8,
    sent: Vec<(Time, u64)>,
    elements: Vec<u8>,
}

impl Run {
    /// As many frames as fill a window behind each place of the first two.
    fn new(random: &mut Random, format: Format, setting: u8) -> Run {
        let sent = sent(random, format, usize::from(setting) + 2);
        let elements = sent
            .iter()
            .flat_map(|&(time, control)| frame(format, time, control))
            .collect();
        Run {
            format,
            setting,
            sent,
            elements,
        }
    }

    /// The generator's frame whose digits fill the n elements up to an index of the stream.
    fn frame_up_to(&self, change: Change, last: usize) -> Option<(Time, u64)> {
        let n = table(self.format).0;
        let end = digits_end(self.format);
        let first = change.element_at(last + 2 - n)?;
        let digits = change.element_at(last + 1 + end - n)? - first;
        (first % n == 1 && digits == end - 1).then(|| self.sent[first / n])
    }

    /// The stream from the place on, by a reader that was fed what stands before it.
    fn receive(
        &self,
        change: Change,
        mut reader: duskveyra::Reader,
        tried: &mut Tried,
    ) -> Result<(), String> {
        let (place, put_in, rest) = match change {
            Change::Lost(place) => (place, None, place + 1),
            Change::PutIn(place, symbol) => (place, Some(symbol), place),
        };
        let mut list = self.elements[..place].to_vec();
        for &symbol in put_in.iter().chain(&self.elements[rest..]) {
            let answer = fed(reader.feed(symbol));
            let expected = by_definition(self.format, self.setting, &mut list, symbol);
            let last = list.len() - 1;
            let at = || self.context(change, last);
            agree(at, answer, expected)?;
            tried.symbols += 1;
            let Ok(Some(report)) = expected else {
                continue;
            };
            if self.frame_up_to(change, last) != Some(report) {
                return Err(format!("{}\n  false report {report:?}", at()));
            }
            let window = window(self.format, self.setting);
            let k = usize::from(self.setting) - 2;
            tried.reports[k] += 1;
            tried.across[k] += u64::from(change.within(last + 1 - window, last));
        }
        tried.streams += 1;
        Ok(())
    }

    fn context(&self, change: Change, last: usize) -> String {
        format!(
            "{:?}, setting {}, {change:?} of the elements of {:?}, index {last}",
            self.format, self.setting, self.sent
        )
    }

    /// Every place, with every symbol.
    fn receive_all(&self, tried: &mut Tried) -> Result<(), String> {
        let format = calls::library_format(self.format);
        let mut reader = duskveyra::Reader::fresh(format, self.setting)
            .map_err(|refusal| format!("{:?}: {refusal}", self.format))?;
        for place in 0..=self.elements.len() {
            for symbol in 0..=SPOILED {
                self.receive(Change::PutIn(place, symbol), reader.clone(), tried)?;
            }
            let Some(&element) = self.elements.get(place) else {
                break;
            };
            self.receive(Change::Lost(place), reader.clone(), tried)?;
            reader
                .feed(element)
                .map_err(|refusal| format!("{:?}, element {place}: {refusal}", self.format))?;
        }
        Ok(())
    }
}

/// Every place of a stream of every format with every setting; each brings reports, also ones across the place.
pub fn run_places(random: &mut Random) -> Result<Tried, String> {
    let mut all = Tried::default();
    for letter_and_expression in FORMATS {
        for setting in SETTINGS {
            let run = Run::new(random, format_of(letter_and_expression), setting);
            let mut tried = Tried::default();
            run.receive_all(&mut tried)?;
            let k = usize::from(setting) - 2;
            if tried.reports[k] == 0 || tried.across[k] == 0 {
                return Err(format!(
                    "{:?}, setting {setting}: {} reports, {} across the place",
                    run.format, tried.reports[k], tried.across[k]
                ));
            }
            all.streams += tried.streams;
            all.symbols += tried.symbols;
            all.reports[k] += tried.reports[k];
            all.across[k] += tried.across[k];
        }
    }
    Ok(all)
}
