//! Blocks through the safe types: the same as single Feeds at every split of a recording, with any room; what stops them,
//! what refuses them, and what they leave.

use duskveyra::{write, Block, Format, Reader, Refusal, Report, Stop, Time, READER_WORDS};
use std::ops::Range;

/// An entry that no report makes.
const UNTOUCHED: (usize, u8, u16, u32, u64) =
    (usize::MAX, 0xa5, 0xa5a5, 0xa5a5_a5a5, 0xa5a5_a5a5_a5a5_a5a5);
/// Entries behind the lent ones.
const GUARD: usize = 3;

/// The lent list of records, as five lists.
struct Lists {
    room: usize,
    indexes: Vec<usize>,
    years: Vec<u8>,
    days: Vec<u16>,
    hundredths: Vec<u32>,
    controls: Vec<u64>,
}

impl Lists {
    fn new(room: usize) -> Lists {
        Lists {
            room,
            indexes: vec![UNTOUCHED.0; room + GUARD],
            years: vec![UNTOUCHED.1; room + GUARD],
            days: vec![UNTOUCHED.2; room + GUARD],
            hundredths: vec![UNTOUCHED.3; room + GUARD],
            controls: vec![UNTOUCHED.4; room + GUARD],
        }
    }

    /// A block into the lists from an entry on.
    fn feed(&mut self, reader: &mut Reader, symbols: &[u8], from: usize) -> Result<Block, Refusal> {
        let lent = from..self.room;
        reader.feed_block(
            symbols,
            &mut self.indexes[lent.clone()],
            &mut self.years[lent.clone()],
            &mut self.days[lent.clone()],
            &mut self.hundredths[lent.clone()],
            &mut self.controls[lent],
        )
    }

    /// The first entries as indexes and reports; all others must be untouched.
    fn reports(&self, count: usize) -> Vec<(usize, Report)> {
        for index in count..self.room + GUARD {
            let record = (
                self.indexes[index],
                self.years[index],
                self.days[index],
                self.hundredths[index],
                self.controls[index],
            );
            assert_eq!(record, UNTOUCHED);
        }
        (0..count)
            .map(|index| {
                let time = Time {
                    year: self.years[index],
                    day: self.days[index],
                    hundredths: self.hundredths[index],
                };
                let control = self.controls[index];
                (self.indexes[index], Report { time, control })
            })
            .collect()
    }
}

/// A recording, and what single Feeds make of it.
struct Recording {
    symbols: Vec<u8>,
    /// The reader after each number of symbols.
    after: Vec<Reader>,
    /// The index of each symbol that brings a report, and the report.
    reports: Vec<(usize, Report)>,
}

impl Recording {
    /// A frame's last two symbols, then frames in succession, to a reader with this setting.
    fn new(letter: u8, expression: u8, setting: u8, frames: u32) -> Recording {
        let format = Format { letter, expression };
        let (n, interval, control, year) = match (letter, expression) {
            (b'B', 0) => (100, 100, 0x7ff_ffff, 0),
            (b'B', 4) => (100, 100, 0x3_ffff, 99),
            (b'E', 1) => (100, 1_000, 0x1fff_ffff_ffff, 0),
            (b'H', 1) => (60, 6_000, 0x1ff, 0),
            (b'X', 2) => (25, 100, 0, 0),
            _ => panic!("no format of these tests"),
        };
        let day = if letter == b'X' { 1 } else { 7 };
        let mut symbols = vec![0, 2];
        let mut frame = vec![0; n];
        for index in 0..frames {
            let time = Time {
                year,
                day,
                hundredths: index * interval,
            };
            let word = u64::saturating_sub(control, index.into());
            write(format, time, word, &mut frame).expect("a time and a word");
            symbols.extend_from_slice(&frame);
        }
        let mut after = vec![Reader::fresh(format, setting).expect("a format")];
        let mut reports = Vec::new();
        for (index, &symbol) in symbols.iter().enumerate() {
            let mut reader = after[index].clone();
            let report = reader.feed(symbol).expect("a symbol");
            reports.extend(report.map(|report| (index, report)));
            after.push(reader);
        }
        assert_eq!(reports.len() as u32, frames + 1 - u32::from(setting));
        Recording {
            symbols,
            after,
            reports,
        }
    }

    /// The reports that these symbols bring, with indexes that count from the first of them.
    fn reports_of(&self, symbols: Range<usize>) -> Vec<(usize, Report)> {
        let all = self.reports.iter();
        all.filter(|(index, _)| symbols.contains(index))
            .map(|(index, report)| (index - symbols.start, *report))
            .collect()
    }

    /// One block of a fresh reader: it must take so many symbols, with their reports, and stop so.
    fn check(&self, symbols: &[u8], room: usize, taken: usize, stop: Stop) {
        let mut reader = self.after[0].clone();
        let mut lists = Lists::new(room);
        let reports = self.reports_of(0..taken);
        let expected = Block {
            taken,
            reports: reports.len(),
            stop,
        };
        assert_eq!(lists.feed(&mut reader, symbols, 0), Ok(expected));
        assert_eq!(lists.reports(reports.len()), reports);
        assert_eq!(reader, self.after[taken]);
    }
}

fn recordings(frames: u32) -> [Recording; 7] {
    [
        (b'B', 0, 2),
        (b'B', 4, 2),
        (b'E', 1, 3),
        (b'H', 1, 4),
        (b'H', 1, 5),
        (b'X', 2, 2),
        (b'X', 2, 5),
    ]
    .map(|(letter, expression, setting)| Recording::new(letter, expression, setting, frames))
}

/// The second block's indexes are less by the first's length.
#[test]
fn every_split_gives_what_single_feeds_give() {
    for recording in recordings(12) {
        let symbols = &recording.symbols;
        for split in 0..=symbols.len() {
            let (first, second) = symbols.split_at(split);
            let mut reader = recording.after[0].clone();
            let mut lists = Lists::new(16);
            let one = lists.feed(&mut reader, first, 0).expect("a reader");
            assert_eq!((one.taken, one.stop), (first.len(), Stop::AllTaken));
            let mut expected = recording.reports_of(0..split);
            assert_eq!(lists.reports(one.reports), expected);
            assert_eq!(reader, recording.after[split]);
            let two = lists
                .feed(&mut reader, second, one.reports)
                .expect("a reader");
            assert_eq!((two.taken, two.stop), (second.len(), Stop::AllTaken));
            expected.extend(recording.reports_of(split..symbols.len()));
            assert_eq!(lists.reports(one.reports + two.reports), expected);
            assert_eq!(reader, recording.after[symbols.len()]);
        }
    }
}

#[test]
fn blocks_of_any_size_give_what_single_feeds_give() {
    let recording = Recording::new(b'B', 0, 2, 40);
    let symbols = &recording.symbols;
    let sizes = (1..=20).chain([100, 101, 223, 224, 225, 511, 512, 513, 1024, 4001, 4002]);
    for size in sizes {
        let mut reader = recording.after[0].clone();
        let mut lists = Lists::new(64);
        let mut expected = Vec::new();
        let (mut taken, mut count) = (0, 0);
        for part in symbols.chunks(size) {
            let block = lists.feed(&mut reader, part, count).expect("a reader");
            assert_eq!((block.taken, block.stop), (part.len(), Stop::AllTaken));
            expected.extend(recording.reports_of(taken..taken + part.len()));
            taken += part.len();
            count += block.reports;
        }
        assert_eq!(lists.reports(count), expected);
        assert_eq!(reader, recording.after[symbols.len()]);
    }
}

/// Indexes above 65,535.
#[test]
fn a_long_block_gives_what_single_feeds_give() {
    let recording = Recording::new(b'B', 0, 2, 700);
    let symbols = &recording.symbols;
    recording.check(symbols, 699, symbols.len(), Stop::AllTaken);
}

/// With every room from none on, and every length: where the last symbol just fills the list, all are taken.
#[test]
fn without_room_it_stops_before_the_report() {
    for recording in recordings(7) {
        for room in 0..=recording.reports.len() + 1 {
            let end = recording.reports.get(room).map(|(index, _)| *index);
            for length in 0..=recording.symbols.len() {
                let symbols = &recording.symbols[..length];
                match end {
                    Some(end) if end < length => recording.check(symbols, room, end, Stop::NoRoom),
                    _ => recording.check(symbols, room, length, Stop::AllTaken),
                }
            }
        }
    }
}

#[test]
fn it_goes_on_after_it_stopped() {
    let recording = Recording::new(b'B', 0, 2, 7);
    let whole = recording.symbols.len();
    let mut reader = recording.after[0].clone();
    let mut taken = 0;
    for (index, report) in &recording.reports {
        let mut none = Lists::new(0);
        let stopped = none.feed(&mut reader, &recording.symbols[taken..], 0);
        taken = *index;
        assert_eq!(stopped.map(|block| block.stop), Ok(Stop::NoRoom));
        assert_eq!(reader, recording.after[taken]);
        let mut one = Lists::new(1);
        let symbol = &recording.symbols[taken..=taken];
        let block = one.feed(&mut reader, symbol, 0).expect("a reader");
        assert_eq!((block.taken, block.stop), (1, Stop::AllTaken));
        assert_eq!(one.reports(block.reports), [(0, *report)]);
        taken += 1;
    }
    assert_eq!((taken, &reader), (whole, &recording.after[whole]));
}

/// At every index, with room for none, two and all reports: what comes first stops it.
#[test]
fn it_stops_before_a_symbol_above_3() {
    for recording in recordings(8) {
        for at in 0..recording.symbols.len() {
            for symbol in [4, 5, 128, 255] {
                let mut symbols = recording.symbols.clone();
                symbols[at] = symbol;
                for room in [0, 2, 9] {
                    match recording.reports.get(room) {
                        Some(&(end, _)) if end < at => {
                            recording.check(&symbols, room, end, Stop::NoRoom)
                        }
                        _ => recording.check(&symbols, room, at, Stop::UnknownSymbol),
                    }
                }
            }
        }
    }
}

#[test]
fn no_symbols_change_nothing() {
    let recording = Recording::new(b'H', 1, 2, 4);
    let nothing = Block {
        taken: 0,
        reports: 0,
        stop: Stop::AllTaken,
    };
    for reader in &recording.after {
        for room in 0..3 {
            let mut fed = reader.clone();
            let mut lists = Lists::new(room);
            assert_eq!(lists.feed(&mut fed, &[], 0), Ok(nothing));
            assert_eq!(&fed, reader);
            assert_eq!(lists.reports(0), []);
        }
    }
}

/// A refused block, of all symbols and of none: the number, and nothing changed.
fn refused(recording: &Recording, reader: &Reader, lengths: [usize; 5], refusal: Refusal) {
    for symbols in [&recording.symbols[..], &[], &[255]] {
        let mut fed = reader.clone();
        let mut lists = Lists::new(8);
        let block = fed.feed_block(
            symbols,
            &mut lists.indexes[..lengths[0]],
            &mut lists.years[..lengths[1]],
            &mut lists.days[..lengths[2]],
            &mut lists.hundredths[..lengths[3]],
            &mut lists.controls[..lengths[4]],
        );
        assert_eq!(block, Err(refusal));
        assert_eq!(&fed, reader);
        assert_eq!(lists.reports(0), []);
    }
}

/// The reader with these words is refused so, whatever the lengths.
fn refused_first(recording: &Recording, words: [u64; READER_WORDS], refusal: Refusal) {
    let reader = Reader::from_words(words);
    refused(recording, &reader, [8; 5], refusal);
    refused(recording, &reader, [0; 5], refusal);
    refused(recording, &reader, [0, 1, 2, 3, 4], refusal);
    for list in 0..5 {
        for (common, odd) in [(8, 7), (7, 8)] {
            let mut lengths = [common; 5];
            lengths[list] = odd;
            refused(recording, &reader, lengths, refusal);
        }
    }
}

#[test]
fn refusals_change_nothing() {
    let recording = Recording::new(b'H', 1, 2, 6);
    let fresh = &recording.after[0];
    // Each of the five lengths from 0 to 5.
    for number in 0..6_usize.pow(5) {
        let lengths = [0, 1, 2, 3, 4].map(|list| number / 6_usize.pow(list) % 6);
        if lengths != [lengths[0]; 5] {
            refused(&recording, fresh, lengths, Refusal::WrongLength);
        }
    }
    // A letter or an expression that is none, or no byte, or a place past a frame's end; with any setting, and with wrong
    // lengths too. Then a setting that is none, or no byte.
    let wrong = [
        (0, u64::from(b'C')),
        (0, 256 + u64::from(b'H')),
        (1, 0),
        (1, 257),
        (3, 60),
        (3, u64::MAX),
    ];
    let settings = [0, 1, 6, 255, 256 + 2, u64::MAX];
    for (word, value) in wrong {
        let mut words = recording.after[100].words();
        words[word] = value;
        for setting in settings.into_iter().chain(2..=5) {
            words[2] = setting;
            refused_first(&recording, words, Refusal::InvalidReader);
        }
    }
    for setting in settings {
        let mut words = recording.after[100].words();
        words[2] = setting;
        refused_first(&recording, words, Refusal::InvalidSetting);
    }
}
