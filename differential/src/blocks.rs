//! Streams in blocks of random sizes with random room: the library's block against its own single Feeds and against
//! `reference`; and blocks of any reader into lists of any lengths.

use crate::calls::{any_words, library_format, refused_reader};
use crate::random::Random;
use crate::streams::{format_of, setting, stream, table, FORMATS};
use crate::{agree, fed, plain_fed, Counts, DAY, HUNDREDTHS, PLACE, YEAR};
use reference::{Format, Stop, Time};

/// How many blocks of any reader go with a stream.
const TURNS: usize = 10;

/// A report with the index of the symbol that brought it, or an entry of the lent list.
type Record = (usize, Time, u64);

/// What stands in a lent list before a call: no report has it.
const UNTOUCHED: Record = (
    usize::MAX,
    Time {
        year: 0xa5,
        day: 0xa5a5,
        hundredths: 0xa5a5_a5a5,
    },
    0xa5a5_a5a5_a5a5_a5a5,
);

/// Symbols taken, reports put in, and why it stopped; or the number of a refusal.
type Block = Result<(usize, usize, Stop), u8>;

/// The library's lent list: a list for each field, one or two of them perhaps of another length.
#[derive(Debug, PartialEq)]
struct Lists {
    indexes: Vec<usize>,
    years: Vec<u8>,
    days: Vec<u16>,
    hundredths: Vec<u32>,
    controls: Vec<u64>,
}

impl Lists {
    fn new(lengths: [usize; 5]) -> Lists {
        let (index, time, control) = UNTOUCHED;
        Lists {
            indexes: vec![index; lengths[0]],
            years: vec![time.year; lengths[1]],
            days: vec![time.day; lengths[2]],
            hundredths: vec![time.hundredths; lengths[3]],
            controls: vec![control; lengths[4]],
        }
    }

    fn of(records: &[Record]) -> Lists {
        Lists {
            indexes: records.iter().map(|record| record.0).collect(),
            years: records.iter().map(|record| record.1.year).collect(),
            days: records.iter().map(|record| record.1.day).collect(),
            hundredths: records.iter().map(|record| record.1.hundredths).collect(),
            controls: records.iter().map(|record| record.2).collect(),
        }
    }
}

fn by_block(reader: &mut duskveyra::Reader, symbols: &[u8], lengths: [usize; 5]) -> (Block, Lists) {
    let mut lists = Lists::new(lengths);
    let block = reader.feed_block(
        symbols,
        &mut lists.indexes,
        &mut lists.years,
        &mut lists.days,
        &mut lists.hundredths,
        &mut lists.controls,
    );
    let answer = block.map(|block| {
        let stop = match block.stop {
            duskveyra::Stop::AllTaken => Stop::AllTaken,
            duskveyra::Stop::UnknownSymbol => Stop::UnknownSymbol,
            duskveyra::Stop::NoRoom => Stop::NoRoom,
            other => panic!("stopped for {other:?}"),
        };
        (block.taken, block.reports, stop)
    });
    (answer.map_err(|refusal| refusal.number()), lists)
}

/// What the library's single Feeds give where a block must stop as document 02 says.
fn by_single_feeds(reader: &mut duskveyra::Reader, symbols: &[u8], room: usize) -> (Block, Lists) {
    let mut records = vec![UNTOUCHED; room];
    let mut reports = 0;
    for (taken, &symbol) in symbols.iter().enumerate() {
        let before = reader.clone();
        let stopped = match fed(reader.feed(symbol)) {
            Ok(None) => continue,
            Ok(Some((time, control))) if reports < room => {
                records[reports] = (taken, time, control);
                reports += 1;
                continue;
            }
            Ok(Some(_)) => Ok((taken, reports, Stop::NoRoom)),
            Err((4, _)) => Ok((taken, reports, Stop::UnknownSymbol)),
            Err((number, _)) => Err(number),
        };
        *reader = before;
        return (stopped, Lists::of(&records));
    }
    let all = (symbols.len(), reports, Stop::AllTaken);
    (Ok(all), Lists::of(&records))
}

fn by_reference(reader: &mut reference::Reader, symbols: &[u8], room: usize) -> (Block, Lists) {
    let mut records = vec![UNTOUCHED; room];
    let block = reader.feed_block(symbols, &mut records);
    let answer = block.map(|block| (block.taken, block.reports, block.stop));
    (
        answer.map_err(|refusal| refusal.number()),
        Lists::of(&records),
    )
}

/// Blocks of a few symbols, of about two frames, of about the 512 that the library takes together, and longer ones.
fn size(random: &mut Random) -> usize {
    match random.below(5) {
        0 => random.index(20),
        1 => 200 + random.index(60),
        2 => 500 + random.index(30),
        3 => random.index(4000),
        _ => random.index(300),
    }
}

/// The library's reader that is fed blocks, the one that is fed singly, and the reader of `reference`.
struct Readers {
    block: duskveyra::Reader,
    single: duskveyra::Reader,
    plain: reference::Reader,
}

impl Readers {
    fn fresh(format: Format, setting: u8) -> Result<Readers, String> {
        let block = duskveyra::Reader::fresh(library_format(format), setting)
            .map_err(|refusal| format!("{format:?}: {refusal}"))?;
        Ok(Readers {
            single: block.clone(),
            block,
            plain: reference::Reader::fresh(format, setting).expect("a format and a setting"),
        })
    }

    /// One block to all three: symbols taken, reports put in, and why it stopped.
    fn feed_block(&mut self, symbols: &[u8], room: usize) -> Result<(usize, usize, Stop), String> {
        let block = by_block(&mut self.block, symbols, [room; 5]);
        let plain = by_reference(&mut self.plain, symbols, room);
        agree(|| "the block of reference".to_string(), &block, &plain)?;
        let single = by_single_feeds(&mut self.single, symbols, room);
        agree(|| "single feeds".to_string(), &block, &single)?;
        self.agree()?;
        block.0.map_err(|number| format!("refused {number}"))
    }

    /// One symbol to all three.
    fn feed(&mut self, symbol: u8) -> Result<(), String> {
        let answer = fed(self.block.feed(symbol));
        let plain = plain_fed(self.plain.feed(symbol));
        agree(|| format!("symbol {symbol} after a block"), answer, plain)?;
        let single = fed(self.single.feed(symbol));
        agree(|| format!("symbol {symbol} after a block"), answer, single)?;
        self.agree()
    }

    fn agree(&self) -> Result<(), String> {
        let words = self.block.words();
        agree(|| "reader".to_string(), words, self.single.words())?;
        agree(
            || "place".to_string(),
            words[PLACE],
            self.plain.place() as u64,
        )
    }
}

/// A stream in blocks, then parts of it to readers of any words.
pub fn run_blocks(random: &mut Random, counts: &mut Counts) -> Result<(), String> {
    let format = format_of(random.pick(&FORMATS));
    let setting = setting(random);
    let symbols = stream(random, format);
    let mut readers = Readers::fresh(format, setting)?;
    let mut at = 0;
    while at < symbols.len() {
        let end = (at + size(random)).min(symbols.len());
        let room = match random.below(4) {
            0 => random.index(3),
            _ => (end - at) / table(format).0 + 1,
        };
        let part = &symbols[at..end];
        let context = |difference| {
            format!("{format:?}, setting {setting}, block from {at} to {end}, room {room}: {difference}\n  symbols {part:?}")
        };
        let (taken, reports, stop) = readers.feed_block(part, room).map_err(context)?;
        counts.calls += 1;
        counts.blocks += 1;
        counts.in_blocks += taken as u64;
        counts.put_in += reports as u64;
        counts.before_unknown += u64::from(stop == Stop::UnknownSymbol);
        counts.before_report += u64::from(stop == Stop::NoRoom);
        // A symbol above 3 is fed by itself; one whose report found no room is too, or it is the next block's first.
        let alone = stop == Stop::UnknownSymbol || stop == Stop::NoRoom && random.once_in(2);
        if alone {
            readers.feed(part[taken]).map_err(context)?;
        }
        at += taken + usize::from(alone);
    }
    for _ in 0..TURNS {
        any_block(random, counts, (format.letter, format.expression), &symbols)?;
    }
    Ok(())
}

/// A part of the stream to a reader of any words, into lists of any lengths: 13, 26, then 3 where the lengths differ,
/// and nothing changed; else what single Feeds of that reader give.
fn any_block(
    random: &mut Random,
    counts: &mut Counts,
    format: (u8, u8),
    symbols: &[u8],
) -> Result<(), String> {
    let words = any_words(random, format);
    let from = random.index(symbols.len() + 1);
    let to = (from + size(random)).min(symbols.len());
    let part = &symbols[from..to];
    let mut lengths = [random.index(4); 5];
    if random.once_in(2) {
        for _ in 0..2 {
            lengths[random.index(5)] = random.index(4);
        }
    }
    let mut reader = duskveyra::Reader::from_words(words);
    let block = by_block(&mut reader, part, lengths);
    let mut expected_reader = duskveyra::Reader::from_words(words);
    let expected = if let Some(number) = refused_reader(&words) {
        (Err(number), Lists::new(lengths))
    } else if lengths != [lengths[0]; 5] {
        (Err(3), Lists::new(lengths))
    } else {
        by_single_feeds(&mut expected_reader, part, lengths[0])
    };
    counts.calls += 1;
    counts.refused_blocks += u64::from(expected.0.is_err());
    let mut expected_words = expected_reader.words();
    if expected.0.is_ok() {
        // Also a block that takes nothing puts the year, the day and the hundredths back within their types.
        expected_words[YEAR] %= 1 << 8;
        expected_words[DAY] %= 1 << 16;
        expected_words[HUNDREDTHS] %= 1 << 32;
    }
    agree(
        || format!("block of a reader of any words {words:x?}, lengths {lengths:?}: {part:?}"),
        (block, reader.words()),
        (expected, expected_words),
    )
}
