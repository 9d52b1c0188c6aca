//! Streams of every kind, fed singly and in blocks: the library, Rust and an earlier library by turns.

use crate::plain::{self, Format, Refusal, Time};
use crate::{before, compare, library_format, mix, random, row, stream, table, tuned, Side};
use duskveyra::{sys, READER_WORDS};
use std::hint::black_box;

pub const STREAM: usize = 1_000_000;

/// Reports that a block has room for: more than 4,096 symbols of X bring.
pub const ROOM: usize = 256;

const BLOCKS: [(&str, usize); 4] = [("1", 1), ("8", 8), ("256", 256), ("4,096", 4_096)];

/// What every side does with a report.
#[inline]
pub fn with_report(sum: u64, year: u8, day: u16, hundredths: u32, control: u64) -> u64 {
    let date = u64::from(year) << 16 | u64::from(day);
    mix(mix(sum, date << 32 | u64::from(hundredths)), control)
}

fn feed_library(format: Format, setting: u8, symbols: &[u8]) -> u64 {
    let mut reader = [0; READER_WORDS];
    let mut sum = 0;
    // SAFETY: every pointer points to a local of as many words as the library's reader has.
    unsafe {
        sys::duskveyra_fresh(library_format(format), black_box(setting), &mut reader);
        for &symbol in symbols {
            let fed = sys::duskveyra_feed(&mut reader, symbol);
            if fed.reported != 0 {
                let time = fed.time;
                sum = with_report(sum, time.year, time.day, time.hundredths, fed.control);
            }
        }
    }
    sum
}

type Fed = Result<Option<(Time, u64)>, Refusal>;

/// Rust's feed, called through a pointer that the optimiser cannot see behind, as the library's is.
fn feed_rust<R>(mut reader: R, symbols: &[u8], feed: fn(&mut R, u8) -> Fed) -> u64 {
    let feed = black_box(feed);
    let mut sum = 0;
    for &symbol in symbols {
        if let Ok(Some((time, control))) = feed(&mut reader, symbol) {
            sum = with_report(sum, time.year, time.day, time.hundredths, control);
        }
    }
    sum
}

fn feed_plain(format: Format, setting: u8, symbols: &[u8]) -> u64 {
    let reader = plain::Reader::fresh(format, black_box(setting)).expect("a format and a setting");
    feed_rust(reader, symbols, plain::Reader::feed)
}

fn feed_tuned(format: Format, setting: u8, symbols: &[u8]) -> u64 {
    let reader = tuned::Reader::fresh(format, black_box(setting)).expect("a format and a setting");
    feed_rust(reader, symbols, tuned::Reader::feed)
}

/// Single feeds with a setting; the earlier library has 2 alone.
pub fn feed(format: Format, setting: u8, symbols: &[u8]) -> Vec<Option<Side>> {
    let before = before(format).filter(|_| setting == 2);
    compare(
        symbols.len(),
        &[
            Some(&|| feed_library(format, setting, symbols)),
            Some(&|| feed_plain(format, setting, symbols)),
            tuned::has(format).then_some(&|| feed_tuned(format, setting, symbols)),
            before
                .map(|before| move || (before.feed)(format, symbols))
                .as_ref()
                .map(|work| work as _),
        ],
    )
}

/// The lists that a block's reports are put into.
struct Lists {
    indexes: [usize; ROOM],
    years: [u8; ROOM],
    days: [u16; ROOM],
    hundredths: [u32; ROOM],
    controls: [u64; ROOM],
}

/// The whole stream in blocks of one size, with the same sum over its reports as single feeds give; `feed` says how many
/// a block brought, and `at` is told the index in the stream of each symbol that brings one.
#[inline(always)]
fn blocks(
    symbols: &[u8],
    size: usize,
    mut feed: impl FnMut(&[u8], &mut Lists) -> usize,
    mut at: impl FnMut(usize),
) -> u64 {
    let mut lists = Lists {
        indexes: [0; ROOM],
        years: [0; ROOM],
        days: [0; ROOM],
        hundredths: [0; ROOM],
        controls: [0; ROOM],
    };
    let (mut start, mut sum) = (0, 0);
    for block in symbols.chunks(size) {
        for report in 0..feed(block, &mut lists) {
            at(start + lists.indexes[report]);
            sum = with_report(
                sum,
                lists.years[report],
                lists.days[report],
                lists.hundredths[report],
                lists.controls[report],
            );
        }
        start += block.len();
    }
    sum
}

fn blocks_library(format: Format, symbols: &[u8], size: usize, at: impl FnMut(usize)) -> u64 {
    let (format, setting) = (library_format(format), black_box(2));
    let mut reader = duskveyra::Reader::fresh(format, setting).expect("a format and a setting");
    let feed = |block: &[u8], lists: &mut Lists| {
        let fed = reader.feed_block(
            block,
            &mut lists.indexes,
            &mut lists.years,
            &mut lists.days,
            &mut lists.hundredths,
            &mut lists.controls,
        );
        fed.expect("a reader that feeding made").reports
    };
    blocks(symbols, size, feed, at)
}

/// The same in plain Rust, behind a call of the same kind.
fn blocks_plain(format: Format, symbols: &[u8], size: usize, at: impl FnMut(usize)) -> u64 {
    let mut reader = plain::Reader::fresh(format, black_box(2)).expect("a format and a setting");
    let feed_block = black_box(plain::feed_block as plain::FeedBlock);
    let feed = |block: &[u8], lists: &mut Lists| {
        // SAFETY: each list is lent alone, with its own length.
        let fed = unsafe {
            feed_block(
                &mut reader,
                block.as_ptr(),
                block.len(),
                lists.indexes.as_mut_ptr(),
                lists.indexes.len(),
                lists.years.as_mut_ptr(),
                lists.years.len(),
                lists.days.as_mut_ptr(),
                lists.days.len(),
                lists.hundredths.as_mut_ptr(),
                lists.hundredths.len(),
                lists.controls.as_mut_ptr(),
                lists.controls.len(),
            )
        };
        assert!(fed.number == 0, "a reader that feeding made");
        fed.reports
    };
    blocks(symbols, size, feed, at)
}

fn feed_blocks(format: Format, symbols: &[u8], size: usize) -> Vec<Option<Side>> {
    let (mut by_library, mut by_plain) = (Vec::new(), Vec::new());
    blocks_library(format, symbols, size, |at| by_library.push(at));
    blocks_plain(format, symbols, size, |at| by_plain.push(at));
    assert!(by_library == by_plain, "the indexes must agree too");
    let read = |at| {
        black_box(at);
    };
    compare(
        symbols.len(),
        &[
            Some(&|| blocks_library(format, symbols, size, read)),
            Some(&|| blocks_plain(format, symbols, size, read)),
            None,
            before(format)
                .map(|before| move || (before.feed_blocks)(format, symbols, size))
                .as_ref()
                .map(|work| work as _),
        ],
    )
}

fn kinds(format: Format) -> [(&'static str, Vec<u8>); 6] {
    let n = table(format).0;
    let last_bit = if format.letter == b'X' { 20 } else { n - 2 };
    let mut spoiled = stream(format, STREAM);
    for frame in spoiled.chunks_exact_mut(n) {
        frame[last_bit] = 3;
    }
    let mut state = 5;
    let by_chance = (0..STREAM).map(|_| random(&mut state) as u8 & 3);
    [
        ("frames in succession", stream(format, STREAM)),
        ("marks only", vec![2; STREAM]),
        (
            "mark and zero by turns",
            (0..STREAM).map(|i| (i % 2 * 2) as u8).collect(),
        ),
        ("spoiled only", vec![3; STREAM]),
        ("every frame spoiled at its end", spoiled),
        ("random symbols", by_chance.collect()),
    ]
}

pub fn rows(name: &str, format: Format) {
    crate::heading(&format!("{name}, 1,000,000 symbols"));
    for (kind, symbols) in kinds(format) {
        for setting in [2, 5] {
            row(
                &format!("{kind}, single feeds, setting {setting}"),
                "symbol",
                feed(format, setting, &symbols),
            );
        }
        for (number, size) in BLOCKS {
            row(
                &format!("{kind}, blocks of {number}"),
                "symbol",
                feed_blocks(format, &symbols, size),
            );
        }
    }
}
