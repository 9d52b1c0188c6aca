//! A generator with eight listeners over a million frames of B0: the simulation beside eight single streams fed by block.
//! Every side generates its frames within the time.

use crate::streams::ROOM;
use crate::{compare, format, library_format, mix};
use duskveyra::{step, sys, write, Format, Reader, Time, MOST_LISTENERS, USUAL_DAY};
use std::hint::black_box;

const FRAMES: u32 = 1_000_000;
const N: usize = 100;
/// Frames that a block has: its symbols lie close, and their reports find room.
const IN_BLOCK: usize = 40;
/// Frames from one damage to the next.
const APART: u64 = 10;
const START: Time = Time {
    year: 0,
    day: 300,
    hundredths: 5_088_000,
};

/// The lists of listeners with setting 2, as a C program lends them.
struct Lists {
    ends: [usize; MOST_LISTENERS],
    numbers: Vec<u64>,
    symbols: Vec<u8>,
}

impl Lists {
    /// Each listener has the same damages: marks that come as marks, so that what is reported stays.
    fn with_damages(each: usize) -> Lists {
        let numbers = (0..each as u64).map(|damage| APART * N as u64 * damage + 1);
        Lists {
            ends: std::array::from_fn(|listener| (listener + 1) * each),
            numbers: numbers.collect::<Vec<u64>>().repeat(MOST_LISTENERS),
            symbols: vec![2; each * MOST_LISTENERS],
        }
    }
}

/// What every side does with each listener's first report and number of reports.
fn told(counts: impl Iterator<Item = (u64, u64)>) -> u64 {
    counts.fold(0, |sum, (first, reports)| mix(mix(sum, first), reports))
}

fn simulated(format: Format, lists: &Lists) -> u64 {
    let settings = black_box([2; MOST_LISTENERS]);
    // SAFETY: each pointer and length are those of one list, which the call reads alone.
    let result = unsafe {
        sys::duskveyra_simulate(
            format,
            START,
            black_box(FRAMES),
            365,
            settings.as_ptr(),
            settings.len(),
            lists.ends.as_ptr(),
            lists.ends.len(),
            lists.numbers.as_ptr(),
            lists.numbers.len(),
            lists.symbols.as_ptr(),
            lists.symbols.len(),
        )
    };
    assert_eq!(result.number, 0);
    told(result.counts.iter().map(|c| (c.first, c.reports)))
}

/// Writes the frames of a block, and gives the time of the next.
fn generate(format: Format, mut time: Time, block: &mut [u8]) -> Time {
    for frame in block.chunks_exact_mut(N) {
        write(format, time, 0, frame).expect("a time on the format");
        time = step(format, time, 365, USUAL_DAY).expect("a time on the format");
    }
    time
}

struct Stream {
    reader: Reader,
    first: u64,
    reports: u64,
}

impl Stream {
    fn fresh(format: Format) -> Stream {
        Stream {
            reader: Reader::fresh(format, black_box(2)).expect("a format and a setting"),
            first: 0,
            reports: 0,
        }
    }

    /// Feeds a block, before which so many elements were fed.
    fn feed(&mut self, block: &[u8], past: u64) {
        let (mut indexes, mut years, mut days) = ([0; ROOM], [0; ROOM], [0; ROOM]);
        let (mut hundredths, mut controls) = ([0; ROOM], [0; ROOM]);
        let fed = self
            .reader
            .feed_block(
                block,
                &mut indexes,
                &mut years,
                &mut days,
                &mut hundredths,
                &mut controls,
            )
            .expect("a reader that feeding made");
        if self.reports == 0 && fed.reports > 0 {
            self.first = past + indexes[0] as u64 + 1;
        }
        self.reports += fed.reports as u64;
    }
}

/// One generator, whose blocks go to so many streams.
fn streams(format: Format, listeners: usize) -> Vec<(u64, u64)> {
    let mut streams: Vec<Stream> = (0..listeners).map(|_| Stream::fresh(format)).collect();
    let mut block = [0; N * IN_BLOCK];
    let (mut time, mut past) = (START, 0);
    for _ in 0..black_box(FRAMES as usize) / IN_BLOCK {
        time = generate(format, time, &mut block);
        for stream in &mut streams {
            stream.feed(&block, past);
        }
        past += block.len() as u64;
    }
    streams.iter().map(|s| (s.first, s.reports)).collect()
}

/// All sides in the same rounds: each ratio is of two times within one round.
pub fn rows() {
    let format = library_format(format(b'B', 0));
    let undamaged = Lists::with_damages(0);
    let damaged = Lists::with_damages((u64::from(FRAMES) / APART) as usize);
    let sides = compare(
        FRAMES as usize,
        &[
            Some(&|| simulated(format, &undamaged)),
            Some(&|| told(streams(format, MOST_LISTENERS).into_iter())),
            Some(&|| told((0..MOST_LISTENERS).flat_map(|_| streams(format, 1)))),
            Some(&|| simulated(format, &damaged)),
        ],
    );
    println!(
        "\n| a million frames of B0, eight listeners, setting 2 | ns per frame | simulate / this |"
    );
    println!("|---|---:|---:|");
    let names = [
        "simulate, no damages",
        "one generator, eight streams fed by block",
        "eight generators, each with one stream fed by block",
        "simulate, 100,000 damages for each listener",
    ];
    for (name, side) in names.iter().zip(sides.into_iter().flatten()) {
        println!("| {name} | {:.0} | {:.2} |", side.time, side.ratio);
    }
}
