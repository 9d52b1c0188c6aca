//! Random streams of symbols: frames in succession, damaged, lost, inserted and spliced ones, and hostile ones.
//! Frames are written by `reference`, never by the library.

use crate::random::Random;
use reference::{step, write, Format, Time, MARK, SECOND_ADDED, SECOND_TAKEN, SPOILED, USUAL_DAY};

pub const FORMATS: [(u8, u8); 25] = [
    (b'A', 0),
    (b'A', 1),
    (b'A', 2),
    (b'A', 3),
    (b'A', 4),
    (b'A', 5),
    (b'A', 6),
    (b'A', 7),
    (b'B', 0),
    (b'B', 1),
    (b'B', 2),
    (b'B', 3),
    (b'B', 4),
    (b'B', 5),
    (b'B', 6),
    (b'B', 7),
    (b'D', 1),
    (b'D', 2),
    (b'E', 1),
    (b'E', 2),
    (b'G', 1),
    (b'G', 2),
    (b'H', 1),
    (b'H', 2),
    (b'X', 2),
];

/// n, S and the number of control bits by document 01's table, 18 of these beside document 02's year, and those of X.
pub fn table(format: Format) -> (usize, u32, u32) {
    let (n, interval, bits) = match format.letter {
        b'A' => (100, 10, 27),
        b'B' => (100, 100, 27),
        b'D' => (60, 360_000, 9),
        b'E' => (100, 1_000, 45),
        b'G' => (100, 1, 36),
        b'X' => (25, 100, 0),
        _ => (60, 6_000, 9),
    };
    let bits = match format.expression {
        0 | 1 => bits,
        4 | 5 => 18,
        _ => 0,
    };
    (n, interval, bits)
}

fn is_x(format: Format) -> bool {
    format.letter == b'X'
}

/// How many elements must stand before the first frame: a mark, in X none.
pub fn lead(format: Format) -> usize {
    usize::from(!is_x(format))
}

/// The last index that a digit can have: what stands behind it, the last mark or in X four missing pulses, ends every frame alike.
pub fn digits_end(format: Format) -> usize {
    if is_x(format) {
        20
    } else {
        table(format).0 - 2
    }
}

/// Whether a format of [`FORMATS`] carries the year.
fn has_year(format: Format) -> bool {
    format.expression >= 4
}

/// The last day of that year in the format.
fn last_day(format: Format, year: u8) -> u16 {
    if is_x(format) {
        1
    } else if has_year(format) && year % 4 != 0 {
        365
    } else {
        366
    }
}

/// A year that the format carries.
fn year(random: &mut Random, format: Format) -> u8 {
    match random.below(3) {
        _ if !has_year(format) => 0,
        0 => random.pick(&[0, 1, 3, 4, 9, 10, 96, 99]),
        _ => random.below(100) as u8,
    }
}

pub fn format_of((letter, expression): (u8, u8)) -> Format {
    Format { letter, expression }
}

pub fn setting(random: &mut Random) -> u8 {
    2 + random.below(4) as u8
}

/// Where a day of that kind ends; only A, B and G carry a second that is added or taken.
fn day_end(format: Format, kind: u8) -> u32 {
    match (format.letter, kind) {
        (b'A' | b'B' | b'G', SECOND_ADDED) => 8_640_100,
        (b'A' | b'B' | b'G', SECOND_TAKEN) => 8_639_900,
        _ => 8_640_000,
    }
}

pub fn time(random: &mut Random, format: Format) -> Time {
    let (_, interval, _) = table(format);
    let end = day_end(format, random.below(3) as u8);
    let frames = u64::from(end / interval);
    let from_midnight = random.below(frames.min(5));
    let frame = match random.below(4) {
        0 => from_midnight,
        1 => frames - 1 - from_midnight,
        _ => random.below(frames),
    };
    let year = year(random, format);
    let last = last_day(format, year);
    let day = match random.below(4) {
        0 => random.pick(&[1, 2, 9, 10, 99, 100, 199, 200, 299, 300]),
        1 => random.pick(&[364, 365, last]),
        _ => 1 + random.below(last.into()) as u16,
    };
    Time {
        year,
        day: day.min(last),
        hundredths: frame as u32 * interval,
    }
}

pub fn control(random: &mut Random, format: Format) -> u64 {
    let (_, _, bits) = table(format);
    let all = (1u64 << bits) - 1;
    match random.below(4) {
        0 => 0,
        1 => all,
        _ => random.next() & all,
    }
}

pub fn frame(format: Format, time: Time, control: u64) -> Vec<u8> {
    let mut frame = vec![0xa5; table(format).0];
    if let Err(refusal) = write(format, time, control, &mut frame) {
        panic!("reference refuses to write {format:?} {time:?} {control:#x}: {refusal:?}");
    }
    frame
}

/// Times in succession, each with a control word; the year's length and the kind of the day are others at each step.
pub fn sent(random: &mut Random, format: Format, count: usize) -> Vec<(Time, u64)> {
    let mut at = time(random, format);
    let mut out = Vec::with_capacity(count);
    for _ in 0..count {
        out.push((at, control(random, format)));
        at = next(random, format, at);
    }
    out
}

/// Their frames.
fn frames(random: &mut Random, format: Format, count: usize) -> Vec<u8> {
    sent(random, format, count)
        .into_iter()
        .flat_map(|(time, control)| frame(format, time, control))
        .collect()
}

fn next(random: &mut Random, format: Format, at: Time) -> Time {
    let length = 365 + random.below(2) as u16;
    let kind = random.below(3) as u8;
    // A day of 86,401 seconds in a year of 366 days has every time.
    step(format, at, length, kind)
        .or_else(|_| step(format, at, 366, SECOND_ADDED))
        .expect("a time on the format")
}

/// Frames over the end of a day of any kind, or into its added second, with one element replaced or none.
fn over_day_end(random: &mut Random, format: Format, count: usize) -> Vec<u8> {
    let (_, interval, _) = table(format);
    let kind = random.below(3) as u8;
    let ends = [day_end(format, kind), 8_640_000.min(day_end(format, kind))];
    let year = year(random, format);
    let last = last_day(format, year);
    let day = random.pick(&[1, 59, 181, 364, 365, last]).min(last);
    let length = 365 + u16::from(day == 366 || random.once_in(2));
    let mut at = Time {
        year,
        day,
        hundredths: random.pick(&ends) - (1 + random.below(4) as u32) * interval,
    };
    let mut out = run(MARK, 1);
    for _ in 0..count {
        let word = control(random, format);
        out.extend(frame(format, at, word));
        let today = if at.day == day { kind } else { USUAL_DAY };
        at = step(format, at, length, today).expect("a time on a day of the kind");
    }
    let index = random.index(out.len());
    out[index] = random.below(4) as u8;
    out
}

fn run(symbol: u8, count: usize) -> Vec<u8> {
    vec![symbol; count]
}

/// Replaces, loses or inserts about one element in `times`.
fn damage(random: &mut Random, symbols: &[u8], times: u64, how: u64) -> Vec<u8> {
    let mut out = Vec::with_capacity(symbols.len() + 8);
    for &symbol in symbols {
        if !random.once_in(times) {
            out.push(symbol);
            continue;
        }
        match if how == 3 { random.below(3) } else { how } {
            0 => out.push(random.below(4) as u8),
            1 => {}
            _ => {
                out.push(random.below(4) as u8);
                out.push(symbol);
            }
        }
    }
    out
}

/// Pieces cut anywhere out of several generators, one behind another.
fn splice(random: &mut Random, format: Format) -> Vec<u8> {
    let mut out = Vec::new();
    for _ in 0..2 + random.below(6) {
        let source = frames(random, format, 4);
        let from = random.index(source.len());
        let to = from + random.index(source.len() - from + 1);
        out.extend_from_slice(&source[from..to]);
    }
    out
}

/// Whole frames behind a mark, in and out of succession: the step, the same time again, two steps, a day off, a year off,
/// a good frame across a bad one.
fn successions(random: &mut Random, format: Format) -> Vec<u8> {
    let mut out = run(MARK, 1 + random.index(3));
    let mut at = time(random, format);
    for _ in 0..8 {
        let word = control(random, format);
        let mut symbols = frame(format, at, word);
        if random.once_in(6) {
            let index = random.index(symbols.len());
            symbols[index] = random.below(4) as u8;
        }
        out.extend(symbols);
        at = match random.below(9) {
            0 => at,
            1 => {
                let once = next(random, format, at);
                next(random, format, once)
            }
            2 => Time {
                day: 1 + at.day % last_day(format, at.year),
                ..at
            },
            3 => {
                let year = year(random, format);
                let day = at.day.min(last_day(format, year));
                Time { year, day, ..at }
            }
            4 => time(random, format),
            _ => next(random, format, at),
        };
    }
    out
}

/// Frames of another format of the same length, in X of any, which this reader must judge by its own layout.
fn other_format(random: &mut Random, format: Format) -> Vec<u8> {
    let n = table(format).0;
    loop {
        let other = format_of(random.pick(&FORMATS));
        if table(other).0 == n || is_x(format) {
            return frames(random, other, 5);
        }
    }
}

/// Marks and missing pulses where they belong and random bits elsewhere: digits over 9, clocks and days out of range,
/// seconds that differ.
pub fn random_bits(random: &mut Random, format: Format) -> Vec<u8> {
    let n = table(format).0;
    let full = u64::from(random.once_in(2));
    (0..n)
        .map(|index| match index {
            0 => MARK,
            21.. if is_x(format) => SPOILED,
            _ if !is_x(format) && index % 10 == 9 => MARK,
            _ => (random.below(5) < full + 1) as u8,
        })
        .collect()
}

/// One element in how many is damaged, and how: replaced, lost, inserted, or any of these.
const DAMAGE: [(u64, u64); 5] = [(1000, 0), (60, 0), (300, 1), (300, 2), (200, 3)];

/// One piece of a stream.
fn piece(random: &mut Random, format: Format) -> Vec<u8> {
    let count = 3 + random.index(12);
    match random.below(21) {
        0..=2 => frames(random, format, count),
        kind @ 3..=7 => {
            let symbols = frames(random, format, count);
            let (times, how) = DAMAGE[kind as usize - 3];
            damage(random, &symbols, times, how)
        }
        8 => splice(random, format),
        9 | 10 => successions(random, format),
        11 => other_format(random, format),
        12 => run(MARK, random.index(500)),
        13 => run(SPOILED, random.index(500)),
        14 => {
            let two = [random.below(4) as u8, random.below(4) as u8];
            (0..random.index(500)).map(|i| two[i % 2]).collect()
        }
        15 => {
            // Pairs of marks, as at every border of two frames.
            let gap = 1 + random.index(12);
            (0..random.index(600))
                .map(|i| if i % (gap + 2) < 2 { MARK } else { 0 })
                .collect()
        }
        16 => {
            let marks = random.below(4);
            (0..random.index(600))
                .map(|_| {
                    if random.below(4) < marks {
                        MARK
                    } else {
                        random.below(4) as u8
                    }
                })
                .collect()
        }
        17..=19 => over_day_end(random, format, count),
        _ => {
            let mut out = run(MARK, 1);
            for _ in 0..3 {
                out.extend(random_bits(random, format));
            }
            out
        }
    }
}

/// A stream of several pieces, joined at any element, in some of them with symbols above 3 in between.
pub fn stream(random: &mut Random, format: Format) -> Vec<u8> {
    let mut out = Vec::new();
    for _ in 0..4 + random.below(8) {
        let symbols = piece(random, format);
        out.extend(symbols);
    }
    let from = random.index(150).min(out.len());
    out.drain(..from);
    if random.once_in(3) {
        let times = 1 + random.below(200);
        let mut with = Vec::with_capacity(out.len() * 2);
        for &symbol in &out {
            if random.once_in(times) {
                with.push(4 + random.below(252) as u8);
            }
            with.push(symbol);
        }
        out = with;
    }
    out
}
