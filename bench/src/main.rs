//! Times the library against Rust and an earlier library in one run and prints tables: medians of interleaved runs, CPU
//! time.

mod before;
mod calendars;
mod commands;
mod cpu;
mod cycles;
mod frames;
mod logs;
mod plain;
mod simulations;
mod streams;
mod tuned;

use before::{Before, BEFORE};
use plain::{Format, Time};
use std::cell::RefCell;
use std::hint::black_box;
use streams::{feed, STREAM};

const RUNS: usize = 9;
/// CPU time that one run takes at least, in seconds.
const LONG_ENOUGH: f64 = 0.04;
/// Frames, times and pulses that a run goes through again and again.
const PREPARED: usize = 256;

/// What is timed: it does its whole work once and returns something that depends on all of it.
type Work<'a> = &'a dyn Fn() -> u64;

/// Seconds that one call of the work takes, repeated until the run is long enough.
fn one_run(work: Work, turns: usize) -> f64 {
    let start = cpu::own();
    for _ in 0..turns {
        black_box(work());
    }
    (cpu::own() - start) / turns as f64
}

fn turns_for(work: Work) -> usize {
    let mut turns = 1;
    loop {
        let seconds = one_run(work, turns) * turns as f64;
        if seconds >= LONG_ENOUGH {
            return turns;
        }
        turns = if seconds < LONG_ENOUGH / 20.0 {
            turns * 10
        } else {
            (turns as f64 * LONG_ENOUGH / seconds * 1.2) as usize + 1
        };
    }
}

fn median(mut numbers: Vec<f64>) -> f64 {
    numbers.sort_by(f64::total_cmp);
    numbers[numbers.len() / 2]
}

/// What each side took, the library first: nanoseconds an item, and the library's time over this side's in one round.
struct Side {
    time: f64,
    ratio: f64,
}

/// Times the sides by turns, the library first; a side may be missing. A ratio is taken within a round, where other work on
/// the machine slows all sides alike.
fn compare(items: usize, sides: &[Option<Work>]) -> Vec<Option<Side>> {
    let there: Vec<Work> = sides.iter().flatten().copied().collect();
    let answer = there[0]();
    for side in &there {
        assert_eq!(side(), answer, "the sides must agree before they are timed");
    }
    let turns: Vec<usize> = there.iter().map(|side| turns_for(side)).collect();
    let rounds: Vec<Vec<f64>> = (0..RUNS)
        .map(|_| {
            let sides = there.iter().zip(&turns);
            sides.map(|(side, &turns)| one_run(side, turns)).collect()
        })
        .collect();
    let mut timed = (0..there.len()).map(|side| Side {
        time: median(rounds.iter().map(|round| round[side]).collect()) * 1e9 / items as f64,
        ratio: median(rounds.iter().map(|round| round[0] / round[side]).collect()),
    });
    sides
        .iter()
        .map(|side| side.and_then(|_| timed.next()))
        .collect()
}

fn heading(title: &str) {
    print!("\n| {title} | ns per | library |");
    for other in ["plain", "tuned"] {
        print!(" {other} Rust | library / {other} |");
    }
    println!(" library before | library / before |");
    println!("|---|---|---:|---:|---:|---:|---:|---:|---:|");
}

fn row(name: &str, unit: &str, sides: Vec<Option<Side>>) {
    print!("| {name} | {unit} |");
    for other in 0..4 {
        match sides.get(other) {
            Some(Some(side)) if other == 0 => print!(" {:.2} |", side.time),
            Some(Some(side)) => print!(" {:.2} | {:.2} |", side.time, side.ratio),
            _ => print!(" | |"),
        }
    }
    println!();
}

fn table(format: Format) -> (usize, u32, u32) {
    match format.letter {
        b'B' if format.expression == 4 => (100, 100, 18),
        b'B' => (100, 100, 27),
        b'G' => (100, 1, 36),
        b'X' => (25, 100, 0),
        _ => (60, 6_000, 9),
    }
}

/// The day of a format's times: X has day 1 alone.
fn day(format: Format, day: u16) -> u16 {
    if format.letter == b'X' {
        1
    } else {
        day
    }
}

/// The earlier library, where it is linked and has the format: it has none with the year, and no X.
fn before(format: Format) -> Option<Before> {
    BEFORE.filter(|_| !has_year(format) && format.letter != b'X')
}

/// Whether a format of the tables carries the year.
fn has_year(format: Format) -> bool {
    format.expression >= 4
}

fn random(state: &mut u64) -> u64 {
    *state ^= *state << 13;
    *state ^= *state >> 7;
    *state ^= *state << 17;
    state.wrapping_mul(0x2545_f491_4f6c_dd1d) >> 8
}

/// Frames in succession, up to `length` symbols.
fn stream(format: Format, length: usize) -> Vec<u8> {
    let (n, _, bits) = table(format);
    let mut state = 1;
    let mut time = Time {
        year: if has_year(format) { 99 } else { 0 },
        day: day(format, 300),
        hundredths: 5_088_000,
    };
    let mut out = vec![0; length.next_multiple_of(n)];
    for frame in out.chunks_exact_mut(n) {
        let control = random(&mut state) & ((1 << bits) - 1);
        plain::write(format, time, control, frame).expect("a time and control word");
        time = plain::step(format, time, 365, plain::USUAL_DAY).expect("a time on the format");
    }
    out.truncate(length);
    out
}

fn mix(sum: u64, number: u64) -> u64 {
    (sum ^ number)
        .wrapping_mul(0x9e37_79b9_7f4a_7c15)
        .rotate_left(29)
}

/// Writes every prepared time into one frame; the sum is over one element of each, or over all of them.
#[inline]
fn write_with(
    prepared: &[(Time, u64)],
    all: bool,
    n: usize,
    write: impl Fn(Time, u64, &mut [u8]) -> bool,
) -> u64 {
    let mut frame = [9; 100];
    let mut sum = 0;
    for &(time, control) in prepared {
        sum += u64::from(write(time, control, &mut frame[..n]));
        let seen = black_box(&frame);
        sum += u64::from(seen[1]);
        if all {
            sum = seen
                .iter()
                .fold(sum, |sum, &symbol| mix(sum, u64::from(symbol)));
        }
    }
    sum
}

type Write = fn(Format, Time, u64, &mut [u8]) -> Result<(), plain::Refusal>;

/// Rust's Write, called through a pointer that the optimiser cannot see behind, as the library's is.
fn write_rust(format: Format, prepared: &[(Time, u64)], all: bool, n: usize, write: Write) -> u64 {
    let write = black_box(write);
    write_with(prepared, all, n, |time, control, frame| {
        write(format, time, control, frame).is_ok()
    })
}

/// Times of the format on any day, each with a control word.
fn prepared_times(format: Format) -> Vec<(Time, u64)> {
    let (_, interval, bits) = table(format);
    let mut state = 7;
    (0..PREPARED)
        .map(|_| {
            let frame = random(&mut state) % u64::from(8_640_000 / interval);
            // Every fourth year has every day.
            let leap_year = (random(&mut state) % 25 * 4) as u8;
            let time = Time {
                year: if has_year(format) { leap_year } else { 0 },
                day: day(format, 1 + (random(&mut state) % 366) as u16),
                hundredths: frame as u32 * interval,
            };
            (time, random(&mut state) & ((1 << bits) - 1))
        })
        .collect()
}

/// Write of these times and control words by every side.
fn write(format: Format, prepared: &[(Time, u64)]) -> Vec<Option<Side>> {
    let (n, _, _) = table(format);
    let library = |all| {
        write_with(prepared, all, n, |time, control, frame| {
            duskveyra::write(library_format(format), library_time(time), control, frame).is_ok()
        })
    };
    let rust = |all, write: Write| write_rust(format, prepared, all, n, write);
    let before = before(format).map(|before| {
        move |all| {
            write_with(prepared, all, n, |time, control, frame| {
                (before.write)(format, time, control, frame)
            })
        }
    });
    assert!(library(true) == rust(true, plain::write));
    assert!(!tuned::has(format) || library(true) == rust(true, tuned::write));
    assert!(before
        .as_ref()
        .is_none_or(|before| before(true) == library(true)));
    compare(
        prepared.len(),
        &[
            Some(&|| library(false)),
            Some(&|| rust(false, plain::write)),
            tuned::has(format).then_some(&|| rust(false, tuned::write)),
            before
                .as_ref()
                .map(|before| move || before(false))
                .as_ref()
                .map(|work| work as _),
        ],
    )
}

#[inline]
fn read_with(
    frames: &[u8],
    n: usize,
    read: impl Fn(&[u8]) -> Result<(Time, u64), plain::Refusal>,
) -> u64 {
    frames
        .chunks_exact(n)
        .fold(0, |sum, frame| match read(frame) {
            Ok((time, control)) => mix(
                sum,
                u64::from(time.year) << 48
                    ^ u64::from(time.day) << 32
                    ^ u64::from(time.hundredths)
                    ^ control,
            ),
            Err(refusal) => mix(sum, u64::from(refusal.number())),
        })
}

type Read = fn(Format, &[u8]) -> Result<(Time, u64), plain::Refusal>;

/// Reads prepared frames; with `spoiled` that element of each is spoiled, so that it is refused with 6.
fn read(format: Format, spoiled: Option<usize>) -> Vec<Option<Side>> {
    let (n, _, _) = table(format);
    let mut frames = stream(format, PREPARED * n);
    if let Some(index) = spoiled {
        for frame in frames.chunks_exact_mut(n) {
            frame[index] = 3;
        }
    }
    let frames = &frames[..];
    let library = |frame: &[u8]| match duskveyra::read(library_format(format), frame) {
        Ok(report) => Ok((
            Time {
                year: report.time.year,
                day: report.time.day,
                hundredths: report.time.hundredths,
            },
            report.control,
        )),
        Err(duskveyra::Refusal::InvalidElement(index)) => Err(plain::Refusal::Element(index)),
        Err(_) => Err(plain::Refusal::Reader),
    };
    let rust = |read: Read| {
        let read = black_box(read);
        read_with(frames, n, |frame| read(format, frame))
    };
    compare(
        PREPARED,
        &[
            Some(&|| read_with(frames, n, library)),
            Some(&|| rust(plain::read)),
            tuned::has(format).then_some(&|| rust(tuned::read)),
            before(format)
                .map(|before| move || read_with(frames, n, |frame| (before.read)(format, frame)))
                .as_ref()
                .map(|work| work as _),
        ],
    )
}

fn scan(format: Format, recording: &[u8]) -> Vec<Option<Side>> {
    compare(
        recording.len(),
        &[
            Some(
                &|| match duskveyra::scan(library_format(format), recording, 0) {
                    Ok(Some(found)) => found.start as u64,
                    _ => 0,
                },
            ),
            Some(&|| match plain::scan(format, recording, 0) {
                Ok(Some((start, _, _))) => start as u64,
                _ => 0,
            }),
        ],
    )
}

/// Widths and periods as a counter of 1,000 ticks an element gives them, a few outside the tolerances.
fn pulses() -> (Vec<u32>, Vec<u32>) {
    let mut state = 3;
    let symbols = stream(format(b'B', 0), 4096);
    let widths = symbols
        .iter()
        .map(|&symbol| [160, 460, 760, 300][usize::from(symbol)] + (random(&mut state) % 92) as u32)
        .collect();
    let mut state = 4;
    let periods = (0..symbols.len())
        .map(|_| 945 + (random(&mut state) % 110) as u32)
        .collect();
    (widths, periods)
}

/// Symbols and deviations of every pulse, added up.
#[inline]
fn classify_with(widths: &[u32], periods: &[u32], classify: impl Fn(u32, u32) -> (u8, i32)) -> u64 {
    let pulses = widths.iter().zip(periods);
    pulses.fold(0, |sum: u64, (&width, &period)| {
        let (symbol, deviation) = classify(width, period);
        sum.wrapping_add(u64::from(symbol))
            .wrapping_add_signed(i64::from(deviation))
    })
}

/// The usual settings, which neither side may take for a constant.
fn usual_settings() -> (duskveyra::WidthSettings, plain::Widths) {
    let plain = plain::Widths {
        zeros: 5,
        ones: 5,
        marks: 5,
    };
    (black_box(duskveyra::WidthSettings::USUAL), black_box(plain))
}

type Classify = fn(plain::Widths, u32, u32, u32) -> Result<(u8, i32), plain::Refusal>;

fn classify() -> Vec<Option<Side>> {
    let (widths, periods) = pulses();
    let (settings, plain_settings) = usual_settings();
    let library = |width, period| {
        let pulse = duskveyra::classify(settings, black_box(1_000), width, period);
        pulse.map_or((9, 0), |pulse| (pulse.symbol, pulse.deviation))
    };
    let classify = black_box(plain::classify as Classify);
    let plain =
        |width, period| classify(plain_settings, black_box(1_000), width, period).unwrap_or((9, 0));
    compare(
        widths.len(),
        &[
            Some(&|| classify_with(&widths, &periods, library)),
            Some(&|| classify_with(&widths, &periods, plain)),
        ],
    )
}

fn classify_list() -> Vec<Option<Side>> {
    let (widths, periods) = pulses();
    let (settings, plain_settings) = usual_settings();
    let n = widths.len();
    let (mut one, mut off) = (vec![9; n], vec![9; n]);
    let (mut other, mut other_off) = (vec![8; n], vec![8; n]);
    let library = duskveyra::classify_list(settings, 1_000, &widths, &periods, &mut one, &mut off);
    let plain = plain::classify_list(
        plain_settings,
        1_000,
        &widths,
        &periods,
        &mut other,
        &mut other_off,
    );
    assert!(library.is_ok() && plain.is_ok() && one == other && off == other_off);
    let lent = RefCell::new((one, off));
    let told = |done: bool, symbols: &[u8], deviations: &[i32]| {
        u64::from(done) + u64::from(black_box(symbols)[17]) + u64::from(deviations[17] == 0)
    };
    compare(
        n,
        &[
            Some(&|| {
                let (symbols, off) = &mut *lent.borrow_mut();
                let interval = black_box(1_000);
                let done =
                    duskveyra::classify_list(settings, interval, &widths, &periods, symbols, off);
                told(done.is_ok(), symbols, black_box(off))
            }),
            Some(&|| {
                let (symbols, off) = &mut *lent.borrow_mut();
                let interval = black_box(1_000);
                let done =
                    plain::classify_list(plain_settings, interval, &widths, &periods, symbols, off);
                told(done.is_ok(), symbols, black_box(off))
            }),
        ],
    )
}

fn format(letter: u8, expression: u8) -> Format {
    Format { letter, expression }
}

fn library_format(format: Format) -> duskveyra::Format {
    duskveyra::Format {
        letter: format.letter,
        expression: format.expression,
    }
}

fn library_time(time: Time) -> duskveyra::Time {
    duskveyra::Time {
        year: time.year,
        day: time.day,
        hundredths: time.hundredths,
    }
}

/// The formats of the tables, each with its last element that is a bit.
fn formats() -> [(&'static str, Format, usize); 5] {
    [
        ("B0", format(b'B', 0), 97),
        ("B4", format(b'B', 4), 97),
        ("G1", format(b'G', 1), 98),
        ("H1", format(b'H', 1), 58),
        ("X2", format(b'X', 2), 20),
    ]
}

fn frame_rows() {
    for (name, format, _) in formats() {
        let prepared = prepared_times(format);
        row(&format!("write {name}"), "frame", write(format, &prepared));
    }
    for (name, format, _) in formats() {
        row(&format!("read {name}"), "frame", read(format, None));
    }
    for (name, format, last) in formats() {
        let refused = read(format, Some(last));
        row(
            &format!("read {name}, refused at element {last}"),
            "frame",
            refused,
        );
    }
}

fn feed_rows() {
    for (name, format, _) in formats() {
        let symbols = stream(format, STREAM);
        for setting in [2, 5] {
            row(
                &format!("feed {name}, setting {setting}"),
                "symbol",
                feed(format, setting, &symbols),
            );
        }
    }
}

fn scan_rows() {
    for (name, format, last) in formats() {
        let (n, _, _) = table(format);
        // A mark beside the frame's last one would begin a frame.
        let damages = [
            ("every frame spoiled", last, 3),
            ("a mark too many in every frame", last - 5, 2),
        ];
        for (what, index, symbol) in damages {
            let mut recording = stream(format, 1_000 * n);
            for frame in recording.chunks_exact_mut(n) {
                frame[index] = symbol;
            }
            row(
                &format!("scan {name}, {what}"),
                "element",
                scan(format, &recording),
            );
        }
        let recording = vec![0; 1_000 * n];
        row(
            &format!("scan {name}, no marks"),
            "element",
            scan(format, &recording),
        );
    }
}

fn pulse_rows() {
    row("classify", "pulse", classify());
    row("classify_list, 4,096 pulses", "pulse", classify_list());
}

fn call_table() {
    heading("call");
    frame_rows();
    feed_rows();
    scan_rows();
    pulse_rows();
    logs::rows();
    calendars::rows();
}

fn length_table() {
    heading("feed B0 by length of the stream, setting 2");
    let b0 = format(b'B', 0);
    let symbols = stream(b0, 10_000_000);
    for length in [10_000, 100_000, 1_000_000, 10_000_000] {
        row(
            &format!("{length} symbols"),
            "symbol",
            feed(b0, 2, &symbols[..length]),
        );
    }
}

fn stream_tables() {
    streams::rows("B0", format(b'B', 0));
    streams::rows("H1", format(b'H', 1));
    streams::rows("X2", format(b'X', 2));
}

fn main() {
    let argument = std::env::args().nth(1);
    if argument.as_deref() == Some("--timeread") {
        commands::plain_timeread().expect("a recording on standard input");
        return;
    }
    println!(
        "Nanoseconds of CPU time on {}, medians of {RUNS} runs, the sides by turns; buffers warm and reused.",
        cpu::model()
    );
    match argument.as_deref() {
        Some("commands") => commands::rows(),
        Some("streams") => stream_tables(),
        Some("frames") => frames::rows(),
        Some("scans") => {
            heading("call");
            scan_rows();
        }
        Some("pulses") => {
            heading("call");
            pulse_rows();
        }
        Some("logs") => {
            heading("call");
            logs::rows();
        }
        Some("calendars") => {
            heading("call");
            calendars::rows();
        }
        Some("cycles") => cycles::rows(),
        Some("simulations") => simulations::rows(),
        _ => {
            call_table();
            frames::rows();
            length_table();
            stream_tables();
            cycles::rows();
            simulations::rows();
            commands::rows();
        }
    }
}
