//! Runs the library against the plain version in `reference`: one element lost or put in at every place, random streams in
//! all 25 formats with every setting, symbol by symbol and in blocks, random calls with good and bad input, report logs,
//! clock cycles, forecasts, calendars and simulations. The first difference is printed in full and ends the run.

mod blocks;
mod calendars;
mod calls;
mod cycles;
mod figures;
mod forecasts;
mod logs;
mod places;
mod random;
mod simulations;
mod streams;

use random::Random;
use reference::{Answer, Time};
use std::fmt::Debug;
use std::panic::{catch_unwind, AssertUnwindSafe};
use std::process::ExitCode;
use std::time::{Duration, Instant, SystemTime, UNIX_EPOCH};
use streams::{format_of, lead, setting, stream, table, FORMATS};

const SHORT: u64 = 10_000_000;
const LONG: u64 = 10 * SHORT;
const USAGE: &str = "usage: run [short | long | SECONDS] [--seed SEED] [--stream NUMBER]";

/// The words of a reader that hold its setting, its place, how many symbols the frame under way has, how many frames are
/// in a row, and the last one's time.
const SETTING: usize = 2;
const PLACE: usize = 3;
const COUNT: usize = 4;
const ROW: usize = 9;
const YEAR: usize = 10;
const DAY: usize = 11;
const HUNDREDTHS: usize = 12;

/// A refusal as both sides have it: the number, and the index with 5 and 6.
type Refused = (u8, Option<usize>);

/// What feeding a symbol gave; the report as time and control word.
type Fed = Result<Option<(Time, u64)>, Refused>;

/// How much was compared.
#[derive(Default)]
struct Counts {
    symbols: u64,
    calls: u64,
    /// Reports with the settings 2 to 5.
    reports: [u64; 4],
    /// Reports of 23:59:60, and of years 1 to 99.
    added: u64,
    with_year: u64,
    refused: u64,
    blocks: u64,
    /// Symbols that blocks took, and reports that they put in.
    in_blocks: u64,
    put_in: u64,
    /// Blocks that stopped before a symbol above 3, before a report with no room left, and that were refused.
    before_unknown: u64,
    before_report: u64,
    refused_blocks: u64,
    /// Records of logs that were read, records refused, and reports left out for want of room.
    records: u64,
    refused_records: u64,
    left_out: u64,
    /// Forecasts, those that were refused, infinite and no number.
    forecasts: u64,
    refused_forecasts: u64,
    infinite: u64,
    no_number: u64,
    /// Frames that were encoded, and decoded.
    encoded: u64,
    decoded: u64,
    /// Simulations, those that were refused, the reports of their listeners, and the wrong ones among these.
    simulations: u64,
    refused_simulations: u64,
    simulated_reports: u64,
    wrong_reports: u64,
    /// Windows that calendars took, and that were refused.
    windows: u64,
    refused_windows: u64,
}

fn refused(refusal: duskveyra::Refusal) -> Refused {
    (refusal.number(), refusal.index())
}

fn plain_refused(refusal: reference::Refusal) -> Refused {
    (refusal.number(), refusal.index())
}

fn fed(answer: Result<Option<duskveyra::Report>, duskveyra::Refusal>) -> Fed {
    match answer {
        Ok(report) => Ok(report.map(calls::values)),
        Err(refusal) => Err(refused(refusal)),
    }
}

/// What a pulse brought, and its deviation.
fn fed_pulse(
    answer: Result<duskveyra::FedPulse, duskveyra::Refusal>,
) -> Result<(Option<(Time, u64)>, i32), Refused> {
    match answer {
        Ok(pulse) => Ok((pulse.report.map(calls::values), pulse.deviation)),
        Err(refusal) => Err(refused(refusal)),
    }
}

fn plain_fed(answer: Answer) -> Fed {
    match answer {
        Answer::Quiet => Ok(None),
        Answer::Report(time, control) => Ok(Some((time, control))),
        Answer::Refused(refusal) => Err(plain_refused(refusal)),
    }
}

/// Nothing where both sides agree, else the whole difference as text.
fn agree<T: PartialEq + Debug>(
    what: impl FnOnce() -> String,
    library: T,
    plain: T,
) -> Result<(), String> {
    if library == plain {
        return Ok(());
    }
    Err(format!(
        "{}\n  library {library:?}\n  plain   {plain:?}",
        what()
    ))
}

/// The plain machine of document 01, with document 02's setting k: it holds the whole list and looks at its last kn + 1
/// symbols, in X at its last kn.
fn by_definition(format: reference::Format, setting: u8, list: &mut Vec<u8>, symbol: u8) -> Fed {
    if symbol > 3 {
        return Err((4, None));
    }
    list.push(symbol);
    let Some(start) = list.len().checked_sub(window(format, setting)) else {
        return Ok(None);
    };
    let (before, frames) = list[start..].split_at(lead(format));
    if before.iter().any(|&symbol| symbol != 2) {
        return Ok(None);
    }
    let mut last: Option<(Time, u64)> = None;
    for frame in frames.chunks(table(format).0) {
        let Ok((time, control)) = reference::read(format, frame) else {
            return Ok(None);
        };
        if last.is_some_and(|(before, _)| !reference::next_after(format, before, time)) {
            return Ok(None);
        }
        last = Some((time, control));
    }
    Ok(last)
}

/// kn + 1, in X kn.
fn window(format: reference::Format, setting: u8) -> usize {
    usize::from(setting) * table(format).0 + lead(format)
}

/// Settings, an interval, a width and a period that the classifier takes for the symbol.
fn pulse_for(random: &mut Random, symbol: u8) -> (reference::Widths, u32, u32, u32) {
    let t = 100 + random.below(9_999_901) as u32;
    let percent = |percents: u64| (u64::from(t) * percents).div_ceil(100) as u32;
    let period = percent(95) + random.below(u64::from(t) / 20) as u32;
    let percents = [0; 3].map(|_| 1 + random.below(14));
    let width = match percents.get(usize::from(symbol)) {
        Some(&setting) => {
            let centre = 20 + 30 * u64::from(symbol);
            percent(centre - setting) + random.below(2 * setting * u64::from(t) / 100) as u32
        }
        // between the classes of zeros and ones, however wide they are
        None => percent(35),
    };
    let [zeros, ones, marks] = percents.map(|setting| setting as u8);
    (reference::Widths { zeros, ones, marks }, t, width, period)
}

/// The readers that receive one stream: the library's, fed symbols and fed pulses, that of `reference`, and the plain
/// machine's list.
struct Readers {
    format: reference::Format,
    setting: u8,
    library: duskveyra::Reader,
    by_pulse: duskveyra::Reader,
    plain: reference::Reader,
    list: Vec<u8>,
}

impl Readers {
    fn fresh(format: reference::Format, setting: u8) -> Result<Readers, String> {
        let library = duskveyra::Reader::fresh(calls::library_format(format), setting)
            .map_err(|refusal| format!("{format:?}, setting {setting}: {refusal}"))?;
        Ok(Readers {
            format,
            setting,
            by_pulse: library.clone(),
            library,
            plain: reference::Reader::fresh(format, setting).expect("a format and a setting"),
            list: Vec::new(),
        })
    }

    fn context(&self, symbol: u8) -> String {
        let (format, setting) = (self.format, self.setting);
        let start = self.list.len().saturating_sub(window(format, setting));
        format!(
            "{format:?}, setting {setting}, symbol {symbol}, the window with it:\n  {:?}",
            &self.list[start..]
        )
    }

    /// One symbol to all: the answer, where all agree.
    fn feed(&mut self, symbol: u8) -> Result<Fed, String> {
        let before = self.library.words();
        let answer = fed(self.library.feed(symbol));
        let expected = by_definition(self.format, self.setting, &mut self.list, symbol);
        let beside = plain_fed(self.plain.feed(symbol));
        if expected != beside {
            return Err(format!(
                "reference's reader differs from the definition: {}\n  definition {expected:?}\n  reader     {beside:?}\n  library    {answer:?}",
                self.context(symbol)
            ));
        }
        agree(|| self.context(symbol), answer, expected)?;
        let words = self.library.words();
        agree(
            || format!("place: {}", self.context(symbol)),
            words[PLACE],
            self.plain.place() as u64,
        )?;
        agree(
            || format!("reader after a refusal: {}", self.context(symbol)),
            expected.is_ok() || words == before,
            true,
        )?;
        Ok(expected)
    }

    /// A pulse of the symbol that all others were fed, to the reader that is fed pulses.
    fn feed_pulse(&mut self, random: &mut Random, symbol: u8, expected: Fed) -> Result<(), String> {
        let (widths, t, width, period) = pulse_for(random, symbol);
        let settings = calls::library_settings(widths);
        let pulse = || format!("pulse {widths:?} T {t}, width {width}, period {period}");
        let (_, deviation) = reference::classify(widths, t, width, period)
            .map_err(|refusal| format!("{}: {refusal:?}", pulse()))?;
        let classified = duskveyra::classify(settings, t, width, period);
        let classified = classified.map(calls::plain_pulse).map_err(refused);
        agree(pulse, classified, Ok((symbol, deviation)))?;
        let answer = fed_pulse(self.by_pulse.feed_pulse(settings, t, width, period));
        agree(
            || format!("{}, {}", pulse(), self.context(symbol)),
            (answer, self.by_pulse.words()),
            (
                expected.map(|report| (report, deviation)),
                self.library.words(),
            ),
        )
    }
}

/// One stream through the library's reader, by symbols and by pulses, and through the plain ones.
fn run_stream(random: &mut Random, counts: &mut Counts) -> Result<(), String> {
    let format = format_of(random.pick(&FORMATS));
    let setting = setting(random);
    let symbols = stream(random, format);
    let mut readers = Readers::fresh(format, setting)?;
    let pulses = random.once_in(4);
    for (position, &symbol) in symbols.iter().enumerate() {
        let at = |difference| format!("position {position}: {difference}");
        let answer = readers.feed(symbol).map_err(at)?;
        match answer {
            Ok(Some((time, _))) => {
                counts.reports[usize::from(setting) - 2] += 1;
                counts.added += u64::from(time.in_added_second());
                counts.with_year += u64::from(time.year != 0);
            }
            Ok(None) => {}
            Err(_) => counts.refused += 1,
        }
        counts.symbols += 1;
        if pulses && symbol <= 3 {
            readers.feed_pulse(random, symbol, answer).map_err(at)?;
            counts.calls += 2;
        }
        if random.once_in(1000) {
            readers.library = duskveyra::Reader::from_words(readers.library.words());
        }
    }
    Ok(())
}

struct Arguments {
    symbols: u64,
    time: Option<Duration>,
    seed: u64,
    stream: Option<u64>,
}

fn arguments() -> Option<Arguments> {
    let now = SystemTime::now().duration_since(UNIX_EPOCH);
    let mut out = Arguments {
        symbols: SHORT,
        time: None,
        seed: now.map_or(1, |now| now.as_nanos() as u64 % 1_000_000_000_000),
        stream: None,
    };
    let mut given = std::env::args().skip(1);
    while let Some(argument) = given.next() {
        match argument.as_str() {
            "short" => out.symbols = SHORT,
            "long" => out.symbols = LONG,
            "--seed" => out.seed = given.next()?.parse().ok()?,
            "--stream" => out.stream = Some(given.next()?.parse().ok()?),
            seconds => {
                out.symbols = u64::MAX;
                out.time = Some(Duration::from_secs(seconds.parse().ok()?));
            }
        }
    }
    Some(out)
}

/// What the run gives; a panic on either side is a difference too.
fn run<T>(run: impl FnOnce() -> Result<T, String>) -> Result<T, String> {
    catch_unwind(AssertUnwindSafe(run)).unwrap_or_else(|_| Err("panicked, see above".to_string()))
}

/// Every place of a loss and of a symbol put in; false where a difference was printed.
fn tries_places(seed: u64) -> bool {
    match run(|| places::run_places(&mut Random::new(seed, u64::MAX))) {
        Ok(tried) => {
            println!(
                "one element lost or put in at every place: {} streams of {} formats with the settings 2 to 5, {} symbols, {:?} reports, {:?} of them across the place, 0 false",
                tried.streams,
                FORMATS.len(),
                tried.symbols,
                tried.reports,
                tried.across
            );
            true
        }
        Err(difference) => {
            println!("one element lost or put in, at seed {seed}: {difference}");
            false
        }
    }
}

/// Every format and the time of day; false where a difference was printed.
fn tries_figures() -> bool {
    match run(figures::run_figures) {
        Ok(tried) => {
            println!(
                "figures of {} letters and expressions, {} times of day",
                tried.formats, tried.times
            );
            true
        }
        Err(difference) => {
            println!("{difference}");
            false
        }
    }
}

fn main() -> ExitCode {
    let Some(arguments) = arguments() else {
        eprintln!("{USAGE}");
        return ExitCode::from(2);
    };
    let seed = arguments.seed;
    println!("seed {seed}");
    let started = Instant::now();
    if arguments.stream.is_none() && !(tries_figures() && tries_places(seed)) {
        return ExitCode::FAILURE;
    }
    let mut counts = Counts::default();
    let mut number = arguments.stream.unwrap_or(0);
    loop {
        let mut random = Random::new(seed, number);
        let difference = run(|| {
            run_stream(&mut random, &mut counts)?;
            calls::run_calls(&mut random, &mut counts)?;
            logs::run_logs(&mut random, &mut counts)?;
            cycles::run_cycles(&mut random, &mut counts)?;
            forecasts::run_forecasts(&mut random, &mut counts)?;
            calendars::run_calendars(&mut random, &mut counts)?;
            simulations::run_simulations(&mut random, &mut counts)?;
            blocks::run_blocks(&mut random, &mut counts)
        });
        if let Err(difference) = difference {
            println!("difference at seed {seed}, stream {number}: {difference}");
            println!(
                "run again with --seed {seed} --stream {number}; before it {} symbols, {} calls",
                counts.symbols, counts.calls
            );
            return ExitCode::FAILURE;
        }
        number += 1;
        let enough = counts.symbols >= arguments.symbols
            || arguments.stream.is_some()
            || arguments.time.is_some_and(|time| started.elapsed() >= time);
        if enough {
            break;
        }
    }
    println!(
        "{number} streams, {:?} reports with the settings 2 to 5, {} of them in an added second, {} in the years 1 to 99, {} symbols above 3",
        counts.reports, counts.added, counts.with_year, counts.refused
    );
    println!(
        "{} blocks of {} symbols, {} reports put in, {} stopped before a symbol above 3, {} before a report with no room; {} refused",
        counts.blocks,
        counts.in_blocks,
        counts.put_in,
        counts.before_unknown,
        counts.before_report,
        counts.refused_blocks
    );
    println!(
        "{} records of logs read, {} refused, {} left out",
        counts.records, counts.refused_records, counts.left_out
    );
    println!(
        "{} forecasts, {} refused, {} infinite, {} no number; {} frames encoded as cycles, {} decoded",
        counts.forecasts,
        counts.refused_forecasts,
        counts.infinite,
        counts.no_number,
        counts.encoded,
        counts.decoded
    );
    println!(
        "{} simulations, {} refused, {} reports of their listeners, {} of these wrong",
        counts.simulations,
        counts.refused_simulations,
        counts.simulated_reports,
        counts.wrong_reports
    );
    println!(
        "{} windows of calendars, {} refused",
        counts.windows, counts.refused_windows
    );
    println!(
        "{} symbols, {} calls, 0 differences (seed {seed})",
        counts.symbols, counts.calls
    );
    ExitCode::SUCCESS
}
