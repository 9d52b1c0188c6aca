//! Random single calls with good and bad input; lent memory is compared too, refused or not.

use crate::random::Random;
use crate::streams::{control, format_of, frame, random_bits, setting, table, time, FORMATS};
use crate::{
    agree, plain_refused, refused, Counts, COUNT, DAY, HUNDREDTHS, PLACE, ROW, SETTING, YEAR,
};
use reference::{Format, Time, Widths};

/// How many of each call go with a stream.
const TURNS: usize = 60;
/// Bytes on both sides of lent memory that no call may touch.
const GUARD: usize = 8;

pub fn run_calls(random: &mut Random, counts: &mut Counts) -> Result<(), String> {
    for _ in 0..TURNS {
        write(random)?;
        read(random)?;
        steps(random)?;
        forward(random)?;
        backward(random)?;
        difference(random)?;
        classify(random)?;
        counts.calls += 8;
    }
    for _ in 0..TURNS / 6 {
        classify_list(random)?;
        scan(random)?;
        fresh(random)?;
        any_reader(random)?;
        refused_pulse(random)?;
        counts.calls += 6;
    }
    Ok(())
}

pub fn library_format(format: Format) -> duskveyra::Format {
    duskveyra::Format {
        letter: format.letter,
        expression: format.expression,
    }
}

pub fn library_time(time: Time) -> duskveyra::Time {
    duskveyra::Time {
        year: time.year,
        day: time.day,
        hundredths: time.hundredths,
    }
}

pub fn plain_time(time: duskveyra::Time) -> Time {
    Time {
        year: time.year,
        day: time.day,
        hundredths: time.hundredths,
    }
}

pub fn values(report: duskveyra::Report) -> (Time, u64) {
    (plain_time(report.time), report.control)
}

/// Mostly a format, else two bytes near one or any two.
pub fn any_format(random: &mut Random) -> Format {
    let mut format = format_of(random.pick(&FORMATS));
    match random.below(12) {
        0 => format.expression = random.below(9) as u8,
        1 => format.letter = b'@' + random.below(12) as u8,
        2 => format.letter = format.letter.to_ascii_lowercase(),
        3 => format = format_of((random.next() as u8, random.next() as u8)),
        _ => {}
    }
    format
}

/// Mostly a time on the format, else one near the borders, beside the grid or anywhere.
pub fn any_time(random: &mut Random, format: Format) -> Time {
    let mut at = time(random, format);
    match random.below(13) {
        0 => at.day = random.pick(&[0, 1, 365, 366, 367, 511, 512, 65535]),
        1 => {
            at.hundredths = random.pick(&[
                0,
                1,
                8_639_900,
                8_639_999,
                8_640_000,
                8_640_001,
                8_640_099,
                8_640_100,
                16_777_216,
                u32::MAX,
            ])
        }
        2 => {
            at.hundredths = at
                .hundredths
                .wrapping_add(random.below(3) as u32)
                .wrapping_sub(1)
        }
        3 => at.hundredths = random.below(9_000_000) as u32,
        4 => at.hundredths = 8_639_890 + random.below(220) as u32,
        5 => {
            at = Time {
                year: random.next() as u8,
                day: random.next() as u16,
                hundredths: random.next() as u32,
            }
        }
        6 => at.year = random.pick(&[0, 1, 4, 99, 100, 127, 128, 255]),
        7 => (at.year, at.day) = (random.below(101) as u8, random.pick(&[365, 366])),
        _ => {}
    }
    at
}

fn any_control(random: &mut Random, format: Format) -> u64 {
    match random.below(8) {
        0 => 1u64 << random.below(64),
        1 => (1u64 << random.below(64)) - 1,
        2 => 1u64 << table(format).2,
        3 => random.next(),
        _ => control(random, format),
    }
}

pub fn any_length(random: &mut Random, format: Format) -> usize {
    let n = table(format).0;
    match random.below(8) {
        0 => random.index(130),
        1 => n - 1 + random.index(3),
        2 => 160 - n,
        _ => n,
    }
}

fn write(random: &mut Random) -> Result<(), String> {
    let format = any_format(random);
    let at = any_time(random, format);
    let word = any_control(random, format);
    let length = any_length(random, format);
    let fill = random.next() as u8;
    let mut library = vec![fill; length + 2 * GUARD];
    let mut plain = library.clone();
    let answer = duskveyra::write(
        library_format(format),
        library_time(at),
        word,
        &mut library[GUARD..GUARD + length],
    );
    let expected = reference::write(format, at, word, &mut plain[GUARD..GUARD + length]);
    agree(
        || format!("write {format:?} {at:?} control {word:#x} length {length} fill {fill}"),
        (answer.map_err(refused), library),
        (expected.map_err(plain_refused), plain),
    )
}

/// A frame to read: right, damaged, with random bits or with random symbols.
pub fn any_frame(random: &mut Random, format: Format) -> Vec<u8> {
    let known = reference::Reader::fresh(format, 2).is_ok();
    let mut symbols = match random.below(8) {
        0 | 1 => random_bits(random, format),
        2 => {
            let top = random.pick(&[2, 3, 4, 5, 256]);
            (0..table(format).0)
                .map(|_| random.below(top) as u8)
                .collect()
        }
        _ if known => {
            let at = time(random, format);
            let word = control(random, format);
            frame(format, at, word)
        }
        _ => vec![0; table(format).0],
    };
    if random.once_in(3) {
        odd_digits(random, &mut symbols);
    }
    if random.once_in(3) {
        for _ in 0..1 + random.below(3) {
            let index = random.index(symbols.len());
            let top = random.pick(&[4, 4, 4, 4, 4, 4, 4, 256]);
            symbols[index] = random.below(top) as u8;
        }
    }
    if random.once_in(10) {
        symbols.resize(any_length(random, format), 0);
    }
    symbols
}

/// Puts digits just below and above their limits: seconds and minutes about 60, hours about 24, days about 0 and 366,
/// digits at 50 to 58 as the year's; or about 23:59:60, with the straight binary seconds as they were.
fn odd_digits(random: &mut Random, symbols: &mut [u8]) {
    if symbols.len() < 60 {
        return odd_digits_of_x(random, symbols);
    }
    let units = random.below(16) as u8;
    if random.once_in(6) {
        let second = [random.pick(&[0, 0, 0, 1, 9]), random.pick(&[5, 6, 6, 6, 7])];
        let minute = [random.pick(&[9, 9, 9, 8]), random.pick(&[5, 5, 5, 4])];
        let hour = [random.pick(&[3, 3, 3, 2]), random.pick(&[2, 2, 2, 1])];
        put_digits(symbols, &[(1, 4), (6, 3)], &second);
        put_digits(symbols, &[(10, 4), (15, 3)], &minute);
        put_digits(symbols, &[(20, 4), (25, 2)], &hour);
        return;
    }
    let (fields, value): (&[(usize, usize)], [u8; 3]) = match random.below(7) {
        0 => (&[(1, 4), (6, 3)], [units, 5 + random.below(3) as u8, 0]),
        1 => (&[(10, 4), (15, 3)], [units, 5 + random.below(3) as u8, 0]),
        2 => (
            &[(20, 4), (25, 2)],
            [random.below(11) as u8, 1 + random.below(3) as u8, 0],
        ),
        3 => (&[(30, 4), (35, 4), (40, 2)], [5 + units % 6, 6, 3]),
        4 => (
            &[(30, 4), (35, 4), (40, 2)],
            [units % 2, random.below(2) as u8, 0],
        ),
        5 if symbols.len() > 60 => (&[(50, 4), (55, 4)], [units, random.below(11) as u8, 0]),
        _ => (&[(45, 4), (50, 4)], [8 + units % 8, 8 + units / 2, 0]),
    };
    put_digits(symbols, fields, &value);
}

/// The same for X, whose tens and units are one field each, highest weight first: about 23:59:60, or one field.
fn odd_digits_of_x(random: &mut Random, symbols: &mut [u8]) {
    let units = random.below(16) as u8;
    let (hour, minute, second) = ((1, 6), (7, 7), (14, 7));
    match random.below(4) {
        0 => {
            put_field(
                symbols,
                hour,
                random.pick(&[2, 2, 1]),
                random.pick(&[3, 3, 4]),
            );
            put_field(
                symbols,
                minute,
                random.pick(&[5, 5, 4]),
                random.pick(&[9, 9, 8]),
            );
            put_field(
                symbols,
                second,
                random.pick(&[6, 6, 5]),
                random.pick(&[0, 0, 9]),
            );
        }
        1 => put_field(symbols, hour, random.below(4) as u8, random.below(11) as u8),
        2 => put_field(symbols, minute, 5 + random.below(3) as u8, units),
        _ => put_field(symbols, second, 5 + random.below(3) as u8, units),
    }
}

/// Puts tens and units over a field of that start and width, highest weight first.
fn put_field(symbols: &mut [u8], (start, width): (usize, usize), tens: u8, units: u8) {
    let value = 16 * tens + units;
    for bit in 0..width {
        symbols[start + width - 1 - bit] = value >> bit & 1;
    }
}

/// Puts each digit at its start and width, lowest weight first.
fn put_digits(symbols: &mut [u8], fields: &[(usize, usize)], digits: &[u8]) {
    for (&(start, width), &digit) in fields.iter().zip(digits) {
        for bit in 0..width {
            symbols[start + bit] = digit >> bit & 1;
        }
    }
}

fn read(random: &mut Random) -> Result<(), String> {
    let format = any_format(random);
    let symbols = any_frame(random, format);
    let answer = duskveyra::read(library_format(format), &symbols);
    let expected = reference::read(format, &symbols);
    agree(
        || format!("read {format:?} {symbols:?}"),
        answer.map(values).map_err(refused),
        expected.map_err(plain_refused),
    )
}

/// The step and the step back from one time.
fn steps(random: &mut Random) -> Result<(), String> {
    let format = any_format(random);
    let at = any_time(random, format);
    let length = match random.below(6) {
        0 => random.pick(&[0, 364, 367, 1, 65535]),
        1 => random.next() as u16,
        _ => 365 + random.below(2) as u16,
    };
    let kind = match random.below(8) {
        0 => random.pick(&[3, 4, 128, 255]),
        1 => random.next() as u8,
        _ => random.below(3) as u8,
    };
    let (from, time) = (library_format(format), library_time(at));
    let answers = [
        duskveyra::step(from, time, length, kind),
        duskveyra::step_back(from, time, length, kind),
    ];
    let expected = [
        reference::step(format, at, length, kind),
        reference::step_back(format, at, length, kind),
    ];
    agree(
        || format!("step, step back {format:?} {at:?} year length {length} kind {kind}"),
        answers.map(|answer| answer.map(plain_time).map_err(refused)),
        expected.map(|answer| answer.map_err(plain_refused)),
    )
}

/// A format that a converter mostly takes: of A and B, and of expressions 0 to 3 or 4 to 7.
fn edition(random: &mut Random, expressions: u8) -> Format {
    if random.once_in(12) {
        return any_format(random);
    }
    let letter = random.pick(b"AB");
    format_of((letter, expressions + random.below(4) as u8))
}

/// A frame forward with any year, mostly with no one among control bits 1 to 9; what was converted is converted back to
/// the same frame.
fn forward(random: &mut Random) -> Result<(), String> {
    let format = edition(random, 0);
    let mut symbols = any_frame(random, format);
    if !random.once_in(4) && symbols.len() > 58 {
        symbols[50..=58].fill(0);
    }
    let year = match random.below(8) {
        0 => random.next() as u8,
        1 => 100,
        _ => random.below(100) as u8,
    };
    let length = any_length(random, format);
    let later = converted(
        random,
        length,
        |lent| duskveyra::forward(library_format(format), &symbols, year, lent),
        |lent| reference::forward(format, &symbols, year, lent),
        || format!("forward {format:?} year {year} {symbols:?}"),
    )?;
    let Some(later) = later else {
        return Ok(());
    };
    let expression = format.expression + 4;
    let format = Format {
        expression,
        ..format
    };
    let back = converted_back(random, format, &later, 100)?;
    agree(|| "forward and back".to_string(), back, Some(symbols))
}

fn backward(random: &mut Random) -> Result<(), String> {
    let format = edition(random, 4);
    let symbols = any_frame(random, format);
    let length = any_length(random, format);
    converted_back(random, format, &symbols, length).map(|_| ())
}

fn converted_back(
    random: &mut Random,
    format: Format,
    symbols: &[u8],
    length: usize,
) -> Result<Option<Vec<u8>>, String> {
    converted(
        random,
        length,
        |lent| duskveyra::backward(library_format(format), symbols, lent),
        |lent| reference::backward(format, symbols, lent),
        || format!("backward {format:?} {symbols:?}"),
    )
}

/// The converted frame, where both sides give it; the lent memory and what stands beside it are compared too.
pub fn converted(
    random: &mut Random,
    length: usize,
    library: impl FnOnce(&mut [u8]) -> Result<(), duskveyra::Refusal>,
    plain: impl FnOnce(&mut [u8]) -> Result<(), reference::Refusal>,
    what: impl Fn() -> String,
) -> Result<Option<Vec<u8>>, String> {
    let fill = random.next() as u8;
    let mut by_library = vec![fill; length + 2 * GUARD];
    let mut by_plain = by_library.clone();
    let lent = GUARD..GUARD + length;
    let answer = library(&mut by_library[lent.clone()]).map_err(refused);
    let expected = plain(&mut by_plain[lent.clone()]).map_err(plain_refused);
    agree(
        || format!("{} length {length} fill {fill}", what()),
        (answer, &by_library),
        (expected, &by_plain),
    )?;
    Ok(answer.is_ok().then(|| by_library[lent].to_vec()))
}

fn difference(random: &mut Random) -> Result<(), String> {
    let format = format_of((b'G', 1));
    let first = any_time(random, format);
    let second = if random.once_in(10) {
        first
    } else {
        any_time(random, format)
    };
    let answer = duskveyra::difference(library_time(first), library_time(second));
    agree(
        || format!("difference {first:?} {second:?}"),
        answer.map_err(refused),
        reference::difference(first, second).map_err(plain_refused),
    )
}

fn any_interval(random: &mut Random) -> u32 {
    match random.below(10) {
        0 => random.pick(&[
            0,
            1,
            99,
            100,
            101,
            9_999_999,
            10_000_000,
            10_000_001,
            u32::MAX,
        ]),
        1 => random.next() as u32,
        2 => 100 + random.below(200) as u32,
        _ => 100 + random.below(9_999_901) as u32,
    }
}

/// A width or period: near a border of the bands, or any.
fn any_ticks(random: &mut Random, interval: u32, percents: &[u64]) -> u32 {
    if random.once_in(12) {
        return random.next() as u32;
    }
    let border = u64::from(interval) * random.pick(percents) / 100;
    match random.below(3) {
        0 => (border + random.below(5)).saturating_sub(2) as u32,
        _ => (border + random.below(u64::from(interval) / 10 + 1)) as u32,
    }
}

/// Settings of 1 to 14 percent; once in eight times one is out of range.
fn any_settings(random: &mut Random) -> Widths {
    let mut percents = [0; 3].map(|_| 1 + random.below(14) as u8);
    if random.once_in(8) {
        let any = random.next() as u8;
        percents[random.index(3)] = random.pick(&[0, 15, 255, any]);
    }
    let [zeros, ones, marks] = percents;
    Widths { zeros, ones, marks }
}

pub fn library_settings(settings: Widths) -> duskveyra::WidthSettings {
    duskveyra::WidthSettings {
        zeros: settings.zeros,
        ones: settings.ones,
        marks: settings.marks,
    }
}

pub fn plain_pulse(pulse: duskveyra::Pulse) -> (u8, i32) {
    (pulse.symbol, pulse.deviation)
}

/// A width about the ends of the classes, and a period about its own.
fn any_pulse(random: &mut Random, settings: Widths, interval: u32) -> (u32, u32) {
    let [z, o, m] = [settings.zeros, settings.ones, settings.marks].map(|s| u64::from(s.min(15)));
    let ends = [0, 20 - z, 20 + z, 50 - o, 50 + o, 80 - m, 80 + m, 100];
    let width = any_ticks(random, interval, &ends);
    let period = any_ticks(random, interval, &[95, 95, 95, 105, 0]);
    (width, period)
}

fn classify(random: &mut Random) -> Result<(), String> {
    let interval = any_interval(random);
    let settings = any_settings(random);
    let (width, period) = any_pulse(random, settings, interval);
    let library = duskveyra::classify(library_settings(settings), interval, width, period);
    agree(
        || format!("classify {settings:?} T {interval} width {width} period {period}"),
        library.map(plain_pulse).map_err(refused),
        reference::classify(settings, interval, width, period).map_err(plain_refused),
    )
}

fn classify_list(random: &mut Random) -> Result<(), String> {
    let interval = any_interval(random);
    let settings = any_settings(random);
    let length = random.index(60);
    let mut lengths = [length; 4];
    if random.once_in(4) {
        let which = random.index(4);
        lengths[which] = random.index(60);
    }
    let pulses: Vec<(u32, u32)> = (0..60)
        .map(|_| any_pulse(random, settings, interval))
        .collect();
    let widths: Vec<u32> = pulses[..lengths[0]].iter().map(|pulse| pulse.0).collect();
    let periods: Vec<u32> = pulses[..lengths[1]].iter().map(|pulse| pulse.1).collect();
    let fill = random.next() as u8;
    let mut symbols = vec![fill; lengths[2] + 2 * GUARD];
    let mut deviations = vec![i32::from(fill); lengths[3] + 2 * GUARD];
    let (mut plain_symbols, mut plain_deviations) = (symbols.clone(), deviations.clone());
    let (lent, off) = (GUARD..GUARD + lengths[2], GUARD..GUARD + lengths[3]);
    let answer = duskveyra::classify_list(
        library_settings(settings),
        interval,
        &widths,
        &periods,
        &mut symbols[lent.clone()],
        &mut deviations[off.clone()],
    );
    let expected = reference::classify_list(
        settings,
        interval,
        &widths,
        &periods,
        &mut plain_symbols[lent],
        &mut plain_deviations[off],
    );
    agree(
        || {
            format!("classify_list {settings:?} T {interval} widths {widths:?} periods {periods:?} lengths {lengths:?} fill {fill}")
        },
        (answer.map_err(refused), symbols, deviations),
        (
            expected.map_err(plain_refused),
            plain_symbols,
            plain_deviations,
        ),
    )
}

fn scan(random: &mut Random) -> Result<(), String> {
    let format = any_format(random);
    let mut recording = vec![2; random.index(3)];
    for _ in 0..random.below(5) {
        match random.below(5) {
            0 => {
                let top = random.pick(&[4, 4, 256]);
                for _ in 0..random.below(100) {
                    recording.push(random.below(top) as u8);
                }
            }
            1 => recording.extend(vec![2; random.index(30)]),
            _ => recording.extend(any_frame(random, format)),
        }
    }
    let start = match random.below(6) {
        0 => recording.len() + random.index(3),
        1 => random.next() as usize,
        2 => random.index(recording.len() + 1),
        _ => random.index(3),
    };
    let answer = duskveyra::scan(library_format(format), &recording, start);
    let expected = reference::scan(format, &recording, start);
    agree(
        || format!("scan {format:?} start {start} {recording:?}"),
        answer
            .map(|found| found.map(|found| (found.start, values(found.report))))
            .map_err(refused),
        expected
            .map(|found| found.map(|(at, when, word)| (at, (when, word))))
            .map_err(plain_refused),
    )
}

/// Mostly a setting of 2 to 5, else one near them or any.
fn any_setting(random: &mut Random) -> u8 {
    match random.below(6) {
        0 => random.pick(&[0, 1, 6, 7, 255]),
        1 => random.next() as u8,
        _ => setting(random),
    }
}

/// A fresh reader of any format and setting: 1, 26, or a reader at place 0.
fn fresh(random: &mut Random) -> Result<(), String> {
    let format = any_format(random);
    let setting = any_setting(random);
    let library = duskveyra::Reader::fresh(library_format(format), setting);
    let plain = reference::Reader::fresh(format, setting);
    agree(
        || format!("fresh {format:?} setting {setting}"),
        library
            .map(|reader| (reader.words()[SETTING], reader.words()[PLACE]))
            .map_err(refused),
        plain
            .map(|reader| (u64::from(setting), reader.place() as u64))
            .map_err(plain_refused),
    )
}

/// A reader's words.
type Words = [u64; duskveyra::READER_WORDS];

/// Words of a reader: mostly of this format, with any setting, at any place and with anything received, else near that or
/// any words.
pub fn any_words(random: &mut Random, (letter, expression): (u8, u8)) -> Words {
    let mut words: Words = std::array::from_fn(|_| random.next());
    if !random.once_in(8) {
        words[0] = u64::from(letter);
        words[1] = u64::from(expression);
        words[SETTING] = u64::from(any_setting(random));
        words[PLACE] = random.below(110);
    }
    // A frame under way of about the format's length, behind a row of frames.
    if random.once_in(2) {
        words[COUNT] = random.below(110);
        words[ROW] = random.below(8);
        words[YEAR] = random.below(110);
        words[DAY] = random.below(400);
        words[HUNDREDTHS] = random.below(9_000_000);
    }
    if random.once_in(8) {
        words[random.index(4)] += 256;
    }
    words
}

/// The number with which a reader of these words is refused: 13 where the letter, the expression or the place is out of
/// range, then 26 where the setting is.
pub fn refused_reader(words: &Words) -> Option<u8> {
    let known = FORMATS.iter().find(|&&(letter, expression)| {
        words[0] == u64::from(letter) && words[1] == u64::from(expression)
    });
    if known.is_none_or(|&known| words[PLACE] >= table(format_of(known)).0 as u64) {
        return Some(13);
    }
    (!(2..=5).contains(&words[SETTING])).then_some(26)
}

/// A reader of any words, fed a symbol and a pulse: 13, 26, then 4 for a symbol above 3, the pulse's 10 and 16 before them, and
/// after a refusal the same words. `reference` cannot make such a reader; the rule is that of documents 01 and 02.
fn any_reader(random: &mut Random) -> Result<(), String> {
    let format = random.pick(&FORMATS);
    let words = any_words(random, format);
    let top = random.pick(&[4, 256]);
    let symbol = random.below(top) as u8;
    let expected = refused_reader(&words).or((symbol > 3).then_some(4));
    let mut reader = duskveyra::Reader::from_words(words);
    let answer = reader.feed(symbol).err().map(|refusal| refusal.number());
    let what = || format!("feed of a reader of any words {words:x?} symbol {symbol}");
    agree(what, answer, expected)?;
    left_alone(what, expected, &reader, &words)?;

    let interval = any_interval(random);
    let settings = any_settings(random);
    let (width, period) = any_pulse(random, settings, interval);
    let classified = reference::classify(settings, interval, width, period);
    let expected = match classified {
        Ok(_) => refused_reader(&words),
        Err(refusal) => Some(refusal.number()),
    };
    let mut by_pulse = duskveyra::Reader::from_words(words);
    let answer = by_pulse.feed_pulse(library_settings(settings), interval, width, period);
    let what =
        || format!("pulse {settings:?} T {interval} width {width} period {period} to {words:x?}");
    agree(what, answer.err().map(|refusal| refusal.number()), expected)?;
    left_alone(what, expected, &by_pulse, &words)?;
    let mut by_symbol = duskveyra::Reader::from_words(words);
    match classified {
        Ok((symbol, deviation)) => {
            let fed = by_symbol.feed(symbol);
            let expected = fed.map(|report| duskveyra::FedPulse { report, deviation });
            agree(what, (answer, by_pulse), (expected, by_symbol))
        }
        Err(_) => Ok(()),
    }
}

/// A refused Feed leaves the reader's words.
fn left_alone(
    what: impl Fn() -> String,
    refused: Option<u8>,
    reader: &duskveyra::Reader,
    words: &Words,
) -> Result<(), String> {
    let left = refused.is_none() || reader.words() == *words;
    agree(|| format!("words left: {}", what()), left, true)
}

/// A pulse with any interval and any settings to a fresh reader: refused as the classifier refuses it, and the reader left as it was.
fn refused_pulse(random: &mut Random) -> Result<(), String> {
    let format = format_of(random.pick(&FORMATS));
    let setting = setting(random);
    let interval = any_interval(random);
    let settings = any_settings(random);
    let (width, period) = any_pulse(random, settings, interval);
    let mut plain =
        reference::Reader::fresh(format, setting).map_err(|_| "no fresh reader".to_string())?;
    let mut library = duskveyra::Reader::fresh(library_format(format), setting)
        .map_err(|refusal| format!("{format:?}: {refusal}"))?;
    let mut fed = library.clone();
    let (answer, deviation) =
        reference::classify_and_feed(&mut plain, settings, interval, width, period);
    let expected = crate::plain_fed(answer).map(|report| (report, deviation));
    if let Ok((symbol, _)) = reference::classify(settings, interval, width, period) {
        let _ = fed.feed(symbol);
    }
    let answer = library.feed_pulse(library_settings(settings), interval, width, period);
    agree(
        || format!("feed_pulse {format:?} {settings:?} T {interval} width {width} period {period}"),
        (crate::fed_pulse(answer), library.words()),
        (expected, fed.words()),
    )
}
