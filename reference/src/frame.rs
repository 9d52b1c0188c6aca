//! Writing and reading one frame.

use crate::clock::check_on_format;
use crate::formats::{Format, Time, MARK, ONE, SPOILED, ZERO};
use crate::layout::{Element, Field, Layout};
use crate::refusal::Refusal;

const HUNDREDTHS_PER_SECOND: u32 = 100;

/// Writes the frame of a time and control word. Every byte of `frame` is set;
/// a refusal leaves it untouched.
pub fn write(format: Format, time: Time, control: u64, frame: &mut [u8]) -> Result<(), Refusal> {
    let layout = Layout::of(format)?;
    check_on_format(layout, time)?;
    if control >> layout.control_bits() != 0 {
        return Err(Refusal::Control);
    }
    if frame.len() != layout.elements {
        return Err(Refusal::Length);
    }

    let c = time.hundredths;
    let (hours, minutes, seconds) = time.clock();
    frame.copy_from_slice(&layout.blank[..layout.elements]);
    put_decimal(frame, &layout.fraction, c % HUNDREDTHS_PER_SECOND);
    put_decimal(frame, &layout.seconds, seconds);
    put_decimal(frame, &layout.minutes, minutes);
    put_decimal(frame, &layout.hours, hours);
    put_decimal(frame, &layout.days, u32::from(time.day));
    put_decimal(frame, &layout.year, u32::from(time.year));
    put_word(frame, layout.control, control);
    put_word(
        frame,
        layout.binary_seconds,
        u64::from(c / HUNDREDTHS_PER_SECOND),
    );
    Ok(())
}

/// Reads the time and control word of a frame. It is refused exactly if no
/// time and control word are written as those bytes.
pub fn read(format: Format, frame: &[u8]) -> Result<(Time, u64), Refusal> {
    let layout = Layout::of(format)?;
    if frame.len() != layout.elements {
        return Err(Refusal::Length);
    }
    if frame.iter().any(|&symbol| symbol > SPOILED) {
        return Err(Refusal::Symbol);
    }
    decode(layout, frame)
}

/// `read` for a frame of the right length. A symbol above 3 is refused here
/// like a spoiled one.
pub(crate) fn decode(layout: &Layout, frame: &[u8]) -> Result<(Time, u64), Refusal> {
    check_elements(layout, frame)?;

    let year = get_decimal(frame, &layout.year)? as u8;
    let day = match layout.carries_day {
        true => get_decimal(frame, &layout.days)?,
        false => 1,
    };
    let hours = get_decimal(frame, &layout.hours)?;
    let minutes = get_decimal(frame, &layout.minutes)?;
    let seconds = get_decimal(frame, &layout.seconds)?;
    let fraction = get_decimal(frame, &layout.fraction)?;
    // A 61st second stands at the end of a day alone.
    let last_second = if layout.leap_second && (hours, minutes) == (23, 59) {
        60
    } else {
        59
    };
    if hours > 23
        || minutes > 59
        || seconds > last_second
        || day == 0
        || day > u32::from(layout.last_day(year))
    {
        return Err(Refusal::Digit);
    }

    let second_of_day = (hours * 60 + minutes) * 60 + seconds;
    if !layout.binary_seconds.is_empty()
        && get_word(frame, layout.binary_seconds) != u64::from(second_of_day)
    {
        return Err(Refusal::BinarySeconds);
    }

    let hundredths = second_of_day * HUNDREDTHS_PER_SECOND + fraction;
    let time = Time {
        year,
        day: day as u16,
        hundredths,
    };
    Ok((time, get_word(frame, layout.control)))
}

/// Refuses the lowest element that holds what cannot stand there.
fn check_elements(layout: &Layout, frame: &[u8]) -> Result<(), Refusal> {
    for (index, (&symbol, &kind)) in frame.iter().zip(&layout.kinds).enumerate() {
        match (kind, symbol) {
            (Element::Bit, ZERO | ONE) => {}
            (Element::Fixed(expected), _) if symbol == expected => {}
            (Element::Fixed(MARK), _) | (_, MARK) => return Err(Refusal::Mark(index)),
            _ => return Err(Refusal::Element(index)),
        }
    }
    Ok(())
}

fn put_bits(frame: &mut [u8], field: Field, value: u64) {
    let symbols = frame[field.start..][..field.width].iter_mut();
    if field.highest_first {
        put_rising(symbols.rev(), value);
    } else {
        put_rising(symbols, value);
    }
}

/// Sets symbols to the bits of a value, the lowest first.
fn put_rising<'a>(symbols: impl Iterator<Item = &'a mut u8>, value: u64) {
    for (bit, symbol) in symbols.enumerate() {
        *symbol = (value >> bit & 1) as u8;
    }
}

fn get_bits(frame: &[u8], field: Field) -> u64 {
    let symbols = frame[field.start..][..field.width].iter();
    if field.highest_first {
        get_falling(symbols)
    } else {
        get_falling(symbols.rev())
    }
}

/// The value of symbols as bits, the highest first.
fn get_falling<'a>(symbols: impl Iterator<Item = &'a u8>) -> u64 {
    symbols.fold(0, |value, &symbol| value << 1 | u64::from(symbol))
}

/// Writes a number as decimal digits; `digits` lists them highest first.
pub(crate) fn put_decimal(frame: &mut [u8], digits: &[Field], mut value: u32) {
    for &digit in digits.iter().rev() {
        put_bits(frame, digit, u64::from(value % 10));
        value /= 10;
    }
}

/// Reads a number from decimal digits, none of them over 9.
fn get_decimal(frame: &[u8], digits: &[Field]) -> Result<u32, Refusal> {
    digits
        .iter()
        .try_fold(0, |value, &digit| match get_bits(frame, digit) {
            bits @ 0..=9 => Ok(value * 10 + bits as u32),
            _ => Err(Refusal::Digit),
        })
}

/// Writes a binary word over several parts, lowest first.
fn put_word(frame: &mut [u8], parts: &[Field], mut word: u64) {
    for &part in parts {
        put_bits(frame, part, word);
        word >>= part.width;
    }
}

/// Reads a binary word from several parts, lowest first.
fn get_word(frame: &[u8], parts: &[Field]) -> u64 {
    parts
        .iter()
        .rev()
        .fold(0, |word, &part| word << part.width | get_bits(frame, part))
}
