//! Write, Read and the stream reader in Rust written for speed, for the formats B0, B4, G1 and H1 of the benchmark.
//! Digits move four elements at a time, and a frame is judged without a branch for each element.

use crate::plain::{next_after, Format, Refusal, Time};

struct Layout {
    n: usize,
    interval: u32,
    /// Starts of the digits: units and tens of seconds, minutes, hours; days; tenths; hundredths; units and tens of
    /// years. 96 is none.
    digits: [usize; DIGITS],
    /// Starts of the ranges of nine control bits.
    control: &'static [usize],
    has_binary_seconds: bool,
    /// Whether 23:59:60 is carried.
    has_leap_second: bool,
    /// The frame of all zeros, and the lowest and highest symbol that each element takes.
    low: [u8; 100],
    high: [u8; 100],
}

const DIGITS: usize = 13;
const WIDTHS: [usize; DIGITS] = [4, 3, 4, 3, 4, 2, 4, 4, 2, 4, 4, 4, 4];
const NONE: usize = 96;

const fn build(
    n: usize,
    interval: u32,
    digits: [usize; DIGITS],
    control: &'static [usize],
    has_binary_seconds: bool,
    has_leap_second: bool,
) -> Layout {
    let (mut low, mut high) = ([0; 100], [0; 100]);
    let mut i = 0;
    while i < DIGITS {
        let mut bit = 0;
        while digits[i] != NONE && bit < WIDTHS[i] {
            high[digits[i] + bit] = 1;
            bit += 1;
        }
        i += 1;
    }
    i = 0;
    while i < control.len() * 9 {
        high[control[i / 9] + i % 9] = 1;
        i += 1;
    }
    i = 80;
    while has_binary_seconds && i < 98 {
        high[i] = 1;
        i += 1;
    }
    i = 0;
    while i < n {
        if i == 0 || i % 10 == 9 {
            low[i] = 2;
            high[i] = 2;
        }
        i += 1;
    }
    Layout {
        n,
        interval,
        digits,
        control,
        has_binary_seconds,
        has_leap_second,
        low,
        high,
    }
}

static B0: Layout = build(
    100,
    100,
    [1, 6, 10, 15, 20, 25, 30, 35, 40, NONE, NONE, NONE, NONE],
    &[50, 60, 70],
    true,
    true,
);
static B4: Layout = build(
    100,
    100,
    [1, 6, 10, 15, 20, 25, 30, 35, 40, NONE, NONE, 50, 55],
    &[60, 70],
    true,
    true,
);
static G1: Layout = build(
    100,
    1,
    [1, 6, 10, 15, 20, 25, 30, 35, 40, 45, 50, NONE, NONE],
    &[60, 70, 80, 90],
    false,
    true,
);
static H1: Layout = build(
    60,
    6_000,
    [
        NONE, NONE, 10, 15, 20, 25, 30, 35, 40, NONE, NONE, NONE, NONE,
    ],
    &[50],
    false,
    false,
);

/// Whether the format is one of the four.
pub fn has(format: Format) -> bool {
    layout_of(format).is_ok()
}

fn layout_of(format: Format) -> Result<&'static Layout, Refusal> {
    match (format.letter, format.expression) {
        (b'B', 0) => Ok(&B0),
        (b'B', 4) => Ok(&B4),
        (b'G', 1) => Ok(&G1),
        (b'H', 1) => Ok(&H1),
        _ => Err(Refusal::Format),
    }
}

impl Layout {
    fn has_year(&self) -> bool {
        self.digits[DIGITS - 1] != NONE
    }

    fn last_year(&self) -> u8 {
        if self.has_year() {
            Time::LAST_YEAR
        } else {
            0
        }
    }

    fn last_day(&self, year: u8) -> u16 {
        if self.has_year() {
            Time::days_in(year)
        } else {
            Time::LAST_DAY
        }
    }
}

/// Four bits as four elements, lowest first.
fn spread(digit: u32) -> u32 {
    digit.wrapping_mul(0x0020_4081) & 0x0101_0101
}

/// Four elements of 0 and 1 as a number.
fn gather(elements: u32) -> u32 {
    elements.wrapping_mul(0x0102_0408) >> 24
}

pub fn write(format: Format, time: Time, control: u64, frame: &mut [u8]) -> Result<(), Refusal> {
    let layout = layout_of(format)?;
    if time.year > layout.last_year() {
        return Err(Refusal::Year);
    }
    if !time.in_range()
        || time.day > layout.last_day(time.year)
        || time.hundredths % layout.interval != 0
    {
        return Err(Refusal::Time);
    }
    if time.in_added_second() && !layout.has_leap_second {
        return Err(Refusal::AddedSecond);
    }
    if control >> (9 * layout.control.len()) != 0 {
        return Err(Refusal::Control);
    }
    if frame.len() != layout.n {
        return Err(Refusal::Length);
    }
    frame.copy_from_slice(&layout.low[..layout.n]);
    let (c, day, year) = (time.hundredths, u32::from(time.day), u32::from(time.year));
    let second_of_day = c / 100;
    // The added second is the 61st of the day's last minute.
    let minute_of_day = (second_of_day / 60).min(1_439);
    let (minute, hour) = (minute_of_day % 60, minute_of_day / 60);
    let second = second_of_day - 60 * minute_of_day;
    let values = [
        second % 10,
        second / 10,
        minute % 10,
        minute / 10,
        hour % 10,
        hour / 10,
        day % 10,
        day / 10 % 10,
        day / 100,
        c / 10 % 10,
        c % 10,
        year % 10,
        year / 10,
    ];
    for (&start, value) in layout.digits.iter().zip(values) {
        if start != NONE {
            let four: &mut [u8; 4] = (&mut frame[start..start + 4])
                .try_into()
                .expect("four elements");
            *four = (u32::from_le_bytes(*four) | spread(value)).to_le_bytes();
        }
    }
    for (range, &start) in layout.control.iter().enumerate() {
        for (bit, element) in frame[start..start + 9].iter_mut().enumerate() {
            *element = (control >> (9 * range + bit)) as u8 & 1;
        }
    }
    if layout.has_binary_seconds {
        for (bit, element) in frame[80..89].iter_mut().enumerate() {
            *element = (second_of_day >> bit) as u8 & 1;
        }
        for (bit, element) in frame[90..98].iter_mut().enumerate() {
            *element = (second_of_day >> (9 + bit)) as u8 & 1;
        }
    }
    Ok(())
}

pub fn read(format: Format, frame: &[u8]) -> Result<(Time, u64), Refusal> {
    let layout = layout_of(format)?;
    if frame.len() != layout.n {
        return Err(Refusal::Length);
    }
    if frame.iter().fold(0, |all, &symbol| all | symbol) > 3 {
        return Err(Refusal::Symbol);
    }
    decode(layout, frame)
}

fn decode(layout: &Layout, frame: &[u8]) -> Result<(Time, u64), Refusal> {
    let limits = || frame.iter().zip(&layout.low).zip(&layout.high);
    let offends = limits().fold(0, |any, ((&symbol, &low), &high)| {
        any | u8::from(symbol < low) | u8::from(symbol > high)
    });
    if offends != 0 {
        let index = limits()
            .position(|((&symbol, &low), &high)| symbol < low || symbol > high)
            .unwrap_or(0);
        return Err(if (frame[index] == 2) != (layout.low[index] == 2) {
            Refusal::Mark(index)
        } else {
            Refusal::Element(index)
        });
    }
    let mut values = [0; DIGITS];
    for ((value, &start), width) in values.iter_mut().zip(&layout.digits).zip(WIDTHS) {
        if start != NONE {
            let four: [u8; 4] = frame[start..start + 4].try_into().expect("four elements");
            let elements = u32::from_le_bytes(four) & (u32::MAX >> (32 - 8 * width));
            *value = gather(elements);
            if *value > 9 {
                return Err(Refusal::Digit);
            }
        }
    }
    let [s, ss, m, mm, h, hh, d, dd, ddd, tenths, hundredths, y, yy] = values;
    let year = (10 * yy + y) as u8;
    let (second, minute, hour) = (10 * ss + s, 10 * mm + m, 10 * hh + h);
    let day = 100 * ddd + 10 * dd + d;
    let minute_of_day = hour * 60 + minute;
    let last = 59 + u32::from(layout.has_leap_second && minute_of_day == 1_439);
    if hour > 23 || minute > 59 || second > last || day == 0 {
        return Err(Refusal::Digit);
    }
    if day > u32::from(layout.last_day(year)) {
        return Err(Refusal::Digit);
    }
    let second_of_day = minute_of_day * 60 + second;
    let bits = |start: usize, width: usize| {
        frame[start..start + width]
            .iter()
            .rev()
            .fold(0, |word, &symbol| word << 1 | u64::from(symbol))
    };
    if layout.has_binary_seconds && bits(80, 9) | bits(90, 8) << 9 != u64::from(second_of_day) {
        return Err(Refusal::BinarySeconds);
    }
    let control = layout
        .control
        .iter()
        .rev()
        .fold(0, |word, &start| word << 9 | bits(start, 9));
    let time = Time {
        year,
        day: day as u16,
        hundredths: second_of_day * 100 + 10 * tenths + hundredths,
    };
    Ok((time, control))
}

/// Symbols that the reader holds before it moves the last of them to the front.
const HELD: usize = 4096;

pub struct Reader {
    format: Format,
    layout: &'static Layout,
    /// k frames of n elements.
    frames: usize,
    held: [u8; HELD],
    end: usize,
}

impl Reader {
    pub fn fresh(format: Format, setting: u8) -> Result<Reader, Refusal> {
        let layout = layout_of(format)?;
        if !(2..=5).contains(&setting) {
            return Err(Refusal::Setting);
        }
        let frames = usize::from(setting) * layout.n;
        Ok(Reader {
            format,
            layout,
            frames,
            held: [3; HELD],
            end: frames + 1,
        })
    }

    #[inline]
    pub fn feed(&mut self, symbol: u8) -> Result<Option<(Time, u64)>, Refusal> {
        if symbol > 3 {
            return Err(Refusal::Symbol);
        }
        if self.end == HELD {
            self.held.copy_within(HELD - self.frames.., 0);
            self.end = self.frames;
        }
        self.held[self.end] = symbol;
        self.end += 1;
        if symbol != 2 {
            return Ok(None);
        }
        Ok(self.window())
    }

    fn window(&self) -> Option<(Time, u64)> {
        let n = self.layout.n;
        let window = &self.held[self.end - self.frames - 1..self.end];
        let marked = window[0] == 2 && window[1] == 2 && window[n] == 2 && window[n + 1] == 2;
        if !marked || window[self.frames - 1] == 2 {
            return None;
        }
        let mut last = decode(self.layout, &window[1..=n]).ok()?;
        for frame in window[n + 1..].chunks_exact(n) {
            let next = decode(self.layout, frame).ok()?;
            if !next_after(self.format, last.0, next.0) {
                return None;
            }
            last = next;
        }
        Some(last)
    }
}
