//! What `crates/stress` must print: each symbol is answered by the reader of this crate and by a plain machine that holds
//! the whole list, and the two must agree.
use reference::{next_after, read, step, write, Answer, Format, Reader, Time};

const P: u64 = 1_000_000_007;

struct Count {
    e: u64,
    r: u64,
    f: u64,
    s: u64,
}

impl Count {
    fn new() -> Count {
        Count {
            e: 0,
            r: 0,
            f: 0,
            s: 0,
        }
    }
    fn take(&mut self, a: Answer) {
        match a {
            Answer::Quiet => self.e += 1,
            Answer::Refused(_) => self.f += 1,
            Answer::Report(t, c) => {
                self.e += 1;
                self.r += 1;
                // Where no year is carried it is 0, and the sum that of the day.
                let day = 1_000 * u64::from(t.year) + u64::from(t.day);
                for x in [self.e, day, u64::from(t.hundredths), c % P] {
                    self.s = ((self.s % P) * 31 + x) % P;
                }
            }
        }
    }
}

/// The window by definition: with the setting k the last kn + 1 symbols are a mark and k frames that Read takes, in X the
/// last kn are k such frames, each next after the one before.
fn plain(format: Format, setting: u8, history: &mut Vec<u8>, symbol: u8) -> Answer {
    if symbol > 3 {
        return Answer::Refused(reference::Refusal::Symbol);
    }
    history.push(symbol);
    let n = size(format);
    let Some(start) = history.len().checked_sub(usize::from(setting) * n) else {
        return Answer::Quiet;
    };
    if !is_x(format) && (start == 0 || history[start - 1] != 2) {
        return Answer::Quiet;
    }
    let mut last = None;
    for frame in history[start..].chunks(n) {
        let Ok((u, c)) = read(format, frame) else {
            return Answer::Quiet;
        };
        if last.is_some_and(|(t, _)| !next_after(format, t, u)) {
            return Answer::Quiet;
        }
        last = Some((u, c));
    }
    last.map_or(Answer::Quiet, |(u, c)| Answer::Report(u, c))
}

fn line(name: &str, format: Format, setting: u8, symbols: &[u8]) {
    let mut reader = Reader::fresh(format, setting).unwrap();
    let mut count = Count::new();
    let mut history = Vec::new();
    for &x in symbols {
        let a = reader.feed(x);
        assert_eq!(a, plain(format, setting, &mut history, x), "{name}");
        count.take(a);
    }
    show(name, format, setting, &count);
}

/// Setting 2 is not named.
fn show(name: &str, format: Format, setting: u8, c: &Count) {
    print!("{name} {} {}", format.letter as char, format.expression);
    if setting != 2 {
        print!(" setting {setting}");
    }
    println!(
        " elements {} reports {} refused {} sum {}",
        c.e, c.r, c.f, c.s
    );
}

fn is_x(f: Format) -> bool {
    f.letter == b'X'
}

fn size(f: Format) -> usize {
    match f.letter {
        b'D' | b'H' => 60,
        b'X' => 25,
        _ => 100,
    }
}

fn interval(f: Format) -> u32 {
    match f.letter {
        b'A' => 10,
        b'B' | b'X' => 100,
        b'D' => 360_000,
        b'E' => 1_000,
        b'G' => 1,
        b'H' => 6_000,
        _ => panic!(),
    }
}

/// How many control bits Write takes, found by asking it.
fn control_bits(f: Format) -> u32 {
    let mut frame = vec![0; size(f)];
    let t = Time {
        year: 0,
        day: 1,
        hundredths: 0,
    };
    let mut bits = 0;
    while write(f, t, 1u64 << bits, &mut frame).is_ok() {
        bits += 1;
    }
    bits
}

/// Frames of a generator that starts on day 365 of that year, where the format carries them, and is told a length of the
/// year with each step.
fn frames(f: Format, year: u8, length: impl Fn(u64) -> u16) -> Vec<u8> {
    let bits = control_bits(f);
    let mut t = Time {
        year: if f.expression < 4 { 0 } else { year },
        day: if is_x(f) { 1 } else { 365 },
        hundredths: 8_640_000 - 11 * interval(f),
    };
    let mut out = Vec::new();
    for j in 0..300u64 {
        let mut frame = vec![7; size(f)];
        write(f, t, (j * 12345) % (1 << bits), &mut frame).unwrap();
        out.extend(frame);
        if let Ok(u) = step(f, t, length(j), 0) {
            t = u;
        }
    }
    out
}

fn formats() -> Vec<Format> {
    [
        ("A", 0..8u8),
        ("B", 0..8),
        ("D", 1..3),
        ("E", 1..3),
        ("G", 1..3),
        ("H", 1..3),
        ("X", 2..3),
    ]
    .into_iter()
    .flat_map(|(l, es)| {
        es.map(move |e| Format {
            letter: l.as_bytes()[0],
            expression: e,
        })
    })
    .collect()
}

fn each(name: &str, setting: u8, make: &dyn Fn(Format) -> Vec<u8>) {
    for f in formats() {
        line(name, f, setting, &make(f));
    }
}

const M: usize = 200_000;

/// A year with day 366, and the one before year 0.
const LEAP_YEAR: u8 = 96;
const LAST_YEAR: u8 = 99;

fn random_symbols(setting: u8) {
    each("random", setting, &|_| {
        let mut x = 1u64;
        (0..M)
            .map(|_| {
                x = (x * 1103515245 + 12345) % 2147483648;
                (x / 65536 % 6) as u8
            })
            .collect()
    });
}

fn made_up(setting: u8) {
    let cycle = |name, part: &'static [u8]| {
        each(name, setting, &|_| {
            part.iter().copied().cycle().take(M).collect()
        })
    };
    cycle("marks", &[2]);
    cycle("spoiled", &[3]);
    cycle("alternating", &[2, 0]);
    cycle("pairs", &[2, 2, 0]);
    cycle("fours", &[2, 2, 0, 0]);
    each("refused", setting, &|_| {
        (4..=255u8).cycle().take(M).collect()
    });
    each("shaped", setting, &|f| {
        let n = size(f);
        (0..M)
            .map(|i| match i % n {
                0 => 2,
                21.. if is_x(f) => 3,
                index if !is_x(f) && index % 10 == 9 => 2,
                _ => 1,
            })
            .collect()
    });
    random_symbols(setting);
}

fn valid(f: Format) -> Vec<u8> {
    frames(f, LEAP_YEAR, |_| 366)
}

/// The valid frames with each element that has a number divisible by `step`, counted from 1, made something else.
fn changed(f: Format, step: usize, change: impl Fn(u8) -> Vec<u8>) -> Vec<u8> {
    let mut out = Vec::new();
    for (number, x) in (1..).zip(valid(f)) {
        if number % step == 0 {
            out.extend(change(x));
        } else {
            out.push(x);
        }
    }
    out
}

fn generated(setting: u8) {
    each("valid", setting, &valid);
    each("damaged", setting, &|f| changed(f, 997, |_| vec![3]));
    each("lost", setting, &|f| changed(f, 997, |_| vec![]));
    each("added", setting, &|f| changed(f, 997, |x| vec![1, x]));
    each("interrupted", setting, &|f| changed(f, 50, |x| vec![9, x]));
    each("leap", setting, &|f| {
        frames(f, LEAP_YEAR, |j| if j % 2 == 1 { 365 } else { 366 })
    });
    each("common", setting, &|f| {
        frames(f, LAST_YEAR, |j| if j % 2 == 0 { 365 } else { 366 })
    });
}

fn rows(setting: u8) {
    each("replaced", setting, &|f| {
        changed(f, 331, |x| vec![(x + 1) % 4])
    });
    each("repeated", setting, &|f| {
        frames(f, LEAP_YEAR, |j| if j % 5 == 4 { 365 } else { 366 })
    });
}

fn counted(e: u64, f: u64) -> Count {
    Count { e, r: 0, f, s: 0 }
}

fn main() {
    made_up(2);
    generated(2);
    // Number 13: a Reader that is not valid refuses every Feed. The reference has none such, so the count is the rule's.
    for f in formats() {
        show("place", f, 2, &counted(0, 256));
    }
    let b0 = Format {
        letter: b'B',
        expression: 0,
    };
    line("million", b0, 2, &vec![2; 1_000_000]);
    let c0 = Format {
        letter: b'C',
        expression: 0,
    };
    assert!(Reader::fresh(c0, 2).is_err());
    show("unknown", c0, 2, &counted(0, 256));
    rows(2);
    for setting in 3..=5 {
        random_symbols(setting);
        generated(setting);
        rows(setting);
    }
    // Number 26: the reference has no reader of another setting, so the count of its refused Feeds is the rule's.
    for f in formats() {
        let made = (0..=255).filter(|&setting| Reader::fresh(f, setting).is_ok());
        let fed = made.count() as u64;
        show("settings", f, 2, &counted(fed, 256 - fed));
    }
}
