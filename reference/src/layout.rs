//! Where each element of a frame stands: one constant table for each format,
//! used by writer and reader alike.

use crate::formats::{Format, Time, MARK, SPOILED, ZERO};
use crate::refusal::Refusal;

/// The longest frame, in elements.
pub const MAX_ELEMENTS: usize = 100;

/// Consecutive elements carrying bits.
#[derive(Clone, Copy, Debug, PartialEq, Eq)]
pub struct Field {
    pub start: usize,
    pub width: usize,
    /// Whether the highest weight stands first, and not the lowest.
    pub highest_first: bool,
}

/// Elements `start` to `last`, both included, lowest weight first.
const fn field(start: usize, last: usize) -> Field {
    Field {
        start,
        width: last - start + 1,
        highest_first: false,
    }
}

/// Elements `start` to `last`, both included, highest weight first.
const fn highest_first(start: usize, last: usize) -> Field {
    Field {
        highest_first: true,
        ..field(start, last)
    }
}

/// A digit that the format does not carry; it always counts as 0.
const ABSENT: Field = Field {
    start: 0,
    width: 0,
    highest_first: false,
};

/// What belongs at one index of a frame: the same symbol in every frame, which
/// is a mark, an index marker or a missing pulse, or a bit.
#[derive(Clone, Copy, Debug, PartialEq, Eq)]
pub enum Element {
    Fixed(u8),
    Bit,
}

/// The frame of one format. Decimal digits are listed highest first, the parts
/// of a binary word lowest first.
#[derive(Debug, PartialEq, Eq)]
pub struct Layout {
    /// Elements in a frame, n.
    pub elements: usize,
    /// Frame interval in hundredths of a second, S.
    pub interval: u32,
    /// Whether a second added to a day or taken from it shows in the format.
    pub leap_second: bool,
    pub carries_year: bool,
    /// Where it does not, every time is of day 1.
    pub carries_day: bool,
    /// Whether a frame counts only directly after a mark.
    pub mark_before: bool,
    pub seconds: [Field; 2],
    pub minutes: [Field; 2],
    pub hours: [Field; 2],
    pub days: [Field; 3],
    pub year: [Field; 2],
    /// Tenths and hundredths of a second.
    pub fraction: [Field; 2],
    /// Control bits, empty where the expression has none.
    pub control: &'static [Field],
    /// Straight binary seconds, empty where the expression has none.
    pub binary_seconds: &'static [Field],
    /// What belongs at each index, derived from the fields above.
    pub kinds: [Element; MAX_ELEMENTS],
    /// A frame with its marks and missing pulses set and everything else zero.
    pub blank: [u8; MAX_ELEMENTS],
}

impl Layout {
    /// The table of a format, or refusal 1.
    pub fn of(format: Format) -> Result<&'static Layout, Refusal> {
        let (layouts, first_expression): (&'static [Layout], u8) = match format.letter {
            b'A' => (&A, 0),
            b'B' => (&B, 0),
            b'D' => (&D, 1),
            b'E' => (&E, 1),
            b'G' => (&G, 1),
            b'H' => (&H, 1),
            b'X' => (&X, 2),
            _ => return Err(Refusal::Format),
        };
        format
            .expression
            .checked_sub(first_expression)
            .and_then(|row| layouts.get(usize::from(row)))
            .ok_or(Refusal::Format)
    }

    /// The last day that a time of that year has in the format: the year's own,
    /// 366 where the format does not carry the year, 1 where it carries no day.
    pub fn last_day(&self, year: u8) -> u16 {
        if self.carries_year {
            Time::days_in(year)
        } else if self.carries_day {
            Time::LAST_DAY
        } else {
            1
        }
    }

    /// What stands last in every good frame.
    pub fn last_symbol(&self) -> u8 {
        self.blank[self.elements - 1]
    }

    /// Elements asked for before the first frame: one mark, or none.
    pub fn lead(&self) -> usize {
        usize::from(self.mark_before)
    }

    /// Number of control bits that a frame carries.
    pub fn control_bits(&self) -> usize {
        self.control.iter().map(|part| part.width).sum()
    }
}

static A: [Layout; 8] = expressions_0_to_7(b'A');
static B: [Layout; 8] = expressions_0_to_7(b'B');
static D: [Layout; 2] = expressions_1_and_2(b'D');
static E: [Layout; 2] = expressions_1_and_2(b'E');
static G: [Layout; 2] = expressions_1_and_2(b'G');
static H: [Layout; 2] = expressions_1_and_2(b'H');
static X: [Layout; 1] = [build_xr3()];

const CONTROL_A_B: &[Field] = &[field(50, 58), field(60, 68), field(70, 78)];
const CONTROL_WITH_YEAR: &[Field] = &[field(60, 68), field(70, 78)];
const CONTROL_D_H: &[Field] = &[field(50, 58)];
const CONTROL_E: &[Field] = &[
    field(50, 58),
    field(60, 68),
    field(70, 78),
    field(80, 88),
    field(90, 98),
];
const CONTROL_G: &[Field] = &[field(60, 68), field(70, 78), field(80, 88), field(90, 98)];
const BINARY_SECONDS: &[Field] = &[field(80, 88), field(90, 97)];

const SECOND_UNITS: Field = field(1, 4);
const SECOND_TENS: Field = field(6, 8);
const MINUTES: [Field; 2] = [field(15, 17), field(10, 13)];
const HOURS: [Field; 2] = [field(25, 26), field(20, 23)];
const DAYS: [Field; 3] = [field(40, 41), field(35, 38), field(30, 33)];
const YEAR: [Field; 2] = [field(55, 58), field(50, 53)];
const TENTHS: Field = field(45, 48);
const HUNDREDTHS: Field = field(50, 53);

const fn expressions_0_to_7(letter: u8) -> [Layout; 8] {
    [
        build(letter, 0),
        build(letter, 1),
        build(letter, 2),
        build(letter, 3),
        build(letter, 4),
        build(letter, 5),
        build(letter, 6),
        build(letter, 7),
    ]
}

const fn expressions_1_and_2(letter: u8) -> [Layout; 2] {
    [build(letter, 1), build(letter, 2)]
}

/// The table of a format that document 01 or document 02, "The year on the
/// wire", lists.
const fn build(letter: u8, expression: u8) -> Layout {
    let (elements, interval, control) = match letter {
        b'A' => (100, 10, CONTROL_A_B),
        b'B' => (100, 100, CONTROL_A_B),
        b'D' => (60, 360_000, CONTROL_D_H),
        b'E' => (100, 1_000, CONTROL_E),
        b'G' => (100, 1, CONTROL_G),
        b'H' => (60, 6_000, CONTROL_D_H),
        _ => panic!("no such letter"),
    };
    let leap_second = matches!(letter, b'A' | b'B' | b'G');
    let seconds = match letter {
        b'A' | b'B' | b'G' => [SECOND_TENS, SECOND_UNITS],
        b'E' => [SECOND_TENS, ABSENT],
        _ => [ABSENT, ABSENT],
    };
    let minutes = match letter {
        b'D' => [ABSENT, ABSENT],
        _ => MINUTES,
    };
    let fraction = match letter {
        b'A' => [TENTHS, ABSENT],
        b'G' => [TENTHS, HUNDREDTHS],
        _ => [ABSENT, ABSENT],
    };
    let carries_year = matches!(expression, 4..=7);
    let year = if carries_year { YEAR } else { [ABSENT, ABSENT] };
    let control: &[Field] = match expression {
        0 | 1 => control,
        4 | 5 => CONTROL_WITH_YEAR,
        _ => &[],
    };
    let binary_seconds: &[Field] = if matches!(expression, 0 | 3 | 4 | 7) {
        BINARY_SECONDS
    } else {
        &[]
    };

    let mut kinds = [Element::Fixed(ZERO); MAX_ELEMENTS];
    set_bits(&mut kinds, &seconds);
    set_bits(&mut kinds, &minutes);
    set_bits(&mut kinds, &HOURS);
    set_bits(&mut kinds, &DAYS);
    set_bits(&mut kinds, &year);
    set_bits(&mut kinds, &fraction);
    set_bits(&mut kinds, control);
    set_bits(&mut kinds, binary_seconds);
    let mut index = 0;
    while index < elements {
        if index == 0 || index % 10 == 9 {
            kinds[index] = Element::Fixed(MARK);
        }
        index += 1;
    }

    Layout {
        elements,
        interval,
        leap_second,
        carries_year,
        carries_day: true,
        mark_before: true,
        seconds,
        minutes,
        hours: HOURS,
        days: DAYS,
        year,
        fraction,
        control,
        binary_seconds,
        kinds,
        blank: blank(&kinds),
    }
}

/// The table of X2, document 02, "XR3 tapes".
const fn build_xr3() -> Layout {
    let hours = [highest_first(1, 2), highest_first(3, 6)];
    let minutes = [highest_first(7, 9), highest_first(10, 13)];
    let seconds = [highest_first(14, 16), highest_first(17, 20)];
    let mut kinds = [Element::Fixed(SPOILED); MAX_ELEMENTS];
    kinds[0] = Element::Fixed(MARK);
    set_bits(&mut kinds, &hours);
    set_bits(&mut kinds, &minutes);
    set_bits(&mut kinds, &seconds);
    Layout {
        elements: 25,
        interval: 100,
        leap_second: false,
        carries_year: false,
        carries_day: false,
        mark_before: false,
        seconds,
        minutes,
        hours,
        days: [ABSENT; 3],
        year: [ABSENT; 2],
        fraction: [ABSENT; 2],
        control: &[],
        binary_seconds: &[],
        kinds,
        blank: blank(&kinds),
    }
}

/// The frame of these elements in which every bit is zero.
const fn blank(kinds: &[Element; MAX_ELEMENTS]) -> [u8; MAX_ELEMENTS] {
    let mut blank = [ZERO; MAX_ELEMENTS];
    let mut index = 0;
    while index < MAX_ELEMENTS {
        if let Element::Fixed(symbol) = kinds[index] {
            blank[index] = symbol;
        }
        index += 1;
    }
    blank
}

const fn set_bits(kinds: &mut [Element; MAX_ELEMENTS], fields: &[Field]) {
    let mut row = 0;
    while row < fields.len() {
        let mut bit = 0;
        while bit < fields[row].width {
            kinds[fields[row].start + bit] = Element::Bit;
            bit += 1;
        }
        row += 1;
    }
}
