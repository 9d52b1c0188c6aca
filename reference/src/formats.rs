//! Times, formats and symbols.

/// A year from 2000, a day of year and the hundredths of a second since
/// midnight; the added second of a day follows its 86,400 usual ones. The year
/// is 0 where the format carries none, and in X the day is 1.
#[derive(Clone, Copy, Debug, Default, PartialEq, Eq, Hash)]
pub struct Time {
    pub year: u8,
    pub day: u16,
    pub hundredths: u32,
}

impl Time {
    /// 2099.
    pub const LAST_YEAR: u8 = 99;
    pub const LAST_DAY: u16 = 366;
    pub const HUNDREDTHS_PER_DAY: u32 = 8_640_000;
    /// The last hundredth of an added second.
    pub const LAST_HUNDREDTH: u32 = 8_640_099;

    /// Day 1 to 366 and hundredths up to the end of an added second.
    pub fn in_range(self) -> bool {
        (1..=Self::LAST_DAY).contains(&self.day) && self.hundredths <= Self::LAST_HUNDREDTH
    }

    /// The days of a year of 2000 to 2099: every fourth from 2000 has 366.
    pub fn days_in(year: u8) -> u16 {
        if year % 4 == 0 {
            366
        } else {
            365
        }
    }

    /// Whether the time lies in an added second.
    pub fn in_added_second(self) -> bool {
        self.hundredths >= Self::HUNDREDTHS_PER_DAY
    }

    /// Hours, minutes and seconds; an added second is the 61st of 23:59.
    pub(crate) fn clock(self) -> (u32, u32, u32) {
        let second_of_day = self.hundredths / 100;
        let minute_of_day = (second_of_day / 60).min(24 * 60 - 1);
        (
            minute_of_day / 60,
            minute_of_day % 60,
            second_of_day - 60 * minute_of_day,
        )
    }
}

/// A rate letter (capital ASCII) and a coded expression: 0 = BCD, CF, SBS;
/// 1 = BCD, CF; 2 = BCD; 3 = BCD, SBS; 4 to 7 = 0 to 3 with the year. X has 2
/// alone.
#[derive(Clone, Copy, Debug, PartialEq, Eq, Hash)]
pub struct Format {
    pub letter: u8,
    pub expression: u8,
}

/// Symbol of a binary zero or an index marker.
pub const ZERO: u8 = 0;
/// Symbol of a binary one.
pub const ONE: u8 = 1;
/// Symbol of a position identifier or reference bit.
pub const MARK: u8 = 2;
/// Symbol of an element that could not be told, and of a missing pulse in X.
pub const SPOILED: u8 = 3;
