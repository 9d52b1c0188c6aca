//! The figures of every letter and expression that two bytes can be, and the time of day of every second, with every
//! hundredth in turn, over the ends of what a time may be.

use crate::calls::{library_format, library_time};
use crate::{agree, plain_refused, refused};
use reference::{Format, Time};

/// How many formats and times were tried.
pub struct Tried {
    pub formats: u64,
    pub times: u64,
}

/// A prime below the hundredths of a second: with it every second of a day is met, and every hundredth of a second.
const STRIDE: usize = 97;

/// The hundredths that are tried: in strides over a day with a second added and the second behind it, then all that lie
/// around that end, and the last ones of 32 bits.
fn hundredths() -> impl Iterator<Item = u32> {
    let day = (0..8_640_200).step_by(STRIDE);
    day.chain(8_639_800..8_640_200)
        .chain(u32::MAX - 100..=u32::MAX)
}

pub fn run_figures() -> Result<Tried, String> {
    let mut tried = Tried {
        formats: 0,
        times: 0,
    };
    for letter in 0..=u8::MAX {
        for expression in 0..=u8::MAX {
            format_figures(Format { letter, expression })?;
            tried.formats += 1;
        }
    }
    for hundredths in hundredths() {
        let (year, day) = [(0, 1), (24, 366), (99, 191), (255, 365)][hundredths as usize % 4];
        time_of_day(Time {
            year,
            day,
            hundredths,
        })?;
        tried.times += 1;
    }
    for day in 0..=u16::MAX {
        time_of_day(Time {
            year: 0,
            day,
            hundredths: 8_640_099,
        })?;
        tried.times += 1;
    }
    Ok(tried)
}

fn format_figures(format: Format) -> Result<(), String> {
    let library = duskveyra::format_figures(library_format(format));
    agree(
        || format!("figures of {format:?}"),
        library
            .map(|found| {
                (
                    found.elements,
                    found.interval,
                    usize::from(found.control_bits),
                )
            })
            .map_err(refused),
        reference::format_figures(format).map_err(plain_refused),
    )
}

fn time_of_day(time: Time) -> Result<(), String> {
    let library = duskveyra::time_of_day(library_time(time));
    agree(
        || format!("time of day of {time:?}"),
        library
            .map(|clock| {
                let [hour, minute, second, hundredth] =
                    [clock.hour, clock.minute, clock.second, clock.hundredth].map(u32::from);
                (hour, minute, second, hundredth)
            })
            .map_err(refused),
        reference::time_of_day(time).map_err(plain_refused),
    )
}
