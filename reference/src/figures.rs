//! A format's figures, and the time of day.

use crate::formats::{Format, Time};
use crate::layout::Layout;
use crate::refusal::Refusal;

/// The elements of a frame, the frame interval in hundredths and the number of
/// control bits; or refusal 1.
pub fn format_figures(format: Format) -> Result<(usize, u32, usize), Refusal> {
    let layout = Layout::of(format)?;
    let bits = layout.control.iter().map(|field| field.width).sum();
    Ok((layout.elements, layout.interval, bits))
}

/// Hour, minute, second and hundredth, of a time in range, or refusal 2.
pub fn time_of_day(time: Time) -> Result<(u32, u32, u32, u32), Refusal> {
    if !time.in_range() {
        return Err(Refusal::Time);
    }
    let (hour, minute, second) = time.clock();
    Ok((hour, minute, second, time.hundredths % 100))
}
