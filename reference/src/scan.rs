//! Finding the first good frame in a recording.

use crate::formats::{Format, Time, MARK};
use crate::frame::decode;
use crate::layout::Layout;
use crate::refusal::Refusal;

/// The lowest `a`, at least 1 and at least `start`, where element `a - 1` is a
/// mark and a good frame begins at `a`; with the frame's time and control word.
/// In X no mark is asked for before the frame, and `a` may be 0.
pub fn scan(
    format: Format,
    recording: &[u8],
    start: usize,
) -> Result<Option<(usize, Time, u64)>, Refusal> {
    let layout = Layout::of(format)?;
    if start > recording.len() {
        return Err(Refusal::Start);
    }
    let lead = layout.lead();
    let before = start.saturating_sub(lead);
    let windows = recording[before..].windows(lead + layout.elements);
    for (offset, window) in windows.enumerate() {
        // The mark before the frame and the frame's own reference bit.
        if window[..=lead].iter().any(|&symbol| symbol != MARK) {
            continue;
        }
        if let Ok((time, control)) = decode(layout, &window[lead..]) {
            return Ok(Some((before + offset + lead, time, control)));
        }
    }
    Ok(None)
}
