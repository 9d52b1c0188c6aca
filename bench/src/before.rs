//! An earlier library, of the interface with numbers one by one, results behind pointers and a reader of ten words.
//! It is linked where DUSKVEYRA_BEFORE names its directory, under the names that build.rs gives its functions.

use crate::plain::{Format, Time};
use crate::Read;

/// What is timed of it. Its reader has no setting: two frames in a row. It has no year.
pub struct Before {
    pub write: fn(Format, Time, u64, &mut [u8]) -> bool,
    pub read: Read,
    pub feed: fn(Format, &[u8]) -> u64,
    pub feed_blocks: fn(Format, &[u8], usize) -> u64,
}

#[cfg(not(before))]
pub const BEFORE: Option<Before> = None;

#[cfg(before)]
pub const BEFORE: Option<Before> = Some(Before {
    write: linked::write,
    read: linked::read,
    feed: linked::feed,
    feed_blocks: linked::feed_blocks,
});

#[cfg(before)]
mod linked {
    use crate::plain::{Format, Refusal, Time};
    use crate::streams::{with_report, ROOM};

    type Words = [u64; 10];

    extern "C" {
        fn before_write(
            letter: u8,
            expression: u8,
            day: u16,
            hundredths: u32,
            control: u64,
            frame: *mut u8,
            frame_length: usize,
        ) -> u8;

        fn before_read(
            letter: u8,
            expression: u8,
            frame: *const u8,
            frame_length: usize,
            day: *mut u16,
            hundredths: *mut u32,
            control: *mut u64,
            index: *mut usize,
        ) -> u8;

        fn before_fresh(letter: u8, expression: u8, reader: *mut Words) -> u8;

        fn before_feed(
            reader: *mut Words,
            symbol: u8,
            reported: *mut u8,
            day: *mut u16,
            hundredths: *mut u32,
            control: *mut u64,
        ) -> u8;

        fn before_feed_block(
            reader: *mut Words,
            symbols: *const u8,
            symbols_length: usize,
            indexes: *mut usize,
            indexes_length: usize,
            days: *mut u16,
            days_length: usize,
            hundredths: *mut u32,
            hundredths_length: usize,
            controls: *mut u64,
            controls_length: usize,
            taken: *mut usize,
            reports: *mut usize,
            stop: *mut u8,
        ) -> u8;
    }

    pub fn write(format: Format, time: Time, control: u64, frame: &mut [u8]) -> bool {
        let Format { letter, expression } = format;
        let Time {
            day, hundredths, ..
        } = time;
        let (bytes, length) = (frame.as_mut_ptr(), frame.len());
        // SAFETY: the pointer and the length are those of one slice.
        unsafe { before_write(letter, expression, day, hundredths, control, bytes, length) == 0 }
    }

    pub fn read(format: Format, frame: &[u8]) -> Result<(Time, u64), Refusal> {
        let (mut day, mut hundredths, mut control, mut index) = (0, 0, 0, 0);
        // SAFETY: every pointer points to a local of its own, or with its length to one slice.
        let number = unsafe {
            before_read(
                format.letter,
                format.expression,
                frame.as_ptr(),
                frame.len(),
                &mut day,
                &mut hundredths,
                &mut control,
                &mut index,
            )
        };
        let time = Time {
            year: 0,
            day,
            hundredths,
        };
        match number {
            0 => Ok((time, control)),
            6 => Err(Refusal::Element(index)),
            _ => Err(Refusal::Reader),
        }
    }

    fn fresh(format: Format) -> Words {
        let mut reader = [0; 10];
        // SAFETY: the pointer points to a local.
        unsafe { before_fresh(format.letter, format.expression, &mut reader) };
        reader
    }

    pub fn feed(format: Format, symbols: &[u8]) -> u64 {
        let mut reader = fresh(format);
        let (mut reported, mut day, mut hundredths, mut control) = (0, 0, 0, 0);
        let mut sum = 0;
        for &symbol in symbols {
            // SAFETY: every pointer points to a local of its own.
            let refused = unsafe {
                before_feed(
                    &mut reader,
                    symbol,
                    &mut reported,
                    &mut day,
                    &mut hundredths,
                    &mut control,
                )
            };
            if refused == 0 && reported != 0 {
                sum = with_report(sum, 0, day, hundredths, control);
            }
        }
        sum
    }

    pub fn feed_blocks(format: Format, symbols: &[u8], size: usize) -> u64 {
        let mut reader = fresh(format);
        let (mut indexes, mut days) = ([0; ROOM], [0; ROOM]);
        let (mut hundredths, mut controls) = ([0; ROOM], [0; ROOM]);
        let (mut taken, mut reports, mut stop) = (0, 0, 0);
        let mut sum = 0;
        for block in symbols.chunks(size) {
            // SAFETY: every pointer points to a local of its own, or with its length to one slice.
            unsafe {
                before_feed_block(
                    &mut reader,
                    block.as_ptr(),
                    block.len(),
                    indexes.as_mut_ptr(),
                    ROOM,
                    days.as_mut_ptr(),
                    ROOM,
                    hundredths.as_mut_ptr(),
                    ROOM,
                    controls.as_mut_ptr(),
                    ROOM,
                    &mut taken,
                    &mut reports,
                    &mut stop,
                );
            }
            for report in 0..reports {
                sum = with_report(sum, 0, days[report], hundredths[report], controls[report]);
            }
        }
        sum
    }
}
