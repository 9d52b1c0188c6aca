//! The library's functions as include/duskveyra.h declares them.
//!
//! Each returns a struct: its number is 0 or that of a refusal, and where it is not 0 every other field is 0, but the
//! index with 5, 6 and 25. No pointer may be null, and no two pointers of one call may point into the same memory; beside
//! that every value is allowed.

use crate::{
    Date, DateTime, Format, Oscillator, Report, Time, WidthSettings, CALENDAR_WORDS,
    MOST_LISTENERS, READER_WORDS,
};

#[repr(C)]
pub struct WriteResult {
    pub number: u8,
}

#[repr(C)]
pub struct ReadResult {
    pub number: u8,
    pub index: usize,
    pub time: Time,
    pub control: u64,
}

#[repr(C)]
pub struct ConvertResult {
    pub number: u8,
    pub index: usize,
}

#[repr(C)]
pub struct StepResult {
    pub number: u8,
    pub time: Time,
}

#[repr(C)]
pub struct DifferenceResult {
    pub number: u8,
    pub hundredths: i64,
}

#[repr(C)]
pub struct ClassifyResult {
    pub number: u8,
    pub symbol: u8,
    pub deviation: i32,
}

#[repr(C)]
pub struct ScanResult {
    pub number: u8,
    pub found: u8,
    pub start: usize,
    pub time: Time,
    pub control: u64,
}

#[repr(C)]
pub struct FeedResult {
    pub number: u8,
    pub reported: u8,
    pub time: Time,
    pub control: u64,
}

#[repr(C)]
pub struct FeedPulseResult {
    pub number: u8,
    pub reported: u8,
    pub time: Time,
    pub control: u64,
    pub deviation: i32,
}

#[repr(C)]
pub struct BlockResult {
    pub number: u8,
    pub stop: u8,
    pub taken: usize,
    pub reports: usize,
}

#[repr(C)]
pub struct ForecastResult {
    pub number: u8,
    pub error: f64,
}

#[repr(C)]
pub struct LogWriteResult {
    pub number: u8,
    pub put_in: u8,
    pub next: usize,
}

#[repr(C)]
pub struct LogReadResult {
    pub number: u8,
    pub found: u8,
    pub report: Report,
    pub next: usize,
}

#[derive(Clone, Copy)]
#[repr(C)]
pub struct Counts {
    pub first: u64,
    pub reports: u64,
    pub wrong: u64,
}

#[repr(C)]
pub struct SimulateResult {
    pub number: u8,
    pub counts: [Counts; MOST_LISTENERS],
}

#[repr(C)]
pub struct DateResult {
    pub number: u8,
    pub date: Date,
}

#[repr(C)]
pub struct DayResult {
    pub number: u8,
    pub day: u16,
}

#[repr(C)]
pub struct AskResult {
    pub number: u8,
    pub follows: u8,
    pub mask: u32,
    pub next: Time,
}

#[repr(C)]
pub struct FormatFiguresResult {
    pub number: u8,
    pub control_bits: u8,
    pub interval: u32,
    pub elements: usize,
}

#[repr(C)]
pub struct TimeOfDayResult {
    pub number: u8,
    pub hour: u8,
    pub minute: u8,
    pub second: u8,
    pub hundredth: u8,
}

extern "C" {
    pub fn duskveyra_interface_4() -> u32;

    pub fn duskveyra_version() -> u32;

    pub fn duskveyra_format_figures(format: Format) -> FormatFiguresResult;

    pub fn duskveyra_time_of_day(time: Time) -> TimeOfDayResult;

    pub fn duskveyra_write(
        format: Format,
        time: Time,
        control: u64,
        frame: *mut u8,
        frame_length: usize,
    ) -> WriteResult;

    pub fn duskveyra_read(format: Format, frame: *const u8, frame_length: usize) -> ReadResult;

    pub fn duskveyra_forward(
        format: Format,
        frame: *const u8,
        frame_length: usize,
        year: u8,
        later: *mut u8,
        later_length: usize,
    ) -> ConvertResult;

    pub fn duskveyra_backward(
        format: Format,
        frame: *const u8,
        frame_length: usize,
        earlier: *mut u8,
        earlier_length: usize,
    ) -> ConvertResult;

    pub fn duskveyra_step(format: Format, time: Time, year_length: u16, kind: u8) -> StepResult;

    pub fn duskveyra_step_back(
        format: Format,
        time: Time,
        year_length: u16,
        kind: u8,
    ) -> StepResult;

    pub fn duskveyra_difference(first: Time, second: Time) -> DifferenceResult;

    pub fn duskveyra_fresh(
        format: Format,
        setting: u8,
        reader: *mut [u64; READER_WORDS],
    ) -> WriteResult;

    pub fn duskveyra_feed(reader: *mut [u64; READER_WORDS], symbol: u8) -> FeedResult;

    pub fn duskveyra_feed_block(
        reader: *mut [u64; READER_WORDS],
        symbols: *const u8,
        symbols_length: usize,
        indexes: *mut usize,
        indexes_length: usize,
        years: *mut u8,
        years_length: usize,
        days: *mut u16,
        days_length: usize,
        hundredths: *mut u32,
        hundredths_length: usize,
        controls: *mut u64,
        controls_length: usize,
    ) -> BlockResult;

    pub fn duskveyra_feed_pulse(
        reader: *mut [u64; READER_WORDS],
        settings: WidthSettings,
        interval: u32,
        width: u32,
        period: u32,
    ) -> FeedPulseResult;

    pub fn duskveyra_classify(
        settings: WidthSettings,
        interval: u32,
        width: u32,
        period: u32,
    ) -> ClassifyResult;

    pub fn duskveyra_classify_list(
        settings: WidthSettings,
        interval: u32,
        widths: *const u32,
        widths_length: usize,
        periods: *const u32,
        periods_length: usize,
        symbols: *mut u8,
        symbols_length: usize,
        deviations: *mut i32,
        deviations_length: usize,
    ) -> WriteResult;

    pub fn duskveyra_scan(
        format: Format,
        recording: *const u8,
        recording_length: usize,
        start: usize,
    ) -> ScanResult;

    pub fn duskveyra_encode_cycles(
        format: Format,
        count: usize,
        frame: *const u8,
        frame_length: usize,
        cycles: *mut u8,
        cycles_length: usize,
    ) -> WriteResult;

    pub fn duskveyra_decode_cycles(
        format: Format,
        count: usize,
        cycles: *const u8,
        cycles_length: usize,
        frame: *mut u8,
        frame_length: usize,
    ) -> ConvertResult;

    pub fn duskveyra_forecast(oscillator: Oscillator, seconds: u32) -> ForecastResult;

    pub fn duskveyra_log_write(
        log: *mut u8,
        log_length: usize,
        place: usize,
        before: Report,
        report: Report,
    ) -> LogWriteResult;

    pub fn duskveyra_log_read(
        log: *const u8,
        log_length: usize,
        place: usize,
        before: Report,
    ) -> LogReadResult;

    pub fn duskveyra_simulate(
        format: Format,
        start: Time,
        frames: u32,
        year_length: u16,
        settings: *const u8,
        settings_length: usize,
        ends: *const usize,
        ends_length: usize,
        numbers: *const u64,
        numbers_length: usize,
        symbols: *const u8,
        symbols_length: usize,
    ) -> SimulateResult;
    pub fn duskveyra_date_of_day(year: u8, day: u16) -> DateResult;
    pub fn duskveyra_day_of_date(date: Date) -> DayResult;
    pub fn duskveyra_calendar_empty(calendar: *mut [u64; CALENDAR_WORDS]) -> WriteResult;
    pub fn duskveyra_calendar_add(
        calendar: *mut [u64; CALENDAR_WORDS],
        start: DateTime,
        end: DateTime,
    ) -> WriteResult;
    pub fn duskveyra_calendar_ask(calendar: *const [u64; CALENDAR_WORDS], time: Time) -> AskResult;
}
