//! The numbers a call refuses with.

/// Why a call was refused. Number 5 and 6 carry the index of the element, 25
/// that of the cycle.
#[derive(Clone, Copy, Debug, PartialEq, Eq)]
pub enum Refusal {
    /// 1: unknown letter or expression.
    Format,
    /// 2: day (of its year) or hundredths out of range, or not on the format.
    Time,
    /// 3: frame not n bytes, or lists of different lengths.
    Length,
    /// 4: symbol above 3.
    Symbol,
    /// 5: mark missing, or a mark where none belongs.
    Mark(usize),
    /// 6: index marker not zero, a spoiled digit, SBS or control bit, or a pulse
    /// where X misses one.
    Element(usize),
    /// 7: digit over 9, or a clock field or day of year out of range.
    Digit,
    /// 8: straight binary seconds differ from the BCD time.
    BinarySeconds,
    /// 9: control word needs more bits than the frame carries.
    Control,
    /// 10: nominal element interval out of range.
    Interval,
    /// 11: year length not 365 or 366, or day beyond it.
    YearLength,
    /// 12: start past the end of the recording, or place past that of the log.
    Start,
    /// 13: reader out of range. A [`Reader`](crate::Reader) keeps its fields
    /// to itself, so none made with this crate is ever refused so.
    Reader,
    /// 14: added second in a format that does not carry it.
    AddedSecond,
    /// 15: kind of day above 2, or a time past the end of a day of that kind.
    DayKind,
    /// 16: a width setting not 1 to 14 percent.
    Width,
    /// 17: year over 99, or not 0 in a format without one.
    Year,
    /// 18: a one among the control bits whose places the year takes.
    YearPlace,
    /// 19: record cut short by the end of the log.
    RecordCut,
    /// 20: a record's map over 15, or a field equal to the one before.
    Record,
    /// 21: a 33rd window, or one that does not end after it starts.
    Window,
    /// 22: a month, day or day of year that the year lacks.
    Date,
    /// 23: a figure not finite, a zero reference, or too many seconds.
    Forecast,
    /// 24: cycles of an element not a multiple of 10 from 10 to 100.
    CycleCount,
    /// 25: cycle neither high nor low.
    Cycle(usize),
    /// 26: a reader's setting not 2 to 5.
    Setting,
    /// 27: damages not in strictly rising order or with a symbol above 3, or a
    /// ninth listener.
    Listener,
}

impl Refusal {
    pub fn number(self) -> u8 {
        match self {
            Refusal::Format => 1,
            Refusal::Time => 2,
            Refusal::Length => 3,
            Refusal::Symbol => 4,
            Refusal::Mark(_) => 5,
            Refusal::Element(_) => 6,
            Refusal::Digit => 7,
            Refusal::BinarySeconds => 8,
            Refusal::Control => 9,
            Refusal::Interval => 10,
            Refusal::YearLength => 11,
            Refusal::Start => 12,
            Refusal::Reader => 13,
            Refusal::AddedSecond => 14,
            Refusal::DayKind => 15,
            Refusal::Width => 16,
            Refusal::Year => 17,
            Refusal::YearPlace => 18,
            Refusal::RecordCut => 19,
            Refusal::Record => 20,
            Refusal::Window => 21,
            Refusal::Date => 22,
            Refusal::Forecast => 23,
            Refusal::CycleCount => 24,
            Refusal::Cycle(_) => 25,
            Refusal::Setting => 26,
            Refusal::Listener => 27,
        }
    }

    /// Index of the offending element, for numbers 5 and 6, or cycle, for 25.
    pub fn index(self) -> Option<usize> {
        match self {
            Refusal::Mark(index) | Refusal::Element(index) | Refusal::Cycle(index) => Some(index),
            _ => None,
        }
    }
}
