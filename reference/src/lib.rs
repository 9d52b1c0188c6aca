//! Serial time code after IRIG 200-98: formats A, B, D, E, G and H as
//! pulse-width elements, with days that are a second longer or shorter, A and B
//! with the year after IRIG 200-04, and the XR3 code as format X; A, B and G in
//! the modified Manchester form too. Beside them the report log, the
//! calendar of test windows, the hold-over forecast and the simulation.
//!
//! A symbol is one byte: 0 (zero or index marker), 1 (one), 2 (mark: position
//! identifier or reference bit), 3 (spoiled, or in X a missing pulse).

#![forbid(unsafe_code)]

mod block;
mod calendar;
mod clock;
mod editions;
mod figures;
mod formats;
mod frame;
mod holdover;
mod layout;
mod log;
mod manchester;
mod pulse;
mod refusal;
mod scan;
mod simulation;
mod stream;
mod timeread;

pub use block::{Block, Stop};
pub use calendar::{date_of_day, day_of_date, Calendar, Date, DateTime};
pub use clock::{difference, next_after, step, step_back, SECOND_ADDED, SECOND_TAKEN, USUAL_DAY};
pub use editions::{backward, forward};
pub use figures::{format_figures, time_of_day};
pub use formats::{Format, Time, MARK, ONE, SPOILED, ZERO};
pub use frame::{read, write};
pub use holdover::{forecast, Oscillator};
pub use log::{log_read, log_write, Report};
pub use manchester::{decode_cycles, encode_cycles};
pub use pulse::{classify, classify_and_feed, classify_list, Widths};
pub use refusal::Refusal;
pub use scan::scan;
pub use simulation::{simulate, Counts, Listener};
pub use stream::{Answer, Reader};
pub use timeread::{timelog, timeread};
