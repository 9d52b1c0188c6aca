//! The report log through the safe types: a record's bytes, each refusal and their order, a log that is full, cut or
//! changed, one that goes on from its parts, and the iterator.

use duskveyra::{log_read, log_write, Log, Refusal, Report, Reports, Time, LONGEST_RECORD};

const WIDE: u64 = 1 << 48;

fn report(year: u8, day: u16, hundredths: u32, control: u64) -> Report {
    let time = Time {
        year,
        day,
        hundredths,
    };
    Report { time, control }
}

/// The second of day 191 of 2024.
fn second(second: u32) -> Report {
    report(24, 191, 100 * second, 0)
}

#[test]
fn bytes() {
    let mut log = [0xa5; 18];
    let first = report(24, 191, 5_088_000, 0x0102_0304_0506);
    let later = report(24, 191, 5_094_000, 0x0102_0304_0506);
    assert_eq!(log_write(&mut log, 1, Report::NONE, first), Ok(Some(14)));
    assert_eq!(log_write(&mut log, 14, first, later), Ok(Some(18)));
    let expected = [
        0xa5, 15, 191, 0, 0, 163, 77, 6, 5, 4, 3, 2, 1, 24, 2, 112, 186, 77,
    ];
    assert_eq!(log, expected);
    assert_eq!(log_read(&log, 1, Report::NONE), Ok(Some((first, 14))));
    assert_eq!(log_read(&log, 14, first), Ok(Some((later, 18))));
    assert_eq!(log_read(&log, 18, later), Ok(None));
    assert_eq!(1 + 2 + 3 + 6 + 1, LONGEST_RECORD);
}

#[test]
fn refusals() {
    let written = |length: usize, place, report| {
        let mut log = vec![0xa5; length];
        let answer = log_write(&mut log, place, Report::NONE, report);
        assert!(log.iter().all(|&byte| byte == 0xa5));
        answer
    };
    let before = report(24, 191, 5_088_000, 0);
    assert_eq!(
        written(3, 4, report(100, 0, 0, WIDE)),
        Err(Refusal::StartPastEnd)
    );
    assert_eq!(
        written(3, 3, report(100, 0, 0, WIDE)),
        Err(Refusal::InvalidTime)
    );
    assert_eq!(
        written(3, 3, report(100, 366, 8_640_100, WIDE)),
        Err(Refusal::InvalidTime)
    );
    assert_eq!(
        written(3, 3, report(100, 366, 8_640_099, WIDE)),
        Err(Refusal::InvalidYear)
    );
    assert_eq!(
        written(3, 3, report(99, 366, 8_640_099, WIDE)),
        Err(Refusal::ControlTooLong)
    );
    assert_eq!(
        written(12, 0, report(99, 366, 8_640_099, WIDE - 1)),
        Ok(None)
    );

    let read = |log: &[u8], before| log_read(log, 0, before).unwrap_err();
    assert_eq!(log_read(&[18], 2, before), Err(Refusal::StartPastEnd));
    assert_eq!(read(&[18, 0, 163], before), Refusal::RecordCutShort);
    assert_eq!(read(&[17, 0, 0], before), Refusal::InvalidRecord);
    assert_eq!(read(&[3, 0, 0, 0, 163, 77], before), Refusal::InvalidRecord);
    assert_eq!(read(&[9, 0, 0, 100], before), Refusal::InvalidTime);
    assert_eq!(read(&[8, 100], report(0, 1, 0, WIDE)), Refusal::InvalidYear);
    assert_eq!(read(&[0], report(0, 1, 0, WIDE)), Refusal::ControlTooLong);
    assert_eq!(read(&[0], Report::NONE), Refusal::InvalidTime);
    assert_eq!(Refusal::RecordCutShort.number(), 19);
    assert_eq!(Refusal::InvalidRecord.number(), 20);
}

/// A log takes reports until it is full, and later ones that fit; a refused one changes nothing.
#[test]
fn full() {
    let mut log = Log::empty([0xa5; 19]);
    let put_in: Vec<Report> = (0..10)
        .map(second)
        .filter(|&report| {
            assert_eq!(
                log.add(Report {
                    control: WIDE,
                    ..report
                }),
                Err(Refusal::ControlTooLong)
            );
            log.add(report).unwrap()
        })
        .collect();
    assert_eq!(put_in, [second(0), second(1), second(2), second(3)]);
    assert_eq!((log.place(), log.last()), (4 + 3 * 4, second(3)));
    assert_eq!(log.add(second(3)), Ok(true));
    assert_eq!(&log.clone().into_buffer()[17..], [0xa5; 2]);
    let reports: Result<Vec<Report>, Refusal> = Reports::of(log.bytes()).collect();
    assert_eq!(reports.unwrap(), [&put_in[..], &[second(3)]].concat());
}

#[test]
fn cut_and_changed() {
    let mut log = Log::empty(vec![0; 100]);
    for report in (1..11).map(second) {
        assert_eq!(log.add(report), Ok(true));
    }
    for end in 0..log.place() {
        let mut reports = Reports::of(&log.bytes()[..end]);
        let read: Vec<Report> = reports.by_ref().map_while(Result::ok).collect();
        assert!(read
            .into_iter()
            .eq((1..11).map(second).take(end.saturating_sub(3) / 4)));
        assert_eq!(reports.next(), None);
    }
    let mut bytes = log.bytes().to_vec();
    bytes[11] = 16;
    let mut reports = Reports::of(&bytes);
    assert_eq!(reports.next(), Some(Ok(second(1))));
    assert_eq!(reports.next(), Some(Ok(second(2))));
    assert_eq!(reports.next(), Some(Err(Refusal::InvalidRecord)));
    assert_eq!(reports.next(), None);
    assert_eq!((reports.place(), reports.before()), (11, second(2)));
}

/// A log stored and made again from its parts goes on as it would have.
#[test]
fn goes_on() {
    let mut whole = Log::empty([0; 64]);
    let mut log = Log::empty([0; 64]);
    for report in (0..5).map(second) {
        assert_eq!(whole.add(report), Ok(true));
        assert_eq!(log.add(report), Ok(true));
        let (place, last) = (log.place(), log.last());
        log = Log::from_parts(log.into_buffer(), place, last);
    }
    assert_eq!(log.bytes(), whole.bytes());
    let mut past = Log::from_parts([0; 4], 5, Report::NONE);
    assert_eq!(past.add(second(0)), Err(Refusal::StartPastEnd));
    assert_eq!(past.bytes(), [0; 4]);
}
