//! Prints what `timewrite` must print for well-formed arguments that are within their types.
use reference::{step, write, Format, Refusal, Time, USUAL_DAY};

fn line(format: Format, time: Time, control: u64) -> Result<String, Refusal> {
    let size = match format.letter {
        b'D' | b'H' => 60,
        b'X' => 25,
        _ => 100,
    };
    let mut frame = vec![0; size];
    write(format, time, control, &mut frame)?;
    let groups = frame.chunks(10).map(|group| {
        let characters = group.iter().map(|&symbol| b"01P-"[usize::from(symbol)]);
        String::from_utf8(characters.collect()).unwrap()
    });
    Ok(groups.collect::<Vec<_>>().join(" "))
}

/// Write's checks of the first frame, then Step's of its time.
fn begin(format: Format, time: Time, control: u64, length: u16, kind: u8) -> Result<(), Refusal> {
    line(format, time, control)?;
    step(format, time, length, kind)?;
    Ok(())
}

fn main() {
    let arguments: Vec<String> = std::env::args().skip(1).collect();
    let name = arguments[0].as_bytes();
    let format = Format {
        letter: name[0],
        expression: name[1] - b'0',
    };
    let mut time = Time {
        year: arguments.get(7).map_or(0, |year| year.parse().unwrap()),
        day: arguments[1].parse().unwrap(),
        hundredths: arguments[2].parse().unwrap(),
    };
    // What a format with the year passes over.
    let length = arguments[3].parse().unwrap();
    let frames: u64 = arguments[4].parse().unwrap();
    let control = arguments
        .get(5)
        .map_or(0, |word| u64::from_str_radix(word, 16).unwrap());
    // The kind of the day on which the recording starts; every later day is usual.
    let mut kind = arguments
        .get(6)
        .map_or(USUAL_DAY, |kind| kind.parse().unwrap());
    if let Err(refusal) = begin(format, time, control, length, kind) {
        println!("refused {}", refusal.number());
        return;
    }
    println!("{}", arguments[0]);
    for _ in 0..frames {
        println!("{}", line(format, time, control).unwrap());
        let next = step(format, time, length, kind).unwrap();
        if next.day != time.day {
            kind = USUAL_DAY;
        }
        time = next;
    }
}
