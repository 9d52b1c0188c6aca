//! Rows that run a command: timeread on a recording of 100 MB, beside `cat` and the plain Rust version.
//! They are left out, with a remark, where there is no timeread.

use crate::plain::{Format, Reader};
use crate::{cpu, format, median, stream};
use std::fs::{self, File};
use std::io::{self, BufWriter, Read, Write};
use std::path::{Path, PathBuf};
use std::process::{Command, Stdio};

const RUNS: usize = 5;
const RECORDING: usize = 100_000_000;

/// A command that reads the recording from its standard input.
struct Program {
    name: &'static str,
    path: PathBuf,
    arguments: &'static [&'static str],
}

/// CPU seconds of one run; what it prints goes into `out`.
fn one_run(program: &Program, recording: &Path, out: &Path) -> io::Result<f64> {
    let before = cpu::of_commands();
    let status = Command::new(&program.path)
        .args(program.arguments)
        .stdin(File::open(recording)?)
        .stdout(Stdio::from(File::create(out)?))
        .status()?;
    assert!(status.success(), "{} failed: {status}", program.name);
    Ok(cpu::of_commands() - before)
}

/// One row for each program, the runs by turns. Programs that `alike` marks must print the same.
fn command_rows(programs: &[(Program, bool)], recording: &Path, scratch: &Path) -> io::Result<()> {
    let mut times = vec![Vec::new(); programs.len()];
    let mut printed: Option<Vec<u8>> = None;
    for _ in 0..RUNS {
        for ((program, alike), seconds) in programs.iter().zip(&mut times) {
            let out = scratch.join("out");
            let out = if *alike {
                out.as_path()
            } else {
                Path::new("/dev/null")
            };
            seconds.push(one_run(program, recording, out)?);
            if *alike {
                let text = fs::read(out)?;
                let first = printed.get_or_insert_with(|| text.clone());
                assert!(*first == text, "{} prints something else", program.name);
            }
        }
    }
    println!("\n| command on a recording of 100 MB (B0) | CPU seconds | ns per byte |");
    println!("|---|---:|---:|");
    for ((program, _), seconds) in programs.iter().zip(times) {
        let seconds = median(seconds);
        println!(
            "| {} | {seconds:.3} | {:.2} |",
            program.name,
            seconds * 1e9 / RECORDING as f64
        );
    }
    Ok(())
}

/// The rows of timeread, where there is one: the file in TIMEREAD, or target/bin/timeread of this repository; and those of
/// an earlier one, the file in TIMEREAD_BEFORE.
pub fn rows() {
    let package = Path::new(env!("CARGO_MANIFEST_DIR"));
    let timeread = match std::env::var_os("TIMEREAD") {
        Some(given) => PathBuf::from(given),
        None => package.join("../target/bin/timeread"),
    };
    if !timeread.is_file() {
        println!("\nNo target/bin/timeread: its rows are left out.");
        return;
    }
    let scratch = package.join("target");
    let recording = scratch.join("recording");
    let made = make_recording(&recording).and_then(|()| {
        let own = std::env::current_exe()?;
        let mut programs = vec![
            (program("cat", PathBuf::from("cat"), &[]), false),
            (program("timeread", timeread, &[]), true),
            (program("plain Rust", own, &["--timeread"]), true),
        ];
        if let Some(before) = std::env::var_os("TIMEREAD_BEFORE") {
            let before = PathBuf::from(before);
            programs.push((program("timeread before", before, &[]), true));
        }
        command_rows(&programs, &recording, &scratch)
    });
    let _ = fs::remove_file(&recording);
    let _ = fs::remove_file(scratch.join("out"));
    if let Err(error) = made {
        println!("\nThe rows of timeread are left out: {error}");
    }
}

fn program(name: &'static str, path: PathBuf, arguments: &'static [&'static str]) -> Program {
    Program {
        name,
        path,
        arguments,
    }
}

fn make_recording(path: &Path) -> io::Result<()> {
    let mut file = BufWriter::new(File::create(path)?);
    file.write_all(b"B0\n")?;
    let mut symbols = stream(format(b'B', 0), RECORDING - 3);
    for symbol in &mut symbols {
        *symbol = b"01P-"[usize::from(*symbol)];
    }
    file.write_all(&symbols)?;
    file.flush()
}

/// timeread in plain Rust, 64 KiB at a time. The recording is one that nothing is refused in.
pub fn plain_timeread() -> io::Result<()> {
    let mut input = io::stdin().lock();
    let mut out = BufWriter::with_capacity(65536, io::stdout().lock());
    let mut first = [0; 3];
    input.read_exact(&mut first)?;
    let format = Format {
        letter: first[0],
        expression: first[1].wrapping_sub(b'0'),
    };
    let mut reader =
        Reader::fresh(format, 2).map_err(|refusal| io::Error::other(format!("{refusal:?}")))?;
    let mut buffer = vec![0; 65536];
    let (mut elements, mut reports) = (0u64, 0u64);
    loop {
        let length = input.read(&mut buffer)?;
        if length == 0 {
            break;
        }
        for &character in &buffer[..length] {
            let symbol = match character {
                b'0' => 0,
                b'1' => 1,
                b'P' => 2,
                b'-' => 3,
                b' ' | b'\r' | b'\n' => continue,
                _ => return Err(io::Error::other("a character that is no symbol")),
            };
            elements += 1;
            if let Ok(Some((time, control))) = reader.feed(symbol) {
                reports += 1;
                let c = time.hundredths;
                // The added second is the 61st of the day's last minute.
                let minute = (c / 6_000).min(1_439);
                writeln!(
                    out,
                    "{elements} {:03} {:02}:{:02}:{:02}.{:02} {control:012x}",
                    time.day,
                    minute / 60,
                    minute % 60,
                    c / 100 - 60 * minute,
                    c % 100
                )?;
            }
        }
    }
    writeln!(out, "elements {elements} reports {reports}")?;
    out.flush()
}
