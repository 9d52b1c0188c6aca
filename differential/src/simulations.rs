//! Random simulations: runs of any format, settings and damages, good and bad, as listeners and as the lists that a C program
//! lends. `reference` feeds each listener its damaged elements one by one.

use crate::calls::{any_format, any_time, library_format, library_time};
use crate::random::Random;
use crate::streams::{digits_end, format_of, setting, table, time, FORMATS};
use crate::{agree, plain_refused, refused, Counts, Refused};
use duskveyra::{sys, Damage, MOST_LISTENERS};
use reference::{Format, Listener, Time};

/// How many of each go with a stream.
const TURNS: usize = 4;

/// What a listener counted: its first report, its reports and the wrong ones.
type Counted = (Option<u64>, u64, u64);

/// What both sides are asked.
#[derive(Debug)]
struct Run {
    format: Format,
    start: Time,
    frames: u32,
    year_length: u16,
}

pub fn run_simulations(random: &mut Random, counts: &mut Counts) -> Result<(), String> {
    for _ in 0..TURNS {
        let run = any_run(random);
        let listeners = any_listeners(random, &run);
        by_listeners(&run, &listeners, counts)?;
        by_lists(random, &run, &listeners)?;
        counts.calls += 2;
    }
    Ok(())
}

/// Mostly a start on the format in a usual day, else any.
fn any_run(random: &mut Random) -> Run {
    let frames = random.below(12) as u32;
    if random.once_in(5) {
        let format = any_format(random);
        return Run {
            format,
            start: any_time(random, format),
            frames,
            year_length: random.pick(&[365, 366, 0, 367]),
        };
    }
    let format = format_of(random.pick(&FORMATS));
    let mut start = time(random, format);
    if start.in_added_second() {
        start.hundredths -= 100;
    }
    Run {
        format,
        start,
        frames,
        year_length: random.pick(&[365, 366]).max(start.day),
    }
}

fn any_listeners(random: &mut Random, run: &Run) -> Vec<Listener> {
    let number = match random.below(16) {
        0 => 9 + random.index(3),
        _ => random.index(MOST_LISTENERS + 1),
    };
    let mut listeners: Vec<Listener> = (0..number)
        .map(|_| Listener {
            setting: setting(random),
            damages: any_damages(random, run),
        })
        .collect();
    if number > 0 && random.once_in(8) {
        let index = random.index(number);
        listeners[index].setting = random.pick(&[0, 1, 6, 7, 128, 255]);
    }
    if number > 0 && random.once_in(8) {
        let index = random.index(number);
        spoil(random, &mut listeners[index].damages);
    }
    listeners
}

/// None, few anywhere, among them outside the run, or one bit of frames in succession, which can bring false times.
fn any_damages(random: &mut Random, run: &Run) -> Vec<(u64, u8)> {
    let n = table(run.format).0 as u64;
    let elements = n * u64::from(run.frames);
    let mut damages: Vec<(u64, u8)> = match random.below(4) {
        0 => vec![],
        1 => (0..random.below(8))
            .map(|_| (random.below(elements + n), random.below(4) as u8))
            .collect(),
        2 => {
            let far = [0, 1, elements, elements + 1, u64::MAX - 1, u64::MAX];
            (0..2)
                .map(|_| (random.pick(&far), random.below(4) as u8))
                .collect()
        }
        _ => {
            let bit = 1 + random.below(digits_end(run.format) as u64 + 1);
            let symbol = random.below(2) as u8;
            let frames = 2 + random.below(10);
            let from = random.below(4);
            (from..from + frames)
                .map(|frame| (n * frame + bit, symbol))
                .collect()
        }
    };
    damages.sort();
    damages.dedup_by_key(|damage| damage.0);
    damages
}

/// A number that falls or stays, or a symbol above 3, in some place.
fn spoil(random: &mut Random, damages: &mut Vec<(u64, u8)>) {
    if random.once_in(2) {
        let last = damages.last().map_or(7, |damage| damage.0);
        damages.push((last, random.below(4) as u8));
        damages.push((last.saturating_sub(random.below(2)), 0));
    } else if !damages.is_empty() {
        let index = random.index(damages.len());
        damages[index].1 = 4 + random.below(252) as u8;
    }
}

fn plain(run: &Run, listeners: &[Listener]) -> Result<Vec<Counted>, Refused> {
    reference::simulate(
        run.format,
        run.start,
        run.frames,
        run.year_length,
        listeners,
    )
    .map(|counts| {
        let counts = counts.into_iter();
        counts.map(|c| (c.first, c.reports, c.wrong)).collect()
    })
    .map_err(plain_refused)
}

fn by_listeners(run: &Run, listeners: &[Listener], counts: &mut Counts) -> Result<(), String> {
    let damage = |&(number, symbol)| Damage { number, symbol };
    let damages: Vec<Vec<Damage>> = listeners
        .iter()
        .map(|listener| listener.damages.iter().map(damage).collect())
        .collect();
    let lent: Vec<duskveyra::Listener> = listeners
        .iter()
        .zip(&damages)
        .map(|(listener, damages)| duskveyra::Listener {
            setting: listener.setting,
            damages,
        })
        .collect();
    let library = duskveyra::simulate(
        library_format(run.format),
        library_time(run.start),
        run.frames,
        run.year_length,
        &lent,
    )
    .map(|counts| {
        let counts = counts.into_iter();
        counts.map(|c| (c.first, c.reports, c.wrong)).collect()
    })
    .map_err(refused);
    let expected = plain(run, listeners);
    counts.simulations += 1;
    match &expected {
        Ok(told) => {
            counts.simulated_reports += told.iter().map(|counted| counted.1).sum::<u64>();
            counts.wrong_reports += told.iter().map(|counted| counted.2).sum::<u64>();
        }
        Err(_) => counts.refused_simulations += 1,
    }
    agree(
        || format!("simulate {run:?} {listeners:?}"),
        library,
        expected,
    )
}

/// The lists of listeners, at times changed so that they are none.
#[derive(Debug)]
struct Lists {
    settings: Vec<u8>,
    ends: Vec<usize>,
    numbers: Vec<u64>,
    symbols: Vec<u8>,
}

fn any_lists(random: &mut Random, listeners: &[Listener]) -> Lists {
    let damages = || listeners.iter().flat_map(|listener| &listener.damages);
    let mut end = 0;
    let mut lists = Lists {
        settings: listeners.iter().map(|listener| listener.setting).collect(),
        ends: listeners
            .iter()
            .map(|listener| {
                end += listener.damages.len();
                end
            })
            .collect(),
        numbers: damages().map(|damage| damage.0).collect(),
        symbols: damages().map(|damage| damage.1).collect(),
    };
    match random.below(10) {
        0 => lists.ends.push(end),
        1 => drop(lists.ends.pop()),
        2 => lists.symbols.push(0),
        3 => drop(lists.numbers.pop()),
        4 | 5 if !lists.ends.is_empty() => {
            let index = random.index(lists.ends.len());
            lists.ends[index] = random.pick(&[0, end / 2, end, end + 1, usize::MAX]);
        }
        _ => {}
    }
    lists
}

/// The listeners that such lists are; none where they do not fit together.
fn listeners_of(lists: &Lists) -> Option<Vec<Listener>> {
    let mut start = 0;
    let mut listeners = vec![];
    if lists.ends.len() != lists.settings.len() || lists.numbers.len() != lists.symbols.len() {
        return None;
    }
    for (&setting, &end) in lists.settings.iter().zip(&lists.ends) {
        let numbers = lists.numbers.get(start..end)?;
        let symbols = lists.symbols[start..end].iter().copied();
        listeners.push(Listener {
            setting,
            damages: numbers.iter().copied().zip(symbols).collect(),
        });
        start = end;
    }
    (start == lists.numbers.len()).then_some(listeners)
}

/// The call of a C program. Lists that do not fit together are number 3, behind 26 and before 27.
fn by_lists(random: &mut Random, run: &Run, listeners: &[Listener]) -> Result<(), String> {
    let lists = any_lists(random, listeners);
    // SAFETY: each pointer and length are those of one list, which the call reads alone.
    let result = unsafe {
        sys::duskveyra_simulate(
            library_format(run.format),
            library_time(run.start),
            run.frames,
            run.year_length,
            lists.settings.as_ptr(),
            lists.settings.len(),
            lists.ends.as_ptr(),
            lists.ends.len(),
            lists.numbers.as_ptr(),
            lists.numbers.len(),
            lists.symbols.as_ptr(),
            lists.symbols.len(),
        )
    };
    let library = (
        result.number,
        result.counts.map(|c| (c.first, c.reports, c.wrong)),
    );
    let expected = match listeners_of(&lists) {
        Some(listeners) => plain(run, &listeners),
        None => {
            // The same settings without a damage: what is asked before the lists.
            let undamaged: Vec<Listener> = lists
                .settings
                .iter()
                .map(|&setting| Listener {
                    setting,
                    damages: vec![],
                })
                .collect();
            match plain(run, &undamaged) {
                Err((number, None)) if number != 27 => Err((number, None)),
                _ => Err((3, None)),
            }
        }
    };
    let mut told = (0, [(0, 0, 0); MOST_LISTENERS]);
    match expected {
        Ok(counts) => {
            for (told, (first, reports, wrong)) in told.1.iter_mut().zip(counts) {
                *told = (first.unwrap_or(0), reports, wrong);
            }
        }
        Err((number, _)) => told.0 = number,
    }
    agree(|| format!("simulate {run:?} {lists:?}"), library, told)
}
