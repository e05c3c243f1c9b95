//! How fast the calls are, in one run: the proved library and the implementation written for speed ("fast").
//!
//! In a round each works once, one right after the other, and who begins changes from round to round. A time is the
//! median over the rounds, and so is a ratio, which is taken within each round: the machine's own changes of speed meet
//! both sides of it.
//!
//! With a part of a call's name, as `sweep`, only such calls are timed.

use std::env;
use std::hint::black_box;
use std::time::Instant;

use gemcotton::MAX_BYTES;
use gemcotton_tests::fast;
use gemcotton_tests::reference::strip::PINS;
use gemcotton_tests::strips::TIMES_A;
use gemcotton_tests::tunes::{Gaps, Tune, GAPS, LENGTHS, LOOKUPS, SHORT};

/// Seconds for the rounds of one race.
const BUDGET: f64 = 1.0;
const LEAST_ROUNDS: usize = 15;
const MOST_ROUNDS: usize = 1001;
/// The least seconds between two looks at the clock, which themselves take far less.
const TURN: f64 = 2e-5;

// ---- Calls ----

/// Memory that is lent to all in a race, so that none has better places. It is never cleared.
struct Lent {
    bytes: Vec<u8>,
    words: Vec<u32>,
}

type Work = fn(&Tune, &mut Lent);

/// A call's work on a list, by both.
struct Call {
    name: &'static str,
    /// The pins, lookups or targets of one work, by which its time is divided.
    units: fn(&Tune) -> usize,
    /// The greatest proved/fast that is aimed at.
    limit: f64,
    proved: Work,
    fast: Work,
}

/// Has the answer made, though nobody wants it.
fn ignore<T>(answer: T) {
    black_box(answer);
}

/// A call that goes through the whole list.
const fn whole(name: &'static str, proved: Work, fast: Work) -> Call {
    Call { name, units: |tune| tune.times.len(), limit: 2.0, proved, fast }
}

/// A call that is made for each position or target.
const fn lookup(name: &'static str, proved: Work, fast: Work) -> Call {
    Call { name, units: |_| LOOKUPS, limit: 1.2, proved, fast }
}

/// The sweeps under this index.
const fn sweeps<const WHICH: usize>(name: &'static str) -> Call {
    Call {
        name,
        units: |tune| tune.sweeps[WHICH].iter().map(Vec::len).sum(),
        limit: 1.2,
        proved: |tune, lent| {
            for targets in &tune.sweeps[WHICH] {
                ignore(gemcotton::sweep(&mut lent.words[..targets.len()], &tune.strip, targets));
            }
        },
        fast: |tune, lent| {
            for targets in &tune.sweeps[WHICH] {
                ignore(fast::sweep(&tune.strip, targets, &mut lent.words[..targets.len()]));
            }
        },
    }
}

/// Repeat is for gaps below 0, of which there are none, so that all positions are read.
const WHOLE: [Call; 4] = [
    whole(
        "pack",
        |tune, lent| ignore(gemcotton::pack(&mut lent.bytes, &tune.times)),
        |tune, lent| ignore(fast::pack(&tune.times, &mut lent.bytes)),
    ),
    whole("check", |tune, _| ignore(gemcotton::check(&tune.strip)), |tune, _| ignore(fast::check(&tune.strip))),
    whole(
        "unpack",
        |tune, lent| ignore(gemcotton::unpack(&mut lent.words, &tune.strip)),
        |tune, lent| ignore(fast::unpack(&tune.strip, &mut lent.words)),
    ),
    whole("repeat", |tune, _| ignore(gemcotton::repeat(&tune.strip, 0)), |tune, _| ignore(fast::repeat(&tune.strip))),
];

const LOOKING_UP: [Call; 4] = [
    lookup(
        "access",
        |tune, _| tune.positions.iter().for_each(|&i| ignore(gemcotton::access(&tune.strip, i))),
        |tune, _| tune.positions.iter().for_each(|&i| ignore(fast::access(&tune.strip, i))),
    ),
    lookup(
        "search",
        |tune, _| tune.targets.iter().for_each(|&t| ignore(gemcotton::search(&tune.strip, t))),
        |tune, _| tune.targets.iter().for_each(|&t| ignore(fast::search(&tune.strip, t))),
    ),
    sweeps::<0>("sweep-1000"),
    sweeps::<1>("sweep-65535"),
];

/// Sweeps of as many targets as pins, for linearity.
const SWEEP_PINS: Call = sweeps::<2>("sweep-pins");

// ---- Races ----

/// One in a race. Each run does the work so often.
#[derive(Clone)]
struct Runner<'a> {
    work: Work,
    tune: &'a Tune,
    repeats: usize,
    /// The units of one run.
    units: usize,
}

impl<'a> Runner<'a> {
    fn new(call: &Call, work: Work, tune: &'a Tune, repeats: usize) -> Self {
        let units = repeats * (call.units)(tune);
        Runner { work, tune, repeats, units }
    }

    fn seconds(&self, runs: usize, lent: &mut Lent) -> f64 {
        let start = Instant::now();
        for _ in 0..runs * self.repeats {
            (self.work)(black_box(self.tune), black_box(lent));
        }
        start.elapsed().as_secs_f64()
    }
}

/// The seconds that each runner took for a unit, round by round.
struct Race(Vec<Vec<f64>>);

impl Race {
    fn new(runners: &[Runner]) -> Self {
        let lent = &mut Lent { bytes: vec![0; MAX_BYTES], words: vec![0; PINS] };
        // The first run warms the caches.
        let mut alone = |runner: &Runner| runner.seconds(1, lent).min(runner.seconds(1, lent));
        let alone: Vec<f64> = runners.iter().map(&mut alone).collect();
        let fastest = alone.iter().copied().fold(TURN, f64::min);
        let runs = (TURN / fastest).ceil();
        let rounds = BUDGET / (runs * alone.iter().sum::<f64>());
        let rounds = (rounds as usize).clamp(LEAST_ROUNDS, MOST_ROUNDS) | 1;
        let round = |round| Race::round(runners, round, runs as usize, lent);
        Race((0..rounds).map(round).collect())
    }

    /// All run, one right after the other. Who begins depends on the round's number.
    fn round(runners: &[Runner], round: usize, runs: usize, lent: &mut Lent) -> Vec<f64> {
        let mut times = vec![0.0; runners.len()];
        for turn in 0..runners.len() {
            let which = (round + turn) % runners.len();
            let units = runs * runners[which].units;
            times[which] = runners[which].seconds(runs, lent) / units as f64;
        }
        times
    }

    /// Proved and fast.
    fn of_both(call: &Call, tune: &Tune) -> Self {
        Race::new(&[call.proved, call.fast].map(|work| Runner::new(call, work, tune, 1)))
    }

    /// Proved on the long list and on the short one, then fast on both. The short one is worked on so often that the
    /// pins are as many.
    fn of_lengths(call: &Call, long: &Tune, short: &Tune) -> Self {
        let repeats = (call.units)(long) / (call.units)(short);
        let runner = |work| [Runner::new(call, work, long, 1), Runner::new(call, work, short, repeats)];
        Race::new(&[call.proved, call.fast].map(runner).concat())
    }

    fn nanoseconds(&self, which: usize) -> f64 {
        1e9 * median(self.0.iter().map(|times| times[which]))
    }

    fn ratio(&self, above: usize, below: usize) -> f64 {
        median(self.0.iter().map(|times| times[above] / times[below]))
    }
}

fn median(numbers: impl Iterator<Item = f64>) -> f64 {
    let mut numbers: Vec<f64> = numbers.collect();
    numbers.sort_by(f64::total_cmp);
    numbers[numbers.len() / 2]
}

// ---- Tables ----

/// Prints a Markdown table, if it has rows, with the last columns to the right.
fn print_table(title: &str, left: usize, header: &[&str], rows: &[Vec<String>]) {
    if rows.is_empty() {
        return;
    }
    let header: Vec<String> = header.iter().map(|cell| cell.to_string()).collect();
    let width = |column: usize| rows.iter().chain([&header]).map(|row| row[column].len()).max();
    let widths: Vec<usize> = (0..header.len()).flat_map(width).collect();
    let dashes = |(column, &width): (usize, &usize)| match column < left {
        true => "-".repeat(width),
        false => "-".repeat(width - 1) + ":",
    };
    let rule: Vec<String> = widths.iter().enumerate().map(dashes).collect();
    println!("\n{title}\n");
    for row in [&header, &rule].into_iter().chain(rows) {
        for (column, (cell, &width)) in row.iter().zip(&widths).enumerate() {
            match column < left {
                true => print!("| {cell:width$} "),
                false => print!("| {cell:>width$} "),
            }
        }
        println!("|");
    }
}

fn ratio(ratio: f64) -> String {
    format!("{ratio:.2}")
}

/// A ratio that is measured for each kind of gaps and has a limit.
struct Figure {
    name: String,
    gaps: &'static str,
    ratio: f64,
    limit: f64,
}

/// All calls on one list. The figures are those of the longest list.
fn print_calls(calls: &[&Call], gaps: &Gaps, tune: &Tune, figures: &mut Vec<Figure>) {
    let n = tune.times.len();
    let mut rows = Vec::new();
    for call in calls {
        let race = Race::of_both(call, tune);
        let (time, found) = (race.nanoseconds(0), race.ratio(0, 1));
        rows.push(vec![call.name.into(), format!("{time:.2}"), ratio(found)]);
        if n == PINS {
            let name = format!("{}, proved/fast", call.name);
            figures.push(Figure { name, gaps: gaps.name, ratio: found, limit: call.limit });
        }
    }
    let bits = (8 * tune.strip.len()) as f64 / n as f64;
    let title = format!("Gaps: {}. {n} pins, {bits:.2} bits per pin:", gaps.name);
    print_table(&title, 1, &["call", "proved ns", "proved/fast"], &rows);
}

/// Time per pin of the longest list by that of the short one.
fn print_linearity(calls: &[&Call], figures: &mut Vec<Figure>) {
    let mut rows = Vec::new();
    // Lists take time to make.
    let all_gaps = if calls.is_empty() { &[][..] } else { &GAPS };
    for gaps in all_gaps {
        let [long, short] = [PINS, SHORT].map(|n| Tune::with_gaps(n, gaps));
        for call in calls {
            let race = Race::of_lengths(call, &long, &short);
            let (proved, fast) = (race.ratio(0, 1), race.ratio(2, 3));
            let name = format!("{}, proved, per pin {PINS}/{SHORT}", call.name);
            figures.push(Figure { name, gaps: gaps.name, ratio: proved, limit: 1.5 });
            rows.push(vec![gaps.name.into(), call.name.into(), ratio(proved), ratio(fast)]);
        }
    }
    let title = format!("Time per pin at {PINS} pins / at {SHORT} pins:");
    print_table(&title, 2, &["gaps", "call", "proved", "fast"], &rows);
}

/// Whole calls on five pins.
fn print_small(calls: &[&Call]) {
    let tune = Tune::new(TIMES_A.to_vec());
    let row = |call: &&Call| {
        let race = Race::of_both(call, &tune);
        let time = race.nanoseconds(0) * (call.units)(&tune) as f64;
        vec![call.name.into(), format!("{time:.0}"), ratio(race.ratio(0, 1))]
    };
    let rows: Vec<Vec<String>> = calls.iter().map(row).collect();
    let title = format!("A whole call on {TIMES_A:?}:");
    print_table(&title, 1, &["call", "proved ns", "proved/fast"], &rows);
}

/// The worst of each figure, for the kinds of gaps.
fn print_summary(figures: &[Figure]) {
    let mut worst: Vec<&Figure> = Vec::new();
    for figure in figures {
        match worst.iter_mut().find(|other| other.name == figure.name) {
            None => worst.push(figure),
            Some(other) if other.ratio < figure.ratio => *other = figure,
            Some(_) => {}
        }
    }
    let row = |figure: &&Figure| {
        let verdict = if figure.ratio <= figure.limit { "met" } else { "missed" };
        vec![figure.name.clone(), figure.gaps.into(), verdict.into(), ratio(figure.ratio), ratio(figure.limit)]
    };
    let rows: Vec<Vec<String>> = worst.iter().map(row).collect();
    let title = format!("Targets at {PINS} pins, by the worst of the gaps:");
    let header = ["what", "worst gaps", "target", "ratio", "at most"];
    print_table(&title, 3, &header, &rows);
}

fn main() {
    // cargo adds an option of its own.
    let asked = env::args().skip(1).find(|word| !word.starts_with('-')).unwrap_or_default();
    let only = |mut calls: Vec<&'static Call>| {
        calls.retain(|call| call.name.contains(&asked));
        calls
    };
    let calls = only(WHOLE.iter().chain(&LOOKING_UP).collect());
    let linear = only(WHOLE.iter().chain([&SWEEP_PINS]).collect());
    assert!(calls.len() + linear.len() > 0, "no call's name has {asked}");

    println!("Nanoseconds are a pin's; for access and search a lookup's; for sweeps a target's.");
    println!("Gaps: uniform 0..1023; exponential, mean 8; chords, nine in ten 0, others 1..1023.");
    let mut figures = Vec::new();
    for gaps in &GAPS {
        for n in LENGTHS {
            print_calls(&calls, gaps, &Tune::with_gaps(n, gaps), &mut figures);
        }
    }
    print_linearity(&linear, &mut figures);
    print_small(&only(WHOLE[..2].iter().collect()));
    print_summary(&figures);
}
