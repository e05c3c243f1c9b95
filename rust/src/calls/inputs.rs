//! What the calls are asked: more of a strip that reads as a list, where the list alone tells the answers, and less
//! where the slow reference must tell them.

use super::Input;
use crate::corpus::Case;
use crate::lists::sorted;
use crate::random::Random;
use crate::reference::strip::PINS;
use crate::reference::tree::height;
use crate::strips::{is_fixed, pins};

fn numbers(numbers: impl IntoIterator<Item = usize>) -> Vec<Input> {
    let input = |number| Input { number, ..Input::default() };
    numbers.into_iter().map(input).collect()
}

fn rooms(list: &[u32], rooms: impl IntoIterator<Item = usize>) -> Vec<Input> {
    let input = |room| Input { list: list.to_vec(), room, ..Input::default() };
    rooms.into_iter().map(input).collect()
}

// ---- Lists and their room ----

/// Where the list packs, room for too little, just enough and more; less often where it is long. A strip in other codes
/// is no other list.
pub fn pack(case: &Case, random: &mut Random) -> Vec<Input> {
    let list = case.list.as_deref().unwrap_or_default();
    let (length, ample) = (case.image.len(), 7 + 5 * height(list.len()) + 4 * list.len());
    match list.len() {
        _ if case.list.is_none() || case.reads() && case.refused.is_some() => Vec::new(),
        _ if !case.reads() => rooms(list, [0, random.below(60), ample]),
        0..=300 => rooms(list, [0, 1, random.below(length), length - 1, length, length + 1, ample]),
        _ => rooms(list, [[0, length - 1][random.below(2)], length]),
    }
}

pub fn check(_: &Case, _: &mut Random) -> Vec<Input> {
    vec![Input::default()]
}

/// Room for none, for one too few, for all and for more.
pub fn unpack(case: &Case, random: &mut Random) -> Vec<Input> {
    let n = pins(&case.strip);
    let (short, enough) = ([0, n.saturating_sub(1)], [n, n + 3]);
    match n {
        0..=300 if case.reads() => rooms(&[], short.into_iter().chain(enough)),
        _ if case.reads() || n <= 300 => rooms(&[], [short[random.below(2)], enough[random.below(2)]]),
        _ => rooms(&[], [[short, enough].concat()[random.below(4)]]),
    }
}

/// The least gap and some others, one more than they, and other numbers.
pub fn repeat(case: &Case, random: &mut Random) -> Vec<Input> {
    let mut asked = vec![0, 1, 1_340, u32::MAX, random.of_width(6)];
    // It reads all positions each time.
    asked.truncate(if pins(&case.strip) > 1000 { 2 } else { 5 });
    if let Some(times) = case.list.as_deref().filter(|_| case.reads()) {
        let mut gaps: Vec<u32> = times.windows(2).map(|pair| pair[1] - pair[0]).collect();
        gaps.sort();
        gaps.dedup();
        let some = gaps.iter().step_by(1 + gaps.len() / 10).take(if times.len() > 1000 { 1 } else { 10 });
        asked.extend(some.flat_map(|&gap| [gap, gap.saturating_add(1)]));
    }
    numbers(asked.into_iter().map(|r| r as usize))
}

// ---- Positions ----

/// Every position of a short list, some of a long one.
fn some_positions(n: usize, random: &mut Random) -> Vec<usize> {
    if n <= 20 {
        return (0..n).collect();
    }
    let mut positions = vec![0, 1, n / 2, n - 2, n - 1];
    positions.extend((0..5).map(|_| random.below(n)));
    positions
}

fn positions(case: &Case, random: &mut Random) -> Vec<usize> {
    let n = pins(&case.strip);
    let mut positions = some_positions(n, random);
    if case.reads() && n > 20 {
        positions.extend((0..n).step_by(1 + n / 300));
    }
    positions
}

/// Positions at n or beyond it. Kept in 16 or 32 bits, the last would be below n.
fn beyond(n: usize) -> [usize; 9] {
    [n, n + 1, PINS, usize::MAX - 1, usize::MAX, 1 << 16, (1 << 16) + n / 2, 1 << 32, (1 << 32) + n / 2]
}

pub fn access(case: &Case, random: &mut Random) -> Vec<Input> {
    let n = pins(&case.strip);
    numbers(positions(case, random).into_iter().chain(beyond(n)))
}

pub fn step(case: &Case, random: &mut Random) -> Vec<Input> {
    let n = pins(&case.strip);
    let positions = if n <= 300 { (0..n).collect() } else { positions(case, random) };
    numbers(positions.into_iter().chain(beyond(n)))
}

/// From the start or anywhere, and from the end or beyond. Where the reference is slow, from near the end.
pub fn walk(case: &Case, random: &mut Random) -> Vec<Input> {
    let n = pins(&case.strip);
    let from = match n {
        0..=300 => [0, random.below(n + 1)][random.below(2)],
        301..=5000 | PINS if case.reads() => 0,
        301..=10_000 if is_fixed(&case.strip) => 0,
        _ => n - random.below(4),
    };
    numbers([from, beyond(n)[random.below(9)]])
}

// ---- Targets ----

/// Two times or more, in order: those of the list, or some of the strip's, or others.
fn times(case: &Case, random: &mut Random) -> Vec<u32> {
    let mut times = match &case.list {
        Some(list) if case.reads() => list.clone(),
        _ => {
            let positions = some_positions(pins(&case.strip), random).into_iter();
            let found = positions.flat_map(|i| gemcotton::access(&case.strip, i));
            found.map(|found| found.time).collect()
        }
    };
    times.resize(times.len().max(2), random.skewed());
    sorted(times)
}

/// Times, one more and one less, the ends, and random targets.
pub fn search(case: &Case, random: &mut Random) -> Vec<Input> {
    let times = times(case, random);
    let mut targets = vec![0, u32::MAX, random.skewed(), random.of_width(32)];
    for &time in times.iter().step_by(1 + times.len() / 300) {
        let near = [time.saturating_sub(1), time, time.saturating_add(1)];
        match case.reads() {
            true => targets.extend(near),
            false => targets.push(near[random.below(3)]),
        }
    }
    numbers(targets.into_iter().map(|target| target as usize))
}

pub fn up_to(case: &Case, random: &mut Random) -> Vec<Input> {
    search(case, random)
}

/// The sorts of targets for a sweep; the last is of all others.
const SORTS: usize = 7;

/// A target of this sort, for these times.
fn target(times: &[u32], sort: usize, random: &mut Random) -> u32 {
    let n = times.len();
    let time = times[random.below(n)];
    let up_to = |limit: u32, random: &mut Random| random.below(limit as usize + 1) as u32;
    match sort {
        0 => time,
        1 => [time.saturating_sub(1), time.saturating_add(1)][random.below(2)],
        // At or before the first time, and at or past the last.
        2 => up_to(times[0], random),
        3 => !up_to(!times[n - 1], random),
        4 => [0, u32::MAX][random.below(2)],
        // Anywhere among the times.
        5 => up_to(times[n - 1], random),
        _ => target(times, random.below(SORTS - 1), random),
    }
}

/// So many targets for a sweep, of one sort. In half of the calls about half of the targets equal another.
fn targets(times: &[u32], count: usize, random: &mut Random) -> Vec<u32> {
    let (sort, repeated) = (random.below(SORTS), random.below(2) == 0);
    let mut targets = Vec::new();
    for _ in 0..count {
        match targets.last() {
            Some(&before) if repeated && random.below(2) == 0 => targets.push(before),
            _ => targets.push(target(times, sort, random)),
        }
    }
    sorted(targets)
}

/// Sweeps of none to many targets. One in ten has another number of answers, and one in ten has targets in no order.
pub fn sweep(case: &Case, random: &mut Random) -> Vec<Input> {
    let times = times(case, random);
    // From 64 targets on a sweep has marks.
    let counts = match pins(&case.strip) {
        0..=300 if case.reads() => vec![0, 1, 2, 3, 10, 100, random.below(2000)],
        _ if case.reads() => vec![1, 2, 3, 10, 500],
        0..=300 => vec![1, 2, 3, random.below(10), random.below(130), random.below(130)],
        _ => vec![1, 2, random.below(11)],
    };
    let mut inputs = Vec::new();
    for count in counts {
        let (mut list, mut room) = (targets(&times, count, random), count);
        match random.below(10) {
            0 => room = [0, 1, count + 1, count + 2, random.below(300)][random.below(5)],
            1 => list.fill_with(|| times[random.below(times.len())]),
            _ => {}
        }
        inputs.extend(rooms(&list, [room]));
    }
    // All times once, which opens every node.
    if case.reads() && times.windows(2).all(|pair| pair[0] < pair[1]) {
        inputs.extend(rooms(&times, [times.len()]));
    }
    inputs
}
