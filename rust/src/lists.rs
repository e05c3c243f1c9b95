//! Lists for the corpus.

use crate::random::Random;

/// Counts around the powers of two and three times these, where the height or the root's case changes, up to the limit.
/// The greatest count of all is among them.
pub fn around_powers(limit: usize) -> Vec<usize> {
    let mut counts = Vec::new();
    for k in 0..=64 {
        for power in [1u128 << k, 3 << k] {
            counts.extend(power.saturating_sub(3)..=power + 3);
        }
    }
    counts.retain(|&n| n <= limit as u128);
    counts.sort();
    counts.dedup();
    counts.into_iter().map(|n| n as usize).collect()
}

/// The pin counts of most damaged strips.
pub fn few_pins() -> impl Iterator<Item = usize> {
    (1..=20).chain([31, 32, 47, 48, 63, 64, 300])
}

/// n times with these gaps. Where they would pass the greatest time, they stay there.
pub fn rising(n: usize, mut gap: impl FnMut() -> u32) -> Vec<u32> {
    let mut time = 0u32;
    let next = |_| {
        time = time.saturating_add(gap());
        time
    };
    (0..n).map(next).collect()
}

pub fn sorted(mut times: Vec<u32>) -> Vec<u32> {
    times.sort();
    times
}

/// The list as far below the greatest time as this one is above 0.
pub fn mirrored(times: &[u32]) -> Vec<u32> {
    times.iter().rev().map(|&time| !time).collect()
}

/// Lists of n that fall: at each position of a short list, at some of a long one.
pub fn falling_lists(n: usize, random: &mut Random) -> Vec<Vec<u32>> {
    let mut positions: Vec<usize> = match n {
        2..=40 => (1..n).collect(),
        _ => [1, 2, 3, n / 2, n - 2, n - 1].to_vec(),
    };
    positions.push(1 + random.below(n - 1));
    let mut falling = |i| falling(n, i, random);
    positions.into_iter().flat_map(&mut falling).collect()
}

/// Lists of n that fall at i, there alone or later too.
fn falling(n: usize, i: usize, random: &mut Random) -> [Vec<u32>; 2] {
    let mut times = rising(n, || 1 + random.of_width(3));
    // By one, or as far as can be.
    times[i] = [times[i - 1] - 1, 0][random.below(2)];
    let mut later = times.clone();
    later[i + 1..].fill_with(|| random.of_width(6));
    [times, later]
}

const SHAPES: usize = 13;

/// A list of n times: chords, small and huge gaps, the least and the greatest time.
fn list(n: usize, shape: usize, random: &mut Random) -> Vec<u32> {
    match shape {
        0 => vec![0; n],
        1 => vec![random.skewed(); n],
        2 => vec![u32::MAX; n],
        3 => (0..n as u32).collect(),
        4 => (0..n as u32).rev().map(|i| u32::MAX - i).collect(),
        // One gap, as great as can be.
        5 => {
            let jump = random.below(n + 1);
            let time = |i| if i < jump { 0 } else { u32::MAX };
            (0..n).map(time).collect()
        }
        // Nine gaps in ten are 0.
        6 => rising(n, || match random.below(10) {
            0 => random.of_width(7),
            _ => 0,
        }),
        7 => rising(n, || random.of_width(2)),
        8 => rising(n, || random.of_width(16)),
        9 => rising(n, || random.skewed() & random.skewed() & random.skewed()),
        // Close together at the least times, and at the greatest.
        10 => sorted((0..n).map(|_| random.skewed()).collect()),
        11 => sorted((0..n).map(|_| !random.skewed()).collect()),
        _ => {
            let mut ends = sorted((0..n).map(|_| random.of_width(32)).collect());
            if let [first, .., last] = &mut ends[..] {
                (*first, *last) = (0, u32::MAX);
            }
            ends
        }
    }
}

/// Lists of n times of all sorts.
pub fn lists(n: usize, random: &mut Random) -> Vec<Vec<u32>> {
    few_lists(n, SHAPES, random)
}

/// A few of those lists.
pub fn few_lists(n: usize, count: usize, random: &mut Random) -> Vec<Vec<u32>> {
    let mut shapes: Vec<usize> = (0..SHAPES).collect();
    while shapes.len() > count {
        shapes.swap_remove(random.below(shapes.len()));
    }
    let list = |shape| list(n, shape, random);
    shapes.into_iter().map(list).collect()
}

/// What n nodes store, whether or not a list makes it, of three sorts round by round.
pub fn any_values(n: usize, round: usize, random: &mut Random) -> Vec<u32> {
    let mut values: Vec<u32> = (0..n).map(|_| random.skewed()).collect();
    match round % 3 {
        0 => values.fill_with(|| random.extreme()),
        1 => values[0] = !values[0],
        _ => {}
    }
    values
}
