//! Sweeps over a list that is known.

use super::costs;
use super::header::Header;
use super::shape::Shape;

/// Whether it is quicker to read the whole strip than to open the nodes of so many targets.
pub fn reads_all(header: &Header, targets: usize) -> bool {
    let steps = header.shape.pins + targets;
    let read = costs::of_reading(header) + (20 * targets).min(2 * steps);
    read < costs::of_opening(header, targets) + 3 * targets
}

/// Merges done in turn, so that one need not wait for another's numbers.
const MERGES: usize = 4;

/// Writes the number of times below each target.
pub fn positions(times: &[u32], targets: &[u32], answers: &mut [u32]) {
    // A search takes as long as some steps of a merge.
    if targets.len() < times.len() / 16 {
        for (&t, answer) in targets.iter().zip(answers) {
            *answer = below(times, t) as u32;
        }
    } else {
        merge(times, targets, answers);
    }
}

/// The number of times below t.
fn below(times: &[u32], t: u32) -> usize {
    times.partition_point(|&time| time < t)
}

/// As `positions`, going through times and targets together. A step passes a time or a target, so that the number of
/// those passed tells the one from the other.
fn merge(times: &[u32], targets: &[u32], answers: &mut [u32]) {
    let Some(&last) = targets.last() else { return };
    let steps = targets.len() + below(times, last);
    let each = steps / MERGES;
    let starts: [usize; MERGES] = std::array::from_fn(|merge| times_passed(times, targets, merge * each));
    let mut passed = starts;
    for step in 0..each {
        for (merge, passed) in passed.iter_mut().enumerate() {
            *passed = pass(times, targets, answers, merge * each + step, *passed);
        }
    }
    let mut passed = passed[MERGES - 1];
    for step in MERGES * each..steps {
        passed = pass(times, targets, answers, step, passed);
    }
    // Where a merge begins, the one before it has written last.
    for (merge, start) in starts.iter().enumerate() {
        let target = merge * each - start;
        answers[target] = below(times, targets[target]) as u32;
    }
}

/// One step after so many, among them so many times. What it writes for a target is right when it passes the target.
#[inline(always)]
fn pass(times: &[u32], targets: &[u32], answers: &mut [u32], steps: usize, passed: usize) -> usize {
    let target = steps - passed;
    answers[target] = passed as u32;
    let below = times.get(passed).is_some_and(|&time| time < targets[target]);
    passed + usize::from(below)
}

/// How many times are passed in so many steps from the start.
fn times_passed(times: &[u32], targets: &[u32], steps: usize) -> usize {
    let (mut low, mut high) = (steps.saturating_sub(targets.len()), steps.min(times.len()));
    while low < high {
        let middle = (low + high) / 2;
        if times[middle] < targets[steps - 1 - middle] {
            low = middle + 1;
        } else {
            high = middle;
        }
    }
    low
}

/// The number of nodes on the paths to these positions, which do not fall.
pub fn nodes(shape: Shape, positions: &[u32]) -> usize {
    let Some(&first) = positions.first() else {
        return 0;
    };
    let full = 2 * shape.lowest as u32;
    // A position's place among the gaps of the full tree.
    let place = |position: u32| position + position.saturating_sub(full);
    // From `full` on, paths end one level higher.
    let short = |position: u32| u32::from(position >= full);
    // Where two places' highest different bit is bit k, their paths part above the lowest k levels. A float's exponent
    // tells it, also for many at once.
    let new = positions.windows(2).map(|pair| {
        let different = place(pair[0]) ^ place(pair[1]);
        let levels = (((different | 1) as i32 as f32).to_bits() >> 23) - 127;
        levels - (short(pair[1]) & u32::from(different != 0))
    });
    shape.height - short(first) as usize + new.sum::<u32>() as usize
}
