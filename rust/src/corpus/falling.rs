//! Strips whose times fall.

use super::{Case, Visit};
use crate::lists::{few_pins, rising};
use crate::parts::{any_code, chosen};
use crate::random::Random;
use crate::reference::strip::PINS;
use crate::reference::tree::{height, is_left, nodes_of_level, stored, stretch};
use crate::strips::strip_of_values;

/// Times in no order, which stay far from the ends.
pub fn unordered(random: &mut Random, visit: Visit) {
    for n in few_pins() {
        for round in 0..60 {
            let width = 1 + round % 20;
            let mut values: Vec<u32> = (0..n).map(|_| random.of_width(width)).collect();
            values[0] = 1 << 31;
            visit(Case::strip(strip_of_values(&values, any_code(random))));
        }
    }
}

/// Whether the subtree of v, moving away from v's parent, comes to another node: for a left child one that it lies right
/// of, for a right child one that it lies left of.
fn can_pass(n: usize, v: usize) -> bool {
    let (first, length) = stretch(n, v);
    if is_left(v) {
        first > 0
    } else {
        first + length < n
    }
}

/// The times where the subtree of v moves away from v's parent, to the time of the node that it then passes and this
/// much further. Every node stays on its own side of its parent.
fn moved(times: &[u32], v: usize, further: u32) -> Vec<u32> {
    let (first, length) = stretch(times.len(), v);
    let end = first + length;
    let mut moved = times.to_vec();
    for time in &mut moved[first..end] {
        if is_left(v) {
            *time -= times[first] - times[first - 1] + further;
        } else {
            *time += times[end] - times[end - 1] + further;
        }
    }
    moved
}

/// A list with room below it for subtrees to move.
fn movable(n: usize, random: &mut Random) -> Vec<u32> {
    let times = rising(n, || random.of_width(6));
    times.into_iter().map(|time| time + 1_000_000).collect()
}

/// The strip of these times, which fall, in codes as in `parts_of_values`.
fn falling(times: &[u32], code_for: impl FnMut(usize, &[u32]) -> u8) -> Case {
    let before = times.windows(2).position(|pair| pair[1] < pair[0]);
    let lower = before.expect("times that fall") + 1;
    Case::refused(strip_of_values(&stored(times), code_for), 11, lower)
}

/// One subtree passes a node above it other than its root's parent. At its time there is a chord, and so another list.
pub fn nodes_past_others(random: &mut Random, visit: Visit) {
    for n in (2..=40).chain([63, 64, 100, 300]) {
        let times = movable(n, random);
        for v in (2..=n).filter(|&v| can_pass(n, v)) {
            visit(Case::packed(moved(&times, v, 0)));
            for further in [1, 1 + random.of_width(10)] {
                visit(falling(&moved(&times, v, further), chosen));
            }
            // In other codes, 11 comes before 12.
            visit(falling(&moved(&times, v, 1), any_code(random)));
        }
    }
}

pub fn nodes_past_others_in_long_lists(random: &mut Random, visit: Visit) {
    for (n, levels) in [(5000, 1), (PINS, 5)] {
        let times = movable(n, random);
        for level in (3..=height(n)).rev().step_by(levels) {
            // A left child with a node to its left, and a right child with one to its right.
            let (first, last) = nodes_of_level(n, level).into_inner();
            let left = first + 2 * (1 + random.below((last - first) / 2));
            for v in [left, left - 1] {
                // The reference is quick in fixed widths.
                visit(falling(&moved(&times, v, 1), |_, _| 25));
            }
        }
    }
}
