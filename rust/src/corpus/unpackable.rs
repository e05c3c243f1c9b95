//! Lists, most of which pack refuses.

use super::{Case, Visit};
use crate::lists::falling_lists;
use crate::random::Random;
use crate::reference::strip::PINS;

pub fn lists_that_are_too_long(_: &mut Random, visit: Visit) {
    for n in (PINS + 1..PINS + 12).chain([2 * PINS + 2]) {
        let falling = (0..n as u32).rev().collect();
        for times in [vec![0; n], (0..n as u32).collect(), falling] {
            visit(Case::list(times));
        }
    }
}

pub fn lists_that_fall(random: &mut Random, visit: Visit) {
    for n in (2..=40).chain([1000, 32_768, PINS - 1, PINS]) {
        for times in falling_lists(n, random) {
            visit(Case::list(times));
        }
    }
    // By one at the greatest times, where a difference would wrap.
    visit(Case::list(vec![u32::MAX, u32::MAX - 1]));
    visit(Case::list(vec![0, u32::MAX, 0]));
}

/// Short ones with small times, for chords and for some that do not fall. Some are empty.
pub fn lists_in_any_order(random: &mut Random, visit: Visit) {
    for round in 0..8000 {
        let n = random.below(9);
        let width = 1 + round % 4;
        visit(Case::list((0..n).map(|_| random.of_width(width)).collect()));
    }
}
