//! Strips whose nodes have the times of a list: those that lists pack to, and others.

use super::{Case, Visit};
use crate::lists::{around_powers, few_lists, few_pins, rising};
use crate::parts::{any_code, chains, chosen, chunks, part_of_chunks, with_zeros};
use crate::random::Random;
use crate::reference::strip::{image, PINS};
use crate::reference::tree::{height, parts_of_values, stored, values_of_level};
use crate::reference::{choose, encode, size};
use crate::strips::{strip_of_values, wasteful, Level};

pub fn short_lists(random: &mut Random, visit: Visit) {
    for n in 1..=300 {
        let count = if n <= 30 { usize::MAX } else { 3 };
        for times in few_lists(n, count, random) {
            visit(Case::packed(times));
        }
    }
}

pub fn long_lists(random: &mut Random, visit: Visit) {
    for n in around_powers(PINS).into_iter().filter(|&n| n > 300) {
        let count = if n == PINS { usize::MAX } else { 1 };
        for times in few_lists(n, count, random) {
            visit(Case::packed(times));
        }
    }
    visit(Case::packed(rising(PINS, || random.skewed() & random.of_width(17))));
}

/// In any codes, and with bytes after the values of chunked levels too.
pub fn other_codes(random: &mut Random, visit: Visit) {
    for n in (1..=60).chain([300, 1000, PINS]) {
        let count = if n <= 20 { usize::MAX } else { 2 };
        for times in few_lists(n, count, random) {
            let strip = strip_of_values(&stored(&times), any_code(random));
            visit(Case::reading(strip, times.clone()));
            visit(Case::reading(wasteful(&times, 0, random), times));
        }
    }
}

/// Strips of lists that have other bytes for one level, given its values and what pack writes for it.
fn other_levels(
    lists: usize,
    random: &mut Random,
    visit: Visit,
    others: fn(&[u32], &Level, &mut Random) -> Vec<Level>,
) {
    for n in few_pins() {
        for times in few_lists(n, lists, random) {
            let values = stored(&times);
            let levels = parts_of_values(&values, chosen);
            for (i, level) in levels.iter().enumerate() {
                for other in others(values_of_level(&values, i + 1), level, random) {
                    let mut levels = levels.clone();
                    levels[i] = other;
                    visit(Case::reading(image(n, &levels), times.clone()));
                }
            }
        }
    }
}

/// One level in every code that holds its values.
pub fn every_code_of_a_level(random: &mut Random, visit: Visit) {
    other_levels(3, random, visit, |values, _, _| {
        (0..=255).filter_map(|code| Some((code, encode(values, code)?))).collect()
    });
}

/// Each padding bit, and bytes more where the level is chunked.
pub fn bits_after_the_values(random: &mut Random, visit: Visit) {
    other_levels(3, random, visit, |values, (code, part), random| {
        let mut parts = Vec::new();
        if *code > 32 {
            parts.extend([&[0], &random.bytes(2)[..]].map(|more| [part, more].concat()));
        }
        for bit in 0..part.len() as u64 * 8 - choose(values).1 {
            let mut part = part.clone();
            *part.last_mut().expect("a byte") |= 1 << bit;
            parts.push(part);
        }
        parts.into_iter().map(|part| (*code, part)).collect()
    });
}

/// Chunks of zeros on top of one value of a level in its own code, where this is chunked, and on top of some values in
/// any chunked code: more of them than a sweep has marks for.
pub fn zeros_on_top(random: &mut Random, visit: Visit) {
    other_levels(6, random, visit, |values, (code, _), random| {
        let any = 1 + random.of_width(3);
        let own = code.checked_sub(64).map_or(any, u32::from);
        let mut one = chains(values, own);
        let index = random.below(one.len());
        one[index].extend(vec![0; [1, 1, 2, 40][random.below(4)]]);
        let some = with_zeros(values, any, random);
        [(own, one), (any, some)].map(|(b, chains)| (64 + b as u8, part_of_chunks(&chains, b))).to_vec()
    });
}

/// The codes that hold the values in the fewest bits.
fn smallest_codes(values: &[u32]) -> Vec<u8> {
    let least = choose(values).1;
    let smallest = |&code: &u8| size(values, code) == Some(least);
    (0..=255).filter(smallest).collect()
}

/// A list whose lowest level stores these values, a power of two of them. They are so small that the times around them
/// are further apart.
fn with_lowest_level(values: &[u32]) -> Vec<u32> {
    if let [root] = values {
        return vec![*root];
    }
    let apart = u32::MAX / values.len() as u32;
    let mut times = Vec::new();
    for (j, &value) in values.iter().enumerate() {
        // The nodes above it, in order, have the multiples; every other one is its parent.
        let above = |j: usize| j as u32 * apart;
        match j % 2 {
            0 => times.push(above(j + 1) - value),
            _ => times.push(above(j) + value),
        }
        times.push(above(j + 1));
    }
    times.pop();
    times
}

/// Lists whose lowest level has a tie of the fewest bits, between a fixed and a chunked code or between two chunked
/// ones. Repeating the values multiplies every size, so that the tie stays.
pub fn ties_of_codes(random: &mut Random, visit: Visit) {
    let (mut mixed, mut chunked) = (0, 0);
    for round in 0..8000 {
        let width = random.below(15) as u32;
        let mut value = || random.skewed() & random.of_width(width);
        let values: Vec<u32> = (0..1 << (round % 4)).map(|_| value()).collect();
        let codes = smallest_codes(&values);
        let above_32 = codes.iter().filter(|&&code| code > 32).count();
        mixed += usize::from(above_32 > 0 && above_32 < codes.len());
        chunked += usize::from(above_32 > 1);
        if above_32 > 0 && codes.len() > 1 {
            visit(Case::packed(with_lowest_level(&values)));
            if round % 51 == 0 {
                visit(Case::packed(with_lowest_level(&values.repeat(1024))));
            }
        }
    }
    assert!(mixed > 200 && chunked > 200, "{mixed} and {chunked} ties");
}

/// The lowest level is chains of chunks of zeros on top of equal values, or of a one far above them, or of continuation
/// without end.
pub fn chains_as_long_as_the_part(random: &mut Random, visit: Visit) {
    for b in 1..=8 {
        for count in [1, 2, 4, 8] {
            let value = random.of_width(20);
            let mut chain = chunks(value.into(), b);
            let zeros = if (count, b) == (1, 1) { 20_000 } else { 2000 / count };
            chain.resize(chain.len() + zeros, 0);
            let times = with_lowest_level(&vec![value; count]);
            let (n, h) = (times.len(), height(times.len()));
            let mut levels = parts_of_values(&stored(&times), chosen);
            levels[h - 1] = (64 + b as u8, part_of_chunks(&vec![chain.clone(); count], b));
            visit(Case::reading(image(n, &levels), times));
            // Cut, with a one on top, and without end: the first position is refused.
            let part = &levels[h - 1].1;
            let cut = part[..part.len() - 2].to_vec();
            let endless = vec![0xFF; part.len()];
            *chain.last_mut().expect("chunks") = 1;
            for part in [cut, part_of_chunks(&vec![chain; count], b), endless] {
                levels[h - 1].1 = part;
                visit(Case::refused(image(n, &levels), 9, count));
            }
        }
    }
}
