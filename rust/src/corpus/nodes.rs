//! Strips with a node that is refused with 9 or 10, or that stores another value.

use super::{Case, Visit};
use crate::lists::{any_values, few_lists, few_pins};
use crate::parts::{any_code, chosen, chunks, set_bit};
use crate::random::Random;
use crate::reference::strip::{image, PINS};
use crate::reference::tree::{nodes_of_level, stored, HEIGHT};
use crate::strips::{most_stored, refused_at, strip_of_values, with_chunks, with_value, zeros, Level};

/// A node of some list has these chunks, of b bits, which make 2^32 or more or do not.
fn with_number(n: usize, chain: Vec<u32>, b: u32, past: bool, random: &mut Random) -> Case {
    let (times, v) = (few_lists(n, 1, random).remove(0), 1 + random.below(n));
    let strip = with_chunks(&times, v, chain, b, random);
    if past {
        Case::refused(strip, 9, v)
    } else {
        Case::strip(strip)
    }
}

/// A node's number is at 2^32 - 1 or past it, also with chunks of zeros on top.
pub fn values_around_the_greatest(random: &mut Random, visit: Visit) {
    let past = [1 << 32, 1 << 33, 1 << 40, 1 << 63];
    let near = past.iter().flat_map(|&p: &u64| [p - 1, p, p + 1]);
    for number in near.chain([u64::MAX, (1 << 32) - 2, 3 << 31]) {
        for n in few_pins() {
            for b in 1..=8 {
                for zeros in [0, [1, 40][random.below(2)]] {
                    let chain = [chunks(number, b), vec![0; zeros]].concat();
                    visit(with_number(n, chain, b, number >> 32 > 0, random));
                }
            }
        }
    }
}

/// A node's number has one bit far above its others. Past 64, 256 and 65,536 a shift kept in too small a number would
/// begin again.
pub fn bits_far_above(random: &mut Random, visit: Visit) {
    for place in (24..=140).chain(250..=300).chain([65_535, 65_540, 65_570]) {
        for b in 1..=8 {
            // The longest chains are read alone, to save time.
            let n = if place < 1000 { [1, 2, 9, 65][random.below(4)] } else { 1 };
            let mut chain = chunks(random.of_width(24).into(), b);
            set_bit(&mut chain, place, b);
            visit(with_number(n, chain, b, place >= 32, random));
        }
    }
}

/// One node is refused with 9, or with 10 where its time can pass an end.
pub fn refused_nodes(random: &mut Random, visit: Visit) {
    for n in few_pins() {
        for times in few_lists(n, 4, random) {
            for v in (1..=n).step_by(1 + n / 30) {
                for (strip, number) in refused_at(&times, v, random) {
                    visit(Case::refused(strip, number, v));
                }
            }
        }
    }
}

/// So many bytes of zeros, but for this bit.
fn one_bit(length: usize, place: usize) -> Vec<u8> {
    let mut bytes = vec![0; length];
    bytes[place / 8] = 0x80 >> (place % 8);
    bytes
}

/// In the longest list, one level is in chunks and has no part or lacks its last byte, or a node of it, at the level's
/// ends or in its middle, lacks a chunk or passes an end of the times.
pub fn refused_at_every_level(_: &mut Random, visit: Visit) {
    let zeros = zeros();
    for level in 1..=HEIGHT {
        let nodes = nodes_of_level(PINS, level);
        let (first, count) = (*nodes.start(), nodes.count());
        let mut with = |root: u8, other: Level, number, carried| {
            let mut levels = zeros.clone();
            levels[0] = (32, vec![root; 4]);
            levels[level - 1] = other;
            visit(Case::refused(image(PINS, &levels), number, carried));
        };
        // A chunk of seven bits and its continuation bit take a byte, so that nothing follows the first layer.
        with(0, (71, Vec::new()), 9, first);
        with(0, (71, vec![0; count - 1]), 9, first);
        for index in [0, count / 2, count - 1] {
            with(0, (71, one_bit(count, index)), 9, first + index);
        }
        if level > 1 {
            let one = |index| (1, one_bit(count.div_ceil(8), index));
            with(0, one(0), 10, first);
            // A right child: the first right of the root, and the last.
            for index in [1 << (level - 2) | 1, count - 1] {
                with(0xFF, one(index), 10, first + index);
            }
        }
    }
}

/// A node's time is just at an end, where the nodes below may pass it, or one past it.
pub fn times_at_the_ends(random: &mut Random, visit: Visit) {
    for n in few_pins() {
        for times in few_lists(n, 3, random) {
            for v in (2..=n).step_by(1 + n / 30) {
                let most = most_stored(&times, v);
                visit(Case::strip(with_value(&times, v, most, random)));
                if let Some(more) = most.checked_add(1) {
                    visit(Case::refused(with_value(&times, v, more, random), 10, v));
                }
            }
        }
    }
}

/// One or two nodes store somewhat more or less.
pub fn values_changed(random: &mut Random, visit: Visit) {
    for n in few_pins() {
        for times in few_lists(n, 8, random) {
            for round in 0..12 {
                let mut values = stored(&times);
                for _ in 0..=random.below(2) {
                    let value = &mut values[random.below(n)];
                    let by = random.of_width(1 + round);
                    *value = match random.below(2) {
                        0 => value.saturating_add(by),
                        _ => value.saturating_sub(by),
                    };
                }
                visit(Case::strip(match round % 2 {
                    0 => strip_of_values(&values, chosen),
                    _ => strip_of_values(&values, any_code(random)),
                }));
            }
        }
    }
}

/// The nodes store values that no list need make.
pub fn values_of_no_list(random: &mut Random, visit: Visit) {
    for n in 1..=70 {
        for round in 0..45 {
            let values = any_values(n, round, random);
            visit(Case::strip(strip_of_values(&values, any_code(random))));
        }
    }
}
