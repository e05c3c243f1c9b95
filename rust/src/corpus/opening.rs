//! Strips that opening refuses.

use super::{Case, Visit};
use crate::lists::{few_pins, rising};
use crate::random::Random;
use crate::reference::strip::{image, PINS};
use crate::reference::tree::{height, stored, HEIGHT};
use crate::strips::{example, many_levels, set_length, strip_of_values, zeros, A, TIMES_A};

/// The marked strips, and those that are examples of refusals.
pub fn examples(_: &mut Random, visit: Visit) {
    let refusals = [(1, 0), (5, 0), (6, 0), (7, 0), (8, 1), (9, 1), (10, 2), (11, 3), (12, 0), (13, 0), (23, 1)];
    for (number, carried) in refusals {
        visit(Case::refused(example(number), number, carried));
    }
    visit(Case::refused(Vec::new(), 5, 0));
    visit(Case::packed(TIMES_A.to_vec()));
    visit(Case::packed(vec![0]));
}

/// Strips cut anywhere, and some with bytes added.
pub fn cuts_and_bytes_added(random: &mut Random, visit: Visit) {
    for n in few_pins() {
        for levels in many_levels(n, random) {
            let strip = image(n, &levels);
            let (length, header) = (strip.len(), 7 + 5 * height(n));
            // Every length of a short strip, some of a long one.
            for cut in (0..length).step_by(1 + length / 200) {
                let number = if cut < header { 5 } else { 13 };
                visit(Case::refused(strip[..cut].to_vec(), number, 0));
            }
            for more in [1, 1, 2, 7, 255, 256, 1000] {
                let more = random.dense_bytes(more, 16 * (more % 2));
                visit(Case::refused([&strip[..], &more].concat(), 13, 0));
            }
        }
    }
}

/// The sum of the lengths, all of chunked levels, would be right if it were kept in 32 bits.
pub fn wrapping_lengths(random: &mut Random, visit: Visit) {
    for n in few_pins().chain([1000, 40_000, PINS]).filter(|&n| n > 1) {
        let times = rising(n, || random.of_width(3));
        let strip = strip_of_values(&stored(&times), |level, _| 65 + level as u8 % 8);
        let h = height(n);
        let parts = (strip.len() - 7 - 5 * h) as u32;
        let mut with = |length: &dyn Fn(usize) -> u32| {
            let mut strip = strip.clone();
            (1..=h).for_each(|level| set_length(&mut strip, level, length(level)));
            visit(Case::refused(strip, 13, 0));
        };
        for round in 0..40 {
            // Random, or just below 2^32, a half or a quarter of it.
            let length = |_| match round % 2 {
                0 => random.of_width(32),
                _ => [u32::MAX, u32::MAX >> 1, u32::MAX >> 2][random.below(3)] - random.of_width(3),
            };
            let mut lengths: Vec<u32> = (1..h).map(length).collect();
            let sum = lengths.iter().copied().fold(0, u32::wrapping_add);
            lengths.push(parts.wrapping_sub(sum));
            with(&|level| lengths[level - 1]);
        }
        with(&|_| u32::MAX);
        // As if level 1 had -1 bytes.
        with(&|level| [0, u32::MAX, parts + 1].get(level).map_or(0, |&length| length));
    }
}

/// A fixed level has a byte or many too few or too many. Its part is so long, or its entry alone says so.
pub fn wrong_lengths(random: &mut Random, visit: Visit) {
    for n in few_pins() {
        for levels in many_levels(n, random) {
            for i in (0..levels.len()).filter(|&i| levels[i].0 <= 32) {
                let length = levels[i].1.len();
                let others = [0, length / 2, length.saturating_sub(1), length + 1, length + 2 + random.below(300)];
                for other in others.into_iter().filter(|&other| other != length) {
                    let (mut said, mut levels) = (image(n, &levels), levels.clone());
                    set_length(&mut said, i + 1, other as u32);
                    visit(Case::refused(said, 23, i + 1));
                    levels[i].1.resize(other, random.draw() as u8);
                    visit(Case::refused(image(n, &levels), 23, i + 1));
                }
            }
        }
    }
}

/// In the longest list, one bit differs in the lengths of a level and of the later ones. Then some level's code is
/// refused too, and is told where it is tested for first.
pub fn wrong_lengths_at_every_level(random: &mut Random, visit: Visit) {
    let (zeros, entry) = (image(PINS, &zeros()), |level: usize| 7 + 5 * (level - 1));
    for level in 1..=HEIGHT {
        for bit in 0..32 {
            let mut strip = zeros.clone();
            (level..=HEIGHT).for_each(|level| strip[entry(level) + 1 + bit / 8] ^= 0x80 >> (bit % 8));
            visit(Case::refused(strip.clone(), 23, level));
            let other = 1 + random.below(HEIGHT);
            strip[entry(other)] = 33;
            let (number, carried) = if other <= level { (8, other) } else { (23, level) };
            visit(Case::refused(strip, number, carried));
        }
    }
}

/// What is done to a strip, and the refusal that it leads to.
type Fault = (fn(&mut Vec<u8>), usize, usize);

/// Faults of A, those that are tested for later first.
const FAULTS: [Fault; 12] = [
    (|strip| strip.push(0), 13, 0),
    (|strip| strip[18..22].fill(0xFF), 13, 0),
    (|strip| strip[17] = 73, 8, 3),
    (|strip| strip[13..17].fill(0xFF), 23, 2),
    (|strip| strip[12] = 64, 8, 2),
    (|strip| strip[11] = 1, 23, 1),
    (|strip| strip[7] = 33, 8, 1),
    (|strip| strip.truncate(21), 5, 0),
    (|strip| strip[5..7].fill(0), 1, 0),
    (|strip| strip[4] = 2, 7, 0),
    (|strip| strip[2] = 0x4F, 6, 0),
    (|strip| strip.truncate(6), 5, 0),
];

/// A with every set of those faults: the refusal is that of the one that is tested for first.
pub fn sets_of_faults(_: &mut Random, visit: Visit) {
    for set in 1..1 << FAULTS.len() {
        let mut strip = A.to_vec();
        let mut first = (0, 0);
        for (place, (fault, number, carried)) in FAULTS.into_iter().enumerate() {
            if set >> place & 1 == 1 {
                fault(&mut strip);
                first = (number, carried);
            }
        }
        visit(Case::refused(strip, first.0, first.1));
    }
}

/// A code that there is not, at one level of the longest list and at the later ones.
pub fn refused_codes(_: &mut Random, visit: Visit) {
    let zeros = zeros();
    for level in 1..=HEIGHT {
        for code in (33..65).chain(73..=255) {
            let mut levels = zeros.clone();
            levels[level - 1..].iter_mut().for_each(|level| level.0 = code);
            visit(Case::refused(image(PINS, &levels), 8, level));
        }
    }
}
