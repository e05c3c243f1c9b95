//! Strips with damage of which the making does not tell what it leads to.

use super::{Case, Visit};
use crate::lists::{around_powers, few_pins, rising};
use crate::parts::least_width;
use crate::random::Random;
use crate::reference::strip::{image, PINS};
use crate::reference::tree::{height, nodes_of_level, parts_of_values, stored, HEIGHT};
use crate::reference::{fewest_bytes, kind, Kind};
use crate::strips::{change_bytes, chunked_levels, many_levels, packed, set_length, small_strips, Level};

/// Small strips with every change of one byte.
pub fn every_byte(random: &mut Random, visit: Visit) {
    for strip in small_strips(random) {
        for place in 0..strip.len() {
            for change in 1..=255 {
                let mut strip = strip.clone();
                strip[place] ^= change;
                visit(Case::strip(strip));
            }
        }
    }
}

/// Damages the levels that this gives for n pins, in four rounds.
fn damaged(
    levels: fn(usize, &mut Random) -> Vec<Vec<Level>>,
    random: &mut Random,
    visit: Visit,
    damage: fn(&mut Vec<Level>, usize, &mut Random),
) {
    for n in few_pins() {
        for levels in levels(n, random) {
            for round in 0..4 {
                let mut levels = levels.clone();
                damage(&mut levels, round, random);
                visit(Case::strip(image(n, &levels)));
            }
        }
    }
}

/// One part, of a chunked level, is cut short, or as it was.
pub fn cut_parts(random: &mut Random, visit: Visit) {
    damaged(chunked_levels, random, visit, |levels, round, random| {
        let level = random.below(levels.len());
        let part = &mut levels[level].1;
        let length = part.len();
        part.truncate([0, length / 2, length.saturating_sub(1), random.below(length + 1)][round]);
    });
}

/// One part, or as often every one, is random bytes, somewhat fewer or more where it is chunked.
pub fn random_parts(random: &mut Random, visit: Visit) {
    damaged(many_levels, random, visit, |levels, round, random| {
        let one = random.below(2 * levels.len());
        let all = one >= levels.len();
        for (level, (code, part)) in levels.iter_mut().enumerate() {
            if all || level == one {
                let more = if *code > 32 { random.below(6) } else { 2 };
                let length = (part.len() + more).saturating_sub(2);
                *part = random.dense_bytes(length, [1, 3, 8, 13][round]);
            }
        }
    });
}

/// The end of one part, or of every one, lies elsewhere in the bytes of it and the next, which are chunked too.
pub fn moved_parts(random: &mut Random, visit: Visit) {
    damaged(chunked_levels, random, visit, |levels, round, random| {
        let one = random.below(levels.len());
        for level in 1..levels.len() {
            if round % 2 == 0 || level == one {
                let both = [&levels[level - 1].1[..], &levels[level].1].concat();
                let (first, second) = both.split_at(random.below(both.len() + 1));
                (levels[level - 1].1, levels[level].1) = (first.to_vec(), second.to_vec());
            }
        }
    });
}

/// One level has another code byte: any chunked one, or as often one on either side of the limits or any.
pub fn other_code_bytes(random: &mut Random, visit: Visit) {
    damaged(many_levels, random, visit, |levels, round, random| {
        let level = random.below(levels.len());
        let any = random.draw() as u8;
        let codes = [0, 1, 32, 33, 64, 65, 72, 73, 255, any % 33, any];
        levels[level].0 = [65 + any % 8, codes[random.below(codes.len())]][round % 2];
    });
}

/// Another pin count, with as many levels as this has: of no bytes where there were fewer.
pub fn wrong_pin_counts(random: &mut Random, visit: Visit) {
    for n in few_pins() {
        for levels in many_levels(n, random) {
            for pins in [n - 1, n + 1, n / 2, 2 * n, 2 * n + 1, random.below(2000)] {
                let mut levels = levels.clone();
                let code = [0, 1, 65, 72][random.below(4)];
                levels.resize(height(pins), (code, Vec::new()));
                visit(Case::strip(image(pins, &levels)));
            }
        }
    }
}

/// Up to three bytes are changed. In half of the rounds the header stays whole.
pub fn changed_bytes(random: &mut Random, visit: Visit) {
    for n in few_pins() {
        for levels in many_levels(n, random) {
            let strip = image(n, &levels);
            for round in 0..4 {
                let mut strip = strip.clone();
                let header = (7 + 5 * height(n)).min(strip.len() - 1);
                change_bytes(&mut strip, round % 2 * header, random);
                visit(Case::strip(strip));
            }
        }
    }
}

/// The lowest level, of one to three nodes, is in each chunked code and has one of these parts. The others are far from
/// the ends.
fn short_parts(parts: &[Vec<u8>], visit: Visit) {
    let root = (32, vec![0x80, 0, 0, 0]);
    let above = [vec![], vec![root.clone()], vec![root, (0, vec![])]];
    for (n, above) in [1, 3, 6].into_iter().zip(above) {
        for code in 65..=72 {
            for part in parts {
                visit(Case::strip(image(n, &[&above[..], &[(code, part.clone())]].concat())));
            }
        }
    }
}

pub fn every_part_of_one_byte(_: &mut Random, visit: Visit) {
    let parts: Vec<Vec<u8>> = (0..=255).map(|byte| vec![byte]).chain([vec![]]).collect();
    short_parts(&parts, visit);
}

/// There are 1.6 million of them.
pub fn every_part_of_two_bytes(_: &mut Random, visit: Visit) {
    let parts: Vec<Vec<u8>> = (0..=65_535u16).map(|bytes| bytes.to_be_bytes().to_vec()).collect();
    short_parts(&parts, visit);
}

/// Gives a level of a long list another code or a shorter part, or changes bytes of it and of those below it, round by
/// round.
fn damage_level(levels: &mut [Level], round: usize, random: &mut Random) {
    let level = random.below(levels.len());
    let (code, part) = &mut levels[level];
    match round % 3 {
        0 => *code = 65 + random.draw() as u8 % 8,
        1 => part.truncate(random.below(part.len() + 1)),
        _ => {
            for (_, part) in &mut levels[level..] {
                for _ in 0..=part.len() / 300 {
                    let place = random.below(part.len());
                    part[place] = random.draw() as u8;
                }
            }
        }
    }
}

/// Long lists with a damaged level, in fixed codes and in chunked ones, and the longest list with bytes changed.
pub fn damaged_long_lists(random: &mut Random, visit: Visit) {
    let codes: [fn(usize, &[u32]) -> u8; 2] = [|_, values| least_width(values), |level, _| 69 + level as u8 % 4];
    for code_for in codes {
        for n in [1000, 6144, 40_000, PINS] {
            let times = rising(n, || random.skewed() & random.of_width(14));
            let levels = parts_of_values(&stored(&times), code_for);
            for round in 0..12 {
                let mut levels = levels.clone();
                damage_level(&mut levels, round, random);
                visit(Case::strip(image(n, &levels)));
            }
        }
    }
    let strip = packed(&rising(PINS, || random.skewed() & random.of_width(14)));
    for _ in 0..20 {
        let mut strip = strip.clone();
        change_bytes(&mut strip, 7 + 5 * HEIGHT, random);
        visit(Case::strip(strip));
    }
}

/// Strips with random codes and short random parts, in fixed codes of the right length, and often one more fault.
pub fn random_strips(random: &mut Random, visit: Visit) {
    let counts = around_powers(PINS);
    for _ in 0..20_000 {
        visit(Case::strip(random_strip(&counts, random)));
    }
}

/// Half of the pin counts are small, and a quarter are of these.
fn random_strip(counts: &[usize], random: &mut Random) -> Vec<u8> {
    let n = match random.below(4) {
        0 => random.below(PINS + 1),
        1 => counts[random.below(counts.len())],
        _ => random.below(20),
    };
    let mut level = |level| {
        let count = nodes_of_level(n, level).count();
        let any = random.draw() as u8;
        let code = match random.below(60) {
            0 => any,
            // Of few bits or none where there are many nodes.
            1..=30 => any % (1 + 512 / count).min(33) as u8,
            _ => 65 + any % 8,
        };
        let length = match kind(code) {
            Kind::Fixed(w) => fewest_bytes(w, count),
            _ => random.below(9),
        };
        (code, random.bytes(length))
    };
    let levels: Vec<Level> = (1..=height(n)).map(&mut level).collect();
    let mut strip = image(n, &levels);
    let (length, h) = (strip.len(), levels.len());
    match random.below(12) {
        0 => strip[random.below(3)] = random.draw() as u8,
        1 => strip[3 + random.below(2)] = random.draw() as u8,
        2 => strip[5 + random.below(2)] = random.draw() as u8,
        3 => strip.truncate(random.below(length)),
        4 => strip.push(0),
        5 if h > 0 => set_length(&mut strip, 1 + random.below(h), random.skewed()),
        6 => strip.splice(5.., random.bytes(length)).for_each(drop),
        _ => {}
    }
    strip
}
