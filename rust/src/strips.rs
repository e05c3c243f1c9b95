//! Single strips: marked ones, examples of refusals, and those made of values.

use crate::lists::{lists, mirrored, rising};
use crate::parts::{any_code, chains, chosen, chunks, part_of_chunks};
use crate::random::Random;
use crate::reference::strip::{image, pack, PINS};
use crate::reference::tree::{height, is_left, nodes_of_level, parts_of_values, rank, stored, values_of_level};

// ---- Marked strips ----

/// List A and its strip.
pub const TIMES_A: [u32; 5] = [100, 250, 250, 400, 1000];
pub const A: [u8; 29] = [
    0x50, 0x49, 0x4E, 0x00, 0x01, 0x00, 0x05, // PIN, version, pins
    0x09, 0x00, 0x00, 0x00, 0x02, // level 1
    0x0A, 0x00, 0x00, 0x00, 0x03, // level 2
    0x42, 0x00, 0x00, 0x00, 0x02, // level 3
    0xC8, 0x00, 0x25, 0xA5, 0x80, 0xA2, 0xD4, // parts
];

/// The strip of the list 0.
pub const B: [u8; 12] = [0x50, 0x49, 0x4E, 0, 1, 0, 1, 0, 0, 0, 0, 0];

// ---- Examples of refusals ----

/// B with one byte changed.
fn changed_b(place: usize, byte: u8) -> Vec<u8> {
    let mut strip = B.to_vec();
    strip[place] = byte;
    strip
}

/// The strip that is the example of this refusal.
pub fn example(number: usize) -> Vec<u8> {
    match number {
        1 => changed_b(6, 0),
        5 => vec![0x50, 0x49, 0x4E],
        6 => changed_b(2, 0x4F),
        7 => changed_b(4, 2),
        8 => changed_b(7, 33),
        // n = 1, code 65, length 0: 1.
        9 => changed_b(7, 65),
        // "root 0, node 2 stores 1: 2".
        10 => strip_of_values(&[0, 1], chosen),
        // "A, node 5 storing 151: 3".
        11 => strip_of_values(&[400, 150, 600, 150, 151], chosen),
        // "n = 1, code 65, length 1, byte 00".
        12 => image(1, &[(65, vec![0])]),
        13 => [&B[..], &[0]].concat(),
        // "n = 1, code 1, length 0: 1", which was the example of 9.
        23 => changed_b(7, 1),
        _ => panic!("no strip is an example of {number}"),
    }
}

// ---- Whole strips ----

/// The strip that a list packs to.
pub fn packed(times: &[u32]) -> Vec<u8> {
    pack(times, usize::MAX).expect("a list")
}

/// The strip of nodes that store these values, whether or not a list makes them, in codes as in `parts_of_values`.
pub fn strip_of_values(values: &[u32], code_for: impl FnMut(usize, &[u32]) -> u8) -> Vec<u8> {
    image(values.len(), &parts_of_values(values, code_for))
}

/// The list's strip in any codes, with bytes after each chunked level's values, which no fetch reads: so many at least,
/// and at most three.
pub fn wasteful(times: &[u32], least: usize, random: &mut Random) -> Vec<u8> {
    let mut levels = parts_of_values(&stored(times), any_code(random));
    for (_, part) in levels.iter_mut().filter(|(code, _)| *code > 32) {
        let more = least + random.below(4 - least);
        part.extend(random.bytes(more));
    }
    image(times.len(), &levels)
}

/// A level's code and part.
pub type Level = (u8, Vec<u8>);

/// The levels of lists of all sorts, in the chosen codes and in others.
pub fn many_levels(n: usize, random: &mut Random) -> Vec<Vec<Level>> {
    let mut many = Vec::new();
    for times in lists(n, random) {
        let values = stored(&times);
        many.push(parts_of_values(&values, chosen));
        many.push(parts_of_values(&values, any_code(random)));
    }
    many
}

/// As many, in chunked codes.
pub fn chunked_levels(n: usize, random: &mut Random) -> Vec<Vec<Level>> {
    let lists = [lists(n, random), lists(n, random)].concat();
    let levels = |times: &Vec<u32>| parts_of_values(&stored(times), |_, _| 65 + random.below(8) as u8);
    lists.iter().map(levels).collect()
}

/// Strips of a few dozen bytes in codes of all sorts.
pub fn small_strips(random: &mut Random) -> Vec<Vec<u8>> {
    let mut strips = vec![A.to_vec(), B.to_vec()];
    for n in [2, 3, 4, 7, 8, 12] {
        let low = rising(n, || random.of_width(4));
        let chunked = |level, _: &[u32]| 65 + (n + level) as u8 % 8;
        strips.push(strip_of_values(&stored(&low), chunked));
        strips.push(strip_of_values(&stored(&mirrored(&low)), chosen));
    }
    strips
}

// ---- Bytes that need not be a strip ----

/// The pin count that the bytes tell, or 0 where they are cut before it.
pub fn pins(strip: &[u8]) -> usize {
    match strip {
        [_, _, _, _, _, high, low, ..] => 256 * usize::from(*high) + usize::from(*low),
        _ => 0,
    }
}

/// Whether all codes of a strip are fixed, so that the reference reads a long one in good time.
pub fn is_fixed(strip: &[u8]) -> bool {
    let codes = strip.iter().skip(7).step_by(5);
    codes.take(height(pins(strip))).all(|&code| code <= 32)
}

// ---- Refusals at one node ----

/// The list's strip in any codes, but node v has these chunks, of b bits.
pub fn with_chunks(times: &[u32], v: usize, chain: Vec<u32>, b: u32, random: &mut Random) -> Vec<u8> {
    let (n, values, level) = (times.len(), stored(times), height(v));
    let mut levels = parts_of_values(&values, any_code(random));
    let mut chains = chains(values_of_level(&values, level), b);
    chains[v - nodes_of_level(n, level).start()] = chain;
    levels[level - 1] = (64 + b as u8, part_of_chunks(&chains, b));
    image(n, &levels)
}

/// The list's strip in any codes, but node v stores this value.
pub fn with_value(times: &[u32], v: usize, value: u32, random: &mut Random) -> Vec<u8> {
    let mut values = stored(times);
    values[v - 1] = value;
    strip_of_values(&values, any_code(random))
}

/// The most that node v can store. One more is refused there with 10, or is no value.
pub fn most_stored(times: &[u32], v: usize) -> u32 {
    let parent = |v: usize| times[rank(times.len(), v / 2).expect("a node")];
    match v {
        1 => u32::MAX,
        _ if is_left(v) => parent(v),
        _ => u32::MAX - parent(v),
    }
}

/// Strips of the list that are refused at node v and nowhere above it, and the number: with 9, and with 10 where a time
/// there can pass the ends.
pub fn refused_at(times: &[u32], v: usize, random: &mut Random) -> Vec<(Vec<u8>, usize)> {
    let number = (1 << 32) << random.below(9);
    let b = 1 + random.of_width(3);
    let chain = [chunks(number, b), vec![0; random.below(3)]].concat();
    let mut strips = vec![(with_chunks(times, v, chain, b, random), 9)];
    if let Some(more) = most_stored(times, v).checked_add(1) {
        strips.push((with_value(times, v, more, random), 10));
    }
    strips
}

/// The levels of the longest list of zeros, in width 1.
pub fn zeros() -> Vec<Level> {
    parts_of_values(&[0; PINS], |_, _| 1)
}

// ---- Changes ----

/// Puts another length into a level's entry.
pub fn set_length(strip: &mut [u8], level: usize, length: u32) {
    let place = 7 + 5 * (level - 1) + 1;
    strip[place..place + 4].copy_from_slice(&length.to_be_bytes());
}

/// Changes up to three bytes from this place on.
pub fn change_bytes(strip: &mut [u8], from: usize, random: &mut Random) {
    for _ in 0..=random.below(3) {
        let place = from + random.below(strip.len() - from);
        strip[place] = random.draw() as u8;
    }
}
