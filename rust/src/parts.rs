//! Codes and parts for the tests.

use crate::random::Random;
use crate::reference::choose;

/// The code that pack chooses.
pub fn chosen(_: usize, values: &[u32]) -> u8 {
    choose(values).0
}

/// The least width that holds the values.
pub fn least_width(values: &[u32]) -> u8 {
    let greatest = values.iter().max().copied().unwrap_or(0);
    (32 - greatest.leading_zeros()) as u8
}

/// Names a random one of the codes that hold the values; in half of the strips always a chunked one.
pub fn any_code(random: &mut Random) -> impl FnMut(usize, &[u32]) -> u8 + '_ {
    let chunked = random.below(2) == 0;
    move |_, values| {
        let least = if chunked { 33 } else { least_width(values) };
        let codes: Vec<u8> = (least..=32).chain(65..=72).collect();
        codes[random.below(codes.len())]
    }
}

/// A part with these chunks for each value, least significant first, whether or not an encoder would write them.
pub fn part_of_chunks(values: &[Vec<u32>], b: u32) -> Vec<u8> {
    let mut bits = Vec::new();
    for layer in 0.. {
        let here: Vec<&Vec<u32>> = values.iter().filter(|v| v.len() > layer).collect();
        if here.is_empty() {
            break;
        }
        bits.extend(here.iter().map(|v| u8::from(v.len() > layer + 1)));
        for chunks in here {
            bits.extend((0..b).rev().map(|place| (chunks[layer] >> place & 1) as u8));
        }
    }
    bits.chunks(8)
        .map(|byte| {
            let filled = byte.iter().fold(0, |sum, bit| sum << 1 | bit);
            filled << (8 - byte.len())
        })
        .collect()
}

/// The chunks of a number that may pass 2^32.
pub fn chunks(number: u64, b: u32) -> Vec<u32> {
    let mut chunks = vec![(number % (1 << b)) as u32];
    let mut rest = number >> b;
    while rest > 0 {
        chunks.push((rest % (1 << b)) as u32);
        rest >>= b;
    }
    chunks
}

/// The chunks of each value.
pub fn chains(values: &[u32], b: u32) -> Vec<Vec<u32>> {
    values.iter().map(|&v| chunks(v.into(), b)).collect()
}

/// The chunks of some nodes' values, with chunks of zeros on top of some.
pub fn with_zeros(values: &[u32], b: u32, random: &mut Random) -> Vec<Vec<u32>> {
    let mut chains = chains(values, b);
    for chain in &mut chains {
        let zeros = [0, 0, 1, 33, random.below(100)][random.below(5)];
        chain.resize(chain.len() + zeros, 0);
    }
    chains
}

/// Makes this bit of the number 1.
pub fn set_bit(chunks: &mut Vec<u32>, place: usize, b: u32) {
    let b = b as usize;
    chunks.resize(chunks.len().max(place / b + 1), 0);
    chunks[place / b] |= 1 << (place % b);
}
