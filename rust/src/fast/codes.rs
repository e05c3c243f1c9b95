//! Level codes: the choice of one, and levels in any.

use super::header::Level;
use super::{chunked, fixed};

/// How many chunks a value has past its first one, by its highest one bit: for chunks of b bits in byte b - 1 from
/// below.
const MORE: [u64; 32] = {
    let mut more = [0; 32];
    let mut highest = 0;
    while highest < 32 {
        let mut b = 1;
        while b <= 8 {
            more[highest] |= (highest as u64 / b) << (8 * (b - 1));
            b += 1;
        }
        highest += 1;
    }
    more
};

/// Every other byte.
const BYTES: u64 = 0x00FF_00FF_00FF_00FF;

/// The code byte with the fewest bits, and these bits.
pub fn choose(values: &[u32]) -> (u8, usize) {
    let set = values.iter().fold(0, |set, value| set | value);
    let width = (32 - set.leading_zeros()) as usize;
    let mut best = (width as u8, width * values.len());
    // A chunk takes two bits at least.
    if width <= 2 {
        return best;
    }
    // Going up with strict comparisons, a fixed code wins a tie, then the smaller b.
    for (b, more) in (1..).zip(chunks_past_the_first(values)) {
        let size = (values.len() + more) * (b + 1);
        if size < best.1 {
            best = (64 + b as u8, size);
        }
    }
    best
}

/// For each b, the number of chunks that are not their value's first.
fn chunks_past_the_first(values: &[u32]) -> [usize; 8] {
    let mut sums = [0; 8];
    // At most 31 for each value: eight of them fit in a byte, and 2,048 in two.
    for block in values.chunks(2048) {
        let (mut even, mut odd) = (0, 0);
        let mut add = |group: &[u32]| {
            let more = |&value: &u32| MORE[(value | 1).ilog2() as usize];
            let sum: u64 = group.iter().map(more).sum();
            even += sum & BYTES;
            odd += sum >> 8 & BYTES;
        };
        let groups = block.chunks_exact(8);
        let last = groups.remainder();
        groups.for_each(&mut add);
        add(last);
        for (pair, sums) in sums.chunks_exact_mut(2).enumerate() {
            sums[0] += usize::from((even >> (16 * pair)) as u16);
            sums[1] += usize::from((odd >> (16 * pair)) as u16);
        }
    }
    sums
}

/// Writes the part of these values, which is all of `out`. May leave others in their place and in `free`, which has as
/// many entries at least.
pub fn encode(values: &mut [u32], free: &mut [u32], code: u8, out: &mut [u8]) {
    match code {
        0..=32 => fixed::encode(values, code, out),
        _ => chunked::encode(values, free, usize::from(code - 64), out),
    }
}

/// The level's values and the bits that they take. None where any fetch is refused, and where a value has more chunks
/// than any needs.
pub fn decode(strip: &[u8], level: Level, values: &mut [u32]) -> Option<usize> {
    match level.code {
        0..=32 => Some(fixed::decode(strip, level, values)),
        _ => chunked::decode(strip, level, values),
    }
}

/// The value at this index of the `count` in the level, or none where the fetch is refused.
#[inline(always)]
pub fn fetch(strip: &[u8], level: Level, count: usize, index: usize) -> Option<u32> {
    match level.code {
        0..=32 => Some(fixed::fetch(strip, level, index)),
        _ => chunked::fetch(strip, level, count, index),
    }
}
