//! Whole lists, level by level. What lies above a level is itself a list, and each of the level's nodes falls between
//! two neighbours of it: node j before entry j, at which it hangs where j is even, and after entry j - 1, at which it
//! hangs where j is odd.

use super::bits::padding;
use super::codes::{choose, decode};
use super::header::{Header, Level};
use super::shape::Shape;

/// What a strip's nodes tell where nothing is amiss with them.
pub struct Read<'a> {
    /// The times of all nodes above the lowest level, in order.
    above: &'a [u32],
    /// What the nodes of the lowest level store.
    stored: &'a [u32],
    /// Memory that is free again.
    rest: &'a mut [u32],
}

/// Memory for `read`, with so many entries at its end that are free afterwards. It is asked for in one piece, since
/// several that come and go together may cost new pages each time.
pub fn memory(shape: Shape, free: usize) -> Vec<u32> {
    let (above, next) = lengths_above(shape);
    vec![0; most_nodes(shape) + above + next.max(free)]
}

/// The nodes of the level that has most.
fn most_nodes(shape: Shape) -> usize {
    shape.lowest.max(1 << (shape.height - 1) >> 1)
}

/// The lengths of the lists above the lowest level and above the one before it.
fn lengths_above(shape: Shape) -> (usize, usize) {
    let nodes = 1 << (shape.height - 1);
    (nodes - 1, (nodes >> 1).saturating_sub(1))
}

/// Reads a strip whose times do not fall, if no node is refused. Where it must be an image, no other byte may differ
/// from it either.
pub fn read<'a>(strip: &[u8], header: &Header, image: bool, memory: &'a mut [u32]) -> Option<Read<'a>> {
    let shape = header.shape;
    let last = shape.height - 1;
    let (stored, memory) = memory.split_at_mut(most_nodes(shape));
    // The list above a level, and the next one. The one that is made last has the place for it.
    let (mut above, mut next) = memory.split_at_mut(lengths_above(shape).0);
    if last % 2 == 1 {
        std::mem::swap(&mut above, &mut next);
    }
    for depth in 0..=last {
        let (level, count) = (header.level(depth), shape.count(depth));
        let stored = &mut stored[..count];
        let bits = decode(strip, level, stored)?;
        if image && !is_image(strip, level, stored, bits) {
            return None;
        }
        if depth < last {
            let length = (1 << depth) - 1;
            merge(&above[..length], stored, &mut next[..length + count]);
            std::mem::swap(&mut above, &mut next);
        }
    }
    let stored = &stored[..shape.lowest];
    // A time that passes an end wraps to the wrong side of its parent, so this shows it too.
    let sound = above.is_sorted() && fits(above, stored);
    sound.then_some(Read { above, stored, rest: next })
}

/// Whether pack writes the level so. The values come from it and take so many bits of it.
fn is_image(strip: &[u8], level: Level, values: &[u32], bits: usize) -> bool {
    // No value has a chunk too many where all together have as few as can be.
    choose(values) == (level.code, bits)
        && level.to - level.from == bits.div_ceil(8)
        && strip[level.to - 1] & ((1 << padding(bits)) - 1) == 0
}

/// Puts a level's nodes, which store these values, between what is above them.
fn merge(above: &[u32], stored: &[u32], out: &mut [u32]) {
    if above.is_empty() {
        out.copy_from_slice(stored);
        return;
    }
    // Four nodes at a time, so that whole registers are filled.
    let fours = above.chunks_exact(4).zip(stored.chunks_exact(4));
    let done = 4 * fours.len();
    for (out, (above, stored)) in out.chunks_exact_mut(8).zip(fours) {
        out[0] = above[0].wrapping_sub(stored[0]);
        out[1] = above[0];
        out[2] = above[0].wrapping_add(stored[1]);
        out[3] = above[1];
        out[4] = above[2].wrapping_sub(stored[2]);
        out[5] = above[2];
        out[6] = above[2].wrapping_add(stored[3]);
        out[7] = above[3];
    }
    let (above, stored, out) = (&above[done..], &stored[done..], &mut out[2 * done..]);
    for (j, &stored) in stored.iter().enumerate() {
        out[2 * j] = match j % 2 {
            0 => above[j].wrapping_sub(stored),
            _ => above[j - 1].wrapping_add(stored),
        };
        if let Some(&time) = above.get(j) {
            out[2 * j + 1] = time;
        }
    }
    if let Some(after) = above.get(stored.len()..) {
        out[2 * stored.len()..].copy_from_slice(after);
    }
}

/// Whether the nodes of a level fall between their neighbours in the list above it.
fn fits(above: &[u32], stored: &[u32]) -> bool {
    let Some(&first) = above.first() else {
        return true;
    };
    let gaps = above.windows(2).map(|pair| pair[1].wrapping_sub(pair[0]));
    let past = |past, (&stored, gap)| past | (stored > gap);
    // After the last entry stands the greatest time.
    let end = match stored.get(above.len()) {
        Some(&stored) => stored <= u32::MAX - above[above.len() - 1],
        None => true,
    };
    end && stored[0] <= first && !stored[1..].iter().zip(gaps).fold(false, past)
}

impl<'a> Read<'a> {
    /// Writes the list, which takes all of `out`.
    pub fn write(&self, out: &mut [u32]) {
        merge(self.above, self.stored, out);
    }

    /// The list, in the memory that is free.
    pub fn times(self) -> &'a mut [u32] {
        let times = &mut self.rest[..self.above.len() + self.stored.len()];
        merge(self.above, self.stored, times);
        times
    }
}

/// What the nodes of the list's lowest level store, and the list above it. This is the inverse of `merge`.
pub fn split(list: &[u32], stored: &mut [u32], above: &mut [u32]) {
    if above.is_empty() {
        stored.copy_from_slice(list);
        return;
    }
    let fours = above.chunks_exact_mut(4).zip(stored.chunks_exact_mut(4));
    let done = 4 * fours.len();
    for (list, (above, stored)) in list.chunks_exact(8).zip(fours) {
        stored[0] = list[1] - list[0];
        stored[1] = list[2] - list[1];
        stored[2] = list[5] - list[4];
        stored[3] = list[6] - list[5];
        above[0] = list[1];
        above[1] = list[3];
        above[2] = list[5];
        above[3] = list[7];
    }
    let (list, stored, above) = (&list[2 * done..], &mut stored[done..], &mut above[done..]);
    for (j, stored) in stored.iter_mut().enumerate() {
        *stored = match j % 2 {
            0 => list[2 * j + 1] - list[2 * j],
            _ => list[2 * j] - list[2 * j - 1],
        };
        if let Some(time) = above.get_mut(j) {
            *time = list[2 * j + 1];
        }
    }
    if let Some(after) = above.get_mut(stored.len()..) {
        after.copy_from_slice(&list[2 * stored.len()..]);
    }
}
