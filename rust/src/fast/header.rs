//! What stands before a strip's parts.

use super::refusal;
use super::shape::{Shape, HEIGHT};
use crate::reference::strip::Refusal;

const MARK: &[u8] = b"PIN";
const VERSION: u16 = 1;

/// The bytes before the levels' entries, and those of one entry.
const FRONT: usize = 7;
const ENTRY: usize = 5;

/// A level's code, and its part's first byte and end in the strip.
#[derive(Clone, Copy, Default)]
pub struct Level {
    pub code: u8,
    pub from: usize,
    pub to: usize,
}

impl Level {
    /// A chunked code's b.
    #[inline(always)]
    pub fn chunk_bits(self) -> usize {
        usize::from(self.code) - 64
    }
}

/// A strip's levels, the root's first: their codes, and where each part begins and the last one ends. Entries past the
/// height mean nothing.
pub struct Header {
    pub shape: Shape,
    codes: [u8; HEIGHT],
    ends: [usize; HEIGHT + 1],
}

impl Header {
    #[inline(always)]
    pub fn level(&self, depth: usize) -> Level {
        Level { code: self.codes[depth], from: self.ends[depth], to: self.ends[depth + 1] }
    }
}

/// The header's length in bytes.
pub fn length(shape: Shape) -> usize {
    FRONT + ENTRY * shape.height
}

/// The strip's header, or what opening refuses.
#[inline]
pub fn open(strip: &[u8]) -> Result<Header, Refusal> {
    let Some(front) = strip.first_chunk::<FRONT>() else {
        return Err(refusal(5, 0));
    };
    if &front[..3] != MARK {
        return Err(refusal(6, 0));
    }
    if u16::from_be_bytes([front[3], front[4]]) != VERSION {
        return Err(refusal(7, 0));
    }
    let pins = usize::from(u16::from_be_bytes([front[5], front[6]]));
    if pins == 0 {
        return Err(refusal(1, 0));
    }
    let shape = Shape::new(pins);
    let Some(entries) = strip.get(FRONT..length(shape)) else {
        return Err(refusal(5, 0));
    };
    let (mut codes, mut ends) = ([0; HEIGHT], [0; HEIGHT + 1]);
    let mut end = length(shape);
    ends[0] = end;
    for (depth, entry) in entries.chunks_exact(ENTRY).enumerate() {
        let code = entry[0];
        if !matches!(code, 0..=32 | 65..=72) {
            return Err(refusal(8, depth + 1));
        }
        codes[depth] = code;
        let length = u32::from_be_bytes([entry[1], entry[2], entry[3], entry[4]]) as usize;
        if code <= 32 && length != (usize::from(code) * shape.count(depth)).div_ceil(8) {
            return Err(refusal(23, depth + 1));
        }
        // At most 16 lengths of 32 bits, so no overflow in 64.
        end += length;
        ends[depth + 1] = end;
    }
    if end != strip.len() {
        return Err(refusal(13, 0));
    }
    Ok(Header { shape, codes, ends })
}

/// Writes the header of these levels.
pub fn write(shape: Shape, levels: &[Level], out: &mut [u8]) {
    let (front, entries) = out.split_at_mut(FRONT);
    front[..3].copy_from_slice(MARK);
    front[3..5].copy_from_slice(&VERSION.to_be_bytes());
    front[5..].copy_from_slice(&(shape.pins as u16).to_be_bytes());
    for (entry, level) in entries.chunks_exact_mut(ENTRY).zip(levels) {
        entry[0] = level.code;
        entry[1..].copy_from_slice(&((level.to - level.from) as u32).to_be_bytes());
    }
}
