//! Levels in fixed widths. Eight values of w bits fill w bytes, so that with the width known to the compiler every
//! shift in a group of eight is a constant.

use super::bits::bits_before;
use super::header::Level;

/// The function for each width.
macro_rules! by_width {
    ($function:ident) => {
        by_width!($function: 0 1 2 3 4 5 6 7 8 9 10 11 12 13 14 15 16 17 18 19 20 21 22 23 24 25
            26 27 28 29 30 31 32)
    };
    ($function:ident: $($width:literal)*) => { [$($function::<$width>),*] };
}

type Encoder = fn(&[u32], &mut [u8]);
type Decoder = fn(&[u8], usize, &mut [u32]);

const ENCODERS: [Encoder; 33] = by_width!(encode_width);
const DECODERS: [Decoder; 33] = by_width!(decode_width);

/// Writes the part of these values, which is all of `out`.
pub fn encode(values: &[u32], width: u8, out: &mut [u8]) {
    ENCODERS[usize::from(width)](values, out);
}

/// The level's values, and the bits that they take. Opening has found these in the part.
pub fn decode(strip: &[u8], level: Level, values: &mut [u32]) -> usize {
    DECODERS[usize::from(level.code)](strip, level.from, values);
    values.len() * usize::from(level.code)
}

/// The value at this index.
#[inline(always)]
pub fn fetch(strip: &[u8], level: Level, index: usize) -> u32 {
    let width = usize::from(level.code);
    value_before(strip, 8 * level.from + (index + 1) * width, width)
}

#[inline(always)]
fn value_before(strip: &[u8], bit: usize, width: usize) -> u32 {
    (bits_before(strip, bit) & ((1 << width) - 1)) as u32
}

fn encode_width<const W: usize>(values: &[u32], out: &mut [u8]) {
    if W == 0 {
        return;
    }
    let groups = values.chunks_exact(8);
    let mut last = [0; 8];
    last[..groups.remainder().len()].copy_from_slice(groups.remainder());
    let (places, end) = out.split_at_mut(groups.len() * W);
    for (group, place) in groups.zip(places.chunks_exact_mut(W)) {
        let group = group.try_into().expect("eight values");
        place.copy_from_slice(&group_bytes::<W>(group)[..W]);
    }
    end.copy_from_slice(&group_bytes::<W>(&last)[..end.len()]);
}

/// The bytes of eight values, the first W of these.
#[inline(always)]
fn group_bytes<const W: usize>(group: &[u32; 8]) -> [u8; 32] {
    let mut words = [0; 5];
    for (k, &value) in group.iter().enumerate() {
        let (word, place) = (k * W / 64, k * W % 64);
        let value = u64::from(value) << (64 - W);
        words[word] |= value >> place;
        if place + W > 64 {
            words[word + 1] |= value << (64 - place);
        }
    }
    let mut bytes = [0; 32];
    for (bytes, word) in bytes.chunks_exact_mut(8).zip(words) {
        bytes.copy_from_slice(&word.to_be_bytes());
    }
    bytes
}

fn decode_width<const W: usize>(strip: &[u8], from: usize, values: &mut [u32]) {
    let mut at = from;
    let mut groups = values.chunks_exact_mut(8);
    for group in groups.by_ref() {
        // Words end with what is read from them, so the first begin before the group.
        let window = &strip[at - 8..at + W];
        for (k, value) in group.iter_mut().enumerate() {
            *value = value_of_group::<W>(window, k);
        }
        at += W;
    }
    for (k, value) in groups.into_remainder().iter_mut().enumerate() {
        *value = value_before(strip, 8 * at + (k + 1) * W, W);
    }
}

/// Value k of the group that follows the window's first eight bytes.
#[inline(always)]
fn value_of_group<const W: usize>(window: &[u8], k: usize) -> u32 {
    // As many as lie in one word, also where its last bits are not theirs.
    let together = match W {
        0..=8 => 8,
        9..=16 => 4,
        31 => 1,
        _ => 2,
    };
    let end = (k / together + 1) * together * W;
    let bytes = window[end.div_ceil(8)..][..8].try_into();
    let word = u64::from_be_bytes(bytes.expect("eight bytes"));
    let after = 8 * end.div_ceil(8) - (k + 1) * W;
    (word >> after & ((1 << W) - 1)) as u32
}
