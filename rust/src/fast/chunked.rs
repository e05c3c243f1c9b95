//! Levels in chunks, a whole layer at a time.

use std::ops::BitOr;

use super::bits::{bits_before, ones, Writer};
use super::header::Level;

/// The function for each number of bits in a chunk.
macro_rules! by_chunk {
    ($function:ident) => { by_chunk!($function: 1 2 3 4 5 6 7 8) };
    ($function:ident: $($b:literal)*) => { [$($function::<$b>),*] };
}

type Encoder = fn(&mut [u32], &mut [u32], Writer);
type Decoder = fn(&[u8], Level, &mut [u32]) -> Option<usize>;

const ENCODERS: [Encoder; 8] = by_chunk!(encode_chunks);
const DECODERS: [Decoder; 8] = by_chunk!(decode_chunks);

/// A layer's first bit in the strip, and how many values reach the layer.
#[derive(Clone, Copy, Default)]
struct Layer {
    start: usize,
    count: usize,
}

impl Layer {
    /// The first bit after the layer.
    #[inline(always)]
    fn end(self, b: usize) -> usize {
        self.start + self.count * (b + 1)
    }

    /// The bit after the chunk at this index.
    #[inline(always)]
    fn chunk_end(self, index: usize, b: usize) -> usize {
        self.start + self.count + (index + 1) * b
    }

    /// 1 where another chunk follows the one at this index, else 0.
    #[inline(always)]
    fn continues(self, strip: &[u8], index: usize) -> usize {
        (bits_before(strip, self.start + index + 1) & 1) as usize
    }

    fn ones(self, strip: &[u8], from: usize, to: usize) -> usize {
        ones(strip, self.start + from, self.start + to)
    }
}

// ---- One value ----

/// The value at this index of the `count` in the level, or none where the fetch is refused.
pub fn fetch(strip: &[u8], level: Level, count: usize, mut index: usize) -> Option<u32> {
    let b = level.chunk_bits();
    let mut layer = Layer { start: 8 * level.from, count };
    let (mut value, mut shift) = (0, 0);
    loop {
        let end = layer.end(b);
        if end > 8 * level.to {
            return None;
        }
        let chunk = bits_before(strip, layer.chunk_end(index, b)) & ((1 << b) - 1);
        value |= chunk << shift;
        if value >> 32 != 0 {
            return None;
        }
        // From bit 32 on only zeros pass, so the shift need not grow further.
        shift = (shift + b).min(32);
        if layer.continues(strip, index) == 0 {
            return Some(value as u32);
        }
        let before = layer.ones(strip, 0, index);
        let after = layer.ones(strip, index + 1, layer.count);
        index = before;
        layer = Layer { start: end, count: before + 1 + after };
    }
}

// ---- All values ----

/// The level's values, and the bits that they take. None where one passes the part or 32 bits, or has more chunks than
/// any value needs.
pub fn decode(strip: &[u8], level: Level, values: &mut [u32]) -> Option<usize> {
    DECODERS[level.chunk_bits() - 1](strip, level, values)
}

fn decode_chunks<const B: usize>(strip: &[u8], level: Level, values: &mut [u32]) -> Option<usize> {
    let mut layers = [Layer::default(); 32];
    let mut layer = Layer { start: 8 * level.from, count: values.len() };
    let mut number = 0;
    while layer.count > 0 {
        if layer.end(B) > 8 * level.to || number == 32usize.div_ceil(B) {
            return None;
        }
        layers[number] = layer;
        number += 1;
        layer = Layer { start: layer.end(B), count: layer.ones(strip, 0, layer.count) };
    }
    // From the last layer up, what stands at the front of `values` spreads to those it belongs to.
    let mut above = 0;
    for (depth, &layer) in layers[..number].iter().enumerate().rev() {
        let all = &mut values[..layer.count];
        match above {
            0 => {
                read_chunks::<B>(strip, layer, all);
                let most = u32::MAX >> (depth * B);
                if all.iter().any(|&chunk| chunk > most) {
                    return None;
                }
            }
            _ => spread::<B>(strip, layer, above, all),
        }
        above = layer.count;
    }
    Some(layer.start - 8 * level.from)
}

/// The chunks from index to index + 7, the last one lowest.
#[inline(always)]
fn eight_chunks<const B: usize>(strip: &[u8], layer: Layer, index: usize) -> u64 {
    let low = bits_before(strip, layer.chunk_end(index + 7, B));
    if B < 8 {
        return low;
    }
    // Eight bytes may lie in nine.
    let high = bits_before(strip, layer.chunk_end(index + 3, B));
    high << 32 | low & 0xFFFF_FFFF
}

#[inline(always)]
fn one_chunk<const B: usize>(strip: &[u8], layer: Layer, index: usize) -> u32 {
    bits_before(strip, layer.chunk_end(index, B)) as u32 & ((1 << B) - 1)
}

/// Two values as one number, the first in its lower half.
#[inline(always)]
fn pair(values: &[u32]) -> u64 {
    u64::from(values[0]) | u64::from(values[1]) << 32
}

#[inline(always)]
fn set_pair(values: &mut [u32], pair: u64) {
    (values[0], values[1]) = (pair as u32, (pair >> 32) as u32);
}

/// The chunks k and k + 1 of eight as a pair.
#[inline(always)]
fn chunk_pair<const B: usize>(eight: u64, k: usize) -> u64 {
    let mask = (1 << B) - 1;
    // Without its upper half, so that nothing gets into the second chunk's place.
    let last = u64::from((eight >> ((6 - k) * B)) as u32);
    (last << 32 | last >> B) & (mask << 32 | mask)
}

/// Reads a layer after which no chunk follows.
fn read_chunks<const B: usize>(strip: &[u8], layer: Layer, values: &mut [u32]) {
    let mut index = 0;
    let mut groups = values.chunks_exact_mut(8);
    for group in groups.by_ref() {
        let eight = eight_chunks::<B>(strip, layer, index);
        for (k, values) in group.chunks_exact_mut(2).enumerate() {
            set_pair(values, chunk_pair::<B>(eight, 2 * k));
        }
        index += 8;
    }
    for value in groups.into_remainder() {
        *value = one_chunk::<B>(strip, layer, index);
        index += 1;
    }
}

/// Values whose continuation bits are looked at together.
const BLOCK: usize = 32;

/// Up to so many rests of a block are put in place one by one.
const FEW: u32 = 8;

/// Puts each chunk of the layer below what follows it, if anything does. These `kept` rests stand at the front, so that
/// going down from the end nothing is overwritten unread. They have room for another chunk.
fn spread<const B: usize>(strip: &[u8], layer: Layer, mut kept: usize, values: &mut [u32]) {
    let whole = layer.count - layer.count % BLOCK;
    for index in (whole..layer.count).rev() {
        let continues = layer.continues(strip, index);
        kept -= continues;
        let rest = values[kept] & (continues as u32).wrapping_neg();
        values[index] = rest << B | one_chunk::<B>(strip, layer, index);
    }
    for index in (0..whole).step_by(BLOCK).rev() {
        let continues = bits_before(strip, layer.start + index + BLOCK) as u32;
        if continues.count_ones() <= FEW && kept <= index {
            kept = spread_few::<B>(strip, layer, index, continues, kept, values);
            continue;
        }
        for (eighth, continues) in continues.to_le_bytes().into_iter().enumerate() {
            let index = index + BLOCK - 8 - 8 * eighth;
            kept = match continues {
                u8::MAX => spread_eight::<B>(strip, layer, index, kept, values),
                _ => spread_some::<B>(strip, layer, index, continues, kept, values),
            };
        }
    }
}

/// Spreads into a block after all rests. Gives how many of these are left, as the next two do.
#[inline(always)]
fn spread_few<const B: usize>(
    strip: &[u8],
    layer: Layer,
    index: usize,
    mut continues: u32,
    mut kept: usize,
    values: &mut [u32],
) -> usize {
    let (rests, block) = values.split_at_mut(index);
    let block = &mut block[..BLOCK];
    for (eighth, group) in block.chunks_exact_mut(8).enumerate() {
        let eight = eight_chunks::<B>(strip, layer, index + 8 * eighth);
        for (k, values) in group.chunks_exact_mut(2).enumerate() {
            set_pair(values, chunk_pair::<B>(eight, 2 * k));
        }
    }
    while continues != 0 {
        kept -= 1;
        block[BLOCK - 1 - continues.trailing_zeros() as usize] |= rests[kept] << B;
        continues &= continues - 1;
    }
    kept
}

/// Spreads eight rests into eight values.
#[inline(always)]
fn spread_eight<const B: usize>(strip: &[u8], layer: Layer, index: usize, kept: usize, values: &mut [u32]) -> usize {
    let left = kept - 8;
    let rests: [u32; 8] = values[left..kept].try_into().expect("eight rests");
    let eight = eight_chunks::<B>(strip, layer, index);
    let group = values[index..index + 8].chunks_exact_mut(2);
    for (k, (values, rests)) in group.zip(rests.chunks_exact(2)).enumerate() {
        set_pair(values, pair(rests) << B | chunk_pair::<B>(eight, 2 * k));
    }
    left
}

/// For two continuation bits, how many rests they take, and what to multiply a pair of rests by and to keep of it:
/// none, the first one for the second value, the first one for the first, both.
const TAKEN: [usize; 4] = [0, 1, 1, 2];
const FACTORS: [u64; 4] = [0, 1 << 32, 1, 1];
const KEPT: [u64; 4] = [0, u64::MAX, u32::MAX as u64, u64::MAX];

/// Spreads into eight values, without a branch, since none would foretell which have rests.
#[inline(always)]
fn spread_some<const B: usize>(
    strip: &[u8],
    layer: Layer,
    index: usize,
    continues: u8,
    mut kept: usize,
    values: &mut [u32],
) -> usize {
    let eight = eight_chunks::<B>(strip, layer, index);
    for k in [6, 4, 2, 0] {
        let two = usize::from(continues >> (6 - k) & 3);
        kept -= TAKEN[two];
        let rests = pair(&values[kept..kept + 2]).wrapping_mul(FACTORS[two] << B) & KEPT[two];
        let both = rests | chunk_pair::<B>(eight, k);
        set_pair(&mut values[index + k..index + k + 2], both);
    }
    kept
}

/// Writes the part of these values, which is all of `out`. Leaves others in their place and in `free`, which has as
/// many entries at least.
pub fn encode(values: &mut [u32], free: &mut [u32], b: usize, out: &mut [u8]) {
    ENCODERS[b - 1](values, free, Writer::new(out));
}

fn encode_chunks<const B: usize>(values: &mut [u32], free: &mut [u32], mut writer: Writer) {
    let (mut values, mut rests) = (values, free);
    let mut count = values.len();
    while count > 0 {
        let layer = &values[..count];
        count = write_continuation::<B>(layer, rests, &mut writer);
        write_chunks::<B>(layer, &mut writer);
        std::mem::swap(&mut values, &mut rests);
    }
    writer.finish();
}

/// Values whose continuation bits make a word.
const WORD: usize = 64;

/// Writes the layer's continuation bits, puts what is left of the values that go on into `rests` and gives how many
/// these are.
fn write_continuation<const B: usize>(values: &[u32], rests: &mut [u32], writer: &mut Writer) -> usize {
    let mut kept = 0;
    let blocks = values.chunks_exact(WORD);
    let last = blocks.remainder();
    for block in blocks {
        let bits = continuation_bits::<B>(block);
        writer.push(bits.reverse_bits(), WORD as u32);
        let rests = &mut rests[kept..kept + WORD];
        keep_rests::<B>(block, bits, rests.try_into().expect("a block"));
        kept += bits.count_ones() as usize;
    }
    for value in last {
        writer.push(u64::from(value >> B != 0), 1);
        rests[kept] = value >> B;
        kept += usize::from(value >> B != 0);
    }
    kept
}

/// The continuation bits of a block, the first one lowest: the order in which compilers gather the results of many
/// comparisons.
#[inline(always)]
fn continuation_bits<const B: usize>(block: &[u32]) -> u64 {
    let bit = |(k, &value): (usize, &u32)| u16::from(value >= 1 << B) << k;
    let sixteen = |group: &[u32]| group.iter().enumerate().map(bit).fold(0, BitOr::bitor);
    let groups = block.chunks_exact(16).map(sixteen);
    groups.rev().fold(0, |bits, group| bits << 16 | u64::from(group))
}

/// Puts what is left of the values that go on, which the bits tell, to the front of `rests`.
#[inline(always)]
fn keep_rests<const B: usize>(block: &[u32], mut bits: u64, rests: &mut [u32; WORD]) {
    let count = bits.count_ones() as usize;
    if count <= WORD / 4 {
        for rest in &mut rests[..count] {
            *rest = block[bits.trailing_zeros() as usize] >> B;
            bits &= bits - 1;
        }
    } else if count == WORD {
        for (rest, value) in rests.iter_mut().zip(block) {
            *rest = value >> B;
        }
    } else {
        // Each is put down, but stays only where there is a rest.
        let mut kept = 0;
        for value in block {
            rests[kept % WORD] = value >> B;
            kept += usize::from(value >> B != 0);
        }
    }
}

fn write_chunks<const B: usize>(values: &[u32], writer: &mut Writer) {
    let chunk = |value: u32| u64::from(value) & ((1 << B) - 1);
    let groups = values.chunks_exact(8);
    let last = groups.remainder();
    for group in groups {
        // Two by two, so that not every chunk waits for the one before it.
        let two = |k: usize| chunk(group[k]) << B | chunk(group[k + 1]);
        let four = |k: usize| two(k) << (2 * B) | two(k + 2);
        writer.push(four(0) << (4 * B) | four(4), 8 * B as u32);
    }
    for &value in last {
        writer.push(chunk(value), B as u32);
    }
}
