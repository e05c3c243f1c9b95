//! Bits read and written as whole words. A place is a bit's or a byte's number in the strip.

use std::slice::ChunksExact;

/// The eight bytes before this one, as a number. An open strip has more than eight before its first part, so that a
/// read up to a part's last byte never needs another case.
#[inline(always)]
pub fn word_before(strip: &[u8], byte: usize) -> u64 {
    let bytes = strip[byte - 8..byte].try_into().expect("eight bytes");
    u64::from_be_bytes(bytes)
}

/// The bits before this one, in the lowest places of the word. At least 57 of them are there.
#[inline(always)]
pub fn bits_before(strip: &[u8], bit: usize) -> u64 {
    word_before(strip, (bit + 7) >> 3) >> padding(bit)
}

/// How many bits are missing from this many to whole bytes.
#[inline(always)]
pub fn padding(bits: usize) -> usize {
    bits.wrapping_neg() % 8
}

// ---- Counting ----

/// How many of the bits [from, to), no more than a level has nodes, are 1.
#[inline]
pub fn ones(strip: &[u8], from: usize, to: usize) -> usize {
    if to - from <= 57 {
        let bits = bits_before(strip, to) & ((1 << (to - from)) - 1);
        return bits.count_ones() as usize;
    }
    let (first, end) = (from / 8, to.div_ceil(8));
    // The bits of the outer bytes that lie outside.
    let before = u32::from(strip[first]) >> (8 - from % 8);
    let after = u32::from(strip[end - 1]) & ((1 << padding(to)) - 1);
    ones_of_bytes(strip, first, end) - (before << 8 | after).count_ones() as usize
}

/// Words are counted side by side, so many of them in a row, which the compiler puts into wide registers.
const LANES: usize = 4;
const ROW: usize = 8 * LANES;
const BLOCK: usize = 8 * ROW;

type Lanes = [u64; LANES];

/// The ones of the bytes [first, end). The sums are kept for each byte of a row. None passes 255, since the bits of a
/// level's nodes fill 16 blocks, and less than another one.
fn ones_of_bytes(strip: &[u8], first: usize, end: usize) -> usize {
    let mut blocks = strip[first..end].chunks_exact(BLOCK);
    let (mut sums, mut eights) = ([0; LANES], [0; LANES]);
    if blocks.len() > 0 {
        (sums, eights) = sums_of_blocks(&mut blocks);
    }
    let mut rows = blocks.remainder().chunks_exact(ROW);
    for row in rows.by_ref() {
        for lane in 0..LANES {
            sums[lane] += ones_by_byte(word(&row[8 * lane..][..8]));
        }
    }
    let words = rows.remainder().chunks_exact(8);
    // Of the last word only the bytes that are left, in two shifts since none may be.
    let last = word_before(strip, end) << 1 << (63 - 8 * words.remainder().len());
    sums[LANES - 1] += ones_by_byte(last);
    for (bytes, sums) in words.zip(&mut sums) {
        *sums += ones_by_byte(word(bytes));
    }
    sum_of_bytes(sums) + 8 * sum_of_bytes(eights)
}

/// The ones of each byte in all blocks, and the eights that are to be added to them. The eight words of a lane are
/// added as numbers of one bit in each place, so that bits are only counted where a place has come to eight.
fn sums_of_blocks(blocks: &mut ChunksExact<u8>) -> (Lanes, Lanes) {
    let (mut ones, mut twos, mut fours) = ([0; LANES], [0; LANES], [0; LANES]);
    let mut eights = [0; LANES];
    for block in blocks {
        for lane in 0..LANES {
            let row = |row: usize| word(&block[ROW * row + 8 * lane..][..8]);
            let (one, two_a) = add(ones[lane], row(0), row(1));
            let (one, two_b) = add(one, row(2), row(3));
            let (one, two_c) = add(one, row(4), row(5));
            let (one, two_d) = add(one, row(6), row(7));
            let (two, four_a) = add(twos[lane], two_a, two_b);
            let (two, four_b) = add(two, two_c, two_d);
            let (four, eight) = add(fours[lane], four_a, four_b);
            (ones[lane], twos[lane], fours[lane]) = (one, two, four);
            eights[lane] += ones_by_byte(eight);
        }
    }
    let mut sums = [0; LANES];
    for lane in 0..LANES {
        sums[lane] = ones_by_byte(ones[lane]) + 2 * ones_by_byte(twos[lane]) + 4 * ones_by_byte(fours[lane]);
    }
    (sums, eights)
}

#[inline(always)]
fn sum_of_bytes(lanes: Lanes) -> usize {
    const EVEN: u64 = 0x00FF_00FF_00FF_00FF;
    let pairs = lanes.map(|word| (word & EVEN) + (word >> 8 & EVEN));
    let sum: u64 = pairs.iter().sum();
    // The highest of the four numbers becomes the sum of all.
    (sum.wrapping_mul(0x0001_0001_0001_0001) >> 48) as usize
}

/// The word in these eight bytes, in whatever order is at hand.
#[inline(always)]
fn word(bytes: &[u8]) -> u64 {
    u64::from_ne_bytes(bytes.try_into().expect("eight bytes"))
}

/// Adds three bits in each place: the sum's low bit and its carry.
#[inline(always)]
fn add(a: u64, b: u64, c: u64) -> (u64, u64) {
    (a ^ b ^ c, a & b | (a ^ b) & c)
}

/// In each byte the number of its ones.
#[inline(always)]
fn ones_by_byte(word: u64) -> u64 {
    let pairs = word - (word >> 1 & 0x5555_5555_5555_5555);
    let fours = (pairs & 0x3333_3333_3333_3333) + (pairs >> 2 & 0x3333_3333_3333_3333);
    (fours + (fours >> 4)) & 0x0F0F_0F0F_0F0F_0F0F
}

// ---- Writing ----

/// Writes numbers into bytes, highest bit first.
pub struct Writer<'a> {
    out: &'a mut [u8],
    /// Bytes written.
    at: usize,
    /// The highest `held` bits wait to be written, fewer than 64; the others are 0.
    waiting: u64,
    held: u32,
}

impl<'a> Writer<'a> {
    pub fn new(out: &'a mut [u8]) -> Self {
        Writer { out, at: 0, waiting: 0, held: 0 }
    }

    /// Adds a number below 2^width, the width 1 to 64.
    #[inline(always)]
    pub fn push(&mut self, number: u64, width: u32) {
        let free = 64 - self.held;
        if width < free {
            self.waiting |= number << (free - width);
            self.held += width;
        } else {
            let over = width - free;
            let word = self.waiting | number >> over;
            self.out[self.at..self.at + 8].copy_from_slice(&word.to_be_bytes());
            self.at += 8;
            // Two shifts, since nothing may be over.
            self.waiting = number << 1 << (63 - over);
            self.held = over;
        }
    }

    /// Pads with zero bits to whole bytes.
    pub fn finish(self) {
        let bytes = self.held.div_ceil(8) as usize;
        let word = self.waiting.to_be_bytes();
        self.out[self.at..self.at + bytes].copy_from_slice(&word[..bytes]);
    }
}
