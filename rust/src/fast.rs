//! The strip as one would write it in Rust for speed: whole words, constant shifts, every level in one pass. It is there
//! for the benchmark, so that what is amiss with a strip's nodes is noticed, but not told where they are read in one pass.
//!
//! The public functions are never inlined, since calls into the proved library are not.

mod bits;
mod chunked;
mod codes;
mod costs;
mod fixed;
mod header;
mod list;
mod shape;
mod sweep;
mod tree;

use header::{open, Level};
use list::{read, split};
use shape::{Shape, HEIGHT};

use crate::reference::strip::{Refusal, PINS};

/// Stands for whatever is amiss with a strip's nodes.
const AMISS: Refusal = Refusal { number: 12, carried: 0 };

#[inline(always)]
fn refusal(number: usize, carried: usize) -> Refusal {
    Refusal { number, carried }
}

/// The first index with a lower number than the one before, if these fall.
fn first_lower(numbers: &[u32]) -> Option<usize> {
    if numbers.is_sorted() {
        return None;
    }
    let before = numbers.windows(2).position(|pair| pair[1] < pair[0]);
    before.map(|before| before + 1)
}

/// Writes the list's strip at the front of `out` and gives its length in bytes.
#[inline(never)]
pub fn pack(times: &[u32], out: &mut [u8]) -> Result<usize, Refusal> {
    if times.is_empty() {
        return Err(refusal(1, 0));
    }
    if times.len() > PINS {
        return Err(refusal(2, 0));
    }
    if let Some(lower) = first_lower(times) {
        return Err(refusal(3, lower));
    }
    let shape = Shape::new(times.len());
    let mut memory = stored(shape, times);
    let (values, free) = memory.split_at_mut(shape.pins);
    let mut levels = [Level::default(); HEIGHT];
    let mut to = header::length(shape);
    for (depth, level) in levels[..shape.height].iter_mut().enumerate() {
        let (code, bits) = codes::choose(&values[nodes_at(shape, depth)]);
        let from = to;
        to += bits.div_ceil(8);
        *level = Level { code, from, to };
    }
    let Some(out) = out.get_mut(..to) else {
        return Err(refusal(4, to));
    };
    header::write(shape, &levels, &mut out[..levels[0].from]);
    for (depth, level) in levels[..shape.height].iter().enumerate() {
        let values = &mut values[nodes_at(shape, depth)];
        codes::encode(values, free, level.code, &mut out[level.from..level.to]);
    }
    Ok(to)
}

/// The indices of the nodes at this depth, from 0 for the root.
fn nodes_at(shape: Shape, depth: usize) -> std::ops::Range<usize> {
    let first = (1 << depth) - 1;
    first..first + shape.count(depth)
}

/// What the nodes store, in node order. Others follow, as many as any level has nodes.
fn stored(shape: Shape, times: &[u32]) -> Vec<u32> {
    let lowest = 1 << (shape.height - 1);
    let mut memory = vec![0; shape.pins + lowest];
    let (values, list) = memory.split_at_mut(shape.pins);
    let list = &mut list[..lowest - 1];
    split(times, &mut values[nodes_at(shape, shape.height - 1)], list);
    // The list has lost the lower levels. What stands above a level is put where the values of the higher levels are to
    // go, and is then the next list.
    for depth in (0..shape.height - 1).rev() {
        let above = (1 << depth) - 1;
        let (higher, level) = values[..2 * above + 1].split_at_mut(above);
        split(&list[..2 * above + 1], level, higher);
        list[..above].copy_from_slice(higher);
    }
    memory
}

/// The pin count of a strip that some list packs to.
#[inline(never)]
pub fn check(strip: &[u8]) -> Result<usize, Refusal> {
    let header = open(strip)?;
    let mut memory = list::memory(header.shape, 0);
    read(strip, &header, true, &mut memory).map(|_| header.shape.pins).ok_or(AMISS)
}

/// Writes the list that packs to the strip at the front of `out` and gives the pin count.
#[inline(never)]
pub fn unpack(strip: &[u8], out: &mut [u32]) -> Result<usize, Refusal> {
    let header = open(strip)?;
    let (pins, mut memory) = (header.shape.pins, list::memory(header.shape, 0));
    let read = read(strip, &header, true, &mut memory).ok_or(AMISS)?;
    read.write(out.get_mut(..pins).ok_or(refusal(4, pins))?);
    Ok(pins)
}

/// The time at position i and the nodes opened.
#[inline(never)]
pub fn access(strip: &[u8], i: usize) -> Result<(u32, usize), Refusal> {
    let header = open(strip)?;
    if i >= header.shape.pins {
        return Err(refusal(14, 0));
    }
    tree::access(strip, &header, i)
}

/// The number of times below t where the strip is a list's, and the nodes opened.
#[inline(never)]
pub fn search(strip: &[u8], t: u32) -> Result<(usize, usize), Refusal> {
    let header = open(strip)?;
    tree::search(strip, &header, t)
}

/// Writes the number of times below each target where the strip is a list's, and gives the nodes opened.
#[inline(never)]
pub fn sweep(strip: &[u8], targets: &[u32], answers: &mut [u32]) -> Result<usize, Refusal> {
    let header = open(strip)?;
    if answers.len() != targets.len() {
        return Err(refusal(15, 0));
    }
    if let Some(lower) = first_lower(targets) {
        return Err(refusal(16, lower));
    }
    if sweep::reads_all(&header, targets.len()) {
        let shape = header.shape;
        let mut memory = list::memory(shape, shape.pins);
        if let Some(read) = read(strip, &header, false, &mut memory) {
            sweep::positions(read.times(), targets, answers);
            return Ok(sweep::nodes(shape, answers));
        }
    }
    tree::sweep(strip, &header, targets, answers)
}

/// A repeat check for gaps below 0, of which there are none. It reads all positions.
#[inline(never)]
pub fn repeat(strip: &[u8]) -> Result<(), Refusal> {
    let header = open(strip)?;
    let mut memory = list::memory(header.shape, 0);
    read(strip, &header, false, &mut memory).map(|_| ()).ok_or(AMISS)
}
