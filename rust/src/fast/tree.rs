//! Nodes opened one by one.

use super::codes::fetch;
use super::header::Header;
use super::refusal;
use super::shape::{depth, HEIGHT};
use crate::reference::strip::Refusal;

/// The time of node v, at this depth, under a parent of this time, which for the root is 0.
#[inline(always)]
fn open(strip: &[u8], header: &Header, v: usize, depth: usize, parent: u32) -> Result<u32, Refusal> {
    let count = header.shape.count(depth);
    let value = fetch(strip, header.level(depth), count, v - (1 << depth));
    let Some(value) = value else {
        return Err(refusal(9, v));
    };
    // The sign goes by arithmetic, since no branch would foretell it: all ones for a left child.
    let sign = (v % 2) as i64 - 1;
    let time = i64::from(parent) + ((i64::from(value) ^ sign) - sign);
    u32::try_from(time).map_err(|_| refusal(10, v))
}

/// The time at position i, which is below the pin count, and the nodes opened.
pub fn access(strip: &[u8], header: &Header, i: usize) -> Result<(u32, usize), Refusal> {
    let v = header.shape.node(i);
    let (last, mut time) = (depth(v), 0);
    for depth in 0..=last {
        time = open(strip, header, v >> (last - depth), depth, time)?;
    }
    Ok((time, last + 1))
}

/// The position that a search for t gives, and the nodes opened.
pub fn search(strip: &[u8], header: &Header, t: u32) -> Result<(usize, usize), Refusal> {
    let shape = header.shape;
    let (mut v, mut time, mut nodes) = (1, 0, 0);
    // The last node left by its left side.
    let mut left = None;
    while v <= shape.pins {
        time = open(strip, header, v, nodes, time)?;
        nodes += 1;
        let right = time < t;
        left = if right { left } else { Some(v) };
        v = 2 * v + usize::from(right);
    }
    Ok((left.map_or(shape.pins, |v| shape.rank(v)), nodes))
}

/// Nodes left by their left side, with their times, the deepest last.
#[derive(Default)]
struct Lefts {
    nodes: [(usize, u32); HEIGHT],
    held: usize,
}

impl Lefts {
    #[inline(always)]
    fn push(&mut self, v: usize, time: u32) {
        self.nodes[self.held] = (v, time);
        self.held += 1;
    }

    #[inline(always)]
    fn last(&self) -> Option<(usize, u32)> {
        self.nodes[..self.held].last().copied()
    }

    #[inline(always)]
    fn drop_last(&mut self) {
        self.held -= 1;
    }
}

/// Writes each target's position and gives the nodes opened. There are as many answers as targets, and these do not
/// fall.
pub fn sweep(strip: &[u8], header: &Header, targets: &[u32], answers: &mut [u32]) -> Result<usize, Refusal> {
    let shape = header.shape;
    let mut lefts = Lefts::default();
    let (mut v, mut time, mut nodes) = (1, 0, 0);
    let mut position = shape.pins;
    for (&t, answer) in targets.iter().zip(answers) {
        // Where no node is dropped, the position stays.
        let mut goes_on = v == 1;
        while let Some((left, its_time)) = lefts.last().filter(|left| left.1 < t) {
            (v, time) = (2 * left + 1, its_time);
            lefts.drop_last();
            goes_on = true;
        }
        if goes_on {
            while v <= shape.pins {
                time = open(strip, header, v, depth(v), time)?;
                nodes += 1;
                if time < t {
                    v = 2 * v + 1;
                } else {
                    lefts.push(v, time);
                    v *= 2;
                }
            }
            let last = lefts.last();
            position = last.map_or(shape.pins, |(left, _)| shape.rank(left));
        }
        *answer = position as u32;
    }
    Ok(nodes)
}
