//! The tree's shape in closed form. In the full tree of the same height, of which some of the lowest leaves may be
//! missing, the node with 2^k - 1 nodes in its left subtree and j nodes before it on its level has the position (2j +
//! 1) 2^k - 1.

use crate::reference::strip::PINS;

/// The greatest height.
pub const HEIGHT: usize = 16;

/// The tree of so many pins, of this height, with so many nodes on its lowest level.
#[derive(Clone, Copy)]
pub struct Shape {
    pub pins: usize,
    pub height: usize,
    pub lowest: usize,
}

impl Shape {
    /// For 1 pin or more.
    #[inline]
    pub fn new(pins: usize) -> Self {
        debug_assert!((1..=PINS).contains(&pins));
        let height = depth(pins) + 1;
        Shape { pins, height, lowest: pins + 1 - (1 << (height - 1)) }
    }

    /// The number of nodes at this depth, the root's being 0.
    #[inline(always)]
    pub fn count(self, depth: usize) -> usize {
        (1 << depth).min(self.pins + 1 - (1 << depth))
    }

    /// The position of node v.
    #[inline]
    pub fn rank(self, v: usize) -> usize {
        let depth = depth(v);
        let full = ((2 * (v - (1 << depth)) + 1) << (self.height - 1 - depth)) - 1;
        // Every other position is a lowest leaf's.
        full - full.div_ceil(2).saturating_sub(self.lowest)
    }

    /// The node at position i.
    #[inline]
    pub fn node(self, i: usize) -> usize {
        // One more than its position in the full tree.
        let place = 1 + i + (i + 1).saturating_sub(2 * self.lowest);
        let k = place.trailing_zeros() as usize;
        (1 << (self.height - 1 - k)) + (place >> (k + 1))
    }
}

/// The depth of node v.
#[inline(always)]
pub fn depth(v: usize) -> usize {
    v.ilog2() as usize
}
