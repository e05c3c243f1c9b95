//! What calls take, in nanoseconds, roughly. This only decides between ways to the same answer.

use super::header::Header;

/// A node's fetch, in a level of so many.
fn fetch(nodes: usize, chunked: bool) -> usize {
    if chunked {
        // It counts a layer's bits, all of them in half of the cases.
        30 + nodes / 128
    } else {
        8
    }
}

/// The opening of as many nodes of each level as are there, but no more than so many.
pub fn of_opening(header: &Header, most: usize) -> usize {
    let level = |depth| {
        let nodes = header.shape.count(depth);
        nodes.min(most) * fetch(nodes, header.level(depth).code > 32)
    };
    (0..header.shape.height).map(level).sum()
}

/// The reading of all levels.
pub fn of_reading(header: &Header) -> usize {
    let level = |depth| {
        let chunked = header.level(depth).code > 32;
        header.shape.count(depth) * if chunked { 3 } else { 1 }
    };
    (0..header.shape.height).map(level).sum()
}
