//! The scope's tree, node by node. Slow on purpose: each function follows the scope's sentences and nothing else.

use std::ops::RangeInclusive;

use super::strip::{refused, Refusal};
use super::{encode, fetch};

/// "The greatest height, 16".
pub const HEIGHT: usize = 16;

/// "The height h is the least number with 2^h - 1 >= n." The numbers are wide, so that no count makes them overflow.
pub fn height(n: usize) -> usize {
    let mut h = 0;
    while (1u128 << h) - 1 < n as u128 {
        h += 1;
    }
    h
}

/// "The root's place in a list of n, counted from 1: 1 for n = 1; otherwise n - 2^(h-2) + 1 when n < 3 * 2^(h-2), else
/// 2^(h-1)." An empty list has no root, which gives 0.
pub fn root_place(n: usize) -> usize {
    let h = height(n);
    match n {
        0 => 0,
        1 => 1,
        _ if (n as u128) < 3 << (h - 2) => n - (1 << (h - 2)) + 1,
        _ => 1 << (h - 1),
    }
}

/// "Node v has children 2v and 2v+1": whether v is its parent's left one.
pub fn is_left(v: usize) -> bool {
    v == 2 * (v / 2)
}

/// Where the list of node v's subtree lies in the whole list: its first position and its length. "What precedes it is
/// the left subtree's list, what follows the right one's."
pub fn stretch(n: usize, v: usize) -> (usize, usize) {
    if v == 1 {
        return (0, n);
    }
    let (first, length) = stretch(n, v / 2);
    let place = root_place(length);
    if is_left(v) {
        (first, place - 1)
    } else {
        (first + place, length - place)
    }
}

/// "A node's rank is its position in the whole list." None where v is no node.
pub fn rank(n: usize, v: usize) -> Option<usize> {
    if !(1..=n).contains(&v) {
        return None;
    }
    let (first, length) = stretch(n, v);
    Some(first + root_place(length) - 1)
}

/// The ranks of nodes 1..n, found in one pass.
pub fn ranks(n: usize) -> Vec<usize> {
    let mut ranks = vec![0; n];
    rank_subtree(&mut ranks, 1, 0, n);
    ranks
}

/// The ranks in the subtree of node v, whose list has this first position and length. "Each subtree's root is found the
/// same way on its shorter list."
fn rank_subtree(ranks: &mut [usize], v: usize, first: usize, length: usize) {
    if length == 0 {
        return;
    }
    let place = root_place(length);
    ranks[v - 1] = first + place - 1;
    rank_subtree(ranks, 2 * v, first, place - 1);
    rank_subtree(ranks, 2 * v + 1, first + place, length - place);
}

/// The node at position i of the list of node v's subtree, which has this length.
fn node_in_subtree(v: usize, length: usize, i: usize) -> usize {
    let place = root_place(length);
    if i + 1 < place {
        node_in_subtree(2 * v, place - 1, i)
    } else if i + 1 == place {
        v
    } else {
        node_in_subtree(2 * v + 1, length - place, i - place)
    }
}

/// The stored values in node order: "The root stores its time. A left child stores parent minus child, a right child
/// child minus parent." The times do not fall.
pub fn stored(times: &[u32]) -> Vec<u32> {
    let ranks = ranks(times.len());
    let time = |v: usize| times[ranks[v - 1]];
    let value = |v: usize| match v {
        1 => time(1),
        _ if is_left(v) => time(v / 2) - time(v),
        _ => time(v) - time(v / 2),
    };
    (1..=times.len()).map(value).collect()
}

/// A tree in bytes: its pin count, and each level's code and part.
pub struct Levels<'a> {
    pub pins: usize,
    pub parts: Vec<(u8, &'a [u8])>,
}

/// "Level L, from 1, holds nodes 2^(L-1) to min(n, 2^L - 1)."
pub fn nodes_of_level(n: usize, level: usize) -> RangeInclusive<usize> {
    1 << (level - 1)..=n.min((1 << level) - 1)
}

/// What the level's nodes store, out of what all nodes store.
pub fn values_of_level(values: &[u32], level: usize) -> &[u32] {
    let nodes = nodes_of_level(values.len(), level);
    &values[nodes.start() - 1..*nodes.end()]
}

/// Each level's code and part, for nodes that store these values, whether or not a list makes them. `code_for` is given
/// a level and its values and names a code that holds them.
pub fn parts_of_values(values: &[u32], mut code_for: impl FnMut(usize, &[u32]) -> u8) -> Vec<(u8, Vec<u8>)> {
    let part = |level| {
        let values = values_of_level(values, level);
        let code = code_for(level, values);
        let part = encode(values, code).expect("the code holds the values");
        (code, part)
    };
    (1..=height(values.len())).map(part).collect()
}

/// What node v stores. "A fetch is handed its level's part alone".
fn fetch_node(levels: &Levels, v: usize) -> Result<u32, Refusal> {
    let level = (1..).find(|&level| nodes_of_level(levels.pins, level).contains(&v)).expect("every node has a level");
    let nodes = nodes_of_level(levels.pins, level);
    let index = v - nodes.start();
    let (code, part) = levels.parts[level - 1];
    // 9: "fetch passes its part, or its value is 2^32 or more", in a chunked level.
    fetch(part, code, nodes.count(), index).map_or(refused(9, v), Ok)
}

/// The time of node v, and the nodes opened "from the root" to it.
fn open(levels: &Levels, v: usize) -> Result<(u32, usize), Refusal> {
    if v == 1 {
        // "The root stores its time."
        return Ok((fetch_node(levels, v)?, 1));
    }
    let (parent, nodes) = open(levels, v / 2)?;
    let value = fetch_node(levels, v)?;
    let time = if is_left(v) { i64::from(parent) - i64::from(value) } else { i64::from(parent) + i64::from(value) };
    // 10: "time below 0 or above 4,294,967,295".
    let time = u32::try_from(time).or(refused(10, v))?;
    Ok((time, nodes + 1))
}

/// "Fetches from the root to rank i. Gives time and nodes opened." The position is below the pin count.
pub fn access(levels: &Levels, i: usize) -> Result<(u32, usize), Refusal> {
    open(levels, node_in_subtree(1, levels.pins, i))
}

/// "From the root, left where the node's time >= t, else right, until no child. The position is the rank of the last
/// node left by its left side, or n. Gives position and nodes opened."
pub fn search(levels: &Levels, t: u32) -> Result<(usize, usize), Refusal> {
    let n = levels.pins;
    let (mut position, mut nodes) = (n, 0);
    let mut v = 1;
    while v <= n {
        // All nodes above v were opened before, so this is one more.
        let (time, _) = open(levels, v)?;
        nodes += 1;
        if time >= t {
            position = rank(n, v).expect("v is a node");
            v *= 2;
        } else {
            v = 2 * v + 1;
        }
    }
    Ok((position, nodes))
}

/// "The first target as search does, remembering the nodes left by their left side with their times. Each later target
/// drops remembered nodes from the deepest up while their time is below it. If any dropped, it goes on from the right
/// child of the last dropped. The position is the rank of the deepest remembered node, or n." Adds the positions to
/// `written`, and gives "the nodes opened in all".
pub fn sweep(levels: &Levels, targets: &[u32], written: &mut Vec<usize>) -> Result<usize, Refusal> {
    let n = levels.pins;
    // The deepest one last.
    let mut remembered: Vec<(usize, u32)> = Vec::new();
    let mut nodes = 0;
    for (index, &t) in targets.iter().enumerate() {
        let kept = remembered.iter().rposition(|&(_, time)| time >= t);
        // The last dropped is the first of these.
        let dropped = remembered.split_off(kept.map_or(0, |deepest| deepest + 1));
        // Where it begins or goes on, if it does.
        let mut next = match dropped.first() {
            Some(&(last, _)) => Some(2 * last + 1),
            None => (index == 0).then_some(1),
        };
        while let Some(v) = next.filter(|&v| v <= n) {
            let (time, _) = open(levels, v)?;
            nodes += 1;
            if time >= t {
                remembered.push((v, time));
                next = Some(2 * v);
            } else {
                next = Some(2 * v + 1);
            }
        }
        let position = |&(v, _): &(usize, u32)| rank(n, v).expect("v is a node");
        written.push(remembered.last().map_or(n, position));
    }
    Ok(nodes)
}
