//! What a strip must answer whose nodes have a list's times, told by the list alone.

use std::collections::BTreeSet;
use std::iter;

use crate::calls::{Given, Input, Outcome};
use crate::reference::strip::{refused, Refusal};
use crate::reference::tree::{height, ranks};

/// A list, and what check refuses its strip with: nothing, or other bytes than the list's image.
pub struct Plain<'a> {
    times: &'a [u32],
    image: &'a [u8],
    refused: Option<Refusal>,
    ranks: Vec<usize>,
    /// The nodes opened to reach each position.
    nodes: Vec<usize>,
}

impl<'a> Plain<'a> {
    /// Of a list that packs to this image.
    pub fn new(times: &'a [u32], image: &'a [u8], refused: Option<Refusal>) -> Self {
        let ranks = ranks(times.len());
        let mut nodes = vec![0; times.len()];
        for (v, &rank) in (1..).zip(&ranks) {
            // A tree of v nodes ends with the level that v is in.
            nodes[rank] = height(v);
        }
        Plain { times, image, refused, ranks, nodes }
    }

    /// "The path of a search on it begins at node 1, where there are nodes. From each node it goes to the left child
    /// when the plain list's time at that node's rank is at or above the target, else to the right child, and it ends
    /// where that child is not among the nodes."
    fn path(&self, t: u32) -> impl Iterator<Item = usize> + '_ {
        let among = |v| (v <= self.times.len()).then_some(v);
        iter::successors(among(1), move |&v| {
            let time = self.times[self.ranks[v - 1]];
            among(if time >= t { 2 * v } else { 2 * v + 1 })
        })
    }

    /// The number of times below t.
    fn below(&self, t: u32) -> usize {
        self.times.partition_point(|&time| time < t)
    }

    /// The time at position i and the nodes opened.
    fn found(&self, i: usize) -> Vec<usize> {
        vec![self.times[i] as usize, self.nodes[i]]
    }

    pub fn pack(&self, input: &Input) -> Outcome {
        let length = self.image.len();
        Outcome::of_bytes(input.room, |out| {
            let out = out.get_mut(..length);
            let out = out.map_or(refused(4, length), Ok)?;
            out.copy_from_slice(self.image);
            Ok(vec![length])
        })
    }

    fn checked(&self) -> Given {
        self.refused.map_or(Ok(vec![self.times.len()]), Err)
    }

    pub fn check(&self, _: &Input) -> Outcome {
        Outcome::of(self.checked())
    }

    pub fn unpack(&self, input: &Input) -> Outcome {
        let n = self.times.len();
        Outcome::of_words(input.room, |out| {
            let pins = self.checked()?;
            let out = out.get_mut(..n).map_or(refused(4, n), Ok)?;
            out.copy_from_slice(self.times);
            Ok(pins)
        })
    }

    pub fn access(&self, input: &Input) -> Outcome {
        Outcome::of(match input.number {
            i if i < self.times.len() => Ok(self.found(i)),
            _ => refused(14, 0),
        })
    }

    pub fn search(&self, input: &Input) -> Outcome {
        let t = input.number as u32;
        let nodes = self.path(t).count();
        assert!(nodes <= height(self.times.len()));
        Outcome::of(Ok(vec![self.below(t), nodes]))
    }

    /// The number of times up to t, and the nodes opened. "It gives n and 0 nodes for t = 4,294,967,295, otherwise
    /// search at t + 1 with its count."
    pub fn up_to(&self, input: &Input) -> Outcome {
        let t = input.number as u32;
        let strikes = self.times.partition_point(|&time| time <= t);
        let nodes = t.checked_add(1).map_or(0, |next| self.path(next).count());
        Outcome::of(Ok(vec![strikes, nodes]))
    }

    /// The number of times below each target, and of different nodes on the paths: "Two paths share a node where they
    /// have the same node number."
    pub fn sweep(&self, input: &Input) -> Outcome {
        let (n, targets) = (self.times.len(), &input.list);
        Outcome::of_words(input.room, |answers| {
            if answers.len() != targets.len() {
                return refused(15, 0);
            }
            if let Some(before) = targets.windows(2).position(|pair| pair[1] < pair[0]) {
                return refused(16, before + 1);
            }
            for (answer, &t) in answers.iter_mut().zip(targets) {
                *answer = self.below(t) as u32;
            }
            let nodes: BTreeSet<usize> = targets.iter().flat_map(|&t| self.path(t)).collect();
            assert!(nodes.len() <= n && nodes.len() <= targets.len() * height(n));
            Ok(vec![nodes.len()])
        })
    }

    /// "The first i >= 1 with time i minus time i-1 below r, or none."
    pub fn repeat(&self, input: &Input) -> Outcome {
        let near = |pair: &[u32]| ((pair[1] - pair[0]) as usize) < input.number;
        let before = self.times.windows(2).position(near);
        Outcome::of(Ok(before.map(|before| before + 1).into_iter().collect()))
    }

    pub fn step(&self, input: &Input) -> Outcome {
        let i = input.number;
        let (found, next) = match i < self.times.len() {
            true => (self.found(i), i + 1),
            false => (Vec::new(), i),
        };
        Outcome { given: Ok(found), memory: vec![next as u64] }
    }

    pub fn walk(&self, input: &Input) -> Outcome {
        let rest = input.number..self.times.len();
        let item = |i: usize| [self.times[i].into(), self.nodes[i] as u64];
        Outcome { given: Ok(Vec::new()), memory: rest.flat_map(item).collect() }
    }
}
