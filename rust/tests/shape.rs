//! The shape of the tree: heights, root places and ranks, up to the greatest numbers.

use gemcotton_tests::lists::around_powers;
use gemcotton_tests::random::Random;
use gemcotton_tests::reference::strip::PINS;
use gemcotton_tests::reference::tree::{height, rank, ranks, root_place, HEIGHT};

#[test]
fn limits() {
    assert_eq!(gemcotton::MAX_PINS, PINS);
    assert_eq!(gemcotton::MAX_HEIGHT, HEIGHT);
    assert_eq!(gemcotton::MAX_BYTES, 7 + 5 * HEIGHT + 4 * PINS);
}

#[test]
fn heights_and_root_places() {
    for n in (0..=5000).chain(around_powers(usize::MAX)) {
        assert_eq!(gemcotton::height(n), height(n), "{n} pins");
        assert_eq!(gemcotton::root_place(n), root_place(n), "{n} pins");
    }
    // The marked case.
    let places = [1, 2, 3, 4, 5, 6].map(gemcotton::root_place);
    assert_eq!(places, [1, 2, 2, 3, 4, 4]);
}

/// Numbers of no node in a tree of n.
fn no_nodes(n: usize) -> Vec<usize> {
    let next = [1, 2].map(|more| n.saturating_add(more));
    let below = n.saturating_mul(2).saturating_add(1);
    let mut numbers = vec![0, next[0], next[1], below, usize::MAX];
    numbers.retain(|v| !(1..=n).contains(v));
    numbers
}

#[test]
fn ranks_of_all_nodes() {
    for n in (0..=2000).chain(around_powers(PINS + 4)) {
        for (v, rank) in (1..).zip(ranks(n)) {
            assert_eq!(gemcotton::rank(n, v), Some(rank), "node {v} of {n}");
        }
        for v in no_nodes(n) {
            assert_eq!(gemcotton::rank(n, v), None, "node {v} of {n}");
        }
    }
}

#[test]
fn ranks_in_huge_lists() {
    let mut random = Random(1);
    for n in around_powers(usize::MAX) {
        let mut nodes = vec![1, 2, 3, n / 4, n / 2, n / 2 + 1, n.saturating_sub(1), n];
        nodes.extend((0..6).map(|_| random.below(n.max(1))));
        // At the ends of levels.
        for _ in 0..6 {
            let power = 1 << random.below(64);
            nodes.extend([power - 1, power, power + 1]);
        }
        for v in nodes.into_iter().chain(no_nodes(n)) {
            assert_eq!(gemcotton::rank(n, v), rank(n, v), "node {v} of {n}");
        }
    }
}
