//! What a pin walker carries from step to step. The table of calls has the steps themselves.

use std::ptr;

use gemcotton::{access, Accessed, Refusal, Walker};
use gemcotton_tests::lists::{few_lists, few_pins};
use gemcotton_tests::random::Random;
use gemcotton_tests::reference::strip::PINS;
use gemcotton_tests::strips::{packed, A, B};

/// One walker that is set elsewhere after a few steps, also beyond the end.
#[test]
fn position_set_midway() {
    let mut random = Random(5);
    for n in few_pins().chain([1000, 6144, PINS]) {
        for times in few_lists(n, 3, &mut random) {
            let strip = packed(&times);
            let mut walker = Walker::new(&strip);
            assert_eq!(walker.next, 0);
            for _ in 0..100 {
                let past = [n, n + 1, usize::MAX, 1 << 32][random.below(4)];
                let next = [random.below(n), random.below(n), n - 1, past][random.below(4)];
                walker.next = next;
                for _ in 0..=random.below(4) {
                    let at = walker.next;
                    assert_eq!(walker.step(), Ok(access(&strip, at).ok()));
                    assert_eq!(walker.next, at + usize::from(at < n));
                    assert!(ptr::eq(walker.strip, &strip[..]));
                }
            }
        }
    }
}

/// A step opens the strip that the walker then carries.
#[test]
fn another_strip_midway() {
    let mut walker = Walker::new(&A);
    let mut step = |strip| {
        walker.strip = strip;
        (walker.step(), walker.next)
    };
    let found = |time, nodes| Ok(Some(Accessed { time, nodes }));
    assert_eq!(step(&A), (found(100, 3), 1));
    assert_eq!(step(&B), (Ok(None), 1));
    assert_eq!(step(&A[..28]), (Err(Refusal::Length), 1));
    assert_eq!(step(&[]), (Err(Refusal::Cut), 1));
    assert_eq!(step(&A), (found(250, 2), 2));
}
