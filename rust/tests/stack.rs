//! The proved calls on stacks of little room: of less where the strip is short.

use std::thread;

use gemcotton::{height, rank, root_place, MAX_BYTES};
use gemcotton_tests::calls::{Call, Input, Outcome, CALLS};
use gemcotton_tests::corpus::Case;
use gemcotton_tests::lists::{few_lists, sorted};
use gemcotton_tests::parts::{any_code, chosen};
use gemcotton_tests::random::Random;
use gemcotton_tests::reference::strip::PINS;
use gemcotton_tests::strips::{refused_at, strip_of_values, wasteful};

/// Pin counts, and the kibibytes of the stack on which the calls are made.
const STACKS: [(usize, usize); 4] = [(1, 64), (5, 64), (1023, 64), (PINS, 640)];

/// Runs this on a stack of so many kibibytes. What the calls are lent lies elsewhere.
fn on_stack(kibibytes: usize, calls: impl FnOnce() + Send) {
    thread::scope(|scope| {
        let thread = thread::Builder::new().stack_size(kibibytes << 10);
        let done = thread.spawn_scoped(scope, calls).expect("a thread").join();
        assert!(done.is_ok());
    });
}

/// Strips of n pins that check accepts, or refuses with 9, 10, 11 and 12.
fn cases(n: usize, random: &mut Random) -> Vec<Case> {
    let mut cases = Vec::new();
    for times in few_lists(n, if n == PINS { 4 } else { usize::MAX }, random) {
        cases.push(Case::reading(wasteful(&times, 1, random), times.clone()));
        let v = 1 + random.below(n);
        for (strip, number) in refused_at(&times, v, random) {
            cases.push(Case::refused(strip, number, v));
        }
        cases.push(Case::packed(times));
    }
    if n >= 5 {
        // Node 2 has the root's time, and its right child, which comes before the root, one more.
        let mut values: Vec<u32> = (0..n).map(|_| random.of_width(8)).collect();
        (values[0], values[1], values[4]) = (1 << 31, 0, 1);
        cases.push(Case::strip(strip_of_values(&values, chosen)));
        cases.push(Case::strip(strip_of_values(&values, any_code(random))));
    }
    cases
}

/// What every call is asked: a number, as many targets or times as pins, and room for these or for a strip.
fn inputs(case: &Case, n: usize, random: &mut Random) -> Vec<Input> {
    let targets = sorted((0..n).map(|_| random.skewed()).collect());
    let list = case.list.clone().unwrap_or(targets);
    let input = |(number, room)| Input { number, list: list.clone(), room };
    [(0, n), (n / 2, n), (n - 1, n), (n, n), (n, MAX_BYTES)].map(input).to_vec()
}

/// What check and pack must do is known of most cases. Where they do it, the strip is one that opening takes.
fn check_known(call: &Call, case: &Case, input: &Input, found: Outcome) {
    match call.name {
        "check" if case.list.is_some() || case.refused.is_some() => assert_eq!(found.given.err(), case.refused),
        "pack" if case.reads() && input.room == MAX_BYTES => assert_eq!(found.given, Ok(vec![case.image.len()])),
        _ => {}
    }
}

#[test]
fn every_call() {
    for (n, kibibytes) in STACKS {
        let mut random = Random(1);
        for case in cases(n, &mut random) {
            let inputs = inputs(&case, n, &mut random);
            on_stack(kibibytes, || {
                let _ = (height(n), root_place(n), rank(n, n));
                for call in &CALLS {
                    for input in &inputs {
                        check_known(call, &case, input, (call.proved)(&case.strip, input));
                    }
                }
            });
        }
    }
}
