//! The marked cases and the examples of refusals, with the answers that the scope tells. The proved library and the
//! reference must give them.

use gemcotton_tests::calls::{call, Given, Input, BEFORE};
use gemcotton_tests::reference::strip::refused;
use gemcotton_tests::strips::{example, packed, A, B, TIMES_A};

/// What the call gives, by both, and what it writes to the front of what it is lent.
fn done(name: &str, strip: &[u8], input: &Input) -> (Given, Vec<u64>) {
    let call = call(name);
    let found = (call.proved)(strip, input);
    assert_eq!(found, (call.reference)(strip, input), "{name} {input:?}");
    (found.given, found.memory.into_iter().skip(BEFORE).collect())
}

/// Of a call that takes a number.
fn asked(name: &str, strip: &[u8], number: usize) -> Given {
    let input = Input { number, ..Input::default() };
    done(name, strip, &input).0
}

/// Of a call that takes a list and is lent this much room, or takes none.
fn lent(name: &str, strip: &[u8], list: &[u32], room: usize) -> (Given, Vec<u64>) {
    let input = Input { list: list.to_vec(), room, ..Input::default() };
    done(name, strip, &input)
}

fn sweep(strip: &[u8], targets: &[u32], positions: &[u64], given: Given) {
    let (found, memory) = lent("sweep", strip, targets, targets.len());
    assert_eq!(found, given);
    assert_eq!(memory[..positions.len()], *positions);
}

#[test]
fn packing() {
    for (times, strip) in [(&TIMES_A[..], &A[..]), (&[0], &B)] {
        let (given, memory) = lent("pack", &[], times, strip.len());
        assert_eq!(given, Ok(vec![strip.len()]));
        assert_eq!(memory[..strip.len()], strip.iter().map(|&byte| byte.into()).collect::<Vec<u64>>());
    }
}

#[test]
fn looking_up() {
    assert_eq!(asked("search", &A, 250), Ok(vec![1, 3]));
    assert_eq!(asked("search", &A, 251), Ok(vec![3, 3]));
    assert_eq!(asked("search", &A, 1001), Ok(vec![5, 2]));
    assert_eq!(asked("up_to", &A, 250), Ok(vec![3, 3]));
    let chord = packed(&[5, 5, 5]);
    assert_eq!(asked("search", &chord, 5), Ok(vec![0, 2]));
    let found = [0, 1, 2, 3, 4].map(|i| asked("access", &A, i));
    let expected = [[100, 3], [250, 2], [250, 3], [400, 1], [1000, 2]];
    assert_eq!(found, expected.map(|found| Ok(found.to_vec())));
    assert_eq!([0, 1, 2, 3, 4].map(|i| asked("step", &A, i)), found);
    assert_eq!(asked("step", &A, 5), Ok(vec![]));
    assert_eq!(asked("repeat", &A, 150), Ok(vec![2]));
    assert_eq!(asked("repeat", &A, 151), Ok(vec![1]));
    assert_eq!(asked("repeat", &A, 0), Ok(vec![]));
}

#[test]
fn sweeping() {
    sweep(&A, &[250, 251, 1001], &[1, 3, 5], Ok(vec![5]));
    sweep(&A, &[250, 251], &[1, 3], Ok(vec![4]));
    sweep(&A, &[250, 250, 250], &[1, 1, 1], Ok(vec![3]));
    sweep(&A, &[], &[], Ok(vec![0]));
    sweep(&B, &[0, 1], &[0, 1], Ok(vec![1]));
    // "A, node 5 storing 151": its time, 401, passes the root's. Remembered, it is not dropped for a target that a
    // search leaves the root by its right side for.
    let falls = example(11);
    sweep(&falls, &[251, 401], &[2, 2], Ok(vec![3]));
    assert_eq!(asked("search", &falls, 401), Ok(vec![4, 2]));
}

#[test]
fn refusals() {
    assert_eq!(lent("pack", &[], &[], 300).0, refused(1, 0));
    assert_eq!(lent("pack", &[], &[0; 65_536], 300_000).0, refused(2, 0));
    assert_eq!(lent("pack", &[], &[7, 6], 99).0, refused(3, 1));
    assert_eq!(lent("pack", &[], &[0], 11).0, refused(4, 12));
    assert_eq!(lent("unpack", &A, &[], 4).0, refused(4, 5));
    for (number, carried) in [(1, 0), (5, 0), (6, 0), (7, 0), (8, 1), (13, 0), (23, 1)] {
        assert_eq!(asked("access", &example(number), 0), refused(number, carried));
    }
    for (number, carried) in [(9, 1), (10, 2), (11, 3), (12, 0)] {
        assert_eq!(asked("check", &example(number), 0), refused(number, carried));
    }
    assert_eq!(asked("access", &A, 5), refused(14, 0));
    assert_eq!(lent("sweep", &A, &[8, 9], 3).0, refused(15, 0));
    assert_eq!(lent("sweep", &A, &[9, 8], 2).0, refused(16, 1));
    // Up-to reads nothing at the greatest time, and most calls look for neither 11 nor 12.
    assert_eq!(asked("up_to", &example(9), u32::MAX as usize), Ok(vec![1, 0]));
    assert_eq!(asked("access", &example(11), 2), Ok(vec![401, 3]));
    assert_eq!(asked("repeat", &example(12), 7), Ok(vec![]));
}

/// Vectors without entries, which lend a pointer to nothing.
#[test]
fn nothing_lent() {
    let short = |needed| Err(gemcotton::Refusal::Short { needed });
    assert_eq!(gemcotton::pack(&mut Vec::new(), &TIMES_A), short(A.len()));
    assert_eq!(gemcotton::pack(&mut Vec::new(), &Vec::new()), Err(gemcotton::Refusal::Empty));
    assert_eq!(gemcotton::unpack(&mut Vec::new(), &A), short(5));
    assert_eq!(gemcotton::sweep(&mut Vec::new(), &A, &Vec::new()), Ok(0));
    assert_eq!(gemcotton::check(&Vec::new()), Err(gemcotton::Refusal::Cut));
}
