//! Runs a call of the table over the corpus: the proved library must do what the reference does, and what the list
//! alone tells where a strip reads as one.

use std::collections::{BTreeMap, BTreeSet};

use crate::calls::{Call, Input, Outcome};
use crate::corpus::{kinds, Case};
use crate::plain::Plain;
use crate::random::Random;
use crate::reference::strip::Refusal;
use crate::strips::pins;

/// How often the corpus must lead to each end of a call.
const LEAST: usize = 100;

/// The numbers that opening refuses with, which every reading call does first.
const OPENING: [usize; 7] = [5, 6, 7, 1, 8, 23, 13];

/// How a call ended: with the refusal of this number, and whether it had written before; or, at 0, with an answer, and
/// whether that was of a strip without times at all positions or with times that fall.
type End = (usize, bool);

/// How often a call ended so.
type Tally = BTreeMap<End, usize>;

/// The ends that the corpus must lead a call to.
fn ends(call: &Call) -> BTreeSet<End> {
    let plain = call.refusals.iter().chain([&0]).map(|&number| (number, false));
    let marked = call.besides.iter().map(|&number| (number, true));
    plain.chain(marked).collect()
}

/// Compares the call on the whole corpus. It must often come to each of its ends, and to no other one.
pub fn compare(call: &Call) {
    let mut tally = Tally::new();
    for kind in kinds(call.name) {
        let mut asked = Random(1);
        (kind.cases)(&mut Random(2), &mut |case| {
            compare_case(call, kind.name, &case, &mut tally, &mut asked);
        });
    }
    println!("{}: {} times: {tally:?}", call.name, tally.values().sum::<usize>());
    let met: BTreeSet<End> = tally.keys().copied().collect();
    assert_eq!(met, ends(call), "{}: {tally:?}", call.name);
    let least = tally.values().all(|&count| count >= LEAST);
    assert!(least, "{}: {tally:?}", call.name);
}

/// Asks all inputs, of a strip that has other bytes on both sides.
fn compare_case(call: &Call, kind: &str, case: &Case, tally: &mut Tally, random: &mut Random) {
    let before = random.below(8);
    let memory = [&random.bytes(before), &case.strip[..], &random.bytes(8)].concat();
    let strip = &memory[before..before + case.strip.len()];
    let inputs = (call.inputs)(case, random);
    let list = case.list.as_deref().filter(|_| case.reads());
    let plain = list.map(|list| Plain::new(list, &case.image, case.refused));
    let seen = seen_by_reference(pins(strip), plain.is_some());
    let unread = call.name != "pack" && is_unread(strip);
    for (i, input) in inputs.iter().enumerate() {
        let found = (call.proved)(strip, input);
        let place = || format!("{} in {kind}: {}, {}", call.name, told(input), front(strip));
        if let Some(plain) = &plain {
            agree(&found, &(call.plain)(plain, input), place);
        }
        if i < seen {
            agree(&found, &(call.reference)(strip, input), place);
        }
        if let Some(refusal) = case.refused.filter(|refusal| is_told(call, refusal)) {
            assert_eq!(found.given, Err(refusal), "{}", place());
        }
        // A sweep that has written nothing.
        let untouched = |refusal| Outcome::of_words(input.room, |_| Err(refusal));
        let end = match &found.given {
            Ok(_) => (0, unread),
            Err(refusal) => (refusal.number, call.name == "sweep" && found != untouched(*refusal)),
        };
        *tally.entry(end).or_default() += 1;
    }
}

/// Whether check refuses the strip for its times, or for what opening finds.
fn is_unread(strip: &[u8]) -> bool {
    gemcotton::check(strip).is_err_and(|refusal| refusal != gemcotton::Refusal::Image)
}

/// How many inputs the reference sees. It is slow, and where a list tells what a long strip must answer, it sees few.
fn seen_by_reference(pins: usize, has_list: bool) -> usize {
    match pins {
        0..=60 => usize::MAX,
        _ if !has_list => usize::MAX,
        61..=1000 => 30,
        _ => 4,
    }
}

/// Whether what check is refused with tells what the call is refused with.
fn is_told(call: &Call, refusal: &Refusal) -> bool {
    call.name == "check" || OPENING.contains(&refusal.number)
}

fn agree(found: &Outcome, expected: &Outcome, place: impl Fn() -> String) {
    assert_eq!(found.given, expected.given, "{}", place());
    let differs = |i: &usize| found.memory.get(*i) != expected.memory.get(*i);
    let length = found.memory.len().max(expected.memory.len());
    assert_eq!((0..length).find(differs), None, "memory: {}", place());
}

/// Names the input. Of many numbers the front is told.
fn told(input: &Input) -> String {
    let (count, front) = (input.list.len(), &input.list[..input.list.len().min(100)]);
    let Input { number, room, .. } = input;
    format!("number {number}, room {room}, list of {count}: {front:?}")
}

/// Names the bytes. Of many the front is told.
fn front(strip: &[u8]) -> String {
    let length = strip.len();
    format!("{length} bytes: {:02X?}", &strip[..length.min(300)])
}
