//! The calls by the proved library, as a user of the package has them.

use gemcotton::{Accessed, Walker};

use super::{Given, Input, Outcome};
use crate::reference::strip::Refusal;

/// What is given, or the refusal's number and what it carries.
fn given(found: Result<Vec<usize>, gemcotton::Refusal>) -> Given {
    found.map_err(|refusal| Refusal { number: refusal.number(), carried: refusal.carried() })
}

fn accessed(found: Accessed) -> Vec<usize> {
    vec![found.time as usize, found.nodes]
}

pub fn pack(_: &[u8], input: &Input) -> Outcome {
    Outcome::of_bytes(input.room, |out| given(gemcotton::pack(out, &input.list).map(|length| vec![length])))
}

pub fn check(strip: &[u8], _: &Input) -> Outcome {
    Outcome::of(given(gemcotton::check(strip).map(|pins| vec![pins])))
}

pub fn unpack(strip: &[u8], input: &Input) -> Outcome {
    Outcome::of_words(input.room, |out| given(gemcotton::unpack(out, strip).map(|pins| vec![pins])))
}

pub fn access(strip: &[u8], input: &Input) -> Outcome {
    let found = gemcotton::access(strip, input.number);
    Outcome::of(given(found.map(accessed)))
}

pub fn search(strip: &[u8], input: &Input) -> Outcome {
    let found = gemcotton::search(strip, input.number as u32);
    Outcome::of(given(found.map(|found| vec![found.position, found.nodes])))
}

pub fn up_to(strip: &[u8], input: &Input) -> Outcome {
    let found = gemcotton::up_to(strip, input.number as u32);
    Outcome::of(given(found.map(|found| vec![found.strikes, found.nodes])))
}

pub fn sweep(strip: &[u8], input: &Input) -> Outcome {
    Outcome::of_words(input.room, |answers| {
        given(gemcotton::sweep(answers, strip, &input.list).map(|nodes| vec![nodes]))
    })
}

pub fn repeat(strip: &[u8], input: &Input) -> Outcome {
    let found = gemcotton::repeat(strip, input.number as u32);
    Outcome::of(given(found.map(|position| position.into_iter().collect())))
}

/// A step from this position. At the end nothing is given. The memory is the next position.
pub fn step(strip: &[u8], input: &Input) -> Outcome {
    let mut walker = Walker::new(strip);
    walker.next = input.number;
    let found = walker.step();
    Outcome { given: given(found.map(|found| found.map_or(Vec::new(), accessed))), memory: vec![walker.next as u64] }
}

/// All that a walker gives from this position on, which is the memory.
pub fn walk(strip: &[u8], input: &Input) -> Outcome {
    let mut walker = Walker::new(strip);
    walker.next = input.number;
    let mut items = walker.into_iter();
    let (mut end, mut memory) = (Ok(Vec::new()), Vec::new());
    for item in &mut items {
        match item {
            Ok(found) => memory.extend([found.time.into(), found.nodes as u64]),
            Err(refusal) => end = Err(refusal),
        }
    }
    assert_eq!(items.next(), None);
    let given = given(end);
    Outcome { given, memory }
}
