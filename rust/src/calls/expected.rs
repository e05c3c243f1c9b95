//! The calls by the reference.

use super::{proved, Input, Outcome};
use crate::reference::strip::{self, Access, Refusal};
use crate::strips::{is_fixed, pins};

/// The access of calls that may read many positions. The reference reads all bits of a chunked level anew for each
/// position, so that in long strips the proved one, which is compared with it, takes its place where it finds a time. A
/// refusal is always the reference's own.
fn quickest_access(bytes: &[u8]) -> Access {
    if pins(bytes) < 1000 || is_fixed(bytes) {
        return strip::access;
    }
    |bytes, number| {
        let input = Input { number, ..Input::default() };
        match proved::access(bytes, &input).given {
            Ok(found) => Ok((found[0] as u32, found[1])),
            Err(_) => strip::access(bytes, number),
        }
    }
}

fn accessed((time, nodes): (u32, usize)) -> Vec<usize> {
    vec![time as usize, nodes]
}

fn searched((position, nodes): (usize, usize)) -> Vec<usize> {
    vec![position, nodes]
}

pub fn pack(_: &[u8], input: &Input) -> Outcome {
    Outcome::of_bytes(input.room, |out| {
        let image = strip::pack(&input.list, input.room)?;
        out[..image.len()].copy_from_slice(&image);
        Ok(vec![image.len()])
    })
}

pub fn check(bytes: &[u8], _: &Input) -> Outcome {
    let found = strip::check(bytes, quickest_access(bytes));
    Outcome::of(found.map(|pins| vec![pins]))
}

pub fn unpack(bytes: &[u8], input: &Input) -> Outcome {
    Outcome::of_words(input.room, |out| {
        let times = strip::unpack(bytes, input.room, quickest_access(bytes))?;
        out[..times.len()].copy_from_slice(&times);
        Ok(vec![times.len()])
    })
}

pub fn access(bytes: &[u8], input: &Input) -> Outcome {
    Outcome::of(strip::access(bytes, input.number).map(accessed))
}

pub fn search(bytes: &[u8], input: &Input) -> Outcome {
    Outcome::of(strip::search(bytes, input.number as u32).map(searched))
}

pub fn up_to(bytes: &[u8], input: &Input) -> Outcome {
    Outcome::of(strip::up_to(bytes, input.number as u32).map(searched))
}

pub fn sweep(bytes: &[u8], input: &Input) -> Outcome {
    Outcome::of_words(input.room, |answers| {
        let mut written = Vec::new();
        let nodes = strip::sweep(bytes, &input.list, input.room, &mut written);
        for (answer, position) in answers.iter_mut().zip(written) {
            *answer = position as u32;
        }
        nodes.map(|nodes| vec![nodes])
    })
}

pub fn repeat(bytes: &[u8], input: &Input) -> Outcome {
    let found = strip::repeat(bytes, input.number as u32, quickest_access(bytes));
    Outcome::of(found.map(|position| position.into_iter().collect()))
}

pub fn step(bytes: &[u8], input: &Input) -> Outcome {
    let (said, next) = strip::step(bytes, input.number, strip::access);
    Outcome { given: said.map(|found| found.map_or(Vec::new(), accessed)), memory: vec![next as u64] }
}

pub fn walk(bytes: &[u8], input: &Input) -> Outcome {
    let access = quickest_access(bytes);
    let (mut next, mut memory) = (input.number, Vec::new());
    let end: Result<(), Refusal> = loop {
        let (said, after) = strip::step(bytes, next, access);
        match said {
            Ok(Some((time, nodes))) => memory.extend([time.into(), nodes as u64]),
            Ok(None) => break Ok(()),
            Err(refusal) => break Err(refusal),
        }
        next = after;
    };
    let given = end.map(|()| Vec::new());
    Outcome { given, memory }
}
