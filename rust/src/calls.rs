//! The table of calls. Each is asked alike, by the bytes of a strip and an [`Input`], and tells alike what it does, by
//! an [`Outcome`]. A new call is a row of the table.

mod expected;
mod inputs;
mod proved;

use crate::corpus::Case;
use crate::plain::Plain;
use crate::random::Random;
use crate::reference::strip::Refusal;

/// What a call is asked besides the strip. Each takes what it needs.
#[derive(Debug, Clone, Default, PartialEq)]
pub struct Input {
    /// A position, a time or a number of milliseconds.
    pub number: usize,
    /// The times to pack, or the targets.
    pub list: Vec<u32>,
    /// How many bytes or entries are lent.
    pub room: usize,
}

/// What is given, or the refusal.
pub type Given = Result<Vec<usize>, Refusal>;

/// The entries before and after what is lent.
pub const BEFORE: usize = 3;
const AFTER: usize = 9;

/// What a call does.
#[derive(Debug, PartialEq)]
pub struct Outcome {
    pub given: Given,
    /// What is lent, as the call leaves it, with other entries before and after it.
    pub memory: Vec<u64>,
}

impl Outcome {
    /// Of a call that is lent nothing to write.
    pub fn of(given: Given) -> Outcome {
        let memory = Vec::new();
        Outcome { given, memory }
    }

    /// Of a call that writes bytes to the front of what it is lent.
    pub fn of_bytes(room: usize, call: impl FnOnce(&mut [u8]) -> Given) -> Outcome {
        Outcome::lent(room, |i| 0xA5 ^ i as u8, call)
    }

    /// As `of_bytes`, with 32-bit entries.
    pub fn of_words(room: usize, call: impl FnOnce(&mut [u32]) -> Given) -> Outcome {
        Outcome::lent(room, |i| 0xA5C3_9669 ^ i as u32, call)
    }

    /// Lends this much room, with other entries on both sides. At first no entry is like its neighbours.
    fn lent<Entry: Into<u64>>(
        room: usize,
        fill: fn(usize) -> Entry,
        call: impl FnOnce(&mut [Entry]) -> Given,
    ) -> Outcome {
        let mut memory: Vec<Entry> = (0..BEFORE + room + AFTER).map(fill).collect();
        let given = call(&mut memory[BEFORE..BEFORE + room]);
        let memory = memory.into_iter().map(Into::into).collect();
        Outcome { given, memory }
    }
}

/// A call, and what it must do.
pub struct Call {
    pub name: &'static str,
    /// What it is asked of a case.
    pub inputs: fn(&Case, &mut Random) -> Vec<Input>,
    /// What the proved library does.
    pub proved: fn(&[u8], &Input) -> Outcome,
    /// What the reference does.
    pub reference: fn(&[u8], &Input) -> Outcome,
    /// What must be done with a strip whose nodes have the times of a list, by the list alone.
    pub plain: fn(&Plain, &Input) -> Outcome,
    /// The numbers that it may be refused with. The corpus must lead to each of them often.
    pub refusals: &'static [usize],
    /// Those among them that it must also be refused with after it has written, and 0 where it must also answer for strips
    /// that check refuses for their times.
    pub besides: &'static [usize],
}

macro_rules! call {
    ($name:ident, $refusals:expr, $besides:expr) => {
        Call {
            name: stringify!($name),
            inputs: inputs::$name,
            proved: proved::$name,
            reference: expected::$name,
            plain: |plain, input| plain.$name(input),
            refusals: &$refusals,
            besides: &$besides,
        }
    };
}

/// All calls. `walk` is a walker that is iterated, from a position on.
pub const CALLS: [Call; 10] = [
    call!(pack, [1, 2, 3, 4], []),
    call!(check, [1, 5, 6, 7, 8, 9, 10, 11, 12, 13, 23], []),
    call!(unpack, [1, 4, 5, 6, 7, 8, 9, 10, 11, 12, 13, 23], []),
    call!(access, [1, 5, 6, 7, 8, 9, 10, 13, 14, 23], [0]),
    call!(search, [1, 5, 6, 7, 8, 9, 10, 13, 23], [0]),
    call!(up_to, [1, 5, 6, 7, 8, 9, 10, 13, 23], [0]),
    call!(sweep, [1, 5, 6, 7, 8, 9, 10, 13, 15, 16, 23], [0, 9, 10]),
    call!(repeat, [1, 5, 6, 7, 8, 9, 10, 11, 13, 23], [0]),
    call!(step, [1, 5, 6, 7, 8, 9, 10, 13, 23], [0]),
    call!(walk, [1, 5, 6, 7, 8, 9, 10, 13, 23], [0]),
];

/// The call of this name.
pub fn call(name: &str) -> &'static Call {
    let call = CALLS.iter().find(|call| call.name == name);
    call.expect("a call of the table")
}
