//! Pin strips, by the proved library behind `include/gemcotton.h`.
//!
//! A list is strike times in milliseconds, none less than the one before. Equal times are a chord, and positions run
//! from 0. A strip holds a list in bytes; it is accepted when some list packs to it. Every call takes any input and
//! answers with what it gives or with a [`Refusal`]; it panics only where the library breaks the C header's promises.
//!
//! ```
//! use gemcotton::{access, check, pack, repeat, search, sweep, unpack, up_to, Refusal, Walker};
//!
//! let mut out = [0; 64];
//! let length = pack(&mut out, &[100, 250, 250, 400, 1000])?;
//! let strip = &out[..length];
//!
//! assert_eq!(length, 29);
//! assert_eq!(access(strip, 3)?.time, 400);
//! // The first strike at or after 251 is that at 400.
//! assert_eq!(search(strip, 251)?.position, 3);
//! assert_eq!(up_to(strip, 250)?.strikes, 3);
//! assert_eq!(access(strip, 5), Err(Refusal::Position));
//! // Three searches in one walk.
//! let mut positions = [0; 3];
//! sweep(&mut positions, strip, &[250, 251, 1001])?;
//! assert_eq!(positions, [1, 3, 5]);
//!
//! // The strip is that of a list, which can be read back.
//! assert_eq!(check(strip)?, 5);
//! let mut times = [0; 5];
//! unpack(&mut times, strip)?;
//! assert_eq!(times, [100, 250, 250, 400, 1000]);
//! // The first strike less than 150 ms after the one before has position 2.
//! assert_eq!(repeat(strip, 150)?, Some(2));
//! assert_eq!(repeat(strip, 0)?, None);
//!
//! // One time after the other.
//! for (i, accessed) in Walker::new(strip).into_iter().enumerate() {
//!     assert_eq!(accessed?.time, times[i]);
//! }
//! # Ok::<(), Refusal>(())
//! ```
//!
//! # Calls
//!
//! [`pack`] makes the strip of a list. [`check`] says whether a strip is accepted, and [`unpack`] reads the list of one
//! that is. [`access`] gives the time at a position. [`search`] gives the first position at or after a time, [`sweep`]
//! those of many times in one walk, and [`up_to`] counts the strikes at or before a time. [`repeat`] finds the first
//! strike that is too soon after the one before. A [`Walker`] gives one time after the other, by [`step`](Walker::step)
//! or in a `for` loop. [`height`] and [`root_place`] tell the shape of the tree, and [`rank`] the position of a node.
//!
//! # Opening
//!
//! Every call that reads a strip opens it first. It is refused where the strip is cut short in its first 7 bytes
//! ([`Cut`](Refusal::Cut)), then by its [`Mark`](Refusal::Mark), its [`Version`](Refusal::Version), a pin count of 0
//! ([`Empty`](Refusal::Empty)), level entries cut short ([`Cut`](Refusal::Cut)), for each level from 1 on a refused
//! [`Code`](Refusal::Code) and then a wrong [`LevelLength`](Refusal::LevelLength), and a wrong
//! [`Length`](Refusal::Length), in this order.
//!
//! # Reading all positions
//!
//! After opening, [`check`], [`unpack`] and [`repeat`] read the positions from 0 on. At each they are refused as
//! [`access`] is there, then by [`TimesFall`](Refusal::TimesFall) where the time is lower than the one before.
//!
//! # Stack
//!
//! The bytes of the stack that a call takes, rounded up. They are measured on x86-64, not proved. No call uses a heap.
//!
//! | call | up to 1,023 pins | more |
//! |---|---:|---:|
//! | [`height`], [`root_place`], [`rank`] | 100 | 100 |
//! | [`access`], [`search`], [`up_to`], [`step`](Walker::step) | 1,000 | 1,000 |
//! | [`sweep`] | 26,000 | 26,000 |
//! | [`pack`] | 9,000 | 396,000 |
//! | [`check`], [`unpack`], [`repeat`] | 15,000 | 534,000 |
//!
//! # Linking
//!
//! This package links `target/staticlib/libstrip_c.a`, which `tools/build` makes in the repository's folder.
//! The archive needs `memcpy` and `memset` from the C library, and nothing else.

#![warn(missing_docs)]

mod header;
mod refusal;
mod walker;

pub use refusal::Refusal;
pub use walker::{Times, Walker};

use header::{
    gemcotton_access, gemcotton_check, gemcotton_height, gemcotton_pack, gemcotton_rank, gemcotton_repeat,
    gemcotton_root_place, gemcotton_search, gemcotton_sweep, gemcotton_unpack, gemcotton_up_to,
};

/// The greatest pin count of a strip.
pub const MAX_PINS: usize = 65_535;

/// The greatest height of a strip's tree.
pub const MAX_HEIGHT: usize = 16;

/// A number of bytes that is enough for any list's strip: 7, 5 for each level, and 4 for each pin.
pub const MAX_BYTES: usize = 7 + 5 * MAX_HEIGHT + 4 * MAX_PINS;

/// What [`access`] gives, and a step of a [`Walker`].
#[derive(Debug, Clone, Copy, PartialEq, Eq)]
pub struct Accessed {
    /// The time at the position.
    pub time: u32,
    /// The nodes opened.
    pub nodes: usize,
}

/// What [`search`] gives.
#[derive(Debug, Clone, Copy, PartialEq, Eq)]
pub struct Searched {
    /// The position of the first strike at or after the target, or the pin count.
    pub position: usize,
    /// The nodes opened.
    pub nodes: usize,
}

/// What [`up_to`] gives.
#[derive(Debug, Clone, Copy, PartialEq, Eq)]
pub struct UpTo {
    /// The number of strikes at or before the time.
    pub strikes: usize,
    /// The nodes opened.
    pub nodes: usize,
}

/// The height of the tree of n pins: the least h with 2^h - 1 >= n.
#[inline]
pub fn height(n: usize) -> usize {
    // SAFETY: takes a number and requires nothing.
    unsafe { gemcotton_height(n) }
}

/// The root's place in a list of n pins, counted from 1; 0 for an empty list.
#[inline]
pub fn root_place(n: usize) -> usize {
    // SAFETY: takes a number and requires nothing.
    unsafe { gemcotton_root_place(n) }
}

/// The position of a node in a list of n pins, such as one that [`Fetch`](Refusal::Fetch) or [`Time`](Refusal::Time)
/// carries. Nodes are numbered from 1, the root; none where the number is no node's, so 0 or above n.
#[inline]
pub fn rank(n: usize, node: usize) -> Option<usize> {
    // SAFETY: takes numbers and requires nothing.
    let position = unsafe { gemcotton_rank(n, node) };
    (position < n).then_some(position)
}

/// Packs the list into a strip at the front of `out`, whose later bytes keep their content. Gives the strip's length in
/// bytes.
///
/// Refused, in this order, with nothing written: [`Empty`](Refusal::Empty), [`TooMany`](Refusal::TooMany),
/// [`ListFalls`](Refusal::ListFalls), [`Short`](Refusal::Short), which carries the bytes needed, also for an empty
/// `out`.
#[inline]
pub fn pack(out: &mut [u8], times: &[u32]) -> Result<usize, Refusal> {
    // SAFETY: the pointers and lengths are slices', so not null. Only `out` is written, and it overlaps nothing.
    let answer = unsafe { gemcotton_pack(out.as_mut_ptr(), out.len(), times.as_ptr(), times.len()) };
    answer.value()
}

/// Gives the time at position i and the nodes opened, from the root to that time's node.
///
/// Refused as in [opening](crate#opening), then by [`Position`](Refusal::Position), then by [`Fetch`](Refusal::Fetch)
/// or [`Time`](Refusal::Time) at the first node that has it.
#[inline]
pub fn access(strip: &[u8], i: usize) -> Result<Accessed, Refusal> {
    // SAFETY: the pointer and length are a slice's, so not null.
    let answer = unsafe { gemcotton_access(strip.as_ptr(), strip.len(), i) };
    answer.time()
}

/// Gives the position of the first strike at or after the target, or the pin count, and the nodes opened. From the root
/// it goes left where a node's time is at or above the target, else right; the position is that of the last node left
/// by its left side, or the pin count. So it answers on strips that are not accepted as well.
///
/// Refused as in [opening](crate#opening), then by [`Fetch`](Refusal::Fetch) or [`Time`](Refusal::Time) at the first
/// node that has it.
#[inline]
pub fn search(strip: &[u8], target: u32) -> Result<Searched, Refusal> {
    // SAFETY: the pointer and length are a slice's, so not null.
    let answer = unsafe { gemcotton_search(strip.as_ptr(), strip.len(), target) };
    let (position, nodes) = answer.outcome()?;
    Ok(Searched { position, nodes })
}

/// Gives the number of strikes at or before the time, and the nodes opened: the pin count and 0 nodes for
/// 4,294,967,295, otherwise what [`search`] gives for the time plus 1, also on strips that are not accepted.
///
/// Refused as [`search`] is; for 4,294,967,295 in [opening](crate#opening) alone.
#[inline]
pub fn up_to(strip: &[u8], time: u32) -> Result<UpTo, Refusal> {
    // SAFETY: the pointer and length are a slice's, so not null.
    let answer = unsafe { gemcotton_up_to(strip.as_ptr(), strip.len(), time) };
    let (strikes, nodes) = answer.outcome()?;
    Ok(UpTo { strikes, nodes })
}

/// Searches for targets, none less than the one before, in one walk. Writes to `answers` the position that [`search`]
/// gives for each target, and gives the nodes opened in all: the different ones that those searches open. No targets
/// open none.
///
/// That is said of an accepted strip. On any other too, the first target goes as a search does, and the nodes left by
/// their left side are remembered. Each later target drops remembered nodes from the deepest up while their time is
/// below it, and goes on from the right child of the last dropped, if any. A target's position is that of the deepest
/// node then remembered, or the pin count.
///
/// Refused, with nothing written, as in [opening](crate#opening), then by [`Answers`](Refusal::Answers), then by
/// [`TargetsFall`](Refusal::TargetsFall). Then refused by [`Fetch`](Refusal::Fetch) or [`Time`](Refusal::Time) at the
/// first node that has it: the answers of the targets before the one that comes to it have been written, no others.
///
/// ```
/// use gemcotton::{pack, sweep, Refusal};
///
/// let mut out = [0; 64];
/// let length = pack(&mut out, &[100, 250, 250, 400, 1000])?;
/// let strip = &out[..length];
///
/// let mut positions = [0; 3];
/// assert_eq!(sweep(&mut positions, strip, &[250, 251, 1001])?, 5);
/// assert_eq!(positions, [1, 3, 5]);
/// assert_eq!(sweep(&mut positions, strip, &[250, 251]), Err(Refusal::Answers));
/// let falls = Refusal::TargetsFall { index: 1 };
/// assert_eq!(sweep(&mut positions[..2], strip, &[9, 8]), Err(falls));
/// # Ok::<(), Refusal>(())
/// ```
#[inline]
pub fn sweep(answers: &mut [u32], strip: &[u8], targets: &[u32]) -> Result<usize, Refusal> {
    // SAFETY: the pointers and lengths are slices', so not null. Only `answers` is written, and it overlaps nothing.
    let answer = unsafe {
        gemcotton_sweep(
            answers.as_mut_ptr(),
            answers.len(),
            strip.as_ptr(),
            strip.len(),
            targets.as_ptr(),
            targets.len(),
        )
    };
    answer.nodes()
}

/// Gives the pin count of an accepted strip, and refuses every other one.
///
/// Refused as in [opening](crate#opening), then in [reading all positions](crate#reading-all-positions), then by
/// [`Image`](Refusal::Image) where packing the times so read gives other bytes.
#[inline]
pub fn check(strip: &[u8]) -> Result<usize, Refusal> {
    // SAFETY: the pointer and length are a slice's, so not null.
    let answer = unsafe { gemcotton_check(strip.as_ptr(), strip.len()) };
    answer.value()
}

/// Writes the list that packs to the strip to the front of `out`, whose later entries keep their content. Gives the pin
/// count.
///
/// Refused, with nothing written, as [`check`] is, then by [`Short`](Refusal::Short), which carries the pin count, also
/// for an empty `out`.
#[inline]
pub fn unpack(out: &mut [u32], strip: &[u8]) -> Result<usize, Refusal> {
    // SAFETY: the pointers and lengths are slices', so not null. Only `out` is written, and it overlaps nothing.
    let answer = unsafe { gemcotton_unpack(out.as_mut_ptr(), out.len(), strip.as_ptr(), strip.len()) };
    answer.value()
}

/// Gives the first position, from 1 on, whose time is less than `r` milliseconds after the one before, or none. It
/// answers on strips that are not accepted as well.
///
/// Refused as in [opening](crate#opening), then in [reading all positions](crate#reading-all-positions) up to the one
/// given: a position's refusals come before its gap, and those of later positions are not told.
#[inline]
pub fn repeat(strip: &[u8], r: u32) -> Result<Option<usize>, Refusal> {
    // SAFETY: the pointer and length are a slice's, so not null.
    let answer = unsafe { gemcotton_repeat(strip.as_ptr(), strip.len(), r) };
    let position = answer.value()?;
    // Position 0 has none before it, so 0 is the C interface's none.
    Ok((position > 0).then_some(position))
}
