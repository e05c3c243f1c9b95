//! The scope's strip and the calls on it. Slow on purpose: each function follows the sentences of the scope and of the
//! change requests, and nothing else.

use super::tree::{self, height, nodes_of_level, parts_of_values, stored, Levels};
use super::{choose, fewest_bytes, kind, Kind};

/// "The greatest pin count, 65,535".
pub const PINS: usize = 65_535;

/// A refusal's number and what it carries.
#[derive(Debug, PartialEq, Clone, Copy)]
pub struct Refusal {
    pub number: usize,
    pub carried: usize,
}

/// The result of a call that is refused so.
pub fn refused<T>(number: usize, carried: usize) -> Result<T, Refusal> {
    Err(Refusal { number, carried })
}

/// "Multi-byte numbers have the high byte first."
fn write(bytes: &mut Vec<u8>, number: usize, length: usize) {
    for place in (0..length).rev() {
        bytes.push((number as u128 >> (8 * place)) as u8);
    }
}

/// The number that these bytes are, high byte first.
fn number(bytes: &[u8]) -> usize {
    bytes.iter().fold(0, |sum, &byte| 256 * sum + usize::from(byte))
}

/// The bytes of a strip of n pins with these codes and parts, level by level.
pub fn image(n: usize, levels: &[(u8, Vec<u8>)]) -> Vec<u8> {
    // "Bytes 0..2 are `PIN` (50 49 4E hex), 3..4 the version, 1, and 5..6 n."
    let mut strip = vec![0x50, 0x49, 0x4E];
    write(&mut strip, 1, 2);
    write(&mut strip, n, 2);
    // "Then, per level, one code byte and four bytes with the level part's length in bytes."
    for (code, part) in levels {
        strip.push(*code);
        write(&mut strip, part.len(), 4);
    }
    // "Then the parts in order."
    for (_, part) in levels {
        strip.extend(part);
    }
    strip
}

/// "Pack: order 1, 2, 3, 4. Writes the image at the front". The image, where the output has this room.
pub fn pack(times: &[u32], room: usize) -> Result<Vec<u8>, Refusal> {
    let n = times.len();
    // 1: "n is 0".
    if n == 0 {
        return refused(1, 0);
    }
    // 2: "n over 65,535".
    if n > PINS {
        return refused(2, 0);
    }
    // 3: "list falls", with the "first lower position".
    for i in 1..n {
        if times[i] < times[i - 1] {
            return refused(3, i);
        }
    }
    // "Pack chooses the code with fewest bits before padding."
    let levels = parts_of_values(&stored(times), |_, values| choose(values).0);
    let image = image(n, &levels);
    // 4: "output shorter than needed", with the "bytes (pack) [...] needed".
    if room < image.len() {
        return refused(4, image.len());
    }
    Ok(image)
}

/// "Opening, done first by every reading call, tests in this order: 5 (under 7 bytes), 6, 7, 1, 5 (under 7 + 5h), 8
/// from level 1 on, 13." Ticket 12 has added 23.
fn open(strip: &[u8]) -> Result<Levels<'_>, Refusal> {
    // 5: "strip cut short".
    if strip.len() < 7 {
        return refused(5, 0);
    }
    // 6: "mark other than `PIN`".
    if strip[0..3] != [0x50, 0x49, 0x4E] {
        return refused(6, 0);
    }
    // 7: "version other than 1".
    if number(&strip[3..5]) != 1 {
        return refused(7, 0);
    }
    // 1: "n is 0".
    let n = number(&strip[5..7]);
    if n == 0 {
        return refused(1, 0);
    }
    let h = height(n);
    if strip.len() < 7 + 5 * h {
        return refused(5, 0);
    }
    Ok(Levels { pins: n, parts: parts(strip, n)? })
}

/// Each level's code and part: "8 from level 1 on, 13", and 23 "directly after that level's code has passed 8 and
/// before the next level's code".
fn parts(strip: &[u8], n: usize) -> Result<Vec<(u8, &[u8])>, Refusal> {
    let h = height(n);
    // Level L's five bytes begin here.
    let entry = |level: usize| 7 + 5 * (level - 1);
    let length = |level: usize| number(&strip[entry(level) + 1..entry(level) + 5]);
    for level in 1..=h {
        let (kind, count) = (kind(strip[entry(level)]), nodes_of_level(n, level).count());
        // 8: "level code", with the level.
        if kind == Kind::Refused {
            return refused(8, level);
        }
        // 23: "Opening must test that each fixed level has exactly the fewest bytes for its width and number of values",
        // "carrying the level".
        if matches!(kind, Kind::Fixed(w) if length(level) != fewest_bytes(w, count)) {
            return refused(23, level);
        }
    }
    // 13: "length not 7 + 5h + parts". The sum is wide, so that no lengths make it overflow.
    let sum: u128 = (1..=h).map(|level| length(level) as u128).sum();
    if strip.len() as u128 != (7 + 5 * h) as u128 + sum {
        return refused(13, 0);
    }
    let (mut parts, mut start) = (Vec::new(), 7 + 5 * h);
    for level in 1..=h {
        let end = start + length(level);
        parts.push((strip[entry(level)], &strip[start..end]));
        start = end;
    }
    Ok(parts)
}

/// "Access i: 14, then fetches from the root to rank i. Gives time and nodes opened."
pub fn access(strip: &[u8], i: usize) -> Result<(u32, usize), Refusal> {
    let levels = open(strip)?;
    // 14: "position >= n".
    if i >= levels.pins {
        return refused(14, 0);
    }
    tree::access(&levels, i)
}

/// "Search t [...] Gives position and nodes opened."
pub fn search(strip: &[u8], t: u32) -> Result<(usize, usize), Refusal> {
    tree::search(&open(strip)?, t)
}

/// "Up-to t: strikes at or before t. It gives n and 0 nodes for t = 4,294,967,295, otherwise search at t + 1 with its
/// count."
pub fn up_to(strip: &[u8], t: u32) -> Result<(usize, usize), Refusal> {
    if t == 4_294_967_295 {
        return Ok((open(strip)?.pins, 0));
    }
    search(strip, t + 1)
}

/// "Sweep: 15, 16, then [...]. The result carries the nodes opened in all; no targets give 0." There are this many
/// answers. Adds to `written` those that it writes, also before a refusal: "a sweep met by 9 or 10 has written the
/// earlier targets' answers".
pub fn sweep(strip: &[u8], targets: &[u32], answers: usize, written: &mut Vec<usize>) -> Result<usize, Refusal> {
    let levels = open(strip)?;
    // 15: "answers and targets differ in length".
    if answers != targets.len() {
        return refused(15, 0);
    }
    // 16: "targets fall", with the "first lower index".
    for index in 1..targets.len() {
        if targets[index] < targets[index - 1] {
            return refused(16, index);
        }
    }
    tree::sweep(&levels, targets, written)
}

/// Gives the time at a position, or refuses. Calls that may read many positions are told whose access they go by:
/// `access` above, or a quicker one that does the same.
pub type Access = fn(&[u8], usize) -> Result<(u32, usize), Refusal>;

/// The time that follows these, which are the strip's first ones. Check, unpack and repeat find "for i from 0, access's
/// refusal, then 11".
fn next(strip: &[u8], times: &[u32], access: Access) -> Result<u32, Refusal> {
    let i = times.len();
    let (time, _) = access(strip, i)?;
    // 11: "times fall", with the "lower position".
    if times.last().is_some_and(|&before| time < before) {
        return refused(11, i);
    }
    Ok(time)
}

/// The list of a strip that check does not refuse: "for i from 0, access's refusal, then 11; after all, 12."
fn list(strip: &[u8], access: Access) -> Result<Vec<u32>, Refusal> {
    let n = open(strip)?.pins;
    let mut times = Vec::new();
    for _ in 0..n {
        times.push(next(strip, &times, access)?);
    }
    // 12: "bytes other than the list's image".
    let image = pack(&times, usize::MAX).expect("a list");
    if strip != image {
        return refused(12, 0);
    }
    Ok(times)
}

/// "Check: [...] Gives n."
pub fn check(strip: &[u8], access: Access) -> Result<usize, Refusal> {
    Ok(list(strip, access)?.len())
}

/// "Unpack: check, then 4. Writes the first n entries". These, where the output has this room.
pub fn unpack(strip: &[u8], room: usize, access: Access) -> Result<Vec<u32>, Refusal> {
    let times = list(strip, access)?;
    // 4: "output shorter than needed", with the "[...] entries (unpack) needed".
    if room < times.len() {
        return refused(4, times.len());
    }
    Ok(times)
}

/// "Repeat r: the first i >= 1 with time i minus time i-1 below r, or none. For each i from 0 it gives access's
/// refusal, then 11, then tests r."
pub fn repeat(strip: &[u8], r: u32, access: Access) -> Result<Option<usize>, Refusal> {
    let n = open(strip)?.pins;
    let mut times = Vec::new();
    for i in 0..n {
        times.push(next(strip, &times, access)?);
        if i >= 1 && times[i] - times[i - 1] < r {
            return Ok(Some(i));
        }
    }
    Ok(None)
}

/// What a step of the pin walker says: the time with the nodes opened, or none where it says end, or the refusal.
pub type Said = Result<Option<(u32, usize)>, Refusal>;

/// "Pin walker [...]: it carries the strip it walks and the next position, 0 at the start." What a step says, and the
/// next position after it. "End and refusals do not move it."
pub fn step(strip: &[u8], next: usize, access: Access) -> (Said, usize) {
    // "A step opens".
    let levels = match open(strip) {
        Ok(levels) => levels,
        Err(refusal) => return (Err(refusal), next),
    };
    // "Says end at n or beyond".
    if next >= levels.pins {
        return (Ok(None), next);
    }
    // "Otherwise is access there and moves on by one."
    match access(strip, next) {
        Ok(found) => (Ok(Some(found)), next + 1),
        Err(refusal) => (Err(refusal), next),
    }
}
