//! The scope's level codes, bit by bit. Slow on purpose: each function follows the sentences of the scope and of the
//! change requests, and nothing else.

pub mod strip;
pub mod tree;

#[derive(Debug, PartialEq, Clone, Copy)]
pub enum Kind {
    Fixed(u32),
    Chunked(u32),
    Refused,
}

/// "Codes 0..32 are fixed widths in bits; codes 65..72 are chunked with b = code - 64. All other codes are refused."
pub fn kind(code: u8) -> Kind {
    match code {
        0..=32 => Kind::Fixed(u32::from(code)),
        65..=72 => Kind::Chunked(u32::from(code) - 64),
        _ => Kind::Refused,
    }
}

/// "A value has one chunk when 0, otherwise as many b-bit chunks as reach its highest one bit".
fn chunk_count(value: u32, b: u32) -> u32 {
    let mut count = 1;
    while u64::from(value) >> (count * b) > 0 {
        count += 1;
    }
    count
}

/// The size in bits before padding, or none where the code is refused or does not hold the values.
pub fn size(values: &[u32], code: u8) -> Option<u64> {
    let size = |&value: &u32| match kind(code) {
        Kind::Fixed(w) => (u64::from(value) < 1 << w).then_some(u64::from(w)),
        // A chunk and its continuation bit.
        Kind::Chunked(b) => Some(u64::from(chunk_count(value, b) * (b + 1))),
        Kind::Refused => None,
    };
    values.iter().map(size).sum()
}

/// The code byte pack chooses, and its size in bits: "the code with fewest bits before padding. On a tie a fixed code
/// wins, then the smaller b. A fixed width is the least that holds the level's largest value".
pub fn choose(values: &[u32]) -> (u8, u64) {
    // The codes go up in the order in which they win a tie.
    let sized = (0..=255).filter_map(|code| Some((size(values, code)?, code)));
    let (size, code) = sized.min().expect("width 32 holds every level");
    (code, size)
}

/// "Each number is written highest bit first".
fn write(bits: &mut Vec<bool>, number: u32, width: u32) {
    for place in (0..width).rev() {
        bits.push((number >> place) & 1 == 1);
    }
}

/// The level's part, or none where `size` gives none.
pub fn encode(values: &[u32], code: u8) -> Option<Vec<u8>> {
    size(values, code)?;
    let mut bits = Vec::new();
    match kind(code) {
        Kind::Fixed(w) => {
            for &value in values {
                write(&mut bits, value, w);
            }
        }
        Kind::Chunked(b) => {
            let counted = values.iter().map(|&value| (value, chunk_count(value, b)));
            let mut here: Vec<(u32, u32)> = counted.collect();
            // "Layer 1 holds the first chunks of all values of the level, layer 2 the second chunks of those that have
            // one, and so on, in node order."
            for layer in 1.. {
                here.retain(|&(_, count)| count >= layer);
                if here.is_empty() {
                    break;
                }
                // "A layer is its continuation bits (1: another chunk follows), then its chunks." The least significant
                // chunk comes first.
                for &(_, count) in &here {
                    bits.push(count > layer);
                }
                for &(value, _) in &here {
                    write(&mut bits, (value >> ((layer - 1) * b)) % (1 << b), b);
                }
            }
        }
        Kind::Refused => return None,
    }
    // "Bits fill bytes from the top, and a level is padded with zero bits to whole bytes."
    while bits.len() % 8 != 0 {
        bits.push(false);
    }
    Some(bits.chunks(8).map(|byte| number(byte) as u8).collect())
}

/// The number that these bits are, highest first.
fn number(bits: &[bool]) -> u64 {
    bits.iter().fold(0, |sum, &bit| 2 * sum + u64::from(bit))
}

/// The bits [from, from + length) of the part, or none where they do not lie in it. The numbers are wide, so that no
/// count or index makes them overflow.
fn bits(part: &[u8], from: u128, length: u128) -> Option<Vec<bool>> {
    if from + length > 8 * part.len() as u128 {
        return None;
    }
    let bit = |place: u128| part[(place / 8) as usize] >> (7 - place % 8) & 1 == 1;
    Some((from..from + length).map(bit).collect())
}

/// "The fewest bytes for its width and number of values" (Ticket 12): as many as hold their bits.
pub fn fewest_bytes(width: u32, count: usize) -> usize {
    (width as usize * count).div_ceil(8)
}

/// Value `index` of the `count` that the part holds in this code, or none where the fetch is refused. The index is
/// below the count.
pub fn fetch(part: &[u8], code: u8, count: usize, index: usize) -> Option<u32> {
    assert!(index < count);
    match kind(code) {
        Kind::Fixed(w) => {
            let from = index as u128 * u128::from(w);
            // "Refusal 9 then remains for chunked levels only" (Ticket 12).
            let bits = bits(part, from, u128::from(w)).expect("opening tests a fixed level's bytes");
            Some(number(&bits) as u32)
        }
        Kind::Chunked(b) => fetch_chunked(part, u128::from(b), count as u128, index as u128),
        Kind::Refused => None,
    }
}

fn fetch_chunked(part: &[u8], b: u128, count: u128, index: u128) -> Option<u32> {
    let (mut start, mut count, mut index) = (0, count, index);
    // The value's bits, least significant first, as many as its chunks have.
    let mut value = Vec::new();
    loop {
        let end = start + count + count * b;
        // "It needs each layer it reads to lie whole in the part."
        if end > 8 * part.len() as u128 {
            return None;
        }
        let continues = bits(part, start, count)?;
        let chunk = bits(part, start + count + index * b, b)?;
        value.extend(chunk.iter().rev());
        if !continues[index as usize] {
            break;
        }
        let ones = |bits: &[bool]| bits.iter().filter(|&&bit| bit).count() as u128;
        index = ones(&continues[..index as usize]);
        count = ones(&continues);
        start = end;
    }
    // Refusal 9: "its value is 2^32 or more (chunks of zeros on top add nothing)".
    if value.iter().skip(32).any(|&bit| bit) {
        return None;
    }
    value.truncate(32);
    value.reverse();
    Some(number(&value) as u32)
}
