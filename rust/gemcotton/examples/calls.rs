//! The calls on one strip: packs a list, checks the strip, looks it up by position and by time, walks it, and meets
//! refusals. Prints what it finds, as in `c/example.stdout`; `c/example.c` is the same in C. From the repository's
//! folder, with `target/staticlib/libstrip_c.a` built:
//!
//! ```sh
//! cargo run --manifest-path rust/Cargo.toml -p gemcotton --example calls
//! ```

use gemcotton::{access, check, height, pack, rank, repeat, search, sweep, unpack, up_to};
use gemcotton::{Accessed, Refusal, Searched, UpTo, Walker, MAX_BYTES};

/// The strike times, in milliseconds. Two strikes at 250 are a chord.
const LIST: [u32; 5] = [100, 250, 250, 400, 1000];

/// Times to look up in one sweep, none less than the one before.
const TARGETS: [u32; 3] = [250, 251, 1001];

/// A list that falls, which no strip holds.
const FALLING: [u32; 2] = [7, 6];

fn main() -> Result<(), Refusal> {
    // Room for any list's strip, which is the first `length` bytes.
    let mut out = vec![0; MAX_BYTES];
    let length = pack(&mut out, &LIST)?;
    println!("packed into {length} bytes");

    // A strip that comes from elsewhere is checked before its answers are relied on.
    let pins = check(&out[..length])?;
    println!("accepted, with {pins} pins");
    look_up(&out[..length])?;
    look_up_many(&out[..length], pins)?;
    list(&out[..length], pins)?;
    meet_refusals(&mut out, length, pins);
    Ok(())
}

/// Looks the strip up by position and by time.
fn look_up(strip: &[u8]) -> Result<(), Refusal> {
    let Accessed { time, nodes } = access(strip, 3)?;
    println!("position 3: {time} ms (nodes opened: {nodes})");
    let Searched { position, nodes } = search(strip, 251)?;
    println!("first at or after 251 ms: position {position} (nodes opened: {nodes})");
    let UpTo { strikes, nodes } = up_to(strip, 250)?;
    println!("at or before 250 ms: {strikes} strikes (nodes opened: {nodes})");
    Ok(())
}

/// By many times in one walk. The pin count is the answer where there is no strike at or after the target.
fn look_up_many(strip: &[u8], pins: usize) -> Result<(), Refusal> {
    let mut positions = [0; TARGETS.len()];
    let nodes = sweep(&mut positions, strip, &TARGETS)?;
    println!("sweep (nodes opened: {nodes})");
    for (target, position) in TARGETS.into_iter().zip(positions) {
        if (position as usize) < pins {
            println!("  first at or after {target} ms: position {position}");
        } else {
            println!("  first at or after {target} ms: none");
        }
    }
    Ok(())
}

/// Finds the first gap below 150 ms, and lists all times: at once, and one after the other.
fn list(strip: &[u8], pins: usize) -> Result<(), Refusal> {
    if let Some(position) = repeat(strip, 150)? {
        println!("first less than 150 ms after the one before: position {position}");
    }
    let mut times = vec![0; pins];
    unpack(&mut times, strip)?;
    print!("unpacked:");
    times.iter().for_each(|time| print!(" {time}"));
    println!("\nwalk");
    // The loop ends at the end, or after the first refusal.
    for (position, found) in Walker::new(strip).into_iter().enumerate() {
        println!("  position {position}: {} ms", found?.time);
    }
    println!("  end");
    Ok(())
}

fn meet_refusals(out: &mut [u8], length: usize, pins: usize) {
    // The strip without its last byte is refused. A refused step does not move the walker.
    println!("without its last byte");
    let cut = &out[..length - 1];
    let mut walker = Walker::new(cut);
    tell("check", check(cut).err());
    tell("step", walker.step().err());
    println!("  next position: {}", walker.next);

    // `Fetch` and `Time` carry a node, whose position `rank` tells. With the root's time changed to 0, its left child
    // has a time below 0.
    println!("with the root's time changed to 0");
    out[7 + 5 * height(pins)] = 0;
    let refusal = check(&out[..length]).err();
    tell("check", refusal);
    if let Some(Refusal::Time { node }) = refusal {
        println!("  node {node}: position {}", rank(pins, node).unwrap_or(pins));
    }

    // A list that falls.
    println!("7, 6");
    tell("pack", pack(out, &FALLING).err());
}

/// Tells a refusal, if it is one, by its number and its sentence.
fn tell(call: &str, refusal: Option<Refusal>) {
    if let Some(refusal) = refusal {
        println!("  {call}: refused {}: {refusal}", refusal.number());
    }
}
