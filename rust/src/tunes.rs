//! The lists that the benchmark times the calls on, and what it asks of them.

use crate::lists::{rising, sorted};
use crate::random::Random;
use crate::reference::strip::PINS;
use crate::strips::packed;

/// The lengths of the lists.
pub const LENGTHS: [usize; 3] = [1000, 10_000, PINS];
/// The length of the shorter list for linearity.
pub const SHORT: usize = 4095;

/// The positions or targets looked up in one work, many lest the processor remember their paths.
pub const LOOKUPS: usize = 4096;

/// A kind of gaps.
pub struct Gaps {
    pub name: &'static str,
    draw: fn(&mut Random) -> u32,
}

pub const GAPS: [Gaps; 3] = [
    Gaps { name: "uniform", draw: |random| random.of_width(10) },
    // With mean 8.
    Gaps {
        name: "exponential",
        draw: |random| {
            let part = (1 + random.below(1 << 30)) as f64 / f64::from(1 << 30);
            (-8.0 * part.ln()).round() as u32
        },
    },
    Gaps {
        name: "chords",
        draw: |random| match random.below(10) {
            0 => 1 + random.below(1023) as u32,
            _ => 0,
        },
    },
];

/// A list with its strip, and what is asked of it.
pub struct Tune {
    pub times: Vec<u32>,
    pub strip: Vec<u8>,
    pub positions: Vec<usize>,
    pub targets: Vec<u32>,
    /// The targets of one sweep, of another one, and of sweeps of as many targets as pins: each of these has its own
    /// lest the processor remember them, about PINS in all.
    pub sweeps: [Vec<Vec<u32>>; 3],
}

impl Tune {
    pub fn new(times: Vec<u32>) -> Self {
        let mut random = Random(times.len() as u64);
        let (n, last) = (times.len(), times[times.len() - 1] as usize);
        let positions = (0..LOOKUPS).map(|_| random.below(n)).collect();
        let mut targets = |count| -> Vec<u32> { (0..count).map(|_| random.below(last + 2) as u32).collect() };
        Tune {
            strip: packed(&times),
            positions,
            targets: targets(LOOKUPS),
            sweeps: [(1, 1000), (1, PINS), (PINS / n, n)]
                .map(|(sweeps, count)| (0..sweeps).map(|_| sorted(targets(count))).collect()),
            times,
        }
    }

    pub fn with_gaps(n: usize, gaps: &Gaps) -> Self {
        let mut random = Random(1);
        Tune::new(rising(n, || (gaps.draw)(&mut random)))
    }
}
