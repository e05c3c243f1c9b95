//! The implementation for speed, on the lists of the benchmark: it must answer as the lists tell, and as the reference
//! does where that is not too slow.

use gemcotton_tests::calls::{Input, Outcome};
use gemcotton_tests::fast;
use gemcotton_tests::plain::Plain;
use gemcotton_tests::reference::strip as reference;
use gemcotton_tests::strips::TIMES_A;
use gemcotton_tests::tunes::{Tune, GAPS, LENGTHS, SHORT};

fn check(tune: &Tune) {
    let Tune { times, strip, positions, targets, sweeps } = tune;
    let (n, plain) = (times.len(), Plain::new(times, strip, None));
    let ask = |number| Input { number, ..Input::default() };
    let lend = |list: &[u32], room| Input { list: list.to_vec(), room, ..Input::default() };
    let length = strip.len();
    let packed = Outcome::of_bytes(length, |out| fast::pack(times, out).map(|length| vec![length]));
    assert!(packed == plain.pack(&lend(times, length)));
    assert_eq!(fast::check(strip), Ok(n));
    let unpacked = Outcome::of_words(n, |out| fast::unpack(strip, out).map(|pins| vec![pins]));
    assert!(unpacked == plain.unpack(&lend(&[], n)));
    assert_eq!(fast::repeat(strip), Ok(()));
    for &i in positions {
        let found = fast::access(strip, i).map(|(time, nodes)| vec![time as usize, nodes]);
        assert_eq!(found, plain.access(&ask(i)).given);
    }
    for &t in targets {
        let found = fast::search(strip, t).map(|(position, nodes)| vec![position, nodes]);
        assert_eq!(found, plain.search(&ask(t as usize)).given);
    }
    for targets in sweeps.iter().flatten() {
        let sweep = |out: &mut [u32]| fast::sweep(strip, targets, out).map(|nodes| vec![nodes]);
        let found = Outcome::of_words(targets.len(), sweep);
        assert!(found == plain.sweep(&lend(targets, targets.len())));
    }
    for (&i, &t) in positions.iter().zip(targets).take(50) {
        assert_eq!(fast::access(strip, i), reference::access(strip, i));
        assert_eq!(fast::search(strip, t), reference::search(strip, t));
    }
}

#[test]
fn lists_of_the_benchmark() {
    check(&Tune::new(TIMES_A.to_vec()));
    for gaps in &GAPS {
        for n in LENGTHS.into_iter().chain([SHORT]) {
            check(&Tune::with_gaps(n, gaps));
        }
    }
}
