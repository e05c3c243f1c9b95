//! The program `pinlist` against the slow reference, byte by byte of its output.

use std::io::{ErrorKind, Write};
use std::process::{ChildStdin, Command, Stdio};
use std::thread;
use std::time::{Duration, Instant};

use gemcotton_tests::corpus::kind;
use gemcotton_tests::lists::{mirrored, rising};
use gemcotton_tests::random::Random;
use gemcotton_tests::reference::strip as reference;
use gemcotton_tests::reference::strip::{image, Refusal, PINS};
use gemcotton_tests::strips::{packed, A, B};

/// The program, which is built before the tests.
const PINLIST: &str = concat!(env!("CARGO_MANIFEST_DIR"), "/../target/bin/pinlist");

/// The most bytes that it takes.
const MOST: usize = 65_536;

// ---- Runs ----

/// Writes the input in pieces of this length, with a pause before each.
fn feed(mut stdin: ChildStdin, input: &[u8], piece: usize, pause: Duration) {
    for bytes in input.chunks(piece) {
        thread::sleep(pause);
        match stdin.write_all(bytes) {
            // What is too long need not be read to its end.
            Err(error) if input.len() > MOST && error.kind() == ErrorKind::BrokenPipe => return,
            written => written.expect("the program reads all of its input"),
        }
    }
}

/// What the program prints for this input, so fed.
fn output_in_pieces(input: &[u8], piece: usize, pause: Duration) -> String {
    let mut child = Command::new(PINLIST)
        .stdin(Stdio::piped())
        .stdout(Stdio::piped())
        .stderr(Stdio::piped())
        .spawn()
        .expect("the program is built before the tests");
    let stdin = child.stdin.take().expect("a pipe");
    let output = thread::scope(|scope| {
        // While the output is read, so that neither side waits for the other for ever.
        scope.spawn(|| feed(stdin, input, piece, pause));
        child.wait_with_output().expect("output")
    });
    assert!(output.status.success(), "{}", output.status);
    assert!(output.stderr.is_empty(), "{output:?}");
    String::from_utf8(output.stdout).expect("letters and digits")
}

fn output(input: &[u8]) -> String {
    output_in_pieces(input, MOST, Duration::ZERO)
}

/// "Header then position and time".
fn listing(times: &[u32]) -> String {
    let lines = times.iter().enumerate();
    let lines: String = lines.map(|(i, time)| format!("{i} {time}\n")).collect();
    format!("pins {}\n{lines}", times.len())
}

/// What it must print, by the reference: "Longer input prints `too long`. It checks, then lists by access; a refused
/// check prints only a line".
fn expected(input: &[u8]) -> String {
    if input.len() > MOST {
        return "too long\n".to_string();
    }
    match reference::check(input, reference::access) {
        Ok(n) => {
            let access = |i| reference::access(input, i).expect("a strip that check accepts");
            let times: Vec<u32> = (0..n).map(|i| access(i).0).collect();
            listing(&times)
        }
        Err(Refusal { number, carried }) => format!("refused {number} {carried}\n"),
    }
}

/// The program must print this.
fn check_output(input: &[u8], expected: &str) {
    let found = output(input);
    let (length, front) = (found.len(), found.get(..200).unwrap_or(&found));
    assert!(found == expected, "{length} bytes printed: {front}");
}

/// The program must print what the reference says, and this is a single line.
fn check_line(input: &[u8], line: &str) {
    assert_eq!(expected(input), format!("{line}\n"));
    check_output(input, &format!("{line}\n"));
}

// ---- Marked strips ----

#[test]
fn marked_strips() {
    let lines = "pins 5\n0 100\n1 250\n2 250\n3 400\n4 1000\n";
    assert_eq!(expected(&A), lines);
    check_output(&A, lines);
    check_output(&B, "pins 1\n0 0\n");
}

#[test]
fn input_in_pieces() {
    let pause = Duration::from_millis(3);
    for piece in [1, 3, 7] {
        for input in [&A[..], &A[..20], &A[..28]] {
            let found = output_in_pieces(input, piece, pause);
            assert_eq!(found, expected(input));
        }
    }
    let times = rising(2000, || 3);
    let strip = packed(&times);
    let found = output_in_pieces(&strip, 100, Duration::ZERO);
    assert!(found == listing(&times));
}

// ---- Strips of the corpus ----

/// The program must print what the reference says of every so many strips of a kind of the corpus, and the refusal that
/// is known.
fn check_kind(name: &str, every: usize) {
    let mut cases = 0;
    (kind(name).cases)(&mut Random(2), &mut |case| {
        cases += 1;
        if cases % every == 0 {
            let line = expected(&case.strip);
            check_output(&case.strip, &line);
            if let Some(Refusal { number, carried }) = case.refused {
                assert_eq!(line, format!("refused {number} {carried}\n"));
            }
        }
    });
    assert!(cases >= every, "{cases} of {name}");
}

#[test]
fn whole_strips() {
    check_kind("short_lists", 20);
    check_kind("bits_after_the_values", 50);
}

#[test]
fn refused_strips() {
    check_kind("examples", 1);
    check_kind("refused_at_every_level", 5);
    check_kind("refused_codes", 300);
    check_kind("wrong_lengths", 500);
    check_kind("wrong_lengths_at_every_level", 50);
    check_kind("sets_of_faults", 7);
    check_kind("cuts_and_bytes_added", 500);
}

#[test]
fn damaged_strips() {
    check_kind("every_byte", 1000);
    check_kind("refused_nodes", 50);
    check_kind("nodes_past_others", 50);
    check_kind("random_parts", 50);
}

// ---- Long strips ----

/// A list that packs to this many bytes, and its strip.
fn list_of_bytes(length: usize, random: &mut Random) -> (Vec<u32>, Vec<u8>) {
    let counts: Vec<usize> = (1..=PINS).collect();
    loop {
        let times = rising(PINS, || random.of_width(9));
        let strip = |n: usize| packed(&times[..n]);
        // Each pin takes a byte or two, so that a longer list has a longer strip, nearly always.
        let near = counts.partition_point(|&n| strip(n).len() + 40 < length);
        for &n in counts[near..].iter().take(100) {
            let strip = strip(n);
            if strip.len() == length {
                return (times[..n].to_vec(), strip);
            }
        }
    }
}

#[test]
fn as_many_bytes_as_it_takes() {
    let mut random = Random(3);
    let (times, mut strip) = list_of_bytes(MOST, &mut random);
    check_output(&strip, &listing(&times));
    // One byte more or less, and other bytes in their place.
    strip.push(0);
    check_line(&strip, "too long");
    strip.truncate(MOST - 1);
    check_line(&strip, "refused 13 0");
    check_line(&vec![0; MOST], "refused 6 0");
    check_line(&random.bytes(MOST), "refused 6 0");
    check_line(&[&A[..], &vec![0; MOST - A.len()]].concat(), "refused 13 0");
    // A part with bytes after its value, in a fixed code and in chunks, and one that is a chain of chunks without an end.
    check_line(&image(1, &[(32, vec![0; MOST - 12])]), "refused 23 1");
    check_line(&image(1, &[(72, vec![0; MOST - 12])]), "refused 12 0");
    check_line(&image(1, &[(72, vec![0xFF; MOST - 12])]), "refused 9 1");
}

#[test]
fn more_bytes_than_it_takes() {
    let mut random = Random(4);
    let (_, strip) = list_of_bytes(MOST + 1, &mut random);
    check_line(&strip, "too long");
    for length in [MOST + 1, MOST + 2, 2 * MOST, 1_000_000] {
        check_line(&vec![0; length], "too long");
        check_line(&random.bytes(length), "too long");
    }
    let pause = Duration::from_micros(50);
    assert_eq!(output_in_pieces(&strip, 1000, pause), "too long\n");
}

#[test]
fn as_many_pins_as_there_can_be() {
    let mut random = Random(5);
    let small = rising(PINS, || random.of_width(2));
    let great = mirrored(&small);
    for times in [vec![0; PINS], vec![u32::MAX; PINS], small, great] {
        let strip = packed(&times);
        assert!(strip.len() <= MOST);
        let start = Instant::now();
        check_output(&strip, &listing(&times));
        assert!(start.elapsed() < Duration::from_secs(10));
    }
}
