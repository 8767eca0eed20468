//! The lines of an input, whatever pieces it comes in: those of all its bytes at once, each once and at its place, and what errors do.

mod common;

use castanwel::{lines, lines_from, read, Exhibit, Index, Line, LONGEST};
use common::{samples, some_line, Rng};
use std::io::{self, Cursor, ErrorKind, Read};

const DAY: &[u8] = include_bytes!("../../samples/day.log");

/// A log of lines, damaged ones and noise among them.
fn mixed(rng: &mut Rng, pieces: usize) -> Vec<u8> {
    let samples = samples();
    let mut log = DAY.to_vec();
    for _ in 0..pieces {
        log.extend(some_line(rng, &samples));
        let noise = rng.of(&[0, 0, 0, 1, 5, 90, 400]);
        log.extend((0..noise).map(|_| rng.of(b"$\r\nAB,*")));
    }
    log
}

/// The lines in a slice, each with its offset.
fn in_slice(log: &[u8]) -> Vec<(u64, &[u8])> {
    lines(log).map(|line| (line.as_ptr() as u64 - log.as_ptr() as u64, line)).collect()
}

/// The lines of an input that gives no error.
fn in_input(input: impl Read) -> Vec<Line> {
    lines_from(input).collect::<io::Result<_>>().expect("an input without errors")
}

/// Sees that an input has the lines that its bytes have.
fn agrees(input: impl Read, log: &[u8], about: &str) {
    let (given, expected) = (in_input(input), in_slice(log));
    assert_eq!(given.len(), expected.len(), "{}", about);
    for (line, (offset, bytes)) in given.iter().zip(expected) {
        assert_eq!((line.offset(), line.bytes()), (offset, bytes), "{}", about);
    }
}

/// Gives what a slice holds in pieces of lengths that a function says; 0 stands for a read that is interrupted.
struct Pieces<'a, F> {
    rest: &'a [u8],
    next: F,
}

impl<F: FnMut() -> usize> Read for Pieces<'_, F> {
    fn read(&mut self, into: &mut [u8]) -> io::Result<usize> {
        match (self.next)() {
            0 => Err(ErrorKind::Interrupted.into()),
            few => {
                let few = few.min(into.len());
                self.rest.read(&mut into[..few])
            }
        }
    }
}

#[test]
fn pieces_of_every_length() {
    let log = mixed(&mut Rng::new(81), 60);
    assert!(in_slice(&log).len() > 50);
    for length in (1..=200).chain([8191, 8192, 8193]) {
        agrees(Pieces { rest: &log, next: || length }, &log, &format!("pieces of {}", length));
    }
    agrees(&log[..], &log, "as it comes");
}

#[test]
fn a_cut_at_every_place() {
    let log = mixed(&mut Rng::new(82), 8);
    for cut in 1..log.len() {
        agrees(log[..cut].chain(&log[cut..]), &log, &format!("cut at {}", cut));
        agrees(&log[..cut], &log[..cut], &format!("the first {}", cut));
    }
}

#[test]
fn pieces_of_any_length_and_interrupted_reads() {
    for seed in 0..40 {
        let log = mixed(&mut Rng::new(seed), 500);
        let mut rng = Rng::new(1000 + seed);
        let next = || rng.of(&[0, 1, 2, 80, 81, 82, 83, 84, 500, 8100, 9000]);
        agrees(Pieces { rest: &log, next }, &log, &format!("seed {}", seed));
    }
}

#[test]
fn lines_about_the_longest_at_the_end_of_the_buffer() {
    for length in 70..90 {
        let line = [b"$".to_vec(), vec![b'A'; length - 2], b"\n".to_vec()].concat();
        for before in (8192 - 90..=8192).chain([0, 1]) {
            let log = [vec![b'.'; before], line.clone(), line.clone(), b"$rest".to_vec()].concat();
            agrees(&log[..], &log, &format!("{} bytes behind {}", length, before));
            assert_eq!(in_input(&log[..]).len(), if length <= LONGEST { 2 } else { 0 });
        }
    }
}

#[test]
fn inputs_without_lines() {
    for log in
        [&b""[..], b"\n", b"$", b"noise", b"$GPGSV,1,1,00*79\r", &[b'$'; 20_000], &[b'A'; 20_000], &[b'\n'; 20_000]]
    {
        assert_eq!(in_input(log), []);
        assert_eq!(in_input(Pieces { rest: log, next: || 1 }), []);
    }
}

/// Gives some bytes, then an error, then more bytes.
struct Failing<'a> {
    first: &'a [u8],
    has_failed: bool,
}

impl Read for Failing<'_> {
    fn read(&mut self, into: &mut [u8]) -> io::Result<usize> {
        if self.first.is_empty() && !self.has_failed {
            self.has_failed = true;
            return Err(ErrorKind::BrokenPipe.into());
        }
        let mut bytes = if self.has_failed { &b"$PIRER,0*40\r\n"[..] } else { self.first };
        let came = bytes.read(into)?;
        self.first = if self.has_failed { self.first } else { bytes };
        Ok(came)
    }
}

#[test]
fn an_error_is_given_once_and_ends_the_lines() {
    let log = b"$GPGSV,1,1,00*79\r\n$PIRER,0*40\r\n$GP";
    let mut given = lines_from(Failing { first: log, has_failed: false });
    let first = given.next().expect("a line").expect("before the error");
    assert_eq!(first.bytes(), &log[..18]);
    assert_eq!(given.next().expect("a line").expect("before the error").offset(), 18);
    assert_eq!(given.next().expect("the error").unwrap_err().kind(), ErrorKind::BrokenPipe);
    for _ in 0..3 {
        assert!(given.next().is_none());
    }
}

#[test]
fn nothing_is_read_past_the_end() {
    let mut reads = 0;
    let mut given = lines_from(Pieces { rest: b"$PIRER,0*40\r\n$PI", next: || (reads += 1, 100).1 });
    assert_eq!(given.by_ref().count(), 1);
    assert!(given.next().is_none() && given.next().is_none());
    drop(given);
    assert_eq!(reads, 2);
}

/// A line is given when its LF has come, before anything more is read.
#[test]
fn a_line_is_not_waited_for() {
    let none_more = Failing { first: b"$PIRER,0*40\r\n", has_failed: false };
    let mut given = lines_from(none_more);
    assert!(given.next().expect("a line").is_ok());
    assert!(given.next().expect("the error").is_err());
}

#[test]
fn a_line_reads_prints_and_is_found_again() {
    let given = in_input(DAY);
    assert_eq!(given.iter().filter(|line| read(line).is_ok()).count(), 10);
    let last = given[given.len() - 1];
    assert_eq!(last, last.clone());
    assert_ne!(last, given[0]);
    assert_eq!(last.as_ref(), &last[..]);
    let exhibit = Exhibit { number: 1, offset: last.offset(), length: last.len() as u64 };
    let index = Index::from_entries(&[exhibit]).expect("an entry in range");
    assert_eq!(index.line(Cursor::new(DAY), 1).expect("the line"), last.bytes());
    let line = in_input(&b"..$\x01\"A\r\n"[..])[0];
    assert_eq!(format!("{:?}", line), r#"Line(2, "$\x01\"A\r\n")"#);
    let given = lines_from(DAY);
    assert_eq!(format!("{:?}", given), "LinesFrom { bytes: 0, has_ended: false, .. }");
}
