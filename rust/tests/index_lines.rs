//! The lines of exhibits, out of the log that the index is of and out of others.

mod common;

use castanwel::{lines, Exhibit, Index, NoLine};
use common::{samples, some_line, Rng};
use std::error::Error;
use std::fs::{self, File};
use std::io::{self, Cursor, Read, Seek, SeekFrom};
use std::{env, process};

/// A log with damaged lines and noise.
fn log(seed: u64) -> Vec<u8> {
    let (samples, mut rng, mut log) = (samples(), Rng::new(seed), Vec::new());
    for _ in 0..300 {
        log.extend(some_line(&mut rng, &samples));
        log.extend((0..rng.of(&[0, 0, 1, 90])).map(|_| rng.of(b"$\r\nAB,*")));
    }
    log
}

/// Every found line of a log that can be an exhibit, by its number among all found lines.
fn exhibits(log: &[u8]) -> Vec<(Exhibit, &[u8])> {
    let mut found = Vec::new();
    for (i, line) in lines(log).enumerate() {
        let offset = line.as_ptr() as usize - log.as_ptr() as usize;
        found.push((Exhibit { number: i as u64 + 1, offset: offset as u64, length: line.len() as u64 }, line));
    }
    found.retain(|(exhibit, _)| exhibit.length >= 7);
    found
}

fn index_of(found: &[(Exhibit, &[u8])]) -> Index {
    let entries: Vec<Exhibit> = found.iter().map(|&(exhibit, _)| exhibit).collect();
    Index::from_entries(&entries).expect("the lines of a log are in order")
}

#[test]
fn each_line_of_a_log() {
    for seed in 0..20 {
        let log = log(seed);
        let found = exhibits(&log);
        let index = index_of(&found);
        assert!(found.len() > 200);
        let mut cursor = Cursor::new(&log);
        for (exhibit, line) in found.iter().rev() {
            assert_eq!(index.line(&mut cursor, exhibit.number).expect("the log of the index"), *line);
        }
    }
}

#[test]
fn a_log_in_a_file() {
    let log = log(30);
    let found = exhibits(&log);
    let path = env::temp_dir().join(format!("castanwel-index-{}", process::id()));
    fs::write(&path, &log).expect("the log can be written");
    let file = File::open(&path).expect("the log can be opened");
    fs::remove_file(&path).expect("the log can be removed");
    let index = index_of(&found);
    for (exhibit, line) in &found {
        assert_eq!(index.line(&file, exhibit.number).expect("the log of the index"), *line);
    }
    let folder = File::open(env::temp_dir()).expect("a folder can be opened");
    assert!(matches!(index.line(folder, found[0].0.number), Err(NoLine::Unread(_))));
}

#[test]
fn a_log_that_is_not_the_indexs() {
    let log = log(31);
    let found = exhibits(&log);
    let index = index_of(&found);
    let moved = [b"A", &log[..]].concat();
    for (exhibit, _) in &found {
        let end = (exhibit.offset + exhibit.length) as usize;
        for other in [&moved[..], &log[1..], &log[..end - 1], b""] {
            assert!(matches!(index.line(Cursor::new(other), exhibit.number), Err(NoLine::OtherLog)), "{:?}", exhibit);
        }
        assert!(index.line(Cursor::new(&log[..end]), exhibit.number).is_ok());
    }
}

#[test]
fn every_changed_byte_of_a_line() {
    let line = b"$GPGSV,1,1,00*79\r\n";
    let last = line.len() - 1;
    let index = Index::from_bytes([1, 0, 18]).expect("an index of one entry");
    for at in 0..line.len() {
        for byte in 0..=255 {
            let mut other = *line;
            other[at] = byte;
            let whole = (byte == b'$') == (at == 0) && (byte == b'\n') == (at == last);
            match index.line(Cursor::new(&other), 1) {
                Ok(given) => assert!(whole && given == other, "{} at {}", byte, at),
                Err(NoLine::OtherLog) => assert!(!whole, "{} at {}", byte, at),
                Err(error) => panic!("{}", error),
            }
        }
    }
}

/// A log that cannot be read, from its seeking or its reading on.
struct Broken {
    seeks: bool,
}

impl Seek for Broken {
    fn seek(&mut self, to: SeekFrom) -> io::Result<u64> {
        assert_eq!(to, SeekFrom::Start(5));
        if self.seeks {
            Ok(5)
        } else {
            Err(io::Error::new(io::ErrorKind::Other, "no seeking"))
        }
    }
}

impl Read for Broken {
    fn read(&mut self, _: &mut [u8]) -> io::Result<usize> {
        assert!(self.seeks);
        Err(io::Error::new(io::ErrorKind::UnexpectedEof, "no reading"))
    }
}

#[test]
fn why_there_is_no_line() {
    let index = Index::from_bytes([2, 5, 18]).expect("an index of one entry");
    let said = |error: NoLine| (error.to_string(), error.source().map(ToString::to_string));
    let text = |text: &str| text.to_owned();
    let absent = "refusal 12: no exhibit has that number";
    assert_eq!(said(index.line(Broken { seeks: false }, 10).unwrap_err()), (text(absent), Some(text(absent))));
    for (seeks, what) in [(false, "no seeking"), (true, "no reading")] {
        let expected = (format!("the log cannot be read: {}", what), Some(text(what)));
        assert_eq!(said(index.line(Broken { seeks }, 2).unwrap_err()), expected);
    }
    let other = "the log is not the index's: where the exhibit should be, there is no line";
    assert_eq!(said(index.line(Cursor::new(b""), 2).unwrap_err()), (text(other), None));
}
