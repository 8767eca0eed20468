//! Lines read to their records: both sides over the same lines.

use crate::{cut, rattle};
use bench::read::{read_line, Refusal, Sentence};
use std::arch::asm;
use std::env;
use std::fs;

/// Every sample line of the sources, one to a row, with what it gives after a TAB.
static SAMPLES: &str = include_str!("../../tests/samples.txt");

/// The log of all fifteen kinds, most lines damaged, that stands in the file named first, and the samples.
pub fn mixed() -> Vec<u8> {
    let name = env::args().nth(1).expect("the first argument names a log");
    let mut log = fs::read(name).expect("the log can be read");
    for row in SAMPLES.lines().filter(|row| row.starts_with('$')) {
        log.extend_from_slice(row.split('\t').next().expect("a first column").as_bytes());
        log.extend_from_slice(b"\r\n");
    }
    log
}

/// Has the compiler make `x` in memory, as a record is that somebody looks at.
pub fn made<T>(x: &T) {
    unsafe { asm!("/* {0} */", in(reg) x, options(nostack, preserves_flags)) }
}

#[inline(never)]
fn read_by_call(line: &[u8]) -> Result<Sentence, Refusal> {
    read_line(line)
}

/// The number and the field of the refusal of a line that Rust reads to its record.
fn read(line: &[u8]) -> (u8, usize) {
    let answer = read_by_call(line);
    made(&answer);
    match answer {
        Ok(_) => (0, 0),
        Err(refusal) => (refusal.no, refusal.field),
    }
}

fn all(lines: &[&[u8]], mut read: impl FnMut(&[u8]) -> (u8, usize)) -> u64 {
    lines.iter().fold(0, |sum, line| {
        let (no, field) = read(line);
        sum * 31 % 1_000_003 + u64::from(no) * 32 + field as u64
    })
}

/// The numbers are lent as the line before left them.
pub fn all_by_rattle(lines: &[&[u8]]) -> u64 {
    let mut record = rattle::Numbers::new();
    all(lines, |line| {
        let answer = rattle::read(line, &mut record);
        made(&record);
        answer
    })
}

/// The refusal alone: no numbers cross.
pub fn refusals_by_rattle(lines: &[&[u8]]) -> u64 {
    all(lines, rattle::refusal)
}

pub fn all_by_rust(lines: &[&[u8]]) -> u64 {
    all(lines, read)
}

/// Both sides give the same refusal, and the same field, on each line.
pub fn agree(lines: &[&[u8]]) {
    let mut numbers = [0; 6];
    for line in lines {
        let (no, field) = rattle::read(line, &mut rattle::Numbers::new());
        assert_eq!((no, field), read(line), "reading {:?}", String::from_utf8_lossy(line));
        assert_eq!((no, field), rattle::refusal(line), "refusal of {:?}", String::from_utf8_lossy(line));
        numbers[no as usize] += 1;
    }
    println!("same readings: {} lines; {} read, refused by number from 1 on: {:?}", lines.len(), numbers[0], &numbers[1..]);
}

/// As many of the lines that read, one after another and again from the first, as make a long run.
fn sound<'a>(log: &'a [u8], wanted: impl Fn(&[u8]) -> bool) -> Vec<&'a [u8]> {
    let lines: Vec<&[u8]> = cut(log).into_iter().filter(|l| rattle::refusal(l).0 == 0 && wanted(l)).collect();
    lines.iter().copied().cycle().take(100_000).collect()
}

const KINDS: [&str; 15] = [
    "GGA", "GLL", "GSA", "GSV", "RMC", "VTG", "ZDA", // of a talker
    "PIRPR", "PIRTR", "PIRSR", "PIRER", "PIRPA", "PIRTA", "PIRSA", "PIREA", // of the maker
];

/// Lines that read: of all kinds together, whose name is empty, and of each kind alone.
pub fn chosen(log: &[u8]) -> Vec<(&'static str, Vec<&[u8]>)> {
    let mut rows = vec![("", sound(log, |_| true))];
    for kind in KINDS {
        rows.push((kind, sound(log, |l| l[1..6].ends_with(kind.as_bytes()))));
    }
    rows
}
