//! Records written as lines: both sides over the records of the same lines.

use crate::rattle;
use crate::records::made;
use bench::read::{read_line, Sentence};
use bench::write::{write, Answer};

/// How often each record is written, so that reading it is a small part of the time.
const TIMES: usize = 100;

/// How many lines a row has.
const LINES: usize = 5_000;

#[inline(never)]
fn write_by_call(out: &mut [u8], sentence: &Sentence) -> Answer<usize> {
    write(out, sentence)
}

/// Reads `line` once and writes its record `times` times into `out`, from 0 and from 1 on in turns. The
/// length of the last line written; 0 where the line does not read or the writer refused.
fn write_times(line: &[u8], out: &mut [u8], times: usize) -> usize {
    let answer = read_line(line);
    made(&answer);
    let mut length = 0;
    if let Ok(sentence) = &answer {
        for i in 0..times {
            let k = if i % 2 < out.len() { i % 2 } else { 0 };
            length = write_by_call(&mut out[k..], sentence).unwrap_or(0);
        }
    }
    length
}

/// The same by the proved reader and writer, by way of numbers that are lent as they stand.
fn write_times_by_rattle(line: &[u8], record: &mut rattle::Numbers, out: &mut [u8], times: usize) -> usize {
    let mut length = 0;
    if rattle::read(line, record).0 == 0 {
        for i in 0..times {
            let k = if i % 2 < out.len() { i % 2 } else { 0 };
            length = rattle::write(record, &mut out[k..]);
        }
    }
    length
}

fn all(lines: &[&[u8]], times: usize, mut write_times: impl FnMut(&[u8], &mut [u8], usize) -> usize) -> u64 {
    let mut out = [0; 84];
    lines.iter().fold(0, |sum, line| {
        let n = write_times(line, &mut out, times);
        sum * 31 % 1_000_003 + n as u64 + u64::from(out[n / 2])
    })
}

/// Over lines that were chosen for it, each record `TIMES` times.
pub fn all_by_rattle(lines: &[&[u8]]) -> u64 {
    let mut record = rattle::Numbers::new();
    all(lines, TIMES, |line, out, times| write_times_by_rattle(line, &mut record, out, times))
}

pub fn all_by_rust(lines: &[&[u8]]) -> u64 {
    all(lines, TIMES, write_times)
}

/// The same with each line read and its record written once.
pub fn each_by_rattle(lines: &[&[u8]]) -> u64 {
    let mut record = rattle::Numbers::new();
    all(lines, 1, |line, out, times| write_times_by_rattle(line, &mut record, out, times))
}

pub fn each_by_rust(lines: &[&[u8]]) -> u64 {
    all(lines, 1, write_times)
}

/// How many bytes are written, and how many lines, where each record is written `TIMES` times.
pub fn size(lines: &[&[u8]]) -> (usize, usize) {
    let (bytes, count) = size_each(lines);
    (bytes * TIMES, count * TIMES)
}

/// The same where it is written once.
pub fn size_each(lines: &[&[u8]]) -> (usize, usize) {
    (lines.iter().map(|l| written_once(l, &mut [0; 84])).sum(), lines.len())
}

fn written_once(line: &[u8], out: &mut [u8]) -> usize {
    write_times_by_rattle(line, &mut rattle::Numbers::new(), out, 1)
}

/// What each side writes of a line and leaves in an output of so many bytes.
fn both(line: &[u8], room: usize, times: usize) -> usize {
    let (mut one, mut two) = ([0xaa; 100], [0xaa; 100]);
    let n = write_times_by_rattle(line, &mut rattle::Numbers::new(), &mut one[..room], times);
    let m = write_times(line, &mut two[..room], times);
    assert_eq!((n, &one[..]), (m, &two[..]), "writing {:?} to {} bytes", String::from_utf8_lossy(line), room);
    n
}

/// Both sides write the same bytes of each line that reads, and leave the same where they refuse.
pub fn agree(lines: &[&[u8]]) {
    let (mut written, mut too_long, mut same) = (0, 0, 0);
    for line in lines.iter().filter(|l| rattle::refusal(l).0 == 0) {
        let n = both(line, 100, 1);
        assert_eq!(both(line, 100, 2), n);
        for room in 0..n {
            assert_eq!(both(line, room, 1), 0);
        }
        let mut out = [0; 100];
        written_once(line, &mut out);
        written += usize::from(n > 0);
        too_long += usize::from(n == 0);
        same += usize::from(&out[..n] == *line);
    }
    println!("same writings: {} lines written, {} of them as they were read; {} refused as too long", written, same, too_long);
}

/// Some of the lines whose records can be written, from all over the log.
pub fn chosen<'a>(lines: &[&'a [u8]]) -> Vec<&'a [u8]> {
    let good: Vec<&[u8]> = lines.iter().copied().filter(|l| written_once(l, &mut [0; 84]) > 0).collect();
    let step = (good.len() / LINES).max(1);
    good.iter().copied().step_by(step).cycle().take(LINES).collect()
}
