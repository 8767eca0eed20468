//! The proved functions, as the crate castanwel has them, in the shapes that the rows compare.

use castanwel::numbers;
use castanwel::Refusal;

pub use castanwel::numbers::{next_line as next_line_or_rest, places, GROUP, RECORD, SETTINGS};
pub use castanwel::Finder;

/// A record as numbers: its kind, and at most so many.
pub struct Numbers {
    pub kind: u32,
    pub values: [i64; RECORD],
}

impl Numbers {
    pub fn new() -> Self {
        Numbers { kind: 0, values: [0; RECORD] }
    }
}

fn told(refusal: Option<Refusal>) -> (u8, usize, usize) {
    refusal.map_or((0, 0, 0), |r| (r.number, r.line, r.field))
}

/// 0 where `line` is a line, 1 where the line rule fails, 2 where the digits differ.
pub fn line_refusal(line: &[u8]) -> u8 {
    told(castanwel::line_refusal(line)).0
}

/// The number and the field of the refusal of a line that is read in full; 0 and 0 where it reads.
pub fn refusal(line: &[u8]) -> (u8, usize) {
    let (no, _, field) = told(castanwel::refusal(line));
    (no, field)
}

/// Reads a line to its record; number and field of the refusal, or 0 and 0.
pub fn read(line: &[u8], record: &mut Numbers) -> (u8, usize) {
    match numbers::read(line, &mut record.values) {
        Ok(kind) => {
            record.kind = kind;
            (0, 0)
        }
        Err(refusal) => (refusal.number, refusal.field),
    }
}

/// Writes the line of a record: its length, or 0 where it is refused.
pub fn write(record: &Numbers, out: &mut [u8]) -> usize {
    numbers::write(record.kind, &record.values, out).unwrap_or(0)
}

/// Reads a group to its numbers: number, line and field of the refusal, or zeros.
pub fn read_group(s: &[u8], sky: &mut [i64; GROUP]) -> (u8, usize, usize) {
    told(numbers::read_group(s, sky).err().map(Refusal::from))
}

/// The settings of the receiver at start.
pub fn start() -> [i64; SETTINGS] {
    let mut settings = [0; SETTINGS];
    numbers::start(&mut settings).expect("there is room for the settings");
    settings
}

/// Takes the line of a command: number, line and field of its refusal, or zeros, and the length of the reply.
pub fn step(settings: &mut [i64; SETTINGS], arrival: u32, line: &[u8], out: &mut [u8]) -> (u8, usize, usize, usize) {
    match numbers::step(settings, arrival, line, out) {
        Ok(length) => (0, 0, 0, length),
        Err(r) => (r.number, r.line, r.field, 0),
    }
}

/// Where the first line from `at` on lies, or `None`.
pub fn next_line(s: &[u8], at: usize) -> Option<(usize, usize)> {
    let (found, start, end) = next_line_or_rest(s, at);
    if found {
        Some((start, end))
    } else {
        None
    }
}
