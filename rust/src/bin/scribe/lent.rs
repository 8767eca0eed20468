//! Bytes and numbers that are lent, and the answer that says what was left in them.

use crate::words;
use castanwel::Refusal;

const FILL: u8 = 0xAA;

/// A buffer that tells whether a byte was changed which had to stay.
pub struct Lent {
    bytes: Vec<u8>,
    before: Vec<u8>,
    room: usize,
}

impl Lent {
    /// A buffer of so many bytes, of which so many are lent.
    pub fn new(size: usize, room: usize) -> Lent {
        Lent::with(&[], size, room)
    }

    /// The same, where some bytes stand at its start.
    pub fn with(first: &[u8], size: usize, room: usize) -> Lent {
        let mut bytes = first.to_vec();
        bytes.resize(size.max(first.len()), FILL);
        Lent { before: bytes.clone(), bytes, room }
    }

    /// What is lent.
    pub fn room(&mut self) -> &mut [u8] {
        &mut self.bytes[..self.room]
    }

    /// `ok` and what was written, or the refusal; `touched` where a byte was changed past what was written.
    pub fn answer(&self, written: Result<usize, Refusal>) -> String {
        let length = written.unwrap_or(0);
        if self.bytes.get(length..) != self.before.get(length..) {
            return touched();
        }
        match written {
            Ok(length) => format!("ok {}", words::hex(&self.bytes[..length])),
            Err(refusal) => refused(refusal),
        }
    }
}

/// What stands in lent numbers before a line or a group is read to them.
pub const STALE: i64 = 0x5555_5555_5555_5555;

/// What stands in lent numbers before an index is read to them.
pub const STALE_WIDE: u64 = 0xAAAA_AAAA_AAAA_AAAA;

/// Whether lent numbers are as they were.
pub fn is_stale(numbers: &[i64]) -> bool {
    numbers.iter().all(|&number| number == STALE)
}

/// The answer where something was changed that had to stay.
pub fn touched() -> String {
    "touched".to_owned()
}

/// The answer with number, line and field of a refusal.
pub fn refused(refusal: Refusal) -> String {
    format!("refused {} {} {}", refusal.number, refusal.line, refusal.field)
}
