//! The proved functions on plain numbers.
//!
//! docs/LAYOUT.md says which numbers a record, a group and the settings have, of 64 bits with a sign, one a value. A kind goes by
//! [`Kind::number`](crate::Kind::number), a talker by its place in [`Talker::ALL`](crate::Talker::ALL). Here a caller can say what a typed
//! record cannot: a value that is marked missing and is not zero, a number that is no mark, one that no record holds, a kind or a talker
//! that there is not; all are refused. The numbers of an index have 64 bits without a sign.

pub use crate::ffi::{counts, feed, next_line, places, read, read_group, start, step, write, write_group};
pub use crate::ffi_index::{index_add, index_find, index_read, index_write};
pub use crate::ffi_runs::run_step;

/// The most numbers that a record has, its talker among them.
pub const RECORD: usize = 33;

/// How many numbers a sky has: talker, count, and seven for each of 36 places.
pub const GROUP: usize = 254;

/// How many numbers the settings have.
pub const SETTINGS: usize = 11;

/// How many numbers an entry of an index has: exhibit number, offset and length of its line.
pub const ENTRY: usize = 3;

/// The most bytes that an entry of an index takes.
pub const ENTRY_BYTES: usize = 11;

/// What a number is.
#[derive(Clone, Copy, Debug, PartialEq, Eq)]
pub enum Cell {
    /// Whether the value behind it is there: 0 where it is missing, 1 where it is there.
    Mark,
    /// A value without a sign.
    Plain,
    /// A value with a sign.
    Signed,
}
