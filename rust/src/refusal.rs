//! The one way in which everything here says no.

use std::error::Error;
use std::fmt;

/// A refusal: its number, and the line and the field that it is about.
///
/// The line is 1 for a single line, and 0 where none is to blame: a table of too many satellites, settings out of range, an index. The
/// field is counted from 1 after the address, and is 0 where none is named.
///
/// It prints its line only where the caller had more than one: `GROUP` says whether the call was about a group. Whoever writes the type
/// leaves it out, or writes [`GroupRefusal`].
///
/// ```
/// let damaged = b"$GPGSV,1,1,00*78\r\n";
/// let (of_line, of_group) = (castanwel::read(damaged), castanwel::read_group(damaged));
/// assert_eq!(of_line.unwrap_err().to_string(), "refusal 2: the two digits differ from the XOR of the body");
/// assert_eq!(of_group.unwrap_err().to_string(), "refusal 2 at line 1: the two digits differ from the XOR of the body");
/// ```
#[derive(Clone, Copy, Debug, PartialEq, Eq, Hash)]
#[must_use = "it says why nothing was done"]
pub struct Refusal<const GROUP: bool = false> {
    /// From 1 to 12; [`Refusal::meaning`] has each in words.
    pub number: u8,
    /// The line, counted from 1, or 0.
    pub line: usize,
    /// The field, counted from 1 after the address, or 0.
    pub field: usize,
}

/// The refusal of a call about a group, which prints its line, the first too. Turned into a [`Refusal`] it has the same number, line and
/// field, and prints every line but the first.
///
/// ```
/// fn satellites(group: &[u8]) -> Result<usize, castanwel::Refusal> {
///     Ok(castanwel::read_group(group)?.table.used().len())
/// }
/// assert_eq!(satellites(b"$GPGSV,1,1,01,05,,,*7D\r\n"), Ok(1));
/// assert_eq!(satellites(b"").unwrap_err().number, 1);
/// ```
pub type GroupRefusal = Refusal<true>;

impl From<GroupRefusal> for Refusal {
    fn from(GroupRefusal { number, line, field }: GroupRefusal) -> Refusal {
        Refusal { number, line, field }
    }
}

impl<const GROUP: bool> Refusal<GROUP> {
    /// What the number means.
    ///
    /// ```
    /// let refusal = castanwel::read(b"$GPGSV,1,1,00*78\r\n").unwrap_err();
    /// assert_eq!(refusal.meaning(), "the two digits differ from the XOR of the body");
    /// ```
    #[must_use]
    pub fn meaning(&self) -> &'static str {
        match self.number {
            1 => "the line rule fails, or a written line would pass 82 bytes",
            2 => "the two digits differ from the XOR of the body",
            3 => "the address is unknown",
            4 => "the kind does not have so many fields",
            5 => "a field is not of its form or range, or a value of a record is outside its range",
            6 => "a line does not go with its group",
            7 => "a satellite is repeated in its group",
            8 => "the output is shorter than what would be written",
            9 => "the sentence is not a command",
            10 => "the protocol of the port is not 4",
            11 => "the bytes are no index",
            12 => "no exhibit has that number",
            _ => "no number of a refusal",
        }
    }
}

impl<const GROUP: bool> fmt::Display for Refusal<GROUP> {
    fn fmt(&self, f: &mut fmt::Formatter<'_>) -> fmt::Result {
        let says_line = self.line > usize::from(!GROUP);
        write!(f, "refusal {}", self.number)?;
        match (says_line, self.field) {
            (true, 0) => write!(f, " at line {}", self.line)?,
            (true, field) => write!(f, " at line {}, field {}", self.line, field)?,
            (false, 0) => {}
            (false, field) => write!(f, " at field {}", field)?,
        }
        write!(f, ": {}", self.meaning())
    }
}

impl<const GROUP: bool> Error for Refusal<GROUP> {}

/// The refusal of a number, or nothing where the number is 0.
pub(crate) fn refused(number: u8, line: usize, field: usize) -> Result<(), Refusal> {
    if number == 0 {
        return Ok(());
    }
    Err(Refusal { number, line, field })
}

/// The same, of a call about a group.
pub(crate) fn group_refused(number: u8, line: usize, field: usize) -> Result<(), GroupRefusal> {
    if number == 0 {
        return Ok(());
    }
    Err(Refusal { number, line, field })
}
