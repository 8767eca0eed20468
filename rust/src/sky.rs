//! Satellite groups: several GSV lines read as a whole sky, and written from one.

use crate::ffi;
use crate::numbers::{Cell, GROUP};
use crate::records::Entry;
use crate::refusal::GroupRefusal;
use crate::sentence::Talker;
use crate::walk::{cells_of, in_order, put_up, take_down};
use std::fmt;

/// The length of the longest group: nine lines of 18 bytes without their satellites, and 36 satellites of 13 bytes, commas among them.
pub const LONGEST_GROUP: usize = 9 * 18 + 36 * 13;

in_order! {
    /// Satellites in order; blank by default.
    #[derive(Clone, Copy, Debug, PartialEq, Eq, Hash)]
    pub struct Table {
        /// How many of the places are used.
        pub count: u32,
        /// The satellites; the places that are not used are blank.
        pub entries: [Entry; 36],
    }
}

impl Default for Table {
    fn default() -> Table {
        Table { count: 0, entries: [Entry::default(); 36] }
    }
}

impl Table {
    /// A table of these satellites. Where there are more than 36, the count says so, and no group is written of it.
    ///
    /// ```
    /// use castanwel::{Entry, Table};
    /// let table = Table::of(&[Entry { number: 5, ..Entry::default() }]);
    /// assert_eq!((table.count, table.entries[0].number), (1, 5));
    /// ```
    #[must_use]
    pub fn of(satellites: &[Entry]) -> Table {
        let mut table = Table { count: u32::try_from(satellites.len()).unwrap_or(u32::MAX), ..Table::default() };
        for (place, satellite) in table.entries.iter_mut().zip(satellites) {
            *place = *satellite;
        }
        table
    }

    /// The satellites in the places that are used.
    ///
    /// ```
    /// let sky = castanwel::read_group(b"$GPGSV,1,1,01,05,,,*7D\r\n").unwrap();
    /// assert_eq!(sky.table.used().len(), 1);
    /// ```
    #[must_use]
    pub fn used(&self) -> &[Entry] {
        &self.entries[..self.entries.len().min(self.count as usize)]
    }

    /// What each number of a table is.
    ///
    /// ```
    /// use castanwel::numbers::Cell;
    /// let cells = castanwel::Table::cells();
    /// assert_eq!(cells.len(), 253);
    /// assert_eq!(cells[..4], [Cell::Plain, Cell::Plain, Cell::Mark, Cell::Plain]);
    /// ```
    #[must_use]
    pub fn cells() -> Vec<Cell> {
        cells_of(Table::default())
    }
}

in_order! {
    /// A whole sky: whose it is, and its satellites.
    #[derive(Clone, Copy, Debug, Default, PartialEq, Eq, Hash)]
    pub struct Sky {
        /// The talker of each line.
        pub talker: Talker,
        /// The satellites.
        pub table: Table,
    }
}

/// Reads a group as a whole sky. Refused with 1 to 7, at the first line that does not do.
///
/// ```
/// let sky = castanwel::read_group(b"$GPGSV,1,1,01,05,,,*7D\r\n").unwrap();
/// assert_eq!(sky.table.used()[0], castanwel::Entry { number: 5, ..castanwel::Entry::default() });
/// let refusal = castanwel::read_group(b"$GPGSV,5,5,17,77,71,048,53*43\r\n").unwrap_err();
/// assert_eq!(refusal.to_string(), "refusal 6 at line 1: a line does not go with its group");
/// ```
pub fn read_group(bytes: &[u8]) -> Result<Sky, GroupRefusal> {
    let mut numbers = [0; GROUP];
    ffi::read_group(bytes, &mut numbers)?;
    Ok(put_up(Sky::default(), &numbers))
}

/// Writes the lines of a whole sky, and gives their length. Refused with 5 and 7, satellite by satellite, then with 8 where `out` is
/// shorter than the group; a refusal leaves `out`.
///
/// ```
/// use castanwel::{Entry, Sky, Table, Talker};
/// let five = Entry { number: 5, elevation: Some(71), azimuth: Some(48), signal: None };
/// let mut out = [0; 82];
/// let length = castanwel::write_group(&Sky { talker: Talker::Gp, table: Table::of(&[five]) }, &mut out).unwrap();
/// assert_eq!(&out[..length], b"$GPGSV,1,1,01,05,71,048,*47\r\n");
/// let twice = Sky { talker: Talker::Gp, table: Table::of(&[five, five]) };
/// assert_eq!(castanwel::write_group(&twice, &mut out).unwrap_err().number, 7);
/// ```
pub fn write_group(sky: &Sky, out: &mut [u8]) -> Result<usize, GroupRefusal> {
    let mut numbers = [0; GROUP];
    take_down(*sky, &mut numbers);
    ffi::write_group(&numbers, out)
}

/// As [`read_group`].
///
/// ```
/// let sky = castanwel::Sky::try_from(b"$GPGSV,1,1,01,05,,,*7D\r\n".as_slice()).unwrap();
/// assert_eq!(sky.to_string(), "$GPGSV,1,1,01,05,,,*7D");
/// ```
impl TryFrom<&[u8]> for Sky {
    type Error = GroupRefusal;

    fn try_from(bytes: &[u8]) -> Result<Sky, GroupRefusal> {
        read_group(bytes)
    }
}

/// The lines of the group, with LF between them; where it cannot be written, the refusal in words.
impl fmt::Display for Sky {
    fn fmt(&self, f: &mut fmt::Formatter<'_>) -> fmt::Result {
        let mut out = [0; LONGEST_GROUP];
        match write_group(self, &mut out) {
            Ok(length) => f.write_str(String::from_utf8_lossy(&out[..length]).replace("\r\n", "\n").trim_end()),
            Err(refusal) => write!(f, "(the sky of {} cannot be written: {})", self.talker.word(), refusal),
        }
    }
}
