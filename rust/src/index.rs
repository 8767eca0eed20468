//! The index by exhibit number that lies beside a log: for each exhibit the place of its line.

use crate::ffi;
use crate::ffi_index;
use crate::finder::LONGEST;
use crate::numbers::{ENTRY, ENTRY_BYTES};
use crate::refusal::Refusal;
use std::error::Error;
use std::fmt;
use std::io::{self, Read, Seek, SeekFrom};

/// An exhibit and where its line lies in the log.
#[derive(Clone, Copy, Debug, PartialEq, Eq, Hash)]
pub struct Exhibit {
    /// Its number, 1 to 4294967295; numbers ascend in an index.
    pub number: u64,
    /// The place of the line's first byte in the log, not before the end of the line of the exhibit before.
    pub offset: u64,
    /// How many bytes the line has, 7 to 82; its end is at most 4294967295.
    pub length: u64,
}

/// An index: its bytes, and the entries that they read as.
///
/// The format has neither a count nor a checksum: an index cut behind an entry is a shorter index, and a changed byte may make it
/// another. [`Index::line`] sees a line that is not there; it cannot see one that is another exhibit's.
#[derive(Clone, Debug, Default, PartialEq, Eq)]
pub struct Index {
    bytes: Vec<u8>,
    entries: Vec<Exhibit>,
}

/// Why there is no line of an exhibit.
#[derive(Debug)]
#[non_exhaustive]
pub enum NoLine {
    /// No exhibit has the number.
    Refused(Refusal),
    /// The log cannot be read.
    Unread(io::Error),
    /// The log ends before, or its bytes there are not one whole line: it is not the log of the index.
    OtherLog,
}

impl fmt::Display for NoLine {
    fn fmt(&self, f: &mut fmt::Formatter<'_>) -> fmt::Result {
        match self {
            NoLine::Refused(refusal) => refusal.fmt(f),
            NoLine::Unread(error) => write!(f, "the log cannot be read: {}", error),
            NoLine::OtherLog => {
                f.write_str("the log is not the index's: where the exhibit should be, there is no line")
            }
        }
    }
}

impl Error for NoLine {
    fn source(&self) -> Option<&(dyn Error + 'static)> {
        match self {
            NoLine::Refused(refusal) => Some(refusal),
            NoLine::Unread(error) => Some(error),
            NoLine::OtherLog => None,
        }
    }
}

impl Index {
    /// The index of no entries, which has no bytes.
    ///
    /// ```
    /// let index = castanwel::Index::new();
    /// assert!(index.bytes().is_empty() && index.entries().is_empty());
    /// ```
    #[must_use]
    pub fn new() -> Index {
        Index::default()
    }

    /// The index of these bytes, read once. Refused with 11 where they are none.
    ///
    /// ```
    /// let index = castanwel::Index::from_bytes([2, 0xAC, 0x02, 82, 8, 0, 18]).unwrap();
    /// assert_eq!(index.entries()[1], castanwel::Exhibit { number: 10, offset: 382, length: 18 });
    /// assert_eq!(castanwel::Index::from_bytes([0x80, 0x00]).unwrap_err().number, 11);
    /// ```
    pub fn from_bytes(bytes: impl Into<Vec<u8>>) -> Result<Index, Refusal> {
        let bytes = bytes.into();
        let mut numbers = vec![0; bytes.len()]; // A number takes a byte or more.
        let count = ffi_index::index_read(&bytes, &mut numbers)?;
        let exhibit = |entry: &[u64]| Exhibit { number: entry[0], offset: entry[1], length: entry[2] };
        let entries = numbers[..ENTRY * count].chunks_exact(ENTRY).map(exhibit).collect();
        Ok(Index { bytes, entries })
    }

    /// The index of these entries. Refused with 5 where one is out of range or order.
    ///
    /// ```
    /// use castanwel::{Exhibit, Index};
    /// let two = Exhibit { number: 2, offset: 300, length: 82 };
    /// let ten = Exhibit { number: 10, offset: 382, length: 18 };
    /// assert_eq!(Index::from_entries(&[two, ten]).unwrap().bytes(), [2, 0xAC, 0x02, 82, 8, 0, 18]);
    /// assert_eq!(Index::from_entries(&[ten, two]).unwrap_err().number, 5);
    /// ```
    pub fn from_entries(entries: &[Exhibit]) -> Result<Index, Refusal> {
        let numbers: Vec<u64> = entries.iter().flat_map(|e| [e.number, e.offset, e.length]).collect();
        let mut bytes = vec![0; ENTRY_BYTES * entries.len()];
        let length = ffi_index::index_write(&numbers, &mut bytes)?;
        bytes.truncate(length);
        Ok(Index { bytes, entries: entries.to_vec() })
    }

    /// The bytes, as they are stored.
    ///
    /// ```
    /// let index = castanwel::Index::from_bytes([2, 0, 18]).unwrap();
    /// assert_eq!(index.bytes(), [2, 0, 18]);
    /// ```
    #[must_use]
    pub fn bytes(&self) -> &[u8] {
        &self.bytes
    }

    /// The entries, their numbers ascending.
    ///
    /// ```
    /// let index = castanwel::Index::from_bytes([2, 0, 18, 8, 0, 18]).unwrap();
    /// let numbers: Vec<u64> = index.entries().iter().map(|exhibit| exhibit.number).collect();
    /// assert_eq!(numbers, [2, 10]);
    /// ```
    #[must_use]
    pub fn entries(&self) -> &[Exhibit] {
        &self.entries
    }

    /// Adds an entry at the end. Refused with 5 where it does not fit behind the last; that leaves the index. All bytes are read
    /// again each time: who has many entries makes the index from them at once.
    ///
    /// ```
    /// use castanwel::{Exhibit, Index};
    /// let mut index = Index::from_bytes([2, 0xAC, 0x02, 82]).unwrap();
    /// assert_eq!(index.add(Exhibit { number: 10, offset: 382, length: 18 }), Ok(()));
    /// assert_eq!(index.bytes(), [2, 0xAC, 0x02, 82, 8, 0, 18]);
    /// assert_eq!(index.add(Exhibit { number: 3, offset: 400, length: 18 }).unwrap_err().number, 5);
    /// ```
    pub fn add(&mut self, exhibit: Exhibit) -> Result<(), Refusal> {
        let used = self.bytes.len();
        self.bytes.resize(used + ENTRY_BYTES, 0);
        let Exhibit { number, offset, length } = exhibit;
        let added = ffi_index::index_add(&mut self.bytes, used, number, offset, length);
        self.bytes.truncate(*added.as_ref().unwrap_or(&used));
        added?;
        self.entries.push(exhibit);
        Ok(())
    }

    /// The exhibit of a number, found among the entries in as many steps as their count has binary digits. Refused with 12 where none
    /// has it.
    ///
    /// ```
    /// let index = castanwel::Index::from_bytes([2, 0xAC, 0x02, 82, 8, 0, 18]).unwrap();
    /// assert_eq!(index.find(2), Ok(castanwel::Exhibit { number: 2, offset: 300, length: 82 }));
    /// assert_eq!(index.find(3).unwrap_err().to_string(), "refusal 12: no exhibit has that number");
    /// ```
    pub fn find(&self, number: u64) -> Result<Exhibit, Refusal> {
        match self.entries.binary_search_by_key(&number, |exhibit| exhibit.number) {
            Ok(at) => Ok(self.entries[at]),
            Err(_) => Err(Refusal { number: 12, line: 0, field: 0 }),
        }
    }

    /// The line of an exhibit in the log that the index is of. It is given only where the finder gives out those very bytes as a line.
    ///
    /// ```
    /// let index = castanwel::Index::from_bytes([2, 5, 18]).unwrap();
    /// let log = std::io::Cursor::new(b"noise$GPGSV,1,1,00*79\r\n");
    /// assert_eq!(index.line(log, 2).unwrap(), b"$GPGSV,1,1,00*79\r\n");
    /// let other = std::io::Cursor::new(b"$GPGSV,1,1,00*79\r\n$GPGSV,1,1,00*79\r\n");
    /// assert!(matches!(index.line(other, 2), Err(castanwel::NoLine::OtherLog)));
    /// ```
    pub fn line(&self, mut log: impl Read + Seek, number: u64) -> Result<Vec<u8>, NoLine> {
        let exhibit = self.find(number).map_err(NoLine::Refused)?;
        let mut line = Vec::with_capacity(LONGEST);
        log.seek(SeekFrom::Start(exhibit.offset)).map_err(NoLine::Unread)?;
        log.take(exhibit.length).read_to_end(&mut line).map_err(NoLine::Unread)?;
        let is_whole = line.len() as u64 == exhibit.length;
        if is_whole && ffi::next_line(&line, 0) == (true, 0, line.len()) {
            return Ok(line);
        }
        Err(NoLine::OtherLog)
    }
}
