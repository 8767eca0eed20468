//! The lines in a stream of bytes: from each `$` to the next LF, at most 82 bytes long.

use crate::ffi;

/// The length of the longest line.
pub const LONGEST: usize = 82;

/// The lines that lie in some bytes.
#[derive(Clone, Debug)]
#[must_use = "nothing is looked for before a line is asked for"]
pub struct Lines<'a> {
    bytes: &'a [u8],
    at: usize,
}

/// The lines that lie in `bytes`, each as a part of them. Whether they read is not asked.
///
/// ```
/// let log = b"noise$GPGSV,1,1,00*79\r\n$GP$PIRER,0*40\r\nrest";
/// let lines: Vec<&[u8]> = castanwel::lines(log).collect();
/// assert_eq!(lines, [&b"$GPGSV,1,1,00*79\r\n"[..], b"$PIRER,0*40\r\n"]);
/// ```
pub fn lines(bytes: &[u8]) -> Lines<'_> {
    Lines { bytes, at: 0 }
}

impl<'a> Iterator for Lines<'a> {
    type Item = &'a [u8];

    fn next(&mut self) -> Option<&'a [u8]> {
        let (found, start, end) = ffi::next_line(self.bytes, self.at);
        self.at = end;
        if found {
            Some(&self.bytes[start..end])
        } else {
            None
        }
    }
}

/// The finder fed byte by byte; it keeps the bytes of the unfinished line.
#[derive(Clone, Debug)]
pub struct Finder {
    kept: [u8; LONGEST],
    held: usize,
}

impl Finder {
    /// A finder that holds nothing.
    ///
    /// ```
    /// let mut finder = castanwel::Finder::new();
    /// assert_eq!(finder.push(b'\n'), None);
    /// ```
    #[must_use]
    pub fn new() -> Finder {
        Finder { kept: [0; LONGEST], held: 0 }
    }

    /// Takes one byte, and gives the line that it ends, if it ends one.
    ///
    /// ```
    /// let mut finder = castanwel::Finder::new();
    /// let mut found = Vec::new();
    /// for &byte in b"$GP$PIRER,0*40\r\n" {
    ///     found.extend(finder.push(byte).map(<[u8]>::to_vec));
    /// }
    /// assert_eq!(found, [b"$PIRER,0*40\r\n"]);
    /// ```
    #[must_use = "the line is given once"]
    pub fn push(&mut self, byte: u8) -> Option<&[u8]> {
        let (held, line) = ffi::feed(self.held, byte);
        self.held = held;
        if line > 0 {
            self.kept[line - 1] = byte;
            return Some(&self.kept[..line]);
        }
        if held > 0 {
            self.kept[held - 1] = byte;
        }
        None
    }
}

impl Default for Finder {
    fn default() -> Finder {
        Finder::new()
    }
}
