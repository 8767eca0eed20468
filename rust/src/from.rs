//! The lines of a file, a port or anything else that bytes are read from, each with its place in the input.

use crate::ffi;
use crate::finder::LONGEST;
use std::fmt;
use std::io::{self, ErrorKind, Read};
use std::iter::FusedIterator;
use std::ops::Deref;

/// How many bytes are kept at a time. An unfinished line takes less than 82 of them.
const BUFFER: usize = 8192;

/// A line that was found, by itself: its bytes, which it derefs to, and its offset in the input.
#[derive(Clone, Copy, PartialEq, Eq, Hash)]
pub struct Line {
    bytes: [u8; LONGEST],
    length: usize,
    offset: u64,
}

impl Line {
    /// A copy of a line of at most 82 bytes; the bytes behind it are 0, so that equal lines have equal bytes.
    fn new(line: &[u8], offset: u64) -> Line {
        let mut bytes = [0; LONGEST];
        bytes[..line.len()].copy_from_slice(line);
        Line { bytes, length: line.len(), offset }
    }

    /// The bytes of the line, CR LF among them.
    ///
    /// ```
    /// let line = castanwel::lines_from(&b"noise$PIRER,0*40\r\n"[..]).next().unwrap().unwrap();
    /// assert_eq!(line.bytes(), b"$PIRER,0*40\r\n");
    /// ```
    #[must_use]
    pub fn bytes(&self) -> &[u8] {
        &self.bytes[..self.length]
    }

    /// How many bytes of the input came before the line.
    ///
    /// ```
    /// let line = castanwel::lines_from(&b"noise$PIRER,0*40\r\n"[..]).next().unwrap().unwrap();
    /// assert_eq!(line.offset(), 5);
    /// ```
    #[must_use]
    pub fn offset(&self) -> u64 {
        self.offset
    }
}

impl Deref for Line {
    type Target = [u8];

    fn deref(&self) -> &[u8] {
        self.bytes()
    }
}

impl AsRef<[u8]> for Line {
    fn as_ref(&self) -> &[u8] {
        self.bytes()
    }
}

/// The offset and the bytes, those that are no printed letters as escapes.
impl fmt::Debug for Line {
    fn fmt(&self, f: &mut fmt::Formatter<'_>) -> fmt::Result {
        write!(f, "Line({}, \"{}\")", self.offset, self.bytes().escape_ascii())
    }
}

/// The lines of an input.
#[must_use = "nothing is read before a line is asked for"]
pub struct LinesFrom<R> {
    input: R,
    buffer: Box<[u8; BUFFER]>,
    /// The bytes of the buffer that were read and not gone over yet.
    from: usize,
    to: usize,
    /// The offset in the input of the first byte of the buffer.
    offset: u64,
    has_ended: bool,
}

/// The lines that lie in what `input` gives, each a copy with its offset; whether they read is not asked. They are those that
/// [`lines`](crate::lines) finds in all its bytes at once.
///
/// It keeps 8192 bytes, however long the input is, so `input` needs no buffer of its own. A line is given as soon as its LF was read. An
/// interrupted read is tried again; any other error is given, once, and ends the lines. What follows the last LF is no line.
///
/// ```
/// let log = &b"noise$GPGSV,1,1,00*79\r\n$GP$PIRER,0*40\r\nrest"[..];
/// let lines: Vec<castanwel::Line> = castanwel::lines_from(log).collect::<Result<_, _>>().unwrap();
/// assert_eq!((lines[0].offset(), lines[1].offset(), lines.len()), (5, 26, 2));
/// assert!(castanwel::read(&lines[1]).is_ok());
/// ```
pub fn lines_from<R: Read>(input: R) -> LinesFrom<R> {
    LinesFrom { input, buffer: Box::new([0; BUFFER]), from: 0, to: 0, offset: 0, has_ended: false }
}

impl<R: Read> LinesFrom<R> {
    /// The next line of the buffer. Where there is none, only an unfinished line is kept, at the start of the buffer.
    fn next_kept(&mut self) -> Option<Line> {
        let (found, start, end) = ffi::next_line(&self.buffer[..self.to], self.from);
        if found {
            self.from = end;
            return Some(Line::new(&self.buffer[start..end], self.offset + start as u64));
        }
        self.buffer.copy_within(start..self.to, 0);
        self.offset += start as u64;
        self.to -= start;
        self.from = 0;
        None
    }

    /// Reads more bytes behind those that are kept, and gives how many came.
    fn read_on(&mut self) -> io::Result<usize> {
        loop {
            match self.input.read(&mut self.buffer[self.to..]) {
                Err(error) if error.kind() == ErrorKind::Interrupted => {}
                Err(error) => return Err(error),
                Ok(came) => {
                    self.to += came;
                    return Ok(came);
                }
            }
        }
    }
}

impl<R: Read> Iterator for LinesFrom<R> {
    type Item = io::Result<Line>;

    fn next(&mut self) -> Option<io::Result<Line>> {
        while !self.has_ended {
            if let Some(line) = self.next_kept() {
                return Some(Ok(line));
            }
            let came = self.read_on();
            self.has_ended = !matches!(came, Ok(1..));
            if let Err(error) = came {
                return Some(Err(error));
            }
        }
        None
    }
}

impl<R: Read> FusedIterator for LinesFrom<R> {}

impl<R> fmt::Debug for LinesFrom<R> {
    fn fmt(&self, f: &mut fmt::Formatter<'_>) -> fmt::Result {
        let bytes = self.offset + self.to as u64;
        f.debug_struct("LinesFrom").field("bytes", &bytes).field("has_ended", &self.has_ended).finish_non_exhaustive()
    }
}
