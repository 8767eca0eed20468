//! The groups of a file, a port or anything else that bytes are read from: its runs of GSV lines, each as a whole sky or as its refusal.

use crate::ffi_runs::run_step;
use crate::from::{lines_from, Line, LinesFrom};
use crate::refusal::GroupRefusal;
use crate::sky::{read_group, Sky};
use std::fmt;
use std::io::{self, Read};
use std::iter::FusedIterator;

/// A run of GSV lines: where it stands in the input, and what it says.
#[derive(Clone, Copy, Debug, PartialEq, Eq, Hash)]
pub struct Run {
    /// The number of its first line among those that were found, counted from 1.
    pub number: u64,
    /// How many bytes of the input came before its first line.
    pub offset: u64,
    /// The whole sky; or why the lines are no group, at a line that is counted from 1 within the run.
    pub sky: Result<Sky, GroupRefusal>,
}

/// The runs of GSV lines of an input.
#[must_use = "nothing is read before a run is asked for"]
pub struct SkiesFrom<R> {
    lines: LinesFrom<R>,
    /// How many lines were found.
    found: u64,
    /// The open run: how many lines it has, what its first line announced as last, its bytes, and where its first line stands.
    open: u32,
    last: u32,
    held: Vec<u8>,
    number: u64,
    offset: u64,
    /// A run that was ended by the line that ended another.
    ready: Option<Run>,
}

/// The runs of GSV lines in what `input` gives, in order: each as a whole sky, or with the refusal of the group reader.
///
/// Consecutive lines that read as GSV form a run, which ends with the number that its first line announced as last or its ninth line, or
/// before a line that does not read as GSV, a line numbered 1 or the end of the input. Bytes between lines end nothing. So every line that
/// reads as GSV stands in one run, and a whole group, its lines one after another, is one.
///
/// Memory is constant, however long the input is, and a run is given as soon as the line was read that ends it. An error is given, once,
/// and ends the runs; one that is open then is not given.
///
/// ```
/// let log = &b"noise$GPGSV,1,1,01,05,,,*7D\r\n$PIRER,0*40\r\n$GPGSV,5,5,17,77,71,048,53*43\r\n"[..];
/// let runs: Vec<castanwel::Run> = castanwel::skies_from(log).collect::<Result<_, _>>().unwrap();
/// assert_eq!((runs[0].number, runs[0].offset), (1, 5));
/// assert_eq!(runs[0].sky.unwrap().table.used()[0].number, 5);
/// assert_eq!((runs[1].number, runs[1].offset), (3, 42));
/// assert_eq!(runs[1].sky.unwrap_err().to_string(), "refusal 6 at line 1: a line does not go with its group");
/// ```
pub fn skies_from<R: Read>(input: R) -> SkiesFrom<R> {
    SkiesFrom {
        lines: lines_from(input),
        found: 0,
        open: 0,
        last: 0,
        held: Vec::new(),
        number: 0,
        offset: 0,
        ready: None,
    }
}

impl<R> SkiesFrom<R> {
    /// The run that is held, and nothing is held behind it.
    fn close(&mut self) -> Run {
        let sky = read_group(&self.held);
        self.held.clear();
        Run { number: self.number, offset: self.offset, sky }
    }

    /// Holds a line; the first says where its run stands.
    fn hold(&mut self, line: &Line) {
        if self.held.is_empty() {
            self.number = self.found;
            self.offset = line.offset();
        }
        self.held.extend_from_slice(line);
    }

    /// Takes the next line, and gives the first run that it ends.
    fn take_line(&mut self, line: &Line) -> Option<Run> {
        self.found += 1;
        let (before, joins, ends) = run_step(&mut self.open, &mut self.last, line);
        let first = if before { Some(self.close()) } else { None };
        if joins {
            self.hold(line);
        }
        let second = if ends { Some(self.close()) } else { None };
        if first.is_none() {
            return second;
        }
        self.ready = second;
        first
    }
}

impl<R: Read> Iterator for SkiesFrom<R> {
    type Item = io::Result<Run>;

    fn next(&mut self) -> Option<io::Result<Run>> {
        if let Some(run) = self.ready.take() {
            return Some(Ok(run));
        }
        loop {
            match self.lines.next() {
                Some(Ok(line)) => {
                    if let Some(run) = self.take_line(&line) {
                        return Some(Ok(run));
                    }
                }
                Some(Err(error)) => {
                    self.held.clear();
                    return Some(Err(error));
                }
                None if self.held.is_empty() => return None,
                None => return Some(Ok(self.close())),
            }
        }
    }
}

impl<R: Read> FusedIterator for SkiesFrom<R> {}

impl<R> fmt::Debug for SkiesFrom<R> {
    fn fmt(&self, f: &mut fmt::Formatter<'_>) -> fmt::Result {
        f.debug_struct("SkiesFrom").field("lines", &self.found).field("open", &self.open).finish_non_exhaustive()
    }
}
