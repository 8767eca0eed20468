//! The index of all lines of a log, as the proved program's `exhibits all LOG INDEX` makes it, written by hand in Rust.

use bench::{index, plain};
use std::fs::{self, File, OpenOptions};
use std::io::{self, Read, Write};
use std::path::{Path, PathBuf};
use std::{env, process};

const BUFFER: usize = 1 << 16;
/// An entry takes at most so many bytes.
const ENTRY: usize = 11;
/// The shortest line that can be an exhibit.
const SHORTEST: u64 = 7;
/// The highest end of a line.
const MOST: u64 = 0xffff_ffff;

fn refused(what: &str) -> io::Error {
    io::Error::new(io::ErrorKind::Other, what)
}

/// An index that is written as the lines are found.
struct Entries {
    file: File,
    bytes: Vec<u8>,
    used: usize,
    /// How many lines were found.
    found: u64,
    /// Number and end of the last entry.
    number: u64,
    end: u64,
}

impl Entries {
    fn new(file: File) -> Entries {
        Entries { file, bytes: vec![0; BUFFER], used: 0, found: 0, number: 0, end: 0 }
    }

    /// Takes the next line, which lies at `offset`.
    fn add(&mut self, offset: u64, length: u64) -> io::Result<()> {
        self.found += 1;
        if length < SHORTEST {
            return Ok(());
        }
        if offset + length > MOST {
            return Err(refused("a line ends past 4294967295"));
        }
        if BUFFER - self.used < ENTRY {
            self.write_out()?;
        }
        self.used = index::put_entry(&mut self.bytes, self.used, self.found - self.number, offset - self.end, length);
        self.number = self.found;
        self.end = offset + length;
        Ok(())
    }

    fn write_out(&mut self) -> io::Result<()> {
        self.file.write_all(&self.bytes[..self.used])?;
        self.used = 0;
        Ok(())
    }

    fn finish(mut self) -> io::Result<()> {
        self.write_out()?;
        self.file.sync_all()
    }
}

/// Takes each line of the log, in turns of a buffer.
fn each_line(log: &mut File, entries: &mut Entries) -> io::Result<()> {
    let (mut buf, mut kept, mut before) = (vec![0; BUFFER], 0, 0);
    loop {
        let got = log.read(&mut buf[kept..])?;
        if got == 0 {
            return Ok(());
        }
        let (n, mut at) = (kept + got, 0);
        while let Some((start, end)) = plain::next_line(&buf[..n], at) {
            entries.add(before + start as u64, (end - start) as u64)?;
            at = end;
        }
        let from = at + plain::unfinished(&buf[at..n]);
        buf.copy_within(from..n, 0);
        kept = n - from;
        before += from as u64;
    }
}

fn make(log: &Path, new: &Path, index: &Path) -> io::Result<()> {
    let mut log = File::open(log)?;
    let mut entries = Entries::new(OpenOptions::new().write(true).create_new(true).open(new)?);
    let made = each_line(&mut log, &mut entries).and_then(|()| entries.finish()).and_then(|()| {
        if index.exists() {
            return Err(refused("the index exists"));
        }
        fs::rename(new, index)
    });
    if made.is_err() {
        fs::remove_file(new)?;
    }
    made
}

fn main() {
    let names: Vec<PathBuf> = env::args_os().skip(1).map(PathBuf::from).collect();
    if names.len() != 2 {
        eprintln!("usage: plain_exhibits LOG INDEX");
        process::exit(2);
    }
    if names[1].exists() {
        eprintln!("plain_exhibits: the index exists");
        process::exit(1);
    }
    let mut new = names[1].clone().into_os_string();
    new.push(".new");
    if let Err(error) = make(&names[0], Path::new(&new), &names[1]) {
        eprintln!("plain_exhibits: {}", error);
        process::exit(1);
    }
}
