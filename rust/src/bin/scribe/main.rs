//! Lines, groups and indexes, written and read, and commands carried out: standard input of any length, each row a record, a line, a
//! field of a line, a group, a table, settings with or without a command, or an index; and for each row an answer.
#![forbid(unsafe_code)]

mod commands;
mod indexes;
mod lent;
mod sentences;
mod skies;
#[cfg(test)]
mod tests;
mod words;

use std::env;
use std::io::{self, Read, Write};
use std::process::ExitCode;

/// No row is as long as this, its LF among it.
const BUFFER: usize = 65536;

/// What follows the first word of a row and one blank, if `word` is that word.
fn behind<'a>(row: &'a [u8], word: &str) -> Option<&'a [u8]> {
    let rest = row.strip_prefix(word.as_bytes())?;
    match rest.split_first() {
        None => Some(rest),
        Some((b' ', rest)) => Some(rest),
        Some(_) => None,
    }
}

/// What gives the answer to the rest of a row; nothing where it is no row.
type Answer = fn(&[u8]) -> Option<String>;

/// The first word of a row, and what answers it.
const WORDS: [(&str, Answer); 10] = [
    ("group", skies::group),
    ("table", skies::table),
    ("step", commands::step),
    ("counts", commands::counts),
    ("line", sentences::line),
    ("field", sentences::field),
    ("index-write", indexes::write),
    ("index-read", indexes::read),
    ("index-add", indexes::add),
    ("index-find", indexes::find),
];

/// What a row is answered with; nothing where it is none.
fn answer(row: &[u8]) -> Option<String> {
    for (word, answer) in WORDS {
        if let Some(rest) = behind(row, word) {
            return answer(rest);
        }
    }
    sentences::record(row)
}

/// The answers to the rows of `bytes` that an LF ends, and how many bytes these rows are.
fn answers(bytes: &[u8]) -> (String, usize) {
    let (mut said, mut at) = (String::new(), 0);
    while let Some(length) = bytes[at..].iter().position(|&b| b == b'\n') {
        said += &answer(&bytes[at..at + length]).unwrap_or_else(|| "no row".to_owned());
        said.push('\n');
        at += length + 1;
    }
    (said, at)
}

/// Answers all rows, those that have come before the next are waited for; a rest without an LF is no row.
fn answer_all(input: &mut impl Read, output: &mut impl Write) -> Result<(), String> {
    let mut buffer = vec![0; BUFFER];
    let mut kept = 0;
    loop {
        if kept == buffer.len() {
            return Err("a row is too long".to_owned());
        }
        let came = input.read(&mut buffer[kept..]).map_err(|e| format!("standard input cannot be read: {}", e))?;
        if came == 0 {
            return Ok(());
        }
        let (said, done) = answers(&buffer[..kept + came]);
        let written = output.write_all(said.as_bytes()).and_then(|()| output.flush());
        written.map_err(|e| format!("standard output cannot be written: {}", e))?;
        buffer.copy_within(done..kept + came, 0);
        kept = kept + came - done;
    }
}

fn main() -> ExitCode {
    if env::args_os().len() > 1 {
        eprintln!("scribe: it takes no argument; rows come in on standard input, and an answer goes out for each");
        return ExitCode::from(2);
    }
    match answer_all(&mut io::stdin().lock(), &mut io::stdout().lock()) {
        Ok(()) => ExitCode::SUCCESS,
        Err(what) => {
            eprintln!("scribe: {}", what);
            ExitCode::FAILURE
        }
    }
}
