//! Rows of single lines: a record written, a line read, a field found.

use crate::lent::{is_stale, refused, touched, Lent, STALE};
use crate::words::{self, Number, MOST};
use castanwel::numbers::{self, RECORD};
use castanwel::{Kind, Talker};

/// How many bytes there are to write a line to.
const ROOM: usize = 200;

/// Kind and talker of an address of five letters; a kind of five letters has no talker.
fn address_of(letters: &[u8]) -> Option<(Kind, Option<Talker>)> {
    let kind_of = |word: &[u8]| Kind::ALL.iter().copied().find(|kind| kind.word().as_bytes() == word);
    if let Some(kind) = kind_of(letters) {
        return Some((kind, None));
    }
    let talker = words::talker(&letters[..2])?;
    Some((kind_of(&letters[2..])?, Some(talker)))
}

/// The record of a row, `ADDRESS ROOM NUMBERS`, written.
pub fn record(row: &[u8]) -> Option<String> {
    let (kind, talker) = address_of(row.get(..5)?)?;
    let given = words::numbers(row[5..].strip_prefix(b" ")?)?;
    let (room, given) = given.split_first()?;
    let mut lent = Lent::new(ROOM, room.room(ROOM)?);
    let mut numbers: Vec<i64> = talker.iter().map(|&talker| talker as i64).collect();
    numbers.extend(words::values(given, kind.cells().len() - numbers.len())?);
    let written = numbers::write(kind.number(), &numbers, lent.room());
    Some(lent.answer(written))
}

/// The address of a kind and the numbers of its record.
fn read_as(kind: u32, numbers: &[i64]) -> Option<String> {
    let kind = Kind::from_number(kind)?;
    let count = kind.cells().len();
    let own = usize::from(kind.has_talker());
    let talker = if own == 1 { Talker::ALL.get(numbers[0] as usize)?.word() } else { "" };
    Some(format!("ok {}{}{}", talker, kind.word(), words::text_of(&numbers[own..count])))
}

/// The line of a row, `HEX`, read; `touched` where a refusal changed a number, or a reading one past the record.
pub fn line(rest: &[u8]) -> Option<String> {
    let line = words::bytes(rest, MOST)?;
    let mut numbers = [STALE; RECORD];
    let read = numbers::read(&line, &mut numbers);
    let count = read.ok().and_then(Kind::from_number).map_or(0, |kind| kind.cells().len());
    if !is_stale(&numbers[count..]) {
        return Some(touched());
    }
    match read {
        Ok(kind) => Some(read_as(kind, &numbers).unwrap_or_else(|| "no sentence".to_owned())),
        Err(refusal) => Some(refused(refusal)),
    }
}

/// The field of a row, `NUMBER HEX`, found: where it begins in the line, and its length.
pub fn field(rest: &[u8]) -> Option<String> {
    let blank = rest.iter().position(|&b| b == b' ')?;
    let n = Number::of(&rest[..blank])?.plain();
    let line = words::bytes(&rest[blank + 1..], MOST)?;
    Some(match castanwel::field(&line, n as usize) {
        Ok(part) => format!("ok {} {}", part.as_ptr() as usize - line.as_ptr() as usize, part.len()),
        Err(refusal) => refused(refusal),
    })
}
