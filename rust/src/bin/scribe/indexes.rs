//! Rows of the index by exhibit number: written, read, added to, an exhibit found.

use crate::lent::{refused, touched, Lent, STALE_WIDE};
use crate::words::{self, MOST};
use castanwel::numbers::{self, ENTRY};

/// The most bytes or numbers that are lent: no row has an index that needs more.
const ROOM: usize = 65536;

/// How many bytes there are past those that are lent.
const PAST: usize = 16;

/// The words of a row, one blank between each two.
fn words_of(rest: &[u8]) -> Vec<&[u8]> {
    rest.split(|&b| b == b' ').collect()
}

/// The room of a word, `ROOM` where it is more.
fn room_of(word: &[u8]) -> Option<usize> {
    Some(words::wide_number(word)?.min(ROOM as u64) as usize)
}

/// The entries of a row, `ROOM NUMBERS`, written.
pub fn write(rest: &[u8]) -> Option<String> {
    let words = words_of(rest);
    let room = room_of(words[0])?;
    let entries = words::wide_numbers(&words[1..])?;
    let mut lent = Lent::new(room + PAST, room);
    let written = numbers::index_write(&entries, lent.room());
    Some(lent.answer(written))
}

/// The index of a row, `ROOM HEX`, read to so many numbers.
pub fn read(rest: &[u8]) -> Option<String> {
    let (room, index) = match words_of(rest)[..] {
        [room, index] => (room_of(room)?, words::bytes_or_none(index, MOST)?),
        _ => return None,
    };
    let mut entries = vec![STALE_WIDE; room + PAST];
    let count = numbers::index_read(&index, &mut entries[..room]);
    let (given, left) = entries.split_at(ENTRY * count.unwrap_or(0));
    if left.iter().any(|&number| number != STALE_WIDE) {
        return Some(touched());
    }
    Some(match count {
        Ok(_) => "ok".to_owned() + &given.iter().map(|number| format!(" {}", number)).collect::<String>(),
        Err(refusal) => refused(refusal),
    })
}

/// The entry of a row, `ROOM HEX NUMBER OFFSET LENGTH`, added. Of an index that is longer than the room its first bytes are lent.
pub fn add(rest: &[u8]) -> Option<String> {
    let words = words_of(rest);
    let (room, index) = (room_of(words[0])?, words::bytes_or_none(words.get(1)?, MOST)?);
    let (number, offset, length) = match words::wide_numbers(&words[2..])?[..] {
        [number, offset, length] => (number, offset, length),
        _ => return None,
    };
    let mut lent = Lent::with(&index, room + PAST, room);
    let added = numbers::index_add(lent.room(), index.len(), number, offset, length);
    Some(lent.answer(added))
}

/// The exhibit of a row, `HEX NUMBER`, found.
pub fn find(rest: &[u8]) -> Option<String> {
    let (index, number) = match words_of(rest)[..] {
        [index, number] => (words::bytes_or_none(index, MOST)?, words::wide_number(number)?),
        _ => return None,
    };
    Some(match numbers::index_find(&index, number) {
        Ok((offset, length)) => format!("ok {} {}", offset, length),
        Err(refusal) => refused(refusal),
    })
}
