//! Rows of groups: their bytes read, a table written.

use crate::lent::{is_stale, refused, touched, Lent, STALE};
use crate::words::{self, MOST};
use castanwel::numbers::{self, GROUP};
use castanwel::{Refusal, Talker};

/// How many bytes there are to write a group to.
const ROOM: usize = 800;

/// How many numbers a satellite has.
const ENTRY: usize = 7;

/// Talker, count and satellites of a sky; nothing where a place that is not used is not blank.
fn read_as(numbers: &[i64]) -> Option<String> {
    let talker = Talker::ALL.get(numbers[0] as usize)?.word();
    let end = 2 + ENTRY * numbers[1] as usize;
    if numbers.get(end..)?.iter().any(|&number| number != 0) {
        return None;
    }
    Some(format!("ok {}{}", talker, words::text_of(&numbers[1..end])))
}

/// The group of a row, `HEX`, read.
pub fn group(rest: &[u8]) -> Option<String> {
    let bytes = words::bytes(rest, MOST)?;
    let mut numbers = [STALE; GROUP];
    let read = numbers::read_group(&bytes, &mut numbers);
    Some(match read {
        Ok(()) => read_as(&numbers).unwrap_or_else(|| "not blank".to_owned()),
        Err(_) if !is_stale(&numbers) => touched(),
        Err(refusal) => refused(refusal.into()),
    })
}

/// The table of a row, `TALKER ROOM COUNT NUMBERS`, written.
pub fn table(rest: &[u8]) -> Option<String> {
    let talker = words::talker(rest.get(..2)?)?;
    let given = words::numbers(rest[2..].strip_prefix(b" ")?)?;
    let (room, given) = given.split_first()?;
    let mut lent = Lent::new(ROOM, room.room(ROOM)?);
    let mut numbers = vec![talker as i64];
    numbers.extend(words::values(given, GROUP - 1)?);
    let written = numbers::write_group(&numbers, lent.room());
    Some(lent.answer(written.map_err(Refusal::from)))
}
