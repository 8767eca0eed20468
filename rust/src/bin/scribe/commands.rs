//! Rows of the class receiver: a command carried out, the satellites of the masks counted.

use crate::lent::{refused, touched, Lent};
use crate::words;
use castanwel::numbers::{self, SETTINGS};

/// How many bytes there are to write a reply to.
const ROOM: usize = 200;

/// The most bytes that a command of a row has.
const MOST: usize = 1024;

/// The command of a row, `PORT ROOM SETTINGS HEX`, carried out; `-` stands for no bytes.
pub fn step(rest: &[u8]) -> Option<String> {
    let blank = rest.iter().rposition(|&b| b == b' ')?;
    let given = words::numbers(&rest[..blank])?;
    let command = words::bytes_or_none(&rest[blank + 1..], MOST)?;
    let before = words::values(given.get(2..)?, SETTINGS)?;
    let mut lent = Lent::new(ROOM, given[1].room(ROOM)?);
    let mut settings = before.clone();
    let reply = numbers::step(&mut settings, given[0].plain(), &command, lent.room());
    Some(match reply {
        Ok(_) => lent.answer(reply) + &words::text_of(&settings),
        Err(_) if settings != before => touched(),
        Err(_) => lent.answer(reply),
    })
}

/// The satellites that the settings of a row allow.
pub fn counts(rest: &[u8]) -> Option<String> {
    let settings = words::values(&words::numbers(rest)?, SETTINGS)?;
    Some(match numbers::counts(&settings) {
        Ok((gps, glonass)) => format!("ok {} {}", gps, glonass),
        Err(refusal) => refused(refusal),
    })
}
