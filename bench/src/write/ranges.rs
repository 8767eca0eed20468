//! Whether a value is in its range; `k` is the number of its field.

use super::{Answer, Refusal};
use crate::read::forms;
use crate::read::records::{Date, Place};

pub const MOST: u32 = 999_999_999;

pub fn hold(k: usize, good: bool) -> Answer<()> {
    if good {
        Ok(())
    } else {
        Err(Refusal { no: 5, line: 1, field: k })
    }
}

pub fn within(k: usize, v: u32, low: u32, high: u32) -> Answer<()> {
    hold(k, (low..=high).contains(&v))
}

pub fn may(k: usize, v: Option<u32>, low: u32, high: u32) -> Answer<()> {
    v.map_or(Ok(()), |v| within(k, v, low, high))
}

pub fn signed(k: usize, v: Option<i32>, most: u32) -> Answer<()> {
    v.map_or(Ok(()), |v| within(k, v.unsigned_abs(), 0, most))
}

pub fn time(k: usize, v: Option<u32>) -> Answer<()> {
    may(k, v, 0, 8_639_999)
}

pub fn place(k: usize, p: Option<Place>) -> Answer<()> {
    p.map_or(Ok(()), |p| {
        within(k, p.lat.unsigned_abs(), 0, 54_000_000)?;
        within(k + 2, p.lon.unsigned_abs(), 0, 108_000_000)
    })
}

fn is_real(d: Date) -> bool {
    forms::real(d.day, d.month, d.year).is_some()
}

/// A date in one field.
pub fn short_date(k: usize, d: Option<Date>) -> Answer<()> {
    d.map_or(Ok(()), |d| hold(k, is_real(d)))
}

/// A date in three fields.
pub fn date(k: usize, d: Option<Date>) -> Answer<()> {
    d.map_or(Ok(()), |d| {
        within(k, d.day, 1, 31)?;
        within(k + 1, d.month, 1, 12)?;
        hold(k + 2, is_real(d))
    })
}

pub fn mode(k: usize, b: u8) -> Answer<()> {
    hold(k, matches!(b, b'A' | b'D' | b'E' | b'M' | b'S' | b'N'))
}

pub fn status(k: usize, b: u8) -> Answer<()> {
    hold(k, matches!(b, b'A' | b'V'))
}
