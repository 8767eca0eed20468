//! The fields of a body, and the forms that take more than one.

use super::forms;
use super::records::{Date, Place, Refusal};

/// The most fields that a kind has, the address among them.
pub const MOST: usize = 20;

/// A body and the end of each of its fields, the address being field 0.
pub struct Fields<'a> {
    pub body: &'a [u8],
    pub ends: [usize; MOST],
}

pub type Answer<T> = Result<T, Refusal>;

pub fn wrong(k: usize) -> Refusal {
    Refusal { no: 5, field: k }
}

impl<'a> Fields<'a> {
    pub fn get(&self, k: usize) -> &'a [u8] {
        &self.body[self.ends[k - 1] + 1..self.ends[k]]
    }

    /// A field that is never empty.
    pub fn must<T>(&self, k: usize, form: impl Fn(&[u8]) -> Option<T>) -> Answer<T> {
        form(self.get(k)).ok_or(wrong(k))
    }

    /// A field that may be empty.
    pub fn may<T>(&self, k: usize, form: impl Fn(&[u8]) -> Option<T>) -> Answer<Option<T>> {
        match self.get(k) {
            [] => Ok(None),
            s => form(s).map(Some).ok_or(wrong(k)),
        }
    }

    pub fn empty(&self, k: usize) -> Answer<()> {
        match self.get(k) {
            [] => Ok(()),
            _ => Err(wrong(k)),
        }
    }

    /// A value and its unit letter, which may be empty only where the value is.
    pub fn with_unit<T>(&self, k: usize, unit: u8, form: impl Fn(&[u8]) -> Option<T>) -> Answer<Option<T>> {
        let value = self.may(k, form)?;
        match *self.get(k + 1) {
            [] if value.is_none() => Ok(None),
            [b] if b == unit => Ok(value),
            _ => Err(wrong(k + 1)),
        }
    }

    /// Variation and E or W, east positive.
    pub fn variation(&self, k: usize) -> Answer<Option<i32>> {
        let value = self.may(k, |s| forms::below(s, 180_000))?.map(|n| n as i32);
        match self.get(k + 1) {
            [] if value.is_none() => Ok(None),
            b"E" => Ok(value),
            b"W" => Ok(value.map(|n| -n)),
            _ => Err(wrong(k + 1)),
        }
    }

    fn side(&self, k: usize, plus: u8, minus: u8) -> Answer<i32> {
        match *self.get(k) {
            [b] if b == plus => Ok(1),
            [b] if b == minus => Ok(-1),
            _ => Err(wrong(k)),
        }
    }

    /// Latitude, N or S, longitude, E or W: all four or none.
    pub fn place(&self, k: usize) -> Answer<Option<Place>> {
        if self.get(k).is_empty() {
            self.empty(k + 1)?;
            self.empty(k + 2)?;
            self.empty(k + 3)?;
            return Ok(None);
        }
        let lat = self.must(k, |s| forms::arc(s, 2, 90))?;
        let north = self.side(k + 1, b'N', b'S')?;
        let lon = self.must(k + 2, |s| forms::arc(s, 3, 180))?;
        let east = self.side(k + 3, b'E', b'W')?;
        Ok(Some(Place { lat: lat * north, lon: lon * east }))
    }

    /// Day, month and year: all three or none.
    pub fn date(&self, k: usize) -> Answer<Option<Date>> {
        if self.get(k).is_empty() {
            self.empty(k + 1)?;
            self.empty(k + 2)?;
            return Ok(None);
        }
        let day = self.must(k, |s| forms::digits(s, 2, 1, 31))?;
        let month = self.must(k + 1, |s| forms::digits(s, 2, 1, 12))?;
        let year = self.must(k + 2, |s| forms::digits(s, 4, 1980, 2079))?;
        forms::real(day, month, year).map(Some).ok_or(wrong(k + 2))
    }

    /// Zone hours with an optional minus, and zone minutes: both or none.
    pub fn zone(&self, k: usize) -> Answer<Option<i32>> {
        if self.get(k).is_empty() {
            self.empty(k + 1)?;
            return Ok(None);
        }
        let (minus, hours) = forms::minus(self.get(k));
        let hours = forms::digits(hours, 2, 0, 13).ok_or(wrong(k))?;
        let minutes = self.must(k + 1, |s| forms::digits(s, 2, 0, 59))?;
        forms::zone(minus, hours, minutes).map(Some).ok_or(wrong(k + 1))
    }
}
