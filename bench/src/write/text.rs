//! The text of a line, made beside the output and copied to it when it is known to be good and to fit.

use super::{Answer, Refusal};
use crate::read::records::{Date, Place, Talker};
use std::array::from_fn;

/// More than the longest text of values in their ranges.
const ROOM: usize = 128;

/// The two digits of each number below 100.
static PAIRS: [[u8; 2]; 100] = {
    let mut table = [[0; 2]; 100];
    let mut n = 0;
    while n < 100 {
        table[n] = [b'0' + (n / 10) as u8, b'0' + (n % 10) as u8];
        n += 1;
    }
    table
};

static HEX: &[u8; 16] = b"0123456789ABCDEF";

fn one(v: u32) -> u8 {
    b'0' + v as u8
}

fn pair(v: u32) -> [u8; 2] {
    PAIRS[v as usize]
}

fn hex(v: u32) -> u8 {
    HEX[(v & 15) as usize]
}

pub struct Text {
    bytes: [u8; ROOM],
    length: usize,
    /// The XOR of all bytes.
    sum: u8,
}

impl Text {
    fn put<const N: usize>(&mut self, s: [u8; N]) {
        self.bytes[self.length..self.length + N].copy_from_slice(&s);
        self.length += N;
        self.sum = s.iter().fold(self.sum, |sum, b| sum ^ b);
    }

    fn new() -> Self {
        Text { bytes: [0; ROOM], length: 0, sum: b'$' }
    }

    pub fn of_talker(t: Talker, kind: [u8; 3]) -> Self {
        let mut text = Text::new();
        let [a, b] = match t {
            Talker::Gp => *b"GP",
            Talker::Gl => *b"GL",
            Talker::Ga => *b"GA",
            Talker::Gq => *b"GQ",
            Talker::Gn => *b"GN",
        };
        text.put([b'$', a, b, kind[0], kind[1], kind[2]]);
        text
    }

    pub fn of_maker(address: [u8; 6]) -> Self {
        let mut text = Text::new();
        text.put(address);
        text
    }

    pub fn empty(&mut self) {
        self.put([b',']);
    }

    pub fn letter(&mut self, b: u8) {
        self.put([b',', b]);
    }

    /// An empty field, or what `put` puts behind the comma.
    pub fn may<T>(&mut self, v: Option<T>, put: impl Fn(&mut Self, T)) {
        match v {
            Some(v) => put(self, v),
            None => self.empty(),
        }
    }

    pub fn one(&mut self, v: u32) {
        self.put([b',', one(v)]);
    }

    pub fn two(&mut self, v: u32) {
        let [a, b] = pair(v);
        self.put([b',', a, b]);
    }

    pub fn three(&mut self, v: u32) {
        let [b, c] = pair(v % 100);
        self.put([b',', one(v / 100), b, c]);
    }

    pub fn four(&mut self, v: u32) {
        let ([a, b], [c, d]) = (pair(v / 100), pair(v % 100));
        self.put([b',', a, b, c, d]);
    }

    /// Up to six digits without needless zeros, with no comma.
    fn plain(&mut self, v: u32) {
        let (high, mid, low) = (v / 10_000, v / 100 % 100, v % 100);
        match v {
            0..=9 => self.put([one(v)]),
            10..=99 => self.put(pair(v)),
            100..=999 => {
                self.put([one(mid)]);
                self.put(pair(low));
            }
            1_000..=9_999 => {
                self.put(pair(mid));
                self.put(pair(low));
            }
            10_000..=99_999 => {
                self.put([one(high)]);
                self.put(pair(mid));
                self.put(pair(low));
            }
            _ => {
                self.put(pair(high));
                self.put(pair(mid));
                self.put(pair(low));
            }
        }
    }

    pub fn whole(&mut self, v: u32) {
        self.empty();
        self.plain(v);
    }

    fn thousandths(&mut self, v: u32) {
        self.plain(v / 1000);
        let part = v % 1000;
        if part == 0 {
            return;
        }
        let ([a, b], c) = (pair(part / 10), part % 10);
        match (c, b) {
            (0, b'0') => self.put([b'.', a]),
            (0, _) => self.put([b'.', a, b]),
            _ => self.put([b'.', a, b, one(c)]),
        }
    }

    pub fn number(&mut self, v: u32) {
        self.empty();
        self.thousandths(v);
    }

    pub fn height(&mut self, v: i32) {
        if v < 0 {
            self.put([b',', b'-']);
        } else {
            self.empty();
        }
        self.thousandths(v.unsigned_abs());
    }

    /// A number and the letter of its unit.
    pub fn with_unit<T>(&mut self, v: Option<T>, unit: u8, put: impl Fn(&mut Self, T)) {
        match v {
            Some(v) => {
                put(self, v);
                self.letter(unit);
            }
            None => self.put([b',', b',']),
        }
    }

    pub fn time(&mut self, v: u32) {
        let ([a, b], [c, d]) = (pair(v / 360_000), pair(v / 6_000 % 60));
        let ([e, f], [g, h]) = (pair(v / 100 % 60), pair(v % 100));
        self.put([b',', a, b, c, d, e, f, b'.', g, h]);
    }

    pub fn place(&mut self, p: Option<Place>) {
        let p = match p {
            Some(p) => p,
            None => return self.put([b','; 4]),
        };
        let (lat, lon) = (p.lat.unsigned_abs(), p.lon.unsigned_abs());
        let ([a, b], [c, d]) = (pair(lat / 600_000), pair(lat / 10_000 % 60));
        let ([e, f], [g, h]) = (pair(lat / 100 % 100), pair(lat % 100));
        self.put([b',', a, b, c, d, b'.', e, f, g, h, b',', if p.lat < 0 { b'S' } else { b'N' }]);
        let degrees = lon / 600_000;
        let ([a, b], [c, d]) = (pair(degrees % 100), pair(lon / 10_000 % 60));
        let ([e, f], [g, h]) = (pair(lon / 100 % 100), pair(lon % 100));
        self.put([b',', one(degrees / 100), a, b, c, d, b'.', e, f, g, h, b',', if p.lon < 0 { b'W' } else { b'E' }]);
    }

    pub fn variation(&mut self, v: Option<i32>) {
        match v {
            Some(v) => {
                self.number(v.unsigned_abs());
                self.letter(if v < 0 { b'W' } else { b'E' });
            }
            None => self.put([b',', b',']),
        }
    }

    pub fn short_date(&mut self, d: Date) {
        let ([a, b], [c, e], [f, g]) = (pair(d.day), pair(d.month), pair(d.year % 100));
        self.put([b',', a, b, c, e, f, g]);
    }

    pub fn date(&mut self, d: Option<Date>) {
        match d {
            Some(d) => {
                self.two(d.day);
                self.two(d.month);
                self.four(d.year);
            }
            None => self.put([b','; 3]),
        }
    }

    /// The hours of a zone, with their minus.
    fn hours(&mut self, v: i32) {
        let [a, b] = pair(v.unsigned_abs() / 60);
        if v < 0 {
            self.put([b',', b'-', a, b]);
        } else {
            self.put([b',', a, b]);
        }
    }

    pub fn short_zone(&mut self, v: i32) {
        self.hours(v);
        self.put(pair(v.unsigned_abs() % 60));
    }

    pub fn zone(&mut self, v: Option<i32>) {
        match v {
            Some(v) => {
                self.hours(v);
                self.two(v.unsigned_abs() % 60);
            }
            None => self.put([b',', b',']),
        }
    }

    /// The last `N` hex digits of `v`.
    pub fn hex<const N: usize>(&mut self, v: u32) {
        self.empty();
        self.put::<N>(from_fn(|i| hex(v >> (4 * (N - 1 - i)))));
    }

    /// Ends the line and copies it to `out`.
    pub fn seal(mut self, out: &mut [u8]) -> Answer<usize> {
        let sum = u32::from(self.sum);
        self.put([b'*', hex(sum >> 4), hex(sum), b'\r', b'\n']);
        if self.length > 82 {
            return Err(Refusal { no: 1, line: 1, field: 0 });
        }
        match out.get_mut(..self.length) {
            Some(place) => place.copy_from_slice(&self.bytes[..self.length]),
            None => return Err(Refusal { no: 8, line: 1, field: 0 }),
        }
        Ok(self.length)
    }
}
