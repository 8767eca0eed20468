//! A group of GSV lines read to a table of satellites.

use crate::read::records::{Entry, Gsv, Talker};
use crate::read::{read_line, Sentence};

pub const MOST: usize = 36;

pub struct Sky {
    pub talker: Talker,
    pub count: usize,
    pub entries: [Entry; MOST],
}

/// Number, line and field of a refusal.
pub struct Refusal {
    pub no: u8,
    pub line: usize,
    pub field: usize,
}

/// What line 1 announces.
struct Head {
    talker: Talker,
    lines: u32,
    satellites: u32,
}

fn lines_for(satellites: u32) -> u32 {
    ((satellites + 3) / 4).max(1)
}

fn follows(head: &Option<Head>, k: usize, talker: Talker, v: &Gsv) -> bool {
    let announced = match head {
        None => v.lines == lines_for(v.satellites),
        Some(h) => h.talker as u8 == talker as u8 && h.lines == v.lines && h.satellites == v.satellites,
    };
    announced && v.line as usize == k && v.line <= v.lines && v.count == (v.satellites as usize).saturating_sub(4 * (k - 1)).min(4)
}

/// Whether a satellite of the line was there before; `seen` has a bit for each number.
fn repeats(seen: &mut u128, v: &Gsv) -> bool {
    v.entries[..v.count].iter().any(|e| {
        let bit = 1u128 << e.number;
        let there = *seen & bit != 0;
        *seen |= bit;
        there
    })
}

/// A whole sky, or the refusal of the first line that has one.
pub fn read_group(s: &[u8]) -> Result<Sky, Refusal> {
    if s.is_empty() {
        return Err(Refusal { no: 1, line: 1, field: 0 });
    }
    let (mut head, mut seen, mut k) = (None, 0, 1);
    let mut sky = Sky { talker: Talker::Gp, count: 0, entries: [Entry::default(); MOST] };
    for line in s.split_inclusive(|&b| b == b'\n') {
        let refused = |no, field| Err(Refusal { no, line: k, field });
        let (talker, v) = match read_line(line) {
            Err(r) => return refused(r.no, r.field),
            Ok(Sentence::Gsv(talker, v)) => (talker, v),
            Ok(_) => return refused(6, 0),
        };
        if !follows(&head, k, talker, &v) {
            return refused(6, 0);
        }
        if repeats(&mut seen, &v) {
            return refused(7, 0);
        }
        sky.entries[sky.count..sky.count + v.count].copy_from_slice(&v.entries[..v.count]);
        sky.count += v.count;
        head = Some(Head { talker, lines: v.lines, satellites: v.satellites });
        k += 1;
    }
    match head {
        Some(h) if h.lines as usize + 1 == k => Ok(Sky { talker: h.talker, ..sky }),
        _ => Err(Refusal { no: 6, line: k, field: 0 }),
    }
}
