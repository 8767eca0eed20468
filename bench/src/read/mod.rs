//! A line of any of the fifteen kinds read to its record.

mod fields;
pub mod forms;
mod maker;
pub mod records;
mod standard;

use crate::plain;
use fields::{Answer, Fields, MOST};
pub use records::{Refusal, Sentence};
use records::Talker;

fn refuse<T>(no: u8) -> Answer<T> {
    Err(Refusal { no, field: 0 })
}

fn talker(address: &[u8]) -> Option<Talker> {
    match &address[..2] {
        b"GP" => Some(Talker::Gp),
        b"GL" => Some(Talker::Gl),
        b"GA" => Some(Talker::Ga),
        b"GQ" => Some(Talker::Gq),
        b"GN" => Some(Talker::Gn),
        _ => None,
    }
}

fn maker(f: &Fields, n: usize) -> Answer<Sentence> {
    match (&f.body[..5], n) {
        (b"PIRPR", 4) => maker::pirpr(f),
        (b"PIRTR", 2) => maker::pirtr(f),
        (b"PIRSR", 3) => maker::pirsr(f),
        (b"PIRER", 1) => maker::pirer(f),
        (b"PIRPA", 4) => maker::pirpa(f),
        (b"PIRTA", 2) => maker::pirta(f),
        (b"PIRSA", 3) => maker::pirsa(f),
        (b"PIREA", 1) => maker::pirea(f),
        (b"PIRPR" | b"PIRTR" | b"PIRSR" | b"PIRER" | b"PIRPA" | b"PIRTA" | b"PIRSA" | b"PIREA", _) => refuse(4),
        _ => refuse(3),
    }
}

fn standard(t: Talker, f: &Fields, n: usize) -> Answer<Sentence> {
    match (&f.body[2..5], n) {
        (b"GGA", 14) => Ok(Sentence::Gga(t, standard::gga(f)?)),
        (b"GLL", 7) => Ok(Sentence::Gll(t, standard::gll(f)?)),
        (b"GSA", 17) => Ok(Sentence::Gsa(t, standard::gsa(f)?)),
        (b"GSV", 3 | 7 | 11 | 15 | 19) => Ok(Sentence::Gsv(t, standard::gsv(f, n / 4)?)),
        (b"RMC", 12) => Ok(Sentence::Rmc(t, standard::rmc(f)?)),
        (b"VTG", 9) => Ok(Sentence::Vtg(t, standard::vtg(f)?)),
        (b"ZDA", 6) => Ok(Sentence::Zda(t, standard::zda(f)?)),
        (b"GGA" | b"GLL" | b"GSA" | b"GSV" | b"RMC" | b"VTG" | b"ZDA", _) => refuse(4),
        _ => refuse(3),
    }
}

/// The record of a line, or its refusal: 1 or 2 by the line rule, 3 for an unknown address, 4 for the
/// count of fields, 5 at the first wrong field.
pub fn read_line(line: &[u8]) -> Result<Sentence, Refusal> {
    let no = plain::line_refusal(line);
    if no != 0 {
        return refuse(no);
    }
    let body = &line[1..line.len() - 5];
    let mut fields = Fields { body, ends: [0; MOST] };
    let n = plain::places(body, &mut fields.ends) - 1;
    if n == 0 || fields.ends[0] != 5 {
        return refuse(3);
    }
    match talker(body) {
        Some(t) => standard(t, &fields, n),
        None => maker(&fields, n),
    }
}
