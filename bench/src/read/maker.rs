//! The commands and replies of the maker.

use super::fields::{wrong, Answer, Fields};
use super::forms::{code, digits, mask, mask_asked, port_mask, rate, short_zone};
use super::records::{Datum, Port, Sentence};

fn protocol(s: &[u8]) -> Option<u32> {
    digits(s, 1, 0, 4)
}

fn port(s: &[u8]) -> Option<u32> {
    digits(s, 1, 0, 1)
}

fn datum(s: &[u8]) -> Option<u32> {
    digits(s, 1, 0, 4)
}

/// Without a rate it is a question, whose other fields are valid or empty.
pub fn pirpr(f: &Fields) -> Answer<Sentence> {
    let port = f.may(1, port)?;
    let set = match f.may(2, rate)? {
        Some(rate) => Some(Port { rate, protocol: f.must(3, protocol)?, mask: f.must(4, port_mask)? }),
        None => {
            f.may(3, protocol)?;
            f.may(4, port_mask)?;
            None
        }
    };
    Ok(Sentence::Pr { port, set })
}

/// Without a datum it is a question, whose zone is valid or empty.
pub fn pirtr(f: &Fields) -> Answer<Sentence> {
    let set = match f.may(1, datum)? {
        Some(datum) => Some(Datum { datum, zone: f.must(2, short_zone)? }),
        None => {
            f.may(2, short_zone)?;
            None
        }
    };
    Ok(Sentence::Tr { set })
}

pub fn pirsr(f: &Fields) -> Answer<Sentence> {
    let gps = f.may(1, |s| mask_asked(s, 8))?;
    let glonass = f.may(2, |s| mask_asked(s, 6))?;
    f.empty(3)?;
    Ok(Sentence::Sr { gps, glonass })
}

pub fn pirer(f: &Fields) -> Answer<Sentence> {
    match f.get(1) {
        b"0" => Ok(Sentence::Er),
        _ => Err(wrong(1)),
    }
}

pub fn pirpa(f: &Fields) -> Answer<Sentence> {
    let port = f.must(1, port)?;
    let is = Port { rate: f.must(2, rate)?, protocol: f.must(3, protocol)?, mask: f.must(4, port_mask)? };
    Ok(Sentence::Pa { port, is })
}

pub fn pirta(f: &Fields) -> Answer<Sentence> {
    let is = Datum { datum: f.must(1, datum)?, zone: f.must(2, short_zone)? };
    Ok(Sentence::Ta { is })
}

pub fn pirsa(f: &Fields) -> Answer<Sentence> {
    let gps = f.must(1, |s| mask(s, 8))?;
    let glonass = f.must(2, |s| mask(s, 6))?;
    f.empty(3)?;
    Ok(Sentence::Sa { gps, glonass })
}

pub fn pirea(f: &Fields) -> Answer<Sentence> {
    Ok(Sentence::Ea { code: f.must(1, code)? })
}
