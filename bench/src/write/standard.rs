//! The seven kinds of a talker.

use super::ranges::{date, hold, may, mode, place, short_date, signed, status, time, within, MOST};
use super::text::Text;
use super::{Answer, Refusal};
use crate::read::records::{Entry, Gga, Gll, Gsa, Gsv, Rmc, Talker, Vtg, Zda};

pub fn gga(out: &mut [u8], t: Talker, r: &Gga) -> Answer<usize> {
    time(1, r.time)?;
    place(2, r.place)?;
    within(6, r.quality, 0, 8)?;
    may(7, r.satellites, 0, 99)?;
    may(8, r.hdop, 0, MOST)?;
    signed(9, r.altitude, MOST)?;
    signed(11, r.geoid, MOST)?;
    may(13, r.age, 0, MOST)?;
    may(14, r.station, 0, 1023)?;
    let mut text = Text::of_talker(t, *b"GGA");
    text.may(r.time, Text::time);
    text.place(r.place);
    text.one(r.quality);
    text.may(r.satellites, Text::two);
    text.may(r.hdop, Text::number);
    text.with_unit(r.altitude, b'M', Text::height);
    text.with_unit(r.geoid, b'M', Text::height);
    text.may(r.age, Text::number);
    text.may(r.station, Text::four);
    text.seal(out)
}

pub fn gll(out: &mut [u8], t: Talker, r: &Gll) -> Answer<usize> {
    place(1, r.place)?;
    time(5, r.time)?;
    status(6, r.status)?;
    mode(7, r.mode)?;
    let mut text = Text::of_talker(t, *b"GLL");
    text.place(r.place);
    text.may(r.time, Text::time);
    text.letter(r.status);
    text.letter(r.mode);
    text.seal(out)
}

pub fn gsa(out: &mut [u8], t: Talker, r: &Gsa) -> Answer<usize> {
    hold(1, matches!(r.selection, b'M' | b'A'))?;
    within(2, r.fix, 1, 3)?;
    for (i, &satellite) in r.satellites.iter().enumerate() {
        may(3 + i, satellite, 1, 99)?;
    }
    may(15, r.pdop, 0, MOST)?;
    may(16, r.hdop, 0, MOST)?;
    may(17, r.vdop, 0, MOST)?;
    let mut text = Text::of_talker(t, *b"GSA");
    text.letter(r.selection);
    text.one(r.fix);
    for &satellite in &r.satellites {
        text.may(satellite, Text::two);
    }
    text.may(r.pdop, Text::number);
    text.may(r.hdop, Text::number);
    text.may(r.vdop, Text::number);
    text.seal(out)
}

fn entry(k: usize, e: &Entry) -> Answer<()> {
    within(k, e.number, 1, 99)?;
    may(k + 1, e.elevation, 0, 90)?;
    may(k + 2, e.azimuth, 0, 359)?;
    may(k + 3, e.signal, 0, 99)
}

fn is_blank(e: &Entry) -> bool {
    e.number == 0 && e.elevation.is_none() && e.azimuth.is_none() && e.signal.is_none()
}

pub fn gsv(out: &mut [u8], t: Talker, r: &Gsv) -> Answer<usize> {
    const MISSHAPEN: Refusal = Refusal { no: 5, line: 0, field: 0 };
    if r.count > r.entries.len() {
        return Err(MISSHAPEN);
    }
    let (used, rest) = r.entries.split_at(r.count);
    within(1, r.lines, 1, 9)?;
    within(2, r.line, 1, 9)?;
    within(3, r.satellites, 0, 99)?;
    for (i, e) in used.iter().enumerate() {
        entry(4 + 4 * i, e)?;
    }
    if !rest.iter().all(is_blank) {
        return Err(MISSHAPEN);
    }
    let mut text = Text::of_talker(t, *b"GSV");
    text.one(r.lines);
    text.one(r.line);
    text.two(r.satellites);
    for e in used {
        text.two(e.number);
        text.may(e.elevation, Text::two);
        text.may(e.azimuth, Text::three);
        text.may(e.signal, Text::two);
    }
    text.seal(out)
}

pub fn rmc(out: &mut [u8], t: Talker, r: &Rmc) -> Answer<usize> {
    let speed = r.speed.map(|v| v.0);
    time(1, r.time)?;
    status(2, r.status)?;
    place(3, r.place)?;
    may(7, speed, 0, MOST)?;
    may(8, r.course, 0, 359_999)?;
    short_date(9, r.date)?;
    signed(10, r.variation, 179_999)?;
    mode(12, r.mode)?;
    let mut text = Text::of_talker(t, *b"RMC");
    text.may(r.time, Text::time);
    text.letter(r.status);
    text.place(r.place);
    text.may(speed, Text::number);
    text.may(r.course, Text::number);
    text.may(r.date, Text::short_date);
    text.variation(r.variation);
    text.letter(r.mode);
    text.seal(out)
}

pub fn vtg(out: &mut [u8], t: Talker, r: &Vtg) -> Answer<usize> {
    let (knots, kmh) = (r.knots.map(|v| v.0), r.kmh.map(|v| v.0));
    may(1, r.course, 0, 359_999)?;
    may(3, r.magnetic, 0, 359_999)?;
    may(5, knots, 0, MOST)?;
    may(7, kmh, 0, MOST)?;
    mode(9, r.mode)?;
    let mut text = Text::of_talker(t, *b"VTG");
    text.with_unit(r.course, b'T', Text::number);
    text.with_unit(r.magnetic, b'M', Text::number);
    text.with_unit(knots, b'N', Text::number);
    text.with_unit(kmh, b'K', Text::number);
    text.letter(r.mode);
    text.seal(out)
}

pub fn zda(out: &mut [u8], t: Talker, r: &Zda) -> Answer<usize> {
    time(1, r.time)?;
    date(2, r.date)?;
    signed(5, r.zone, 839)?;
    let mut text = Text::of_talker(t, *b"ZDA");
    text.may(r.time, Text::time);
    text.date(r.date);
    text.zone(r.zone);
    text.seal(out)
}
