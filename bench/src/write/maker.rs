//! The commands and replies of the maker.

use super::ranges::{hold, may, signed, within};
use super::text::Text;
use super::Answer;
use crate::read::records::{Datum, Port};

fn port_held(set: Port) -> Answer<()> {
    within(2, set.rate, 1200, 115_200)?;
    within(3, set.protocol, 0, 4)?;
    hold(4, set.mask & !0x0f7f == 0)
}

fn put_port(text: &mut Text, set: Port) {
    text.whole(set.rate);
    text.one(set.protocol);
    text.hex::<4>(set.mask);
}

fn datum_held(set: Datum) -> Answer<()> {
    within(1, set.datum, 0, 4)?;
    signed(2, Some(set.zone), 839)
}

fn put_datum(text: &mut Text, set: Datum) {
    text.one(set.datum);
    text.short_zone(set.zone);
}

pub fn pirpr(out: &mut [u8], port: Option<u32>, set: Option<Port>) -> Answer<usize> {
    may(1, port, 0, 1)?;
    set.map_or(Ok(()), port_held)?;
    let mut text = Text::of_maker(*b"$PIRPR");
    text.may(port, Text::one);
    match set {
        Some(set) => put_port(&mut text, set),
        None => (0..3).for_each(|_| text.empty()),
    }
    text.seal(out)
}

pub fn pirtr(out: &mut [u8], set: Option<Datum>) -> Answer<usize> {
    set.map_or(Ok(()), datum_held)?;
    let mut text = Text::of_maker(*b"$PIRTR");
    match set {
        Some(set) => put_datum(&mut text, set),
        None => (0..2).for_each(|_| text.empty()),
    }
    text.seal(out)
}

pub fn pirsr(out: &mut [u8], gps: Option<u32>, glonass: Option<u32>) -> Answer<usize> {
    may(2, glonass, 0, 0xff_ffff)?;
    let mut text = Text::of_maker(*b"$PIRSR");
    text.may(gps, Text::hex::<8>);
    text.may(glonass, Text::hex::<6>);
    text.empty();
    text.seal(out)
}

pub fn pirer(out: &mut [u8]) -> Answer<usize> {
    let mut text = Text::of_maker(*b"$PIRER");
    text.one(0);
    text.seal(out)
}

pub fn pirpa(out: &mut [u8], port: u32, is: Port) -> Answer<usize> {
    within(1, port, 0, 1)?;
    port_held(is)?;
    let mut text = Text::of_maker(*b"$PIRPA");
    text.one(port);
    put_port(&mut text, is);
    text.seal(out)
}

pub fn pirta(out: &mut [u8], is: Datum) -> Answer<usize> {
    datum_held(is)?;
    let mut text = Text::of_maker(*b"$PIRTA");
    put_datum(&mut text, is);
    text.seal(out)
}

pub fn pirsa(out: &mut [u8], gps: u32, glonass: u32) -> Answer<usize> {
    within(2, glonass, 0, 0xff_ffff)?;
    let mut text = Text::of_maker(*b"$PIRSA");
    text.hex::<8>(gps);
    text.hex::<6>(glonass);
    text.empty();
    text.seal(out)
}

pub fn pirea(out: &mut [u8], code: u32) -> Answer<usize> {
    within(1, code, 0, 255)?;
    let mut text = Text::of_maker(*b"$PIREA");
    text.whole(code);
    text.seal(out)
}
