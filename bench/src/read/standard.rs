//! The seven kinds of a talker.

use super::fields::{Answer, Fields};
use super::forms::{below, digits, letter, short_date, signed, thousandths, time};
use super::records::{Entry, Gga, Gll, Gsa, Gsv, Kmh, Knots, Rmc, Vtg, Zda};

const MODES: &[u8] = b"ADEMSN";

pub fn gga(f: &Fields) -> Answer<Gga> {
    Ok(Gga {
        time: f.may(1, time)?,
        place: f.place(2)?,
        quality: f.must(6, |s| digits(s, 1, 0, 8))?,
        satellites: f.may(7, |s| digits(s, 2, 0, 99))?,
        hdop: f.may(8, thousandths)?,
        altitude: f.with_unit(9, b'M', signed)?,
        geoid: f.with_unit(11, b'M', signed)?,
        age: f.may(13, thousandths)?,
        station: f.may(14, |s| digits(s, 4, 0, 1023))?,
    })
}

pub fn gll(f: &Fields) -> Answer<Gll> {
    Ok(Gll {
        place: f.place(1)?,
        time: f.may(5, time)?,
        status: f.must(6, |s| letter(s, b"AV"))?,
        mode: f.must(7, |s| letter(s, MODES))?,
    })
}

pub fn gsa(f: &Fields) -> Answer<Gsa> {
    let selection = f.must(1, |s| letter(s, b"MA"))?;
    let fix = f.must(2, |s| digits(s, 1, 1, 3))?;
    let mut satellites = [None; 12];
    for (i, place) in satellites.iter_mut().enumerate() {
        *place = f.may(3 + i, |s| digits(s, 2, 1, 99))?;
    }
    Ok(Gsa {
        selection,
        fix,
        satellites,
        pdop: f.may(15, thousandths)?,
        hdop: f.may(16, thousandths)?,
        vdop: f.may(17, thousandths)?,
    })
}

/// `count` is the number of entries.
pub fn gsv(f: &Fields, count: usize) -> Answer<Gsv> {
    let lines = f.must(1, |s| digits(s, 1, 1, 9))?;
    let line = f.must(2, |s| digits(s, 1, 1, 9))?;
    let satellites = f.must(3, |s| digits(s, 2, 0, 99))?;
    let mut entries = [Entry::default(); 4];
    for (i, entry) in entries.iter_mut().take(count).enumerate() {
        let k = 4 + 4 * i;
        *entry = Entry {
            number: f.must(k, |s| digits(s, 2, 1, 99))?,
            elevation: f.may(k + 1, |s| digits(s, 2, 0, 90))?,
            azimuth: f.may(k + 2, |s| digits(s, 3, 0, 359))?,
            signal: f.may(k + 3, |s| digits(s, 2, 0, 99))?,
        };
    }
    Ok(Gsv { lines, line, satellites, count, entries })
}

pub fn rmc(f: &Fields) -> Answer<Rmc> {
    Ok(Rmc {
        time: f.may(1, time)?,
        status: f.must(2, |s| letter(s, b"AV"))?,
        place: f.place(3)?,
        speed: f.may(7, thousandths)?.map(Knots),
        course: f.may(8, |s| below(s, 360_000))?,
        date: f.may(9, short_date)?,
        variation: f.variation(10)?,
        mode: f.must(12, |s| letter(s, MODES))?,
    })
}

pub fn vtg(f: &Fields) -> Answer<Vtg> {
    Ok(Vtg {
        course: f.with_unit(1, b'T', |s| below(s, 360_000))?,
        magnetic: f.with_unit(3, b'M', |s| below(s, 360_000))?,
        knots: f.with_unit(5, b'N', thousandths)?.map(Knots),
        kmh: f.with_unit(7, b'K', thousandths)?.map(Kmh),
        mode: f.must(9, |s| letter(s, MODES))?,
    })
}

pub fn zda(f: &Fields) -> Answer<Zda> {
    Ok(Zda { time: f.may(1, time)?, date: f.date(2)?, zone: f.zone(5)? })
}
