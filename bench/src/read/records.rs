//! The records of the fifteen kinds of sentence. What may be missing is an `Option`.

#[derive(Clone, Copy)]
pub enum Talker {
    Gp,
    Gl,
    Ga,
    Gq,
    Gn,
}

/// Signed ten-thousandths of a minute, south and west negative.
#[derive(Clone, Copy)]
pub struct Place {
    pub lat: i32,
    pub lon: i32,
}

#[derive(Clone, Copy)]
pub struct Date {
    pub day: u32,
    pub month: u32,
    pub year: u32,
}

/// Thousandths of a knot.
#[derive(Clone, Copy)]
pub struct Knots(pub u32);

/// Thousandths of a km/h.
#[derive(Clone, Copy)]
pub struct Kmh(pub u32);

pub struct Gga {
    pub time: Option<u32>,
    pub place: Option<Place>,
    pub quality: u32,
    pub satellites: Option<u32>,
    pub hdop: Option<u32>,
    pub altitude: Option<i32>,
    pub geoid: Option<i32>,
    pub age: Option<u32>,
    pub station: Option<u32>,
}

pub struct Gll {
    pub place: Option<Place>,
    pub time: Option<u32>,
    pub status: u8,
    pub mode: u8,
}

pub struct Gsa {
    pub selection: u8,
    pub fix: u32,
    pub satellites: [Option<u32>; 12],
    pub pdop: Option<u32>,
    pub hdop: Option<u32>,
    pub vdop: Option<u32>,
}

#[derive(Clone, Copy, Default)]
pub struct Entry {
    pub number: u32,
    pub elevation: Option<u32>,
    pub azimuth: Option<u32>,
    pub signal: Option<u32>,
}

/// `count` entries are used, the places after them are blank.
pub struct Gsv {
    pub lines: u32,
    pub line: u32,
    pub satellites: u32,
    pub count: usize,
    pub entries: [Entry; 4],
}

pub struct Rmc {
    pub time: Option<u32>,
    pub status: u8,
    pub place: Option<Place>,
    pub speed: Option<Knots>,
    pub course: Option<u32>,
    pub date: Option<Date>,
    pub variation: Option<i32>,
    pub mode: u8,
}

pub struct Vtg {
    pub course: Option<u32>,
    pub magnetic: Option<u32>,
    pub knots: Option<Knots>,
    pub kmh: Option<Kmh>,
    pub mode: u8,
}

pub struct Zda {
    pub time: Option<u32>,
    pub date: Option<Date>,
    pub zone: Option<i32>,
}

/// What a port is told or has.
#[derive(Clone, Copy)]
pub struct Port {
    pub rate: u32,
    pub protocol: u32,
    pub mask: u32,
}

/// Datum and zone.
#[derive(Clone, Copy)]
pub struct Datum {
    pub datum: u32,
    pub zone: i32,
}

pub enum Sentence {
    Gga(Talker, Gga),
    Gll(Talker, Gll),
    Gsa(Talker, Gsa),
    Gsv(Talker, Gsv),
    Rmc(Talker, Rmc),
    Vtg(Talker, Vtg),
    Zda(Talker, Zda),
    Pr { port: Option<u32>, set: Option<Port> },
    Tr { set: Option<Datum> },
    Sr { gps: Option<u32>, glonass: Option<u32> },
    Er,
    Pa { port: u32, is: Port },
    Ta { is: Datum },
    Sa { gps: u32, glonass: u32 },
    Ea { code: u32 },
}

/// The number of a refusal, and its field, 0 where it has none.
#[derive(Clone, Copy, PartialEq, Eq, Debug)]
pub struct Refusal {
    pub no: u8,
    pub field: usize,
}
