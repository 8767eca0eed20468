//! One struct for the record of each kind. Its fields stand in the order of docs/LAYOUT.md, which is the order of its numbers. A record
//! can hold values outside their ranges: the proved writer refuses it then, at the field of the first such value. Only records that can be
//! written with nothing sent have a default.

use crate::values::{Date, Kmh, Knots, Mode, Number, Place, Selection, Signed, Status, Time, Zone};
use crate::walk::{in_order, Blank, Cursor, Walk};

in_order! {
    /// GGA: a fix.
    #[derive(Clone, Copy, Debug, Default, PartialEq, Eq, Hash)]
    pub struct Gga {
        /// Time of day.
        pub time: Option<Time>,
        /// Position.
        pub place: Option<Place>,
        /// Quality, 0 to 8.
        pub quality: u32,
        /// How many satellites are used, 0 to 99.
        pub satellites: Option<u32>,
        /// Horizontal dilution of precision.
        pub hdop: Option<Number>,
        /// Altitude in metres.
        pub altitude: Option<Signed>,
        /// Height of the geoid in metres.
        pub geoid: Option<Signed>,
        /// Age of the differential data in seconds.
        pub age: Option<Number>,
        /// Differential station, 0 to 1023.
        pub station: Option<u32>,
    }
}

in_order! {
    /// GLL: a position.
    #[derive(Clone, Copy, Debug, PartialEq, Eq, Hash)]
    pub struct Gll {
        /// Position.
        pub place: Option<Place>,
        /// Time of day.
        pub time: Option<Time>,
        /// Status.
        pub status: Status,
        /// Mode.
        pub mode: Mode,
    }
}

in_order! {
    /// GSA: the satellites in use.
    #[derive(Clone, Copy, Debug, PartialEq, Eq, Hash)]
    pub struct Gsa {
        /// Selection of the fix, manual or automatic.
        pub selection: Selection,
        /// Fix, 1 to 3.
        pub fix: u32,
        /// Satellite numbers, 1 to 99; gaps are allowed.
        pub satellites: [Option<u32>; 12],
        /// Dilution of precision of the position.
        pub pdop: Option<Number>,
        /// Horizontal dilution of precision.
        pub hdop: Option<Number>,
        /// Vertical dilution of precision.
        pub vdop: Option<Number>,
    }
}

in_order! {
    /// A satellite in view; blank by default.
    #[derive(Clone, Copy, Debug, Default, PartialEq, Eq, Hash)]
    pub struct Entry {
        /// Its number, 1 to 99; 0 where the place is not used.
        pub number: u32,
        /// Elevation in degrees, 0 to 90.
        pub elevation: Option<u32>,
        /// Azimuth in degrees, 0 to 359.
        pub azimuth: Option<u32>,
        /// Signal in dB, 0 to 99. Missing and 0 are not the same.
        pub signal: Option<u32>,
    }
}

in_order! {
    /// GSV: one line of a satellite group.
    #[derive(Clone, Copy, Debug, PartialEq, Eq, Hash)]
    pub struct Gsv {
        /// How many lines the group has, 1 to 9.
        pub lines: u32,
        /// Which of them this is, 1 to 9.
        pub line: u32,
        /// How many satellites are in view, 0 to 99.
        pub satellites: u32,
        /// How many of the four places are used.
        pub count: u32,
        /// The satellites of this line; the places that are not used are blank.
        pub entries: [Entry; 4],
    }
}

in_order! {
    /// RMC: position, speed and date.
    #[derive(Clone, Copy, Debug, PartialEq, Eq, Hash)]
    pub struct Rmc {
        /// Time of day.
        pub time: Option<Time>,
        /// Status.
        pub status: Status,
        /// Position.
        pub place: Option<Place>,
        /// Speed over ground.
        pub speed: Option<Knots>,
        /// Course over ground, below 360 degrees.
        pub course: Option<Number>,
        /// Date.
        pub date: Option<Date>,
        /// Magnetic variation, below 180 degrees to either side.
        pub variation: Option<Signed>,
        /// Mode.
        pub mode: Mode,
    }
}

in_order! {
    /// VTG: course and speed.
    #[derive(Clone, Copy, Debug, PartialEq, Eq, Hash)]
    pub struct Vtg {
        /// True course, below 360 degrees.
        pub course: Option<Number>,
        /// Magnetic course, below 360 degrees.
        pub magnetic: Option<Number>,
        /// Speed in knots.
        pub knots: Option<Knots>,
        /// Speed in km/h; nothing says that both agree.
        pub kmh: Option<Kmh>,
        /// Mode.
        pub mode: Mode,
    }
}

in_order! {
    /// ZDA: time, date and zone.
    #[derive(Clone, Copy, Debug, Default, PartialEq, Eq, Hash)]
    pub struct Zda {
        /// Time of day.
        pub time: Option<Time>,
        /// Date.
        pub date: Option<Date>,
        /// Zone.
        pub zone: Option<Zone>,
    }
}

in_order! {
    /// PIRPR: settings for a port, or, where the rate is missing, a question.
    #[derive(Clone, Copy, Debug, Default, PartialEq, Eq, Hash)]
    pub struct PortAsked {
        /// Port 0 or 1; where it is missing, the port that the command arrived on.
        pub port: Option<u32>,
        /// Rate, 1200 to 115200.
        pub rate: Option<u32>,
        /// Protocol, 0 to 4; missing in a question.
        pub protocol: Option<u32>,
        /// Mask of sentences, bits 7 and 12 to 15 zero; missing in a question.
        pub mask: Option<u32>,
    }
}

in_order! {
    /// PIRTR: datum and zone, or, where the datum is missing, a question.
    #[derive(Clone, Copy, Debug, Default, PartialEq, Eq, Hash)]
    pub struct DatumAsked {
        /// Datum, 0 to 4.
        pub datum: Option<u32>,
        /// Zone; missing in a question.
        pub zone: Option<Zone>,
    }
}

in_order! {
    /// PIRSR: satellite masks; a missing one is not changed.
    #[derive(Clone, Copy, Debug, Default, PartialEq, Eq, Hash)]
    pub struct MasksAsked {
        /// GPS mask; the lowest bit is the first satellite.
        pub gps: Option<u32>,
        /// GLONASS mask of 24 bits.
        pub glonass: Option<u32>,
    }
}

/// PIRER: the question for the self-test code. It has no values.
#[derive(Clone, Copy, Debug, Default, PartialEq, Eq, Hash)]
pub struct CodeAsked;

impl Blank for CodeAsked {
    fn blank() -> Self {
        CodeAsked
    }
}

impl Walk for CodeAsked {
    fn walk<C: Cursor>(&mut self, _: &mut C) {}
}

in_order! {
    /// PIRPA: what a port is set to.
    #[derive(Clone, Copy, Debug, PartialEq, Eq, Hash)]
    pub struct PortTold {
        /// Port, 0 or 1.
        pub port: u32,
        /// Rate, 1200 to 115200.
        pub rate: u32,
        /// Protocol, 0 to 4.
        pub protocol: u32,
        /// Mask of sentences, bits 7 and 12 to 15 zero.
        pub mask: u32,
    }
}

in_order! {
    /// PIRTA: datum and zone.
    #[derive(Clone, Copy, Debug, Default, PartialEq, Eq, Hash)]
    pub struct DatumTold {
        /// Datum, 0 to 4.
        pub datum: u32,
        /// Zone.
        pub zone: Zone,
    }
}

in_order! {
    /// PIRSA: the satellite masks.
    #[derive(Clone, Copy, Debug, Default, PartialEq, Eq, Hash)]
    pub struct MasksTold {
        /// GPS mask.
        pub gps: u32,
        /// GLONASS mask of 24 bits.
        pub glonass: u32,
    }
}

in_order! {
    /// PIREA: the self-test code.
    #[derive(Clone, Copy, Debug, Default, PartialEq, Eq, Hash)]
    pub struct CodeTold {
        /// Code, 0 to 255.
        pub code: u32,
    }
}

impl Gll {
    /// A record with this status and mode, and nothing else sent.
    ///
    /// ```
    /// use castanwel::{Gll, Mode, Sentence, Status, Talker};
    /// let none = Sentence::Gll(Talker::Gp, Gll::new(Status(b'V'), Mode(b'N')));
    /// assert_eq!(none.to_string(), "$GPGLL,,,,,,V,N*64");
    /// ```
    #[must_use]
    pub fn new(status: Status, mode: Mode) -> Gll {
        Gll { status, mode, ..Blank::blank() }
    }
}

impl Gsa {
    /// A record with this selection and fix, and nothing else sent.
    ///
    /// ```
    /// use castanwel::{Gsa, Selection, Sentence, Talker};
    /// let none = Sentence::Gsa(Talker::Gp, Gsa::new(Selection(b'A'), 1));
    /// assert_eq!(none.to_string(), "$GPGSA,A,1,,,,,,,,,,,,,,,*1E");
    /// ```
    #[must_use]
    pub fn new(selection: Selection, fix: u32) -> Gsa {
        Gsa { selection, fix, ..Blank::blank() }
    }
}

impl Gsv {
    /// A line of a group without satellites: of so many lines, which of them it is, and how many satellites are in view.
    ///
    /// ```
    /// use castanwel::{Gsv, Sentence, Talker};
    /// let none = Sentence::Gsv(Talker::Gp, Gsv::new(1, 1, 0));
    /// assert_eq!(none.to_string(), "$GPGSV,1,1,00*79");
    /// ```
    #[must_use]
    pub fn new(lines: u32, line: u32, satellites: u32) -> Gsv {
        Gsv { lines, line, satellites, ..Blank::blank() }
    }
}

impl Rmc {
    /// A record with this status and mode, and nothing else sent.
    ///
    /// ```
    /// use castanwel::{Mode, Rmc, Sentence, Status, Talker};
    /// let none = Sentence::Rmc(Talker::Gp, Rmc::new(Status(b'V'), Mode(b'N')));
    /// assert_eq!(none.to_string(), "$GPRMC,,V,,,,,,,,,,N*53");
    /// ```
    #[must_use]
    pub fn new(status: Status, mode: Mode) -> Rmc {
        Rmc { status, mode, ..Blank::blank() }
    }
}

impl Vtg {
    /// A record with this mode, and nothing else sent.
    ///
    /// ```
    /// use castanwel::{Mode, Sentence, Talker, Vtg};
    /// let none = Sentence::Vtg(Talker::Gp, Vtg::new(Mode(b'N')));
    /// assert_eq!(none.to_string(), "$GPVTG,,,,,,,,,N*30");
    /// ```
    #[must_use]
    pub fn new(mode: Mode) -> Vtg {
        Vtg { mode, ..Blank::blank() }
    }
}
