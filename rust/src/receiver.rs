//! The class receiver: its settings, and the step that a command takes.

use crate::ffi;
use crate::numbers::{Cell, SETTINGS};
use crate::refusal::Refusal;
use crate::values::Zone;
use crate::walk::{cells_of, in_order, put_up, take_down};

/// The length of the longest reply: that of a PIRSA, which always has both masks in all their digits.
pub const LONGEST_REPLY: usize = 28;

in_order! {
    /// What one port is set to.
    #[derive(Clone, Copy, Debug, PartialEq, Eq, Hash)]
    pub struct Port {
        /// Rate, 1200 to 115200.
        pub rate: u32,
        /// Protocol, 0 to 4; commands are taken by 4 alone.
        pub protocol: u32,
        /// Mask of sentences, bits 7 and 12 to 15 zero.
        pub mask: u32,
    }
}

in_order! {
    /// All settings.
    #[derive(Clone, Copy, Debug, PartialEq, Eq, Hash)]
    pub struct Settings {
        /// Port 0 and port 1.
        pub ports: [Port; 2],
        /// Datum, 0 to 4.
        pub datum: u32,
        /// Zone.
        pub zone: Zone,
        /// GPS mask; the lowest bit is the first satellite.
        pub gps: u32,
        /// GLONASS mask of 24 bits.
        pub glonass: u32,
        /// Self-test code, 0 to 255.
        pub code: u32,
    }
}

/// What a command came to: the length of its reply or its refusal, and the settings as a whole, new, or, where it was refused, the
/// old.
#[derive(Clone, Copy, Debug, PartialEq, Eq)]
#[must_use = "the settings after the command are in it, and its refusal"]
pub struct Done {
    /// The length of the reply in the output, or the refusal.
    pub reply: Result<usize, Refusal>,
    /// The settings after the command.
    pub settings: Settings,
}

/// How many satellites the masks allow.
#[derive(Clone, Copy, Debug, PartialEq, Eq, Hash)]
pub struct Counts {
    /// By the GPS mask.
    pub gps: u32,
    /// By the GLONASS mask.
    pub glonass: u32,
}

const NO_PORT: Port = Port { rate: 0, protocol: 0, mask: 0 };

/// Settings to put numbers into.
const BLANK: Settings =
    Settings { ports: [NO_PORT; 2], datum: 0, zone: Zone { minutes: 0 }, gps: 0, glonass: 0, code: 0 };

/// The settings at start.
///
/// ```
/// assert_eq!(castanwel::Settings::default(), castanwel::Settings::start());
/// ```
impl Default for Settings {
    fn default() -> Settings {
        Settings::start()
    }
}

impl Settings {
    /// The settings at start: 4800, protocol 4 and mask 007F on both ports; datum 0; zone 0; all satellites; code 0.
    ///
    /// ```
    /// let settings = castanwel::Settings::start();
    /// assert_eq!((settings.ports[0].rate, settings.glonass), (4800, 0xff_ffff));
    /// ```
    #[must_use]
    pub fn start() -> Settings {
        let mut numbers = [0; SETTINGS];
        ffi::start(&mut numbers).expect("there is room for the settings");
        put_up(BLANK, &numbers)
    }

    /// Carries out the command `line` that arrived on a port, 0 or 1, and writes the reply. Refused, in order: with 5 and line 0 for
    /// another port or a setting out of range; 10 where the port's protocol is not 4; 1 to 5 of the line; 9 where it is not a
    /// command; 8 where `out` is shorter than the reply. A refusal leaves `out` and the settings.
    ///
    /// ```
    /// let mut out = [0; 82];
    /// let done = castanwel::Settings::start().step(0, b"$PIRSR,7FFEFFFF,FFFFFE,*17\r\n", &mut out);
    /// assert_eq!(&out[..done.reply.unwrap()], b"$PIRSA,7FFEFFFF,FFFFFE,*04\r\n");
    /// assert_eq!((done.settings.gps, done.settings.glonass), (0x7ffe_ffff, 0xff_fffe));
    /// ```
    #[must_use = "the settings after the command are in it, and its refusal"]
    pub fn step(self, arrival: u32, line: &[u8], out: &mut [u8]) -> Done {
        let mut numbers = self.numbers();
        let reply = ffi::step(&mut numbers, arrival, line, out);
        Done { reply, settings: put_up(BLANK, &numbers) }
    }

    /// How many satellites each mask allows. Refused with 5 and line 0 where a setting is out of range.
    ///
    /// ```
    /// let settings = castanwel::Settings { gps: 0x7ffe_ffff, glonass: 0xff_fffe, ..castanwel::Settings::start() };
    /// assert_eq!(settings.counts(), Ok(castanwel::Counts { gps: 30, glonass: 23 }));
    /// ```
    pub fn counts(&self) -> Result<Counts, Refusal> {
        let (gps, glonass) = ffi::counts(&self.numbers())?;
        Ok(Counts { gps, glonass })
    }

    /// The eleven numbers of the settings.
    ///
    /// ```
    /// let numbers = castanwel::Settings::start().numbers();
    /// assert_eq!(numbers[..3], [4800, 4, 127]);
    /// ```
    #[must_use]
    pub fn numbers(&self) -> [i64; SETTINGS] {
        let mut numbers = [0; SETTINGS];
        take_down(*self, &mut numbers);
        numbers
    }

    /// What each number of the settings is.
    ///
    /// ```
    /// assert_eq!(castanwel::Settings::cells()[7], castanwel::numbers::Cell::Signed);
    /// ```
    #[must_use]
    pub fn cells() -> Vec<Cell> {
        cells_of(BLANK)
    }
}
