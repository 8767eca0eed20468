//! The fifteen kinds of sentence: each with its record, and a talker where any receiver sends it. A line is read to a sentence, and
//! written from one.

use crate::ffi;
use crate::numbers::{Cell, RECORD};
use crate::records::{CodeAsked, CodeTold, DatumAsked, DatumTold, MasksAsked, MasksTold, PortAsked, PortTold};
use crate::records::{Gga, Gll, Gsa, Gsv, Rmc, Vtg, Zda};
use crate::refusal::Refusal;
use crate::walk::{cells_of, put_up, take_down, Blank, Cursor, Walk};
use crate::LONGEST;
use std::fmt;

/// Whose receiver a sentence comes from.
#[derive(Clone, Copy, Debug, Default, PartialEq, Eq, Hash)]
#[non_exhaustive]
pub enum Talker {
    /// GPS.
    #[default]
    Gp,
    /// GLONASS.
    Gl,
    /// Galileo.
    Ga,
    /// QZSS.
    Gq,
    /// Several systems.
    Gn,
}

impl Talker {
    /// Each talker, in the order of their numbers from 0.
    pub const ALL: [Talker; 5] = [Talker::Gp, Talker::Gl, Talker::Ga, Talker::Gq, Talker::Gn];

    /// The two letters that an address begins with.
    ///
    /// ```
    /// assert_eq!(castanwel::Talker::Gn.word(), "GN");
    /// ```
    #[must_use]
    pub fn word(self) -> &'static str {
        ["GP", "GL", "GA", "GQ", "GN"][self as usize]
    }
}

impl Blank for Talker {
    fn blank() -> Self {
        Talker::Gp
    }
}

impl Walk for Talker {
    fn walk<C: Cursor>(&mut self, c: &mut C) {
        let number = usize::try_from(c.number(Cell::Plain, *self as i64)).unwrap_or(Talker::ALL.len());
        *self = *Talker::ALL.get(number).expect("a proved reader gives a talker from 0 to 4");
    }
}

/// Declares the kinds and the sentences, from a row for each: name, talker, record, number and word.
macro_rules! sentences {
    ($($(#[$says:meta])* $name:ident [$($by:ident: $talker:ty)?] $record:ty, $number:literal, $word:literal;)*) => {
        /// The kind of a sentence.
        #[derive(Clone, Copy, Debug, PartialEq, Eq, Hash)]
        #[non_exhaustive]
        pub enum Kind {
            $($(#[$says])* $name = $number,)*
        }

        impl Kind {
            /// Each kind, in the order of their numbers from 1.
            pub const ALL: [Kind; 15] = [$(Kind::$name),*];

            /// What an address says of the kind: three letters, or all five where the kind has no talker.
            ///
            /// ```
            /// assert_eq!(castanwel::Kind::Gga.word(), "GGA");
            /// assert_eq!(castanwel::Kind::Pirsr.word(), "PIRSR");
            /// ```
            #[must_use]
            pub fn word(self) -> &'static str {
                match self {
                    $(Kind::$name => $word,)*
                }
            }
        }

        /// A sentence: its record, behind its talker where the kind has one.
        #[derive(Clone, Copy, Debug, PartialEq, Eq, Hash)]
        #[non_exhaustive]
        pub enum Sentence {
            $($(#[$says])* $name($($talker,)? $record),)*
        }

        impl Sentence {
            /// A sentence of a kind that has nothing in it.
            fn blank(kind: Kind) -> Sentence {
                match kind {
                    $(Kind::$name => Sentence::$name($(<$talker>::blank(),)? <$record>::blank()),)*
                }
            }

            /// The kind of the sentence.
            ///
            /// ```
            /// let sentence = castanwel::read(b"$GPGSV,1,1,00*79\r\n").unwrap();
            /// assert_eq!(sentence.kind(), castanwel::Kind::Gsv);
            /// ```
            #[must_use]
            pub fn kind(&self) -> Kind {
                match self {
                    $(Sentence::$name(..) => Kind::$name,)*
                }
            }
        }

        impl Walk for Sentence {
            fn walk<C: Cursor>(&mut self, c: &mut C) {
                match self {
                    $(Sentence::$name($($by,)? record) => {
                        $($by.walk(c);)?
                        record.walk(c);
                    })*
                }
            }
        }
    };
}

sentences! {
    /// A fix.
    Gga [talker: Talker] Gga, 1, "GGA";
    /// A position.
    Gll [talker: Talker] Gll, 2, "GLL";
    /// The satellites in use.
    Gsa [talker: Talker] Gsa, 3, "GSA";
    /// Satellites in view, one line of a group.
    Gsv [talker: Talker] Gsv, 4, "GSV";
    /// Position, speed and date.
    Rmc [talker: Talker] Rmc, 5, "RMC";
    /// Course and speed.
    Vtg [talker: Talker] Vtg, 6, "VTG";
    /// Time, date and zone.
    Zda [talker: Talker] Zda, 7, "ZDA";
    /// The command for a port.
    Pirpr [] PortAsked, 8, "PIRPR";
    /// The command for datum and zone.
    Pirtr [] DatumAsked, 9, "PIRTR";
    /// The command for the satellite masks.
    Pirsr [] MasksAsked, 10, "PIRSR";
    /// The question for the self-test code.
    Pirer [] CodeAsked, 11, "PIRER";
    /// The reply about a port.
    Pirpa [] PortTold, 12, "PIRPA";
    /// The reply about datum and zone.
    Pirta [] DatumTold, 13, "PIRTA";
    /// The reply about the satellite masks.
    Pirsa [] MasksTold, 14, "PIRSA";
    /// The reply with the self-test code.
    Pirea [] CodeTold, 15, "PIREA";
}

impl Kind {
    /// The number by which [`numbers::read`](crate::numbers::read) and [`numbers::write`](crate::numbers::write) know the kind.
    ///
    /// ```
    /// assert_eq!(castanwel::Kind::Pirea.number(), 15);
    /// ```
    #[must_use]
    pub fn number(self) -> u32 {
        self as u32
    }

    /// The kind of a number, if there is one.
    ///
    /// ```
    /// assert_eq!(castanwel::Kind::from_number(1), Some(castanwel::Kind::Gga));
    /// assert_eq!(castanwel::Kind::from_number(16), None);
    /// ```
    #[must_use]
    pub fn from_number(number: u32) -> Option<Kind> {
        Kind::ALL.iter().copied().find(|kind| kind.number() == number)
    }

    /// Whether a sentence of the kind has a talker.
    ///
    /// ```
    /// assert!(castanwel::Kind::Zda.has_talker());
    /// assert!(!castanwel::Kind::Pirer.has_talker());
    /// ```
    #[must_use]
    pub fn has_talker(self) -> bool {
        Sentence::blank(self).talker().is_some()
    }

    /// What each number of a sentence of the kind is, the talker's first where it has one.
    ///
    /// ```
    /// use castanwel::numbers::Cell;
    /// assert_eq!(castanwel::Kind::Pirtr.cells(), [Cell::Mark, Cell::Plain, Cell::Mark, Cell::Signed]);
    /// ```
    #[must_use]
    pub fn cells(self) -> Vec<Cell> {
        cells_of(Sentence::blank(self))
    }
}

impl Sentence {
    /// The talker of the sentence; none where its kind has none.
    ///
    /// ```
    /// let sentence = castanwel::read(b"$GPGSV,1,1,00*79\r\n").unwrap();
    /// assert_eq!(sentence.talker(), Some(castanwel::Talker::Gp));
    /// ```
    #[must_use]
    pub fn talker(&self) -> Option<Talker> {
        match *self {
            Sentence::Gga(talker, _)
            | Sentence::Gll(talker, _)
            | Sentence::Gsa(talker, _)
            | Sentence::Gsv(talker, _)
            | Sentence::Rmc(talker, _)
            | Sentence::Vtg(talker, _)
            | Sentence::Zda(talker, _) => Some(talker),
            _ => None,
        }
    }

    /// The five letters of the address.
    ///
    /// ```
    /// let sentence = castanwel::read(b"$GPGSV,1,1,00*79\r\n").unwrap();
    /// assert_eq!(sentence.address(), "GPGSV");
    /// ```
    #[must_use]
    pub fn address(&self) -> String {
        self.talker().map_or("", Talker::word).to_owned() + self.kind().word()
    }
}

/// Reads a line of any of the fifteen kinds. Refused with 1 to 5.
///
/// ```
/// use castanwel::{Sentence, Talker};
/// let line = b"$GNVTG,,T,,M,4.5,N,8.334,K,A*30\r\n";
/// if let Ok(Sentence::Vtg(Talker::Gn, vtg)) = castanwel::read(line) {
///     assert_eq!(vtg.knots, Some(castanwel::Knots(4500)));
///     assert_eq!(vtg.kmh, Some(castanwel::Kmh(8334)));
/// } else {
///     panic!("the line reads as a VTG of talker GN");
/// }
/// ```
pub fn read(line: &[u8]) -> Result<Sentence, Refusal> {
    let mut numbers = [0; RECORD];
    let number = ffi::read(line, &mut numbers)?;
    let kind = Kind::from_number(number).expect("the proved reader gives a kind from 1 to 15");
    Ok(put_up(Sentence::blank(kind), &numbers))
}

/// Writes the line of a sentence, and gives its length. Refused with 5 where a value is out of its range, then with 1 where the line
/// would pass 82 bytes, then with 8 where `out` is shorter than the line; a refusal leaves `out`.
///
/// ```
/// use castanwel::{Date, Sentence, Talker, Time, Zda, Zone};
/// let zda = Zda {
///     time: Some(Time(2830000)),
///     date: Some(Date { day: 15, month: 11, year: 2026 }),
///     zone: Some(Zone { minutes: -30 }),
/// };
/// let mut out = [0; 82];
/// let length = castanwel::write(&Sentence::Zda(Talker::Gp, zda), &mut out).unwrap();
/// assert_eq!(&out[..length], b"$GPZDA,075140.00,15,11,2026,-00,30*4D\r\n");
/// ```
pub fn write(sentence: &Sentence, out: &mut [u8]) -> Result<usize, Refusal> {
    let mut numbers = [0; RECORD];
    let count = take_down(*sentence, &mut numbers);
    ffi::write(sentence.kind().number(), &numbers[..count], out)
}

/// As [`read`].
///
/// ```
/// let sentence = castanwel::Sentence::try_from(b"$GPGSV,1,1,00*79\r\n".as_slice()).unwrap();
/// assert_eq!(sentence.to_string(), "$GPGSV,1,1,00*79");
/// ```
impl TryFrom<&[u8]> for Sentence {
    type Error = Refusal;

    fn try_from(line: &[u8]) -> Result<Sentence, Refusal> {
        read(line)
    }
}

/// The line of the sentence without its CR LF; where it cannot be written, the refusal in words.
impl fmt::Display for Sentence {
    fn fmt(&self, f: &mut fmt::Formatter<'_>) -> fmt::Result {
        let mut out = [0; LONGEST];
        match write(self, &mut out) {
            Ok(length) => f.write_str(String::from_utf8_lossy(&out[..length]).trim_end()),
            Err(refusal) => write!(f, "({} cannot be written: {})", self.address(), refusal),
        }
    }
}
