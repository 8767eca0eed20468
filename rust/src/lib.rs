//! GNSS sentences (IEC 61162-1, NMEA 0183), satellite groups, the class receiver and the index by exhibit number, over a proved library.
//!
//! Every reading, writing and step here is done by a function of `crates/host`, which is proved to do, for all input, what its
//! definition says. What this crate adds is not proved: it lays typed records out as numbers and takes them up again, reads an
//! input and keeps its bytes between calls, and searches the entries of an [`Index`] that were read. But for an exhibit that is not among
//! these it refuses nothing by itself. Every refusal is a [`Refusal`] with its number, line and field.
//!
//! ```
//! let log = b"$PIRTR,1,-0030*52\r\n$GPGSV,1,1,00*79\r\n";
//! let mut settings = castanwel::Settings::start();
//! let mut out = [0; castanwel::LONGEST];
//! for line in castanwel::lines(log) {
//!     let done = settings.step(0, line, &mut out);
//!     settings = done.settings;
//!     match done.reply {
//!         Ok(length) => println!("{}", String::from_utf8_lossy(&out[..length])),
//!         Err(refusal) => println!("{}", refusal),
//!     }
//! }
//! assert_eq!((settings.datum, settings.zone.minutes), (1, -30));
//! ```
#![deny(missing_docs, unsafe_code)]

#[allow(unsafe_code)]
mod ffi;
#[allow(unsafe_code)]
mod ffi_index;
#[allow(unsafe_code)]
mod ffi_runs;
mod finder;
mod from;
mod index;
pub mod numbers;
mod receiver;
mod records;
mod refusal;
mod runs;
mod sentence;
mod sky;
mod values;
mod walk;

pub use ffi::{field, line_refusal, refusal};
pub use finder::{lines, Finder, Lines, LONGEST};
pub use from::{lines_from, Line, LinesFrom};
pub use index::{Exhibit, Index, NoLine};
pub use receiver::{Counts, Done, Port, Settings, LONGEST_REPLY};
pub use records::{CodeAsked, CodeTold, DatumAsked, DatumTold, MasksAsked, MasksTold, PortAsked, PortTold};
pub use records::{Entry, Gga, Gll, Gsa, Gsv, Rmc, Vtg, Zda};
pub use refusal::{GroupRefusal, Refusal};
pub use runs::{skies_from, Run, SkiesFrom};
pub use sentence::{read, write, Kind, Sentence, Talker};
pub use sky::{read_group, write_group, Sky, Table, LONGEST_GROUP};
pub use values::{Date, Kmh, Knots, Mode, Number, Place, Selection, Signed, Status, Time, Zone};
