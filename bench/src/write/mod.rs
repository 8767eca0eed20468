//! A record of any of the fifteen kinds written as its line.

mod maker;
mod ranges;
mod standard;
mod text;

use crate::read::Sentence;

/// The number of a refusal with line and field: 5 for a value outside its range, 1 where the line would
/// pass 82 bytes, 8 where the output is shorter than the line. The output is then as it was.
#[derive(Clone, Copy, PartialEq, Eq, Debug)]
pub struct Refusal {
    pub no: u8,
    pub line: usize,
    pub field: usize,
}

pub type Answer<T> = Result<T, Refusal>;

/// Writes the line of a record into `out`, and gives its length.
pub fn write(out: &mut [u8], sentence: &Sentence) -> Answer<usize> {
    match *sentence {
        Sentence::Gga(t, ref r) => standard::gga(out, t, r),
        Sentence::Gll(t, ref r) => standard::gll(out, t, r),
        Sentence::Gsa(t, ref r) => standard::gsa(out, t, r),
        Sentence::Gsv(t, ref r) => standard::gsv(out, t, r),
        Sentence::Rmc(t, ref r) => standard::rmc(out, t, r),
        Sentence::Vtg(t, ref r) => standard::vtg(out, t, r),
        Sentence::Zda(t, ref r) => standard::zda(out, t, r),
        Sentence::Pr { port, set } => maker::pirpr(out, port, set),
        Sentence::Tr { set } => maker::pirtr(out, set),
        Sentence::Sr { gps, glonass } => maker::pirsr(out, gps, glonass),
        Sentence::Er => maker::pirer(out),
        Sentence::Pa { port, is } => maker::pirpa(out, port, is),
        Sentence::Ta { is } => maker::pirta(out, is),
        Sentence::Sa { gps, glonass } => maker::pirsa(out, gps, glonass),
        Sentence::Ea { code } => maker::pirea(out, code),
    }
}
