//! The class receiver: what a command makes of its settings, and the reply.

use crate::read::records::{Datum, Port};
use crate::read::{read_line, Sentence};
use crate::write::{write, Answer, Refusal};

#[derive(Clone, Copy)]
pub struct Settings {
    pub ports: [Port; 2],
    pub datum: Datum,
    pub gps: u32,
    pub glonass: u32,
    pub code: u32,
}

fn refuse(no: u8, line: usize, field: usize) -> Answer<(Settings, usize)> {
    Err(Refusal { no, line, field })
}

fn port_good(port: &Port) -> bool {
    (1200..=115_200).contains(&port.rate) && port.protocol <= 4 && port.mask & !0x0f7f == 0
}

impl Settings {
    pub fn at_start() -> Self {
        let port = Port { rate: 4800, protocol: 4, mask: 0x7f };
        Settings { ports: [port; 2], datum: Datum { datum: 0, zone: 0 }, gps: u32::MAX, glonass: 0xff_ffff, code: 0 }
    }

    fn good(&self) -> bool {
        self.ports.iter().all(port_good) && self.datum.datum <= 4 && self.datum.zone.unsigned_abs() <= 839 && self.glonass <= 0xff_ffff && self.code <= 255
    }

    /// The settings after a command, and its reply; `None` where the sentence is no command.
    fn after(mut self, arrival: u32, sentence: Sentence) -> Option<(Self, Sentence)> {
        let reply = match sentence {
            Sentence::Pr { port, set } => {
                let port = port.unwrap_or(arrival);
                let here = &mut self.ports[port as usize];
                *here = set.unwrap_or(*here);
                Sentence::Pa { port, is: *here }
            }
            Sentence::Tr { set } => {
                self.datum = set.unwrap_or(self.datum);
                Sentence::Ta { is: self.datum }
            }
            Sentence::Sr { gps, glonass } => {
                self.gps = gps.unwrap_or(self.gps);
                self.glonass = glonass.unwrap_or(self.glonass);
                Sentence::Sa { gps: self.gps, glonass: self.glonass }
            }
            Sentence::Er => Sentence::Ea { code: self.code },
            _ => return None,
        };
        Some((self, reply))
    }

    /// Takes the line of a command that arrived on a port: the settings after it, and the length of the reply.
    pub fn step(self, arrival: u32, line: &[u8], out: &mut [u8]) -> Answer<(Self, usize)> {
        if arrival > 1 || !self.good() {
            return refuse(5, 0, 0);
        }
        if self.ports[arrival as usize].protocol != 4 {
            return refuse(10, 1, 0);
        }
        let sentence = match read_line(line) {
            Ok(sentence) => sentence,
            Err(refusal) => return refuse(refusal.no, 1, refusal.field),
        };
        match self.after(arrival, sentence) {
            Some((after, reply)) => Ok((after, write(out, &reply)?)),
            None => refuse(9, 1, 0),
        }
    }
}
