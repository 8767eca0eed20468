//! What the tests share: seeded numbers, the sample lines of the sources, and damage.
#![allow(dead_code)] // Each file of tests is a program of its own and uses a part.

/// Numbers that look random, the same for the same seed.
pub struct Rng(u64);

impl Rng {
    pub fn new(seed: u64) -> Rng {
        Rng(seed ^ 0x9e37_79b9_7f4a_7c15)
    }

    fn next(&mut self) -> u64 {
        self.0 ^= self.0 << 13;
        self.0 ^= self.0 >> 7;
        self.0 ^= self.0 << 17;
        self.0
    }

    /// A number below `end`.
    pub fn below(&mut self, end: usize) -> usize {
        (self.next() % end as u64) as usize
    }

    /// One of some values.
    pub fn of<T: Copy>(&mut self, values: &[T]) -> T {
        values[self.below(values.len())]
    }
}

/// The sample lines of the sources, each with CR LF at its end and with what it gives.
pub fn samples() -> Vec<(Vec<u8>, &'static str)> {
    let rows =
        include_str!("../../../tests/samples.txt").lines().filter(|row| !row.is_empty() && !row.starts_with('#'));
    let mut samples = Vec::new();
    for row in rows {
        let mut columns = row.split('\t');
        let line = columns.next().expect("a line").to_owned() + "\r\n";
        samples.push((line.into_bytes(), columns.next().expect("an answer")));
    }
    samples
}

/// The body of a line of each kind, in the order of their numbers.
const BODIES: [&str; 15] = [
    "GPGGA,074823.00,5550.6111,N,03732.2534,E,1,09,0.9,-12.5,M,14.25,M,3,1023",
    "GLGLL,5550.6111,S,03732.2534,W,074823.00,A,D",
    "GNGSA,A,3,05,12,,29,,,77,,,,,99,1.8,0.9,1.5",
    "GAGSV,2,1,05,05,71,048,53,12,,,,29,00,359,00,77,90,000,",
    "GQRMC,074823.00,V,5550.6111,N,03732.2534,E,0.25,359.999,290224,8.5,W,N",
    "GPVTG,120.5,T,112,M,4.5,N,8.334,K,E",
    "GPZDA,235959.99,31,12,2079,-13,59",
    "PIRPR,1,115200,4,0F7F",
    "PIRTR,4,-1359",
    "PIRSR,7FFEFFFF,FFFFFE,",
    "PIRER,0",
    "PIRPA,0,1200,0,0000",
    "PIRTA,0,0000",
    "PIRSA,00000000,000000,",
    "PIREA,255",
];

/// A line of each kind.
pub fn one_of_each() -> Vec<Vec<u8>> {
    let line = |body: &&str| format!("${}*{:02X}\r\n", body, body.bytes().fold(0, |sum, b| sum ^ b)).into_bytes();
    BODIES.iter().map(line).collect()
}

const ODD: &[u8] = b"$*!\\^~,.-\r\n 0aAfF\x00\x1f\x7f\xff";

/// Changes, drops or adds a byte.
pub fn damage(rng: &mut Rng, bytes: &mut Vec<u8>) {
    let byte = if rng.below(2) == 0 { rng.of(ODD) } else { rng.below(256) as u8 };
    let at = rng.below(bytes.len() + 1);
    match rng.below(3) {
        0 if at < bytes.len() => bytes[at] = byte,
        1 if at < bytes.len() => {
            bytes.remove(at);
        }
        _ => bytes.insert(at, byte),
    }
}

/// A sample line, as it is or damaged once or twice.
pub fn some_line(rng: &mut Rng, samples: &[(Vec<u8>, &str)]) -> Vec<u8> {
    let mut line = samples[rng.below(samples.len())].0.clone();
    for _ in 0..rng.below(3) {
        damage(rng, &mut line);
    }
    line
}
