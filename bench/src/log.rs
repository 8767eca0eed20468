//! A log of lines of all fifteen kinds and of whole groups, one line in a hundred damaged. The same seed gives the same log.

pub struct Random(u64);

impl Random {
    pub fn new(seed: u64) -> Self {
        Random(seed)
    }

    fn next(&mut self) -> u64 {
        self.0 ^= self.0 << 13;
        self.0 ^= self.0 >> 7;
        self.0 ^= self.0 << 17;
        self.0.wrapping_mul(0x2545_f491_4f6c_dd1d) >> 16
    }

    /// A number below `n`.
    pub fn below(&mut self, n: u64) -> u64 {
        self.next() % n
    }
}

fn digits(r: &mut Random, n: usize) -> String {
    (0..n).map(|_| (b'0' + r.below(10) as u8) as char).collect()
}

fn time(r: &mut Random) -> String {
    format!("{:02}{:02}{:02}.{:02}", r.below(24), r.below(60), r.below(60), r.below(100))
}

fn place(r: &mut Random) -> String {
    format!(
        "{:02}{:02}.{},{},{:03}{:02}.{},{}",
        r.below(90),
        r.below(60),
        digits(r, 4),
        if r.below(2) == 0 { 'N' } else { 'S' },
        r.below(180),
        r.below(60),
        digits(r, 4),
        if r.below(2) == 0 { 'E' } else { 'W' }
    )
}

fn body(r: &mut Random) -> String {
    let talker = ["GP", "GL", "GA", "GQ", "GN"][r.below(5) as usize];
    match r.below(6) {
        0 => format!("{}GGA,{},{},1,{:02},{}.{},{}.{},M,{}.{},M,,", talker, time(r), place(r), r.below(24), r.below(9), r.below(10), r.below(900), r.below(10), r.below(90), r.below(10)),
        1 => format!("{}GLL,{},{},A,A", talker, place(r), time(r)),
        2 => format!("{}GSA,A,3,{:02},{:02},{:02},{:02},,,,,,,,,{}.{},{}.{},{}.{}", talker, 1 + r.below(32), 1 + r.below(32), 1 + r.below(32), 1 + r.below(32), r.below(9), r.below(10), r.below(9), r.below(10), r.below(9), r.below(10)),
        3 => format!("{}RMC,{},A,{},{:03}.{},{:03}.{},{:02}{:02}{:02},,,A", talker, time(r), place(r), r.below(90), r.below(10), r.below(360), r.below(10), 1 + r.below(28), 1 + r.below(12), r.below(100)),
        4 => format!("{}VTG,{}.{},T,,M,{}.{},N,{}.{},K,A", talker, r.below(360), r.below(10), r.below(90), r.below(10), r.below(160), r.below(10)),
        _ => format!("{}ZDA,{},{:02},{:02},20{:02},00,00", talker, time(r), 1 + r.below(28), 1 + r.below(12), r.below(100)),
    }
}

/// The line of a body.
pub fn sealed(body: &str) -> String {
    let xor = body.bytes().fold(0, |x, b| x ^ b);
    format!("${}*{:02X}\r\n", body, xor)
}

/// A whole group of so many satellites, one value in ten missing.
pub fn group(r: &mut Random, satellites: usize) -> Vec<String> {
    let talker = ["GP", "GL", "GA", "GQ", "GN"][r.below(5) as usize];
    let lines = ((satellites + 3) / 4).max(1);
    let first = r.below(60) as usize;
    let mut value = |width: usize, below: u64| {
        if r.below(10) > 0 {
            format!(",{:0width$}", r.below(below), width = width)
        } else {
            ",".to_string()
        }
    };
    let mut line = |k: usize| {
        let mut body = format!("{}GSV,{},{},{:02}", talker, lines, k, satellites);
        for i in 4 * (k - 1)..satellites.min(4 * k) {
            body += &format!(",{:02}{}{}{}", 1 + first + i, value(2, 91), value(3, 360), value(2, 100));
        }
        sealed(&body)
    };
    (1..=lines).map(|k| line(k)).collect()
}

/// A command or a reply of the maker.
fn maker(r: &mut Random) -> String {
    match r.below(8) {
        0 => format!("PIRPR,{},{},4,{:04X}", r.below(2), 1200 + r.below(114_000), r.below(128)),
        1 => format!("PIRTR,{},{:02}{:02}", r.below(5), r.below(14), r.below(60)),
        2 => format!("PIRSR,{:X},{:X},", r.below(1 << 32), r.below(1 << 24)),
        3 => "PIRER,0".to_string(),
        4 => format!("PIRPA,{},{},4,{:04X}", r.below(2), 1200 + r.below(114_000), r.below(128)),
        5 => format!("PIRTA,{},-{:02}{:02}", r.below(5), r.below(14), 1 + r.below(59)),
        6 => format!("PIRSA,{:08X},{:06X},", r.below(1 << 32), r.below(1 << 24)),
        _ => format!("PIREA,{}", r.below(256)),
    }
}

/// One line, or the lines of a group.
fn sound(r: &mut Random) -> Vec<String> {
    match r.below(16) {
        0 | 1 => {
            let satellites = r.below(37) as usize;
            group(r, satellites)
        }
        2 => vec![sealed(&maker(r))],
        _ => vec![sealed(&body(r))],
    }
}

fn damage(r: &mut Random, line: &mut Vec<u8>) {
    let at = r.below(line.len() as u64) as usize;
    match r.below(6) {
        0 => line[at] ^= 1 << r.below(8),
        1 => {
            line.remove(at);
        }
        2 => line.insert(at, r.below(256) as u8),
        3 => line.truncate(at),
        4 => {
            let again = line.clone();
            line.splice(at..at, again);
        }
        _ => {
            let noise: Vec<u8> = (0..r.below(200)).map(|_| r.below(256) as u8).collect();
            line.splice(at..at, noise);
        }
    }
}

/// A log of at least `size` bytes, one line in a hundred damaged.
pub fn log(seed: u64, size: usize) -> Vec<u8> {
    let mut r = Random::new(seed);
    let mut log = Vec::with_capacity(size + 400);
    while log.len() < size {
        for line in sound(&mut r) {
            let mut line = line.into_bytes();
            if r.below(100) == 0 {
                damage(&mut r, &mut line);
            }
            log.extend_from_slice(&line);
        }
    }
    log
}
