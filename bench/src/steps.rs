//! Commands carried out by the class receiver: both sides over the same lines, the settings handed on.

use crate::log::{sealed, Random};
use crate::rattle;
use bench::receiver::Settings;
use bench::write::Answer;

const COMMANDS: usize = 20_000;

fn command(r: &mut Random) -> String {
    match r.below(8) {
        0 => format!("PIRPR,{},{},4,{:04X}", r.below(2), [1200, 4800, 9600, 115_200][r.below(4) as usize], r.below(128)),
        1 => "PIRPR,,,,".to_string(),
        2 => format!("PIRTR,{},{:02}{:02}", r.below(5), r.below(14), r.below(60)),
        3 => format!("PIRTR,{},-{:02}{:02}", r.below(5), r.below(14), 1 + r.below(59)),
        4 => "PIRTR,,".to_string(),
        5 => format!("PIRSR,{:X},{:X},", r.below(1 << 32), r.below(1 << 24)),
        6 => "PIRSR,-1,,".to_string(),
        _ => "PIRER,0".to_string(),
    }
}

/// Lines of commands that the receiver takes.
pub fn of(seed: u64) -> Vec<Vec<u8>> {
    let mut r = Random::new(seed);
    (0..COMMANDS).map(|_| sealed(&command(&mut r)).into_bytes()).collect()
}

#[inline(never)]
fn step_by_call(settings: Settings, arrival: u32, line: &[u8], out: &mut [u8]) -> Answer<(Settings, usize)> {
    settings.step(arrival, line, out)
}

fn numbers(s: &Settings) -> [i64; 11] {
    let [a, b] = s.ports;
    let [r, p, m] = [a.rate, a.protocol, a.mask].map(i64::from);
    let [q, o, n] = [b.rate, b.protocol, b.mask].map(i64::from);
    let [gps, glonass, code] = [s.gps, s.glonass, s.code].map(i64::from);
    [r, p, m, q, o, n, i64::from(s.datum.datum), i64::from(s.datum.zone), gps, glonass, code]
}

pub fn all_by_rattle(lines: &[Vec<u8>]) -> u64 {
    let (mut settings, mut out) = (rattle::start(), [0; 82]);
    lines.iter().fold(0, |sum, line| {
        let (no, _, _, length) = rattle::step(&mut settings, 0, line, &mut out);
        sum * 31 % 1_000_003 + u64::from(no) + length as u64 + u64::from(out[length / 2])
    })
}

pub fn all_by_rust(lines: &[Vec<u8>]) -> u64 {
    let (mut settings, mut out) = (Settings::at_start(), [0; 82]);
    lines.iter().fold(0, |sum, line| {
        let (no, length) = match step_by_call(settings, 0, line, &mut out) {
            Ok((after, length)) => {
                settings = after;
                (0, length)
            }
            Err(refusal) => (refusal.no, 0),
        };
        sum * 31 % 1_000_003 + u64::from(no) + length as u64 + u64::from(out[length / 2])
    })
}

/// Both sides answer the same, and have the same settings and outputs after it, to each line, damaged or not, in any room.
pub fn agree(lines: &[Vec<u8>], others: &[&[u8]]) {
    let (mut ours, mut theirs) = (rattle::start(), Settings::at_start());
    assert_eq!(ours, numbers(&theirs));
    let (mut r, mut answers) = (Random::new(9), [0; 11]);
    for (i, line) in lines.iter().enumerate() {
        let mut line = if r.below(4) == 0 { others[i % others.len()].to_vec() } else { line.clone() };
        if r.below(8) == 0 && !line.is_empty() {
            let at = r.below(line.len() as u64) as usize;
            line[at] ^= 1 << r.below(7);
        }
        let (arrival, room) = (r.below(3) as u32, if r.below(4) == 0 { r.below(29) as usize } else { 40 });
        let (mut one, mut two) = ([0xaa; 40], [0xaa; 40]);
        let answer = rattle::step(&mut ours, arrival, &line, &mut one[..room]);
        let told = match theirs.step(arrival, &line, &mut two[..room]) {
            Ok((after, length)) => {
                theirs = after;
                (0, 0, 0, length)
            }
            Err(refusal) => (refusal.no, refusal.line, refusal.field, 0),
        };
        assert_eq!((answer, ours, one), (told, numbers(&theirs), two), "command {:?}", String::from_utf8_lossy(&line));
        answers[answer.0 as usize] += 1;
    }
    println!("same steps: {} carried out, refused by number from 1 on: {:?}", answers[0], &answers[1..]);
}
