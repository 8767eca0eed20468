//! Groups of GSV lines read to a table: both sides over the same groups.

use crate::log::{group, Random};
use crate::rattle;
use crate::records::made;
use bench::sky::{read_group, Refusal, Sky};

/// How many groups a row has.
const GROUPS: usize = 2_000;

/// Groups of so many satellites each.
pub fn of(seed: u64, satellites: usize) -> Vec<Vec<u8>> {
    let mut r = Random::new(seed);
    (0..GROUPS).map(|_| group(&mut r, satellites).concat().into_bytes()).collect()
}

#[inline(never)]
fn read_by_call(s: &[u8]) -> Result<Sky, Refusal> {
    read_group(s)
}

/// A number of what a group is read to: of all values of its table, or of its refusal.
fn sum(s: &[u8]) -> u64 {
    let answer = read_by_call(s);
    made(&answer);
    match answer {
        Err(r) => 1_000_000 * u64::from(r.no) + 1_000 * r.line as u64 + r.field as u64,
        Ok(sky) => sky.entries[..sky.count].iter().fold(sky.talker as u64 + 10 * sky.count as u64, |n, e| {
            let value = |v: Option<u32>| v.map_or(0, |v| 7 + u64::from(v));
            n + u64::from(e.number) + value(e.elevation) + value(e.azimuth) + value(e.signal)
        }),
    }
}

/// The same of what the proved reader hands over. The numbers are lent as they stand.
fn sum_by_rattle(s: &[u8], numbers: &mut [i64; rattle::GROUP]) -> u64 {
    let (no, line, field) = rattle::read_group(s, numbers);
    made(numbers);
    if no > 0 {
        return 1_000_000 * u64::from(no) + 1_000 * line as u64 + field as u64;
    }
    let count = numbers[1] as usize;
    numbers[2..2 + 7 * count].chunks_exact(7).fold(numbers[0] as u64 + 10 * count as u64, |n, e| {
        let value = |i: usize| if e[i] > 0 { 7 + e[i + 1] as u64 } else { 0 };
        n + e[0] as u64 + value(1) + value(3) + value(5)
    })
}

fn all(groups: &[Vec<u8>], mut sum: impl FnMut(&[u8]) -> u64) -> u64 {
    groups.iter().fold(0, |n, g| n * 31 % 1_000_003 + sum(g))
}

pub fn all_by_rattle(groups: &[Vec<u8>]) -> u64 {
    let mut numbers = [0; rattle::GROUP];
    all(groups, |s| sum_by_rattle(s, &mut numbers))
}

pub fn all_by_rust(groups: &[Vec<u8>]) -> u64 {
    all(groups, sum)
}

/// Both sides say the same of each group, of each with a byte changed, and of each without its last line.
pub fn agree(groups: &[Vec<u8>]) {
    let (mut whole, mut r, mut numbers) = (0, Random::new(5), [0; rattle::GROUP]);
    for g in groups {
        let mut hurt = g.clone();
        let at = r.below(g.len() as u64) as usize;
        hurt[at] ^= 1 << r.below(7);
        let last = g[..g.len() - 1].iter().rposition(|&b| b == b'\n').map_or(0, |i| i + 1);
        for s in [&g[..], &hurt[..], &g[..last], &[&g[..], &g[..]].concat()[..]] {
            assert_eq!(sum_by_rattle(s, &mut numbers), sum(s), "group {:?}", String::from_utf8_lossy(s));
            whole += usize::from(sum(s) < 1_000_000);
        }
    }
    assert_eq!(whole, groups.len());
    println!("same groups: {} whole, {} refused", whole, 3 * whole);
}
