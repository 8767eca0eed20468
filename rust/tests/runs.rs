//! The runs of an input: cut as the rule says, whatever pieces the input comes in, each read as a group, and what errors do.

mod common;

use castanwel::{lines, read, read_group, skies_from, Run, Sentence};
use common::{samples, some_line, Rng};
use std::io::{self, ErrorKind, Read};

const DAY: &[u8] = include_bytes!("../../samples/day.log");
const FIRST: &[u8] = b"$GPGSV,2,1,05,02,10,104,33,05,60,017,47,12,33,201,40,25,04,310,*7A\r\n";
const SECOND: &[u8] = b"$GPGSV,2,2,05,29,71,048,53*4B\r\n";
const OTHER: &[u8] = b"$PIRER,0*40\r\n";

fn runs(input: impl Read) -> Vec<Run> {
    skies_from(input).collect::<io::Result<_>>().expect("an input without errors")
}

/// Number, offset, and how many satellites the sky has or number and line of the refusal.
type Told = (u64, u64, Result<usize, (u8, usize)>);

fn told(log: &[u8]) -> Vec<Told> {
    let what = |run: &Run| run.sky.map(|sky| sky.table.used().len()).map_err(|no| (no.number, no.line));
    runs(log).iter().map(|run| (run.number, run.offset, what(run))).collect()
}

#[test]
fn worked_logs() {
    assert_eq!(told(DAY), [(4, 212, Ok(5)), (14, 780, Ok(0))]);
    assert_eq!(told(&[FIRST, SECOND].concat()), [(1, 0, Ok(5))]);
    assert_eq!(told(&[FIRST, b"noise", SECOND].concat()), [(1, 0, Ok(5))]);
    assert_eq!(told(&[FIRST, OTHER, SECOND].concat()), [(1, 0, Err((6, 2))), (3, 81, Err((6, 1)))]);
    assert_eq!(told(&[FIRST, FIRST, SECOND].concat()), [(1, 0, Err((6, 2))), (2, 68, Ok(5))]);
    assert_eq!(told(FIRST), [(1, 0, Err((6, 2)))]);
    assert_eq!(told(b""), []);
    let two_at_once = [FIRST, b"$GPGSV,1,1,00*79\r\n", SECOND].concat();
    assert_eq!(told(&two_at_once), [(1, 0, Err((6, 2))), (2, 68, Ok(0)), (3, 86, Err((6, 1)))]);
    let ten = b"$GPGSV,5,4,17*7E\r\n".repeat(10);
    assert_eq!(told(&ten), [(1, 0, Err((6, 1))), (10, 162, Err((6, 1)))]);
}

/// The cut by the words of the rule, over lines that are all at hand.
fn by_the_rule(log: &[u8]) -> Vec<Run> {
    let mut cut: Vec<(u64, u64, u32, Vec<&[u8]>)> = Vec::new();
    let mut is_open = false;
    for (number, line) in (1..).zip(lines(log)) {
        let gsv = match read(line) {
            Ok(Sentence::Gsv(_, gsv)) => gsv,
            _ => {
                is_open = false;
                continue;
            }
        };
        if !is_open || gsv.line == 1 {
            cut.push((number, line.as_ptr() as u64 - log.as_ptr() as u64, gsv.lines, Vec::new()));
        }
        let (_, _, last, held) = cut.last_mut().expect("a run");
        held.push(line);
        is_open = gsv.line != *last && held.len() < 9;
    }
    let sky = |held: Vec<&[u8]>| read_group(&held.concat());
    cut.into_iter().map(|(number, offset, _, held)| Run { number, offset, sky: sky(held) }).collect()
}

#[test]
fn any_mix_of_lines_in_any_pieces() {
    let samples = samples();
    for seed in 0..60 {
        let mut rng = Rng::new(seed);
        let mut log = Vec::new();
        for _ in 0..200 {
            let satellites = rng.below(6);
            let gsv = format!("GPGSV,{},{},{:02}", 1 + rng.below(4), 1 + rng.below(5), satellites);
            let sum = gsv.bytes().fold(0, |sum, b| sum ^ b);
            match rng.below(6) {
                0 => log.extend(some_line(&mut rng, &samples)),
                1 => log.extend([FIRST, SECOND].concat()),
                2 => log.extend(b"noise"),
                _ => log.extend(format!("${}*{:02X}\r\n", gsv, sum).bytes()),
            }
        }
        let expected = by_the_rule(&log);
        assert!(expected.len() > 40);
        assert_eq!(runs(&log[..]), expected, "seed {}", seed);
        let cut = rng.below(log.len());
        assert_eq!(runs(log[..cut].chain(&log[cut..])), expected, "seed {}", seed);
    }
}

/// Gives some bytes, then an error, once, then nothing.
struct Failing<'a>(&'a [u8], bool);

impl Read for Failing<'_> {
    fn read(&mut self, into: &mut [u8]) -> io::Result<usize> {
        let came = self.0.read(into)?;
        if came == 0 && !self.1 {
            self.1 = true;
            return Err(ErrorKind::BrokenPipe.into());
        }
        Ok(came)
    }
}

#[test]
fn an_error_is_given_once_and_ends_the_runs() {
    let log = [FIRST, SECOND, FIRST].concat();
    let mut given = skies_from(Failing(&log, false));
    assert!(given.next().expect("a run").expect("before the error").sky.is_ok());
    assert_eq!(given.next().expect("the error").unwrap_err().kind(), ErrorKind::BrokenPipe);
    assert!(given.next().is_none() && given.next().is_none());
}

#[test]
fn a_run_is_not_waited_for() {
    let log = [FIRST, SECOND].concat();
    let mut given = skies_from(Failing(&log, false));
    assert_eq!(format!("{:?}", given), "SkiesFrom { lines: 0, open: 0, .. }");
    assert!(given.next().expect("a run").is_ok());
    assert!(given.next().expect("the error").is_err());
}
