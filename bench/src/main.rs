//! The proved functions against the same work written by hand in Rust, over one log.

mod groups;
mod indexes;
mod log;
mod rattle;
mod records;
mod steps;
mod writing;

use bench::plain;
use std::time::Instant;
use std::{env, fs};

const RUNS: usize = 5;
const LOG_BYTES: usize = 50_000_000;
const SEED: u64 = 0x0bad_cab1e;

/// Keeps the compiler from leaving out what nobody reads.
fn used(x: u64) -> u64 {
    unsafe { std::ptr::read_volatile(&x) }
}

/// The lines of a log, each cut after its LF, as a reader of a file has them.
fn cut(log: &[u8]) -> Vec<&[u8]> {
    log.split_inclusive(|&b| b == b'\n').collect()
}

fn all_refusals(lines: &[&[u8]], rule: impl Fn(&[u8]) -> u8) -> u64 {
    lines.iter().fold(0, |sum, line| sum * 3 % 1_000_003 + u64::from(rule(line)))
}

/// What stands between the `$` and the `*` of a line, or would.
fn body(line: &[u8]) -> &[u8] {
    if line.len() < 7 {
        return &[];
    }
    &line[1..line.len() - 5]
}

fn all_fields(lines: &[&[u8]], places: impl Fn(&[u8], &mut [usize]) -> usize) -> u64 {
    let mut ends = [0; 20];
    lines.iter().fold(0, |sum, line| {
        let n = places(body(line), &mut ends);
        sum * 31 % 1_000_003 + (n + ends[n.min(ends.len()) - 1]) as u64
    })
}

fn all_places(log: &[u8], next: impl Fn(&[u8], usize) -> Option<(usize, usize)>) -> u64 {
    let (mut at, mut sum) = (0, 0u64);
    while let Some((start, end)) = next(log, at) {
        sum = sum.wrapping_mul(31).wrapping_add((start ^ end << 20) as u64);
        at = end;
    }
    sum
}

fn note(sum: &mut u64, line: &[u8]) {
    *sum = sum.wrapping_mul(31).wrapping_add(line.len() as u64 + u64::from(line[line.len() / 2]));
}

fn all_fed_rattle(log: &[u8]) -> u64 {
    let (mut finder, mut sum) = (rattle::Finder::new(), 0);
    for &b in log {
        if let Some(line) = finder.push(b) {
            note(&mut sum, line);
        }
    }
    sum
}

fn all_fed_by_call(log: &[u8]) -> u64 {
    let (mut finder, mut sum) = (plain::Finder::new(), 0);
    for &b in log {
        if let Some(line) = finder.push_by_call(b) {
            note(&mut sum, line);
        }
    }
    sum
}

fn all_fed_inlined(log: &[u8]) -> u64 {
    let (mut finder, mut sum) = (plain::Finder::new(), 0);
    for &b in log {
        if let Some(line) = finder.push(b) {
            note(&mut sum, line);
        }
    }
    sum
}

/// Both sides give the same answers on each line, place and byte of the log.
fn agree(log: &[u8]) {
    let mut kinds = [0; 3];
    for line in cut(log) {
        let r = rattle::line_refusal(line);
        assert_eq!(r, plain::line_refusal(line), "line rule at {:?}", line);
        assert_eq!(r, plain::line_refusal_by_tests(line), "line rule by tests at {:?}", line);
        kinds[r as usize] += 1;
        for room in [0, 3, 20] {
            let (mut one, mut two) = ([7; 20], [7; 20]);
            assert_eq!(rattle::places(body(line), &mut one[..room]), plain::places(body(line), &mut two[..room]), "fields of {:?}", line);
            assert_eq!(one, two, "ends of {:?}", line);
        }
    }
    assert!(kinds.iter().all(|&n| n > 0), "the log has each answer of the line rule: {:?}", kinds);

    let (mut at, mut given) = (0, Vec::new());
    while let Some((start, end)) = plain::next_line(log, at) {
        assert_eq!(rattle::next_line(log, at), Some((start, end)), "finder from {}", at);
        given.push(&log[start..end]);
        at = end;
    }
    let (found, start, end) = rattle::next_line_or_rest(log, at);
    assert_eq!((found, end), (false, log.len()));
    assert!(start >= at && start <= end && (start == end || log[start] == b'$'));

    let (mut one, mut two, mut n) = (rattle::Finder::new(), plain::Finder::new(), 0);
    for &b in log {
        let line = one.push(b);
        assert_eq!(line, two.push(b));
        if let Some(line) = line {
            assert_eq!(line, given[n], "line {} fed", n);
            n += 1;
        }
    }
    assert_eq!(n, given.len());
    println!("same answers: {} bytes, {} lines given out; line rule: {} hold, {} fail, {} digits differ", log.len(), n, kinds[0], kinds[1], kinds[2]);
}

fn median(mut times: Vec<f64>) -> f64 {
    times.sort_by(|a, b| a.partial_cmp(b).expect("no NaN"));
    times[times.len() / 2]
}

/// Seconds for one go of each side: medians of runs that take turns.
fn race(one: &dyn Fn() -> u64, two: &dyn Fn() -> u64) -> (f64, f64) {
    let timed = |f: &dyn Fn() -> u64| {
        let began = Instant::now();
        used(f());
        began.elapsed().as_secs_f64()
    };
    used(one());
    used(two());
    let (mut ones, mut twos) = (Vec::new(), Vec::new());
    for _ in 0..RUNS {
        ones.push(timed(one));
        twos.push(timed(two));
    }
    (median(ones), median(twos))
}

fn row(what: &str, bytes: usize, lines: usize, (rattle, rust): (f64, f64)) {
    let ns = |t: f64| {
        let each = t * 1e9 / lines as f64;
        format!("{:.*}", usize::from(each < 10.0), each)
    };
    let mb = |t: f64| bytes as f64 / t / 1e6;
    println!("| {} | {} | {} | {:.0} | {:.0} | {:.2} |", what, ns(rattle), ns(rust), mb(rattle), mb(rust), rust / rattle);
}

/// The finder, the line rule and the fields, over a log.
fn rows_of_lines(log: &[u8], lines: &[&[u8]]) {
    let show = |what, times| row(what, log.len(), lines.len(), times);
    show("line rule", race(&|| all_refusals(lines, rattle::line_refusal), &|| all_refusals(lines, plain::line_refusal)));
    show("line rule, Rust without a table", race(&|| all_refusals(lines, rattle::line_refusal), &|| all_refusals(lines, plain::line_refusal_by_tests)));
    show("fields found in one pass", race(&|| all_fields(lines, rattle::places), &|| all_fields(lines, plain::places)));
    show("finder over a slice", race(&|| all_places(log, rattle::next_line), &|| all_places(log, plain::next_line)));
    show("finder fed byte by byte, a call a byte", race(&|| all_fed_rattle(log), &|| all_fed_by_call(log)));
    show("finder fed byte by byte, Rust inlined", race(&|| all_fed_rattle(log), &|| all_fed_inlined(log)));
}

fn size(lines: &[impl AsRef<[u8]>]) -> usize {
    lines.iter().map(|l| l.as_ref().len()).sum()
}

/// A row's name: of all kinds together, whose name is empty, or of one.
fn named(kind: &str, all: &str, one: &str) -> String {
    match kind {
        "" => all.to_string(),
        kind => format!("{} {}", kind, one),
    }
}

fn rows_of_reading(lines: &[&[u8]], kinds: &[(&str, Vec<&[u8]>)]) {
    let times = |lines: &[&[u8]]| race(&|| records::all_by_rattle(lines), &|| records::all_by_rust(lines));
    row("line read to its record", size(lines), lines.len(), times(lines));
    let alone = race(&|| records::refusals_by_rattle(lines), &|| records::all_by_rust(lines));
    row("line read in full, the refusal alone handed over", size(lines), lines.len(), alone);
    for (kind, lines) in kinds {
        let what = named(kind, "line read to its record, fifteen kinds, none refused", "read to its record");
        row(&what, size(lines), lines.len(), times(lines));
    }
}

fn rows_of_groups() {
    for (satellites, what) in [(36, "group of nine lines read"), (12, "group of three lines read"), (3, "group of one line read")] {
        let some = groups::of(SEED, satellites);
        groups::agree(&some);
        let lines = some.iter().flatten().filter(|&&b| b == b'\n').count();
        row(what, size(&some), lines, race(&|| groups::all_by_rattle(&some), &|| groups::all_by_rust(&some)));
    }
}

fn row_of_steps(others: &[&[u8]]) {
    let commands = steps::of(SEED);
    steps::agree(&commands, others);
    row("command carried out", size(&commands), commands.len(), race(&|| steps::all_by_rattle(&commands), &|| steps::all_by_rust(&commands)));
}

fn rows_of_writing(lines: &[&[u8]], kinds: &[(&str, Vec<&[u8]>)]) {
    let show = |what: &str, lines: &[&[u8]]| {
        let (bytes, count) = writing::size(lines);
        row(what, bytes, count, race(&|| writing::all_by_rattle(lines), &|| writing::all_by_rust(lines)));
    };
    show("record written", &writing::chosen(lines));
    for (kind, lines) in kinds {
        show(&named(kind, "record written, fifteen kinds", "written"), &writing::chosen(lines));
    }
    let show_each = |what: &str, lines: &[&[u8]]| {
        let (bytes, count) = writing::size_each(lines);
        row(what, bytes, count, race(&|| writing::each_by_rattle(lines), &|| writing::each_by_rust(lines)));
    };
    show_each("line read and its record written", lines);
    show_each("line read and its record written, fifteen kinds, none refused", &kinds[0].1);
}

/// Rows of an index: an entry counts as a line, the bytes are those of the index.
fn rows_of_indexes() {
    let index = indexes::of(SEED, indexes::ENTRIES);
    indexes::agree(&index);
    let show = |what, goes, times| row(what, goes * index.bytes.len(), goes * indexes::ENTRIES, times);
    show("index written", 1, race(&|| index.written_by_rattle(), &|| index.written_by_rust()));
    show("index read", 1, race(&|| index.read_by_rattle(), &|| index.read_by_rust()));
    show("exhibit found", 4, race(&|| index.found_by_rattle(), &|| index.found_by_rust()));
}

/// `bench MIXED LOG`: MIXED is a log of all kinds, most lines damaged; the log that the rows are of is written to LOG.
fn main() {
    let mixed = records::mixed();
    let small = log::log(SEED ^ 1, 1 << 18);
    agree(&small);
    let log = log::log(SEED, LOG_BYTES);
    agree(&log);
    fs::write(env::args().nth(2).expect("the second argument names a file for the log"), &log).expect("the log can be written");
    let lines = cut(&log);
    records::agree(&lines);
    records::agree(&cut(&mixed));
    writing::agree(&cut(&small));
    writing::agree(&cut(&mixed));
    let kinds = records::chosen(&mixed);
    println!("| what | Rattle ns/line | Rust ns/line | Rattle MB/s | Rust MB/s | ratio |");
    println!("|---|---|---|---|---|---|");
    rows_of_lines(&log, &lines);
    rows_of_reading(&lines, &kinds);
    rows_of_groups();
    row_of_steps(&cut(&mixed));
    rows_of_writing(&lines, &kinds);
    rows_of_indexes();
}

#[test]
fn both_sides_agree() {
    let log = log::log(7, 1 << 18);
    agree(&log);
    records::agree(&cut(&log));
    groups::agree(&groups::of(7, 36));
    groups::agree(&groups::of(8, 5));
    writing::agree(&cut(&log));
    steps::agree(&steps::of(7), &cut(&log));
    indexes::agree(&indexes::of(7, 1000));
}
