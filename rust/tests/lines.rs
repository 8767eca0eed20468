//! The line rule, the finder, the places of fields and field n, against the same rules written plainly, on many inputs.

mod common;

use castanwel::{field, line_refusal, lines, numbers, refusal, Finder, Refusal, LONGEST};
use common::{one_of_each, samples, some_line, Rng};

/// The number by the line rule, 0 where it holds.
fn rule(line: &[u8]) -> u8 {
    let n = line.len();
    if !(7..=82).contains(&n) || line[0] != b'$' || line[n - 5] != b'*' || &line[n - 2..] != b"\r\n" {
        return 1;
    }
    let body = &line[1..n - 5];
    let digits = &line[n - 4..n - 2];
    let of_body = |b: &u8| (0x20..=0x7e).contains(b) && !b"$*!\\^~".contains(b);
    if !body.iter().all(of_body) || !digits.iter().all(|b| b"0123456789ABCDEF".contains(b)) {
        return 1;
    }
    let xor = body.iter().fold(0, |sum, b| sum ^ b);
    if format!("{:02X}", xor).as_bytes() == digits {
        0
    } else {
        2
    }
}

/// The lines from each last `$` to an LF, at most 82 bytes long, and where an unfinished one begins.
fn found(bytes: &[u8]) -> (Vec<&[u8]>, usize) {
    let (mut given, mut start) = (Vec::new(), None);
    for (i, &b) in bytes.iter().enumerate() {
        if b == b'$' {
            start = Some(i);
        }
        if start.map_or(false, |from| i + 1 - from > LONGEST) {
            start = None;
        }
        if b == b'\n' {
            given.extend(start.take().map(|from| &bytes[from..=i]));
        }
    }
    (given, start.unwrap_or(bytes.len()))
}

fn log(rng: &mut Rng, pieces: usize) -> Vec<u8> {
    let samples = samples();
    let mut log = Vec::new();
    for _ in 0..pieces {
        log.extend(some_line(rng, &samples));
        let noise = rng.of(&[0, 0, 0, 1, 5, 90]);
        log.extend((0..noise).map(|_| rng.of(b"$\r\nAB,*")));
    }
    log
}

#[test]
fn the_line_rule() {
    let (samples, mut rng, mut met) = (samples(), Rng::new(1), [0; 3]);
    for _ in 0..100_000 {
        let line = some_line(&mut rng, &samples);
        let number = rule(&line);
        let refusal = line_refusal(&line);
        assert_eq!(refusal.map_or(0, |r| r.number), number, "{:?}", line);
        assert!(refusal.map_or(true, |r| (r.line, r.field) == (1, 0)));
        met[number as usize] += 1;
    }
    assert!(met.iter().all(|&times| times > 1000), "{:?}", met);
}

#[test]
fn lengths_about_the_longest_and_the_shortest() {
    for length in 0..100 {
        let mut line = vec![b'$'];
        line.resize(length.max(6) - 5, b'A');
        let digits = if line.len() % 2 == 0 { "41" } else { "00" };
        line.extend(format!("*{}\r\n", digits).bytes());
        let number = u8::from(!(7..=82).contains(&line.len()));
        assert_eq!(line_refusal(&line).map_or(0, |r| r.number), number, "{}", line.len());
    }
    assert_eq!(line_refusal(b"").unwrap().number, 1);
}

#[test]
fn the_finder_over_a_slice_and_fed_byte_by_byte() {
    for seed in 0..40 {
        let log = log(&mut Rng::new(seed), 500);
        let (expected, rest) = found(&log);
        assert!(expected.len() > 300);
        assert_eq!(lines(&log).collect::<Vec<_>>(), expected, "seed {}", seed);
        let last = expected.last().map_or(0, |line| line.as_ptr() as usize + line.len() - log.as_ptr() as usize);
        assert_eq!(numbers::next_line(&log, last), (false, rest, log.len()), "seed {}", seed);
        let (mut finder, mut fed) = (Finder::new(), Vec::new());
        for &b in &log {
            fed.extend(finder.push(b).map(<[u8]>::to_vec));
        }
        assert_eq!(fed, expected, "seed {}", seed);
    }
}

#[test]
fn the_finder_from_any_place() {
    let log = log(&mut Rng::new(50), 30);
    for at in 0..=log.len() {
        let (expected, rest) = found(&log[at..]);
        let (is_found, start, end) = numbers::next_line(&log, at);
        assert_eq!(is_found, !expected.is_empty(), "from {}", at);
        match expected.first() {
            Some(line) => assert_eq!(&log[start..end], *line, "from {}", at),
            None => assert_eq!((start, end), (at + rest, log.len()), "from {}", at),
        }
    }
}

#[test]
fn no_bytes_have_no_lines() {
    assert_eq!(lines(b"").next(), None);
    assert_eq!(numbers::next_line(b"", 0), (false, 0, 0));
}

#[test]
fn the_finder_holds_at_most_82_bytes() {
    for held in 0..200 {
        for b in [b'$', b'\n', b'A', 0, 255] {
            let (next, line) = numbers::feed(held, b);
            assert!(next <= LONGEST && line <= LONGEST, "{} {}", held, b);
            assert!(next == 0 || line == 0);
        }
    }
}

#[test]
fn the_places_of_fields() {
    let (samples, mut rng) = (samples(), Rng::new(3));
    for _ in 0..20_000 {
        let body = some_line(&mut rng, &samples);
        let mut ends: Vec<usize> = (0..body.len()).filter(|&i| body[i] == b',').collect();
        ends.push(body.len());
        let room = rng.below(25);
        let mut given = vec![77777; room];
        assert_eq!(numbers::places(&body, &mut given), ends.len(), "{:?}", body);
        ends.resize(room.max(ends.len()), 77777);
        assert_eq!(given, ends[..room], "{:?}", body);
    }
}

/// Field `n` by the rules, of a line whose first refusal is not one of 1 to 3: what stands between two commas, or 4.
fn nth(line: &[u8], n: usize) -> Result<&[u8], Refusal> {
    let fields: Vec<&[u8]> = line[1..line.len() - 5].split(|&b| b == b',').collect();
    match fields.get(n) {
        Some(field) if n > 0 => Ok(field),
        _ => Err(Refusal { number: 4, line: 1, field: 0 }),
    }
}

/// Whether a part is the caller's own bytes and no copy of them.
fn lies_in(part: &[u8], line: &[u8]) -> bool {
    let (part, line) = (part.as_ptr_range(), line.as_ptr_range());
    line.start <= part.start && part.end <= line.end
}

#[test]
fn every_field_of_a_line_of_each_kind() {
    for line in one_of_each() {
        let count = line.iter().filter(|&&b| b == b',').count();
        for n in (0..count + 5).chain([79, 80, 81, 82, usize::MAX - 1, usize::MAX]) {
            assert_eq!(field(&line, n), nth(&line, n), "field {} of {:?}", n, line);
            assert_eq!(field(&line, n).is_ok(), (1..=count).contains(&n), "field {} of {:?}", n, line);
        }
    }
}

#[test]
fn fields_that_are_empty_or_not_there() {
    let line = b"$GPGGA,000008.00,,,,,0,,,,,,*40\r\n";
    let none = Err(Refusal { number: 4, line: 1, field: 0 });
    assert_eq!(refusal(line).map(|r| r.number), Some(4));
    assert_eq!(field(line, 0), none);
    assert_eq!(field(line, 1), Ok(&line[7..16]));
    assert_eq!(field(line, 6), Ok(&b"0"[..]));
    let last = field(line, 12).expect("a field after the last comma");
    assert_eq!((last, last.as_ptr()), (&b""[..], line[28..].as_ptr()));
    assert_eq!(field(line, 13), none);
    let commas = b"$GPGGA,,,,,,,,,,,,,,,,,,,,,,,,,,,,,,,,,,,,,,,,,,,,,,,,,,,,,,,,,,,,,,,,,,,,,,,*7A\r\n";
    assert_eq!((commas.len(), line_refusal(commas)), (82, None));
    for n in 0..90 {
        let expected = if (1..=71).contains(&n) { Ok(&b""[..]) } else { none };
        assert_eq!(field(commas, n), expected, "field {}", n);
    }
}

#[test]
fn a_field_of_what_is_no_line() {
    for (line, number) in [
        (&b""[..], 1),
        (b"$GPGSV,1,1,00*79\r", 1),
        (b"$gPGSV,1,1,00^*79\r\n", 1),
        (b"$GPGSV,1,1,00*78\r\n", 2),
        (b"$GPSGG,CSTART*6B\r\n", 3),
        (b"$GPGGA*56\r\n", 3),
    ] {
        for n in [0, 1, 2, 99] {
            assert_eq!(field(line, n), Err(Refusal { number, line: 1, field: 0 }), "field {} of {:?}", n, line);
        }
    }
}

#[test]
fn fields_of_many_lines() {
    let (samples, mut rng, mut met) = (samples(), Rng::new(4), [0; 5]);
    for _ in 0..100_000 {
        let (line, n) = (some_line(&mut rng, &samples), rng.below(22));
        let expected = match refusal(&line) {
            Some(refusal) if refusal.number <= 3 => Err(refusal),
            _ => nth(&line, n),
        };
        let given = field(&line, n);
        assert_eq!(given, expected, "field {} of {:?}", n, line);
        assert!(given.map_or(true, |part| lies_in(part, &line)), "field {} of {:?}", n, line);
        met[given.map_or_else(|r| r.number as usize, |_| 0)] += 1;
    }
    assert!(met.iter().all(|&times| times > 100), "{:?}", met);
}
