//! Lines read and written, typed and as numbers: the samples of the sources, round trips, every room, and records out of range.

mod common;

use castanwel::numbers::{self, RECORD};
use castanwel::{read, refusal, write, Kind, Refusal, Sentence, Talker, LONGEST};
use common::{one_of_each, samples, some_line, Rng};

/// The numbers of a line as the sample file has them: `ok ADDRESS NUMBERS` or `refused NUMBER FIELD`.
fn answer(line: &[u8]) -> String {
    let mut numbers = [0; RECORD];
    let kind = match numbers::read(line, &mut numbers) {
        Ok(number) => Kind::from_number(number).expect("a kind"),
        Err(refusal) => return format!("refused {} {}", refusal.number, refusal.field),
    };
    let address = read(line).expect("it reads as numbers").address();
    let values = numbers.iter().zip(kind.cells()).skip(usize::from(kind.has_talker()));
    format!("ok {}{}", address, values.map(|(n, _)| format!(" {}", n)).collect::<String>())
}

#[test]
fn the_samples_of_the_sources() {
    let samples = samples();
    assert!(samples.len() > 100);
    for (line, expected) in samples {
        assert_eq!(answer(&line), expected, "{:?}", String::from_utf8_lossy(&line));
    }
}

#[test]
fn reading_and_its_refusal_alone_agree() {
    let (samples, mut rng, mut met) = (samples(), Rng::new(11), [0; 6]);
    for _ in 0..50_000 {
        let line = some_line(&mut rng, &samples);
        let answer = read(&line);
        assert_eq!(answer.err(), refusal(&line), "{:?}", line);
        assert!(answer.err().map_or(true, |r| r.line == 1 && (r.field == 0) == (r.number != 5)));
        met[answer.err().map_or(0, |r| usize::from(r.number))] += 1;
    }
    assert!(met[..4].iter().all(|&times| times > 100), "{:?}", met);
}

#[test]
fn what_was_read_is_written_and_reads_back() {
    for (line, _) in samples() {
        let sentence = match read(&line) {
            Ok(sentence) => sentence,
            Err(_) => continue,
        };
        let mut out = [0; LONGEST];
        let length = write(&sentence, &mut out).expect("what was read can be written");
        assert_eq!(read(&out[..length]), Ok(sentence));
        let (mut numbers, mut again) = ([0; RECORD], [0; LONGEST]);
        let kind = numbers::read(&line, &mut numbers).expect("it reads as numbers too");
        assert_eq!(numbers::write(kind, &numbers, &mut again), Ok(length));
        assert_eq!(out, again);
    }
}

#[test]
fn a_line_of_each_kind_comes_back_as_it_was() {
    for (line, kind) in one_of_each().iter().zip(Kind::ALL) {
        let sentence = read(line).expect("a sound line");
        assert_eq!(sentence.kind(), kind);
        let mut out = [0; LONGEST];
        let length = write(&sentence, &mut out).expect("what was read can be written");
        assert_eq!(&out[..length], &line[..]);
    }
}

#[test]
fn every_room() {
    for line in one_of_each() {
        let sentence = read(&line).expect("a sound line");
        for room in 0..=LONGEST {
            let mut out = [0xAA; LONGEST];
            let written = write(&sentence, &mut out[..room]);
            if room < line.len() {
                assert_eq!(written, Err(Refusal { number: 8, line: 1, field: 0 }));
                assert_eq!(out, [0xAA; LONGEST]);
            } else {
                assert_eq!(written, Ok(line.len()));
                assert_eq!(out[..line.len()], line[..]);
                assert!(out[line.len()..].iter().all(|&b| b == 0xAA));
            }
        }
    }
}

#[test]
fn slices_of_numbers_that_are_too_short() {
    for (line, sort) in one_of_each().iter().zip(Kind::ALL) {
        let (mut numbers, count) = ([0; RECORD], sort.cells().len());
        let kind = numbers::read(line, &mut numbers).expect("a sound line");
        for short in 0..=count {
            let mut some = [7; RECORD];
            let came = numbers::read(line, &mut some[..short]);
            let written = numbers::write(kind, &numbers[..short], &mut [0; LONGEST]);
            if short == count {
                assert_eq!((came, written), (Ok(kind), Ok(line.len())));
                assert_eq!(some[..count], numbers[..count]);
                assert!(some[count..].iter().all(|&n| n == 7));
            } else {
                assert_eq!(came, Err(Refusal { number: 8, line: 0, field: 0 }), "{} of {:?}", short, sort);
                assert_eq!(written, Err(Refusal { number: 5, line: 0, field: 0 }), "{} of {:?}", short, sort);
                assert_eq!(some, [7; RECORD]);
            }
        }
    }
}

#[test]
fn kinds_and_talkers_that_there_are_not() {
    let unknown = Err(Refusal { number: 3, line: 0, field: 0 });
    for kind in [0, 16, 17, 255, u32::MAX] {
        assert_eq!(numbers::write(kind, &[0; RECORD], &mut [0; LONGEST]), unknown, "kind {}", kind);
    }
    for kind in 1..=7 {
        for talker in [5, 6, 255, -1, 4_294_967_296] {
            let mut numbers = [0; RECORD];
            numbers[0] = talker;
            assert_eq!(numbers::write(kind, &numbers, &mut [0; LONGEST]), unknown, "kind {}, talker {}", kind, talker);
        }
    }
}

#[test]
fn a_mark_is_0_or_1() {
    let mut out = [0; LONGEST];
    let length = numbers::write(9, &[1, 1, 1, -30], &mut out).expect("a PIRTR");
    assert_eq!(&out[..length], b"$PIRTR,1,-0030*52\r\n");
    for mark in [2, 255, -1, 4_294_967_297, i64::MAX, i64::MIN] {
        let at = |field| Err(Refusal { number: 5, line: 1, field });
        assert_eq!(numbers::write(9, &[mark, 1, 1, -30], &mut out), at(1), "{}", mark);
        assert_eq!(numbers::write(9, &[1, 1, mark, -30], &mut out), at(2), "{}", mark);
        assert_eq!(numbers::write(9, &[mark, 0, mark, 0], &mut out), at(1), "{}", mark);
    }
}

#[test]
fn a_gps_mask_that_32_bits_do_not_hold() {
    let at_1 = Err(Refusal { number: 5, line: 1, field: 1 });
    for mask in [-1, 4_294_967_296, i64::MAX, i64::MIN] {
        assert_eq!(numbers::write(10, &[1, mask, 7, 7], &mut [0; LONGEST]), at_1, "{}", mask);
        assert_eq!(numbers::write(10, &[0, mask, 0, 0], &mut [0; LONGEST]), at_1, "{}", mask);
        assert_eq!(numbers::write(14, &[mask, -1], &mut [0; LONGEST]), at_1, "{}", mask);
    }
    assert!(numbers::write(14, &[4_294_967_295, 0], &mut [0; LONGEST]).is_ok());
}

#[test]
fn a_value_marked_missing_that_is_not_zero() {
    let missing_datum = numbers::write(9, &[0, 1, 0, 0], &mut [0; LONGEST]);
    assert_eq!(missing_datum, Err(Refusal { number: 5, line: 1, field: 1 }));
    let missing_time = numbers::write(7, &[0, 0, 1, 0, 0, 0, 0, 0, 0], &mut [0; LONGEST]);
    assert_eq!(missing_time, Err(Refusal { number: 5, line: 1, field: 1 }));
}

#[test]
fn each_talker() {
    for talker in Talker::ALL {
        let sentence = Sentence::Vtg(talker, castanwel::Vtg::new(castanwel::Mode(b'N')));
        let mut out = [0; LONGEST];
        let length = write(&sentence, &mut out).expect("a VTG that has its mode alone");
        assert_eq!(&out[1..3], talker.word().as_bytes());
        assert_eq!(read(&out[..length]), Ok(sentence));
    }
}

#[test]
fn a_sentence_prints_as_its_line_and_comes_from_it() {
    for (line, expected) in samples() {
        match Sentence::try_from(line.as_slice()) {
            Ok(sentence) => {
                assert!(expected.starts_with("ok"));
                let printed = format!("{}\r\n", sentence);
                assert_eq!(Sentence::try_from(printed.as_bytes()), Ok(sentence), "{}", printed);
            }
            Err(refusal) => assert_eq!(expected, format!("refused {} {}", refusal.number, refusal.field)),
        }
    }
    let wrong = Sentence::Pirea(castanwel::CodeTold { code: 256 });
    assert_eq!(wrong.to_string(), format!("(PIREA cannot be written: {})", write(&wrong, &mut [0; LONGEST]).unwrap_err()));
}
