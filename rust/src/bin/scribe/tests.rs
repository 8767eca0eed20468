//! A row of each word, rows that are none, and input in pieces. The many rows are compared by tests/ with the second program.

use crate::lent::Lent;
use crate::words::{self, Number};
use crate::{answer, answer_all, answers, BUFFER};
use castanwel::Refusal;
use std::io::{self, Read};

const START: &str = "4800 4 127 4800 4 127 0 0 4294967295 16777215 0";

fn said(row: &str) -> String {
    answer(row.as_bytes()).unwrap_or_else(|| "no row".to_owned())
}

#[test]
fn a_row_of_each_word() {
    let line = words::hex(b"$GPGSV,1,1,01,05,,,*7D\r\n");
    assert_eq!(said("PIREA 82 17"), format!("ok {}", words::hex(b"$PIREA,17*65\r\n")));
    assert_eq!(said("PIREA 82 256"), "refused 5 1 1");
    assert_eq!(said(&format!("line {}", line)), format!("ok GPGSV 1 1 1 1 5{}", " 0".repeat(27)));
    assert_eq!(said(&format!("field 4 {}", line)), "ok 14 2");
    assert_eq!(said(&format!("field 8 {}", line)), "refused 4 1 0");
    assert_eq!(said(&format!("group {}", line)), "ok GP 1 5 0 0 0 0 0 0");
    assert_eq!(said(&format!("table GP 82 1 5{}", " 0".repeat(251))), format!("ok {}", line));
    assert_eq!(said(&format!("counts {}", START)), "ok 32 24");
    let command = words::hex(b"$PIRER,0*40\r\n");
    let reply = words::hex(b"$PIREA,0*53\r\n");
    assert_eq!(said(&format!("step 0 82 {} {}", START, command)), format!("ok {} {}", reply, START));
    assert_eq!(said(&format!("step 0 82 {} -", START)), "refused 1 1 0");
}

#[test]
fn a_row_of_each_word_of_the_index() {
    assert_eq!(said("index-write 7 2 300 82 10 382 18"), "ok 02ac0252080012");
    assert_eq!(said("index-write 6 2 300 82 10 382 18"), "refused 8 0 0");
    assert_eq!(said("index-write 6 10 300 82 2 382 18"), "refused 5 0 0");
    assert_eq!(said("index-write 18446744073709551615 18446744073709551615 0 7"), "refused 5 0 0");
    assert_eq!(said("index-write 0"), "ok -");
    assert_eq!(said("index-read 6 02ac0252080012"), "ok 2 300 82 10 382 18");
    assert_eq!(said("index-read 5 02ac0252080012"), "refused 8 0 0");
    assert_eq!(said("index-read 0 8000"), "refused 11 0 0");
    assert_eq!(said("index-read 0 -"), "ok");
    assert_eq!(said("index-add 7 02ac0252 10 382 18"), "ok 02ac0252080012");
    assert_eq!(said("index-add 6 02ac0252 10 382 18"), "refused 8 0 0");
    assert_eq!(said("index-add 6 02ac0252 2 382 18"), "refused 5 0 0");
    assert_eq!(said("index-add 3 02ac0252 10 382 18"), "refused 11 0 0");
    assert_eq!(said("index-add 3 - 1 0 7"), "ok 010007");
    assert_eq!(said("index-find 02ac0252080012 10"), "ok 382 18");
    assert_eq!(said("index-find 02ac0252080012 3"), "refused 12 0 0");
    assert_eq!(said("index-find 02ac025208 2"), "refused 11 0 0");
    assert_eq!(said("index-find - 0"), "refused 12 0 0");
}

#[test]
fn an_index_of_thousands_of_numbers() {
    let entries: String = (1..=2000).map(|i| format!(" {} {} 82", 300 * i, 382 * i - 82)).collect();
    let written = said(&format!("index-write 65536{}", entries));
    assert_eq!(written, format!("ok {}", "ac02ac0252".repeat(2000)));
    assert_eq!(said(&written.replace("ok", "index-read 65536")), format!("ok{}", entries));
    assert_eq!(said(&written.replace("ok", "index-read 5999")), "refused 8 0 0");
    assert_eq!(said(&(written.replace("ok", "index-find") + " 600000")), "ok 763918 82");
    let added = said(&(written.replace("ok", "index-add 10003") + " 600001 764000 7"));
    assert_eq!(added, written + "010007");
}

#[test]
fn signed_numbers_both_ways() {
    let zda = said("GPZDA 82 1 2830000 1 15 11 2026 1 -30");
    assert_eq!(zda, format!("ok {}", words::hex(b"$GPZDA,075140.00,15,11,2026,-00,30*4D\r\n")));
    assert_eq!(said(&zda.replace("ok", "line")), "ok GPZDA 1 2830000 1 15 11 2026 1 -30");
}

#[test]
fn rows_that_are_none() {
    for row in [
        "",
        "PIREA",
        "PIREA 82",
        "PIREA 82 17 0",
        " PIREA 82 17",
        "PIREA -0 17",
        "GGA 82 17",
        "group 2",
        "table",
        "step",
        "counts",
        "index",
        "index-write",
        "index-write -1",
        "index-write 5 1 0 -7",
        "index-write 5 1  7",
        "index-write 5 18446744073709551616 0 7",
        "index-write 5 +1 0 7",
        "index-read 5",
        "index-read 5 0",
        "index-read 5 - -",
        "index-add 5 - 1 0",
        "index-add 5 - 1 0 7 1",
        "index-add",
        "index-find -",
        "index-find 5",
        "index-find - 1 ",
    ] {
        assert_eq!(said(row), "no row", "{:?}", row);
    }
}

#[test]
fn numbers_of_words() {
    let value = |word: &str| Number::of(word.as_bytes()).map(|number| number.value);
    for none in ["", "-", "+1", "1 ", "--1", "0x1", "1.0"] {
        assert_eq!(value(none), None, "{:?}", none);
    }
    assert_eq!(value("4294967296"), Some(4_294_967_296));
    assert_eq!(value("-1"), Some(-1));
    assert_eq!(value("-0"), Some(0));
    assert_eq!(value("9223372036854775808"), Some(i64::MAX));
    assert_eq!(value("-9223372036854775809"), Some(-i64::MAX));
    assert_eq!(Number::of(b"-1").map(Number::plain), Some(u32::MAX));
    assert_eq!(Number::of(b"4294967296").map(Number::plain), Some(u32::MAX));
}

#[test]
fn a_byte_that_had_to_stay() {
    let mut lent = Lent::new(10, 5);
    lent.room().copy_from_slice(b"abcde");
    assert_eq!(lent.answer(Ok(5)), "ok 6162636465");
    assert_eq!(lent.answer(Ok(4)), "touched");
    let refusal = Refusal { number: 8, line: 1, field: 0 };
    assert_eq!(lent.answer(Err(refusal)), "touched");
    let mut lent = Lent::with(b"abc", 10, 5);
    assert_eq!(lent.answer(Err(refusal)), "refused 8 1 0");
    assert_eq!(lent.answer(Ok(3)), "ok 616263");
    lent.room()[4] = b'e';
    assert_eq!(lent.answer(Ok(4)), "touched");
    assert!(lent.answer(Ok(5)).starts_with("ok 616263"));
    let mut lent = Lent::with(b"abc", 10, 2);
    lent.room().copy_from_slice(b"ax");
    assert_eq!(lent.answer(Err(refusal)), "touched");
}

/// Gives one byte at a time.
struct Slow<'a>(&'a [u8]);

impl Read for Slow<'_> {
    fn read(&mut self, into: &mut [u8]) -> io::Result<usize> {
        let few = into.len().min(1);
        self.0.read(&mut into[..few])
    }
}

#[test]
fn input_in_pieces() {
    let rows = b"PIRER 82\n\nPIREA 82 17\nPIRER 82";
    let (expected, taken) = answers(rows);
    assert_eq!((expected.lines().count(), taken), (3, rows.len() - 8));
    let mut out = Vec::new();
    assert_eq!(answer_all(&mut Slow(rows), &mut out), Ok(()));
    assert_eq!(out, expected.as_bytes());
}

#[test]
fn a_row_that_is_too_long() {
    let mut long = vec![b'x'; BUFFER - 1];
    long.extend_from_slice(b"\nPIRER 82\n");
    let mut out = Vec::new();
    assert_eq!(answer_all(&mut &long[..], &mut out), Ok(()));
    assert!(out.starts_with(b"no row\nok "));
    long.insert(0, b'x');
    let mut out = Vec::new();
    assert!(answer_all(&mut &long[..], &mut out).is_err());
    assert_eq!(out, b"");
}
