//! Each example of a documentation comment, as a test: cargo leaves documentation tests out where it builds for another machine.
//! Those of the index stand in examples_index.rs, those of values, lines of an input and refusals in examples_values.rs.

use std::fs;
use std::path::{Path, PathBuf};

/// The Rust files of a folder, without those of programs.
fn sources(folder: &Path) -> Vec<PathBuf> {
    let files = fs::read_dir(folder).expect("the folder can be read").map(|entry| entry.expect("an entry").path());
    files.filter(|path| path.extension().map_or(false, |e| e == "rs")).collect()
}

#[test]
fn every_public_function_has_an_example() {
    let mut count = 0;
    for path in sources(&Path::new(env!("CARGO_MANIFEST_DIR")).join("src")) {
        let mut shown = false;
        for line in fs::read_to_string(&path).expect("a source can be read").lines().map(str::trim) {
            if line.starts_with("pub fn ") {
                assert!(shown, "{:?}: {}", path, line);
                count += 1;
            }
            let is_attribute = line.starts_with("#[");
            shown = shown && is_attribute || line.starts_with("///") && (shown || line.ends_with("```"));
        }
    }
    assert!(count > 30, "{} functions", count);
}

/// The examples in the documentation comments of a source, each as its lines without their margins.
fn examples(source: &str) -> Vec<Vec<String>> {
    let (mut found, mut open) = (Vec::new(), None);
    for line in source.lines().map(str::trim) {
        let text = line.strip_prefix("///").or_else(|| line.strip_prefix("//!")).map(str::trim);
        match (text, open.take()) {
            (Some("```"), None) => open = Some(Vec::new()),
            (Some("```"), Some(example)) => found.push(example),
            (Some(text), Some(mut example)) => {
                example.push(text.to_owned());
                open = Some(example);
            }
            _ => {}
        }
    }
    found
}

#[test]
fn every_example_stands_here() {
    let root = Path::new(env!("CARGO_MANIFEST_DIR"));
    let here = [include_str!("examples.rs"), include_str!("examples_index.rs"), include_str!("examples_values.rs")];
    let here: Vec<&str> = here.iter().flat_map(|tests| tests.lines()).map(str::trim).collect();
    let mut count = 0;
    for path in sources(&root.join("src")) {
        for example in examples(&fs::read_to_string(&path).expect("a source can be read")) {
            assert!(here.windows(example.len()).any(|part| part == example), "{:?}: {:#?}", path, example);
            count += 1;
        }
    }
    assert!(count > 30, "{} examples", count);
}

#[test]
fn line_refusal() {
    assert_eq!(castanwel::line_refusal(b"$GPGSV,1,1,00*79\r\n"), None);
    assert_eq!(castanwel::line_refusal(b"$GPGSV,1,1,00*78\r\n").unwrap().number, 2);
}

#[test]
fn numbers_next_line() {
    let log = b"noise$GPGSV,1,1,00*79\r\n$GP";
    assert_eq!(castanwel::numbers::next_line(log, 0), (true, 5, 23));
    assert_eq!(castanwel::numbers::next_line(log, 23), (false, 23, 26));
}

#[test]
fn numbers_feed() {
    assert_eq!(castanwel::numbers::feed(0, b'$'), (1, 0));
    assert_eq!(castanwel::numbers::feed(17, b'\n'), (0, 18));
}

#[test]
fn numbers_places() {
    let mut ends = [0; 4];
    assert_eq!(castanwel::numbers::places(b"GPGSV,1,1,00", &mut ends), 4);
    assert_eq!(ends, [5, 7, 9, 12]);
}

#[test]
fn field_of_a_line() {
    let line = b"$GPGSV,1,1,01,05,,,*7D\r\n";
    assert_eq!(castanwel::field(line, 4), Ok(&line[14..16]));
    assert_eq!(castanwel::field(line, 7), Ok(&b""[..]));
    assert_eq!(castanwel::field(line, 8).unwrap_err().number, 4);
}

#[test]
fn refusal_of_a_line() {
    assert_eq!(castanwel::refusal(b"$GPGSV,1,1,00*79\r\n"), None);
    let twelve_fields = b"$GPGGA,000008.00,,,,,0,,,,,,*40\r\n";
    assert_eq!(castanwel::refusal(twelve_fields).unwrap().number, 4);
}

#[test]
fn numbers_read() {
    let mut numbers = [0; castanwel::numbers::RECORD];
    assert_eq!(castanwel::numbers::read(b"$GNGSV,1,1,00*67\r\n", &mut numbers), Ok(4));
    assert_eq!(numbers[..5], [4, 1, 1, 0, 0]);
}

#[test]
fn numbers_write() {
    let mut out = [0; 82];
    let length = castanwel::numbers::write(15, &[17], &mut out).unwrap();
    assert_eq!(&out[..length], b"$PIREA,17*65\r\n");
}

#[test]
fn numbers_read_group() {
    let mut numbers = [0; castanwel::numbers::GROUP];
    castanwel::numbers::read_group(b"$GPGSV,1,1,01,05,,,*7D\r\n", &mut numbers).unwrap();
    assert_eq!(numbers[..9], [0, 1, 5, 0, 0, 0, 0, 0, 0]);
}

#[test]
fn numbers_write_group() {
    let mut numbers = [0; castanwel::numbers::GROUP];
    numbers[1..3].copy_from_slice(&[1, 5]);
    let mut out = [0; 82];
    let length = castanwel::numbers::write_group(&numbers, &mut out).unwrap();
    assert_eq!(&out[..length], b"$GPGSV,1,1,01,05,,,*7D\r\n");
}

#[test]
fn numbers_start() {
    let mut settings = [0; castanwel::numbers::SETTINGS];
    castanwel::numbers::start(&mut settings).unwrap();
    assert_eq!(settings, [4800, 4, 127, 4800, 4, 127, 0, 0, 0xffff_ffff, 0xff_ffff, 0]);
}

#[test]
fn numbers_step() {
    let mut settings = [0; castanwel::numbers::SETTINGS];
    castanwel::numbers::start(&mut settings).unwrap();
    let mut out = [0; 82];
    let length = castanwel::numbers::step(&mut settings, 0, b"$PIRTR,1,-0030*52\r\n", &mut out).unwrap();
    assert_eq!(&out[..length], b"$PIRTA,1,-0030*41\r\n");
    assert_eq!(settings[6..8], [1, -30]);
}

#[test]
fn numbers_counts() {
    let settings = [4800, 4, 127, 4800, 4, 127, 0, 0, 0x7ffe_ffff, 0xff_fffe, 0];
    assert_eq!(castanwel::numbers::counts(&settings), Ok((30, 23)));
}

#[test]
fn lines() {
    let log = b"noise$GPGSV,1,1,00*79\r\n$GP$PIRER,0*40\r\nrest";
    let lines: Vec<&[u8]> = castanwel::lines(log).collect();
    assert_eq!(lines, [&b"$GPGSV,1,1,00*79\r\n"[..], b"$PIRER,0*40\r\n"]);
}

#[test]
fn finder_new() {
    let mut finder = castanwel::Finder::new();
    assert_eq!(finder.push(b'\n'), None);
}

#[test]
fn finder_push() {
    let mut finder = castanwel::Finder::new();
    let mut found = Vec::new();
    for &byte in b"$GP$PIRER,0*40\r\n" {
        found.extend(finder.push(byte).map(<[u8]>::to_vec));
    }
    assert_eq!(found, [b"$PIRER,0*40\r\n"]);
}

#[test]
fn a_log_taken_by_the_receiver() {
    let log = b"$PIRTR,1,-0030*52\r\n$GPGSV,1,1,00*79\r\n";
    let mut settings = castanwel::Settings::start();
    let mut out = [0; castanwel::LONGEST];
    for line in castanwel::lines(log) {
        let done = settings.step(0, line, &mut out);
        settings = done.settings;
        match done.reply {
            Ok(length) => println!("{}", String::from_utf8_lossy(&out[..length])),
            Err(refusal) => println!("{}", refusal),
        }
    }
    assert_eq!((settings.datum, settings.zone.minutes), (1, -30));
}

#[test]
fn settings_start() {
    let settings = castanwel::Settings::start();
    assert_eq!((settings.ports[0].rate, settings.glonass), (4800, 0xff_ffff));
}

#[test]
fn settings_step() {
    let mut out = [0; 82];
    let done = castanwel::Settings::start().step(0, b"$PIRSR,7FFEFFFF,FFFFFE,*17\r\n", &mut out);
    assert_eq!(&out[..done.reply.unwrap()], b"$PIRSA,7FFEFFFF,FFFFFE,*04\r\n");
    assert_eq!((done.settings.gps, done.settings.glonass), (0x7ffe_ffff, 0xff_fffe));
}

#[test]
fn settings_counts() {
    let settings = castanwel::Settings { gps: 0x7ffe_ffff, glonass: 0xff_fffe, ..castanwel::Settings::start() };
    assert_eq!(settings.counts(), Ok(castanwel::Counts { gps: 30, glonass: 23 }));
}

#[test]
fn settings_numbers() {
    let numbers = castanwel::Settings::start().numbers();
    assert_eq!(numbers[..3], [4800, 4, 127]);
}

#[test]
fn settings_cells() {
    assert_eq!(castanwel::Settings::cells()[7], castanwel::numbers::Cell::Signed);
}

#[test]
fn refusal_meaning() {
    let refusal = castanwel::read(b"$GPGSV,1,1,00*78\r\n").unwrap_err();
    assert_eq!(refusal.meaning(), "the two digits differ from the XOR of the body");
}

#[test]
fn talker_word() {
    assert_eq!(castanwel::Talker::Gn.word(), "GN");
}

#[test]
fn kind_word() {
    assert_eq!(castanwel::Kind::Gga.word(), "GGA");
    assert_eq!(castanwel::Kind::Pirsr.word(), "PIRSR");
}

#[test]
fn sentence_kind() {
    let sentence = castanwel::read(b"$GPGSV,1,1,00*79\r\n").unwrap();
    assert_eq!(sentence.kind(), castanwel::Kind::Gsv);
}

#[test]
fn kind_number() {
    assert_eq!(castanwel::Kind::Pirea.number(), 15);
}

#[test]
fn kind_from_number() {
    assert_eq!(castanwel::Kind::from_number(1), Some(castanwel::Kind::Gga));
    assert_eq!(castanwel::Kind::from_number(16), None);
}

#[test]
fn kind_has_talker() {
    assert!(castanwel::Kind::Zda.has_talker());
    assert!(!castanwel::Kind::Pirer.has_talker());
}

#[test]
fn kind_cells() {
    use castanwel::numbers::Cell;
    assert_eq!(castanwel::Kind::Pirtr.cells(), [Cell::Mark, Cell::Plain, Cell::Mark, Cell::Signed]);
}

#[test]
fn sentence_talker() {
    let sentence = castanwel::read(b"$GPGSV,1,1,00*79\r\n").unwrap();
    assert_eq!(sentence.talker(), Some(castanwel::Talker::Gp));
}

#[test]
fn sentence_address() {
    let sentence = castanwel::read(b"$GPGSV,1,1,00*79\r\n").unwrap();
    assert_eq!(sentence.address(), "GPGSV");
}

#[test]
fn read() {
    use castanwel::{Sentence, Talker};
    let line = b"$GNVTG,,T,,M,4.5,N,8.334,K,A*30\r\n";
    if let Ok(Sentence::Vtg(Talker::Gn, vtg)) = castanwel::read(line) {
        assert_eq!(vtg.knots, Some(castanwel::Knots(4500)));
        assert_eq!(vtg.kmh, Some(castanwel::Kmh(8334)));
    } else {
        panic!("the line reads as a VTG of talker GN");
    }
}

#[test]
fn write() {
    use castanwel::{Date, Sentence, Talker, Time, Zda, Zone};
    let zda = Zda {
        time: Some(Time(2830000)),
        date: Some(Date { day: 15, month: 11, year: 2026 }),
        zone: Some(Zone { minutes: -30 }),
    };
    let mut out = [0; 82];
    let length = castanwel::write(&Sentence::Zda(Talker::Gp, zda), &mut out).unwrap();
    assert_eq!(&out[..length], b"$GPZDA,075140.00,15,11,2026,-00,30*4D\r\n");
}

#[test]
fn table_of() {
    use castanwel::{Entry, Table};
    let table = Table::of(&[Entry { number: 5, ..Entry::default() }]);
    assert_eq!((table.count, table.entries[0].number), (1, 5));
}

#[test]
fn table_used() {
    let sky = castanwel::read_group(b"$GPGSV,1,1,01,05,,,*7D\r\n").unwrap();
    assert_eq!(sky.table.used().len(), 1);
}

#[test]
fn table_cells() {
    use castanwel::numbers::Cell;
    let cells = castanwel::Table::cells();
    assert_eq!(cells.len(), 253);
    assert_eq!(cells[..4], [Cell::Plain, Cell::Plain, Cell::Mark, Cell::Plain]);
}

#[test]
fn read_group() {
    let sky = castanwel::read_group(b"$GPGSV,1,1,01,05,,,*7D\r\n").unwrap();
    assert_eq!(sky.table.used()[0], castanwel::Entry { number: 5, ..castanwel::Entry::default() });
    let refusal = castanwel::read_group(b"$GPGSV,5,5,17,77,71,048,53*43\r\n").unwrap_err();
    assert_eq!(refusal.to_string(), "refusal 6 at line 1: a line does not go with its group");
}

#[test]
fn write_group() {
    use castanwel::{Entry, Sky, Table, Talker};
    let five = Entry { number: 5, elevation: Some(71), azimuth: Some(48), signal: None };
    let mut out = [0; 82];
    let length = castanwel::write_group(&Sky { talker: Talker::Gp, table: Table::of(&[five]) }, &mut out).unwrap();
    assert_eq!(&out[..length], b"$GPGSV,1,1,01,05,71,048,*47\r\n");
    let twice = Sky { talker: Talker::Gp, table: Table::of(&[five, five]) };
    assert_eq!(castanwel::write_group(&twice, &mut out).unwrap_err().number, 7);
}

#[test]
fn sentence_from_bytes() {
    let sentence = castanwel::Sentence::try_from(b"$GPGSV,1,1,00*79\r\n".as_slice()).unwrap();
    assert_eq!(sentence.to_string(), "$GPGSV,1,1,00*79");
}

#[test]
fn sky_from_bytes() {
    let sky = castanwel::Sky::try_from(b"$GPGSV,1,1,01,05,,,*7D\r\n".as_slice()).unwrap();
    assert_eq!(sky.to_string(), "$GPGSV,1,1,01,05,,,*7D");
}

#[test]
fn records_with_little_sent() {
    {
        use castanwel::{Gll, Mode, Sentence, Status, Talker};
        let none = Sentence::Gll(Talker::Gp, Gll::new(Status(b'V'), Mode(b'N')));
        assert_eq!(none.to_string(), "$GPGLL,,,,,,V,N*64");
    }
    {
        use castanwel::{Gsa, Selection, Sentence, Talker};
        let none = Sentence::Gsa(Talker::Gp, Gsa::new(Selection(b'A'), 1));
        assert_eq!(none.to_string(), "$GPGSA,A,1,,,,,,,,,,,,,,,*1E");
    }
    {
        use castanwel::{Gsv, Sentence, Talker};
        let none = Sentence::Gsv(Talker::Gp, Gsv::new(1, 1, 0));
        assert_eq!(none.to_string(), "$GPGSV,1,1,00*79");
    }
    {
        use castanwel::{Mode, Rmc, Sentence, Status, Talker};
        let none = Sentence::Rmc(Talker::Gp, Rmc::new(Status(b'V'), Mode(b'N')));
        assert_eq!(none.to_string(), "$GPRMC,,V,,,,,,,,,,N*53");
    }
    {
        use castanwel::{Mode, Sentence, Talker, Vtg};
        let none = Sentence::Vtg(Talker::Gp, Vtg::new(Mode(b'N')));
        assert_eq!(none.to_string(), "$GPVTG,,,,,,,,,N*30");
    }
}
