//! Typed records out of range: the proved writer refuses each at the field of the wrong value.

use castanwel::*;

/// The refusal of a sentence that cannot be written, whose output is seen to be left.
fn refused(sentence: Sentence) -> Refusal {
    let mut out = [0xAA; LONGEST];
    let refusal = write(&sentence, &mut out).expect_err("it is out of range");
    assert_eq!(out, [0xAA; LONGEST], "{:?}", sentence);
    refusal
}

/// Sees that a sentence is refused with 5 at a field.
fn at_field(field: usize, sentence: Sentence) {
    assert_eq!(refused(sentence), Refusal { number: 5, line: 1, field }, "{:?}", sentence);
}

const LAT: i32 = 54_000_000;
const LON: i32 = 108_000_000;

/// What refusal 5 says.
const FORM: &str = "a field is not of its form or range, or a value of a record is outside its range";

#[test]
fn gga() {
    let sound = Gga::default();
    let gga = |record| Sentence::Gga(Talker::Gp, record);
    assert!(write(&gga(sound), &mut [0; LONGEST]).is_ok());
    at_field(1, gga(Gga { time: Some(Time(8_640_000)), ..sound }));
    at_field(2, gga(Gga { place: Some(Place { lat: LAT + 1, lon: 0 }), ..sound }));
    at_field(4, gga(Gga { place: Some(Place { lat: 0, lon: -LON - 1 }), ..sound }));
    at_field(6, gga(Gga { quality: 9, ..sound }));
    at_field(7, gga(Gga { satellites: Some(100), ..sound }));
    at_field(8, gga(Gga { hdop: Some(Number(1_000_000_000)), ..sound }));
    at_field(9, gga(Gga { altitude: Some(Signed(-1_000_000_000)), ..sound }));
    at_field(11, gga(Gga { geoid: Some(Signed(i32::MIN)), ..sound }));
    at_field(13, gga(Gga { age: Some(Number(u32::MAX)), ..sound }));
    at_field(14, gga(Gga { station: Some(1024), ..sound }));
}

#[test]
fn gll_and_gsa() {
    let sound = Gll::new(Status(b'A'), Mode(b'A'));
    let gll = |record| Sentence::Gll(Talker::Gl, record);
    assert!(write(&gll(sound), &mut [0; LONGEST]).is_ok());
    at_field(1, gll(Gll { place: Some(Place { lat: -LAT - 1, lon: 0 }), ..sound }));
    at_field(5, gll(Gll { time: Some(Time(8_640_000)), ..sound }));
    at_field(6, gll(Gll { status: Status(b'D'), ..sound }));
    at_field(7, gll(Gll { mode: Mode(0), ..sound }));

    let sound = Gsa::new(Selection(b'M'), 1);
    let gsa = |record| Sentence::Gsa(Talker::Ga, record);
    assert!(write(&gsa(sound), &mut [0; LONGEST]).is_ok());
    at_field(1, gsa(Gsa { selection: Selection(b'a'), ..sound }));
    at_field(2, gsa(Gsa { fix: 0, ..sound }));
    for place in 0..12 {
        let mut satellites = [None; 12];
        satellites[place] = Some(0);
        at_field(3 + place, gsa(Gsa { satellites, ..sound }));
    }
    at_field(15, gsa(Gsa { pdop: Some(Number(1_000_000_000)), ..sound }));
    at_field(16, gsa(Gsa { hdop: Some(Number(1_000_000_000)), ..sound }));
    at_field(17, gsa(Gsa { vdop: Some(Number(1_000_000_000)), ..sound }));
}

#[test]
fn a_gsa_of_over_82_bytes() {
    let long = Some(Number(999_999_999));
    let gsa =
        Gsa { selection: Selection(b'A'), fix: 3, satellites: [Some(99); 12], pdop: long, hdop: long, vdop: long };
    assert_eq!(refused(Sentence::Gsa(Talker::Gp, gsa)), Refusal { number: 1, line: 1, field: 0 });
}

#[test]
fn gsv() {
    let entry = Entry { number: 1, ..Entry::default() };
    let sound = Gsv { lines: 1, line: 1, satellites: 4, count: 4, entries: [entry; 4] };
    let gsv = |record| Sentence::Gsv(Talker::Gq, record);
    assert!(write(&gsv(sound), &mut [0; LONGEST]).is_ok());
    at_field(1, gsv(Gsv { lines: 0, ..sound }));
    at_field(2, gsv(Gsv { line: 10, ..sound }));
    at_field(3, gsv(Gsv { satellites: 100, ..sound }));
    for place in 0..4 {
        let with = |wrong| {
            let mut entries = sound.entries;
            entries[place] = wrong;
            gsv(Gsv { entries, ..sound })
        };
        at_field(4 + 4 * place, with(Entry { number: 100, ..entry }));
        at_field(5 + 4 * place, with(Entry { elevation: Some(91), ..entry }));
        at_field(6 + 4 * place, with(Entry { azimuth: Some(360), ..entry }));
        at_field(7 + 4 * place, with(Entry { signal: Some(100), ..entry }));
    }
    let of_no_line = Refusal { number: 5, line: 0, field: 0 };
    assert_eq!(refused(gsv(Gsv { count: 5, ..sound })), of_no_line);
    assert_eq!(refused(gsv(Gsv { count: 3, ..sound })), of_no_line);
}

#[test]
fn rmc_and_vtg() {
    let sound = Rmc::new(Status(b'V'), Mode(b'N'));
    let rmc = |record| Sentence::Rmc(Talker::Gn, record);
    assert!(write(&rmc(sound), &mut [0; LONGEST]).is_ok());
    at_field(1, rmc(Rmc { time: Some(Time(u32::MAX)), ..sound }));
    at_field(2, rmc(Rmc { status: Status(255), ..sound }));
    at_field(3, rmc(Rmc { place: Some(Place { lat: i32::MIN, lon: 0 }), ..sound }));
    at_field(5, rmc(Rmc { place: Some(Place { lat: 0, lon: LON + 1 }), ..sound }));
    at_field(7, rmc(Rmc { speed: Some(Knots(1_000_000_000)), ..sound }));
    at_field(8, rmc(Rmc { course: Some(Number(360_000)), ..sound }));
    at_field(9, rmc(Rmc { date: Some(Date { day: 29, month: 2, year: 2023 }), ..sound }));
    at_field(10, rmc(Rmc { variation: Some(Signed(-180_000)), ..sound }));
    at_field(12, rmc(Rmc { mode: Mode(b'P'), ..sound }));

    let sound = Vtg::new(Mode(b'S'));
    let vtg = |record| Sentence::Vtg(Talker::Gp, record);
    assert!(write(&vtg(sound), &mut [0; LONGEST]).is_ok());
    at_field(1, vtg(Vtg { course: Some(Number(360_000)), ..sound }));
    at_field(3, vtg(Vtg { magnetic: Some(Number(360_000)), ..sound }));
    at_field(5, vtg(Vtg { knots: Some(Knots(1_000_000_000)), ..sound }));
    at_field(7, vtg(Vtg { kmh: Some(Kmh(1_000_000_000)), ..sound }));
    at_field(9, vtg(Vtg { mode: Mode(b'X'), ..sound }));
}

#[test]
fn zda() {
    let sound = Zda::default();
    let zda = |record| Sentence::Zda(Talker::Gp, record);
    let dated = |day, month, year| zda(Zda { date: Some(Date { day, month, year }), ..sound });
    assert!(write(&zda(sound), &mut [0; LONGEST]).is_ok());
    assert!(write(&dated(29, 2, 2000), &mut [0; LONGEST]).is_ok());
    at_field(1, zda(Zda { time: Some(Time(8_640_000)), ..sound }));
    at_field(2, dated(32, 1, 2000));
    at_field(3, dated(1, 13, 2000));
    at_field(4, dated(29, 2, 2023));
    at_field(4, dated(1, 1, 2080));
    at_field(5, zda(Zda { zone: Some(Zone { minutes: 840 }), ..sound }));
    at_field(5, zda(Zda { zone: Some(Zone { minutes: -840 }), ..sound }));
}

#[test]
fn commands() {
    let port = PortAsked { port: Some(1), rate: Some(9600), protocol: Some(4), mask: Some(0x0f79) };
    assert!(write(&Sentence::Pirpr(port), &mut [0; LONGEST]).is_ok());
    at_field(1, Sentence::Pirpr(PortAsked { port: Some(2), ..port }));
    at_field(2, Sentence::Pirpr(PortAsked { rate: Some(1199), ..port }));
    at_field(3, Sentence::Pirpr(PortAsked { rate: None, ..port }));
    at_field(3, Sentence::Pirpr(PortAsked { protocol: Some(5), ..port }));
    at_field(4, Sentence::Pirpr(PortAsked { mask: Some(0x0080), ..port }));
    at_field(4, Sentence::Pirpr(PortAsked { mask: None, ..port }));
    let datum = DatumAsked { datum: Some(1), zone: Some(Zone { minutes: -30 }) };
    at_field(1, Sentence::Pirtr(DatumAsked { datum: Some(5), ..datum }));
    at_field(2, Sentence::Pirtr(DatumAsked { datum: None, ..datum }));
    at_field(2, Sentence::Pirtr(DatumAsked { zone: None, ..datum }));
    at_field(2, Sentence::Pirsr(MasksAsked { gps: Some(u32::MAX), glonass: Some(0x100_0000) }));
    assert!(write(&Sentence::Pirer(CodeAsked), &mut [0; LONGEST]).is_ok());
}

#[test]
fn replies() {
    let port = PortTold { port: 0, rate: 115_200, protocol: 4, mask: 0x7f };
    assert!(write(&Sentence::Pirpa(port), &mut [0; LONGEST]).is_ok());
    at_field(1, Sentence::Pirpa(PortTold { port: 2, ..port }));
    at_field(2, Sentence::Pirpa(PortTold { rate: 115_201, ..port }));
    at_field(3, Sentence::Pirpa(PortTold { protocol: 5, ..port }));
    at_field(4, Sentence::Pirpa(PortTold { mask: 0x1000, ..port }));
    at_field(1, Sentence::Pirta(DatumTold { datum: 5, zone: Zone { minutes: 0 } }));
    at_field(2, Sentence::Pirta(DatumTold { datum: 0, zone: Zone { minutes: i32::MIN } }));
    at_field(2, Sentence::Pirsa(MasksTold { gps: 0, glonass: u32::MAX }));
    at_field(1, Sentence::Pirea(CodeTold { code: 256 }));
}

#[test]
fn words_of_a_refusal() {
    let words = |number, line, field| Refusal::<false> { number, line, field }.to_string();
    assert_eq!(words(5, 1, 3), format!("refusal 5 at field 3: {}", FORM));
    assert_eq!(words(2, 1, 0), "refusal 2: the two digits differ from the XOR of the body");
    assert_eq!(words(5, 2, 3), format!("refusal 5 at line 2, field 3: {}", FORM));
    assert_eq!(words(8, 0, 0), "refusal 8: the output is shorter than what would be written");
    let meanings: std::collections::HashSet<&str> =
        (1..=12).map(|number| GroupRefusal { number, line: 1, field: 0 }.meaning()).collect();
    assert_eq!(meanings.len(), 12);
    let boxed: Box<dyn std::error::Error> = Box::new(read(b"").unwrap_err());
    assert!(boxed.to_string().starts_with("refusal 1: "));
}

#[test]
fn words_of_a_group_s_refusal() {
    let words = |number, line, field| GroupRefusal { number, line, field }.to_string();
    assert_eq!(words(5, 1, 5), format!("refusal 5 at line 1, field 5: {}", FORM));
    assert_eq!(words(2, 1, 0), "refusal 2 at line 1: the two digits differ from the XOR of the body");
    assert_eq!(words(7, 4, 0), "refusal 7 at line 4: a satellite is repeated in its group");
    assert_eq!(words(5, 0, 0), format!("refusal 5: {}", FORM));
    let wrong = castanwel::read_group(b"$GPGSV,1,1,01,05,91,,*75\r\n").unwrap_err();
    assert_eq!(wrong.to_string(), words(5, 1, 5));
    let same: Refusal = wrong.into();
    assert_eq!(same, Refusal { number: 5, line: 1, field: 5 });
    let mut numbers = [0; castanwel::numbers::GROUP];
    let wrong = castanwel::numbers::read_group(b"$GPGSV,1,1,00*78\r\n", &mut numbers).unwrap_err();
    assert_eq!(wrong.to_string(), words(2, 1, 0));
    numbers[1..4].copy_from_slice(&[1, 5, 2]);
    let wrong = castanwel::numbers::write_group(&numbers, &mut [0; LONGEST]).unwrap_err();
    assert_eq!(wrong.to_string(), words(5, 1, 5));
}

/// A record that has a default can be written as it is.
#[test]
fn defaults_can_be_written() {
    let sentences = [
        Sentence::Gga(Talker::default(), Gga::default()),
        Sentence::Zda(Talker::default(), Zda::default()),
        Sentence::Pirpr(PortAsked::default()),
        Sentence::Pirtr(DatumAsked::default()),
        Sentence::Pirsr(MasksAsked::default()),
        Sentence::Pirer(CodeAsked),
        Sentence::Pirta(DatumTold::default()),
        Sentence::Pirsa(MasksTold::default()),
        Sentence::Pirea(CodeTold::default()),
    ];
    for sentence in sentences {
        assert!(write(&sentence, &mut [0; LONGEST]).is_ok(), "{:?}", sentence);
    }
    assert!(castanwel::write_group(&Sky::default(), &mut [0; LONGEST]).is_ok());
}
