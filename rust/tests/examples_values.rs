//! The examples of the documentation comments of values, of the lines and runs of an input and of refusals, as tests; examples.rs sees that
//! each stands here.

#[test]
fn words_of_a_refusal() {
    let damaged = b"$GPGSV,1,1,00*78\r\n";
    let (of_line, of_group) = (castanwel::read(damaged), castanwel::read_group(damaged));
    assert_eq!(of_line.unwrap_err().to_string(), "refusal 2: the two digits differ from the XOR of the body");
    assert_eq!(of_group.unwrap_err().to_string(), "refusal 2 at line 1: the two digits differ from the XOR of the body");
}

#[test]
fn a_group_s_refusal_as_any_other() {
    fn satellites(group: &[u8]) -> Result<usize, castanwel::Refusal> {
        Ok(castanwel::read_group(group)?.table.used().len())
    }
    assert_eq!(satellites(b"$GPGSV,1,1,01,05,,,*7D\r\n"), Ok(1));
    assert_eq!(satellites(b"").unwrap_err().number, 1);
}

#[test]
fn settings_default() {
    assert_eq!(castanwel::Settings::default(), castanwel::Settings::start());
}

#[test]
fn line_bytes() {
    let line = castanwel::lines_from(&b"noise$PIRER,0*40\r\n"[..]).next().unwrap().unwrap();
    assert_eq!(line.bytes(), b"$PIRER,0*40\r\n");
}

#[test]
fn line_offset() {
    let line = castanwel::lines_from(&b"noise$PIRER,0*40\r\n"[..]).next().unwrap().unwrap();
    assert_eq!(line.offset(), 5);
}

#[test]
fn lines_from() {
    let log = &b"noise$GPGSV,1,1,00*79\r\n$GP$PIRER,0*40\r\nrest"[..];
    let lines: Vec<castanwel::Line> = castanwel::lines_from(log).collect::<Result<_, _>>().unwrap();
    assert_eq!((lines[0].offset(), lines[1].offset(), lines.len()), (5, 26, 2));
    assert!(castanwel::read(&lines[1]).is_ok());
}

#[test]
fn time() {
    assert_eq!(castanwel::Time(8_639_999).hours(), 23);
    assert_eq!(castanwel::Time(2_830_000).minutes(), 51);
    assert_eq!(castanwel::Time(2_830_000).seconds(), 40);
    assert_eq!(castanwel::Time(8_639_999).hundredths(), 99);
}

#[test]
fn values() {
    assert_eq!(castanwel::Number(359_999).value(), 359.999);
    assert_eq!(castanwel::Signed(-12_500).value(), -12.5);
    assert_eq!(castanwel::Knots(4_500).value(), 4.5);
    assert_eq!(castanwel::Kmh(8_334).value(), 8.334);
}

#[test]
fn place() {
    assert_eq!(castanwel::Place { lat: -53_700_000, lon: 0 }.latitude_degrees(), -89.5);
    assert_eq!(castanwel::Place { lat: 0, lon: 22_350_000 }.longitude_degrees(), 37.25);
}

#[test]
fn zone() {
    assert!(castanwel::Zone { minutes: -30 }.is_negative());
    assert_eq!(castanwel::Zone { minutes: -330 }.hours(), -5);
    assert_eq!(castanwel::Zone { minutes: -30 }.hours(), 0);
    assert_eq!(castanwel::Zone { minutes: -330 }.minutes_past_hour(), -30);
    assert_eq!(castanwel::Zone { minutes: -30 }.minutes_past_hour(), -30);
}

#[test]
fn numbers_run_step() {
    let (mut lines, mut last) = (0, 0);
    let first = b"$GPGSV,2,1,05,02,10,104,33,05,60,017,47,12,33,201,40,25,04,310,*7A\r\n";
    assert_eq!(castanwel::numbers::run_step(&mut lines, &mut last, first), (false, true, false));
    assert_eq!((lines, last), (1, 2));
    assert_eq!(castanwel::numbers::run_step(&mut lines, &mut last, b"$GPGSV,1,1,00*79\r\n"), (true, true, true));
    assert_eq!((lines, last), (0, 0));
}

#[test]
fn skies_from() {
    let log = &b"noise$GPGSV,1,1,01,05,,,*7D\r\n$PIRER,0*40\r\n$GPGSV,5,5,17,77,71,048,53*43\r\n"[..];
    let runs: Vec<castanwel::Run> = castanwel::skies_from(log).collect::<Result<_, _>>().unwrap();
    assert_eq!((runs[0].number, runs[0].offset), (1, 5));
    assert_eq!(runs[0].sky.unwrap().table.used()[0].number, 5);
    assert_eq!((runs[1].number, runs[1].offset), (3, 42));
    assert_eq!(runs[1].sky.unwrap_err().to_string(), "refusal 6 at line 1: a line does not go with its group");
}
