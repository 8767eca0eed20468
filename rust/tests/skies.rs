//! Groups read and written: every size, every room, damage, and tables out of range.

mod common;

use castanwel::numbers::{self, GROUP};
use castanwel::{read_group, write_group, Entry, Refusal, Sky, Table, Talker};
use common::{damage, Rng};

const ROOM: usize = 800;

fn value(rng: &mut Rng, highest: usize) -> Option<u32> {
    let any = rng.below(highest + 1);
    rng.of(&[None, Some(0), Some(highest), Some(any)]).map(|value| value as u32)
}

/// A sound sky of so many satellites.
fn sky(rng: &mut Rng, size: usize) -> Sky {
    let first = rng.below(99 - 36);
    let mut entry = |i| Entry {
        number: (first + i + 1) as u32,
        elevation: value(rng, 90),
        azimuth: value(rng, 359),
        signal: value(rng, 99),
    };
    let entries: Vec<Entry> = (0..size).map(&mut entry).collect();
    Sky { talker: rng.of(&Talker::ALL), table: Table::of(&entries) }
}

fn written(sky: &Sky) -> Vec<u8> {
    let mut out = [0; ROOM];
    let length = write_group(sky, &mut out).expect("the sky is sound");
    out[..length].to_vec()
}

#[test]
fn every_size_is_written_and_reads_back() {
    let mut rng = Rng::new(21);
    for size in (0..=36).cycle().take(370) {
        let sky = sky(&mut rng, size);
        let bytes = written(&sky);
        assert_eq!(bytes.iter().filter(|&&b| b == b'\n').count(), ((size + 3) / 4).max(1));
        assert_eq!(read_group(&bytes), Ok(sky));
        assert_eq!(sky.table.used().len(), size);
    }
}

#[test]
fn every_room() {
    for size in [0, 1, 4, 5, 36] {
        let sky = sky(&mut Rng::new(22), size);
        let whole = written(&sky);
        for room in 0..ROOM {
            let mut out = [0xAA; ROOM];
            let answer = write_group(&sky, &mut out[..room]);
            if room < whole.len() {
                assert_eq!(answer, Err(Refusal { number: 8, line: 0, field: 0 }));
                assert_eq!(out, [0xAA; ROOM]);
            } else {
                assert_eq!(answer, Ok(whole.len()));
                assert_eq!(&out[..whole.len()], &whole[..]);
                assert!(out[whole.len()..].iter().all(|&b| b == 0xAA));
            }
        }
    }
}

#[test]
fn one_byte_of_damage_is_refused() {
    let mut rng = Rng::new(23);
    let mut met = [0; 3];
    for turn in 0..20_000 {
        let sound = written(&sky(&mut rng, turn % 37));
        let mut hurt = sound.clone();
        damage(&mut rng, &mut hurt);
        if hurt == sound {
            continue;
        }
        let refusal = read_group(&hurt).expect_err("a byte is not as it was");
        assert!((1..=2).contains(&refusal.number) && refusal.field == 0, "{:?}", refusal);
        met[usize::from(refusal.number)] += 1;
    }
    assert!(met[1] > 1000 && met[2] > 1000, "{:?}", met);
}

#[test]
fn lines_that_do_not_belong_together() {
    let whole = written(&sky(&mut Rng::new(24), 9));
    let second = whole.iter().position(|&b| b == b'\n').expect("a first line") + 1;
    let at = |bytes: &[u8]| read_group(bytes).map(|_| ()).unwrap_err();
    assert_eq!(at(&whole[second..]), Refusal { number: 6, line: 1, field: 0 });
    assert_eq!(at(&whole[..second]), Refusal { number: 6, line: 2, field: 0 });
    assert_eq!(at(&[&whole[..], b"$GPGSV,1,1,00*79\r\n"].concat()), Refusal { number: 6, line: 4, field: 0 });
    assert_eq!(at(b""), Refusal { number: 1, line: 1, field: 0 });
    assert_eq!(at(b"$GPGSV,1,1,02,05,,,,05,,,*7B\r\n"), Refusal { number: 7, line: 1, field: 0 });
    assert_eq!(at(b"$GPGSV,1,1,01,05,91,,*75\r\n"), Refusal { number: 5, line: 1, field: 5 });
}

#[test]
fn tables_out_of_range() {
    let sound = sky(&mut Rng::new(25), 36);
    let refused = |table: Table| write_group(&Sky { table, ..sound }, &mut [0; ROOM]).unwrap_err();
    let of_no_line = Refusal { number: 5, line: 0, field: 0 };
    assert_eq!(refused(Table::of(&[sound.table.entries[0]; 37])), of_no_line);
    assert_eq!(refused(Table { count: u32::MAX, ..sound.table }), of_no_line);
    assert_eq!(refused(Table { count: 35, ..sound.table }), of_no_line);
    for place in 0..36 {
        let with = |entry| {
            let mut table = sound.table;
            table.entries[place] = entry;
            refused(table)
        };
        let entry = sound.table.entries[place];
        let at = |field: usize| Refusal { number: 5, line: place / 4 + 1, field: field + 4 * (place % 4) };
        assert_eq!(with(Entry { number: 0, ..entry }), at(4));
        assert_eq!(with(Entry { elevation: Some(91), ..entry }), at(5));
        assert_eq!(with(Entry { azimuth: Some(360), ..entry }), at(6));
        assert_eq!(with(Entry { signal: Some(100), ..entry }), at(7));
        let other = sound.table.entries[(place + 1) % 36];
        let line = place.max((place + 1) % 36) / 4 + 1;
        assert_eq!(with(other), Refusal { number: 7, line, field: 0 });
    }
}

#[test]
fn slices_of_numbers_that_are_too_short_and_talkers_that_there_are_not() {
    let bytes = written(&sky(&mut Rng::new(26), 7));
    let mut numbers = [7; GROUP + 1];
    assert_eq!(numbers::read_group(&bytes, &mut numbers[..GROUP - 1]), Err(Refusal { number: 8, line: 0, field: 0 }));
    assert_eq!(numbers, [7; GROUP + 1]);
    assert_eq!(numbers::read_group(&bytes, &mut numbers), Ok(()));
    assert_eq!(numbers[GROUP], 7);
    for short in [0, 1, 2, 100, GROUP - 1] {
        let answer = numbers::write_group(&numbers[..short], &mut [0; ROOM]);
        assert_eq!(answer, Err(Refusal { number: 5, line: 0, field: 0 }), "{}", short);
    }
    assert_eq!(numbers::write_group(&numbers, &mut [0; ROOM]), Ok(bytes.len()));
    for talker in [5, 255, -1, 4_294_967_296] {
        numbers[0] = talker;
        assert_eq!(numbers::write_group(&numbers, &mut [0; ROOM]), Err(Refusal { number: 3, line: 0, field: 0 }));
    }
}

#[test]
fn a_sky_prints_as_its_lines_and_comes_from_them() {
    let group = b"$GPGSV,2,1,05,02,10,104,33,05,60,017,47,12,33,201,40,25,04,310,*7A\r\n$GPGSV,2,2,05,29,71,048,53*4B\r\n";
    let sky = castanwel::Sky::try_from(group.as_slice()).unwrap();
    assert_eq!(format!("{}\n", sky).replace('\n', "\r\n").as_bytes(), group);
    assert_eq!(castanwel::Sky::try_from(&group[..70]).unwrap_err(), castanwel::read_group(&group[..70]).unwrap_err());
    let five = castanwel::Entry { number: 5, ..castanwel::Entry::default() };
    let twice = castanwel::Sky { talker: castanwel::Talker::Gp, table: castanwel::Table::of(&[five, five]) };
    assert!(twice.to_string().starts_with("(the sky of GP cannot be written: refusal 7"), "{}", twice);
}
