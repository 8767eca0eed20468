//! The longest line, group and reply, each written and found to be exactly so long, and nothing longer.

mod common;

use castanwel::{
    line_refusal, read_group, write, write_group, Entry, Port, Refusal, Settings, Sky, Table, Talker, Zone,
};
use castanwel::{Gga, Number, Place, Sentence, Signed, Time, LONGEST, LONGEST_GROUP, LONGEST_REPLY};
use common::Rng;

/// A sky of so many satellites with every value there.
fn full_sky(size: u32) -> Sky {
    let entry = |number| Entry { number, elevation: Some(90), azimuth: Some(359), signal: Some(99) };
    Sky { talker: Talker::Gn, table: Table::of(&(1..=size).map(entry).collect::<Vec<_>>()) }
}

#[test]
fn the_longest_line() {
    let place = Some(Place { lat: -54_000_000, lon: -108_000_000 });
    let (time, satellites, station) = (Some(Time(8_639_999)), Some(99), Some(1023));
    let sound = Gga { time, place, satellites, hdop: Some(Number(999_999_999)), station, ..Gga::default() };
    let with = |altitude| Sentence::Gga(Talker::Gn, Gga { altitude: Some(Signed(altitude)), ..sound });
    let mut out = [0; LONGEST + 1];
    assert_eq!(write(&with(-999_999), &mut out), Ok(LONGEST - 1));
    assert_eq!(write(&with(-9_999_999), &mut out), Ok(LONGEST));
    assert_eq!(line_refusal(&out[..LONGEST]), None);
    assert_eq!(write(&with(-99_999_999), &mut out), Err(Refusal { number: 1, line: 1, field: 0 }));
}

#[test]
fn the_longest_group() {
    let sky = full_sky(36);
    let mut out = [0; LONGEST_GROUP];
    assert_eq!(write_group(&sky, &mut out), Ok(LONGEST_GROUP));
    assert_eq!(out.iter().filter(|&&b| b == b'\n').count(), 9);
    assert_eq!(read_group(&out), Ok(sky));
    let short = write_group(&sky, &mut out[..LONGEST_GROUP - 1]);
    assert_eq!(short, Err(Refusal { number: 8, line: 0, field: 0 }));
    for size in 0..36 {
        assert!(write_group(&full_sky(size), &mut out).expect("a shorter group") < LONGEST_GROUP);
    }
}

#[test]
fn the_longest_reply() {
    let mut out = [0; LONGEST_REPLY];
    let length_of = |settings: Settings, line: &[u8], out: &mut [u8]| settings.step(0, line, out).reply;
    let port = Port { rate: 115_200, protocol: 4, mask: 0x0f7f };
    let longest = Settings { ports: [port; 2], zone: Zone { minutes: -839 }, code: 255, ..Settings::default() };
    let asked = [(&b"$PIRPR,,,,*49\r\n"[..], 27), (b"$PIRTR,,*4D\r\n", 19), (b"$PIRER,0*40\r\n", 15)];
    for (line, length) in asked {
        assert_eq!(length_of(longest, line, &mut out), Ok(length));
    }
    let masks = b"$PIRSR,,,*66\r\n";
    assert_eq!(length_of(longest, masks, &mut out), Ok(LONGEST_REPLY));
    let short = length_of(longest, masks, &mut out[..LONGEST_REPLY - 1]);
    assert_eq!(short, Err(Refusal { number: 8, line: 1, field: 0 }));
}

#[test]
fn no_reply_is_longer() {
    let (mut rng, mut longest) = (Rng::new(71), 0);
    let commands = [&b"$PIRPR,,,,*49\r\n"[..], b"$PIRTR,,*4D\r\n", b"$PIRSR,,,*66\r\n", b"$PIRER,0*40\r\n"];
    for _ in 0..20_000 {
        let rate = 1200 + rng.below(114_001) as u32;
        let port = Port { rate, protocol: 4, mask: rng.below(1 << 12) as u32 & !0x80 };
        let settings = Settings {
            ports: [port; 2],
            datum: rng.below(5) as u32,
            zone: Zone { minutes: rng.below(1679) as i32 - 839 },
            gps: rng.below(1 << 32) as u32,
            glonass: rng.below(1 << 24) as u32,
            code: rng.below(256) as u32,
        };
        let reply = settings.step(rng.below(2) as u32, rng.of(&commands), &mut [0; LONGEST]).reply;
        longest = longest.max(reply.expect("a question with sound settings"));
    }
    assert_eq!(longest, LONGEST_REPLY);
}
