//! The class receiver: the worked exchange, the order of refusals, every room, and the counts.

mod common;

use castanwel::numbers::{self, SETTINGS};
use castanwel::{Counts, Port, Refusal, Settings, Zone};
use common::Rng;

const ASK_PORT: &[u8] = b"$PIRPR,,,,*49\r\n";
const SET_PORT_1: &[u8] = b"$PIRPR,1,9600,4,0F79*3B\r\n";
const SET_DATUM: &[u8] = b"$PIRTR,1,-0030*52\r\n";
const SET_MASKS: &[u8] = b"$PIRSR,7FFEFFFF,FFFFFE,*17\r\n";
const ASK_CODE: &[u8] = b"$PIRER,0*40\r\n";

/// What a command comes to with all the room that it needs: the reply and the settings after it.
fn done(settings: Settings, arrival: u32, line: &[u8]) -> (Vec<u8>, Settings) {
    let mut out = [0; 82];
    let done = settings.step(arrival, line, &mut out);
    (out[..done.reply.expect("a sound command")].to_vec(), done.settings)
}

/// The refusal of a command, whose output and settings are seen to be left.
fn refused(settings: Settings, arrival: u32, line: &[u8], room: usize) -> Refusal {
    let mut out = [0xAA; 82];
    let done = settings.step(arrival, line, &mut out[..room]);
    assert_eq!((done.settings, out), (settings, [0xAA; 82]));
    done.reply.unwrap_err()
}

#[test]
fn an_exchange() {
    let start = Settings::start();
    let (reply, settings) = done(start, 0, ASK_PORT);
    assert_eq!((&reply[..], settings), (&b"$PIRPA,0,4800,4,007F*23\r\n"[..], start));
    let (_, settings) = done(settings, 0, SET_PORT_1);
    let changed = Settings { ports: [start.ports[0], Port { rate: 9600, protocol: 4, mask: 0x0f79 }], ..start };
    assert_eq!(settings, changed);
    let (reply, settings) = done(settings, 1, SET_DATUM);
    let changed = Settings { datum: 1, zone: Zone { minutes: -30 }, ..changed };
    assert_eq!((&reply[..], settings), (&b"$PIRTA,1,-0030*41\r\n"[..], changed));
    let (reply, settings) = done(settings, 1, SET_MASKS);
    let changed = Settings { gps: 0x7ffe_ffff, glonass: 0xff_fffe, ..changed };
    assert_eq!((&reply[..], settings), (&b"$PIRSA,7FFEFFFF,FFFFFE,*04\r\n"[..], changed));
    let (reply, settings) = done(Settings { code: 255, ..settings }, 1, ASK_CODE);
    assert_eq!((&reply[..], settings.code), (&b"$PIREA,255*51\r\n"[..], 255));
}

#[test]
fn refusals_in_their_order() {
    let start = Settings::start();
    let silent = Settings { ports: [Port { protocol: 3, ..start.ports[0] }, start.ports[1]], ..start };
    let of_no_line = Refusal { number: 5, line: 0, field: 0 };
    let of_line = |number, field| Refusal { number, line: 1, field };
    assert_eq!(refused(silent, 2, b"", 0), of_no_line);
    assert_eq!(refused(Settings { datum: 5, ..silent }, 0, b"", 0), of_no_line);
    assert_eq!(refused(silent, 0, b"", 0), of_line(10, 0));
    assert_eq!(refused(start, 0, b"", 0), of_line(1, 0));
    assert_eq!(refused(start, 0, b"$PIRTR,2,-0030*52\r\n", 0), of_line(2, 0));
    assert_eq!(refused(start, 0, b"$PIRXX,0*57\r\n", 0), of_line(3, 0));
    assert_eq!(refused(start, 0, b"$PIRTR,1*50\r\n", 0), of_line(4, 0));
    assert_eq!(refused(start, 0, b"$PIRTR,5,-0030*56\r\n", 0), of_line(5, 1));
    assert_eq!(refused(start, 0, b"$GPGSV,1,1,00*79\r\n", 0), of_line(9, 0));
    assert_eq!(refused(start, 0, SET_DATUM, 0), of_line(8, 0));
    assert!(silent.step(1, ASK_CODE, &mut [0; 82]).reply.is_ok());
}

#[test]
fn every_room() {
    for line in [ASK_PORT, SET_PORT_1, SET_DATUM, SET_MASKS, ASK_CODE] {
        let (reply, after) = done(Settings::start(), 0, line);
        for room in 0..reply.len() {
            assert_eq!(refused(Settings::start(), 0, line, room), Refusal { number: 8, line: 1, field: 0 });
        }
        for room in reply.len()..82 {
            let mut out = [0xAA; 82];
            let done = Settings::start().step(0, line, &mut out[..room]);
            assert_eq!((done.reply, done.settings), (Ok(reply.len()), after));
            assert!(out[..reply.len()] == reply[..] && out[reply.len()..].iter().all(|&b| b == 0xAA));
        }
    }
}

#[test]
fn counts_are_the_ones_of_the_masks() {
    let mut rng = Rng::new(31);
    for _ in 0..10_000 {
        let (gps, glonass) = (rng.below(1 << 32) as u32, rng.below(1 << 24) as u32);
        let counts = Settings { gps, glonass, ..Settings::start() }.counts();
        assert_eq!(counts, Ok(Counts { gps: gps.count_ones(), glonass: glonass.count_ones() }));
    }
}

#[test]
fn each_setting_out_of_range() {
    let outside = [
        (0, &[1199, 115_201, 0][..]),
        (1, &[5, -1]),
        (2, &[0x80, 0x1000, 0x8000, 0x1_0000]),
        (3, &[1199, 115_201]),
        (4, &[5]),
        (5, &[0x80, 0x1000]),
        (6, &[5]),
        (7, &[840, -840]),
        (8, &[-1, 0x1_0000_0000, i64::MAX, i64::MIN]),
        (9, &[0x100_0000, -1]),
        (10, &[256]),
    ];
    let of_no_line = Refusal { number: 5, line: 0, field: 0 };
    for (place, values) in outside {
        for &value in values {
            let mut wrong = Settings::start().numbers();
            wrong[place] = value;
            let before = wrong;
            assert_eq!(numbers::counts(&wrong), Err(of_no_line), "place {}, {}", place, value);
            assert_eq!(
                numbers::step(&mut wrong, 0, ASK_CODE, &mut [0; 82]),
                Err(of_no_line),
                "place {}, {}",
                place,
                value
            );
            assert_eq!(wrong, before);
        }
    }
}

#[test]
fn slices_of_settings_that_are_too_short() {
    let sound = Settings::start().numbers();
    for short in 0..SETTINGS {
        let of_no_line = Refusal { number: 5, line: 0, field: 0 };
        let mut some = sound;
        assert_eq!(numbers::counts(&sound[..short]), Err(of_no_line));
        assert_eq!(numbers::step(&mut some[..short], 0, SET_DATUM, &mut [0; 82]), Err(of_no_line));
        assert_eq!(some, sound);
        let mut some = [7; SETTINGS];
        assert_eq!(numbers::start(&mut some[..short]), Err(Refusal { number: 8, line: 0, field: 0 }));
        assert_eq!(some, [7; SETTINGS]);
    }
    let mut more = [7; SETTINGS + 1];
    numbers::start(&mut more).expect("more room than needed");
    assert_eq!((&more[..SETTINGS], more[SETTINGS]), (&sound[..], 7));
}
