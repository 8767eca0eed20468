//! The parts of times and zones, and floating-point numbers beside the exact ones: at the edges and on many values.

mod common;

use castanwel::{read, Kmh, Knots, Number, Place, Sentence, Signed, Time, Zone};
use common::Rng;

/// The number that a text says, rounded to the nearest.
fn said(text: &str) -> f64 {
    text.parse().expect("a number")
}

#[test]
fn the_parts_of_a_time() {
    let parts = |time: Time| (time.hours(), time.minutes(), time.seconds(), time.hundredths());
    assert_eq!(parts(Time(0)), (0, 0, 0, 0));
    assert_eq!(parts(Time(99)), (0, 0, 0, 99));
    assert_eq!(parts(Time(5_999)), (0, 0, 59, 99));
    assert_eq!(parts(Time(6_000)), (0, 1, 0, 0));
    assert_eq!(parts(Time(359_999)), (0, 59, 59, 99));
    assert_eq!(parts(Time(360_000)), (1, 0, 0, 0));
    assert_eq!(parts(Time(8_639_999)), (23, 59, 59, 99));
    let sum = |(h, m, s, c): (u32, u32, u32, u32)| ((h * 60 + m) * 60 + s) * 100 + c;
    let mut rng = Rng::new(61);
    for _ in 0..100_000 {
        let time = Time(rng.below(8_640_000) as u32);
        assert_eq!(Time(sum(parts(time))), time);
    }
    assert_eq!(sum(parts(Time(u32::MAX))), u32::MAX);
}

#[test]
fn the_time_and_the_zone_of_a_line() {
    let zda = match read(b"$GPZDA,075140.00,15,11,2026,-00,30*4D\r\n") {
        Ok(Sentence::Zda(_, zda)) => zda,
        other => panic!("{:?}", other),
    };
    let (time, zone) = (zda.time.expect("a time"), zda.zone.expect("a zone"));
    assert_eq!((time.hours(), time.minutes(), time.seconds(), time.hundredths()), (7, 51, 40, 0));
    assert_eq!((zone.is_negative(), zone.hours(), zone.minutes_past_hour()), (true, 0, -30));
}

#[test]
fn the_parts_of_a_zone() {
    let parts =
        |minutes| (Zone { minutes }.is_negative(), Zone { minutes }.hours(), Zone { minutes }.minutes_past_hour());
    assert_eq!(parts(0), (false, 0, 0));
    assert_eq!(parts(1), (false, 0, 1));
    assert_eq!(parts(-1), (true, 0, -1));
    assert_eq!(parts(-59), (true, 0, -59));
    assert_eq!(parts(-60), (true, -1, 0));
    assert_eq!(parts(345), (false, 5, 45));
    assert_eq!(parts(839), (false, 13, 59));
    assert_eq!(parts(-839), (true, -13, -59));
    for minutes in (-839..=839).chain([i32::MIN, i32::MAX]) {
        let (is_negative, hours, past) = parts(minutes);
        assert_eq!(60 * hours + past, minutes);
        assert!(is_negative == (minutes < 0) && hours.signum() * past.signum() >= 0);
    }
}

#[test]
fn thousandths_are_the_nearest_number() {
    let mut rng = Rng::new(62);
    let some = (0..100_000).map(|_| rng.below(1_000_000_000) as u32);
    for n in [0, 1, 999, 1000, 1001, 359_999, 999_999_999, u32::MAX].into_iter().chain(some) {
        let text = format!("{}.{:03}", n / 1000, n % 1000);
        assert_eq!(Number(n).value(), said(&text));
        assert_eq!((Knots(n).value(), Kmh(n).value()), (said(&text), said(&text)));
        let signed = Signed((n % 1_000_000_000) as i32);
        let (text, minus) = (format!("{}.{:03}", signed.0 / 1000, signed.0 % 1000), Signed(-signed.0));
        assert_eq!((signed.value(), minus.value()), (said(&text), -said(&text)));
    }
    assert_eq!(Signed(i32::MIN).value(), -2_147_483.648);
    assert!(Signed(0).value().is_sign_positive());
}

#[test]
fn degrees_at_the_edges() {
    let degrees = |lat, lon| {
        let place = Place { lat, lon };
        (place.latitude_degrees(), place.longitude_degrees())
    };
    assert_eq!(degrees(0, 0), (0.0, 0.0));
    assert_eq!(degrees(54_000_000, 108_000_000), (90.0, 180.0));
    assert_eq!(degrees(-54_000_000, -108_000_000), (-90.0, -180.0));
    assert_eq!(degrees(1, -1), (1.0 / 600_000.0, -1.0 / 600_000.0));
    assert_eq!(degrees(33_506_111, -22_522_534), (33_506_111.0 / 600_000.0, -22_522_534.0 / 600_000.0));
}

#[test]
fn degrees_go_back_to_the_exact_value() {
    let mut rng = Rng::new(63);
    for _ in 0..100_000 {
        let lat = rng.below(108_000_001) as i32 - 54_000_000;
        let lon = rng.below(216_000_001) as i32 - 108_000_000;
        let place = Place { lat, lon };
        assert_eq!((place.latitude_degrees() * 600_000.0).round() as i32, lat);
        assert_eq!((place.longitude_degrees() * 600_000.0).round() as i32, lon);
    }
}
