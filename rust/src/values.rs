//! The values of the records, each with its unit.

use crate::walk::{in_order, Blank, Cursor, Walk};

/// How many thousandths a whole one has.
const THOUSAND: f64 = 1000.0;

/// How many ten-thousandths of a minute of arc a degree has.
const OF_A_DEGREE: f64 = 600_000.0;

/// Declares a unit: a struct around one number.
macro_rules! unit {
    ($(#[$about:meta])* $name:ident($held:ty)) => {
        $(#[$about])*
        #[derive(Clone, Copy, Debug, PartialEq, Eq, PartialOrd, Ord, Hash)]
        pub struct $name(pub $held);

        impl Blank for $name {
            fn blank() -> Self {
                $name(0)
            }
        }

        impl Walk for $name {
            fn walk<C: Cursor>(&mut self, c: &mut C) {
                self.0.walk(c);
            }
        }
    };
}

unit! {
    /// A time of day in hundredths of a second.
    #[derive(Default)]
    Time(u32)
}

unit! {
    /// A number in thousandths: a dilution of precision, a course in degrees, an age in seconds.
    #[derive(Default)]
    Number(u32)
}

unit! {
    /// A number with a sign in thousandths: a height in metres, or a magnetic variation in degrees, east positive.
    #[derive(Default)]
    Signed(i32)
}

unit! {
    /// A speed in thousandths of a knot.
    #[derive(Default)]
    Knots(u32)
}

unit! {
    /// A speed in thousandths of a km/h. It is kept apart from knots, and neither is made of the other.
    #[derive(Default)]
    Kmh(u32)
}

unit! {
    /// The letter of a status: A or V.
    Status(u8)
}

unit! {
    /// The letter of a mode: A, D, E, M, S or N.
    Mode(u8)
}

unit! {
    /// The letter of GSA's selection: M or A.
    Selection(u8)
}

in_order! {
    /// A position in signed ten-thousandths of a minute of arc, south and west negative.
    #[derive(Clone, Copy, Debug, Default, PartialEq, Eq, Hash)]
    pub struct Place {
        /// Latitude, at most 90 degrees to either side: 54000000.
        pub lat: i32,
        /// Longitude, at most 180 degrees to either side: 108000000.
        pub lon: i32,
    }
}

in_order! {
    /// A date of the years 1980 to 2079.
    #[derive(Clone, Copy, Debug, PartialEq, Eq, Hash)]
    pub struct Date {
        /// From 1.
        pub day: u32,
        /// From 1.
        pub month: u32,
        /// All four digits.
        pub year: u32,
    }
}

in_order! {
    /// A time zone.
    #[derive(Clone, Copy, Debug, Default, PartialEq, Eq, Hash)]
    pub struct Zone {
        /// Signed minutes, at most 13 hours and 59 minutes to either side: 839.
        pub minutes: i32,
    }
}

impl Time {
    /// The whole hours, 0 to 23.
    ///
    /// ```
    /// assert_eq!(castanwel::Time(8_639_999).hours(), 23);
    /// ```
    #[must_use]
    pub fn hours(self) -> u32 {
        self.0 / 360_000
    }

    /// The minutes of the hour, 0 to 59.
    ///
    /// ```
    /// assert_eq!(castanwel::Time(2_830_000).minutes(), 51);
    /// ```
    #[must_use]
    pub fn minutes(self) -> u32 {
        self.0 / 6_000 % 60
    }

    /// The whole seconds of the minute, 0 to 59.
    ///
    /// ```
    /// assert_eq!(castanwel::Time(2_830_000).seconds(), 40);
    /// ```
    #[must_use]
    pub fn seconds(self) -> u32 {
        self.0 / 100 % 60
    }

    /// The hundredths of the second, 0 to 99.
    ///
    /// ```
    /// assert_eq!(castanwel::Time(8_639_999).hundredths(), 99);
    /// ```
    #[must_use]
    pub fn hundredths(self) -> u32 {
        self.0 % 100
    }
}

impl Number {
    /// The number itself, as the nearest floating-point number.
    ///
    /// ```
    /// assert_eq!(castanwel::Number(359_999).value(), 359.999);
    /// ```
    #[must_use]
    pub fn value(self) -> f64 {
        f64::from(self.0) / THOUSAND
    }
}

impl Signed {
    /// The number itself, metres or degrees, as the nearest floating-point number.
    ///
    /// ```
    /// assert_eq!(castanwel::Signed(-12_500).value(), -12.5);
    /// ```
    #[must_use]
    pub fn value(self) -> f64 {
        f64::from(self.0) / THOUSAND
    }
}

impl Knots {
    /// The speed in knots, as the nearest floating-point number.
    ///
    /// ```
    /// assert_eq!(castanwel::Knots(4_500).value(), 4.5);
    /// ```
    #[must_use]
    pub fn value(self) -> f64 {
        f64::from(self.0) / THOUSAND
    }
}

impl Kmh {
    /// The speed in km/h, as the nearest floating-point number.
    ///
    /// ```
    /// assert_eq!(castanwel::Kmh(8_334).value(), 8.334);
    /// ```
    #[must_use]
    pub fn value(self) -> f64 {
        f64::from(self.0) / THOUSAND
    }
}

impl Place {
    /// The latitude in degrees, south negative, as the nearest floating-point number. The exact one is `lat`.
    ///
    /// ```
    /// assert_eq!(castanwel::Place { lat: -53_700_000, lon: 0 }.latitude_degrees(), -89.5);
    /// ```
    #[must_use]
    pub fn latitude_degrees(self) -> f64 {
        f64::from(self.lat) / OF_A_DEGREE
    }

    /// The longitude in degrees, west negative, as the nearest floating-point number. The exact one is `lon`.
    ///
    /// ```
    /// assert_eq!(castanwel::Place { lat: 0, lon: 22_350_000 }.longitude_degrees(), 37.25);
    /// ```
    #[must_use]
    pub fn longitude_degrees(self) -> f64 {
        f64::from(self.lon) / OF_A_DEGREE
    }
}

impl Zone {
    /// Whether the zone has a minus. The whole hours do not tell: those of minus 30 minutes are 0.
    ///
    /// ```
    /// assert!(castanwel::Zone { minutes: -30 }.is_negative());
    /// ```
    #[must_use]
    pub fn is_negative(self) -> bool {
        self.minutes < 0
    }

    /// The whole hours, -13 to 13, towards zero.
    ///
    /// ```
    /// assert_eq!(castanwel::Zone { minutes: -330 }.hours(), -5);
    /// assert_eq!(castanwel::Zone { minutes: -30 }.hours(), 0);
    /// ```
    #[must_use]
    pub fn hours(self) -> i32 {
        self.minutes / 60
    }

    /// The minutes past the whole hours, -59 to 59, with the sign of the zone: 60 times the hours and these are all its minutes.
    ///
    /// ```
    /// assert_eq!(castanwel::Zone { minutes: -330 }.minutes_past_hour(), -30);
    /// assert_eq!(castanwel::Zone { minutes: -30 }.minutes_past_hour(), -30);
    /// ```
    #[must_use]
    pub fn minutes_past_hour(self) -> i32 {
        self.minutes % 60
    }
}
