//! The forms of single fields. Each takes a field that is not empty and gives `None` where it is wrong.

use super::records::Date;

fn number(s: &[u8]) -> Option<u32> {
    let mut n = 0;
    for &b in s {
        let d = b.wrapping_sub(b'0');
        if d > 9 {
            return None;
        }
        n = n * 10 + u32::from(d);
    }
    Some(n)
}

/// Exactly `width` digits, from `low` to `high`.
pub fn digits(s: &[u8], width: usize, low: u32, high: u32) -> Option<u32> {
    if s.len() != width {
        return None;
    }
    number(s).filter(|n| (low..=high).contains(n))
}

fn hex(s: &[u8]) -> Option<u32> {
    let mut n = 0;
    for &b in s {
        let d = match b {
            b'0'..=b'9' => b - b'0',
            b'A'..=b'F' => b - b'A' + 10,
            _ => return None,
        };
        n = n << 4 | u32::from(d);
    }
    Some(n)
}

/// `hhmmss.ss` in hundredths of a second.
pub fn time(s: &[u8]) -> Option<u32> {
    if s.len() != 9 || s[6] != b'.' {
        return None;
    }
    let (h, m, sec, part) = (number(&s[..2])?, number(&s[2..4])?, number(&s[4..6])?, number(&s[7..])?);
    if h > 23 || m > 59 || sec > 59 {
        return None;
    }
    Some(((h * 60 + m) * 60 + sec) * 100 + part)
}

/// Degrees in `width` digits and minutes `mm.mmmm`, in ten-thousandths of a minute.
pub fn arc(s: &[u8], width: usize, most: u32) -> Option<i32> {
    if s.len() != width + 7 || s[width + 2] != b'.' {
        return None;
    }
    let (deg, min, part) = (number(&s[..width])?, number(&s[width..width + 2])?, number(&s[width + 3..])?);
    let arc = (deg * 60 + min) * 10_000 + part;
    if min > 59 || arc > most * 600_000 {
        return None;
    }
    Some(arc as i32)
}

/// 1 to 6 digits, and at most 3 after a point, in thousandths.
pub fn thousandths(s: &[u8]) -> Option<u32> {
    let (mut n, mut at) = (0, 0);
    while at < s.len() && at < 6 {
        let d = s[at].wrapping_sub(b'0');
        if d > 9 {
            break;
        }
        n = n * 10 + u32::from(d);
        at += 1;
    }
    if at == 0 {
        return None;
    }
    match s[at..] {
        [] => Some(n * 1000),
        [b'.', ref part @ ..] => {
            let scale = [0, 100, 10, 1].get(part.len()).filter(|&&k| k > 0)?;
            Some(n * 1000 + number(part)? * scale)
        }
        _ => None,
    }
}

pub fn below(s: &[u8], limit: u32) -> Option<u32> {
    thousandths(s).filter(|&n| n < limit)
}

/// The same with a minus allowed.
pub fn signed(s: &[u8]) -> Option<i32> {
    match s {
        [b'-', rest @ ..] => thousandths(rest).map(|n| -(n as i32)),
        _ => thousandths(s).map(|n| n as i32),
    }
}

/// One byte of those listed.
pub fn letter(s: &[u8], of: &[u8]) -> Option<u8> {
    match *s {
        [b] if of.contains(&b) => Some(b),
        _ => None,
    }
}

/// A date of the years 1980 to 2079.
pub fn real(day: u32, month: u32, year: u32) -> Option<Date> {
    let leap = year % 4 == 0 && (year % 100 != 0 || year % 400 == 0);
    let days = match month {
        2 if leap => 29,
        2 => 28,
        4 | 6 | 9 | 11 => 30,
        1..=12 => 31,
        _ => return None,
    };
    if !(1980..=2079).contains(&year) || day < 1 || day > days {
        return None;
    }
    Some(Date { day, month, year })
}

/// `ddmmyy`.
pub fn short_date(s: &[u8]) -> Option<Date> {
    if s.len() != 6 {
        return None;
    }
    let (day, month, year) = (number(&s[..2])?, number(&s[2..4])?, number(&s[4..])?);
    real(day, month, if year < 80 { 2000 + year } else { 1900 + year })
}

/// Whether there is a minus, and what stands after it.
pub fn minus(s: &[u8]) -> (bool, &[u8]) {
    match s {
        [b'-', rest @ ..] => (true, rest),
        _ => (false, s),
    }
}

/// Signed minutes of a zone; none where a minus stands before zero.
pub fn zone(minus: bool, hours: u32, minutes: u32) -> Option<i32> {
    let size = (hours * 60 + minutes) as i32;
    match (minus, size) {
        (true, 0) => None,
        (true, _) => Some(-size),
        (false, _) => Some(size),
    }
}

/// `hhmm` with a minus if negative.
pub fn short_zone(s: &[u8]) -> Option<i32> {
    let (minus, s) = minus(s);
    if s.len() != 4 {
        return None;
    }
    zone(minus, digits(&s[..2], 2, 0, 13)?, digits(&s[2..], 2, 0, 59)?)
}

/// 1200 to 115200 without leading zeros.
pub fn rate(s: &[u8]) -> Option<u32> {
    if !(4..=6).contains(&s.len()) || s[0] == b'0' {
        return None;
    }
    number(s).filter(|n| (1200..=115_200).contains(n))
}

/// Four hex digits, bits 7 and 12 to 15 zero.
pub fn port_mask(s: &[u8]) -> Option<u32> {
    if s.len() != 4 {
        return None;
    }
    hex(s).filter(|n| n & 0xf080 == 0)
}

/// A satellite mask of exactly `width` hex digits.
pub fn mask(s: &[u8], width: usize) -> Option<u32> {
    if s.len() != width {
        return None;
    }
    hex(s)
}

/// A satellite mask of 1 to `width` hex digits, or `-1` for all ones.
pub fn mask_asked(s: &[u8], width: usize) -> Option<u32> {
    if s == b"-1" {
        return Some(u32::MAX >> (32 - 4 * width));
    }
    if s.len() > width {
        return None;
    }
    hex(s)
}

/// 0 to 255 without needless zeros.
pub fn code(s: &[u8]) -> Option<u32> {
    if !(1..=3).contains(&s.len()) || s.len() > 1 && s[0] == b'0' {
        return None;
    }
    number(s).filter(|&n| n < 256)
}
