//! The words of a row: numbers, talkers, and bytes in hex digits.

use castanwel::Talker;

/// The most bytes of a line, a group or an index that a row has.
pub const MOST: usize = 32768;

/// A whole number of a row, and whether a minus stands before it; the nearest of 64 bits where it is past them.
#[derive(Clone, Copy, Debug, PartialEq, Eq)]
pub struct Number {
    minus: bool,
    pub value: i64,
}

impl Number {
    /// The number of a word, digits with or without a minus before them.
    pub fn of(word: &[u8]) -> Option<Number> {
        let (minus, digits) = match word.split_first() {
            Some((b'-', rest)) => (true, rest),
            _ => (false, word),
        };
        if digits.is_empty() || !digits.iter().all(u8::is_ascii_digit) {
            return None;
        }
        let longer = |size: i64, digit: &u8| size.saturating_mul(10).saturating_add(i64::from(digit - b'0'));
        let size = digits.iter().fold(0, longer);
        Some(Number { minus, value: if minus { -size } else { size } })
    }

    /// The number as one of 32 bits without a sign; 4294967295 where it is none.
    pub fn plain(self) -> u32 {
        u32::try_from(self.value).unwrap_or(u32::MAX)
    }

    /// The room that the number gives, `most` where it is more; a room has no minus.
    pub fn room(self, most: usize) -> Option<usize> {
        if self.minus {
            return None;
        }
        Some(usize::try_from(self.value).map_or(most, |room| most.min(room)))
    }
}

/// The numbers of some words with a blank between each two.
pub fn numbers(words: &[u8]) -> Option<Vec<Number>> {
    words.split(|&b| b == b' ').map(Number::of).collect()
}

/// So many numbers of a row, as they stand.
pub fn values(numbers: &[Number], count: usize) -> Option<Vec<i64>> {
    if numbers.len() != count {
        return None;
    }
    Some(numbers.iter().map(|number| number.value).collect())
}

/// A blank and the text of each number.
pub fn text_of(numbers: &[i64]) -> String {
    numbers.iter().map(|number| format!(" {}", number)).collect()
}

/// The talker of two letters.
pub fn talker(letters: &[u8]) -> Option<Talker> {
    Talker::ALL.iter().copied().find(|talker| talker.word().as_bytes() == letters)
}

/// The whole numbers of 64 bits of some words, digits alone.
pub fn wide_numbers(words: &[&[u8]]) -> Option<Vec<u64>> {
    words.iter().map(|word| wide_number(word)).collect()
}

/// The whole number of 64 bits of a word, digits alone.
pub fn wide_number(word: &[u8]) -> Option<u64> {
    if !word.iter().all(u8::is_ascii_digit) {
        return None;
    }
    std::str::from_utf8(word).ok()?.parse().ok()
}

/// The bytes of a word that is `-` where there are none, at most so many.
pub fn bytes_or_none(word: &[u8], most: usize) -> Option<Vec<u8>> {
    match word {
        b"-" => Some(Vec::new()),
        b"" => None,
        digits => bytes(digits, most),
    }
}

/// The bytes of hex digits, at most so many.
pub fn bytes(digits: &[u8], most: usize) -> Option<Vec<u8>> {
    if digits.len() % 2 != 0 || digits.len() / 2 > most {
        return None;
    }
    let digit = |b: u8| char::from(b).to_digit(16);
    digits.chunks(2).map(|pair| Some((digit(pair[0])? * 16 + digit(pair[1])?) as u8)).collect()
}

/// Bytes as hex digits; `-` where there are none.
pub fn hex(bytes: &[u8]) -> String {
    if bytes.is_empty() {
        return "-".to_owned();
    }
    bytes.iter().map(|byte| format!("{:02x}", byte)).collect()
}
