//! The index by exhibit number, written, read and searched: of the usual forms, those that ran quickest. Entries are numbers, three an
//! entry, and a refusal is its number; it leaves what is lent.

/// The highest exhibit number, and the highest end of a line.
const MOST: u64 = 0xffff_ffff;

fn is_length(length: u64) -> bool {
    length.wrapping_sub(7) <= 75
}

fn size(value: u64) -> usize {
    if value < 128 {
        return 1;
    }
    (70 - value.leading_zeros() as usize) / 7
}

/// How many bytes the entries take, where each is in range and order. Numbers and ends ascend, so that the last ones tell whether all are
/// low enough.
fn size_of(entries: &[u64]) -> Option<usize> {
    let (mut number, mut end, mut total) = (0, 0, 0);
    for e in entries.chunks_exact(3) {
        if e[0] <= number || e[1] < end || e[1] > MOST || !is_length(e[2]) {
            return None;
        }
        total += size(e[0] - number) + size(e[1] - end) + 1;
        number = e[0];
        end = e[1] + e[2];
    }
    if entries.len() % 3 != 0 || number > MOST || end > MOST {
        return None;
    }
    Some(total)
}

fn put(out: &mut [u8], at: usize, mut value: u64) -> usize {
    let mut at = at;
    while value >= 128 {
        out[at] = value as u8 | 128;
        at += 1;
        value >>= 7;
    }
    out[at] = value as u8;
    at + 1
}

/// Puts an entry's gap in number, its gap from the end before, and its length; gives the next place.
pub fn put_entry(out: &mut [u8], at: usize, gap: u64, skip: u64, length: u64) -> usize {
    if gap | skip < 128 {
        out[at..at + 3].copy_from_slice(&[gap as u8, skip as u8, length as u8]);
        return at + 3;
    }
    let at = put(out, at, gap);
    let at = put(out, at, skip);
    put(out, at, length)
}

/// Writes the index of the entries, and gives its length; refused with 5, then 8.
pub fn write(entries: &[u64], out: &mut [u8]) -> Result<usize, u8> {
    let total = size_of(entries).ok_or(5)?;
    let out = out.get_mut(..total).ok_or(8)?;
    let (mut number, mut end, mut at) = (0, 0, 0);
    for e in entries.chunks_exact(3) {
        at = put_entry(out, at, e[0] - number, e[1] - end, e[2]);
        number = e[0];
        end = e[1] + e[2];
    }
    Ok(total)
}

/// The number at a place, in its shortest form, and the next place.
fn take(s: &[u8], at: usize) -> Option<(u64, usize)> {
    let (mut value, mut shift) = (0, 0);
    for (i, &b) in s.get(at..)?.iter().take(5).enumerate() {
        value |= u64::from(b & 127) << shift;
        if b < 128 {
            let is_shortest = b > 0 || i == 0;
            return if is_shortest && value <= MOST { Some((value, at + i + 1)) } else { None };
        }
        shift += 7;
    }
    None
}

fn three_longer(s: &[u8]) -> Option<([u64; 3], &[u8])> {
    let (gap, at) = take(s, 0)?;
    let (skip, at) = take(s, at)?;
    let (length, at) = take(s, at)?;
    Some(([gap, skip, length], &s[at..]))
}

/// The three numbers at the start, and what follows.
#[inline(always)]
fn three(s: &[u8]) -> Option<([u64; 3], &[u8])> {
    match s {
        [a, b, c, rest @ ..] if (a | b | c) < 128 => Some(([*a, *b, *c].map(u64::from), rest)),
        _ => three_longer(s),
    }
}

/// How many entries an index has.
fn count(mut s: &[u8]) -> Option<usize> {
    let (mut number, mut end, mut n) = (0, 0, 0);
    while !s.is_empty() {
        let ([gap, skip, length], rest) = three(s)?;
        if gap == 0 || !is_length(length) {
            return None;
        }
        number += gap;
        end += skip + length;
        n += 1;
        s = rest;
    }
    if number > MOST || end > MOST {
        return None;
    }
    Some(n)
}

/// Reads an index to its entries, and gives how many they are; refused with 11, then 8.
pub fn read(index: &[u8], entries: &mut [u64]) -> Result<usize, u8> {
    let n = count(index).ok_or(11)?;
    let entries = entries.get_mut(..3 * n).ok_or(8)?;
    let (mut s, mut number, mut end) = (index, 0, 0);
    for e in entries.chunks_exact_mut(3) {
        if let Some(([gap, skip, length], rest)) = three(s) {
            number += gap;
            e[0] = number;
            e[1] = end + skip;
            e[2] = length;
            end += skip + length;
            s = rest;
        }
    }
    Ok(n)
}

/// Offset and length of an exhibit; refused with 11, then 12.
pub fn find(mut s: &[u8], wanted: u64) -> Result<(u64, u64), u8> {
    let (mut number, mut end, mut found) = (0, 0, None);
    while !s.is_empty() {
        let ([gap, skip, length], rest) = three(s).ok_or(11)?;
        if gap == 0 || !is_length(length) {
            return Err(11);
        }
        number += gap;
        if number == wanted {
            found = Some((end + skip, length));
        }
        end += skip + length;
        s = rest;
    }
    if number > MOST || end > MOST {
        return Err(11);
    }
    found.ok_or(12)
}
