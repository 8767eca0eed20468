//! The index written, read, added to and searched, against the same rules written plainly.

mod common;

use castanwel::numbers::{self, ENTRY, ENTRY_BYTES};
use castanwel::{Exhibit, Index, Refusal};
use common::Rng;

const MOST: u64 = 4_294_967_295;
const STALE: u64 = 0xAAAA_AAAA_AAAA_AAAA;
const FILL: u8 = 0xAA;

fn of(number: u8) -> Refusal {
    Refusal { number, line: 0, field: 0 }
}

/// A number in groups of seven bits, by its remainders.
fn groups(value: u64) -> Vec<u8> {
    let mut bytes: Vec<u8> = (0..10).map(|i| (value / 128u64.pow(i) % 128) as u8).collect();
    let last = bytes.iter().rposition(|&group| group != 0).unwrap_or(0);
    bytes.truncate(last + 1);
    bytes[..last].iter_mut().for_each(|group| *group += 128);
    bytes
}

/// The bytes of entries in range and order.
fn plain_bytes(entries: &[Exhibit]) -> Option<Vec<u8>> {
    let (mut number, mut end, mut bytes) = (0, 0, Vec::new());
    for e in entries {
        let sum = u128::from(e.offset) + u128::from(e.length);
        if e.number <= number || e.number > MOST || sum > u128::from(MOST) {
            return None;
        }
        if e.offset < end || !(7..=82).contains(&e.length) {
            return None;
        }
        bytes.extend([e.number - number, e.offset - end, e.length].into_iter().flat_map(groups));
        number = e.number;
        end = e.offset + e.length;
    }
    Some(bytes)
}

/// The entries whose bytes these are: their numbers are sums of gaps, and nothing but their own bytes is taken for them.
fn plain_entries(bytes: &[u8]) -> Option<Vec<Exhibit>> {
    let (mut number, mut end, mut entries) = (0, 0, Vec::new());
    let pieces: Vec<&[u8]> = bytes.split_inclusive(|&b| b < 128).collect();
    if pieces.iter().any(|piece| piece.len() > 5) {
        return None;
    }
    let value = |piece: &[u8]| piece.iter().rev().fold(0, |sum, &b| sum * 128 + u64::from(b % 128));
    for entry in pieces.chunks(ENTRY) {
        number += value(entry[0]);
        let offset = end + value(entry.get(1)?);
        let length = value(entry.get(2)?);
        entries.push(Exhibit { number, offset, length });
        end = offset + length;
    }
    if plain_bytes(&entries)? == bytes {
        Some(entries)
    } else {
        None
    }
}

fn numbers_of(entries: &[Exhibit]) -> Vec<u64> {
    entries.iter().flat_map(|e| [e.number, e.offset, e.length]).collect()
}

/// A gap: small, about the end of a group of bits, or now and then any.
fn gap(rng: &mut Rng, least: u64, most: u64) -> u64 {
    let ends = [least, least, least, 1, 2, 126, 127, 128, 129, 300, 16_383, 16_384, 2_097_151, 2_097_152];
    let any = rng.below(MOST as usize) as u64;
    let chosen = if rng.below(50) == 0 { any } else { rng.of(&ends) };
    chosen.max(least).min(most)
}

/// So many entries in range and order.
fn some_entries(rng: &mut Rng, count: u64) -> Vec<Exhibit> {
    let (mut number, mut end, mut entries) = (0, 0, Vec::new());
    for left in (0..count).rev() {
        number += gap(rng, 1, MOST - number - left);
        let offset = end + gap(rng, 0, MOST - end - 82 * (left + 1));
        let any = 7 + rng.below(76) as u64;
        let length = rng.of(&[7, 18, 82, any]);
        entries.push(Exhibit { number, offset, length });
        end = offset + length;
    }
    entries
}

/// What reading gives in so much room, once all that had to stay is seen to have stayed.
fn read(bytes: &[u8], room: usize) -> Result<Vec<u64>, Refusal> {
    let mut lent = vec![STALE; room];
    let answer = numbers::index_read(bytes, &mut lent).map(|count| ENTRY * count);
    let (set, left) = lent.split_at(answer.unwrap_or(0));
    assert!(left.iter().all(|&number| number == STALE), "{:?}", bytes);
    answer.map(|_| set.to_vec())
}

/// What writing gives in so much room, once all that had to stay is seen to have stayed.
fn write(entries: &[u64], room: usize) -> Result<Vec<u8>, Refusal> {
    let mut lent = vec![FILL; room];
    let answer = numbers::index_write(entries, &mut lent);
    let (set, left) = lent.split_at(answer.unwrap_or(0));
    assert!(left.iter().all(|&byte| byte == FILL), "{:?}", entries);
    answer.map(|_| set.to_vec())
}

/// What adding gives in so much room beyond the index, once all that had to stay is seen to have stayed.
fn add(bytes: &[u8], room: usize, e: Exhibit) -> Result<Vec<u8>, Refusal> {
    let mut lent = [bytes, &vec![FILL; room]].concat();
    let before = lent.clone();
    let answer = numbers::index_add(&mut lent, bytes.len(), e.number, e.offset, e.length);
    let after = answer.unwrap_or(0);
    assert_eq!(lent[after..], before[after..], "{:?} {:?}", bytes, e);
    answer.map(|after| lent[..after].to_vec())
}

#[test]
fn what_is_written_reads_back() {
    let (mut rng, mut met) = (Rng::new(61), [0; 6]);
    for turn in 0..3000 {
        let entries = some_entries(&mut rng, turn % 60);
        let bytes = plain_bytes(&entries).expect("entries in range and order");
        let index = Index::from_entries(&entries).expect("entries in range and order");
        assert_eq!((index.bytes(), index.entries()), (&bytes[..], &entries[..]), "turn {}", turn);
        assert_eq!(Index::from_bytes(bytes.clone()), Ok(index), "turn {}", turn);
        bytes.split_inclusive(|&b| b < 128).for_each(|piece| met[piece.len()] += 1);
    }
    assert!(met[0] == 0 && met[1..].iter().all(|&times| times > 300), "numbers of each length: {:?}", met);
}

#[test]
fn the_longest_entry() {
    let entry = Exhibit { number: MOST, offset: MOST - 82, length: 82 };
    let index = Index::from_entries(&[entry]).expect("an entry at the end of the range");
    assert_eq!(index.bytes(), [255, 255, 255, 255, 15, 173, 255, 255, 255, 15, 82]);
    assert_eq!(index.bytes().len(), ENTRY_BYTES);
}

#[test]
fn every_room() {
    let mut rng = Rng::new(62);
    for count in [0, 1, 2, 3, 20] {
        let entries = some_entries(&mut rng, count);
        let (given, bytes) = (numbers_of(&entries), plain_bytes(&entries).expect("entries in range and order"));
        for room in 0..bytes.len() + 20 {
            let expected = if room < bytes.len() { Err(of(8)) } else { Ok(bytes.clone()) };
            assert_eq!(write(&given, room), expected);
        }
        for room in 0..given.len() + 20 {
            let expected = if room < given.len() { Err(of(8)) } else { Ok(given.clone()) };
            assert_eq!(read(&bytes, room), expected);
        }
    }
}

/// Sees that each proved function takes the bytes for what they are; gives whether they are an index.
fn is_index(bytes: &[u8]) -> bool {
    let entries = plain_entries(bytes);
    let expected = entries.as_deref().map(numbers_of).ok_or(of(11));
    assert_eq!(read(bytes, bytes.len()), expected, "{:?}", bytes);
    let last = entries.as_deref().unwrap_or(&[]).last().copied();
    let place = last.map(|e| (e.offset, e.length)).ok_or(of(if entries.is_some() { 12 } else { 11 }));
    assert_eq!(numbers::index_find(bytes, last.map_or(1, |e| e.number)), place, "{:?}", bytes);
    if entries.is_none() {
        assert_eq!(read(bytes, 0), expected, "{:?}", bytes);
        assert!([0, 7, MOST, u64::MAX].iter().all(|&number| numbers::index_find(bytes, number) == Err(of(11))));
    }
    let nowhere = Exhibit { number: 0, offset: 0, length: 0 };
    assert_eq!(add(bytes, 0, nowhere), Err(of(if entries.is_some() { 5 } else { 11 })), "{:?}", bytes);
    entries.is_some()
}

#[test]
fn every_change_of_one_byte() {
    let (mut rng, mut met) = (Rng::new(63), [0; 2]);
    for turn in 0..20 {
        let sound = plain_bytes(&some_entries(&mut rng, turn % 5)).expect("entries in range and order");
        assert!(is_index(&sound));
        for at in 0..=sound.len() {
            met[usize::from(is_index(&sound[..at]))] += 1;
            for byte in 0..=255 {
                let mut longer = sound.clone();
                longer.insert(at, byte);
                met[usize::from(is_index(&longer))] += 1;
                longer.splice(at..(at + 2).min(longer.len()), [byte]);
                met[usize::from(is_index(&longer))] += 1;
            }
            let without = [&sound[..at], sound.get(at + 1..).unwrap_or(&[])].concat();
            met[usize::from(is_index(&without))] += 1;
        }
    }
    assert!(met.iter().all(|&times| times > 10_000), "{:?}", met);
}

#[test]
fn all_short_bytes_at_the_edges() {
    const EDGES: [u8; 12] = [0, 1, 2, 6, 7, 82, 83, 127, 128, 129, 130, 255];
    let (mut few, mut met) = (vec![Vec::new()], 0);
    for _ in 0..4 {
        few = few.iter().flat_map(|bytes| EDGES.map(|edge| [&bytes[..], &[edge]].concat())).collect();
        met += few.iter().filter(|bytes| is_index(bytes)).count();
    }
    assert!(is_index(&[]));
    assert!(met > 100 && few.len() == 20_736, "{}", met);
    for more in 0..12 {
        assert_eq!(is_index(&[&[1][..], &vec![128; more], &[0, 7]].concat()), more == 0);
    }
}

#[test]
fn entries_out_of_range_or_order() {
    let (mut rng, mut met) = (Rng::new(64), [0; 2]);
    for turn in 0..20_000 {
        let mut entries = some_entries(&mut rng, 1 + turn % 6);
        let (at, beside) = (rng.below(entries.len()), rng.below(entries.len()));
        let (other, near) = (entries[beside], rng.below(3) as u64);
        let past = other.offset + other.length + near;
        let values =
            [0, 6, 7, 82, 83, MOST - 82, MOST, MOST + 1, u64::MAX, u64::MAX - 82, other.number + near, past - 1];
        match rng.below(3) {
            0 => entries[at].number = rng.of(&values),
            1 => entries[at].offset = rng.of(&values),
            _ => entries[at].length = rng.of(&values),
        }
        let expected = plain_bytes(&entries).ok_or(of(5));
        met[usize::from(expected.is_ok())] += 1;
        assert_eq!(write(&numbers_of(&entries), 100), expected, "{:?}", entries);
        assert_eq!(Index::from_entries(&entries).map(|index| index.bytes().to_vec()), expected, "{:?}", entries);
        if expected.is_err() {
            assert_eq!(write(&numbers_of(&entries), 0), expected, "{:?}", entries);
        }
    }
    assert!(met.iter().all(|&times| times > 1000), "{:?}", met);
    for few in [&[2][..], &[2, 0], &[2, 0, 7, 3], &[2, 0, 7, 3, 7]] {
        assert_eq!(write(few, 100), Err(of(5)));
    }
}

#[test]
fn adding_is_writing_the_longer_list() {
    let mut rng = Rng::new(65);
    for _ in 0..100 {
        let entries = some_entries(&mut rng, 12);
        let mut index = Index::new();
        for (count, &entry) in entries.iter().enumerate() {
            let before = index.clone();
            let longer = plain_bytes(&entries[..=count]).expect("entries in range and order");
            let needed = longer.len() - before.bytes().len();
            for room in 0..needed + 3 {
                let expected = if room < needed { Err(of(8)) } else { Ok(longer.clone()) };
                assert_eq!(add(before.bytes(), room, entry), expected);
            }
            assert_eq!(index.add(entry), Ok(()));
            assert_eq!((index.bytes(), index.entries()), (&longer[..], &entries[..=count]));
            assert_eq!(index.add(entry), Err(of(5)));
            assert_eq!((index.bytes(), index.entries()), (&longer[..], &entries[..=count]));
        }
    }
}

#[test]
fn adding_what_does_not_fit() {
    let index = Index::from_entries(&[Exhibit { number: 9, offset: 100, length: 20 }]).expect("a sound entry");
    let sound = Exhibit { number: 10, offset: 120, length: 7 };
    for wrong in [
        Exhibit { number: 9, ..sound },
        Exhibit { number: 2, ..sound },
        Exhibit { number: MOST + 1, ..sound },
        Exhibit { offset: 119, ..sound },
        Exhibit { offset: MOST - 6, ..sound },
        Exhibit { offset: u64::MAX, ..sound },
        Exhibit { length: 6, ..sound },
        Exhibit { length: 83, ..sound },
        Exhibit { length: u64::MAX, ..sound },
    ] {
        let mut changed = index.clone();
        assert_eq!((changed.add(wrong), &changed), (Err(of(5)), &index), "{:?}", wrong);
        assert_eq!(add(index.bytes(), 0, wrong), Err(of(5)), "{:?}", wrong);
    }
    assert_eq!(add(index.bytes(), 2, sound), Err(of(8)));
    assert_eq!(add(&[128, 0], 0, sound), Err(of(11)));
    let mut lent = [FILL; 4];
    for used in [5, 100, usize::MAX] {
        assert_eq!((numbers::index_add(&mut lent, used, 10, 120, 7), lent), (Err(of(11)), [FILL; 4]));
    }
}

#[test]
fn found_as_by_a_search_in_turn() {
    let (mut rng, mut met) = (Rng::new(66), [0; 2]);
    for turn in 0..200 {
        let index = Index::from_entries(&some_entries(&mut rng, turn)).expect("entries in range and order");
        let near = index.entries().iter().flat_map(|e| [e.number - 1, e.number, e.number + 1]);
        for number in near.chain([0, 1, MOST, MOST + 1, u64::MAX]) {
            let expected = index.entries().iter().copied().find(|e| e.number == number).ok_or(of(12));
            assert_eq!(index.find(number), expected, "{} in turn {}", number, turn);
            let place = numbers::index_find(index.bytes(), number);
            assert_eq!(place, expected.map(|e| (e.offset, e.length)), "{} in turn {}", number, turn);
            met[usize::from(expected.is_ok())] += 1;
        }
    }
    assert!(met.iter().all(|&times| times > 5000), "{:?}", met);
}
