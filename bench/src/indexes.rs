//! Indexes written, read and searched: both sides over the same entries and bytes.

use crate::log::Random;
use bench::index;
use castanwel::numbers;
use std::cell::RefCell;

/// How many entries a row has.
pub const ENTRIES: usize = 1_000_000;

const FILL: u8 = 0xaa;
const STALE: u64 = 0xaaaa_aaaa_aaaa_aaaa;

/// Entries like those of a log, and what is made of them.
pub struct Index {
    entries: Vec<u64>,
    pub bytes: Vec<u8>,
    /// The first exhibit, one in the middle, the last, and one that is not there.
    asked: [u64; 4],
    room: RefCell<Vec<u8>>,
    places: RefCell<Vec<u64>>,
}

/// So many entries: lines of 7 to 82 bytes, one behind the other. One in fifty has noise before it, and one in fifty a number further on
/// than the next.
fn entries_of(r: &mut Random, count: usize) -> Vec<u64> {
    let (mut number, mut end, mut entries) = (0, 0, Vec::new());
    for _ in 0..count {
        number += if r.below(50) == 0 { 2 + r.below(4) } else { 1 };
        let offset = end + if r.below(50) == 0 { 1 + r.below(300) } else { 0 };
        let length = 7 + r.below(76);
        entries.extend([number, offset, length]);
        end = offset + length;
    }
    entries
}

pub fn of(seed: u64, count: usize) -> Index {
    let entries = entries_of(&mut Random::new(seed), count);
    let mut bytes = vec![FILL; 11 * count];
    let length = numbers::index_write(&entries, &mut bytes).expect("entries in order");
    bytes.truncate(length);
    let last = entries[3 * count - 3];
    let asked = [entries[0], entries[3 * (count / 2)], last, last + 1];
    let (room, places) = (RefCell::new(vec![FILL; length]), RefCell::new(vec![STALE; entries.len()]));
    Index { entries, bytes, asked, room, places }
}

fn told<T>(answer: Result<T, castanwel::Refusal>) -> Result<T, u8> {
    answer.map_err(|refusal| {
        assert_eq!((refusal.line, refusal.field), (0, 0));
        refusal.number
    })
}

#[inline(never)]
fn write_by_call(entries: &[u64], out: &mut [u8]) -> Result<usize, u8> {
    index::write(entries, out)
}

#[inline(never)]
fn read_by_call(bytes: &[u8], entries: &mut [u64]) -> Result<usize, u8> {
    index::read(bytes, entries)
}

#[inline(never)]
fn find_by_call(bytes: &[u8], number: u64) -> Result<(u64, u64), u8> {
    index::find(bytes, number)
}

impl Index {
    fn written(&self, write: impl Fn(&[u64], &mut [u8]) -> Result<usize, u8>) -> u64 {
        let mut room = self.room.borrow_mut();
        let length = write(&self.entries, &mut room).expect("there is room");
        length as u64 + u64::from(room[length / 2])
    }

    pub fn written_by_rattle(&self) -> u64 {
        self.written(|entries, out| told(numbers::index_write(entries, out)))
    }

    pub fn written_by_rust(&self) -> u64 {
        self.written(write_by_call)
    }

    fn read(&self, read: impl Fn(&[u8], &mut [u64]) -> Result<usize, u8>) -> u64 {
        let mut places = self.places.borrow_mut();
        let count = read(&self.bytes, &mut places).expect("there is room");
        count as u64 + places[3 * (count / 2)]
    }

    pub fn read_by_rattle(&self) -> u64 {
        self.read(|bytes, entries| told(numbers::index_read(bytes, entries)))
    }

    pub fn read_by_rust(&self) -> u64 {
        self.read(read_by_call)
    }

    fn found(&self, find: impl Fn(&[u8], u64) -> Result<(u64, u64), u8>) -> u64 {
        let place = |number| find(&self.bytes, number).map_or_else(u64::from, |(offset, length)| offset + length);
        self.asked.iter().map(|&number| place(number)).sum()
    }

    pub fn found_by_rattle(&self) -> u64 {
        self.found(|bytes, number| told(numbers::index_find(bytes, number)))
    }

    pub fn found_by_rust(&self) -> u64 {
        self.found(find_by_call)
    }
}

/// What each side gives of the entries in so much room; whether it is an index.
fn both_write(entries: &[u64], room: usize) -> bool {
    let (mut one, mut two) = (vec![FILL; room], vec![FILL; room]);
    let answer = told(numbers::index_write(entries, &mut one));
    assert_eq!((answer, &one), (write_by_call(entries, &mut two), &two), "entries {:?} in {}", entries, room);
    answer.is_ok()
}

/// What each side reads and finds in the bytes; whether they are an index.
fn both_read(bytes: &[u8], room: usize, asked: &[u64]) -> bool {
    let (mut one, mut two) = (vec![STALE; room], vec![STALE; room]);
    let answer = told(numbers::index_read(bytes, &mut one));
    assert!((answer, &one) == (read_by_call(bytes, &mut two), &two), "index of {} bytes read in {}", bytes.len(), room);
    for &number in asked {
        assert_eq!(told(numbers::index_find(bytes, number)), find_by_call(bytes, number), "exhibit {}", number);
    }
    answer.is_ok()
}

fn changed(r: &mut Random, bytes: &[u8]) -> Vec<u8> {
    let mut changed = bytes.to_vec();
    let at = r.below(bytes.len() as u64 + 1) as usize;
    match r.below(4) {
        0 => changed.truncate(at),
        1 => changed.insert(at, r.below(256) as u8),
        2 if at < bytes.len() => changed[at] ^= 1 << r.below(8),
        _ if at < bytes.len() => changed[at] = [0, 6, 7, 82, 83, 127, 128, 255][r.below(8) as usize],
        _ => {}
    }
    changed
}

/// Entries, most of them with a number of any size, or one about the end of 32 or of 64 bits, in the place of one of theirs.
fn some_entries(r: &mut Random) -> Vec<u64> {
    let count = r.below(12) as usize;
    let mut entries = entries_of(r, count);
    if count > 0 && r.below(4) > 0 {
        let at = r.below(entries.len() as u64) as usize;
        entries[at] = match r.below(4) {
            0 => (1 << 32) - r.below(90),
            1 => u64::MAX - r.below(90),
            _ => r.below(100) << r.below(58),
        };
    }
    if r.below(8) == 0 {
        entries.push(r.below(100));
    }
    entries
}

/// Both sides say the same of entries and of bytes, sound and damaged, in any room, and of the index of a row.
pub fn agree(whole: &Index) {
    let (mut r, mut sound, mut refused) = (Random::new(5), 0, 0);
    for _ in 0..20_000 {
        let entries = some_entries(&mut r);
        let room = r.below(40) as usize;
        let mut note = |is_sound: bool| if is_sound { sound += 1 } else { refused += 1 };
        note(both_write(&entries, room));
        note(both_write(&entries, 200));
        let mut bytes = vec![0; 200];
        let length = numbers::index_write(&entries, &mut bytes).unwrap_or(0);
        let asked = [0, 1, 5, entries.first().map_or(9, |&number| number), u64::MAX];
        for bytes in [bytes[..length].to_vec(), changed(&mut r, &bytes[..length])] {
            note(both_read(&bytes, room, &asked));
            note(both_read(&bytes, 100, &asked));
        }
    }
    assert!(sound > 10_000 && refused > 10_000, "{} sound, {} refused", sound, refused);
    assert!(both_write(&whole.entries, whole.bytes.len()) && both_read(&whole.bytes, whole.entries.len(), &whole.asked));
    assert!(!both_write(&whole.entries, whole.bytes.len() - 1) && !both_read(&whole.bytes, whole.entries.len() - 1, &[]));
    assert!(!both_read(&whole.bytes[..whole.bytes.len() - 1], whole.entries.len(), &whole.asked));
    println!("same indexes: {} sound, {} refused, and one of {} bytes", sound, refused, whole.bytes.len());
}
