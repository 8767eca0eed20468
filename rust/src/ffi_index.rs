//! The proved functions of `crates/host` that keep an index, each with the one safe function that calls it, as in ffi.rs.

use crate::refusal::{refused, Refusal};

extern "C" {
    fn castanwel_index_write(
        entries: *const u64,
        entries_len: usize,
        out: *mut u8,
        out_len: usize,
        length: *mut usize,
        line: *mut usize,
        field: *mut usize,
    ) -> u8;
    fn castanwel_index_read(
        index: *const u8,
        index_len: usize,
        entries: *mut u64,
        entries_len: usize,
        count: *mut usize,
        line: *mut usize,
        field: *mut usize,
    ) -> u8;
    fn castanwel_index_add(
        index: *mut u8,
        index_len: usize,
        used: usize,
        number: u64,
        offset: u64,
        length: u64,
        after: *mut usize,
        line: *mut usize,
        field: *mut usize,
    ) -> u8;
    fn castanwel_index_find(
        index: *const u8,
        index_len: usize,
        number: u64,
        offset: *mut u64,
        length: *mut u64,
        line: *mut usize,
        field: *mut usize,
    ) -> u8;
}

/// Writes the index of entries, three numbers an entry: exhibit number, offset of the line, length of the line. Gives its length.
/// Refused with 5 where the numbers are not threes or an entry is out of range or order, then with 8.
///
/// ```
/// let mut out = [0; 22];
/// let length = castanwel::numbers::index_write(&[2, 300, 82, 10, 382, 18], &mut out).unwrap();
/// assert_eq!(out[..length], [2, 0xAC, 0x02, 82, 8, 0, 18]);
/// assert_eq!(castanwel::numbers::index_write(&[10, 382, 18, 2, 400, 82], &mut out).unwrap_err().number, 5);
/// ```
pub fn index_write(entries: &[u64], out: &mut [u8]) -> Result<usize, Refusal> {
    let (mut length, mut line, mut field) = (0, 0, 0);
    let (pointer, room) = (out.as_mut_ptr(), out.len());
    // SAFETY: pointer and length are of one slice that lives through the call; the places are this function's own.
    let number = unsafe {
        castanwel_index_write(entries.as_ptr(), entries.len(), pointer, room, &mut length, &mut line, &mut field)
    };
    refused(number, line, field)?;
    Ok(length)
}

/// Reads an index to its entries, three numbers an entry at the start of `entries`, and gives how many entries it has. Refused with
/// 11 where the bytes are no index, then with 8 where `entries` is shorter.
///
/// ```
/// let mut entries = [0; 7];
/// assert_eq!(castanwel::numbers::index_read(&[2, 0xAC, 0x02, 82, 8, 0, 18], &mut entries), Ok(2));
/// assert_eq!(entries, [2, 300, 82, 10, 382, 18, 0]);
/// assert_eq!(castanwel::numbers::index_read(&[0x80, 0x00], &mut entries).unwrap_err().number, 11);
/// ```
pub fn index_read(index: &[u8], entries: &mut [u64]) -> Result<usize, Refusal> {
    let (mut count, mut line, mut field) = (0, 0, 0);
    let (pointer, room) = (entries.as_mut_ptr(), entries.len());
    let number =
        // SAFETY: pointer and length are of one slice that lives through the call; the places are this function's own.
        unsafe { castanwel_index_read(index.as_ptr(), index.len(), pointer, room, &mut count, &mut line, &mut field) };
    refused(number, line, field)?;
    Ok(count)
}

/// Adds an entry behind the index that is the first `used` bytes of `index`, and gives the new index's length. Refused with 11 where
/// those bytes are no index or `used` is past the buffer, then with 5 where the entry does not fit behind the last, then with 8.
///
/// ```
/// let mut index = [2, 0xAC, 0x02, 82, 0, 0, 0];
/// assert_eq!(castanwel::numbers::index_add(&mut index, 4, 10, 382, 18), Ok(7));
/// assert_eq!(index, [2, 0xAC, 0x02, 82, 8, 0, 18]);
/// assert_eq!(castanwel::numbers::index_add(&mut index, 7, 10, 400, 18).unwrap_err().number, 5);
/// ```
pub fn index_add(index: &mut [u8], used: usize, number: u64, offset: u64, length: u64) -> Result<usize, Refusal> {
    let (mut after, mut line, mut field) = (0, 0, 0);
    let (pointer, room) = (index.as_mut_ptr(), index.len());
    let refusal =
        // SAFETY: pointer and length are of one slice that lives through the call; the places are this function's own.
        unsafe { castanwel_index_add(pointer, room, used, number, offset, length, &mut after, &mut line, &mut field) };
    refused(refusal, line, field)?;
    Ok(after)
}

/// Offset and length of the line of an exhibit. Refused with 11 where the bytes are no index, whatever the number is, then with 12
/// where no entry has it. The whole index is read: [`Index`](crate::Index) reads it once for many questions.
///
/// ```
/// let index = [2, 0xAC, 0x02, 82, 8, 0, 18];
/// assert_eq!(castanwel::numbers::index_find(&index, 10), Ok((382, 18)));
/// assert_eq!(castanwel::numbers::index_find(&index, 3).unwrap_err().number, 12);
/// ```
pub fn index_find(index: &[u8], number: u64) -> Result<(u64, u64), Refusal> {
    let (mut offset, mut length, mut line, mut field) = (0, 0, 0, 0);
    // SAFETY: pointer and length are of one slice that lives through the call; the places are this function's own.
    let refusal = unsafe {
        let (pointer, size) = (index.as_ptr(), index.len());
        castanwel_index_find(pointer, size, number, &mut offset, &mut length, &mut line, &mut field)
    };
    refused(refusal, line, field)?;
    Ok((offset, length))
}
