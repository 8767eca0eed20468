//! The proved functions of `crates/host`, each with the one safe function that calls it; those of the index are in ffi_index.rs. A slice is
//! passed as a pointer and a length, a `&mut` of a number as a pointer. No compiler checks these declarations against the Rattle source:
//! tests/test_header.py does.

use crate::refusal::{group_refused, refused, GroupRefusal, Refusal};

extern "C" {
    fn castanwel_line_refusal(line: *const u8, line_len: usize) -> u8;
    fn castanwel_next_line(s: *const u8, s_len: usize, at: usize, start: *mut usize, end: *mut usize) -> bool;
    fn castanwel_feed(held: usize, b: u8, line: *mut usize) -> usize;
    fn castanwel_places(body: *const u8, body_len: usize, ends: *mut usize, ends_len: usize) -> usize;
    fn castanwel_field(
        line: *const u8,
        line_len: usize,
        n: usize,
        start: *mut usize,
        end: *mut usize,
        at_line: *mut usize,
        field: *mut usize,
    ) -> u8;
    fn castanwel_refusal(line: *const u8, line_len: usize, at_line: *mut usize, field: *mut usize) -> u8;
    fn castanwel_read(
        line: *const u8,
        line_len: usize,
        numbers: *mut i64,
        numbers_len: usize,
        kind: *mut u32,
        at_line: *mut usize,
        field: *mut usize,
    ) -> u8;
    fn castanwel_write(
        kind: u32,
        numbers: *const i64,
        numbers_len: usize,
        out: *mut u8,
        out_len: usize,
        length: *mut usize,
        line: *mut usize,
        field: *mut usize,
    ) -> u8;
    fn castanwel_read_group(
        s: *const u8,
        s_len: usize,
        numbers: *mut i64,
        numbers_len: usize,
        line: *mut usize,
        field: *mut usize,
    ) -> u8;
    fn castanwel_write_group(
        numbers: *const i64,
        numbers_len: usize,
        out: *mut u8,
        out_len: usize,
        length: *mut usize,
        line: *mut usize,
        field: *mut usize,
    ) -> u8;
    fn castanwel_start(settings: *mut i64, settings_len: usize, line: *mut usize, field: *mut usize) -> u8;
    fn castanwel_step(
        settings: *mut i64,
        settings_len: usize,
        arrival: u32,
        line: *const u8,
        line_len: usize,
        out: *mut u8,
        out_len: usize,
        length: *mut usize,
        at_line: *mut usize,
        field: *mut usize,
    ) -> u8;
    fn castanwel_counts(
        settings: *const i64,
        settings_len: usize,
        gps: *mut u32,
        glonass: *mut u32,
        line: *mut usize,
        field: *mut usize,
    ) -> u8;
}

/// What the line rule says of `line`: nothing where it is a line, refusal 1 where the rule fails, 2 where the two digits differ.
///
/// ```
/// assert_eq!(castanwel::line_refusal(b"$GPGSV,1,1,00*79\r\n"), None);
/// assert_eq!(castanwel::line_refusal(b"$GPGSV,1,1,00*78\r\n").unwrap().number, 2);
/// ```
#[must_use]
pub fn line_refusal(line: &[u8]) -> Option<Refusal> {
    // SAFETY: pointer and length are of one slice that lives through the call; the places are this function's own.
    let number = unsafe { castanwel_line_refusal(line.as_ptr(), line.len()) };
    refused(number, 1, 0).err()
}

/// Whether `s` has a line from `at` on, and two places. The first line lies between them. Where there is none, the second is the
/// end of `s`, or `at` where that lies behind it, and an unfinished line that can still end within 82 bytes begins at the first;
/// without one both are the same.
///
/// ```
/// let log = b"noise$GPGSV,1,1,00*79\r\n$GP";
/// assert_eq!(castanwel::numbers::next_line(log, 0), (true, 5, 23));
/// assert_eq!(castanwel::numbers::next_line(log, 23), (false, 23, 26));
/// ```
#[must_use]
pub fn next_line(s: &[u8], at: usize) -> (bool, usize, usize) {
    let (mut start, mut end) = (0, 0);
    // SAFETY: pointer and length are of one slice that lives through the call; the places are this function's own.
    let found = unsafe { castanwel_next_line(s.as_ptr(), s.len(), at, &mut start, &mut end) };
    (found, start, end)
}

/// The finder after a byte, where it held `held` bytes of an unfinished line: how many it holds next, and the length of the line
/// that the byte ends, 0 where it ends none.
///
/// ```
/// assert_eq!(castanwel::numbers::feed(0, b'$'), (1, 0));
/// assert_eq!(castanwel::numbers::feed(17, b'\n'), (0, 18));
/// ```
#[must_use]
pub fn feed(held: usize, b: u8) -> (usize, usize) {
    let mut line = 0;
    // SAFETY: pointer and length are of one slice that lives through the call; the places are this function's own.
    let held = unsafe { castanwel_feed(held, b, &mut line) };
    (held, line)
}

/// How many fields the body of a line has, the address among them. The place where each ends is stored in `ends`, one after
/// another, as far as there is room.
///
/// ```
/// let mut ends = [0; 4];
/// assert_eq!(castanwel::numbers::places(b"GPGSV,1,1,00", &mut ends), 4);
/// assert_eq!(ends, [5, 7, 9, 12]);
/// ```
#[must_use]
pub fn places(body: &[u8], ends: &mut [usize]) -> usize {
    // SAFETY: pointer and length are of one slice that lives through the call; the places are this function's own.
    unsafe { castanwel_places(body.as_ptr(), body.len(), ends.as_mut_ptr(), ends.len()) }
}

/// Field `n` of `line`, counted from 1 after the address, as that part of the line. Refused with 1 or 2 by the line rule, with 3 where the
/// address is unknown, then with 4 where there is no field n; what the fields hold, and how many there are, is not looked at.
///
/// ```
/// let line = b"$GPGSV,1,1,01,05,,,*7D\r\n";
/// assert_eq!(castanwel::field(line, 4), Ok(&line[14..16]));
/// assert_eq!(castanwel::field(line, 7), Ok(&b""[..]));
/// assert_eq!(castanwel::field(line, 8).unwrap_err().number, 4);
/// ```
pub fn field(line: &[u8], n: usize) -> Result<&[u8], Refusal> {
    let (mut start, mut end, mut at_line, mut field) = (0, 0, 0, 0);
    let (pointer, length) = (line.as_ptr(), line.len());
    // SAFETY: pointer and length are of one slice that lives through the call; the places are this function's own.
    let number = unsafe { castanwel_field(pointer, length, n, &mut start, &mut end, &mut at_line, &mut field) };
    refused(number, at_line, field)?;
    Ok(&line[start..end])
}

/// Reads `line` in full, as [`read`](crate::read) does, and gives its refusal alone; nothing where it reads.
///
/// ```
/// assert_eq!(castanwel::refusal(b"$GPGSV,1,1,00*79\r\n"), None);
/// let twelve_fields = b"$GPGGA,000008.00,,,,,0,,,,,,*40\r\n";
/// assert_eq!(castanwel::refusal(twelve_fields).unwrap().number, 4);
/// ```
#[must_use]
pub fn refusal(line: &[u8]) -> Option<Refusal> {
    let (mut at_line, mut field) = (0, 0);
    // SAFETY: pointer and length are of one slice that lives through the call; the places are this function's own.
    let number = unsafe { castanwel_refusal(line.as_ptr(), line.len(), &mut at_line, &mut field) };
    refused(number, at_line, field).err()
}

/// Reads `line` to the numbers of its record, and gives the number of its kind. Refused with 8 and line 0 where `numbers` is
/// shorter than the record.
///
/// ```
/// let mut numbers = [0; castanwel::numbers::RECORD];
/// assert_eq!(castanwel::numbers::read(b"$GNGSV,1,1,00*67\r\n", &mut numbers), Ok(4));
/// assert_eq!(numbers[..5], [4, 1, 1, 0, 0]);
/// ```
pub fn read(line: &[u8], numbers: &mut [i64]) -> Result<u32, Refusal> {
    let (mut kind, mut at_line, mut field) = (0, 0, 0);
    let (pointer, room) = (numbers.as_mut_ptr(), numbers.len());
    let number =
        // SAFETY: pointer and length are of one slice that lives through the call; the places are this function's own.
        unsafe { castanwel_read(line.as_ptr(), line.len(), pointer, room, &mut kind, &mut at_line, &mut field) };
    refused(number, at_line, field)?;
    Ok(kind)
}

/// Writes the line of the record of a kind, and gives its length. Refused with line and field 0: 3 for a kind or a talker that
/// there is not, 5 where `numbers` is shorter than the record. A number that is no mark, or that its field cannot have, is 5 at that
/// field.
///
/// ```
/// let mut out = [0; 82];
/// let length = castanwel::numbers::write(15, &[17], &mut out).unwrap();
/// assert_eq!(&out[..length], b"$PIREA,17*65\r\n");
/// ```
pub fn write(kind: u32, numbers: &[i64], out: &mut [u8]) -> Result<usize, Refusal> {
    let (mut length, mut line, mut field) = (0, 0, 0);
    let (pointer, room) = (out.as_mut_ptr(), out.len());
    // SAFETY: pointer and length are of one slice that lives through the call; the places are this function's own.
    let number = unsafe {
        castanwel_write(kind, numbers.as_ptr(), numbers.len(), pointer, room, &mut length, &mut line, &mut field)
    };
    refused(number, line, field)?;
    Ok(length)
}

/// Reads a group of GSV lines to the numbers of a whole sky. Refused with 8 and line 0 where `numbers` is shorter.
///
/// ```
/// let mut numbers = [0; castanwel::numbers::GROUP];
/// castanwel::numbers::read_group(b"$GPGSV,1,1,01,05,,,*7D\r\n", &mut numbers).unwrap();
/// assert_eq!(numbers[..9], [0, 1, 5, 0, 0, 0, 0, 0, 0]);
/// ```
pub fn read_group(s: &[u8], numbers: &mut [i64]) -> Result<(), GroupRefusal> {
    let (mut line, mut field) = (0, 0);
    // SAFETY: pointer and length are of one slice that lives through the call; the places are this function's own.
    let number = unsafe {
        castanwel_read_group(s.as_ptr(), s.len(), numbers.as_mut_ptr(), numbers.len(), &mut line, &mut field)
    };
    group_refused(number, line, field)
}

/// Writes the group of a whole sky, and gives its length. Refused with line and field 0: 3 for a talker that there is not, 5 where
/// `numbers` is shorter than a sky.
///
/// ```
/// let mut numbers = [0; castanwel::numbers::GROUP];
/// numbers[1..3].copy_from_slice(&[1, 5]);
/// let mut out = [0; 82];
/// let length = castanwel::numbers::write_group(&numbers, &mut out).unwrap();
/// assert_eq!(&out[..length], b"$GPGSV,1,1,01,05,,,*7D\r\n");
/// ```
pub fn write_group(numbers: &[i64], out: &mut [u8]) -> Result<usize, GroupRefusal> {
    let (mut length, mut line, mut field) = (0, 0, 0);
    let (pointer, room) = (out.as_mut_ptr(), out.len());
    // SAFETY: pointer and length are of one slice that lives through the call; the places are this function's own.
    let number = unsafe {
        castanwel_write_group(numbers.as_ptr(), numbers.len(), pointer, room, &mut length, &mut line, &mut field)
    };
    group_refused(number, line, field)?;
    Ok(length)
}

/// Stores the settings at start. Refused with 8 and line 0 where `settings` is shorter.
///
/// ```
/// let mut settings = [0; castanwel::numbers::SETTINGS];
/// castanwel::numbers::start(&mut settings).unwrap();
/// assert_eq!(settings, [4800, 4, 127, 4800, 4, 127, 0, 0, 0xffff_ffff, 0xff_ffff, 0]);
/// ```
pub fn start(settings: &mut [i64]) -> Result<(), Refusal> {
    let (mut line, mut field) = (0, 0);
    // SAFETY: pointer and length are of one slice that lives through the call; the places are this function's own.
    let number = unsafe { castanwel_start(settings.as_mut_ptr(), settings.len(), &mut line, &mut field) };
    refused(number, line, field)
}

/// Carries out the command `line` that arrived on a port: changes the settings, writes the reply and gives its length. A refusal
/// leaves both; it is 5 with line 0 where `settings` is too short or a setting is out of range.
///
/// ```
/// let mut settings = [0; castanwel::numbers::SETTINGS];
/// castanwel::numbers::start(&mut settings).unwrap();
/// let mut out = [0; 82];
/// let length = castanwel::numbers::step(&mut settings, 0, b"$PIRTR,1,-0030*52\r\n", &mut out).unwrap();
/// assert_eq!(&out[..length], b"$PIRTA,1,-0030*41\r\n");
/// assert_eq!(settings[6..8], [1, -30]);
/// ```
pub fn step(settings: &mut [i64], arrival: u32, line: &[u8], out: &mut [u8]) -> Result<usize, Refusal> {
    let (mut length, mut at_line, mut field) = (0, 0, 0);
    // SAFETY: pointer and length are of one slice that lives through the call; the places are this function's own.
    let number = unsafe {
        castanwel_step(
            settings.as_mut_ptr(),
            settings.len(),
            arrival,
            line.as_ptr(),
            line.len(),
            out.as_mut_ptr(),
            out.len(),
            &mut length,
            &mut at_line,
            &mut field,
        )
    };
    refused(number, at_line, field)?;
    Ok(length)
}

/// How many satellites the GPS mask and the GLONASS mask allow. Refused with 5 and line 0 where a setting is out of range or
/// `settings` is too short.
///
/// ```
/// let settings = [4800, 4, 127, 4800, 4, 127, 0, 0, 0x7ffe_ffff, 0xff_fffe, 0];
/// assert_eq!(castanwel::numbers::counts(&settings), Ok((30, 23)));
/// ```
pub fn counts(settings: &[i64]) -> Result<(u32, u32), Refusal> {
    let (mut gps, mut glonass, mut line, mut field) = (0, 0, 0, 0);
    let (pointer, count) = (settings.as_ptr(), settings.len());
    // SAFETY: pointer and length are of one slice that lives through the call; the places are this function's own.
    let number = unsafe { castanwel_counts(pointer, count, &mut gps, &mut glonass, &mut line, &mut field) };
    refused(number, line, field)?;
    Ok((gps, glonass))
}
