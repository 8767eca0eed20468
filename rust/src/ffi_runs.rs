//! The step of the cut into runs, as the library exports it.

extern "C" {
    fn castanwel_run_step(
        lines: *mut u32,
        last: *mut u32,
        line: *const u8,
        line_len: usize,
        before: *mut bool,
        ends: *mut bool,
    ) -> bool;
}

/// The step of the cut of found lines into runs. `lines` and `last` say what is open: how many lines the open run has, 0 where none is
/// open, and the number that its first line announced as last; they are set to what is open behind `line`. It gives whether the open run
/// ends before the line, whether the line stands in a run, and whether that run ends with it.
///
/// ```
/// let (mut lines, mut last) = (0, 0);
/// let first = b"$GPGSV,2,1,05,02,10,104,33,05,60,017,47,12,33,201,40,25,04,310,*7A\r\n";
/// assert_eq!(castanwel::numbers::run_step(&mut lines, &mut last, first), (false, true, false));
/// assert_eq!((lines, last), (1, 2));
/// assert_eq!(castanwel::numbers::run_step(&mut lines, &mut last, b"$GPGSV,1,1,00*79\r\n"), (true, true, true));
/// assert_eq!((lines, last), (0, 0));
/// ```
#[must_use]
pub fn run_step(lines: &mut u32, last: &mut u32, line: &[u8]) -> (bool, bool, bool) {
    let (mut before, mut ends) = (false, false);
    // SAFETY: pointer and length are of one slice that lives through the call; the other places are lent to this function or its own.
    let joins = unsafe { castanwel_run_step(lines, last, line.as_ptr(), line.len(), &mut before, &mut ends) };
    (before, joins, ends)
}
