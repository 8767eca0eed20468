//! The same work, written by hand in Rust: of the usual forms, the one that ran quickest.

const fn is_body(b: u8) -> bool {
    matches!(b, 0x20..=0x7e) && !matches!(b, b'$' | b'*' | b'!' | b'\\' | b'^' | b'~')
}

static BODY: [bool; 256] = {
    let mut table = [false; 256];
    let mut b = 0;
    while b < 256 {
        table[b] = is_body(b as u8);
        b += 1;
    }
    table
};

fn hex(d: u8) -> Option<u8> {
    match d {
        b'0'..=b'9' => Some(d - b'0'),
        b'A'..=b'F' => Some(d - b'A' + 10),
        _ => None,
    }
}

/// The two digits of a line whose ends are as they should be, and its body.
fn parts(line: &[u8]) -> Option<(&[u8], u8)> {
    if !(7..=82).contains(&line.len()) {
        return None;
    }
    let (front, end) = line.split_at(line.len() - 5);
    if front[0] != b'$' || end[0] != b'*' || end[3] != b'\r' || end[4] != b'\n' {
        return None;
    }
    Some((&front[1..], hex(end[1])? << 4 | hex(end[2])?))
}

/// 0 where `line` is a line, 1 where the line rule fails, 2 where the digits differ.
pub fn line_refusal(line: &[u8]) -> u8 {
    let (body, given) = match parts(line) {
        Some(parts) => parts,
        None => return 1,
    };
    let (mut good, mut xor) = (true, 0);
    for &b in body {
        good &= BODY[b as usize];
        xor ^= b;
    }
    match (good, xor == given) {
        (false, _) => 1,
        (true, true) => 0,
        (true, false) => 2,
    }
}

/// The same without a table: the tests of a byte as they are read, and an early exit.
pub fn line_refusal_by_tests(line: &[u8]) -> u8 {
    let (body, given) = match parts(line) {
        Some(parts) => parts,
        None => return 1,
    };
    let mut xor = 0;
    for &b in body {
        if !is_body(b) {
            return 1;
        }
        xor ^= b;
    }
    if xor == given {
        0
    } else {
        2
    }
}

/// Where the first line from `at` on lies, or `None`.
pub fn next_line(s: &[u8], at: usize) -> Option<(usize, usize)> {
    let mut start = None;
    for (i, &b) in s[at..].iter().enumerate() {
        match b {
            b'$' => start = Some(at + i),
            b'\n' => match start.take() {
                Some(from) if at + i + 1 - from <= 82 => return Some((from, at + i + 1)),
                _ => {}
            },
            _ => {}
        }
    }
    None
}

/// Where an unfinished line begins that may still become one, or the end.
pub fn unfinished(s: &[u8]) -> usize {
    match s.iter().rposition(|&b| b == b'$' || b == b'\n') {
        Some(at) if s[at] == b'$' && s.len() - at < 82 => at,
        _ => s.len(),
    }
}

/// The finder fed byte by byte.
pub struct Finder {
    kept: [u8; 82],
    held: usize,
}

impl Finder {
    pub fn new() -> Self {
        Finder { kept: [0; 82], held: 0 }
    }

    pub fn push(&mut self, b: u8) -> Option<&[u8]> {
        if b == b'$' {
            self.kept[0] = b;
            self.held = 1;
            return None;
        }
        if self.held == 0 {
            return None;
        }
        if self.held == self.kept.len() {
            self.held = 0;
            return None;
        }
        self.kept[self.held] = b;
        self.held += 1;
        if b == b'\n' {
            let n = self.held;
            self.held = 0;
            return Some(&self.kept[..n]);
        }
        None
    }

    /// The same as a call, as code of another library is called.
    #[inline(never)]
    pub fn push_by_call(&mut self, b: u8) -> Option<&[u8]> {
        self.push(b)
    }
}

/// How many fields a body has; where each ends is stored in `ends`, as far as there is room.
pub fn places(body: &[u8], ends: &mut [usize]) -> usize {
    let mut n = 0;
    for (i, &b) in body.iter().enumerate() {
        if b == b',' {
            if let Some(end) = ends.get_mut(n) {
                *end = i;
            }
            n += 1;
        }
    }
    if let Some(end) = ends.get_mut(n) {
        *end = body.len();
    }
    n + 1
}
