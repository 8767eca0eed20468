//! The listing of a log, as the proved program writes it, written by hand in Rust.

use bench::plain;
use bench::read::{read_line, Refusal};
use std::io::{self, Read, Write};

const BUFFER: usize = 1 << 16;
/// A row is shorter than this.
const ROW: usize = 128;

fn put_number(out: &mut Vec<u8>, mut n: u64) {
    let mut text = [0; 20];
    let mut at = text.len();
    loop {
        at -= 1;
        text[at] = b'0' + (n % 10) as u8;
        n /= 10;
        if n == 0 {
            break;
        }
    }
    out.extend_from_slice(&text[at..]);
}

fn put_refusal(out: &mut Vec<u8>, refusal: Refusal) {
    out.extend_from_slice(b" refused ");
    put_number(out, u64::from(refusal.no));
    out.push(b' ');
    put_number(out, refusal.field as u64);
}

fn put_row(out: &mut Vec<u8>, number: u64, line: &[u8]) {
    put_number(out, number);
    out.push(b' ');
    match read_line(line) {
        Ok(_) => {
            out.extend_from_slice(&line[1..6]);
            out.extend_from_slice(b" ok");
        }
        Err(refusal) if refusal.no < 4 => {
            out.push(b'-');
            put_refusal(out, refusal);
        }
        Err(refusal) => {
            out.extend_from_slice(&line[1..6]);
            put_refusal(out, refusal);
        }
    }
    out.push(b'\n');
}

fn main() -> io::Result<()> {
    let (mut input, mut output) = (io::stdin().lock(), io::stdout().lock());
    let (mut buf, mut out) = (vec![0; BUFFER], Vec::with_capacity(BUFFER));
    let (mut kept, mut rows) = (0, 0);
    out.extend_from_slice(b"no address answer\n");
    loop {
        let got = input.read(&mut buf[kept..])?;
        if got == 0 {
            break;
        }
        let (n, mut at) = (kept + got, 0);
        while let Some((start, end)) = plain::next_line(&buf[..n], at) {
            rows += 1;
            put_row(&mut out, rows, &buf[start..end]);
            if BUFFER - out.len() < ROW {
                output.write_all(&out)?;
                out.clear();
            }
            at = end;
        }
        let from = at + plain::unfinished(&buf[at..n]);
        buf.copy_within(from..n, 0);
        kept = n - from;
    }
    output.write_all(&out)?;
    output.flush()
}
