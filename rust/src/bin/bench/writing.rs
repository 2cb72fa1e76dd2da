//! Writing rows as text, next to plain Rust that asks the same questions in one pass and writes in a second.

use crate::barriers;
use crate::counts::rows;
use crate::harness::{timed, Case, Timed, SIZES};
use crate::messages::{self, MESSAGES};
use crate::reading::PROCESSES;
use kiqsaryn::{write, Written, BARRIER, HEADER_LINE, KINDS, LONGEST_LINE, READ, RECV, SEND, WAIT, WRITE};
use std::hint::black_box;

// ---- The plain version

const NAMES: &[u8; HEADER_LINE] = b"process,kind,file,offset,length,message\r\n";

/// The two digits of each number below 100.
const DIGITS: [u8; 200] = {
    let mut table = [0; 200];
    let mut n = 0;
    while n < 100 {
        table[2 * n] = b'0' + n as u8 / 10;
        table[2 * n + 1] = b'0' + n as u8 % 10;
        n += 1;
    }
    table
};

fn digits(n: u32) -> usize {
    n.checked_ilog10().map_or(1, |log| log as usize + 1)
}

/// Questions 8 to 12 and 21 of a row, and the length of its line.
fn ask(row: &[u32], process_limit: u32, marks: &mut [u8; MESSAGES]) -> Result<usize, u32> {
    let word = KINDS.get(row[1] as usize).ok_or(8u32)?;
    let rest = match row[1] {
        READ | WRITE => {
            if row[5] != 0 {
                return Err(9);
            }
            if row[0] >= process_limit || row[2] > 63 {
                return Err(10);
            }
            row[3].checked_add(row[4]).ok_or(11u32)?;
            digits(row[2]) + digits(row[3]) + digits(row[4])
        }
        SEND | RECV | WAIT | BARRIER => {
            if row[2] | row[3] | row[4] != 0 {
                return Err(9);
            }
            if row[0] >= process_limit || row[5] > 65_535 {
                return Err(10);
            }
            if row[1] != BARRIER {
                messages::ask(row, marks)?;
            }
            digits(row[5])
        }
        _ => {
            if row[3] | row[4] | row[5] != 0 {
                return Err(9);
            }
            if row[0] >= process_limit || row[2] > 63 {
                return Err(10);
            }
            digits(row[2])
        }
    };
    Ok(digits(row[0]) + word.len() + rest + ",,,,,\r\n".len())
}

/// Bytes that are put into a slice one behind the other.
struct Text<'a> {
    out: &'a mut [u8],
    at: usize,
}

impl Text<'_> {
    fn put(&mut self, bytes: &[u8]) {
        self.out[self.at..self.at + bytes.len()].copy_from_slice(bytes);
        self.at += bytes.len();
    }

    /// Puts a number two digits at a time, the last ones first.
    fn put_number(&mut self, mut n: u32) {
        let end = self.at + digits(n);
        let place = &mut self.out[self.at..end];
        let mut i = place.len();
        while n >= 100 {
            i -= 2;
            let two = 2 * (n % 100) as usize;
            place[i..i + 2].copy_from_slice(&DIGITS[two..two + 2]);
            n /= 100;
        }
        if n >= 10 {
            place[..2].copy_from_slice(&DIGITS[2 * n as usize..2 * n as usize + 2]);
        } else {
            place[0] = b'0' + n as u8;
        }
        self.at = end;
    }

    fn put_row(&mut self, row: &[u32]) {
        self.put_number(row[0]);
        self.put(b",");
        self.put(KINDS[row[1] as usize].as_bytes());
        match row[1] {
            READ | WRITE => {
                for n in &row[2..5] {
                    self.put(b",");
                    self.put_number(*n);
                }
                self.put(b",\r\n");
            }
            SEND | RECV | WAIT | BARRIER => {
                self.put(b",,,,");
                self.put_number(row[5]);
                self.put(b"\r\n");
            }
            _ => {
                self.put(b",");
                self.put_number(row[2]);
                self.put(b",,,\r\n");
            }
        }
    }
}

/// Writes the first n rows into a slice from a place on. The answer is the text's length, or the number and place of the refusal.
#[inline(never)]
fn plain(rows: &[u32], n: u32, header: u32, process_limit: u32, out: &mut [u8], place: usize) -> Result<usize, (u32, usize)> {
    if (rows.len() as u64) < 6 * u64::from(n) {
        return Err((1, 0));
    }
    if !(1..=kiqsaryn::PROCESSES).contains(&process_limit) || n > 4096 {
        return Err((2, 0));
    }
    if header > 1 {
        return Err((3, 0));
    }
    let rows = &rows[..6 * n as usize];
    let mut marks = [0; MESSAGES];
    let mut length = if header == 1 { HEADER_LINE } else { 0 };
    for (k, row) in rows.chunks_exact(6).enumerate() {
        length += ask(row, process_limit, &mut marks).map_err(|number| (number, k + 1))?;
    }
    if let Some(place) = barriers::place(rows) {
        return Err((22, place));
    }
    let out = out.get_mut(place..).and_then(|rest| rest.get_mut(..length)).ok_or((18, 0))?;
    let mut text = Text { out, at: 0 };
    if header == 1 {
        text.put(NAMES);
    }
    rows.chunks_exact(6).for_each(|row| text.put_row(row));
    Ok(length)
}

// ---- Cases

/// Bytes before the text, which stay.
const PLACE: usize = 3;

/// How long the lent slice is: enough for any text of so many rows, or just enough for this one.
#[derive(Clone, Copy)]
enum Room {
    Any,
    Exact,
}

fn case(shape: &'static str, n: usize, room: Room) -> Timed {
    let rows = rows(shape, n);
    let (count, limit) = (n as u32, PROCESSES as u32);
    let most = PLACE + HEADER_LINE + LONGEST_LINE * n;
    let space = match room {
        Room::Any => most,
        Room::Exact => PLACE + plain(&rows, count, 1, limit, &mut vec![0; most], PLACE).expect("rows that are written"),
    };
    let lent = move || vec![7u8; space];
    let [mut out, mut plain_out] = [lent(), lent()];
    let [ours, theirs, all] = [rows.clone(), rows.clone(), rows];
    Timed {
        library: Box::new(move || timed(|| write(black_box(&ours), count, 1, limit, &mut out, PLACE))),
        plain: vec![("two passes", Box::new(move || timed(|| plain(black_box(&theirs), count, 1, limit, &mut plain_out, PLACE))))],
        same: Box::new(move || {
            let [mut a, mut b] = [lent(), lent()];
            let length = plain(&all, count, 1, limit, &mut b, PLACE).expect("rows that are written");
            assert_eq!(write(&all, count, 1, limit, &mut a, PLACE), Written::Length(length));
            assert!(a == b);
            None
        }),
    }
}

pub fn cases() -> Vec<Case> {
    let mut all = Vec::new();
    for (name, shape, room) in [
        ("data rows", "data rows", Room::Any),
        ("messages", "messages", Room::Any),
        ("mixed", "mixed", Room::Any),
        ("mixed, exact room", "mixed", Room::Exact),
        ("barriers", "barriers", Room::Any),
    ] {
        all.extend(SIZES.map(|rows| Case { name: name.to_string(), rows, make: Box::new(move || case(shape, rows, room)) }));
    }
    all
}
