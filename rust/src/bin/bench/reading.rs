//! Reading a trace, next to a parser that goes over the bytes once and copies none.

use crate::harness::{timed, Case, Timed, SIZES};
use crate::messages::{Messages, Scan, Table, Unasked, MESSAGES};
use kiqsaryn::{check_trace, Checked, Settings, BARRIER, CLOSE, COMMIT, KINDS, OPEN, READ, RECV, SEND, SYNC, WAIT, WRITE};
use std::hint::black_box;

// ---- The plain version

/// A field's bytes without its outer quotes. Where a quote is among them the field is no name, no kind and no number.
pub type Field<'a> = &'a [u8];

pub const PROCESSES: usize = kiqsaryn::PROCESSES as usize;

const NAMES: [&[u8]; 6] = [b"process", b"kind", b"file", b"offset", b"length", b"message"];

const TEXT: [bool; 256] = {
    let mut table = [false; 256];
    let mut b = 0x20;
    while b < 0x7F {
        table[b] = b != b'"' as usize && b != b',' as usize;
        b += 1;
    }
    table
};

/// The fields of the record at a place, how many there are, and the place behind it; or 4, or 6 where the byte limit is met.
pub fn record<'a>(text: &'a [u8], cut: bool, mut i: usize, fields: &mut [Field<'a>; 6]) -> Result<(usize, usize), u32> {
    let short = if cut { 6 } else { 4 };
    let mut n = 0;
    loop {
        let field;
        if text.get(i) == Some(&b'"') {
            let start = i + 1;
            i = start;
            loop {
                match text.get(i) {
                    Some(b'"') if text.get(i + 1) == Some(&b'"') => i += 2,
                    Some(b'"') => break,
                    Some(b) if TEXT[*b as usize] || matches!(b, b',' | b'\r' | b'\n') => i += 1,
                    Some(_) => return Err(4),
                    None => return Err(short),
                }
            }
            field = &text[start..i];
            i += 1;
        } else {
            let start = i;
            while text.get(i).is_some_and(|b| TEXT[*b as usize]) {
                i += 1;
            }
            field = &text[start..i];
        }
        if n < 6 {
            fields[n] = field;
        }
        n += 1;
        match text.get(i) {
            Some(b',') => i += 1,
            Some(b'\r') => match text.get(i + 1) {
                Some(b'\n') => return Ok((n, i + 2)),
                Some(_) => return Err(4),
                None => return Err(short),
            },
            Some(_) => return Err(4),
            None if cut => return Err(6),
            None => return Ok((n, i)),
        }
    }
}

fn number(field: Field, most: u32) -> Result<u32, u32> {
    match field {
        [b'0'] => Ok(0),
        [b'1'..=b'9', ..] => {
            let mut value = 0u64;
            for b in field {
                if !b.is_ascii_digit() {
                    return Err(10);
                }
                value = 10 * value + u64::from(b - b'0');
                if value > u64::from(most) {
                    return Err(10);
                }
            }
            Ok(value as u32)
        }
        _ => Err(10),
    }
}

fn kind(word: Field) -> Result<u32, u32> {
    match word {
        b"read" => Ok(READ),
        b"write" => Ok(WRITE),
        b"commit" => Ok(COMMIT),
        b"open" => Ok(OPEN),
        b"close" => Ok(CLOSE),
        b"sync" => Ok(SYNC),
        b"send" => Ok(SEND),
        b"recv" => Ok(RECV),
        b"wait" => Ok(WAIT),
        b"barrier" => Ok(BARRIER),
        _ => Err(8),
    }
}

pub fn row(f: &[Field; 6], s: Settings, rows: &[u32], messages: &mut impl Messages) -> Result<[u32; 6], u32> {
    let kind = kind(f[1])?;
    let filled = |k: usize| !f[k].is_empty();
    let mut row = [0, kind, 0, 0, 0, 0];
    match kind {
        READ | WRITE => {
            if !filled(0) || !filled(2) || !filled(3) || !filled(4) || filled(5) {
                return Err(9);
            }
            row[0] = number(f[0], s.process_limit - 1)?;
            row[2] = number(f[2], 63)?;
            row[3] = number(f[3], u32::MAX)?;
            row[4] = number(f[4], u32::MAX)?;
            row[3].checked_add(row[4]).ok_or(11u32)?;
        }
        SEND | RECV | WAIT | BARRIER => {
            if !filled(0) || filled(2) || filled(3) || filled(4) || !filled(5) {
                return Err(9);
            }
            row[0] = number(f[0], s.process_limit - 1)?;
            row[5] = number(f[5], 65_535)?;
            if kind != BARRIER {
                messages.ask(&row, rows)?;
            }
        }
        _ => {
            if !filled(0) || !filled(2) || filled(3) || filled(4) || filled(5) {
                return Err(9);
            }
            row[0] = number(f[0], s.process_limit - 1)?;
            row[2] = number(f[2], 63)?;
        }
    }
    Ok(row)
}

pub fn read_rows(text: &[u8], s: Settings, rows: &mut [u32], messages: &mut impl Messages) -> Result<usize, (u32, usize)> {
    let cut = text.len() > s.byte_limit;
    let text = &text[..text.len().min(s.byte_limit)];
    let mut fields = [Field::default(); 6];
    let (mut i, mut n) = (0, 0);
    if s.header == 1 {
        if text.is_empty() {
            return Err((5, 0));
        }
        let (count, behind) = record(text, cut, 0, &mut fields).map_err(|x| (if x == 6 { 5 } else { x }, 0))?;
        if count != 6 || fields.iter().zip(NAMES).any(|(f, name)| *f != name) {
            return Err((5, 0));
        }
        i = behind;
    }
    while i < text.len() || cut {
        let (count, behind) = record(text, cut, i, &mut fields).map_err(|x| (x, n + 1))?;
        if n >= s.row_limit as usize {
            return Err((6, n + 1));
        }
        if count != 6 {
            return Err((7, n + 1));
        }
        let (front, rest) = rows.split_at_mut(6 * n);
        let row = row(&fields, s, front, messages).map_err(|x| (x, n + 1))?;
        rest[..6].copy_from_slice(&row);
        n += 1;
        i = behind;
    }
    messages.barriers(&rows[..6 * n]).map_or(Ok(n), |place| Err((22, place)))
}

#[inline(never)]
fn plain(text: &[u8], s: Settings, rows: &mut [u32], counts: &mut [u16], messages: &mut impl Messages) -> Result<usize, (u32, usize)> {
    if (rows.len() as u64) < 6 * u64::from(s.row_limit) || (counts.len() as u64) < u64::from(s.row_limit) * u64::from(s.process_limit) {
        return Err((1, 0));
    }
    if s.model > 3 || !(1..=4096).contains(&s.row_limit) || !(1..=kiqsaryn::PROCESSES).contains(&s.process_limit) {
        return Err((2, 0));
    }
    if s.header > 1 {
        return Err((3, 0));
    }
    counts.fill(0);
    let answer = read_rows(text, s, rows, messages);
    rows[6 * answer.unwrap_or(0)..].fill(0);
    answer
}

/// One file of a join by itself.
#[inline(never)]
pub fn plain_file(text: &[u8], s: Settings, rows: &mut [u32]) -> Result<usize, (u32, usize)> {
    if (rows.len() as u64) < 6 * u64::from(s.row_limit) {
        return Err((1, 0));
    }
    if !(1..=4096).contains(&s.row_limit) || !(1..=kiqsaryn::PROCESSES).contains(&s.process_limit) {
        return Err((2, 0));
    }
    if s.header > 1 {
        return Err((3, 0));
    }
    let answer = read_rows(text, s, rows, &mut Unasked);
    rows[6 * answer.unwrap_or(0)..].fill(0);
    answer
}

// ---- Texts

/// Six fields of a row, the unused ones empty.
fn line(process: usize, kind: u32, numbers: [Option<usize>; 4], quoted: bool) -> String {
    let empty = String::new;
    let mut fields = vec![process.to_string(), KINDS[kind as usize].to_string()];
    fields.extend(numbers.map(|x| x.map_or_else(empty, |x| x.to_string())));
    if quoted {
        fields.iter_mut().for_each(|field| *field = format!("\"{field}\""));
    }
    fields.join(",") + "\r\n"
}

/// Numbers that look random and are the same in every run (splitmix64).
struct Random(u64);

impl Random {
    fn below(&mut self, n: usize) -> usize {
        self.0 = self.0.wrapping_add(0x9E37_79B9_7F4A_7C15);
        let mut z = self.0;
        z = (z ^ (z >> 30)).wrapping_mul(0xBF58_476D_1CE4_E5B9);
        z = (z ^ (z >> 27)).wrapping_mul(0x94D0_49BB_1331_11EB);
        ((z ^ (z >> 31)) % n as u64) as usize
    }
}

/// The line of a send, recv, wait or barrier.
fn talk(process: usize, kind: u32, message: usize) -> String {
    line(process, kind, [None, None, None, Some(message)], false)
}

/// Rows of random kinds, save barriers, and of random processes. A wait is for any message that is posted, by the process that has posted it, and where there is none the row
/// posts. A recv posts a receive for a message that another process has sent, and where there is none the row sends.
fn mixed(rows: usize) -> String {
    let mut random = Random(1);
    let (mut sent, mut posted): (Vec<(usize, usize)>, Vec<(usize, usize)>) = (Vec::new(), Vec::new());
    let mut messages: Vec<usize> = (0..MESSAGES).collect();
    let mut text = String::new();
    for _ in 0..rows {
        let (p, kind, file) = (random.below(PROCESSES), random.below(BARRIER as usize) as u32, Some(random.below(64)));
        let due = random.below(sent.len().max(1));
        text += &match kind {
            READ | WRITE => line(p, kind, [file, Some(random.below(1 << 31)), Some(random.below(1 << 20)), None], false),
            WAIT if !posted.is_empty() => {
                let (poster, message) = posted.swap_remove(random.below(posted.len()));
                talk(poster, WAIT, message)
            }
            RECV | WAIT if sent.get(due).is_some_and(|(sender, _)| *sender != p) => {
                let (_, message) = sent.swap_remove(due);
                posted.push((p, message));
                talk(p, RECV, message)
            }
            SEND | RECV | WAIT => {
                let message = messages.swap_remove(random.below(messages.len()));
                sent.push((p, message));
                talk(p, SEND, message)
            }
            _ => line(p, kind, [file, None, None, None], false),
        };
    }
    text
}

/// The file and the range of a data row.
fn range(i: usize, process: usize) -> [Option<usize>; 4] {
    [Some(process % 8), Some(i * 48_271 % 2_147_483_647), Some(4096), None]
}

/// Row i of a trace whose processes hand their clips on: each writes, commits and sends, and the next posts a receive and waits, so that of five
/// rows three are of a message.
fn message_row(i: usize) -> String {
    let (turn, p) = (i / 5, i / 5 % PROCESSES);
    let next = (p + 1) % PROCESSES;
    match i % 5 {
        0 => line(p, WRITE, range(i, p), false),
        1 => line(p, COMMIT, [Some(p % 8), None, None, None], false),
        2 => talk(p, SEND, turn),
        3 => talk(next, RECV, turn),
        _ => talk(next, WAIT, turn),
    }
}

/// Row i of a trace without messages: of four rows three are data rows, and one is a commit.
fn data_row(i: usize, quoted: bool) -> String {
    let p = i / 4 % PROCESSES;
    match i % 4 {
        1 => line(p, READ, range(i, p), quoted),
        3 => line(p, COMMIT, [Some(p % 8), None, None, None], quoted),
        _ => line(p, WRITE, range(i, p), quoted),
    }
}

/// How many processes write, commit, meet at a barrier and read, in turn.
const MEETING: usize = 16;

/// Row i of a trace whose processes meet: all write, all commit, all arrive at a barrier, and all read what another has written.
fn meeting_row(i: usize) -> String {
    let (turn, p) = (i / (4 * MEETING), i % MEETING);
    let clip = |owner: usize| [Some(1), Some(100 * owner), Some(90), None];
    match i / MEETING % 4 {
        0 => line(p, WRITE, clip(p), false),
        1 => line(p, COMMIT, [Some(1), None, None, None], false),
        2 => talk((p + turn) % MEETING, BARRIER, turn),
        _ => line(p, READ, clip((p + 1) % MEETING), false),
    }
}

/// Row i of a trace of so many rows whose processes do nothing but arrive at barriers, all at one and then all at the next. Rows too few for one
/// more barrier, at the end, are commits.
fn arrival_row(i: usize, rows: usize) -> String {
    let turn = i / PROCESSES;
    if turn == rows / PROCESSES {
        return line(i % PROCESSES, COMMIT, [Some(1), None, None, None], false);
    }
    talk((i + turn) % PROCESSES, BARRIER, turn)
}

/// A trace of a shape, with its header.
pub fn text(shape: &str, rows: usize) -> Vec<u8> {
    let rows: String = match shape {
        "mixed" => mixed(rows),
        "messages" => (0..rows).map(message_row).collect(),
        "barriers" => (0..rows).map(meeting_row).collect(),
        "barriers alone" => (0..rows).map(|i| arrival_row(i, rows)).collect(),
        _ => (0..rows).map(|i| data_row(i, shape == "quoted fields")).collect(),
    };
    format!("process,kind,file,offset,length,message\r\n{rows}").into_bytes()
}

fn case(shape: &'static str, n: usize) -> Timed {
    let text = text(shape, n);
    let s = Settings { header: 1, model: 1, row_limit: n as u32, process_limit: PROCESSES as u32, byte_limit: usize::MAX };
    let lent = move || (vec![7u32; 6 * n], vec![7u16; PROCESSES * n]);
    let [(mut rows, mut counts), (mut table_rows, mut table_counts), (mut scan_rows, mut scan_counts)] = [lent(), lent(), lent()];
    let [ours, table, scan, all] = [text.clone(), text.clone(), text.clone(), text];
    Timed {
        library: Box::new(move || timed(|| check_trace(black_box(&ours), s, &mut rows, &mut counts))),
        plain: vec![
            (
                "one pass",
                Box::new(move || timed(|| plain(black_box(&table), s, &mut table_rows, &mut table_counts, &mut Table(Vec::new())))),
            ),
            (
                "one pass, messages and barriers scanned",
                Box::new(move || timed(|| plain(black_box(&scan), s, &mut scan_rows, &mut scan_counts, &mut Scan))),
            ),
        ],
        same: Box::new(move || {
            let [mut a, mut b, mut c] = [lent(), lent(), lent()];
            let answer = check_trace(&all, s, &mut a.0, &mut a.1);
            assert_eq!(answer, Checked::Accepted(n as u32));
            assert_eq!(plain(&all, s, &mut b.0, &mut b.1, &mut Table(Vec::new())), Ok(n));
            assert_eq!(plain(&all, s, &mut c.0, &mut c.1, &mut Scan), Ok(n));
            assert!(a == b && a == c);
            None
        }),
    }
}

pub fn cases() -> Vec<Case> {
    let mut all = Vec::new();
    for shape in ["data rows", "quoted fields", "messages", "mixed", "barriers", "barriers alone"] {
        all.extend(SIZES.map(|rows| Case { name: shape.to_string(), rows, make: Box::new(move || case(shape, rows)) }));
    }
    all
}
