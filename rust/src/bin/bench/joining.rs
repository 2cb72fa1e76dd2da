//! Joining two files of half the rows each and judging the join under commit, next to plain Rust with the same steps: every record is read once for
//! the questions and once to be taken, and tables by message and by barrier tell which rows can be taken. Of messages alone there is nothing to judge,
//! and the time is that of reading, joining and counts. Then one file by itself.

use crate::barriers::{self, Barriers};
use crate::harness::{timed, Case, Timed, SIZES};
use crate::messages::{ask, is_sent, Unasked, MESSAGES};
use crate::reading::{plain_file, read_rows, record, row, text, Field, PROCESSES};
use crate::verdict;
use kiqsaryn::{join, read_file, Checked, JoinSettings, Joined, Settings, COMMIT, KINDS, READ, RECV, SEND, WAIT, WRITE};
use std::hint::black_box;

/// The number of the model commit.
const MODEL: u32 = 1;

// ---- The plain version

/// A row, where its record starts and ends, and where the record behind it starts.
#[derive(Clone, Copy)]
struct Next {
    row: [u32; 6],
    start: usize,
    end: usize,
    behind: usize,
}

/// What stands at a place of a file that was read.
fn next_at(text: &[u8], start: usize, s: Settings) -> Option<Next> {
    if start >= text.len() {
        return None;
    }
    let mut fields = [Field::default(); 6];
    let (_, behind) = record(text, false, start, &mut fields).ok()?;
    let row = row(&fields, s, &[], &mut Unasked).ok()?;
    let end = if text[..behind].ends_with(b"\r\n") { behind - 2 } else { behind };
    Some(Next { row, start, end, behind })
}

/// Where the rows of a file start, and a bit for each process that has some; or the number and the place of its refusal.
fn asked(text: &[u8], s: Settings, rows: &mut [u32]) -> Result<(usize, u64), (u32, usize)> {
    let n = read_rows(text, s, rows, &mut Unasked)?;
    let processes = barriers::processes(&rows[..6 * n]);
    let start = if s.header == 1 { record(text, false, 0, &mut [Field::default(); 6]).map_err(|number| (number, 0))?.1 } else { 0 };
    Ok((start, processes))
}

/// Where both files' rows start, and a bit for each process that has some.
struct Files {
    starts: [usize; 2],
    processes: u64,
}

/// Joins the records of both files: how many there are, or the number and the place of the refusal.
fn join_records(texts: [&[u8]; 2], files: Files, s: Settings, rows: &mut [u32], parts: &mut [u64]) -> Result<usize, (u32, usize)> {
    let Files { starts, processes } = files;
    let mut marks = [0; MESSAGES];
    let (mut barriers, mut repeated) = (Barriers::new(processes), None);
    let mut next = [0, 1].map(|k| next_at(texts[k], starts[k], s));
    let mut n = 0;
    loop {
        let is_ready = |row: [u32; 6]| (row[1] != WAIT || is_sent(marks[row[5] as usize])) && !barriers.holds(row[0]);
        let ready = |k: &usize| next[*k].is_some_and(|next| is_ready(next.row));
        let Some((k, Next { row, start, end, behind })) = [0, 1].into_iter().find(ready).and_then(|k| Some((k, next[k]?))) else {
            if next.iter().any(Option::is_some) {
                return Err((20, 0));
            }
            return repeated.or(barriers.is_unfinished().then_some(n)).map_or(Ok(n), |place| Err((22, place)));
        };
        if n >= s.row_limit as usize {
            return Err((6, n + 1));
        }
        if matches!(row[1], SEND | RECV | WAIT) {
            ask(&row, &mut marks).map_err(|number| (number, n + 1))?;
        }
        if barriers.note(&row) {
            repeated = repeated.or(Some(n + 1));
        }
        rows[6 * n..6 * n + 6].copy_from_slice(&row);
        parts[3 * n..3 * n + 3].copy_from_slice(&[k as u64 + 1, start as u64, end as u64]);
        n += 1;
        next[k] = next_at(texts[k], behind, s);
    }
}

/// The three lent slices.
#[derive(Clone, PartialEq)]
struct Lent {
    rows: Vec<u32>,
    counts: Vec<u16>,
    parts: Vec<u64>,
}

impl Lent {
    fn new(rows: usize) -> Lent {
        Lent { rows: vec![7; 6 * rows], counts: vec![7; PROCESSES * rows], parts: vec![7; 3 * rows] }
    }
}

/// The questions from 4 on, and the joined rows' number; or the number, the place and the file of the refusal.
fn joined(texts: [&[u8]; 2], headers: [u32; 2], s: Settings, rows: &mut [u32], parts: &mut [u64]) -> Result<usize, (u32, usize, u32)> {
    let mut file =
        |k: usize| asked(texts[k], Settings { header: headers[k], ..s }, rows).map_err(|(number, place)| (number, place, k as u32 + 1));
    let (first, second) = (file(0)?, file(1)?);
    if first.1 & second.1 != 0 {
        return Err((19, 0, 0));
    }
    let files = Files { starts: [first.0, second.0], processes: first.1 | second.1 };
    join_records(texts, files, s, rows, parts).map_err(|(number, place)| (number, place, 0))
}

/// The joined rows' number and the first race; or the number, the place and the file of the refusal.
type Answer = Result<(usize, Option<(u32, u32)>), (u32, usize, u32)>;

/// The whole call.
#[inline(never)]
fn plain(texts: [&[u8]; 2], s: JoinSettings, lent: &mut Lent) -> Answer {
    let (limit, processes) = (u64::from(s.row_limit), u64::from(s.process_limit));
    let Lent { rows, counts, parts } = lent;
    if (rows.len() as u64) < 6 * limit || (counts.len() as u64) < limit * processes || (parts.len() as u64) < 3 * limit {
        return Err((1, 0, 0));
    }
    if s.model > 3 || !(1..=4096).contains(&limit) || !(1..=PROCESSES as u64).contains(&processes) {
        return Err((2, 0, 0));
    }
    if s.headers.iter().any(|header| *header > 1) {
        return Err((3, 0, 0));
    }
    let settings = Settings { header: 0, model: s.model, row_limit: s.row_limit, process_limit: s.process_limit, byte_limit: usize::MAX };
    let answer = joined(texts, s.headers, settings, rows, parts);
    let n = answer.unwrap_or(0);
    rows[6 * n..].fill(0);
    parts[3 * n..].fill(0);
    counts[processes as usize * n..].fill(0);
    answer.map(|n| (n, verdict::plain(rows, n, processes as usize, s.model, counts)))
}

// ---- Two files

/// Row i of a shelf whose processes hand one clip on, in turn from one file to the other: each writes, commits and sends, and the next posts a
/// receive and waits. Of five rows three are of a message.
fn to_and_fro(i: usize) -> String {
    let (turn, p) = (i / 5, i / 5 % PROCESSES);
    let next = (p + 1) % PROCESSES;
    match i % 5 {
        0 => format!("{p},{},1,{},90,\r\n", KINDS[WRITE as usize], 100 * p),
        1 => format!("{p},{},1,,,\r\n", KINDS[COMMIT as usize]),
        2 => format!("{p},{},,,,{turn}\r\n", KINDS[SEND as usize]),
        3 => format!("{next},{},,,,{turn}\r\n", KINDS[RECV as usize]),
        _ => format!("{next},{},,,,{turn}\r\n", KINDS[WAIT as usize]),
    }
}

/// Row i of a shelf whose processes do nothing but send a message, post its receive and wait for it, in turn from one file to the other.
fn messages_alone(i: usize) -> String {
    let (turn, p) = (i / 3, i / 3 % PROCESSES);
    let next = (p + 1) % PROCESSES;
    match i % 3 {
        0 => format!("{p},{},,,,{turn}\r\n", KINDS[SEND as usize]),
        1 => format!("{next},{},,,,{turn}\r\n", KINDS[RECV as usize]),
        _ => format!("{next},{},,,,{turn}\r\n", KINDS[WAIT as usize]),
    }
}

/// Row i of a shelf without messages: every process reads and writes its own clip.
fn alone(i: usize) -> String {
    let p = i % PROCESSES;
    format!("{p},{},1,{},90,\r\n", KINDS[[WRITE, READ][i / PROCESSES % 2] as usize], 100 * p)
}

/// The rows of a shelf as its two controllers record them, with headers: processes with an even number in the first file.
fn files(shape: &str, rows: usize) -> [Vec<u8>; 2] {
    let all: Vec<String> = match shape {
        "to and fro" => (0..rows).map(to_and_fro).collect(),
        "messages alone" => (0..rows).map(messages_alone).collect(),
        "no messages" => (0..rows).map(alone).collect(),
        _ => String::from_utf8(text(shape, rows)).expect("plain text").lines().skip(1).map(|line| format!("{line}\r\n")).collect(),
    };
    let of = |parity: usize| {
        let mine = |line: &&String| line.split(',').next().and_then(|p| p.parse::<usize>().ok()).is_some_and(|p| p % 2 == parity);
        let rows: String = all.iter().filter(mine).map(String::as_str).collect();
        format!("process,kind,file,offset,length,message\r\n{rows}").into_bytes()
    };
    [of(0), of(1)]
}

fn whole(shape: &'static str, n: usize) -> Timed {
    let texts = files(shape, n);
    let s = JoinSettings { headers: [1, 1], model: MODEL, row_limit: n as u32, process_limit: PROCESSES as u32 };
    let [mut ours, mut theirs] = [Lent::new(n), Lent::new(n)];
    let [library, same, all] = [texts.clone(), texts.clone(), texts];
    let call = move |texts: &[Vec<u8>; 2], lent: &mut Lent| {
        join(black_box(&texts[0]), black_box(&texts[1]), s, &mut lent.rows, &mut lent.counts, &mut lent.parts)
    };
    Timed {
        library: Box::new(move || timed(|| call(&library, &mut ours))),
        plain: vec![("same steps", Box::new(move || timed(|| plain([black_box(&same[0]), black_box(&same[1])], s, &mut theirs))))],
        same: Box::new(move || {
            let [mut a, mut b] = [Lent::new(n), Lent::new(n)];
            let want = match plain([&all[0], &all[1]], s, &mut b) {
                Ok((rows, None)) => Joined::Free { rows: rows as u32 },
                Ok((rows, Some((earlier, later)))) => Joined::Race { rows: rows as u32, earlier, later },
                Err(refusal) => panic!("files that are joined, and not refused with {refusal:?}"),
            };
            assert_eq!(call(&all, &mut a), want);
            assert!(a == b);
            None
        }),
    }
}

/// One file of so many rows by itself.
fn one_file(n: usize) -> Timed {
    let text = text("mixed", n);
    let s = Settings { header: 1, model: MODEL, row_limit: n as u32, process_limit: PROCESSES as u32, byte_limit: usize::MAX };
    let lent = move || vec![7u32; 6 * n];
    let [mut rows, mut plain_rows] = [lent(), lent()];
    let [ours, theirs, all] = [text.clone(), text.clone(), text];
    let call = move |text: &[u8], rows: &mut [u32]| read_file(black_box(text), 1, n as u32, PROCESSES as u32, rows);
    Timed {
        library: Box::new(move || timed(|| call(&ours, &mut rows))),
        plain: vec![("same steps", Box::new(move || timed(|| plain_file(black_box(&theirs), s, &mut plain_rows))))],
        same: Box::new(move || {
            let [mut a, mut b] = [lent(), lent()];
            assert_eq!(call(&all, &mut a), Checked::Accepted(n as u32));
            assert_eq!(plain_file(&all, s, &mut b), Ok(n));
            assert!(a == b);
            None
        }),
    }
}

pub fn cases() -> Vec<Case> {
    let mut all = Vec::new();
    for shape in ["messages alone", "to and fro", "no messages", "mixed", "barriers"] {
        all.extend(SIZES.map(|rows| Case { name: format!("two files, {shape}"), rows, make: Box::new(move || whole(shape, rows)) }));
    }
    all.extend(SIZES.map(|rows| Case { name: "one file, mixed".to_string(), rows, make: Box::new(move || one_file(rows)) }));
    all
}
