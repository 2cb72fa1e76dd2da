//! Random rows of two files that are to be joined.

use super::random::Random;
use super::rows::{damage_barrier, some_rows_within};
use kiqsaryn::{Row, BARRIER, RECV, SEND, WAIT};

/// The rows of two files.
pub type Files = [Vec<Row>; 2];

/// Rows of one trace as two controllers record them: each row goes to the file of its process. Seldom one file gets all.
fn split(r: &mut Random, rows: &[Row]) -> Files {
    let mut second = r.bits();
    if r.once_in(20) {
        second = r.pick(&[0, u64::MAX]);
    } else if let Some(other) = rows.iter().find(|row| row.process != rows[0].process) {
        // The first two processes are in different files.
        let bit = second >> rows[0].process & 1;
        second = second & !(1 << other.process) | (1 - bit) << other.process;
    }
    rows.iter().partition(|row| second >> row.process & 1 == 0).into()
}

/// A row of a kind: its file, its place there, and the row.
fn some_row(r: &mut Random, files: &Files, kind: u32) -> Option<(usize, usize, Row)> {
    let places = |k: usize| files[k].iter().enumerate().filter(|(_, row)| row.kind == kind).map(move |(at, row)| (k, at, *row));
    let all: Vec<(usize, usize, Row)> = places(0).chain(places(1)).collect();
    (!all.is_empty()).then(|| r.pick(&all))
}

/// Puts a row of a message into a file at the place `from` or anywhere behind it.
fn put_talk(r: &mut Random, file: &mut Vec<Row>, from: usize, process: u32, kind: u32, message: u32) {
    let at = from + if r.once_in(2) { 0 } else { r.place(file.len() + 1 - from) };
    file.insert(at, Row { process, kind, message, ..Row::default() });
}

/// A message sent, posted or waited for once more: behind one of its rows by the same or another process of that file, or anywhere in the other
/// file. Or a wait of another process of its file.
fn damage_message(r: &mut Random, files: &mut Files) {
    let (of, kind) = (r.pick(&[SEND, RECV, WAIT]), r.pick(&[SEND, RECV, WAIT]));
    let Some((k, at, row)) = some_row(r, files, of) else {
        return;
    };
    if of == WAIT && r.once_in(3) {
        files[k][at].process = r.pick(&files[k]).process;
        return;
    }
    if r.once_in(2) {
        put_talk(r, &mut files[k], at + 1, row.process, kind, row.message);
        return;
    }
    let to = if r.once_in(2) { k } else { 1 - k };
    if !files[to].is_empty() {
        let process = r.pick(&files[to]).process;
        put_talk(r, &mut files[to], if to == k { at + 1 } else { 0 }, process, kind, row.message);
    }
}

/// A recv or wait moved to the front, a send to the back or left out, or a row to any place, so that rows may wait for ever.
fn damage_order(r: &mut Random, files: &mut Files) {
    let other = r.below(SEND);
    let kind = r.pick(&[SEND, SEND, RECV, WAIT, WAIT, other]);
    let Some((k, at, row)) = some_row(r, files, kind) else {
        return;
    };
    files[k].remove(at);
    let rest = files[k].len() - at;
    match kind {
        SEND if r.once_in(2) => {}
        SEND => files[k].insert(at + r.place(rest + 1), row),
        RECV | WAIT => files[k].insert(r.place(at + 1), row),
        _ => files[k].insert(r.place(at + rest + 1), row),
    }
}

/// Every process ends at one barrier, and mostly one of them does not arrive there.
fn end_at_barrier(r: &mut Random, files: &mut Files) {
    let Some((_, _, Row { message, .. })) = some_row(r, files, BARRIER) else {
        return;
    };
    let is_of = |row: &Row| row.kind == BARRIER && row.message == message;
    for file in &mut *files {
        let before = |k: usize| !file[..k].iter().any(|row| is_of(row) && row.process == file[k].process);
        *file = (0..file.len()).filter(|k| before(*k)).map(|k| file[k]).collect();
    }
    let k = r.place(2);
    if let Some(at) = files[k].iter().rposition(is_of).filter(|_| !r.once_in(4)) {
        files[k].remove(at);
    }
}

/// A row put into the other file, or a process of the other file put into a row.
fn damage_process(r: &mut Random, files: &mut Files) {
    let k = r.place(2);
    if files[k].is_empty() {
        return;
    }
    let at = r.place(files[k].len());
    if files[1 - k].is_empty() || r.once_in(2) {
        let row = files[k].remove(at);
        let to = r.place(files[1 - k].len() + 1);
        files[1 - k].insert(to, row);
    } else {
        files[k][at].process = r.pick(&files[1 - k]).process;
    }
}

/// Two files, mostly those of a trace that is accepted, of at most so many rows together where none is added, and the process limit that they keep.
pub fn some_files(r: &mut Random, most: usize) -> (Files, u32) {
    let most = if r.once_in(40) { r.place(3).min(most) } else { most };
    let (rows, process_limit) = some_rows_within(r, most);
    let mut files = split(r, &rows);
    match r.below(16) {
        0 | 1 => damage_message(r, &mut files),
        2 => damage_order(r, &mut files),
        3 => (0..3).for_each(|_| damage_order(r, &mut files)),
        4 => damage_process(r, &mut files),
        5 => {
            damage_message(r, &mut files);
            damage_order(r, &mut files);
        }
        6 => {
            let k = r.place(2);
            damage_barrier(r, &mut files[k]);
        }
        7 => end_at_barrier(r, &mut files),
        _ => {}
    }
    (files, process_limit)
}
