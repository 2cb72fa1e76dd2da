//! The counts of every row, next to plain Rust that finds earlier rows by the same tables.

use crate::harness::{timed, Case, Timed, SIZES};
use crate::reading::{text, PROCESSES};
use kiqsaryn::{check_trace, fill_counts, Checked, Settings, BARRIER, SEND, WAIT};
use std::hint::black_box;

/// Fills the counts of the first n rows. Tables find earlier rows: the last row of each process, the last send of each message with a chain of the
/// sends before it, and the last row of each barrier likewise.
#[inline(never)]
pub fn plain(rows: &[u32], n: usize, processes: usize, counts: &mut [u16]) {
    let mut last = [0usize; PROCESSES];
    let (mut sent, mut arrived) = (vec![0u16; 65_536], vec![0u16; 65_536]);
    let mut earlier = vec![0u16; n];
    counts.fill(0);
    for j in 0..n {
        let row = &rows[j * 6..j * 6 + 6];
        let (process, message) = (row[0] as usize, row[5] as usize);
        let (before, from) = counts.split_at_mut(j * processes);
        let own = &mut from[..processes];
        let mut join = |k: usize| {
            for (a, b) in own.iter_mut().zip(&before[k * processes..(k + 1) * processes]) {
                *a = (*a).max(*b);
            }
        };
        if let Some(k) = last[process].checked_sub(1) {
            join(k);
            if rows[k * 6 + 1] == BARRIER {
                join_all(&mut join, arrived[rows[k * 6 + 5] as usize], &earlier);
            }
        }
        if row[1] == WAIT {
            join_all(&mut join, sent[message], &earlier);
        }
        own[process] += 1;
        last[process] = j + 1;
        if row[1] == SEND || row[1] == BARRIER {
            let chain = if row[1] == SEND { &mut sent[message] } else { &mut arrived[message] };
            earlier[j] = std::mem::replace(chain, j as u16 + 1);
        }
    }
}

/// Joins every row of a chain, from its last on.
fn join_all(join: &mut impl FnMut(usize), last: u16, earlier: &[u16]) {
    let mut next = last;
    while next > 0 {
        join(next as usize - 1);
        next = earlier[next as usize - 1];
    }
}

/// The rows of a text that the library accepts.
pub fn rows(shape: &str, n: usize) -> Vec<u32> {
    let (mut rows, mut counts) = (vec![0u32; 6 * n], vec![0u16; PROCESSES * n]);
    let s = Settings { header: 1, model: 1, row_limit: n as u32, process_limit: PROCESSES as u32, byte_limit: usize::MAX };
    assert_eq!(check_trace(&text(shape, n), s, &mut rows, &mut counts), Checked::Accepted(n as u32));
    rows
}

fn case(shape: &'static str, n: usize) -> Timed {
    let rows = rows(shape, n);
    let lent = move || vec![7u16; n * PROCESSES];
    let [mut counts, mut plain_counts] = [lent(), lent()];
    let [ours, theirs, all] = [rows.clone(), rows.clone(), rows];
    Timed {
        library: Box::new(move || timed(|| fill_counts(black_box(&ours), n as u32, PROCESSES as u32, &mut counts))),
        plain: vec![("same tables", Box::new(move || timed(|| plain(black_box(&theirs), n, PROCESSES, &mut plain_counts))))],
        same: Box::new(move || {
            let [mut a, mut b] = [lent(), lent()];
            assert_eq!(fill_counts(&all, n as u32, PROCESSES as u32, &mut a), Ok(()));
            plain(&all, n, PROCESSES, &mut b);
            assert!(a == b);
            None
        }),
    }
}

pub fn cases() -> Vec<Case> {
    let mut all = Vec::new();
    for shape in ["data rows", "messages", "mixed", "barriers", "barriers alone"] {
        all.extend(SIZES.map(|rows| Case { name: shape.to_string(), rows, make: Box::new(move || case(shape, rows)) }));
    }
    all
}
