//! Random rows that no reader has accepted, and what the calls on rows refuse.

use super::random::Random;
use super::{is_process_limit, PROCESSES};
use kiqsaryn::{Refusal, Row, KINDS};

/// A slice of a length that starts so, and then holds 0.
pub fn padded<T: Copy + Default>(front: Vec<T>, len: usize) -> Vec<T> {
    let mut all = front;
    all.resize(len, T::default());
    all
}

/// The refusal of the counts, or of a verdict whose model is one or not: 1, 2, then 10.
pub fn refusal_of(rows: &[Row], lent: usize, n: u32, process_limit: u32, model: bool, counts_len: usize) -> Option<Refusal> {
    let (n, limit) = (u64::from(n), u64::from(process_limit));
    if 6 * n > lent as u64 || n * limit > counts_len as u64 {
        return Refusal::from_number(1);
    }
    if !model || n > 4096 || !is_process_limit(process_limit) {
        return Refusal::from_number(2);
    }
    let low = rows.iter().take(n as usize).all(|row| row.process < process_limit);
    if low {
        None
    } else {
        Refusal::from_number(10)
    }
}

/// Messages so far apart share a chain of sends when counts are filled.
const SAME_CHAIN: u32 = 4096;

/// Rows that no text gives: any kinds, processes past the limit, messages sent twice and waited for early, barriers gone past, ranges past the end.
pub fn wild_rows(r: &mut Random, n: u32, process_limit: u32) -> Vec<Row> {
    let kinds = r.pick(&[KINDS.len() as u32, KINDS.len() as u32 + 2]);
    let processes = if r.once_in(2) { process_limit.max(1) } else { process_limit + 2 };
    let far = r.pick(&[u32::MAX, 6]);
    let mut number = |most: u32| {
        if r.once_in(far) {
            r.pick(&[u32::MAX, u32::MAX - 1, PROCESSES, 65_536])
        } else {
            r.below(most)
        }
    };
    let row = |_| Row {
        process: number(processes),
        kind: number(kinds),
        file: number(2),
        offset: number(9),
        length: number(9),
        message: number(4).wrapping_add(SAME_CHAIN * number(2).min(1)),
    };
    (0..n).map(row).collect()
}
