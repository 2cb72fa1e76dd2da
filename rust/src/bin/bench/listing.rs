//! Every race of rows, listed into a list that is long enough for all that there can be, and into one that is long enough for those there are; next
//! to plain Rust in the same steps, and to plain Rust that collects the races in a vector first.

use crate::counts;
use crate::harness::{timed, Case, Timed};
use crate::reading::PROCESSES;
use crate::verdict::free;
use kiqsaryn::{list_len, races, Listed, Model, PAIR, WRITE};
use std::hint::black_box;

/// The most rows that there can be.
const ROWS: usize = kiqsaryn::ROWS as usize;

/// Shows each race to `found`, by its later row and then by its earlier row, in the steps by which the plain verdict finds the first: for each later row
/// one pass for the last publishing rows, unless writes publish by themselves, and one for the earlier row, whose bytes are compared last.
#[inline(always)]
fn search(rows: &[u32], n: usize, processes: usize, model: u32, counts: &[u16], mut found: impl FnMut(u32, u32)) {
    let publishes = |k: u32| matches!((model, k), (0, 1) | (1, 2) | (2, 4) | (3, 4) | (3, 5));
    let refreshes = |k: u32| matches!((model, k), (0, 0) | (1, 0) | (2, 3) | (3, 3) | (3, 5));
    let own = publishes(1);
    let row = |i: usize| &rows[i * 6..i * 6 + 6];
    let before = |i: usize, j: usize| {
        let p = row(i)[0] as usize;
        counts[i * processes + p] <= counts[j * processes + p]
    };
    for y in 0..n {
        let b = row(y);
        if b[1] > 1 {
            continue;
        }
        let refresh =
            if refreshes(0) { Some(y) } else { (0..y).rev().find(|k| refreshes(row(*k)[1]) && row(*k)[2] == b[2] && row(*k)[0] == b[0]) };
        let mut last = [0usize; PROCESSES];
        if let Some(o) = refresh.filter(|_| !own) {
            for c in 0..y {
                if row(c)[1] > 1 && publishes(row(c)[1]) && row(c)[2] == b[2] && before(c, o) {
                    last[row(c)[0] as usize] = c + 1;
                }
            }
        }
        for x in 0..y {
            let a = row(x);
            if a[1] > 1 || a[1] + b[1] == 0 || a[0] == b[0] || a[2] != b[2] {
                continue;
            }
            let ordered = if a[1] == 1 && !own { x + 1 < last[a[0] as usize] } else { before(x, y) };
            if !ordered && share(a, b) {
                found(x as u32 + 1, y as u32 + 1);
            }
        }
    }
}

/// Whether the ranges of two rows share a byte.
#[inline(always)]
fn share(a: &[u32], b: &[u32]) -> bool {
    let start = a[3].max(b[3]);
    let end = (a[3] as u64 + a[4] as u64).min(b[3] as u64 + b[4] as u64);
    (start as u64) < end
}

/// The same steps: in one go where the list is long enough for all races that there can be; else they are counted first. None where it is too short.
#[inline(never)]
fn plain(rows: &[u32], n: usize, model: u32, counts: &mut [u16], list: &mut [u32]) -> Option<usize> {
    counts::plain(rows, n, PROCESSES, counts);
    if list.len() < list_len(n as u32) && list.len() < PAIR * counted(rows, n, model, counts) {
        return None;
    }
    let (mut room, mut pairs) = (list.chunks_exact_mut(PAIR), 0);
    search(rows, n, PROCESSES, model, counts, |earlier, later| {
        room.next().expect("room for all").copy_from_slice(&[earlier, later]);
        pairs += 1;
    });
    Some(pairs)
}

/// How many races there are.
#[inline(never)]
fn counted(rows: &[u32], n: usize, model: u32, counts: &[u16]) -> usize {
    let mut pairs = 0;
    search(rows, n, PROCESSES, model, counts, |_, _| {
        pairs += 1;
    });
    pairs
}

/// The races in one go into a vector that has room for them, and from there into the list where they fit.
#[inline(never)]
fn by_vector(rows: &[u32], n: usize, model: u32, counts: &mut [u16], pairs: &mut Vec<[u32; PAIR]>, list: &mut [u32]) -> Option<usize> {
    counts::plain(rows, n, PROCESSES, counts);
    pairs.clear();
    search(rows, n, PROCESSES, model, counts, |earlier, later| {
        pairs.push([earlier, later]);
    });
    let numbers = pairs.as_flattened();
    list.get_mut(..numbers.len())?.copy_from_slice(numbers);
    Some(pairs.len())
}

/// In `some races` every so many turns of a handover have one.
const RACING_TURN: usize = 20;
/// The rows of a turn of a handover of one clip.
const TURN: usize = 7;

/// Handovers of random clips, of which every pair is in order and some half of the pairs meet; rows without messages, of which nothing is in order
/// and no pair meets; handovers of own clips, where now and then a process writes to one clip of another file, which nobody publishes; and writes of
/// one byte by all processes, which nothing orders: the most races that there can be.
fn trace(shape: &str, model: Model, n: usize) -> Vec<u32> {
    let rows: Vec<[u32; 6]> = match shape {
        "free in order" => free("random clips", model, n),
        "free apart" => free("no messages", model, n),
        "some races" => {
            let mut rows = free("own clips", model, n);
            for row in rows.iter_mut().skip(TURN - 1).step_by(TURN * RACING_TURN) {
                *row = [row[0], WRITE, 2, 0, 90, 0];
            }
            rows
        }
        _ => (0..n).map(|i| [(i % PROCESSES) as u32, WRITE, 1, 0, 1, 0]).collect(),
    };
    rows.into_flattened()
}

/// The lists are made and filled here, before anything is timed.
fn case(shape: &'static str, model: Model, exact: bool, n: usize) -> Timed {
    let rows = trace(shape, model, n);
    let number = model.number();
    let lent = move || vec![7u16; n * PROCESSES];
    let mut filled = lent();
    counts::plain(&rows, n, PROCESSES, &mut filled);
    let pairs = counted(&rows, n, number, &filled);
    let len = if exact { PAIR * pairs } else { list_len(n as u32) };
    let list = move || vec![7u32; len];
    let [mut a, mut b, mut c] = [(lent(), list()), (lent(), list()), (lent(), list())];
    let mut collected = vec![[7; PAIR]; pairs];
    let library = move |rows: &[u32], counts: &mut [u16], list: &mut [u32]| races(rows, n as u32, PROCESSES as u32, number, counts, list);
    let [ours, theirs, others, all] = [rows.clone(), rows.clone(), rows.clone(), rows];
    Timed {
        library: Box::new(move || timed(|| library(black_box(&ours), &mut a.0, &mut a.1))),
        plain: vec![
            ("same steps", Box::new(move || timed(|| plain(black_box(&theirs), n, number, &mut b.0, &mut b.1)))),
            ("by a vector", Box::new(move || timed(|| by_vector(black_box(&others), n, number, &mut c.0, &mut collected, &mut c.1)))),
        ],
        same: Box::new(move || {
            let [mut a, mut b, mut c] = [(lent(), list()), (lent(), list()), (lent(), list())];
            assert_eq!(library(&all, &mut a.0, &mut a.1), Listed::Pairs(pairs as u32));
            assert_eq!(plain(&all, n, number, &mut b.0, &mut b.1), Some(pairs));
            assert_eq!(by_vector(&all, n, number, &mut c.0, &mut Vec::new(), &mut c.1), Some(pairs));
            assert!(a == b && a == c);
            Some(("races", pairs))
        }),
    }
}

pub fn cases() -> Vec<Case> {
    let mut all = Vec::new();
    for shape in ["free in order", "free apart", "some races", "every pair"] {
        for model in [Model::Commit, Model::Session] {
            all.extend([("long list", false), ("exact list", true)].map(|(list, exact)| Case {
                name: format!("{}, {shape}, {list}", model.name()),
                rows: ROWS,
                make: Box::new(move || case(shape, model, exact, ROWS)),
            }));
        }
    }
    all
}
