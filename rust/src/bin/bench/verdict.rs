//! The verdict, next to the same steps in plain Rust and to the naive one, pair by pair over a matrix of happens-before.

use crate::counts;
use crate::harness::{timed, Case, Timed, SIZES};
use crate::naive::order::{first_race, Order};
use crate::naive::random::Random;
use crate::reading::PROCESSES;
use kiqsaryn::{verdict, Model, Row, Verdict, CLOSE, COMMIT, OPEN, READ, RECV, SEND, SYNC, WAIT, WRITE};
use std::hint::black_box;

/// The same steps over the same slices: counts, then for each later row one pass for the last publishing rows, unless writes publish by
/// themselves, and one for the earlier row, whose bytes are compared last.
#[inline(never)]
pub fn plain(rows: &[u32], n: usize, processes: usize, model: u32, counts: &mut [u16]) -> Option<(u32, u32)> {
    let publishes = |k: u32| matches!((model, k), (0, 1) | (1, 2) | (2, 4) | (3, 4) | (3, 5));
    let refreshes = |k: u32| matches!((model, k), (0, 0) | (1, 0) | (2, 3) | (3, 3) | (3, 5));
    let own = publishes(1);
    let row = |i: usize| &rows[i * 6..i * 6 + 6];
    counts::plain(rows, n, processes, counts);
    let before = |i: usize, j: usize| {
        let p = row(i)[0] as usize;
        counts[i * processes + p] <= counts[j * processes + p]
    };
    for y in 0..n {
        let b = row(y);
        if b[1] > 1 {
            continue;
        }
        let refresh =
            if refreshes(0) { Some(y) } else { (0..y).rev().find(|k| refreshes(row(*k)[1]) && row(*k)[2] == b[2] && row(*k)[0] == b[0]) };
        let mut last = [0usize; PROCESSES];
        if let Some(o) = refresh.filter(|_| !own) {
            for c in 0..y {
                if row(c)[1] > 1 && publishes(row(c)[1]) && row(c)[2] == b[2] && before(c, o) {
                    last[row(c)[0] as usize] = c + 1;
                }
            }
        }
        for x in 0..y {
            let a = row(x);
            if a[1] > 1 || a[1] + b[1] == 0 || a[0] == b[0] || a[2] != b[2] {
                continue;
            }
            let ordered = if a[1] == 1 && !own { x + 1 < last[a[0] as usize] } else { before(x, y) };
            if ordered {
                continue;
            }
            let start = a[3].max(b[3]);
            let end = (a[3] as u64 + a[4] as u64).min(b[3] as u64 + b[4] as u64);
            if (start as u64) < end {
                return Some((x as u32 + 1, y as u32 + 1));
            }
        }
    }
    None
}

fn pairs(rows: &[u32], n: usize, model: u32) -> Option<(u32, u32)> {
    let rows: Vec<Row> = (0..n).filter_map(|k| Row::at(rows, k)).collect();
    first_race(&rows, &Order::of(&rows), model)
}

/// Where the race of the last two rows starts: behind every clip.
const RACE_START: u32 = 1_000_000;

/// Row i of a trace where a process writes so many clips, publishes and sends a message, and the next posts a receive for it, waits for it,
/// refreshes, reads as many and goes on; `clip` gives the start and the length of a process's next clip.
fn handover(i: u32, clips: u32, (publish, refresh): (u32, u32), mut clip: impl FnMut(u32) -> (u32, u32)) -> [u32; 6] {
    let turn = 2 * clips + 5;
    let (p, message) = (i / turn % PROCESSES as u32, i / turn);
    let next = (p + 1) % PROCESSES as u32;
    let mut data = |process: u32, kind: u32| {
        let (start, length) = clip(process);
        [process, kind, 1, start, length, 0]
    };
    match (i % turn).checked_sub(clips) {
        None => data(p, WRITE),
        Some(0) => [p, publish, 1, 0, 0, 0],
        Some(1) => [p, SEND, 0, 0, 0, message],
        Some(2) => [next, RECV, 0, 0, 0, message],
        Some(3) => [next, WAIT, 0, 0, 0, message],
        Some(4) => [next, refresh, 1, 0, 0, 0],
        Some(_) => data(next, READ),
    }
}

/// Row i of a trace without messages: in turn all processes write, then all read, each its own clip.
fn alone(i: u32) -> [u32; 6] {
    let (turn, p) = (i / PROCESSES as u32, i % PROCESSES as u32);
    [p, if turn % 2 == 0 { WRITE } else { READ }, 1, 10_000 * p, 90, 0]
}

/// Handovers, in which every pair is in order, of each process's own clip, which meets no other, of one clip of all, where every pair meets, or
/// of random clips, where some half of the pairs meet; or rows without messages, of which nothing orders two processes and none meet.
pub fn free(shape: &str, model: Model, n: usize) -> Vec<[u32; 6]> {
    let kinds = match model {
        Model::Posix | Model::Commit => (COMMIT, OPEN),
        Model::Session => (CLOSE, OPEN),
        Model::MpiIo => (SYNC, SYNC),
    };
    let mut random = Random::new(1);
    let row = |i: u32| match shape {
        "own clips" => handover(i, 1, kinds, |p| (100 * p, 90)),
        "one clip" => handover(i, 1, kinds, |_| (0, 90)),
        "random clips" => handover(i, 6, kinds, |_| (random.below(1000), random.below(600))),
        _ => alone(i),
    };
    (0..n as u32).map(row).collect()
}

/// Such rows, of which at the end the first process writes and the last reads what it wrote: a race.
fn trace(shape: &str, model: Model, n: usize) -> Vec<u32> {
    let mut rows = free(shape, model, n);
    rows[n - 2] = [0, WRITE, 1, RACE_START, 9, 0];
    rows[n - 1] = [PROCESSES as u32 - 1, READ, 1, RACE_START, 9, 0];
    rows.into_flattened()
}

fn case(shape: &'static str, model: Model, n: usize) -> Timed {
    let rows = trace(shape, model, n);
    let number = model.number();
    let lent = move || vec![0u16; n * PROCESSES];
    let [mut counts, mut plain_counts] = [lent(), lent()];
    let [ours, theirs, naive, all] = [rows.clone(), rows.clone(), rows.clone(), rows];
    Timed {
        library: Box::new(move || timed(|| verdict(black_box(&ours), n as u32, PROCESSES as u32, number, &mut counts))),
        plain: vec![
            ("same steps", Box::new(move || timed(|| plain(black_box(&theirs), n, PROCESSES, number, &mut plain_counts)))),
            ("pair by pair", Box::new(move || timed(|| pairs(black_box(&naive), n, number)))),
        ],
        same: Box::new(move || {
            let [mut a, mut b] = [lent(), lent()];
            let race = Some((n as u32 - 1, n as u32));
            assert_eq!(verdict(&all, n as u32, PROCESSES as u32, number, &mut a), Verdict::Race { earlier: n as u32 - 1, later: n as u32 });
            assert_eq!(plain(&all, n, PROCESSES, number, &mut b), race);
            assert_eq!(pairs(&all, n, number), race);
            assert!(a == b);
            None
        }),
    }
}

pub fn cases() -> Vec<Case> {
    let mut all = Vec::new();
    for shape in ["own clips", "one clip", "random clips", "no messages"] {
        for model in Model::ALL {
            all.extend(SIZES.map(|rows| Case {
                name: format!("{}, {shape}", model.name()),
                rows,
                make: Box::new(move || case(shape, model, rows)),
            }));
        }
    }
    all
}
