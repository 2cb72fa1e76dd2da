//! Happens-before, counts and races.

use kiqsaryn::{Row, BARRIER, CLOSE, COMMIT, OPEN, READ, SEND, SYNC, WAIT, WRITE};

/// Happens-before as a matrix: a bit for each pair.
#[derive(PartialEq, Eq)]
pub struct Order {
    before: Vec<Vec<u64>>,
}

/// Whether both rows are of one barrier.
fn same_barrier(a: Row, b: Row) -> bool {
    a.kind == BARRIER && b.kind == BARRIER && a.message == b.message
}

/// A direct step of the order: rows of one process; a send and the wait for its message; or a row of a barrier and a row just behind that barrier, so
/// that the last row before it of its own process is of the same barrier.
fn edge(rows: &[Row], i: usize, j: usize) -> bool {
    let (a, b) = (rows[i], rows[j]);
    let last = || rows[..j].iter().rev().find(|r| r.process == b.process);
    let delivers = a.kind == SEND && b.kind == WAIT && a.message == b.message;
    i < j && (a.process == b.process || delivers || (a.kind == BARRIER && last().is_some_and(|last| same_barrier(a, *last))))
}

/// The same with document 02's sentence on barriers: each row of a barrier comes before every row that follows a row of that barrier in any process.
/// This one step may lead back, unless question 22 is answered Yes.
fn sentence(rows: &[Row], i: usize, j: usize) -> bool {
    let (a, b) = (rows[i], rows[j]);
    let follows = || rows[..j].iter().any(|r| r.process == b.process && same_barrier(a, *r));
    (i < j && (a.process == b.process || (a.kind == SEND && b.kind == WAIT && a.message == b.message))) || (a.kind == BARRIER && follows())
}

impl Order {
    /// The transitive closure of the direct steps; they lead forward alone.
    pub fn of(rows: &[Row]) -> Order {
        Order::closed(rows, edge)
    }

    /// The order of the same rows by document 02's sentence on barriers; none where a step leads back.
    pub fn by_sentence(rows: &[Row]) -> Option<Order> {
        let back = (0..rows.len()).any(|j| (j..rows.len()).any(|i| sentence(rows, i, j)));
        (!back).then(|| Order::closed(rows, sentence))
    }

    fn closed(rows: &[Row], edge: fn(&[Row], usize, usize) -> bool) -> Order {
        let words = rows.len().div_ceil(64);
        let mut before: Vec<Vec<u64>> = Vec::new();
        for j in 0..rows.len() {
            let mut mine = vec![0u64; words];
            for (i, his) in before.iter().enumerate().filter(|(i, _)| edge(rows, *i, j)) {
                mine[i / 64] |= 1 << (i % 64);
                mine.iter_mut().zip(his).for_each(|(m, h)| *m |= h);
            }
            before.push(mine);
        }
        Order { before }
    }

    /// Does row i happen before row j?
    pub fn before(&self, i: usize, j: usize) -> bool {
        self.before[j][i / 64] >> (i % 64) & 1 == 1
    }
}

/// For each row and each process below the limit: how many rows of that process happen before the row or are the row.
pub fn counts(rows: &[Row], order: &Order, process_limit: u32) -> Vec<u16> {
    let mut all = Vec::new();
    for j in 0..rows.len() {
        let mut mine = vec![0u16; process_limit as usize];
        for (i, row) in rows.iter().enumerate() {
            if row.process < process_limit && (i == j || order.before(i, j)) {
                mine[row.process as usize] += 1;
            }
        }
        all.extend(mine);
    }
    all
}

/// Do two rows name the same file and share a byte, are they of different processes, and is one a write?
pub fn conflict(a: Row, b: Row) -> bool {
    let data = |r: Row| r.kind == READ || r.kind == WRITE;
    let end = |r: Row| u64::from(r.offset) + u64::from(r.length);
    let shared = u64::from(a.offset.max(b.offset)) < end(a).min(end(b));
    data(a) && data(b) && a.file == b.file && shared && a.process != b.process && (a.kind == WRITE || b.kind == WRITE)
}

/// Is row x, the earlier of a conflicting pair, properly synchronized with row y?
fn synchronized(rows: &[Row], order: &Order, model: u32, x: usize, y: usize) -> bool {
    let is = |k: usize, of: usize, kinds: &[u32]| {
        rows[k].process == rows[of].process && rows[k].file == rows[of].file && kinds.contains(&rows[k].kind)
    };
    let mut later = x + 1..rows.len();
    let through = |c: usize, kinds: &[u32]| (0..y).any(|o| is(o, y, kinds) && order.before(c, o));
    match (rows[x].kind, model) {
        (READ, _) | (_, 0) => order.before(x, y),
        (_, 1) => later.any(|c| is(c, x, &[COMMIT]) && order.before(c, y)),
        (_, 2) => later.any(|c| is(c, x, &[CLOSE]) && through(c, &[OPEN])),
        _ => later.any(|c| is(c, x, &[CLOSE, SYNC]) && through(c, &[SYNC, OPEN])),
    }
}

/// Do two rows conflict, the earlier at place x, and are they not properly synchronized?
pub fn is_race(rows: &[Row], order: &Order, model: u32, x: usize, y: usize) -> bool {
    conflict(rows[x], rows[y]) && !synchronized(rows, order, model, x, y)
}

/// The race with the smallest later row, then the smallest earlier row, by row numbers.
pub fn first_race(rows: &[Row], order: &Order, model: u32) -> Option<(u32, u32)> {
    for y in 0..rows.len() {
        for x in 0..y {
            if is_race(rows, order, model, x, y) {
                return Some((x as u32 + 1, y as u32 + 1));
            }
        }
    }
    None
}
