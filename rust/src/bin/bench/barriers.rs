//! Question 22 in plain Rust: with a bit for each process that has arrived, in a table by barrier, or by scans of the rows before.

use crate::messages::MESSAGES;
use crate::reading::PROCESSES;
use kiqsaryn::BARRIER;

/// A bit for each process that has a row.
pub fn processes(rows: &[u32]) -> u64 {
    rows.chunks_exact(6).fold(0, |bits, row| bits | 1 << row[0])
}

/// Who has arrived where, and where each process stands: its last row's barrier and one, or 0.
pub struct Barriers {
    all: u64,
    arrived: Vec<u64>,
    stands: [u32; PROCESSES],
}

impl Barriers {
    /// Nobody of these processes has arrived anywhere.
    pub fn new(all: u64) -> Barriers {
        Barriers { all, arrived: Vec::new(), stands: [0; PROCESSES] }
    }

    /// Whether a process stands at a barrier at which not all have arrived.
    pub fn holds(&self, process: u32) -> bool {
        let at = self.stands[process as usize];
        at > 0 && self.arrived[at as usize - 1] != self.all
    }

    /// Notes a row. Whether it repeats a barrier's number.
    pub fn note(&mut self, row: &[u32]) -> bool {
        self.stands[row[0] as usize] = 0;
        if row[1] != BARRIER {
            return false;
        }
        self.arrived.resize(MESSAGES, 0);
        let (arrived, own) = (&mut self.arrived[row[5] as usize], 1 << row[0]);
        let repeats = *arrived & own != 0;
        *arrived |= own;
        self.stands[row[0] as usize] = row[5] + 1;
        repeats
    }

    /// Whether a process stands at an unfinished barrier once all rows are noted.
    pub fn is_unfinished(&self) -> bool {
        (0..PROCESSES as u32).any(|process| self.holds(process))
    }
}

/// The place that question 22 names, by the table.
pub fn place(rows: &[u32]) -> Option<usize> {
    let mut barriers = Barriers::new(processes(rows));
    for (k, row) in rows.chunks_exact(6).enumerate() {
        if barriers.holds(row[0]) || barriers.note(row) {
            return Some(k + 1);
        }
    }
    barriers.is_unfinished().then_some(rows.len() / 6)
}

/// Who has arrived at a barrier among rows.
fn arrived(rows: &[u32], barrier: u32) -> u64 {
    let of_this = rows.chunks_exact(6).filter(|row| row[1] == BARRIER && row[5] == barrier);
    of_this.fold(0, |bits, row| bits | 1 << row[0])
}

/// The place that question 22 names, by scans of the rows before: one for each row of a barrier, and one for each row just behind it.
pub fn place_by_scans(rows: &[u32]) -> Option<usize> {
    let all = processes(rows);
    let mut last = [0; PROCESSES];
    let open = |last: usize, n: usize| {
        let row = &rows[6 * last.saturating_sub(1)..];
        last > 0 && row[1] == BARRIER && arrived(&rows[..6 * n], row[5]) != all
    };
    for (k, row) in rows.chunks_exact(6).enumerate() {
        let own = &mut last[row[0] as usize];
        let repeats = row[1] == BARRIER && arrived(&rows[..6 * k], row[5]) >> row[0] & 1 == 1;
        if open(*own, k) || repeats {
            return Some(k + 1);
        }
        *own = k + 1;
    }
    let n = rows.len() / 6;
    last.iter().any(|last| open(*last, n)).then_some(n)
}
