//! Question 22, put to all rows of a trace: the rule's words, with a look through all rows before for each.

use kiqsaryn::{Row, BARRIER};

/// What question 22 finds wrong with a row, or, the last, with the end of a trace.
#[derive(Clone, Copy, Debug, PartialEq, Eq)]
pub enum Wrong {
    /// A row of a barrier of which the same process has a row before.
    Repeats,
    /// A row of a process that has a row before of a barrier at which not all have arrived.
    GoesOn,
    /// The trace ends, and at a barrier not all have arrived.
    Unfinished,
}

/// How many ways there are to be wrong.
pub const WRONGS: usize = 3;

/// The processes that have a row, each once.
pub fn processes(rows: &[Row]) -> Vec<u32> {
    let mut all: Vec<u32> = rows.iter().map(|row| row.process).collect();
    all.sort();
    all.dedup();
    all
}

/// Who has arrived where: the barrier and the process of each row of a barrier.
fn arrivals(rows: &[Row]) -> Vec<(u32, u32)> {
    rows.iter().filter(|row| row.kind == BARRIER).map(|row| (row.message, row.process)).collect()
}

/// Whether all of these processes have arrived at a barrier.
fn is_finished(barrier: u32, processes: &[u32], arrivals: &[(u32, u32)]) -> bool {
    processes.iter().all(|process| arrivals.contains(&(barrier, *process)))
}

/// Whether a row's process stands at an unfinished barrier: one of the rows before is its arrival at a barrier at which not all of these processes
/// have arrived among the rows before.
pub fn is_held(row: Row, before: &[Row], processes: &[u32]) -> bool {
    let arrivals = arrivals(before);
    arrivals.iter().any(|(barrier, process)| *process == row.process && !is_finished(*barrier, processes, &arrivals))
}

fn repeats(row: Row, before: &[Row]) -> bool {
    row.kind == BARRIER && arrivals(before).contains(&(row.message, row.process))
}

/// The place that question 22 names, and what is wrong there; none where it is answered Yes.
pub fn wrong(rows: &[Row]) -> Option<(u32, Vec<Wrong>)> {
    let processes = processes(rows);
    for (k, row) in rows.iter().enumerate() {
        let found = [(Wrong::Repeats, repeats(*row, &rows[..k])), (Wrong::GoesOn, is_held(*row, &rows[..k], &processes))];
        let found: Vec<Wrong> = found.into_iter().filter(|(_, holds)| *holds).map(|(wrong, _)| wrong).collect();
        if !found.is_empty() {
            return Some((k as u32 + 1, found));
        }
    }
    let all = arrivals(rows);
    let unfinished = all.iter().any(|(barrier, _)| !is_finished(*barrier, &processes, &all));
    unfinished.then(|| (rows.len() as u32, vec![Wrong::Unfinished]))
}
