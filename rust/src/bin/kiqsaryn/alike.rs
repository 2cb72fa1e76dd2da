//! Which races lack the same.
//!
//! Two races lack the same where `words.rs` says the same of both behind Needed and behind Missing, but for the numbers of rows: the same process
//! comes first, with a read or with a write, and the same part of the model's chain is not there. What Found, Posted and Order say may differ.
//! `Lack` is what these sentences depend on, and takes one look into two tables for a race; an explanation goes through all rows.

use crate::explain::{publishing, refreshing, Rows};
use kiqsaryn::{Model, FILES, READ};

/// What is missing between the two rows of a race of one file and two processes.
#[derive(Clone, Copy, Debug, PartialEq, Eq)]
pub struct Lack {
    /// The process of the earlier row, and whether that row is a read.
    process: u32,
    reads: bool,
    chain: Chain,
}

/// What the model's chain between the two rows lacks.
#[derive(Clone, Copy, Debug, PartialEq, Eq)]
enum Chain {
    Publish,
    Refresh,
    Both,
    /// The order between the rows of the chain, which stand in the trace one behind the other; or the other way round.
    Order,
    Reversed,
}

/// For each row of a trace the rows that its side of a chain would go through under a model.
pub struct Lacks<'a> {
    rows: Rows<'a>,
    /// The first row behind it by which its process publishes its file; the row itself where no row is asked for.
    publish: Vec<Option<u32>>,
    /// The last row before it by which its process refreshes its file; the row itself where no row is asked for.
    refresh: Vec<Option<u32>>,
}

/// For each row, in the order in which they come, the last of these kinds before it, of its process and its file.
fn last_of<'a>(rows: Rows<'a>, order: impl Iterator<Item = u32> + 'a, kinds: &[u32]) -> Vec<Option<u32>> {
    let mut all = vec![None; rows.n as usize + 1];
    let mut last = vec![None; rows.processes as usize * FILES as usize];
    for number in order {
        let Some(row) = rows.row(number) else {
            continue;
        };
        let last = &mut last[row.process as usize * FILES as usize + row.file as usize];
        all[number as usize] = if kinds.is_empty() { Some(number) } else { *last };
        if kinds.contains(&row.kind) {
            *last = Some(number);
        }
    }
    all
}

impl<'a> Lacks<'a> {
    pub fn new(rows: Rows<'a>, model: Model) -> Lacks<'a> {
        let publish = last_of(rows, (1..=rows.n).rev(), publishing(model));
        let refresh = last_of(rows, 1..=rows.n, refreshing(model));
        Lacks { rows, publish, refresh }
    }

    /// The first row behind a row by which its process publishes its file; the row itself where no row is asked for.
    pub fn publish(&self, row: u32) -> Option<u32> {
        *self.publish.get(row as usize)?
    }

    /// The last row before a row by which its process refreshes its file; the row itself where no row is asked for.
    pub fn refresh(&self, row: u32) -> Option<u32> {
        *self.refresh.get(row as usize)?
    }

    /// What a race lacks; `None` for numbers of no rows.
    pub fn of(&self, earlier: u32, later: u32) -> Option<Lack> {
        let row = self.rows.row(earlier)?;
        let reads = row.kind == READ;
        let from = if reads { Some(earlier) } else { *self.publish.get(earlier as usize)? };
        let to = if reads { Some(later) } else { *self.refresh.get(later as usize)? };
        let chain = match (from, to) {
            (None, None) => Chain::Both,
            (None, Some(_)) => Chain::Publish,
            (Some(_), None) => Chain::Refresh,
            (Some(from), Some(to)) if from < to => Chain::Order,
            (Some(_), Some(_)) => Chain::Reversed,
        };
        Some(Lack { process: row.process, reads, chain })
    }
}
