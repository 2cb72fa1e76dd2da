//! The way on which one row happens before another: the fewest messages and barriers that lead from the one to the other.

use crate::explain::Rows;
use kiqsaryn::{BARRIER, SEND, WAIT};
use std::collections::BTreeMap;

/// A process that the order comes to, the row there with which it comes, and how: from which place of the search, by which row of that place's process.
struct Reached {
    process: u32,
    row: u32,
    by: Option<(usize, u32)>,
}

/// The rows of each process, and where the order goes on from a row to another process.
struct Ways {
    own: BTreeMap<u32, Vec<u32>>,
    /// The row that waits for each message.
    waits: BTreeMap<u32, u32>,
    /// The rows of each barrier.
    barriers: BTreeMap<u32, Vec<u32>>,
}

impl Ways {
    fn of(rows: &Rows) -> Ways {
        let mut ways = Ways { own: BTreeMap::new(), waits: BTreeMap::new(), barriers: BTreeMap::new() };
        for (k, row) in rows.all() {
            ways.own.entry(row.process).or_default().push(k);
            match row.kind {
                WAIT => {
                    ways.waits.insert(row.message, k);
                }
                BARRIER => ways.barriers.entry(row.message).or_default().push(k),
                _ => {}
            }
        }
        ways
    }

    /// The rows of other processes that a row leads to: the wait for the message that it sends, or the arrivals of the others at its barrier.
    fn from(&self, rows: &Rows, number: u32) -> Vec<u32> {
        match rows.row(number) {
            Some(row) if row.kind == SEND => self.waits.get(&row.message).copied().into_iter().collect(),
            Some(row) if row.kind == BARRIER => self.barriers.get(&row.message).cloned().unwrap_or_default(),
            _ => Vec::new(),
        }
    }
}

/// The rows on the way to a place of the search, in their order.
fn way_to(reached: &[Reached], place: usize) -> Vec<u32> {
    let mut way = Vec::new();
    let mut at = reached.get(place);
    while let Some(place) = at {
        way.push(place.row);
        at = place.by.and_then(|(before, row)| {
            way.push(row);
            reached.get(before)
        });
    }
    way.sort_unstable();
    way.dedup();
    way
}

/// The rows on the way from one row to another of another process, the first among them and the last not; none where the one does not happen before
/// the other. The search goes from process to process, and looks at no row twice: the order that comes to a process early has all that comes late.
pub fn chain(rows: &Rows, from: u32, to: u32) -> Vec<u32> {
    let (Some(start), Some(end)) = (rows.row(from), rows.row(to)) else {
        return Vec::new();
    };
    let ways = Ways::of(rows);
    let mut reached = vec![Reached { process: start.process, row: from, by: None }];
    let mut seen: BTreeMap<u32, u32> = BTreeMap::new();
    let mut place = 0;
    while let Some(&Reached { process, row, .. }) = reached.get(place) {
        if process == end.process && row < to {
            return way_to(&reached, place);
        }
        let until = seen.get(&process).copied().unwrap_or(to).min(to);
        let own = ways.own.get(&process).map_or(&[][..], |own| own);
        for leading in own.iter().copied().filter(|k| (row..until).contains(k)) {
            for next in ways.from(rows, leading) {
                let process = rows.row(next).map_or(process, |r| r.process);
                if seen.get(&process).is_none_or(|first| next < *first) {
                    reached.push(Reached { process, row: next, by: Some((place, leading)) });
                }
            }
        }
        seen.insert(process, row.min(until));
        place += 1;
    }
    Vec::new()
}
