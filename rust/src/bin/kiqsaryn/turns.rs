//! How far a join that is refused came, to show the rows that it is refused for. The library alone decides that it is.

use crate::barriers::Arrivals;
use crate::recording::Recording;
use kiqsaryn::{Row, SEND, WAIT};
use std::collections::BTreeSet;

/// A row of one of two recordings: the recording, 0 or 1, its number there, and the row.
#[derive(Clone, Copy)]
pub struct Own {
    pub recording: usize,
    pub number: u32,
    pub row: Row,
}

/// The rows taken, in their order, and what stands next in each recording; none at its end.
pub struct Turns {
    pub taken: Vec<Own>,
    pub next: [Option<Own>; 2],
    seen: Seen,
}

/// What the taken rows have brought, and all processes that have a row in either recording.
#[derive(Default)]
struct Seen {
    sent: BTreeSet<u32>,
    arrivals: Arrivals,
    processes: BTreeSet<u32>,
}

impl Seen {
    fn take(&mut self, row: Row) {
        self.arrivals.note(row);
        if row.kind == SEND {
            self.sent.insert(row.message);
        }
    }

    /// Whether a row waits for a message that no taken row has sent.
    fn lacks_send(&self, row: Row) -> bool {
        row.kind == WAIT && !self.sent.contains(&row.message)
    }

    /// Whether a row cannot be taken yet: it lacks its send, or its process stands at an unfinished barrier.
    fn waits(&self, row: Row) -> bool {
        self.lacks_send(row) || self.arrivals.holds(row.process, &self.processes).is_some()
    }
}

impl Turns {
    /// Whether a row waits for a message that no taken row has sent.
    pub fn lacks_send(&self, row: Row) -> bool {
        self.seen.lacks_send(row)
    }

    /// The unfinished barrier where a row's process stands, and the processes that have not arrived there.
    pub fn held(&self, row: Row) -> Option<(u32, Vec<u32>)> {
        let Seen { arrivals, processes, .. } = &self.seen;
        arrivals.holds(row.process, processes).map(|barrier| (barrier, arrivals.missing(barrier, processes)))
    }
}

fn own(recordings: &[Recording; 2], recording: usize, number: u32) -> Option<Own> {
    Some(Own { recording, number, row: recordings.get(recording)?.row(number)? })
}

/// Takes rows of two recordings, at most so many: the next of the first, unless it is at its end or the row waits; then that of the second on the same
/// condition.
pub fn turns(recordings: &[Recording; 2], most: usize) -> Turns {
    let processes = recordings.iter().flat_map(|r| r.all().map(|(_, row)| row.process)).collect();
    let mut seen = Seen { processes, ..Seen::default() };
    let mut taken = Vec::new();
    let mut next = [own(recordings, 0, 1), own(recordings, 1, 1)];
    while taken.len() < most {
        let Some(turn) = next.into_iter().flatten().find(|o| !seen.waits(o.row)) else {
            break;
        };
        seen.take(turn.row);
        taken.push(turn);
        next[turn.recording.min(1)] = own(recordings, turn.recording, turn.number + 1);
    }
    Turns { taken, next, seen }
}
