//! Receives that are posted and not waited for in time, where waits for them would bring one row before another.
//!
//! Barriers need no look: a process goes on from a barrier only when all have arrived, so that a barrier which leads away from the earlier row leads
//! to the later one too, or no process goes on from it before the later row.

use crate::explain::Rows;
use kiqsaryn::{RECV, SEND, WAIT};
use std::collections::BTreeMap;

/// A receive that a process posts at one row, for a message that another row sends, and that it does not wait for before a third.
#[derive(Clone, Copy, Debug, PartialEq, Eq)]
pub struct Posted {
    pub recv: u32,
    pub send: u32,
    pub before: u32,
}

/// How the order could come from a row through messages, up to some row behind it.
#[derive(Default)]
struct Reach {
    /// The processes that it would come to by waits of the trace, each with the waits that are missing on the way there.
    processes: BTreeMap<u32, Vec<Posted>>,
    /// The messages that would carry it, each with its send and the waits that are missing up to there.
    messages: BTreeMap<u32, (u32, Vec<Posted>)>,
    /// The receives that each process has posted, by their rows and messages.
    posted: BTreeMap<u32, Vec<(u32, u32)>>,
}

impl Reach {
    /// The fewest waits that are missing for the order to come to a row of a process; `None` where no waits would bring it.
    fn missing(&self, process: u32, row: u32) -> Option<Vec<Posted>> {
        let posted = self.posted.get(&process).into_iter().flatten();
        let sent = posted.filter_map(|(recv, message)| self.messages.get(message).map(|(send, missing)| (*recv, *send, missing)));
        let by_posted = sent.min_by_key(|(_, _, missing)| missing.len()).map(|(recv, send, missing)| {
            let last = Posted { recv, send, before: row };
            missing.iter().copied().chain([last]).collect()
        });
        by_posted.into_iter().chain(self.processes.get(&process).cloned()).min_by_key(Vec::len)
    }

    /// A process waits for a message at a row.
    fn wait(&mut self, process: u32, message: u32) {
        let Some((_, missing)) = self.messages.get(&message) else {
            return;
        };
        if self.processes.get(&process).is_none_or(|known| missing.len() < known.len()) {
            self.processes.insert(process, missing.clone());
        }
    }
}

/// The fewest receives, posted and not waited for in time, such that waits for them would bring one row before another of a later place; none where
/// no waits would. The trace itself does not bring the one before the other.
pub fn missing_waits(rows: &Rows, from: u32, to: u32) -> Vec<Posted> {
    let mut reach = Reach::default();
    for (k, row) in rows.all() {
        if k == from {
            reach.processes.insert(row.process, Vec::new());
        }
        if k == to {
            return reach.missing(row.process, k).unwrap_or_default();
        }
        match row.kind {
            RECV => reach.posted.entry(row.process).or_default().push((k, row.message)),
            WAIT => reach.wait(row.process, row.message),
            SEND => {
                if let Some(missing) = reach.missing(row.process, k) {
                    reach.messages.insert(row.message, (k, missing));
                }
            }
            _ => {}
        }
    }
    Vec::new()
}
