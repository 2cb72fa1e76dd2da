//! How many rows of a recording there are of each sort, to hold against the recorder.

use crate::recording::Recording;
use crate::text::counted;
use kiqsaryn::{BARRIER, RECV, SEND, WAIT};
use std::collections::{BTreeMap, BTreeSet};

/// How many rows each process has, each file, the messages and the barriers, how many receives no row waits for, and how many barriers there are.
#[derive(Default)]
pub struct Tally {
    pub processes: BTreeMap<u32, u64>,
    pub files: BTreeMap<u32, u64>,
    pub messages: u64,
    pub posted_only: u64,
    pub arrivals: u64,
    pub barriers: u64,
}

/// How many receives are posted whose messages no row of the recording waits for. Each wait is of the process that posts, so of the same recording.
fn not_waited_for(recording: &Recording) -> usize {
    let of = |kind: u32| recording.all().filter(move |(_, row)| row.kind == kind).map(|(_, row)| row.message);
    let waited: BTreeSet<u32> = of(WAIT).collect();
    of(RECV).filter(|message| !waited.contains(message)).count()
}

impl Tally {
    pub fn of(recording: &Recording) -> Tally {
        let (mut tally, mut barriers) = (Tally::default(), BTreeSet::new());
        for (_, row) in recording.all() {
            *tally.processes.entry(row.process).or_insert(0) += 1;
            match row.kind {
                SEND | RECV | WAIT => tally.messages += 1,
                BARRIER => {
                    tally.arrivals += 1;
                    barriers.insert(row.message);
                }
                _ => *tally.files.entry(row.file).or_insert(0) += 1,
            }
        }
        tally.posted_only = not_waited_for(recording) as u64;
        tally.barriers = barriers.len() as u64;
        tally
    }

    /// What is counted, and how many rows it has. What has none is left out.
    pub fn lines(&self) -> Vec<(String, String)> {
        let rows = |n: u64| counted(n, "row");
        let of = |name: &'static str| move |(number, n): (&u32, &u64)| (format!("{name} {number}"), rows(*n));
        let mut lines: Vec<(String, String)> = self.processes.iter().map(of("process")).collect();
        lines.extend(self.files.iter().map(of("file")));
        if self.messages > 0 {
            lines.push(("send, recv and wait, of no file".to_string(), rows(self.messages)));
        }
        if self.posted_only > 0 {
            lines.push(("recv without a wait".to_string(), rows(self.posted_only)));
        }
        if self.arrivals > 0 {
            lines.push(("barrier, of no file".to_string(), format!("{} ({})", rows(self.arrivals), counted(self.barriers, "barrier"))));
        }
        lines
    }
}
