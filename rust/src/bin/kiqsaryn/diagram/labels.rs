//! The texts in the boxes of rows.

use crate::input::{Recorded, Trace};
use kiqsaryn::{Row, BARRIER, KINDS, READ, RECV, SEND, WAIT, WRITE};
use std::collections::{BTreeMap, BTreeSet};

/// The letters of the two traces of a join.
pub const LETTERS: [char; 2] = ['A', 'B'];

/// A joined row's letter, and its number in that trace.
pub fn letter(trace: &Trace, number: u32) -> Option<(char, u32)> {
    match &trace.source {
        Recorded::Alone(_) => None,
        Recorded::Joined(join) => join.origin(number).and_then(|o| Some((*LETTERS.get(o.recording)?, o.number))),
    }
}

/// A row by its number, and of a join by its own number too: "17 B3".
fn numbered(trace: &Trace, number: u32) -> String {
    letter(trace, number).map_or(number.to_string(), |(letter, own)| format!("{number} {letter}{own}"))
}

/// The texts of the boxes of a picture that shows these rows.
pub struct Labels<'a> {
    trace: &'a Trace,
    drawn: &'a BTreeSet<u32>,
    /// The rows that send each message, and those that wait for each.
    sent: BTreeMap<u32, u32>,
    waited: BTreeMap<u32, u32>,
    /// How many rows of each barrier are not drawn.
    hidden: BTreeMap<u32, usize>,
}

impl<'a> Labels<'a> {
    pub fn new(trace: &'a Trace, drawn: &'a BTreeSet<u32>) -> Labels<'a> {
        let rows_of = |kind: u32| trace.rows().all().filter(move |(_, r)| r.kind == kind);
        let by_message = |kind: u32| rows_of(kind).map(|(k, r)| (r.message, k)).collect();
        let mut hidden = BTreeMap::new();
        for (_, r) in rows_of(BARRIER).filter(|(k, _)| !drawn.contains(k)) {
            *hidden.entry(r.message).or_default() += 1;
        }
        Labels { trace, drawn, sent: by_message(SEND), waited: by_message(WAIT), hidden }
    }

    /// The row that waits for a message, whether it is drawn or not.
    pub fn wait(&self, message: u32) -> Option<u32> {
        self.waited.get(&message).copied()
    }

    /// The row at the other end of a row's message, with its process, if it is not drawn.
    pub fn far_end(&self, row: Row) -> Option<(u32, u32)> {
        let end = match row.kind {
            SEND => self.waited.get(&row.message),
            WAIT => self.sent.get(&row.message),
            _ => None,
        };
        let far = end.copied().filter(|k| !self.drawn.contains(k))?;
        Some((far, self.trace.rows().row(far)?.process))
    }

    /// What a row's message lacks, or where it leads that is not drawn.
    fn beyond(&self, row: Row) -> String {
        if let Some((far, process)) = self.far_end(row) {
            let way = if row.kind == SEND { "to" } else { "from" };
            return format!(", {way} process {process}, row {}", numbered(self.trace, far));
        }
        match (row.kind, self.wait(row.message)) {
            (RECV, _) if !self.sent.contains_key(&row.message) => ", not sent".to_string(),
            (_, None) => ", not waited for".to_string(),
            (RECV, Some(wait)) if !self.drawn.contains(&wait) => format!(", wait is row {}", numbered(self.trace, wait)),
            _ => String::new(),
        }
    }

    /// How many rows of a barrier are not drawn.
    fn others(&self, barrier: u32) -> String {
        self.hidden.get(&barrier).map_or(String::new(), |n| format!(", {n} not drawn"))
    }

    /// The short text in a row's box.
    pub fn of(&self, number: u32, row: Row) -> String {
        let kind = KINDS.get(row.kind as usize).copied().unwrap_or("?");
        let rest = match row.kind {
            READ | WRITE => match row.length {
                0 => format!("f{} no bytes", row.file),
                1 => format!("f{} {}", row.file, row.offset),
                n => format!("f{} {}-{}", row.file, row.offset, u64::from(row.offset) + u64::from(n) - 1),
            },
            SEND | RECV | WAIT => format!("m{}{}", row.message, self.beyond(row)),
            BARRIER => format!("b{}{}", row.message, self.others(row.message)),
            _ => format!("f{}", row.file),
        };
        format!("{} {kind} {rest}", numbered(self.trace, number))
    }
}
