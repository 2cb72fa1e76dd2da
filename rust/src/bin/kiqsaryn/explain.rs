//! Why two rows are a race: the part of the model's chain that is missing. An explanation is a list of claims, each of which can be checked
//! against the definitions on its own; the words stand in `words.rs`.
//!
//! The row that publishes soonest after the earlier row and the row that refreshes latest before the later one are the best choices for a
//! chain: where they are not in order, no others are.

use crate::posted::{missing_waits, Posted};
use kiqsaryn::{Model, Row, CLOSE, COMMIT, OPEN, READ, SYNC, WAIT, WRITE};

/// Accepted rows with their happens-before counts.
#[derive(Clone, Copy)]
pub struct Rows<'a> {
    pub rows: &'a [u32],
    pub n: u32,
    pub processes: u32,
    pub counts: &'a [u16],
}

impl<'a> Rows<'a> {
    /// The row of a number, from 1.
    pub fn row(self, number: u32) -> Option<Row> {
        if number > self.n {
            return None;
        }
        Row::at(self.rows, number.checked_sub(1)? as usize)
    }

    /// The rows with their numbers.
    pub fn all(self) -> impl DoubleEndedIterator<Item = (u32, Row)> + 'a {
        (1..=self.n).filter_map(move |k| Some((k, self.row(k)?)))
    }

    /// How many rows of a process happen before a row or are the row.
    fn count(self, number: u32, process: u32) -> Option<u16> {
        let at = (number.checked_sub(1)? as usize).checked_mul(self.processes as usize)?;
        self.counts.get(at.checked_add(process as usize)?).copied()
    }

    /// Whether a row happens before another.
    pub fn before(self, i: u32, j: u32) -> Option<bool> {
        let p = self.row(i)?.process;
        Some(i < j && self.count(i, p)? <= self.count(j, p)?)
    }

    /// The last row of a process that happens before a row of another process, if any does.
    fn last_before(self, process: u32, j: u32) -> Option<Option<u32>> {
        match usize::from(self.count(j, process)?) {
            0 => Some(None),
            k => self.all().filter(|(_, r)| r.process == process).nth(k - 1).map(|(number, _)| Some(number)),
        }
    }
}

/// The kinds that end a writer's side of the chain; none where the write itself does.
pub fn publishing(model: Model) -> &'static [u32] {
    match model {
        Model::Posix => &[],
        Model::Commit => &[COMMIT],
        Model::Session => &[CLOSE],
        Model::MpiIo => &[CLOSE, SYNC],
    }
}

/// The kinds that begin the other side; none where the later row itself does.
pub fn refreshing(model: Model) -> &'static [u32] {
    match model {
        Model::Posix | Model::Commit => &[],
        Model::Session => &[OPEN],
        Model::MpiIo => &[OPEN, SYNC],
    }
}

/// A statement about the rows. Publishing and refreshing are of the race's file and under its model.
#[derive(Clone, Copy, Debug, PartialEq, Eq)]
pub enum Claim {
    /// The process has no publishing row after this one.
    NoPublish { process: u32, after: u32 },
    /// The process's first publishing row after this one.
    FirstPublish { process: u32, after: u32, row: u32 },
    /// The process has no refreshing row before this one.
    NoRefresh { process: u32, before: u32 },
    /// The process's last refreshing row before this one.
    LastRefresh { process: u32, before: u32, row: u32 },
    /// The one row, of one process, does not happen before the other, of another.
    NotBefore { from: u32, to: u32 },
    /// The receive is posted and not waited for in time; `wait` is the row, behind, that waits for it, if any does. A wait in time for this one, and
    /// for each other that is claimed so, would bring the order.
    PostedOnly { posted: Posted, wait: Option<u32> },
    /// The last row of the process that happens before this one, of another process; `None` where none does.
    LastBefore { process: u32, row: u32, last: Option<u32> },
}

/// Why the pair is a race.
#[derive(Clone, Debug, PartialEq, Eq)]
pub struct Explanation {
    pub model: Model,
    pub file: u32,
    pub earlier: u32,
    pub later: u32,
    /// The first and the last byte that both touch.
    pub shared: (u32, u32),
    pub claims: Vec<Claim>,
}

/// The first and the last byte of both ranges.
pub fn shared(a: Row, b: Row) -> Option<(u32, u32)> {
    let end = |r: Row| u64::from(r.offset) + u64::from(r.length);
    let first = a.offset.max(b.offset);
    let last = end(a).min(end(b)).checked_sub(1)?;
    let last = u32::try_from(last).ok()?;
    (first <= last).then_some((first, last))
}

/// The claim that a receive is posted and not waited for in time.
fn posted_only(rows: &Rows, posted: Posted) -> Option<Claim> {
    let message = rows.row(posted.recv)?.message;
    let waits = |(k, r): &(u32, Row)| *k > posted.before && r.kind == WAIT && r.message == message;
    Some(Claim::PostedOnly { posted, wait: rows.all().find(waits).map(|(k, _)| k) })
}

/// What is claimed of the order between the two sides of a chain, each with its row of the pair and its best row of the chain, if it has one; `None`
/// where both have one and these are in order.
fn order(rows: &Rows, [(earlier, start), (later, end)]: [(u32, Option<u32>); 2]) -> Option<Vec<Claim>> {
    let (from, to) = (start.unwrap_or(earlier), end.unwrap_or(later));
    let (in_order, complete) = (rows.before(from, to)?, start.is_some() && end.is_some());
    let mut claims = Vec::new();
    if in_order && complete {
        return None;
    }
    if complete {
        claims.push(Claim::NotBefore { from, to });
    }
    if !in_order {
        claims.extend(missing_waits(rows, from, to).into_iter().filter_map(|posted| posted_only(rows, posted)));
    }
    let process = rows.row(from)?.process;
    claims.push(Claim::LastBefore { process, row: to, last: rows.last_before(process, to)? });
    Some(claims)
}

/// The explanation of a race; `None` where the rows do not conflict or a chain is found after all.
pub fn explain(rows: &Rows, model: Model, earlier: u32, later: u32) -> Option<Explanation> {
    let (x, y) = (rows.row(earlier)?, rows.row(later)?);
    let data = |r: Row| r.kind == READ || r.kind == WRITE;
    let writes = x.kind == WRITE || y.kind == WRITE;
    if earlier >= later || !data(x) || !data(y) || !writes || x.file != y.file || x.process == y.process {
        return None;
    }
    let shared = shared(x, y)?;
    let (publish, refresh) = match x.kind {
        READ => (&[][..], &[][..]),
        _ => (publishing(model), refreshing(model)),
    };
    let of = |process: u32, kinds: &'static [u32]| move |r: Row| r.process == process && r.file == x.file && kinds.contains(&r.kind);
    let (is_publish, is_refresh) = (of(x.process, publish), of(y.process, refresh));
    let mut claims = Vec::new();

    let start = if publish.is_empty() {
        Some(earlier)
    } else {
        let first = rows.all().find(|(k, r)| *k > earlier && is_publish(*r)).map(|(k, _)| k);
        claims.push(match first {
            Some(row) => Claim::FirstPublish { process: x.process, after: earlier, row },
            None => Claim::NoPublish { process: x.process, after: earlier },
        });
        first
    };
    let end = if refresh.is_empty() {
        Some(later)
    } else {
        let last = rows.all().rev().find(|(k, r)| *k < later && is_refresh(*r)).map(|(k, _)| k);
        claims.push(match last {
            Some(row) => Claim::LastRefresh { process: y.process, before: later, row },
            None => Claim::NoRefresh { process: y.process, before: later },
        });
        last
    };
    claims.extend(order(rows, [(earlier, start), (later, end)])?);
    Some(Explanation { model, file: x.file, earlier, later, shared, claims })
}
