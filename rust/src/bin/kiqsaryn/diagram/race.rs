//! What a picture shows of a race: its rows, those that the explanation names, and the messages and barriers that lead to the later row.

use super::chain::chain;
use crate::explain::{explain, Claim, Rows};
use crate::input::Trace;
use crate::words::{words, Words};
use kiqsaryn::{Model, Row, BARRIER, SEND, WAIT};
use std::collections::{BTreeMap, BTreeSet};

/// Why a row is marked: it races, or the explanation names it behind this word.
#[derive(Clone, Copy, Debug, PartialEq, Eq, PartialOrd, Ord)]
pub enum Mark {
    Racing,
    Found,
    Order,
    Posted,
}

impl Mark {
    pub fn word(self) -> &'static str {
        match self {
            Mark::Racing => "Race",
            Mark::Found => "Found",
            Mark::Order => "Order",
            Mark::Posted => "Posted",
        }
    }
}

/// How much of the rows between the two is drawn: all rows of both processes, those that messages and barriers between them need, or none that the
/// explanation does not need.
#[derive(Clone, Copy, PartialEq, Eq)]
pub enum Depth {
    Whole,
    Messages,
    Bare,
}

/// A stretch of so few rows is drawn, since a word on it would take as much space.
const SHORT: usize = 2;

/// A race, its explanation, which names the two rows by their numbers alone, the marked rows, and the other rows that the explanation needs.
pub struct Race {
    pub earlier: u32,
    pub later: u32,
    pub words: Option<Words>,
    pub marks: BTreeMap<u32, BTreeSet<Mark>>,
    needed: BTreeSet<u32>,
}

impl Race {
    pub fn new(trace: &Trace, model: Model, (earlier, later): (u32, u32)) -> Race {
        let rows = trace.rows();
        let explanation = explain(&rows, model, earlier, later);
        let mut race = Race { earlier, later, words: None, marks: BTreeMap::new(), needed: BTreeSet::new() };
        race.mark(earlier, Mark::Racing);
        race.mark(later, Mark::Racing);
        for claim in explanation.iter().flat_map(|e| &e.claims) {
            race.take(&rows, *claim);
        }
        race.words = explanation.and_then(|e| words(&e, &rows, &mut trace.naming(&[earlier, later])));
        race
    }

    fn mark(&mut self, row: u32, mark: Mark) {
        self.marks.entry(row).or_default().insert(mark);
    }

    /// Takes up the rows that a claim names.
    fn take(&mut self, rows: &Rows, claim: Claim) {
        match claim {
            Claim::FirstPublish { row, .. } | Claim::LastRefresh { row, .. } => self.mark(row, Mark::Found),
            Claim::LastBefore { row, last: Some(last), .. } => {
                self.mark(last, Mark::Order);
                self.needed.extend(chain(rows, last, row));
            }
            Claim::PostedOnly { posted, wait } => {
                self.mark(posted.recv, Mark::Posted);
                self.needed.extend([posted.send, posted.before].into_iter().chain(wait));
            }
            Claim::NoPublish { .. } | Claim::NoRefresh { .. } | Claim::NotBefore { .. } | Claim::LastBefore { last: None, .. } => {}
        }
    }

    /// The rows of the picture, so deep.
    pub fn rows(&self, rows: &Rows, depth: Depth) -> BTreeSet<u32> {
        let processes = [self.earlier, self.later].map(|k| rows.row(k).map(|r| r.process));
        let is_between = |k: u32, r: Row| (self.earlier..=self.later).contains(&k) && processes.contains(&Some(r.process));
        let bare: BTreeSet<u32> = self.marks.keys().chain(&self.needed).copied().collect();
        if depth == Depth::Bare {
            return bare;
        }
        let between = rows.all().filter(|(k, r)| is_between(*k, *r)).map(|(k, _)| k);
        let whole = with_barriers(rows, between.chain(bare.iter().copied()).collect());
        if depth == Depth::Whole {
            return whole;
        }
        with_messages(rows, &whole, bare)
    }
}

/// Rows, and of the barriers among them the rows of every process that has one of the rows.
fn with_barriers(rows: &Rows, mut all: BTreeSet<u32>) -> BTreeSet<u32> {
    let of_all: Vec<Row> = all.iter().filter_map(|k| rows.row(*k)).collect();
    let processes: BTreeSet<u32> = of_all.iter().map(|r| r.process).collect();
    let barriers: BTreeSet<u32> = of_all.iter().filter(|r| r.kind == BARRIER).map(|r| r.message).collect();
    let is_of_them = |r: Row| r.kind == BARRIER && barriers.contains(&r.message) && processes.contains(&r.process);
    all.extend(rows.all().filter(|(_, r)| is_of_them(*r)).map(|(k, _)| k));
    all
}

/// The kept rows, and of all of them the barriers, the messages of which both ends are there, and short stretches between rows that are kept.
fn with_messages(rows: &Rows, all: &BTreeSet<u32>, mut kept: BTreeSet<u32>) -> BTreeSet<u32> {
    let of = |kind: u32| all.iter().filter_map(move |k| rows.row(*k).filter(|r| r.kind == kind).map(|r| (*k, r.message)));
    let messages = |kind: u32| of(kind).map(|(_, message)| message).collect::<BTreeSet<u32>>();
    let (sent, waited) = (messages(SEND), messages(WAIT));
    kept.extend(of(BARRIER).map(|(k, _)| k));
    kept.extend(of(SEND).chain(of(WAIT)).filter(|(_, m)| sent.contains(m) && waited.contains(m)).map(|(k, _)| k));
    let mut stretch = Vec::new();
    let mut short = Vec::new();
    for k in all {
        if !kept.contains(k) {
            stretch.push(*k);
            continue;
        }
        if stretch.len() <= SHORT {
            short.append(&mut stretch);
        }
        stretch.clear();
    }
    kept.extend(short);
    kept
}
