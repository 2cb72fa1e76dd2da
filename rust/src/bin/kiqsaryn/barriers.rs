//! Barriers in words: who has arrived, what question 22 found, and why a row of a join is held back. The library alone decides.

use crate::messages::Numbered;
use crate::text::{describe, labelled};
use kiqsaryn::{Row, BARRIER};
use std::collections::{BTreeMap, BTreeSet};

/// Who has arrived at which barrier among rows that are noted one by one.
#[derive(Default)]
pub struct Arrivals {
    /// By barrier.
    arrived: BTreeMap<u32, BTreeSet<u32>>,
    /// The barrier of each process's last row, if that is one.
    stands: BTreeMap<u32, u32>,
}

impl Arrivals {
    pub fn note(&mut self, row: Row) {
        self.stands.remove(&row.process);
        if row.kind == BARRIER {
            self.arrived.entry(row.message).or_default().insert(row.process);
            self.stands.insert(row.process, row.message);
        }
    }

    /// Those of these processes that have not arrived at a barrier.
    pub fn missing(&self, barrier: u32, processes: &BTreeSet<u32>) -> Vec<u32> {
        let arrived = self.arrived.get(&barrier);
        processes.iter().copied().filter(|p| arrived.is_none_or(|a| !a.contains(p))).collect()
    }

    /// The barrier where a process stands and not all of these processes have arrived.
    pub fn holds(&self, process: u32, processes: &BTreeSet<u32>) -> Option<u32> {
        self.stands.get(&process).copied().filter(|barrier| !self.missing(*barrier, processes).is_empty())
    }

    /// The barriers with rows so far at which not all of these processes have arrived.
    fn unfinished(&self, processes: &BTreeSet<u32>) -> Vec<u32> {
        self.arrived.keys().copied().filter(|barrier| !self.missing(*barrier, processes).is_empty()).collect()
    }
}

/// Whether a row is a process's arrival at a barrier.
pub fn is_arrival(row: Row, process: u32, barrier: u32) -> bool {
    (row.kind, row.process, row.message) == (BARRIER, process, barrier)
}

/// Names of processes, each with what is said of it: "process 1 (row 7, behind it), process 4 (no row of the trace)".
pub fn listed(processes: &[u32], said: impl Fn(u32) -> String) -> String {
    let names: Vec<String> = processes.iter().map(|p| format!("process {p} ({})", said(*p))).collect();
    names.join(", ")
}

/// The rows of a trace, or of a join, that is refused with 22, and the place.
pub struct Refused {
    pub rows: Vec<Numbered>,
    pub place: usize,
}

impl Refused {
    /// The first row that is a process's arrival at a barrier.
    fn arrival(&self, process: u32, barrier: u32) -> Option<&Numbered> {
        self.rows.iter().find(|n| is_arrival(n.row, process, barrier))
    }

    /// What is wrong with the row at the place, if anything, and the rows before that it is about.
    fn wrong_row(&self, row: Row, before: &Arrivals, processes: &BTreeSet<u32>) -> (Vec<&Numbered>, Vec<String>) {
        let Row { process, message, .. } = row;
        let (mut shown, mut notes) = (Vec::new(), Vec::new());
        let first = self.arrival(process, message).filter(|n| row.kind == BARRIER && (n.number as usize) < self.place);
        if let Some(n) = first {
            shown.push(n);
            notes.push(format!("row {} arrives at barrier {message} already: a process arrives once at each barrier.", n.number));
        }
        let held = before.holds(process, processes).and_then(|barrier| Some((barrier, self.arrival(process, barrier)?)));
        if let Some((barrier, n)) = held {
            if first.is_none_or(|first| first.number != n.number) {
                shown.push(n);
            }
            let missing = listed(&before.missing(barrier, processes), |p| match self.arrival(p, barrier) {
                Some(late) => format!("row {}, behind it", late.number),
                None => "no row of it".to_string(),
            });
            notes.push(format!("process {process} stands at barrier {barrier} and goes on. Not arrived: {missing}."));
        }
        (shown, notes)
    }

    /// What is wrong at the end: each unfinished barrier, who has arrived there, and who has not.
    fn unfinished(&self, all: &Arrivals, processes: &BTreeSet<u32>) -> Vec<String> {
        let told = |barrier: u32| {
            let missing = all.missing(barrier, processes);
            let arrived = processes.iter().filter_map(|p| self.arrival(*p, barrier));
            let arrived: Vec<String> = arrived.map(|n| format!("process {} at row {}{}", n.row.process, n.number, n.own)).collect();
            let missing: Vec<String> = missing.iter().map(|p| format!("process {p}")).collect();
            let ends = format!("barrier {barrier} is unfinished at the end. Arrived: {}", arrived.join(", "));
            format!("{ends}. Not arrived: {}.", missing.join(", "))
        };
        all.unfinished(processes).into_iter().map(told).collect()
    }

    /// The rows before that the refusal is about, and what is wrong, in sentences.
    pub fn wrong(&self) -> (Vec<&Numbered>, Vec<String>) {
        let processes: BTreeSet<u32> = self.rows.iter().map(|n| n.row.process).collect();
        let mut arrivals = Arrivals::default();
        let Some(at) = self.place.checked_sub(1).and_then(|at| self.rows.get(at)) else {
            return (Vec::new(), Vec::new());
        };
        self.rows.iter().take(self.place - 1).for_each(|n| arrivals.note(n.row));
        let (shown, mut notes) = self.wrong_row(at.row, &arrivals, &processes);
        if notes.is_empty() {
            self.rows.iter().skip(self.place - 1).for_each(|n| arrivals.note(n.row));
            notes = self.unfinished(&arrivals, &processes);
        }
        (shown, notes)
    }

    /// The rows before that the refusal is about, on a line each, and what is wrong.
    pub fn report(&self) -> String {
        let (shown, notes) = self.wrong();
        let mut s = String::new();
        for n in shown {
            s.push_str(&labelled("  before it:   ", &format!("row {}{}: {}", n.number, n.own, describe(n.row))));
        }
        notes.iter().for_each(|note| s.push_str(&labelled("  note:        ", note)));
        s
    }
}
