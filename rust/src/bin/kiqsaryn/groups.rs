//! Races in groups: those of one file and of two processes, whichever of the two comes first.

use crate::alike::{Lack, Lacks};
use crate::args::Choice;
use crate::explain::Rows;
use kiqsaryn::{Model, PAIR};
use std::collections::HashMap;

/// The numbers of a race's rows, the earlier first.
pub type Pair = (u32, u32);

/// The races of a list, two numbers each.
pub fn pairs(list: &[u32]) -> impl Iterator<Item = Pair> + '_ {
    list.chunks_exact(PAIR).map(|pair| (pair[0], pair[1]))
}

/// A file and two processes, the smaller one first.
#[derive(Clone, Copy, Debug, PartialEq, Eq, Hash)]
pub struct Key {
    pub file: u32,
    pub processes: [u32; 2],
}

impl Key {
    /// The file and the processes of a race.
    pub fn of(rows: Rows, (earlier, later): Pair) -> Option<Key> {
        let (x, y) = (rows.row(earlier)?, rows.row(later)?);
        Some(Key { file: x.file, processes: [x.process.min(y.process), x.process.max(y.process)] })
    }

    /// Whether the races of this file and these processes are among those that are chosen. A group is chosen whole or not at all.
    pub fn is_chosen(self, choice: &Choice) -> bool {
        choice.file.is_none_or(|file| self.file == file) && choice.process.is_none_or(|p| self.processes.contains(&p))
    }
}

/// A group: its first race, and how many there are.
#[derive(Clone, Copy, Debug)]
pub struct Group {
    pub key: Key,
    pub first: Pair,
    pub races: usize,
}

/// What races of a group lack: the first of them, and how many there are.
#[derive(Clone, Copy, Debug)]
pub struct Reason {
    pub lack: Lack,
    pub first: Pair,
    pub races: usize,
}

/// The groups of a list, in the order of their first races.
pub struct Groups<'a> {
    pub all: Vec<Group>,
    rows: Rows<'a>,
    list: &'a [u32],
    places: HashMap<Key, usize>,
}

impl<'a> Groups<'a> {
    pub fn new(rows: Rows<'a>, list: &'a [u32]) -> Groups<'a> {
        let mut groups = Groups { all: Vec::new(), rows, list, places: HashMap::new() };
        for first in pairs(list) {
            let Some(key) = Key::of(rows, first) else {
                continue;
            };
            let place = *groups.places.entry(key).or_insert(groups.all.len());
            match groups.all.get_mut(place) {
                Some(group) => group.races += 1,
                None => groups.all.push(Group { key, first, races: 1 }),
            }
        }
        groups
    }

    /// The races of the list, each with the place of its group.
    fn placed(&self) -> impl Iterator<Item = (Pair, usize)> + '_ {
        pairs(self.list).filter_map(|pair| Some((pair, *self.places.get(&Key::of(self.rows, pair)?)?)))
    }

    /// The first races of those that are chosen, at most so many, for each group.
    pub fn shown(&self, choice: &Choice, limit: usize) -> Vec<Vec<Pair>> {
        let mut shown = vec![Vec::new(); self.all.len()];
        for (pair, place) in self.placed().filter(|(_, place)| self.all[*place].key.is_chosen(choice)).take(limit) {
            shown[place].push(pair);
        }
        shown
    }

    /// For each group how many of its races lack the same as its first under a model.
    pub fn alike(&self, model: Model) -> Vec<usize> {
        let lacks = Lacks::new(self.rows, model);
        let of = |(earlier, later): Pair| lacks.of(earlier, later);
        let firsts: Vec<_> = self.all.iter().map(|group| of(group.first)).collect();
        let mut alike = vec![0; self.all.len()];
        for (pair, place) in self.placed() {
            alike[place] += usize::from(of(pair) == firsts[place]);
        }
        alike
    }

    /// For each group what its races lack under a model: equal ones once, in the order of their first races.
    pub fn reasons(&self, model: Model) -> Vec<Vec<Reason>> {
        let lacks = Lacks::new(self.rows, model);
        let mut all: Vec<Vec<Reason>> = vec![Vec::new(); self.all.len()];
        for (first, place) in self.placed() {
            let Some(lack) = lacks.of(first.0, first.1) else {
                continue;
            };
            match all[place].iter_mut().find(|reason| reason.lack == lack) {
                Some(reason) => reason.races += 1,
                None => all[place].push(Reason { lack, first, races: 1 }),
            }
        }
        all
    }
}
