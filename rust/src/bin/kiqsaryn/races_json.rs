//! `races --json`: under each model the groups and every race that is shown, written as they come.

use crate::args::Choice;
use crate::groups::{pairs, Group, Groups, Key, Pair};
use crate::input::Trace;
use crate::json;
use crate::races::Found;
use crate::trace_json::{of_judged, race};
use kiqsaryn::{Model, PAIR};
use std::io::{self, Write};

/// The races under models that have the same ones, in groups, and which of them are shown.
struct Section<'a> {
    trace: &'a Trace,
    found: &'a Found,
    groups: Groups<'a>,
    choice: &'a Choice,
}

impl<'a> Section<'a> {
    fn new(trace: &'a Trace, found: &'a Found, choice: &'a Choice) -> Section<'a> {
        Section { trace, found, groups: Groups::new(trace.rows(), &found.list), choice }
    }

    /// How many races are shown at most.
    fn limit(&self) -> usize {
        self.choice.limit.map_or(usize::MAX, |limit| limit as usize)
    }

    /// The groups that are chosen, each with its place among all.
    fn chosen(&self) -> impl Iterator<Item = (usize, &Group)> {
        self.groups.all.iter().enumerate().filter(|(_, group)| group.key.is_chosen(self.choice))
    }

    /// Writes the object of a model.
    fn put(&self, out: &mut impl Write, model: Model) -> io::Result<()> {
        let chosen: usize = self.chosen().map(|(_, group)| group.races).sum();
        let counts = [
            ("model", json::string(model.name())),
            ("races", (self.found.list.len() / PAIR).to_string()),
            ("groups", self.groups.all.len().to_string()),
            ("chosen", chosen.to_string()),
            ("shown", chosen.min(self.limit()).to_string()),
        ];
        write!(out, "{{{},\"chosen_groups\":[", json::fields(&counts))?;
        self.put_groups(out, model)?;
        write!(out, "],\n\"pairs\":[")?;
        self.put_pairs(out)?;
        write!(out, "]}}")
    }

    /// Writes an object for each group that is chosen.
    fn put_groups(&self, out: &mut impl Write, model: Model) -> io::Result<()> {
        let alike = self.groups.alike(model);
        let mut comma = "";
        for (place, group) in self.chosen() {
            let Key { file, processes } = group.key;
            let fields = [
                ("file", file.to_string()),
                ("processes", json::list(processes.map(|p| p.to_string()))),
                ("races", group.races.to_string()),
                ("alike", alike.get(place).copied().unwrap_or(0).to_string()),
                ("first", race(self.trace, model, group.first)),
            ];
            write!(out, "{comma}\n{}", json::object(&fields))?;
            comma = ",";
        }
        Ok(())
    }

    /// Writes the races that are shown, with a line for those of each later row.
    fn put_pairs(&self, out: &mut impl Write) -> io::Result<()> {
        let rows = self.trace.rows();
        let is_chosen = |pair: &Pair| Key::of(rows, *pair).is_some_and(|key| key.is_chosen(self.choice));
        let (mut comma, mut line) = ("", 0);
        for (earlier, later) in pairs(&self.found.list).filter(is_chosen).take(self.limit()) {
            let gap = if later == line { "" } else { "\n" };
            write!(out, "{comma}{gap}[{earlier},{later}]")?;
            (comma, line) = (",", later);
        }
        Ok(())
    }
}

/// Writes the object of one trace, or of one join.
pub fn put(out: &mut impl Write, trace: &Trace, models: &[Model], all: &[Found], choice: &Choice) -> io::Result<()> {
    let sections: Vec<Section> = all.iter().map(|found| Section::new(trace, found, choice)).collect();
    write!(out, "{{{},\"models\":[", json::fields(&of_judged(trace)))?;
    let mut comma = "";
    for model in models {
        if let Some(section) = sections.iter().find(|section| section.found.models.contains(model)) {
            writeln!(out, "{comma}")?;
            section.put(out, *model)?;
            comma = ",";
        }
    }
    write!(out, "]}}")
}
