//! `races`: every race under each model, as the library lists them, and in groups.

use crate::args::Choice;
use crate::check::{free, sentence, sentences, what_was_joined, why};
use crate::explain::shared;
use crate::groups::{pairs, Group, Groups, Key, Pair};
use crate::input::{Recorded, Trace};
use crate::replay::heading;
use crate::text::{counted, labelled, refusal_of_library, span};
use kiqsaryn::{list_len, races, Listed, Model, Row, PAIR, READ};
use std::io::{self, Write};

/// How many races are shown in words under each model where no limit is said. The lines with commas have no limit unless one is said.
const LIMIT: u32 = 1000;

// ---- The library's lists

/// The races under models that have the same ones: two numbers each, the earlier row's first, as the library lists them.
pub struct Found {
    pub models: Vec<Model>,
    pub list: Vec<u32>,
}

/// The library's list of the races under a model. An error is a sentence.
fn list(trace: &Trace, model: Model) -> Result<Vec<u32>, String> {
    let rows = trace.rows();
    let mut counts = vec![0; trace.counts.len()];
    // The system gives memory to the part of the list that is written, and to no other.
    let mut list = vec![0; list_len(rows.n)];
    match races(rows.rows, rows.n, rows.processes, model.number(), &mut counts, &mut list) {
        Listed::Pairs(n) => {
            list.truncate(PAIR * n as usize);
            list.shrink_to_fit();
            Ok(list)
        }
        Listed::Refused { refusal, .. } => Err(refusal_of_library(&format!("there is no list of races under {}", model.name()), refusal)),
    }
}

/// How many races there are under a model. An error is a sentence.
pub fn count(trace: &Trace, model: Model) -> Result<usize, String> {
    Ok(list(trace, model)?.len() / PAIR)
}

/// The lists under the models, each kept once. An error is a sentence.
pub fn find(trace: &Trace, models: &[Model]) -> Result<Vec<Found>, String> {
    let mut all: Vec<Found> = Vec::new();
    for model in models {
        let list = list(trace, *model)?;
        match all.iter_mut().find(|found| found.list == list) {
            Some(found) => found.models.push(*model),
            None => all.push(Found { models: vec![*model], list }),
        }
    }
    Ok(all)
}

pub fn any_race(all: &[Found]) -> bool {
    all.iter().any(|found| !found.list.is_empty())
}

/// The list under a model.
fn of_model(all: &[Found], model: Model) -> Option<&Found> {
    all.iter().find(|found| found.models.contains(&model))
}

/// "commit, session".
pub fn names(models: &[Model]) -> String {
    models.iter().map(|m| m.name()).collect::<Vec<&str>>().join(", ")
}

/// Writes a line for each race that is chosen, in the order of the list, model by model. Each line starts with the lead.
pub fn csv(out: &mut impl Write, lead: &str, trace: &Trace, models: &[Model], all: &[Found], choice: &Choice) -> io::Result<()> {
    let rows = trace.rows();
    let limit = choice.limit.unwrap_or(u32::MAX) as usize;
    for model in models {
        let list = of_model(all, *model).map_or(&[][..], |found| &found.list);
        let is_chosen = |pair: &Pair| Key::of(rows, *pair).is_some_and(|key| key.is_chosen(choice));
        for (earlier, later) in pairs(list).filter(is_chosen).take(limit) {
            write!(out, "{lead}{},{earlier},{later}\r\n", model.name())?;
        }
    }
    Ok(())
}

// ---- In words

/// The races under models that have the same ones, in groups, and which of them are shown.
struct Section<'a> {
    trace: &'a Trace,
    models: &'a [Model],
    races: usize,
    groups: Groups<'a>,
    choice: &'a Choice,
    /// How many races are shown at most.
    limit: usize,
}

impl<'a> Section<'a> {
    fn new(trace: &'a Trace, found: &'a Found, choice: &'a Choice) -> Section<'a> {
        let (races, groups) = (found.list.len() / PAIR, Groups::new(trace.rows(), &found.list));
        Section { trace, models: &found.models, races, groups, choice, limit: choice.limit.unwrap_or(LIMIT) as usize }
    }

    fn is_chosen(&self, group: &Group) -> bool {
        group.key.is_chosen(self.choice)
    }

    /// How many races are chosen, and in how many groups.
    fn chosen(&self) -> (usize, usize) {
        let chosen = self.groups.all.iter().filter(|group| self.is_chosen(group));
        chosen.fold((0, 0), |(races, groups), group| (races + group.races, groups + 1))
    }

    /// How many races are chosen and not shown.
    fn hidden(&self) -> usize {
        self.chosen().0.saturating_sub(self.limit)
    }

    /// How many races there are, whatever is chosen; how many of them are chosen, and how many of these are shown.
    fn counts(&self) -> String {
        if self.races == 0 {
            return free(self.trace).to_string();
        }
        let mut s = format!("{}, in {}", counted(self.races as u64, "race"), counted(self.groups.all.len() as u64, "group"));
        match self.chosen() {
            _ if is_of_all(self.choice) => {}
            (0, _) => s.push_str("; chosen: none"),
            (races, groups) => s.push_str(&format!("; chosen: {races}, in {}", counted(groups as u64, "group"))),
        }
        match (self.hidden(), self.limit) {
            (0, _) => {}
            (_, 0) => s.push_str("; shown: none"),
            (_, 1) => s.push_str("; shown: the first"),
            (_, limit) => s.push_str(&format!("; shown: the first {limit}")),
        }
        s
    }

    /// Writes the groups that are chosen: those with races that are shown come first.
    fn put(&self, out: &mut impl Write) -> io::Result<()> {
        if self.chosen().0 == 0 {
            return Ok(());
        }
        let shown = self.groups.shown(self.choice, self.limit);
        let alike: Vec<Vec<usize>> = self.models.iter().map(|model| self.groups.alike(*model)).collect();
        writeln!(out, "\nRaces under {}", names(self.models))?;
        let mut gap = "\n";
        for (k, group) in self.groups.all.iter().enumerate().filter(|(_, group)| self.is_chosen(group)) {
            write!(out, "{gap}{}", head(group))?;
            if shown[k].is_empty() {
                gap = "";
                writeln!(out, ", not shown")?;
                continue;
            }
            writeln!(out)?;
            self.put_races(out, group, &shown[k])?;
            for (model, alike) in self.models.iter().zip(&alike) {
                write!(out, "{}", reason(self.trace, *model, group, alike[k]))?;
            }
        }
        Ok(())
    }

    /// Writes a line for each race, with its entries in columns.
    fn put_races(&self, out: &mut impl Write, group: &Group, shown: &[Pair]) -> io::Result<()> {
        let titles = TITLES.map(str::to_string);
        let mut widths = titles.each_ref().map(String::len);
        for pair in shown {
            let lengths = entries(self.trace, *pair).map(|entry| entry.len());
            widths.iter_mut().zip(lengths).for_each(|(width, length)| *width = length.max(*width));
        }
        put_line(out, &titles, &widths)?;
        for pair in shown {
            put_line(out, &entries(self.trace, *pair), &widths)?;
        }
        match group.races - shown.len() {
            0 => Ok(()),
            more => writeln!(out, "  and {more} more"),
        }
    }
}

/// What the columns hold: of each row its number, who does what, and its bytes; then the bytes of both.
pub const TITLES: [&str; 7] = ["row", "process", "bytes", "row", "process", "bytes", "shared bytes"];

pub fn head(group: &Group) -> String {
    let Key { file, processes: [p, q] } = group.key;
    format!("File {file}, process {p} and process {q}: {}", counted(group.races as u64, "race"))
}

/// A row of a race in three columns.
fn entries_of(trace: &Trace, number: u32, row: Row) -> [String; 3] {
    let does = if row.kind == READ { "reads" } else { "writes" };
    [format!("{number}{}", trace.own_behind(number)), format!("{} {does}", row.process), span(row.offset, row.length)]
}

/// A race in columns.
pub fn entries(trace: &Trace, (earlier, later): Pair) -> [String; 7] {
    let rows = trace.rows();
    let (x, y) = (rows.row(earlier).unwrap_or_default(), rows.row(later).unwrap_or_default());
    let both = shared(x, y).map_or(String::new(), |(first, last)| {
        let length = last - first + 1;
        format!("{} ({})", span(first, length), counted(u64::from(length), "byte"))
    });
    let ([a, b, c], [d, e, f]) = (entries_of(trace, earlier, x), entries_of(trace, later, y));
    [a, b, c, d, e, f, both]
}

/// Writes entries in columns; behind the last there is no space.
fn put_line(out: &mut impl Write, entries: &[String; 7], widths: &[usize; 7]) -> io::Result<()> {
    let line: Vec<String> = entries.iter().zip(widths).map(|(entry, width)| format!("{entry:width$}")).collect();
    writeln!(out, "  {}", line.join("  ").trim_end())
}

/// Why the first race of a group is one under a model, and how many of its races lack the same.
fn reason(trace: &Trace, model: Model, group: &Group, alike: usize) -> String {
    let (earlier, later) = group.first;
    let words = why(trace, model, earlier, later);
    let mut s = format!("  Row {earlier} and row {later} under {}:\n{}", model.name(), sentences(words.as_ref()));
    match group.races {
        1 => {}
        n if n == alike => s.push_str(&sentence("Alike", &format!("the same is missing for all {n} races."))),
        n => s.push_str(&sentence("Alike", &format!("the same is missing for {alike} of the {n} races."))),
    }
    s
}

/// Whether the races of every file and process are chosen.
fn is_of_all(choice: &Choice) -> bool {
    choice.file.is_none() && choice.process.is_none()
}

/// Which races are chosen; nothing where all are.
fn chosen(choice: &Choice) -> String {
    let words = match (choice.file, choice.process) {
        (None, None) => return String::new(),
        (Some(file), None) => format!("the races of file {file}"),
        (None, Some(process)) => format!("the races in which process {process} has a row"),
        (Some(file), Some(process)) => format!("the races of file {file} in which process {process} has a row"),
    };
    labelled("Chosen: ", &words)
}

/// Writes how many races there are under each model, and then the groups.
pub fn report(out: &mut impl Write, trace: &Trace, models: &[Model], all: &[Found], choice: &Choice) -> io::Result<()> {
    let sections: Vec<Section> = all.iter().map(|found| Section::new(trace, found, choice)).collect();
    write!(out, "{}", heading(trace).0)?;
    if let Recorded::Joined(join) = &trace.source {
        write!(out, "{}", what_was_joined(join))?;
    }
    write!(out, "{}\nRaces:\n", chosen(choice))?;
    for model in models {
        let counts = sections.iter().find(|section| section.models.contains(model)).map_or(String::new(), Section::counts);
        write!(out, "{}", labelled(&format!("  {:8} ", model.name()), &counts))?;
    }
    for section in &sections {
        section.put(out)?;
    }
    write!(out, "{}", ending(&sections, choice))
}

/// How to see the races that the limit leaves out, if it does.
fn ending(sections: &[Section], choice: &Choice) -> String {
    if sections.iter().all(|section| section.hidden() == 0) {
        return String::new();
    }
    let most = sections.iter().map(|section| section.chosen().0).max().unwrap_or(0);
    let race = if is_of_all(choice) { "race" } else { "chosen race" };
    let words = format!("Not every {race} is shown: --limit {most} shows all, and --csv has no limit of its own.");
    format!("\n{}", labelled("", &words))
}
