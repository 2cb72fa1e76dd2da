//! The races, in groups as `races` shows them: what is missing, said once for all races of a group that lack the same, and a picture of each race.

use super::judged::{race_id, Judged};
use super::page::{command, not_shown, paragraph, row_words, section as page_section, table, text};
use crate::alike::Lacks;
use crate::args::Choice;
use crate::check::{free, why};
use crate::diagram;
use crate::explain::{explain, shared, Claim};
use crate::groups::{Group, Groups, Pair, Reason};
use crate::input::Trace;
use crate::races::{entries, head, names, Found, TITLES};
use crate::text::{bytes_of, counted};
use crate::words::Words;
use kiqsaryn::{Model, PAIR};
use std::cmp::Reverse;
use std::collections::BTreeSet;

/// How many groups of which no race is shown are named.
const GROUPS: usize = 40;
const ALL: Choice = Choice { file: None, process: None, limit: None };

/// The races under models that have the same ones, in groups, and which of them are shown.
struct Part<'a> {
    trace: &'a Trace,
    /// The place of the list among the lists of the page.
    place: usize,
    models: &'a [Model],
    races: usize,
    groups: Groups<'a>,
    shown: Vec<Vec<Pair>>,
    /// For each model and each group what its races lack.
    reasons: Vec<Vec<Vec<Reason>>>,
    lacks: Vec<Lacks<'a>>,
}

// ---- Reasons

/// "row 2 and row 8".
fn pair_name((earlier, later): Pair) -> String {
    format!("row {earlier} and row {later}")
}

/// The sentences of an explanation, each behind its label.
fn sentences(words: Option<&Words>) -> String {
    let Some(words) = words else {
        return paragraph("no explanation found; please report this trace");
    };
    let lines: Vec<String> = words.lines.iter().map(|(label, line)| format!("<dt>{label}</dt><dd>{}</dd>\n", text(line))).collect();
    format!("<dl>\n{}</dl>\n", lines.concat())
}

/// Of how many races of a group the same is missing, and which of those that are shown these are, besides the first.
fn alike(reason: &Reason, group: &Group, others: &[Pair]) -> String {
    if reason.races < 2 {
        return String::new();
    }
    let count = match reason.races {
        n if n == group.races => format!("The same is missing for all {n} races"),
        n => format!("The same is missing for {n} of the {} races", group.races),
    };
    let list: Vec<String> = others.iter().map(|pair| pair_name(*pair)).collect();
    let hidden = reason.races - 1 - others.len();
    let more = match (list.is_empty(), hidden) {
        (_, 0) => String::new(),
        (true, n) => format!("{n} more, not shown"),
        (false, n) => format!("; and {n} more, not shown"),
    };
    format!("<p class=\"alike\">{count}. Also: {}{more}.</p>\n", list.join("; "))
}

/// What is missing for the first of races that lack the same, as it is said for these models.
struct Said {
    models: Vec<Model>,
    first: Pair,
    body: String,
}

impl Part<'_> {
    /// What is missing under a model for races of a group.
    fn body(&self, k: usize, m: usize, reason: &Reason) -> String {
        let is_alike = |pair: &&Pair| **pair != reason.first && self.lacks[m].of(pair.0, pair.1) == Some(reason.lack);
        let others: Vec<Pair> = self.shown[k].iter().filter(is_alike).copied().collect();
        let words = why(self.trace, self.models[m], reason.first.0, reason.first.1);
        sentences(words.as_ref()) + &alike(reason, &self.groups.all[k], &others)
    }

    /// What is missing for the races of a group: equal reasons once, for the first race that has them, and for all models under which the same is said.
    fn reasons_of(&self, k: usize) -> String {
        let mut all: Vec<Said> = Vec::new();
        for (m, model) in self.models.iter().enumerate() {
            for reason in self.reasons[m][k].iter().filter(|reason| self.shown[k].contains(&reason.first)) {
                let (first, body) = (reason.first, self.body(k, m, reason));
                match all.iter_mut().find(|said| said.first == first && said.body == body) {
                    Some(said) => said.models.push(*model),
                    None => all.push(Said { models: vec![*model], first, body }),
                }
            }
        }
        let put = |Said { models, first: (earlier, later), body }: &Said| {
            let heading = format!("Row {earlier} and row {later} under {}", names(models));
            format!("<div class=\"reason\">\n<h5>{heading}</h5>\n{body}</div>\n")
        };
        all.iter().map(put).collect()
    }
}

// ---- Pictures

/// The rows that an explanation names, each with the word behind which it does.
fn marks(trace: &Trace, model: Model, (earlier, later): Pair) -> BTreeSet<(&'static str, u32)> {
    let explanation = explain(&trace.rows(), model, earlier, later);
    let claims = explanation.map_or(Vec::new(), |e| e.claims);
    let mark = |claim: &Claim| match *claim {
        Claim::FirstPublish { row, .. } | Claim::LastRefresh { row, .. } => Some(("Found", row)),
        Claim::LastBefore { last: Some(last), .. } => Some(("Order", last)),
        Claim::PostedOnly { posted, .. } => Some(("Posted", posted.recv)),
        _ => None,
    };
    claims.iter().filter_map(mark).collect()
}

impl Part<'_> {
    /// The models whose pictures of a race are drawn: the one whose reason names most rows, and each whose reason names a row that no picture before it
    /// marks so.
    fn drawn(&self, pair: Pair) -> Vec<Model> {
        let (mut marked, mut drawn) = (BTreeSet::new(), Vec::new());
        let mut all: Vec<(Model, BTreeSet<(&str, u32)>)> = self.models.iter().map(|m| (*m, marks(self.trace, *m, pair))).collect();
        all.sort_by_key(|(_, marks)| Reverse(marks.len()));
        for (model, marks) in all {
            if drawn.is_empty() || !marks.is_subset(&marked) {
                drawn.push(model);
                marked.extend(marks);
            }
        }
        drawn
    }

    fn figure(&self, pair: Pair, model: Model, id: &str) -> String {
        let rows = self.trace.rows();
        let both = rows.row(pair.0).and_then(|x| shared(x, rows.row(pair.1)?));
        let share = both.map_or(String::new(), |(first, last)| format!(" share {}", bytes_of(first, last - first + 1)));
        let [a, b] = [pair.0, pair.1].map(|number| format!("{number}{}", self.trace.own_behind(number)));
        let caption = format!("Row {a} and row {b}{share}. The marks are those of the reason under {}.", model.name());
        // A picture that is too large is no reason to have no page.
        let picture = match diagram::of_race(self.trace, model, pair, id) {
            Ok(picture) => picture.replacen("<svg ", "<svg role=\"img\" ", 1),
            Err(sentence) => paragraph(&format!("There is no picture: {sentence}.")),
        };
        let caption = format!("<figcaption>{}</figcaption>", text(&caption));
        format!("<figure id=\"{id}\">\n{caption}\n<div class=\"scroll\">{picture}</div>\n</figure>\n")
    }

    /// The pictures of a race.
    fn figures(&self, pair: Pair) -> String {
        let first = race_id(self.place, pair);
        let id = |k: usize, model: Model| if k == 0 { first.clone() } else { format!("{first}-{}", model.name()) };
        self.drawn(pair).into_iter().enumerate().map(|(k, model)| self.figure(pair, model, &id(k, model))).collect()
    }
}

// ---- Groups

impl<'a> Part<'a> {
    fn new(judged: &'a Judged, place: usize, found: &'a Found) -> Part<'a> {
        let (rows, groups) = (judged.trace.rows(), Groups::new(judged.trace.rows(), &found.list));
        Part {
            trace: judged.trace,
            place,
            models: &found.models,
            races: found.list.len() / PAIR,
            shown: groups.shown(&ALL, judged.limit),
            reasons: found.models.iter().map(|model| groups.reasons(*model)).collect(),
            lacks: found.models.iter().map(|model| Lacks::new(rows, *model)).collect(),
            groups,
        }
    }

    /// A race as a line of a table; both row numbers lead to its picture.
    fn line(&self, pair: Pair) -> Vec<String> {
        let link = |entry: String| format!("<a href=\"#{}\">{}</a>", race_id(self.place, pair), row_words(self.trace, &entry));
        let cell = |(k, entry): (usize, String)| if k % 3 == 0 && k < 6 { link(entry) } else { text(&entry) };
        entries(self.trace, pair).into_iter().enumerate().map(cell).collect()
    }

    fn group(&self, k: usize) -> String {
        let (group, shown) = (&self.groups.all[k], &self.shown[k]);
        let mut s = format!("<section class=\"group\">\n<h4>{}</h4>\n", text(&head(group)));
        s.push_str(&table(&TITLES, &shown.iter().map(|pair| self.line(*pair)).collect::<Vec<Vec<String>>>()));
        if group.races > shown.len() {
            s.push_str(&paragraph(&format!("and {} more, not shown", group.races - shown.len())));
        }
        s.push_str(&self.reasons_of(k));
        for pair in shown {
            s.push_str(&self.figures(*pair));
        }
        s + "</section>\n"
    }

    /// How many races are not shown, in which groups, and how to see them.
    fn hidden(&self) -> String {
        let shown: usize = self.shown.iter().map(Vec::len).sum();
        if shown == self.races {
            return String::new();
        }
        let whole: Vec<&Group> = self.groups.all.iter().zip(&self.shown).filter(|(_, shown)| shown.is_empty()).map(|(g, _)| g).collect();
        let mut items: Vec<String> =
            whole.iter().take(GROUPS).map(|group| format!("<li>{}, not shown</li>\n", text(&head(group)))).collect();
        if whole.len() > GROUPS {
            items.push(format!("<li>and {}, not shown</li>\n", counted((whole.len() - GROUPS) as u64, "more group")));
        }
        let mut s = String::new();
        if !items.is_empty() {
            s.push_str(&format!("<ul>\n{}</ul>\n", items.concat()));
        }
        let line = format!("{} --model {} --limit {}", command("races", self.trace), self.models[0].name(), self.races);
        s + &not_shown((self.races - shown) as u64, "race", &names(self.models), &line)
    }

    fn put(&self) -> String {
        let mut s = format!("<h3>Races under {}</h3>\n", names(self.models));
        let groups = counted(self.groups.all.len() as u64, "group");
        s.push_str(&paragraph(&format!("{}, in {groups}", counted(self.races as u64, "race"))));
        for k in (0..self.groups.all.len()).filter(|k| !self.shown[*k].is_empty()) {
            s.push_str(&self.group(k));
        }
        s + &self.hidden()
    }
}

/// Every race up to the limit under each model.
pub fn section(judged: &Judged) -> String {
    let mut s = paragraph(
        "A group has the races of one file between two processes. Models with the same races are shown together. What is missing is said \
         once for all races of a group for which the same is missing, with the row numbers of the first.",
    );
    for (place, found) in judged.found.iter().enumerate() {
        if found.list.is_empty() {
            s.push_str(&paragraph(&format!("{}: {}.", names(&found.models), free(judged.trace))));
        } else {
            s.push_str(&Part::new(judged, place, found).put());
        }
    }
    page_section("races", "Races", &s)
}
