//! The verdicts, and what the page says of them.

use super::page::{row_words, section as page_section, table, text};
use crate::check;
use crate::input::Trace;
use crate::races::Found;
use crate::text::counted;
use kiqsaryn::{Model, Verdict, PAIR};
use std::cmp::Ordering;

/// A trace, the verdicts, the races under each model, and how many races are shown of them.
pub struct Judged<'a> {
    pub trace: &'a Trace,
    pub verdicts: Vec<(Model, Verdict)>,
    pub found: Vec<Found>,
    pub limit: usize,
}

impl Judged<'_> {
    pub fn models(&self) -> Vec<Model> {
        self.verdicts.iter().map(|(model, _)| *model).collect()
    }

    /// The place of a model's list of races, and how many races it has.
    fn races(&self, model: Model) -> (usize, usize) {
        let place = self.found.iter().position(|found| found.models.contains(&model));
        place.map_or((0, 0), |k| (k, self.found[k].list.len() / PAIR))
    }

    /// The name of the picture of a pair, if it is a race under the model and shown. The library's list goes by later row, then by earlier row.
    pub fn picture_of(&self, model: Model, (earlier, later): (u32, u32)) -> Option<String> {
        let (place, races) = self.races(model);
        let list = &self.found.get(place)?.list;
        let (mut from, mut to) = (0, races.min(self.limit));
        while from < to {
            let middle = (from + to) / 2;
            let pair = list.get(PAIR * middle..PAIR * (middle + 1))?;
            match (pair[1], pair[0]).cmp(&(later, earlier)) {
                Ordering::Equal => return Some(race_id(place, (earlier, later))),
                Ordering::Less => from = middle + 1,
                Ordering::Greater => to = middle,
            }
        }
        None
    }

    /// What the page shows of races and stale reads.
    pub fn shown(&self) -> String {
        match (self.limit, self.found.iter().all(|found| found.list.len() / PAIR <= self.limit)) {
            (0, false) => "and how many races and stale reads there are.".to_string(),
            (_, true) => "every race with its reason and a picture, and the reads that get old bytes in the recorded order.".to_string(),
            (n, false) => format!(
                "of the races under each model the first {n}, with their reasons and pictures, and reads that get old bytes in the \
                 recorded order."
            ),
        }
    }

    /// One line on all models.
    pub fn summary(&self) -> String {
        if self.trace.rows().n == 0 {
            return "Nothing was judged: the trace has no row.".to_string();
        }
        let (races, free): (Vec<Model>, Vec<Model>) = self.models().into_iter().partition(|model| self.races(*model).1 > 0);
        let free: Vec<&str> = free.iter().map(|model| model.name()).collect();
        let races: Vec<String> = races.iter().map(|model| format!("{} ({})", model.name(), self.races(*model).1)).collect();
        let mut parts = Vec::new();
        if !free.is_empty() {
            parts.push(format!("free under {}", free.join(", ")));
        }
        if !races.is_empty() {
            parts.push(format!("races under {}", races.join(", ")));
        }
        format!("{} judged: {}.", counted(self.verdicts.len() as u64, "model"), parts.join("; "))
    }

    /// A model, its verdict, how many races there are, and the first.
    fn line(&self, model: Model, verdict: Verdict) -> Vec<String> {
        let (place, races) = self.races(model);
        let Verdict::Race { earlier, later } = verdict else {
            let words = format!("<span class=\"free\">{}</span>", text(check::free(self.trace)));
            return vec![model.name().to_string(), words, "0".to_string(), String::new()];
        };
        let pair = row_words(self.trace, &format!("{} and {}", self.trace.row_name(earlier), self.trace.row_name(later)));
        let first = match self.limit {
            0 => pair,
            _ => format!("<a href=\"#{}\">{pair}</a>", race_id(place, (earlier, later))),
        };
        vec![model.name().to_string(), "<span class=\"race\">race</span>".to_string(), races.to_string(), first]
    }
}

/// The name of the picture of a race, among those of a list.
pub fn race_id(place: usize, (earlier, later): (u32, u32)) -> String {
    format!("race-{}-{earlier}-{later}", place + 1)
}

/// The verdict under each model.
pub fn section(judged: &Judged) -> String {
    let lines: Vec<Vec<String>> = judged.verdicts.iter().map(|(model, verdict)| judged.line(*model, *verdict)).collect();
    page_section("verdicts", "Verdicts", &table(&["model", "verdict", "races", "first race"], &lines))
}
