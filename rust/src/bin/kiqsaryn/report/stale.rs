//! The reads that returned old bytes in the recorded order: what each returned, and what one plain file would have.

use super::bytes::picture;
use super::judged::Judged;
use super::page::{command, not_shown, paragraph, row_words, section as page_section, table, text};
use crate::input::{Recorded, Trace};
use crate::output::Failed;
use crate::races::names;
use crate::replay::{each_read, PieceOf, ReadAnswer};
use crate::text::{bytes_of, counted, span};
use kiqsaryn::{Model, Row, READ};
use std::collections::BTreeSet;

/// How many pieces of a read are shown: so many stale ones at most, and so many with their neighbours.
const STALE_PIECES: usize = 16;
const PIECES: usize = 24;

/// What is shown of a read's bytes, from the first to the last: a piece, or pieces that are left out, how many of them, and how many are stale.
#[derive(Clone, Copy, Debug, PartialEq, Eq)]
pub enum Part {
    Piece(PieceOf),
    Left { start: u32, length: u32, pieces: usize, stale: usize },
}

/// A read with stale bytes.
#[derive(PartialEq, Eq)]
struct Read {
    number: u32,
    row: Row,
    stale: u64,
    parts: Vec<Part>,
}

/// How many reads there are, how many bytes they read, and how many of both are stale.
#[derive(Clone, Copy, Default, PartialEq, Eq)]
struct Counts {
    reads: u64,
    bytes: u64,
    stale_reads: u64,
    stale_bytes: u64,
}

/// What the reads returned under models that have the same stale ones.
struct Under {
    models: Vec<Model>,
    counts: Counts,
    shown: Vec<Read>,
}

// ---- Collecting

/// Which pieces are shown: the first stale ones, and of the others their neighbours.
fn kept(pieces: &[PieceOf]) -> BTreeSet<usize> {
    if pieces.len() <= PIECES {
        return (0..pieces.len()).collect();
    }
    let stale: Vec<usize> = (0..pieces.len()).filter(|k| pieces[*k].is_stale()).take(STALE_PIECES).collect();
    let mut kept: BTreeSet<usize> = stale.iter().copied().collect();
    for k in stale.iter().flat_map(|k| [k.saturating_sub(1), k + 1]).filter(|k| *k < pieces.len()) {
        if kept.len() < PIECES {
            kept.insert(k);
        }
    }
    // One piece alone takes no more space than the word that it is left out.
    let is_kept = |k: Option<usize>| k.is_none_or(|k| k >= pieces.len() || kept.contains(&k));
    let alone: Vec<usize> = (0..pieces.len()).filter(|k| is_kept(k.checked_sub(1)) && is_kept(Some(k + 1))).collect();
    kept.extend(alone);
    kept
}

/// The pieces that are shown, and between them those that are left out.
fn parts(pieces: &[PieceOf]) -> Vec<Part> {
    let kept = kept(pieces);
    let mut all = Vec::new();
    for (k, piece) in pieces.iter().enumerate() {
        match all.last_mut() {
            _ if kept.contains(&k) => all.push(Part::Piece(*piece)),
            Some(Part::Left { length, pieces, stale, .. }) => {
                *length = length.saturating_add(piece.length);
                *pieces += 1;
                *stale += usize::from(piece.is_stale());
            }
            _ => {
                let stale = usize::from(piece.is_stale());
                all.push(Part::Left { start: piece.start, length: piece.length, pieces: 1, stale });
            }
        }
    }
    all
}

impl Under {
    /// Counts a read, and keeps it if it has a stale byte and is not one too many.
    fn take(&mut self, read: &ReadAnswer, limit: usize) {
        let stale = read.stale();
        self.counts.reads += 1;
        self.counts.bytes += u64::from(read.row.length);
        self.counts.stale_bytes += stale;
        self.counts.stale_reads += u64::from(stale > 0);
        if stale > 0 && self.shown.len() < limit {
            self.shown.push(Read { number: read.number, row: read.row, stale, parts: parts(&read.pieces) });
        }
    }
}

/// What the reads of all files return under a model. An error is a sentence.
fn under(trace: &Trace, model: Model, limit: usize) -> Result<Under, String> {
    let files: BTreeSet<u32> = trace.rows().all().filter(|(_, row)| row.kind == READ).map(|(_, row)| row.file).collect();
    let mut under = Under { models: vec![model], counts: Counts::default(), shown: Vec::new() };
    for file in files {
        let mut visit = |read: &ReadAnswer| -> Result<(), Failed> {
            under.take(read, limit);
            Ok(())
        };
        each_read(trace, file, model, &mut visit).map_err(|failed| match failed {
            Failed::Sentence(sentence) => sentence,
            Failed::Write(e) => e.to_string(),
        })?;
    }
    Ok(under)
}

/// What the reads return under the models. Models with the same counts and the same reads to show stand together.
fn collect(trace: &Trace, models: &[Model], limit: usize) -> Result<Vec<Under>, String> {
    let mut all: Vec<Under> = Vec::new();
    for model in models {
        let new = under(trace, *model, limit)?;
        match all.iter_mut().find(|old| old.counts == new.counts && old.shown == new.shown) {
            Some(old) => old.models.push(*model),
            None => all.push(new),
        }
    }
    Ok(all)
}

// ---- The section

/// The row that wrote bytes.
fn writer(trace: &Trace, row: u32) -> String {
    match row {
        0 => "unwritten".to_string(),
        _ => row_words(trace, &trace.row_name(row)),
    }
}

/// That bytes are stale; where the write that the read does not see and the read are a race under all models, with a link to its picture.
fn stale_words(judged: &Judged, models: &[Model], pair: (u32, u32)) -> String {
    let stale = "<strong class=\"race\">STALE</strong>";
    let pictures: Option<Vec<String>> = models.iter().map(|model| judged.picture_of(*model, pair)).collect();
    match pictures.as_deref() {
        Some([first, ..]) => format!("{stale}: <a href=\"#{first}\">race of row {} and row {}</a>", pair.0, pair.1),
        _ => stale.to_string(),
    }
}

/// A part of the read of this number as a line of the table.
fn line(judged: &Judged, models: &[Model], number: u32, part: &Part) -> Vec<String> {
    let trace = judged.trace;
    match *part {
        Part::Piece(piece) => {
            let stale = if piece.is_stale() { stale_words(judged, models, (piece.plain, number)) } else { String::new() };
            let bytes = format!("{} ({})", span(piece.start, piece.length), counted(u64::from(piece.length), "byte"));
            vec![bytes, writer(trace, piece.row), writer(trace, piece.plain), stale]
        }
        Part::Left { start, length, pieces, stale } => {
            let words = format!("{}, not shown", counted(pieces as u64, "piece"));
            let stale = if stale > 0 { format!("{stale} of them STALE") } else { "none of them stale".to_string() };
            vec![format!("{} ({})", span(start, length), counted(u64::from(length), "byte")), words.clone(), words, stale]
        }
    }
}

fn read(judged: &Judged, models: &[Model], read: &Read, id: &str) -> String {
    let trace = judged.trace;
    let Read { number, row, stale, parts } = read;
    let who = format!(
        "Row {number}{}: process {} reads {} of file {}",
        trace.own_behind(*number),
        row.process,
        bytes_of(row.offset, row.length),
        row.file
    );
    let names = names(models);
    let (svg, to_scale) = picture(*number, &names, parts);
    let scale = if to_scale { "to scale" } else { "not to scale" };
    let caption = format!("{} of {} stale. The bytes are drawn {scale}.", stale, counted(u64::from(row.length), "byte"));
    let mut s = format!("<section class=\"group\">\n<h4 id=\"{id}\">{}</h4>\n", text(&who));
    s.push_str(&format!("<figure>\n<figcaption>{}</figcaption>\n<div class=\"scroll\">{svg}</div>\n</figure>\n", text(&caption)));
    let titles = ["bytes", &format!("under {names}"), "one plain file", "stale"];
    s.push_str(&table(&titles, &parts.iter().map(|part| line(judged, models, *number, part)).collect::<Vec<Vec<String>>>()));
    if parts.iter().any(|part| matches!(part, Part::Left { .. })) {
        let line = format!("{} --model {} --row {number}", command("replay", trace), models[0].name());
        s.push_str(&format!("<p>To see every piece: <code>{}</code></p>\n", text(&line)));
    }
    s + "</section>\n"
}

impl Under {
    /// The reads with stale bytes, and how many more there are.
    fn put(&self, judged: &Judged, place: usize) -> String {
        let mut s = format!("<h3>Stale reads under {}</h3>\n", names(&self.models));
        for shown in &self.shown {
            s.push_str(&read(judged, &self.models, shown, &format!("stale-{}-{}", place + 1, shown.number)));
        }
        let hidden = self.counts.stale_reads - self.shown.len() as u64;
        if hidden > 0 {
            let line = format!("{} --model {} --stale", command("replay", judged.trace), self.models[0].name());
            s.push_str(&not_shown(hidden, "stale read", &names(&self.models), &line));
        }
        s
    }
}

/// How many reads there are under each model, and how many are stale.
fn counts(models: &[Model], all: &[Under]) -> String {
    let line = |model: &Model| {
        let counts = all.iter().find(|under| under.models.contains(model)).map_or(Counts::default(), |under| under.counts);
        let numbers = [counts.reads, counts.stale_reads, counts.bytes, counts.stale_bytes].map(|n| n.to_string());
        [vec![model.name().to_string()], numbers.to_vec()].concat()
    };
    table(&["model", "reads", "stale reads", "bytes read", "stale bytes"], &models.iter().map(line).collect::<Vec<Vec<String>>>())
}

/// What each stale read returned under each model. An error is a sentence.
pub fn section(judged: &Judged) -> Result<String, String> {
    let (trace, models) = (judged.trace, judged.models());
    let all = collect(trace, &models, judged.limit)?;
    let is_any = all.iter().any(|under| under.counts.stale_reads > 0);
    let order = match &trace.source {
        Recorded::Alone(_) => "recorded order",
        Recorded::Joined(_) => "joined order",
    };
    let meaning = "A read is stale where it does not get the bytes that one plain file would give it.";
    let mut s = paragraph(&format!("{meaning} This is the {order} alone. The verdicts judge every allowed order."));
    s.push_str(&counts(&models, &all));
    if !is_any {
        s.push_str(&paragraph("Every read gets what one plain file would give it, in this order."));
    }
    for (place, under) in all.iter().enumerate().filter(|(_, under)| under.counts.stale_reads > 0) {
        s.push_str(&under.put(judged, place));
    }
    Ok(page_section("stale", "Stale reads", &s))
}
