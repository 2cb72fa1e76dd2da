//! `explain`: which bytes a read gets, from which row, and why not those of the newer row that one plain file would give it.

use crate::alike::{Lack, Lacks};
use crate::check::{sentence, sentences, shown_row, why};
use crate::explain::{publishing, refreshing};
use crate::groups::{pairs, Pair};
use crate::input::Trace;
use crate::newer::{reason, Reason};
use crate::output::Failed;
use crate::races;
use crate::replay::{heading, meaning, one_read, read_at, table, PieceOf, ReadAnswer};
use crate::text::{bytes_of, counted, labelled};
use crate::words::{one_of, which};
use kiqsaryn::{Model, Row, PAIR};
use std::collections::HashMap;
use std::mem::Discriminant;

// ---- What is known of the read

/// The row that a read gets, 0 for none, and the newer one that one plain file would give it.
type Stale = (u32, u32);

fn stale_of(piece: &PieceOf) -> Stale {
    (piece.row, piece.plain)
}

/// Why stale bytes are stale under a model: what keeps the newer ones back in the recorded order, and the race that allows it.
#[derive(Clone, Copy)]
struct Cause {
    reason: Option<Reason>,
    race: Option<Pair>,
    /// What is missing between the two rows of the race.
    lack: Option<Lack>,
}

/// A read under a model: what it gets, how many races there are, how many of them have the read, and the cause of each kind of stale bytes.
struct Told {
    model: Model,
    read: ReadAnswer,
    races: usize,
    of_read: usize,
    causes: HashMap<Stale, Cause>,
}

/// Whether the list, which rises by the later row and then by the earlier one, has a pair.
fn has(list: &[u32], (earlier, later): Pair) -> bool {
    let (list, _) = list.as_chunks::<PAIR>();
    list.binary_search_by_key(&(later, earlier), |pair| (pair[1], pair[0])).is_ok()
}

/// What is known of a read under a model. An error is a sentence.
fn told(trace: &Trace, number: u32, model: Model) -> Result<Told, String> {
    let read = match one_read(trace, number, model) {
        Ok(Some(read)) => read,
        Ok(None) => return Err(format!("row {number} is not replayed; please report this trace")),
        Err(Failed::Sentence(sentence)) => return Err(sentence),
        Err(Failed::Write(e)) => return Err(e.to_string()),
    };
    let found = races::find(trace, &[model])?;
    let list = found.first().map_or(&[][..], |found| &found.list);
    let (rows, lacks) = (trace.rows(), Lacks::new(trace.rows(), model));
    let mut causes = HashMap::new();
    for (got, newer) in read.pieces.iter().filter(|piece| piece.is_stale()).map(stale_of) {
        causes.entry((got, newer)).or_insert_with(|| {
            // Where the newer row and the read are no race, it races with the row that the read gets.
            let race = [(newer, number), (got, newer)].into_iter().find(|pair| has(list, *pair));
            let lack = race.and_then(|(earlier, later)| lacks.of(earlier, later));
            Cause { reason: reason(&rows, &lacks, number, got, newer), race, lack }
        });
    }
    let of_read = pairs(list).filter(|(earlier, later)| *earlier == number || *later == number).count();
    Ok(Told { model, read, races: list.len() / PAIR, of_read, causes })
}

// ---- In words

/// What keeps the newer bytes back, as a sentence. The read, the row that it gets and the newer one are known by their numbers.
fn reason_words(trace: &Trace, told: &Told, (got, newer): Stale, reason: Reason) -> Option<String> {
    let (rows, Row { process: reader, file, .. }) = (trace.rows(), told.read.row);
    let (read, writer) = (told.read.number, rows.row(newer)?.process);
    let (publishing, refreshing) = (publishing(told.model), refreshing(told.model));
    let (publish_word, refresh_word) = (one_of(publishing), one_of(refreshing));
    let mut name = trace.naming(&[read, got, newer]);
    let mut by = |row: u32, kinds: &[u32]| Some(format!("{}{}", name(row), which(&rows, row, kinds)?));
    Some(match reason {
        Reason::NeverPublished => {
            let none = format!("process {writer} has no {publish_word} of file {file} after row {newer}");
            format!("{none}, so that no other process gets the bytes of row {newer}.")
        }
        Reason::PublishedLater { publish } => {
            let row = by(publish, publishing)?;
            let first = format!("process {writer}'s first {publish_word} of file {file} after row {newer} is {row}, behind row {read}");
            format!("{first}. Before it no other process gets the bytes of row {newer}.")
        }
        Reason::NeverRefreshed { publish } => {
            let row = by(publish, publishing)?;
            let none = format!("process {reader} has no {refresh_word} of file {file} before row {read}");
            format!("{row} publishes row {newer}, but {none}, so that it gets no bytes of other processes.")
        }
        Reason::RefreshedEarlier { publish, refresh } => {
            let (last, row) = (by(refresh, refreshing)?, by(publish, publishing)?);
            let last = format!("process {reader}'s last {refresh_word} of file {file} before row {read} is {last}");
            format!("{last}, and row {newer} is published behind it, by {row}.")
        }
        Reason::OwnFirst { refresh, .. } => {
            let last = if refresh == read { String::new() } else { format!(", its last {refresh_word} of file {file} before row {read}") };
            let none = format!("it has no {publish_word} of file {file} between row {got} and {}{last}", by(refresh, refreshing)?);
            format!("row {got} is process {reader}'s own write, and {none}: own bytes that are not yet published come first.")
        }
        Reason::PublishedOver { publish, over, refresh } => {
            let published = [by(publish, publishing)?, by(over, publishing)?];
            let refresh = if refresh == read { None } else { Some(by(refresh, refreshing)?) };
            over_words(told, (got, newer), published, refresh)
        }
    })
}

/// That one row publishes the newer bytes and another the older ones over them; and the reader's last refreshing row, where it is not the read itself.
fn over_words(told: &Told, (got, newer): Stale, [row, over]: [String; 2], refresh: Option<String>) -> String {
    let (read, Row { process: reader, file, .. }) = (told.read.number, told.read.row);
    let refresh_word = one_of(refreshing(told.model));
    let both = format!("{row} publishes row {newer}, and {over}, behind it, publishes the older row {got} over it.");
    match refresh {
        None => both,
        Some(refresh) => format!("{both} Process {reader}'s last {refresh_word} of file {file} before row {read} is {refresh}."),
    }
}

/// Why bytes are stale under a model, in sentences behind their labels.
fn cause_words(trace: &Trace, told: &Told, stale: Stale, cause: &Cause) -> String {
    let held = cause.reason.and_then(|reason| reason_words(trace, told, stale, reason));
    let mut s = sentence("Why", held.as_deref().unwrap_or("no reason found; please report this trace."));
    if let Some((earlier, later)) = cause.race {
        s.push_str(&sentence("Race", &format!("row {earlier} and row {later} are a race under {}.", told.model.name())));
        s.push_str(&sentences(why(trace, told.model, earlier, later).as_ref()));
    }
    s
}

/// Of a cause under a model: the kind of its reason, whether its race is with the read, and what that race lacks.
type Kind = (Option<Discriminant<Reason>>, Option<bool>, Option<Lack>);

/// What two causes have to share to be told together: whose bytes the read gets, who writes the newer ones, and the kind under each model.
#[derive(PartialEq, Eq)]
struct Sign {
    processes: [Option<u32>; 2],
    causes: Vec<Kind>,
}

/// Stale bytes that have their causes alike: the first of them, and how many lines of the table they are.
struct Alike {
    sign: Sign,
    first: PieceOf,
    lines: usize,
}

/// A read under models that give it the same.
struct Section<'a> {
    trace: &'a Trace,
    all: Vec<Told>,
}

impl Section<'_> {
    fn sign(&self, stale: Stale) -> Sign {
        let process = |number: u32| self.trace.rows().row(number).map(|row| row.process);
        let causes = self.all.iter().filter_map(|told| {
            let cause = told.causes.get(&stale)?;
            let with_read = cause.race.map(|(_, later)| later == told.read.number);
            Some((cause.reason.as_ref().map(std::mem::discriminant), with_read, cause.lack))
        });
        Sign { processes: [process(stale.0), process(stale.1)], causes: causes.collect() }
    }

    /// The stale bytes in groups, and which group each kind of them is in.
    fn groups(&self, pieces: &[PieceOf]) -> (Vec<Alike>, HashMap<Stale, usize>) {
        let (mut groups, mut places): (Vec<Alike>, _) = (Vec::new(), HashMap::new());
        for piece in pieces.iter().filter(|piece| piece.is_stale()) {
            let place = *places.entry(stale_of(piece)).or_insert_with(|| {
                let sign = self.sign(stale_of(piece));
                groups.iter().position(|group| group.sign == sign).unwrap_or_else(|| {
                    groups.push(Alike { sign, first: *piece, lines: 0 });
                    groups.len() - 1
                })
            });
            groups[place].lines += 1;
        }
        (groups, places)
    }

    /// Why the bytes of a group are stale: the rows, and for each model the sentences.
    fn group(&self, group: &Alike, number: Option<usize>) -> String {
        let (got, newer) = stale_of(&group.first);
        let bytes = bytes_of(group.first.start, group.first.length);
        let head = number.map_or(String::new(), |number| format!("Reason {number}, "));
        let but = if got == 0 { "unwritten".to_string() } else { format!("row {got}") };
        let head = format!("{head}{bytes}: not row {newer}, but {but}");
        let mut s = format!("\n  {}{}\n{}", head[..1].to_uppercase(), &head[1..], shown_row(self.trace, newer));
        if got > 0 {
            s.push_str(&shown_row(self.trace, got));
        }
        for told in &self.all {
            s.push_str(&format!("  {}:\n", told.model.name()));
            if let Some(cause) = told.causes.get(&(got, newer)) {
                s.push_str(&cause_words(self.trace, told, (got, newer), cause));
            }
        }
        match group.lines {
            1 => s,
            2 => s + &labelled("  alike:  ", "1 other line has the same reason, with other rows or bytes."),
            n => s + &labelled("  alike:  ", &format!("{} other lines have the same reason, with other rows or bytes.", n - 1)),
        }
    }

    /// What is said of each model under which no byte is stale.
    fn in_other_orders(&self) -> String {
        let mut s = "  Every byte is what one plain file would give.\n".to_string();
        for told in &self.all {
            let row = format!("row {}", told.read.number);
            let words = match (told.races, told.of_read) {
                (0, _) => "no two rows race, so this holds in every allowed order.".to_string(),
                (_, 0) => format!("{row} is in no race; races of other rows may change what it gets in another order."),
                (_, n) => format!("{row} is in {}, and may get other bytes in another order: 'kiqsaryn races'.", counted(n as u64, "race")),
            };
            s.push_str(&labelled(&format!("  {:9}", format!("{}:", told.model.name())), &words));
        }
        s
    }

    fn words(&self) -> String {
        let Some(read) = self.all.first().map(|told| &told.read) else {
            return String::new();
        };
        let models: Vec<Model> = self.all.iter().map(|told| told.model).collect();
        let (groups, places) = self.groups(&read.pieces);
        let mark = |piece: &PieceOf| match places.get(&stale_of(piece)) {
            Some(place) if groups.len() > 1 => format!("STALE, reason {}", place + 1),
            _ => "STALE".to_string(),
        };
        let mut s = format!("\nUnder {}: ", races::names(&models));
        if read.row.length == 0 {
            return s + "the read asks for no bytes\n";
        }
        s.push_str(&format!("{} of {} stale\n", read.stale(), counted(u64::from(read.row.length), "byte")));
        s.push_str(&table(self.trace, read.row, "got", &read.pieces, &mark));
        if groups.is_empty() {
            return s + &self.in_other_orders();
        }
        for (k, group) in groups.iter().enumerate() {
            s.push_str(&self.group(group, (groups.len() > 1).then_some(k + 1)));
        }
        s
    }
}

/// The whole report on the read of a row number. An error is a sentence.
pub fn report(trace: &Trace, row: u32, models: &[Model]) -> Result<String, String> {
    read_at(trace, row)?;
    let mut sections: Vec<Section> = Vec::new();
    for model in models {
        let told = told(trace, row, *model)?;
        let same = |section: &&mut Section| section.all.first().is_some_and(|first| first.read == told.read);
        match sections.iter_mut().find(same) {
            Some(section) => section.all.push(told),
            None => sections.push(Section { trace, all: vec![told] }),
        }
    }
    let mut s = heading(trace).0 + &shown_row(trace, row);
    let mut stale = false;
    for section in &sections {
        s.push_str(&section.words());
        stale |= section.all.iter().any(|told| told.read.stale() > 0);
    }
    Ok(s + "\n" + &meaning(trace, stale))
}
