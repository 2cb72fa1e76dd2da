//! Which rows a picture shows.

use super::race::{Depth, Race};
use crate::args::Crop;
use crate::input::Trace;
use crate::text::counted;
use kiqsaryn::{Row, BARRIER, RECV, SEND, WAIT};
use std::collections::BTreeSet;

/// Above so many rows, the picture of a race leaves out those between that its explanation, messages and barriers do not need.
const MANY: usize = 200;
/// The same in a picture that stands in a page: those are always left out, and above so many rows also messages and barriers.
const MANY_IN_PAGE: usize = 60;

/// The rows that are drawn, what is said of the choice where not all are, and the same in few words.
pub struct Drawn {
    pub rows: BTreeSet<u32>,
    pub said: String,
    pub briefly: String,
}

/// How many rows are drawn, and what is said behind that; nothing where all are.
fn said(trace: &Trace, rows: &BTreeSet<u32>, behind: &str) -> String {
    let (n, all) = (rows.len() as u64, u64::from(trace.rows().n));
    if n == all {
        return String::new();
    }
    format!("{n} of {} {} drawn{behind}.", counted(all, "row"), if n == 1 { "is" } else { "are" })
}

/// Every row.
pub fn all(trace: &Trace) -> Drawn {
    Drawn { rows: trace.rows().all().map(|(k, _)| k).collect(), said: String::new(), briefly: String::new() }
}

/// Which rows of a race are drawn, and which between are left out if some are, in words.
fn which(trace: &Trace, race: &Race, drawn: &BTreeSet<u32>, depth: Depth) -> (String, String) {
    let rows = trace.rows();
    let process = |k: u32| rows.row(k).map_or(0, |r| r.process);
    let (p, q) = (process(race.earlier), process(race.later));
    let both = format!("process {p} and process {q}");
    let is_between = |k: &u32| (race.earlier..=race.later).contains(k) && [p, q].contains(&process(*k));
    let folded = race.rows(&rows, Depth::Whole).difference(drawn).filter(|k| is_between(k)).count();
    if folded > 0 {
        let needed = match depth {
            Depth::Bare => "the race and its explanation need",
            Depth::Whole | Depth::Messages => "the race, its explanation, and the messages and barriers between need",
        };
        let is = if folded == 1 { "is" } else { "are" };
        let left_out = format!(". Between, {} of {both} {is} left out", counted(folded as u64, "row"));
        return (format!("those that {needed}"), left_out);
    }
    let mut which = format!("those of {both} from row {} to row {}", race.earlier, race.later);
    if drawn.iter().any(|k| !is_between(k)) {
        which.push_str(", those that the explanation names, and those of the messages and barriers that go with them");
    }
    (which, String::new())
}

/// The rows of a race, so deep.
fn race_at(trace: &Trace, race: &Race, depth: Depth) -> Drawn {
    let rows = race.rows(&trace.rows(), depth);
    let (which, left_out) = which(trace, race, &rows, depth);
    let (said, briefly) = (said(trace, &rows, &format!(": {which}{left_out}")), said(trace, &rows, &left_out));
    Drawn { rows, said, briefly }
}

/// The rows of a race, of each depth that a picture can have, the best first.
pub fn of_race(trace: &Trace, race: &Race) -> Vec<Drawn> {
    let depths = [Depth::Whole, Depth::Messages, Depth::Bare].map(|depth| race_at(trace, race, depth));
    shallow_enough(depths.into(), MANY)
}

/// The rows of a race for a picture that stands in a page, the best choice first.
pub fn of_race_in_page(trace: &Trace, race: &Race) -> Vec<Drawn> {
    let depths = [Depth::Messages, Depth::Bare].map(|depth| race_at(trace, race, depth));
    shallow_enough(depths.into(), MANY_IN_PAGE)
}

/// Those of the choices that have at most so many rows, and the last in any case.
fn shallow_enough(choices: Vec<Drawn>, most: usize) -> Vec<Drawn> {
    let last = choices.len().saturating_sub(1);
    choices.into_iter().enumerate().filter(|(k, drawn)| *k == last || drawn.rows.len() <= most).map(|(_, drawn)| drawn).collect()
}

// ---- Rows that are chosen

fn is_of_no_file(row: Row) -> bool {
    [SEND, RECV, WAIT, BARRIER].contains(&row.kind)
}

/// "1, 2 and 5".
fn listed(numbers: &BTreeSet<u32>) -> String {
    let words: Vec<String> = numbers.iter().map(u32::to_string).collect();
    match words.split_last() {
        Some((last, [])) => last.clone(),
        Some((last, others)) => format!("{} and {last}", others.join(", ")),
        None => String::new(),
    }
}

/// "process 1", "processes 1 and 2".
fn named(one: &str, many: &str, numbers: &BTreeSet<u32>) -> String {
    format!("{} {}", if numbers.len() == 1 { one } else { many }, listed(numbers))
}

/// Whether the choice names rows that there are. An error is a sentence.
fn ask(trace: &Trace, crop: &Crop) -> Result<(), String> {
    let rows = trace.rows();
    if let Some((first, last)) = crop.rows.filter(|(first, last)| !(1..=*last).contains(first) || *last > rows.n) {
        return Err(format!("--rows {first}-{last}: the trace has {}, and rows are counted from 1", counted(u64::from(rows.n), "row")));
    }
    let processes: BTreeSet<u32> = rows.all().map(|(_, r)| r.process).collect();
    if let Some(p) = crop.processes.iter().find(|p| !processes.contains(p)) {
        return Err(match processes.len() {
            0 => format!("process {p} has no row: the trace has no row"),
            1 => format!("process {p} has no row; {} has", named("process", "processes", &processes)),
            _ => format!("process {p} has no row; {} have", named("process", "processes", &processes)),
        });
    }
    let files: BTreeSet<u32> = rows.all().filter(|(_, r)| !is_of_no_file(*r)).map(|(_, r)| r.file).collect();
    match crop.file.filter(|f| !files.contains(f)) {
        None => Ok(()),
        Some(f) if files.is_empty() => Err(format!("file {f} has no row: no row of the trace is of a file")),
        Some(f) if files.len() == 1 => Err(format!("file {f} has no row; {} has", named("file", "files", &files))),
        Some(f) => Err(format!("file {f} has no row; {} have", named("file", "files", &files))),
    }
}

/// The choice in words.
fn choice(crop: &Crop) -> String {
    let mut words = Vec::new();
    if let Some((first, last)) = crop.rows {
        words.push(if first == last { format!("row {first}") } else { format!("rows {first} to {last}") });
    }
    if !crop.processes.is_empty() {
        words.push(format!("rows of {}", named("process", "processes", &crop.processes.iter().copied().collect())));
    }
    if let Some(f) = crop.file {
        words.push(format!("rows of file {f}, with the messages and barriers of the processes that have such rows"));
    }
    words.join("; of these, ")
}

/// The rows that are chosen. An error is a sentence.
pub fn chosen(trace: &Trace, crop: &Crop) -> Result<Drawn, String> {
    ask(trace, crop)?;
    let rows = trace.rows();
    let is_in = |(k, r): &(u32, Row)| {
        let in_rows = crop.rows.is_none_or(|(first, last)| (first..=last).contains(k));
        in_rows && (crop.processes.is_empty() || crop.processes.contains(&r.process))
    };
    let within: Vec<(u32, Row)> = rows.all().filter(is_in).collect();
    let drawn: BTreeSet<u32> = match crop.file {
        None => within.iter().map(|(k, _)| *k).collect(),
        Some(f) => {
            let of_file = |r: &Row| !is_of_no_file(*r) && r.file == f;
            let processes: BTreeSet<u32> = within.iter().filter(|(_, r)| of_file(r)).map(|(_, r)| r.process).collect();
            let with_others = |r: &Row| of_file(r) || is_of_no_file(*r) && processes.contains(&r.process);
            within.iter().filter(|(_, r)| with_others(r)).map(|(k, _)| *k).collect()
        }
    };
    if drawn.is_empty() {
        return Err(format!("no row is chosen: {}", choice(crop)));
    }
    let (said, briefly) = (said(trace, &drawn, &format!(": {}", choice(crop))), said(trace, &drawn, ""));
    Ok(Drawn { rows: drawn, said, briefly })
}
