//! `check`: what was read, the verdicts, and why rows race.

use crate::explain::explain;
use crate::input::{short_names, Join, Recorded, Trace};
use crate::races;
use crate::recording::Recording;
use crate::tally::Tally;
use crate::text::{counted, describe, escape, labelled, size};
use crate::words::{words, Words};
use kiqsaryn::{verdict, Model, Row, Verdict};

/// The verdicts under the models, in their order. An error is a sentence.
pub fn judge(trace: &Trace, models: &[Model]) -> Result<Vec<(Model, Verdict)>, String> {
    let rows = trace.rows();
    let mut counts = vec![0; trace.counts.len()];
    let mut all = Vec::new();
    for model in models {
        match verdict(rows.rows, rows.n, rows.processes, model.number(), &mut counts) {
            Verdict::Refused(_) => return Err(format!("there is no verdict under {}; please report this trace", model.name())),
            v => all.push((*model, v)),
        }
    }
    Ok(all)
}

pub fn any_race(verdicts: &[(Model, Verdict)]) -> bool {
    verdicts.iter().any(|(_, v)| *v != Verdict::Free)
}

/// The form of the program `verdict`.
pub fn csv(verdicts: &[(Model, Verdict)]) -> String {
    let mut s = "model,verdict,earlier,later\r\n".to_string();
    for (model, v) in verdicts {
        match v {
            Verdict::Race { earlier, later } => s.push_str(&format!("{},race,{earlier},{later}\r\n", model.name())),
            _ => s.push_str(&format!("{},free,,\r\n", model.name())),
        }
    }
    s
}

/// A record as it stands behind a label, what it says, and where it comes from if that is known.
fn shown(label: &str, record: &[u8], row: Option<Row>, own: Option<String>) -> String {
    let label = format!("  {label}: ");
    let mut s = format!("{label}{}\n", escape(record, 400));
    for line in row.map(describe).into_iter().chain(own) {
        s.push_str(&format!("{}{line}\n", " ".repeat(label.len())));
    }
    s
}

/// A row of a trace, shown under its number.
pub fn shown_row(trace: &Trace, number: u32) -> String {
    shown(&format!("row {number}"), trace.record(number), trace.rows().row(number), trace.own_name(number))
}

/// What was read of one trace, to hold against the recorder.
fn what_was_read(label: &str, recording: &Recording) -> String {
    let n = recording.n;
    let mut s = format!("{label}: {}\n\nRead, to hold against the recorder:\n", recording.name);
    s.push_str(&size(recording.text.len(), recording.header, n));
    if n > 0 {
        s.push_str(&shown("first row", recording.record(1), recording.row(1), None));
    }
    if n > 1 {
        s.push_str(&shown("last row", recording.record(n), recording.row(n), None));
    }
    for (what, rows) in Tally::of(recording).lines() {
        s.push_str(&format!("  {what}: {rows}\n"));
    }
    s
}

/// What was read of two traces.
pub fn what_was_read_of_two(recordings: &[Recording; 2]) -> String {
    [what_was_read("First trace", &recordings[0]), what_was_read("Second trace", &recordings[1])].join("\n")
}

/// How many rows a join has, and how many of each trace.
pub fn what_was_joined(join: &Join) -> String {
    let names = short_names(&join.recordings);
    let [first, second] = [0, 1].map(|k| format!("{} of {}", join.recordings[k].n, names[k]));
    labelled("Joined: ", &format!("{}, {first} and {second}", counted(u64::from(join.n), "row")))
}

/// Why two rows race under a model; both are known by their numbers.
pub fn why(trace: &Trace, model: Model, earlier: u32, later: u32) -> Option<Words> {
    let rows = trace.rows();
    explain(&rows, model, earlier, later).and_then(|e| words(&e, &rows, &mut trace.naming(&[earlier, later])))
}

/// The sentences of an explanation, each behind its label.
pub fn sentences(words: Option<&Words>) -> String {
    match words {
        None => "    no explanation found; please report this trace\n".to_string(),
        Some(w) => w.lines.iter().map(|(label, line)| sentence(label, line)).collect(),
    }
}

/// A sentence behind its label.
pub fn sentence(label: &str, line: &str) -> String {
    labelled(&format!("    {:9}", format!("{label}:")), line)
}

/// Both rows of a race, the bytes they share, and for each model what is missing between them.
fn race(trace: &Trace, models: &[Model], earlier: u32, later: u32) -> String {
    let mut s = format!("\nRace of row {earlier} and row {later} under {}\n", races::names(models));
    s.push_str(&shown_row(trace, earlier));
    s.push_str(&shown_row(trace, later));
    let mut shared = None;
    for model in models {
        let words = why(trace, *model, earlier, later);
        if let (None, Some(w)) = (&shared, &words) {
            s.push_str(&labelled("  shared: ", &w.shared));
            shared = Some(());
        }
        s.push_str(&format!("  {}:\n{}", model.name(), sentences(words.as_ref())));
    }
    s
}

/// The word for a trace without races. Of a trace without rows it says that nothing was judged.
pub fn free(trace: &Trace) -> &'static str {
    match trace.rows().n {
        0 => "free (the trace has no row: nothing was judged)",
        _ => "free",
    }
}

/// Which race of how many the first is.
fn first_of(races: usize) -> String {
    match races {
        1 => "the only race".to_string(),
        n => format!("the first of {n} races"),
    }
}

/// What is said behind the first races, of which a model has so many at most.
fn ending(most: usize) -> &'static str {
    match most {
        0 => "",
        1 => "\nThere is no other race under a model asked for. After a repair, check again.\n",
        _ => "\n'kiqsaryn races' shows every race. After a repair, check again.\n",
    }
}

/// The verdicts, how many races there are, and why the rows of the first race.
fn judged(trace: &Trace, verdicts: &[(Model, Verdict)]) -> Result<String, String> {
    let mut s = "\nVerdicts:\n".to_string();
    let mut pairs: Vec<((u32, u32), Vec<Model>)> = Vec::new();
    let mut most = 0;
    for (model, v) in verdicts {
        let words = match v {
            Verdict::Race { earlier, later } => {
                let (pair, races) = ((*earlier, *later), races::count(trace, *model)?);
                match pairs.iter_mut().find(|(p, _)| *p == pair) {
                    Some((_, models)) => models.push(*model),
                    None => pairs.push((pair, vec![*model])),
                }
                most = most.max(races);
                format!("race, {} and {} ({})", trace.row_name(*earlier), trace.row_name(*later), first_of(races))
            }
            _ => free(trace).to_string(),
        };
        s.push_str(&labelled(&format!("  {:8} ", model.name()), &words));
    }
    for ((earlier, later), models) in &pairs {
        s.push_str(&race(trace, models, *earlier, *later));
    }
    Ok(s + ending(most))
}

/// The whole report. An error is a sentence.
pub fn report(trace: &Trace, verdicts: &[(Model, Verdict)]) -> Result<String, String> {
    let read = match &trace.source {
        Recorded::Alone(recording) => what_was_read("Trace", recording),
        Recorded::Joined(join) => [what_was_read_of_two(&join.recordings), what_was_joined(join)].join("\n"),
    };
    Ok(read + &judged(trace, verdicts)?)
}
