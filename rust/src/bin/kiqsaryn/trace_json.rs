//! What the JSON objects of all commands have in common: the traces, what was read of them, and the two rows of a race.

use crate::args::{Common, Input, Inputs};
use crate::check::why;
use crate::explain::shared;
use crate::input::{Recorded, Trace};
use crate::json::{self, Field};
use crate::recording::{name_of, Recording};
use crate::sha256;
use crate::tally::Tally;
use kiqsaryn::{Model, Row, KINDS};
use std::collections::BTreeMap;

// ---- Traces

/// The name of a trace and its header word; what is known before it is read.
fn of_input(input: &Input) -> Vec<Field> {
    vec![("trace", json::string(&name_of(&input.source))), ("header", input.header.to_string())]
}

/// The traces that are answered about, by what is known before they are read.
pub fn of_inputs(common: &Common) -> Vec<Field> {
    match &common.inputs {
        Inputs::One(input) => of_input(input),
        Inputs::Two(inputs) => vec![("traces", json::list(inputs.iter().map(|input| json::object(&of_input(input)))))],
    }
}

/// Counts of rows, each with the number that they are of.
fn counts(name: &'static str, counts: &BTreeMap<u32, u64>) -> String {
    json::list(counts.iter().map(|(number, rows)| json::object(&[(name, number.to_string()), ("rows", rows.to_string())])))
}

/// What was read of a trace.
fn of_recording(recording: &Recording) -> Vec<Field> {
    let t = Tally::of(recording);
    let messages = [("rows", t.messages.to_string()), ("recv_without_wait", t.posted_only.to_string())];
    let barriers = [("rows", t.arrivals.to_string()), ("barriers", t.barriers.to_string())];
    vec![
        ("trace", json::string(&recording.name)),
        ("header", recording.header.to_string()),
        ("bytes", recording.bytes.to_string()),
        ("sha256", json::string(&sha256::digits(&recording.text))),
        ("rows", recording.n.to_string()),
        ("processes", counts("process", &t.processes)),
        ("files", counts("file", &t.files)),
        ("messages", json::object(&messages)),
        ("barriers", json::object(&barriers)),
    ]
}

/// What was read of two traces, as a list.
pub fn of_two(recordings: &[Recording; 2]) -> Field {
    ("traces", json::list(recordings.iter().map(|r| json::object(&of_recording(r)))))
}

/// What was read of a trace or of two that are joined. Each joined row has its own trace, 1 or 2, and its number there.
pub fn of_trace(trace: &Trace) -> Vec<Field> {
    match &trace.source {
        Recorded::Alone(recording) => of_recording(recording),
        Recorded::Joined(join) => {
            let origins = join.origins.iter().map(|origin| format!("[{},{}]", origin.recording + 1, origin.number));
            vec![of_two(&join.recordings), ("rows", join.n.to_string()), ("origins", json::list(origins))]
        }
    }
}

/// What was read, and whether there is a row that a model can judge.
pub fn of_judged(trace: &Trace) -> Vec<Field> {
    let mut fields = of_trace(trace);
    fields.push(("judged", (trace.rows().n > 0).to_string()));
    fields
}

// ---- Races

fn row(number: u32, row: Row) -> String {
    json::object(&[
        ("row", number.to_string()),
        ("process", row.process.to_string()),
        ("kind", json::string(KINDS.get(row.kind as usize).copied().unwrap_or(""))),
        ("offset", row.offset.to_string()),
        ("length", row.length.to_string()),
    ])
}

/// The sentences on what is missing between two rows, each with its label.
fn explanation(trace: &Trace, model: Model, earlier: u32, later: u32) -> String {
    let lines = why(trace, model, earlier, later).map_or(Vec::new(), |words| words.lines);
    json::list(lines.iter().map(|(label, text)| json::object(&[("label", json::string(label)), ("text", json::string(text))])))
}

/// A race: both rows, the file and the bytes that they share, and what is missing between them.
pub fn race(trace: &Trace, model: Model, (earlier, later): (u32, u32)) -> String {
    let rows = trace.rows();
    let (x, y) = (rows.row(earlier).unwrap_or_default(), rows.row(later).unwrap_or_default());
    let both = shared(x, y).map(|(first, last)| json::object(&[("first", first.to_string()), ("last", last.to_string())]));
    json::object(&[
        ("earlier", earlier.to_string()),
        ("later", later.to_string()),
        ("file", x.file.to_string()),
        ("shared", json::maybe(both)),
        ("rows", json::list([row(earlier, x), row(later, y)])),
        ("explanation", explanation(trace, model, earlier, later)),
    ])
}
