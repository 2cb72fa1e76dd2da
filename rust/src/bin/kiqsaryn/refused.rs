//! A refused trace in words, and two traces whose join is refused.

use crate::barriers::{self, is_arrival, listed};
use crate::check::what_was_read_of_two;
use crate::cure::{cure, Cure};
use crate::fields::line_and_column;
use crate::found::{point, Point};
use crate::input::{reads_as, row_of, short_names, JoinRefused, Refused, TraceRefused, Which};
use crate::mend::in_words;
use crate::messages::{Around, Numbered};
use crate::recording::{byte_limit, record_start, Recording};
use crate::text::{counted, escape, labelled};
use crate::turns::{turns, Own, Turns};
use kiqsaryn::{Refusal, Row, PROCESSES, ROWS, SEND};
use std::collections::BTreeMap;

/// The most bytes of a record that are shown.
const SHOWN: usize = 200;

/// The line that the program `verdict` prints. Where two traces are joined it also has the number of the trace whose place it is.
pub fn csv(r: &Refused) -> String {
    let (refusal, place, file) = match r {
        Refused::Trace(r) => (r.refusal, r.place, Some(r.which)),
        Refused::Join(r) => (r.refusal, r.place, None),
    };
    let file = match file {
        Some(Which::Only) => "",
        Some(Which::First) => ",1",
        Some(Which::Second) => ",2",
        None => ",0",
    };
    format!("refused,{},{place}{file}\r\n", refusal.number())
}

pub fn report(r: &Refused) -> String {
    match r {
        Refused::Trace(r) => trace_report(r),
        Refused::Join(r) => join_report(r),
    }
}

// ---- Where it is wrong

/// Where a trace is wrong: the line and the column from 1, as an editor shows them, and the byte from 0. The field there, by its name, and what is
/// wrong, in words, as far as the number tells.
pub struct Place {
    pub line: usize,
    pub byte: usize,
    pub column: usize,
    pub field: Option<&'static str>,
    pub found: Option<String>,
}

pub fn place(r: &TraceRefused) -> Place {
    let Point { at, field, found } = point(&r.text, r.start, r.refusal, r.processes);
    let (text, at, byte) = r.mended.as_ref().map_or((&r.text[..], at, at), |mended| mended.origin(at));
    let (line, column) = line_and_column(text, at);
    Place { line, byte, column, field, found: found.or_else(|| order(r)) }
}

/// What is wrong with the order of messages or barriers, in sentences.
fn order(r: &TraceRefused) -> Option<String> {
    let sentences = match r.refusal {
        Refusal::BarrierOrder => barriers_of(r).wrong().1,
        Refusal::MessageOrder | Refusal::WaitOrder => around(r)?.wrong(),
        _ => Vec::new(),
    };
    Some(sentences.join(" ")).filter(|s| !s.is_empty())
}

/// "line 3, byte 57 (from 0), column 3".
fn spot(place: &Place) -> String {
    format!("line {}, byte {} (from 0), column {}", place.line, place.byte, place.column)
}

/// Where a row of a recording is wrong, for a refusal of the join.
fn spot_of_row(recordings: &[Recording; 2], own: &Own, refusal: Refusal) -> String {
    let Some(recording) = recordings.get(own.recording) else {
        return String::new();
    };
    let start = record_start(&recording.text, recording.header, own.number);
    let byte = point(&recording.text, start, refusal, PROCESSES).at;
    let (line, column) = line_and_column(&recording.text, byte);
    spot(&Place { line, byte, column, field: None, found: None })
}

// ---- One trace

fn trace_report(r: &TraceRefused) -> String {
    let at = match r.place {
        0 => "the header".to_string(),
        k => format!("row {k}"),
    };
    let label = match r.which {
        Which::Only => "Trace",
        Which::First => "First trace",
        Which::Second => "Second trace",
    };
    let (wrong, of) = (place(r), if r.mended.is_some() { " of the text as mended" } else { "" });
    let mut s = format!("{label}: {}\n\nRefused: number {}, at {at}{of}. There is no verdict.\n", r.name, r.refusal.number());
    s.push_str(&labelled("  place:       ", &format!("{}, {}", r.name, spot(&wrong))));
    s.push_str(&format!("  read:        {}, header {}\n", counted(r.bytes as u64, "byte"), if r.header { "yes" } else { "no" }));
    let labels = std::iter::once("  mended:      ").chain(std::iter::repeat("               "));
    for (done, label) in r.mended.iter().flat_map(|mended| &mended.done).zip(labels) {
        s.push_str(&labelled(label, &in_words(done)));
    }
    s.push_str(&labelled("  answered No: ", r.refusal.question()));
    s.push_str(&format!("  the record:  {}\n", shown(r)));
    s.push_str(&found(r, &wrong));
    let cure = cure(r);
    for note in notes(r, cure.is_some()) {
        s.push_str(&labelled("  note:        ", &note));
    }
    s + &cure.map_or(String::new(), cured)
}

/// The habits of a file that the refusal comes from, and the command that mends them, on a line that a shell takes as it stands.
fn cured(cure: Cure) -> String {
    let recognized = labelled("  recognized:  ", &cure.recognized);
    match cure.command {
        Some(command) => recognized + &format!("  cure:        {command}\n") + &labelled(&" ".repeat(15), &cure.then),
        None => recognized + &labelled("  cure:        ", &cure.then),
    }
}

/// What is wrong at the place, and the rows that it is about.
fn found(r: &TraceRefused, wrong: &Place) -> String {
    let label = match wrong.field {
        Some(_) if ![Refusal::Malformed, Refusal::NotSixFields].contains(&r.refusal) => "  field:       ",
        _ => "  found:       ",
    };
    match (r.refusal, &wrong.found) {
        (Refusal::BarrierOrder, _) => barriers_of(r).report(),
        (Refusal::MessageOrder | Refusal::WaitOrder, _) => around(r).map_or(String::new(), |around| around.report()),
        (_, Some(found)) => labelled(label, found),
        (_, None) => String::new(),
    }
}

fn shown(r: &TraceRefused) -> String {
    match (r.record.is_empty(), r.bytes) {
        (true, 0) => "none".to_string(),
        (true, _) => "empty".to_string(),
        _ => escape(&r.record, SHOWN),
    }
}

/// The rows around one that is refused for its message.
fn around(r: &TraceRefused) -> Option<Around> {
    let at = (r.place as usize).checked_sub(1)?;
    let row = *r.rows.get(at)?;
    let numbered = |(row, number): (&Row, u32)| Numbered { number, own: String::new(), row: *row };
    let before = r.rows.iter().zip(1..).take(at).map(numbered).collect();
    let behind = r.rows.iter().zip(1..).skip(at + 1).map(|(row, number): (&Row, u32)| (format!("row {number}"), *row)).collect();
    Some(Around { row, before, behind })
}

/// The rows of a trace that is refused for a barrier.
fn barriers_of(r: &TraceRefused) -> barriers::Refused {
    let numbered = |(row, number): (&Row, u32)| Numbered { number, own: String::new(), row: *row };
    barriers::Refused { rows: r.rows.iter().zip(1..).map(numbered).collect(), place: r.place as usize }
}

/// Facts about the record that help to repair it. Where there is a cure, the header word is none of them.
fn notes(r: &TraceRefused, has_cure: bool) -> Vec<String> {
    let mut notes = Vec::new();
    if r.stopped {
        let most = byte_limit(r.header);
        notes.push(match r.mended {
            None => format!("reading stopped after {most} bytes. No trace that can be accepted is longer."),
            Some(_) => format!("no text of more than {most} bytes can be accepted."),
        });
    }
    match r.refusal {
        Refusal::TooManyRows if r.place > ROWS => notes.push(format!("a trace has at most {ROWS} rows.")),
        Refusal::NumberRange => notes.push(format!(
            "process is 0 to {} (--processes {}), file 0 to 63, offset and length 0 to 4294967295, message 0 to 65535.",
            r.processes.saturating_sub(1),
            r.processes
        )),
        Refusal::Malformed => {}
        _ if has_cure => {}
        Refusal::Header => notes.push(header_note(r)),
        _ if r.place == 1 && !r.header => notes.push(header_note(r)),
        _ => {}
    }
    notes
}

/// What the header word says of the first record, and which word to say where the library takes the record for what the other word says.
fn header_note(r: &TraceRefused) -> String {
    let of = match r.which {
        Which::Only => "",
        Which::First => " of the first trace",
        Which::Second => " of the second trace",
    };
    let is_other = reads_as(&r.record, !r.header, r.processes);
    let (what, other) = match r.header {
        true => ("holds the names", "It reads as a row"),
        false => ("is row 1", "It holds the names"),
    };
    let cure = if is_other { format!(" {other}: say {}.", r.said_other) } else { String::new() };
    format!("{} says that the first record{of} {what}.{cure}", r.said)
}

// ---- Two traces

fn join_report(r: &JoinRefused) -> String {
    let place = match r.place {
        0 => String::new(),
        k => format!(", at row {k} of the join"),
    };
    let mut s = what_was_read_of_two(&r.recordings);
    s.push_str(&format!("\nRefused: number {}{place}. There is no verdict.\n", r.refusal.number()));
    s.push_str(&labelled("  answered No: ", r.refusal.question()));
    s.push_str(&match r.refusal {
        Refusal::SharedProcess => in_both(&r.recordings),
        Refusal::Stuck => waiting(&r.recordings),
        Refusal::BarrierOrder => joined_barriers(r),
        _ => joined_row(r),
    });
    s
}

/// "row 3 of second.csv: 1,wait,,,,7".
fn own_record(recordings: &[Recording; 2], own: &Own) -> String {
    let record = recordings.get(own.recording).map_or(&[][..], |r| r.record(own.number));
    format!("{}: {}", row_of(recordings, own.recording, own.number), escape(record, SHOWN))
}

/// The first row of each process.
fn first_rows(recordings: &[Recording; 2], recording: usize) -> BTreeMap<u32, Own> {
    let mut first = BTreeMap::new();
    for (number, row) in recordings[recording].all() {
        first.entry(row.process).or_insert(Own { recording, number, row });
    }
    first
}

/// 19: a process, a row of it in each trace, and the other processes that have rows in both.
fn in_both(recordings: &[Recording; 2]) -> String {
    let [first, second] = [0, 1].map(|k| first_rows(recordings, k));
    let both: Vec<(&u32, &Own, &Own)> = first.iter().filter_map(|(p, a)| Some((p, a, second.get(p)?))).collect();
    let mut s = String::new();
    if let Some((process, a, b)) = both.first() {
        for (label, own) in [(format!("process {process}:"), a), (String::new(), b)] {
            s.push_str(&labelled(&format!("  {label:13}"), &own_record(recordings, own)));
            s.push_str(&labelled(&" ".repeat(15), &format!("At {}.", spot_of_row(recordings, own, Refusal::SharedProcess))));
        }
    }
    if both.len() > 1 {
        let all: Vec<String> = both.iter().map(|(p, _, _)| p.to_string()).collect();
        s.push_str(&labelled("  note:        ", &format!("processes with rows in both traces: {}.", all.join(", "))));
    }
    s
}

/// 20: how many rows were taken, and of each trace the next row and what it waits for, or that the trace is at its end.
fn waiting(recordings: &[Recording; 2]) -> String {
    let (turns, names) = (turns(recordings, usize::MAX), short_names(recordings));
    let [first, second] = [0, 1].map(|k| {
        let n = turns.taken.iter().filter(|own| own.recording == k).count();
        format!("{} of {}", counted(n as u64, "row"), names[k])
    });
    let mut s = labelled("  taken:       ", &format!("{first}, {second}"));
    for (k, label) in [(0, "  first:       "), (1, "  second:      ")] {
        s.push_str(&match &turns.next[k] {
            None => labelled(label, &format!("{} is at its end.", names[k])),
            Some(own) => waiting_row(recordings, &turns, label, own),
        });
    }
    s
}

/// The first row of the two recordings that fits, and where it stands: it waits itself, or stands behind a row that does.
fn not_taken_row(recordings: &[Recording; 2], turns: &Turns, fits: impl Fn(Row) -> bool) -> Option<(String, &'static str)> {
    let find = |k: usize| recordings[k].all().find(|(_, r)| fits(*r)).map(|(number, _)| (k, number));
    find(0).or(find(1)).map(|(k, number)| {
        let waits = turns.next[k].is_some_and(|next| next.number == number);
        (row_of(recordings, k, number), if waits { "itself a row that waits" } else { "behind a row that waits" })
    })
}

/// A row that waits, and for what: where its message is sent, if anywhere, and who has not arrived at the barrier where its process stands.
fn waiting_row(recordings: &[Recording; 2], turns: &Turns, label: &str, own: &Own) -> String {
    let Row { process, message, .. } = own.row;
    let mut s = labelled(label, &own_record(recordings, own));
    let mut say = |sentence: String| s.push_str(&labelled(&" ".repeat(label.len()), &sentence));
    say(format!("At {}.", spot_of_row(recordings, own, Refusal::Stuck)));
    if turns.lacks_send(own.row) {
        let sent = match not_taken_row(recordings, turns, |r| r.kind == SEND && r.message == message) {
            None => "no row of the two traces sends".to_string(),
            Some((name, place)) => format!("{name} sends, {place}"),
        };
        say(format!("It waits for message {message}, which {sent}."));
    }
    if let Some((barrier, missing)) = turns.held(own.row) {
        let missing = listed(&missing, |p| match not_taken_row(recordings, turns, |r| is_arrival(r, p, barrier)) {
            None => "it arrives in neither trace".to_string(),
            Some((name, place)) => format!("{name}, {place}"),
        });
        let since = turns.taken.iter().rev().find(|o| o.row.process == process);
        let since = since.map_or(String::new(), |o| format!(" ({})", row_of(recordings, o.recording, o.number)));
        say(format!("Process {process} stands at barrier {barrier}{since}. Not arrived: {missing}."));
    }
    s
}

/// 22: the record, where it comes from, and what is wrong with the barriers of the join.
fn joined_barriers(r: &JoinRefused) -> String {
    let (turns, place) = (turns(&r.recordings, usize::MAX), r.place as usize);
    let Some(at) = place.checked_sub(1).and_then(|at| turns.taken.get(at)) else {
        return String::new();
    };
    let rows = turns.taken.iter().zip(1..).map(|(own, number)| numbered(&r.recordings, own, number)).collect();
    joined_record(&r.recordings, at, r.refusal) + &barriers::Refused { rows, place }.report()
}

/// The record of a joined row, and where it is wrong in the trace that it comes from.
fn joined_record(recordings: &[Recording; 2], own: &Own, refusal: Refusal) -> String {
    let name = short_names(recordings)[own.recording.min(1)];
    let place = labelled("  place:       ", &format!("{name}, {}", spot_of_row(recordings, own, refusal)));
    place + &labelled("  the record:  ", &own_record(recordings, own))
}

/// A joined row with its number in the join and its own name behind it.
fn numbered(recordings: &[Recording; 2], own: &Own, number: u32) -> Numbered {
    Numbered { number, own: format!(" ({})", row_of(recordings, own.recording, own.number)), row: own.row }
}

/// 6, 12 and 21: the record, where it comes from, and the rows before it with its message.
fn joined_row(r: &JoinRefused) -> String {
    let turns = turns(&r.recordings, r.place as usize);
    let Some((last, before)) = turns.taken.split_last().filter(|_| turns.taken.len() == r.place as usize) else {
        return String::new();
    };
    let names = short_names(&r.recordings);
    let mut s = joined_record(&r.recordings, last, r.refusal);
    if r.refusal == Refusal::TooManyRows {
        let [first, second] = [0, 1].map(|k| format!("{} has {}", names[k], r.recordings[k].n));
        s.push_str(&labelled("  note:        ", &format!("a trace has at most {ROWS} rows, and so has a join. {first}, {second}.")));
        return s;
    }
    let before = before.iter().zip(1..).map(|(own, number)| numbered(&r.recordings, own, number)).collect();
    let behind = not_taken(&r.recordings, &turns).map(|own| (row_of(&r.recordings, own.recording, own.number), own.row)).collect();
    s + &Around { row: last.row, before, behind }.report()
}

/// The rows of both recordings that are not taken, those of the first first.
fn not_taken<'a>(recordings: &'a [Recording; 2], turns: &'a Turns) -> impl Iterator<Item = Own> + 'a {
    turns.next.iter().flatten().flat_map(|next| {
        let rest = recordings[next.recording.min(1)].all().skip_while(|(number, _)| *number < next.number);
        rest.map(|(number, row)| Own { recording: next.recording, number, row })
    })
}
