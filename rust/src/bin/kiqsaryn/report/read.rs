//! What was read of each trace, to hold against the recorder.

use super::page::{paragraph, section as page_section, text};
use crate::check::what_was_joined;
use crate::input::{Recorded, Trace};
use crate::recording::Recording;
use crate::sha256;
use crate::tally::Tally;
use crate::text::{counted, describe, escape, header_words};

/// The most bytes of a record that are shown.
const RECORD: usize = 400;

/// A line of the table; its value is an element already.
fn line(label: &str, value: &str) -> String {
    format!("<tr><th scope=\"row\">{}</th><td>{value}</td></tr>\n", text(label))
}

/// A row as its record stands, and in words.
fn row(recording: &Recording, number: u32) -> String {
    let record = format!("<code>{}</code>", text(&escape(recording.record(number), RECORD)));
    recording.row(number).map_or(record.clone(), |row| format!("{record}<br/>{}", text(&describe(row))))
}

/// How many rows there are of each process, each file, and of no file.
fn tally(recording: &Recording) -> String {
    let lines = Tally::of(recording).lines().into_iter();
    let items: Vec<String> = lines.map(|(what, rows)| format!("<li>{}: {}</li>", text(&what), text(&rows))).collect();
    format!("<ul class=\"tally\">{}</ul>", items.concat())
}

/// What was read of one trace.
fn one(label: &str, recording: &Recording) -> String {
    let mut s = format!("<h3>{label}: {}</h3>\n<div class=\"scroll\"><table class=\"facts\"><tbody>\n", text(&recording.name));
    s.push_str(&line("size", &counted(recording.text.len() as u64, "byte")));
    s.push_str(&line("SHA-256", &format!("<code class=\"hash\">{}</code>", sha256::digits(&recording.text))));
    s.push_str(&line("header", header_words(recording.header)));
    s.push_str(&line("rows", &counted(u64::from(recording.n), "row")));
    if recording.n > 0 {
        s.push_str(&line("first row", &row(recording, 1)));
    }
    if recording.n > 1 {
        s.push_str(&line("last row", &row(recording, recording.n)));
    }
    if recording.n > 0 {
        s.push_str(&line("counts", &tally(recording)));
    }
    s.push_str("</tbody></table></div>\n");
    s
}

pub fn section(trace: &Trace) -> String {
    let mut s =
        paragraph("Hold the size, the number of rows, the first and the last row against the recorder before you believe a verdict.");
    match &trace.source {
        Recorded::Alone(recording) => s.push_str(&one("Trace", recording)),
        Recorded::Joined(join) => {
            let [first, second] = &join.recordings;
            s.push_str(&one("First trace", first));
            s.push_str(&one("Second trace", second));
            s.push_str(&paragraph(&what_was_joined(join).split_whitespace().collect::<Vec<&str>>().join(" ")));
        }
    }
    page_section("read", "What was read", &s)
}
