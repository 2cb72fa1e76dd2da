//! The rows of a trace as plain text, and what `write` says of it.

use crate::input::{Recorded, Trace};
use crate::mend::in_words;
use crate::recording::Recording;
use crate::text::{labelled, refusal_of_library, size};
use kiqsaryn::{write, Written, HEADER_LINE, LONGEST_LINE};

/// The rows as plain text, behind the names where a header is asked for. An error is a sentence.
pub fn text(trace: &Trace, header: bool) -> Result<String, String> {
    let rows = trace.rows();
    let mut out = vec![0; HEADER_LINE + LONGEST_LINE * rows.n as usize];
    match write(rows.rows, rows.n, u32::from(header), rows.processes, &mut out, 0) {
        Written::Length(length) => {
            out.truncate(length);
            String::from_utf8(out).map_err(|_| "the text is not plain; please report this trace".to_string())
        }
        Written::Refused { refusal, place: 0 } => Err(refusal_of_library("the text cannot be written", refusal)),
        Written::Refused { refusal, place } => Err(refusal_of_library(&format!("row {place} cannot be written"), refusal)),
    }
}

/// What was written to a place of this name.
pub fn what_was_written(trace: &Trace, header: bool, text: &str, output: &str) -> String {
    format!("\nWritten to {output}:\n{}", size(text.len(), header, trace.rows().n))
}

/// What each option that mends has done, on a line each; nothing where none was said.
fn what_was_mended(recording: &Recording) -> String {
    if recording.mended.is_empty() {
        return String::new();
    }
    let lines = recording.mended.iter().map(|done| labelled("  ", &in_words(done)));
    std::iter::once("\nMended:\n".to_string()).chain(lines).collect()
}

/// What was read, what was mended, and what was written to a place of this name.
pub fn report(trace: &Trace, header: bool, text: &str, output: &str) -> String {
    let mut s = String::new();
    if let Recorded::Alone(recording) = &trace.source {
        s.push_str(&format!("Trace: {}\n\nRead, to hold against the recorder:\n", recording.name));
        s.push_str(&size(recording.bytes, recording.header, recording.n));
        s.push_str(&what_was_mended(recording));
    }
    s + &what_was_written(trace, header, text, output)
}
