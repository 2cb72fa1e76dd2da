//! Rows and bytes in words.

use kiqsaryn::{Refusal, Row, BARRIER, CLOSE, COMMIT, OPEN, READ, RECV, SEND, SYNC, WAIT, WRITE};
use std::path::Path;

/// Lines of a report are no wider, save for records shown as they stand.
pub const WIDTH: usize = 78;

/// Bytes as printable text on one line. At most `most` of them are shown.
pub fn escape(bytes: &[u8], most: usize) -> String {
    let mut s = String::new();
    for b in bytes.iter().take(most) {
        match b {
            b'\\' => s.push_str("\\\\"),
            b'\r' => s.push_str("\\r"),
            b'\n' => s.push_str("\\n"),
            b'\t' => s.push_str("\\t"),
            0x20..=0x7e => s.push(char::from(*b)),
            _ => s.push_str(&format!("\\x{b:02x}")),
        }
    }
    if bytes.len() > most {
        s.push_str(" ... (cut here)");
    }
    s
}

/// The most letters of a path that are shown.
pub const PATH: usize = 400;

/// A path as printable text on one line: letters of every script as they are, and other bytes escaped.
pub fn path_name(path: &Path) -> String {
    let bytes = path.as_os_str().as_encoded_bytes();
    let mut s = String::new();
    for chunk in bytes.utf8_chunks() {
        for c in chunk.valid().chars() {
            match c {
                '\\' => s.push_str("\\\\"),
                c if is_shown(c) => s.push(c),
                c => s.push_str(&escape(c.encode_utf8(&mut [0; 4]).as_bytes(), 4)),
            }
        }
        s.push_str(&escape(chunk.invalid(), 4));
    }
    match s.char_indices().nth(PATH) {
        Some((at, _)) => format!("{} ... (cut here)", &s[..at]),
        None => s,
    }
}

/// Whether a letter of a name is shown as it is: no control character, and none that turns the direction of a line or is not seen.
pub fn is_shown(c: char) -> bool {
    let hidden = ['\u{200b}'..='\u{200f}', '\u{2028}'..='\u{202e}', '\u{2060}'..='\u{206f}', '\u{feff}'..='\u{feff}'];
    !c.is_control() && !hidden.iter().any(|range| range.contains(&c))
}

/// A range of bytes by its first and last, without a word.
pub fn span(offset: u32, length: u32) -> String {
    match length {
        0 | 1 => offset.to_string(),
        _ => format!("{offset} to {}", u64::from(offset) + u64::from(length) - 1),
    }
}

/// A range of bytes by its first and last.
pub fn bytes_of(offset: u32, length: u32) -> String {
    match length {
        0 => format!("no bytes (offset {offset}, length 0)"),
        1 => format!("byte {}", span(offset, length)),
        _ => format!("bytes {}", span(offset, length)),
    }
}

/// What a row says, as a sentence without its stop.
pub fn describe(row: Row) -> String {
    let (p, f) = (row.process, row.file);
    match row.kind {
        READ => format!("process {p} reads {} of file {f}", bytes_of(row.offset, row.length)),
        WRITE => format!("process {p} writes {} of file {f}", bytes_of(row.offset, row.length)),
        COMMIT => format!("process {p} commits file {f}"),
        OPEN => format!("process {p} opens file {f}"),
        CLOSE => format!("process {p} closes file {f}"),
        SYNC => format!("process {p} syncs file {f}"),
        SEND => format!("process {p} sends message {}", row.message),
        RECV => format!("process {p} posts a receive for message {}", row.message),
        WAIT => format!("process {p} waits for message {}", row.message),
        BARRIER => format!("process {p} arrives at barrier {}", row.message),
        _ => format!("process {p}"),
    }
}

/// "1 row", "2 rows".
pub fn counted(n: u64, one: &str) -> String {
    if n == 1 {
        format!("{n} {one}")
    } else {
        format!("{n} {one}s")
    }
}

/// Whether the first record is a header, in words.
pub fn header_words(header: bool) -> &'static str {
    match header {
        true => "yes (the first record is no row)",
        false => "no (the first record is row 1)",
    }
}

/// How much a text holds, on a line each: its bytes, whether its first record is a header, and its rows.
pub fn size(bytes: usize, header: bool, rows: u32) -> String {
    let header = header_words(header);
    format!("  {}\n  header: {header}\n  {}\n", counted(bytes as u64, "byte"), counted(u64::from(rows), "row"))
}

/// A sentence on a refusal that the library should not have given.
pub fn refusal_of_library(what: &str, refusal: Refusal) -> String {
    format!("{what}: refusal {}, {} Please report this trace.", refusal.number(), refusal.question())
}

/// How many letters a text has.
pub fn letters(text: &str) -> usize {
    text.chars().count()
}

/// Breaks text between words into lines of at most `width` letters; a longer word has a line of its own.
pub fn wrap(text: &str, width: usize) -> Vec<String> {
    let mut lines = Vec::new();
    let mut line = String::new();
    for word in text.split(' ') {
        if !line.is_empty() && letters(&line) + 1 + letters(word) > width {
            lines.push(std::mem::take(&mut line));
        }
        if !line.is_empty() {
            line.push(' ');
        }
        line.push_str(word);
    }
    lines.push(line);
    lines
}

/// Text behind a label, its further lines indented as the first.
pub fn labelled(label: &str, text: &str) -> String {
    let mut s = String::new();
    let mut lead = label.to_string();
    for line in wrap(text, WIDTH.saturating_sub(letters(label))) {
        s.push_str(&lead);
        s.push_str(&line);
        s.push('\n');
        lead = " ".repeat(letters(label));
    }
    s
}
