//! The habits of other programs that a refused trace shows, and the command that mends them. The library answers whether the mended trace is accepted.

use crate::args::Mend;
use crate::fields::line_and_column;
use crate::input::{ask, is_of_order, reads_as, TraceRefused, Which};
use crate::mend::{mend, recognized, Doings, Done, Habit, Mended};
use crate::recording::{byte_limit, record, record_start};
use crate::text::{counted, is_shown};
use kiqsaryn::{Checked, Refusal, PROCESSES, ROWS};
use std::fs;
use std::path::Path;

/// How many names for the mended file are tried, where other files have them.
const NAMES: usize = 99;

/// What is said in place of the library's answer to a trace that was not read to its end.
const NOT_READ: &str = "The trace was not read to its end; whether it is accepted once mended is not known.";

/// What was recognized, the command that mends it, and what the mended trace comes to, all in words. Without a command, why none mends it.
pub struct Cure {
    pub recognized: String,
    pub command: Option<String>,
    pub then: String,
}

/// The cure of a refused trace, where the library's answer, or a record that is well formed, is another once the habits that the file shows are
/// mended.
pub fn cure(r: &TraceRefused) -> Option<Cure> {
    let stopped = r.mended.is_none() && r.stopped;
    let file = if stopped { whole_part(r) } else { r.file() };
    let given = r.mended.as_ref().map_or(Mend::default(), |mended| mended.options);
    let (found, not) = recognized(file);
    let new = Habit::ALL.into_iter().filter(|h| h.is_in(found) && !h.is_in(given));
    let options = new.clone().fold(given, |options, habit| habit.with(options));
    let mended = mend(file.to_vec(), options);
    let (answer, ..) = ask(&mended.text, r.header, r.processes);
    let same_answer = answer == Checked::Refused { refusal: r.refusal, place: r.place };
    let same_record = r.refusal == Refusal::Malformed || record(&mended.text, r.header, r.place) == r.record;
    if options == given || same_answer && same_record {
        return not_mended(r, &not);
    }
    let recognized: Vec<String> = new.map(|habit| in_words(habit, &mended)).collect();
    let then = if stopped && !is_too_long(answer) { NOT_READ.to_string() } else { outcome(r, &mended, answer) };
    let command = (!is_refused_alone(r, answer)).then(|| command(r, options));
    Some(Cure { recognized: recognized.join(", "), command, then })
}

/// Whether the library's answer to a part of a trace says that there are too many rows; no further part changes that.
fn is_too_long(answer: Checked) -> bool {
    matches!(answer, Checked::Refused { refusal: Refusal::TooManyRows, place } if place > ROWS)
}

/// Whether one of two traces, mended, is refused by itself for the order of messages or barriers, of which the other trace may have the rest.
fn is_refused_alone(r: &TraceRefused, answer: Checked) -> bool {
    r.which != Which::Only && matches!(answer, Checked::Refused { refusal, .. } if is_of_order(refusal))
}

/// A habit that the refused record shows and no option mends, and why.
fn not_mended(r: &TraceRefused, not: &Doings) -> Option<Cure> {
    let has = |b: u8| r.record.contains(&b);
    let (habit, why) = not.iter().find_map(|(habit, done)| match (habit, done) {
        (Habit::Utf16, Done::Not(why)) => Some(("UTF-16, two bytes for each character", why)),
        (Habit::Semicolons, Done::Not(why)) if has(b';') && !has(b',') => Some(("semicolons in place of commas", why)),
        (Habit::Tabs, Done::Not(why)) if has(b'\t') && !has(b',') => Some(("tabs in place of commas", why)),
        _ => None,
    })?;
    let then = format!("No option of write mends this trace: {why}. Save it again, as plain text with commas.");
    Some(Cure { recognized: habit.to_string(), command: None, then })
}

/// Of a trace that was not read to its end the part that no line end and no character of two bytes is cut in.
fn whole_part(r: &TraceRefused) -> &[u8] {
    let part = r.text.get(..byte_limit(r.header) / 2 * 2).unwrap_or(&r.text);
    part.strip_suffix(b"\r").unwrap_or(part)
}

/// A habit that the file shows, in words.
fn in_words(habit: Habit, mended: &Mended) -> String {
    let n = mended.done.iter().find_map(|(h, done)| match done {
        Done::Places(n) if *h == habit => Some(*n),
        _ => None,
    });
    let [lf, cr] = mended.lone_ends();
    match habit {
        Habit::Utf16 => "UTF-16, two bytes for each character".to_string(),
        Habit::Mark => "a byte order mark (EF BB BF) at the start".to_string(),
        Habit::LineEnds if cr == 0 => format!("LF alone at the end of {}", counted(lf as u64, "line")),
        Habit::LineEnds if lf == 0 => format!("CR alone at the end of {}", counted(cr as u64, "line")),
        Habit::LineEnds => format!("LF alone at the end of {}, CR alone at {cr}", counted(lf as u64, "line")),
        Habit::Semicolons => "semicolons in place of commas".to_string(),
        Habit::Tabs => "tabs in place of commas".to_string(),
        Habit::Spaces => "spaces beside commas or line ends".to_string(),
        Habit::BlankEnd if n == Some(1) => "a blank last line".to_string(),
        Habit::BlankEnd => format!("{} at the end", counted(n.unwrap_or(0) as u64, "blank line")),
    }
}

/// What the library answers to the mended trace.
fn outcome(r: &TraceRefused, mended: &Mended, answer: Checked) -> String {
    match answer {
        Checked::Accepted(n) => format!("Mended so, the trace is accepted: {}.", counted(u64::from(n), "row")),
        Checked::Refused { refusal, place } => {
            let (text, at, _) = mended.origin(record_start(&mended.text, r.header, place));
            let (line, _) = line_and_column(text, at);
            let at = if place == 0 { "the header".to_string() } else { format!("row {place}") };
            let refused = format!("it is refused with {}, at {at}, line {line}", refusal.number());
            match is_refused_alone(r, answer) {
                true => format!("Mended by write, {refused}, since write takes it by itself. Save it again without the habit."),
                false => format!("Mended so, {refused}.{}", header_word(r, &mended.text, place)),
            }
        }
    }
}

/// Which header word to say to `write` where the mended trace is refused at its first record and that reads as the other word says.
fn header_word(r: &TraceRefused, text: &[u8], place: u32) -> String {
    let is_first = place == u32::from(!r.header);
    match is_first && reads_as(record(text, r.header, place), !r.header, r.processes) {
        true if r.header => " The first record reads as a row: say --header no.".to_string(),
        true => " The first record holds the names: say --header yes.".to_string(),
        false => String::new(),
    }
}

/// The command that mends a trace.
fn command(r: &TraceRefused, options: Mend) -> String {
    let trace = r.path.as_deref().map_or("-".to_string(), shell_word);
    let mut words = format!("kiqsaryn write {trace} --header {}", if r.header { "yes" } else { "no" });
    if r.processes != PROCESSES {
        words.push_str(&format!(" --processes {}", r.processes));
    }
    for habit in Habit::ALL.into_iter().filter(|h| h.is_in(options)) {
        words.push_str(&format!(" {}", habit.option()));
    }
    format!("{words} -o {}", free_name())
}

/// A name in this folder that no file has.
fn free_name() -> String {
    let names = std::iter::once("mended.csv".to_string()).chain((2..=NAMES).map(|k| format!("mended-{k}.csv")));
    let is_free = |name: &String| fs::symlink_metadata(name).is_err();
    names.into_iter().find(is_free).unwrap_or("MENDED".to_string())
}

/// A path as a word of a shell's command line. One that cannot be written so has the name TRACE.
fn shell_word(path: &Path) -> String {
    let is_plain = |c: char| c.is_ascii_alphanumeric() || "_./,:@%+=-".contains(c);
    match path.to_str() {
        Some(word) if word.is_empty() || !word.chars().all(is_shown) => "TRACE".to_string(),
        Some(word) if word.starts_with('-') => shell_word(&Path::new(".").join(word)),
        Some(word) if word.chars().all(is_plain) => word.to_string(),
        Some(word) => format!("'{}'", word.replace('\'', "'\\''")),
        None => "TRACE".to_string(),
    }
}
