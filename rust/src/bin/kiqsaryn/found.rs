//! Where a refused record is wrong, and what stands there. The library alone decides that it is refused; this only points.

use crate::fields::{split, Fault, Field, Record, KIND, LENGTH, MESSAGE, NAMES, PROCESS};
use crate::near::nearest;
use crate::text::{counted, escape};
use kiqsaryn::{Refusal, BARRIER, FILES, KINDS, READ, RECV, SEND, WAIT, WRITE};

/// The most bytes of a field that are shown.
const SHOWN: usize = 40;
const FIELDS: usize = NAMES.len();
/// A word that is held against the kinds has fewer bytes.
const LONGEST_LIKE: usize = 20;
const LAST_MESSAGE: u64 = 65_535;
const LAST_BYTE: u64 = u32::MAX as u64;

/// A place in a text, the field there, and what is wrong with it.
#[derive(Default)]
pub struct Point {
    pub at: usize,
    pub field: Option<&'static str>,
    pub found: Option<String>,
}

/// A field's contents in quotes, on one line.
fn shown(content: &[u8]) -> String {
    format!("\"{}\"", escape(content, SHOWN))
}

/// Points at the first thing that a refusal of the record starting here is about. Process numbers are below `processes`.
pub fn point(text: &[u8], start: usize, refusal: Refusal, processes: u32) -> Point {
    let record = split(text, start);
    let pointed = match refusal {
        Refusal::Malformed => malformed(&record),
        Refusal::Header => names(text, &record),
        Refusal::NotSixFields => Some(not_six(&record)),
        Refusal::UnknownKind => kind(&record),
        Refusal::FieldsUsed => used(&record),
        Refusal::NumberRange => number(&record, processes),
        Refusal::RangeEnd => range_end(&record),
        Refusal::MessageOrder | Refusal::WaitOrder | Refusal::BarrierOrder | Refusal::Stuck => message(&record),
        _ => None,
    };
    pointed.unwrap_or(Point { at: start, field: None, found: None })
}

/// Points at a field of a record.
fn field_at(record: &Record, k: usize, found: Option<String>) -> Option<Point> {
    Some(Point { at: record.fields.get(k)?.start, field: NAMES.get(k).copied(), found })
}

// ---- 4

/// A byte that no field can hold, in words.
fn byte_in_words(b: u8) -> String {
    match b {
        b'\t' => "a tab".to_string(),
        b' ' => "a space".to_string(),
        0x21..=0x7e => shown(&[b]),
        0x80.. => format!("a byte that is not plain ASCII, 0x{b:02X},"),
        _ => format!("a byte that cannot be printed, 0x{b:02X},"),
    }
}

/// Points at the byte where the record stops being well formed, or at the quote that is not closed.
fn malformed(record: &Record) -> Option<Point> {
    let (at, fault) = record.fault?;
    let field = NAMES.get(record.fields.len()).copied();
    let name = field.map_or("a field".to_string(), |name| format!("the field {name}"));
    let found = match fault {
        Fault::NotClosed => format!("a quote that opens {name}, and none closes it"),
        Fault::NotText(b) => format!("{} in {name}", byte_in_words(b)),
        Fault::QuoteInside => format!("a quote in {name}, which does not start with one"),
        Fault::BehindQuote(b) => format!("{} behind the closing quote of {name}", byte_in_words(b)),
        Fault::LineFeed => "a line feed (LF) with no carriage return (CR) before it. Records end in CR LF.".to_string(),
        Fault::CarriageReturn => "a carriage return (CR) with no line feed (LF) behind it. Records end in CR LF.".to_string(),
    };
    Some(Point { at, field, found: Some(found) })
}

// ---- 5 and 7

/// Points at the first name that differs.
fn names(text: &[u8], record: &Record) -> Option<Point> {
    if text.is_empty() {
        return Some(Point { found: Some("the trace has no byte".to_string()), ..Point::default() });
    }
    let differs = |(field, name): (&Field, &str)| field.content != name.as_bytes();
    let first = record.fields.iter().zip(NAMES).position(differs);
    match first {
        Some(k) => {
            let found = format!("name {} is {}, not \"{}\"", k + 1, shown(&record.fields[k].content), NAMES[k]);
            field_at(record, k, Some(found))
        }
        None if record.fault.is_some() => None,
        None => Some(Point { field: None, ..not_six(record) }),
    }
}

/// Points at the comma in front of the first field too many, or at the end of a record with too few.
fn not_six(record: &Record) -> Point {
    let n = record.fields.len();
    let (at, field) = match record.fields.get(FIELDS) {
        Some(seventh) => (seventh.start.saturating_sub(1), None),
        None => (record.end, NAMES.get(n).copied()),
    };
    let blank = n == 1 && record.fields.iter().all(|f| f.start == f.end);
    let found = match field {
        _ if blank => "a blank line".to_string(),
        None => format!("{n} fields. A record has {FIELDS}."),
        Some(name) => format!("{}, and {name} is missing. A record has {FIELDS}; unused ones are empty.", counted(n as u64, "field")),
    };
    Point { at, field: field.filter(|_| !blank), found: Some(found) }
}

// ---- 12, 20, 21 and 22

/// Points at the message, or at the start of a row that has none: such a row goes on from a barrier.
fn message(record: &Record) -> Option<Point> {
    let k = if record.fields.get(MESSAGE)?.content.is_empty() { PROCESS } else { MESSAGE };
    field_at(record, k, None)
}

// ---- 8 and 9

/// The kind that a word is but for large letters and spaces around it, said so, or the one that it is most like.
fn kind_like(word: &[u8]) -> Option<String> {
    let plain = String::from_utf8(word.trim_ascii().to_ascii_lowercase()).ok().filter(|w| (1..LONGEST_LIKE).contains(&w.len()))?;
    if KINDS.contains(&plain.as_str()) {
        return Some(format!("Kinds stand in small letters, without spaces: {plain}."));
    }
    nearest(&plain, &KINDS).map(|kind| format!("A kind with a similar name is {kind}."))
}

fn kind(record: &Record) -> Option<Point> {
    let content = &record.fields.get(KIND)?.content;
    let found = match kind_like(content) {
        _ if content.is_empty() => "kind is empty".to_string(),
        None => format!("kind is {}", shown(content)),
        Some(like) => format!("kind is {}. {like}", shown(content)),
    };
    field_at(record, KIND, Some(found))
}

fn number_of_kind(record: &Record) -> Option<u32> {
    let content = &record.fields.get(KIND)?.content;
    let k = KINDS.iter().position(|name| name.as_bytes() == content)?;
    u32::try_from(k).ok()
}

/// Which of the six fields a kind uses, and how that is said.
fn uses(kind: u32) -> ([bool; FIELDS], &'static str) {
    match kind {
        READ | WRITE => ([true, true, true, true, true, false], "file, offset and length"),
        SEND | RECV | WAIT | BARRIER => ([true, true, false, false, false, true], "message alone"),
        _ => ([true, true, true, false, false, false], "file alone"),
    }
}

/// Points at the first used field that is empty, or unused one that is filled.
fn used(record: &Record) -> Option<Point> {
    let kind = number_of_kind(record)?;
    let (used, said) = uses(kind);
    let k = record.fields.iter().zip(used).position(|(field, used)| field.content.is_empty() == used)?;
    let (name, kind) = (NAMES.get(k)?, KINDS.get(kind as usize)?);
    let found = match used[k] {
        true if k == 0 => format!("{name} is empty; every row names its process"),
        true => format!("{name} is empty; {kind} uses {said}"),
        false => format!("{name} is {}; {kind} leaves it empty and uses {said}", shown(&record.fields[k].content)),
    };
    field_at(record, k, Some(found))
}

// ---- 10 and 11

/// The value of digits, where it is below 2^64.
fn value(digits: &[u8]) -> Option<u64> {
    std::str::from_utf8(digits).ok()?.parse().ok()
}

/// What is wrong with a number of at most this value, if anything; `range` says what it can be.
fn wrong_number(content: &[u8], most: u64, range: &str) -> Option<String> {
    let is_digits = content.iter().all(u8::is_ascii_digit);
    let why = match content {
        [b' ', ..] => "a space stands in front",
        [.., b' '] => "a space stands behind",
        [b'+' | b'-', ..] => "a number has no sign",
        [b'0', b'x' | b'X', ..] => "a number is decimal",
        _ if !is_digits => "these are not digits alone",
        [b'0', _, ..] => "a leading zero",
        _ if value(content).is_some_and(|v| v <= most) => return None,
        _ => return Some(format!("{}: {range}", escape(content, SHOWN))),
    };
    Some(format!("{}: {why}", shown(content)))
}

/// Points at the first number that is not plain or out of range.
fn number(record: &Record, processes: u32) -> Option<Point> {
    let (used, _) = uses(number_of_kind(record)?);
    let last = u64::from(processes.saturating_sub(1));
    let limits: [(u64, String); FIELDS] = [
        (last, format!("--processes {processes} allows 0 to {last}")),
        (0, String::new()),
        (u64::from(FILES - 1), format!("files are 0 to {}", FILES - 1)),
        (LAST_BYTE, format!("at most {LAST_BYTE}")),
        (LAST_BYTE, format!("at most {LAST_BYTE}")),
        (LAST_MESSAGE, format!("messages and barriers are 0 to {LAST_MESSAGE}")),
    ];
    let wrong = |k: usize| {
        let (most, range) = &limits[k];
        wrong_number(&record.fields.get(k)?.content, *most, range)
    };
    let (k, why) = (0..FIELDS).filter(|k| *k != KIND && used[*k]).find_map(|k| Some((k, wrong(k)?)))?;
    field_at(record, k, Some(format!("{} is {why}", NAMES[k])))
}

/// Points at the length, and says what it comes to with the offset.
fn range_end(record: &Record) -> Option<Point> {
    let [offset, length] = [LENGTH - 1, LENGTH].map(|k| record.fields.get(k).and_then(|f| value(&f.content)));
    let (offset, length) = (offset?, length?);
    let sum = offset.checked_add(length)?;
    field_at(record, LENGTH, Some(format!("length is {length}: offset {offset} + {length} = {sum}, at most {LAST_BYTE} is allowed")))
}
