//! A trace's records, the questions put to them, and what the program `verdict` prints.

use super::barriers;
use super::is_process_limit;
use super::order::{first_race, Order};
use kiqsaryn::{Model, Row, Settings, BARRIER, KINDS, READ, RECV, SEND, WAIT, WRITE};

const NAMES: [&[u8]; 6] = [b"process", b"kind", b"file", b"offset", b"length", b"message"];

enum Record {
    Fields(Vec<Vec<u8>>),
    Malformed,
    /// Its reading would look at a byte past the byte limit.
    Unread,
}

/// A record and where it stands in its text: from its start to its end, which is before its line end.
struct Placed {
    record: Record,
    start: usize,
    end: usize,
}

#[derive(Clone, Copy, PartialEq)]
enum At {
    Byte(u8),
    Past,
    End,
}

fn textdata(b: u8) -> bool {
    matches!(b, 0x20..=0x21 | 0x23..=0x2B | 0x2D..=0x7E)
}

/// The record that starts at a place, the place where it ends, and the place behind its line end.
fn record(at: &impl Fn(usize) -> At, mut i: usize) -> (Record, usize, usize) {
    let mut fields = Vec::new();
    loop {
        let mut content = Vec::new();
        if at(i) == At::Byte(b'"') {
            i += 1;
            loop {
                match at(i) {
                    At::Byte(b'"') if at(i + 1) == At::Byte(b'"') => {
                        content.push(b'"');
                        i += 2;
                    }
                    At::Byte(b'"') => break,
                    At::Byte(b) if textdata(b) || b == b',' || b == b'\r' || b == b'\n' => {
                        content.push(b);
                        i += 1;
                    }
                    At::Byte(_) | At::End => return (Record::Malformed, i, i),
                    At::Past => return (Record::Unread, i, i),
                }
            }
            i += 1;
        } else {
            while let At::Byte(b) = at(i) {
                if !textdata(b) {
                    break;
                }
                content.push(b);
                i += 1;
            }
        }
        fields.push(content);
        match (at(i), at(i + 1)) {
            (At::Byte(b','), _) => i += 1,
            (At::Byte(b'\r'), At::Byte(b'\n')) => return (Record::Fields(fields), i, i + 2),
            (At::End, _) => return (Record::Fields(fields), i, i),
            (At::Past, _) | (At::Byte(b'\r'), At::Past) => return (Record::Unread, i, i),
            _ => return (Record::Malformed, i, i),
        }
    }
}

/// All records up to the first that is not well formed or not read.
fn records(text: &[u8], byte_limit: usize) -> Vec<Placed> {
    let at = |i: usize| match text.get(i) {
        None => At::End,
        Some(_) if i >= byte_limit => At::Past,
        Some(b) => At::Byte(*b),
    };
    let mut all = Vec::new();
    let mut start = 0;
    while start < text.len() {
        let (record, end, behind) = record(&at, start);
        let whole = matches!(record, Record::Fields(_));
        all.push(Placed { record, start, end });
        if !whole {
            break;
        }
        start = behind;
    }
    all
}

/// A plain number of at most this value.
fn number(field: &[u8], most: u64) -> Option<u32> {
    let digits = field.iter().all(u8::is_ascii_digit);
    let plain = digits && (field == b"0" || field.first().is_some_and(|b| *b != b'0'));
    if !plain || field.len() > 10 {
        return None;
    }
    let value = field.iter().fold(0u64, |value, b| 10 * value + u64::from(b - b'0'));
    u32::try_from(value).ok().filter(|v| u64::from(*v) <= most)
}

/// Questions 7 to 11 to a record.
fn row(fields: &[Vec<u8>], process_limit: u32) -> Result<Row, u32> {
    if fields.len() != 6 {
        return Err(7);
    }
    let kind = KINDS.iter().position(|word| word.as_bytes() == fields[1]).ok_or(8u32)? as u32;
    let used = match kind {
        READ | WRITE => [true, true, true, true, true, false],
        SEND | RECV | WAIT | BARRIER => [true, true, false, false, false, true],
        _ => [true, true, true, false, false, false],
    };
    if fields.iter().zip(used).any(|(field, used)| field.is_empty() == used) {
        return Err(9);
    }
    let value = |k: usize, most: u64| if used[k] { number(&fields[k], most).ok_or(10u32) } else { Ok(0) };
    let whole = u64::from(u32::MAX);
    let row = Row {
        process: value(0, u64::from(process_limit) - 1)?,
        kind,
        file: value(2, 63)?,
        offset: value(3, whole)?,
        length: value(4, whole)?,
        message: value(5, 65_535)?,
    };
    if u64::from(row.offset) + u64::from(row.length) > whole {
        return Err(11);
    }
    Ok(row)
}

/// What the questions about messages find wrong with a row: question 12 the first four, and question 21 the others.
#[derive(Clone, Copy, Debug, PartialEq, Eq)]
pub enum Fault {
    /// A send of a message that was sent before.
    SentTwice,
    /// A send of a message whose receive the same process has posted before.
    SentToItself,
    /// A recv of a message whose receive was posted before.
    PostedTwice,
    /// A recv of a message that the same process has sent.
    PostedBySender,
    /// A wait for a message whose receive no process has posted before.
    NotPosted,
    /// A wait for a message whose receive other processes alone have posted before.
    PostedByAnother,
    /// A wait for a message that was not sent before.
    NotSent,
    /// A wait for a message that was waited for before.
    WaitedForTwice,
}

/// How many faults there are.
pub const FAULTS: usize = 8;

impl Fault {
    /// The number of the question that finds it.
    pub fn question(self) -> u32 {
        match self {
            Fault::SentTwice | Fault::SentToItself | Fault::PostedTwice | Fault::PostedBySender => 12,
            Fault::NotPosted | Fault::PostedByAnother | Fault::NotSent | Fault::WaitedForTwice => 21,
        }
    }
}

/// All faults of a row behind these rows, those of question 12 first.
pub fn faults(row: Row, rows: &[Row]) -> Vec<Fault> {
    let [send, recv, wait] = [SEND, RECV, WAIT].map(|kind| row.kind == kind);
    let is = |r: &Row, kind: u32| r.kind == kind && r.message == row.message;
    let [sent, posted, waited_for] = [SEND, RECV, WAIT].map(|kind| rows.iter().any(|r| is(r, kind)));
    let [own_sent, own_posted] = [SEND, RECV].map(|kind| rows.iter().any(|r| is(r, kind) && r.process == row.process));
    let found = [
        (Fault::SentTwice, send && sent),
        (Fault::SentToItself, send && own_posted),
        (Fault::PostedTwice, recv && posted),
        (Fault::PostedBySender, recv && own_sent),
        (Fault::NotPosted, wait && !posted),
        (Fault::PostedByAnother, wait && posted && !own_posted),
        (Fault::NotSent, wait && !sent),
        (Fault::WaitedForTwice, wait && waited_for),
    ];
    found.into_iter().filter(|(_, holds)| *holds).map(|(fault, _)| fault).collect()
}

/// The number of the first question about messages, 12 and then 21, that is answered No for a row behind these rows.
pub fn message_refusal(row: Row, rows: &[Row]) -> Option<u32> {
    faults(row, rows).first().map(|fault| fault.question())
}

/// The rows of a trace up to the first that cannot be read, at most so many.
fn rows_up_to(text: &[u8], s: Settings, most: usize) -> Vec<Row> {
    let fields = |placed: Placed| match placed.record {
        Record::Fields(fields) => Some(fields),
        _ => None,
    };
    let records = records(text, s.byte_limit).into_iter().skip(s.header as usize).map_while(fields);
    records.map_while(|fields| row(&fields, s.process_limit).ok()).take(most).collect()
}

/// All faults of the row at the place that a trace is refused for with 12 or 21.
pub fn faults_at(text: &[u8], s: Settings, place: u32) -> Vec<Fault> {
    let rows = rows_up_to(text, s, place as usize);
    faults(rows[place as usize - 1], &rows[..place as usize - 1])
}

/// What is wrong with a trace that is refused with 22.
pub fn wrongs(text: &[u8], s: Settings) -> Vec<barriers::Wrong> {
    barriers::wrong(&rows_up_to(text, s, usize::MAX)).map_or(Vec::new(), |(_, wrong)| wrong)
}

/// A row, and where its record stands in its text: from its start to its end, which is before its line end.
#[derive(Clone, Copy, Debug, PartialEq, Eq)]
pub struct Entry {
    pub row: Row,
    pub start: usize,
    pub end: usize,
}

/// The entries of a text, or the number and place of its refusal by the questions 4 to 11 and those that `more` puts to a row behind the
/// rows before it, by the number of the first No.
pub fn entries(text: &[u8], s: Settings, more: impl Fn(Row, &[Row]) -> Option<u32>) -> Result<Vec<Entry>, (u32, u32)> {
    let mut records = records(text, s.byte_limit).into_iter();
    if s.header == 1 {
        match records.next().map(|placed| placed.record) {
            Some(Record::Malformed) => return Err((4, 0)),
            Some(Record::Fields(fields)) if fields == NAMES => {}
            _ => return Err((5, 0)),
        }
    }
    let (mut rows, mut entries) = (Vec::new(), Vec::new());
    for (Placed { record, start, end }, place) in records.zip(1..) {
        let row = match record {
            Record::Malformed => return Err((4, place)),
            Record::Unread => return Err((6, place)),
            Record::Fields(_) if place > s.row_limit => return Err((6, place)),
            Record::Fields(fields) => row(&fields, s.process_limit).map_err(|number| (number, place))?,
        };
        if let Some(number) = more(row, &rows) {
            return Err((number, place));
        }
        rows.push(row);
        entries.push(Entry { row, start, end });
    }
    Ok(entries)
}

/// The rows of a trace, or the number and place of its refusal.
pub fn check(text: &[u8], s: Settings, rows_len: usize, counts_len: usize) -> Result<Vec<Row>, (u32, u32)> {
    let cells = u128::from(s.row_limit) * u128::from(s.process_limit);
    if (rows_len as u128) < 6 * u128::from(s.row_limit) || (counts_len as u128) < cells {
        return Err((1, 0));
    }
    if s.model > 3 || !(1..=4096).contains(&s.row_limit) || !is_process_limit(s.process_limit) {
        return Err((2, 0));
    }
    if s.header > 1 {
        return Err((3, 0));
    }
    let entries = entries(text, s, message_refusal)?;
    let rows: Vec<Row> = entries.into_iter().map(|entry| entry.row).collect();
    match barriers::wrong(&rows) {
        Some((place, _)) => Err((22, place)),
        None => Ok(rows),
    }
}

/// What the program `verdict` prints.
pub fn report(text: &[u8]) -> String {
    let s = Settings { header: 1, model: 0, row_limit: 128, process_limit: 8, byte_limit: 8192 };
    match check(text, s, 6 * 128, 8 * 128) {
        Err((number, place)) => format!("refused,{number},{place}\r\n"),
        Ok(rows) => {
            let order = Order::of(&rows);
            let mut lines = String::from("model,verdict,earlier,later\r\n");
            for model in Model::ALL {
                match first_race(&rows, &order, model.number()) {
                    None => lines += &format!("{},free,,\r\n", model.name()),
                    Some((x, y)) => lines += &format!("{},race,{x},{y}\r\n", model.name()),
                }
            }
            lines
        }
    }
}
