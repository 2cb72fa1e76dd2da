//! Rows as the text of a trace, and the questions that their writing asks.

use super::barriers;
use super::is_process_limit;
use super::reading::message_refusal;
use kiqsaryn::Row;

/// For each kind its word, and whether it uses the file, the range (offset and length) and the message.
const KINDS: [(&str, bool, bool, bool); 10] = [
    ("read", true, true, false),
    ("write", true, true, false),
    ("commit", true, false, false),
    ("open", true, false, false),
    ("close", true, false, false),
    ("sync", true, false, false),
    ("send", false, false, true),
    ("recv", false, false, true),
    ("wait", false, false, true),
    ("barrier", false, false, true),
];

/// The fields behind process and kind: whether the row's kind uses it, its number, and the largest that it can have.
fn fields(row: Row) -> Option<[(bool, u32, u32); 4]> {
    let (_, file, range, message) = *KINDS.get(row.kind as usize)?;
    Some([(file, row.file, 63), (range, row.offset, u32::MAX), (range, row.length, u32::MAX), (message, row.message, 65_535)])
}

/// The record of a row of a known kind: six fields, the unused ones empty, then CR LF.
fn record(row: Row) -> String {
    let numbers = fields(row).expect("a known kind").map(|(used, n, _)| if used { n.to_string() } else { String::new() });
    format!("{},{},{}\r\n", row.process, KINDS[row.kind as usize].0, numbers.join(","))
}

/// The text of rows of known kinds, with the header where the header word is 1.
pub fn text(header: u32, rows: &[Row]) -> Vec<u8> {
    let mut text = String::new();
    if header == 1 {
        text += "process,kind,file,offset,length,message\r\n";
    }
    rows.iter().for_each(|row| text += &record(*row));
    text.into_bytes()
}

/// The questions from 8 to 21 that are answered No for a row behind these rows, in their order; none of the others is put to an unknown kind.
pub fn noes(row: Row, earlier: &[Row], process_limit: u32) -> Vec<u32> {
    let Some(fields) = fields(row) else {
        return vec![8];
    };
    let messages = message_refusal(row, earlier);
    let questions = [
        (9, fields.iter().all(|(used, n, _)| *used || *n == 0)),
        (10, row.process < process_limit && fields.iter().all(|(used, n, most)| !used || n <= most)),
        (11, u64::from(row.offset) + u64::from(row.length) <= u64::from(u32::MAX)),
        (12, messages != Some(12)),
        (21, messages != Some(21)),
    ];
    questions.into_iter().filter(|(_, yes)| !yes).map(|(number, _)| number).collect()
}

/// The first n rows of a slice with six numbers for each.
pub fn rows_in(rows: &[u32], n: u32) -> Vec<Row> {
    let row = |x: &[u32]| Row { process: x[0], kind: x[1], file: x[2], offset: x[3], length: x[4], message: x[5] };
    rows.chunks_exact(6).take(n as usize).map(row).collect()
}

/// Writes the first n rows into a slice from a place on. The answer is the text's length, or the number and place of the refusal.
pub fn write(rows: &[u32], n: u32, header: u32, process_limit: u32, out: &mut [u8], place: usize) -> Result<usize, (u32, u32)> {
    if (rows.len() as u64) < 6 * u64::from(n) {
        return Err((1, 0));
    }
    if !is_process_limit(process_limit) || n > 4096 {
        return Err((2, 0));
    }
    if header > 1 {
        return Err((3, 0));
    }
    let rows = rows_in(rows, n);
    for (k, row) in rows.iter().enumerate() {
        if let Some(number) = noes(*row, &rows[..k], process_limit).first() {
            return Err((*number, k as u32 + 1));
        }
    }
    if let Some((place, _)) = barriers::wrong(&rows) {
        return Err((22, place));
    }
    let text = text(header, &rows);
    match out.get_mut(place..).and_then(|rest| rest.get_mut(..text.len())) {
        None => Err((18, 0)),
        Some(lent) => {
            lent.copy_from_slice(&text);
            Ok(text.len())
        }
    }
}
