//! Random texts of rows: fields quoted here and there, and texts that are damaged.

use super::random::Random;
use super::PROCESSES;
use kiqsaryn::{Row, BARRIER, KINDS, READ, RECV, SEND, WAIT, WRITE};

/// The contents of a record's fields.
pub type Record = Vec<Vec<u8>>;

pub fn header() -> Record {
    ["process", "kind", "file", "offset", "length", "message"].map(|name| name.as_bytes().to_vec()).to_vec()
}

pub fn record(row: Row) -> Record {
    let n = |used: bool, x: u32| if used { x.to_string().into_bytes() } else { Vec::new() };
    let message = [SEND, RECV, WAIT, BARRIER].contains(&row.kind);
    let data = row.kind == READ || row.kind == WRITE;
    vec![
        n(true, row.process),
        KINDS[row.kind as usize].as_bytes().to_vec(),
        n(!message, row.file),
        n(data, row.offset),
        n(data, row.length),
        n(message, row.message),
    ]
}

/// Some fields quoted, and the last record at times without its line end.
pub fn text(r: &mut Random, records: &[Record]) -> Vec<u8> {
    let quoting = r.pick(&[u32::MAX, 20, 2]);
    let mut text = Vec::new();
    for record in records {
        for (k, field) in record.iter().enumerate() {
            if k > 0 {
                text.push(b',');
            }
            if r.once_in(quoting) || field.iter().any(|b| b"\",\r\n".contains(b)) {
                text.push(b'"');
                for b in field {
                    text.push(*b);
                    if *b == b'"' {
                        text.push(b'"');
                    }
                }
                text.push(b'"');
            } else {
                text.extend(field);
            }
        }
        text.extend(b"\r\n");
    }
    if r.once_in(2) {
        text.truncate(text.len().saturating_sub(2));
    }
    text
}

// ---- Damage

/// A field with other content.
fn damaged_field(r: &mut Random, field: &[u8]) -> Vec<u8> {
    let near = (PROCESSES - 1 + r.below(3)).to_string();
    let words: [&[u8]; 32] = [
        b"",
        near.as_bytes(),
        b"0",
        b"1",
        b"7",
        b"00",
        b"01",
        b"+1",
        b"-1",
        b" 1",
        b"1 ",
        b"1.0",
        b"0x1",
        b"63",
        b"64",
        b"65",
        b"4095",
        b"65535",
        b"65536",
        b"4294967295",
        b"4294967296",
        b"9999999999",
        b"18446744073709551617",
        b"300000000000000000000000000000",
        b"write",
        b"WRITE",
        b"recv",
        b"wait",
        b"barrier",
        b"Barrier",
        b"a\"b",
        b"a,b\r\nc",
    ];
    match r.below(4) {
        0 => field.to_ascii_uppercase(),
        1 => [field, b"0"].concat(),
        2 => field[..field.len().saturating_sub(1)].to_vec(),
        _ => r.pick(&words).to_vec(),
    }
}

/// A send, recv or wait more of the message of such a row, right behind it or later, by its process or by that of any record.
fn add_talk(r: &mut Random, records: &mut Vec<Record>) {
    let word = |kind: u32| KINDS[kind as usize].as_bytes();
    let of = r.pick(&[SEND, RECV, WAIT]);
    let ends: Vec<usize> = (0..records.len()).filter(|j| records[*j].len() == 6 && records[*j][1] == word(of)).collect();
    if ends.is_empty() {
        return;
    }
    let behind = r.pick(&ends);
    let mut more = records[behind].clone();
    more[1] = word(r.pick(&[SEND, RECV, WAIT])).to_vec();
    if r.once_in(3) {
        let from = r.place(records.len());
        more[0] = records[from].first().cloned().unwrap_or_default();
    }
    let to = behind + 1 + if r.once_in(2) { 0 } else { r.place(records.len() - behind) };
    records.insert(to, more);
}

/// A record made wrong, dropped, doubled, or put elsewhere (so that messages stand out of order).
fn damage_record(r: &mut Random, records: &mut Vec<Record>, k: usize) {
    let fields = records[k].len();
    match r.below(16) {
        0 => drop(records[k].remove(r.place(fields))),
        1 => records[k].insert(r.place(fields + 1), b"1".to_vec()),
        2 => {
            let moved = records.remove(k);
            let to = r.place(records.len() + 1);
            records.insert(to, moved);
        }
        3 => {
            let copy = records[k].clone();
            records.push(copy);
        }
        4 => records[k] = vec![Vec::new()],
        5 if fields == 6 => {
            let offset = r.bits() as u32;
            let length = u64::from(u32::MAX - offset) + r.bits() % 3;
            records[k][3] = offset.to_string().into_bytes();
            records[k][4] = length.to_string().into_bytes();
        }
        6..=9 => {
            // the process, kind or message of another record, often of two rows of one message
            let talks: Vec<usize> = (0..records.len()).filter(|j| records[*j].len() == 6 && !records[*j][5].is_empty()).collect();
            let to = if talks.is_empty() || r.once_in(4) { k } else { r.pick(&talks) };
            let ends: Vec<usize> = talks.into_iter().filter(|j| records[*j].get(5) == records[to].get(5) && *j != to).collect();
            let from = if ends.is_empty() || r.once_in(3) { r.place(records.len()) } else { r.pick(&ends) };
            let f = r.pick(&[0, 0, 1, 5]);
            if let Some(field) = records[from].get(f).filter(|_| f < records[to].len()).cloned() {
                records[to][f] = field;
            }
        }
        10..=12 => add_talk(r, records),
        _ => {
            let f = r.place(fields);
            records[k][f] = damaged_field(r, &records[k][f]);
        }
    }
}

/// One or two damages, at times of the same record.
pub fn damage_records(r: &mut Random, records: &mut Vec<Record>) {
    let mut k = r.place(records.len());
    damage_record(r, records, k);
    if r.once_in(2) {
        k = if r.once_in(2) { r.place(records.len()) } else { k };
        if records.get(k).is_some_and(|record| !record.is_empty()) {
            damage_record(r, records, k);
        }
    }
}

/// One byte changed, removed or inserted, or the text cut.
pub fn damage_bytes(r: &mut Random, text: &mut Vec<u8>) {
    let byte = if r.once_in(4) { r.below(256) as u8 } else { r.pick(b"\",\r\n 019azR~\x7f\x80\x00!#") };
    if text.is_empty() {
        text.push(byte);
        return;
    }
    let k = r.place(text.len());
    match r.below(8) {
        0..=2 => text[k] = byte,
        3 | 4 => {
            text.remove(k);
        }
        5 | 6 => text.insert(k, byte),
        _ => text.truncate(k),
    }
}
