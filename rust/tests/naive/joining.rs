//! Two files joined into one trace as document 02 has it: record after record, with a look through all rows taken so far.

use super::barriers::{self, is_held, processes};
use super::is_process_limit;
use super::order::{counts, first_race, Order};
use super::reading::{entries, message_refusal, Entry};
use super::rows::numbers;
use kiqsaryn::{JoinSettings, Joined, Refusal, Row, Settings, SEND, WAIT};

/// An entry of a join: the file that holds it, 1 or 2, and its row and its place there.
#[derive(Clone, Copy, Debug, PartialEq, Eq)]
pub struct Taken {
    pub file: u32,
    pub entry: Entry,
}

/// The number of a refusal, its place, and the file whose place it is, 0 for none.
pub type Refused = (u32, u32, u32);

/// Whether a row is a wait for a message that none of these rows has sent.
pub fn lacks_send(row: Row, taken: &[Row]) -> bool {
    row.kind == WAIT && !taken.iter().any(|t| t.kind == SEND && t.message == row.message)
}

/// Whether a row has to wait behind these rows: it lacks its send, or its process stands at a barrier at which not all of these processes have arrived.
pub fn waits(row: Row, taken: &[Row], processes: &[u32]) -> bool {
    lacks_send(row, taken) || is_held(row, taken, processes)
}

/// The entries of one file, or the number and place of its refusal by the questions 4 to 11.
fn file_entries(text: &[u8], header: u32, row_limit: u32, process_limit: u32) -> Result<Vec<Entry>, (u32, u32)> {
    entries(text, Settings { header, model: 0, row_limit, process_limit, byte_limit: usize::MAX }, |_, _| None)
}

/// The entries of one file by itself, or its refusal by the questions 1 to 11.
pub fn read_file(text: &[u8], header: u32, row_limit: u32, process_limit: u32, rows_len: usize) -> Result<Vec<Entry>, (u32, u32)> {
    if (rows_len as u128) < 6 * u128::from(row_limit) {
        return Err((1, 0));
    }
    if !(1..=4096).contains(&row_limit) || !is_process_limit(process_limit) {
        return Err((2, 0));
    }
    if header > 1 {
        return Err((3, 0));
    }
    file_entries(text, header, row_limit, process_limit)
}

/// What comes next: nothing, since both files are at their end; nothing, since each next row waits; or an entry.
pub enum Turn {
    Over,
    Stuck,
    Take(Taken),
}

/// The rows of joined entries.
pub fn rows_of(taken: &[Taken]) -> Vec<Row> {
    taken.iter().map(|t| t.entry.row).collect()
}

/// What comes next behind the entries taken so far: the next entry of the first file, unless that file is at its end or its next row waits;
/// then that of the second on the same condition.
pub fn turn(files: &[Vec<Entry>; 2], taken: &[Taken]) -> Turn {
    let (rows, processes) = (rows_of(taken), processes(&files.concat().iter().map(|entry| entry.row).collect::<Vec<Row>>()));
    let mut some = false;
    for (entries, file) in files.iter().zip(1..) {
        let of_file = taken.iter().filter(|t| t.file == file).count();
        let Some(entry) = entries.get(of_file) else {
            continue;
        };
        if !waits(entry.row, &rows, &processes) {
            return Turn::Take(Taken { file, entry: *entry });
        }
        some = true;
    }
    if some {
        Turn::Stuck
    } else {
        Turn::Over
    }
}

/// The joined entries of two files, or the refusal: 6, 12 or 21 at a joined row, or 20; and 22 behind the last joined row.
fn joined(files: [Vec<Entry>; 2], row_limit: u32) -> Result<Vec<Taken>, Refused> {
    let mut taken = Vec::new();
    loop {
        let next = match turn(&files, &taken) {
            Turn::Over => {
                let wrong = barriers::wrong(&rows_of(&taken));
                return wrong.map_or(Ok(taken), |(place, _)| Err((22, place, 0)));
            }
            Turn::Stuck => return Err((20, 0, 0)),
            Turn::Take(next) => next,
        };
        let place = taken.len() as u32 + 1;
        if place > row_limit {
            return Err((6, place, 0));
        }
        if let Some(number) = message_refusal(next.entry.row, &rows_of(&taken)) {
            return Err((number, place, 0));
        }
        taken.push(next);
    }
}

/// The joined entries of two files, or the refusal. The slices lent for rows, counts and parts have these lengths.
pub fn taken(texts: [&[u8]; 2], s: JoinSettings, [rows_len, counts_len, parts_len]: [usize; 3]) -> Result<Vec<Taken>, Refused> {
    let (rows, processes) = (u128::from(s.row_limit), u128::from(s.process_limit));
    if (rows_len as u128) < 6 * rows || (counts_len as u128) < rows * processes || (parts_len as u128) < 3 * rows {
        return Err((1, 0, 0));
    }
    if s.model > 3 || !(1..=4096).contains(&s.row_limit) || !is_process_limit(s.process_limit) {
        return Err((2, 0, 0));
    }
    if s.headers.iter().any(|header| *header > 1) {
        return Err((3, 0, 0));
    }
    let file = |k: usize| {
        let entries = file_entries(texts[k], s.headers[k], s.row_limit, s.process_limit);
        entries.map_err(|(number, place)| (number, place, k as u32 + 1))
    };
    let files = [file(0)?, file(1)?];
    if files[0].iter().any(|a| files[1].iter().any(|b| a.row.process == b.row.process)) {
        return Err((19, 0, 0));
    }
    joined(files, s.row_limit)
}

/// The slices that are lent for the joined rows, their counts and their parts.
#[derive(Clone, Debug, PartialEq, Eq)]
pub struct Lent {
    pub rows: Vec<u32>,
    pub counts: Vec<u16>,
    pub parts: Vec<u64>,
}

impl Lent {
    pub fn lengths(&self) -> [usize; 3] {
        [self.rows.len(), self.counts.len(), self.parts.len()]
    }

    /// Puts numbers to the front of each slice, and 0 behind them.
    fn put(&mut self, rows: Vec<u32>, counts: Vec<u16>, parts: Vec<u64>) {
        let lengths = self.lengths();
        *self = Lent { rows, counts, parts };
        self.rows.resize(lengths[0], 0);
        self.counts.resize(lengths[1], 0);
        self.parts.resize(lengths[2], 0);
    }
}

/// The whole call: the answer, and what it leaves of the lent slices.
pub fn join(texts: [&[u8]; 2], s: JoinSettings, lent: &mut Lent) -> Joined {
    match taken(texts, s, lent.lengths()) {
        Err((number, place, file)) => {
            if number > 3 {
                lent.put(Vec::new(), Vec::new(), Vec::new());
            }
            Joined::Refused { refusal: Refusal::from_number(number).expect("a refusal"), place, file }
        }
        Ok(taken) => {
            let rows = rows_of(&taken);
            let order = Order::of(&rows);
            let parts = taken.iter().flat_map(|t| [u64::from(t.file), t.entry.start as u64, t.entry.end as u64]);
            lent.put(numbers(&rows), counts(&rows, &order, s.process_limit), parts.collect());
            let n = rows.len() as u32;
            match first_race(&rows, &order, s.model) {
                None => Joined::Free { rows: n },
                Some((earlier, later)) => Joined::Race { rows: n, earlier, later },
            }
        }
    }
}

/// Every allowed merging of two files' rows behind these rows: each next row is the next of the one or of the other, and none has to wait.
pub fn mergings(before: &[Row], first: &[Row], second: &[Row]) -> Vec<Vec<Row>> {
    if first.is_empty() && second.is_empty() {
        return vec![before.to_vec()];
    }
    let processes = processes(&[before, first, second].concat());
    let mut all = Vec::new();
    for (from, other, first_is_from) in [(first, second, true), (second, first, false)] {
        let Some((row, rest)) = from.split_first().filter(|(row, _)| !waits(**row, before, &processes)) else {
            continue;
        };
        let taken = [before, &[*row]].concat();
        all.extend(if first_is_from { mergings(&taken, rest, other) } else { mergings(&taken, other, rest) });
    }
    all
}
