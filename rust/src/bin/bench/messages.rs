//! Questions 12 and 21 in plain Rust: by a table with a byte for each message, as the library has one with 16 bits, or by a scan of the rows before.

use crate::barriers;
use kiqsaryn::{RECV, SEND, WAIT};

/// How many messages there can be.
pub const MESSAGES: usize = 65_536;

/// What the table holds of a message: 0 before its first row; the sender with `SENT`; the process that has posted its receive with `POSTED`, and
/// with `SENT` too once it is sent; and `OVER` alone once it is waited for.
const PROCESS: u8 = 63;
const SENT: u8 = 64;
const POSTED: u8 = 128;
const OVER: u8 = 1;

/// Asks a send, recv or wait of a process below 64, and notes it in the table.
pub fn ask(row: &[u32], table: &mut [u8; MESSAGES]) -> Result<(), u32> {
    let (own, mark) = (row[0] as u8, &mut table[row[5] as usize]);
    let (state, process) = (*mark & !PROCESS, *mark & PROCESS);
    match row[1] {
        SEND if *mark == 0 => *mark = SENT | own,
        SEND if state == POSTED && process != own => *mark |= SENT,
        RECV if *mark == 0 => *mark = POSTED | own,
        RECV if state == SENT && process != own => *mark = SENT | POSTED | own,
        WAIT if *mark == SENT | POSTED | own => *mark = OVER,
        WAIT => return Err(21),
        _ => return Err(12),
    }
    Ok(())
}

/// Whether a message is sent, by what the table holds of it.
pub fn is_sent(mark: u8) -> bool {
    mark & SENT != 0 || mark == OVER
}

/// How a reader asks about messages and barriers.
pub trait Messages {
    /// Asks a send, recv or wait behind these rows, and notes it.
    fn ask(&mut self, row: &[u32; 6], rows: &[u32]) -> Result<(), u32>;

    /// The place that question 22 names in all rows.
    fn barriers(&self, rows: &[u32]) -> Option<usize>;
}

/// By the table, which is made at the first message.
pub struct Table(pub Vec<u8>);

impl Messages for Table {
    fn ask(&mut self, row: &[u32; 6], _: &[u32]) -> Result<(), u32> {
        self.0.resize(MESSAGES, 0);
        let table = self.0.first_chunk_mut().expect("a byte for each message");
        ask(row, table)
    }

    fn barriers(&self, rows: &[u32]) -> Option<usize> {
        barriers::place(rows)
    }
}

/// By a scan of the rows before.
pub struct Scan;

impl Messages for Scan {
    fn ask(&mut self, row: &[u32; 6], rows: &[u32]) -> Result<(), u32> {
        let by = |kind: u32| rows.chunks_exact(6).filter(move |r| r[1] == kind && r[5] == row[5]).map(|r| r[0]);
        let any = |kind: u32| by(kind).next().is_some();
        let own = |kind: u32| by(kind).any(|process| process == row[0]);
        match row[1] {
            SEND if any(SEND) || own(RECV) => Err(12),
            RECV if any(RECV) || own(SEND) => Err(12),
            WAIT if !own(RECV) || !any(SEND) || any(WAIT) => Err(21),
            _ => Ok(()),
        }
    }

    fn barriers(&self, rows: &[u32]) -> Option<usize> {
        barriers::place_by_scans(rows)
    }
}

/// Not at all: a file of a join by itself.
pub struct Unasked;

impl Messages for Unasked {
    fn ask(&mut self, _: &[u32; 6], _: &[u32]) -> Result<(), u32> {
        Ok(())
    }

    fn barriers(&self, _: &[u32]) -> Option<usize> {
        None
    }
}
