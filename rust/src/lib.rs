//! The proved library, for Rust. Each call takes numbers and slices as they are and is total: lengths are passed on unchanged, and whatever
//! is not right comes back as a [`Refusal`].

/// The largest process limit, for texts as well. The wrapper, the command and its help, and the benchmark take it from here.
macro_rules! processes {
    () => {
        48
    };
}

mod ffi;
mod refusal;

pub use refusal::Refusal;

/// The largest row limit that the library takes.
pub const ROWS: u32 = 4096;
/// The largest process limit that the library takes.
pub const PROCESSES: u32 = processes!();
/// Files are numbered below it.
pub const FILES: u32 = 64;

/// A consistency model.
#[derive(Clone, Copy, Debug, PartialEq, Eq)]
pub enum Model {
    Posix,
    Commit,
    Session,
    MpiIo,
}

impl Model {
    pub const ALL: [Model; 4] = [Model::Posix, Model::Commit, Model::Session, Model::MpiIo];

    /// The number that the library takes.
    pub fn number(self) -> u32 {
        self as u32
    }

    pub fn name(self) -> &'static str {
        match self {
            Model::Posix => "posix",
            Model::Commit => "commit",
            Model::Session => "session",
            Model::MpiIo => "mpiio",
        }
    }

    pub fn from_name(name: &str) -> Option<Model> {
        Self::ALL.into_iter().find(|m| m.name() == name)
    }
}

/// The kinds of rows, by their numbers.
pub const KINDS: [&str; 10] = ["read", "write", "commit", "open", "close", "sync", "send", "recv", "wait", "barrier"];
pub const READ: u32 = 0;
pub const WRITE: u32 = 1;
pub const COMMIT: u32 = 2;
pub const OPEN: u32 = 3;
pub const CLOSE: u32 = 4;
pub const SYNC: u32 = 5;
/// A process sends a message. The send happens before the wait for that message.
pub const SEND: u32 = 6;
/// A process posts a receive for a message. That gives no order by itself, and the message may be sent later.
pub const RECV: u32 = 7;
/// A process waits for a message for which it has posted a receive. The receive is over at its wait.
pub const WAIT: u32 = 8;
/// A process arrives at a barrier; the row's message field holds the barrier's number, which has nothing to do with a message of that number. Each
/// row of a barrier happens before every row behind a row of that barrier in any process.
pub const BARRIER: u32 = 9;

/// A row of a trace. A field that its kind does not use is 0.
#[derive(Clone, Copy, Debug, PartialEq, Eq, Default)]
pub struct Row {
    pub process: u32,
    pub kind: u32,
    pub file: u32,
    pub offset: u32,
    pub length: u32,
    pub message: u32,
}

impl Row {
    /// The row at a place of a slice with six numbers for each row.
    pub fn at(rows: &[u32], k: usize) -> Option<Row> {
        match rows.get(k.checked_mul(6)?..)? {
            [process, kind, file, offset, length, message, ..] => {
                Some(Row { process: *process, kind: *kind, file: *file, offset: *offset, length: *length, message: *message })
            }
            _ => None,
        }
    }
}

// ---- Traces

/// What a trace comes to.
#[derive(Clone, Copy, Debug, PartialEq, Eq)]
pub enum Checked {
    /// The number of rows.
    Accepted(u32),
    /// The question that was answered No, and the record's place: 0 for the header, rows from 1.
    Refused { refusal: Refusal, place: u32 },
}

/// How a trace is to be read.
#[derive(Clone, Copy, Debug)]
pub struct Settings {
    /// 0: the first record is row 1. 1: it is the header.
    pub header: u32,
    pub model: u32,
    pub row_limit: u32,
    pub process_limit: u32,
    /// No byte past it is looked at; `usize::MAX` for none.
    pub byte_limit: usize,
}

/// The refusal of a number that the library answers; it answers no other.
fn refused(number: u32) -> Refusal {
    Refusal::from_number(number).expect("the library's refusals have a number from 1 to 23")
}

/// The row count, or a refusal's number times 2^32 plus its place.
fn checked(answer: u64) -> Checked {
    match ((answer >> 32) as u32, answer as u32) {
        (0, rows) => Checked::Accepted(rows),
        (number, place) => Checked::Refused { refusal: refused(number), place },
    }
}

/// The four words of 16 bits of an answer, from the lowest.
fn words(answer: u64) -> [u32; 4] {
    [0, 16, 32, 48].map(|bits| (answer >> bits) as u32 & 0xffff)
}

/// Reads a trace into the lent rows, six numbers each. Refusals 1 to 3 keep both slices, any other fills them with 0. Question 22 is
/// about all rows and comes last, once every record has passed the others.
pub fn check_trace(text: &[u8], s: Settings, rows: &mut [u32], counts: &mut [u16]) -> Checked {
    // The three slices are live for the call, and the two lent for writing are borrowed by it alone.
    checked(unsafe {
        ffi::kiqsaryn_check_trace(
            text.as_ptr(),
            text.len(),
            s.header,
            s.model,
            s.row_limit,
            s.process_limit,
            s.byte_limit,
            rows.as_mut_ptr(),
            rows.len(),
            counts.as_mut_ptr(),
            counts.len(),
        )
    })
}

/// What a trace comes to in one call.
#[derive(Clone, Copy, Debug, PartialEq, Eq)]
pub enum Judged {
    /// The number of rows, of which no two race.
    Free { rows: u32 },
    /// The number of rows, and the row numbers of the first race.
    Race { rows: u32, earlier: u32, later: u32 },
    /// As `check_trace` refuses.
    Refused { refusal: Refusal, place: u32 },
}

/// The whole call: reads and refuses a trace as `check_trace` does, and fills the counts of an accepted one and judges it under the model.
pub fn judge(text: &[u8], s: Settings, rows: &mut [u32], counts: &mut [u16]) -> Judged {
    // The three slices are live for the call, and the two lent for writing are borrowed by it alone.
    let answer = unsafe {
        ffi::kiqsaryn_judge(
            text.as_ptr(),
            text.len(),
            s.header,
            s.model,
            s.row_limit,
            s.process_limit,
            s.byte_limit,
            rows.as_mut_ptr(),
            rows.len(),
            counts.as_mut_ptr(),
            counts.len(),
        )
    };
    match words(answer) {
        [rows, 0, _, 0] => Judged::Free { rows },
        [rows, later, earlier, 0] => Judged::Race { rows, earlier, later },
        [place, _, _, number] => Judged::Refused { refusal: refused(number), place },
    }
}

/// Nothing for 0, and the refusal of any other number.
fn done(number: u32) -> Result<(), Refusal> {
    match number {
        0 => Ok(()),
        _ => Err(refused(number)),
    }
}

/// Fills the happens-before counts of the first `n` rows, `process_limit` each, and clears what lies behind them. A refusal keeps the counts:
/// 1 for a slice that is too short, 2 for more than [`ROWS`] rows or a process limit that is not 1 to [`PROCESSES`], 10 for a row whose process is
/// not below the limit.
pub fn fill_counts(rows: &[u32], n: u32, process_limit: u32, counts: &mut [u16]) -> Result<(), Refusal> {
    // Both slices are live for the call, and the one lent for writing is borrowed by it alone.
    done(unsafe { ffi::kiqsaryn_fill_counts(rows.as_ptr(), rows.len(), n, process_limit, counts.as_mut_ptr(), counts.len()) })
}

/// A verdict on rows.
#[derive(Clone, Copy, Debug, PartialEq, Eq)]
pub enum Verdict {
    Free,
    /// The row numbers of the first race.
    Race {
        earlier: u32,
        later: u32,
    },
    /// As `fill_counts` refuses, and 2 also for a model that is not 0 to 3.
    Refused(Refusal),
}

/// The verdict on the first `n` rows under a model; the counts are filled on the way, and kept where the call refuses.
pub fn verdict(rows: &[u32], n: u32, process_limit: u32, model: u32, counts: &mut [u16]) -> Verdict {
    // Both slices are live for the call, and the one lent for writing is borrowed by it alone.
    let answer = unsafe { ffi::kiqsaryn_verdict(rows.as_ptr(), rows.len(), n, process_limit, model, counts.as_mut_ptr(), counts.len()) };
    match ((answer >> 32) as u32, answer as u32) {
        (0, 0) => Verdict::Free,
        (number, 0) => Verdict::Refused(refused(number)),
        (earlier, later) => Verdict::Race { earlier, later },
    }
}

/// What a list of races comes to.
#[derive(Clone, Copy, Debug, PartialEq, Eq)]
pub enum Listed {
    /// The number of pairs, which stand at the front of the lent list.
    Pairs(u32),
    /// The question that was answered No, and the record's place; 0 where it is about no record.
    Refused { refusal: Refusal, place: u32 },
}

/// How many numbers the list takes for a pair: the earlier row's number, then the later row's.
pub const PAIR: usize = 2;

/// How many numbers a list must have to be long enough for the races of so many rows, whatever these are.
pub fn list_len(rows: u32) -> usize {
    let rows = rows as usize;
    rows * rows.saturating_sub(1)
}

/// The number of pairs, or a refusal's number times 2^32 plus its place.
fn listed(answer: u64) -> Listed {
    match ((answer >> 32) as u32, answer as u32) {
        (0, pairs) => Listed::Pairs(pairs),
        (number, place) => Listed::Refused { refusal: refused(number), place },
    }
}

/// Reads and refuses a trace as `judge` does, fills the counts of an accepted one, and puts every race under the model into the lent list: each once, by
/// its later row and then by its earlier row, two numbers each, the earlier row's first. Behind the pairs the list keeps its numbers. 23 comes last,
/// where the list is too short for all pairs: it keeps the list, and the rows and counts that were read. Any other refusal keeps the list too.
pub fn list_races(text: &[u8], s: Settings, rows: &mut [u32], counts: &mut [u16], list: &mut [u32]) -> Listed {
    // The four slices are live for the call, and the three lent for writing are borrowed by it alone.
    listed(unsafe {
        ffi::kiqsaryn_list_races(
            text.as_ptr(),
            text.len(),
            s.header,
            s.model,
            s.row_limit,
            s.process_limit,
            s.byte_limit,
            rows.as_mut_ptr(),
            rows.len(),
            counts.as_mut_ptr(),
            counts.len(),
            list.as_mut_ptr(),
            list.len(),
        )
    })
}

/// Puts every race of the first `n` rows under a model into the lent list, as `list_races` does. It refuses as `verdict` does, with place 0, and keeps
/// counts and list then; 23, where the list is too short for all pairs, keeps the list alone.
pub fn races(rows: &[u32], n: u32, process_limit: u32, model: u32, counts: &mut [u16], list: &mut [u32]) -> Listed {
    // The three slices are live for the call, and the two lent for writing are borrowed by it alone.
    listed(unsafe {
        ffi::kiqsaryn_races(
            rows.as_ptr(),
            rows.len(),
            n,
            process_limit,
            model,
            counts.as_mut_ptr(),
            counts.len(),
            list.as_mut_ptr(),
            list.len(),
        )
    })
}

/// What the program `verdict` prints of a trace with header: a line for each model, or the refusal's line.
pub fn report(text: &[u8]) -> Vec<u8> {
    let mut out = vec![0; 256];
    // Both slices are live for the call, and the one lent for writing is borrowed by it alone.
    let n = unsafe { ffi::kiqsaryn_report(text.as_ptr(), text.len(), out.as_mut_ptr(), out.len()) };
    out.truncate(n);
    out
}

/// The length of the header's line with its line end, and the most that a row's line can have, a write with two digits each for process and file and
/// ten each for offset and length: so many bytes and so many for each row are enough for every text that `write` writes.
pub const HEADER_LINE: usize = 41;
pub const LONGEST_LINE: usize = 36;

/// What the writing of rows comes to.
#[derive(Clone, Copy, Debug, PartialEq, Eq)]
pub enum Written {
    /// The length of the text.
    Length(usize),
    /// The question that was answered No, and the row's number: 0 where it is about no row.
    Refused { refusal: Refusal, place: u32 },
}

/// Writes the first `n` rows as plain RFC 4180 text into `out` from index `place` on, behind the header's line where `header` is 1. No field
/// is quoted, fields that a kind does not use are empty, and every record ends in CR LF. `check_trace` reads the same rows again under the
/// same header word and process limit. Bytes before the place and behind the text keep their values, and a refusal changes nothing: 1 where
/// `rows` has fewer than six numbers a row, 2 for more than [`ROWS`] rows or a process limit that is not 1 to [`PROCESSES`], 3 for a header word
/// past 1, then row by row 8 to 12 and 21 as `check_trace` asks them (9 for an unused field that is not 0), then 22 of all rows, and 18 last, where the
/// place lies past the end of `out` or too few bytes follow it.
pub fn write(rows: &[u32], n: u32, header: u32, process_limit: u32, out: &mut [u8], place: usize) -> Written {
    // Both slices are live for the call, and the one lent for writing is borrowed by it alone.
    let answer = unsafe { ffi::kiqsaryn_write(rows.as_ptr(), rows.len(), n, header, process_limit, out.as_mut_ptr(), out.len(), place) };
    match ((answer >> 32) as u32, answer as u32) {
        (0, length) => Written::Length(length as usize),
        (number, place) => Written::Refused { refusal: refused(number), place },
    }
}

// ---- Two files joined

/// How two files are to be joined.
#[derive(Clone, Copy, Debug)]
pub struct JoinSettings {
    /// For each file, 0: its first record is its row 1. 1: it is its header.
    pub headers: [u32; 2],
    pub model: u32,
    pub row_limit: u32,
    pub process_limit: u32,
}

/// Reads one file of a join by itself into the lent rows, six numbers each. It asks as `check_trace` does, without a byte limit and without the
/// questions 12, 21 and 22, since a message may be sent in the other file and a barrier finished there. Refusals 1 to 3 keep the slice, and later
/// ones fill it with 0.
pub fn read_file(text: &[u8], header: u32, row_limit: u32, process_limit: u32, rows: &mut [u32]) -> Checked {
    // Both slices are live for the call, and the one lent for writing is borrowed by it alone.
    checked(unsafe { ffi::kiqsaryn_read_file(text.as_ptr(), text.len(), header, row_limit, process_limit, rows.as_mut_ptr(), rows.len()) })
}

/// Where the record of a joined row stands.
#[derive(Clone, Copy, Debug, PartialEq, Eq)]
pub struct Part {
    /// 1 for the first file, 2 for the second.
    pub file: u64,
    /// Where the record starts in that file, and where it ends, before its line end.
    pub start: u64,
    pub end: u64,
}

impl Part {
    /// The part at a place of a slice with three numbers for each joined row.
    pub fn at(parts: &[u64], k: usize) -> Option<Part> {
        match parts.get(k.checked_mul(3)?..)? {
            [file, start, end, ..] => Some(Part { file: *file, start: *start, end: *end }),
            _ => None,
        }
    }
}

/// What a join comes to.
#[derive(Clone, Copy, Debug, PartialEq, Eq)]
pub enum Joined {
    /// The number of joined rows, of which no two race.
    Free { rows: u32 },
    /// The number of joined rows, and the row numbers in the join of the first race.
    Race { rows: u32, earlier: u32, later: u32 },
    /// The question that was answered No and the record's place, in the file of that number, or in the join where the file is 0; both are 0
    /// where the refusal is about no record.
    Refused { refusal: Refusal, place: u32, file: u32 },
}

/// Joins two files into one trace, fills its counts and judges it under the model. The next record comes from the first file, unless that file is at
/// its end or its next row is held back: it is a wait whose message no joined row has sent, or its process has a joined row of a barrier at which not
/// every process with a row in either file has one. Then it comes from the second on the same condition.
///
/// `rows` takes the joined rows, six numbers each, `counts` their counts, and `parts` for each where its record stands, three numbers; behind
/// them all three are cleared. The questions: 1 to 3 (1 also asks for three numbers a row in `parts`), 4 to 11 of the first file, then of the
/// second, 19, then 6, 12 and 21 of each joined row, 20 where no next row can be taken: each is held back, or one is and the other file is at its
/// end, and 22 behind the last joined row. Refusals 1 to 3 keep the slices, and any other fills them with 0.
pub fn join(first: &[u8], second: &[u8], s: JoinSettings, rows: &mut [u32], counts: &mut [u16], parts: &mut [u64]) -> Joined {
    // The five slices are live for the call, and the three lent for writing are borrowed by it alone.
    let answer = unsafe {
        ffi::kiqsaryn_join(
            first.as_ptr(),
            first.len(),
            s.headers[0],
            second.as_ptr(),
            second.len(),
            s.headers[1],
            s.model,
            s.row_limit,
            s.process_limit,
            rows.as_mut_ptr(),
            rows.len(),
            counts.as_mut_ptr(),
            counts.len(),
            parts.as_mut_ptr(),
            parts.len(),
        )
    };
    match words(answer) {
        [rows, 0, _, 0] => Joined::Free { rows },
        [rows, later, earlier, 0] => Joined::Race { rows, earlier, later },
        [place, file, _, number] => Joined::Refused { refusal: refused(number), place, file },
    }
}

// ---- The machine and the plain file

/// What a machine or a plain file serves. A plain file has no model.
#[derive(Clone, Copy, Debug, PartialEq, Eq)]
pub struct Header {
    pub process_limit: u32,
    pub file: u32,
    /// How many runs each map has space for, four numbers each.
    pub map_space: u32,
}

impl Header {
    /// How many numbers the maps of a machine take; `None` where no slice can be so long.
    pub fn maps_len(self) -> Option<usize> {
        let runs = u128::from(self.map_space) * (u128::from(self.process_limit) + 1);
        usize::try_from(runs * 4).ok()
    }

    /// How many numbers the map of a plain file takes.
    pub fn map_len(self) -> Option<usize> {
        usize::try_from(u128::from(self.map_space) * 4).ok()
    }
}

fn stepped(answer: u64) -> Result<u32, Refusal> {
    match (answer >> 32) as u32 {
        0 => Ok(answer as u32),
        number => Err(refused(number)),
    }
}

/// Makes a machine over a slice: 0 everywhere in its maps, and nothing behind them is touched.
pub fn make(model: u32, h: Header, maps: &mut [u32]) -> Result<(), Refusal> {
    // The slice is live for the call and borrowed by it alone.
    done(unsafe { ffi::kiqsaryn_make(model, h.process_limit, h.file, h.map_space, maps.as_mut_ptr(), maps.len()) })
}

/// Makes a plain file over a slice.
pub fn make_plain(h: Header, map: &mut [u32]) -> Result<(), Refusal> {
    // The slice is live for the call and borrowed by it alone.
    done(unsafe { ffi::kiqsaryn_make_plain(h.process_limit, h.file, h.map_space, map.as_mut_ptr(), map.len()) })
}

/// Puts a row to a machine under a row number. A read's pieces (start, length, row number) go to the front of the answer slice, and their
/// count is the answer; it is 0 for any other row. A refusal changes nothing.
pub fn step(model: u32, h: Header, maps: &mut [u32], row: Row, number: u32, out: &mut [u32]) -> Result<u32, Refusal> {
    // Both slices are live for the call and borrowed by it alone.
    stepped(unsafe {
        ffi::kiqsaryn_step(
            model,
            h.process_limit,
            h.file,
            h.map_space,
            maps.as_mut_ptr(),
            maps.len(),
            row.process,
            row.kind,
            row.file,
            row.offset,
            row.length,
            number,
            out.as_mut_ptr(),
            out.len(),
        )
    })
}

/// The same for a plain file.
pub fn step_plain(h: Header, map: &mut [u32], row: Row, number: u32, out: &mut [u32]) -> Result<u32, Refusal> {
    // Both slices are live for the call and borrowed by it alone.
    stepped(unsafe {
        ffi::kiqsaryn_step_plain(
            h.process_limit,
            h.file,
            h.map_space,
            map.as_mut_ptr(),
            map.len(),
            row.process,
            row.kind,
            row.file,
            row.offset,
            row.length,
            number,
            out.as_mut_ptr(),
            out.len(),
        )
    })
}

/// How far a replay came.
#[derive(Clone, Copy, Debug, PartialEq, Eq)]
pub struct Replayed {
    /// The rows gone through, the first ones that were left out included.
    pub rows: u32,
    /// The refusal of the next row, or of the call: 1 for a short slice, 13 for an unlawful state.
    pub refusal: Option<Refusal>,
}

impl Replayed {
    fn of(answer: u64) -> Replayed {
        let number = (answer >> 32) as u32;
        Replayed { rows: answer as u32, refusal: if number == 0 { None } else { Some(refused(number)) } }
    }
}

/// Puts the rows behind the first ones, up to row `n`, to a machine, each that names its file, under its number in the trace. `counts[k]` gets
/// the count of pieces of row k + 1, and `out` the pieces of all reads one after the other. A refusal ends it before that row, with the state
/// and slices as the rows before it left them, so that it can be taken up again from there.
#[allow(clippy::too_many_arguments)]
pub fn replay(model: u32, h: Header, maps: &mut [u32], rows: &[u32], first: u32, n: u32, counts: &mut [u32], out: &mut [u32]) -> Replayed {
    // The slices are live for the call, and those lent for writing are borrowed by it alone.
    Replayed::of(unsafe {
        ffi::kiqsaryn_replay(
            model,
            h.process_limit,
            h.file,
            h.map_space,
            maps.as_mut_ptr(),
            maps.len(),
            rows.as_ptr(),
            rows.len(),
            first,
            n,
            counts.as_mut_ptr(),
            counts.len(),
            out.as_mut_ptr(),
            out.len(),
        )
    })
}

/// The same for a plain file.
pub fn replay_plain(h: Header, map: &mut [u32], rows: &[u32], first: u32, n: u32, counts: &mut [u32], out: &mut [u32]) -> Replayed {
    // The slices are live for the call, and those lent for writing are borrowed by it alone.
    Replayed::of(unsafe {
        ffi::kiqsaryn_replay_plain(
            h.process_limit,
            h.file,
            h.map_space,
            map.as_mut_ptr(),
            map.len(),
            rows.as_ptr(),
            rows.len(),
            first,
            n,
            counts.as_mut_ptr(),
            counts.len(),
            out.as_mut_ptr(),
            out.len(),
        )
    })
}

/// What stands at a byte of a map.
#[derive(Clone, Copy, Debug, PartialEq, Eq)]
pub struct Stretch {
    /// The byte's row number, 0 where nothing was written.
    pub number: u32,
    /// 1 while the byte is unpublished, else 0.
    pub mark: u32,
    /// The first byte behind it that has another row number or another mark, 4,294,967,295 where none has.
    pub next: u32,
}

/// Looks a byte up in a map, which is the `4 * map_space` numbers of a plain file, or of the published map or a process's map of a machine. A map
/// that is not lawful is refused with 13, also a slice whose length is no multiple of 4, and byte 4,294,967,295 with 11.
pub fn lookup(map: &[u32], byte: u32) -> Result<Stretch, Refusal> {
    // The slice is live for the call.
    let answer = unsafe { ffi::kiqsaryn_lookup(map.as_ptr(), map.len(), byte) };
    match (answer >> 48) as u32 {
        0 => Ok(Stretch { number: (answer >> 34) as u32, mark: (answer >> 32) as u32 % 4, next: answer as u32 }),
        number => Err(refused(number)),
    }
}
