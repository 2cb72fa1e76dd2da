//! `replay`: what each read gets under a model, next to one plain file. The reads are written as they come, and none is kept.

use crate::args::Reads;
use crate::input::{Recorded, Trace};
use crate::json;
use crate::output::Failed;
use crate::recording::Recording;
use crate::text::{bytes_of, counted, describe, labelled, letters, refusal_of_library, span};
use crate::trace_json::of_trace;
use kiqsaryn::{make, make_plain, replay, replay_plain, Header, Model, Refusal, Replayed, Row, READ, SEND, WRITE};
use std::collections::BTreeMap;
use std::io::{self, Write};

// ---- The library's answers

/// Bytes with one row number; 0 for bytes never written.
#[derive(Clone, Copy, Debug, PartialEq, Eq)]
struct Piece {
    start: u32,
    length: u32,
    row: u32,
}

/// A read and its pieces.
struct Answered {
    read: (u32, Row),
    pieces: Vec<Piece>,
}

/// Bytes of a read that one row wrote under the model, and one in the plain file; 0 for bytes never written.
#[derive(Clone, Copy, Debug, PartialEq, Eq)]
pub struct PieceOf {
    pub start: u32,
    pub length: u32,
    pub row: u32,
    pub plain: u32,
}

impl PieceOf {
    pub fn is_stale(&self) -> bool {
        self.row != self.plain
    }
}

/// A read, and what it gets.
#[derive(Clone, Debug, PartialEq, Eq)]
pub struct ReadAnswer {
    pub number: u32,
    pub row: Row,
    pub pieces: Vec<PieceOf>,
}

impl ReadAnswer {
    /// How many bytes are not those of the plain file.
    pub fn stale(&self) -> u64 {
        self.pieces.iter().filter(|piece| piece.is_stale()).map(|piece| u64::from(piece.length)).sum()
    }
}

/// Numbers of an answer slice, where one read does not need more.
const ANSWER: usize = 1 << 18;

/// A machine (with its model) or a plain file, and how far it has come.
struct Runner<'a> {
    trace: &'a Trace,
    model: Option<Model>,
    header: Header,
    maps: Vec<u32>,
    counts: Vec<u32>,
    out: Vec<u32>,
    done: u32,
}

impl<'a> Runner<'a> {
    fn new(trace: &'a Trace, model: Option<Model>, header: Header) -> Result<Runner<'a>, String> {
        let len = if model.is_some() { header.maps_len() } else { header.map_len() };
        let mut maps = vec![0; len.ok_or("the maps would be too long")?];
        let made = match model {
            Some(m) => make(m.number(), header, &mut maps),
            None => make_plain(header, &mut maps),
        };
        made.map_err(|r| refusal_of_library("the replay cannot start", r))?;
        let answer = (header.map_space as usize + 1).saturating_mul(3).max(ANSWER);
        Ok(Runner { trace, model, header, maps, counts: vec![0; trace.rows().n as usize], out: vec![0; answer], done: 0 })
    }

    /// Goes on up to row `n`, or until the answer slice is full, and gives the reads on the way.
    fn go(&mut self, n: u32) -> Result<Vec<Answered>, String> {
        let (first, rows) = (self.done, self.trace.rows());
        let Replayed { rows: reached, refusal } = match self.model {
            Some(m) => replay(m.number(), self.header, &mut self.maps, rows.rows, first, n, &mut self.counts, &mut self.out),
            None => replay_plain(self.header, &mut self.maps, rows.rows, first, n, &mut self.counts, &mut self.out),
        };
        match refusal {
            Some(r) if r != Refusal::AnswerSpace || reached <= first => {
                return Err(refusal_of_library(&format!("the replay stopped before row {}", u64::from(reached) + 1), r));
            }
            None if reached < n => return Err("the replay stopped too early; please report this trace".to_string()),
            _ => {}
        }
        let mut pieces = self.out.chunks_exact(3).map(|c| match c {
            [start, length, row] => Piece { start: *start, length: *length, row: *row },
            _ => Piece { start: 0, length: 0, row: 0 },
        });
        let mut reads = Vec::new();
        for (number, row) in (first + 1..=reached).filter_map(|k| Some((k, rows.row(k)?))) {
            if row.kind == READ && row.file == self.header.file {
                let count = self.counts.get(number as usize - 1).copied().unwrap_or(0);
                reads.push(Answered { read: (number, row), pieces: pieces.by_ref().take(count as usize).collect() });
            }
        }
        self.done = reached;
        Ok(reads)
    }
}

/// Two lists of pieces of one range as one.
fn joined(a: &[Piece], b: &[Piece]) -> Vec<PieceOf> {
    let (mut a, mut b) = (a.iter().copied(), b.iter().copied());
    let (mut x, mut y) = (a.next(), b.next());
    let mut all = Vec::new();
    while let (Some(p), Some(q)) = (x, y) {
        let length = p.length.min(q.length);
        all.push(PieceOf { start: p.start, length, row: p.row, plain: q.row });
        let rest = |r: Piece| Piece { start: r.start.saturating_add(length), length: r.length - length, row: r.row };
        x = if p.length == length { a.next() } else { Some(rest(p)) };
        y = if q.length == length { b.next() } else { Some(rest(q)) };
    }
    all
}

/// The rows that name a file.
fn of_file(trace: &Trace, file: u32) -> impl Iterator<Item = (u32, Row)> + '_ {
    trace.rows().all().filter(move |(_, row)| row.kind < SEND && row.file == file)
}

/// Puts the rows of a file up to row `n` to a machine of the model and to a plain file, and visits each read with what it gets. A part of the answers
/// is held at a time, so that the memory does not grow with them.
fn each_read_up_to(
    n: u32,
    (trace, file, model): (&Trace, u32, Model),
    visit: &mut dyn FnMut(&ReadAnswer) -> Result<(), Failed>,
) -> Result<(), Failed> {
    let writes = of_file(trace, file).filter(|(_, row)| row.kind == WRITE).count();
    // A write makes at most two runs more of a map.
    let map_space = u32::try_from(writes).ok().and_then(|w| w.checked_mul(2)).ok_or_else(|| "too many writes".to_string())?.max(1);
    let header = Header { process_limit: trace.rows().processes, file, map_space };
    let mut under = Runner::new(trace, Some(model), header)?;
    let mut plain = Runner::new(trace, None, header)?;
    while under.done < n {
        let mut ours = under.go(n)?.into_iter();
        while plain.done < under.done {
            // The plain file may have more pieces, so that it comes to the same row in several steps.
            for (theirs, ours) in plain.go(under.done)?.iter().zip(&mut ours) {
                let (number, row) = ours.read;
                visit(&ReadAnswer { number, row, pieces: joined(&ours.pieces, &theirs.pieces) })?;
            }
        }
    }
    Ok(())
}

/// Visits each read of a file, in the order of the trace, with what it gets under a model and in one plain file.
pub fn each_read(trace: &Trace, file: u32, model: Model, visit: &mut dyn FnMut(&ReadAnswer) -> Result<(), Failed>) -> Result<(), Failed> {
    each_read_up_to(trace.rows().n, (trace, file, model), visit)
}

/// What the read of this number gets under a model; none where the row is no read.
pub fn one_read(trace: &Trace, number: u32, model: Model) -> Result<Option<ReadAnswer>, Failed> {
    let (mut found, n) = (None, number.min(trace.rows().n));
    let file = trace.rows().row(n).map_or(0, |row| row.file);
    each_read_up_to(n, (trace, file, model), &mut |read| {
        if read.number == number {
            found = Some(read.clone());
        }
        Ok(())
    })?;
    Ok(found)
}

// ---- Which reads are shown

/// The files that rows name, with how many rows each has.
fn files(trace: &Trace) -> BTreeMap<u32, u64> {
    let mut files = BTreeMap::new();
    for (_, row) in trace.rows().all().filter(|(_, row)| row.kind < SEND) {
        *files.entry(row.file).or_insert(0) += 1;
    }
    files
}

/// "the trace", "the join".
fn order_of(trace: &Trace) -> &'static str {
    match &trace.source {
        Recorded::Alone(_) => "trace",
        Recorded::Joined(_) => "join",
    }
}

/// The read of this number. An error is a sentence that says what the row is.
pub fn read_at(trace: &Trace, number: u32) -> Result<Row, String> {
    let rows = trace.rows();
    match rows.row(number) {
        None => {
            let there = format!("the {} has {}", order_of(trace), counted(u64::from(rows.n), "row"));
            Err(format!("row {number} is not there: {there}"))
        }
        Some(row) if row.kind != READ => Err(format!("{} is no read: {}", trace.row_name(number), describe(row))),
        Some(row) => Ok(row),
    }
}

/// "1, 2 and 5".
fn list_of(words: &[String]) -> String {
    match words {
        [] => String::new(),
        [one] => one.clone(),
        [first @ .., last] => format!("{} and {last}", first.join(", ")),
    }
}

/// That no row names this file, and which files rows name.
fn no_row_of(trace: &Trace, file: u32) -> String {
    let there: Vec<String> = files(trace).keys().map(u32::to_string).collect();
    let order = order_of(trace);
    match there.len() {
        0 => format!("no row is of file {file}; the {order} has no row of any file"),
        1 => format!("no row is of file {file}; the {order} has rows of file {}", list_of(&there)),
        _ => format!("no row is of file {file}; the {order} has rows of files {}", list_of(&there)),
    }
}

/// The files whose reads are counted, with how many rows each has: the one that is said, that of the row that is said, or all. An error is a
/// sentence.
fn chosen_files(trace: &Trace, reads: &Reads) -> Result<Vec<(u32, u64)>, String> {
    let all = files(trace);
    if let Some(file) = reads.file.filter(|file| !all.contains_key(file)) {
        return Err(no_row_of(trace, file));
    }
    let of_row = match reads.row {
        None => None,
        Some(number) => Some((number, read_at(trace, number)?)),
    };
    if let (Some(file), Some((number, row))) = (reads.file, of_row) {
        if row.file != file {
            return Err(format!("{} is no read of file {file}: {}", trace.row_name(number), describe(row)));
        }
    }
    let only = reads.file.or(of_row.map(|(_, row)| row.file));
    Ok(all.into_iter().filter(|(file, _)| only.is_none_or(|only| *file == only)).collect())
}

/// Whether a read is among those that are shown.
fn is_shown(reads: &Reads, read: &ReadAnswer) -> bool {
    reads.row.is_none_or(|row| row == read.number) && (!reads.stale || read.stale() > 0)
}

/// Whether the reads of the files are shown in part alone.
fn is_part(reads: &Reads) -> bool {
    reads.stale || reads.row.is_some()
}

/// Reads counted.
#[derive(Clone, Copy, Default)]
struct Totals {
    reads: u64,
    shown: u64,
    bytes: u64,
    stale: u64,
}

impl Totals {
    fn count(&mut self, read: &ReadAnswer, shown: bool) {
        self.reads += 1;
        self.shown += u64::from(shown);
        self.bytes += u64::from(read.row.length);
        self.stale += read.stale();
    }

    fn add(&mut self, more: Totals) {
        self.reads += more.reads;
        self.shown += more.shown;
        self.bytes += more.bytes;
        self.stale += more.stale;
    }

    /// How many reads and bytes, behind the word that says of what.
    fn line(&self, reads: &str) -> String {
        format!("{reads}: {}, bytes read: {}, stale bytes: {}\n", self.reads, self.bytes, self.stale)
    }
}

// ---- In words

/// The row that wrote a piece.
fn writer(trace: &Trace, row: u32) -> String {
    match row {
        0 => "unwritten".to_string(),
        _ => trace.row_name(row),
    }
}

/// Puts an entry, filled up to a width and with two spaces behind it.
fn put_entry(s: &mut String, entry: &str, width: usize) {
    s.push_str(entry);
    s.extend(std::iter::repeat_n(' ', (width + "  ".len()).saturating_sub(letters(entry))));
}

/// A table of the pieces of a read: the bytes, the row that wrote them under the model, the one in the plain file, and a mark where they differ. The
/// columns are as far apart as their heads and their longest entries need.
pub fn table(trace: &Trace, row: Row, head: &str, pieces: &[PieceOf], mark: &dyn Fn(&PieceOf) -> String) -> String {
    if pieces.is_empty() {
        return String::new();
    }
    let writers: Vec<[String; 2]> = pieces.iter().map(|p| [writer(trace, p.row), writer(trace, p.plain)]).collect();
    let longest = |k: usize, least: &str| writers.iter().map(|w| letters(&w[k])).max().unwrap_or(0).max(least.len());
    let digits = (u64::from(row.offset) + u64::from(row.length)).to_string().len();
    let first = "bytes".len().max(" to ".len() + 2 * digits);
    let (second, third) = (longest(0, "unwritten"), longest(1, "plain file"));
    let mut s = format!("  {:first$}  {head:second$}  plain file\n", "bytes");
    for (piece, [ours, theirs]) in pieces.iter().zip(&writers) {
        s.push_str("  ");
        put_entry(&mut s, &span(piece.start, piece.length), first);
        put_entry(&mut s, ours, second);
        match piece.is_stale() {
            true => put_entry(&mut s, theirs, third),
            false => s.push_str(theirs),
        }
        if piece.is_stale() {
            s.push_str(&mark(piece));
        }
        s.push('\n');
    }
    s
}

/// Writes a read and what it gets.
fn put_read(out: &mut impl Write, trace: &Trace, model: Model, read: &ReadAnswer) -> io::Result<()> {
    let (number, row) = (read.number, read.row);
    writeln!(out, "Row {number}{}: process {} reads {}", trace.own_behind(number), row.process, bytes_of(row.offset, row.length))?;
    writeln!(out, "{}", table(trace, row, model.name(), &read.pieces, &|_| "STALE".to_string()))
}

/// The traces and their rows, and whether their order is that of a trace or of a join.
pub fn heading(trace: &Trace) -> (String, &'static str) {
    let line = |label: &str, r: &Recording| format!("{label}: {} ({})\n", r.name, counted(u64::from(r.n), "row"));
    let lines = match &trace.source {
        Recorded::Alone(recording) => line("Trace", recording),
        Recorded::Joined(join) => {
            let [first, second] = &join.recordings;
            line("First trace", first) + &line("Second trace", second)
        }
    };
    (lines, order_of(trace))
}

/// What STALE means, if there is such a byte, and which order this is.
pub fn meaning(trace: &Trace, stale: bool) -> String {
    let mut s = String::new();
    if stale {
        s.push_str(&labelled("", "STALE: the read does not get the bytes that one plain file would give it."));
    }
    let order = match &trace.source {
        Recorded::Alone(_) => "recorded order",
        Recorded::Joined(_) => "joined order",
    };
    s + &labelled("", &format!("This is the {order} alone. 'kiqsaryn check' judges every allowed order."))
}

/// The last lines: how many reads are shown, where not all may be, and the counts of the chosen files, whatever is shown of them.
fn ending(reads: &Reads, files: usize, totals: &Totals) -> String {
    let mut s = String::new();
    if is_part(reads) {
        s.push_str(&format!("Shown: {} of {}.\n", totals.shown, counted(totals.reads, "read")));
    }
    s + &match files {
        1 => totals.line("Reads"),
        _ => totals.line(&format!("Files: {files}, reads")),
    }
}

/// Writes the reads of one file that are shown. Where a part of several files is shown, one without such a read has no heading.
fn put_file(out: &mut impl Write, trace: &Trace, reads: &Reads, model: Model, (file, n): (u32, u64), only: bool) -> Result<Totals, Failed> {
    let head =
        format!("File {file} under {}: {} of this file, in the order of the {}\n\n", model.name(), counted(n, "row"), order_of(trace));
    let (mut totals, mut headed) = (Totals::default(), false);
    if only || !is_part(reads) {
        write!(out, "{head}")?;
        headed = true;
    }
    each_read(trace, file, model, &mut |read| {
        let shown = is_shown(reads, read);
        totals.count(read, shown);
        if shown && !std::mem::replace(&mut headed, true) {
            write!(out, "{head}")?;
        }
        if shown {
            put_read(out, trace, model, read)?;
        }
        Ok(())
    })?;
    if headed && !only {
        writeln!(out, "{}", totals.line(&format!("Reads of file {file}")))?;
    }
    Ok(totals)
}

/// Writes the reads that are shown, file by file, and counts all of the chosen files. Where the choice is wrong, nothing is written.
pub fn put(out: &mut impl Write, trace: &Trace, reads: &Reads, model: Model) -> Result<(), Failed> {
    let files = chosen_files(trace, reads)?;
    write!(out, "{}", heading(trace).0)?;
    if files.len() != 1 {
        writeln!(out)?;
    }
    let mut totals = Totals::default();
    for file in &files {
        totals.add(put_file(out, trace, reads, model, *file, files.len() == 1)?);
    }
    write!(out, "{}{}", meaning(trace, totals.stale > 0), ending(reads, files.len(), &totals))?;
    Ok(())
}

// ---- As JSON

/// A row number in JSON; null for bytes never written.
fn json_row(number: u32) -> String {
    json::maybe((number > 0).then_some(number))
}

/// Writes a read and what it gets as a JSON object. A piece has at least one byte.
fn put_json_read(out: &mut impl Write, ReadAnswer { number, row, pieces }: &ReadAnswer) -> io::Result<()> {
    write!(out, "{{\"row\":{number},\"process\":{},\"file\":{},", row.process, row.file)?;
    write!(out, "\"offset\":{},\"length\":{},\"pieces\":[", row.offset, row.length)?;
    let mut comma = "";
    for piece in pieces {
        let last = u64::from(piece.start) + u64::from(piece.length).saturating_sub(1);
        write!(out, "{comma}{{\"first\":{},\"last\":{last},", piece.start)?;
        write!(out, "\"row\":{},\"plain\":{},\"stale\":{}}}", json_row(piece.row), json_row(piece.plain), piece.is_stale())?;
        comma = ",";
    }
    write!(out, "]}}")
}

/// Writes the reads that are shown, and the counts of the chosen files, as one JSON object. Where the choice is wrong, nothing is written.
pub fn put_json(out: &mut impl Write, trace: &Trace, reads: &Reads, model: Model) -> Result<(), Failed> {
    let files = chosen_files(trace, reads)?;
    write!(out, "{{{},\"model\":{},\"reads\":[", json::fields(&of_trace(trace)), json::string(model.name()))?;
    let mut totals = Totals::default();
    for (file, _) in &files {
        each_read(trace, *file, model, &mut |read| {
            let shown = is_shown(reads, read);
            if shown {
                writeln!(out, "{}", if totals.shown > 0 { "," } else { "" })?;
                put_json_read(out, read)?;
            }
            totals.count(read, shown);
            Ok(())
        })?;
    }
    let counts = [("reads", totals.reads), ("shown", totals.shown), ("bytes", totals.bytes), ("stale", totals.stale)];
    write!(out, "],\n\"counts\":{}}}", json::object(&counts.map(|(name, count)| (name, count.to_string()))))?;
    Ok(())
}
