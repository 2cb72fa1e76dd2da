//! Traces put to the library: one by itself, or two that are joined.

use crate::args::{Common, Input, Inputs, Mend, Source};
use crate::explain::Rows;
use crate::mend::{mend, Mended};
use crate::recording::{byte_limit, is_one_pipe, name_of, read, read_to_mend, record, record_start, Recording};
use crate::text::refusal_of_library;
use kiqsaryn::{check_trace, fill_counts, join, read_file, Checked, JoinSettings, Joined, Part, Refusal, Row, Settings, ROWS};
use std::path::PathBuf;

/// An accepted trace with its happens-before counts: that of one recording, or the join of two.
pub struct Trace {
    pub source: Recorded,
    pub processes: u32,
    pub counts: Vec<u16>,
}

pub enum Recorded {
    Alone(Recording),
    Joined(Join),
}

/// The joined rows of two recordings, six numbers each, and where each comes from.
pub struct Join {
    pub recordings: [Recording; 2],
    pub n: u32,
    pub rows: Vec<u32>,
    pub origins: Vec<Origin>,
}

/// Where a joined row comes from: the recording, 0 or 1, the row's number there, and the start and the end of its record.
pub struct Origin {
    pub recording: usize,
    pub number: u32,
    pub start: usize,
    pub end: usize,
}

impl Trace {
    pub fn rows(&self) -> Rows<'_> {
        let (rows, n) = match &self.source {
            Recorded::Alone(recording) => (&recording.rows, recording.n),
            Recorded::Joined(join) => (&join.rows, join.n),
        };
        Rows { rows, n, processes: self.processes, counts: &self.counts }
    }

    /// A row's record as it stands in its recording.
    pub fn record(&self, number: u32) -> &[u8] {
        match &self.source {
            Recorded::Alone(recording) => recording.record(number),
            Recorded::Joined(join) => join.record(number).unwrap_or(&[]),
        }
    }

    /// A joined row's own recording and number: "row 3 of second.csv".
    pub fn own_name(&self, number: u32) -> Option<String> {
        match &self.source {
            Recorded::Alone(_) => None,
            Recorded::Joined(join) => join.origin(number).map(|o| row_of(&join.recordings, o.recording, o.number)),
        }
    }

    /// What stands behind a row's number: nothing, and of a join " (row 3 of second.csv)".
    pub fn own_behind(&self, number: u32) -> String {
        self.own_name(number).map_or(String::new(), |own| format!(" ({own})"))
    }

    /// "row 5", and of a join "row 5 (row 3 of second.csv)".
    pub fn row_name(&self, number: u32) -> String {
        format!("row {number}{}", self.own_behind(number))
    }

    /// How sentences name rows: the first time as `row_name` does, and then, as those that are known already, by the number alone.
    pub fn naming(&self, known: &[u32]) -> impl FnMut(u32) -> String + '_ {
        let mut named = known.to_vec();
        move |number| {
            if named.contains(&number) {
                return format!("row {number}");
            }
            named.push(number);
            self.row_name(number)
        }
    }
}

impl Join {
    pub fn origin(&self, number: u32) -> Option<&Origin> {
        self.origins.get((number as usize).checked_sub(1)?)
    }

    fn record(&self, number: u32) -> Option<&[u8]> {
        let origin = self.origin(number)?;
        self.recordings.get(origin.recording)?.text.get(origin.start..origin.end)
    }
}

/// "row 3 of second.csv".
pub fn row_of(recordings: &[Recording; 2], k: usize, number: u32) -> String {
    format!("row {number} of {}", short_names(recordings)[k.min(1)])
}

/// The names of two recordings without their folders, where these names differ.
pub fn short_names(recordings: &[Recording; 2]) -> [&str; 2] {
    let names = recordings.each_ref().map(|r| r.name.as_str());
    let last = names.map(|name| name.rsplit('/').find(|part| !part.is_empty()).unwrap_or(name));
    if last[0] == last[1] {
        names
    } else {
        last
    }
}

// ---- Refusals

pub enum Refused {
    Trace(TraceRefused),
    Join(JoinRefused),
}

/// Which of the traces of a command line one is.
#[derive(Clone, Copy, PartialEq, Eq)]
pub enum Which {
    Only,
    First,
    Second,
}

/// A refused trace: the question, the place, and the record there.
pub struct TraceRefused {
    pub name: String,
    pub which: Which,
    pub refusal: Refusal,
    pub place: u32,
    pub header: bool,
    /// How the header word was said, and how the other word is said.
    pub said: String,
    pub said_other: String,
    pub processes: u32,
    /// The bytes read up to the limit, and whether reading stopped there.
    pub bytes: usize,
    pub stopped: bool,
    pub record: Vec<u8>,
    /// The rows up to the first that cannot be read, where one of them is refused for its message or for a barrier; else none.
    pub rows: Vec<Row>,
    /// The bytes as they were put to the library, and where the record starts among them.
    pub text: Vec<u8>,
    pub start: usize,
    /// How they came from the bytes of the file, where these were mended.
    pub mended: Option<Mended>,
    /// The file that the trace was read from; none for standard input.
    pub path: Option<PathBuf>,
}

impl TraceRefused {
    /// The bytes of the file.
    pub fn file(&self) -> &[u8] {
        self.mended.as_ref().map_or(&self.text, |mended| &mended.file)
    }
}

/// Two traces of which each is accepted, and their join is not: the question, and the place in the join.
pub struct JoinRefused {
    pub recordings: [Recording; 2],
    pub refusal: Refusal,
    pub place: u32,
}

pub enum Loaded {
    Accepted(Trace),
    Refused(Refused),
}

/// A trace that was read, not yet asked anything.
struct Unasked<'a> {
    input: &'a Input,
    which: Which,
    /// How the header word was said, and how the other word is said.
    said: [String; 2],
    text: Vec<u8>,
    mended: Option<Mended>,
    processes: u32,
}

/// Whether the refusal is about messages or barriers and their order, so that other rows tell what is wrong.
pub fn is_of_order(refusal: Refusal) -> bool {
    [Refusal::MessageOrder, Refusal::WaitOrder, Refusal::BarrierOrder].contains(&refusal)
}

impl Unasked<'_> {
    /// The rows up to the first that cannot be read; the order of messages and barriers is not asked.
    fn readable(&self) -> Vec<Row> {
        let header = self.input.header;
        let mut rows = vec![0; ROWS as usize * 6];
        let mut ask = |text: &[u8]| read_file(text, u32::from(header), ROWS, self.processes, &mut rows);
        let n = match ask(&self.text) {
            Checked::Accepted(n) => n,
            Checked::Refused { place, .. } => match ask(self.text.get(..record_start(&self.text, header, place)).unwrap_or(&[])) {
                Checked::Accepted(n) => n,
                Checked::Refused { .. } => 0,
            },
        };
        (0..n as usize).filter_map(|k| Row::at(&rows, k)).collect()
    }

    fn recording(self, n: u32, rows: Vec<u32>) -> Recording {
        let (bytes, mended) = self.mended.map_or((self.text.len(), Vec::new()), |mended| (mended.file.len(), mended.done));
        Recording { name: name_of(&self.input.source), text: self.text, header: self.input.header, n, rows, bytes, mended }
    }

    fn refused(self, refusal: Refusal, place: u32) -> TraceRefused {
        let (header, limit) = (self.input.header, byte_limit(self.input.header));
        let rows = if is_of_order(refusal) { self.readable() } else { Vec::new() };
        let [said, said_other] = self.said;
        let path = match &self.input.source {
            Source::Standard => None,
            Source::Path(path) => Some(path.clone()),
        };
        TraceRefused {
            name: name_of(&self.input.source),
            which: self.which,
            refusal,
            place,
            header,
            said,
            said_other,
            processes: self.processes,
            bytes: self.mended.as_ref().map_or(self.text.len().min(limit), |mended| mended.file.len()),
            stopped: self.text.len() > limit,
            record: record(&self.text, header, place).to_vec(),
            rows,
            start: record_start(&self.text, header, place),
            text: self.text,
            mended: self.mended,
            path,
        }
    }
}

// ---- One trace

fn settings(header: bool, processes: u32, byte_limit: usize) -> Settings {
    Settings { header: u32::from(header), model: 0, row_limit: ROWS, process_limit: processes, byte_limit }
}

fn yes_or_no(header: bool) -> &'static str {
    if header {
        "yes"
    } else {
        "no"
    }
}

/// What the library answers to a trace by itself, and the rows and the counts that it fills.
pub fn ask(text: &[u8], header: bool, processes: u32) -> (Checked, Vec<u32>, Vec<u16>) {
    let mut rows = vec![0; ROWS as usize * 6];
    let mut counts = vec![0; ROWS as usize * processes as usize];
    let checked = check_trace(text, settings(header, processes, byte_limit(header)), &mut rows, &mut counts);
    (checked, rows, counts)
}

/// Whether the library reads this record, alone, as the names where it is to be the header, and else as a row.
pub fn reads_as(record: &[u8], header: bool, processes: u32) -> bool {
    let mut rows = vec![0; ROWS as usize * 6];
    let rows_read = u32::from(!header);
    read_file(record, u32::from(header), ROWS, processes, &mut rows) == Checked::Accepted(rows_read)
}

/// Reads a trace, mends it where that is told, and asks the library. An error is a sentence.
fn load_one(input: &Input, processes: u32, options: Mend) -> Result<Loaded, String> {
    let said = [input.header, !input.header].map(|header| format!("--header {}", yes_or_no(header)));
    let (text, mended) = match options == Mend::default() {
        true => (read(input)?, None),
        false => {
            let mut mended = mend(read_to_mend(input)?, options);
            (std::mem::take(&mut mended.text), Some(mended))
        }
    };
    let trace = Unasked { input, which: Which::Only, said, text, mended, processes };
    let (checked, rows, mut counts) = ask(&trace.text, input.header, processes);
    match checked {
        Checked::Accepted(n) => {
            if fill_counts(&rows, n, processes, &mut counts).is_err() {
                return Err("the counts of the rows are missing; please report this trace".to_string());
            }
            Ok(Loaded::Accepted(Trace { source: Recorded::Alone(trace.recording(n, rows)), processes, counts }))
        }
        Checked::Refused { refusal, place } => Ok(Loaded::Refused(Refused::Trace(trace.refused(refusal, place)))),
    }
}

// ---- Two traces

/// The refusal of the record at a place, under the limit of bytes, where reading stopped there: the library asks that record alone. As in one
/// trace, a row that goes on past the limit gets 6, and a header 5.
fn refusal_within_limit(trace: &Unasked, refusal: Refusal, place: u32) -> Refusal {
    let (header, limit) = (trace.input.header, byte_limit(trace.input.header));
    let start = record_start(&trace.text, header, place);
    let alone = settings(header && place == 0, trace.processes, limit.saturating_sub(start));
    let (mut rows, mut counts) = (vec![0; ROWS as usize * 6], vec![0; ROWS as usize * trace.processes as usize]);
    match check_trace(trace.text.get(start..).unwrap_or(&[]), alone, &mut rows, &mut counts) {
        Checked::Refused { refusal: Refusal::TooManyRows, place: 1 } => Refusal::TooManyRows,
        Checked::Refused { refusal: Refusal::Header, place: 0 } => Refusal::Header,
        _ => refusal,
    }
}

/// One of two traces, put to the questions of one file. One of which reading stopped is never accepted.
fn recorded(trace: Unasked) -> Result<Recording, TraceRefused> {
    let header = trace.input.header;
    let stopped = trace.text.len() > byte_limit(header);
    let mut rows = vec![0; ROWS as usize * 6];
    match read_file(&trace.text, u32::from(header), ROWS, trace.processes, &mut rows) {
        Checked::Accepted(n) if !stopped => Ok(trace.recording(n, rows)),
        Checked::Accepted(n) => Err(trace.refused(Refusal::TooManyRows, n + 1)),
        Checked::Refused { refusal, place } if !stopped => Err(trace.refused(refusal, place)),
        Checked::Refused { refusal, place } => {
            let refusal = refusal_within_limit(&trace, refusal, place);
            Err(trace.refused(refusal, place))
        }
    }
}

/// Where joined rows come from. The rows of a recording are joined in their order, so each has the next number there.
fn origins(parts: &[u64], n: u32) -> Option<Vec<Origin>> {
    let mut taken = [0; 2];
    let mut all = Vec::new();
    for k in 0..n as usize {
        let part = Part::at(parts, k)?;
        let recording = usize::try_from(part.file.checked_sub(1)?).ok()?;
        let number = taken.get_mut(recording)?;
        *number += 1;
        all.push(Origin { recording, number: *number, start: usize::try_from(part.start).ok()?, end: usize::try_from(part.end).ok()? });
    }
    Some(all)
}

/// Joins two recordings. An error is a sentence.
fn joined(recordings: [Recording; 2], processes: u32) -> Result<Loaded, String> {
    let headers = recordings.each_ref().map(|r| u32::from(r.header));
    let s = JoinSettings { headers, model: 0, row_limit: ROWS, process_limit: processes };
    let [first, second] = recordings.each_ref().map(|r| &r.text[..]);
    let (mut rows, mut parts) = (vec![0; ROWS as usize * 6], vec![0; ROWS as usize * 3]);
    let mut counts = vec![0; ROWS as usize * processes as usize];
    match join(first, second, s, &mut rows, &mut counts, &mut parts) {
        Joined::Free { rows: n } | Joined::Race { rows: n, .. } => {
            let origins = origins(&parts, n).ok_or("the places of the records are missing; please report these traces")?;
            Ok(Loaded::Accepted(Trace { source: Recorded::Joined(Join { recordings, n, rows, origins }), processes, counts }))
        }
        Joined::Refused { refusal, place, file: 0 } => Ok(Loaded::Refused(Refused::Join(JoinRefused { recordings, refusal, place }))),
        Joined::Refused { refusal, .. } => Err(refusal_of_library("the traces are read and not joined", refusal)),
    }
}

/// Reads two traces and joins them; the first is asked first. An error is a sentence.
fn load_two(inputs: &[Input; 2], processes: u32) -> Result<Loaded, String> {
    let [first, second] = inputs;
    if is_one_pipe(&first.source, &second.source) {
        return Err("both traces are the same pipe; each needs its own".to_string());
    }
    let said = |a: bool, b: bool| format!("--headers {},{}", yes_or_no(a), yes_or_no(b));
    let (a, b) = (first.header, second.header);
    let unasked = |input, which, other: String| {
        let said = [said(a, b), other];
        Ok::<_, String>(Unasked { input, which, said, text: read(input)?, mended: None, processes })
    };
    let (first, second) = (unasked(first, Which::First, said(!a, b))?, unasked(second, Which::Second, said(a, !b))?);
    let recordings = recorded(first).and_then(|first| Ok([first, recorded(second)?]));
    match recordings {
        Ok(recordings) => joined(recordings, processes),
        Err(refused) => Ok(Loaded::Refused(Refused::Trace(refused))),
    }
}

/// Reads the traces of a command and asks the library. An error is a sentence.
pub fn load(common: &Common) -> Result<Loaded, String> {
    match &common.inputs {
        Inputs::One(input) => load_one(input, common.processes, common.mend),
        Inputs::Two(inputs) => load_two(inputs, common.processes),
    }
}
