//! A trace file as it was read: its bytes, its records as they stand, and its rows.

use crate::args::{Input, Source};
use crate::mend::Doings;
use crate::standard;
use crate::text::path_name;
use kiqsaryn::{Row, FILES, PROCESSES, ROWS};
use std::fs::{self, File, Metadata};
use std::io::{self, Read};
use std::os::unix::fs::{FileTypeExt, MetadataExt};

/// What stands around the contents of a record: quotes around six fields, five commas, CR LF.
const AROUND: usize = 6 * 2 + 5 + 2;
/// The longest acceptable row is a write of the last process and file, with ten digits each for offset and length.
const ROW_BYTES: usize = AROUND + digits(PROCESSES - 1) + "write".len() + digits(FILES - 1) + 10 + 10;
const HEADER_BYTES: usize = AROUND + "process".len() + "kind".len() + "file".len() + "offset".len() + "length".len() + "message".len();

/// How many digits a number from 1 on has.
const fn digits(n: u32) -> usize {
    n.ilog10() as usize + 1
}

/// The most bytes that an acceptable trace can have.
pub fn byte_limit(header: bool) -> usize {
    ROWS as usize * ROW_BYTES + if header { HEADER_BYTES } else { 0 }
}

/// A trace file with its rows, six numbers each.
pub struct Recording {
    pub name: String,
    pub text: Vec<u8>,
    pub header: bool,
    pub n: u32,
    pub rows: Vec<u32>,
    /// How many bytes the file has, and what was mended of them before they were put to the library.
    pub bytes: usize,
    pub mended: Doings,
}

impl Recording {
    /// A row's record as it stands in the file.
    pub fn record(&self, number: u32) -> &[u8] {
        record(&self.text, self.header, number)
    }

    /// The row of a number, from 1.
    pub fn row(&self, number: u32) -> Option<Row> {
        if number > self.n {
            return None;
        }
        Row::at(&self.rows, number.checked_sub(1)? as usize)
    }

    /// The rows with their numbers.
    pub fn all(&self) -> impl Iterator<Item = (u32, Row)> + '_ {
        (1..=self.n).filter_map(|k| Some((k, self.row(k)?)))
    }
}

/// Where the record at a place ends, and where the next one starts. A lone LF outside quotes ends it too and is part of it; well-formed
/// records have none.
fn record_end(text: &[u8], at: usize) -> (usize, usize) {
    let mut quoted = false;
    let mut cr = false;
    for (i, b) in text.iter().enumerate().skip(at) {
        match b {
            b'"' => quoted = !quoted,
            b'\n' if !quoted && cr => return (i - 1, i + 1),
            b'\n' if !quoted => return (i + 1, i + 1),
            _ => {}
        }
        cr = *b == b'\r';
    }
    (text.len(), text.len())
}

/// Where the record of a row starts, or that of the header for number 0. Those before it are well formed.
pub fn record_start(text: &[u8], header: bool, number: u32) -> usize {
    let skip = if header { number } else { number.saturating_sub(1) };
    (0..skip).fold(0, |at, _| record_end(text, at).1)
}

/// The record of a row, or of the header for number 0, without its line end. Those before it are well formed.
pub fn record(text: &[u8], header: bool, number: u32) -> &[u8] {
    let at = record_start(text, header, number);
    text.get(at..record_end(text, at).0).unwrap_or(&[])
}

// ---- Reading

/// How a trace is called in what is said of it.
pub fn name_of(source: &Source) -> String {
    match source {
        Source::Standard => "standard input".to_string(),
        Source::Path(path) => path_name(path),
    }
}

pub fn metadata(source: &Source) -> io::Result<Metadata> {
    match source {
        Source::Standard => standard::input().and_then(|f| f.metadata()),
        Source::Path(path) => fs::metadata(path),
    }
}

/// Whether both are one file, under whatever names.
pub fn same_file(a: &Metadata, b: &Metadata) -> bool {
    (a.dev(), a.ino()) == (b.dev(), b.ino())
}

/// Whether two traces come through one pipe: the bytes of the one would be taken for those of the other.
pub fn is_one_pipe(a: &Source, b: &Source) -> bool {
    let is_pipe = |m: &Metadata| m.file_type().is_fifo() || m.file_type().is_socket();
    matches!((metadata(a), metadata(b)), (Ok(a), Ok(b)) if is_pipe(&a) && same_file(&a, &b))
}

/// The bytes of a trace up to the limit, and one more if there are more. No error is taken for the end.
fn read_bytes(source: &Source, limit: usize) -> io::Result<Vec<u8>> {
    let file = match source {
        Source::Standard => standard::input()?,
        Source::Path(path) => File::open(path)?,
    };
    let mut text = Vec::new();
    file.take(limit as u64 + 1).read_to_end(&mut text)?;
    Ok(text)
}

/// The bytes of a trace, never more of them than an acceptable one can have and one. An error is a sentence.
pub fn read(input: &Input) -> Result<Vec<u8>, String> {
    read_bytes(&input.source, byte_limit(input.header)).map_err(|e| format!("cannot read {}: {e}", name_of(&input.source)))
}

/// How many times as many bytes a text that is mended may have, and how many more: two for each character, spaces, a mark.
const TIMES: usize = 4;
const MORE: usize = 64;

/// The bytes of a trace that is to be mended. One that goes on behind as many bytes as are mended is not read in part. An error is a sentence.
pub fn read_to_mend(input: &Input) -> Result<Vec<u8>, String> {
    let (name, limit) = (name_of(&input.source), TIMES * byte_limit(input.header) + MORE);
    let file = read_bytes(&input.source, limit).map_err(|e| format!("cannot read {name}: {e}"))?;
    match file.len() > limit {
        true => Err(format!("{name} has more than {limit} bytes; a trace that long is not mended")),
        false => Ok(file),
    }
}
