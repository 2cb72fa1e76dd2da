//! A record split into its fields as RFC 4180 says, to point at what is wrong with one that the library refuses.

/// The names of the six fields, in their order.
pub const NAMES: [&str; 6] = ["process", "kind", "file", "offset", "length", "message"];
pub const PROCESS: usize = 0;
pub const KIND: usize = 1;
pub const LENGTH: usize = 4;
pub const MESSAGE: usize = 5;

/// A field: where it starts and ends in the text, its quotes included, and what it holds.
pub struct Field {
    pub start: usize,
    pub end: usize,
    pub content: Vec<u8>,
}

/// What keeps a record from being well formed.
#[derive(Clone, Copy, Debug, PartialEq, Eq)]
pub enum Fault {
    /// A quote opens a field, and none closes it.
    NotClosed,
    /// A byte that no field can hold.
    NotText(u8),
    /// A quote in a field that does not start with one.
    QuoteInside,
    /// A byte behind a closing quote that is no comma and no line end.
    BehindQuote(u8),
    /// LF without CR before it.
    LineFeed,
    /// CR without LF behind it.
    CarriageReturn,
}

/// The fields of a record up to its end, or up to the place of a fault. The field with the fault is not among them.
pub struct Record {
    pub fields: Vec<Field>,
    pub end: usize,
    pub fault: Option<(usize, Fault)>,
}

/// What stands in a field outside quotes.
fn is_text(b: u8) -> bool {
    matches!(b, 0x20..=0x21 | 0x23..=0x2b | 0x2d..=0x7e)
}

/// The field in quotes that starts here.
fn quoted(text: &[u8], start: usize) -> Result<Field, (usize, Fault)> {
    let mut content = Vec::new();
    let mut i = start + 1;
    loop {
        match (text.get(i), text.get(i + 1)) {
            (None, _) => return Err((start, Fault::NotClosed)),
            (Some(b'"'), Some(b'"')) => {
                content.push(b'"');
                i += 2;
            }
            (Some(b'"'), _) => return Ok(Field { start, end: i + 1, content }),
            (Some(b), _) if is_text(*b) || b",\r\n".contains(b) => {
                content.push(*b);
                i += 1;
            }
            (Some(b), _) => return Err((i, Fault::NotText(*b))),
        }
    }
}

/// The field without quotes that starts here.
fn plain(text: &[u8], start: usize) -> Field {
    let rest = text.get(start..).unwrap_or(&[]);
    let length = rest.iter().position(|b| !is_text(*b)).unwrap_or(rest.len());
    Field { start, end: start + length, content: rest[..length].to_vec() }
}

/// What is wrong with the byte behind a field that is no comma and starts no line end.
fn fault_behind(b: u8, is_quoted: bool) -> Fault {
    match b {
        b'\n' => Fault::LineFeed,
        b'\r' => Fault::CarriageReturn,
        _ if is_quoted => Fault::BehindQuote(b),
        b'"' => Fault::QuoteInside,
        _ => Fault::NotText(b),
    }
}

/// The record that starts here.
pub fn split(text: &[u8], start: usize) -> Record {
    let mut fields = Vec::new();
    let mut at = start;
    loop {
        let is_quoted = text.get(at) == Some(&b'"');
        let field = match is_quoted {
            true => quoted(text, at),
            false => Ok(plain(text, at)),
        };
        let field = match field {
            Ok(field) => field,
            Err(fault) => return Record { fields, end: fault.0, fault: Some(fault) },
        };
        let end = field.end;
        match (text.get(end), text.get(end + 1)) {
            (Some(b','), _) => at = end + 1,
            (None, _) | (Some(b'\r'), Some(b'\n')) => {
                fields.push(field);
                return Record { fields, end, fault: None };
            }
            (Some(b), _) => return Record { fields, end, fault: Some((end, fault_behind(*b, is_quoted))) },
        }
        fields.push(field);
    }
}

/// The byte order mark of UTF-8.
pub const MARK: [u8; 3] = [0xef, 0xbb, 0xbf];

/// The line and the column of a byte, both from 1, as an editor shows them: CR LF, LF and CR each end a line, and a byte order mark has no column.
/// The header's line is counted.
pub fn line_and_column(text: &[u8], at: usize) -> (usize, usize) {
    let is_behind_mark = text.starts_with(&MARK) && at >= MARK.len();
    let (mut line, mut start) = (1, if is_behind_mark { MARK.len() } else { 0 });
    for (i, b) in text.iter().enumerate().take(at) {
        let ends = match b {
            b'\n' => true,
            b'\r' => text.get(i + 1) != Some(&b'\n'),
            _ => false,
        };
        if ends {
            line += 1;
            start = i + 1;
        }
    }
    (line, at.saturating_sub(start) + 1)
}
