//! What other programs do to a trace, and how `write` mends it where it is told to. Nothing but the bytes that an option names changes, and the
//! mended text goes to the library as any other.

use crate::args::Mend;
use crate::fields::MARK;
use crate::text::counted;

/// A habit of the programs that save a trace, in the order in which they are mended.
#[derive(Clone, Copy, PartialEq, Eq, Debug)]
pub enum Habit {
    Utf16,
    Mark,
    LineEnds,
    Semicolons,
    Tabs,
    Spaces,
    BlankEnd,
}

impl Habit {
    pub const ALL: [Habit; 7] =
        [Habit::Utf16, Habit::Mark, Habit::LineEnds, Habit::Semicolons, Habit::Tabs, Habit::Spaces, Habit::BlankEnd];

    /// The option of `write` that mends it.
    pub fn option(self) -> &'static str {
        match self {
            Habit::Utf16 => "--utf-16",
            Habit::Mark => "--mark",
            Habit::LineEnds => "--line-ends",
            Habit::Semicolons => "--semicolons",
            Habit::Tabs => "--tabs",
            Habit::Spaces => "--spaces",
            Habit::BlankEnd => "--blank-end",
        }
    }

    /// Where it is kept whether the option is said.
    fn slot(self, mend: &mut Mend) -> &mut bool {
        match self {
            Habit::Utf16 => &mut mend.utf16,
            Habit::Mark => &mut mend.mark,
            Habit::LineEnds => &mut mend.line_ends,
            Habit::Semicolons => &mut mend.semicolons,
            Habit::Tabs => &mut mend.tabs,
            Habit::Spaces => &mut mend.spaces,
            Habit::BlankEnd => &mut mend.blank_end,
        }
    }

    pub fn is_in(self, mend: Mend) -> bool {
        *self.slot(&mut { mend })
    }

    /// The options with this one among them.
    pub fn with(self, mut mend: Mend) -> Mend {
        *self.slot(&mut mend) = true;
        mend
    }

    /// What an option has changed so many times.
    fn counted(self, n: usize) -> String {
        let one = match self {
            Habit::Utf16 => "character of two bytes",
            Habit::Mark => "byte order mark",
            Habit::LineEnds => "line end",
            Habit::Semicolons => "semicolon",
            Habit::Tabs => "tab",
            Habit::Spaces => "place with spaces",
            Habit::BlankEnd => "blank line",
        };
        match (self, n) {
            (Habit::Utf16, 2..) => format!("{n} characters of two bytes"),
            (Habit::Spaces, 2..) => format!("{n} places with spaces"),
            _ => counted(n as u64, one),
        }
    }
}

/// What an option did: changes in so many places, or nothing, for a reason.
#[derive(Clone, PartialEq, Eq, Debug)]
pub enum Done {
    Places(usize),
    Not(String),
}

/// What each option that was said did, in the order in which they were applied.
pub type Doings = Vec<(Habit, Done)>;

/// "--line-ends: 7 line ends".
pub fn in_words((habit, done): &(Habit, Done)) -> String {
    match done {
        Done::Places(0) => format!("{}: there was none", habit.option()),
        Done::Places(n) => format!("{}: {}", habit.option(), habit.counted(*n)),
        Done::Not(why) => format!("{}: nothing is mended: {why}", habit.option()),
    }
}

/// A text as mended, and how it came from the bytes of the file.
pub struct Mended {
    pub file: Vec<u8>,
    pub text: Vec<u8>,
    pub options: Mend,
    pub done: Doings,
    /// The file's text before the mending of anything but UTF-16, and where each byte of the mended text comes from there.
    plain: Vec<u8>,
    from: Vec<usize>,
    /// Of a file in UTF-16 the bytes before its first character and for each character; else 0 and 1.
    unit: (usize, usize),
}

impl Mended {
    /// The file's text, in which lines and columns are counted, the place there of a byte of the mended text, and its byte in the file.
    pub fn origin(&self, at: usize) -> (&[u8], usize, usize) {
        let at = self.from.get(at).copied().unwrap_or(self.plain.len());
        (&self.plain, at, self.unit.0 + self.unit.1 * at)
    }

    /// How many lines of the file's text end in LF alone, and how many in CR alone.
    pub fn lone_ends(&self) -> [usize; 2] {
        let text: Traced = self.plain.iter().copied().zip(0..).collect();
        let quoted = quoted(&text);
        [b'\n', b'\r'].map(|end| (0..text.len()).filter(|i| text[*i].0 == end && !quoted[*i] && is_alone(&text, *i)).count())
    }
}

/// Bytes, each with the place that it comes from.
type Traced = Vec<(u8, usize)>;

/// Applies the options that are said, in their order.
pub fn mend(file: Vec<u8>, options: Mend) -> Mended {
    let mut done = Vec::new();
    let (plain, unit) = if options.utf16 {
        let (plain, unit, doing) = from_utf16(&file);
        done.push((Habit::Utf16, doing));
        (plain, unit)
    } else {
        (file.clone(), (0, 1))
    };
    let mut text: Traced = plain.iter().copied().zip(0..).collect();
    let has_comma = outside_quotes(&text).any(|(b, _)| b == b',');
    for habit in Habit::ALL.into_iter().filter(|h| *h != Habit::Utf16 && h.is_in(options)) {
        let doing = match habit {
            Habit::Utf16 => continue,
            Habit::Mark => Done::Places(drop_mark(&mut text)),
            Habit::LineEnds => Done::Places(mend_line_ends(&mut text)),
            Habit::Semicolons => take_for_commas(&mut text, b';', has_comma),
            Habit::Tabs => take_for_commas(&mut text, b'\t', has_comma),
            Habit::Spaces => Done::Places(drop_spaces(&mut text)),
            Habit::BlankEnd => Done::Places(drop_blank_end(&mut text)),
        };
        done.push((habit, doing));
    }
    let (text, from) = text.into_iter().unzip();
    Mended { file, text, options, done, plain, from, unit }
}

/// The habits that a text shows, as the options that mend them together, and those that cannot be mended. Of semicolons and tabs the more frequent
/// stand for commas.
pub fn recognized(file: &[u8]) -> (Mend, Doings) {
    let all = Habit::ALL.into_iter().fold(Mend::default(), |mend, habit| habit.with(mend));
    let many = |b: u8| file.iter().filter(|c| **c == b).count();
    let separator = if many(b'\t') > many(b';') { Mend { semicolons: false, ..all } } else { Mend { tabs: false, ..all } };
    let done = mend(file.to_vec(), separator).done;
    let shown = |(_, done): &&(Habit, Done)| matches!(done, Done::Places(n) if *n > 0);
    let mendable = done.iter().filter(shown).fold(Mend::default(), |mend, (habit, _)| habit.with(mend));
    let not: Doings = done.into_iter().filter(|(_, done)| matches!(done, Done::Not(_))).collect();
    // The bytes of a text in UTF-16 that stays as it is tell nothing about its line ends, commas and spaces.
    match not.first() {
        Some((Habit::Utf16, _)) => (Mend::default(), not),
        _ => (mendable, not),
    }
}

// ---- UTF-16

const MARK_LITTLE: [u8; 2] = [0xff, 0xfe];
const MARK_BIG: [u8; 2] = [0xfe, 0xff];

/// How many bytes of a text in UTF-16 stand before its first character, and whether the low byte of each is its first; none for another text.
fn utf16_form(file: &[u8]) -> Option<(usize, bool)> {
    let all_zero = |first: usize| file.len() >= 2 && file.iter().skip(first).step_by(2).all(|b| *b == 0);
    match file {
        _ if file.starts_with(&MARK_LITTLE) => Some((MARK_LITTLE.len(), true)),
        _ if file.starts_with(&MARK_BIG) => Some((MARK_BIG.len(), false)),
        _ if file.iter().all(|b| *b == 0) => None,
        _ if all_zero(1) => Some((0, true)),
        _ if all_zero(0) => Some((0, false)),
        _ => None,
    }
}

/// The plain text of a file in UTF-16, the bytes before its first character and for each, and what was done. A file that is no such text, or has a
/// character that is not plain ASCII, is left as it is.
fn from_utf16(file: &[u8]) -> (Vec<u8>, (usize, usize), Done) {
    let Some((lead, low_first)) = utf16_form(file) else {
        return (file.to_vec(), (0, 1), Done::Places(0));
    };
    let mut plain = Vec::new();
    for (pair, k) in file.get(lead..).unwrap_or(&[]).chunks(2).zip(0..) {
        match (pair, low_first) {
            ([b, 0], true) | ([0, b], false) if b.is_ascii() => plain.push(*b),
            _ => {
                let at: usize = lead + 2 * k;
                let why = match pair.len() {
                    1 => format!("byte {at} (from 0), the last one, is half a character"),
                    _ => format!("byte {at} (from 0) starts a character that is not plain ASCII"),
                };
                return (file.to_vec(), (0, 1), Done::Not(why));
            }
        }
    }
    let n = plain.len();
    (plain, (lead, 2), Done::Places(n))
}

// ---- The others

/// The bytes that stand outside quotes, and the quotes.
fn outside_quotes(text: &Traced) -> impl Iterator<Item = (u8, usize)> + '_ {
    text.iter().copied().zip(quoted(text)).filter(|(_, quoted)| !quoted).map(|(b, _)| b)
}

/// Whether each byte stands inside quotes.
fn quoted(text: &Traced) -> Vec<bool> {
    let mut inside = false;
    let step = |(b, _): &(u8, usize)| {
        let before = inside;
        inside ^= *b == b'"';
        before && inside
    };
    text.iter().map(step).collect()
}

fn drop_mark(text: &mut Traced) -> usize {
    let has_mark = text.iter().map(|(b, _)| *b).take(MARK.len()).eq(MARK);
    if has_mark {
        text.drain(..MARK.len());
    }
    usize::from(has_mark)
}

/// Whether a byte is LF without CR before it, or CR without LF behind it.
fn is_alone(text: &Traced, i: usize) -> bool {
    let byte = |k: Option<usize>| k.and_then(|k| text.get(k)).map(|(b, _)| *b);
    match byte(Some(i)) {
        Some(b'\n') => byte(i.checked_sub(1)) != Some(b'\r'),
        Some(b'\r') => byte(Some(i + 1)) != Some(b'\n'),
        _ => false,
    }
}

/// Puts CR LF for each LF without CR before it and each CR without LF behind it.
fn mend_line_ends(text: &mut Traced) -> usize {
    let quoted = quoted(text);
    let (mut mended, mut n) = (Traced::new(), 0);
    for (i, (b, from)) in text.iter().copied().enumerate() {
        if is_alone(text, i) && !quoted[i] {
            mended.extend([(b'\r', from), (b'\n', from)]);
            n += 1;
        } else {
            mended.push((b, from));
        }
    }
    *text = mended;
    n
}

/// Puts a comma for each of these bytes, where the text has had no comma.
fn take_for_commas(text: &mut Traced, separator: u8, has_comma: bool) -> Done {
    let quoted = quoted(text);
    let is_one = |(b, quoted): (u8, bool)| b == separator && !quoted;
    let n = text.iter().map(|(b, _)| *b).zip(quoted.iter().copied()).filter(|pair| is_one(*pair)).count();
    if n > 0 && has_comma {
        return Done::Not("commas stand outside quotes as well".to_string());
    }
    for ((b, _), quoted) in text.iter_mut().zip(quoted) {
        if is_one((*b, quoted)) {
            *b = b',';
        }
    }
    Done::Places(n)
}

/// Drops the spaces at the start and at the end of each field; how many runs of spaces there were.
fn drop_spaces(text: &mut Traced) -> usize {
    let quoted = quoted(text);
    let (mut kept, mut n, mut i) = (Traced::new(), 0, 0);
    while i < text.len() {
        let is_space = |k: usize| matches!(text.get(k), Some((b' ', _))) && !quoted[k];
        let end = (i..).find(|k| !is_space(*k)).unwrap_or(text.len());
        if end == i {
            kept.push(text[i]);
            i += 1;
            continue;
        }
        let (before, behind) = (kept.last().map(|(b, _)| *b), text.get(end).map(|(b, _)| *b));
        let bounds = |b: Option<u8>| b.is_none_or(|b| b",\r\n".contains(&b));
        // CR and LF with spaces between them are two line ends, and stay two.
        let parts_ends = (before, behind) == (Some(b'\r'), Some(b'\n'));
        if (bounds(before) || bounds(behind)) && !parts_ends {
            n += 1;
        } else {
            kept.extend_from_slice(&text[i..end]);
        }
        i = end;
    }
    *text = kept;
    n
}

/// Where each line starts.
fn line_starts(text: &Traced) -> Vec<usize> {
    let ends = |i: &usize| match text[*i].0 {
        b'\n' => true,
        b'\r' => text.get(*i + 1).is_none_or(|(b, _)| *b != b'\n'),
        _ => false,
    };
    std::iter::once(0).chain((0..text.len()).filter(ends).map(|i| i + 1)).filter(|start| *start < text.len()).collect()
}

/// Drops the lines at the end that hold spaces at most.
fn drop_blank_end(text: &mut Traced) -> usize {
    let quoted = quoted(text);
    let mut n = 0;
    for start in line_starts(text).into_iter().rev() {
        let is_blank = text[start..].iter().all(|(b, _)| b" \r\n".contains(b)) && !quoted[start];
        if !is_blank {
            break;
        }
        text.truncate(start);
        n += 1;
    }
    n
}
