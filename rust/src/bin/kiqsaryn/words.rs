//! An explanation in words.

use crate::explain::{publishing, refreshing, Claim, Explanation, Rows};
use crate::posted::Posted;
use kiqsaryn::{Model, Row, BARRIER, KINDS, READ, SEND};

/// The bytes that both rows touch, and the sentences of an explanation, each behind its label: what the pair would need to be in order,
/// what is found of it, what is missing, which receives are posted and not waited for in time, and how far the order reaches.
pub struct Words {
    pub shared: String,
    pub lines: Vec<(&'static str, String)>,
}

/// "close", "close or sync".
pub fn one_of(kinds: &[u32]) -> String {
    let names: Vec<&str> = kinds.iter().filter_map(|k| KINDS.get(*k as usize).copied()).collect();
    names.join(" or ")
}

fn kind_name(row: Row) -> &'static str {
    KINDS.get(row.kind as usize).copied().unwrap_or("row")
}

/// The row's kind, where it could be one of two.
pub fn which(rows: &Rows, number: u32, kinds: &[u32]) -> Option<String> {
    let row = rows.row(number)?;
    Some(if kinds.len() > 1 { format!(" ({})", kind_name(row)) } else { String::new() })
}

/// How a sentence names a row, by its number. It is asked once for each mention, in their order.
pub type Naming<'a> = dyn FnMut(u32) -> String + 'a;

fn needed(e: &Explanation, rows: &Rows, name: &mut Naming) -> Option<String> {
    let (x, y) = (rows.row(e.earlier)?, rows.row(e.later)?);
    let (p, q, f) = (x.process, y.process, e.file);
    let (a, b) = (name(e.earlier), name(e.later));
    if x.kind == READ {
        return Some(format!("{a}, a read, happens before {b}, a write."));
    }
    Some(match e.model {
        Model::Posix => format!("{a} happens before {b}."),
        Model::Commit => format!("process {p} commits file {f} after {a}, and that commit happens before {b}."),
        Model::Session => {
            let rows = format!("process {p} closes file {f} after {a}, process {q} opens it before {b}");
            format!("{rows}, and that close happens before that open.")
        }
        Model::MpiIo => {
            let rows = format!("process {p} closes or syncs file {f} after {a}, process {q} opens or syncs it before {b}");
            format!("{rows}, and the first of these happens before the second.")
        }
    })
}

/// That a row does not happen before another, and why.
fn not_before(from: u32, to: u32, rows: &Rows, name: &mut Naming) -> Option<String> {
    let no = format!("{} does not happen before {}", name(from), name(to));
    if from > to {
        return Some(format!("{no}: it stands behind it in the trace."));
    }
    let (p, q) = (rows.row(from)?.process, rows.row(to)?.process);
    let path = format!("no message or barrier leads from process {p} after {} to process {q} before {}", name(from), name(to));
    Some(format!("{no}: {path}, directly or through other processes."))
}

/// That a receive is posted and not waited for in time.
fn posted_only(posted: Posted, wait: Option<u32>, rows: &Rows, name: &mut Naming) -> Option<String> {
    let Row { process, message, .. } = rows.row(posted.recv)?;
    let receive = format!("{} posts a receive for message {message}, which {} sends", name(posted.recv), name(posted.send));
    let late = match wait {
        None => format!("no row of process {process} before {} waits for it", name(posted.before)),
        Some(wait) => format!("process {process} waits for it only at {}, behind {}", name(wait), name(posted.before)),
    };
    Some(format!("{receive}, and {late}: a posted receive gives no order by itself."))
}

/// A claim as a sentence.
fn sentence(claim: &Claim, e: &Explanation, rows: &Rows, name: &mut Naming) -> Option<(&'static str, String)> {
    let f = e.file;
    let (publish, refresh) = (one_of(publishing(e.model)), one_of(refreshing(e.model)));
    Some(match *claim {
        Claim::NoPublish { process, after } => {
            ("Missing", format!("process {process} has no {publish} of file {f} after {}.", name(after)))
        }
        Claim::FirstPublish { process, after, row } => {
            let kind = which(rows, row, publishing(e.model))?;
            let (after, row) = (name(after), name(row));
            ("Found", format!("process {process}'s first {publish} of file {f} after {after} is {row}{kind}."))
        }
        Claim::NoRefresh { process, before } => {
            ("Missing", format!("process {process} has no {refresh} of file {f} before {}.", name(before)))
        }
        Claim::LastRefresh { process, before, row } => {
            let kind = which(rows, row, refreshing(e.model))?;
            let (before, row) = (name(before), name(row));
            ("Found", format!("process {process}'s last {refresh} of file {f} before {before} is {row}{kind}."))
        }
        Claim::NotBefore { from, to } => ("Missing", not_before(from, to, rows, name)?),
        Claim::PostedOnly { posted, wait } => ("Posted", posted_only(posted, wait, rows, name)?),
        Claim::LastBefore { process, row, last: None } => ("Order", format!("no row of process {process} happens before {}.", name(row))),
        Claim::LastBefore { process, row, last: Some(last) } => {
            let r = rows.row(last)?;
            let what = match r.kind {
                SEND => format!("send of message {}", r.message),
                BARRIER => format!("arrival at barrier {}", r.message),
                _ => kind_name(r).to_string(),
            };
            let (row, last) = (name(row), name(last));
            ("Order", format!("the last row of process {process} that happens before {row} is {last} ({what})."))
        }
    })
}

pub fn words(e: &Explanation, rows: &Rows, name: &mut Naming) -> Option<Words> {
    let mut lines = vec![("Needed", needed(e, rows, name)?)];
    for claim in &e.claims {
        lines.push(sentence(claim, e, rows, name)?);
    }
    let (first, last) = e.shared;
    let n = u64::from(last.checked_sub(first)?) + 1;
    let shared = match n {
        1 => format!("byte {first} of file {}", e.file),
        _ => format!("bytes {first} to {last} of file {} ({n} bytes)", e.file),
    };
    Some(Words { shared, lines })
}
