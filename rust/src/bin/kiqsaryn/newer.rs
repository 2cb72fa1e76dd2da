//! Why a read does not get the bytes of the newer row that one plain file would give it. A reason is about the recorded order alone, and each can be
//! checked against the rules of the machine by itself; the words stand in `returned.rs`.
//!
//! The row of the plain file is the last write of the bytes before the read, so it is newer than the row that the read gets. Its process publishes it
//! with its first publishing row behind it. The reader takes over what is published with its last refreshing row before the read, save for bytes
//! that it has written itself and not yet published; behind that row it has not written the bytes again, since the newer row is the last write.

use crate::alike::Lacks;
use crate::explain::Rows;

/// What keeps the bytes of the newer row from the read. A row that publishes or refreshes is of the read's file and has one of the model's kinds; where
/// the model asks for none, it is the write or the read itself.
#[derive(Clone, Copy, Debug, PartialEq, Eq)]
pub enum Reason {
    /// Another process wrote the newer row and has no publishing row behind it.
    NeverPublished,
    /// Another process wrote the newer row, and its first publishing row behind it stands behind the read.
    PublishedLater { publish: u32 },
    /// `publish` publishes the newer row, of another process, before the read; the reader has no refreshing row before the read.
    NeverRefreshed { publish: u32 },
    /// `publish` publishes the newer row, of another process, before the read; `refresh`, the reader's last refreshing row before the read, stands before
    /// `publish`.
    RefreshedEarlier { publish: u32, refresh: u32 },
    /// `publish` publishes the newer row, of another process, before `refresh`, the reader's last refreshing row. The read gets the reader's own row,
    /// which is not yet published at `refresh`.
    OwnFirst { publish: u32, refresh: u32 },
    /// `publish` publishes the newer row; behind it, `over` publishes the row that the read gets; then, or with the same row, the reader refreshes.
    PublishedOver { publish: u32, over: u32, refresh: u32 },
}

/// Why the row numbered `read` gets bytes of the row `got`, 0 for bytes never written, and not of the row `newer`, which one plain file would give.
/// `None` where the machine gives the newer ones.
pub fn reason(rows: &Rows, lacks: &Lacks, read: u32, got: u32, newer: u32) -> Option<Reason> {
    let (reader, writer) = (rows.row(read)?.process, rows.row(newer)?.process);
    let is_own = reader == writer;
    let Some(publish) = lacks.publish(newer) else {
        return (!is_own).then_some(Reason::NeverPublished);
    };
    if publish > read {
        return (!is_own).then_some(Reason::PublishedLater { publish });
    }
    let Some(refresh) = lacks.refresh(read) else {
        return (!is_own).then_some(Reason::NeverRefreshed { publish });
    };
    if refresh < publish {
        return (!is_own).then_some(Reason::RefreshedEarlier { publish, refresh });
    }
    match lacks.publish(got) {
        Some(over) if publish < over && over <= refresh => Some(Reason::PublishedOver { publish, over, refresh }),
        Some(over) if over <= refresh => None,
        _ => (!is_own && rows.row(got)?.process == reader).then_some(Reason::OwnFirst { publish, refresh }),
    }
}
