//! The rows that a message out of order (refusals 12 and 21) is about, in words. The library alone decides that it is out of order.

use crate::text::{describe, labelled};
use kiqsaryn::{Row, RECV, SEND, WAIT};

/// A row with its number, and what stands behind the number: of a join " (row 3 of second.csv)".
pub struct Numbered {
    pub number: u32,
    pub own: String,
    pub row: Row,
}

/// The refused row, the rows before it, and those behind it with their names, as far as they are known.
pub struct Around {
    pub row: Row,
    pub before: Vec<Numbered>,
    pub behind: Vec<(String, Row)>,
}

impl Around {
    /// Whether another row is about the same message.
    fn shares(&self, other: Row) -> bool {
        [SEND, RECV, WAIT].contains(&other.kind) && other.message == self.row.message
    }

    /// The row before, of a kind, that has the message. There is at most one, since all rows before are accepted.
    fn earlier(&self, kind: u32) -> Option<&Numbered> {
        self.before.iter().find(|b| self.shares(b.row) && b.row.kind == kind)
    }

    /// The row before, of a kind and of the refused row's process, that has the message.
    fn earlier_own(&self, kind: u32) -> Option<&Numbered> {
        self.earlier(kind).filter(|b| b.row.process == self.row.process)
    }

    /// That no row before does something with the message, and which row behind does.
    fn none_before(&self, kind: u32, does: &str) -> String {
        let none = format!("no row before it {does} message {}", self.row.message);
        match self.behind.iter().find(|(_, r)| self.shares(*r) && r.kind == kind) {
            None => format!("{none}."),
            Some((name, _)) => format!("{none}; {name} does, behind it."),
        }
    }

    /// 12: what is wrong with a send, or with a recv: an earlier row does the same, or one of its process does what another should.
    fn wrong_end(&self, does: &str, other: u32, other_does: &str) -> Vec<String> {
        let Row { process, kind, message, .. } = self.row;
        let again = self.earlier(kind).map(|b| format!("row {} {does} message {message} already.", b.number));
        let to_itself = self.earlier_own(other).map(|b| {
            let itself = format!("process {process} {other_does} message {message} itself, at row {}", b.number);
            format!("{itself}: a message goes from one process to another.")
        });
        again.into_iter().chain(to_itself).collect()
    }

    /// 21: what is wrong with a wait.
    fn wrong_wait(&self) -> Vec<String> {
        let Row { process, message, .. } = self.row;
        let not_posted = match (self.earlier_own(RECV), self.earlier(RECV)) {
            (Some(_), _) => None,
            (None, None) => Some(self.none_before(RECV, "posts a receive for")),
            (None, Some(b)) => {
                let other = format!("process {} does, at row {}", b.row.process, b.number);
                Some(format!("process {process} posts no receive for message {message} before it; {other}."))
            }
        };
        let not_sent = self.earlier(SEND).is_none().then(|| self.none_before(SEND, "sends"));
        let again = self.earlier(WAIT).map(|b| format!("row {} waits for message {message} already.", b.number));
        not_posted.into_iter().chain(not_sent).chain(again).collect()
    }

    /// What is wrong with the row, in sentences.
    pub fn wrong(&self) -> Vec<String> {
        match self.row.kind {
            SEND => self.wrong_end("sends", RECV, "posts the receive for"),
            RECV => self.wrong_end("posts a receive for", SEND, "sends"),
            _ => self.wrong_wait(),
        }
    }

    /// The rows before that have the message, on a line each, and what is wrong.
    pub fn report(&self) -> String {
        let mut s = String::new();
        for b in self.before.iter().filter(|b| self.shares(b.row)) {
            s.push_str(&labelled("  before it:   ", &format!("row {}{}: {}", b.number, b.own, describe(b.row))));
        }
        self.wrong().iter().for_each(|note| s.push_str(&labelled("  note:        ", note)));
        s
    }
}
