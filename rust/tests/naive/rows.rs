//! Random rows of traces that are accepted, and barriers made wrong.

use super::barriers::processes;
use super::random::Random;
use super::PROCESSES;
use kiqsaryn::{Row, BARRIER, CLOSE, COMMIT, OPEN, READ, RECV, SEND, SYNC, WAIT, WRITE};

/// A message that is not yet waited for: its number, who has sent it, and who has posted a receive for it.
struct Message {
    number: u32,
    sender: Option<u32>,
    poster: Option<u32>,
}

/// Rows in the making, with the numbers of all messages and with those messages that are not yet waited for. `meets` has the places where all
/// processes meet at a barrier, whose rows are put in at the end; once in so many turns they do, or never for 0.
struct Rows<'a> {
    r: &'a mut Random,
    all: Vec<Row>,
    processes: Vec<u32>,
    files: Vec<u32>,
    base: u32,
    spread: u32,
    longest: u32,
    numbers: Vec<u32>,
    open: Vec<Message>,
    meets: Vec<usize>,
    meeting: u32,
}

impl Rows<'_> {
    fn new(r: &mut Random, process_limit: u32, most: u32) -> Rows<'_> {
        let fewest = if r.once_in(20) { 1 } else { 2 };
        let processes = (0..r.between(fewest, most.min(process_limit))).map(|_| r.below(process_limit)).collect();
        let files = (0..r.pick(&[1, 1, 2, 3])).map(|_| r.below(64)).collect();
        let base = if r.once_in(10) { u32::MAX - r.between(100, 300) } else { r.below(5) };
        let spread = r.pick(&[4, 16, 90]);
        let longest = r.pick(&[1, 5, 20]);
        let meeting = r.pick(&[0, 0, 4, 12, 30]);
        Rows {
            r,
            all: Vec::new(),
            processes,
            files,
            base,
            spread,
            longest,
            numbers: Vec::new(),
            open: Vec::new(),
            meets: Vec::new(),
            meeting,
        }
    }

    fn range(&mut self) -> (u32, u32) {
        if self.r.once_in(40) {
            return self.r.pick(&[(u32::MAX, 0), (0, u32::MAX), (u32::MAX - 1, 1), (0, 0), (u32::MAX - 7, 7)]);
        }
        let offset = self.base + self.r.below(self.spread);
        (offset, self.r.below(self.longest + 1).min(u32::MAX - offset))
    }

    fn data(&mut self, process: u32, file: u32) {
        let kind = self.r.pick(&[READ, WRITE]);
        let (offset, length) = self.range();
        self.all.push(Row { process, kind, file, offset, length, message: 0 });
    }

    fn sync(&mut self, process: u32, kind: u32, file: u32) {
        self.all.push(Row { process, kind, file, ..Row::default() });
    }

    /// A number that no message has so far.
    fn new_number(&mut self) -> u32 {
        let mut number = if self.r.once_in(2) { self.r.below(70) } else { self.r.below(65_536) };
        while self.numbers.contains(&number) {
            number = (number + 1) % 65_536;
        }
        self.numbers.push(number);
        number
    }

    fn talk(&mut self, process: u32, kind: u32, message: u32) {
        self.all.push(Row { process, kind, message, ..Row::default() });
    }

    /// Mostly a wait of a process for a message that it has posted and that is sent. Else the send or recv of a message that another process has
    /// posted or sent, or of a new one.
    fn loose_talk(&mut self, process: u32) {
        let can_wait = |m: &Message| m.poster == Some(process) && m.sender.is_some();
        if let Some(k) = self.open.iter().position(can_wait).filter(|_| !self.r.once_in(4)) {
            let message = self.open.remove(k);
            return self.talk(process, WAIT, message.number);
        }
        let has_begun = |m: &Message| match (m.sender, m.poster) {
            (Some(other), None) | (None, Some(other)) => other != process,
            _ => false,
        };
        let k = self.open.iter().position(has_begun).filter(|_| !self.r.once_in(3)).unwrap_or(self.open.len());
        if k == self.open.len() {
            let number = self.new_number();
            self.open.push(Message { number, sender: None, poster: None });
        }
        let posts = self.open[k].sender.is_some() || (self.open[k].poster.is_none() && self.r.once_in(2));
        if posts {
            self.open[k].poster = Some(process);
        } else {
            self.open[k].sender = Some(process);
        }
        self.talk(process, if posts { RECV } else { SEND }, self.open[k].number);
    }

    /// Now and then all processes meet.
    fn meet(&mut self) {
        if self.meeting > 0 && self.r.once_in(self.meeting) {
            self.meets.push(self.all.len());
        }
    }

    /// Any row of any process.
    fn loose(&mut self) {
        let process = self.r.pick(&self.processes);
        let file = self.r.pick(&self.files);
        match self.r.below(12) {
            0..=3 => self.data(process, file),
            4 | 5 => {
                let kind = self.r.between(COMMIT, SYNC);
                self.sync(process, kind, file);
            }
            _ => self.loose_talk(process),
        }
    }

    /// A file goes from its holder to the next process by a message or a barrier, with these of the rows that the models ask for; now and then one is
    /// left out. The receive is posted before or behind the send.
    fn hand_over(&mut self, holder: u32, file: u32, wanted: &[u32], slip: u32) -> u32 {
        let next = self.r.pick(&self.processes);
        if next == holder {
            return holder;
        }
        let by_barrier = self.meeting > 0 && self.r.once_in(2);
        let message = (!by_barrier && !self.r.once_in(slip)).then(|| self.new_number());
        let early = message.filter(|_| self.r.once_in(2));
        if let Some(message) = early {
            self.talk(next, RECV, message);
        }
        for kind in [COMMIT, CLOSE, SYNC] {
            if wanted.contains(&kind) && !self.r.once_in(slip) {
                self.sync(holder, kind, file);
            }
        }
        if by_barrier && !self.r.once_in(slip) {
            self.meets.push(self.all.len());
        }
        if let Some(message) = message {
            self.talk(holder, SEND, message);
            if early.is_none() {
                self.talk(next, RECV, message);
            }
            if self.r.once_in(slip) {
                self.open.push(Message { number: message, sender: Some(holder), poster: Some(next) });
            } else {
                self.talk(next, WAIT, message);
            }
        }
        for kind in [OPEN, SYNC] {
            if wanted.contains(&kind) && !self.r.once_in(slip) {
                self.sync(next, kind, file);
            }
        }
        next
    }

    fn orderly(&mut self, rows: usize) {
        let wanted = self.r.pick::<&[u32]>(&[&[COMMIT, CLOSE, OPEN, SYNC], &[COMMIT], &[CLOSE, OPEN], &[SYNC], &[COMMIT, CLOSE, OPEN]]);
        let slip = self.r.pick(&[4, 12, 40, 1000]);
        let hold = self.r.pick(&[2, 4]);
        let stray = self.r.pick(&[10, 50, 1000]);
        let mut holders: Vec<u32> = self.files.iter().map(|_| self.processes[0]).collect();
        while self.all.len() < rows {
            let k = self.r.place(holders.len());
            self.data(holders[k], self.files[k]);
            if self.r.once_in(hold) {
                holders[k] = self.hand_over(holders[k], self.files[k], wanted, slip);
            }
            if self.r.once_in(stray) {
                self.loose();
            }
        }
    }

    fn loosely(&mut self, rows: usize) {
        while self.all.len() < rows {
            self.loose();
            self.meet();
        }
    }

    /// The rows, so many without those of barriers, and all barriers for which there is room: at most so many rows together.
    fn made(mut self, rows: usize, most: usize) -> Vec<Row> {
        self.all.truncate(rows);
        let (processes, meets) = (processes(&self.all), std::mem::take(&mut self.meets));
        let (mut numbers, mut added) = (Vec::new(), 0);
        for place in meets.into_iter().filter(|place| *place <= rows) {
            if self.all.len() + processes.len() > most {
                break;
            }
            let number = barrier_number(self.r, &self.numbers, &numbers);
            numbers.push(number);
            put_barrier(self.r, &mut self.all, place + added, number, &processes);
            added += processes.len();
        }
        self.all
    }
}

/// A number that no barrier has so far, and that a message may have.
fn barrier_number(r: &mut Random, messages: &[u32], barriers: &[u32]) -> u32 {
    let mut number = if messages.is_empty() || r.once_in(2) { r.pick(&[0, 1, 2, 3, 65_535]) } else { r.pick(messages) };
    while barriers.contains(&number) {
        number = (number + 1) % 65_536;
    }
    number
}

/// Puts a row of a barrier for each process before a place, in any order: behind the last row of its process, and behind the barriers before.
fn put_barrier(r: &mut Random, rows: &mut Vec<Row>, place: usize, number: u32, processes: &[u32]) {
    let mut left = processes.to_vec();
    let mut end = place;
    while !left.is_empty() {
        let process = left.swap_remove(r.place(left.len()));
        let behind = |row: &Row| row.process == process || (row.kind == BARRIER && row.message != number);
        let least = rows[..end].iter().rposition(behind).map_or(0, |k| k + 1);
        let at = if r.once_in(2) { end } else { least + r.place(end - least + 1) };
        rows.insert(at, Row { process, kind: BARRIER, message: number, ..Row::default() });
        end += 1;
    }
}

/// A row of a barrier left out, repeated, moved, given another number or process; or all rows behind it left out, or a process that arrives nowhere.
pub fn damage_barrier(r: &mut Random, rows: &mut Vec<Row>) {
    let places: Vec<usize> = (0..rows.len()).filter(|k| rows[*k].kind == BARRIER).collect();
    if places.is_empty() {
        return;
    }
    let k = if r.once_in(3) { places[places.len() - 1] } else { r.pick(&places) };
    let row = rows[k];
    match r.below(10) {
        0 => drop(rows.remove(k)),
        1 | 2 => rows.insert(k + 1 + r.place(rows.len() - k), row),
        3 | 4 => {
            rows.remove(k);
            rows.insert(r.place(rows.len() + 1), row);
        }
        5 => rows[k].message = rows[r.pick(&places)].message.wrapping_add(r.below(2)) % 65_536,
        6 => rows[k].process = rows[r.place(rows.len())].process,
        7 | 8 => rows.truncate(k + r.place(2)),
        _ => {
            let process = r.below(row.process + 2);
            rows.insert(r.place(rows.len() + 1), Row { process, kind: COMMIT, ..Row::default() });
        }
    }
}

/// A long trace: many processes, wide files, so that most pairs do not meet, and few barriers.
fn long_rows(r: &mut Random, rows: usize) -> Vec<Row> {
    let mut making = Rows::new(r, PROCESSES, PROCESSES);
    while making.files.len() < 6 {
        making.files.push(making.files.len() as u32);
    }
    (making.base, making.spread, making.longest) = (0, 5_000, 4);
    (making.meeting, making.meets) = (0, vec![making.r.place(rows), rows]);
    making.meets.sort();
    if making.r.once_in(2) {
        making.orderly(rows);
    } else {
        making.loosely(rows);
    }
    making.made(rows, 4096)
}

/// Rows that are accepted, at most so many, and the process limit that they keep.
pub fn some_rows_within(r: &mut Random, most: usize) -> (Vec<Row>, u32) {
    if r.once_in(4000) {
        let n = r.between(500, 4096) as usize;
        return (long_rows(r, n.min(most)), PROCESSES);
    }
    let process_limit = r.pick(&[2, 3, 4, 8, PROCESSES]);
    let n = r.between(2, 60) as usize;
    let mut making = Rows::new(r, process_limit, 6);
    let n = n.min(if making.meeting > 0 { most / 2 } else { most });
    if making.r.once_in(2) {
        making.loosely(n);
    } else {
        making.orderly(n);
    }
    (making.made(n, most), process_limit)
}

/// Rows that are accepted, and the process limit that they keep.
pub fn some_rows(r: &mut Random) -> (Vec<Row>, u32) {
    some_rows_within(r, usize::MAX)
}

/// Six numbers for each row.
pub fn numbers(rows: &[Row]) -> Vec<u32> {
    rows.iter().flat_map(|r| [r.process, r.kind, r.file, r.offset, r.length, r.message]).collect()
}
