//! Every vector of `vectors/traces.txt` and `vectors/aimed.txt`, and the traces of `vectors/barrier.txt` and `vectors/limit48.txt`, call by call and in
//! one call: the answer and both slices whole, by the library and by the naive version. Then what a recv, a wait and a barrier mean, and calls whose
//! numbers do not fit.

#[allow(dead_code)]
mod naive;
#[allow(dead_code)]
mod vectors;

use kiqsaryn::{check_trace, fill_counts, judge, verdict, Checked, Judged, Model, Refusal, Settings, Verdict, PROCESSES};
use naive::order::{counts, first_race, Order};
use naive::reading::check;
use naive::rows::numbers;
use vectors::Line;

// ---- Vectors

/// A call with the numbers of a vector, what it answers, and what it leaves of the slices for rows and counts.
struct Call {
    line: String,
    s: Settings,
    text: Vec<u8>,
    fill: u32,
    want: Judged,
    rows: Vec<u32>,
    counts: Vec<u16>,
}

/// A slice that holds these numbers, then 0.
fn padded<T: TryFrom<u32> + Clone + Default>(front: &[u32], len: usize) -> Vec<T> {
    let mut all: Vec<T> = front.iter().map(|x| T::try_from(*x).unwrap_or_else(|_| panic!("{x} is too large"))).collect();
    all.resize(len, T::default());
    all
}

/// The answer of a line `A`.
fn answer_of(line: &Line) -> Judged {
    let v = |k: usize| line.number(k);
    match line.words[..] {
        ["A", "refused", _, _] => Judged::Refused { refusal: Refusal::from_number(v(2)).expect("a refusal"), place: v(3) },
        ["A", "accepted", _, "free"] => Judged::Free { rows: v(2) },
        ["A", "accepted", _, "race", _, _] => Judged::Race { rows: v(2), earlier: v(4), later: v(5) },
        _ => panic!("{line}: no answer"),
    }
}

impl Call {
    /// The call of a line `T` and of the lines behind it.
    fn new<'a>(line: Line, mut lines: impl Iterator<Item = Line<'a>>) -> Call {
        line.kind(&[("T", 11)]);
        let n = |k: usize| line.number(k);
        let byte_limit = if line.words[9] == "-" { usize::MAX } else { n(9) as usize };
        let s = Settings { header: n(2), model: n(3), row_limit: n(4), process_limit: n(5), byte_limit };
        let (rows_len, counts_len, fill) = (n(6) as usize, n(7) as usize, n(8));
        let want = answer_of(&lines.next().expect("an answer"));
        let mut numbers = |kind: &str| lines.next().expect("numbers").numbers(kind);
        let (rows, counts) = match want {
            Judged::Refused { refusal, .. } if refusal.number() <= 3 => (vec![fill; rows_len], vec![fill as u16; counts_len]),
            Judged::Refused { .. } => (vec![0; rows_len], vec![0; counts_len]),
            _ => (padded(&numbers("R"), rows_len), padded(&numbers("C"), counts_len)),
        };
        let (line, text) = (line.to_string(), line.bytes(10));
        Call { line, s, text, fill, want, rows, counts }
    }

    /// The slices before the call.
    fn lent(&self) -> (Vec<u32>, Vec<u16>) {
        (vec![self.fill; self.rows.len()], vec![self.fill as u16; self.counts.len()])
    }

    /// The library in one call.
    fn run_whole(&self) {
        let (mut rows, mut counts) = self.lent();
        assert_eq!(judge(&self.text, self.s, &mut rows, &mut counts), self.want, "the whole call on {}", self.line);
        assert_eq!(rows, self.rows, "rows of the whole call on {}", self.line);
        assert_eq!(counts, self.counts, "counts of the whole call on {}", self.line);
    }

    /// The library call by call: the rows, their counts and the verdict.
    fn run_parts(&self) {
        let (mut rows, mut counts) = self.lent();
        let got = check_trace(&self.text, self.s, &mut rows, &mut counts);
        assert_eq!(rows, self.rows, "rows of {}", self.line);
        let (n, want) = match self.want {
            Judged::Refused { refusal, place } => {
                assert_eq!(got, Checked::Refused { refusal, place }, "{}", self.line);
                assert_eq!(counts, self.counts, "counts of {}", self.line);
                return;
            }
            Judged::Free { rows } => (rows, Verdict::Free),
            Judged::Race { rows, earlier, later } => (rows, Verdict::Race { earlier, later }),
        };
        assert_eq!(got, Checked::Accepted(n), "{}", self.line);
        assert!(counts.iter().all(|x| *x == 0), "counts of {} are cleared", self.line);
        assert!(fill_counts(&rows, n, self.s.process_limit, &mut counts).is_ok(), "counts of {}", self.line);
        assert_eq!(counts, self.counts, "counts of {}", self.line);
        assert_eq!(verdict(&rows, n, self.s.process_limit, self.s.model, &mut counts), want, "verdict of {}", self.line);
        assert_eq!(counts, self.counts, "counts of the verdict of {}", self.line);
    }

    /// The naive version.
    fn run_naive(&self) {
        let rows = match check(&self.text, self.s, self.rows.len(), self.counts.len()) {
            Ok(rows) => rows,
            Err((number, place)) => {
                let refusal = Refusal::from_number(number).expect("a refusal");
                assert_eq!(Judged::Refused { refusal, place }, self.want, "the naive version on {}", self.line);
                return;
            }
        };
        let (n, order) = (rows.len() as u32, Order::of(&rows));
        let judged = match first_race(&rows, &order, self.s.model) {
            None => Judged::Free { rows: n },
            Some((earlier, later)) => Judged::Race { rows: n, earlier, later },
        };
        assert_eq!(judged, self.want, "the naive version on {}", self.line);
        let (numbers, counts) = (numbers(&rows), counts(&rows, &order, self.s.process_limit));
        assert_eq!(numbers, self.rows[..numbers.len()], "the naive version's rows of {}", self.line);
        assert_eq!(counts, self.counts[..counts.len()], "the naive version's counts of {}", self.line);
    }
}

/// Runs every vector of a file.
fn every_vector(file: &str, run_one: fn(&Call)) {
    let text = vectors::text(file);
    let mut lines = vectors::calls(file, &text, "T");
    let mut run = 0;
    while let Some(line) = lines.next() {
        run_one(&Call::new(line, &mut lines));
        run += 1;
    }
    vectors::all_run(file, &text, &["T"], run);
}

#[test]
fn every_trace_vector() {
    every_vector("traces.txt", Call::run_parts);
    every_vector("traces.txt", Call::run_whole);
}

#[test]
fn every_aimed_vector() {
    every_vector("aimed.txt", Call::run_parts);
    every_vector("aimed.txt", Call::run_whole);
}

#[test]
fn every_barrier_vector() {
    every_vector("barrier.txt", Call::run_parts);
    every_vector("barrier.txt", Call::run_whole);
}

#[test]
fn every_limit_vector() {
    every_vector("limit48.txt", Call::run_parts);
    every_vector("limit48.txt", Call::run_whole);
}

#[test]
fn every_vector_through_the_naive_version() {
    every_vector("traces.txt", Call::run_naive);
    every_vector("aimed.txt", Call::run_naive);
    every_vector("barrier.txt", Call::run_naive);
    every_vector("limit48.txt", Call::run_naive);
}

// ---- What a recv and a wait mean

const WRITE: &str = "0,write,1,0,10,\r\n";
const COMMIT: &str = "0,commit,1,,,\r\n";
const SEND: &str = "0,send,,,,7\r\n";
const RECV: &str = "1,recv,,,,7\r\n";
const WAIT: &str = "1,wait,,,,7\r\n";
const READ: &str = "1,read,1,5,10,\r\n";

/// Settings for a trace of at most eight rows without a header.
fn settings(model: Model) -> Settings {
    Settings { header: 0, model: model.number(), row_limit: 8, process_limit: 3, byte_limit: usize::MAX }
}

/// The first race of rows under each model.
fn races(rows: &[&str]) -> [Option<(u32, u32)>; 4] {
    Model::ALL.map(|model| match judge(rows.concat().as_bytes(), settings(model), &mut [7; 48], &mut [7; 24]) {
        Judged::Free { .. } => None,
        Judged::Race { earlier, later, .. } => Some((earlier, later)),
        refused => panic!("{refused:?} of {rows:?}"),
    })
}

/// The order runs from the send to the wait. Without a wait before the read, nothing orders the read behind the write.
#[test]
fn a_recv_gives_no_order_by_itself() {
    let all = |race: (u32, u32)| [Some(race); 4];
    let published_by_commit = |race: (u32, u32)| [None, None, Some(race), Some(race)];
    assert_eq!(races(&[WRITE, COMMIT, SEND, RECV, READ]), all((1, 5)));
    assert_eq!(races(&[WRITE, COMMIT, SEND, RECV, WAIT, READ]), published_by_commit((1, 6)));
    assert_eq!(races(&[WRITE, COMMIT, SEND, RECV, READ, WAIT]), all((1, 5)));
    // the receive is posted before its message is sent
    assert_eq!(races(&[RECV, WRITE, COMMIT, SEND, READ]), all((2, 5)));
    assert_eq!(races(&[RECV, WRITE, COMMIT, SEND, WAIT, READ]), published_by_commit((2, 6)));
    assert_eq!(races(&[RECV, SEND, WRITE, COMMIT, WAIT, READ]), all((3, 6)));
}

#[test]
fn the_counts_of_a_recv_and_of_its_wait() {
    let (mut rows, mut counts) = ([7; 48], [7; 24]);
    let text = [WRITE, SEND, RECV, WAIT].concat();
    assert_eq!(judge(text.as_bytes(), settings(Model::Posix), &mut rows, &mut counts), Judged::Free { rows: 4 });
    assert_eq!(counts[..12], [[1, 0, 0], [2, 0, 0], [0, 1, 0], [2, 2, 0]].concat());
    assert_eq!(rows[18..24], [1, 8, 0, 0, 0, 7]);
}

/// The text of rows of messages, each by its process, its kind's word and its message.
fn talks(rows: &[(u32, &str, u32)]) -> String {
    rows.iter().map(|(process, word, message)| format!("{process},{word},,,,{message}\r\n")).collect()
}

#[test]
fn a_receive_may_be_posted_early_and_need_not_be_over() {
    for rows in [
        &[(1, "recv", 7), (0, "send", 7), (1, "wait", 7)][..], // posted before it is sent
        &[(1, "recv", 7)],                                     // never sent
        &[(0, "send", 7), (1, "recv", 7)],                     // never waited for
        &[(1, "recv", 7), (0, "send", 7)],
        &[(1, "recv", 7), (1, "recv", 8), (0, "send", 8), (0, "send", 7), (1, "wait", 7), (1, "wait", 8)],
        &[(0, "recv", 7), (1, "recv", 8), (0, "send", 8), (1, "send", 7), (1, "wait", 8), (0, "wait", 7)],
    ] {
        let (mut lent, mut counts) = ([7; 48], [7; 24]);
        let got = check_trace(talks(rows).as_bytes(), settings(Model::Posix), &mut lent, &mut counts);
        assert_eq!(got, Checked::Accepted(rows.len() as u32), "{rows:?}");
    }
}

/// Each way in which a message can stand out of order is refused at the last row: with 12 at a send or recv, and with 21 at a wait.
#[test]
fn messages_out_of_order_are_refused() {
    for (rows, number) in [
        (&[(0, "send", 7), (1, "send", 7)][..], 12),                             // sent twice
        (&[(1, "recv", 7), (1, "send", 7)], 12),                                 // sent by the process that has posted it
        (&[(1, "recv", 7), (2, "recv", 7)], 12),                                 // posted twice
        (&[(0, "send", 7), (0, "recv", 7)], 12),                                 // posted by its sender
        (&[(0, "send", 7), (1, "wait", 7)], 21),                                 // not posted
        (&[(0, "send", 7), (2, "recv", 7), (1, "wait", 7)], 21),                 // posted by another process
        (&[(0, "send", 7), (1, "recv", 8), (1, "wait", 7)], 21),                 // another message is posted
        (&[(1, "recv", 7), (1, "wait", 7)], 21),                                 // not sent
        (&[(1, "recv", 7), (0, "send", 8), (1, "wait", 7)], 21),                 // another message is sent
        (&[(0, "send", 7), (1, "recv", 7), (1, "wait", 7), (1, "wait", 7)], 21), // waited for twice
        (&[(1, "wait", 7)], 21),                                                 // neither posted nor sent
        (&[(0, "send", 7), (1, "recv", 7), (1, "wait", 7), (0, "send", 7)], 12), // sent again
        (&[(0, "send", 7), (1, "recv", 7), (1, "wait", 7), (1, "recv", 7)], 12), // posted again
    ] {
        let (text, place) = (talks(rows), rows.len() as u32);
        let refusal = Refusal::from_number(number).expect("a refusal");
        let (mut lent, mut counts) = ([7; 48], [7; 24]);
        assert_eq!(
            check_trace(text.as_bytes(), settings(Model::Posix), &mut lent, &mut counts),
            Checked::Refused { refusal, place },
            "{text}"
        );
        assert!(lent == [0; 48] && counts == [0; 24], "{text}");
        assert_eq!(
            judge(text.as_bytes(), settings(Model::Commit), &mut [7; 48], &mut [7; 24]),
            Judged::Refused { refusal, place },
            "{text}"
        );
        let before = talks(&rows[..rows.len() - 1]);
        let got = check_trace(before.as_bytes(), settings(Model::Posix), &mut lent, &mut counts);
        assert_eq!(got, Checked::Accepted(place - 1), "the rows before, {text}");
    }
}

// ---- What a barrier means

/// Each row of a barrier comes before every row behind a row of that barrier, in any process; the place in the trace alone orders nothing.
#[test]
fn a_barrier_orders_what_is_before_it_and_what_is_behind_it() {
    let all = |race: (u32, u32)| [Some(race); 4];
    let published_by_commit = |race: (u32, u32)| [None, None, Some(race), Some(race)];
    let (own, other, third) = ("0,barrier,,,,7\r\n", "1,barrier,,,,7\r\n", "2,barrier,,,,7\r\n");
    assert_eq!(races(&[WRITE, COMMIT, own, other, READ]), published_by_commit((1, 5)));
    assert_eq!(races(&[WRITE, COMMIT, other, own, READ]), published_by_commit((1, 5)));
    assert_eq!(races(&[other, WRITE, COMMIT, own, READ]), published_by_commit((2, 5)));
    // committed behind the barrier, and written there
    assert_eq!(races(&[WRITE, own, other, COMMIT, READ]), [None, Some((1, 5)), Some((1, 5)), Some((1, 5))]);
    assert_eq!(races(&[own, other, WRITE, COMMIT, READ]), all((3, 5)));
    // read before the barrier: before the write is not ordered, behind it is
    assert_eq!(races(&[READ, other, WRITE, own]), all((1, 3)));
    assert_eq!(races(&[READ, other, own, WRITE]), [None; 4]);
    assert_eq!(races(&[WRITE, COMMIT, READ, own, other]), all((1, 3)));
    // a third process that only arrives
    assert_eq!(races(&[WRITE, COMMIT, own, other, third, READ]), published_by_commit((1, 6)));
    // session: the close before the barrier, the open behind it
    assert_eq!(races(&[WRITE, "0,close,1,,,\r\n", own, other, "1,open,1,,,\r\n", READ]), [None, Some((1, 6)), None, None]);
    assert_eq!(races(&[WRITE, "0,close,1,,,\r\n", own, "1,open,1,,,\r\n", other, READ]), [None, Some((1, 6)), Some((1, 6)), Some((1, 6))]);
}

#[test]
fn the_counts_of_barrier_rows() {
    let (mut rows, mut counts) = ([7; 48], [7; 24]);
    let text = "0,open,1,,,\r\n1,barrier,,,,65535\r\n0,barrier,,,,65535\r\n2,barrier,,,,65535\r\n1,sync,1,,,\r\n0,barrier,,,,0\r\n";
    let text = text.to_string() + "1,barrier,,,,0\r\n2,barrier,,,,0\r\n";
    assert_eq!(judge(text.as_bytes(), settings(Model::Posix), &mut rows, &mut counts), Judged::Free { rows: 8 });
    let first = [[1, 0, 0], [0, 1, 0], [2, 0, 0], [0, 0, 1]].concat();
    let second = [[2, 2, 1], [3, 1, 1], [2, 3, 1], [2, 1, 2]].concat();
    assert_eq!(counts[..], [first, second].concat());
    assert_eq!(rows[6..12], [1, 9, 0, 0, 0, 65_535]);
}

#[test]
fn barriers_that_all_pass_are_accepted() {
    for rows in [
        &[(0, "barrier", 7)][..],                                                                   // one process alone
        &[(0, "barrier", 7), (0, "barrier", 8), (0, "barrier", 6)],                                 // it passes each at once
        &[(0, "barrier", 7), (1, "barrier", 7)],                                                    // nobody goes on
        &[(0, "send", 7), (1, "recv", 7), (1, "wait", 7), (0, "barrier", 7), (1, "barrier", 7)],    // a message of the same number
        &[(1, "recv", 7), (0, "barrier", 7), (1, "barrier", 7), (0, "send", 7), (1, "wait", 7)],    // which is sent behind the barrier
        &[(0, "barrier", 7), (1, "send", 1), (2, "recv", 1), (2, "barrier", 7), (1, "barrier", 7)], // the others go on before they arrive
        &[(0, "barrier", 7), (1, "barrier", 7), (1, "barrier", 8), (0, "barrier", 8)],              // two, one behind the other
    ] {
        let (mut lent, mut counts) = ([7; 48], [7; 24]);
        let got = check_trace(talks(rows).as_bytes(), settings(Model::Posix), &mut lent, &mut counts);
        assert_eq!(got, Checked::Accepted(rows.len() as u32), "{rows:?}");
    }
}

/// The first row that repeats a barrier's number or goes on before all have arrived is refused, and without one the last row where a barrier is
/// unfinished. All processes with a row anywhere in the trace count.
#[test]
fn barriers_out_of_order_are_refused() {
    for (rows, place) in [
        (&[(0, "barrier", 7), (0, "barrier", 7)][..], 2), // repeated
        (&[(0, "barrier", 7), (1, "barrier", 7), (0, "barrier", 8), (1, "barrier", 8), (1, "barrier", 7)], 5), // repeated later
        (&[(0, "barrier", 7), (1, "barrier", 7), (1, "barrier", 7), (0, "barrier", 7)], 3), // the first that repeats
        (&[(0, "barrier", 7), (0, "send", 1), (1, "barrier", 7)], 2), // goes on before process 1 has arrived
        (&[(0, "barrier", 7), (0, "barrier", 8), (1, "barrier", 7), (1, "barrier", 8)], 2), // goes on to the next barrier
        (&[(0, "barrier", 7), (1, "barrier", 7), (0, "send", 1), (2, "recv", 1), (2, "barrier", 7)], 3), // a process that comes later
        (&[(2, "recv", 1), (0, "barrier", 7), (1, "barrier", 7), (0, "send", 1)], 4), // a process that does not arrive
        (&[(0, "barrier", 7), (1, "barrier", 8), (1, "barrier", 7), (0, "barrier", 8)], 3), // they meet at different barriers
        (&[(0, "barrier", 7), (1, "send", 1)], 2),        // unfinished
        (&[(1, "send", 1), (0, "barrier", 7)], 2),        // unfinished, at its own row
        (&[(0, "barrier", 7), (1, "barrier", 8)], 2),     // two unfinished
        (&[(0, "barrier", 7), (1, "send", 1), (1, "send", 2), (1, "send", 3)], 4), // unfinished: the last row, not the last arrival
        (&[(0, "send", 7), (1, "recv", 7), (1, "barrier", 7), (1, "wait", 7)], 4), // a send is no arrival
    ] {
        let (text, refusal) = (talks(rows), Refusal::from_number(22).expect("a refusal"));
        let (mut lent, mut counts) = ([7; 48], [7; 24]);
        let want = Checked::Refused { refusal, place };
        assert_eq!(check_trace(text.as_bytes(), settings(Model::Posix), &mut lent, &mut counts), want, "{text}");
        assert!(lent == [0; 48] && counts == [0; 24], "{text}");
        let want = Judged::Refused { refusal, place };
        assert_eq!(judge(text.as_bytes(), settings(Model::Commit), &mut [7; 48], &mut [7; 24]), want, "{text}");
        // A record behind that is refused for itself comes first.
        for (more, number) in
            [("0,barrier,,,,\r\n", 9), ("2,wait,,,,9\r\n", 21), ("0,barrier,1,,,7\r\n", 9), ("0,barrier,,,,65536\r\n", 10)]
        {
            let want = Checked::Refused { refusal: Refusal::from_number(number).expect("a refusal"), place: rows.len() as u32 + 1 };
            let text = text.clone() + more;
            assert_eq!(check_trace(text.as_bytes(), settings(Model::Posix), &mut lent, &mut counts), want, "{text}");
        }
    }
}

// ---- Calls whose numbers do not fit

#[test]
fn counts_of_wild_arguments_are_refused() {
    let mut rows = vec![0u32; 6 * 4097];
    rows[6] = 3;
    let wild = [
        // 1: a slice is too short, whatever else is wrong
        (4098, 1, 5000, 1),
        (2, 5, 9, 1),
        (u32::MAX, u32::MAX, 9, 1),
        (u32::MAX, 0, 9, 1),
        (2, u32::MAX, 9, 1),
        // 2: too many rows, or a process limit out of its range
        (4097, 1, 4097, 2),
        (2, 0, 9, 2),
        (0, 0, 0, 2),
        (2, PROCESSES + 1, 2 * (PROCESSES as usize + 1), 2),
        (0, u32::MAX, 0, 2),
        // 10: the process of row 2 is 3
        (2, 1, 2, 10),
        (2, 3, 9, 10),
    ];
    for (n, processes, len, number) in wild {
        let mut counts = vec![7u16; len];
        let got = fill_counts(&rows, n, processes, &mut counts);
        assert_eq!(got.map_err(Refusal::number), Err(number), "{n} rows, {processes} processes, {len} counts");
        assert!(counts.iter().all(|x| *x == 7));
    }
    let mut counts = [7u16; 9];
    assert_eq!(fill_counts(&rows, 2, 4, &mut counts), Ok(()));
    assert_eq!(counts, [1, 0, 0, 0, 0, 0, 0, 1, 0]);
    assert_eq!(fill_counts(&rows, 0, 1, &mut counts), Ok(()));
    assert_eq!(counts, [0; 9]);
}

#[test]
fn verdicts_on_wild_arguments_are_refused() {
    let rows = [0u32, 1, 0, 0, 1, 0, 5, 1, 0, 0, 1, 0];
    let wild = [
        // 1: a slice is too short, whatever else is wrong
        (3, 6, 0, 18, 1),
        (2, 6, 0, 11, 1),
        (4097, 1, 4, 9, 1),
        (2, PROCESSES + 1, u32::MAX, 2 * PROCESSES as usize + 1, 1),
        // 2: the model or a limit is out of its range
        (2, 6, 4, 12, 2),
        (2, 5, 4, 10, 2),
        (2, PROCESSES + 1, 0, 200, 2),
        (2, 0, 0, 12, 2),
        (0, 0, 0, 0, 2),
        // 10: the process of row 2 is 5
        (2, 5, 0, 10, 10),
        (2, 1, 3, 2, 10),
    ];
    for (n, processes, model, len, number) in wild {
        let mut counts = vec![7u16; len];
        let want = Verdict::Refused(Refusal::from_number(number).expect("a refusal"));
        let got = verdict(&rows, n, processes, model, &mut counts);
        assert_eq!(got, want, "{n} rows, {processes} processes, model {model}, {len} counts");
        assert!(counts.iter().all(|x| *x == 7));
    }
    let mut counts = [7u16; 12];
    assert_eq!(verdict(&rows, 2, 6, 0, &mut counts), Verdict::Race { earlier: 1, later: 2 });
    assert_eq!(verdict(&rows, 1, 6, 0, &mut counts), Verdict::Free);
}

#[test]
fn whole_calls_of_wild_arguments_are_refused() {
    let good = Settings { header: 0, model: 0, row_limit: 2, process_limit: 3, byte_limit: usize::MAX };
    let wild = [
        // 1: a slice is too short, whatever else is wrong
        (Settings { row_limit: 3, process_limit: 0, ..good }, 1),
        (Settings { process_limit: 4, model: 4, ..good }, 1),
        (Settings { row_limit: u32::MAX, process_limit: u32::MAX, ..good }, 1),
        // 2: the model or a limit is out of its range
        (Settings { model: 4, header: 2, ..good }, 2),
        (Settings { row_limit: 0, ..good }, 2),
        (Settings { process_limit: 0, ..good }, 2),
        // 3: the header word is neither 0 nor 1
        (Settings { header: 2, ..good }, 3),
    ];
    for (settings, number) in wild {
        let (mut rows, mut counts) = ([7u32; 12], [7u16; 6]);
        let want = Judged::Refused { refusal: Refusal::from_number(number).expect("a refusal"), place: 0 };
        assert_eq!(judge(b"0,write,0,0,1,\r\n", settings, &mut rows, &mut counts), want, "{settings:?}");
        assert!(rows.iter().all(|x| *x == 7) && counts.iter().all(|x| *x == 7));
    }
    let (mut rows, mut counts) = ([7u32; 12], [7u16; 6]);
    let text = b"0,write,0,0,1,\r\n2,write,0,0,1,";
    assert_eq!(judge(text, good, &mut rows, &mut counts), Judged::Race { rows: 2, earlier: 1, later: 2 });
    assert_eq!(rows, [0, 1, 0, 0, 1, 0, 2, 1, 0, 0, 1, 0]);
    assert_eq!(counts, [1, 0, 0, 0, 0, 1]);
}
