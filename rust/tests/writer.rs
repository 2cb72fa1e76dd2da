//! Every vector of `vectors/writer.txt`, and the writings of `vectors/barrier.txt` and `vectors/aimed_joins.txt`: the answer, and every byte of the lent
//! slice, by the library and by the naive version. Then calls whose numbers do not fit the slices, messages and barriers in order and out of order,
//! and the longest lines.

#[allow(dead_code)]
mod naive;
#[allow(dead_code)]
mod vectors;

use kiqsaryn::{check_trace, write, Checked, Refusal, Settings, Written, HEADER_LINE, KINDS, LONGEST_LINE, PROCESSES, ROWS};
use kiqsaryn::{BARRIER, RECV, SEND, WAIT, WRITE};
use naive::writing;

/// The words of a line `W` before its rows.
const BEFORE_ROWS: usize = 8;

/// What a slice of this length holds once a text stands in it from a place on, and `fill` everywhere else.
fn laid(text: &[u8], place: usize, len: usize, fill: u8) -> Vec<u8> {
    let mut all = vec![fill; len];
    all[place..place + text.len()].copy_from_slice(text);
    all
}

fn refused(number: u32, place: u32) -> Written {
    Written::Refused { refusal: Refusal::from_number(number).expect("a refusal"), place }
}

/// Writes rows as the library does.
type Write = fn(&[u32], u32, u32, u32, &mut [u8], usize) -> Written;

/// The files of vectors that have writings.
const FILES: [&str; 3] = ["writer.txt", "barrier.txt", "aimed_joins.txt"];

/// Runs every vector of a file through one version.
fn every_vector(file: &str, version: Write) {
    let text = vectors::text(file);
    let mut lines = vectors::calls(file, &text, "W");
    let mut run = 0;
    while let Some(line) = lines.next() {
        assert!(line.words[0] == "W" && line.words.len() > BEFORE_ROWS, "{line}: no call");
        let n = |k: usize| line.number(k);
        let (count, header, process_limit, place, out_len, fill) = (n(2), n(3), n(4), n(5) as usize, n(6) as usize, n(7) as u8);
        let rows = line.numbers_from(BEFORE_ROWS);
        let mut out = vec![fill; out_len];
        let got = version(&rows, count, header, process_limit, &mut out, place);

        let answer = lines.next().expect("an answer");
        let (want, left) = match answer.words[..] {
            ["A", "written", _, _] => (Written::Length(answer.number(2) as usize), laid(&answer.bytes(3), place, out_len, fill)),
            ["A", "refused", _, _] => (refused(answer.number(2), answer.number(3)), vec![fill; out_len]),
            _ => panic!("{answer}: no answer"),
        };
        assert_eq!(got, want, "{line}");
        assert!(out == left, "the slice after {line}: {}", out.escape_ascii());
        run += 1;
    }
    vectors::all_run(file, &text, &["W"], run);
}

#[test]
fn every_writer_vector() {
    FILES.iter().for_each(|file| every_vector(file, write));
}

#[test]
fn every_writer_vector_through_the_naive_version() {
    let naive: Write = |rows, n, header, process_limit, out, place| match writing::write(rows, n, header, process_limit, out, place) {
        Ok(length) => Written::Length(length),
        Err((number, place)) => refused(number, place),
    };
    FILES.iter().for_each(|file| every_vector(file, naive));
}

// ---- Calls whose numbers do not fit

/// Two rows that are written: process 5 sends message 9, and process 6 posts a receive for it.
const TWO: [u32; 12] = [5, SEND, 0, 0, 0, 9, 6, RECV, 0, 0, 0, 9];
const TWO_TEXT: &[u8] = b"5,send,,,,9\r\n6,recv,,,,9\r\n";
const ONE_TEXT: &[u8] = b"5,send,,,,9\r\n";
const HEADER: &[u8; HEADER_LINE] = b"process,kind,file,offset,length,message\r\n";

/// The length of the lent slice.
const OUT: usize = 100;

/// Zeros for one row more than can be written.
static MANY: [u32; 6 * (ROWS as usize + 1)] = [0; 6 * (ROWS as usize + 1)];

/// The rows' numbers, how many rows, the header word, the process limit and the place of a call, and its refusal.
type Wild<'a> = (&'a [u32], u32, u32, u32, usize, u32);

#[test]
fn calls_that_do_not_fit_are_refused() {
    let wild: &[Wild] = &[
        // 1: fewer than six numbers a row, whatever else is wrong
        (&TWO, 3, 0, PROCESSES, 0, 1),
        (&TWO[..11], 2, 0, PROCESSES, 0, 1),
        (&[], 1, 2, 0, usize::MAX, 1),
        (&TWO, u32::MAX, 0, PROCESSES, 0, 1),
        (&TWO, u32::MAX, u32::MAX, u32::MAX, usize::MAX, 1),
        (&MANY, ROWS + 2, 2, PROCESSES + 1, 0, 1),
        (&TWO, 0x2AAA_AAAB, 0, PROCESSES, 0, 1), // 6 times as many are 2 in 32 bits
        // 2: a process limit out of its range, or more than 4,096 rows
        (&TWO, 2, 2, 0, usize::MAX, 2),
        (&TWO, 2, 2, PROCESSES + 1, usize::MAX, 2),
        (&TWO, 2, 0, u32::MAX, 0, 2),
        (&[], 0, 0, 0, 0, 2),
        (&MANY, ROWS + 1, 2, PROCESSES, usize::MAX, 2),
        // 3: a header word past 1, before any row is looked at
        (&[9; 6], 1, 2, PROCESSES, usize::MAX, 3),
        (&TWO, 2, u32::MAX, PROCESSES, 0, 3),
        // 18: a place past the end, or too few bytes behind it
        (&TWO, 2, 0, PROCESSES, usize::MAX, 18),
        (&TWO, 2, 1, PROCESSES, usize::MAX - 1, 18),
        (&TWO, 2, 0, PROCESSES, usize::MAX - TWO_TEXT.len() + 1, 18),
        (&TWO, 2, 0, PROCESSES, OUT + 1, 18),
        (&TWO, 2, 0, PROCESSES, OUT, 18),
        (&TWO, 2, 0, PROCESSES, OUT - TWO_TEXT.len() + 1, 18),
        (&[], 0, 0, 1, OUT + 1, 18),
        (&[], 0, 0, 1, usize::MAX, 18),
        (&[], 0, 1, 1, OUT - HEADER_LINE + 1, 18),
    ];
    for (rows, n, header, process_limit, place, number) in wild {
        let mut out = [7; OUT];
        let got = write(rows, *n, *header, *process_limit, &mut out, *place);
        let told = format!("{} numbers, {n} rows, header {header}, {process_limit} processes, place {place}", rows.len());
        assert_eq!(got, refused(*number, 0), "{told}");
        assert!(out == [7; OUT], "{told}");
    }
}

#[test]
fn what_fits_exactly_is_written() {
    for (rows, n, header, place, text) in [
        (&TWO[..], 2, 0, OUT - TWO_TEXT.len(), TWO_TEXT),
        (&TWO, 2, 0, 0, TWO_TEXT),
        (&TWO, 1, 0, OUT - ONE_TEXT.len(), ONE_TEXT),
        (&TWO, 0, 1, OUT - HEADER_LINE, HEADER),
        (&TWO, 0, 0, OUT, b""),
        (&[], 0, 0, 0, b""),
    ] {
        let mut out = [7; OUT];
        assert_eq!(write(rows, n, header, 7, &mut out, place), Written::Length(text.len()), "{n} rows at {place}");
        assert!(out[..] == laid(text, place, OUT, 7), "{n} rows at {place}");
    }
    assert_eq!(write(&[], 0, 0, 1, &mut [], 0), Written::Length(0));
}

/// Rows behind the count are neither asked nor written, whatever they hold.
#[test]
fn rows_behind_the_count_are_not_looked_at() {
    let unknown = [0, 99, 0, 0, 0, 0];
    for n in 0..4 {
        let rows = [[0; 6].repeat(n), unknown.to_vec()].concat();
        let text = b"0,read,0,0,0,\r\n".repeat(n);
        let mut out = [7; OUT];
        assert_eq!(write(&rows, n as u32, 0, 1, &mut out, 0), Written::Length(text.len()), "{n} rows");
        assert!(out[..] == laid(&text, 0, OUT, 7), "{n} rows");
        assert_eq!(write(&rows, n as u32 + 1, 0, 1, &mut out, 0), refused(8, n as u32 + 1), "{n} rows and one of an unknown kind");
    }
}

/// Six numbers for each row of a message: its process, its kind and its message.
fn talks(rows: &[(u32, u32, u32)]) -> Vec<u32> {
    rows.iter().flat_map(|(process, kind, message)| [*process, *kind, 0, 0, 0, *message]).collect()
}

/// Rows of messages and barriers in each order that is accepted are written, and read again as the same rows.
#[test]
fn messages_and_barriers_in_order_are_written() {
    for rows in [
        &[(0, SEND, 7), (1, RECV, 7), (1, WAIT, 7)][..],
        &[(1, RECV, 7), (0, SEND, 7), (1, WAIT, 7)], // posted before it is sent
        &[(1, RECV, 7), (0, SEND, 7)],               // never waited for
        &[(1, RECV, 7), (0, SEND, 8)],               // never sent
        &[(1, BARRIER, 7), (1, BARRIER, 65_535)],    // one process alone
        &[(1, RECV, 7), (1, BARRIER, 7), (0, SEND, 7), (0, BARRIER, 7), (1, WAIT, 7)],
    ] {
        let n = rows.len();
        let text: String =
            rows.iter().map(|(process, kind, message)| format!("{process},{},,,,{message}\r\n", KINDS[*kind as usize])).collect();
        let mut out = [7; OUT];
        assert_eq!(write(&talks(rows), n as u32, 0, 2, &mut out, 3), Written::Length(text.len()), "{rows:?}");
        assert!(out[..] == laid(text.as_bytes(), 3, OUT, 7), "{rows:?}");
        let (mut read, mut counts) = (vec![9; 6 * n], vec![9; 2 * n]);
        let s = Settings { header: 0, model: 0, row_limit: n as u32, process_limit: 2, byte_limit: usize::MAX };
        assert_eq!(check_trace(text.as_bytes(), s, &mut read, &mut counts), Checked::Accepted(n as u32), "{rows:?}");
        assert_eq!(read, talks(rows));
    }
}

/// Each way in which a message can stand out of order is refused at its row: with 12 at a send or recv, and with 21 at a wait.
#[test]
fn messages_out_of_order_are_refused() {
    for (rows, number) in [
        (&[(0, SEND, 7), (1, SEND, 7)][..], 12),                         // sent twice
        (&[(0, SEND, 7), (1, RECV, 7), (0, SEND, 7)], 12),               // sent again once it is posted
        (&[(1, RECV, 7), (1, SEND, 7)], 12),                             // sent by the process that has posted it
        (&[(0, SEND, 7), (0, RECV, 7)], 12),                             // posted by its sender
        (&[(0, SEND, 7), (1, RECV, 7), (2, RECV, 7)], 12),               // posted twice, by two processes
        (&[(1, RECV, 7), (1, RECV, 7)], 12),                             // posted twice by one process
        (&[(0, SEND, 7), (1, RECV, 7), (1, WAIT, 7), (1, RECV, 7)], 12), // posted again once it is waited for
        (&[(0, SEND, 7), (1, RECV, 8), (1, WAIT, 7)], 21),               // not posted
        (&[(0, SEND, 7), (2, RECV, 7), (1, WAIT, 7)], 21),               // posted by another process
        (&[(1, RECV, 7), (0, SEND, 8), (1, WAIT, 7)], 21),               // not sent
        (&[(0, SEND, 7), (1, RECV, 7), (1, WAIT, 7), (1, WAIT, 7)], 21), // waited for twice
        (&[(0, SEND, 7), (1, RECV, 7), (1, WAIT, 7), (0, WAIT, 7)], 21), // waited for again by another process
    ] {
        let (numbers, place) = (talks(rows), rows.len() as u32);
        let mut out = [7; OUT];
        assert_eq!(write(&numbers, place, 0, 3, &mut out, 0), refused(number, place), "{rows:?}");
        assert!(out == [7; OUT], "{rows:?}");
        assert!(matches!(write(&numbers, place - 1, 0, 3, &mut out, 0), Written::Length(_)), "the rows before, {rows:?}");
    }
}

/// Barriers out of order are refused once every row has passed the other questions, and before the text is fitted in.
#[test]
fn barriers_out_of_order_are_refused() {
    for (rows, place) in [
        (&[(0, BARRIER, 7), (0, BARRIER, 7), (0, SEND, 1)][..], 2),           // repeated
        (&[(0, BARRIER, 7), (0, SEND, 1), (1, BARRIER, 7)], 2),               // goes on before process 1 has arrived
        (&[(0, BARRIER, 7), (1, BARRIER, 7), (0, SEND, 1), (2, RECV, 1)], 3), // and before process 2 has, which comes later
        (&[(0, BARRIER, 7), (1, SEND, 1), (1, SEND, 2)], 3),                  // unfinished at the end
        (&[(0, BARRIER, 7), (1, BARRIER, 8)], 2),                             // two unfinished
    ] {
        let (numbers, n) = (talks(rows), rows.len() as u32);
        for place_in_out in [0, OUT - 1, OUT + 1, usize::MAX] {
            let mut out = [7; OUT];
            assert_eq!(write(&numbers, n, 1, 3, &mut out, place_in_out), refused(22, place), "{rows:?}");
            assert!(out == [7; OUT], "{rows:?}");
        }
        for (more, number) in [([0, BARRIER, 1, 0, 0, 7], 9), ([0, BARRIER, 0, 0, 0, 65_536], 10), ([2, WAIT, 0, 0, 0, 7], 21)] {
            let numbers = [&numbers[..], &more].concat();
            assert_eq!(write(&numbers, n + 1, 0, 3, &mut [7; OUT], 0), refused(number, n + 1), "{rows:?}");
        }
    }
}

/// The largest kind is written, and the number behind it gets 8.
#[test]
fn kinds_behind_the_last_are_unknown() {
    for kind in [BARRIER + 1, BARRIER + 2, u32::MAX] {
        let rows = [talks(&[(0, SEND, 7), (1, BARRIER, 7), (0, BARRIER, 7)]), vec![1, kind, 0, 0, 0, 7]].concat();
        let mut out = [7; OUT];
        assert_eq!(write(&rows, 4, 0, 2, &mut out, 0), refused(8, 4), "kind {kind}");
        assert_eq!(write(&rows, 3, 0, 2, &mut out, 0), Written::Length(45), "kind {kind}");
    }
}

/// Every row as long as can be: the constants are enough, and no smaller ones are.
#[test]
fn the_longest_text() {
    let longest = [PROCESSES - 1, WRITE, 63, 2_147_483_647, 2_147_483_648, 0];
    let rows = longest.repeat(ROWS as usize);
    let room = HEADER_LINE + LONGEST_LINE * ROWS as usize;
    let mut out = vec![7; room + 2];
    assert_eq!(write(&rows, ROWS, 1, PROCESSES, &mut out[..room], 1), refused(18, 0));
    assert!(out.iter().all(|b| *b == 7));
    assert_eq!(write(&rows, ROWS, 1, PROCESSES, &mut out, 1), Written::Length(room));
    let line = format!("{},write,63,2147483647,2147483648,\r\n", PROCESSES - 1);
    let text = [HEADER, line.repeat(ROWS as usize).as_bytes()].concat();
    assert!(out == laid(&text, 1, room + 2, 7));
    let (mut read, mut counts) = (vec![9; rows.len()], vec![9; (PROCESSES * ROWS) as usize]);
    let s = Settings { header: 1, model: 0, row_limit: ROWS, process_limit: PROCESSES, byte_limit: room };
    assert_eq!(check_trace(&out[1..1 + room], s, &mut read, &mut counts), Checked::Accepted(ROWS));
    assert!(read == rows);
}
