//! Every vector of `vectors/join.txt`, and the joins of `vectors/barrier.txt` and `vectors/aimed_joins.txt`: the answer and the three lent slices whole,
//! by the library and by the naive version. Then calls whose numbers do not fit, which row is taken next, which question comes first, and the limits;
//! and one file of a join by itself.

#[allow(dead_code)]
mod naive;
#[allow(dead_code)]
mod vectors;

use kiqsaryn::{join, read_file, Checked, JoinSettings, Joined, Part, Refusal, Row, PROCESSES, RECV, ROWS, SEND, WAIT};
use naive::joining::{self, Lent};

fn refused(number: u32, place: u32, file: u32) -> Joined {
    Joined::Refused { refusal: Refusal::from_number(number).expect("a refusal"), place, file }
}

/// Slices of these lengths for rows, counts and parts, with `fill` everywhere.
fn lent([rows, counts, parts]: [usize; 3], fill: u32) -> Lent {
    Lent { rows: vec![fill; rows], counts: vec![fill as u16; counts], parts: vec![u64::from(fill); parts] }
}

fn call(texts: [&[u8]; 2], s: JoinSettings, lent: &mut Lent) -> Joined {
    join(texts[0], texts[1], s, &mut lent.rows, &mut lent.counts, &mut lent.parts)
}

// ---- Vectors

/// A slice that holds these numbers, then 0.
fn padded<T: TryFrom<u32> + Clone + Default>(front: &[u32], len: usize) -> Vec<T> {
    let mut all: Vec<T> = front.iter().map(|x| T::try_from(*x).unwrap_or_else(|_| panic!("{x} is too large"))).collect();
    all.resize(len, T::default());
    all
}

/// The answer of a line `A`.
fn answer_of(line: &vectors::Line) -> Joined {
    let v = |k: usize| line.number(k);
    match line.words[..] {
        ["A", "refused", _, _, _] => refused(v(2), v(3), v(4)),
        ["A", "accepted", _, "free"] => Joined::Free { rows: v(2) },
        ["A", "accepted", _, "race", _, _] => Joined::Race { rows: v(2), earlier: v(4), later: v(5) },
        _ => panic!("{line}: no answer"),
    }
}

/// Joins two files as the library does.
type Join = fn([&[u8]; 2], JoinSettings, &mut Lent) -> Joined;

/// The files of vectors that have joins.
const FILES: [&str; 3] = ["join.txt", "barrier.txt", "aimed_joins.txt"];

/// Runs every vector of a file through one version.
fn every_vector(file: &str, version: Join) {
    let text = vectors::text(file);
    let mut lines = vectors::calls(file, &text, "J");
    let mut run = 0;
    while let Some(line) = lines.next() {
        line.kind(&[("J", 12)]);
        let n = |k: usize| line.number(k);
        let s = JoinSettings { headers: [n(2), n(3)], model: n(4), row_limit: n(5), process_limit: n(6) };
        let (rows_len, counts_len, fill) = (n(7) as usize, n(8) as usize, n(9));
        let (first, second) = (line.bytes(10), line.bytes(11));
        let want = answer_of(&lines.next().expect("an answer"));
        let told = match want {
            Joined::Refused { .. } => None,
            _ => Some(["R", "C", "H"].map(|kind| lines.next().expect("numbers").numbers(kind))),
        };
        // Where so many numbers are more than those lent for rows, too few are lent for rows.
        let enough = (3 * s.row_limit as usize).min(rows_len);
        for parts_len in [enough, enough + 1, enough + 5] {
            let lengths = [rows_len, counts_len, parts_len];
            let left = match (&told, want) {
                (Some([rows, counts, parts]), _) => {
                    Lent { rows: padded(rows, rows_len), counts: padded(counts, counts_len), parts: padded(parts, parts_len) }
                }
                (_, Joined::Refused { refusal, .. }) if refusal.number() <= 3 => lent(lengths, fill),
                _ => lent(lengths, 0),
            };
            let mut slices = lent(lengths, fill);
            assert_eq!(version([&first, &second], s, &mut slices), want, "{line}");
            assert!(slices == left, "the slices after {line}: {slices:?}");
        }
        run += 1;
    }
    vectors::all_run(file, &text, &["J"], run);
}

#[test]
fn every_join_vector() {
    FILES.iter().for_each(|file| every_vector(file, call));
}

#[test]
fn every_join_vector_through_the_naive_version() {
    FILES.iter().for_each(|file| every_vector(file, joining::join));
}

// ---- Calls whose numbers do not fit

const NAMES: &str = "process,kind,file,offset,length,message\r\n";

/// Two files that are joined into five rows: the second waits for the first.
const SENDS: &str = "0,write,1,0,10,\r\n0,send,,,,7\r\n";
const RECEIVES: &str = "1,recv,,,,7\r\n1,wait,,,,7\r\n1,read,1,5,10,\r\n";

/// Settings for two files without headers.
const PLAIN: JoinSettings = JoinSettings { headers: [0, 0], model: 1, row_limit: 5, process_limit: 2 };
/// Just enough for them.
const ENOUGH: [usize; 3] = [30, 10, 15];

#[test]
fn calls_that_do_not_fit_are_refused() {
    let [rows, counts, parts] = ENOUGH;
    let limits = |row_limit: u32, process_limit: u32| JoinSettings { row_limit, process_limit, ..PLAIN };
    let headers = |first: u32, second: u32| JoinSettings { headers: [first, second], ..PLAIN };
    let wild = [
        // 1: a slice is too short, whatever else is wrong
        (PLAIN, [rows - 1, counts, parts], 1),
        (PLAIN, [rows, counts - 1, parts], 1),
        (PLAIN, [rows, counts, parts - 1], 1),
        (PLAIN, [0, 0, 0], 1),
        (limits(6, 2), ENOUGH, 1),
        (limits(u32::MAX, u32::MAX), ENOUGH, 1),
        (limits(u32::MAX, 0), ENOUGH, 1),
        (limits(0, u32::MAX), [0, 0, 0], 2),                          // no row needs a number
        (limits(0x2AAA_AAAB, 1), [rows, usize::MAX >> 40, parts], 1), // 6 times as many are 2 in 32 bits
        (limits(0x5555_5556, 1), [rows, usize::MAX >> 40, parts], 1), // 3 times as many are 2 in 32 bits
        (limits(0x8000_0000, 2), [rows, 0, parts], 1),                // 2 times as many are 0 in 32 bits
        (JoinSettings { model: 4, headers: [2, 2], ..limits(6, PROCESSES + 1) }, ENOUGH, 1),
        // 2: the model or a limit is out of its range
        (JoinSettings { model: 4, ..PLAIN }, ENOUGH, 2),
        (JoinSettings { model: u32::MAX, headers: [2, 0], ..PLAIN }, ENOUGH, 2),
        (limits(0, 2), ENOUGH, 2),
        (limits(5, 0), ENOUGH, 2),
        (limits(ROWS + 1, 1), [6 * 4097, 4097, 3 * 4097], 2),
        (limits(1, PROCESSES + 1), [6, PROCESSES as usize + 1, 3], 2),
        // 3: a header word is neither 0 nor 1
        (headers(2, 0), ENOUGH, 3),
        (headers(0, 2), ENOUGH, 3),
        (headers(u32::MAX, u32::MAX), ENOUGH, 3),
    ];
    for (s, lengths, number) in wild {
        // Files that would be refused too.
        for texts in [[SENDS, RECEIVES], ["x", "\""]] {
            let mut slices = lent(lengths, 7);
            assert_eq!(call(texts.map(str::as_bytes), s, &mut slices), refused(number, 0, 0), "{s:?}, {lengths:?}");
            assert!(slices == lent(lengths, 7), "{s:?}, {lengths:?}");
        }
    }
}

#[test]
fn what_fits_exactly_is_joined() {
    let mut slices = lent(ENOUGH, 7);
    assert_eq!(call([SENDS.as_bytes(), RECEIVES.as_bytes()], PLAIN, &mut slices), Joined::Race { rows: 5, earlier: 1, later: 5 });
    let messages = [[0, 6, 0, 0, 0, 7], [1, 7, 0, 0, 0, 7], [1, 8, 0, 0, 0, 7]].concat();
    assert_eq!(slices.rows, [&[0, 1, 1, 0, 10, 0][..], &messages, &[1, 0, 1, 5, 10, 0]].concat());
    assert_eq!(slices.counts, [1, 0, 2, 0, 0, 1, 2, 2, 2, 3]);
    assert_eq!(slices.parts, [[1, 0, 15], [1, 17, 28], [2, 0, 11], [2, 13, 24], [2, 26, 40]].concat());
    let s = JoinSettings { model: 0, ..PLAIN };
    assert_eq!(call([SENDS.as_bytes(), RECEIVES.as_bytes()], s, &mut slices), Joined::Free { rows: 5 });
    assert_eq!(call([b"", b""], PLAIN, &mut slices), Joined::Free { rows: 0 });
    assert!(slices == lent(ENOUGH, 0));
}

// ---- Which row is taken next

/// The joined rows of two files without headers, each by its file and its number there, or the refusal.
fn turns(first: &str, second: &str) -> Result<Vec<(u64, usize)>, Joined> {
    let s = JoinSettings { headers: [0, 0], model: 0, row_limit: 20, process_limit: 4 };
    let mut slices = lent([120, 80, 60], 7);
    let n = match call([first.as_bytes(), second.as_bytes()], s, &mut slices) {
        Joined::Free { rows } | Joined::Race { rows, .. } => rows as usize,
        refused => return Err(refused),
    };
    let part = |k: usize| Part::at(&slices.parts, k).expect("a part");
    Ok((0..n).map(|k| (part(k).file, (0..=k).filter(|i| part(*i).file == part(k).file).count())).collect())
}

/// One file from short words: `0w` is a write of process 0, `1s7` the send of message 7 by process 1, `1r7` its recv, `1a7` its wait, by which it
/// awaits the message, and `1b7` its arrival at barrier 7.
fn file(words: &str) -> String {
    let record = |word: &str| {
        let (process, rest) = word.split_at(1);
        match rest.split_at(1) {
            ("s", message) => format!("{process},send,,,,{message}\r\n"),
            ("r", message) => format!("{process},recv,,,,{message}\r\n"),
            ("a", message) => format!("{process},wait,,,,{message}\r\n"),
            ("b", number) => format!("{process},barrier,,,,{number}\r\n"),
            _ => format!("{process},write,{process},0,1,\r\n"),
        }
    };
    words.split_whitespace().map(record).collect()
}

/// Two files by their words, and the file of each joined row: `a` for the first, `b` for the second. None where the join is stuck.
type Turns<'a> = (&'a str, &'a str, Option<&'a str>);

const TURNS: &[Turns] = &[
    ("", "", Some("")),
    ("0w 0w", "", Some("a a")),
    ("", "1w 1w", Some("b b")),
    ("0w 0w", "1w 1w", Some("a a b b")),
    ("0s7 0w", "1r7 1a7 1w", Some("a a b b b")),
    // a recv holds nothing back: its message is sent later, or never
    ("0r7 0w", "1w 1s7", Some("a a b b")),
    ("0r7 0w", "1r8 1w", Some("a a b b")),
    ("2r7 0s7 2a7", "1w", Some("a a a b")),
    // the first file waits, and goes on at once when its message is sent
    ("0r7 0a7 0w", "1w 1s7 1w", Some("a b b a a b")),
    ("0w 0r7 0a7 0s8 0w", "1s7 1r8 1a8 1w", Some("a a b a a a b b b")),
    ("0r1 0a1 0s2 0r3 0a3 0s4", "1s1 1r2 1a2 1s3 1r4 1a4", Some("a b a a a b b b a a b b")),
    // a message within a file, sent before it is waited for there
    ("0s7 2r7 2a7 0w", "1w", Some("a a a a b")),
    ("0w", "1s7 3r7 3a7", Some("a b b b")),
    // messages that are waited for in another order, and one that is never received
    ("0s7 0s8 0s9", "1r9 1r7 1a7 1a9", Some("a a a b b b b")),
    // one waits, and the other is at its end
    ("0r7 0a7", "", None),
    ("", "1r7 1a7", None),
    ("0w 0w", "1w 1r7 1a7", None),
    ("0w 0r7 0a7 0w", "1w 1s8", None),
    // both wait, for each other or for messages that nobody sends
    ("0r7 0a7 0s8", "1r8 1a8 1s7", None),
    ("0w 0r7 0a7", "1w 1r8 1a8", None),
    // waited for within a file before it is sent there: no order of the two helps
    ("2r7 2a7 0s7", "1w", None),
    // a wait without its recv waits as well
    ("0a7", "1w", None),
    ("0w", "1r7 3a7", None),
    // to arrive at a barrier is free, and to go on is not before all have arrived
    ("0b7", "1b7", Some("a b")),
    ("0b7 0w", "1w 1b7 1w", Some("a b b a b")),
    ("0w 0b7 0b8 0w", "1b7 1b8 1w", Some("a a b a b a b")),
    ("0b7 0w 2b7 2w", "1b7 1w", None), // row 2 of the first waits for process 2, which stands behind it
    ("0b7 2b7 0w 2w", "1b7 1w", Some("a a b a a b")),
    ("0b7 2w 2b7 0w", "1w 3w 1b7 3b7", Some("a a a b b b b a")),
    // a barrier of one file alone, and processes of the other that have no row of it
    ("0b7 0w", "", Some("a a")),
    ("", "1b7 1w 1b8", Some("b b b")),
    ("0b7 0w", "1w", None),
    ("0w", "1b7 1w", None),
    // they meet at different barriers, and two that stand at the same one in another order
    ("0b7 0b8", "1b8 1b7", None),
    ("0b7 0w", "1b8 1w", None),
    // messages and barriers: a send behind a barrier, and a wait before one
    ("0r7 0a7 0b1 0w", "1s7 1b1", Some("a b a a b a")),
    ("0b1 0s7", "1r7 1a7 1b1", None),
    ("0r7 0a7 0b7 0w", "1b7 1s7", None),
    ("0b7 0s7 0w", "1b7 1r7 1a7 1w", Some("a b a a b b b")),
];

#[test]
fn the_first_file_goes_on_until_it_waits_or_ends() {
    for (first, second, want) in TURNS {
        let mut own = [0, 0];
        let mut number = |word: &str| {
            let k = usize::from(word == "b");
            own[k] += 1;
            (k as u64 + 1, own[k])
        };
        let want = want.map(|words| words.split_whitespace().map(&mut number).collect::<Vec<_>>());
        assert_eq!(turns(&file(first), &file(second)), want.ok_or(refused(20, 0, 0)), "{first} and {second}");
    }
}

// ---- Which question comes first

#[test]
fn the_first_question_that_is_answered_no_decides() {
    let good = file("0w");
    let long = file("0w 0w 0w 0w");
    for (first, second, number, place, file_number) in [
        // a file's questions, the first file's before the second's, and both before 19
        ("0,write,1,0,10\r\n", "x", 7, 1, 1),
        (&good, "0,write,1,0,10,\r\n0,\"x", 4, 2, 2),
        (&good, &(file("1w") + "0,work,1,0,10,\r\n"), 8, 2, 2),
        (&(long.clone() + &file("1w")), &file("1w"), 6, 4, 1),
        (&good, &long, 6, 4, 2),
        // 19 before any joined row: both files' own rows would be too many, stand out of order, or wait
        (&file("0w 0s7"), &file("0w 1s7"), 19, 0, 0),
        (&file("0a7 2w"), &file("1w 2w"), 19, 0, 0),
        (&file("1a7"), &file("1a8"), 19, 0, 0),
        // 6 at a joined row before 12 and 21 there, and both at an earlier one
        (&file("0w 0s7"), &file("1w 1s7"), 6, 4, 0),
        (&file("0w 0w 0s7"), &file("1a7"), 6, 4, 0),
        (&file("0s7"), &file("1s7 1w 1w"), 12, 2, 0),
        (&file("0s7"), &file("1a7 1w 1w"), 21, 2, 0),
        // 20 needs no place among the rows: it comes where the limit is reached too
        (&file("0w 0w 0w"), &file("1a7"), 20, 0, 0),
        (&file("0w 0w"), &file("1w 1a7"), 20, 0, 0),
        // 12 before the next row waits, and 21 only at a wait whose message is sent
        (&file("0s7 0s7"), &file("1a8"), 12, 2, 0),
        (&file("0r7 0r7"), &file("1a7"), 12, 2, 0),
        (&file("0a7"), &file("1a7"), 20, 0, 0),
        (&file("0a7"), &file("1s7"), 21, 2, 0),
        // 22 behind the last joined row: 6, 12, 20 and 21 come first, wherever they are
        (&file("0b7 0b7 0w"), &file(""), 22, 2, 0),
        (&file("0b7 0b7 0w 0w"), &file(""), 6, 4, 1),
        (&file("0b7 0b7"), &file("1b7 1w"), 6, 4, 0),
        (&file("0b7 0b7"), &file("1b7"), 22, 3, 0),
        (&file("0b7 0b7 0s7"), &file("1w"), 20, 0, 0),
        (&file("0b7 0b7"), &file("0w"), 19, 0, 0),
        (&file("0s7 0b7"), &file("1s7"), 12, 3, 0),
        (&file("0b7"), &file("1w 1w"), 22, 3, 0),
        (&file("0b7"), &file("1b8"), 22, 2, 0),
        (&file("0b7"), &file("1b8 1w"), 20, 0, 0),
    ] {
        let s = JoinSettings { row_limit: 3, process_limit: 3, ..PLAIN };
        let mut slices = lent([20, 11, 10], 7);
        let got = call([first.as_bytes(), second.as_bytes()], s, &mut slices);
        assert_eq!(got, refused(number, place, file_number), "{first:?} and {second:?}");
        assert!(slices == lent([20, 11, 10], 0), "{first:?} and {second:?}");
    }
}

#[test]
fn messages_out_of_order_are_refused() {
    for (first, second, number, place) in [
        ("0s7 0s7", "", 12, 2),                   // sent twice in a file
        ("0s7", "1w 1s7", 12, 3),                 // sent twice, once in each
        ("0s7 0w", "1r7 1a7 1s7", 12, 5),         // sent again once it is waited for
        ("0s7 0r7", "1w", 12, 2),                 // posted by its sender
        ("0r7 0s7", "1w", 12, 2),                 // sent by the process that has posted it
        ("0s7", "1r7 3r7", 12, 3),                // posted twice in a file
        ("0s7 2r7", "1w 1r7", 12, 4),             // posted twice, once in each
        ("0r7 0w", "1w 1r7", 12, 4),              // posted twice, and never sent
        ("0r7 0a7 0r7", "1s7 1w", 12, 4),         // posted again once it is waited for
        ("0w 0r7 0a7", "1s7 3s7", 12, 5),         // the wait is taken before the second send
        ("0w 0r9 0a9 0s7", "1s9 1s7", 12, 6),     // the send that stands behind a wait
        ("0s7 0w", "1w 1a7", 21, 4),              // not posted
        ("0a7 0r7", "1s7 1w", 21, 2),             // posted too late
        ("0s7 0w", "1r7 3a7", 21, 4),             // posted by another process of its file
        ("0s7 2a7", "1r7 1a7", 21, 2),            // posted later, by a process of the other file
        ("0r7 0a7 0a7", "1s7 1w", 21, 4),         // waited for twice
        ("0w 0r7 0a7 2a7", "1s7 1w", 21, 5),      // waited for again by another process
        ("0r8 0a7 0a8", "1r9 1s7 1s8 1w", 21, 4), // the wait goes on once its message is sent, and is not posted
    ] {
        assert_eq!(turns(&file(first), &file(second)), Err(refused(number, place, 0)), "{first} and {second}");
    }
}

// ---- Headers, quotes, and records without a line end

#[test]
fn each_file_is_read_with_its_own_header_word() {
    let rows = [SENDS, RECEIVES];
    for headers in [[0, 0], [0, 1], [1, 0], [1, 1]] {
        let texts = [0, 1].map(|k| if headers[k] == 1 { [NAMES, rows[k]].concat() } else { rows[k].to_string() });
        let s = JoinSettings { headers, ..PLAIN };
        let mut slices = lent(ENOUGH, 7);
        let got = call([texts[0].as_bytes(), texts[1].as_bytes()], s, &mut slices);
        assert_eq!(got, Joined::Race { rows: 5, earlier: 1, later: 5 }, "{headers:?}");
        for k in 0..5 {
            let Part { file, start, end } = Part::at(&slices.parts, k).expect("a part");
            let of_file = &texts[file as usize - 1][start as usize..end as usize];
            assert_eq!(of_file, [SENDS, RECEIVES].concat().lines().nth(k).expect("a record"), "{headers:?}");
        }
        // The other word of either file is refused there.
        let other = |k: usize| JoinSettings { headers: [0, 1].map(|i| if i == k { 1 - headers[i] } else { headers[i] }), ..s };
        for k in [0, 1] {
            let want = if headers[k] == 1 { refused(8, 1, k as u32 + 1) } else { refused(5, 0, k as u32 + 1) };
            assert_eq!(call([texts[0].as_bytes(), texts[1].as_bytes()], other(k), &mut slices), want, "{headers:?}, file {}", k + 1);
        }
    }
}

#[test]
fn a_part_is_a_record_as_it_stands_without_its_line_end() {
    let first = "\"0\",write,\"1\",0,10,\"\"\r\n0,\"send\",\"\",,,7";
    let second = [NAMES, "\"1\",recv,,,,\"7\"\r\n1,\"wait\",,,,7\r\n1,read,1,\"5\",10,\r\n"].concat();
    let s = JoinSettings { headers: [0, 1], ..PLAIN };
    let mut slices = lent(ENOUGH, 7);
    assert_eq!(call([first.as_bytes(), second.as_bytes()], s, &mut slices), Joined::Race { rows: 5, earlier: 1, later: 5 });
    assert_eq!(slices.parts, [[1, 0, 21], [1, 23, 38], [2, 41, 56], [2, 58, 71], [2, 73, 89]].concat());
    assert_eq!(Part::at(&slices.parts, 4), Some(Part { file: 2, start: 73, end: 89 }));
    assert_eq!(Part::at(&slices.parts, 5), None);
    assert_eq!(&second[73..89], "1,read,1,\"5\",10,");
}

// ---- Limits

/// A file of so many rows, each by the next of these processes.
fn many(rows: u32, processes: std::ops::Range<u32>) -> String {
    processes.cycle().take(rows as usize).map(|p| format!("{p},write,{p},{p},1,\r\n")).collect()
}

#[test]
fn the_join_has_as_many_rows_as_a_trace() {
    let s = JoinSettings { headers: [0, 0], model: 1, row_limit: ROWS, process_limit: PROCESSES };
    let lengths = [6, PROCESSES as usize, 3].map(|k| k * ROWS as usize);
    let half = ROWS / 2;
    for (first, second, want) in [
        (half, half, Joined::Free { rows: ROWS }),
        (ROWS, 0, Joined::Free { rows: ROWS }),
        (0, ROWS, Joined::Free { rows: ROWS }),
        (1, ROWS - 1, Joined::Free { rows: ROWS }),
        (half, half + 1, refused(6, ROWS + 1, 0)),
        (1, ROWS, refused(6, ROWS + 1, 0)),
        (ROWS, ROWS, refused(6, ROWS + 1, 0)),
        (ROWS + 1, 0, refused(6, ROWS + 1, 1)),
        (0, ROWS + 1, refused(6, ROWS + 1, 2)),
        (ROWS + 1, ROWS + 1, refused(6, ROWS + 1, 1)),
    ] {
        let texts = [many(first, 0..PROCESSES / 2), many(second, PROCESSES / 2..PROCESSES)];
        let [mut ours, mut naive] = [lent(lengths, 7), lent(lengths, 7)];
        let texts = [texts[0].as_bytes(), texts[1].as_bytes()];
        assert_eq!(call(texts, s, &mut ours), want, "{first} and {second} rows");
        assert_eq!(joining::join(texts, s, &mut naive), want, "{first} and {second} rows, naive");
        assert!(ours == naive, "{first} and {second} rows");
    }
}

/// Two files in which messages go to and fro, each sent once the one before is waited for. All receives of a file are posted first.
fn to_and_fro(messages: u32, number: impl Fn(u32) -> u32) -> [String; 2] {
    let mut files = [String::new(), String::new()];
    for k in 0..messages {
        let to = 1 - k % 2;
        files[to as usize] += &format!("{to},recv,,,,{}\r\n", number(k));
    }
    for k in 0..messages {
        let (from, to) = (k % 2, 1 - k % 2);
        files[from as usize] += &format!("{from},send,,,,{}\r\n", number(k));
        files[to as usize] += &format!("{to},wait,,,,{}\r\n", number(k));
    }
    files
}

#[test]
fn the_longest_chain_of_messages() {
    const MESSAGES: u32 = ROWS / 3;
    let number = |k: u32| 65_535 - k;
    let [first, mut second] = to_and_fro(MESSAGES, number);
    second += "1,commit,1,,,\r\n"; // so that there are as many rows as can be
    let s = JoinSettings { headers: [0, 0], model: 3, row_limit: ROWS, process_limit: 2 };
    let mut slices = lent([6, 2, 3].map(|k| k * ROWS as usize), 7);
    assert_eq!(call([first.as_bytes(), second.as_bytes()], s, &mut slices), Joined::Free { rows: ROWS });
    // The receives and the first send, and then each wait with the next send of its process.
    for k in 0..MESSAGES {
        let process = 1 - k % 2;
        let at = (MESSAGES + 1 + 2 * k) as usize;
        let of_message = |kind: u32, k: u32| Some(Row { process, kind, message: number(k), ..Row::default() });
        assert_eq!(Row::at(&slices.rows, at), of_message(WAIT, k), "row {}", at + 1);
        if k + 1 < MESSAGES {
            assert_eq!(Row::at(&slices.rows, at + 1), of_message(SEND, k + 1), "row {}", at + 2);
        }
        assert_eq!(Part::at(&slices.parts, at).expect("a part").file, u64::from(process) + 1, "row {}", at + 1);
    }
    let s = JoinSettings { row_limit: ROWS - 1, ..s };
    assert_eq!(call([first.as_bytes(), second.as_bytes()], s, &mut slices), refused(6, ROWS, 0));
}

#[test]
fn every_process_may_be_in_either_file_and_none_in_both() {
    let s = JoinSettings { headers: [0, 0], model: 1, row_limit: 128, process_limit: PROCESSES };
    let lengths = [6, PROCESSES as usize, 3].map(|k| k * 128);
    let of = |process: u32| format!("{process},commit,1,,,\r\n");
    for process in 0..PROCESSES {
        let others: String = (0..PROCESSES).filter(|p| *p != process).map(of).collect();
        for (first, second, want) in [
            (of(process), others.clone(), Joined::Free { rows: PROCESSES }),
            (others.clone(), of(process), Joined::Free { rows: PROCESSES }),
            (of(process), many(PROCESSES, 0..PROCESSES), refused(19, 0, 0)),
            (many(PROCESSES, 0..PROCESSES), of(process), refused(19, 0, 0)),
            (of(process), of(process), refused(19, 0, 0)),
        ] {
            let mut slices = lent(lengths, 7);
            assert_eq!(call([first.as_bytes(), second.as_bytes()], s, &mut slices), want, "process {process}");
        }
    }
    let mut slices = lent(lengths, 7);
    assert_eq!(call([of(0).as_bytes(), of(PROCESSES).as_bytes()], s, &mut slices), refused(10, 1, 2));
}

// ---- One file by itself

fn file_refused(number: u32, place: u32) -> Checked {
    Checked::Refused { refusal: Refusal::from_number(number).expect("a refusal"), place }
}

#[test]
fn a_file_by_itself_is_not_asked_about_messages() {
    let text = "0,wait,,,,7\r\n0,wait,,,,7\r\n0,recv,,,,7\r\n0,recv,,,,7\r\n0,send,,,,7\r\n0,send,,,,7";
    let mut rows = [7; 39];
    assert_eq!(read_file(text.as_bytes(), 0, 6, 1, &mut rows), Checked::Accepted(6));
    let [wait, recv, send] = [WAIT, RECV, SEND].map(|kind| [0, kind, 0, 0, 0, 7]);
    assert_eq!(rows[..], [&[wait, wait, recv, recv, send, send].concat()[..], &[0; 3]].concat());
    assert_eq!(read_file([NAMES, text].concat().as_bytes(), 1, 6, 1, &mut rows), Checked::Accepted(6));
    assert_eq!(read_file(b"", 0, 6, 1, &mut rows), Checked::Accepted(0));
    assert_eq!(rows, [0; 39]);
}

#[test]
fn files_that_do_not_fit_are_refused() {
    for (header, row_limit, process_limit, rows_len, number) in [
        (0, 2, 2, 11, 1),
        (2, 3, 0, 17, 1),
        (0, u32::MAX, 2, 12, 1),
        (0, 0x2AAA_AAAB, 2, 12, 1), // 6 times as many are 2 in 32 bits
        (2, 0, 2, 12, 2),
        (0, 0, 0, 0, 2),
        (0, 2, 0, 12, 2),
        (0, 2, PROCESSES + 1, 12, 2),
        (0, 2, u32::MAX, 12, 2),
        (2, ROWS + 1, 2, 6 * 4097, 2),
        (2, 2, 2, 12, 3),
        (u32::MAX, 2, 2, 12, 3),
    ] {
        for text in ["0,write,1,0,10,\r\n", "\""] {
            let mut rows = vec![7; rows_len];
            let got = read_file(text.as_bytes(), header, row_limit, process_limit, &mut rows);
            assert_eq!(got, file_refused(number, 0), "header {header}, {row_limit} rows, {process_limit} processes, {rows_len} numbers");
            assert!(rows.iter().all(|x| *x == 7));
        }
    }
}

#[test]
fn a_refused_file_leaves_no_row() {
    let good = "0,write,1,0,10,\r\n";
    for (header, text, number, place) in [
        (0, [good, good, good].concat(), 6, 3),
        (0, [good, "0,write,1,0,10,\n"].concat(), 4, 2),
        (0, [good, good, "0,\"x"].concat(), 4, 3), // malformed comes before the row limit
        (1, good.to_string(), 5, 0),
        (1, String::new(), 5, 0),
        (1, "\"".to_string(), 4, 0),
        (0, NAMES.to_string(), 8, 1),
        (0, [good, "0,write,1,0,10"].concat(), 7, 2),
        (0, "0,write,,0,10,".to_string(), 9, 1),
        (0, [good, "2,write,1,0,10,"].concat(), 10, 2),
        (0, "0,write,1,4294967295,1,".to_string(), 11, 1),
    ] {
        let mut rows = [7; 13];
        assert_eq!(read_file(text.as_bytes(), header, 2, 2, &mut rows), file_refused(number, place), "{text:?}");
        assert_eq!(rows, [0; 13], "{text:?}");
    }
}

/// No byte is too far: fields of a million digits are read whole.
#[test]
fn a_file_has_no_limit_of_bytes() {
    let mut rows = [7; 6];
    let digits = "1".repeat(1_000_000);
    assert_eq!(read_file(format!("0,write,1,0,{digits},").as_bytes(), 0, 1, 1, &mut rows), file_refused(10, 1));
    assert_eq!(read_file(format!("0,write,1,0,\"{digits}").as_bytes(), 0, 1, 1, &mut rows), file_refused(4, 1));
    assert_eq!(read_file(format!("\"{digits}\",write").as_bytes(), 0, 1, 1, &mut rows), file_refused(7, 1));
}
