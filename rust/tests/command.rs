//! The command `kiqsaryn`: its output on the examples, its exit status on every kind of input, and its explanations against the
//! definitions.

#![allow(dead_code)]

use kiqsaryn::{check_trace, fill_counts, report, verdict, Checked, Model, Row, Settings, Verdict};
use kiqsaryn::{BARRIER, CLOSE, COMMIT, FILES, OPEN, PROCESSES, READ, RECV, SEND, SYNC, WAIT, WRITE};
use std::io::Write;
use std::path::PathBuf;
use std::process::{Command, Stdio};

#[path = "../src/bin/kiqsaryn/args.rs"]
mod args;
#[path = "../src/bin/kiqsaryn/explain.rs"]
mod explain;
#[path = "../src/bin/kiqsaryn/fields.rs"]
mod fields;
#[path = "../src/bin/kiqsaryn/mend.rs"]
mod mend;
#[path = "../src/bin/kiqsaryn/near.rs"]
mod near;
#[path = "../src/bin/kiqsaryn/posted.rs"]
mod posted;
#[path = "../src/bin/kiqsaryn/recording.rs"]
mod recording;
mod running;
#[path = "../src/bin/kiqsaryn/standard.rs"]
mod standard;
#[path = "../src/bin/kiqsaryn/table.rs"]
mod table;
#[path = "../src/bin/kiqsaryn/text.rs"]
mod text;
#[path = "../src/bin/kiqsaryn/words.rs"]
mod words;

use explain::{explain, Claim, Explanation, Rows};
use posted::Posted;
use running::picture::well_formed;
use running::{err, example_traces, examples, feed, out, prints, run, status, words_of, EXE};

const NAMES: &str = "process,kind,file,offset,length,message\r\n";

/// A file of this test run.
fn scratch(name: &str) -> PathBuf {
    let folder = PathBuf::from(env!("CARGO_TARGET_TMPDIR"));
    folder.join(format!("command-{name}"))
}

// ---- The examples

#[test]
fn check_prints_what_stands_beside_every_example() {
    for path in example_traces() {
        let name = path.file_name().and_then(|n| n.to_str()).expect("a name");
        let o = run(&["check", name, "--header", "yes"], b"");
        let want = std::fs::read_to_string(path.with_extension("check.txt")).expect("the output beside it");
        let short = std::fs::read_to_string(path.with_extension("out")).expect("the short output beside it");
        let expected = if short.starts_with("refused") {
            2
        } else if short.contains("race") {
            1
        } else {
            0
        };
        prints(&o, &want, expected, name);
        prints(&run(&["check", name, "--header=yes", "--csv"], b""), &short, expected, name);
    }
}

// ---- The command line

#[test]
fn wrong_command_lines_have_status_3() {
    let wrong: &[&[&str]] = &[
        &[],
        &["judge"],
        &["check"],
        &["check", "commit_free.csv"],
        &["check", "commit_free.csv", "--header"],
        &["check", "commit_free.csv", "--header", "maybe"],
        &["check", "commit_free.csv", "--header", "yes", "--header", "no"],
        &["check", "commit_free.csv", "commit_free.csv"],
        &["check", "--header", "yes"],
        &["check", "commit_free.csv", "--header", "yes", "--model", "nfs"],
        &["check", "commit_free.csv", "--header", "yes", "--processes", "0"],
        &["check", "commit_free.csv", "--header", "yes", "--processes", "+8"],
        &["check", "commit_free.csv", "--header", "yes", "--processes", "99999999999999999999"],
        &["check", "commit_free.csv", "--header", "yes", "--csv=1"],
        &["check", "commit_free.csv", "--header", "yes", "--file", "1"],
        &["check", "commit_free.csv", "--header", "yes", "-o", "x"],
        &["replay", "commit_free.csv", "--header", "yes"],
        &["replay", "commit_free.csv", "--header", "yes", "--file", "1"],
        &["replay", "commit_free.csv", "--header", "yes", "--model", "commit", "--csv"],
        &["replay", "commit_free.csv", "--header", "yes", "--file", "64", "--model", "commit"],
        &["replay", "commit_free.csv", "--header", "yes", "--file", "1", "--model", "all"],
        &["replay", "commit_free.csv", "--file", "1", "--model", "commit"],
        &["diagram", "commit_free.csv"],
        &["diagram", "commit_free.csv", "--header", "yes", "--model", "all"],
        &["diagram", "commit_free.csv", "--header", "yes", "-o"],
        &["check", ".", "--header", "yes"],
        &["check", "no_such_file.csv", "--header", "yes"],
        &["replay", "no_such_file.csv", "--header", "no", "--file", "1", "--model", "commit"],
        &["diagram", "no_such_file.csv", "--header", "no"],
        &["diagram", "commit_free.csv", "--header", "yes", "-o", "."],
    ];
    for args in wrong {
        let o = run(args, b"");
        assert_eq!(status(&o), 3, "{args:?}");
        assert_eq!(out(&o), "", "{args:?}");
        assert!(err(&o).starts_with("kiqsaryn: ") && !err(&o).contains("panicked"), "{args:?}: {}", err(&o));
    }
}

#[test]
fn a_missing_header_word_says_why_it_is_asked() {
    let o = run(&["check", "commit_free.csv"], b"");
    let text = err(&o);
    assert!(text.contains("--header yes or --header no"), "{text}");
    assert!(text.contains("never guessed") && text.contains("lost") && text.contains("shift every row number"), "{text}");
}

#[test]
fn help_and_version() {
    for (args, part) in [
        (&["--help"][..], "kiqsaryn replay "),
        (&["check", "--help"], "kiqsaryn check shelf.csv --header yes"),
        (&["races", "--limit", "many", "--help"], "kiqsaryn races shelf.csv --header yes --limit 0"),
        (&["replay", "-h"], "kiqsaryn replay shelf.csv --header yes --file 1 --model commit"),
        (&["diagram", "x", "--help"], "kiqsaryn diagram shelf.csv --header yes -o shelf.svg"),
        (&["write", "--out-header", "maybe", "-h"], "kiqsaryn write shelf.csv --header yes -o clean.csv"),
        (&["--version"], "kiqsaryn 0."),
    ] {
        let o = run(args, b"");
        assert_eq!((status(&o), err(&o)), (0, String::new()), "{args:?}");
        assert!(out(&o).contains(part), "{args:?}");
        assert!(out(&o).lines().all(|l| l.len() < 80), "{args:?}");
    }
}

#[test]
fn the_header_word_decides() {
    let text = std::fs::read(examples().join("commit_free.csv")).expect("the trace");
    let rows = &text[NAMES.len()..];
    let o = run(&["check", "-", "--header", "no"], rows);
    assert_eq!(status(&o), 1);
    assert!(out(&o).contains("  header: no (the first record is row 1)\n  6 rows\n  first row: 0,write,1,0,10,\n"), "{}", out(&o));
    let o = run(&["check", "-", "--header", "no"], &text);
    assert_eq!(status(&o), 2);
    assert!(out(&o).contains("Refused: number 8, at row 1."), "{}", out(&o));
    let o = run(&["check", "-", "--header", "yes"], rows);
    assert_eq!(status(&o), 2);
    assert!(out(&o).contains("Refused: number 5, at the header."), "{}", out(&o));
}

#[test]
fn records_are_shown_as_they_stand() {
    let text = b"\"0\",write,\"1\",0,10,\"\"\r\n1,\"read\",1,5,10,";
    let o = run(&["check", "-", "--header", "no", "--model", "posix"], text);
    assert_eq!(status(&o), 1);
    for part in [
        "  first row: \"0\",write,\"1\",0,10,\"\"\n",
        "  last row: 1,\"read\",1,5,10,\n",
        "  row 1: \"0\",write,\"1\",0,10,\"\"\n         process 0 writes bytes 0 to 9 of file 1\n",
        "  row 2: 1,\"read\",1,5,10,\n         process 1 reads bytes 5 to 14 of file 1\n  shared: bytes 5 to 9 of file 1 (5 bytes)\n",
        "  process 0: 1 row\n  process 1: 1 row\n  file 1: 2 rows\n",
    ] {
        assert!(out(&o).contains(part), "{part} in {}", out(&o));
    }
}

#[test]
fn standard_input_and_one_model() {
    let text = std::fs::read(examples().join("commit_free.csv")).expect("the trace");
    for (model, expected) in [("posix", 0), ("commit", 0), ("session", 1), ("mpiio", 1), ("all", 1)] {
        let o = run(&["check", "--model", model, "--header", "yes", "-"], &text);
        assert_eq!(status(&o), expected, "{model}");
        assert!(out(&o).starts_with("Trace: standard input\n"), "{model}");
    }
    let o = run(&["check", "--model", "session", "--csv", "--header", "yes", "-"], &text);
    assert_eq!(out(&o), "model,verdict,earlier,later\r\nsession,race,1,6\r\n");
    let o = run(&["check", "-", "--header", "no", "--csv"], b"");
    assert_eq!(out(&o), "model,verdict,earlier,later\r\nposix,free,,\r\ncommit,free,,\r\nsession,free,,\r\nmpiio,free,,\r\n");
}

// ---- Refusals

#[test]
fn refusals_name_number_place_question_and_record() {
    let cases: &[(&str, &[u8], &[&str])] = &[
        ("yes", b"", &["number 5, at the header", "0 bytes, header yes", "the record:  none"]),
        ("no", b"0,write,1,0,10,\r\n\r\n", &["number 7, at row 2", "Has the record six fields?", "the record:  empty"]),
        ("no", b"0,write,1,0,10,\n0,read,1,0,1,\n", &["number 4, at row 1", "0,write,1,0,10,\\n\n", "Records end in CR LF"]),
        ("yes", b"\xef\xbb\xbfprocess,kind\r\n", &["number 4, at the header", "\\xef\\xbb\\xbfprocess,kind\n", "byte order mark"]),
        ("no", b"\x7fELF\x02\x01\x01\0\0\0", &["number 4, at row 1", "\\x7fELF\\x02\\x01\\x01\\x00\\x00\\x00\n"]),
        ("no", b"999,write,1,0,10,\r\n", &["number 10, at row 1", "process is 0 to "]),
        ("no", b"0,write,1,4294967295,1,", &["number 11, at row 1", "Is offset + length at most 4,294,967,295?"]),
        ("no", b"0,send,,,,1\r\n0,recv,,,,1\r\n", &["number 12, at row 2", "0,recv,,,,1\n"]),
        ("no", b"0,send,,,,1\r\n1,wait,,,,1\r\n", &["number 21, at row 2", "Was the wait's message posted earlier", "1,wait,,,,1\n"]),
        (
            "no",
            b"0,barrier,,,,1\r\n0,barrier,,,,1",
            &["number 22, at row 2", "Does no process arrive at a barrier twice", "0,barrier,,,,1\n"],
        ),
    ];
    for (header, input, parts) in cases {
        for command in [&["check"][..], &["races"], &["replay", "--file", "1", "--model", "commit"], &["diagram"], &["write"]] {
            let args: Vec<&str> = command.iter().copied().chain(["-", "--header", header]).collect();
            let o = run(&args, input);
            let text = if ["diagram", "write"].contains(&command[0]) { err(&o) } else { out(&o) };
            assert_eq!(status(&o), 2, "{text}");
            assert!(parts.iter().all(|part| text.contains(part)), "{parts:?} in {text}");
        }
    }
    let text = out(&run(&["check", "-", "--header", "no"], b"0,\"write,1,0,10,\r\n"));
    assert!(text.contains("number 4, at row 1") && text.contains("0,\"write,1,0,10,\\r\\n\n") && !text.contains("line feed"), "{text}");
    let many = "0,commit,1,,,\r\n".repeat(5_000);
    let text = out(&run(&["check", "-", "--header", "no"], many.as_bytes()));
    assert!(text.contains("number 6, at row 4097") && text.contains("a trace has at most 4096 rows"), "{text}");
    let mut long = b"0,write,1,0,".to_vec();
    long.extend([b'9'; 5000]);
    let text = out(&run(&["check", "-", "--header", "no"], &long));
    assert!(text.contains("(cut here)") && text.lines().all(|l| l.len() < 250), "{text}");
}

/// The longest acceptable trace: every field quoted, the longest contents, 4,096 rows.
fn longest(header: bool) -> Vec<u8> {
    let mut text = Vec::new();
    if header {
        text.extend(b"\"process\",\"kind\",\"file\",\"offset\",\"length\",\"message\"\r\n");
    }
    let row = format!("\"{}\",\"write\",\"{}\",\"2147483647\",\"2147483648\",\"\"\r\n", PROCESSES - 1, FILES - 1);
    text.extend(row.repeat(4096).as_bytes());
    text
}

#[test]
fn the_longest_acceptable_trace_is_read_whole_and_one_byte_more_is_not() {
    for (header, word) in [(true, "yes"), (false, "no")] {
        let mut text = longest(header);
        assert_eq!(text.len(), recording::byte_limit(header));
        let o = run(&["check", "-", "--header", word], &text);
        assert_eq!(status(&o), 0, "{}", out(&o));
        assert!(out(&o).contains(&format!("  {} bytes\n", text.len())) && out(&o).contains("  4096 rows\n"));
        text.push(b'0');
        let o = run(&["check", "-", "--header", word], &text);
        assert_eq!(status(&o), 2);
        assert!(out(&o).contains("number 6, at row 4097") && out(&o).contains("reading stopped after"), "{}", out(&o));
    }
}

/// No contents of an acceptable field are longer than those that the limit is worked out from.
#[test]
fn no_acceptable_record_is_longer() {
    let quoted = |fields: [&str; 6]| fields.map(|f| format!("\"{f}\"")).join(",") + "\r\n";
    let (process, file) = (&(PROCESSES - 1).to_string(), &(FILES - 1).to_string());
    let longest = quoted([process, "write", file, "2147483647", "2147483648", ""]).len();
    let posted = format!("0,send,,,,65535\r\n{process},recv,,,,65535\r\n");
    for (before, fields) in [
        ("", [process, "commit", file, "", "", ""]),
        ("", [process, "close", file, "", "", ""]),
        ("", [process, "send", "", "", "", "65535"]),
        ("", [process, "recv", "", "", "", "65535"]),
        ("", [process, "barrier", "", "", "", "65535"]),
        (&posted, [process, "wait", "", "", "", "65535"]),
    ] {
        let record = quoted(fields);
        assert!(record.len() <= longest);
        let o = run(&["check", "-", "--header", "no"], (before.to_string() + &record).as_bytes());
        assert_eq!(status(&o), 0, "{record}");
    }
}

/// The command with little memory.
fn in_little_memory(args: &[&str]) -> Command {
    let mut command = Command::new("sh");
    command.args(["-c", "ulimit -v 65536; exec \"$0\" \"$@\"", EXE]).args(args);
    command
}

/// 100 MB of digits through a pipe: what follows the longest acceptable trace is not read.
#[test]
fn a_long_input_is_refused_soon() {
    let mut command = in_little_memory(&["check", "-", "--header", "no"]);
    let mut child = command.stdin(Stdio::piped()).stdout(Stdio::piped()).stderr(Stdio::piped()).spawn().expect("the command starts");
    let mut stdin = child.stdin.take().expect("a pipe");
    let chunk = vec![b'7'; 1 << 20];
    let mut written = 0;
    while written < 100 && stdin.write_all(&chunk).is_ok() {
        written += 1;
    }
    drop(stdin);
    let o = child.wait_with_output().expect("the command ends");
    assert_eq!(status(&o), 2, "{}", err(&o));
    assert!(out(&o).contains("number 6, at row 1") && out(&o).contains("reading stopped after 196608 bytes"), "{}", out(&o));
    assert!(written < 100, "{written} MB");
}

/// A file of four gigabytes: what follows the longest acceptable trace is not read.
#[test]
fn a_huge_file_is_refused_soon() {
    let path = scratch("huge.csv");
    let file = std::fs::File::create(&path).expect("a file");
    (&file).write_all(NAMES.as_bytes()).expect("a header");
    file.set_len(4 << 30).expect("a sparse file");
    let o = feed(&mut in_little_memory(&["check", path.to_str().expect("a path"), "--header", "yes"]), b"");
    std::fs::remove_file(&path).expect("the file is removed");
    assert_eq!(status(&o), 2, "{}", err(&o));
    assert!(out(&o).contains("number 4, at row 1") && out(&o).contains("\\x00\\x00"), "{}", out(&o));
}

// ---- Random inputs

/// Numbers from a fixed seed.
struct Dice(u64);

impl Dice {
    fn next(&mut self) -> u64 {
        self.0 ^= self.0 << 13;
        self.0 ^= self.0 >> 7;
        self.0 ^= self.0 << 17;
        self.0.wrapping_mul(0x2545_f491_4f6c_dd1d) >> 33
    }

    fn below(&mut self, n: u64) -> u32 {
        (self.next() % n) as u32
    }

    fn of<T: Copy>(&mut self, all: &[T]) -> T {
        all[self.below(all.len() as u64) as usize]
    }
}

/// Who sends a message, who posts its receive, and whether that process has waited for it.
#[derive(Default)]
struct Message {
    sender: Option<u32>,
    poster: Option<u32>,
    waited: bool,
}

/// The messages of a trace, each under its number.
#[derive(Default)]
struct Messages(Vec<Message>);

impl Messages {
    /// The number of the last that fits, and the message itself.
    fn last(&mut self, fits: impl Fn(&Message) -> bool) -> Option<(u32, &mut Message)> {
        self.0.iter_mut().enumerate().rev().find(|(_, m)| fits(m)).map(|(number, m)| (number as u32, m))
    }

    /// The number of one more.
    fn one_more(&mut self, message: Message) -> u32 {
        self.0.push(message);
        self.0.len() as u32 - 1
    }

    /// The message of a process's send: one whose receive another has posted, or one more.
    fn send(&mut self, process: u32) -> u32 {
        if let Some((number, m)) = self.last(|m| m.sender.is_none() && m.poster != Some(process)) {
            m.sender = Some(process);
            return number;
        }
        self.one_more(Message { sender: Some(process), ..Message::default() })
    }

    /// The message of a recv: one that another process has sent, or, where it may stand before its send, one more.
    fn post(&mut self, process: u32, before_send: bool) -> Option<u32> {
        if let Some((number, m)) = self.last(|m| m.poster.is_none() && m.sender != Some(process)) {
            m.poster = Some(process);
            return Some(number);
        }
        before_send.then(|| self.one_more(Message { poster: Some(process), ..Message::default() }))
    }

    /// The message of a wait: one that is sent, and whose receive the process has posted.
    fn wait(&mut self, process: u32) -> Option<u32> {
        let (number, m) = self.last(|m| m.sender.is_some() && m.poster == Some(process) && !m.waited)?;
        m.waited = true;
        Some(number)
    }
}

/// The kinds of one row, each as often as its share.
const KINDS: [u32; 16] = [READ, READ, READ, READ, WRITE, WRITE, WRITE, WRITE, COMMIT, OPEN, CLOSE, SYNC, SEND, RECV, WAIT, WAIT];

/// Any row of any process, if it has a message for it.
fn any_row(dice: &mut Dice, messages: &mut Messages, processes: u64, file: u32) -> Option<Row> {
    let (process, kind) = (dice.below(processes), dice.of(&KINDS));
    let row = Row { process, kind, ..Row::default() };
    let with = |message: u32| Row { message, ..row };
    match kind {
        SEND => Some(with(messages.send(process))),
        RECV => messages.post(process, dice.below(2) == 0).map(with),
        WAIT => messages.wait(process).map(with),
        READ | WRITE => Some(Row { file, offset: dice.below(6), length: dice.of(&[0, 1, 2, 3, 3, 4, 5]), ..row }),
        _ => Some(Row { file, ..row }),
    }
}

/// The rows that hand a file over from one process to the next, some of them left out now and then. The receive is posted before the send or behind
/// it.
fn hand_over(dice: &mut Dice, messages: &mut Messages, processes: u64, file: u32) -> Vec<Row> {
    let process = dice.below(processes);
    let next = (process + 1 + dice.below(processes - 1)) % processes as u32;
    let message = messages.0.len() as u32;
    let of_file = |process: u32, kind: u32| Row { process, kind, file, ..Row::default() };
    let of_message = |process: u32, kind: u32| Row { process, kind, message, ..Row::default() };
    let (publish, refresh) = (dice.of(&[COMMIT, CLOSE, SYNC]), dice.of(&[OPEN, OPEN, SYNC]));
    let mut rows = vec![of_file(process, publish), of_message(process, SEND), of_message(next, WAIT), of_file(next, refresh)];
    rows.insert(dice.below(3) as usize, of_message(next, RECV));
    rows.retain(|r| dice.below(if r.kind == WAIT { 2 } else { 8 }) > 0);
    let [sends, posts, waits] = [SEND, RECV, WAIT].map(|kind| rows.iter().any(|r| r.kind == kind));
    let waited = waits && sends && posts;
    rows.retain(|r| r.kind != WAIT || waited);
    messages.0.push(Message { sender: sends.then_some(process), poster: posts.then_some(next), waited });
    rows
}

/// Puts a row of a barrier for each process before a place, behind the last row of its process and behind the barriers before.
fn put_barrier(dice: &mut Dice, rows: &mut Vec<Row>, place: usize, number: u32) {
    let mut processes: Vec<u32> = rows.iter().map(|r| r.process).collect();
    processes.sort();
    processes.dedup();
    let mut end = place;
    while !processes.is_empty() {
        let process = processes.swap_remove(dice.below(processes.len() as u64) as usize);
        let behind = |r: &Row| r.process == process || (r.kind == BARRIER && r.message != number);
        let least = rows[..end].iter().rposition(behind).map_or(0, |k| k + 1);
        let at = least + dice.below((end - least + 1) as u64) as usize;
        rows.insert(at, Row { process, kind: BARRIER, message: number, ..Row::default() });
        end += 1;
    }
}

/// The most barriers of random rows.
const BARRIERS: u32 = 3;

/// Now and then a few barriers, the last one first, each before those that are there.
fn put_barriers(dice: &mut Dice, rows: &mut Vec<Row>) {
    let n = if dice.below(2) == 0 { 0 } else { dice.below(u64::from(BARRIERS) + 1) };
    for number in 0..n {
        let first = rows.iter().position(|r| r.kind == BARRIER).unwrap_or(rows.len());
        let place = dice.below(first as u64 + 1) as usize;
        put_barrier(dice, rows, place, number);
    }
}

/// Rows that pass every question: messages go once, from one process to another, and barriers are put in at the end.
fn random_rows(dice: &mut Dice, most: u64, processes: u64) -> Vec<Row> {
    let mut rows: Vec<Row> = Vec::new();
    let mut messages = Messages::default();
    let n = if dice.below(2) == 0 { most as usize } else { dice.below(most + 1) as usize };
    let files = 1 + u64::from(dice.below(2));
    while rows.len() < n {
        let file = dice.below(files);
        if dice.below(4) == 0 {
            rows.extend(hand_over(dice, &mut messages, processes, file));
        } else {
            rows.extend(any_row(dice, &mut messages, processes, file));
        }
    }
    rows.truncate(n);
    put_barriers(dice, &mut rows);
    rows
}

fn csv_of(rows: &[Row]) -> String {
    let mut s = String::new();
    for r in rows {
        let kind = kiqsaryn::KINDS[r.kind as usize];
        s.push_str(&match r.kind {
            READ | WRITE => format!("{},{kind},{},{},{},\r\n", r.process, r.file, r.offset, r.length),
            SEND | RECV | WAIT | BARRIER => format!("{},{kind},,,,{}\r\n", r.process, r.message),
            _ => format!("{},{kind},{},,,\r\n", r.process, r.file),
        });
    }
    s
}

fn random_text(dice: &mut Dice) -> Vec<u8> {
    let mut text = match dice.below(4) {
        0 => (0..dice.below(60)).map(|_| dice.below(256) as u8).collect(),
        1 => (0..dice.below(120)).map(|_| dice.of(b"0123459,,,\"\r\n\r\nreadwrite -")).collect(),
        _ => {
            let rows = csv_of(&random_rows(dice, 20, 4));
            [if dice.below(4) > 0 { NAMES } else { "" }, &rows].concat().into_bytes()
        }
    };
    for _ in 0..dice.of(&[0, 0, 0, 0, 1, 1, 2, 5]) {
        if text.is_empty() {
            break;
        }
        let at = dice.below(text.len() as u64) as usize;
        match dice.below(4) {
            0 => text.truncate(at),
            1 => text[at] = dice.below(256) as u8,
            2 => text.insert(at, dice.of(b"\",\r\n0991 x\0")),
            _ => {
                text.remove(at);
            }
        }
    }
    text
}

#[test]
fn no_input_makes_it_crash() {
    let mut dice = Dice(20_240_817);
    let mut seen = [0; 4];
    let most = PROCESSES.to_string();
    for k in 0..2_000 {
        let text = random_text(&mut dice);
        let header = match (text.starts_with(NAMES.as_bytes()), dice.below(8)) {
            (_, 0) => dice.of(&["yes", "no"]),
            (true, _) => "yes",
            (false, _) => "no",
        };
        let model = dice.of(&["posix", "commit", "session", "mpiio"]);
        let file = dice.below(3).to_string();
        let processes = dice.of(&["2", "4", "4", &most, &most]);
        let mut args = vec!["check", "-", "--header", header, "--processes", processes];
        match dice.below(8) {
            0 => args.extend(["--model", model, "--csv"]),
            1 => {
                args[0] = "replay";
                args.extend(["--model", model]);
            }
            2 => {
                args[0] = "diagram";
                args.extend(["--model", model]);
            }
            3 => args[0] = "write",
            4 => {
                args[0] = "races";
                args.extend(["--limit", "3", "--file", &file]);
            }
            _ => {}
        }
        let o = run(&args, &text);
        let code = o.status.code().unwrap_or(-1);
        assert!((0..=2).contains(&code), "input {k}: {args:?} {:?}", words_of(&text.escape_ascii().collect::<Vec<u8>>()));
        assert!(!err(&o).contains("panicked") && !out(&o).contains("please report"), "input {k}");
        if args[0] == "diagram" && code == 0 {
            well_formed(&out(&o));
        }
        seen[code as usize] += 1;
    }
    assert!(seen[0] > 200 && seen[1] > 100 && seen[2] > 500, "{seen:?}");
}

#[test]
fn csv_is_what_the_program_verdict_prints() {
    let mut dice = Dice(7_131_719);
    for k in 0..400 {
        let text = random_text(&mut dice);
        let o = run(&["check", "-", "--header", "yes", "--processes", "8", "--csv"], &text);
        assert_eq!(o.stdout, report(&text), "input {k}");
    }
}

// ---- Explanations against the definitions

/// Happens-before as the transitive closure of its edges, by row numbers from 1. Each row of a barrier comes before every row that follows a row of that
/// barrier in any process.
fn closure(rows: &[Row]) -> Vec<Vec<bool>> {
    let n = rows.len();
    let mut hb = vec![vec![false; n + 1]; n + 1];
    let of_barrier = |r: &Row, a: Row| a.kind == BARRIER && r.kind == BARRIER && r.message == a.message;
    for j in 1..=n {
        for i in 1..j {
            let (a, b) = (rows[i - 1], rows[j - 1]);
            let follows = rows[..j - 1].iter().any(|r| r.process == b.process && of_barrier(r, a));
            hb[i][j] = a.process == b.process || (a.kind == SEND && b.kind == WAIT && a.message == b.message) || follows;
        }
    }
    for k in 1..=n {
        for i in 1..=n {
            for j in 1..=n {
                hb[i][j] |= hb[i][k] && hb[k][j];
            }
        }
    }
    hb
}

/// The bytes that two rows share, one by one.
fn common_bytes(a: Row, b: Row) -> Vec<u32> {
    (a.offset..a.offset + a.length).filter(|x| (b.offset..b.offset + b.length).contains(x)).collect()
}

fn conflict(a: Row, b: Row) -> bool {
    let data = |r: Row| r.kind == READ || r.kind == WRITE;
    data(a)
        && data(b)
        && a.file == b.file
        && a.process != b.process
        && (a.kind == WRITE || b.kind == WRITE)
        && !common_bytes(a, b).is_empty()
}

/// The kinds of the model's chain.
fn publishes(model: Model, kind: u32) -> bool {
    match model {
        Model::Posix => false,
        Model::Commit => kind == COMMIT,
        Model::Session => kind == CLOSE,
        Model::MpiIo => kind == CLOSE || kind == SYNC,
    }
}

fn refreshes(model: Model, kind: u32) -> bool {
    match model {
        Model::Posix | Model::Commit => false,
        Model::Session => kind == OPEN,
        Model::MpiIo => kind == OPEN || kind == SYNC,
    }
}

/// A naive view of a trace: rows by number, and happens-before.
struct Naive {
    rows: Vec<Row>,
    hb: Vec<Vec<bool>>,
}

impl Naive {
    fn row(&self, k: u32) -> Row {
        self.rows[k as usize - 1]
    }

    fn before(&self, i: u32, j: u32) -> bool {
        self.hb[i as usize][j as usize]
    }

    fn numbers(&self) -> impl DoubleEndedIterator<Item = u32> {
        1..=self.rows.len() as u32
    }

    /// Rows of the process that publish the file after a row.
    fn published(&self, model: Model, file: u32, process: u32, after: u32) -> Vec<u32> {
        let of = |k: &u32| self.row(*k).process == process && self.row(*k).file == file;
        self.numbers().filter(of).filter(|k| *k > after && publishes(model, self.row(*k).kind)).collect()
    }

    fn refreshed(&self, model: Model, file: u32, process: u32, before: u32) -> Vec<u32> {
        let of = |k: &u32| self.row(*k).process == process && self.row(*k).file == file;
        self.numbers().filter(of).filter(|k| *k < before && refreshes(model, self.row(*k).kind)).collect()
    }

    /// Document 01's table, by trying every chain.
    fn synchronized(&self, model: Model, x: u32, y: u32) -> bool {
        let (a, b) = (self.row(x), self.row(y));
        let commits = self.published(model, a.file, a.process, x);
        match (a.kind, model) {
            (READ, _) | (_, Model::Posix) => self.before(x, y),
            (_, Model::Commit) => commits.iter().any(|c| self.before(*c, y)),
            _ => commits.iter().any(|c| self.refreshed(model, a.file, b.process, y).iter().any(|o| self.before(*c, *o))),
        }
    }

    fn first_race(&self, model: Model) -> Verdict {
        for later in self.numbers() {
            for earlier in 1..later {
                if conflict(self.row(earlier), self.row(later)) && !self.synchronized(model, earlier, later) {
                    return Verdict::Race { earlier, later };
                }
            }
        }
        Verdict::Free
    }

    fn holds(&self, e: &Explanation, claim: &Claim) -> bool {
        let (x, y) = (self.row(e.earlier), self.row(e.later));
        match *claim {
            Claim::NoPublish { process, after } => {
                process == x.process && after == e.earlier && self.published(e.model, e.file, process, after).is_empty()
            }
            Claim::FirstPublish { process, after, row } => {
                process == x.process && after == e.earlier && self.published(e.model, e.file, process, after).first() == Some(&row)
            }
            Claim::NoRefresh { process, before } => {
                process == y.process && before == e.later && self.refreshed(e.model, e.file, process, before).is_empty()
            }
            Claim::LastRefresh { process, before, row } => {
                process == y.process && before == e.later && self.refreshed(e.model, e.file, process, before).last() == Some(&row)
            }
            Claim::NotBefore { from, to } => {
                !self.before(from, to) && self.row(from).process != self.row(to).process && !reaches(&self.rows, from, to)
            }
            Claim::PostedOnly { posted, wait } => self.is_posted_only(posted, wait),
            Claim::LastBefore { process, row, last } => {
                let known = self.numbers().rev().find(|k| self.row(*k).process == process && self.before(*k, row));
                known == last && self.row(row).process != process && last.is_none_or(|k| [SEND, BARRIER].contains(&self.row(k).kind))
            }
        }
    }

    /// Whether a receive is posted and its message sent before a row of the poster, who waits for it at this row behind, or never.
    fn is_posted_only(&self, posted: Posted, wait: Option<u32>) -> bool {
        let (recv, send, before) = (self.row(posted.recv), self.row(posted.send), self.row(posted.before));
        let waits = |k: &u32| self.row(*k).kind == WAIT && self.row(*k).message == recv.message;
        (recv.kind, send.kind, send.message, before.process) == (RECV, SEND, recv.message, recv.process)
            && posted.recv.max(posted.send) < posted.before
            && self.numbers().find(waits) == wait
            && wait.is_none_or(|k| k > posted.before && self.row(k).process == recv.process)
    }

    /// The rows with a wait for each of these receives put before its row, in the place of one behind; and for each old number the new one.
    fn mended(&self, posted: &[Posted]) -> (Vec<Row>, Vec<u32>) {
        let (mut rows, mut numbers) = (Vec::new(), vec![0]);
        for k in self.numbers() {
            let waits = posted.iter().filter(|p| p.before == k).map(|p| Row { kind: WAIT, ..self.row(p.recv) });
            rows.extend(waits);
            let row = self.row(k);
            let moved = row.kind == WAIT && posted.iter().any(|p| self.row(p.recv).message == row.message);
            rows.extend((!moved).then_some(row));
            numbers.push(rows.len() as u32);
        }
        (rows, numbers)
    }

    /// Whether the one row would come before the other with waits for these receives in time.
    fn would_reach(&self, posted: &[Posted], from: u32, to: u32) -> bool {
        let (rows, numbers) = self.mended(posted);
        read_rows(&csv_of(&rows), 3);
        reaches(&rows, numbers[from as usize], numbers[to as usize])
    }

    /// Every receive whose message is sent, and the first row of its process behind both, if there is one.
    fn all_posted(&self) -> Vec<Posted> {
        let of = |kind: u32| self.numbers().filter(move |k| self.row(*k).kind == kind);
        let pairs = of(RECV).flat_map(|recv| of(SEND).map(move |send| (recv, send)));
        let pairs = pairs.filter(|(recv, send)| self.row(*recv).message == self.row(*send).message);
        let behind = |recv: u32, send: u32| self.numbers().find(|k| *k > recv.max(send) && self.row(*k).process == self.row(recv).process);
        pairs.filter_map(|(recv, send)| Some(Posted { recv, send, before: behind(recv, send)? })).collect()
    }

    /// Fails unless waits for the receives that are claimed to be posted only would bring the order, each of them is needed, and where none is claimed
    /// no waits would. How many are claimed.
    fn tries_waits(&self, e: &Explanation) -> usize {
        let (mut from, mut to, mut posted) = (e.earlier, e.later, Vec::new());
        for claim in &e.claims {
            match *claim {
                Claim::FirstPublish { row, .. } => from = row,
                Claim::LastBefore { row, .. } => to = row,
                Claim::PostedOnly { posted: one, .. } => posted.push(one),
                _ => {}
            }
        }
        if posted.is_empty() {
            assert!(self.before(from, to) || from > to || !self.would_reach(&self.all_posted(), from, to), "{e:?}");
            return 0;
        }
        assert!(!self.before(from, to) && self.would_reach(&posted, from, to), "{e:?}");
        for k in 0..posted.len() {
            let rest = [&posted[..k], &posted[k + 1..]].concat();
            assert!(!self.would_reach(&rest, from, to), "{e:?} without {:?}", posted[k]);
        }
        posted.len()
    }

    /// Whether the claims leave no chain: a side of it has no row, or its best rows are not in order.
    fn settles(&self, e: &Explanation) -> bool {
        let read = self.row(e.earlier).kind == READ;
        let mut from = (read || e.model == Model::Posix).then_some(e.earlier);
        let mut to = (read || matches!(e.model, Model::Posix | Model::Commit)).then_some(e.later);
        for claim in &e.claims {
            match *claim {
                Claim::NoPublish { .. } if from.is_none() => return true,
                Claim::NoRefresh { .. } if to.is_none() => return true,
                Claim::FirstPublish { row, .. } if from.is_none() => from = Some(row),
                Claim::LastRefresh { row, .. } if to.is_none() => to = Some(row),
                Claim::NotBefore { from: a, to: b } => return from == Some(a) && to == Some(b),
                _ => {}
            }
        }
        false
    }
}

/// Whether a message or a barrier leads from the one row's process after it to the other row's process before that row, directly or through other
/// processes: the processes that have it, row by row. A process has it behind its wait for a message that carries it, and where it goes on from a
/// barrier that does.
fn reaches(rows: &[Row], from: u32, to: u32) -> bool {
    let row = |k: u32| rows[k as usize - 1];
    let mut has = vec![row(from).process];
    let mut carried = Vec::new();
    for k in from + 1..=to {
        let r = row(k);
        let passed = |b: &Row| b.process == r.process && b.kind == BARRIER && carried.contains(&(BARRIER, b.message));
        if rows[..k as usize - 1].iter().any(passed) {
            has.push(r.process);
        }
        if [SEND, BARRIER].contains(&r.kind) && has.contains(&r.process) {
            carried.push((r.kind, r.message));
        }
        if k < to && r.kind == WAIT && carried.contains(&(SEND, r.message)) {
            has.push(r.process);
        }
    }
    from < to && has.contains(&row(to).process)
}

/// The rows as the library reads them, with their counts.
fn read_rows(text: &str, processes: u32) -> (Vec<u32>, u32, Vec<u16>) {
    let mut rows = vec![0; 100 * 6];
    let mut counts = vec![0; 100 * processes as usize];
    let settings = Settings { header: 0, model: 0, row_limit: 100, process_limit: processes, byte_limit: usize::MAX };
    let Checked::Accepted(n) = check_trace(text.as_bytes(), settings, &mut rows, &mut counts) else {
        panic!("an accepted trace: {text}");
    };
    assert!(fill_counts(&rows, n, processes, &mut counts).is_ok());
    (rows, n, counts)
}

/// What random traces came to: races, conflicting pairs in order, verdicts with a race, claims of each kind, and explanations by the number of receives
/// that they claim to be posted only.
#[derive(Default, Debug)]
struct Seen {
    races: u32,
    in_order: u32,
    racing: u32,
    claims: [u32; 7],
    posted: [u32; 4],
}

fn place_of(claim: &Claim) -> usize {
    match claim {
        Claim::NoPublish { .. } => 0,
        Claim::FirstPublish { .. } => 1,
        Claim::NoRefresh { .. } => 2,
        Claim::LastRefresh { .. } => 3,
        Claim::NotBefore { .. } => 4,
        Claim::LastBefore { .. } => 5,
        Claim::PostedOnly { .. } => 6,
    }
}

/// Fails unless two rows have an explanation exactly where they race, and all of it holds.
fn compare_pair(naive: &Naive, given: &Rows, model: Model, (earlier, later): (u32, u32), seen: &mut Seen) {
    let (x, y) = (naive.row(earlier), naive.row(later));
    let e = explain(given, model, earlier, later);
    let text = || csv_of(&naive.rows);
    assert_eq!(e.is_some(), conflict(x, y) && !naive.synchronized(model, earlier, later), "{model:?}, {earlier}, {later}: {}", text());
    let Some(e) = e else {
        seen.in_order += u32::from(conflict(x, y));
        return;
    };
    let bytes = common_bytes(x, y);
    assert_eq!((Some(&e.shared.0), Some(&e.shared.1)), (bytes.first(), bytes.last()));
    assert_eq!((e.model, e.file, e.earlier, e.later), (model, x.file, earlier, later));
    for claim in &e.claims {
        assert!(naive.holds(&e, claim), "{claim:?} of {e:?}: {}", text());
        seen.claims[place_of(claim)] += 1;
    }
    assert!(naive.settles(&e), "{e:?}: {}", text());
    seen.posted[naive.tries_waits(&e).min(3)] += 1;
    let w = words::words(&e, given, &mut |k| format!("row {k}")).expect("words");
    assert_eq!(w.lines.len(), e.claims.len() + 1);
    seen.races += 1;
}

#[test]
fn every_claim_of_every_explanation_holds() {
    let mut dice = Dice(99_991);
    let mut seen = Seen::default();
    for _ in 0..6_000 {
        let most = 6 + u64::from(dice.below(30));
        let rows = random_rows(&mut dice, most, 3);
        let (numbers, n, counts) = read_rows(&csv_of(&rows), 3);
        let given = Rows { rows: &numbers, n, processes: 3, counts: &counts };
        let naive = Naive { hb: closure(&rows), rows };
        for model in Model::ALL {
            let mut scratch = vec![0; counts.len()];
            let judged = verdict(&numbers, n, 3, model.number(), &mut scratch);
            assert_eq!(judged, naive.first_race(model), "{}", csv_of(&naive.rows));
            seen.racing += u32::from(judged != Verdict::Free);
            for later in 1..=n {
                (1..later).for_each(|earlier| compare_pair(&naive, &given, model, (earlier, later), &mut seen));
            }
        }
    }
    let enough = seen.races > 5_000 && seen.in_order > 500 && seen.racing > 1_000 && seen.claims.iter().all(|n| *n > 300);
    assert!(enough && seen.posted[1] > 1_000 && seen.posted[2] > 20, "{seen:?}");
}

/// The bytes that two racing rows share, and the sentences on them.
fn explained(text: &str, model: Model, earlier: u32, later: u32) -> (String, String) {
    let (numbers, n, counts) = read_rows(text, 3);
    let given = Rows { rows: &numbers, n, processes: 3, counts: &counts };
    let e = explain(&given, model, earlier, later).expect("a race");
    let w = words::words(&e, &given, &mut |k| format!("row {k}")).expect("words");
    let lines: Vec<String> = w.lines.iter().map(|(label, line)| format!("{label}: {line}")).collect();
    (w.shared, lines.join("\n"))
}

#[test]
fn sentences() {
    let rows = "2,recv,,,,7\r\n0,write,1,0,10,\r\n0,send,,,,7\r\n0,sync,1,,,\r\n2,wait,,,,7\r\n\
                2,open,1,,,\r\n2,read,1,9,10,\r\n1,write,1,0,1,\r\n0,commit,1,,,\r\n";
    let (shared, lines) = explained(rows, Model::Commit, 2, 7);
    assert_eq!(shared, "byte 9 of file 1");
    assert_eq!(
        lines,
        "Needed: process 0 commits file 1 after row 2, and that commit happens before row 7.\n\
         Found: process 0's first commit of file 1 after row 2 is row 9.\n\
         Missing: row 9 does not happen before row 7: it stands behind it in the trace.\n\
         Order: the last row of process 0 that happens before row 7 is row 3 (send of message 7)."
    );
    assert_eq!(
        explained(rows, Model::MpiIo, 2, 7).1,
        "Needed: process 0 closes or syncs file 1 after row 2, process 2 opens or syncs it before row 7, \
         and the first of these happens before the second.\n\
         Found: process 0's first close or sync of file 1 after row 2 is row 4 (sync).\n\
         Found: process 2's last open or sync of file 1 before row 7 is row 6 (open).\n\
         Missing: row 4 does not happen before row 6: no message or barrier leads from process 0 after row 4 to process 2 \
         before row 6, directly or through other processes.\n\
         Order: the last row of process 0 that happens before row 6 is row 3 (send of message 7)."
    );
    assert_eq!(
        explained(rows, Model::Session, 2, 8).1,
        "Needed: process 0 closes file 1 after row 2, process 1 opens it before row 8, and that close happens before that open.\n\
         Missing: process 0 has no close of file 1 after row 2.\n\
         Missing: process 1 has no open of file 1 before row 8.\n\
         Order: no row of process 0 happens before row 8."
    );
}

/// The sentence on a receive that is posted and not waited for in time stands where a wait would bring the order, and else not.
#[test]
fn receives_that_are_only_posted_are_told() {
    let missing = |from, process, to| {
        format!(
            "Missing: row {from} does not happen before row {to}: no message or barrier leads from process 0 after row {from} to \
             process {process} before row {to}, directly or through other processes.\n"
        )
    };
    // Nobody waits; the receive may be posted before the send.
    for rows in [["0,send,,,,7\r\n", "1,recv,,,,7\r\n"], ["1,recv,,,,7\r\n", "0,send,,,,7\r\n"]] {
        let text = ["0,write,1,0,10,\r\n", rows[0], rows[1], "1,read,1,5,10,\r\n"].concat();
        let (recv, send) = if rows[0].contains("send") { (3, 2) } else { (2, 3) };
        let told = format!(
            "Needed: row 1 happens before row 4.\n{}Posted: row {recv} posts a receive for message 7, which row {send} sends, and no row \
             of process 1 before row 4 waits for it: a posted receive gives no order by itself.\nOrder: no row of process 0 happens \
             before row 4.",
            missing(1, 1, 4)
        );
        assert_eq!(explained(&text, Model::Posix, 1, 4).1, told);
    }
    // The wait comes too late.
    let late = "0,write,1,0,10,\r\n0,send,,,,7\r\n1,recv,,,,7\r\n1,read,1,5,10,\r\n1,wait,,,,7\r\n1,read,1,0,1,\r\n";
    let told = "\nPosted: row 3 posts a receive for message 7, which row 2 sends, and process 1 waits for it only at row 5, behind row 4: \
                a posted receive gives no order by itself.\n";
    assert!(explained(late, Model::Posix, 1, 4).1.contains(told), "{}", explained(late, Model::Posix, 1, 4).1);
    assert!(!explained(late, Model::Commit, 1, 6).1.contains("Posted:"));
    // Two waits are missing, one of them of a process in between.
    let chain = "0,write,1,0,10,\r\n0,send,,,,7\r\n2,recv,,,,7\r\n2,send,,,,8\r\n1,recv,,,,8\r\n1,read,1,5,10,\r\n";
    let told = "Posted: row 3 posts a receive for message 7, which row 2 sends, and no row of process 2 before row 4 waits for it: \
                a posted receive gives no order by itself.\n\
                Posted: row 5 posts a receive for message 8, which row 4 sends, and no row of process 1 before row 6 waits for it: \
                a posted receive gives no order by itself.\n";
    assert!(explained(chain, Model::Posix, 1, 6).1.contains(told), "{}", explained(chain, Model::Posix, 1, 6).1);
}

/// No wait would help: the receive is posted behind the read, its message is sent behind it, or before the write.
#[test]
fn receives_that_no_wait_would_help_are_not_told() {
    for rows in [
        "0,write,1,0,10,\r\n0,send,,,,7\r\n1,read,1,5,10,\r\n1,recv,,,,7\r\n",
        "1,recv,,,,7\r\n0,write,1,0,10,\r\n1,read,1,5,10,\r\n0,send,,,,7\r\n",
        "0,send,,,,7\r\n0,write,1,0,10,\r\n1,recv,,,,7\r\n1,read,1,5,10,\r\n",
    ] {
        let number = |kind: &str| rows.lines().position(|line| line.contains(kind)).expect("a row") as u32 + 1;
        let told = explained(rows, Model::Posix, number("write"), number("read")).1;
        assert!(told.contains("Missing: ") && !told.contains("Posted:"), "{told}");
    }
}

/// The order comes through a barrier as far as its rows, and from there through messages, of the same number or of another.
#[test]
fn sentences_on_barriers() {
    let rows = "0,write,1,0,10,\r\n0,barrier,,,,5\r\n2,barrier,,,,5\r\n1,barrier,,,,5\r\n0,commit,1,,,\r\n1,read,1,5,10,\r\n\
                2,recv,,,,5\r\n0,send,,,,5\r\n2,wait,,,,5\r\n0,close,1,,,\r\n2,read,1,9,1,\r\n";
    let told = |from: u32, process: u32, to: u32| {
        format!(
            "Found: process 0's first commit of file 1 after row 1 is row {from}.\n\
             Missing: row {from} does not happen before row {to}: no message or barrier leads from process 0 after row {from} to process \
             {process} before row {to}, directly or through other processes.\n\
             Order: the last row of process 0 that happens before row {to} is row 2 (arrival at barrier 5)."
        )
    };
    assert!(explained(rows, Model::Commit, 1, 6).1.ends_with(&told(5, 1, 6)), "{}", explained(rows, Model::Commit, 1, 6).1);
    assert_eq!(
        explained(rows, Model::Session, 1, 11).1,
        "Needed: process 0 closes file 1 after row 1, process 2 opens it before row 11, and that close happens before that open.\n\
         Found: process 0's first close of file 1 after row 1 is row 10.\n\
         Missing: process 2 has no open of file 1 before row 11.\n\
         Order: the last row of process 0 that happens before row 11 is row 8 (send of message 5)."
    );
    // Rows of one barrier are not ordered among themselves, nor is what stands before it.
    let before = "1,read,1,5,10,\r\n1,barrier,,,,5\r\n0,write,1,0,10,\r\n0,barrier,,,,5\r\n";
    assert!(explained(before, Model::Posix, 1, 3).1.ends_with("\nOrder: no row of process 1 happens before row 3."));
}

/// A full trace, of as many rows and processes as there can be, goes through every command.
#[test]
fn a_full_trace() {
    let mut text = "0,sync,1,,,\r\n".to_string();
    for k in 0..819 {
        let (p, q) = (k % PROCESSES, (k + 1) % PROCESSES);
        text.push_str(&format!("{q},recv,,,,{k}\r\n{p},write,1,{},90,\r\n{p},commit,1,,,\r\n", p * 100));
        text.push_str(&format!("{p},send,,,,{k}\r\n{q},wait,,,,{k}\r\n"));
    }
    assert_eq!(text.lines().count(), 4096);
    for (args, expected) in [
        (&["check", "--model", "commit"][..], 0),
        (&["check"], 0),
        (&["races"], 0),
        (&["replay", "--file", "1", "--model", "session"], 0),
        (&["write"], 0),
    ] {
        let args: Vec<&str> = args.iter().copied().chain(["-", "--header", "no"]).collect();
        let o = run(&args, text.as_bytes());
        assert_eq!(status(&o), expected, "{args:?}: {}", err(&o));
        assert!(!o.stdout.is_empty());
    }
}
