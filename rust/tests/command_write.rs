//! `kiqsaryn write`: the text that it writes, what it says of it and where, and the files that it writes to and leaves alone.

#![allow(dead_code)]

#[path = "../src/bin/kiqsaryn/args.rs"]
mod args;
#[path = "../src/bin/kiqsaryn/explain.rs"]
mod explain;
#[path = "../src/bin/kiqsaryn/fields.rs"]
mod fields;
#[path = "../src/bin/kiqsaryn/input.rs"]
mod input;
#[path = "../src/bin/kiqsaryn/mend.rs"]
mod mend;
mod naive;
#[path = "../src/bin/kiqsaryn/near.rs"]
mod near;
#[path = "../src/bin/kiqsaryn/posted.rs"]
mod posted;
#[path = "../src/bin/kiqsaryn/recording.rs"]
mod recording;
mod running;
#[path = "../src/bin/kiqsaryn/standard.rs"]
mod standard;
#[path = "../src/bin/kiqsaryn/table.rs"]
mod table;
#[path = "../src/bin/kiqsaryn/text.rs"]
mod text;
#[path = "../src/bin/kiqsaryn/write.rs"]
mod write;

use kiqsaryn::{Settings, BARRIER, COMMIT, PROCESSES, ROWS, WAIT};
use naive::reading;
use running::folder::{failed, silent, Folder};
use running::{err, example_traces, out, run, status};
use std::fs;
use std::os::unix::fs::symlink;
use std::process::Output;

const NAMES: &str = "process,kind,file,offset,length,message\r\n";

/// A trace as hands leave it: fields in quotes, and no line end behind the last record.
const BY_HAND: &str =
    "\"0\",\"write\",1,\"0\",10,\"\"\r\n0,\"send\",\"\",,,7\r\n\"1\",recv,,,,\"7\"\r\n1,\"wait\",,,,7\r\n1,read,1,5,\"10\",";
const CLEAN: &str = "0,write,1,0,10,\r\n0,send,,,,7\r\n1,recv,,,,7\r\n1,wait,,,,7\r\n1,read,1,5,10,\r\n";
/// How many rows it has.
const HAND_ROWS: usize = 5;

/// What is said of a trace that was read and written: its name and where the text went, and for each bytes, header and rows.
fn said(name: &str, read: (usize, bool, usize), output: &str, written: (usize, bool, usize)) -> String {
    let many = |n: usize, one: &str| format!("  {n} {one}{}\n", if n == 1 { "" } else { "s" });
    let lines = |(bytes, header, rows): (usize, bool, usize)| {
        let header = if header { "yes (the first record is no row)" } else { "no (the first record is row 1)" };
        format!("{}  header: {header}\n{}", many(bytes, "byte"), many(rows, "row"))
    };
    format!("Trace: {name}\n\nRead, to hold against the recorder:\n{}\nWritten to {output}:\n{}", lines(read), lines(written))
}

/// Status 0, the text on standard output and the words on standard error.
fn wrote(o: &Output, text: &str, words: &str) {
    assert_eq!((out(o).as_str(), err(o).as_str(), status(o)), (text, words, 0));
}

/// Status 0, the words on standard output and nothing on standard error.
fn told(o: &Output, words: &str) {
    assert_eq!((out(o).as_str(), err(o), status(o)), (words, String::new(), 0));
}

// ---- The text

#[test]
fn a_trace_by_hand_is_cleaned() {
    let read = (BY_HAND.len(), false, HAND_ROWS);
    let words = |header: bool, len: usize| said("standard input", read, "standard output", (len, header, HAND_ROWS));
    let headed = [NAMES, CLEAN].concat();
    for args in [&["--header", "no"][..], &["--header=no", "--out-header=no"], &["--header", "no", "-o", "-", "--processes", "2"]] {
        wrote(&run(&[&["write", "-"], args].concat(), BY_HAND.as_bytes()), CLEAN, &words(false, CLEAN.len()));
    }
    let o = run(&["write", "-", "--header", "no", "--out-header", "yes"], BY_HAND.as_bytes());
    wrote(&o, &headed, &words(true, headed.len()));
}

#[test]
fn the_header_is_kept_put_or_dropped() {
    let quoted = "process,\"kind\",file,offset,\"length\",message\r\n";
    let input = [quoted, BY_HAND].concat();
    let headed = [NAMES, CLEAN].concat();
    let read = (input.len(), true, HAND_ROWS);
    for (out_header, text) in [(None, headed.as_str()), (Some("yes"), &headed), (Some("no"), CLEAN)] {
        let mut args = vec!["write", "--header", "yes", "-"];
        args.extend(out_header.iter().flat_map(|word| ["--out-header", word]));
        let words = said("standard input", read, "standard output", (text.len(), out_header != Some("no"), HAND_ROWS));
        wrote(&run(&args, input.as_bytes()), text, &words);
    }
}

#[test]
fn a_trace_without_rows() {
    for (header, out_header, input, text) in
        [("no", "no", "", ""), ("no", "yes", "", NAMES), ("yes", "yes", NAMES, NAMES), ("yes", "no", NAMES, "")]
    {
        let o = run(&["write", "-", "--header", header, "--out-header", out_header], input.as_bytes());
        let (read, written) = ((input.len(), header == "yes", 0), (text.len(), out_header == "yes", 0));
        wrote(&o, text, &said("standard input", read, "standard output", written));
    }
    let o = run(&["write", "-", "--header", "no"], b"21,sync,0,,,");
    let words = said("standard input", (12, false, 1), "standard output", (14, false, 1));
    wrote(&o, "21,sync,0,,,\r\n", &words);
}

/// The examples are plain already. What is written of them is what was read.
#[test]
fn a_plain_trace_is_written_as_it_was() {
    for path in example_traces() {
        let name = path.file_name().and_then(|n| n.to_str()).expect("a name");
        let text = fs::read_to_string(&path).expect("the trace");
        let o = run(&["write", name, "--header", "yes"], b"");
        if fs::read_to_string(path.with_extension("out")).expect("the output beside it").starts_with("refused") {
            assert_eq!((status(&o), out(&o)), (2, String::new()), "{name}");
            assert_eq!(err(&o), out(&run(&["check", name, "--header", "yes"], b"")), "{name}");
        } else {
            let size = (text.len(), true, text.lines().count() - 1);
            wrote(&o, &text, &said(name, size, "standard output", size));
        }
    }
}

/// The same rows with quotes around every field, and again without: the naive reader finds the same rows in both, and a second writing changes
/// no byte.
#[test]
fn what_is_written_is_accepted_and_written_again_byte_for_byte() {
    for path in example_traces() {
        let text = fs::read_to_string(&path).expect("the trace");
        let quote = |line: &str| line.split(',').map(|field| format!("\"{field}\"")).collect::<Vec<_>>().join(",");
        let quoted = text.lines().map(quote).collect::<Vec<_>>().join("\r\n");
        let once = run(&["write", "-", "--header", "yes", "--out-header", "no"], quoted.as_bytes());
        if status(&once) == 2 {
            continue;
        }
        let s = |header| Settings { header, model: 0, row_limit: ROWS, process_limit: PROCESSES, byte_limit: usize::MAX };
        let rows = |text: &[u8], header| reading::check(text, s(header), usize::MAX, usize::MAX).expect("an accepted trace");
        assert_eq!(rows(&once.stdout, 0), rows(quoted.as_bytes(), 1), "{}", path.display());
        let again = run(&["write", "-", "--header", "no"], &once.stdout);
        assert_eq!((status(&again), out(&again)), (0, out(&once)), "{}", path.display());
        let verdicts = |text: &[u8], header| out(&run(&["check", "-", "--header", header, "--csv"], text));
        assert_eq!(verdicts(&once.stdout, "no"), verdicts(text.as_bytes(), "yes"), "{}", path.display());
    }
}

/// A full trace, every field in quotes and as long as can be.
#[test]
fn the_longest_trace() {
    let fields = [&(PROCESSES - 1).to_string(), "write", "63", "2147483647", "2147483648", ""];
    let quoted = (fields.map(|f| format!("\"{f}\"")).join(",") + "\r\n").repeat(ROWS as usize);
    let plain = (fields.join(",") + "\r\n").repeat(ROWS as usize);
    let o = run(&["write", "-", "--header", "no"], quoted.as_bytes());
    let rows = ROWS as usize;
    wrote(&o, &plain, &said("standard input", (quoted.len(), false, rows), "standard output", (plain.len(), false, rows)));
    let o = run(&["write", "-", "--header", "no"], (quoted + "0,sync,0,,,").as_bytes());
    assert_eq!((status(&o), out(&o)), (2, String::new()));
}

/// The library never refuses rows that it has read. If it did, the command would say so.
#[test]
fn a_refusal_of_the_writer_is_told_as_an_error() {
    let trace = |n: u32, rows: &[u32]| {
        let (name, text, mended) = ("x".to_string(), Vec::new(), Vec::new());
        let recording = recording::Recording { name, text, header: false, n, rows: rows.to_vec(), bytes: 0, mended };
        input::Trace { source: input::Recorded::Alone(recording), processes: 2, counts: Vec::new() }
    };
    for (n, rows, words) in [
        (2, &[0, COMMIT, 1, 0, 0, 0][..], "the text cannot be written: refusal 1, Are the lent slices long enough?"),
        (1, &[0, BARRIER + 1, 1, 0, 0, 0], "row 1 cannot be written: refusal 8, Is the kind "),
        (1, &[0, WAIT, 0, 0, 0, 7], "row 1 cannot be written: refusal 21, Was the wait's message posted "),
        (2, &[0, BARRIER, 0, 0, 0, 7, 1, COMMIT, 1, 0, 0, 0], "row 2 cannot be written: refusal 22, Does no process arrive "),
        (2, &[0, COMMIT, 1, 0, 0, 0, 2, COMMIT, 1, 0, 0, 0], "row 2 cannot be written: refusal 10, "),
    ] {
        let e = write::text(&trace(n, rows), false).expect_err("a refusal");
        assert!(e.starts_with(words) && e.ends_with(" Please report this trace."), "{e}");
    }
}

// ---- The command line

#[test]
fn wrong_command_lines_have_status_3() {
    let wrong: &[&[&str]] = &[
        &["write"],
        &["write", "commit_free.csv"],
        &["write", "commit_free.csv", "--out-header", "yes"],
        &["write", "commit_free.csv", "--header", "maybe"],
        &["write", "commit_free.csv", "--header", "yes", "--out-header"],
        &["write", "commit_free.csv", "--header", "yes", "--out-header", "maybe"],
        &["write", "commit_free.csv", "--header", "yes", "--out-header", ""],
        &["write", "commit_free.csv", "--header", "yes", "--out-header", "yes", "--out-header", "yes"],
        &["write", "commit_free.csv", "--header", "yes", "--model", "commit"],
        &["write", "commit_free.csv", "--header", "yes", "--csv"],
        &["write", "commit_free.csv", "--header", "yes", "-o"],
        &["write", "commit_free.csv", "--header", "yes", "-o", "x", "-o", "x"],
        &["write", "commit_free.csv", "no_message.csv", "--header", "yes"],
        &["write", "no_such_file.csv", "--header", "yes"],
        &["check", "commit_free.csv", "--header", "yes", "--out-header", "yes"],
        &["diagram", "commit_free.csv", "--header", "yes", "--out-header", "yes"],
    ];
    for args in wrong {
        let o = run(args, b"");
        assert_eq!((status(&o), out(&o)), (3, String::new()), "{args:?}");
        assert!(err(&o).starts_with("kiqsaryn: ") && !err(&o).contains("panicked"), "{args:?}: {}", err(&o));
    }
    let o = run(&["write", "commit_free.csv", "--header", "yes", "--out-header", "maybe"], b"");
    assert_eq!(err(&o), "kiqsaryn: --out-header is yes or no, not \"maybe\"\nkiqsaryn write --help shows the options.\n");
}

/// `--processes` holds for what is read, and so for what is written.
#[test]
fn processes_from_the_limit_on_are_refused() {
    let o = run(&["write", "-", "--header", "no", "--processes", "1"], BY_HAND.as_bytes());
    assert_eq!((status(&o), out(&o)), (2, String::new()));
    assert!(err(&o).contains("Refused: number 10, at row 3.") && err(&o).contains("(--processes 1)"), "{}", err(&o));
}

// ---- Files

/// What is said of the trace `hand.csv` written to a file without a header.
fn said_of_hand(output: &str) -> String {
    said("hand.csv", (BY_HAND.len(), false, HAND_ROWS), output, (CLEAN.len(), false, HAND_ROWS))
}

fn with_hand(name: &str) -> Folder {
    let f = Folder::new(name);
    f.put("hand.csv", BY_HAND, 0o644);
    f
}

#[test]
fn a_file_is_made_or_replaced() {
    let f = with_hand("write-file");
    for _ in 0..2 {
        told(&f.sh("umask 027; kiqsaryn write hand.csv --header no -o clean.csv"), &said_of_hand("clean.csv"));
        assert_eq!((f.read("clean.csv"), f.mode("clean.csv")), (CLEAN.into(), 0o640));
    }
    f.put("old.csv", &"old ".repeat(5_000), 0o604);
    symlink("old.csv", f.path("link.csv")).expect("a link");
    told(&f.sh("kiqsaryn write - --header no -o link.csv < hand.csv"), &said_of_hand("link.csv").replace("hand.csv", "standard input"));
    assert_eq!((f.read("old.csv"), f.mode("old.csv")), (CLEAN.into(), 0o604));
    told(&f.sh("kiqsaryn write - --header no -o none.csv < /dev/null"), &said("standard input", (0, false, 0), "none.csv", (0, false, 0)));
    assert_eq!(f.read("none.csv"), b"");
    told(&f.sh("kiqsaryn write hand.csv --header no -o /dev/null"), &said_of_hand("/dev/null"));
    assert_eq!(f.names(), ["clean.csv", "hand.csv", "link.csv", "none.csv", "old.csv", "t.csv"]);
    assert_eq!(f.read("hand.csv"), BY_HAND.as_bytes());
}

/// Where the text goes to standard output, by whatever name, nothing else does.
#[test]
fn words_do_not_go_where_the_text_goes() {
    let f = with_hand("write-words");
    let write = "kiqsaryn write hand.csv --header no";
    for (line, name) in [
        (write.to_string(), "standard output"),
        (format!("{write} -o -"), "standard output"),
        (format!("{write} -o /dev/stdout"), "/dev/stdout"),
        (format!("{write} -o /dev/stdout | cat"), "/dev/stdout"),
        (format!("{write} -o /dev/fd/3 3>&1"), "/dev/fd/3"),
        (format!("{write} -o new.csv > new.csv; cat new.csv"), "new.csv"),
        (format!("rm new.csv; ln -s new.csv soft.csv; {write} -o soft.csv >> new.csv; cat new.csv"), "soft.csv"),
    ] {
        wrote(&f.sh(&line), CLEAN, &said_of_hand(name));
    }
    let o = f.sh(&format!("exec 3> three; {write} -o /dev/fd/3; cat three >&2"));
    assert_eq!((out(&o), err(&o), status(&o)), (said_of_hand("/dev/fd/3"), CLEAN.to_string(), 0));
    let o = f.sh(&format!("mkfifo pipe; {write} -o pipe > words & cat pipe; wait $!; cat words >&2"));
    wrote(&o, CLEAN, &said_of_hand("pipe"));
    let o = f.sh(&format!("{write} 2>&-"));
    assert_eq!((out(&o), status(&o)), (CLEAN.to_string(), 0));
}

#[test]
fn the_trace_is_never_written_over() {
    let f = with_hand("write-over");
    f.make_folder("sub");
    fs::hard_link(f.path("hand.csv"), f.path("hard.csv")).expect("a hard link");
    symlink("../hand.csv", f.path("sub/soft.csv")).expect("a link");
    let names = f.names();
    for source in ["hand.csv", "- < hand.csv", "sub/soft.csv", "/dev/stdin < hard.csv"] {
        for output in ["hand.csv", "./sub/../hand.csv", "hard.csv", "sub/soft.csv"] {
            let line = format!("kiqsaryn write --header no -o {output} {source}");
            failed(&f.sh(&line), &line, "-o names the trace itself; nothing is written\n");
        }
        for output in ["", "-o -", "-o new.csv"] {
            for name in [">> hand.csv", ">> hard.csv", "1<> sub/soft.csv"] {
                let line = format!("kiqsaryn write --header no {output} {source} {name}");
                failed(&f.sh(&line), &line, "standard output is the trace itself; nothing is written\n");
            }
            // Words on standard error would go into the trace, so there are none.
            for name in ["2>> hand.csv", "2<> hard.csv", ">> hand.csv 2>&1"] {
                let o = f.sh(&format!("kiqsaryn write --header no {output} {source} {name}"));
                assert_eq!((out(&o), err(&o), status(&o)), (String::new(), String::new(), 3), "{output} {source} {name}");
            }
        }
    }
    assert_eq!((f.read("hand.csv"), f.read("hard.csv"), f.names()), (BY_HAND.into(), BY_HAND.into(), names));
}

#[test]
fn a_refused_trace_leaves_the_file_as_it_was() {
    let f = with_hand("write-refused");
    f.put("old.csv", "old", 0o644);
    for output in ["old.csv", "new.csv"] {
        let o = f.sh(&format!("kiqsaryn write hand.csv --header yes -o {output}"));
        assert_eq!((status(&o), out(&o), f.read("old.csv")), (2, String::new(), b"old".to_vec()));
        assert!(err(&o).contains("Refused: number 5, at the header."), "{}", err(&o));
    }
    assert_eq!(f.names(), ["hand.csv", "old.csv", "t.csv"]);
}

/// A text that is not written whole is not said to be, and leaves the old file.
#[test]
fn what_cannot_be_written_is_an_error() {
    let f = with_hand("write-failed");
    f.put("old.csv", "old", 0o644);
    f.put("long.csv", &"0,write,1,0,10,\r\n".repeat(4_096), 0o644);
    f.put("fast.csv", "old", 0o444);
    f.make_folder("sub");
    let names = f.names();
    for (line, words) in [
        ("kiqsaryn write hand.csv --header no -o /dev/full", "cannot write /dev/full: No space left on device"),
        ("kiqsaryn write hand.csv --header no -o sub", "cannot write sub: "),
        ("kiqsaryn write hand.csv --header no -o none/new.csv", "cannot write none/new.csv: "),
        ("kiqsaryn write hand.csv --header no -o fast.csv", "cannot write fast.csv: Permission denied"),
        ("kiqsaryn write hand.csv --header no -o ''", "cannot write : "),
        ("trap '' XFSZ; ulimit -f 1; exec kiqsaryn write long.csv --header no -o old.csv", "cannot write old.csv: File too large"),
        ("trap '' XFSZ; ulimit -f 1; exec kiqsaryn write long.csv --header no -o new.csv", "cannot write new.csv: File too large"),
        ("kiqsaryn write hand.csv --header no > /dev/full", "cannot write to standard output: No space left on device"),
        ("kiqsaryn write hand.csv --header no >&-", "cannot write to standard output: it is closed"),
        ("kiqsaryn write hand.csv --header no -o - >&-", "cannot write to standard output: it is closed"),
    ] {
        failed(&f.sh(line), line, words);
        assert_eq!((f.read("old.csv"), f.read("fast.csv"), f.names()), (b"old".to_vec(), b"old".to_vec(), names.clone()), "{line}");
    }
    let o = f.sh("{ kiqsaryn write long.csv --header no; echo $? >&2; } | head -c 1");
    assert_eq!((out(&o).as_str(), err(&o).as_str()), ("0", "3\n"));
}

/// The file is whole, and yet what was written cannot be told.
#[test]
fn words_that_cannot_be_said_are_an_error_once_the_file_is_written() {
    let f = with_hand("write-unsaid");
    for (output, why) in [(">&-", "it is closed"), ("> /dev/full", "No space left on device (os error 28)")] {
        let line = format!("kiqsaryn write hand.csv --header no -o clean.csv {output}");
        failed(&f.sh(&line), &line, &format!("cannot write to standard output: {why}; the file is written\n"));
        assert_eq!(f.read("clean.csv"), CLEAN.as_bytes());
        silent(&f.sh("rm clean.csv"));
    }
    assert_eq!(f.names(), ["hand.csv", "t.csv"]);
}
