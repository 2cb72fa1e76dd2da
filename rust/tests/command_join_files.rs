//! The files of a join by the command `kiqsaryn`: the traces that cannot be read, the joined trace that `-o` writes and what is said of it, and the
//! files that are left alone. Every test types command lines into a shell.

#[allow(dead_code)]
mod running;

use running::folder::{failed, silent, Folder};
use running::{err, out, status};
use std::fs;
use std::os::unix::fs::symlink;

const NAMES: &str = "process,kind,file,offset,length,message\r\n";

/// Two traces whose join has seven rows and no race under POSIX; the second has a header and fields in quotes.
const FIRST: &str = "0,write,1,0,10,\r\n0,send,,,,7\r\n0,recv,,,,8\r\n0,wait,,,,8";
const SECOND: &str = "process,kind,file,offset,length,message\r\n\"1\",recv,,,,\"7\"\r\n1,\"wait\",,,,7\r\n1,\"send\",\"\",,,8\r\n";
const JOINED: &str = "0,write,1,0,10,\r\n0,send,,,,7\r\n0,recv,,,,8\r\n1,recv,,,,7\r\n1,wait,,,,7\r\n1,send,,,,8\r\n0,wait,,,,8\r\n";

/// The command without its file.
const JOIN: &str = "kiqsaryn join a.csv b.csv --headers no,yes --model posix";

fn with_two(name: &str) -> Folder {
    let f = Folder::new(name);
    f.put("a.csv", FIRST, 0o644);
    f.put("b.csv", SECOND, 0o644);
    f
}

/// What is said of the two traces, and of the joined one that is written without a header.
fn said(f: &Folder, output: &str) -> String {
    let checked = out(&f.sh(&JOIN.replace("join", "check")));
    assert!(checked.ends_with("\nVerdicts:\n  posix    free\n"), "{checked}");
    format!("{checked}\nWritten to {output}:\n  {} bytes\n  header: no (the first record is row 1)\n  7 rows\n", JOINED.len())
}

// ---- What is written

#[test]
fn the_joined_trace_is_written_and_told() {
    let f = with_two("join-file");
    for _ in 0..2 {
        let o = f.sh(&format!("umask 027; {JOIN} -o c.csv"));
        assert_eq!((out(&o), err(&o), status(&o)), (said(&f, "c.csv"), String::new(), 0));
        assert_eq!((f.read("c.csv"), f.mode("c.csv")), (JOINED.into(), 0o640));
    }
    f.put("old.csv", &"old ".repeat(5_000), 0o604);
    symlink("old.csv", f.path("link.csv")).expect("a link");
    let o = f.sh("kiqsaryn join - b.csv --headers no,yes --model posix -o link.csv < a.csv");
    assert_eq!(status(&o), 0, "{}", err(&o));
    assert_eq!((f.read("old.csv"), f.mode("old.csv")), (JOINED.into(), 0o604));
    let o = f.sh(&format!("{JOIN} -o /dev/null"));
    assert_eq!((out(&o), status(&o)), (said(&f, "/dev/null"), 0));
    assert_eq!(f.names(), ["a.csv", "b.csv", "c.csv", "link.csv", "old.csv", "t.csv"]);
    assert_eq!((f.read("a.csv"), f.read("b.csv")), (FIRST.into(), SECOND.into()));
}

/// The header is as the first trace has it, or as `--out-header` says.
#[test]
fn the_header_is_that_of_the_first_trace_or_as_is_said() {
    let f = with_two("join-header");
    let headed = [NAMES, JOINED].concat();
    let [no, yes] = ["no (the first record is row 1)", "yes (the first record is no row)"];
    for (more, text, header) in [("", JOINED, no), ("--out-header no", JOINED, no), ("--out-header yes", &headed, yes)] {
        let o = f.sh(&format!("{JOIN} -o - {more}"));
        assert_eq!((out(&o).as_str(), status(&o)), (text, 0), "{more}");
        let written = format!("\nWritten to standard output:\n  {} bytes\n  header: {header}\n  7 rows\n", text.len());
        assert!(err(&o).ends_with(&written), "{more}: {}", err(&o));
    }
    f.put("d.csv", &[NAMES, FIRST].concat(), 0o644);
    let o = f.sh("kiqsaryn join d.csv b.csv --headers=yes,yes -o c.csv --csv");
    assert_eq!(out(&o), "model,verdict,earlier,later\r\nposix,free,,\r\ncommit,free,,\r\nsession,free,,\r\nmpiio,free,,\r\n");
    assert_eq!(f.read("c.csv"), headed.as_bytes());
}

/// Where the text goes to standard output, by whatever name, the words go to standard error.
#[test]
fn standard_output_has_the_text_alone() {
    let f = with_two("join-standard");
    for output in ["-o -", "-o /dev/stdout", "-o /dev/fd/1"] {
        let o = f.sh(&format!("{JOIN} {output} | cat"));
        assert_eq!((out(&o).as_str(), status(&o)), (JOINED, 0), "{output}");
        let name = if output == "-o -" { "standard output" } else { &output[3..] };
        assert_eq!(err(&o), said(&f, name), "{output}");
    }
    silent(&f.sh(&format!("{JOIN} -o - > c.csv 2> words")));
    assert_eq!((f.read("c.csv"), f.read("words")), (JOINED.into(), said(&f, "standard output").into()));
    silent(&f.sh(&format!("echo before > log; {JOIN} -o log >> log 2> words")));
    assert_eq!(f.read("log"), ["before\n", JOINED].concat().as_bytes());
}

#[test]
fn a_race_is_written_too() {
    let f = Folder::new("join-race");
    f.put("a.csv", "0,write,1,0,10,\r\n", 0o644);
    f.put("b.csv", "1,read,1,5,10,\r\n", 0o644);
    let o = f.sh("kiqsaryn join a.csv b.csv --headers no,no -o c.csv --csv");
    assert_eq!((status(&o), err(&o)), (1, String::new()));
    assert_eq!(out(&o), "model,verdict,earlier,later\r\nposix,race,1,2\r\ncommit,race,1,2\r\nsession,race,1,2\r\nmpiio,race,1,2\r\n");
    assert_eq!(f.read("c.csv"), b"0,write,1,0,10,\r\n1,read,1,5,10,\r\n");
}

// ---- What is left alone

#[test]
fn no_trace_is_written_over() {
    let f = with_two("join-over");
    f.make_folder("sub");
    fs::hard_link(f.path("a.csv"), f.path("hard.csv")).expect("a hard link");
    symlink("../b.csv", f.path("sub/soft.csv")).expect("a link");
    let names = f.names();
    for traces in ["a.csv b.csv", "- sub/soft.csv < a.csv", "hard.csv - < b.csv", "/dev/stdin b.csv < hard.csv"] {
        for output in ["a.csv", "b.csv", "./sub/../a.csv", "hard.csv", "sub/soft.csv"] {
            for command in ["join", "diagram"] {
                let line = format!("kiqsaryn {command} --headers no,yes -o {output} {traces}");
                failed(&f.sh(&line), &line, "-o names one of the traces; nothing is written\n");
            }
        }
        for command in
            ["join", "join -o -", "join -o new.csv", "check", "check --csv", "races", "replay --file 1 --model commit", "diagram"]
        {
            for name in [">> a.csv", ">> b.csv", "1<> hard.csv", ">> sub/soft.csv"] {
                let line = format!("kiqsaryn {command} --headers no,yes {traces} {name}");
                failed(&f.sh(&line), &line, "standard output is one of the traces; nothing is written\n");
            }
        }
        // Words on standard error would go into the trace, so there are none.
        for name in ["2>> a.csv", "2<> sub/soft.csv", ">> b.csv 2>&1"] {
            for output in ["-", "new.csv"] {
                let o = f.sh(&format!("kiqsaryn join -o {output} --headers no,yes {traces} {name}"));
                assert_eq!((out(&o), err(&o), status(&o)), (String::new(), String::new(), 3), "{output} {traces} {name}");
            }
        }
    }
    assert_eq!((f.read("a.csv"), f.read("b.csv"), f.names()), (FIRST.into(), SECOND.into(), names));
}

#[test]
fn a_refused_join_leaves_the_file_as_it_was() {
    let f = with_two("join-refused");
    f.put("old.csv", "old", 0o644);
    f.put("same.csv", "0,sync,1,,,\r\n", 0o644);
    f.put("stuck.csv", "1,wait,,,,99\r\n", 0o644);
    f.put("twice.csv", "1,send,,,,7\r\n", 0o644);
    f.put("lost.csv", "1,wait,,,,7\r\n", 0o644);
    for (second, number) in [("same.csv", 19), ("stuck.csv", 20), ("twice.csv", 12), ("lost.csv", 21), ("b.csv", 8), ("t.csv", 8)] {
        for output in ["old.csv", "new.csv"] {
            let o = f.sh(&format!("kiqsaryn join a.csv {second} --headers no,no -o {output}"));
            assert_eq!((status(&o), err(&o), f.read("old.csv")), (2, String::new(), b"old".to_vec()), "{second}");
            assert!(out(&o).contains(&format!("Refused: number {number}")), "{second}: {}", out(&o));
        }
    }
    assert_eq!(f.names(), ["a.csv", "b.csv", "lost.csv", "old.csv", "same.csv", "stuck.csv", "t.csv", "twice.csv"]);
}

/// A text that is not written whole is not said to be, and leaves the old file.
#[test]
fn what_cannot_be_written_is_an_error() {
    let f = with_two("join-failed");
    f.put("old.csv", "old", 0o644);
    f.put("fast.csv", "old", 0o444);
    f.put("long.csv", &"0,write,1,0,10,\r\n".repeat(4_000), 0o644);
    f.put("short.csv", "1,sync,1,,,\r\n", 0o644);
    f.make_folder("sub");
    let names = f.names();
    let long = "trap '' XFSZ; ulimit -f 1; exec kiqsaryn join long.csv short.csv --headers no,no";
    for (line, words) in [
        (format!("{JOIN} -o /dev/full"), "cannot write /dev/full: No space left on device"),
        (format!("{JOIN} -o sub"), "cannot write sub: "),
        (format!("{JOIN} -o none/new.csv"), "cannot write none/new.csv: "),
        (format!("{JOIN} -o fast.csv"), "cannot write fast.csv: Permission denied"),
        (format!("{JOIN} -o ''"), "cannot write : "),
        (format!("{long} -o old.csv"), "cannot write old.csv: File too large"),
        (format!("{long} -o new.csv"), "cannot write new.csv: File too large"),
        (format!("{JOIN} > /dev/full"), "cannot write to standard output: No space left on device"),
        (format!("{JOIN} >&-"), "cannot write to standard output: it is closed"),
        (format!("{JOIN} -o - > /dev/full"), "cannot write to standard output: No space left on device"),
        (format!("{JOIN} -o - >&-"), "cannot write to standard output: it is closed"),
        (format!("{JOIN} 1< /dev/null"), "cannot write to standard output: Bad file descriptor"),
    ] {
        failed(&f.sh(&line), &line, words);
        assert_eq!((f.read("old.csv"), f.read("fast.csv"), f.names()), (b"old".to_vec(), b"old".to_vec(), names.clone()), "{line}");
    }
    let o = f.sh("{ kiqsaryn join long.csv short.csv --headers no,no -o -; echo $? >&2; } | head -c 1");
    assert_eq!(out(&o), "0");
    assert_eq!(err(&o), "3\n");
}

/// The file is whole, and yet what was written cannot be told.
#[test]
fn words_that_cannot_be_said_are_an_error_once_the_file_is_written() {
    let f = with_two("join-unsaid");
    for (output, why) in [(">&-", "it is closed"), ("> /dev/full", "No space left on device (os error 28)")] {
        let line = format!("{JOIN} -o c.csv {output}");
        failed(&f.sh(&line), &line, &format!("cannot write to standard output: {why}; the file is written\n"));
        assert_eq!(f.read("c.csv"), JOINED.as_bytes());
        silent(&f.sh("rm c.csv"));
    }
}

// ---- Traces that cannot be read

#[test]
fn a_trace_that_cannot_be_read_is_an_error() {
    let f = with_two("join-reading");
    f.make_folder("sub");
    f.put("secret.csv", SECOND, 0o000);
    for command in ["join", "join -o c.csv", "check", "races", "replay --file 1 --model commit", "diagram", "diagram -o c.svg"] {
        for (trace, input, name, why) in [
            ("none.csv", "", "none.csv", "No such file or directory"),
            ("a.csv/x", "", "a.csv/x", "Not a directory"),
            ("sub", "", "sub", "Is a directory"),
            ("secret.csv", "", "secret.csv", "Permission denied"),
            ("/proc/self/mem", "", "/proc/self/mem", "Input/output error"),
            ("-", "< sub", "standard input", "Is a directory"),
            ("-", "<&-", "standard input", "it is closed"),
            ("-", "0> /dev/null", "standard input", "Bad file descriptor"),
        ] {
            for traces in [format!("{trace} b.csv"), format!("a.csv {trace}")] {
                let line = format!("kiqsaryn {command} --headers no,yes {traces} {input}");
                failed(&f.sh(&line), &line, &format!("cannot read {name}: {why}"));
            }
        }
    }
    // The first that cannot be read is told, and a trace that would be refused does not come before one that cannot be read.
    let line = "kiqsaryn join none.csv sub --headers no,no";
    failed(&f.sh(line), line, "cannot read none.csv: ");
    let line = "kiqsaryn join b.csv none.csv --headers no,no";
    failed(&f.sh(line), line, "cannot read none.csv: ");
    assert_eq!(f.names(), ["a.csv", "b.csv", "secret.csv", "sub", "t.csv"]);
}

/// The bytes of one pipe would be taken for those of two traces.
#[test]
fn two_traces_do_not_come_through_one_pipe() {
    let f = with_two("join-pipe");
    silent(&f.sh("mkfifo pipe"));
    for line in [
        "cat a.csv | kiqsaryn join - /dev/stdin --headers no,no",
        "cat a.csv | kiqsaryn join /dev/stdin - --headers no,no -o c.csv",
        "cat a.csv | kiqsaryn check /dev/stdin /dev/fd/0 --headers no,no",
        "kiqsaryn join pipe ./pipe --headers no,no",
    ] {
        failed(&f.sh(line), line, "both traces are the same pipe; each needs its own\n");
    }
    // Two pipes are two traces, and a device without bytes may be both.
    let o = f.sh("cat b.csv > pipe & cat a.csv | kiqsaryn join - pipe --headers no,yes --model posix --csv");
    assert_eq!((out(&o).as_str(), status(&o)), ("model,verdict,earlier,later\r\nposix,free,,\r\n", 0), "{}", err(&o));
    assert_eq!(status(&f.sh("kiqsaryn join /dev/null /dev/null --headers no,no")), 0);
    assert_eq!(f.names(), ["a.csv", "b.csv", "pipe", "t.csv"]);
}
