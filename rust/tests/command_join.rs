//! Two traces joined by the command `kiqsaryn`: the command line, what `join`, `check`, `replay` and `diagram` say of them, and their refusals in
//! words.

#[allow(dead_code)]
mod running;

use kiqsaryn::{PROCESSES, ROWS};
use running::folder::Folder;
use running::pair::Pair;
use running::picture::well_formed;
use running::{err, examples, feed, out, prints, run, same, status, without_places, EXE};
use std::fs;
use std::io::Write;
use std::process::{Command, Output, Stdio};

const NAMES: &str = "process,kind,file,offset,length,message\r\n";

/// The traces of two controllers: the first with a header, the second without.
const LEFT: &str = "process,kind,file,offset,length,message\r\n\"0\",write,1,0,10,\r\n0,send,,,,7\r\n0,recv,,,,8\r\n0,wait,,,,8\r\n\
                    0,read,1,20,5,\"\"\r\n";
const RIGHT: &str = "1,recv,,,,\"7\"\r\n1,wait,,,,7\r\n1,read,1,5,10,\r\n1,write,1,20,5,\r\n1,commit,1,,,\r\n1,send,,,,8";
fn left_and_right(name: &str) -> Pair {
    Pair::new(name, LEFT.as_bytes(), RIGHT.as_bytes())
}

/// Fails unless these parts stand in a text one behind the other.
fn in_order(text: &str, parts: &[&str]) {
    let mut rest = text;
    for part in parts {
        let at = rest.find(part).unwrap_or_else(|| panic!("{part:?} in its place in\n{text}"));
        rest = &rest[at + part.len()..];
    }
}

// ---- The examples

#[test]
fn the_examples_are_joined_as_stands_beside_them() {
    let beside = |name: &str| fs::read_to_string(examples().join("join").join(name)).expect("the output beside it");
    let two = |command: &str, second: &str, more: &[&str]| {
        let args = [&[command, "join/left.csv", second, "--headers", "yes,no"], more].concat();
        run(&args, b"")
    };
    let named = |text: String| text.replace(": left.csv", ": join/left.csv").replace("trace: right", "trace: join/right");
    for command in ["join", "check"] {
        let o = two(command, "join/right.csv", &[]);
        prints(&o, &named(beside("left_right.join.txt")), 1, command);
        let o = two(command, "join/right_cut.csv", &[]);
        prints(&o, &named(beside("left_right_cut.join.txt")), 2, command);
    }
    let o = two("replay", "join/right.csv", &["--file", "1", "--model", "commit"]);
    prints(&o, &named(beside("left_right.replay.txt")), 0, "replay");
    let o = two("diagram", "join/right.csv", &[]);
    let title = "<title>left.csv and right.csv</title>";
    let picture = beside("left_right.svg").replace(title, "<title>join/left.csv and join/right.csv</title>");
    let picture = picture.replace(">A: left.csv", ">A: join/left.csv").replace(">B: right.csv", ">B: join/right.csv");
    prints(&o, &picture, 0, "diagram");
    let o = two("join", "join/right.csv", &["-o", "-"]);
    same(&out(&o), &beside("left_right.csv"), "join -o -");
    assert_eq!(status(&o), 1);
}

/// Neither trace of the example is accepted alone, and their race is of a row of each.
#[test]
fn the_race_of_the_example_is_in_neither_trace_alone() {
    for (name, header, refused) in [("join/left.csv", "yes", "refused,21,5\r\n"), ("join/right.csv", "no", "refused,21,2\r\n")] {
        let o = run(&["check", name, "--header", header, "--csv"], b"");
        assert_eq!((out(&o).as_str(), status(&o)), (refused, 2), "{name}");
    }
    let o = run(&["check", "join/left.csv", "join/right.csv", "--headers", "yes,no", "--csv", "--model", "commit"], b"");
    assert_eq!(out(&o), "model,verdict,earlier,later\r\ncommit,race,1,7\r\n");
}

// ---- The command line

const FOR_EACH: &str = "--header is for traces by themselves; for a join say --headers with a word for each: --headers yes,no\n";
const ONE_OF_BOTH: &str = "--header takes each trace by itself, and --headers joins two: say one of them\n";
const SAY_EITHER: &str =
    "say --header yes or --header no to take each trace by itself, or --headers with a word for each to join the two: \
                          --headers yes,no\n";
const NO_HEADER: &str = "join has no option \"--header\"; did you mean --headers?\n";
const NO_HEADERS: &str = "write has no option \"--headers\"; did you mean --header?\n";
const FOR_TWO: &str = "--headers is for two traces; for one say --header yes or --header no\n";
const SAY_HEADERS: &str = "say --headers with yes or no for each trace, the first one's first: --headers yes,no\n";

/// Commands, what stands behind each, and what is said of it.
const WRONG: &[(&[&str], &[&str], &str)] = &[
    (&["join"], &[], "join takes two traces, FIRST and SECOND\n"),
    (&["join"], &["a.csv", "--headers", "yes,no"], "join takes two traces, FIRST and SECOND\n"),
    (&["join"], &["a.csv", "--header", "yes"], NO_HEADER),
    (&["join", "diagram"], &["a.csv", "b.csv", "a.csv", "--headers", "yes,no"], "more than two traces are given\n"),
    (&["check", "races"], &["a.csv", "b.csv", "a.csv", "--headers", "yes,no"], FOR_TWO),
    (&["join", "diagram"], &["a.csv", "b.csv"], SAY_HEADERS),
    (&["check", "races", "replay"], &["a.csv", "b.csv"], SAY_EITHER),
    (&["join", "check", "races", "replay", "diagram"], &["a.csv", "b.csv", "--headers", "yes"], SAY_HEADERS),
    (&["join", "check"], &["a.csv", "b.csv", "--headers", "yes,maybe"], SAY_HEADERS),
    (&["join", "check"], &["a.csv", "b.csv", "--headers", "yes,no,no"], SAY_HEADERS),
    (&["join", "check"], &["a.csv", "b.csv", "--headers", "yes, no"], SAY_HEADERS),
    (&["join", "check"], &["a.csv", "b.csv", "--headers", "YES,NO"], SAY_HEADERS),
    (&["join", "check"], &["a.csv", "b.csv", "--headers="], SAY_HEADERS),
    (&["join", "check"], &["a.csv", "b.csv", "--headers=,"], SAY_HEADERS),
    (&["join", "check"], &["a.csv", "b.csv", "--headers"], "--headers has no value\n"),
    (&["join", "check"], &["a.csv", "b.csv", "--headers", "yes,no", "--headers", "yes,no"], "--headers is given twice\n"),
    (&["diagram"], &["a.csv", "b.csv", "--header", "yes"], FOR_EACH),
    (&["join"], &["a.csv", "b.csv", "--header", "yes"], NO_HEADER),
    (&["check", "races", "replay", "diagram"], &["a.csv", "b.csv", "--header", "yes", "--headers", "yes,no"], ONE_OF_BOTH),
    (&["check", "races", "replay", "diagram"], &["a.csv", "--headers", "yes,no"], FOR_TWO),
    (&["write"], &["a.csv", "--headers", "yes,no"], NO_HEADERS),
    (&["check", "races", "replay", "diagram"], &["a.csv", "--header", "yes", "--headers", "yes,no"], ONE_OF_BOTH),
    (
        &["join", "check", "races", "replay", "diagram"],
        &["-", "-", "--headers", "yes,no"],
        "standard input can be one of the traces, not more\n",
    ),
    (&["write"], &["a.csv", "b.csv", "--header", "yes"], "more than one TRACE is given\n"),
    (&["replay"], &["a.csv", "b.csv", "--headers", "yes,no"], "say which model: "),
    (
        &["join"],
        &["a.csv", "b.csv", "--headers", "yes,no", "--model", "nfs"],
        "--model is all, posix, commit, session or mpiio, not \"nfs\"\n",
    ),
    (&["join"], &["a.csv", "b.csv", "--headers", "yes,no", "--file", "1"], "join has no option \"--file\""),
    (&["join"], &["a.csv", "b.csv", "--headers", "yes,no", "--csv=1"], "--csv takes no value\n"),
    (&["join"], &["a.csv", "b.csv", "--headers", "yes,no", "-o"], "--output has no value\n"),
    (&["join"], &["a.csv", "b.csv", "--headers", "yes,no", "--out-header", "yes"], "--out-header goes with -o\n"),
    (&["join"], &["a.csv", "b.csv", "--headers", "yes,no", "--out-header", "x", "-o", "c.csv"], "--out-header is yes or no, not \"x\"\n"),
    (&["check"], &["a.csv", "b.csv", "--headers", "yes,no", "-o", "c.csv"], "check has no option \"-o\"\n"),
];

#[test]
fn wrong_command_lines_have_status_3() {
    let pair = left_and_right("lines");
    for (commands, args, words) in WRONG {
        for command in *commands {
            let o = pair.feed(&[&[*command], *args].concat(), b"");
            assert_eq!((status(&o), out(&o)), (3, String::new()), "{command} {args:?}");
            let said = err(&o);
            assert!(said.starts_with(&format!("kiqsaryn: {words}")), "{command} {args:?}: {said}");
            assert!(said.ends_with(&format!("\nkiqsaryn {command} --help shows the options.\n")), "{command} {args:?}: {said}");
        }
    }
    let told = err(&pair.run("check", "maybe", &[]));
    assert!(told.contains("never guessed") && told.contains("lost") && told.contains("shift every row number"), "{told}");
}

#[test]
fn help_tells_of_two_traces() {
    for (args, part) in [
        (&["--help"][..], "kiqsaryn join "),
        (&["join", "--help"], "kiqsaryn join left.csv right.csv --headers yes,yes"),
        (&["join", "x", "-h"], "-o FILE"),
        (&["check", "--help"], "kiqsaryn check FIRST SECOND --headers yes|no,yes|no"),
        (&["races", "--help"], "kiqsaryn races FIRST SECOND --headers yes|no,yes|no"),
        (&["replay", "--help"], "kiqsaryn replay FIRST SECOND --headers yes|no,yes|no"),
        (&["diagram", "--help"], "kiqsaryn diagram FIRST SECOND --headers yes|no,yes|no"),
    ] {
        let o = run(args, b"");
        assert_eq!((status(&o), err(&o)), (0, String::new()), "{args:?}");
        assert!(out(&o).contains(part), "{args:?}");
        assert!(out(&o).lines().all(|l| l.len() < 80), "{args:?}");
    }
}

// ---- What is said

#[test]
fn each_trace_is_told_and_then_the_join() {
    let pair = left_and_right("told");
    for command in ["join", "check"] {
        let o = pair.run(command, "yes,no", &["--model", "commit"]);
        assert_eq!((status(&o), err(&o)), (1, String::new()), "{command}");
        let want = [
            "First trace: a.csv\n\nRead, to hold against the recorder:\n  117 bytes\n  header: yes (the first record is no row)\n  5 rows\n",
            "  first row: \"0\",write,1,0,10,\n             process 0 writes bytes 0 to 9 of file 1\n",
            "  last row: 0,read,1,20,5,\"\"\n            process 0 reads bytes 20 to 24 of file 1\n",
            "  process 0: 5 rows\n  file 1: 2 rows\n  send, recv and wait, of no file: 3 rows\n",
            "\nSecond trace: b.csv\n\nRead, to hold against the recorder:\n  87 bytes\n  header: no (the first record is row 1)\n  6 rows\n",
            "  first row: 1,recv,,,,\"7\"\n             process 1 posts a receive for message 7\n",
            "  last row: 1,send,,,,8\n            process 1 sends message 8\n",
            "  process 1: 6 rows\n  file 1: 3 rows\n  send, recv and wait, of no file: 3 rows\n",
            "\nJoined: 11 rows, 5 of a.csv and 6 of b.csv\n",
            "\nVerdicts:\n  commit   race, row 1 (row 1 of a.csv) and row 6 (row 3 of b.csv) (the only\n           race)\n",
            "\nRace of row 1 and row 6 under commit\n",
            "  row 1: \"0\",write,1,0,10,\n         process 0 writes bytes 0 to 9 of file 1\n         row 1 of a.csv\n",
            "  row 6: 1,read,1,5,10,\n         process 1 reads bytes 5 to 14 of file 1\n         row 3 of b.csv\n",
            "  shared: bytes 5 to 9 of file 1 (5 bytes)\n  commit:\n",
            "    Needed:  process 0 commits file 1 after row 1, and that commit happens\n             before row 6.\n",
            "    Missing: process 0 has no commit of file 1 after row 1.\n",
            "    Order:   the last row of process 0 that happens before row 6 is row 2 (row\n             2 of a.csv) (send of message 7).\n",
            "\nThere is no other race under a model asked for. After a repair, check again.\n",
        ];
        assert_eq!(out(&o), want.concat(), "{command}");
    }
    let csv = "model,verdict,earlier,later\r\nposix,free,,\r\ncommit,race,1,6\r\nsession,race,1,6\r\nmpiio,race,1,6\r\n";
    for command in ["join", "check"] {
        let o = pair.run(command, "yes,no", &["--csv"]);
        assert_eq!((out(&o).as_str(), status(&o)), (csv, 1), "{command}");
        let o = pair.run(command, "yes,no", &["--model", "posix", "--processes", "2"]);
        assert!(status(&o) == 0 && out(&o).ends_with("\n\nVerdicts:\n  posix    free\n"), "{}", out(&o));
    }
}

/// The other way round the join has another order, and so other numbers, and the same verdicts.
#[test]
fn the_second_trace_may_be_named_first() {
    let pair = left_and_right("swapped");
    let o = pair.feed(&["check", "b.csv", "a.csv", "--headers", "no,yes", "--csv"], b"");
    assert_eq!(out(&o), "model,verdict,earlier,later\r\nposix,free,,\r\ncommit,race,2,5\r\nsession,race,2,5\r\nmpiio,race,2,5\r\n");
    pair.put(b"0,write,1,0,10,\r\n0,commit,1,,,\r\n0,write,1,5,1,\r\n", b"1,write,1,0,1,\r\n");
    assert!(out(&pair.run("check", "no,no", &[])).contains("  posix    race, row 1 (row 1 of a.csv) and row 4 (row 1 of b.csv) ("));
    let o = pair.feed(&["check", "b.csv", "a.csv", "--headers", "no,no"], b"");
    assert!(out(&o).contains("  posix    race, row 1 (row 1 of b.csv) and row 2 (row 1 of a.csv) ("), "{}", out(&o));
}

/// Traces are called by their last names where these differ, and else by all.
#[test]
fn names_of_the_traces() {
    let f = Folder::new("join-names");
    for folder in ["one", "two", "long"] {
        f.make_folder(folder);
        f.put(&format!("{folder}/t.csv"), if folder == "one" { "0,write,1,0,1,\r\n" } else { "1,write,1,0,1,\r\n" }, 0o644);
    }
    f.put("two/b c.csv", "1,write,1,0,1,\r\n", 0o644);
    f.put("two/\u{e9}\n.csv", "1,write,1,0,1,\r\n", 0o644);
    let long = format!("long/{}.csv", "x".repeat(200));
    f.put(&long, "1,write,1,0,1,\r\n", 0o644);
    for (second, input, first_name, second_name) in [
        ("two/t.csv", "/dev/null", "one/t.csv", "two/t.csv"),
        ("'two/b c.csv'", "/dev/null", "t.csv", "b c.csv"),
        ("\"$(printf 'two/\\303\\251\\n.csv')\"", "/dev/null", "t.csv", "\u{e9}\\n.csv"),
        ("-", "two/t.csv", "t.csv", "standard input"),
        ("/dev/stdin", "two/t.csv", "t.csv", "stdin"),
    ] {
        let o = f.sh(&format!("kiqsaryn check one/t.csv {second} --headers no,no --model posix < {input}"));
        assert_eq!(status(&o), 1, "{second}: {}", err(&o));
        let race = format!("\nJoined: 2 rows, 1 of {first_name} and 1 of {second_name}\n");
        assert!(out(&o).contains(&race), "{second}: {}", out(&o));
        let verdict = format!("race, row 1 (row 1 of {first_name}) and row 2 (row 1 of {second_name})");
        assert!(out(&o).replace("\n           ", " ").contains(&verdict), "{second}: {}", out(&o));
    }
    for command in ["check", "races", "replay --file 1 --model posix", "diagram"] {
        let o = f.sh(&format!("kiqsaryn {command} one/t.csv {long} --headers no,no"));
        assert!(out(&o).contains(&"x".repeat(40)), "{command}: {}", out(&o));
    }
}

#[test]
fn traces_without_rows() {
    let pair = Pair::new("empty", b"", NAMES.as_bytes());
    let o = pair.run("join", "no,yes", &[]);
    assert_eq!(status(&o), 0);
    in_order(&out(&o), &["First trace: a.csv\n", "  0 bytes\n", "  0 rows\n\nSecond trace: b.csv\n", "  41 bytes\n", "  0 rows\n"]);
    in_order(
        &out(&o),
        &["\nJoined: 0 rows, 0 of a.csv and 0 of b.csv\n\nVerdicts:\n  posix    free (the trace has no row: nothing was judged)\n"],
    );
    assert_eq!(out(&pair.run("join", "no,yes", &["-o", "-"])), "");
    assert_eq!(out(&pair.run("join", "no,yes", &["-o", "-", "--out-header", "yes"])), NAMES);
    well_formed(&out(&pair.run("diagram", "no,yes", &[])));
    let o = pair.run("replay", "no,yes", &["--model", "commit"]);
    assert!(
        out(&o).starts_with("First trace: a.csv (0 rows)\nSecond trace: b.csv (0 rows)\n\nThis is the joined order alone."),
        "{}",
        out(&o)
    );
    let o = pair.run("replay", "no,yes", &["--file", "1", "--model", "commit"]);
    assert_eq!((err(&o).as_str(), status(&o)), ("kiqsaryn: no row is of file 1; the join has no row of any file\n", 3));
}

#[test]
fn either_trace_can_be_standard_input() {
    let pair = left_and_right("standard");
    let both = out(&pair.run("check", "yes,no", &[]));
    for (first, second, input) in [("-", "b.csv", LEFT), ("a.csv", "-", RIGHT)] {
        let o = pair.feed(&["check", first, second, "--headers", "yes,no"], input.as_bytes());
        let name = if first == "-" { "a.csv" } else { "b.csv" };
        let want = both.replace(&format!("trace: {name}"), "trace: standard input").replace(&format!("of {name}"), "of standard input");
        // Longer names break lines elsewhere.
        let words = |text: &str| text.split_whitespace().map(str::to_string).collect::<Vec<_>>();
        assert_eq!((words(&out(&o)), status(&o)), (words(&want), 1), "{name}");
    }
}

// ---- Refusals of a trace

/// Every command on two traces; the words of a refusal go to standard error where standard output is for the text or the picture.
const COMMANDS: [(&[&str], bool); 7] = [
    (&["join"], false),
    (&["check"], false),
    (&["races"], false),
    (&["replay", "--file", "1", "--model", "commit"], false),
    (&["diagram"], true),
    (&["join", "-o", "-"], true),
    (&["join", "-o", "/dev/stdout", "--out-header", "no"], true),
];

/// The words of a refusal, the same of every command.
fn refused(pair: &Pair, headers: &str, more: &[&str]) -> String {
    let mut words = Vec::new();
    for (command, to_error) in COMMANDS {
        let o = pair.run(command[0], headers, &[&command[1..], more].concat());
        assert_eq!(status(&o), 2, "{command:?}: {}{}", out(&o), err(&o));
        let (said, silent) = if to_error { (err(&o), out(&o)) } else { (out(&o), err(&o)) };
        assert_eq!(silent, "", "{command:?}");
        words.push(said);
    }
    assert!(words.iter().all(|w| *w == words[0]), "{words:?}");
    words.remove(0)
}

/// The line of `--csv` for a refusal, the same of `join`, `check` and `races`.
fn refused_csv(pair: &Pair, headers: &str, more: &[&str]) -> String {
    let [a, b, c] = ["join", "check", "races"].map(|command| pair.run(command, headers, &[&["--csv"], more].concat()));
    assert_eq!((status(&a), out(&a), err(&a)), (2, out(&b), String::new()));
    assert_eq!((status(&c), out(&c), err(&c)), (2, out(&b), String::new()));
    out(&a)
}

/// A trace, its refusal of either place on the command line, and what it is told with.
type Wrong<'a> = (&'a str, &'a [u8], u32, u32, &'a [&'a str]);

#[test]
fn a_refused_trace_is_named() {
    let wrong: &[Wrong] = &[
        ("no", b"1,read,1,5,10,\n1,read,1,0,1,\n", 4, 1, &["the record:  1,read,1,5,10,\\n\n", "Records end in CR LF"]),
        ("yes", b"\xef\xbb\xbfprocess,kind\r\n", 4, 0, &["read:        17 bytes, header yes\n", "byte order mark"]),
        ("yes", b"", 5, 0, &["read:        0 bytes, header yes\n", "the record:  none\n", "says that the first record of the"]),
        ("yes", b"1,read,1,5,10,\r\n", 5, 0, &["the record:  1,read,1,5,10,\n", "holds the names."]),
        ("no", b"1,read,1,5,10,\r\n\r\n", 7, 2, &["Has the record six fields?", "the record:  empty\n"]),
        ("no", NAMES.as_bytes(), 8, 1, &["the record:  process,kind,file,offset,length,message\n", "is row 1."]),
        ("no", b"1,read,,5,10,\r\n", 9, 1, &["Are the fields that the kind uses filled"]),
        ("no", b"999,read,1,5,10,\r\n", 10, 1, &["process is 0 to "]),
        ("yes", b"process,kind,file,offset,length,message\r\n1,read,1,4294967295,1,", 11, 1, &["Is offset + length at most"]),
    ];
    let pair = left_and_right("named");
    for (header, text, number, place, parts) in wrong {
        for (which, file) in [("First", 1), ("Second", 2)] {
            let good = b"2,commit,1,,,\r\n";
            let headers = if file == 1 { format!("{header},no") } else { format!("no,{header}") };
            let (first, second) = if file == 1 { (*text, &good[..]) } else { (&good[..], *text) };
            pair.put(first, second);
            let name = if file == 1 { "a.csv" } else { "b.csv" };
            let at = if *place == 0 { "the header".to_string() } else { format!("row {place}") };
            let words = refused(&pair, &headers, &[]);
            assert!(
                words.starts_with(&format!("{which} trace: {name}\n\nRefused: number {number}, at {at}. There is no verdict.\n")),
                "{words}"
            );
            assert!(parts.iter().all(|part| words.contains(part)), "{parts:?} in {words}");
            assert!(!words.contains("Read, to hold"), "{words}");
            assert_eq!(refused_csv(&pair, &headers, &[]), format!("refused,{number},{place},{file}\r\n"));
            let note = format!("--headers {headers} says that the first record of the {} trace", which.to_lowercase());
            let told = words.split_whitespace().collect::<Vec<_>>().join(" ").contains(&note);
            let by_header = *number == 5 || (*place == 1 && *header == "no" && ![4, 10].contains(number));
            assert_eq!(told, by_header, "{words}");
        }
    }
}

#[test]
fn the_first_trace_is_asked_first() {
    let pair = Pair::new("both", b"0,wrote,1,0,10,\r\n", b"x");
    assert_eq!(refused_csv(&pair, "no,no", &[]), "refused,8,1,1\r\n");
    pair.put(b"0,write,1,0,10,\r\n", b"0,write,1,0,10,\r\n0,write,1,0,10\r\n");
    assert_eq!(refused_csv(&pair, "no,no", &[]), "refused,7,2,2\r\n");
    pair.put(b"1,write,1,0,10,\r\n", b"0,write,1,0,10,\r\n");
    assert_eq!(refused_csv(&pair, "no,no", &["--processes", "1"]), "refused,10,1,1\r\n");
    assert!(refused(&pair, "no,no", &["--processes", "1"]).contains("process is 0 to 0 (--processes 1)"));
}

// ---- Refusals of the join

/// What is said behind what was read of both traces, but for the lines that name places.
fn refused_join(pair: &Pair, number_and_place: &str) -> String {
    let words = refused(pair, "no,no", &[]);
    assert_eq!(refused_csv(pair, "no,no", &[]), format!("refused,{number_and_place},0\r\n"));
    in_order(
        &words,
        &["First trace: a.csv\n\nRead, to hold against the recorder:\n", "\nSecond trace: b.csv\n\nRead, to hold", "\n\nRefused: "],
    );
    without_places(&words[words.find("Refused: ").expect("a refusal")..])
}

/// The first lines of a refusal and the question.
const SHARED: &str =
    "Refused: number 19. There is no verdict.\n  answered No: Does every process have its rows in one of the two files alone?\n";
const STUCK: &str = "Refused: number 20. There is no verdict.\n\
                     \x20 answered No: Can one of the next rows be taken: if it is a wait, has a taken\n\
                     \x20              row sent its message, and is every barrier finished at which\n\
                     \x20              its process stands?\n";
const ORDER: &str = "  answered No: Is a send's message unsent so far, and any receive posted\n\
                     \x20              before it another process's; is a recv's not posted before, and\n\
                     \x20              not sent by this process?\n";
const WAITS: &str = "  answered No: Was the wait's message posted earlier by this process, sent\n\
                     \x20              earlier, and not yet waited for?\n";

#[test]
fn a_process_in_both_traces_is_named() {
    let pair = Pair::new("shared", b"0,write,1,0,10,\r\n3,commit,1,,,\r\n", b"1,open,1,,,\r\n\"3\",read,1,5,10,\r\n3,sync,1,,,\r\n");
    let row = "  process 3:   row 2 of a.csv: 3,commit,1,,,\n               row 2 of b.csv: \"3\",read,1,5,10,\n";
    assert_eq!(refused_join(&pair, "19,0"), [SHARED, row].concat());
    pair.put(b"9,sync,1,,,\r\n21,sync,1,,,\r\n5,sync,1,,,\r\n", b"21,open,1,,,\r\n9,open,1,,,\r\n4,open,1,,,\r\n");
    let row = "  process 9:   row 1 of a.csv: 9,sync,1,,,\n               row 2 of b.csv: 9,open,1,,,\n";
    assert_eq!(refused_join(&pair, "19,0"), [SHARED, row, "  note:        processes with rows in both traces: 9, 21.\n"].concat());
    // A trace given twice.
    let o = pair.feed(&["join", "a.csv", "a.csv", "--headers", "no,no", "--csv"], b"");
    assert_eq!((out(&o).as_str(), status(&o)), ("refused,19,0,0\r\n", 2));
}

#[test]
fn rows_that_wait_are_named() {
    let pair = Pair::new("stuck", b"0,recv,,,,7\r\n0,wait,,,,7\r\n", b"1,send,,,,8\r\n");
    let first = "  taken:       1 row of a.csv, 1 row of b.csv\n  first:       row 2 of a.csv: 0,wait,,,,7\n\
                 \x20              It waits for message 7, which no row of the two traces sends.\n  second:      b.csv is at its end.\n";
    assert_eq!(refused_join(&pair, "20,0"), [STUCK, first].concat());

    // A wait that is not posted waits all the same, and is not refused for that.
    pair.put(b"", b"1,wait,,,,\"65535\"");
    let second = "  taken:       0 rows of a.csv, 0 rows of b.csv\n  first:       a.csv is at its end.\n\
                  \x20 second:      row 1 of b.csv: 1,wait,,,,\"65535\"\n\
                  \x20              It waits for message 65535, which no row of the two traces\n               sends.\n";
    assert_eq!(refused_join(&pair, "20,0"), [STUCK, second].concat());

    pair.put(b"0,open,1,,,\r\n0,recv,,,,7\r\n0,wait,,,,7\r\n0,send,,,,8\r\n", b"1,wait,,,,8\r\n2,open,1,,,\r\n2,send,,,,7\r\n");
    let both = "  taken:       2 rows of a.csv, 0 rows of b.csv\n  first:       row 3 of a.csv: 0,wait,,,,7\n\
                \x20              It waits for message 7, which row 3 of b.csv sends, behind a\n               row that waits.\n\
                \x20 second:      row 1 of b.csv: 1,wait,,,,8\n\
                \x20              It waits for message 8, which row 4 of a.csv sends, behind a\n               row that waits.\n";
    assert_eq!(refused_join(&pair, "20,0"), [STUCK, both].concat());

    pair.put(b"2,wait,,,,7\r\n0,send,,,,7\r\n", b"");
    assert!(refused_join(&pair, "20,0").contains("It waits for message 7, which row 2 of a.csv sends, behind a\n"));
}

/// A recv does not wait: it is taken before its message is sent, and also where no row sends it.
#[test]
fn a_receive_is_posted_without_waiting() {
    let pair = Pair::new("posted", b"0,recv,,,,7\r\n0,open,1,,,\r\n0,wait,,,,7\r\n", b"1,recv,,,,9\r\n1,send,,,,7\r\n");
    let o = pair.run("join", "no,no", &["-o", "-"]);
    assert_eq!((out(&o).as_str(), status(&o)), ("0,recv,,,,7\r\n0,open,1,,,\r\n1,recv,,,,9\r\n1,send,,,,7\r\n0,wait,,,,7\r\n", 0));
    in_order(
        &err(&o),
        &["\nSecond trace: b.csv\n", "  send, recv and wait, of no file: 2 rows\n  recv without a wait: 1 row\n\nJoined: 5 rows"],
    );
    // Posted in one trace and sent in the other, and nobody waits.
    pair.put(b"0,recv,,,,7\r\n0,read,1,5,10,\r\n", b"1,write,1,0,10,\r\n1,send,,,,7\r\n");
    let o = pair.feed(&["check", "b.csv", "a.csv", "--headers", "no,no", "--model", "posix"], b"");
    let posted = "    Posted:  row 3 (row 1 of a.csv) posts a receive for message 7, which row 2\n\
                  \x20            (row 2 of b.csv) sends, and no row of process 0 before row 4\n\
                  \x20            waits for it: a posted receive gives no order by itself.\n";
    assert!(status(&o) == 1 && out(&o).contains(posted), "{}", out(&o));
}

#[test]
fn messages_out_of_order_are_shown_with_the_rows_before() {
    let pair = Pair::new("order", b"", b"");
    let twelve = |place: u32, lines: &str| format!("Refused: number 12, at row {place} of the join. There is no verdict.\n{ORDER}{lines}");
    // Sent in both.
    pair.put(b"0,open,1,,,\r\n0,send,,,,7\r\n", b"1,send,,,,\"7\"\r\n");
    let lines = "  the record:  row 1 of b.csv: 1,send,,,,\"7\"\n  before it:   row 2 (row 2 of a.csv): process 0 sends message 7\n\
                 \x20 note:        row 2 sends message 7 already.\n";
    assert_eq!(refused_join(&pair, "12,3"), twelve(3, lines));
    // Posted twice.
    pair.put(b"0,send,,,,7\r\n2,recv,,,,7\r\n", b"1,open,1,,,\r\n1,recv,,,,7\r\n");
    let lines = "  the record:  row 2 of b.csv: 1,recv,,,,7\n  before it:   row 1 (row 1 of a.csv): process 0 sends message 7\n\
                 \x20 before it:   row 2 (row 2 of a.csv): process 2 posts a receive for message 7\n\
                 \x20 note:        row 2 posts a receive for message 7 already.\n";
    assert_eq!(refused_join(&pair, "12,4"), twelve(4, lines));
    // Posted by its sender, behind a row that waited.
    pair.put(b"0,recv,,,,9\r\n0,wait,,,,9\r\n0,send,,,,7\r\n0,recv,,,,7\r\n", b"1,send,,,,9\r\n");
    let lines = "  the record:  row 4 of a.csv: 0,recv,,,,7\n  before it:   row 4 (row 3 of a.csv): process 0 sends message 7\n\
                 \x20 note:        process 0 sends message 7 itself, at row 4: a message goes from\n               one process to another.\n";
    assert_eq!(refused_join(&pair, "12,5"), twelve(5, lines));
}

#[test]
fn waits_out_of_order_are_shown_with_what_they_lack() {
    let pair = Pair::new("waits", b"", b"");
    let told = |place: u32, lines: &str| format!("Refused: number 21, at row {place} of the join. There is no verdict.\n{WAITS}{lines}");
    // Posted by nobody so far; the other trace does, behind.
    pair.put(b"0,send,,,,7\r\n2,wait,,,,\"7\"\r\n", b"1,open,1,,,\r\n1,recv,,,,7\r\n");
    let lines = "  the record:  row 2 of a.csv: 2,wait,,,,\"7\"\n  before it:   row 1 (row 1 of a.csv): process 0 sends message 7\n\
                 \x20 note:        no row before it posts a receive for message 7; row 2 of b.csv\n               does, behind it.\n";
    assert_eq!(refused_join(&pair, "21,2"), told(2, lines));
    // Posted by another process.
    pair.put(b"1,recv,,,,7\r\n0,send,,,,7\r\n", b"2,wait,,,,7\r\n");
    let lines = "  the record:  row 1 of b.csv: 2,wait,,,,7\n\
                 \x20 before it:   row 1 (row 1 of a.csv): process 1 posts a receive for message 7\n\
                 \x20 before it:   row 2 (row 2 of a.csv): process 0 sends message 7\n\
                 \x20 note:        process 2 posts no receive for message 7 before it; process 1\n               does, at row 1.\n";
    assert_eq!(refused_join(&pair, "21,3"), told(3, lines));
    // Waited for already.
    pair.put(b"0,send,,,,7\r\n", b"1,recv,,,,7\r\n1,wait,,,,7\r\n1,open,1,,,\r\n1,wait,,,,7\r\n");
    let lines = "  the record:  row 4 of b.csv: 1,wait,,,,7\n  before it:   row 1 (row 1 of a.csv): process 0 sends message 7\n\
                 \x20 before it:   row 2 (row 1 of b.csv): process 1 posts a receive for message 7\n\
                 \x20 before it:   row 3 (row 2 of b.csv): process 1 waits for message 7\n\
                 \x20 note:        row 3 waits for message 7 already.\n";
    assert_eq!(refused_join(&pair, "21,5"), told(5, lines));
}

#[test]
fn a_join_of_too_many_rows_is_refused() {
    let rows = |process: u32, n: u32| format!("{process},commit,1,,,\r\n").repeat(n as usize);
    let pair = Pair::new("many", rows(0, ROWS / 2).as_bytes(), rows(1, ROWS / 2).as_bytes());
    let o = pair.run("join", "no,no", &["--model", "posix"]);
    assert_eq!(status(&o), 0, "{}", out(&o));
    assert!(out(&o).contains("\nJoined: 4096 rows, 2048 of a.csv and 2048 of b.csv\n"));
    pair.put(rows(0, 1_000).as_bytes(), rows(1, 3_097).as_bytes());
    let lines = "  the record:  row 3097 of b.csv: 1,commit,1,,,\n\
                 \x20 note:        a trace has at most 4096 rows, and so has a join. a.csv has\n               1000, b.csv has 3097.\n";
    let question = "Refused: number 6, at row 4097 of the join. There is no verdict.\n\
                    \x20 answered No: Is the row within the row limit, and its record within the byte\n               limit?\n";
    assert_eq!(refused_join(&pair, "6,4097"), [question, lines].concat());
    pair.put(rows(0, 1_000).as_bytes(), rows(1, 5_000).as_bytes());
    let words = refused(&pair, "no,no", &[]);
    in_order(&words, &["Second trace: b.csv\n\nRefused: number 6, at row 4097.", "a trace has at most 4096 rows"]);
    assert_eq!(refused_csv(&pair, "no,no", &[]), "refused,6,4097,2\r\n");
}

// ---- Reading stops where no acceptable trace can go on

/// The longest acceptable trace: every field in quotes and as long as can be, 4,096 rows of one process.
fn longest(process: u32, header: bool) -> Vec<u8> {
    let names = if header { "\"process\",\"kind\",\"file\",\"offset\",\"length\",\"message\"\r\n" } else { "" };
    let row = format!("\"{process}\",\"write\",\"63\",\"2147483647\",\"2147483648\",\"\"\r\n");
    [names.as_bytes(), row.repeat(ROWS as usize).as_bytes()].concat()
}

#[test]
fn the_longest_trace_is_read_whole_and_one_byte_more_is_not() {
    let pair = Pair::new("longest", b"", b"");
    for (header, word) in [(true, "yes"), (false, "no")] {
        let mut text = longest(PROCESSES - 1, header);
        let limit = text.len();
        let headers = format!("no,{word}");
        pair.put(b"", &text);
        let o = pair.run("join", &headers, &["--model", "posix"]);
        assert_eq!(status(&o), 0, "{}", out(&o));
        assert!(out(&o).contains(&format!("  {limit} bytes\n")) && out(&o).contains("Joined: 4096 rows, 0 of a.csv and 4096 of b.csv\n"));
        text.push(b'0');
        pair.put(b"", &text);
        let words = refused(&pair, &headers, &[]);
        let stopped = format!("reading stopped after {limit} bytes. No trace that can be accepted is longer.");
        in_order(
            &words,
            &["Second trace: b.csv\n\nRefused: number 6, at row 4097.", &format!("read:        {limit} bytes, header {word}\n")],
        );
        assert!(words.split_whitespace().collect::<Vec<_>>().join(" ").contains(&stopped), "{words}");
    }
}

/// What is cut where reading stops is refused as one trace is: a row gets 6, a header 5, and a record before the cut what it is refused for.
#[test]
fn a_record_that_reading_does_not_end_is_refused_as_in_one_trace() {
    let pair = Pair::new("cut", b"", b"");
    let long = |front: &str, byte: &str| (front.to_string() + &byte.repeat(300_000)).into_bytes();
    for (word, text) in [
        ("no", long("0,write,1,0,", "9")),
        ("no", long("0,write,1,0,10,\r\n\"", "x")),
        ("no", long("0,write,1,0,10,\r\n0,write,1,0,\"", "\"\"")),
        ("no", long("0,write,1,0,10,\r\n", "\r")),
        ("no", long("0,write,1,0,10,\r\n", "\u{7f}")),
        ("no", long("0,write,1,0,10,\r\n0,wrote,1,0,10,\r\n", "x")),
        ("no", long("", "0,write,1,0,10,\r\n")),
        ("no", long("", "\"0\",write,1,0,10\r\n")),
        ("yes", long("\"", "x")),
        ("yes", long("process,kind,file,offset,length,message", "s")),
        ("yes", long("process,kind,file,offset,length,message\r\n\"", "\r\n")),
        ("yes", long("process,kind,file,offset,length,message\r\n0,sync,1,,,\r\n\"\n", "\0")),
    ] {
        pair.put(&text, b"1,sync,1,,,\r\n");
        let alone = pair.feed(&["check", "a.csv", "--header", word], b"");
        let told =
            |o: &Output| out(o).replace("First trace", "Trace").replace(&format!("--headers {word},no"), &format!("--header {word}"));
        let words = |text: String| text.split_whitespace().collect::<Vec<_>>().join(" ").replace(" of the first trace", "");
        let joined = pair.run("join", &format!("{word},no"), &[]);
        assert_eq!((words(told(&joined)), status(&joined)), (words(out(&alone)), 2));
    }
}

/// The command with little memory.
fn in_little_memory(pair: &Pair, args: &[&str]) -> Command {
    let mut command = Command::new("sh");
    command.args(["-c", "ulimit -v 65536; exec \"$0\" \"$@\"", EXE]).args(args).current_dir(&pair.path);
    command
}

/// A file of four gigabytes as either trace, and 100 MB through a pipe: what follows the longest acceptable trace is not read.
#[test]
fn long_inputs_are_refused_soon() {
    let pair = Pair::new("huge", NAMES.as_bytes(), b"1,sync,1,,,\r\n");
    let file = fs::OpenOptions::new().write(true).open(pair.path.join("a.csv")).expect("a file");
    file.set_len(4 << 30).expect("a sparse file");
    for (args, place) in
        [(["join", "a.csv", "b.csv", "--headers", "yes,no"], "First"), (["join", "b.csv", "a.csv", "--headers", "no,yes"], "Second")]
    {
        let o = feed(&mut in_little_memory(&pair, &args), b"");
        assert_eq!(status(&o), 2, "{}", err(&o));
        in_order(&out(&o), &[place, "trace: a.csv\n\nRefused: number 4, at row 1."]);
    }
    let mut command = in_little_memory(&pair, &["join", "b.csv", "-", "--headers", "no,no"]);
    let mut child = command.stdin(Stdio::piped()).stdout(Stdio::piped()).stderr(Stdio::piped()).spawn().expect("the command starts");
    let mut stdin = child.stdin.take().expect("a pipe");
    let chunk = vec![b'7'; 1 << 20];
    let written = (0..100).take_while(|_| stdin.write_all(&chunk).is_ok()).count();
    drop(stdin);
    let o = child.wait_with_output().expect("the command ends");
    in_order(&out(&o), &["Second trace: standard input\n\nRefused: number 6, at row 1.", "reading stopped after 196608 bytes"]);
    assert!(status(&o) == 2 && written < 100, "{written} MB, {}", err(&o));
}
