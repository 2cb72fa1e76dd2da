//! Barriers as the command `kiqsaryn` shows them: the order that they bring, barriers out of order, and rows that a join holds back.

#[allow(dead_code)]
mod running;

use kiqsaryn::{PROCESSES, ROWS};
use running::pair::Pair;
use running::picture::keeps_the_rules;
use running::{err, examples, out, run, status, without_places};

// ---- The order that a barrier brings

#[test]
fn a_barrier_orders_as_messages_do() {
    let csv = |name: &str| out(&run(&["check", name, "--header", "yes", "--csv"], b""));
    assert_eq!(
        csv("barrier_free.csv"),
        "model,verdict,earlier,later\r\nposix,free,,\r\ncommit,free,,\r\nsession,race,1,5\r\nmpiio,race,1,5\r\n"
    );
    let late = "model,verdict,earlier,later\r\nposix,free,,\r\ncommit,race,1,5\r\nsession,race,1,5\r\nmpiio,race,1,5\r\n";
    assert_eq!(csv("barrier_commit_too_late.csv"), late);
    let o = run(&["check", "barrier_commit_too_late.csv", "--header", "yes", "--model", "commit"], b"");
    assert_eq!((status(&o), err(&o)), (1, String::new()));
    for part in [
        "  file 1: 3 rows\n  barrier, of no file: 2 rows (1 barrier)\n\nVerdicts:\n",
        "    Missing: row 4 does not happen before row 5: no message or barrier leads\n\
         \x20            from process 0 after row 4 to process 1 before row 5, directly or\n\
         \x20            through other processes.\n",
        "    Order:   the last row of process 0 that happens before row 5 is row 3\n             (arrival at barrier 7).\n",
    ] {
        assert!(out(&o).contains(part), "{part}\nin\n{}", out(&o));
    }
}

#[test]
fn what_was_read_counts_barriers_apart_from_messages() {
    let rows = "0,send,,,,7\r\n1,recv,,,,7\r\n1,wait,,,,7\r\n0,barrier,,,,7\r\n1,barrier,,,,7\r\n1,barrier,,,,8\r\n0,barrier,,,,8\r\n0,open,4,,,\r\n";
    let o = run(&["check", "-", "--header", "no"], rows.as_bytes());
    assert_eq!(status(&o), 0, "{}", out(&o));
    let part = "  file 4: 1 row\n  send, recv and wait, of no file: 3 rows\n  barrier, of no file: 4 rows (2 barriers)\n";
    assert!(out(&o).contains(part), "{}", out(&o));
    let o = run(&["check", "-", "--header", "no"], b"0,open,1,,,\r\n5,barrier,,,,65535\r\n0,barrier,,,,65535");
    let last = "  last row: 0,barrier,,,,65535\n            process 0 arrives at barrier 65535\n";
    assert!(status(&o) == 0 && out(&o).contains(last), "{}", out(&o));
}

/// A barrier is of no file: a replay passes it by, and the read behind it gets what was committed before it.
#[test]
fn a_replay_passes_barriers_by() {
    let o = run(&["replay", "barrier_free.csv", "--header", "yes", "--file", "1", "--model", "commit"], b"");
    let want = "Trace: barrier_free.csv (5 rows)\nFile 1 under commit: 3 rows of this file, in the order of the trace\n\n\
                Row 5: process 1 reads bytes 5 to 14\n  bytes     commit     plain file\n  5 to 9    row 1      row 1\n\
                \x20 10 to 14  unwritten  unwritten\n\n\
                This is the recorded order alone. 'kiqsaryn check' judges every allowed order.\n\
                Reads: 1, bytes read: 10, stale bytes: 0\n";
    assert_eq!((out(&o).as_str(), status(&o)), (want, 0));
    let o = run(&["replay", "-", "--header", "no", "--file", "0", "--model", "posix"], b"0,barrier,,,,0\r\n0,barrier,,,,1\r\n");
    let sentence = "kiqsaryn: no row is of file 0; the trace has no row of any file\n";
    assert_eq!((out(&o).as_str(), err(&o).as_str(), status(&o)), ("", sentence, 3));
}

#[test]
fn barriers_are_written_plain() {
    let o = run(&["write", "-", "--header", "no"], b"\"0\",\"barrier\",\"\",,,\"7\"\r\n1,barrier,,,,7\r\n\"1\",sync,1,,,");
    assert_eq!((out(&o).as_str(), status(&o)), ("0,barrier,,,,7\r\n1,barrier,,,,7\r\n1,sync,1,,,\r\n", 0));
    let free = std::fs::read_to_string(examples().join("barrier_free.csv")).expect("the trace");
    assert_eq!(out(&run(&["write", "barrier_free.csv", "--header", "yes"], b"")), free);
}

/// A long trace with a barrier that all processes pass again and again, as many as there can be.
#[test]
fn a_full_trace_of_barriers() {
    let mut text = String::new();
    for turn in 0..ROWS / (4 * PROCESSES) {
        for p in 0..PROCESSES {
            text += &format!("{p},write,1,{},90,\r\n{p},commit,1,,,\r\n{p},read,1,{},1,\r\n", p * 100, p * 100);
        }
        (0..PROCESSES).for_each(|k| text += &format!("{},barrier,,,,{turn}\r\n", (7 * k + turn) % PROCESSES));
    }
    (0..ROWS % (4 * PROCESSES)).for_each(|_| text += "0,commit,1,,,\r\n");
    assert_eq!(text.lines().count(), ROWS as usize);
    let picture = &["diagram", "--rows", "1-480"];
    for args in [&["check"][..], &["check", "--csv"], &["replay", "--file", "1", "--model", "commit"], picture, &["write"]] {
        let o = run(&[args, &["-", "--header", "no"]].concat(), text.as_bytes());
        assert_eq!(status(&o), 0, "{args:?}: {}", err(&o));
    }
}

// ---- Barriers out of order

const QUESTION: &str = "  answered No: Does no process arrive at a barrier twice, or go on before all\n\
                        \x20              have arrived, and is every barrier finished at the trace's end?\n";

/// Fails unless each trace, without a header, is refused with 22 at this place and told so, alike by every command.
fn all_refused(cases: &[(&[&str], u32, &str)]) {
    for (rows, place, want) in cases {
        let text: String = rows.iter().map(|row| format!("{row}\r\n")).collect();
        let o = run(&["check", "-", "--header", "no", "--csv"], text.as_bytes());
        assert_eq!((out(&o), status(&o)), (format!("refused,22,{place}\r\n"), 2), "{rows:?}");
        for command in [&["check"][..], &["replay", "--file", "1", "--model", "commit"], &["diagram"], &["write"]] {
            let o = run(&[command, &["-", "--header", "no"]].concat(), text.as_bytes());
            let told = if ["diagram", "write"].contains(&command[0]) { err(&o) } else { out(&o) };
            assert_eq!(status(&o), 2, "{rows:?}: {told}");
            let first = format!("Trace: standard input\n\nRefused: number 22, at row {place}. There is no verdict.\n");
            assert!(told.starts_with(&first) && told.ends_with(&format!("\n{QUESTION}{want}")), "{want}\nin\n{told}");
        }
    }
}

#[test]
fn a_repeated_barrier_is_shown_with_the_row_before() {
    all_refused(&[
        (
            &["0,barrier,,,,7", "0,open,1,,,", "0,barrier,,,,\"7\""],
            3,
            "  the record:  0,barrier,,,,\"7\"\n  before it:   row 1: process 0 arrives at barrier 7\n\
             \x20 note:        row 1 arrives at barrier 7 already: a process arrives once at\n               each barrier.\n",
        ),
        // It repeats the barrier where it stands.
        (
            &["0,barrier,,,,7", "1,open,1,,,", "0,barrier,,,,7", "1,barrier,,,,7"],
            3,
            "  the record:  0,barrier,,,,7\n  before it:   row 1: process 0 arrives at barrier 7\n\
             \x20 note:        row 1 arrives at barrier 7 already: a process arrives once at\n               each barrier.\n\
             \x20 note:        process 0 stands at barrier 7 and goes on. Not arrived: process\n               1 (row 4, behind it).\n",
        ),
        // It repeats one barrier while it stands at another.
        (
            &["0,barrier,,,,7", "1,barrier,,,,7", "0,barrier,,,,8", "0,barrier,,,,7"],
            4,
            "  the record:  0,barrier,,,,7\n  before it:   row 1: process 0 arrives at barrier 7\n\
             \x20 before it:   row 3: process 0 arrives at barrier 8\n\
             \x20 note:        row 1 arrives at barrier 7 already: a process arrives once at\n               each barrier.\n\
             \x20 note:        process 0 stands at barrier 8 and goes on. Not arrived: process\n               1 (no row of it).\n",
        ),
    ]);
}

#[test]
fn a_row_that_goes_on_early_is_told_who_has_not_arrived() {
    all_refused(&[
        (
            &["0,write,1,0,10,", "0,barrier,,,,7", "2,open,1,,,", "3,barrier,,,,7", "0,commit,1,,,", "1,barrier,,,,7"],
            5,
            "  the record:  0,commit,1,,,\n  before it:   row 2: process 0 arrives at barrier 7\n\
             \x20 note:        process 0 stands at barrier 7 and goes on. Not arrived: process\n\
             \x20              1 (row 6, behind it), process 2 (no row of it).\n",
        ),
        // To the next barrier.
        (
            &["1,barrier,,,,7", "1,barrier,,,,8", "0,barrier,,,,7", "0,barrier,,,,8"],
            2,
            "  the record:  1,barrier,,,,8\n  before it:   row 1: process 1 arrives at barrier 7\n\
             \x20 note:        process 1 stands at barrier 7 and goes on. Not arrived: process\n               0 (row 3, behind it).\n",
        ),
    ]);
}

#[test]
fn an_unfinished_barrier_is_told_with_who_has_arrived() {
    all_refused(&[
        (
            &["2,barrier,,,,7", "0,barrier,,,,7", "1,write,1,0,10,", "1,commit,1,,,"],
            4,
            "  the record:  1,commit,1,,,\n  note:        barrier 7 is unfinished at the end. Arrived: process 0 at row\n\
             \x20              2, process 2 at row 1. Not arrived: process 1.\n",
        ),
        // Two, and the last row is an arrival.
        (
            &["2,open,1,,,", "0,barrier,,,,8", "1,barrier,,,,7"],
            3,
            "  the record:  1,barrier,,,,7\n  note:        barrier 7 is unfinished at the end. Arrived: process 1 at row\n\
             \x20              3. Not arrived: process 0, process 2.\n  note:        barrier 8 is unfinished at the end. Arrived: process 0 at row\n\
             \x20              2. Not arrived: process 1, process 2.\n",
        ),
    ]);
}

// ---- Joins

/// A row whose process stands at an unfinished barrier is held back, and the second trace goes on until all have arrived.
#[test]
fn a_join_holds_rows_back_at_a_barrier() {
    let left = "0,write,1,0,10,\r\n0,commit,1,,,\r\n0,barrier,,,,7\r\n0,read,1,20,5,\r\n";
    let right = "1,write,1,20,5,\r\n1,commit,1,,,\r\n1,barrier,,,,7\r\n1,read,1,5,10,\r\n";
    let pair = Pair::new("barrier-held", left.as_bytes(), right.as_bytes());
    let o = pair.run("join", "no,no", &["-o", "-", "--model", "commit"]);
    let joined = "0,write,1,0,10,\r\n0,commit,1,,,\r\n0,barrier,,,,7\r\n1,write,1,20,5,\r\n1,commit,1,,,\r\n1,barrier,,,,7\r\n\
                  0,read,1,20,5,\r\n1,read,1,5,10,\r\n";
    assert_eq!((out(&o).as_str(), status(&o)), (joined, 0), "{}", err(&o));
    for name in ["a.csv", "b.csv"] {
        let o = pair.feed(&["check", name, "--header", "no", "--model", "commit", "--csv"], b"");
        assert_eq!(out(&o), "model,verdict,earlier,later\r\ncommit,free,,\r\n", "one process alone passes its barriers, {name}");
    }
    // Without the commit before the barrier the reads race, each with the write of the other trace.
    pair.put(left.replace("0,commit,1,,,\r\n", "").as_bytes(), right.as_bytes());
    let o = pair.run("check", "no,no", &["--model", "commit"]);
    let order = "    Order:   the last row of process 0 that happens before row 7 is row 2 (row\n             2 of a.csv) (arrival at barrier 7).\n";
    assert!(status(&o) == 1 && out(&o).contains(order), "{}", out(&o));
    let picture = out(&pair.run("diagram", "no,no", &[]));
    assert!(picture.contains(">2 A2 barrier b7</text>") && picture.contains(">5 B3 barrier b7</text>"), "{picture}");
    assert_eq!(picture.matches("<path class=\"meet\"").count(), 2, "the barrier's and the legend's");
    keeps_the_rules(&picture);
}

/// What is said of a join that is refused, behind the line with its number, but for the lines that name places.
fn refused_join(pair: &Pair, csv: &str) -> String {
    let o = pair.run("check", "no,no", &["--csv"]);
    assert_eq!((out(&o), status(&o)), (format!("refused,{csv},0\r\n"), 2));
    let told = out(&pair.run("join", "no,no", &[]));
    without_places(told.split_once(" There is no verdict.\n").expect("a refusal").1)
}

const STUCK: &str = "  answered No: Can one of the next rows be taken: if it is a wait, has a taken\n\
                     \x20              row sent its message, and is every barrier finished at which\n\
                     \x20              its process stands?\n";

#[test]
fn rows_that_are_held_at_a_barrier_are_named() {
    let pair = Pair::new("barrier-stuck", b"0,barrier,,,,7\r\n0,sync,1,,,\r\n", b"1,open,1,,,\r\n2,barrier,,,,7\r\n");
    let first = "  taken:       1 row of a.csv, 2 rows of b.csv\n  first:       row 2 of a.csv: 0,sync,1,,,\n\
                 \x20              Process 0 stands at barrier 7 (row 1 of a.csv). Not arrived:\n\
                 \x20              process 1 (it arrives in neither trace).\n  second:      b.csv is at its end.\n";
    assert_eq!(refused_join(&pair, "20,0"), [STUCK, first].concat());

    // Each stands at a barrier where the other arrives next.
    pair.put(b"0,barrier,,,,7\r\n0,barrier,,,,8\r\n", b"1,barrier,,,,8\r\n1,barrier,,,,7\r\n");
    let both = "  taken:       1 row of a.csv, 1 row of b.csv\n  first:       row 2 of a.csv: 0,barrier,,,,8\n\
                \x20              Process 0 stands at barrier 7 (row 1 of a.csv). Not arrived:\n\
                \x20              process 1 (row 2 of b.csv, itself a row that waits).\n\
                \x20 second:      row 2 of b.csv: 1,barrier,,,,7\n\
                \x20              Process 1 stands at barrier 8 (row 1 of b.csv). Not arrived:\n\
                \x20              process 0 (row 2 of a.csv, itself a row that waits).\n";
    assert_eq!(refused_join(&pair, "20,0"), [STUCK, both].concat());

    // One waits for a message whose send is held at the barrier that it does not reach.
    pair.put(b"0,recv,,,,7\r\n0,wait,,,,7\r\n0,barrier,,,,7\r\n", b"1,barrier,,,,7\r\n1,send,,,,7\r\n");
    let crossed = "  taken:       1 row of a.csv, 1 row of b.csv\n  first:       row 2 of a.csv: 0,wait,,,,7\n\
                   \x20              It waits for message 7, which row 2 of b.csv sends, itself a\n               row that waits.\n\
                   \x20 second:      row 2 of b.csv: 1,send,,,,7\n\
                   \x20              Process 1 stands at barrier 7 (row 1 of b.csv). Not arrived:\n\
                   \x20              process 0 (row 3 of a.csv, behind a row that waits).\n";
    assert_eq!(refused_join(&pair, "20,0"), [STUCK, crossed].concat());

    // A wait whose process stands at a barrier waits for both.
    pair.put(b"0,barrier,,,,7\r\n0,wait,,,,9\r\n", b"1,sync,1,,,\r\n");
    let twice = "  taken:       1 row of a.csv, 1 row of b.csv\n  first:       row 2 of a.csv: 0,wait,,,,9\n\
                 \x20              It waits for message 9, which no row of the two traces sends.\n\
                 \x20              Process 0 stands at barrier 7 (row 1 of a.csv). Not arrived:\n\
                 \x20              process 1 (it arrives in neither trace).\n  second:      b.csv is at its end.\n";
    assert_eq!(refused_join(&pair, "20,0"), [STUCK, twice].concat());
}

#[test]
fn a_join_whose_barriers_are_wrong_is_told_so() {
    let pair = Pair::new("barrier-wrong", b"0,barrier,,,,7\r\n", b"1,write,1,0,10,\r\n1,commit,1,,,\r\n");
    let unfinished = "  the record:  row 2 of b.csv: 1,commit,1,,,\n\
                      \x20 note:        barrier 7 is unfinished at the end. Arrived: process 0 at row 1\n\
                      \x20              (row 1 of a.csv). Not arrived: process 1.\n";
    assert_eq!(refused_join(&pair, "22,3"), [QUESTION, unfinished].concat());
    pair.put(b"0,barrier,,,,7\r\n0,barrier,,,,7\r\n", b"1,barrier,,,,7\r\n1,open,1,,,\r\n");
    let repeated = "  the record:  row 2 of a.csv: 0,barrier,,,,7\n\
                    \x20 before it:   row 1 (row 1 of a.csv): process 0 arrives at barrier 7\n\
                    \x20 note:        row 1 arrives at barrier 7 already: a process arrives once at\n               each barrier.\n";
    assert_eq!(refused_join(&pair, "22,3"), [QUESTION, repeated].concat());
}
