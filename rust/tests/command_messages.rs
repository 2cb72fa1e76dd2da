//! Messages as the command `kiqsaryn` shows them: receives that are posted, waits, and messages out of order.

#[allow(dead_code)]
mod running;

use running::picture::{keeps_the_rules, lines, row_boxes, Line};
use running::{err, examples, out, run, status};

// ---- A receive that is posted and not waited for

/// A receive that is posted and not waited for orders nothing: trace B of the bench has a race under every model.
#[test]
fn a_posted_receive_alone_orders_nothing() {
    let o = run(&["check", "posted_only.csv", "--header", "yes", "--csv"], b"");
    assert_eq!(out(&o), "model,verdict,earlier,later\r\nposix,race,1,5\r\ncommit,race,1,5\r\nsession,race,1,5\r\nmpiio,race,1,5\r\n");
    let o = run(&["check", "posted_only.csv", "--header", "yes"], b"");
    assert_eq!((status(&o), err(&o)), (1, String::new()));
    let told = out(&o);
    assert!(told.contains("  file 1: 3 rows\n  send, recv and wait, of no file: 2 rows\n  recv without a wait: 1 row\n"), "{told}");
    let posted = "    Posted:  row 4 posts a receive for message 7, which row 3 sends, and no\n\
                  \x20            row of process 1 before row 5 waits for it: a posted receive\n\
                  \x20            gives no order by itself.\n    Order:   no row of process 0 happens before row 5.\n";
    assert_eq!(told.matches(posted).count(), 4, "{told}");
    // With a wait behind row 4 it is free under commit, as the same rows are in commit_free.csv.
    let text = std::fs::read_to_string(examples().join("posted_only.csv")).expect("the trace");
    let mended = text.replace("1,recv,,,,7\r\n", "1,recv,,,,7\r\n1,wait,,,,7\r\n");
    assert_eq!(mended, std::fs::read_to_string(examples().join("commit_free.csv")).expect("the trace"));
    let o = run(&["check", "-", "--header", "yes", "--csv"], mended.as_bytes());
    assert_eq!(out(&o), "model,verdict,earlier,later\r\nposix,free,,\r\ncommit,free,,\r\nsession,race,1,6\r\nmpiio,race,1,6\r\n");
    assert!(!out(&run(&["check", "commit_free.csv", "--header", "yes"], b"")).contains("without a wait"));
}

// ---- Messages out of order

/// Rows, the place of the one that is refused, and what is said behind the question.
type Refused<'a> = (&'a [&'a str], u32, &'a str);

/// Fails unless each trace, without a header, is refused with this number and told so, alike by every command.
fn all_refused(number: u32, cases: &[Refused]) {
    for (rows, place, want) in cases {
        let text: String = rows.iter().map(|row| format!("{row}\r\n")).collect();
        let o = run(&["check", "-", "--header", "no", "--csv"], text.as_bytes());
        assert_eq!((out(&o), status(&o)), (format!("refused,{number},{place}\r\n"), 2), "{rows:?}");
        for command in [&["check"][..], &["replay", "--file", "1", "--model", "commit"], &["diagram"], &["write"]] {
            let o = run(&[command, &["-", "--header", "no"]].concat(), text.as_bytes());
            let told = if ["diagram", "write"].contains(&command[0]) { err(&o) } else { out(&o) };
            assert_eq!(status(&o), 2, "{rows:?}: {told}");
            let first = format!("Trace: standard input\n\nRefused: number {number}, at row {place}. There is no verdict.\n");
            assert!(told.starts_with(&first) && told.ends_with(&format!("?\n{want}")), "{want}\nin\n{told}");
        }
    }
}

#[test]
fn a_message_that_is_sent_or_posted_again_is_shown_with_the_rows_before() {
    all_refused(
        12,
        &[
            (
                &["0,send,,,,7", "1,open,1,,,", "2,send,,,,\"7\""],
                3,
                "  the record:  2,send,,,,\"7\"\n  before it:   row 1: process 0 sends message 7\n\
                 \x20 note:        row 1 sends message 7 already.\n",
            ),
            (
                &["1,recv,,,,7", "1,recv,,,,7"],
                2,
                "  the record:  1,recv,,,,7\n  before it:   row 1: process 1 posts a receive for message 7\n\
                 \x20 note:        row 1 posts a receive for message 7 already.\n",
            ),
            (
                &["0,send,,,,7", "1,recv,,,,7", "1,wait,,,,7", "2,recv,,,,7"],
                4,
                "  the record:  2,recv,,,,7\n  before it:   row 1: process 0 sends message 7\n\
                 \x20 before it:   row 2: process 1 posts a receive for message 7\n\
                 \x20 before it:   row 3: process 1 waits for message 7\n  note:        row 2 posts a receive for message 7 already.\n",
            ),
        ],
    );
}

#[test]
fn a_message_of_a_process_to_itself_is_shown_with_the_rows_before() {
    all_refused(
        12,
        &[
            (
                &["1,open,1,,,", "0,recv,,,,7", "0,send,,,,7"],
                3,
                "  the record:  0,send,,,,7\n  before it:   row 2: process 0 posts a receive for message 7\n\
                 \x20 note:        process 0 posts the receive for message 7 itself, at row 2: a\n\
                 \x20              message goes from one process to another.\n",
            ),
            (
                &["0,send,,,,7", "0,recv,,,,7"],
                2,
                "  the record:  0,recv,,,,7\n  before it:   row 1: process 0 sends message 7\n\
                 \x20 note:        process 0 sends message 7 itself, at row 1: a message goes from\n\
                 \x20              one process to another.\n",
            ),
            // Another process has posted it besides.
            (
                &["1,recv,,,,7", "0,send,,,,7", "0,recv,,,,7"],
                3,
                "  the record:  0,recv,,,,7\n  before it:   row 1: process 1 posts a receive for message 7\n\
                 \x20 before it:   row 2: process 0 sends message 7\n  note:        row 1 posts a receive for message 7 already.\n\
                 \x20 note:        process 0 sends message 7 itself, at row 2: a message goes from\n\
                 \x20              one process to another.\n",
            ),
        ],
    );
}

#[test]
fn a_wait_for_a_message_that_its_process_has_not_posted_is_told_so() {
    all_refused(
        21,
        &[
            (
                &["0,send,,,,7", "1,open,1,,,", "1,wait,,,,\"7\""],
                3,
                "  the record:  1,wait,,,,\"7\"\n  before it:   row 1: process 0 sends message 7\n\
                 \x20 note:        no row before it posts a receive for message 7.\n",
            ),
            (
                &["0,send,,,,7", "1,wait,,,,7", "1,open,1,,,", "1,recv,,,,7"],
                2,
                "  the record:  1,wait,,,,7\n  before it:   row 1: process 0 sends message 7\n\
                 \x20 note:        no row before it posts a receive for message 7; row 4 does,\n\
                 \x20              behind it.\n",
            ),
            (
                &["2,recv,,,,7", "0,send,,,,7", "1,wait,,,,7"],
                3,
                "  the record:  1,wait,,,,7\n  before it:   row 1: process 2 posts a receive for message 7\n\
                 \x20 before it:   row 2: process 0 sends message 7\n\
                 \x20 note:        process 1 posts no receive for message 7 before it; process 2\n\
                 \x20              does, at row 1.\n",
            ),
        ],
    );
}

#[test]
fn a_wait_for_a_message_that_is_not_sent_is_told_so() {
    all_refused(
        21,
        &[
            (
                &["1,recv,,,,7", "1,wait,,,,7", "1,open,1,,,"],
                2,
                "  the record:  1,wait,,,,7\n  before it:   row 1: process 1 posts a receive for message 7\n\
                 \x20 note:        no row before it sends message 7.\n",
            ),
            (
                &["1,recv,,,,7", "1,wait,,,,7", "0,send,,,,8", "0,send,,,,7"],
                2,
                "  the record:  1,wait,,,,7\n  before it:   row 1: process 1 posts a receive for message 7\n\
                 \x20 note:        no row before it sends message 7; row 4 does, behind it.\n",
            ),
            // Neither posted nor sent; what stands behind a row that cannot be read is not known.
            (
                &["1,wait,,,,7", "0,send,,,,7", "1,wrote,1,0,1,", "1,recv,,,,7"],
                1,
                "  the record:  1,wait,,,,7\n  note:        no row before it posts a receive for message 7.\n\
                 \x20 note:        no row before it sends message 7; row 2 does, behind it.\n\
                 \x20 note:        --header no says that the first record is row 1.\n",
            ),
        ],
    );
}

#[test]
fn a_second_wait_is_told_so() {
    all_refused(
        21,
        &[
            (
                &["0,send,,,,7", "1,recv,,,,7", "1,wait,,,,7", "1,wait,,,,7"],
                4,
                "  the record:  1,wait,,,,7\n  before it:   row 1: process 0 sends message 7\n\
                 \x20 before it:   row 2: process 1 posts a receive for message 7\n\
                 \x20 before it:   row 3: process 1 waits for message 7\n  note:        row 3 waits for message 7 already.\n",
            ),
            // By another process.
            (
                &["0,send,,,,7", "1,recv,,,,7", "1,wait,,,,7", "2,wait,,,,7", "2,wrote,1,0,1,"],
                4,
                "  the record:  2,wait,,,,7\n  before it:   row 1: process 0 sends message 7\n\
                 \x20 before it:   row 2: process 1 posts a receive for message 7\n\
                 \x20 before it:   row 3: process 1 waits for message 7\n\
                 \x20 note:        process 2 posts no receive for message 7 before it; process 1\n\
                 \x20              does, at row 2.\n  note:        row 3 waits for message 7 already.\n",
            ),
        ],
    );
}

/// The rows of a message stand far apart in the longest trace, with every field in quotes.
#[test]
fn rows_of_a_long_trace_are_found() {
    let many = "\"0\",\"write\",\"63\",\"2147483647\",\"2147483648\",\"\"\r\n".repeat(4_092);
    let rows = ["0,send,,,,65535\r\n", "21,recv,,,,65535\r\n", &many, "21,wait,,,,65535\r\n", "21,wait,,,,65535\r\n"].concat();
    let o = run(&["check", "-", "--header", "no"], rows.as_bytes());
    assert!(out(&o).contains("Refused: number 21, at row 4096."), "{}", out(&o));
    assert!(out(&o).ends_with("  note:        row 4095 waits for message 65535 already.\n"), "{}", out(&o));
    // Rows behind the last that a trace can have are not looked at.
    let rows = ["0,send,,,,65535\r\n", "21,wait,,,,65535\r\n", &many, &many].concat();
    let o = run(&["check", "-", "--header", "no"], rows.as_bytes());
    assert!(out(&o).contains("Refused: number 21, at row 2."), "{}", out(&o));
    assert!(out(&o).contains("  note:        no row before it posts a receive for message 65535.\n"), "{}", out(&o));
}

// ---- Pictures

/// The arrow runs from the send to the wait, and the receive in between, posted before the send or behind it, is a hollow box without one.
#[test]
fn a_picture_draws_a_message_from_its_send_to_its_wait() {
    for (rows, send, recv, wait) in [
        ("1,recv,,,,7\r\n0,write,1,0,10,\r\n0,send,,,,7\r\n1,wait,,,,7\r\n1,read,1,5,10,\r\n", 2, 0, 3),
        ("0,write,1,0,10,\r\n0,send,,,,7\r\n1,recv,,,,7\r\n1,open,1,,,\r\n1,wait,,,,7\r\n1,read,1,5,10,\r\n", 1, 2, 4),
    ] {
        let picture = out(&run(&["diagram", "-", "--header", "no", "--all"], rows.as_bytes()));
        let boxes = row_boxes(&picture);
        let arrows: Vec<Line> = lines(&picture).into_iter().filter(|line| line.class == "arrow").collect();
        assert!(arrows.iter().any(|arrow| arrow.joins(&boxes[send], &boxes[wait])), "{picture}");
        assert_eq!(arrows.len(), 2, "this and the legend's");
        let kind = |k: usize| boxes[k].class.split(' ').next().expect("a class");
        let texts = [send, recv, wait].map(|k| (kind(k), boxes[k].text.split_once(' ').expect("a number").1));
        assert_eq!(texts, [("message", "send m7"), ("posted", "recv m7"), ("message", "wait m7")]);
        keeps_the_rules(&picture);
    }
    let picture = out(&run(&["diagram", "posted_only.csv", "--header", "yes", "--all"], b""));
    let boxes = row_boxes(&picture);
    assert_eq!((boxes[2].text.as_str(), boxes[3].text.as_str()), ("3 send m7, not waited for", "4 recv m7, not waited for"));
    assert_eq!(picture.matches("<path class=\"arrow\"").count(), 1, "the legend's");
    assert!(picture.contains(">Posted: row 4 posts a receive for message 7, which row 3 sends, and no row of process 1"), "{picture}");
    for sample in ["send wait", "recv", "message, from send to wait"] {
        assert!(picture.contains(&format!(">{sample}</text>\n")), "{sample} in {picture}");
    }
    keeps_the_rules(&picture);
    let picture = out(&run(&["diagram", "-", "--header", "no"], b"0,recv,,,,7\r\n1,send,,,,8\r\n"));
    let texts: Vec<String> = row_boxes(&picture).into_iter().map(|b| b.text).collect();
    assert_eq!(texts, ["1 recv m7, not sent", "2 send m8, not waited for"]);
}
