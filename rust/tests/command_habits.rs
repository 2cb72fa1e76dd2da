//! What a user of a shell expects of a command, typed as a user types it: names in any case, options in each form, help, what was probably meant,
//! names of files as they are, pipes that close, descriptors that are closed, traces without rows, and several traces.

#![allow(dead_code)]

mod running;

use running::folder::{failed, Folder};
use running::{err, out, status};

/// A row that is free under each model, and one that is refused. The trace `t.csv` of the folder has one race, under commit.
const FREE: &str = "0,write,1,0,10,\r\n";
const BAD: &str = "0,flush,1,,,\r\n";
const NAMES: &str = "process,kind,file,offset,length,message\r\n";
const NOTHING: &str = "free (the trace has no row: nothing was judged)";

fn folder(name: &str) -> Folder {
    let f = Folder::new(&format!("habits-{name}"));
    for (name, text) in [("free.csv", [NAMES, FREE].concat()), ("bad.csv", [NAMES, BAD].concat()), ("none.csv", NAMES.to_string())] {
        f.put(name, &text, 0o644);
    }
    f
}

/// Status, standard output and standard error of a line.
fn all(f: &Folder, line: &str) -> (i32, String, String) {
    let o = f.sh(line);
    (status(&o), out(&o), err(&o))
}

/// Fails unless a wrong command line is told so, and how to get help.
fn wrong(f: &Folder, line: &str, words: &str) {
    let (status, out, err) = all(f, line);
    assert_eq!((status, out.as_str()), (3, ""), "{line}: {err}");
    assert!(err.starts_with(&format!("kiqsaryn: {words}\n")), "{line}: {err}");
    assert!(err.contains(" --help shows the "), "{line}: {err}");
}

// ---- Words in each form

#[test]
fn models_are_known_in_any_case_and_as_the_papers_write_them() {
    let f = folder("models");
    for (model, names) in [
        ("posix", &["POSIX", "Posix", "pOSIX"][..]),
        ("commit", &["Commit", "COMMIT"]),
        ("session", &["Session", "SESSION"]),
        ("mpiio", &["MPI-IO", "mpi-io", "MPIIO", "Mpi-IO", "mpi_io", "MPI_IO"]),
        ("all", &["ALL", "All"]),
    ] {
        for name in names {
            for line in ["check t.csv --header yes --csv", "races t.csv --header yes", "check t.csv --header yes --json"] {
                let want = all(&f, &format!("kiqsaryn {line} --model {model}"));
                assert!(want.0 < 2 && want.2.is_empty(), "{want:?}");
                assert_eq!(all(&f, &format!("kiqsaryn {line} --model {name}")), want, "{line} {name}");
                assert_eq!(all(&f, &format!("kiqsaryn {line} --model={name}")), want, "{line} {name}");
            }
            if model != "all" {
                for line in ["replay t.csv --header yes --file 1", "diagram t.csv --header yes"] {
                    let want = all(&f, &format!("kiqsaryn {line} --model {model}"));
                    assert_eq!(all(&f, &format!("kiqsaryn {line} --model {name}")), want, "{line} {name}");
                }
            }
        }
    }
}

#[test]
fn the_output_file_is_named_in_each_form() {
    let f = folder("output");
    for command in ["diagram", "write"] {
        let want = f.sh(&format!("kiqsaryn {command} t.csv --header yes")).stdout;
        assert!(!want.is_empty());
        for option in ["-onew", "-o new", "--output new", "--output=new", "-o ./new"] {
            for line in
                [format!("kiqsaryn {command} t.csv --header yes {option}"), format!("kiqsaryn {command} {option} --header=yes t.csv")]
            {
                let o = f.sh(&line);
                assert_eq!((status(&o), err(&o).as_str()), (0, ""), "{line}");
                assert!(f.read("new") == want, "{line}");
                std::fs::remove_file(f.path("new")).expect("the file is removed");
            }
        }
        for option in ["-o-", "-o -", "--output -", "--output=-"] {
            assert!(f.sh(&format!("kiqsaryn {command} t.csv --header yes {option}")).stdout == want, "{command} {option}");
        }
        wrong(&f, &format!("kiqsaryn {command} t.csv --header yes --output"), "--output has no value");
        wrong(&f, &format!("kiqsaryn {command} t.csv --header yes -o a --output=b"), "--output is given twice");
    }
}

#[test]
fn options_stand_anywhere_and_two_hyphens_end_them() {
    let f = folder("anywhere");
    let want = all(&f, "kiqsaryn check t.csv --header yes --csv");
    for line in ["--header yes t.csv --csv", "--csv --header=yes t.csv", "--csv --header yes -- t.csv", "t.csv --csv --csv --header yes"] {
        assert_eq!(all(&f, &format!("kiqsaryn check {line}")), want, "{line}");
    }
    f.put("--header", &[NAMES, FREE].concat(), 0o644);
    assert_eq!(status(&f.sh("kiqsaryn check --header yes -- --header")), 0);
}

// ---- Help

#[test]
fn help_is_a_command_too() {
    let f = folder("help");
    assert_eq!(all(&f, "kiqsaryn help"), all(&f, "kiqsaryn --help"));
    assert_eq!(all(&f, "kiqsaryn help"), all(&f, "kiqsaryn -h"));
    let listed = out(&f.sh("kiqsaryn --help"));
    let commands: Vec<&str> = listed.lines().filter_map(|l| l.strip_prefix("  kiqsaryn ")).filter_map(|l| l.split(' ').next()).collect();
    assert!(commands.len() > 10 && commands.contains(&"check") && commands.contains(&"--version"), "{commands:?}");
    for command in commands.iter().filter(|c| !c.starts_with('-') && **c != "help") {
        let (status, out, err) = all(&f, &format!("kiqsaryn help {command}"));
        assert_eq!((status, err.as_str()), (0, ""), "{command}");
        assert!(out.starts_with(&format!("kiqsaryn {command}")), "{out}");
        assert!(out.lines().all(|l| l.chars().count() <= 78), "{out}");
        assert_eq!(out, self::out(&f.sh(&format!("kiqsaryn {command} --help"))), "{command}");
        assert_eq!(out, self::out(&f.sh(&format!("kiqsaryn {command} -h"))), "{command}");
    }
    wrong(&f, "kiqsaryn help chekc", "there is no command \"chekc\"; did you mean check?");
    wrong(&f, "kiqsaryn help check races", "help takes one COMMAND");
    wrong(&f, "kiqsaryn", "no command is given");
}

#[test]
fn what_was_probably_meant_is_asked() {
    let f = folder("meant");
    for (line, words) in [
        ("chek t.csv", "there is no command \"chek\"; did you mean check?"),
        ("CHECK t.csv", "there is no command \"CHECK\"; did you mean check?"),
        ("hcekc t.csv", "there is no command \"hcekc\"; did you mean check?"),
        ("race t.csv", "there is no command \"race\"; did you mean races?"),
        ("diag t.csv", "there is no command \"diag\"; did you mean diagram?"),
        ("--hlep", "there is no command \"--hlep\"; did you mean --help?"),
        ("--verison", "there is no command \"--verison\"; did you mean --version?"),
        ("zzz", "there is no command \"zzz\""),
        ("t.csv --header yes", "there is no command \"t.csv\""),
        ("''", "there is no command \"\""),
        ("check t.csv --help=all", "--help takes no value"),
        ("check t.csv --hedaer yes", "check has no option \"--hedaer\"; did you mean --header?"),
        ("check t.csv --hedaer=yes", "check has no option \"--hedaer\"; did you mean --header?"),
        ("check t.csv -header yes", "check has no option \"-header\"; did you mean --header?"),
        ("check t.csv --Model posix", "check has no option \"--Model\"; did you mean --model?"),
        ("check t.csv --proc 4", "check has no option \"--proc\"; did you mean --processes?"),
        ("diagram t.csv --out p.svg", "diagram has no option \"--out\"; did you mean --output?"),
        ("check t.csv --verbose", "check has no option \"--verbose\""),
        ("check t.csv -x", "check has no option \"-x\""),
        ("races t.csv --header yes -o x", "races has no option \"-o\""),
        ("check t.csv --header yes --model comit", &model("comit", "; did you mean commit?")),
        ("check t.csv --header yes --model mpi", &model("mpi", "; did you mean mpiio?")),
        ("check t.csv --header yes --model MPIO", &model("MPIO", "; did you mean mpiio?")),
        ("check t.csv --header yes --model nfs", &model("nfs", "")),
        ("check t.csv --header yes --model ''", &model("", "")),
        ("replay t.csv --header yes --model sesion", "--model is posix, commit, session or mpiio, not \"sesion\"; did you mean session?"),
    ] {
        wrong(&f, &format!("kiqsaryn {line}"), words);
    }
    let long = "x".repeat(100_000);
    assert_eq!(status(&f.sh(&format!("kiqsaryn {long}"))), 3);
}

fn model(word: &str, meant: &str) -> String {
    format!("--model is all, posix, commit, session or mpiio, not {word:?}{meant}")
}

// ---- Names of files

#[test]
fn names_are_shown_as_they_are() {
    let f = folder("names");
    let text = String::from_utf8(f.read("t.csv")).expect("text");
    for (name, shown) in [
        ("Regal-Süd.csv", "Regal-Süd.csv"),
        ("東京 棚.csv", "東京 棚.csv"),
        ("Ωμέγα.csv", "Ωμέγα.csv"),
        ("new\nline.csv", "new\\nline.csv"),
        ("bell\u{7}.csv", "bell\\x07.csv"),
        ("escape\u{1b}[31m.csv", "escape\\x1b[31m.csv"),
        ("c1\u{9b}.csv", "c1\\xc2\\x9b.csv"),
        ("back\\slash.csv", "back\\\\slash.csv"),
    ] {
        f.put(name, &text, 0o644);
        for (line, label) in [
            ("check", format!("Trace: {shown}\n")),
            ("races", format!("Trace: {shown} (5 rows)\n")),
            ("replay --model commit", format!("Trace: {shown} (5 rows)\n")),
            ("write -o w.csv", format!("Trace: {shown}\n")),
        ] {
            let o = f.sh(&format!("kiqsaryn {line} --header yes '{name}'"));
            assert!(out(&o).starts_with(&label), "{line} {name:?}: {}", out(&o));
        }
        let o = f.sh(&format!("kiqsaryn diagram --header yes '{name}'"));
        assert!(out(&o).contains(&format!("<title>{shown}</title>\n")), "{name:?}: {}", out(&o));
        let o = f.sh(&format!("kiqsaryn explain --header yes '{name}' 5"));
        assert!(out(&o).starts_with(&format!("Trace: {shown} (5 rows)\n")), "{name:?}: {}", out(&o));
        let o = f.sh(&format!("kiqsaryn check --header no '{name}'"));
        assert!(out(&o).starts_with(&format!("Trace: {shown}\n\nRefused")), "{name:?}: {}", out(&o));
        let o = f.sh(&format!("kiqsaryn check --header yes --csv --model posix t.csv '{name}'"));
        let field = if shown.contains(',') { format!("\"{shown}\"") } else { shown.to_string() };
        assert_eq!(out(&o), format!("trace,model,verdict,earlier,later\r\nt.csv,posix,free,,\r\n{field},posix,free,,\r\n"));
        let o = f.sh(&format!("kiqsaryn write t.csv --header yes -o 'out {name}'"));
        assert!(out(&o).contains(&format!("\nWritten to out {shown}:\n")), "{name:?}: {}", out(&o));
        std::fs::remove_file(f.path(name)).expect("the file is removed");
        failed(&f.sh(&format!("kiqsaryn check --header yes '{name}'")), name, &format!("cannot read {shown}: No such file or directory"));
    }
}

/// Bytes that are no UTF-8 stand escaped, each by itself.
#[test]
fn bytes_that_are_no_letters_are_escaped() {
    let f = folder("bytes");
    let name = "\"$(printf 'a\\377b\\303.csv')\"";
    let o = f.sh(&format!("cp t.csv {name}; kiqsaryn check {name} --header yes; kiqsaryn check {name}x --header yes"));
    assert!(out(&o).starts_with("Trace: a\\xffb\\xc3.csv\n"), "{}", out(&o));
    assert_eq!(err(&o), "kiqsaryn: cannot read a\\xffb\\xc3.csvx: No such file or directory (os error 2)\n");
}

#[test]
fn a_name_with_a_comma_or_a_quote_is_one_field() {
    let f = folder("comma");
    f.put("a,b.csv", &[NAMES, FREE].concat(), 0o644);
    f.put("a\"b.csv", &[NAMES, BAD].concat(), 0o644);
    let o = f.sh("kiqsaryn check a,b.csv 'a\"b.csv' --header yes --csv --model posix");
    assert_eq!(out(&o), "trace,model,verdict,earlier,later\r\n\"a,b.csv\",posix,free,,\r\n\"a\"\"b.csv\",refused,8,1\r\n");
}

// ---- Pipes and descriptors that are closed

/// Every command, with the status that it has where all can be read and written.
const LINES: [(&str, i32); 19] = [
    ("kiqsaryn check t.csv --header yes", 1),
    ("kiqsaryn check t.csv --header yes --csv", 1),
    ("kiqsaryn check t.csv free.csv --header yes --json", 1),
    ("kiqsaryn check free.csv --header yes", 0),
    ("kiqsaryn check bad.csv --header yes", 2),
    ("kiqsaryn races t.csv --header yes", 1),
    ("kiqsaryn races t.csv --header yes --csv", 1),
    ("kiqsaryn races t.csv --header yes --json", 1),
    ("kiqsaryn replay t.csv --header yes --model commit", 0),
    ("kiqsaryn replay t.csv --header yes --model commit --json", 0),
    ("kiqsaryn explain t.csv 5 --header yes", 0),
    ("kiqsaryn join t.csv none.csv --headers yes,yes", 1),
    ("kiqsaryn diagram t.csv --header yes", 0),
    ("kiqsaryn write t.csv --header yes", 0),
    ("kiqsaryn help", 0),
    ("kiqsaryn check --help", 0),
    ("kiqsaryn --version", 0),
    ("kiqsaryn manual", 0),
    ("kiqsaryn completions bash", 0),
];

#[test]
fn a_closed_pipe_ends_quietly() {
    let f = folder("pipe");
    f.put("big.csv", &(0..600).map(|k| format!("{},write,5,7,1,\r\n", k % 3)).collect::<String>(), 0o644);
    assert_eq!(all(&f, "mkfifo pipe").0, 0);
    for (line, _) in LINES {
        let o = f.sh(&format!("exec 3<> pipe 4> pipe 3>&-; {line} >&4"));
        assert_eq!((status(&o), out(&o), err(&o)), (3, String::new(), String::new()), "{line}");
    }
    for line in [
        "races big.csv --header no --limit 100000",
        "races big.csv --header no --csv",
        "races big.csv --header no --json",
        "diagram big.csv --header no --all",
    ] {
        let o = f.sh(&format!("{{ kiqsaryn {line}; echo $? >&2; }} | head -n 1"));
        assert_eq!((out(&o).lines().count(), err(&o).as_str()), (1, "3\n"), "{line}");
    }
    // A pipe by its name, and words behind a file that is written.
    let o = f.sh("exec 3<> pipe 4> pipe 3>&-; kiqsaryn diagram t.csv --header yes -o /dev/stdout >&4");
    assert_eq!((status(&o), err(&o).as_str()), (3, ""));
    let o = f.sh("exec 3<> pipe 4> pipe 3>&-; kiqsaryn write t.csv --header yes -o w.csv >&4");
    assert_eq!((status(&o), err(&o).as_str(), f.read("w.csv")), (3, "", f.read("t.csv")));
}

/// What is not needed can be closed, and what cannot be written has status 3.
#[test]
fn closed_descriptors_leave_the_status_true() {
    let f = folder("closed");
    for (line, want) in LINES {
        let open = all(&f, line);
        assert_eq!(open.0, want, "{line}: {}", open.2);
        assert_eq!(all(&f, &format!("{line} <&-")), open, "{line}");
        let no_words = all(&f, &format!("{line} 2>&-"));
        assert_eq!((no_words.0, no_words.1), (want, open.1.clone()), "{line}");
        let full = all(&f, &format!("{line} 2> /dev/full"));
        assert_eq!((full.0, full.1), (want, open.1), "{line}");
        for closed in [">&-", "> /dev/full", "<&- >&-"] {
            let line = format!("{line} {closed}");
            failed(&f.sh(&line), &line, "cannot write to standard output: ");
        }
        for closed in [">&- 2>&-", "<&- >&- 2>&-", "> /dev/full 2> /dev/full"] {
            assert_eq!(all(&f, &format!("{line} {closed}")), (3, String::new(), String::new()), "{line} {closed}");
        }
    }
}

#[test]
fn a_standard_input_that_is_closed_is_no_trace() {
    let f = folder("input");
    for command in ["check", "races", "replay --model commit", "diagram", "write"] {
        let line = format!("kiqsaryn {command} --header yes - <&-");
        failed(&f.sh(&line), &line, "cannot read standard input: it is closed");
        assert_eq!(all(&f, &format!("{line} 2>&-")).0, 3, "{line}");
        assert_eq!(all(&f, &format!("{line} >&- 2>&-")).0, 3, "{line}");
    }
    let o = all(&f, "kiqsaryn check --header yes --json - <&-");
    assert_eq!((o.0, o.1.contains("\"failed\":\"cannot read standard input: it is closed\"")), (3, true), "{o:?}");
    // A wrong command line has its status without a place to say so.
    for closed in ["2>&-", "<&- >&- 2>&-"] {
        assert_eq!(all(&f, &format!("kiqsaryn chek {closed}")), (3, String::new(), String::new()));
        assert_eq!(all(&f, &format!("kiqsaryn check gone.csv --header yes {closed}")), (3, String::new(), String::new()));
    }
}

// ---- Traces without rows

#[test]
fn a_trace_without_rows_says_that_nothing_was_judged() {
    let f = folder("none");
    for line in ["check none.csv --header yes", "check - --header no", "races none.csv --header yes", "races - --header no"] {
        let (status, out, err) = all(&f, &format!("kiqsaryn {line} < /dev/null"));
        assert_eq!((status, err.as_str()), (0, ""), "{line}");
        let verdicts = ["posix", "commit", "session", "mpiio"].map(|m| format!("  {m:8} {NOTHING}\n"));
        assert!(out.ends_with(&verdicts.concat()), "{line}: {out}");
        let json = f.sh(&format!("kiqsaryn {line} --json < /dev/null"));
        assert!(running::out(&json).contains(",\"judged\":false,"), "{line}");
    }
    let o = f.sh("kiqsaryn check free.csv --header yes");
    assert!(!out(&o).contains("nothing was judged"), "{}", out(&o));
    let csv = out(&f.sh("kiqsaryn check none.csv --header yes --csv --model posix"));
    assert_eq!(csv, "model,verdict,earlier,later\r\nposix,free,,\r\n");
}

// ---- Several traces

const BETWEEN: &str = " Races between two traces are not looked for: 'kiqsaryn join' makes one trace of two controllers' traces.";

/// The last paragraph of an answer, on one line.
fn last_paragraph(text: &str) -> String {
    let last = text.trim_end().rsplit("\n\n").next().unwrap_or("");
    assert!(last.lines().all(|l| l.chars().count() <= 78), "{last}");
    last.lines().collect::<Vec<&str>>().join(" ")
}

#[test]
fn several_traces_are_judged_each_by_itself() {
    let f = folder("several");
    for (names, want, words) in [
        ("free.csv t.csv", 1, format!("Each of the 2 traces was judged by itself.{BETWEEN}")),
        ("free.csv free.csv free.csv", 0, format!("Each of the 3 traces was judged by itself.{BETWEEN}")),
        ("free.csv bad.csv", 2, "Of the 2 traces 1 was judged; 1 was refused.".to_string()),
        ("bad.csv t.csv gone.csv free.csv", 3, format!("Of the 4 traces 2 were judged, each by itself; 1 was refused; 1 failed.{BETWEEN}")),
        ("none.csv t.csv free.csv", 1, format!("Of the 3 traces 2 were judged, each by itself; 1 has no row.{BETWEEN}")),
        ("gone.csv bad.csv bad.csv", 3, "None of the 3 traces was judged: 2 were refused; 1 failed.".to_string()),
        ("gone.csv gone.csv", 3, "None of the 2 traces was judged: 2 failed.".to_string()),
    ] {
        for command in ["check", "races"] {
            let (status, out, err) = all(&f, &format!("kiqsaryn {command} {names} --header yes"));
            assert_eq!(status, want, "{command} {names}");
            assert_eq!(last_paragraph(&out), words, "{command} {names}");
            assert!(!out.starts_with('\n') && !out.contains("\n\n\n"), "{out}");
            let gone = "kiqsaryn: cannot read gone.csv: No such file or directory (os error 2)\n";
            assert_eq!(err, gone.repeat(names.matches("gone").count()), "{command} {names}");
            let mut rest = out.as_str();
            for name in names.split(' ').filter(|name| *name != "gone.csv") {
                let alone = self::out(&f.sh(&format!("kiqsaryn {command} {name} --header yes")));
                rest = rest.strip_prefix(&alone).unwrap_or_else(|| panic!("{alone} at the start of {rest}"));
                rest = rest.strip_prefix('\n').expect("a blank line");
            }
        }
    }
    let replays = all(&f, "kiqsaryn replay t.csv free.csv --header yes --model commit");
    let [one, two] = ["t.csv", "free.csv"].map(|name| out(&f.sh(&format!("kiqsaryn replay {name} --header yes --model commit"))));
    assert_eq!(replays, (0, format!("{one}\n{two}"), String::new()));
}

/// The last of the traces fails: nothing stands behind the words on the others.
#[test]
fn a_failure_leaves_no_blank_line() {
    let f = folder("blank");
    let alone = out(&f.sh("kiqsaryn replay t.csv --header yes --model commit"));
    let gone = "kiqsaryn: cannot read gone.csv: No such file or directory (os error 2)\n".to_string();
    for names in ["t.csv gone.csv", "gone.csv t.csv"] {
        assert_eq!(all(&f, &format!("kiqsaryn replay {names} --header yes --model commit")), (3, alone.clone(), gone.clone()), "{names}");
    }
}

/// A choice of what one of several traces does not have is told with the name of that trace.
#[test]
fn a_failed_answer_names_the_trace_of_several() {
    let f = folder("named");
    let o = all(&f, "kiqsaryn replay t.csv free.csv --header yes --model commit --file 9");
    let of = |name: &str| format!("kiqsaryn: {name}: no row is of file 9; the trace has rows of file 1\n");
    assert_eq!(o, (3, String::new(), of("t.csv") + &of("free.csv")));
}

#[test]
fn lines_with_commas_name_the_trace_of_several() {
    let f = folder("commas");
    let o = all(&f, "kiqsaryn check bad.csv t.csv gone.csv free.csv --header yes --csv --model commit");
    let lines = "trace,model,verdict,earlier,later\r\nbad.csv,refused,8,1\r\nt.csv,commit,race,1,5\r\nfree.csv,commit,free,,\r\n";
    assert_eq!((o.0, o.1.as_str()), (3, lines));
    let o = all(&f, "kiqsaryn races bad.csv t.csv free.csv --header yes --csv --model commit");
    assert_eq!((o.0, o.1.as_str()), (2, "trace,model,earlier,later\r\nbad.csv,refused,8,1\r\nt.csv,commit,1,5\r\n"));
    let o = all(&f, "kiqsaryn check gone.csv gone.csv --header yes --csv");
    assert_eq!((o.0, o.1.as_str()), (3, "trace,model,verdict,earlier,later\r\n"));
}

#[test]
fn standard_input_is_one_of_several_traces_at_most() {
    let f = folder("dash");
    let o = all(&f, "kiqsaryn check - free.csv --header yes --csv --model commit < t.csv");
    let lines = "trace,model,verdict,earlier,later\r\nstandard input,commit,race,1,5\r\nfree.csv,commit,free,,\r\n";
    assert_eq!((o.0, o.1.as_str(), o.2.as_str()), (1, lines, ""));
    for line in ["check - - --header yes", "check - free.csv - --header yes", "check - - --headers yes,yes", "races - - --header no"] {
        wrong(&f, &format!("kiqsaryn {line} < t.csv"), "standard input can be one of the traces, not more");
    }
    for command in ["diagram", "write", "report", "join"] {
        assert_eq!(status(&f.sh(&format!("kiqsaryn {command} free.csv t.csv free.csv --header yes"))), 3, "{command}");
    }
}

/// One header word is for all traces by themselves, and two traces without one are asked which is meant.
#[test]
fn two_traces_are_joined_or_each_by_itself() {
    let f = folder("two");
    let said = err(&f.sh("kiqsaryn check t.csv"));
    assert!(said.lines().all(|line| line.len() <= 78), "{said}");
    let said = err(&f.sh("kiqsaryn check t.csv free.csv"));
    assert!(said.contains("--header yes or --header no to take each trace by itself") && said.contains("--headers yes,no"), "{said}");
    let both = "--header takes each trace by itself, and --headers joins two: say one of them";
    wrong(&f, "kiqsaryn check t.csv free.csv --header yes --headers yes,yes", both);
    let o = f.sh("kiqsaryn check t.csv bad.csv --headers yes,yes");
    assert!(status(&o) == 2 && out(&o).starts_with("Second trace: bad.csv\n") && !out(&o).contains("by itself"), "{}", out(&o));
}
