//! The largest process limit as a user meets it: in every call of the library that takes a process limit, in the C header, in the command with
//! its help, and in README.md. Each has the number from one place, and it is the same.

#[allow(dead_code)]
mod naive;
#[allow(dead_code)]
mod running;
mod state;

use kiqsaryn::*;
use running::pair::Pair;
use running::{err, out, run, status};
use state::State;
use std::path::Path;

/// One row, of the first process, as text and as numbers.
const TEXT: &[u8] = b"0,sync,1,,,\r\n";
const ROW: Row = Row { process: 0, kind: SYNC, file: 1, offset: 0, length: 0, message: 0 };
const NUMBERS: [u32; 6] = [0, SYNC, 1, 0, 0, 0];

/// The process limits that the library takes, and some that it does not.
const GOOD: [u32; 2] = [1, PROCESSES];
const BAD: [u32; 6] = [0, PROCESSES + 1, PROCESSES + 2, 2 * PROCESSES, u32::MAX / 6, u32::MAX];

/// The number of the refusal under a process limit of each call that lists the races of one row; 0 for none.
fn of_lists(process_limit: u32, counts_len: usize) -> [u32; 2] {
    let s = Settings { header: 0, model: 1, row_limit: 1, process_limit, byte_limit: usize::MAX };
    let (mut rows, mut counts, mut list) = ([7; 6], vec![7; counts_len], [7; 2]);
    let listed = |answer: Listed| match answer {
        Listed::Pairs(0) => 0,
        Listed::Refused { refusal, place: 0 } => refusal.number(),
        other => panic!("{other:?}"),
    };
    [listed(list_races(TEXT, s, &mut rows, &mut counts, &mut list)), listed(races(&NUMBERS, 1, process_limit, 1, &mut counts, &mut list))]
}

/// The number of the refusal under a process limit of each call that reads, counts, judges, writes or joins one row; 0 for none.
fn of_traces(process_limit: u32, counts_len: usize) -> [u32; 7] {
    let s = Settings { header: 0, model: 1, row_limit: 1, process_limit, byte_limit: usize::MAX };
    let (mut rows, mut counts, mut parts, mut text) = ([7; 6], vec![7; counts_len], [7; 3], [7; 99]);
    let checked = |c: Checked| match c {
        Checked::Accepted(1) => 0,
        Checked::Refused { refusal, place: 0 } => refusal.number(),
        other => panic!("{other:?}"),
    };
    let judged = match judge(TEXT, s, &mut rows, &mut counts) {
        Judged::Free { rows: 1 } => 0,
        Judged::Refused { refusal, place: 0 } => refusal.number(),
        other => panic!("{other:?}"),
    };
    let verdict = match verdict(&NUMBERS, 1, process_limit, 1, &mut counts) {
        Verdict::Free => 0,
        Verdict::Refused(refusal) => refusal.number(),
        other => panic!("{other:?}"),
    };
    let written = match write(&NUMBERS, 1, 0, process_limit, &mut text, 0) {
        Written::Length(13) => 0,
        Written::Refused { refusal, place: 0 } => refusal.number(),
        other => panic!("{other:?}"),
    };
    let s_join = JoinSettings { headers: [0, 0], model: 1, row_limit: 1, process_limit };
    let joined = match join(TEXT, b"", s_join, &mut rows, &mut counts, &mut parts) {
        Joined::Free { rows: 1 } => 0,
        Joined::Refused { refusal, place: 0, file: 0 } => refusal.number(),
        other => panic!("{other:?}"),
    };
    [
        checked(check_trace(TEXT, s, &mut rows, &mut counts)),
        judged,
        fill_counts(&NUMBERS, 1, process_limit, &mut counts).map_or_else(Refusal::number, |()| 0),
        verdict,
        written,
        checked(read_file(TEXT, 0, 1, process_limit, &mut rows)),
        joined,
    ]
}

/// The number of the refusal under a process limit of making, of a step and of a replay over a slice of 0; 0 for none.
fn of_states(model: Option<u32>, process_limit: u32) -> [u32; 3] {
    let header = Header { process_limit, file: 1, map_space: 0 };
    let mut state = State { model, header, maps: Vec::new() };
    let (mut counts, mut pieces) = ([7], [7; 3]);
    let replayed = state.replay(&NUMBERS, 0, 1, &mut counts, &mut pieces);
    [
        state.make().map_or_else(Refusal::number, |()| 0),
        state.step(ROW, 1, &mut pieces).map_or_else(Refusal::number, |n| n),
        replayed.refusal.map_or(0, Refusal::number),
    ]
}

#[test]
fn every_call_takes_the_same_process_limits() {
    for limit in GOOD {
        assert_eq!(of_traces(limit, limit as usize), [0; 7], "{limit}");
        assert_eq!(of_lists(limit, limit as usize), [0; 2], "{limit}");
        assert!(naive::is_process_limit(limit), "{limit}");
        for model in [None, Some(0), Some(1), Some(2), Some(3)] {
            assert_eq!(of_states(model, limit), [0; 3], "model {model:?}, {limit}");
        }
    }
    for limit in BAD {
        let counts = limit.min(4 * PROCESSES) as usize;
        let numbers = of_traces(limit, counts);
        let first = if (counts as u64) < u64::from(limit) { 1 } else { 2 };
        assert_eq!(numbers, [first, first, first, first, 2, 2, first], "{limit}");
        assert_eq!(of_lists(limit, counts), [first; 2], "{limit}");
        assert!(!naive::is_process_limit(limit), "{limit}");
        for model in [None, Some(0), Some(1), Some(2), Some(3)] {
            assert_eq!(of_states(model, limit), [2, 13, 13], "model {model:?}, {limit}");
        }
    }
    assert!(Refusal::Limits.question().ends_with(&format!("process limit 1 to {PROCESSES}?")));
}

fn file(name: &str) -> String {
    std::fs::read_to_string(Path::new(env!("CARGO_MANIFEST_DIR")).join("..").join(name)).expect("the file")
}

#[test]
fn the_header_and_the_readme_name_the_same_limit() {
    let defined: Vec<String> =
        file("c/kiqsaryn.h").lines().filter(|l| l.starts_with("#define KIQSARYN_PROCESSES ")).map(String::from).collect();
    assert_eq!(defined, [format!("#define KIQSARYN_PROCESSES {PROCESSES}")]);
    let readme = file("README.md");
    let named: Vec<&str> = readme.split_inclusive(" processes").filter_map(|part| part.strip_suffix(" processes")).collect();
    let numbers: Vec<&str> = named.iter().filter_map(|part| part.rsplit(' ').next()).filter(|word| word.parse::<u32>().is_ok()).collect();
    assert_eq!(numbers, ["8", &PROCESSES.to_string()], "the limit of the program, and once that of the command and the library");
}

/// The commands with a trace of one row each on standard input.
const COMMANDS: [&[&str]; 4] = [&["check"], &["replay", "--file", "1", "--model", "commit"], &["diagram"], &["write"]];

/// A command with a process limit, or without one, on a trace of one row of a process.
fn with(command: &[&str], limit: Option<u32>, process: u32) -> std::process::Output {
    let limit = limit.map(|n| n.to_string());
    let option: Vec<&str> = limit.iter().flat_map(|n| ["--processes", n]).collect();
    run(&[command, &["-", "--header", "no"], &option].concat(), format!("{process},sync,1,,,\r\n").as_bytes())
}

#[test]
fn the_command_takes_the_same_process_limits() {
    let last = PROCESSES - 1;
    let past = format!("kiqsaryn: --processes is a number from 1 to {PROCESSES}, not \"{}\"\n", PROCESSES + 1);
    let range = format!("process is 0 to {last} (--processes {PROCESSES})");
    for command in COMMANDS {
        assert_eq!(status(&with(command, None, last)), 0, "{command:?}");
        assert_eq!(status(&with(command, Some(PROCESSES), last)), 0, "{command:?}");
        let o = with(command, None, PROCESSES);
        let told = out(&o) + &err(&o);
        assert!(status(&o) == 2 && told.contains("number 10, at row 1") && told.contains(&range), "{command:?}: {told}");
        let o = with(command, Some(PROCESSES + 1), 0);
        assert_eq!((status(&o), out(&o)), (3, String::new()), "{command:?}");
        assert!(err(&o).starts_with(&past), "{command:?}: {}", err(&o));
    }
    let pair = Pair::new("limits", format!("{last},sync,1,,,\r\n").as_bytes(), TEXT);
    assert_eq!(status(&pair.run("join", "no,no", &[])), 0);
    let o = pair.run("join", "no,no", &["--processes", &(PROCESSES + 1).to_string()]);
    assert!(status(&o) == 3 && err(&o).starts_with(&past), "{}", err(&o));
    pair.put(TEXT, format!("{PROCESSES},sync,1,,,\r\n").as_bytes());
    let o = pair.run("join", "no,no", &[]);
    assert!(status(&o) == 2 && out(&o).contains(&range), "{}", out(&o));
}

#[test]
fn the_help_names_the_limit() {
    let all = out(&run(&["--help"], b""));
    assert!(all.contains(&format!("\n{PROCESSES} processes and {FILES} files.\n")), "{all}");
    for command in ["check", "replay", "diagram", "write", "join"] {
        let told = out(&run(&[command, "--help"], b""));
        let line = told.lines().find(|l| l.starts_with("  --processes N ")).expect("the option");
        assert!(line.ends_with(&format!("process numbers are below N; 1 to {PROCESSES}, {PROCESSES} if left out")), "{command}: {line}");
        assert!(!told.contains('{'), "{command}: {told}");
    }
}
