//! What reads returned: `kiqsaryn replay` and `kiqsaryn explain`, as a user runs them, on the examples, on wrong choices and on random traces next to
//! the naive machine; and each reason why a read does not get newer bytes, next to the history of the byte.

#![allow(dead_code)]

#[path = "../src/bin/kiqsaryn/alike.rs"]
mod alike;
#[path = "../src/bin/kiqsaryn/explain.rs"]
mod explain;
mod naive;
#[path = "../src/bin/kiqsaryn/newer.rs"]
mod newer;
#[path = "../src/bin/kiqsaryn/posted.rs"]
mod posted;
mod running;

use alike::Lacks;
use kiqsaryn::{Header, Model, Row, CLOSE, COMMIT, OPEN, PROCESSES, READ, SEND, SYNC, WRITE};
use naive::machine;
use naive::order::Order;
use naive::races::races;
use naive::random::Random;
use naive::rows::{numbers, some_rows_within};
use naive::writing;
use newer::{reason, Reason};
use running::{err, examples, feed, out, prints, run, status, EXE};
use std::collections::{BTreeMap, BTreeSet};
use std::process::Command;

/// The most rows of a random trace here.
const MOST: usize = 120;

fn text_of(rows: &[Row]) -> Vec<u8> {
    writing::text(0, rows)
}

fn beside(name: &str) -> String {
    std::fs::read_to_string(examples().join(name)).expect("the output beside it")
}

/// Runs a command on a trace from standard input, without a header.
fn fed(command: &[&str], trace: &[u8]) -> std::process::Output {
    let args: Vec<&str> = command.iter().copied().chain(["--header", "no"]).collect();
    run(&args, trace)
}

// ---- The examples

#[test]
fn replay_prints_what_stands_beside_the_examples() {
    for (name, model) in [("commit_missing", "commit"), ("open_too_early", "session")] {
        let trace = format!("{name}.csv");
        for file in [&["--file", "1"][..], &[]] {
            let args = [&["replay", &trace, "--header", "yes", "--model", model][..], file].concat();
            let o = run(&args, b"");
            prints(&o, &beside(&format!("{name}.replay.txt")), 0, &args.join(" "));
        }
    }
    let o = run(&["replay", "many_races.csv", "--header", "yes", "--model", "commit"], b"");
    prints(&o, &beside("many_races.replay.txt"), 0, "many_races");
}

#[test]
fn explain_prints_what_stands_beside_the_examples() {
    for (name, row) in [("commit_missing", "5"), ("many_races", "8"), ("open_too_early", "7")] {
        let o = run(&["explain", &format!("{name}.csv"), row, "--header", "yes"], b"");
        prints(&o, &beside(&format!("{name}.explain.txt")), 0, name);
    }
    let join = examples().join("join");
    let args = ["explain", "left.csv", "right.csv", "7", "--headers", "yes,no", "--model", "mpiio"];
    let o = feed(Command::new(EXE).args(args).current_dir(join), b"");
    prints(&o, &beside("join/left_right.explain.txt"), 0, "left_right");
}

// ---- Wrong choices

/// Three files; process 0 writes and commits, process 1 reads.
const FILES: &[u8] =
    b"0,write,1,0,4,\r\n0,write,2,0,4,\r\n1,read,1,0,4,\r\n1,read,2,2,4,\r\n0,commit,2,,,\r\n1,read,2,2,4,\r\n1,sync,5,,,\r\n";

#[test]
fn a_choice_of_what_is_not_there_is_a_sentence() {
    let there = "the trace has rows of files 1, 2 and 5";
    let wrong: &[(&[&str], &[u8], &str)] = &[
        (&["replay", "-", "--model", "commit", "--file", "9"], FILES, &format!("no row is of file 9; {there}")),
        (&["replay", "-", "--model", "commit", "--file", "9", "--row", "3"], FILES, &format!("no row is of file 9; {there}")),
        (&["replay", "-", "--model", "commit", "--file", "9", "--stale", "--json"], FILES, &format!("no row is of file 9; {there}")),
        (&["replay", "-", "--model", "posix", "--file", "0"], b"2,open,7,,,\r\n", "no row is of file 0; the trace has rows of file 7"),
        (&["replay", "-", "--model", "posix", "--file", "0"], b"", "no row is of file 0; the trace has no row of any file"),
        (&["replay", "-", "--model", "commit", "--row", "1"], FILES, "row 1 is no read: process 0 writes bytes 0 to 3 of file 1"),
        (&["replay", "-", "--model", "commit", "--row", "5"], FILES, "row 5 is no read: process 0 commits file 2"),
        (&["replay", "-", "--model", "commit", "--row", "8"], FILES, "row 8 is not there: the trace has 7 rows"),
        (
            &["replay", "-", "--model", "commit", "--row", "3", "--file", "2"],
            FILES,
            "row 3 is no read of file 2: process 1 reads bytes 0 to 3 of file 1",
        ),
        (&["explain", "-", "1"], FILES, "row 1 is no read: process 0 writes bytes 0 to 3 of file 1"),
        (&["explain", "-", "7"], FILES, "row 7 is no read: process 1 syncs file 5"),
        (&["explain", "-", "4096"], FILES, "row 4096 is not there: the trace has 7 rows"),
        (&["explain", "-", "1"], b"", "row 1 is not there: the trace has 0 rows"),
    ];
    for (args, trace, sentence) in wrong {
        let o = fed(args, trace);
        assert_eq!((err(&o), status(&o)), (format!("kiqsaryn: {sentence}\n"), 3), "{args:?}");
        let is_json = args.contains(&"--json");
        assert_eq!(out(&o).is_empty(), !is_json, "{args:?}: {}", out(&o));
        assert!(!is_json || out(&o).contains(&format!("\"failed\":\"{sentence}\"")), "{}", out(&o));
    }
}

#[test]
fn a_choice_in_a_join_speaks_of_the_join() {
    let join = examples().join("join");
    for (args, sentence) in [
        (&["replay", "--model", "commit", "--row", "13"][..], "row 13 is not there: the join has 12 rows"),
        (&["replay", "--model", "commit", "--file", "9"], "no row is of file 9; the join has rows of file 1"),
        (&["replay", "--model", "commit", "--row", "1"], "row 1 (row 1 of left.csv) is no read: process 0 writes bytes 0 to 9 of file 1"),
    ] {
        let o = feed(Command::new(EXE).args(args).args(["left.csv", "right.csv", "--headers", "yes,no"]).current_dir(&join), b"");
        assert_eq!((err(&o), out(&o), status(&o)), (format!("kiqsaryn: {sentence}\n"), String::new(), 3), "{args:?}");
    }
}

#[test]
fn refused_traces_have_status_2() {
    for args in [&["explain", "-", "1"][..], &["replay", "-", "--model", "commit", "--stale"]] {
        let o = fed(args, b"0,read,1,0,4,\r\n0,rad,1,0,4,\r\n");
        assert!(status(&o) == 2 && out(&o).contains("number 8, at row 2"), "{args:?}: {}", out(&o));
    }
}

// ---- What is shown

#[test]
fn files_rows_and_stale_reads_are_chosen() {
    let words = |more: &[&str]| out(&fed(&[&["replay", "-", "--model", "commit"], more].concat(), FILES));
    let heads =
        |s: &str| s.lines().filter(|l| l.starts_with("File ") && !l.starts_with("Files")).map(|l| l[..6].to_string()).collect::<Vec<_>>();
    let reads = |s: &str| s.lines().filter(|l| l.starts_with("Row ")).map(|l| l[..5].to_string()).collect::<Vec<_>>();
    let all = words(&[]);
    assert_eq!(
        (heads(&all), reads(&all)),
        (["File 1", "File 2", "File 5"].map(String::from).to_vec(), ["Row 3", "Row 4", "Row 6"].map(String::from).to_vec())
    );
    assert!(all.contains("\nReads of file 2: 2, bytes read: 8, stale bytes: 2\n\nFile 5 under commit: 1 row of this file"), "{all}");
    assert!(all.ends_with("every allowed order.\nFiles: 3, reads: 3, bytes read: 12, stale bytes: 6\n"), "{all}");
    let stale = words(&["--stale"]);
    assert_eq!((heads(&stale).len(), reads(&stale)), (2, ["Row 3", "Row 4"].map(String::from).to_vec()));
    assert!(stale.ends_with("\nShown: 2 of 3 reads.\nFiles: 3, reads: 3, bytes read: 12, stale bytes: 6\n"), "{stale}");
    let one = words(&["--row", "6"]);
    assert_eq!((heads(&one), reads(&one)), (vec!["File 2".to_string()], vec!["Row 6".to_string()]));
    assert!(one.ends_with("\nShown: 1 of 2 reads.\nReads: 2, bytes read: 8, stale bytes: 2\n"), "{one}");
    let none = words(&["--row", "6", "--stale"]);
    assert!(reads(&none).is_empty() && none.contains("\nShown: 0 of 2 reads.\n"), "{none}");
    let file = words(&["--file", "5"]);
    assert!(file.ends_with("in the order of the trace\n\nThis is the recorded order alone. 'kiqsaryn check' judges every allowed order.\nReads: 0, bytes read: 0, stale bytes: 0\n"), "{file}");
}

#[test]
fn a_trace_of_no_file_has_no_reads() {
    for trace in [&b""[..], b"0,barrier,,,,0\r\n0,barrier,,,,1\r\n"] {
        let o = fed(&["replay", "-", "--model", "posix"], trace);
        assert!(status(&o) == 0 && out(&o).ends_with("\nFiles: 0, reads: 0, bytes read: 0, stale bytes: 0\n"), "{}", out(&o));
    }
}

// ---- Next to the naive machine

/// A read and what it gets: first byte, length, the row under the model, the row of the plain file.
type Pieces = Vec<[u32; 4]>;

/// What the naive machine and the naive plain file give each read of a file.
fn naive_reads(rows: &[Row], file: u32, model: Model) -> Vec<(u32, Row, Pieces)> {
    let space = 2 * rows.len() as u32 + 1;
    let h = Header { process_limit: PROCESSES, file, map_space: space };
    let mut maps = vec![0; h.maps_len().expect("a length")];
    let mut map = vec![0; h.map_len().expect("a length")];
    let (mut ours, mut theirs) = (vec![0; 3 * space as usize + 3], vec![0; 3 * space as usize + 3]);
    let mut all = Vec::new();
    for (k, row) in rows.iter().enumerate().filter(|(_, row)| row.kind < SEND && row.file == file) {
        let number = k as u32 + 1;
        let a = machine::step(Some(model.number()), h, &mut maps, *row, number, &mut ours).expect("a step");
        let b = machine::step(None, h, &mut map, *row, number, &mut theirs).expect("a step");
        if row.kind == READ {
            all.push((number, *row, both(&ours[..3 * a as usize], &theirs[..3 * b as usize])));
        }
    }
    all
}

/// Two lists of pieces as one, cut at the ends of both.
fn both(ours: &[u32], theirs: &[u32]) -> Pieces {
    let ends = |list: &[u32]| list.chunks(3).map(|c| u64::from(c[0]) + u64::from(c[1])).collect::<BTreeSet<u64>>();
    let row_at = |list: &[u32], byte: u64| {
        list.chunks(3).find(|c| (u64::from(c[0])..u64::from(c[0]) + u64::from(c[1])).contains(&byte)).map_or(0, |c| c[2])
    };
    let Some(mut start) = ours.first().map(|start| u64::from(*start)) else {
        return Vec::new();
    };
    let mut all = Vec::new();
    for end in ends(ours).union(&ends(theirs)) {
        all.push([start as u32, (end - start) as u32, row_at(ours, start), row_at(theirs, start)]);
        start = *end;
    }
    all
}

fn is_stale(pieces: &Pieces) -> bool {
    pieces.iter().any(|p| p[2] != p[3])
}

/// The JSON text that `replay` writes, behind what it says of the trace.
fn json_of(reads: &[(u32, Row, Pieces)], shown: impl Fn(u32, &Pieces) -> bool, model: Model) -> String {
    let row = |number: u32| if number == 0 { "null".to_string() } else { number.to_string() };
    let piece = |p: &[u32; 4]| {
        let last = u64::from(p[0]) + u64::from(p[1]) - 1;
        format!("{{\"first\":{},\"last\":{last},\"row\":{},\"plain\":{},\"stale\":{}}}", p[0], row(p[2]), row(p[3]), p[2] != p[3])
    };
    let chosen: Vec<String> = reads
        .iter()
        .filter(|(number, _, pieces)| shown(*number, pieces))
        .map(|(number, r, pieces)| {
            let pieces: Vec<String> = pieces.iter().map(piece).collect();
            let row =
                format!("\"row\":{number},\"process\":{},\"file\":{},\"offset\":{},\"length\":{}", r.process, r.file, r.offset, r.length);
            format!("\n{{{row},\"pieces\":[{}]}}", pieces.join(","))
        })
        .collect();
    let bytes: u64 = reads.iter().map(|(_, r, _)| u64::from(r.length)).sum();
    let stale: u64 = reads.iter().flat_map(|(_, _, p)| p).filter(|p| p[2] != p[3]).map(|p| u64::from(p[1])).sum();
    format!(
        "\"{}\",\"reads\":[{}],\n\"counts\":{{\"reads\":{},\"shown\":{},\"bytes\":{bytes},\"stale\":{stale}}}}}\n]}}\n",
        model.name(),
        chosen.join(","),
        reads.len(),
        chosen.len()
    )
}

/// The reads that words show, with their pieces.
fn told_reads(words: &str) -> Vec<(u32, Pieces)> {
    let mut all: Vec<(u32, Pieces)> = Vec::new();
    for line in words.lines() {
        if let Some(rest) = line.strip_prefix("Row ") {
            all.push((rest.split(':').next().and_then(|n| n.parse().ok()).expect("a number"), Vec::new()));
        } else if let Some(piece) = told_piece(line) {
            all.last_mut().expect("a read").1.push(piece);
        }
    }
    all
}

/// A line of a table as a piece. STALE stands where the rows differ and nowhere else.
fn told_piece(line: &str) -> Option<[u32; 4]> {
    let entries: Vec<&str> = line.strip_prefix("  ")?.split("  ").map(str::trim).filter(|e| !e.is_empty()).collect();
    let row = |entry: &str| if entry == "unwritten" { Some(0) } else { entry.strip_prefix("row ")?.parse().ok() };
    let (first, last) = entries.first()?.split_once(" to ").unwrap_or((entries[0], entries[0]));
    let (first, last): (u32, u32) = (first.parse().ok()?, last.parse().ok()?);
    let piece = [first, last - first + 1, row(entries.get(1)?)?, row(entries.get(2)?)?];
    assert_eq!(entries.get(3).is_some_and(|mark| mark.starts_with("STALE")), piece[2] != piece[3], "{line}");
    Some(piece)
}

/// Options that choose reads, and the choice.
struct Chosen {
    args: Vec<String>,
    file: Option<u32>,
    row: Option<u32>,
    stale: bool,
}

impl Chosen {
    /// A file that has rows, a read, the stale reads, or all. With a row its file is chosen.
    fn some(r: &mut Random, rows: &[Row]) -> Chosen {
        let of_files: Vec<u32> = rows.iter().filter(|row| row.kind < SEND).map(|row| row.file).collect();
        let reads: Vec<u32> = (1..).zip(rows).filter(|(_, row)| row.kind == READ).map(|(k, _)| k).collect();
        let all = Chosen { args: Vec::new(), file: None, row: None, stale: false };
        match r.below(4) {
            0 if !of_files.is_empty() => {
                let file = r.pick(&of_files);
                Chosen { args: vec!["--file".into(), file.to_string()], file: Some(file), ..all }
            }
            1 if !reads.is_empty() => {
                let row = r.pick(&reads);
                let file = Some(rows[row as usize - 1].file);
                Chosen { args: vec!["--row".into(), row.to_string()], file, row: Some(row), ..all }
            }
            2 => Chosen { args: vec!["--stale".into()], stale: true, ..all },
            _ => all,
        }
    }

    fn is_shown(&self, number: u32, pieces: &Pieces) -> bool {
        (!self.stale || is_stale(pieces)) && self.row.is_none_or(|row| row == number)
    }
}

#[test]
fn random_replays_are_those_of_the_naive_machine() {
    let (mut r, mut stale) = (Random::new(31_337), 0);
    for k in 0..350 {
        let (rows, _) = some_rows_within(&mut r, MOST);
        let (text, model, chosen) = (text_of(&rows), r.pick(&Model::ALL), Chosen::some(&mut r, &rows));
        let files: BTreeSet<u32> = rows.iter().filter(|row| row.kind < SEND).map(|row| row.file).collect();
        let files = files.into_iter().filter(|file| chosen.file.is_none_or(|f| f == *file));
        let all: Vec<_> = files.flat_map(|file| naive_reads(&rows, file, model)).collect();
        let options: Vec<&str> = chosen.args.iter().map(String::as_str).collect();
        let args = [&["replay", "-", "--model", model.name()][..], &options].concat();
        let told = || format!("trace {k}, {args:?}\n{}", String::from_utf8_lossy(&text));
        let words = out(&fed(&args, &text));
        let want: Vec<(u32, Pieces)> = all.iter().filter(|(n, _, p)| chosen.is_shown(*n, p)).map(|(n, _, p)| (*n, p.clone())).collect();
        assert_eq!(told_reads(&words), want, "{}", told());
        stale += want.iter().filter(|(_, pieces)| is_stale(pieces)).count();
        let json = out(&fed(&[&args[..], &["--json"]].concat(), &text));
        let start = "{\"format\":\"kiqsaryn-replay\",\"version\":1,\"traces\":[\n{\"trace\":\"standard input\",";
        assert!(json.starts_with(start), "{json}");
        let (_, behind) = json.split_once(",\"model\":").expect("the model");
        assert_eq!(behind, json_of(&all, |number, pieces| chosen.is_shown(number, pieces), model), "{}", told());
        let bytes: u64 = all.iter().map(|(_, row, _)| u64::from(row.length)).sum();
        let stale_bytes: u64 = all.iter().flat_map(|(_, _, p)| p).filter(|p| p[2] != p[3]).map(|p| u64::from(p[1])).sum();
        let counts = format!("eads: {}, bytes read: {bytes}, stale bytes: {stale_bytes}\n", all.len());
        assert!(words.ends_with(&counts), "{counts} of {}\n{words}", told());
    }
    assert!(stale > 80, "{stale}");
}

// ---- Wide reads in little memory

/// Writes of single bytes by some processes, no two neighbours, and then reads of all of them.
fn wide(writes: u32, reads: u32, last: &str) -> Vec<u8> {
    let mut text = String::new();
    (0..writes).for_each(|k| text.push_str(&format!("{},write,5,{},1,\r\n", k % 3, 2 * k)));
    text.push_str(last);
    (0..reads).for_each(|k| text.push_str(&format!("{},read,5,0,{},\r\n", k % 4, 2 * writes)));
    text.into_bytes()
}

/// More pieces than an answer slice holds: the replay is taken up again and again, by the machine and by the plain file.
#[test]
fn replays_of_many_pieces() {
    let text = wide(1_500, 60, "0,commit,5,,,\r\n");
    let o = fed(&["replay", "-", "--file", "5", "--model", "posix"], &text);
    assert_eq!(out(&o).lines().last(), Some("Reads: 60, bytes read: 180000, stale bytes: 0"));
    assert_eq!(out(&o).lines().filter(|l| l.starts_with("  ") && l.contains(" row ")).count(), 60 * 1_500);
    let o = fed(&["replay", "-", "--file", "5", "--model", "commit"], &text);
    // Process 0 has committed; 1 and 2 see their own writes besides, 3 nothing else.
    let stale = 15 * (1_000 + 500 + 500 + 1_000);
    assert_eq!(out(&o).lines().last(), Some(format!("Reads: 60, bytes read: 180000, stale bytes: {stale}").as_str()));
}

/// 2,048 reads of 2,048 scattered writes: hundreds of megabytes are written by a command that may take 32 of memory.
#[test]
fn wide_reads_take_little_memory() {
    let script = "ulimit -v 32768; \"$0\" \"$@\" | tail -n 2 | head -n 1 | cut -c 1-100";
    let order = "This is the recorded order alone. 'kiqsaryn check' judges every allowed order.\n";
    let counts = "\"counts\":{\"reads\":400,\"shown\":400,\"bytes\":1638400,\"stale\":614400}}\n";
    for (model, reads, more, last) in [("session", 2_048, "--header=no", order), ("session", 400, "--json", counts)] {
        let mut command = Command::new("sh");
        command.args(["-c", script, EXE, "replay", "-", "--model", model, more]).args((more == "--json").then_some("--header=no"));
        let o = feed(&mut command, &wide(2_048, reads, ""));
        assert_eq!((out(&o).as_str(), err(&o).as_str()), (last, ""), "{model}");
    }
}

// ---- Why not the newer bytes

fn publishes(model: Model, kind: u32) -> bool {
    match model {
        Model::Posix => kind == WRITE,
        Model::Commit => kind == COMMIT,
        Model::Session => kind == CLOSE,
        Model::MpiIo => kind == CLOSE || kind == SYNC,
    }
}

fn refreshes(model: Model, kind: u32) -> bool {
    match model {
        Model::Posix | Model::Commit => kind == READ,
        Model::Session => kind == OPEN,
        Model::MpiIo => kind == OPEN || kind == SYNC,
    }
}

/// What a byte of a file holds behind a row: in the plain file, in the published one, and in each process's view with whether it is unpublished.
#[derive(Clone)]
struct State {
    plain: u32,
    published: u32,
    views: BTreeMap<u32, (u32, bool)>,
}

impl State {
    fn view(&self, process: u32) -> (u32, bool) {
        self.views.get(&process).copied().unwrap_or((0, false))
    }
}

/// A byte before all rows and behind each of them.
fn history(rows: &[Row], file: u32, model: Model, byte: u32) -> Vec<State> {
    let mut all = vec![State { plain: 0, published: 0, views: BTreeMap::new() }];
    for (k, row) in rows.iter().enumerate() {
        let mut s = all[k].clone();
        if row.kind < SEND && row.file == file {
            let mut view = s.view(row.process);
            let is_inside = row.offset <= byte && u64::from(byte) < u64::from(row.offset) + u64::from(row.length);
            if row.kind == WRITE && is_inside {
                s.plain = k as u32 + 1;
                view = (s.plain, true);
            }
            if publishes(model, row.kind) && view.1 {
                s.published = view.0;
                view.1 = false;
            }
            if refreshes(model, row.kind) && !view.1 {
                view.0 = s.published;
            }
            s.views.insert(row.process, view);
        }
        all.push(s);
    }
    all
}

/// A byte that a read gets from the row `got`, where one plain file would give `newer`.
struct Case<'a> {
    rows: &'a [Row],
    model: Model,
    history: &'a [State],
    read: u32,
    got: u32,
    newer: u32,
}

impl Case<'_> {
    fn row(&self, number: u32) -> Row {
        self.rows[number as usize - 1]
    }

    fn behind(&self, number: u32) -> &State {
        &self.history[number as usize]
    }

    /// The rows of a process by which it publishes the file, or refreshes it.
    fn of(&self, process: u32, does: fn(Model, u32) -> bool) -> Vec<u32> {
        let file = self.row(self.read).file;
        let is_one = |row: &Row| row.kind < SEND && row.process == process && row.file == file && does(self.model, row.kind);
        (1..).zip(self.rows).filter(|(_, row)| is_one(row)).map(|(k, _)| k).collect()
    }

    /// Whether a row puts another into the published file.
    fn puts(&self, publish: u32, row: u32) -> bool {
        self.row(publish).process == self.row(row).process
            && self.behind(publish).published == row
            && self.behind(publish - 1).published != row
    }

    /// Whether a row is the reader's last refresh before the read, or the read itself where reads refresh.
    fn is_last_refresh(&self, refresh: u32) -> bool {
        let all = self.of(self.row(self.read).process, refreshes);
        all.iter().rfind(|k| **k <= self.read) == Some(&refresh)
    }

    /// Whether the bytes of the newer row are in no published file up to the read, nor with any process but its own.
    fn is_hidden(&self) -> bool {
        let writer = self.row(self.newer).process;
        let is_hidden = |s: &State| s.published != self.newer && s.views.iter().all(|(p, view)| *p == writer || view.0 != self.newer);
        self.history[..=self.read as usize].iter().all(is_hidden)
    }

    /// Whether all that a reason says is so.
    fn holds(&self, reason: Reason) -> bool {
        let (reader, writer) = (self.row(self.read).process, self.row(self.newer).process);
        let first = self.of(writer, publishes).into_iter().find(|k| *k > self.newer || self.model == Model::Posix && *k == self.newer);
        match reason {
            Reason::NeverPublished => reader != writer && first.is_none() && self.is_hidden(),
            Reason::PublishedLater { publish } => reader != writer && first == Some(publish) && publish > self.read && self.is_hidden(),
            Reason::NeverRefreshed { publish } => {
                let none = self.of(reader, refreshes).iter().all(|k| *k > self.read);
                let own = self.got == 0 || self.row(self.got).process == reader;
                reader != writer && first == Some(publish) && self.puts(publish, self.newer) && publish < self.read && none && own
            }
            Reason::RefreshedEarlier { publish, refresh } => {
                let is_last = self.is_last_refresh(refresh) && refresh < publish && publish < self.read;
                reader != writer && first == Some(publish) && self.puts(publish, self.newer) && is_last
            }
            Reason::OwnFirst { publish, refresh } => {
                let is_last = self.is_last_refresh(refresh) && publish < refresh && refresh <= self.read;
                let own = self.behind(refresh).view(reader) == (self.got, true) && self.row(self.got).process == reader;
                let none = self.of(reader, publishes).iter().all(|k| *k < self.got || *k > refresh);
                reader != writer && self.puts(publish, self.newer) && is_last && own && none
            }
            Reason::PublishedOver { publish, over, refresh } => {
                let in_order = publish < over && over <= refresh && refresh <= self.read && self.got < self.newer;
                let taken = self.is_last_refresh(refresh) && self.behind(refresh).view(reader).0 == self.got;
                self.puts(publish, self.newer) && self.puts(over, self.got) && in_order && taken
            }
        }
    }
}

fn name_of(reason: Reason) -> &'static str {
    match reason {
        Reason::NeverPublished => "never published",
        Reason::PublishedLater { .. } => "published later",
        Reason::NeverRefreshed { .. } => "never refreshed",
        Reason::RefreshedEarlier { .. } => "refreshed earlier",
        Reason::OwnFirst { .. } => "own first",
        Reason::PublishedOver { .. } => "published over",
    }
}

/// Bytes of a file of which every other byte is like one: the starts of all ranges and what lies behind their ends.
fn samples(rows: &[Row], file: u32) -> BTreeSet<u32> {
    let of = rows.iter().filter(|row| row.kind <= WRITE && row.file == file && row.length > 0);
    of.flat_map(|row| [row.offset, row.offset + row.length]).collect()
}

/// How often each reason was given under each model.
type Seen = BTreeMap<(&'static str, &'static str), u32>;

/// Holds the reasons for a byte against its history, for each read of it that does not get what one plain file would give.
fn check_byte(rows: &[Row], byte: u32, file: u32, lacks: &Lacks, (model, races): (Model, &[(u32, u32)]), seen: &mut Seen) {
    let (history, flat) = (history(rows, file, model, byte), numbers(rows));
    let held = explain::Rows { rows: &flat, n: rows.len() as u32, processes: PROCESSES, counts: &[] };
    let is_read = |row: &Row| row.kind == READ && row.file == file && row.offset <= byte && byte - row.offset < row.length;
    for (read, row) in (1..).zip(rows).filter(|(_, row)| is_read(row)) {
        let (got, newer) = (history[read as usize].view(row.process).0, history[read as usize].plain);
        if got == newer {
            continue;
        }
        let case = Case { rows, model, history: &history, read, got, newer };
        let told = || format!("{model:?}, byte {byte} of row {read}\n{}", String::from_utf8_lossy(&text_of(rows)));
        let reason = reason(&held, lacks, read, got, newer).unwrap_or_else(|| panic!("no reason: {}", told()));
        assert!(case.holds(reason), "{reason:?}: {}", told());
        assert!(races.contains(&(newer, read)) || races.contains(&(got, newer)), "no race: {}", told());
        *seen.entry((name_of(reason), model.name())).or_default() += 1;
    }
}

/// Every reason says what is so, whenever a read does not get what one plain file would give; and the newer row is in a race, with the read or with the
/// row that the read gets.
#[test]
fn every_reason_holds() {
    let (mut r, mut seen) = (Random::new(20_777), Seen::new());
    for _ in 0..3_000 {
        let (rows, _) = some_rows_within(&mut r, MOST);
        let (order, flat) = (Order::of(&rows), numbers(&rows));
        let held = explain::Rows { rows: &flat, n: rows.len() as u32, processes: PROCESSES, counts: &[] };
        let files: BTreeSet<u32> = rows.iter().filter(|row| row.kind < SEND).map(|row| row.file).collect();
        for model in Model::ALL {
            let (lacks, races) = (Lacks::new(held, model), races(&rows, &order, model.number()));
            for (file, byte) in files.iter().flat_map(|file| samples(&rows, *file).into_iter().map(|byte| (*file, byte))) {
                check_byte(&rows, byte, file, &lacks, (model, &races), &mut seen);
            }
        }
    }
    for (name, never) in [
        ("never published", &["posix"][..]),
        ("published later", &["posix"]),
        ("never refreshed", &["posix", "commit"]),
        ("refreshed earlier", &["posix", "commit"]),
        ("own first", &["posix"]),
        ("published over", &["posix"]),
    ] {
        for model in Model::ALL.map(Model::name) {
            assert_eq!(!seen.contains_key(&(name, model)), never.contains(&model), "{name} under {model} in {seen:?}");
        }
    }
}

// ---- The reasons in words

/// Traces, a row and a model, and why that read does not get the newer bytes.
const WHY: &[(&str, &str, &str, &str)] = &[
    (
        "0,write 1,read",
        "2",
        "commit",
        "process 0 has no commit of file 1 after row 1, so that no other process gets the bytes of row 1.",
    ),
    (
        "0,write 1,read 0,commit",
        "2",
        "commit",
        "process 0's first commit of file 1 after row 1 is row 3, behind row 2. Before it no other process gets the bytes of row 1.",
    ),
    (
        "0,write 1,read 0,commit 0,sync",
        "2",
        "mpiio",
        "process 0's first close or sync of file 1 after row 1 is row 4 (sync), behind row 2. Before it no other process gets the bytes of row 1.",
    ),
    (
        "0,write 0,close 1,read",
        "3",
        "session",
        "row 2 publishes row 1, but process 1 has no open of file 1 before row 3, so that it gets no bytes of other processes.",
    ),
    (
        "0,write 0,close 1,read",
        "3",
        "mpiio",
        "row 2 (close) publishes row 1, but process 1 has no open or sync of file 1 before row 3, so that it gets no bytes of other processes.",
    ),
    (
        "1,open 0,write 0,close 1,read",
        "4",
        "session",
        "process 1's last open of file 1 before row 4 is row 1, and row 2 is published behind it, by row 3.",
    ),
    (
        "1,write 0,write 0,commit 1,read",
        "4",
        "commit",
        "row 1 is process 1's own write, and it has no commit of file 1 between row 1 and row 4: own bytes that are not yet published come first.",
    ),
    (
        "1,write 0,write 0,close 1,open 1,read",
        "5",
        "session",
        "row 1 is process 1's own write, and it has no close of file 1 between row 1 and row 4, its last open of file 1 before row 5: own bytes \
         that are not yet published come first.",
    ),
    (
        "0,write 1,write 1,commit 0,commit 1,read",
        "5",
        "commit",
        "row 3 publishes row 2, and row 4, behind it, publishes the older row 1 over it.",
    ),
    (
        "1,write 0,write 0,sync 1,sync 1,read",
        "5",
        "mpiio",
        "row 3 (sync) publishes row 2, and row 4 (sync), behind it, publishes the older row 1 over it. Process 1's last open or sync of file 1 \
         before row 5 is row 4 (sync).",
    ),
];

/// The sentences behind a label, each on one line.
fn behind(words: &str, label: &str) -> Vec<String> {
    let words = words.replace("\n             ", " ");
    let label = format!("    {:9}", format!("{label}:"));
    words.lines().filter_map(|line| line.strip_prefix(&label)).map(str::to_string).collect()
}

#[test]
fn each_reason_has_its_words() {
    for (rows, row, model, why) in WHY {
        let record = |word: &str| match word.ends_with("read") || word.ends_with("write") {
            true => format!("{word},1,0,4,\r\n"),
            false => format!("{word},1,,,\r\n"),
        };
        let text: String = rows.split(' ').map(record).collect();
        let o = fed(&["explain", "-", row, "--model", model], text.as_bytes());
        assert_eq!((behind(&out(&o), "Why"), status(&o)), (vec![why.to_string()], 0), "{rows}\n{}", out(&o));
        assert_eq!(behind(&out(&o), "Race").len(), 1, "{}", out(&o));
    }
}

/// Where the reader opens another file behind its last open of the read's file, the sentences name the file that they are about.
#[test]
fn an_open_of_another_file_is_not_taken_for_that_of_the_read() {
    let reads = "1,open,1,,,\r\n1,open,2,,,\r\n1,read,1,0,4,\r\n";
    let [older, newer] = ["1,write,1,0,4,\r\n0,write,1,0,4,\r\n", "0,write,1,0,4,\r\n1,write,1,0,4,\r\n"];
    for (rows, row, why) in [
        (format!("{older}0,close,1,,,\r\n{reads}"), "6", "between row 1 and row 4, its last open of file 1 before row 6: own bytes"),
        (format!("{newer}1,close,1,,,\r\n0,close,1,,,\r\n{reads}"), "7", "Process 1's last open of file 1 before row 7 is row 5."),
    ] {
        let words = out(&fed(&["explain", "-", row, "--model", "session"], rows.as_bytes()));
        assert!(matches!(&behind(&words, "Why")[..], [told] if told.contains(why)), "{words}");
    }
}

#[test]
fn reasons_alike_are_told_once() {
    let mut text = String::new();
    (0..20).for_each(|k| text.push_str(&format!("{},write,1,{},2,\r\n", k % 2, 3 * k)));
    text.push_str("0,commit,1,,,\r\n0,write,1,0,1,\r\n2,read,1,0,60,\r\n");
    let o = fed(&["explain", "-", "23", "--model", "commit"], text.as_bytes());
    let words = out(&o);
    assert_eq!(behind(&words, "Why").len(), 2, "{words}");
    assert_eq!(words.matches("  STALE, reason 1\n").count() + words.matches("  STALE, reason 2\n").count(), 11, "{words}");
    assert!(
        words.contains("\n  Reason 1, byte 0: not row 22, but row 1\n")
            && words.contains("\n  Reason 2, bytes 3 to 4: not row 2, but unwritten\n")
    );
    assert_eq!(words.matches("  alike:  9 other lines have the same reason, with other rows or bytes.\n").count(), 1, "{words}");
}

#[test]
fn a_read_without_stale_bytes_says_what_another_order_may_give() {
    for (text, row, model, words) in [
        ("0,write,1,0,4,\r\n0,read,1,0,4,\r\n", "2", "commit", "no two rows race, so this holds in every allowed order."),
        (
            "1,read,1,0,4,\r\n0,write,1,0,4,\r\n",
            "1",
            "commit",
            "row 1 is in 1 race, and may get other bytes in another order: 'kiqsaryn races'.",
        ),
        (
            "0,write,1,0,4,\r\n1,write,1,0,4,\r\n1,read,1,9,1,\r\n",
            "3",
            "commit",
            "row 3 is in no race; races of other rows may change what it gets in another order.",
        ),
    ] {
        let o = fed(&["explain", "-", row, "--model", model], text.as_bytes());
        let told = out(&o).replace("\n           ", " ");
        assert!(told.contains(&format!("  Every byte is what one plain file would give.\n  {:9}{words}\n", format!("{model}:"))), "{told}");
        assert!(status(&o) == 0 && !told.contains("STALE"), "{told}");
    }
    let o = fed(&["explain", "-", "1"], b"1,read,1,7,0,\r\n");
    assert!(
        out(&o).contains("\nUnder posix, commit, session, mpiio: the read asks for no bytes\n\nThis is the recorded order"),
        "{}",
        out(&o)
    );
}

/// The rows that a sentence names, in their order.
fn rows_in(sentence: &str) -> Vec<u32> {
    let digits = |rest: &str| rest.chars().take_while(char::is_ascii_digit).collect::<String>();
    sentence.split("row ").skip(1).map(|rest| digits(rest).parse().expect("a row's number")).collect()
}

/// The reason that a sentence gives, and the rows that it has to name besides: the read, the row that it gets, the newer one.
fn read_reason(sentence: &str, case: &Case) -> Option<Reason> {
    let (read, got, newer) = (case.read, case.got, case.newer);
    let has = |words: &str| sentence.contains(words);
    match rows_in(sentence)[..] {
        [a, b] if has("so that no other process gets") && (a, b) == (newer, newer) => Some(Reason::NeverPublished),
        [a, publish, b, c] if has("Before it no other process gets") && (a, b, c) == (newer, read, newer) => {
            Some(Reason::PublishedLater { publish })
        }
        [publish, a, b] if has("so that it gets no bytes of other processes") && (a, b) == (newer, read) => {
            Some(Reason::NeverRefreshed { publish })
        }
        [a, refresh, b, publish] if has("is published behind it, by") && (a, b) == (read, newer) => {
            Some(Reason::RefreshedEarlier { publish, refresh })
        }
        [a, b, refresh, ..] if has("own bytes that are not yet published come first") && (a, b) == (got, got) => {
            let publish = case.of(case.row(newer).process, publishes).into_iter().find(|k| *k > newer)?;
            Some(Reason::OwnFirst { publish, refresh })
        }
        [publish, a, over, b] if has("publishes the older") && (a, b) == (newer, got) => {
            Some(Reason::PublishedOver { publish, over, refresh: read })
        }
        [publish, a, over, b, c, refresh] if has("publishes the older") && (a, b, c) == (newer, got, read) => {
            Some(Reason::PublishedOver { publish, over, refresh })
        }
        _ => None,
    }
}

/// Holds every sentence of an explanation against the history of the first byte that it is about; the number of sentences.
fn check_sentences(words: &str, rows: &[Row], read: u32) -> u32 {
    let (mut model, mut stale, mut checked) = (Model::Posix, (0, 0, 0), 0);
    for line in words.replace("\n             ", " ").lines() {
        if let Some((bytes, which)) = line.strip_prefix("  ").and_then(|l| l.split_once(": not row ")) {
            let first = bytes.rsplit("yte").next().expect("the bytes").trim_start_matches("s ").trim().split(' ').next();
            let (newer, got) = which.split_once(", but ").expect("what it gets");
            let got = got.strip_prefix("row ").map_or(0, |row| row.parse().expect("a row"));
            stale = (first.and_then(|b| b.parse().ok()).expect("a byte"), got, newer.parse().expect("a row"));
        } else if let Some(named) = line.strip_prefix("  ").and_then(|l| l.strip_suffix(':')).and_then(Model::from_name) {
            model = named;
        } else if let Some(why) = line.strip_prefix("    Why:     ") {
            let (byte, got, newer) = stale;
            let history = history(rows, rows[read as usize - 1].file, model, byte);
            let case = Case { rows, model, history: &history, read, got, newer };
            let reader = rows[read as usize - 1].process;
            assert_eq!((history[read as usize].view(reader).0, history[read as usize].plain), (got, newer), "byte {byte} in\n{words}");
            let reason = read_reason(why, &case).unwrap_or_else(|| panic!("{why}"));
            assert!(case.holds(reason), "{model:?}: {why}\n{}", String::from_utf8_lossy(&text_of(rows)));
            checked += 1;
        }
    }
    checked
}

#[test]
fn random_explanations_hold() {
    let (mut r, mut checked) = (Random::new(4_711), 0);
    for k in 0..500 {
        let (rows, _) = some_rows_within(&mut r, MOST);
        let reads: Vec<u32> = (1..).zip(&rows).filter(|(_, row)| row.kind == READ && row.length > 0).map(|(k, _)| k).collect();
        let Some(read) = reads.last().map(|last| if r.once_in(3) { r.pick(&reads) } else { *last }) else {
            continue;
        };
        let (text, file) = (text_of(&rows), rows[read as usize - 1].file);
        let o = fed(&["explain", "-", &read.to_string()], &text);
        let words = out(&o);
        assert!(status(&o) == 0 && !words.contains("please report") && words.lines().all(|l| l.len() <= 78), "trace {k}\n{words}");
        for section in words.split("\nUnder ").skip(1) {
            let (models, table) = section.split_once(": ").expect("the models");
            let told: Pieces = table.lines().filter_map(told_piece).collect();
            for model in models.split(", ").map(|m| Model::from_name(m).expect("a model")) {
                let want = naive_reads(&rows, file, model).into_iter().find(|(n, _, _)| *n == read).expect("the read").2;
                assert_eq!(told, want, "trace {k}, {model:?}, row {read}\n{words}");
            }
        }
        checked += check_sentences(&words, &rows, read);
    }
    assert!(checked > 150, "{checked}");
}
