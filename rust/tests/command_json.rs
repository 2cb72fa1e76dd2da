//! The JSON of `check`, `races` and `replay`: every text is read by a strict reader and held against the lines with commas, the words, and the definitions,
//! and the examples of `docs/JSON.md` are what the command writes.

#![allow(dead_code)]

#[path = "running/json.rs"]
mod json;
mod naive;
mod running;

use json::{parse, Value};
use kiqsaryn::{JoinSettings, Model, Row, KINDS, PROCESSES, ROWS};
use naive::joining::{rows_of, taken};
use naive::order::Order;
use naive::pairs::some_files;
use naive::races::races;
use naive::random::Random;
use naive::rows::some_rows_within;
use naive::writing;
use running::folder::Folder;
use running::pair::Pair;
use running::{err, example_traces, feed, out, run, status, words_of, EXE};
use std::collections::{BTreeMap, BTreeSet};
use std::ffi::OsStr;
use std::os::unix::ffi::OsStrExt;
use std::path::Path;
use std::process::{Command, Output};

/// The object of a whole text, and the objects of its traces.
fn traces(o: &Output, command: &str) -> Vec<Value> {
    let text = out(o);
    let value = parse(&text).unwrap_or_else(|e| panic!("{e} in {text}"));
    assert_eq!(value.names(), ["format", "version", "traces"]);
    assert_eq!((value.at("format").text(), value.at("version").number()), (format!("kiqsaryn-{command}").as_str(), 1));
    assert!(text.ends_with("]}\n") && !text.contains("\n\n"), "{text}");
    value.at("traces").list().to_vec()
}

/// The object of the only trace, or the only join.
fn only(o: &Output, command: &str) -> Value {
    let mut all = traces(o, command);
    assert_eq!(all.len(), 1, "{}", out(o));
    all.remove(0)
}

/// Arguments behind others.
fn with<'a>(args: &[&'a str], more: &[&'a str]) -> Vec<&'a str> {
    [args, more].concat()
}

// ---- The reader

#[test]
fn the_reader_is_strict() {
    for wrong in [
        "",
        "{",
        "[1,]",
        "[,1]",
        "{\"a\":1,}",
        "{\"a\" 1}",
        "{a:1}",
        "[01]",
        "[1.5]",
        "[-1]",
        "[1 2]",
        "\"\n\"",
        "\"\\x\"",
        "\"\\u12g4\"",
        "nul",
        "[] []",
        "{\"a\":1,\"a\":2}",
        "\"a",
        "'a'",
        "[1e3]",
        "\"\\ud800\"",
    ] {
        assert!(parse(wrong).is_err(), "{wrong:?}");
    }
    let value = parse(" {\"a\" : [1, null,\ttrue,\r\n\"x\\\"\\\\\\u0007é\"], \"b\":{}} ").expect("a value");
    assert_eq!(value.at("a").list()[3].text(), "x\"\\\u{7}é");
    assert_eq!(value.at("b").names(), Vec::<&str>::new());
}

// ---- The document

/// The command lines of the document, each with the example behind it.
fn examples() -> Vec<(String, String)> {
    let path = Path::new(env!("CARGO_MANIFEST_DIR")).join("../docs/JSON.md");
    let text = std::fs::read_to_string(path).expect("the document");
    let parts = text.split("\n    kiqsaryn ").skip(1);
    let examples = parts.map(|part| {
        let (line, rest) = part.split_once('\n').expect("a line");
        let (before, rest) = rest.split_once("```json\n").expect("an example");
        assert_eq!(before, "\n", "between {line} and its example");
        (line.to_string(), rest.split("```").next().expect("an end").to_string())
    });
    examples.collect()
}

#[test]
fn the_document_shows_what_is_written() {
    let all = examples();
    assert!(all.len() > 3);
    for (line, example) in all {
        let args: Vec<&str> = line.split(' ').collect();
        let o = feed(Command::new(EXE).args(args).current_dir(concat!(env!("CARGO_MANIFEST_DIR"), "/..")), b"");
        let want = parse(&example).unwrap_or_else(|e| panic!("{line}: {e}"));
        assert_eq!(parse(&out(&o)).expect("a text"), want, "{line}");
    }
}

// ---- Against the lines with commas and the words

/// The lines of `check --csv` that an object would have.
fn check_lines(object: &Value) -> String {
    let mut s = "model,verdict,earlier,later\r\n".to_string();
    for model in object.at("models").list() {
        let (name, verdict, first) = (model.at("model").text(), model.at("verdict").text(), model.at("first"));
        let rows = match first {
            Value::Null => ",".to_string(),
            race => format!("{},{}", race.at("earlier").number(), race.at("later").number()),
        };
        assert_eq!((verdict == "free", *first == Value::Null), (model.at("races").number() == 0, verdict == "free"), "{model}");
        s.push_str(&format!("{name},{verdict},{rows}\r\n"));
    }
    s
}

/// The lines of `races --csv` that an object would have.
fn race_lines(object: &Value) -> String {
    let mut s = "model,earlier,later\r\n".to_string();
    for model in object.at("models").list() {
        for pair in model.at("pairs").list() {
            s.push_str(&format!("{},{},{}\r\n", model.at("model").text(), pair.numbers()[0], pair.numbers()[1]));
        }
        assert_eq!(model.at("shown").number(), model.at("pairs").list().len() as u64);
    }
    s
}

/// The line of a refusal that an object would have.
fn refused_line(object: &Value) -> String {
    let r = object.at("refused");
    let of = r.get("trace").map_or(String::new(), |trace| format!(",{}", trace.number()));
    format!("refused,{},{}{of}\r\n", r.at("number").number(), r.at("row").number())
}

/// Words without the line ends and spaces between them.
fn flat(words: &str) -> String {
    words.split_whitespace().collect::<Vec<&str>>().join(" ")
}

/// Fails unless the words have the sentences and the shared bytes of a race.
fn compare_race(race: &Value, words: &str) {
    for sentence in race.at("explanation").list() {
        assert_eq!(sentence.names(), ["label", "text"]);
        let both = format!("{}: {}", sentence.at("label").text(), sentence.at("text").text());
        assert!(words.contains(&both), "{both} in {words}");
    }
    assert!(!race.at("explanation").list().is_empty(), "{race}");
}

/// Fails unless the words have a group, its first race, and for how many of its races the same is missing.
fn compare_group(group: &Value, words: &str) {
    let (races, alike, processes) = (group.at("races").number(), group.at("alike").number(), group.at("processes").numbers());
    let count = if races == 1 { "1 race".to_string() } else { format!("{races} races") };
    let head = format!("File {}, process {} and process {}: {count}", group.at("file").number(), processes[0], processes[1]);
    let same = match races {
        1 => head.clone(),
        _ if races == alike => format!("Alike: the same is missing for all {races} races."),
        _ => format!("Alike: the same is missing for {alike} of the {races} races."),
    };
    assert!(words.contains(&head) && words.contains(&same), "{head}, {same} in {words}");
    compare_race(group.at("first"), words);
}

/// Fails unless the words have what the object of a refusal has.
fn compare_refusal(refused: &Value, words: &str) {
    assert!(words.contains(&flat(refused.at("question").text())), "{words}");
    let Some(line) = refused.get("line") else {
        assert_eq!(refused.at("trace").number(), 0, "{refused}");
        return;
    };
    let (line, byte, column) = (line.number(), refused.at("byte").number(), refused.at("column").number());
    assert!(words.contains(&format!("line {line}, byte {byte} (from 0), column {column}")), "{refused} in {words}");
    for name in ["found", "cure"] {
        let told = refused.at(name);
        assert!(*told == Value::Null || words.contains(&flat(told.text())), "{name} of {refused} in {words}");
    }
    assert_eq!(*refused.at("cure") == Value::Null, !words.contains(" cure: kiqsaryn "), "{refused} in {words}");
}

/// Runs `check` and `races` in each form and compares what they say.
fn compare_forms(args: &[&str], input: &[u8]) -> Value {
    let [check, races] = ["check", "races"].map(|command| {
        let call = |more: &[&str]| run(&with(&with(&[command], args), more), input);
        let (o, csv) = (call(&["--json"]), call(&["--csv"]));
        assert_eq!((status(&o), err(&o)), (status(&csv), err(&csv)), "{args:?}");
        let (object, words) = (only(&o, command), flat(&out(&call(&[]))));
        if object.get("refused").is_some() {
            assert_eq!(refused_line(&object), out(&csv), "{args:?}");
            compare_refusal(object.at("refused"), &words);
            return object;
        }
        let lines = if command == "check" { check_lines(&object) } else { race_lines(&object) };
        assert_eq!(lines, out(&csv), "{args:?}");
        for model in object.at("models").list() {
            match command {
                "check" => {
                    model.get("first").filter(|first| **first != Value::Null).into_iter().for_each(|race| compare_race(race, &words))
                }
                _ => model.at("chosen_groups").list().iter().for_each(|group| compare_group(group, &words)),
            }
        }
        object
    });
    if check.get("models").is_some() {
        let of = |object: &Value| object.at("models").list().iter().map(|m| m.at("races").number()).collect::<Vec<u64>>();
        assert_eq!(of(&check), of(&races), "{args:?}");
        let names: Vec<&str> = check.names().into_iter().filter(|name| *name != "models").collect();
        names.iter().for_each(|name| assert_eq!(check.at(name), races.at(name), "{args:?}"));
    } else {
        assert_eq!(check, races, "{args:?}");
    }
    check
}

#[test]
fn every_example_is_told_alike_in_each_form() {
    for path in example_traces() {
        let name = path.file_name().and_then(|n| n.to_str()).expect("a name");
        let object = compare_forms(&[name, "--header", "yes"], b"");
        assert_eq!((object.at("trace").text(), object.at("header").is_true()), (name, true));
        compare_forms(&[name, "--header", "no"], b"");
        compare_forms(&[name, "--header", "yes", "--model", "Session"], b"");
    }
    for habit in ["lf", "mark", "semicolons", "utf_16", "several"] {
        let object = compare_forms(&[&format!("habits/{habit}.csv"), "--header", "yes"], b"");
        assert!(object.at("refused").at("cure").text().starts_with(&format!("kiqsaryn write habits/{habit}.csv ")), "{object}");
    }
    for second in ["join/right.csv", "join/right_cut.csv", "join/left.csv"] {
        for headers in ["yes,no", "yes,yes", "no,yes"] {
            compare_forms(&["join/left.csv", second, "--headers", headers], b"");
        }
    }
}

// ---- Against the definitions

/// Fails unless an object's counts are those of the rows.
fn compare_counts(object: &Value, rows: &[Row]) {
    let mut counts: [BTreeMap<u64, u64>; 2] = Default::default();
    let (mut messages, mut barriers) = (0, 0);
    for row in rows {
        *counts[0].entry(row.process.into()).or_default() += 1;
        match KINDS[row.kind as usize] {
            "send" | "recv" | "wait" => messages += 1,
            "barrier" => barriers += 1,
            _ => *counts[1].entry(row.file.into()).or_default() += 1,
        }
    }
    for (list, name, counts) in [("processes", "process", &counts[0]), ("files", "file", &counts[1])] {
        let listed: Vec<(u64, u64)> = object.at(list).list().iter().map(|e| (e.at(name).number(), e.at("rows").number())).collect();
        assert_eq!(listed, counts.iter().map(|(k, n)| (*k, *n)).collect::<Vec<_>>(), "{object}");
    }
    assert_eq!(object.at("rows").number(), rows.len() as u64);
    assert_eq!((object.at("messages").at("rows").number(), object.at("barriers").at("rows").number()), (messages, barriers));
    let of = |kind: &str| rows.iter().filter(|r| KINDS[r.kind as usize] == kind).map(|r| r.message).collect::<BTreeSet<u32>>();
    let only_posted = of("recv").difference(&of("wait")).count();
    assert_eq!(object.at("messages").at("recv_without_wait").number(), only_posted as u64, "{object}");
    assert_eq!(object.at("barriers").at("barriers").number(), of("barrier").len() as u64, "{object}");
}

/// Fails unless a race is told with its rows and their bytes.
fn compare_rows(race: &Value, rows: &[Row]) {
    let of = |name: &str| rows[race.at(name).number() as usize - 1];
    let (x, y) = (of("earlier"), of("later"));
    for (told, row, name) in [(&race.at("rows").list()[0], x, "earlier"), (&race.at("rows").list()[1], y, "later")] {
        assert_eq!(told.at("row"), race.at(name));
        let numbers = ["process", "offset", "length"].map(|name| told.at(name).number());
        assert_eq!(numbers, [row.process, row.offset, row.length].map(u64::from));
        assert_eq!(told.at("kind").text(), KINDS[row.kind as usize]);
    }
    let end = |r: Row| u64::from(r.offset) + u64::from(r.length);
    let shared = [u64::from(x.offset.max(y.offset)), end(x).min(end(y)) - 1];
    assert_eq!(["first", "last"].map(|name| race.at("shared").at(name).number()), shared);
    assert_eq!(race.at("file").number(), u64::from(x.file));
}

/// Fails unless `races` has these races under a model, and the groups and the chosen ones of them.
fn compare_model(model: &Value, rows: &[Row], all: &[(u32, u32)], file: Option<u32>) {
    let row = |number: u32| rows[number as usize - 1];
    let key = |(a, b): (u32, u32)| {
        let (p, q) = (row(a).process, row(b).process);
        (row(a).file, p.min(q), p.max(q))
    };
    let chosen: Vec<(u32, u32)> = all.iter().filter(|(a, _)| file.is_none_or(|f| row(*a).file == f)).copied().collect();
    let groups = |races: &[(u32, u32)]| {
        let mut keys: Vec<((u32, u32, u32), usize, (u32, u32))> = Vec::new();
        for race in races {
            match keys.iter_mut().find(|(k, _, _)| *k == key(*race)) {
                Some((_, n, _)) => *n += 1,
                None => keys.push((key(*race), 1, *race)),
            }
        }
        keys
    };
    let counts = ["races", "groups", "chosen"].map(|name| model.at(name).number());
    assert_eq!(counts, [all.len(), groups(all).len(), chosen.len()].map(|n| n as u64));
    let pairs: Vec<Vec<u64>> = model.at("pairs").list().iter().map(Value::numbers).collect();
    assert_eq!(pairs, chosen.iter().map(|(a, b)| vec![u64::from(*a), u64::from(*b)]).collect::<Vec<_>>());
    let told = model.at("chosen_groups").list();
    for (group, ((f, p, q), n, first)) in told.iter().zip(groups(&chosen)) {
        let processes = group.at("processes").numbers();
        assert_eq!((group.at("file").number(), processes, group.at("races").number()), (f.into(), vec![p.into(), q.into()], n as u64));
        assert_eq!(["earlier", "later"].map(|name| group.at("first").at(name).number()), [first.0, first.1].map(u64::from));
        assert!((1..=n as u64).contains(&group.at("alike").number()), "{group}");
        compare_rows(group.at("first"), rows);
    }
    assert_eq!(told.len(), groups(&chosen).len());
}

#[test]
fn random_traces_are_told_as_they_are() {
    let mut racing = 0;
    for seed in 0..150 {
        let r = &mut Random::new(seed);
        let (rows, _) = some_rows_within(r, 120);
        let text = writing::text(1, &rows);
        let check = compare_forms(&["-", "--header", "yes"], &text);
        assert_eq!((check.at("trace").text(), check.at("bytes").number()), ("standard input", text.len() as u64));
        assert_eq!(check.at("judged").is_true(), !rows.is_empty());
        compare_counts(&check, &rows);
        let file = rows.first().filter(|_| r.once_in(2)).map(|row| row.file);
        let option = file.map(|f| format!("--file={f}"));
        let more: Vec<&str> = option.iter().map(String::as_str).collect();
        let o = run(&with(&["races", "-", "--header", "yes", "--json"], &more), &text);
        let (object, order) = (only(&o, "races"), Order::of(&rows));
        for (told, model) in object.at("models").list().iter().zip(Model::ALL) {
            let all = races(&rows, &order, model.number());
            assert_eq!(told.at("model").text(), model.name());
            compare_model(told, &rows, &all, file);
            racing += usize::from(!all.is_empty());
        }
    }
    assert!(racing > 100, "{racing}");
}

#[test]
fn random_joins_are_told_as_they_are() {
    let pair = Pair::new("json", b"", b"");
    let (mut accepted, mut refused) = (0, 0);
    for seed in 0..80 {
        let (files, _) = some_files(&mut Random::new(seed), 40);
        let texts = [writing::text(1, &files[0]), writing::text(0, &files[1])];
        pair.put(&texts[0], &texts[1]);
        let object = only(&pair.run("races", "yes,no", &["--json"]), "races");
        let names: Vec<&str> = object.at("traces").list().iter().map(|t| t.at("trace").text()).collect();
        let headers: Vec<bool> = object.at("traces").list().iter().map(|t| t.at("header").is_true()).collect();
        assert_eq!((names, headers), (vec!["a.csv", "b.csv"], vec![true, false]));
        let s = JoinSettings { headers: [1, 0], model: 0, row_limit: ROWS, process_limit: PROCESSES };
        let lengths = [6 * ROWS as usize, PROCESSES as usize * ROWS as usize, 3 * ROWS as usize];
        let taken = match taken([&texts[0], &texts[1]], s, lengths) {
            Ok(taken) => taken,
            Err((number, place, file)) => {
                assert_eq!(refused_line(&object), format!("refused,{number},{place},{file}\r\n"), "seed {seed}");
                refused += 1;
                continue;
            }
        };
        let rows = rows_of(&taken);
        let mut own = [0; 2];
        let origins = taken.iter().map(|t| {
            own[t.file as usize - 1] += 1;
            vec![u64::from(t.file), own[t.file as usize - 1]]
        });
        let told: Vec<Vec<u64>> = object.at("origins").list().iter().map(Value::numbers).collect();
        assert_eq!(told, origins.collect::<Vec<_>>(), "seed {seed}");
        object.at("traces").list().iter().zip(&files).for_each(|(trace, rows)| compare_counts(trace, rows));
        let order = Order::of(&rows);
        for (told, model) in object.at("models").list().iter().zip(Model::ALL) {
            compare_model(told, &rows, &races(&rows, &order, model.number()), None);
        }
        accepted += 1;
    }
    assert!(accepted > 30 && refused > 10, "{accepted}, {refused}");
}

// ---- Replays

/// A replay, of one trace or of a join, counts what its words count.
#[test]
fn replays_are_told_alike_in_each_form() {
    let mut cases: Vec<Vec<String>> = Vec::new();
    let mut add = |line: &str| cases.push(line.split(' ').map(str::to_string).collect());
    for path in example_traces() {
        add(&format!("{} --header yes", path.file_name().and_then(|n| n.to_str()).expect("a name")));
    }
    add("many_races.csv commit_missing.csv --header yes");
    add("join/left.csv join/right.csv --headers yes,no");
    add("join/left.csv join/right_cut.csv --headers yes,no");
    for args in cases {
        for model in ["posix", "commit", "session", "MPI-IO"] {
            let args: Vec<&str> = ["replay", "--model", model].into_iter().chain(args.iter().map(String::as_str)).collect();
            let (words, o) = (run(&args, b""), run(&with(&args, &["--json"]), b""));
            assert_eq!((status(&o), err(&o)), (status(&words), err(&words)), "{args:?}");
            let objects = traces(&o, "replay");
            for object in objects.iter().filter(|object| object.get("refused").is_none()) {
                let counts = ["reads", "bytes", "stale"].map(|name| object.at("counts").at(name).number());
                let line = format!("eads: {}, bytes read: {}, stale bytes: {}\n", counts[0], counts[1], counts[2]);
                assert!(out(&words).contains(&line), "{line} in {}", out(&words));
                assert_eq!(object.at("reads").list().len() as u64, object.at("counts").at("shown").number());
            }
        }
    }
}

// ---- What is chosen

#[test]
fn a_choice_chooses_as_with_commas() {
    for choice in [
        &["--file", "2"][..],
        &["--process", "0"],
        &["--file", "1", "--process", "2"],
        &["--limit", "0"],
        &["--limit", "1"],
        &["--limit", "4", "--file", "1"],
        &["--file", "9"],
    ] {
        let call = |form: &str| run(&with(&["races", "many_races.csv", "--header", "yes", form], choice), b"");
        let object = only(&call("--json"), "races");
        assert_eq!((race_lines(&object), status(&call("--json"))), (out(&call("--csv")), 1), "{choice:?}");
        let words = out(&call("--model=commit"));
        let commit = &object.at("models").list()[1];
        assert_eq!((commit.at("races").number(), commit.at("groups").number()), (6, 3));
        assert_eq!(words.matches("\nFile ").count(), commit.at("chosen_groups").list().len(), "{choice:?}: {words}");
    }
}

/// So many rows of which each races with each other of another process: writes of one byte.
fn all_racing(rows: u32, processes: u32) -> Vec<Row> {
    (0..rows).map(|k| Row { process: k % processes, kind: kiqsaryn::WRITE, file: 5, offset: 7, length: 1, message: 0 }).collect()
}

/// The largest trace has more than 8 million races; the text is not held whole.
#[test]
fn the_most_races_are_written_as_they_come() {
    let f = Folder::new("json-most");
    f.put("most.csv", &words_of(&writing::text(0, &all_racing(4_096, PROCESSES))), 0o644);
    let races = 4_096 * 4_095 / 2 - (0..PROCESSES as usize).map(|p| (4_096 - p).div_ceil(48)).map(|n| n * (n - 1) / 2).sum::<usize>();
    let o = f.sh("ulimit -v 400000; { kiqsaryn races most.csv --header no --model posix --json; echo $? >&2; } | tr -cd ']' | wc -c");
    assert_eq!(err(&o), "1\n");
    // Each race has a bracket, and there are fewer others than 100,000.
    let brackets: usize = out(&o).trim().parse().expect("a number");
    assert!((races..races + 100_000).contains(&brackets), "{brackets}");
}

// ---- Traces without rows, several traces, and names

#[test]
fn a_trace_without_rows_is_not_judged() {
    for (header, input) in [("no", ""), ("yes", "process,kind,file,offset,length,message\r\n")] {
        let object = compare_forms(&["-", "--header", header], input.as_bytes());
        assert_eq!((object.at("judged").is_true(), object.at("rows").number()), (false, 0));
        assert!(object.at("processes").list().is_empty() && object.at("files").list().is_empty());
    }
    assert!(compare_forms(&["-", "--header", "no"], b"0,commit,1,,,\r\n").at("judged").is_true());
}

#[test]
fn several_traces_have_an_object_each() {
    let names = ["commit_free.csv", "missing.csv", "refused_kind.csv", "many_races.csv"];
    for command in ["check", "races"] {
        let o = run(&with(&with(&[command], &names), &["--header", "yes", "--json"]), b"");
        assert_eq!((status(&o), err(&o).as_str()), (3, "kiqsaryn: cannot read missing.csv: No such file or directory (os error 2)\n"));
        let all = traces(&o, command);
        assert_eq!(all.iter().map(|t| t.at("trace").text()).collect::<Vec<_>>(), names);
        for (object, name) in all.iter().zip(names) {
            let alone = only(&run(&[command, name, "--header", "yes", "--json"], b""), command);
            assert_eq!(*object, alone, "{name}");
        }
        assert_eq!(all[1].names(), ["trace", "header", "failed"]);
        assert_eq!(all[2].names(), ["trace", "header", "refused"]);
    }
    let o = run(&["check", "join/left.csv", "missing.csv", "--headers", "yes,no", "--json"], b"");
    let object = only(&o, "check");
    assert_eq!((object.names(), status(&o)), (vec!["traces", "failed"], 3));
    assert_eq!(object.at("traces").list()[1].at("trace").text(), "missing.csv");
}

#[test]
fn names_of_every_kind_stand_in_the_text() {
    let f = Folder::new("json-names");
    let text = f.read("t.csv");
    let names: [(&[u8], &str); 5] = [
        ("Gerät \"Süd\" – 東.csv".as_bytes(), "Gerät \"Süd\" – 東.csv"),
        (b"back\\slash.csv", "back\\\\slash.csv"),
        (b"bell\x07 and\nline.csv", "bell\\x07 and\\nline.csv"),
        (b"not \xff utf \xc3.csv", "not \\xff utf \\xc3.csv"),
        ("turned \u{202e}.csv".as_bytes(), "turned \\xe2\\x80\\xae.csv"),
    ];
    for (bytes, shown) in names {
        let name = OsStr::from_bytes(bytes);
        std::fs::write(f.path.join(name), &text).expect("a file");
        for command in ["check", "races"] {
            let o = feed(Command::new(EXE).arg(command).arg(name).args(["--header", "yes", "--json"]).current_dir(&f.path), b"");
            assert_eq!(only(&o, command).at("trace").text(), shown);
            let o = feed(Command::new(EXE).arg(command).arg(name).args(["--header", "no", "--json"]).current_dir(&f.path), b"");
            assert_eq!(only(&o, command).at("trace").text(), shown);
        }
        std::fs::remove_file(f.path.join(name)).expect("the file is removed");
        let o = feed(Command::new(EXE).arg("check").arg(name).args(["--header", "yes", "--json"]).current_dir(&f.path), b"");
        assert!(only(&o, "check").at("failed").text().starts_with(&format!("cannot read {shown}: ")), "{}", out(&o));
    }
}

/// Records of strange bytes stand in a refusal.
#[test]
fn strange_records_stand_in_the_text() {
    for (input, record) in
        [(&b"0,\"wri\x80te\",1,0,1,\r\n"[..], "0,\"wri\\x80te\",1,0,1,"), (b"\"\x00\\\"\r\n", "\"\\x00\\\\\""), (b"\xff", "\\xff")]
    {
        let object = compare_forms(&["-", "--header", "no"], input);
        assert_eq!(object.at("refused").at("record").text(), record);
        assert_eq!(object.at("refused").at("bytes").number(), input.len() as u64);
    }
}

/// Another reader takes the texts too, where it is installed.
#[test]
fn another_reader_takes_the_texts() {
    if Command::new("python3").arg("--version").output().is_err() {
        eprintln!("python3 is not installed: not tried");
        return;
    }
    for args in [
        &["check", "many_races.csv", "refused_wait.csv", "missing.csv", "--header", "yes"][..],
        &["races", "many_races.csv", "--header", "yes"],
    ] {
        let text = out(&run(&with(args, &["--json"]), b""));
        let o = feed(Command::new("python3").args(["-m", "json.tool"]), text.as_bytes());
        assert!(o.status.success(), "{}", err(&o));
    }
}

#[test]
fn csv_and_json_are_not_taken_together() {
    for command in ["check", "races"] {
        let o = run(&[command, "many_races.csv", "--header", "yes", "--json", "--csv"], b"");
        assert_eq!((status(&o), out(&o)), (3, String::new()));
        assert!(err(&o).starts_with("kiqsaryn: say --csv or --json, not both\n"), "{}", err(&o));
    }
}
