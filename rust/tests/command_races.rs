//! Every race by the command `kiqsaryn races`, as a user runs it: its lines with commas and its words against the definitions on random traces and
//! joins, what is chosen to be shown, and its exit status. `check` says how many races there are.

#![allow(dead_code)]

#[path = "../src/bin/kiqsaryn/explain.rs"]
mod explain;
mod naive;
#[path = "../src/bin/kiqsaryn/posted.rs"]
mod posted;
mod running;
#[path = "../src/bin/kiqsaryn/words.rs"]
mod words;

use explain::{explain, Rows};
use kiqsaryn::{JoinSettings, Model, Row, PROCESSES, READ, ROWS};
use naive::joining::{rows_of, taken, Taken};
use naive::order::{counts, Order};
use naive::pairs::some_files;
use naive::races::races;
use naive::random::Random;
use naive::rows::{numbers, some_rows_within};
use naive::writing;
use running::folder::{failed, Folder};
use running::pair::Pair;
use running::{err, examples, out, prints, run, status};
use std::collections::BTreeSet;

type Race = (u32, u32);

// ---- The definitions

/// A trace with its order and its races under each model.
struct Naive {
    rows: Vec<Row>,
    numbers: Vec<u32>,
    counts: Vec<u16>,
    races: [Vec<Race>; 4],
}

impl Naive {
    fn of(rows: &[Row]) -> Naive {
        let order = Order::of(rows);
        let counts = counts(rows, &order, PROCESSES);
        let races = Model::ALL.map(|model| races(rows, &order, model.number()));
        Naive { rows: rows.to_vec(), numbers: numbers(rows), counts, races }
    }

    fn row(&self, number: u32) -> Row {
        self.rows[number as usize - 1]
    }

    fn under(&self, model: Model) -> &[Race] {
        &self.races[model.number() as usize]
    }

    /// The races under a model that a choice leaves, in their order.
    fn chosen(&self, model: Model, choice: &Choice) -> Vec<Race> {
        let is_of = |(a, b): &&Race| {
            let processes = [self.row(*a).process, self.row(*b).process];
            choice.file.is_none_or(|f| self.row(*a).file == f) && choice.process.is_none_or(|p| processes.contains(&p))
        };
        self.under(model).iter().filter(is_of).copied().collect()
    }

    /// The lines with commas.
    fn csv(&self, models: &[Model], choice: &Choice) -> String {
        let mut s = "model,earlier,later\r\n".to_string();
        for model in models {
            for (earlier, later) in self.chosen(*model, choice).iter().take(choice.limit.unwrap_or(usize::MAX)) {
                s.push_str(&format!("{},{earlier},{later}\r\n", model.name()));
            }
        }
        s
    }

    fn any(&self, models: &[Model]) -> i32 {
        i32::from(models.iter().any(|m| !self.under(*m).is_empty()))
    }

    /// The file and the two processes of a race, the smaller one first.
    fn key(&self, (earlier, later): Race) -> (u32, u32, u32) {
        let (p, q) = (self.row(earlier).process, self.row(later).process);
        (self.row(earlier).file, p.min(q), p.max(q))
    }

    /// What is needed and what is missing for a race, with every row named alike.
    fn lack(&self, model: Model, (earlier, later): Race) -> Vec<String> {
        let rows = Rows { rows: &self.numbers, n: self.rows.len() as u32, processes: PROCESSES, counts: &self.counts };
        let e = explain(&rows, model, earlier, later).expect("a race");
        let w = words::words(&e, &rows, &mut |_| "a row".to_string()).expect("words");
        w.lines.into_iter().filter(|(label, _)| ["Needed", "Missing"].contains(label)).map(|(_, line)| line).collect()
    }

    /// How many races lack the same as the first.
    fn alike(&self, model: Model, races: &[Race]) -> usize {
        let first = self.lack(model, races[0]);
        races.iter().filter(|race| self.lack(model, **race) == first).count()
    }

    /// A race as its line shows it.
    fn line(&self, (earlier, later): Race) -> Vec<String> {
        let (x, y) = (self.row(earlier), self.row(later));
        let bytes = |first: u64, end: u64| if end - first == 1 { first.to_string() } else { format!("{first} to {}", end - 1) };
        let range = |r: Row| (u64::from(r.offset), u64::from(r.offset) + u64::from(r.length));
        let entries = |number: u32, r: Row| {
            let does = if r.kind == READ { "reads" } else { "writes" };
            [number.to_string(), format!("{} {does}", r.process), bytes(range(r).0, range(r).1)]
        };
        let (first, end) = (range(x).0.max(range(y).0), range(x).1.min(range(y).1));
        let count = if end - first == 1 { "1 byte".to_string() } else { format!("{} bytes", end - first) };
        [&entries(earlier, x)[..], &entries(later, y), &[format!("{} ({count})", bytes(first, end))]].concat()
    }

    /// What is told of the models that have these races, under a choice.
    fn section(&self, models: &[Model], choice: &Choice) -> Section {
        let chosen = self.chosen(models[0], choice);
        let shown: BTreeSet<Race> = chosen.iter().take(choice.limit.unwrap_or(LIMIT)).copied().collect();
        let mut keys: Vec<(u32, u32, u32)> = Vec::new();
        chosen.iter().map(|race| self.key(*race)).for_each(|key| keys.extend((!keys.contains(&key)).then_some(key)));
        let group = |key: (u32, u32, u32)| {
            let races: Vec<Race> = chosen.iter().filter(|race| self.key(**race) == key).copied().collect();
            let lines: Vec<Vec<String>> = races.iter().filter(|r| shown.contains(r)).map(|r| self.line(*r)).collect();
            let explained = if lines.is_empty() { &[][..] } else { models };
            let reasons =
                explained.iter().map(|m| (format!("Row {} and row {} under {}", races[0].0, races[0].1, m.name()), self.alike(*m, &races)));
            Group { key, races: races.len(), more: races.len() - lines.len(), lines, reasons: reasons.collect() }
        };
        Section { models: models.iter().map(|m| m.name().to_string()).collect(), groups: keys.iter().copied().map(group).collect() }
    }

    /// What is told of all models: those with the same races together, and none where none is chosen.
    fn sections(&self, choice: &Choice) -> Vec<Section> {
        let mut same: Vec<Vec<Model>> = Vec::new();
        for model in Model::ALL {
            match same.iter_mut().find(|models| self.under(models[0]) == self.under(model)) {
                Some(models) => models.push(model),
                None => same.push(vec![model]),
            }
        }
        let sections = same.iter().filter(|models| !self.chosen(models[0], choice).is_empty());
        sections.map(|models| self.section(models, choice)).collect()
    }

    /// How many races there are under a model, how many are chosen and how many shown.
    fn counts(&self, model: Model, choice: &Choice) -> String {
        let groups = |races: &[Race]| races.iter().map(|r| self.key(*r)).collect::<BTreeSet<_>>().len();
        let some = |n: usize, one: &str| format!("{n} {one}{}", if n == 1 { "" } else { "s" });
        let (all, chosen) = (self.under(model), self.chosen(model, choice));
        if all.is_empty() {
            return if self.rows.is_empty() { "free (the trace has no row: nothing was judged)" } else { "free" }.to_string();
        }
        let mut s = format!("{}, in {}", some(all.len(), "race"), some(groups(all), "group"));
        if choice.file.is_some() || choice.process.is_some() {
            let left = format!("{}, in {}", chosen.len(), some(groups(&chosen), "group"));
            s += &format!("; chosen: {}", if chosen.is_empty() { "none" } else { &left });
        }
        match choice.limit.unwrap_or(LIMIT) {
            limit if limit >= chosen.len() => s,
            0 => s + "; shown: none",
            1 => s + "; shown: the first",
            limit => s + &format!("; shown: the first {limit}"),
        }
    }
}

/// How many races are shown in words where no limit is said.
const LIMIT: usize = 1_000;

/// What is chosen to be shown.
#[derive(Clone, Copy, Default, Debug)]
struct Choice {
    file: Option<u32>,
    process: Option<u32>,
    limit: Option<usize>,
}

impl Choice {
    fn args(&self) -> Vec<String> {
        let option = |name: &str, value: Option<u64>| value.map(|v| format!("{name}={v}"));
        let limit = self.limit.map(|n| n as u64);
        [option("--file", self.file.map(u64::from)), option("--process", self.process.map(u64::from)), option("--limit", limit)]
            .into_iter()
            .flatten()
            .collect()
    }
}

// ---- What is told in words

/// The groups of models with the same races.
#[derive(Debug, PartialEq)]
struct Section {
    models: Vec<String>,
    groups: Vec<Group>,
}

/// A group: its file and processes, how many races it has, those that are shown, how many more there are, and for each model the race that is
/// explained and how many lack the same.
#[derive(Debug, PartialEq, Default)]
struct Group {
    key: (u32, u32, u32),
    races: usize,
    lines: Vec<Vec<String>>,
    more: usize,
    reasons: Vec<(String, usize)>,
}

fn number(word: &str) -> usize {
    word.trim_end_matches([':', ',', '.']).parse().unwrap_or_else(|_| panic!("{word} is a number"))
}

/// "File 1, process 0 and process 2: 3 races", and behind it nothing or ", not shown".
fn group_of(line: &str) -> Group {
    let words: Vec<&str> = line.split(' ').collect();
    let key = (number(words[1]) as u32, number(words[3]) as u32, number(words[6]) as u32);
    let races = number(words[7]);
    let more = if line.ends_with(", not shown") { races } else { 0 };
    Group { key, races, more, ..Group::default() }
}

/// The counts of each model, and the sections, as they are told.
fn told(text: &str) -> (Vec<String>, Vec<Section>) {
    let (mut counts, mut sections): (Vec<String>, Vec<Section>) = (Vec::new(), Vec::new());
    for line in text.lines().skip_while(|l| *l != "Races:").skip(1).filter(|l| l.starts_with([' ', 'F', 'R'])) {
        if let Some(models) = line.strip_prefix("Races under ") {
            sections.push(Section { models: models.split(", ").map(str::to_string).collect(), groups: Vec::new() });
            continue;
        }
        let Some(section) = sections.last_mut() else {
            match line.strip_prefix(&" ".repeat(11)) {
                Some(rest) => counts.last_mut().expect("a line before").push_str(&format!(" {rest}")),
                None => counts.push(line[2..].to_string()),
            }
            continue;
        };
        if line.starts_with("File ") {
            section.groups.push(group_of(line));
            continue;
        }
        take_line(section.groups.last_mut().expect("a group"), line);
    }
    (counts, sections)
}

/// Takes a line of a group.
fn take_line(group: &mut Group, line: &str) {
    if let Some(more) = line.strip_prefix("  and ") {
        group.more = number(more.trim_end_matches(" more"));
    } else if line.starts_with("  Row ") {
        group.reasons.push((line.trim().trim_end_matches(':').to_string(), 1));
    } else if let Some(alike) = line.strip_prefix("    Alike:   the same is missing for ") {
        let words: Vec<&str> = alike.split(' ').collect();
        let (some, all) = if words[0] == "all" { (words[1], words[1]) } else { (words[0], words[3]) };
        assert_eq!((number(all), number(some) == group.races), (group.races, words[0] == "all"), "{line}");
        group.reasons.last_mut().expect("a reason").1 = number(some);
    } else if line[2..].starts_with(|c: char| c.is_ascii_digit()) {
        group.lines.push(line.split("  ").map(str::trim).filter(|entry| !entry.is_empty()).map(str::to_string).collect());
    }
}

/// Runs `races` on rows without a header.
fn told_of(rows: &[Row], more: &[String]) -> std::process::Output {
    let args: Vec<&str> = ["races", "-", "--header", "no"].into_iter().chain(more.iter().map(String::as_str)).collect();
    run(&args, &writing::text(0, rows))
}

/// Fails unless the words on a trace are those of the definitions.
fn compare_words(naive: &Naive, choice: &Choice, text: &str) {
    let (counts, sections) = told(text);
    let want = Model::ALL.map(|m| format!("{:8} {}", m.name(), naive.counts(m, choice)));
    assert_eq!(counts, want, "{choice:?} {text}");
    assert_eq!(sections, naive.sections(choice), "{choice:?} {text}");
    let sum = |s: &Section| s.groups.iter().map(|g| g.races).sum::<usize>();
    for section in &sections {
        for name in &section.models {
            let model = Model::from_name(name).expect("a model");
            assert_eq!(sum(section), naive.chosen(model, choice).len(), "the groups of {name} in {text}");
        }
    }
}

// ---- The examples

#[test]
fn the_examples_have_what_stands_beside_them() {
    let beside = |name: &str| std::fs::read_to_string(examples().join(name)).expect("the output beside it");
    let o = run(&["races", "many_races.csv", "--header", "yes"], b"");
    prints(&o, &beside("many_races.races.txt"), 1, "many_races.csv");
    let o = run(&["races", "join/left.csv", "join/right.csv", "--headers", "yes,no"], b"");
    let want = beside("join/left_right.races.txt").replace(": left.csv", ": join/left.csv").replace(": right.csv", ": join/right.csv");
    prints(&o, &want, 1, "left.csv and right.csv");
}

#[test]
fn the_races_of_every_example_start_with_its_verdicts() {
    for path in running::example_traces() {
        let name = path.file_name().and_then(|n| n.to_str()).expect("a name");
        let lines = out(&run(&["races", name, "--header", "yes", "--limit", "1", "--csv"], b""));
        let verdicts = std::fs::read_to_string(path.with_extension("out")).expect("the output beside it");
        if verdicts.starts_with("refused") {
            assert_eq!(lines, verdicts, "{name}");
            continue;
        }
        let first: String = verdicts.split_inclusive('\n').skip(1).filter(|l| l.contains("race")).map(|l| l.replace("race,", "")).collect();
        assert_eq!(lines, format!("model,earlier,later\r\n{first}"), "{name}");
    }
}

// ---- Random traces

/// What random traces had: races, groups, sections of several models, races that lack something else than the first, and cut groups.
#[derive(Default, Debug)]
struct Seen {
    races: usize,
    groups: usize,
    together: usize,
    unlike: usize,
    cut: usize,
}

impl Seen {
    fn add(&mut self, sections: &[Section]) {
        for section in sections {
            self.together += usize::from(section.models.len() > 1);
            for group in &section.groups {
                self.groups += 1;
                self.races += group.races;
                self.unlike += usize::from(group.reasons.iter().any(|(_, alike)| *alike < group.races));
                self.cut += usize::from(group.more > 0);
            }
        }
    }
}

/// A choice that leaves some races of a trace, or none.
fn some_choice(r: &mut Random, naive: &Naive) -> Choice {
    let row = if naive.rows.is_empty() { Row::default() } else { r.pick(&naive.rows) };
    let some = |r: &mut Random, value: u32, other: u32| r.once_in(2).then(|| if r.once_in(8) { other } else { value });
    let (file, process) = (some(r, row.file, 63), some(r, row.process, PROCESSES - 1));
    let limit = if r.once_in(2) { None } else { Some(r.pick(&[0, 1, 2, 5, u32::MAX as usize])) };
    Choice { file, process, limit }
}

#[test]
fn random_traces_have_the_races_of_the_definitions() {
    let mut seen = Seen::default();
    for seed in 0..500 {
        let r = &mut Random::new(seed);
        let (rows, _) = some_rows_within(r, 200);
        let naive = Naive::of(&rows);
        for choice in [Choice::default(), some_choice(r, &naive)] {
            let csv = told_of(&rows, &[choice.args(), vec!["--csv".to_string()]].concat());
            assert_eq!((out(&csv), status(&csv)), (naive.csv(&Model::ALL, &choice), naive.any(&Model::ALL)), "seed {seed}, {choice:?}");
            let words = told_of(&rows, &choice.args());
            assert_eq!((err(&words), status(&words)), (String::new(), status(&csv)), "seed {seed}, {choice:?}");
            compare_words(&naive, &choice, &out(&words));
            seen.add(&told(&out(&words)).1);
        }
    }
    let enough = seen.races > 5_000 && seen.groups > 1_000 && seen.together > 200 && seen.unlike > 100 && seen.cut > 50;
    assert!(enough, "{seen:?}");
}

#[test]
fn one_model_has_its_own_races() {
    for seed in 1_000..1_100 {
        let (rows, _) = some_rows_within(&mut Random::new(seed), 60);
        let naive = Naive::of(&rows);
        for model in Model::ALL {
            let args = |more: &[&str]| [&["--model", model.name()], more].concat().iter().map(|s| s.to_string()).collect::<Vec<String>>();
            let o = told_of(&rows, &args(&["--csv"]));
            assert_eq!((out(&o), status(&o)), (naive.csv(&[model], &Choice::default()), naive.any(&[model])), "seed {seed}");
            let counts = format!("\nRaces:\n  {:8} {}\n", model.name(), naive.counts(model, &Choice::default()));
            let o = told_of(&rows, &args(&[]));
            assert!(out(&o).contains(&counts), "seed {seed}: {counts} in {}", out(&o));
            assert_eq!(status(&o), naive.any(&[model]), "seed {seed}");
        }
    }
}

/// `check` says of each first race how many there are, and names `races` where there are more.
#[test]
fn check_says_how_many_races_there_are() {
    let mut seen = [0; 3];
    for seed in 2_000..2_300 {
        let (rows, _) = some_rows_within(&mut Random::new(seed), 60);
        let naive = Naive::of(&rows);
        let text = out(&run(&["check", "-", "--header", "no"], &writing::text(0, &rows)));
        for model in Model::ALL {
            let words = match naive.under(model) {
                [] => "free".to_string(),
                [(x, y)] => format!("race, row {x} and row {y} (the only race)"),
                [(x, y), rest @ ..] => format!("race, row {x} and row {y} (the first of {} races)", rest.len() + 1),
            };
            assert!(text.contains(&format!("\n  {:8} {words}\n", model.name())), "{words} in {text}");
        }
        let most = naive.races.iter().map(Vec::len).max().unwrap_or(0).min(2);
        let more = text.ends_with("\n\n'kiqsaryn races' shows every race. After a repair, check again.\n");
        let only = text.ends_with("\n\nThere is no other race under a model asked for. After a repair, check again.\n");
        assert_eq!((only, more), (most == 1, most == 2), "{text}");
        seen[most] += 1;
    }
    assert!(seen.iter().all(|n| *n > 20), "{seen:?}");
}

/// Under commit the race is in file 1, under session and mpiio it is in file 2: as many races, and not the same.
#[test]
fn models_with_as_many_other_races_are_told_apart() {
    let text = "0,write,1,0,10,\r\n0,close,1,,,\r\n0,write,2,0,10,\r\n0,commit,2,,,\r\n0,send,,,,7\r\n1,recv,,,,7\r\n1,wait,,,,7\r\n\
                1,open,1,,,\r\n1,read,1,5,10,\r\n1,open,2,,,\r\n1,read,2,5,10,\r\n";
    let o = run(&["races", "-", "--header", "no", "--csv"], text.as_bytes());
    assert_eq!(out(&o), "model,earlier,later\r\ncommit,1,9\r\nsession,3,11\r\nmpiio,3,11\r\n");
    let o = run(&["races", "-", "--header", "no"], text.as_bytes());
    let sections: Vec<String> = told(&out(&o)).1.iter().map(|s| format!("{}: {:?}", s.models.join(", "), s.groups[0].key)).collect();
    assert_eq!(sections, ["commit: (1, 0, 1)", "session, mpiio: (2, 0, 1)"], "{}", out(&o));
}

// ---- Joins

/// For each joined row its number and its own name: "7 (row 3 of b.csv)".
fn row_names(taken: &[Taken]) -> Vec<String> {
    let mut own = [0; 2];
    let name = |(k, t): (usize, &Taken)| {
        let at = t.file as usize - 1;
        own[at] += 1;
        format!("{} (row {} of {})", k + 1, own[at], ["a.csv", "b.csv"][at])
    };
    taken.iter().enumerate().map(name).collect()
}

/// Takes the own names off the rows of a group's lines, and fails where one is wrong.
fn without_own_names(sections: &mut [Section], names: &[String]) {
    for line in sections.iter_mut().flat_map(|s| &mut s.groups).flat_map(|g| &mut g.lines) {
        for at in [0, 3] {
            let alone = line[at].split(' ').next().expect("a number").to_string();
            assert_eq!(line[at], names[number(&alone) - 1], "{line:?}");
            line[at] = alone;
        }
    }
}

#[test]
fn random_joins_have_the_races_of_the_definitions() {
    let pair = Pair::new("races", b"", b"");
    let (mut accepted, mut refused, mut racing) = (0, 0, 0);
    for seed in 0..250 {
        let r = &mut Random::new(seed);
        let (files, _) = some_files(r, 40);
        let texts = [writing::text(1, &files[0]), writing::text(0, &files[1])];
        pair.put(&texts[0], &texts[1]);
        let s = JoinSettings { headers: [1, 0], model: 0, row_limit: ROWS, process_limit: PROCESSES };
        let lengths = [6 * ROWS as usize, PROCESSES as usize * ROWS as usize, 3 * ROWS as usize];
        let csv = pair.run("races", "yes,no", &["--csv"]);
        let taken = match taken([&texts[0], &texts[1]], s, lengths) {
            Ok(taken) => taken,
            Err((number, place, file)) => {
                assert_eq!((out(&csv), status(&csv)), (format!("refused,{number},{place},{file}\r\n"), 2), "seed {seed}");
                assert_eq!(out(&pair.run("races", "yes,no", &[])), out(&pair.run("check", "yes,no", &[])), "seed {seed}");
                refused += 1;
                continue;
            }
        };
        let naive = Naive::of(&rows_of(&taken));
        let all = Choice::default();
        assert_eq!((out(&csv), status(&csv)), (naive.csv(&Model::ALL, &all), naive.any(&Model::ALL)), "seed {seed}");
        let (counts, mut sections) = told(&out(&pair.run("races", "yes,no", &[])));
        without_own_names(&mut sections, &row_names(&taken));
        assert_eq!(counts, Model::ALL.map(|m| format!("{:8} {}", m.name(), naive.counts(m, &all))), "seed {seed}");
        assert_eq!(sections, naive.sections(&all), "seed {seed}");
        accepted += 1;
        racing += naive.any(&Model::ALL);
    }
    assert!(accepted > 100 && refused > 30 && racing > 50, "{accepted}, {refused}, {racing}");
}

// ---- Traces with very many races

/// So many rows of which each races with each other of another process: writes of one byte.
fn all_racing(rows: u32, processes: u32) -> Vec<Row> {
    (0..rows).map(|k| Row { process: k % processes, kind: kiqsaryn::WRITE, file: 5, offset: 7, length: 1, message: 0 }).collect()
}

#[test]
fn many_races_are_counted_and_cut() {
    let rows = all_racing(600, 3);
    let naive = Naive::of(&rows);
    assert_eq!(naive.races.each_ref().map(Vec::len), [120_000; 4]);
    let o = told_of(&rows, &["--csv".to_string()]);
    assert_eq!(status(&o), 1);
    assert!(out(&o) == naive.csv(&Model::ALL, &Choice::default()), "the lines of 480,000 races");
    let o = told_of(&rows, &[]);
    let (counts, sections) = told(&out(&o));
    assert_eq!(counts, Model::ALL.map(|m| format!("{:8} 120000 races, in 3 groups; shown: the first 1000", m.name())));
    assert_eq!(sections.len(), 1, "all models together");
    assert_eq!(sections[0].groups.iter().map(|g| g.races).sum::<usize>(), 120_000);
    assert_eq!(sections[0].groups.iter().map(|g| g.lines.len()).sum::<usize>(), 1_000);
    let ending = "\n\nNot every race is shown: --limit 120000 shows all, and --csv has no limit of\nits own.\n";
    assert!(out(&o).ends_with(ending), "{}", &out(&o)[out(&o).len() - 200..]);
    let o = told_of(&rows, &["--limit".to_string(), "120000".to_string(), "--model".to_string(), "posix".to_string()]);
    assert_eq!(out(&o).lines().filter(|l| l.ends_with("7 (1 byte)")).count(), 120_000);
    assert!(!out(&o).contains("Not every race"));
}

/// The largest trace, with more than 8 million races, goes through in memory for its list.
#[test]
fn the_most_races_need_no_gigabyte() {
    let f = Folder::new("most-races");
    f.put("most.csv", &String::from_utf8(writing::text(0, &all_racing(4_096, PROCESSES))).expect("text"), 0o644);
    let races = 4_096 * 4_095 / 2 - (0..PROCESSES as usize).map(|p| (4_096 - p).div_ceil(48)).map(|n| n * (n - 1) / 2).sum::<usize>();
    let o = f.sh("ulimit -v 400000; { kiqsaryn races most.csv --header no --model posix --csv; echo $? >&2; } | wc -l");
    assert_eq!((out(&o).trim(), err(&o).as_str()), ((races + 1).to_string().as_str(), "1\n"));
}

// ---- Traces without races, and no traces

#[test]
fn a_trace_without_rows_is_free() {
    for (input, free) in [(&b""[..], "free (the trace has no row: nothing was judged)"), (b"0,commit,1,,,\r\n", "free")] {
        let free = format!("Races:\n{}", Model::ALL.map(|m| format!("  {:8} {free}\n", m.name())).concat());
        let o = run(&["races", "-", "--header", "no", "--file", "1", "--limit", "0"], input);
        let rows = input.len().min(1);
        let head = format!("Trace: standard input ({rows} row{})\nChosen: the races of file 1\n\n", ["s", ""][rows]);
        assert_eq!((out(&o), err(&o), status(&o)), (head + &free, String::new(), 0));
        let o = run(&["races", "-", "--header", "no", "--csv"], input);
        assert_eq!((out(&o).as_str(), status(&o)), ("model,earlier,later\r\n", 0));
    }
}

/// A choice that leaves nothing leaves the counts and the exit status.
#[test]
fn a_choice_never_makes_a_trace_free() {
    for choice in
        [&["--file", "9"][..], &["--process", "47"], &["--file", "2", "--process", "0"], &["--limit", "0"], &["--limit", "0", "--csv"]]
    {
        let o = run(&[&["races", "many_races.csv", "--header", "yes"], choice].concat(), b"");
        assert_eq!((status(&o), err(&o)), (1, String::new()), "{choice:?}");
        let (text, csv) = (out(&o), choice.contains(&"--csv"));
        assert_eq!(csv, text == "model,earlier,later\r\n", "{choice:?}: {text}");
        assert_eq!(text.matches("  6 races, in 3 groups; ").count(), if csv { 0 } else { 3 }, "{choice:?}: {text}");
        assert!(!text.contains("free"), "{choice:?}: {text}");
    }
}

#[test]
fn refused_traces_have_no_races() {
    for (header, input, line) in [
        ("yes", &b"0,write,1,0,10,\r\n"[..], "refused,5,0\r\n"),
        ("no", b"0,write,1,0,10,\r\n1,wriet,1,0,10,\r\n", "refused,8,2\r\n"),
        ("no", b"0,write,1,0,10,\r\n48,write,1,0,10,\r\n", "refused,10,2\r\n"),
        ("no", b"0,write,1,0,10,\r\n1,write,1,0,10,\r\n1,barrier,,,,1\r\n", "refused,22,3\r\n"),
    ] {
        for choice in [&[][..], &["--file", "1", "--limit", "1"]] {
            let csv = run(&[&["races", "-", "--header", header, "--csv"], choice].concat(), input);
            assert_eq!((out(&csv).as_str(), err(&csv), status(&csv)), (line, String::new(), 2));
            let words = run(&[&["races", "-", "--header", header], choice].concat(), input);
            let checked = run(&["check", "-", "--header", header], input);
            assert_eq!((out(&words), status(&words)), (out(&checked), 2), "{line}");
        }
    }
    let o = run(&["races", "-", "--header", "no", "--processes", "1", "--csv"], b"0,write,1,0,1,\r\n1,write,1,0,1,\r\n");
    assert_eq!((out(&o).as_str(), status(&o)), ("refused,10,2\r\n", 2));
}

// ---- The command line

#[test]
fn wrong_options_are_told() {
    let range = |name: &str, to: u32, value: &str| format!("{name} is a number from 0 to {to}, not {value:?}");
    let cases: Vec<(&[&str], String)> = vec![
        (&["--file", "64"], range("--file", 63, "64")),
        (&["--file", "-1"], range("--file", 63, "-1")),
        (&["--file", ""], range("--file", 63, "")),
        (&["--process", "48"], range("--process", 47, "48")),
        (&["--process=x"], range("--process", 47, "x")),
        (&["--limit", "4294967296"], range("--limit", u32::MAX, "4294967296")),
        (&["--limit", "+1"], range("--limit", u32::MAX, "+1")),
        (&["--limit", "all"], range("--limit", u32::MAX, "all")),
        (&["--limit"], "--limit has no value".to_string()),
        (&["--limit", "1", "--limit", "2"], "--limit is given twice".to_string()),
        (&["--process", "1", "--process", "1"], "--process is given twice".to_string()),
        (&["--csv=yes"], "--csv takes no value".to_string()),
        (&["--model", "nfs"], "--model is all, posix, commit, session or mpiio, not \"nfs\"".to_string()),
        (&["--processes", "49"], "--processes is a number from 1 to 48, not \"49\"".to_string()),
        (&["-o", "x.csv"], "races has no option \"-o\"".to_string()),
        (&["--group", "file"], "races has no option \"--group\"".to_string()),
    ];
    for (options, words) in cases {
        let o = run(&[&["races", "many_races.csv", "--header", "yes"], options].concat(), b"");
        let want = format!("kiqsaryn: {words}\nkiqsaryn races --help shows the options.\n");
        assert_eq!((out(&o), err(&o), status(&o)), (String::new(), want, 3), "{options:?}");
    }
    for command in ["check", "replay", "diagram", "write"] {
        let o = run(&[command, "many_races.csv", "--header", "yes", "--limit", "1"], b"");
        assert_eq!(status(&o), 3, "{command}");
        assert!(err(&o).starts_with(&format!("kiqsaryn: {command} has no option \"--limit\"\n")), "{}", err(&o));
    }
}

#[test]
fn the_largest_numbers_are_taken() {
    let o = run(&["races", "many_races.csv", "--header", "yes", "--limit", "4294967295", "--file", "63", "--process", "47", "--csv"], b"");
    assert_eq!((out(&o).as_str(), status(&o)), ("model,earlier,later\r\n", 1));
    let args = ["races", "many_races.csv", "--header", "yes", "--model"];
    let all = run(&[&args[..], &["all"]].concat(), b"");
    assert_eq!(out(&all), out(&run(&args[..4], b"")));
}

// ---- Output that cannot be written

/// More lines than a pipe or a block holds: the failure comes in their middle.
#[test]
fn a_reader_that_stops_early_is_told_nothing() {
    let f = Folder::new("races-head");
    f.put("many.csv", &String::from_utf8(writing::text(0, &all_racing(600, 3))).expect("text"), 0o644);
    for options in ["--csv", "--limit 100000"] {
        let o = f.sh(&format!("{{ kiqsaryn races many.csv --header no {options}; echo $? >&2; }} | head -c 1"));
        assert_eq!(err(&o), "3\n", "{options}");
        let line = format!("kiqsaryn races many.csv --header no {options} > /dev/full");
        failed(&f.sh(&line), &line, "cannot write to standard output: No space left on device");
    }
    let line = "trap '' XFSZ; ulimit -f 100; exec kiqsaryn races many.csv --header no --csv > part.csv";
    failed(&f.sh(line), line, "cannot write to standard output: File too large");
    assert!(f.read("part.csv").starts_with(b"model,earlier,later\r\nposix,1,2\r\nposix,1,3\r\n"));
}
