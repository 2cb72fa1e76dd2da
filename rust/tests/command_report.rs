//! The page of `kiqsaryn report`, as a user makes it: it is whole, and says what `check`, `races` and `replay` say.

#![allow(dead_code)]

mod naive;
mod running;
#[path = "../src/bin/kiqsaryn/sha256.rs"]
mod sha256;

use naive::random::Random;
use naive::rows::some_rows_within;
use naive::writing;
use running::folder::{failed, Folder};
use running::page::{well_kept, Element};
use running::pair::Pair;
use running::{err, example_traces, examples, feed, out, prints, run, status, EXE};
use std::collections::BTreeSet;
use std::fs;
use std::path::PathBuf;
use std::process::{Command, Output};
use std::time::{Duration, Instant};

type Race = (u32, u32);

const MODELS: [&str; 4] = ["posix", "commit", "session", "mpiio"];
/// How many races and stale reads a page shows where no limit is said.
const LIMIT: usize = 200;
/// A page shows every piece of a read that has no more.
const PIECES: usize = 24;

// ---- SHA-256

#[test]
fn the_hash_is_that_of_the_standard() {
    let two_blocks = "abcdbcdecdefdefgefghfghighijhijkijkljklmklmnlmnomnopnopq";
    let million = "a".repeat(1_000_000);
    for (text, hash) in [
        ("", "e3b0c44298fc1c149afbf4c8996fb92427ae41e4649b934ca495991b7852b855"),
        ("abc", "ba7816bf8f01cfea414140de5dae2223b00361a396177a9cb410ff61f20015ad"),
        (two_blocks, "248d6a61d20638b8e5c026930c3e6039a33ce45964ff2167f6ecedd419db06c1"),
        (&million, "cdc76e5c9914fb9281a1c7e284d73e67f1809a48a497200e046d39ccc7112cd0"),
    ] {
        assert_eq!(sha256::digits(text.as_bytes()), hash, "{} bytes", text.len());
    }
}

/// What `sha256sum` says of files, where it is installed.
fn sha256sum(paths: &[PathBuf]) -> Option<Vec<String>> {
    let o = Command::new("sha256sum").args(paths).output().ok()?;
    assert!(o.status.success(), "{}", err(&o));
    Some(out(&o).lines().map(|line| line[..64].to_string()).collect())
}

#[test]
fn the_hash_is_that_of_sha256sum_for_every_length_of_a_few_blocks() {
    let folder = PathBuf::from(env!("CARGO_TARGET_TMPDIR")).join("hashes");
    let _ = fs::remove_dir_all(&folder);
    fs::create_dir(&folder).expect("a folder");
    let r = &mut Random::new(1);
    let texts: Vec<Vec<u8>> = (0..300).map(|n| (0..n).map(|_| r.below(256) as u8).collect()).collect();
    let paths: Vec<PathBuf> = (0..texts.len()).map(|n| folder.join(n.to_string())).collect();
    texts.iter().zip(&paths).for_each(|(text, path)| fs::write(path, text).expect("a file"));
    match sha256sum(&paths) {
        None => println!("sha256sum is not installed"),
        Some(all) => texts.iter().zip(all).for_each(|(text, hash)| assert_eq!(sha256::digits(text), hash, "{} bytes", text.len())),
    }
    let _ = fs::remove_dir_all(&folder);
}

// ---- What the other commands say

/// How a trace, or two that are joined, are told to a command: the words behind its name, and standard input.
struct Told<'a> {
    words: Vec<&'a str>,
    input: &'a [u8],
    folder: PathBuf,
}

impl Told<'_> {
    fn run(&self, command: &str, more: &[&str]) -> Output {
        let args = [&[command][..], &self.words, more].concat();
        feed(Command::new(EXE).args(args).current_dir(&self.folder), self.input)
    }

    fn page(&self, more: &[&str]) -> Element {
        let o = self.run("report", more);
        assert_eq!(err(&o), "", "{:?}", self.words);
        assert!([0, 1].contains(&status(&o)));
        well_kept(&out(&o))
    }

    /// The races under a model.
    fn races(&self, model: &str, limit: usize) -> Vec<Race> {
        let limit = limit.to_string();
        let o = self.run("races", &["--csv", "--model", model, "--limit", &limit]);
        let number = |word: &str| word.parse().expect("a row number");
        let fields = |line: &str| line.split(',').map(str::to_string).collect::<Vec<String>>();
        out(&o).lines().skip(1).map(fields).map(|f| (number(&f[1]), number(&f[2]))).collect()
    }

    /// The lines of `check --csv`.
    fn verdicts(&self) -> Vec<Vec<String>> {
        let o = self.run("check", &["--csv"]);
        out(&o).lines().skip(1).map(|line| line.split(',').map(str::to_string).collect()).collect()
    }

    /// The stale reads under a model, each with its table as `replay --stale` shows it.
    fn stale(&self, model: &str) -> Vec<(u32, Vec<Vec<String>>)> {
        let o = self.run("replay", &["--model", model, "--stale"]);
        let mut reads: Vec<(u32, Vec<Vec<String>>)> = Vec::new();
        for line in out(&o).lines() {
            if let Some(rest) = line.strip_prefix("Row ") {
                let digits: String = rest.chars().take_while(char::is_ascii_digit).collect();
                reads.push((digits.parse().expect("a row number"), Vec::new()));
            } else if let (Some((_, lines)), true) = (reads.last_mut(), line.starts_with("  ") && !line.starts_with("  bytes")) {
                lines.push(line.split("  ").map(|cell| cell.trim().to_string()).filter(|cell| !cell.is_empty()).collect());
            }
        }
        reads
    }
}

// ---- What the page says

/// The heading of each part of a section behind which others stand, up to the next such heading.
fn parts<'a>(section: &'a Element, level: &str) -> Vec<(String, Vec<&'a Element>)> {
    let mut parts: Vec<(String, Vec<&Element>)> = Vec::new();
    for e in section.each() {
        match parts.last_mut() {
            _ if e.name == level => parts.push((e.words(), Vec::new())),
            Some((_, inside)) => inside.push(e),
            None => {}
        }
    }
    parts
}

/// The models of a heading.
fn models_of(heading: &str) -> Vec<String> {
    let (_, names) = heading.rsplit_once(" under ").unwrap_or_else(|| panic!("models in {heading}"));
    names.split(", ").map(str::to_string).collect()
}

/// The two row numbers in "row 2 and row 8"; behind each may stand which row of which trace it is.
fn pair_in(words: &str) -> Race {
    let number = |rest: &str| rest.chars().take_while(char::is_ascii_digit).collect::<String>().parse::<u32>().ok();
    let pair = words[4..].split_once(" and row ").and_then(|(first, second)| Some((number(first)?, number(second)?)));
    pair.unwrap_or_else(|| panic!("two rows in {words}"))
}

/// The race of a picture, of its first one where a race has several.
fn race_of(figure: &Element) -> Option<Race> {
    let parts: Vec<u32> =
        figure.value("id").strip_prefix("race-")?.split('-').map(|part| part.parse().ok()).collect::<Option<Vec<u32>>>()?;
    Some((parts[1], parts[2]))
}

/// In a group every race that is shown has its line and its picture, and under each model one reason: its own, or that of a race before it.
fn compare_group(group: &Element, models: &[String], shown: &mut Vec<Race>) {
    let pictures: Vec<Race> = group.all("figure").into_iter().filter_map(race_of).collect();
    let figures = group.all("figure");
    assert!(figures.iter().all(|figure| figure.all("svg").len() == 1), "a picture in each figure");
    let rows = group.lines();
    let lines: Vec<Race> = rows.iter().map(|line| pair_in(&format!("row {} and row {}", line[0], line[3]))).collect();
    assert_eq!(lines, pictures, "a picture for each line");
    let reasons = group.of_class("reason");
    let bodies: BTreeSet<String> = reasons.iter().map(|reason| reason.all("dl")[0].words()).collect();
    assert_eq!(bodies.len(), reasons.len(), "equal reasons stand once: {}", group.words());
    for model in models {
        let mut covered: Vec<Race> = Vec::new();
        for reason in reasons.iter().filter(|reason| models_of(&reason.all("h5")[0].words()).contains(model)) {
            covered.push(pair_in(&reason.all("h5")[0].words()));
            let also = reason.of_class("alike").first().map_or(String::new(), |p| p.words());
            let list = also.split_once("Also: ").map_or("", |(_, list)| list);
            covered.extend(list.split("; ").filter(|words| words.starts_with("row ")).map(pair_in));
        }
        covered.sort_by_key(|(earlier, later)| (*later, *earlier));
        assert_eq!(covered, lines, "under {model} each race has one reason: {}", group.words());
    }
    shown.extend(pictures);
}

/// The races of the page are those of `races --csv`, and its lines those of `races`.
fn compare_races(told: &Told, page: &Element, limit: usize) {
    let section = page.of_id("races");
    let parts: Vec<(String, Vec<&Element>)> = parts(section, "h3");
    for model in MODELS {
        let want = told.races(model, limit);
        let Some((heading, inside)) = parts.iter().find(|(heading, _)| models_of(heading).iter().any(|m| m == model)) else {
            assert!(want.is_empty(), "the races under {model} are there");
            continue;
        };
        let mut shown = Vec::new();
        for group in inside.iter().filter(|e| e.value("class") == "group") {
            compare_group(group, &models_of(heading), &mut shown);
        }
        shown.sort_by_key(|(earlier, later)| (*later, *earlier));
        assert_eq!(shown, want, "under {model}");
        let words = out(&told.run("races", &["--model", model, "--limit", &limit.to_string()]));
        let is_race = |line: &&str| line.starts_with("  ") && line[2..].starts_with(|c: char| c.is_ascii_digit());
        let cells = |line: &str| line.split("  ").map(|cell| cell.trim().to_string()).filter(|cell| !cell.is_empty()).collect();
        let told_lines: Vec<Vec<String>> = words.lines().filter(is_race).map(cells).collect();
        let groups = inside.iter().filter(|e| e.value("class") == "group");
        assert_eq!(groups.flat_map(|group| group.lines()).collect::<Vec<Vec<String>>>(), told_lines, "the lines under {model}");
    }
}

/// The verdicts and the counts of the page.
fn compare_verdicts(told: &Told, page: &Element) {
    let lines = page.of_id("verdicts").lines();
    let verdicts = told.verdicts();
    assert_eq!(lines.len(), verdicts.len());
    for (line, verdict) in lines.iter().zip(verdicts) {
        let races = told.races(&verdict[0], usize::MAX.min(u32::MAX as usize)).len();
        assert_eq!((&line[0], &line[1].split(' ').next().expect("a word").to_string()), (&verdict[0], &verdict[1]));
        assert_eq!(line[2], races.to_string());
        if verdict[1] == "race" {
            assert_eq!(pair_in(&line[3]), (verdict[2].parse().expect("a row"), verdict[3].parse().expect("a row")));
        }
    }
}

/// The stale reads of the page are those of `replay --stale`, piece by piece.
fn compare_stale(told: &Told, page: &Element) -> usize {
    let parts = parts(page.of_id("stale"), "h3");
    let mut seen = 0;
    for model in MODELS {
        let want = told.stale(model);
        let part = parts.iter().find(|(heading, _)| models_of(heading).iter().any(|m| m == model));
        let reads: Vec<&&Element> = part.iter().flat_map(|(_, inside)| inside).filter(|e| e.value("class") == "group").collect();
        assert_eq!(reads.len(), want.len().min(LIMIT), "stale reads under {model}");
        for (read, (row, pieces)) in reads.iter().zip(&want) {
            assert!(read.all("h4")[0].words().starts_with(&format!("Row {row}")), "{} and not row {row}", read.all("h4")[0].words());
            assert_eq!(read.all("svg").len(), 1);
            let stale = pieces.iter().filter(|piece| piece.last().is_some_and(|cell| cell == "STALE")).count();
            assert!(stale > 0);
            seen += 1;
            if pieces.len() > PIECES {
                continue;
            }
            let cells = |line: &Vec<String>| {
                let bytes = line[0].split(" (").next().expect("bytes").to_string();
                let stale = line[3].starts_with("STALE").then(|| "STALE".to_string());
                [bytes, line[1].clone(), line[2].clone()].into_iter().chain(stale).collect::<Vec<String>>()
            };
            assert_eq!(&read.lines().iter().map(cells).collect::<Vec<Vec<String>>>(), pieces, "row {row} under {model}");
            let texts: Vec<String> = read.all("text").into_iter().map(Element::words).collect();
            let count = |word: &str| texts.iter().filter(|text| *text == word).count();
            assert_eq!(count("STALE"), stale, "row {row} under {model}");
            for cell in pieces.iter().flat_map(|piece| &piece[..3]) {
                let short = cell.split(" (").next().unwrap_or("");
                assert!(count(short) > 0, "{cell} is drawn for row {row} under {model}");
            }
        }
    }
    seen
}

fn compare_all(told: &Told) -> usize {
    let page = told.page(&[]);
    compare_verdicts(told, &page);
    compare_races(told, &page, LIMIT);
    compare_stale(told, &page)
}

fn alone<'a>(header: &'a str, text: &'a [u8]) -> Told<'a> {
    Told { words: vec!["-", "--header", header], input: text, folder: examples() }
}

// ---- Tests

#[test]
fn the_pages_of_the_examples_say_what_the_commands_say() {
    for path in example_traces() {
        let text = fs::read(&path).expect("a trace");
        let name = path.file_name().and_then(|name| name.to_str()).expect("a name");
        if name.starts_with("refused") {
            continue;
        }
        let told = Told { words: vec![name, "--header", "yes"], input: b"", folder: examples() };
        compare_all(&told);
        let page = told.page(&[]);
        assert_eq!(page.of_class("hash")[0].words(), sha256::digits(&text));
        if let Some(sums) = sha256sum(&[path.clone()]) {
            assert_eq!(page.of_class("hash")[0].words(), sums[0]);
        }
        let words = page.of_id("read").words();
        for fact in [format!("{} bytes", text.len()), "yes (the first record is no row)".to_string(), format!("Trace: {name}")] {
            assert!(words.contains(&fact), "{fact} in {words}");
        }
        assert_eq!(status(&told.run("report", &[])), status(&told.run("check", &[])));
    }
}

#[test]
fn pages_of_random_traces_say_what_the_commands_say() {
    let mut stale = 0;
    for seed in 0..150 {
        let (rows, _) = some_rows_within(&mut Random::new(seed), 40);
        stale += compare_all(&alone("no", &writing::text(0, &rows)));
    }
    assert!(stale > 100, "{stale} stale reads");
}

#[test]
fn the_page_of_a_join_tells_of_both_traces() {
    let told = Told { words: vec!["left.csv", "right.csv", "--headers", "yes,no"], input: b"", folder: examples().join("join") };
    compare_all(&told);
    let page = told.page(&[]);
    let hashes: Vec<String> = page.of_class("hash").into_iter().map(Element::words).collect();
    let want = ["left.csv", "right.csv"].map(|name| sha256::digits(&fs::read(examples().join("join").join(name)).expect("a trace")));
    assert_eq!(hashes, want);
    let words = page.of_id("read").words();
    assert!(words.contains("Joined: 12 rows, 6 of left.csv and 6 of right.csv"), "{words}");
    assert!(page.of_id("stale").words().contains("This is the joined order alone."));
    assert!(page.of_id("legend").words().contains("kiqsaryn report left.csv right.csv --headers yes,no -o report.html"));
}

/// With `KIQSARYN_WRITE` set the page beside the example is written anew.
#[test]
fn the_page_beside_the_example_is_what_the_command_writes() {
    let o = run(&["report", "many_races.csv", "--header", "yes"], b"");
    let path = examples().join("many_races.report.html");
    if std::env::var_os("KIQSARYN_WRITE").is_some() {
        fs::write(&path, out(&o)).expect("the page is written");
    }
    let beside = fs::read_to_string(&path).expect("the page beside the example");
    prints(&o, &beside, 1, "the page");
    well_kept(&beside);
}

#[test]
fn the_summary_is_one_line() {
    let summary = |words: &[&str]| {
        let o = run(&[&["report"], words].concat(), b"");
        well_kept(&out(&o)).of_class("summary")[0].words()
    };
    assert_eq!(
        summary(&["commit_missing.csv", "--header", "yes"]),
        "4 models judged: free under posix; races under commit (1), session (1), mpiio (1)."
    );
    assert_eq!(summary(&["commit_missing.csv", "--header", "yes", "--model", "MPI-IO"]), "1 model judged: races under mpiio (1).");
    assert_eq!(summary(&["session_free.csv", "--header", "yes", "--model", "session"]), "1 model judged: free under session.");
}

#[test]
fn a_trace_of_no_row_is_not_judged() {
    let told = alone("no", b"");
    let page = told.page(&[]);
    assert_eq!(page.of_class("summary")[0].words(), "Nothing was judged: the trace has no row.");
    let lines = page.of_id("verdicts").lines();
    assert!(lines.iter().all(|line| line[1] == "free (the trace has no row: nothing was judged)"), "{lines:?}");
    assert!(page.all("figure").is_empty());
    assert_eq!(status(&told.run("report", &[])), 0);
}

#[test]
fn the_limit_leaves_races_and_stale_reads_out_and_says_so() {
    let told = Told { words: vec!["many_races.csv", "--header", "yes"], input: b"", folder: examples() };
    for limit in 0..7 {
        let page = told.page(&["--limit", &limit.to_string()]);
        compare_races(&told, &page, limit);
        compare_verdicts(&told, &page);
        let races = page.of_id("races").words();
        let hidden = 6_usize.saturating_sub(limit);
        let first = page.all("header")[0].words();
        assert_eq!(first.contains("every race with its reason and a picture"), hidden == 0, "limit {limit}: {first}");
        assert_eq!(first.contains(&format!("of the races under each model the first {limit}")), (1..6).contains(&limit), "{first}");
        let said = races.contains(&format!("{hidden} race{} under commit, session, mpiio", if hidden == 1 { "" } else { "s" }));
        assert_eq!(said, hidden > 0, "limit {limit}: {races}");
        let stale = page.of_id("stale").words();
        let hidden = 3_usize.saturating_sub(limit);
        let said = stale.contains(&format!("{hidden} stale read{} under session, mpiio", if hidden == 1 { "" } else { "s" }));
        assert_eq!(said, hidden > 0, "limit {limit}: {stale}");
    }
}

/// Names that would be markup or shell words are shown as they are, and the line that makes the page again makes it again.
#[test]
fn a_name_is_no_markup_and_the_page_can_be_made_again() {
    let names = ["<script>&\"'.csv", "прогон 1 – полка.csv", "-x.csv", "$(reboot).csv", "a b.csv", "--.csv", "架子.csv", "a;b&c.csv"];
    let folder = Folder::new("report-names");
    let text = fs::read_to_string(examples().join("many_races.csv")).expect("a trace");
    for name in names {
        folder.put(name, &text, 0o644);
        for more in [&[][..], &["--model", "commit", "--limit", "3"], &["--processes", "3"]] {
            let args = [&["report", "--header", "yes"], more, &["--", name]].concat();
            let o = feed(Command::new(EXE).args(args).current_dir(&folder.path), b"");
            let page = well_kept(&out(&o));
            if name.starts_with('-') {
                assert!(page.all("pre")[0].words().contains(&format!("./{name}")));
                continue;
            }
            assert_eq!(page.all("h1")[0].words(), format!("Storage races in {name}"), "{}", err(&o));
            let line = page.all("pre")[0].words();
            assert_eq!(status(&folder.sh(&line)), 1, "{line}");
            assert!(folder.read("report.html") == o.stdout, "{line}");
        }
    }
}

#[test]
fn names_of_joined_traces_are_no_markup() {
    let folder = Folder::new("report-joined-names");
    for (from, to) in [("left.csv", "<b>&\"l'.csv"), ("right.csv", "<i>ü&r.csv")] {
        folder.put(to, &fs::read_to_string(examples().join("join").join(from)).expect("a trace"), 0o644);
    }
    let args = ["report", "<b>&\"l'.csv", "<i>ü&r.csv", "--headers", "yes,no"];
    let o = feed(Command::new(EXE).args(args).current_dir(&folder.path), b"");
    let page = well_kept(&out(&o));
    assert_eq!(page.all("h1")[0].words(), "Storage races in <b>&\"l'.csv and <i>ü&r.csv");
    assert!(page.all("figcaption")[0].words().contains("Row 1 (row 1 of <b>&\"l'.csv)"), "{}", page.all("figcaption")[0].words());
    assert!(page.of_id("races").all("text").iter().any(|text| text.words().contains("<i>ü&r.csv")), "a picture names the trace");
    let line = page.all("pre")[0].words();
    assert_eq!(status(&folder.sh(&line)), 1, "{line}");
    assert!(folder.read("report.html") == o.stdout, "{line}");
}

/// A name with a control character or without UTF-8 is escaped, and is no reason to fail.
#[test]
fn a_name_of_any_bytes_is_shown() {
    let folder = Folder::new("report-bytes");
    for line in ["printf 'a\\001b\\377c\\n.csv'", "printf 'a\\342\\200\\256b.csv'"] {
        let o = folder.sh(&format!("f=$({line}; echo .csv); cp t.csv \"$f\" && kiqsaryn report \"$f\" --header yes"));
        assert_eq!((status(&o), err(&o)), (1, String::new()), "{line}");
        let title = well_kept(&out(&o)).all("h1")[0].words();
        assert!(title.chars().all(|c| (' '..='~').contains(&c)) && title.contains('\\'), "{title}");
    }
    // A name that is not shown as the file has it stands in no command.
    let long = format!("{}t.csv", "./".repeat(200));
    for (name, is_shown) in [("a\\b.csv", false), (long.as_str(), false), (&long[6..], true)] {
        let o = folder.sh(&format!("[ -e '{name}' ] || cp t.csv '{name}'; kiqsaryn report '{name}' --header yes"));
        let line = well_kept(&out(&o)).all("pre")[0].words();
        let want = if is_shown { name } else { "TRACE" };
        assert_eq!(line, format!("kiqsaryn report {want} --header yes -o report.html"));
    }
}

/// Names of files that are longer than a line can be broken wherever they stand in a table.
#[test]
fn long_names_of_joined_traces_are_broken() {
    let folder = Folder::new("report-long-names");
    let names = ["l", "r"].map(|letter| format!("{}.csv", letter.repeat(200)));
    for (name, from) in names.iter().zip(["left.csv", "right.csv"]) {
        folder.put(name, &fs::read_to_string(examples().join("join").join(from)).expect("a trace"), 0o644);
    }
    let args = ["report", &names[0], &names[1], "--headers", "yes,no"];
    let page = well_kept(&out(&feed(Command::new(EXE).args(args).current_dir(&folder.path), b"")));
    let has_name = |e: &&Element| names.iter().any(|name| e.words().contains(name));
    let cells: Vec<&Element> = ["verdicts", "races", "stale"].iter().flat_map(|id| page.of_id(id).all("td")).filter(has_name).collect();
    assert!(cells.len() > 8 && cells.iter().all(|cell| cell.of_class("name").len() == 1), "{} cells", cells.len());
}

/// A picture that leaves rows out counts those of the two processes alone, also where a barrier of a third one is left out.
#[test]
fn a_picture_counts_the_rows_that_it_leaves_out() {
    let mut text = "0,write,1,0,4,\r\n".to_string();
    (0..35).for_each(|m| text.push_str(&format!("0,send,,,,{m}\r\n1,recv,,,,{m}\r\n1,wait,,,,{m}\r\n")));
    (0..3).for_each(|p| text.push_str(&format!("{p},barrier,,,,1\r\n")));
    for (from, to, m) in [(0, 2, 100), (2, 1, 101)] {
        text.push_str(&format!("{from},send,,,,{m}\r\n{to},recv,,,,{m}\r\n{to},wait,,,,{m}\r\n"));
    }
    text.push_str("1,read,1,0,4,\r\n");
    let words = alone("no", text.as_bytes()).page(&["--model", "commit"]).of_id("races").words();
    assert!(words.contains("6 of 116 rows are drawn. Between, 108 rows of process 0 and process 1 are left out."), "{words}");
}

/// A picture of many lanes is not made so small that nobody can read it.
#[test]
fn a_picture_wider_than_the_page_keeps_its_size_on_a_screen() {
    let mut text = "0,write,1,0,4,\r\n".to_string();
    (0..12).for_each(|p| text.push_str(&format!("{p},send,,,,{p}\r\n{0},recv,,,,{p}\r\n{0},wait,,,,{p}\r\n", p + 1)));
    let wide = |text: &str, more: &[&str]| {
        let page = alone("no", text.as_bytes()).page(more);
        let pictures = page.of_id("races").all("svg").into_iter().map(|svg| svg.value("class").to_string());
        pictures.collect::<Vec<String>>()
    };
    assert_eq!(wide(&format!("{text}12,read,1,0,4,\r\n"), &["--model", "commit"]), ["kiqsaryn wide"]);
    assert_eq!(wide(&format!("{text}1,read,1,0,4,\r\n"), &["--model", "commit"]), ["kiqsaryn"]);
}

#[test]
fn a_refused_trace_has_no_page() {
    let folder = Folder::new("report-refused");
    folder.put("bad.csv", "0,rite,1,0,10,\r\n", 0o644);
    let o = folder.sh("kiqsaryn report bad.csv --header no -o page.html");
    assert_eq!((status(&o), out(&o)), (2, String::new()));
    assert!(err(&o).contains("Refused: number 8, at row 1."), "{}", err(&o));
    assert_eq!(folder.names(), ["bad.csv", "t.csv"]);
    let line = "kiqsaryn report t.csv --header yes -o t.csv";
    failed(&folder.sh(line), line, "-o names the trace itself; nothing is written");
}

/// Reads of the whole range next to single bytes, and of thousands of pieces.
#[test]
fn wide_reads_are_drawn_with_their_stale_bytes() {
    let mut text = "0,write,1,4294967294,1,\r\n0,write,1,7,1,\r\n1,read,1,0,4294967295,\r\n".to_string();
    let page = alone("no", text.as_bytes()).page(&["--model", "commit"]);
    let read = page.of_id("stale");
    assert!(read.words().contains("not to scale"), "{}", read.words());
    let width = |rect: &&Element| rect.value("width").parse::<u32>().expect("a width");
    assert!(read.all("rect").iter().map(width).all(|width| width > 30), "each part can be seen");
    for k in 0..2_000 {
        text.push_str(&format!("0,write,2,{},1,\r\n", 3 * k));
    }
    text.push_str("1,read,2,0,7000,\r\n");
    let told = alone("no", text.as_bytes());
    let page = told.page(&["--model", "commit", "--limit", "3"]);
    let words = page.of_id("stale").words();
    assert!(words.contains("2000 of 7000 bytes stale") && words.contains("pieces, not shown"), "{words}");
    assert!(page.of_id("stale").lines().len() < 100);
}

fn large_trace() -> String {
    let row = |k: u32| format!("{},{},1,{},100,\r\n", k % 48, if k % 3 == 0 { "read" } else { "write" }, k * 7 % 50);
    (0..4_096).map(row).collect()
}

/// Whatever the limit is, a page does not grow past what a browser opens.
#[test]
fn a_page_shows_no_more_than_ten_thousand_races() {
    let text: String = (0..160).map(|k| format!("{},write,1,0,1,\r\n", k % 40)).collect();
    let told = alone("no", text.as_bytes());
    let o = told.run("report", &["--model", "posix", "--limit", "4294967295"]);
    let figures = out(&o).matches("<figure ").count();
    let races = told.races("posix", u32::MAX as usize).len();
    assert!(races > 10_000 && figures == 10_000, "{figures} pictures of {races} races");
    assert!(out(&o).contains(&format!("{} races under posix are not shown here.", races - 10_000)));
}

/// A page of millions of races stays small, and is made within seconds.
#[test]
fn a_page_of_millions_of_races_is_small_and_soon_there() {
    let started = Instant::now();
    let o = run(&["report", "-", "--header", "no"], large_trace().as_bytes());
    let took = started.elapsed();
    assert_eq!((status(&o), err(&o)), (1, String::new()));
    assert!(o.stdout.len() < 8_000_000, "{} bytes", o.stdout.len());
    assert!(took < Duration::from_secs(60), "{took:?}");
    well_kept(&out(&o));
}

#[test]
fn pages_of_joins_say_what_the_commands_say() {
    let mut joined = 0;
    for seed in 0..40 {
        let (files, _) = naive::pairs::some_files(&mut Random::new(seed), 30);
        let [first, second] = files.each_ref().map(|rows| writing::text(0, rows));
        let pair = Pair::new(&format!("report-{seed}"), &first, &second);
        let told = Told { words: vec!["a.csv", "b.csv", "--headers", "no,no"], input: b"", folder: pair.path.clone() };
        if status(&told.run("check", &[])) < 2 {
            compare_all(&told);
            joined += 1;
        }
    }
    assert!(joined > 10, "{joined} joins");
}
