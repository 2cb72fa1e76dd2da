//! Random pairs of traces through the command `kiqsaryn`, next to the naive version: the verdicts and refusals, the joined trace that is written,
//! the rows that a refusal shows, and every row that is shown with its own trace and number. Besides those, what is said of two traces is what is
//! said of the joined one alone.

#[allow(dead_code)]
mod naive;
#[allow(dead_code)]
mod running;

use kiqsaryn::{JoinSettings, Model, Row, BARRIER, PROCESSES, ROWS, SEND};
use naive::barriers::{self, is_held, processes, Wrong};
use naive::joining::{lacks_send, read_file, rows_of, taken, turn, Taken, Turn};
use naive::order::{first_race, Order};
use naive::pairs::{some_files, Files};
use naive::random::Random;
use naive::reading::{faults, Entry};
use naive::texts::{damage_bytes, header, record, text, Record};
use naive::writing;
use running::pair::Pair;
use running::picture::{keeps_the_rules, well_formed};
use running::{err, out, status};

/// The lengths of slices for the most rows.
const LENGTHS: [usize; 3] = [6 * ROWS as usize, PROCESSES as usize * ROWS as usize, 3 * ROWS as usize];
/// The names of the two traces.
const NAMES: [&str; 2] = ["a.csv", "b.csv"];

/// A pair of traces without quotes, whose header words are these.
struct Case {
    texts: [Vec<u8>; 2],
    headers: [u32; 2],
}

impl Case {
    fn new(r: &mut Random, files: &Files) -> Case {
        let headers = [r.below(2), r.below(2)];
        Case { texts: [0, 1].map(|k| writing::text(headers[k], &files[k])), headers }
    }

    fn words(&self) -> String {
        self.headers.map(|h| ["no", "yes"][h as usize]).join(",")
    }

    fn taken(&self) -> Result<Vec<Taken>, (u32, u32, u32)> {
        let s = JoinSettings { headers: self.headers, model: 0, row_limit: ROWS, process_limit: PROCESSES };
        taken([&self.texts[0], &self.texts[1]], s, LENGTHS)
    }

    fn entries(&self) -> [Vec<Entry>; 2] {
        [0, 1].map(|k| read_file(&self.texts[k], self.headers[k], ROWS, PROCESSES, usize::MAX).expect("an accepted trace"))
    }

    /// A row's own name and its record: "row 3 of b.csv: 1,wait,,,,7".
    fn own(&self, t: &Taken, number: usize) -> String {
        let k = t.file as usize - 1;
        let record = &self.texts[k][t.entry.start..t.entry.end];
        format!("row {number} of {}: {}", NAMES[k], record.escape_ascii())
    }
}

/// For each joined row its file, 1 or 2, and its number there.
fn origins(taken: &[Taken]) -> Vec<(u32, usize)> {
    (0..taken.len()).map(|k| (taken[k].file, taken[..=k].iter().filter(|t| t.file == taken[k].file).count())).collect()
}

/// The lines of `check --csv`.
fn verdicts(rows: &[Row]) -> String {
    let order = Order::of(rows);
    let line = |model: Model| match first_race(rows, &order, model.number()) {
        None => format!("{},free,,\r\n", model.name()),
        Some((earlier, later)) => format!("{},race,{earlier},{later}\r\n", model.name()),
    };
    format!("model,verdict,earlier,later\r\n{}", Model::ALL.map(line).concat())
}

// ---- Rows with their own traces

/// The words of a text without the own names of rows, "(row 3 of b.csv)", and these names, each with the number of the row before it.
fn without_own_names(text: &str) -> (Vec<String>, Vec<(usize, u32, usize)>) {
    let words: Vec<&str> = text.split_whitespace().collect();
    let (mut kept, mut names): (Vec<String>, Vec<(usize, u32, usize)>) = (Vec::new(), Vec::new());
    let mut last_row = 0;
    let mut k = 0;
    while k < words.len() {
        let file = words.get(k + 3).and_then(|w| NAMES.iter().position(|name| w.starts_with(name)));
        if let (true, Some(file)) = (["row", "(row"].contains(&words[k]) && words.get(k + 2) == Some(&"of"), file) {
            names.push((last_row, file as u32 + 1, words[k + 1].parse().expect("a row's number")));
            let behind = words[k + 3][NAMES[file].len()..].trim_start_matches(')');
            kept.last_mut().expect("a word before").push_str(behind);
            k += 4;
            continue;
        }
        if ["row", "Row"].contains(&words[k]) {
            last_row = words[k + 1].trim_end_matches([',', '.', ':']).parse().unwrap_or(0);
        }
        kept.push(words[k].to_string());
        k += 1;
    }
    (kept, names)
}

/// Fails unless a text on two traces, from a word on, is that on the joined one besides own names, and these are right.
fn same_besides_own_names(two: &str, one: &str, from: &str, origins: &[(u32, usize)]) -> usize {
    let behind = |text: &str| text.find(from).map_or(String::new(), |at| text[at..].to_string());
    let (words, names) = without_own_names(&behind(two).replace("joined order alone", "recorded order alone"));
    let want: Vec<String> = behind(one).split_whitespace().map(str::to_string).collect();
    assert_eq!(words, want, "{two}\nand\n{one}");
    for (row, file, number) in &names {
        assert_eq!(origins.get(row - 1), Some(&(*file, *number)), "row {row} in\n{two}");
    }
    names.len()
}

/// An accepted pair through every command.
fn compare_accepted(pair: &Pair, case: &Case, taken: &[Taken]) -> usize {
    let (headers, rows, origins) = (case.words(), rows_of(taken), origins(taken));
    let o = pair.run("check", &headers, &["--csv"]);
    assert_eq!(out(&o), verdicts(&rows));
    let written = pair.run("join", &headers, &["-o", "-", "--out-header", "no"]);
    assert_eq!(written.stdout, writing::text(0, &rows), "the joined trace");
    assert_eq!(status(&written), status(&o));
    let mut names = 0;
    let file = rows.iter().rfind(|row| row.kind < SEND).map(|row| row.file.to_string());
    let replays = file.iter().flat_map(|file| ["commit", "session"].map(|model| vec!["replay", "--file", file, "--model", model]));
    for args in [vec!["check"]].into_iter().chain(replays) {
        let one = pair.feed(&[&args[..], &["-", "--header", "no"]].concat(), &written.stdout);
        let two = pair.run(args[0], &headers, &args[1..]);
        assert_eq!((status(&two), err(&two)), (status(&one), String::new()), "{args:?}");
        let from = if args[0] == "check" { "Verdicts:" } else { "\n\n" };
        names += same_besides_own_names(&out(&two), &out(&one), from, &origins);
    }
    keeps_the_rules(&out(&pair.run("diagram", &headers, &[])));
    let picture = out(&pair.run("diagram", &headers, &["--all"]));
    keeps_the_rules(&picture);
    assert_eq!(picture.matches("<g><title>row ").count(), rows.len());
    for (k, (file, number)) in (1..).zip(&origins) {
        let letter = ["A", "B"][*file as usize - 1];
        assert!(picture.contains(&format!(">{k} {letter}{number} ")), "row {k} in {picture}");
        assert!(picture.contains(&format!("<title>row {k} (row {number} of {}): ", NAMES[*file as usize - 1])), "row {k} in {picture}");
    }
    names
}

// ---- Refusals

/// The taken rows of a join, at most so many, and the entries that come next in each file.
fn follow(case: &Case, most: usize) -> (Vec<Taken>, [Option<Taken>; 2]) {
    let files = case.entries();
    let mut taken = Vec::new();
    while taken.len() < most {
        match turn(&files, &taken) {
            Turn::Take(next) => taken.push(next),
            _ => break,
        }
    }
    let next = [1, 2].map(|file| {
        let at = taken.iter().filter(|t| t.file == file).count();
        files[file as usize - 1].get(at).map(|entry| Taken { file, entry: *entry })
    });
    (taken, next)
}

/// How many barriers have rows, and not of every process.
fn unfinished(rows: &[Row]) -> usize {
    let mut numbers: Vec<u32> = rows.iter().filter(|r| r.kind == BARRIER).map(|r| r.message).collect();
    numbers.sort();
    numbers.dedup();
    let arrived = |number: u32, process: u32| rows.iter().any(|r| (r.kind, r.message, r.process) == (BARRIER, number, process));
    numbers.into_iter().filter(|number| processes(rows).into_iter().any(|p| !arrived(*number, p))).count()
}

/// A pair whose join is refused: the line of `--csv`, and the rows that are shown.
fn compare_refused(pair: &Pair, case: &Case, (number, place, file): (u32, u32, u32)) {
    let headers = case.words();
    let o = pair.run("check", &headers, &["--csv"]);
    assert_eq!((out(&o), status(&o)), (format!("refused,{number},{place},{file}\r\n"), 2));
    let told = out(&pair.run("join", &headers, &[]));
    match number {
        19 => {
            let [first, second] = case.entries();
            let process = first.iter().map(|a| a.row.process).filter(|p| second.iter().any(|b| b.row.process == *p)).min().expect("one");
            let shown = [&first, &second].into_iter().zip(1..).map(|(entries, file)| {
                let at = entries.iter().position(|e| e.row.process == process).expect("a row of the process");
                case.own(&Taken { file, entry: entries[at] }, at + 1)
            });
            let shown: Vec<String> = shown.collect();
            assert!(told.contains(&format!("  process {process}:{}{}\n", " ".repeat(4 - process.to_string().len()), shown[0])), "{told}");
            assert!(told.contains(&format!("\n               {}\n", shown[1])), "{told}");
        }
        20 => {
            let (taken, next) = follow(case, usize::MAX);
            for (k, label) in ["  first:       ", "  second:      "].into_iter().enumerate() {
                let at = taken.iter().filter(|t| t.file as usize == k + 1).count() + 1;
                let shown = next[k].map_or(format!("{} is at its end.", NAMES[k]), |t| case.own(&t, at));
                assert!(told.contains(&format!("{label}{shown}\n")), "{label}{shown} in\n{told}");
            }
            let (rows, all) = (rows_of(&taken), processes(&case.entries().concat().iter().map(|e| e.row).collect::<Vec<Row>>()));
            let count = |waits: &dyn Fn(Row) -> bool| next.iter().flatten().filter(|t| waits(t.entry.row)).count();
            assert_eq!(told.matches("  It waits for message ").count(), count(&|row| lacks_send(row, &rows)), "{told}");
            assert_eq!(told.matches(" stands at barrier ").count(), count(&|row| is_held(row, &rows, &all)), "{told}");
        }
        22 => {
            let (taken, _) = follow(case, usize::MAX);
            let shown = case.own(&taken[place as usize - 1], origins(&taken)[place as usize - 1].1);
            assert!(told.contains(&format!("  the record:  {shown}\n")), "{shown} in\n{told}");
            let (rows, count) = (rows_of(&taken), |part: &str| told.matches(part).count());
            match barriers::wrong(&rows) {
                Some((_, wrong)) if wrong == [Wrong::Repeats] => assert_eq!((count(" already: "), count("  note: ")), (1, 1), "{told}"),
                Some((_, wrong)) if wrong == [Wrong::Unfinished] => {
                    assert_eq!(count(" is unfinished at the "), unfinished(&rows), "{told}")
                }
                wrong => panic!("{wrong:?}"),
            }
        }
        _ => {
            let (taken, _) = follow(case, place as usize);
            let shown = case.own(&taken[place as usize - 1], origins(&taken)[place as usize - 1].1);
            assert!(told.contains(&format!("  the record:  {shown}\n")), "{shown} in\n{told}");
            let (last, before) = taken.split_last().expect("the refused row");
            let wrong = faults(last.entry.row, &rows_of(before)).len();
            assert_eq!(told.matches("  note:        ").count(), wrong, "what is wrong in\n{told}");
        }
    }
}

/// How often each answer came.
#[derive(Default, Debug)]
struct Seen {
    accepted: usize,
    names: usize,
    refused: [usize; 23],
}

#[test]
fn random_pairs_are_told_as_the_rules_say() {
    let pair = Pair::new("random", b"", b"");
    let mut seen = Seen::default();
    for seed in 0..400 {
        let r = &mut Random::new(seed);
        let (files, _) = some_files(r, 40);
        let case = Case::new(r, &files);
        pair.put(&case.texts[0], &case.texts[1]);
        match case.taken() {
            Ok(taken) => {
                seen.names += compare_accepted(&pair, &case, &taken);
                seen.accepted += 1;
            }
            Err(refused) => {
                compare_refused(&pair, &case, refused);
                seen.refused[refused.0 as usize] += 1;
            }
        }
    }
    assert!(seen.accepted > 200 && seen.names > 1_000, "{seen:?}");
    assert!([12, 19, 20, 21].iter().all(|k| seen.refused[*k] > 10) && seen.refused[22] > 3, "{seen:?}");
}

// ---- Any input

#[test]
fn no_two_inputs_make_it_crash() {
    let pair = Pair::new("crash", b"", b"");
    let mut seen = [0; 3];
    for seed in 0..1_200 {
        let r = &mut Random::new(seed + 1_000_000);
        let (files, process_limit) = some_files(r, 30);
        let texts = files.map(|rows| {
            let mut records: Vec<Record> = rows.iter().map(|row| record(*row)).collect();
            records.splice(..0, r.once_in(2).then(header));
            let mut text = text(r, &records);
            (0..r.pick(&[0, 0, 0, 0, 1, 2])).for_each(|_| damage_bytes(r, &mut text));
            text
        });
        pair.put(&texts[0], &texts[1]);
        let word = |text: &[u8]| if text.starts_with(b"process") || text.starts_with(b"\"process") { "yes" } else { "no" };
        let headers = format!("{},{}", word(&texts[0]), word(&texts[1]));
        let limit = if r.once_in(10) { r.between(1, 4) } else { process_limit }.to_string();
        let args: &[&str] = match r.below(5) {
            0 => &["join", "-o", "-"],
            1 => &["replay", "--model", "mpiio"],
            2 => &["diagram", "--model", "session"],
            3 => &["check", "--csv"],
            _ => &["join"],
        };
        let o = pair.run(args[0], &headers, &[&args[1..], &["--processes", &limit]].concat());
        let code = o.status.code().unwrap_or(-1);
        assert!((0..=2).contains(&code), "seed {seed}: {args:?}: {}", err(&o));
        assert!(!err(&o).contains("panicked") && !out(&o).contains("please report"), "seed {seed}: {args:?}");
        if args[0] == "diagram" && code == 0 {
            well_formed(&out(&o));
        }
        seen[code as usize] += 1;
    }
    assert!(seen.iter().all(|n| *n > 50), "{seen:?}");
}

/// Two full halves, of as many rows and processes as there can be, go through every command.
#[test]
fn a_full_join() {
    let (mut first, mut second) = (String::new(), String::new());
    for k in 0..819 {
        let (p, q) = (k % PROCESSES, (k + 1) % PROCESSES);
        let (from, to) = if p % 2 == 0 { (&mut first, &mut second) } else { (&mut second, &mut first) };
        *from += &format!("{p},write,1,{},90,\r\n{p},commit,1,,,\r\n{p},send,,,,{k}\r\n", p * 100);
        *to += &format!("{q},recv,,,,{k}\r\n{q},wait,,,,{k}\r\n");
    }
    first += "0,sync,1,,,\r\n";
    let pair = Pair::new("full", first.as_bytes(), second.as_bytes());
    for args in
        [&["join"][..], &["check", "--model", "commit"], &["replay", "--file", "1", "--model", "session"], &["diagram", "--rows", "1-200"]]
    {
        let o = pair.run(args[0], "no,no", &args[1..]);
        assert_eq!((status(&o), err(&o)), (0, String::new()), "{args:?}");
        assert!(out(&o).contains("4096 rows") || args[0] == "replay", "{args:?}");
    }
    let o = pair.run("join", "no,no", &["-o", "-"]);
    assert_eq!(out(&o).lines().count(), 4096);
}
