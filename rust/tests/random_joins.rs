//! Random pairs of files through the library and through the naive version: the answer and the three lent slices of the join, and each file
//! by itself. Then pairs of short files, of which every allowed merging is free exactly where the join is.
//!
//! By hand, more of them: `KIQSARYN_JOINS=1000000 KIQSARYN_SEED=7 cargo test --offline --test random_joins -- --nocapture`. A pair's own seed is the
//! seed plus its number, so `KIQSARYN_JOINS=1` with the seed that a failure prints repeats that pair alone.

#[allow(dead_code)]
mod naive;

use kiqsaryn::{join, read_file, Checked, JoinSettings, Joined, Model, Refusal, Row, BARRIER, SEND, WAIT};
use naive::barriers::{self, Wrong, WRONGS};
use naive::joining::{self, lacks_send, mergings, rows_of, turn, Lent, Taken, Turn};
use naive::order::{first_race, Order};
use naive::pairs::{some_files, Files};
use naive::random::{setting, Random};
use naive::reading::{faults, Entry, Fault, FAULTS};
use naive::rows::numbers;
use naive::texts::{damage_bytes, damage_records, header, record, text, Record};
use naive::PROCESSES;

const JOINS: u64 = 40_000;
const MERGED: u64 = 4_000;
const SEED: u64 = 20_250_501;

// ---- One pair

struct Case {
    seed: u64,
    texts: [Vec<u8>; 2],
    s: JoinSettings,
    lent: Lent,
}

impl Case {
    fn texts(&self) -> [&[u8]; 2] {
        [&self.texts[0], &self.texts[1]]
    }

    fn told(&self) -> String {
        format!(
            "pair of seed {}; repeat it with KIQSARYN_SEED={} KIQSARYN_JOINS=1\n{:?}, lent {:?}\nfirst \"{}\"\nsecond \"{}\"",
            self.seed,
            self.seed,
            self.s,
            self.lent.lengths(),
            self.texts[0].escape_ascii(),
            self.texts[1].escape_ascii()
        )
    }
}

/// Slices as settings ask for, at times longer, with anything in them.
fn some_slices(r: &mut Random, s: JoinSettings) -> Lent {
    let (row_limit, process_limit) = (s.row_limit.min(4097) as usize, s.process_limit.min(PROCESSES + 1) as usize);
    let mut more = || r.pick(&[0, 0, 1, 7]);
    let lengths = [6 * row_limit + more(), row_limit * process_limit + more(), 3 * row_limit + more()];
    Lent {
        rows: (0..lengths[0]).map(|_| r.bits() as u32).collect(),
        counts: (0..lengths[1]).map(|_| r.bits() as u16).collect(),
        parts: (0..lengths[2]).map(|_| r.bits()).collect(),
    }
}

/// A setting that does not suit the files, or a wild one.
fn damage_settings(r: &mut Random, s: &mut JoinSettings) {
    match r.below(6) {
        0 => s.headers[r.place(2)] = r.pick(&[0, 1, 2, u32::MAX]),
        1 => s.model = r.pick(&[0, 3, 4, u32::MAX]),
        2 => s.row_limit = r.pick(&[0, 1, 4096, 4097, u32::MAX]),
        3 => s.process_limit = r.pick(&[0, 1, PROCESSES, PROCESSES + 1, u32::MAX]),
        _ => s.row_limit = r.between(1, s.row_limit),
    }
    if r.once_in(20) {
        (s.headers[r.place(2)], s.model) = (r.below(3), r.below(5));
    }
}

fn shorten<T>(r: &mut Random, slice: &mut Vec<T>) {
    let len = slice.len().saturating_sub(1 + r.place(3));
    slice.truncate(len);
}

/// The text of a file with its header where the word is 1, now and then damaged.
fn file_text(r: &mut Random, rows: &[Row], header_word: u32, damage: bool) -> Vec<u8> {
    let mut records: Vec<Record> = rows.iter().map(|row| record(*row)).collect();
    if header_word == 1 {
        records.insert(0, header());
    }
    let of_records = r.once_in(2);
    if damage && of_records && !records.is_empty() {
        damage_records(r, &mut records);
    }
    let mut text = text(r, &records);
    if damage && !of_records {
        damage_bytes(r, &mut text);
    }
    text
}

/// Two files, sound or damaged, with settings and slices that suit them, or not.
fn case(r: &mut Random, seed: u64) -> Case {
    let (files, process_limit) = some_files(r, usize::MAX);
    let headers = [r.below(2), r.below(2)];
    let damage = r.below(100);
    let damaged = if damage < 20 { r.pick(&[0, 1, 1, 2]) } else { 3 };
    let texts = [0, 1].map(|k| file_text(r, &files[k], headers[k], damaged == k || damaged == 2));
    let n = (files[0].len() + files[1].len()) as u32;
    let row_limit = match r.below(8) {
        0 => r.between(1, n.max(1)),
        1..=4 => n,
        _ => n + r.below(6),
    };
    let mut s = JoinSettings { headers, model: r.below(4), row_limit: row_limit.clamp(1, 4096), process_limit };
    if (20..35).contains(&damage) {
        damage_settings(r, &mut s);
    }
    let mut lent = some_slices(r, s);
    match damage {
        35 => shorten(r, &mut lent.rows),
        36 => shorten(r, &mut lent.counts),
        37 => shorten(r, &mut lent.parts),
        _ => {}
    }
    Case { seed, texts, s, lent }
}

// ---- Comparing

/// How often each answer came.
#[derive(Default, Debug)]
struct Seen {
    /// By number and file.
    refused: [[u64; 3]; 23],
    /// Files by themselves, by number.
    file_refused: [u64; 12],
    file_read: u64,
    /// Joins refused with 12 or 21 for one fault alone.
    faults: [u64; FAULTS],
    /// Joins refused with 22 for one thing alone.
    wrongs: [u64; WRONGS],
    /// Joins refused with 20: the first file waits and the second is at its end, the other way round, both wait.
    stuck: [u64; 3],
    /// Joins refused with 20 in which all rows that wait lack their sends, some are held at barriers, and all are.
    held: [u64; 3],
    free: [u64; 4],
    races: [u64; 4],
    /// Accepted joins in which the first file waits for the second, and those with a message from the one to the other.
    waited: u64,
    across: u64,
    empty: u64,
    /// Accepted joins with barriers, and those in which the first file has rows held back there alone.
    barriers: u64,
    held_back: u64,
}

/// The entries of both files, which are accepted by themselves.
fn entries(case: &Case) -> [Vec<Entry>; 2] {
    [0, 1].map(|k| {
        let (text, header) = (&case.texts[k], case.s.headers[k]);
        joining::read_file(text, header, case.s.row_limit, case.s.process_limit, usize::MAX).expect("a file that is accepted")
    })
}

/// The first entries of a join, at most so many.
fn first_taken(files: &[Vec<Entry>; 2], most: usize) -> Vec<Taken> {
    let mut taken = Vec::new();
    while taken.len() < most {
        match turn(files, &taken) {
            Turn::Take(next) => taken.push(next),
            _ => break,
        }
    }
    taken
}

fn count_refused(case: &Case, number: u32, place: u32, file: u32, seen: &mut Seen) {
    seen.refused[number as usize][file as usize] += 1;
    if number == 12 || number == 21 {
        let rows = rows_of(&first_taken(&entries(case), place as usize));
        let (row, before) = rows.split_last().expect("a row at the place");
        match faults(*row, before)[..] {
            [fault] => seen.faults[fault as usize] += 1,
            [] => panic!("no fault\n{}", case.told()),
            _ => {}
        }
    }
    if number == 20 {
        let files = entries(case);
        let taken = first_taken(&files, usize::MAX);
        let left = [1, 2].map(|file| taken.iter().filter(|t| t.file == file).count() < files[file as usize - 1].len());
        match left {
            [true, false] => seen.stuck[0] += 1,
            [false, true] => seen.stuck[1] += 1,
            [true, true] => seen.stuck[2] += 1,
            [false, false] => panic!("no row waits\n{}", case.told()),
        }
        let rows = rows_of(&taken);
        let at = |file: u32| taken.iter().filter(|t| t.file == file).count();
        let next: Vec<Row> = [1, 2].iter().filter_map(|file| files[*file as usize - 1].get(at(*file))).map(|e| e.row).collect();
        let held = next.iter().filter(|row| !lacks_send(**row, &rows)).count();
        seen.held[if held == next.len() { 2 } else { held }] += 1;
    }
    if number == 22 {
        let rows = rows_of(&first_taken(&entries(case), usize::MAX));
        match barriers::wrong(&rows).as_ref().map(|(_, wrong)| &wrong[..]) {
            Some([wrong]) => seen.wrongs[*wrong as usize] += 1,
            wrong => panic!("{wrong:?} is wrong\n{}", case.told()),
        }
    }
}

/// Whether the second file goes on before the first is at its end at a row of the first that lacks no send.
fn is_held_back(files: &[Vec<Entry>; 2], taken: &[Taken]) -> bool {
    let rows = rows_of(taken);
    let of_first = |k: usize| taken[..k].iter().filter(|t| t.file == 1).count();
    let ready = |k: usize| files[0].get(of_first(k)).is_some_and(|next| !lacks_send(next.row, &rows[..k]));
    (0..taken.len()).any(|k| taken[k].file == 2 && ready(k))
}

fn count_accepted(case: &Case, race: bool, seen: &mut Seen) {
    let taken = first_taken(&entries(case), usize::MAX);
    let in_order = taken.windows(2).all(|two| two[0].file <= two[1].file);
    let from_other = |t: &Taken| {
        let send = |s: &&Taken| s.entry.row.kind == SEND && s.entry.row.message == t.entry.row.message;
        t.entry.row.kind == WAIT && taken.iter().find(send).is_some_and(|s| s.file != t.file)
    };
    seen.waited += u64::from(!in_order);
    seen.across += u64::from(taken.iter().any(from_other));
    seen.empty += u64::from(taken.is_empty());
    seen.barriers += u64::from(taken.iter().any(|t| t.entry.row.kind == BARRIER));
    seen.held_back += u64::from(is_held_back(&entries(case), &taken));
    let count = if race { &mut seen.races } else { &mut seen.free };
    count[case.s.model as usize] += 1;
}

/// A file by itself: the answer, and the rows.
fn compare_file(case: &Case, k: usize, seen: &mut Seen) {
    let (text, header, s) = (&case.texts[k], case.s.headers[k], case.s);
    let mut rows = case.lent.rows.clone();
    let got = read_file(text, header, s.row_limit, s.process_limit, &mut rows);
    let told = || format!("file {} by itself\n{}", k + 1, case.told());
    match joining::read_file(text, header, s.row_limit, s.process_limit, rows.len()) {
        Ok(entries) => {
            assert_eq!(got, Checked::Accepted(entries.len() as u32), "{}", told());
            let mut want = numbers(&entries.iter().map(|e| e.row).collect::<Vec<Row>>());
            want.resize(rows.len(), 0);
            assert!(rows == want, "rows {rows:?}\n{}", told());
            seen.file_read += 1;
        }
        Err((number, place)) => {
            let refusal = Refusal::from_number(number).expect("a refusal");
            assert_eq!(got, Checked::Refused { refusal, place }, "{}", told());
            let kept = number <= 3 && rows == case.lent.rows;
            assert!(kept || (number > 3 && rows.iter().all(|x| *x == 0)), "rows {rows:?}\n{}", told());
            seen.file_refused[number as usize] += 1;
        }
    }
}

fn compare(case: &Case, seen: &mut Seen) {
    let [mut ours, mut naive] = [case.lent.clone(), case.lent.clone()];
    let want = joining::join(case.texts(), case.s, &mut naive);
    let got = join(&case.texts[0], &case.texts[1], case.s, &mut ours.rows, &mut ours.counts, &mut ours.parts);
    assert_eq!(got, want, "{}", case.told());
    assert!(ours.rows == naive.rows, "rows {:?}\n{}", ours.rows, case.told());
    assert!(ours.counts == naive.counts, "counts {:?}\n{}", ours.counts, case.told());
    assert!(ours.parts == naive.parts, "parts {:?}\n{}", ours.parts, case.told());
    match want {
        Joined::Refused { refusal, place, file } => count_refused(case, refusal.number(), place, file, seen),
        Joined::Free { .. } => count_accepted(case, false, seen),
        Joined::Race { .. } => count_accepted(case, true, seen),
    }
    compare_file(case, 0, seen);
    compare_file(case, 1, seen);
}

fn all_met(joins: u64, seen: &Seen) {
    let accepted = seen.free.iter().chain(&seen.races).sum::<u64>();
    assert!(accepted * 3 > joins, "a third is accepted: {seen:?}");
    assert!(seen.waited * 10 > joins && seen.across * 10 > joins, "many wait, and many have messages across: {seen:?}");
    assert!(seen.free.iter().chain(&seen.races).all(|n| n * 80 > joins), "many are free, and many race: {seen:?}");
    assert!(seen.empty * 4000 > joins, "some have no row: {seen:?}");
    assert!([1, 2, 3, 6, 12, 19, 20, 21, 22].iter().all(|k| seen.refused[*k][0] * 400 > joins), "every refusal of a join is met: {seen:?}");
    let of_files = (4..12).flat_map(|k| [seen.refused[k][1], seen.refused[k][2]]);
    assert!(of_files.into_iter().all(|n| n * 8000 > joins), "every refusal of either file is met: {seen:?}");
    assert!(seen.file_refused[1..].iter().all(|n| n * 1000 > joins) && seen.file_read > joins, "and of files by themselves: {seen:?}");
    let mut alone = seen.faults;
    let not_sent = std::mem::replace(&mut alone[Fault::NotSent as usize], joins);
    assert!(alone.iter().all(|n| n * 800 > joins), "every other fault is met alone: {seen:?}");
    assert!(not_sent == 0, "a wait whose message is not sent is not taken: {seen:?}");
    assert!(seen.stuck.iter().all(|n| n * 400 > joins), "either file waits, and both: {seen:?}");
    assert!(seen.held.iter().all(|n| n * 2000 > joins), "rows wait for messages, and at barriers: {seen:?}");
    let mut alone = seen.wrongs;
    let gone_on = std::mem::replace(&mut alone[Wrong::GoesOn as usize], joins);
    assert!(gone_on == 0 && alone.iter().all(|n| n * 1000 > joins), "no row goes on, and barriers are wrong in the other ways: {seen:?}");
    assert!(seen.barriers * 8 > joins && seen.held_back * 20 > joins, "many have barriers, and many hold rows back: {seen:?}");
}

#[test]
fn random_joins() {
    let (joins, seed) = (setting("KIQSARYN_JOINS", JOINS), setting("KIQSARYN_SEED", SEED));
    let mut seen = Seen::default();
    for number in 0..joins {
        let seed = seed.wrapping_add(number);
        let r = &mut Random::new(seed);
        compare(&case(r, seed), &mut seen);
    }
    println!("{joins} joins, seed {seed}: {seen:?}");
    if joins >= 20_000 {
        all_met(joins, &seen);
    }
}

// ---- Every allowed merging

/// Rows of pairs whose mergings are all tried: two files of five rows each have 252.
const SHORT: usize = 10;

/// How often mergings of each sort came.
#[derive(Default, Debug)]
struct Merged {
    accepted: u64,
    refused: u64,
    stuck: u64,
    /// Accepted pairs with barriers.
    barriers: u64,
    /// Pairs with more than one allowed merging, and all mergings tried.
    several: u64,
    tried: u64,
    /// By model.
    free: [u64; 4],
    races: [u64; 4],
}

/// Whether question 12, 21 or 22 refuses a trace.
fn is_faulty(rows: &[Row]) -> bool {
    (0..rows.len()).any(|k| !faults(rows[k], &rows[..k]).is_empty()) || barriers::wrong(rows).is_some()
}

/// The library's answers under each model, with room for so many rows, and the joined rows.
fn joined(texts: [&[u8]; 2], room: usize, process_limit: u32) -> ([Joined; 4], Vec<u32>) {
    let mut rows = vec![0; 6 * room];
    let answers = Model::ALL.map(|model| {
        let s = JoinSettings { headers: [0, 0], model: model.number(), row_limit: room as u32, process_limit };
        let (mut counts, mut parts) = (vec![0; room * process_limit as usize], vec![0; 3 * room]);
        join(texts[0], texts[1], s, &mut rows, &mut counts, &mut parts)
    });
    (answers, rows)
}

/// Fails unless the join is accepted exactly where some allowed merging passes the questions 12, 21 and 22, and is then one of these mergings, all of
/// which pass and have its verdict under every model.
fn compare_mergings(files: &Files, process_limit: u32, told: &str, merged: &mut Merged) {
    let texts = files.each_ref().map(|rows| text(&mut Random::new(0), &rows.iter().map(|row| record(*row)).collect::<Vec<Record>>()));
    let room = files.concat().len().max(1);
    let (answers, rows) = joined([&texts[0], &texts[1]], room, process_limit);
    let all = mergings(&[], &files[0], &files[1]);
    merged.tried += all.len() as u64;
    if let Joined::Refused { refusal, .. } = answers[0] {
        assert!(all.iter().all(|rows| is_faulty(rows)), "a merging is accepted, and the join is not: {answers:?}\n{told}");
        assert!(refusal != Refusal::Stuck || all.is_empty(), "the join is stuck, and a merging is not\n{told}");
        merged.stuck += u64::from(refusal == Refusal::Stuck);
        merged.refused += 1;
        return;
    }
    assert!(all.iter().any(|m| rows.starts_with(&numbers(m))), "the join is no allowed merging\n{told}");
    for m in &all {
        assert!(!is_faulty(m), "the join is accepted, and this merging is not: {m:?}\n{told}");
        let order = Order::of(m);
        for (model, answer) in Model::ALL.iter().zip(answers) {
            let free = first_race(m, &order, model.number()).is_none();
            let n = m.len() as u32;
            let same = match answer {
                Joined::Free { rows } => rows == n && free,
                Joined::Race { rows, .. } => rows == n && !free,
                Joined::Refused { .. } => false,
            };
            assert!(same, "{answer:?} under {}, and not of this merging: {m:?}\n{told}", model.name());
            let count = if free { &mut merged.free } else { &mut merged.races };
            count[model.number() as usize] += 1;
        }
    }
    merged.accepted += 1;
    merged.barriers += u64::from(files.concat().iter().any(|row| row.kind == BARRIER));
    merged.several += u64::from(all.len() > 1);
}

#[test]
fn every_allowed_merging_has_the_verdict_of_the_join() {
    let (pairs, seed) = (setting("KIQSARYN_MERGED", MERGED), setting("KIQSARYN_SEED", SEED));
    let mut merged = Merged::default();
    for number in 0..pairs {
        let seed = seed.wrapping_add(number);
        let r = &mut Random::new(seed);
        let (files, process_limit) = some_files(r, SHORT);
        let shared = files[0].iter().any(|a| files[1].iter().any(|b| a.process == b.process));
        if !shared {
            let told = format!("pair of seed {seed}; repeat it with KIQSARYN_SEED={seed} KIQSARYN_MERGED=1\n{files:?}");
            compare_mergings(&files, process_limit, &told, &mut merged);
        }
    }
    println!("{pairs} pairs, seed {seed}: {merged:?}");
    if pairs >= 2_000 {
        assert!(merged.accepted * 2 > pairs && merged.several * 4 > pairs, "many are accepted, with several mergings: {merged:?}");
        assert!(merged.barriers * 10 > pairs, "many have barriers: {merged:?}");
        assert!(merged.refused * 40 > pairs && merged.stuck * 80 > pairs, "some are refused, and some are stuck: {merged:?}");
        assert!(merged.free.iter().chain(&merged.races).all(|n| n * 40 > merged.tried), "many free, and many race: {merged:?}");
    }
}
