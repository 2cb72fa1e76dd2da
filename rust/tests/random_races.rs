//! Random traces and rows whose races are listed, by the library and by the naive rules: the answer, the rows, the counts and the whole list, of
//! every length. The same rows in other allowed orders have the same races. What is free under one model is free under those that ask for less.
//!
//! By hand, more of them: `KIQSARYN_RACES=1000000 KIQSARYN_SEED=7 cargo test --offline --test random_races -- --nocapture`. A trace's own seed is the
//! seed plus its number, so `KIQSARYN_RACES=1` with the seed that a failure prints repeats that trace alone.

#[allow(dead_code)]
mod naive;

use kiqsaryn::{list_len, list_races, races, verdict, Listed, Model, Refusal, Row, Settings, Verdict, CLOSE, COMMIT, PAIR};
use naive::order::{conflict, counts, Order};
use naive::races::{by_old_numbers, is_allowed, moved, pairs_of, rise, some_order, Pair};
use naive::random::{setting, Random};
use naive::reading;
use naive::rows::{damage_barrier, numbers, some_rows};
use naive::texts::{damage_bytes, damage_records, header, record, text, Record};
use naive::wild::{padded, refusal_of, wild_rows};
use naive::PROCESSES;

const RACES: u64 = 20_000;
const SEED: u64 = 20_250_808;

const POSIX: usize = 0;
const ON_COMMIT: usize = 1;
const SESSION: usize = 2;
const MPI_IO: usize = 3;

/// How often each thing came.
#[derive(Default, Debug)]
struct Seen {
    refused: [u64; 24],
    accepted: u64,
    /// Races listed under each model, and the most of one trace.
    pairs: [u64; 4],
    most: usize,
    lists: Lists,
    /// Traces whose rows were put in another order, and races that then have the other row first.
    reordered: u64,
    turned: [u64; 4],
    /// Traces with a conflict and no race, under each model.
    free: [u64; 4],
    renaming: Renaming,
    /// Wild rows that are refused, and those that are listed, with their races.
    wild: [u64; 2],
    wild_pairs: u64,
}

/// How often lists of each sort were lent: as long as all pairs need, a number short, shorter, a number longer, longer, and of no number, with races
/// and without.
#[derive(Default, Debug)]
struct Lists {
    exact: u64,
    short_by_one: u64,
    shorter: u64,
    odd: u64,
    longer: u64,
    none: u64,
    none_needed: u64,
}

/// Traces with a conflict that are free under session: those that are free under commit only once each close is named commit. And traces that are
/// free under commit then, and race under session.
#[derive(Default, Debug)]
struct Renaming {
    needed: u64,
    not_enough: u64,
}

fn refused(number: u32, place: u32) -> Listed {
    Listed::Refused { refusal: Refusal::from_number(number).expect("a refusal"), place }
}

// ---- Lists

/// A list with anything in it, about as long as these pairs need.
fn some_list(r: &mut Random, pairs: &[Pair], lists: &mut Lists) -> Vec<u32> {
    let need = PAIR * pairs.len();
    let len = match r.below(8) {
        0 | 1 => need,
        2 | 3 => need.saturating_sub(1),
        4 => need + 1,
        5 => need + 2 + r.place(20),
        6 => r.place(need + 1),
        _ => 0,
    };
    let sort = match len {
        0 if need == 0 => &mut lists.none_needed,
        0 => &mut lists.none,
        len if len == need => &mut lists.exact,
        len if len + 1 == need => &mut lists.short_by_one,
        len if len < need => &mut lists.shorter,
        len if len == need + 1 => &mut lists.odd,
        _ => &mut lists.longer,
    };
    *sort += 1;
    (0..len).map(|_| r.bits() as u32).collect()
}

/// What a listing of these pairs answers, and what it leaves of a list.
fn listing(pairs: &[Pair], list: &[u32]) -> (Listed, Vec<u32>) {
    let mut left = list.to_vec();
    (naive::races::list(pairs, &mut left).map_or_else(|number| refused(number, 0), Listed::Pairs), left)
}

/// The races of the first n rows under a model, by the library, in a list that is long enough for all there can be.
fn all_races(rows: &[Row], process_limit: u32, model: u32) -> Vec<Pair> {
    let (n, mut counts) = (rows.len() as u32, vec![7; rows.len() * process_limit as usize]);
    let mut list = vec![7; list_len(n)];
    match races(&numbers(rows), n, process_limit, model, &mut counts, &mut list) {
        Listed::Pairs(pairs) => pairs_of(&list[..PAIR * pairs as usize]),
        refused => panic!("{refused:?} of {rows:?}"),
    }
}

// ---- Texts

/// Slices for rows and counts as settings ask for, at times longer, with anything in them.
fn lent(r: &mut Random, s: Settings) -> (Vec<u32>, Vec<u16>) {
    let (row_limit, process_limit) = (s.row_limit.min(4097) as usize, s.process_limit.min(PROCESSES + 1) as usize);
    let more = r.pick(&[0, 0, 1, 7]);
    let rows = (0..6 * row_limit + more).map(|_| r.bits() as u32).collect();
    let counts = (0..row_limit * process_limit + more).map(|_| r.bits() as u16).collect();
    (rows, counts)
}

/// What the whole call has to answer, and to leave of the slices for rows and counts; with the races of a trace that is accepted.
struct Want {
    answer: Option<Listed>,
    rows: Vec<u32>,
    counts: Vec<u16>,
    pairs: Vec<Pair>,
}

impl Want {
    fn new(text: &[u8], s: Settings, rows: &[u32], lent_counts: &[u16]) -> Want {
        match reading::check(text, s, rows.len(), lent_counts.len()) {
            Err((number, place)) => {
                let (rows, counts) =
                    if number <= 3 { (rows.to_vec(), lent_counts.to_vec()) } else { (vec![0; rows.len()], vec![0; lent_counts.len()]) };
                Want { answer: Some(refused(number, place)), rows, counts, pairs: Vec::new() }
            }
            Ok(read) => {
                let order = Order::of(&read);
                Want {
                    answer: None,
                    rows: padded(numbers(&read), rows.len()),
                    counts: padded(counts(&read, &order, s.process_limit), lent_counts.len()),
                    pairs: naive::races::races(&read, &order, s.model),
                }
            }
        }
    }
}

/// Fails unless the whole call on a text answers and leaves what the naive version does.
fn compare_text(r: &mut Random, text: &[u8], s: Settings, told: &str, seen: &mut Seen) {
    let (mut rows, mut counts) = lent(r, s);
    if r.once_in(40) {
        rows.truncate(rows.len().saturating_sub(r.place(3)));
        counts.truncate(counts.len().saturating_sub(r.place(3)));
    }
    let want = Want::new(text, s, &rows, &counts);
    let mut list = some_list(r, &want.pairs, &mut seen.lists);
    let (answer, left) = match want.answer {
        Some(answer) => (answer, list.clone()),
        None => listing(&want.pairs, &list),
    };
    let told = format!("{s:?}, {} rows, {} counts, {} numbers for races\n{told}", rows.len(), counts.len(), list.len());
    assert_eq!(list_races(text, s, &mut rows, &mut counts, &mut list), answer, "{told}");
    assert!(list == left, "the list {list:?} and not {left:?}\n{told}");
    assert!(rows == want.rows, "rows {rows:?}\n{told}");
    assert!(counts == want.counts, "counts {counts:?}\n{told}");
    match answer {
        Listed::Refused { refusal, .. } => seen.refused[refusal.number() as usize] += 1,
        Listed::Pairs(_) => seen.accepted += 1,
    }
}

/// A setting that does not suit the text, or a wild one.
fn damage_settings(r: &mut Random, s: &mut Settings, text_len: usize) {
    match r.below(5) {
        0 => s.header = r.pick(&[0, 1, 2, u32::MAX]),
        1 => s.model = r.pick(&[0, 3, 4, u32::MAX]),
        2 => s.row_limit = r.pick(&[0, 1, 2, u32::MAX]),
        3 => s.process_limit = r.pick(&[0, 1, PROCESSES, PROCESSES + 1, u32::MAX]),
        _ => s.byte_limit = r.place(text_len + 1),
    }
}

/// A text of the rows, sound or damaged, with settings that suit it, or not.
fn list_text(r: &mut Random, rows: &[Row], process_limit: u32, told: &str, seen: &mut Seen) {
    let damage = r.below(20);
    let (header_word, mut rows) = (r.below(2), rows.to_vec());
    if damage == 0 {
        damage_barrier(r, &mut rows);
    }
    let mut records: Vec<Record> = rows.iter().map(|row| record(*row)).collect();
    if header_word == 1 {
        records.insert(0, header());
    }
    if (1..3).contains(&damage) && !records.is_empty() {
        damage_records(r, &mut records);
    }
    let mut text = text(r, &records);
    if (3..5).contains(&damage) {
        damage_bytes(r, &mut text);
    }
    let row_limit = (records.len() as u32 + r.below(3)).clamp(1, 4096);
    let mut s = Settings { header: header_word, model: r.below(4), row_limit, process_limit, byte_limit: usize::MAX };
    if (5..8).contains(&damage) {
        damage_settings(r, &mut s, text.len());
    }
    compare_text(r, &text, s, told, seen);
}

// ---- Rows

/// Fails unless the call on rows as they are answers and leaves what the naive version does, under each model, for a list of any length.
fn compare_rows(r: &mut Random, rows: &[Row], lent: &[u32], process_limit: u32, counts_len: usize, told: &str, seen: &mut Seen) -> u64 {
    let (n, order, mut found) = (rows.len() as u32, Order::of(rows), 0);
    let refusal = refusal_of(rows, lent.len(), n, process_limit, true, counts_len);
    for model in Model::ALL.map(Model::number) {
        let pairs = if refusal.is_none() { naive::races::races(rows, &order, model) } else { Vec::new() };
        let mut list = some_list(r, &pairs, &mut seen.lists);
        let mut got: Vec<u16> = (0..counts_len).map(|_| r.bits() as u16).collect();
        let (want_counts, (answer, left)) = match refusal {
            Some(refusal) => (got.clone(), (Listed::Refused { refusal, place: 0 }, list.clone())),
            None => (padded(counts(rows, &order, process_limit), counts_len), listing(&pairs, &list)),
        };
        let told = format!("model {model}, {} numbers for races\n{told}", list.len());
        assert_eq!(races(lent, n, process_limit, model, &mut got, &mut list), answer, "{told}");
        assert!(list == left, "the list {list:?} and not {left:?}\n{told}");
        assert!(got == want_counts, "counts {got:?} and not {want_counts:?}\n{told}");
        let first = match (refusal, pairs.first()) {
            (Some(refusal), _) => Verdict::Refused(refusal),
            (None, None) => Verdict::Free,
            (None, Some((earlier, later))) => Verdict::Race { earlier: *earlier, later: *later },
        };
        assert_eq!(verdict(lent, n, process_limit, model, &mut got), first, "the first race is the verdict\n{told}");
        found += pairs.len() as u64;
    }
    found
}

/// Gives rows processes below the limit, and some half of them a read or a write.
fn tame(r: &mut Random, rows: &mut [Row], process_limit: u32) {
    for row in rows {
        row.process %= process_limit.max(1);
        if r.once_in(2) {
            row.kind = r.below(2);
        }
    }
}

/// Rows that no text gives, in slices that are at times too short, and with a model that is none.
fn list_wild(r: &mut Random, told: &str, seen: &mut Seen) {
    let process_limit = r.pick(&[0, 1, 2, 3, 4, PROCESSES, PROCESSES + 1]);
    let n = r.between(0, 25);
    let mut rows = wild_rows(r, n, process_limit);
    if r.once_in(2) {
        tame(r, &mut rows, process_limit);
    }
    let (mut lent, mut counts_len) = (numbers(&rows), (n * process_limit) as usize);
    match r.below(8) {
        0 => lent.truncate(lent.len().saturating_sub(1)),
        1 => counts_len = counts_len.saturating_sub(1),
        2 => counts_len += r.place(9),
        3 => lent.extend([3, 1, 4]),
        _ => {}
    }
    let told = format!("{told}\nwild rows, process limit {process_limit}, {counts_len} counts, {n} rows of {lent:?}");
    let found = compare_rows(r, &rows, &lent, process_limit, counts_len, &told, seen);
    let is_listed = refusal_of(&rows, lent.len(), n, process_limit, true, counts_len).is_none();
    seen.wild[usize::from(is_listed)] += 1;
    seen.wild_pairs += found;
    let refusal = refusal_of(&rows, lent.len(), n, process_limit, false, counts_len).expect("no model is past 3");
    let (mut counts, mut list) = (vec![9; counts_len], vec![9; r.place(5)]);
    let answer = Listed::Refused { refusal, place: 0 };
    assert_eq!(races(&lent, n, process_limit, r.pick(&[4, 5, u32::MAX]), &mut counts, &mut list), answer, "no model\n{told}");
    assert!(counts.iter().all(|x| *x == 9) && list.iter().all(|x| *x == 9), "no model\n{told}");
}

// ---- Other orders of the same rows

/// The races of a text without a header, by the library.
fn races_of_text(text: &[u8], rows: usize, process_limit: u32, model: u32) -> Listing {
    let row_limit = rows.max(1) as u32;
    let s = Settings { header: 0, model, row_limit, process_limit, byte_limit: usize::MAX };
    let (mut read, mut counts) = (vec![7; 6 * row_limit as usize], vec![7; (row_limit * process_limit) as usize]);
    let mut list = vec![7; list_len(row_limit)];
    match list_races(text, s, &mut read, &mut counts, &mut list) {
        Listed::Pairs(pairs) => Ok(pairs_of(&list[..PAIR * pairs as usize])),
        refused => Err(refused),
    }
}

/// The pairs of a listing, or its refusal.
type Listing = Result<Vec<Pair>, Listed>;

/// Fails unless the same rows in another allowed order, as a text, are accepted and have the same races, whichever row of a pair now stands first.
fn reorder(r: &mut Random, rows: &[Row], process_limit: u32, listed: &[Vec<Pair>; 4], told: &str, seen: &mut Seen) {
    let places = some_order(r, rows, &Order::of(rows));
    assert!(rows.len() > 500 || is_allowed(rows, &places), "{places:?} is no allowed order\n{told}");
    let other = moved(rows, &places);
    let records: Vec<Record> = other.iter().map(|row| record(*row)).collect();
    let (text, order) = (text(r, &records), Order::of(&other));
    let told = format!("in the order {places:?}\n{told}");
    for (model, before) in listed.iter().enumerate() {
        let pairs = races_of_text(&text, rows.len(), process_limit, model as u32).unwrap_or_else(|e| panic!("{e:?} {told}"));
        assert!(pairs == naive::races::races(&other, &order, model as u32), "{pairs:?} under model {model} {told}");
        assert!(by_old_numbers(&pairs, &places) == *before, "{pairs:?}, and before {before:?}, under model {model} {told}");
        let old = |number: u32| places[number as usize - 1];
        seen.turned[model] += pairs.iter().filter(|(a, b)| old(*a) > old(*b)).count() as u64;
    }
    seen.reordered += u64::from(!places.into_iter().eq(0..rows.len()));
}

// ---- What is free under one model and under another

fn is_within(some: &[Pair], all: &[Pair]) -> bool {
    some.iter().all(|pair| all.contains(pair))
}

/// Fails unless what is free under session is free under MPI-IO, and under commit once each close is named commit; and what is free under any model
/// is free under POSIX. Pair by pair: a race under POSIX is one under every model, one under MPI-IO is one under session, and one under commit of the
/// rows so renamed is one under session of the rows as they are.
fn compare_models(rows: &[Row], process_limit: u32, listed: &[Vec<Pair>; 4], told: &str, seen: &mut Seen) {
    let renamed: Vec<Row> = rows.iter().map(|row| Row { kind: if row.kind == CLOSE { COMMIT } else { row.kind }, ..*row }).collect();
    let renamed = all_races(&renamed, process_limit, ON_COMMIT as u32);
    let free = |model: usize| listed[model].is_empty();
    assert!(!free(SESSION) || free(MPI_IO), "free under session, and not under MPI-IO: {listed:?}\n{told}");
    assert!(!(0..4).any(free) || free(POSIX), "free under some model, and not under POSIX: {listed:?}\n{told}");
    assert!(!free(SESSION) || renamed.is_empty(), "free under session, and not under commit: {renamed:?}\n{told}");
    assert!(listed.iter().all(|pairs| is_within(&listed[POSIX], pairs)), "races under POSIX: {listed:?}\n{told}");
    assert!(is_within(&listed[MPI_IO], &listed[SESSION]), "races under MPI-IO: {listed:?}\n{told}");
    assert!(is_within(&renamed, &listed[SESSION]), "races under commit: {renamed:?}, and {listed:?}\n{told}");
    if (0..rows.len()).any(|y| rows[..y].iter().any(|row| conflict(*row, rows[y]))) {
        (0..4).for_each(|model| seen.free[model] += u64::from(free(model)));
        seen.renaming.needed += u64::from(free(SESSION) && !free(ON_COMMIT));
        seen.renaming.not_enough += u64::from(renamed.is_empty() && !free(SESSION));
    }
}

// ---- All of it

fn compare(r: &mut Random, seed: u64, seen: &mut Seen) {
    let again = format!("trace of seed {seed}; repeat it with KIQSARYN_SEED={seed} KIQSARYN_RACES=1");
    let (rows, process_limit) = some_rows(r);
    let told = format!("{again}\nprocess limit {process_limit}, {rows:?}");
    list_text(r, &rows, process_limit, &told, seen);
    let more = r.pick(&[0, 0, 1, 7]);
    compare_rows(r, &rows, &numbers(&rows), process_limit, rows.len() * process_limit as usize + more, &told, seen);
    let listed = [0, 1, 2, 3].map(|model| all_races(&rows, process_limit, model));
    for (model, pairs) in listed.iter().enumerate() {
        assert!(rise(pairs), "{pairs:?} do not rise under model {model}\n{told}");
        seen.pairs[model] += pairs.len() as u64;
        seen.most = seen.most.max(pairs.len());
    }
    reorder(r, &rows, process_limit, &listed, &told, seen);
    compare_models(&rows, process_limit, &listed, &told, seen);
    list_wild(r, &again, seen);
}

/// Fails where something was met too seldom.
fn enough(n: u64, seen: &Seen) {
    let Lists { exact, short_by_one, shorter, odd, longer, none, none_needed } = seen.lists;
    let lists = [exact, short_by_one, shorter, odd, longer, none, none_needed];
    assert!(lists.iter().all(|count| count * 10 > n), "lists of every length: {seen:?}");
    assert!(seen.accepted * 3 > n && seen.refused[23] * 20 > n, "many are listed, and many lists are too short: {seen:?}");
    assert!((1..=12).chain([21, 22]).all(|k| seen.refused[k] * 2000 > n), "every refusal is met: {seen:?}");
    assert!(seen.pairs.iter().all(|pairs| *pairs > n), "many races: {seen:?}");
    assert!(seen.reordered * 2 > n && seen.turned.iter().all(|turned| *turned > n / 2), "many races are turned: {seen:?}");
    assert!(seen.free.iter().all(|free| free * 50 > n), "many traces with a conflict are free: {seen:?}");
    assert!(seen.renaming.needed * 100 > n && seen.renaming.not_enough * 100 > n, "renaming matters: {seen:?}");
    assert!(seen.wild.iter().all(|count| count * 10 > n) && seen.wild_pairs > n, "wild rows are listed: {seen:?}");
}

#[test]
fn random_races() {
    let (n, seed) = (setting("KIQSARYN_RACES", RACES), setting("KIQSARYN_SEED", SEED));
    let mut seen = Seen::default();
    for number in 0..n {
        let seed = seed.wrapping_add(number);
        compare(&mut Random::new(seed), seed, &mut seen);
    }
    println!("{n} traces, seed {seed}: {seen:?}");
    if n >= 10_000 {
        enough(n, &seen);
    }
}
