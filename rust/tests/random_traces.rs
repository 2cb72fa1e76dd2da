//! Random traces through the library and through the naive rules: the answer and both slices of the check, the counts, the verdict under
//! every model, the report, and counts and verdicts of wild rows and arguments.
//!
//! By hand, more of them: `KIQSARYN_TRACES=1000000 KIQSARYN_SEED=7 cargo test --offline --test random_traces -- --nocapture`. A trace's own
//! seed is the seed plus its number, so `KIQSARYN_TRACES=1` with the seed that a failure prints repeats that trace alone.

#[allow(dead_code)]
mod naive;

use kiqsaryn::{check_trace, fill_counts, report, verdict, Checked, Model, Refusal, Row, Settings, Verdict, BARRIER, RECV, SEND, WAIT};
use naive::barriers::WRONGS;
use naive::order::{counts, first_race, Order};
use naive::random::{setting, Random};
use naive::reading::{self, FAULTS};
use naive::rows::{damage_barrier, numbers, some_rows};
use naive::texts::{damage_bytes, damage_records, header, record, text, Record};
use naive::wild::{padded, refusal_of, wild_rows};
use naive::PROCESSES;

const TRACES: u64 = 60_000;
const SEED: u64 = 20_240_101;

// ---- One trace

struct Case {
    seed: u64,
    text: Vec<u8>,
    s: Settings,
    rows: Vec<u32>,
    counts: Vec<u16>,
}

impl Case {
    fn told(&self) -> String {
        format!(
            "trace of seed {}; repeat it with KIQSARYN_SEED={} KIQSARYN_TRACES=1\n{:?}\n{} numbers lent for rows, {} for counts\ntext \"{}\"",
            self.seed,
            self.seed,
            self.s,
            self.rows.len(),
            self.counts.len(),
            self.text.escape_ascii()
        )
    }
}

/// Slices as settings ask for, at times longer, with anything in them.
fn lent(r: &mut Random, s: Settings) -> (Vec<u32>, Vec<u16>) {
    let (row_limit, process_limit) = (s.row_limit.min(4097) as usize, s.process_limit.min(PROCESSES + 1) as usize);
    let more = r.pick(&[0, 0, 1, 7]);
    let rows = (0..6 * row_limit + more).map(|_| r.bits() as u32).collect();
    let counts = (0..row_limit * process_limit + more).map(|_| r.bits() as u16).collect();
    (rows, counts)
}

/// A setting that does not suit the text, or a wild one.
fn damage_settings(r: &mut Random, s: &mut Settings, text_len: usize) {
    match r.below(8) {
        0 => s.header = r.pick(&[0, 1, 2, u32::MAX]),
        1 => s.model = r.pick(&[0, 3, 4, u32::MAX]),
        2 => s.row_limit = r.pick(&[0, 1, 4096, 4097, u32::MAX]),
        3 => s.process_limit = r.pick(&[0, 1, PROCESSES, PROCESSES + 1, u32::MAX]),
        4 => s.row_limit = r.between(1, s.row_limit),
        _ => s.byte_limit = r.place(text_len + 1),
    }
    if r.once_in(20) {
        (s.header, s.model) = (r.below(3), r.below(5));
    }
}

/// A text, sound or damaged, with settings and slices that suit it, or not.
fn case(r: &mut Random, seed: u64) -> Case {
    let (mut rows, process_limit) = some_rows(r);
    let header_word = r.below(2);
    let damage = r.below(100);
    if (25..40).contains(&damage) {
        damage_barrier(r, &mut rows);
    }
    let mut records: Vec<Record> = rows.iter().map(|row| record(*row)).collect();
    if header_word == 1 {
        records.insert(0, header());
    }
    if (40..65).contains(&damage) {
        damage_records(r, &mut records);
    }
    let mut text = text(r, &records);
    if (65..85).contains(&damage) {
        (0..r.between(1, 3)).for_each(|_| damage_bytes(r, &mut text));
    }
    let room = r.pick(&[0, 0, 1, 5]);
    let mut s = Settings {
        header: header_word,
        model: r.below(4),
        row_limit: (records.len() as u32 + room).clamp(1, 4096),
        process_limit,
        byte_limit: if r.once_in(2) { usize::MAX } else { text.len() + r.place(3) },
    };
    if damage >= 85 {
        damage_settings(r, &mut s, text.len());
    }
    let (mut rows, mut counts) = lent(r, s);
    if damage >= 85 && r.once_in(4) {
        rows.truncate(rows.len().saturating_sub(r.place(3)));
        counts.truncate(counts.len().saturating_sub(r.place(3)));
    }
    Case { seed, text, s, rows, counts }
}

// ---- Comparing

/// How often each answer came.
#[derive(Default, Debug)]
struct Seen {
    refused: [u64; 23],
    /// Traces refused with 12 or 21 for one fault alone, and with 22 for one thing alone.
    faults: [u64; FAULTS],
    wrongs: [u64; WRONGS],
    accepted: u64,
    free: [u64; 4],
    races: [u64; 4],
    late_races: u64,
    /// Traces with different verdicts under two models.
    split: u64,
    /// Traces with a recv before its send, and traces whose verdict under some model would be another without their waits.
    posted_early: u64,
    decided_by_waits: u64,
    /// Accepted traces with barriers, and those whose verdict under some model would be another without their barriers.
    barriers: u64,
    decided_by_barriers: u64,
    wild: [u64; 2],
}

/// Counts and verdicts of rows as they are, by the definitions where the arguments are right.
fn judge(r: &mut Random, told: &dyn Fn() -> String, rows: &[Row], lent: &[u32], process_limit: u32, counts_len: usize, seen: &mut Seen) {
    let n = rows.len() as u32;
    let order = Order::of(rows);
    let fill: Vec<u16> = (0..counts_len).map(|_| r.bits() as u16).collect();
    let refusal = refusal_of(rows, lent.len(), n, process_limit, true, counts_len);
    let want = if refusal.is_none() { padded(counts(rows, &order, process_limit), counts_len) } else { fill.clone() };
    let mut got = fill.clone();
    assert_eq!(fill_counts(lent, n, process_limit, &mut got).err(), refusal, "counts filled?\n{}", told());
    assert!(got == want, "counts {got:?} and not {want:?}\n{}", told());
    let mut races = Vec::new();
    for model in Model::ALL.map(Model::number) {
        let race = first_race(rows, &order, model);
        let answer = match (refusal, race) {
            (Some(refusal), _) => Verdict::Refused(refusal),
            (None, None) => Verdict::Free,
            (None, Some((earlier, later))) => Verdict::Race { earlier, later },
        };
        let mut got = fill.clone();
        assert_eq!(verdict(lent, n, process_limit, model, &mut got), answer, "verdict under model {model}\n{}", told());
        assert!(got == want, "counts of the verdict {got:?} and not {want:?}\n{}", told());
        match race {
            None => seen.free[model as usize] += 1,
            Some((_, later)) => {
                seen.races[model as usize] += 1;
                seen.late_races += u64::from(later > 30);
            }
        }
        races.push(race);
    }
    seen.split += u64::from(races.iter().any(|race| *race != races[0]));
    let model = r.pick(&[4, 5, u32::MAX]);
    let mut got = fill.clone();
    let refusal = refusal_of(rows, lent.len(), n, process_limit, false, counts_len).expect("no model is past 3");
    assert_eq!(verdict(lent, n, process_limit, model, &mut got), Verdict::Refused(refusal), "verdict under model {model}\n{}", told());
    assert!(got == fill, "counts of a refused verdict\n{}", told());
}

/// Whether a verdict would be another if rows of one kind gave no order.
fn is_decided_by(rows: &[Row], kind: u32) -> bool {
    let without: Vec<Row> = rows.iter().map(|r| Row { kind: if r.kind == kind { RECV } else { r.kind }, ..*r }).collect();
    let (order, other) = (Order::of(rows), Order::of(&without));
    let differs = |model: u32| first_race(rows, &order, model) != first_race(rows, &other, model);
    Model::ALL.map(Model::number).into_iter().any(differs)
}

/// Counts what the messages and barriers of an accepted trace do. Its order is the one that document 02's sentence on barriers gives.
fn count_order(rows: &[Row], told: &str, seen: &mut Seen) {
    let early = |k: usize| rows[k].kind == RECV && rows[k..].iter().any(|r| r.kind == SEND && r.message == rows[k].message);
    seen.posted_early += u64::from((0..rows.len()).any(early));
    seen.decided_by_waits += u64::from(is_decided_by(rows, WAIT));
    if rows.iter().any(|r| r.kind == BARRIER) {
        seen.barriers += 1;
        seen.decided_by_barriers += u64::from(is_decided_by(rows, BARRIER));
        let same = rows.len() > 500 || Order::by_sentence(rows).is_some_and(|order| order == Order::of(rows));
        assert!(same, "the order by the sentence on barriers\n{told}");
    }
}

fn compare(r: &mut Random, case: &mut Case, seen: &mut Seen) {
    let told = case.told();
    let (rows_before, counts_before) = (case.rows.clone(), case.counts.clone());
    let got = check_trace(&case.text, case.s, &mut case.rows, &mut case.counts);
    let want = reading::check(&case.text, case.s, case.rows.len(), case.counts.len());
    let (rows_len, counts_len) = (case.rows.len(), case.counts.len());
    match want {
        Ok(rows) => {
            assert_eq!(got, Checked::Accepted(rows.len() as u32), "{told}");
            assert!(case.rows == padded(numbers(&rows), rows_len), "rows {:?}\n{told}", case.rows);
            assert!(case.counts.iter().all(|c| *c == 0), "counts {:?}\n{told}", case.counts);
            seen.accepted += 1;
            count_order(&rows, &told, seen);
            judge(r, &|| told.clone(), &rows, &case.rows, case.s.process_limit, counts_len, seen);
        }
        Err((number, place)) => {
            let refusal = Refusal::from_number(number).expect("a refusal");
            assert_eq!(got, Checked::Refused { refusal, place }, "{told}");
            let kept = number <= 3;
            let (rows, counts) = if kept { (rows_before, counts_before) } else { (vec![0; rows_len], vec![0; counts_len]) };
            assert!(case.rows == rows, "rows {:?}\n{told}", case.rows);
            assert!(case.counts == counts, "counts {:?}\n{told}", case.counts);
            seen.refused[number as usize] += 1;
            if number == 12 || number == 21 {
                match reading::faults_at(&case.text, case.s, place)[..] {
                    [fault] => seen.faults[fault as usize] += 1,
                    [] => panic!("no fault\n{told}"),
                    _ => {}
                }
            }
            if number == 22 {
                match reading::wrongs(&case.text, case.s)[..] {
                    [wrong] => seen.wrongs[wrong as usize] += 1,
                    [] => panic!("nothing is wrong\n{told}"),
                    _ => {}
                }
            }
        }
    }
    assert_eq!(String::from_utf8_lossy(&report(&case.text)), reading::report(&case.text), "report\n{told}");
}

fn compare_wild(r: &mut Random, seed: u64, seen: &mut Seen) {
    let process_limit = r.pick(&[0, 1, 2, 3, 4, PROCESSES - 1, PROCESSES, PROCESSES + 1, PROCESSES + 2]);
    let n = if r.once_in(2000) { r.between(4095, 4098) } else { r.between(0, 25) };
    let rows = wild_rows(r, n, process_limit);
    let mut lent = numbers(&rows);
    let mut counts_len = (n * process_limit) as usize;
    match r.below(6) {
        0 => lent.truncate(lent.len().saturating_sub(1)),
        1 => counts_len = counts_len.saturating_sub(1),
        2 => counts_len += r.place(9),
        3 => lent.extend([3, 1, 4]),
        _ => {}
    }
    let told = || {
        let again = format!("wild rows of seed {seed}; repeat them with KIQSARYN_SEED={seed} KIQSARYN_TRACES=1");
        format!("{again}\nprocess limit {process_limit}, {counts_len} counts, {n} rows of {lent:?}")
    };
    let judged = rows.iter().all(|row| row.process < process_limit);
    seen.wild[usize::from(judged)] += 1;
    let ignored = &mut Seen::default();
    judge(r, &told, &rows, &lent, process_limit, counts_len, ignored);
    for (n, limit, model) in [(u32::MAX, process_limit, 0), (n, u32::MAX, 1), (u32::MAX, u32::MAX, u32::MAX), (n.max(4097), PROCESSES, 2)] {
        let mut got = vec![9u16; counts_len];
        let refusal = refusal_of(&rows, lent.len(), n, limit, true, counts_len).expect("these are past every limit");
        assert_eq!(fill_counts(&lent, n, limit, &mut got), Err(refusal), "counts of {n} rows under limit {limit}\n{}", told());
        let refusal = refusal_of(&rows, lent.len(), n, limit, model < 4, counts_len).expect("these are past every limit");
        assert_eq!(
            verdict(&lent, n, limit, model, &mut got),
            Verdict::Refused(refusal),
            "verdict on {n} rows under limit {limit}\n{}",
            told()
        );
        assert!(got.iter().all(|c| *c == 9), "counts are kept\n{}", told());
    }
}

#[test]
fn random_traces() {
    let (traces, seed) = (setting("KIQSARYN_TRACES", TRACES), setting("KIQSARYN_SEED", SEED));
    let mut seen = Seen::default();
    for number in 0..traces {
        let seed = seed.wrapping_add(number);
        let r = &mut Random::new(seed);
        let mut case = case(r, seed);
        compare(r, &mut case, &mut seen);
        compare_wild(r, seed, &mut seen);
    }
    println!("{traces} traces, seed {seed}: {seen:?}");
    if traces >= 20_000 {
        assert!(seen.accepted * 3 > traces, "a third is accepted: {seen:?}");
        assert!((1..=12).chain([21, 22]).all(|k| seen.refused[k] >= 20), "every refusal is met: {seen:?}");
        assert!(seen.faults.iter().all(|n| *n * 400 >= traces), "every fault of a message is met alone: {seen:?}");
        assert!(seen.free.iter().all(|n| *n >= 500), "many are free: {seen:?}");
        assert!(seen.races.iter().all(|n| *n >= 500) && seen.late_races >= 500, "many race: {seen:?}");
        assert!(seen.posted_early * 8 > traces, "many have a recv before its send: {seen:?}");
        assert!(seen.decided_by_waits * 20 > traces, "waits decide many verdicts: {seen:?}");
        assert!(seen.wrongs.iter().all(|n| *n * 400 >= traces), "barriers are wrong in each way: {seen:?}");
        assert!(seen.barriers * 8 > traces && seen.decided_by_barriers * 20 > traces, "barriers decide many verdicts: {seen:?}");
        assert!(seen.wild.iter().all(|n| *n >= 1000), "many wild rows are judged, and many refused: {seen:?}");
    }
}
