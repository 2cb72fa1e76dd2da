//! Random rows written by the library and by the naive rules: the answer, and every byte of the lent slice. What is written is read again as
//! the same rows, by the library and by the naive reader, and other rows have another text.
//!
//! By hand, more of them: `KIQSARYN_LISTS=1000000 KIQSARYN_SEED=7 cargo test --offline --test random_rows -- --nocapture`. A list's own seed is the
//! seed plus its number, so `KIQSARYN_LISTS=1` with the seed that a failure prints repeats that list alone.

#[allow(dead_code)]
mod naive;

use kiqsaryn::{check_trace, write, Checked, Refusal, Row, Settings, Written, HEADER_LINE, LONGEST_LINE};
use kiqsaryn::{BARRIER, FILES, READ, RECV, SEND, WAIT, WRITE};
use naive::barriers::{self, WRONGS};
use naive::random::{setting, Random};
use naive::reading::{self, faults, FAULTS};
use naive::rows::{damage_barrier, numbers, some_rows};
use naive::writing;
use naive::PROCESSES;

const LISTS: u64 = 40_000;
const SEED: u64 = 20_250_301;

// ---- One call

struct Case {
    seed: u64,
    rows: Vec<u32>,
    n: u32,
    header: u32,
    process_limit: u32,
    out: Vec<u8>,
    place: usize,
}

impl Case {
    fn told(&self) -> String {
        format!(
            "list of seed {}; repeat it with KIQSARYN_SEED={} KIQSARYN_LISTS=1\n{} rows, header word {}, process limit {}, {} bytes, place {}\n{:?}",
            self.seed,
            self.seed,
            self.n,
            self.header,
            self.process_limit,
            self.out.len(),
            self.place,
            self.rows
        )
    }
}

/// A number of a row that is replaced by another, often by one that is just in or just out of a range.
fn damage_number(r: &mut Random, row: &mut Row) {
    let edges =
        [0, 1, 2, 5, 6, 7, 8, 9, 10, PROCESSES - 1, PROCESSES, PROCESSES + 1, FILES - 1, FILES, 65_535, 65_536, u32::MAX - 1, u32::MAX];
    let number = if r.once_in(4) { r.bits() as u32 } else { r.pick(&edges) };
    match r.below(6) {
        0 => row.process = number,
        1 => row.kind = number,
        2 => row.file = number,
        3 => row.offset = number,
        4 => row.length = number,
        _ => row.message = number,
    }
}

/// Whether a row has a message, or the number of a barrier in its place.
fn is_talk(row: Row) -> bool {
    [SEND, RECV, WAIT, BARRIER].contains(&row.kind)
}

/// A send, recv or wait more behind the row at a place, right behind it or later: of its message by its own process, or of any message by any
/// process, and now and then with a number replaced.
fn add_talk(r: &mut Random, rows: &mut Vec<Row>, k: usize) {
    let of = rows[if r.once_in(4) { r.place(rows.len()) } else { k }];
    let by = rows[if r.once_in(3) { r.place(rows.len()) } else { k }];
    let to = k + 1 + if r.once_in(2) { 0 } else { r.place(rows.len() - k) };
    rows.insert(to, Row { process: by.process, kind: r.pick(&[SEND, RECV, WAIT]), message: of.message, ..Row::default() });
    if r.once_in(4) {
        damage_number(r, &mut rows[to]);
    }
}

/// A row changed, or put elsewhere, doubled or dropped, so that messages stand out of order.
fn damage_rows(r: &mut Random, rows: &mut Vec<Row>) {
    let talks: Vec<usize> = (0..rows.len()).filter(|k| is_talk(rows[*k])).collect();
    let k = if talks.is_empty() || r.once_in(2) { r.place(rows.len()) } else { r.pick(&talks) };
    match r.below(10) {
        0 => {
            let moved = rows.remove(k);
            rows.insert(r.place(rows.len() + 1), moved);
        }
        1 => rows.insert(r.place(rows.len() + 1), rows[k]),
        2 => drop(rows.remove(k)),
        3 | 4 => add_talk(r, rows, k),
        5 if rows[k].kind == READ || rows[k].kind == WRITE => {
            rows[k].offset = r.bits() as u32;
            rows[k].length = (u32::MAX - rows[k].offset).saturating_add(r.below(3));
            (0..r.below(3)).for_each(|_| damage_number(r, &mut rows[k]));
        }
        6 => rows[k].message = rows[r.place(rows.len())].message,
        _ => (0..r.pick(&[1, 1, 2, 4])).for_each(|_| damage_number(r, &mut rows[k])),
    }
}

/// A number of the call that does not suit the rows, or a slice that is cut.
fn damage_call(r: &mut Random, case: &mut Case) {
    match r.below(6) {
        0 => case.header = r.pick(&[2, 3, u32::MAX]),
        1 => case.process_limit = r.pick(&[0, 1, 2, PROCESSES - 1, PROCESSES + 1, PROCESSES + 2, u32::MAX]),
        2 => case.n = r.pick(&[case.n + 1, 4096, 4097, u32::MAX - 1, u32::MAX]),
        3 => case.rows.truncate(r.place(case.rows.len() + 1)),
        4 => {
            case.n = if r.once_in(8) { 4096 } else { r.pick(&[4097, 4098]) };
            case.rows.resize(6 * case.n as usize, 0);
        }
        _ => (case.header, case.process_limit) = (r.below(4), r.pick(&[0, 1, PROCESSES, PROCESSES + 1])),
    }
}

/// A place and a slice with anything in it: as long as the text needs, longer, a byte short, or with the place at or past its end.
fn lend(r: &mut Random, case: &mut Case, length: usize) {
    let place = if r.once_in(4) { 0 } else { r.place(60) };
    let (place, len) = match r.below(8) {
        0..=2 => (place, place + length),
        3 | 4 => (place, place + length + r.place(60)),
        5 => (place, (place + length).saturating_sub(1)),
        6 => (place + 1 + r.place(3), place),
        _ => (r.pick(&[place, usize::MAX, usize::MAX - 1, (usize::MAX - length).wrapping_add(1)]), place),
    };
    case.place = place;
    case.out = (0..len).map(|_| r.bits() as u8).collect();
}

/// Rows, sound or damaged, with a call that suits them, or not.
fn case(r: &mut Random, seed: u64) -> Case {
    let (mut rows, process_limit) = some_rows(r);
    if r.once_in(20) {
        rows.truncate(r.place(3));
    }
    let damage = r.below(100);
    if (38..45).contains(&damage) {
        damage_barrier(r, &mut rows);
    }
    if (45..85).contains(&damage) && !rows.is_empty() {
        damage_rows(r, &mut rows);
        if r.once_in(3) && !rows.is_empty() {
            damage_rows(r, &mut rows);
        }
    }
    rows.truncate(4096);
    let n = if r.once_in(20) { r.place(rows.len() + 1) } else { rows.len() } as u32;
    let mut case = Case { seed, rows: numbers(&rows), n, header: r.below(2), process_limit, out: Vec::new(), place: 0 };
    let more = r.pick(&[0, 0, 1, 6, 7]);
    case.rows.extend((0..more).map(|_| r.bits() as u32));
    if damage >= 85 {
        damage_call(r, &mut case);
    }
    let mut whole = vec![0; HEADER_LINE + LONGEST_LINE * case.n.min(4096) as usize];
    let length = match writing::write(&case.rows, case.n, case.header, case.process_limit, &mut whole, 0) {
        Ok(length) => length,
        Err((22, _)) if r.once_in(2) => writing::text(case.header, &writing::rows_in(&case.rows, case.n)).len(),
        Err(_) => r.place(200),
    };
    lend(r, &mut case, length);
    case
}

// ---- Comparing

/// Pairs of questions that one row can answer No, the first of them before any other. 11 makes no such pair with 12 and 21, since a row that uses
/// its range has no message, and 12 none with 21, since a wait passes 12.
const PAIRS: [[u32; 2]; 7] = [[9, 10], [9, 11], [9, 12], [9, 21], [10, 11], [10, 12], [10, 21]];

/// How often each answer came.
#[derive(Default, Debug)]
struct Seen {
    refused: [u64; 23],
    /// Rows refused with 9 for one number alone: file, offset, length, message.
    unused: [u64; 4],
    /// Rows refused with 10 for one number alone: process, file, message.
    past: [u64; 3],
    /// Rows refused with 12 or 21 for one fault alone, and with 22 for one thing alone.
    faults: [u64; FAULTS],
    wrongs: [u64; WRONGS],
    /// Lists refused with 22 that would not fit the slice either, and lists written that have barriers.
    both: u64,
    barriers: u64,
    /// Rows whose first No is the first of a pair of questions, and that answer No to the second too.
    pairs: [u64; PAIRS.len()],
    /// Texts that have a byte too few, and places past the slice's end.
    short: u64,
    far: u64,
    /// Written without and with the header, and into the last bytes of the slice.
    written: [u64; 2],
    exact: u64,
    empty: u64,
    /// Rows with one other number that are written too.
    others: u64,
}

/// The place of the only true one.
fn only<const N: usize>(found: [bool; N]) -> Option<usize> {
    let all: Vec<usize> = (0..N).filter(|k| found[*k]).collect();
    match all[..] {
        [one] => Some(one),
        _ => None,
    }
}

/// Counts a refusal, and what alone it was for.
fn count_refused(case: &Case, number: u32, place: u32, seen: &mut Seen) {
    seen.refused[number as usize] += 1;
    if number == 18 {
        let length = writing::text(case.header, &writing::rows_in(&case.rows, case.n)).len();
        seen.far += u64::from(case.place > case.out.len());
        seen.short += u64::from(case.out.len().checked_sub(case.place).is_some_and(|space| space + 1 == length));
        return;
    }
    if number == 22 {
        let rows = writing::rows_in(&case.rows, case.n);
        let room = case.out.len().checked_sub(case.place);
        seen.both += u64::from(room.is_none_or(|room| room < writing::text(case.header, &rows).len()));
        if let Some([wrong]) = barriers::wrong(&rows).as_ref().map(|(_, wrong)| &wrong[..]) {
            seen.wrongs[*wrong as usize] += 1;
        }
        return;
    }
    let Some(earlier) = place.checked_sub(1) else {
        return;
    };
    let rows = writing::rows_in(&case.rows, place);
    let row = rows[earlier as usize];
    let noes = writing::noes(row, &rows[..earlier as usize], case.process_limit);
    for (seen, pair) in seen.pairs.iter_mut().zip(PAIRS) {
        *seen += u64::from(noes[0] == pair[0] && noes.contains(&pair[1]));
    }
    let (range, message) = (row.kind == READ || row.kind == WRITE, is_talk(row));
    let count = |seen: &mut [u64], k: Option<usize>| k.into_iter().for_each(|k| seen[k] += 1);
    match number {
        9 => {
            let unused = [message && row.file > 0, !range && row.offset > 0, !range && row.length > 0, !message && row.message > 0];
            count(&mut seen.unused, only(unused));
        }
        10 => count(&mut seen.past, only([row.process >= case.process_limit, row.file > 63, row.message > 65_535])),
        12 | 21 => {
            if let [fault] = faults(row, &rows[..earlier as usize])[..] {
                seen.faults[fault as usize] += 1;
            }
        }
        _ => {}
    }
}

/// Reads a text that was written, with the library and with the naive reader: the rows are the same, under the same header word and process
/// limit, with as much room as they need or more.
fn read_back(r: &mut Random, case: &Case, text: &[u8], told: &str) {
    let rows = &case.rows[..6 * case.n as usize];
    let s = Settings {
        header: case.header,
        model: r.below(4),
        row_limit: (case.n + r.below(3)).clamp(1, 4096),
        process_limit: case.process_limit,
        byte_limit: r.pick(&[usize::MAX, text.len(), text.len() + 1]),
    };
    let mut read: Vec<u32> = (0..6 * s.row_limit).map(|_| r.bits() as u32).collect();
    let mut counts = vec![7; (s.row_limit * s.process_limit) as usize];
    assert_eq!(check_trace(text, s, &mut read, &mut counts), Checked::Accepted(case.n), "read again\n{told}");
    assert!(read[..rows.len()] == *rows, "rows read again {read:?}\n{told}");
    let naive = reading::check(text, s, read.len(), counts.len());
    assert_eq!(naive.map(|rows| numbers(&rows)).as_deref(), Ok(rows), "read again by the naive reader\n{told}");
}

/// Changes one number of rows that were written. Where the library writes them too, their text is another.
fn compare_other(r: &mut Random, case: &Case, text: &[u8], told: &str, seen: &mut Seen) {
    let mut rows = writing::rows_in(&case.rows, case.n);
    if rows.is_empty() {
        return;
    }
    let k = r.place(rows.len());
    damage_number(r, &mut rows[k]);
    let changed = numbers(&rows);
    let mut out = vec![0; text.len() + LONGEST_LINE];
    if let Written::Length(length) = write(&changed, case.n, case.header, case.process_limit, &mut out, 0) {
        let same = changed == case.rows[..changed.len()];
        assert_eq!(out[..length] == *text, same, "row {} with another number\n{told}", k + 1);
        seen.others += u64::from(!same);
    }
}

fn compare(r: &mut Random, case: &mut Case, seen: &mut Seen) {
    let told = case.told();
    let mut want = case.out.clone();
    let answer = writing::write(&case.rows, case.n, case.header, case.process_limit, &mut want, case.place);
    let got = write(&case.rows, case.n, case.header, case.process_limit, &mut case.out, case.place);
    assert!(case.out == want, "the slice holds \"{}\"\nand not \"{}\"\n{told}", case.out.escape_ascii(), want.escape_ascii());
    match answer {
        Err((number, place)) => {
            let refusal = Refusal::from_number(number).expect("a refusal");
            assert_eq!(got, Written::Refused { refusal, place }, "{told}");
            count_refused(case, number, place, seen);
        }
        Ok(length) => {
            assert_eq!(got, Written::Length(length), "{told}");
            let text = want[case.place..case.place + length].to_vec();
            read_back(r, case, &text, &told);
            compare_other(r, case, &text, &told, seen);
            seen.written[case.header as usize] += 1;
            seen.exact += u64::from(case.place + length == want.len());
            seen.empty += u64::from(length == 0);
            seen.barriers += u64::from(writing::rows_in(&case.rows, case.n).iter().any(|row| row.kind == BARRIER));
        }
    }
}

#[test]
fn random_rows() {
    let (lists, seed) = (setting("KIQSARYN_LISTS", LISTS), setting("KIQSARYN_SEED", SEED));
    let mut seen = Seen::default();
    for number in 0..lists {
        let seed = seed.wrapping_add(number);
        let r = &mut Random::new(seed);
        let mut case = case(r, seed);
        compare(r, &mut case, &mut seen);
    }
    println!("{lists} lists, seed {seed}: {seen:?}");
    if lists >= 20_000 {
        assert!(seen.written.iter().all(|n| n * 8 > lists), "many are written, with the header and without: {seen:?}");
        assert!(seen.exact * 8 > lists && seen.empty * 1000 > lists, "into what is just enough, and without a byte: {seen:?}");
        assert!([1, 2, 3, 8, 9, 10, 11, 12, 18, 21, 22].iter().all(|k| seen.refused[*k] * 400 > lists), "every refusal is met: {seen:?}");
        assert!(seen.unused.iter().all(|n| n * 1000 > lists), "each unused number is met alone: {seen:?}");
        assert!(seen.past.iter().all(|n| n * 1000 > lists), "each number past its range is met alone: {seen:?}");
        assert!(seen.pairs.iter().all(|n| n * 4000 > lists), "each pair of questions is met in one row: {seen:?}");
        assert!(seen.faults.iter().all(|n| n * 1000 > lists), "every fault of a message is met alone: {seen:?}");
        assert!(seen.wrongs.iter().all(|n| n * 1000 > lists), "barriers are wrong in each way: {seen:?}");
        assert!(seen.both * 400 > lists && seen.barriers * 10 > lists, "22 comes before 18, and barriers are written: {seen:?}");
        assert!(seen.short * 20 > lists && seen.far * 20 > lists, "a byte is missing, and places are past the end: {seen:?}");
        assert!(seen.others * 20 > lists, "many rows with another number are written: {seen:?}");
    }
}
