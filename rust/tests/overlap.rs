//! Every vector of `vectors/overlap.txt` as a trace of two rows that nothing orders: they race exactly where their ranges share a byte. Then
//! ranges that no reader accepts, since they may end past 32 bits, at the edges and at random.
//!
//! By hand, more of them: `KIQSARYN_PAIRS=10000000 KIQSARYN_SEED=7 cargo test --offline --test overlap -- --nocapture`. A pair's own seed is the
//! seed plus its number, so `KIQSARYN_PAIRS=1` with the seed that a failure prints repeats that pair alone.

#[allow(dead_code)]
mod naive;
#[allow(dead_code)]
mod vectors;

use kiqsaryn::{judge, verdict, Judged, Model, Row, Settings, Verdict, KINDS, READ, WRITE};
use naive::random::{setting, Random};
use naive::rows::numbers;

const PAIRS: u64 = 200_000;
const SEED: u64 = 20_250_401;

/// The kinds of two rows of which one writes at least.
const KIND_PAIRS: [[u32; 2]; 3] = [[WRITE, WRITE], [READ, WRITE], [WRITE, READ]];

/// The start and the length of a range.
type Range = (u32, u32);

/// Two rows of one file: process 0 takes the first range, and process 1 the second.
fn two_rows(kinds: [u32; 2], ranges: [Range; 2]) -> [Row; 2] {
    [0, 1].map(|k| Row { process: k as u32, kind: kinds[k], file: 1, offset: ranges[k].0, length: ranges[k].1, message: 0 })
}

// ---- Vectors

/// A trace of two rows, with the header.
fn text(rows: [Row; 2]) -> String {
    let lines = rows.map(|r| format!("{},{},{},{},{},\r\n", r.process, KINDS[r.kind as usize], r.file, r.offset, r.length));
    format!("process,kind,file,offset,length,message\r\n{}", lines.concat())
}

/// Fails unless the whole call, from the text of two rows, tells under every model that they race, or that they do not.
fn judged(rows: [Row; 2], race: bool, line: &vectors::Line) {
    let text = text(rows);
    let want = if race { Judged::Race { rows: 2, earlier: 1, later: 2 } } else { Judged::Free { rows: 2 } };
    for model in Model::ALL {
        let s = Settings { header: 1, model: model.number(), row_limit: 2, process_limit: 2, byte_limit: usize::MAX };
        let (mut read, mut counts) = ([7; 12], [7; 4]);
        assert_eq!(judge(text.as_bytes(), s, &mut read, &mut counts), want, "{line}, under {}\n{text}", model.name());
        assert!(read[..] == numbers(&rows), "rows of {line}: {read:?}\n{text}");
    }
}

#[test]
fn every_overlap_vector() {
    let text = vectors::text("overlap.txt");
    let mut run = 0;
    for line in vectors::lines(&text) {
        line.kind(&[("O", 6)]);
        let n = |k: usize| line.number(k);
        let ranges = [(n(1), n(2)), (n(3), n(4))];
        let shared = match line.words[5] {
            "yes" => true,
            "no" => false,
            _ => panic!("{line}: no answer"),
        };
        for kinds in KIND_PAIRS {
            let [a, b] = two_rows(kinds, ranges);
            judged([a, b], shared, &line);
            judged([b, a], shared, &line);
            if shared {
                judged([a, Row { process: a.process, ..b }], false, &line);
                judged([a, Row { file: a.file + 1, ..b }], false, &line);
            }
        }
        if shared {
            judged(two_rows([READ, READ], ranges), false, &line);
        }
        run += 1;
    }
    vectors::all_run("overlap.txt", &text, &["O"], run);
}

// ---- Rows that no reader has seen

/// Two ranges share a byte exactly where neither is empty and one starts within the other.
fn share(ranges: [Range; 2]) -> bool {
    let [(a, n), (b, m)] = ranges.map(|(start, length)| (u64::from(start), u64::from(length)));
    n > 0 && m > 0 && ((a <= b && b < a + n) || (b <= a && a < b + m))
}

/// Fails unless the verdict on two rows as they are, in either order, is the rule's.
fn compare(kinds: [u32; 2], ranges: [Range; 2], model: Model, told: &str) {
    let [a, b] = two_rows(kinds, ranges);
    let want = if share(ranges) { Verdict::Race { earlier: 1, later: 2 } } else { Verdict::Free };
    for rows in [[a, b], [b, a]] {
        let got = verdict(&numbers(&rows), 2, 2, model.number(), &mut [7; 4]);
        assert_eq!(got, want, "under {}, {rows:?}\n{told}", model.name());
    }
}

#[test]
fn ranges_that_no_reader_has_seen() {
    let edges = [0, 1, 2, (1 << 31) - 1, 1 << 31, u32::MAX - 1, u32::MAX];
    let ranges: Vec<Range> = edges.iter().flat_map(|start| edges.map(|length| (*start, length))).collect();
    for a in &ranges {
        for b in &ranges {
            for kinds in KIND_PAIRS {
                Model::ALL.iter().for_each(|model| compare(kinds, [*a, *b], *model, "at the edges"));
            }
        }
    }
}

/// A number of 0 to 32 bits, at times counted down from the largest.
fn number(r: &mut Random) -> u32 {
    let bits = r.below(33);
    let number = (r.bits() >> 32 >> (32 - bits)) as u32;
    if r.once_in(4) {
        u32::MAX - number
    } else {
        number
    }
}

/// Two ranges, of which one often starts where the other ends, or a byte before or behind, where that has 32 bits.
fn some_ranges(r: &mut Random) -> [Range; 2] {
    let a = (number(r), number(r));
    let near = u64::from(a.0) + u64::from(a.1) + u64::from(r.below(3));
    let near = near.checked_sub(1).and_then(|start| u32::try_from(start).ok());
    let start = near.filter(|_| r.once_in(2)).unwrap_or_else(|| number(r));
    let b = (start, number(r));
    r.pick(&[[a, b], [b, a]])
}

/// How often ranges of each sort came.
#[derive(Default, Debug)]
struct Seen {
    shared: u64,
    empty: u64,
    /// Ranges that end past 32 bits.
    past: u64,
    /// Pairs, none of them empty, of which one starts where the other ends, a byte before its end, or a byte behind it.
    touching: u64,
    last_byte: u64,
    apart: u64,
}

fn count(ranges: [Range; 2], seen: &mut Seen) {
    let [a, b] = ranges.map(|(start, length)| (u64::from(start), u64::from(start) + u64::from(length)));
    let filled = a.0 < a.1 && b.0 < b.1;
    let at = |place: fn(u64) -> u64| u64::from(filled && (b.0 == place(a.1) || a.0 == place(b.1)));
    seen.shared += u64::from(share(ranges));
    seen.empty += u64::from(!filled);
    seen.past += u64::from(a.1.max(b.1) > u64::from(u32::MAX));
    seen.touching += at(|end| end);
    seen.last_byte += at(|end| end - 1);
    seen.apart += at(|end| end + 1);
}

#[test]
fn random_ranges() {
    let (pairs, seed) = (setting("KIQSARYN_PAIRS", PAIRS), setting("KIQSARYN_SEED", SEED));
    let mut seen = Seen::default();
    for number in 0..pairs {
        let seed = seed.wrapping_add(number);
        let r = &mut Random::new(seed);
        let (ranges, kinds, model) = (some_ranges(r), r.pick(&KIND_PAIRS), r.pick(&Model::ALL));
        compare(kinds, ranges, model, &format!("pair of seed {seed}; repeat it with KIQSARYN_SEED={seed} KIQSARYN_PAIRS=1"));
        count(ranges, &mut seen);
    }
    println!("{pairs} pairs, seed {seed}: {seen:?}");
    if pairs >= 20_000 {
        assert!(seen.shared * 8 > pairs && (pairs - seen.shared) * 8 > pairs, "many share a byte, and many share none: {seen:?}");
        assert!(seen.empty * 100 > pairs && seen.past * 100 > pairs, "some are empty, and some end past 32 bits: {seen:?}");
        let near = [seen.touching, seen.last_byte, seen.apart];
        assert!(near.iter().all(|n| n * 20 > pairs), "many end where the other starts, or a byte from there: {seen:?}");
    }
}
