//! Every lookup of `vectors/lookup.txt` through the library and through the naive version; `machine.rs` runs the sequences behind them. Then random
//! lookups: in maps of which every byte is known, in damaged ones, and in slices whose length is no multiple of 4.
//!
//! By hand, more of them: `KIQSARYN_LOOKUPS=10000000 KIQSARYN_SEED=7 cargo test --offline --test lookup -- --nocapture`. Each map has a seed of its
//! own, the seed plus its number, so `KIQSARYN_LOOKUPS=1` with the seed that a failure prints repeats that map alone.

#[allow(dead_code)]
mod naive;
#[allow(dead_code)]
mod vectors;

use kiqsaryn::{lookup, Refusal, Stretch};
use naive::lookup::stretch;
use naive::machine::{encode, numbers, Cell, END, NEVER};
use naive::random::{setting, Random};

const LOOKUPS: u64 = 300_000;
const SEED: u64 = 20_240_505;

/// How many bytes of a random map can have a row number.
const BYTES: usize = 30;

fn refusal(number: u32) -> Refusal {
    Refusal::from_number(number).expect("a refusal")
}

#[test]
fn every_lookup_vector() {
    let text = vectors::text("lookup.txt");
    let mut lines = vectors::lines(&text).take_while(|line| line.words[0] != "M");
    let mut map = None;
    let mut run = 0;
    while let Some(line) = lines.next() {
        if line.words[0] == "K" {
            line.number(1);
            map = Some(line.numbers_from(2));
            continue;
        }
        line.kind(&[("L", 2)]);
        let (map, byte) = (map.as_ref().expect("a map"), line.number(1));
        let answer = lookup(map, byte);
        let told = match answer {
            Ok(s) => format!("> found {} {} {}", s.number, s.mark, s.next),
            Err(refusal) => format!("> refused {}", refusal.number()),
        };
        assert_eq!(told, lines.next().expect("an answer").words.join(" "), "the answer of {line}");
        assert_eq!(naive::lookup::lookup(map, byte).map_err(refusal), answer, "the naive answer of {line}");
        run += 1;
    }
    vectors::all_run("lookup.txt", &text, &["L"], run);
}

/// The cells of some bytes from a base on; all other bytes were never written.
struct Known {
    base: u64,
    cells: Vec<Cell>,
}

impl Known {
    fn random(r: &mut Random) -> Known {
        let last = END - BYTES as u64;
        let base = r.pick(&[0, 0, 5, 1 << 31, last - 3, last]);
        let (rows, sparse) = (r.pick(&[1, 2, 9, 4096]), r.between(1, 4));
        let mut cells = Vec::new();
        while cells.len() < BYTES {
            let row = if r.once_in(sparse) { 0 } else { r.between(1, rows) };
            let unpublished = row > 0 && r.once_in(2);
            cells.extend(std::iter::repeat_n(Cell { row, unpublished }, r.between(1, 4) as usize));
        }
        cells.truncate(BYTES);
        Known { base, cells }
    }

    fn at(&self, byte: u64) -> Cell {
        let place = byte.checked_sub(self.base).map(|k| k as usize);
        place.and_then(|k| self.cells.get(k)).copied().unwrap_or(NEVER)
    }

    /// The numbers of its map, with space for some runs more.
    fn map(&self, r: &mut Random) -> Vec<u32> {
        let ends: Vec<u64> = (0..=BYTES as u64).map(|k| self.base + k).collect();
        let runs = encode(&ends, &self.cells);
        numbers(&runs, runs.len() + r.place(4))
    }

    /// What a lookup has to find: from the byte on, byte by byte, up to one that is not as it. Before the base and behind the cells all bytes are
    /// alike, and are passed at once.
    fn lookup(&self, byte: u32) -> Result<Stretch, Refusal> {
        let byte = u64::from(byte);
        if byte == END {
            return Err(Refusal::RangeEnd);
        }
        let mut next = byte + 1;
        while next < END && self.at(next) == self.at(byte) {
            next = match next {
                n if n < self.base => self.base,
                n if n >= self.base + BYTES as u64 => END,
                n => n + 1,
            };
        }
        Ok(stretch(self.at(byte), next))
    }

    /// A byte among its cells or next to them, at one of the two ends of all bytes, or anywhere.
    fn byte(&self, r: &mut Random) -> u32 {
        match r.below(12) {
            0 => r.pick(&[0, 1, u32::MAX - 2, u32::MAX - 1, u32::MAX]),
            1 => r.bits() as u32,
            _ => (self.base + u64::from(r.below(BYTES as u32 + 4))).saturating_sub(2).min(END) as u32,
        }
    }
}

/// One number overwritten: anything, or a neighbour of what stood there, or another number of the map.
fn damage(r: &mut Random, map: &mut [u32]) {
    let (k, from) = (r.place(map.len()), r.place(map.len()));
    map[k] = match r.below(5) {
        0 => r.pick(&[0, 1, 2, 4096, 4097, u32::MAX]),
        1 => map[k].wrapping_add(1),
        2 => map[k].wrapping_sub(1),
        3 => map[from],
        _ => map[k] ^ 1,
    };
}

/// How often each answer came.
#[derive(Default, Debug)]
struct Seen {
    lookups: u64,
    published: u64,
    unpublished: u64,
    gaps: u64,
    to_the_end: u64,
    refused: [u64; 18],
}

impl Seen {
    fn note(&mut self, answer: Result<Stretch, Refusal>) {
        self.lookups += 1;
        match answer {
            Err(refusal) => self.refused[refusal.number() as usize] += 1,
            Ok(Stretch { next: u32::MAX, .. }) => self.to_the_end += 1,
            Ok(Stretch { number: 0, .. }) => self.gaps += 1,
            Ok(Stretch { mark: 0, .. }) => self.published += 1,
            Ok(_) => self.unpublished += 1,
        }
    }
}

/// Lookups in a map of which every byte is known, then in the same map damaged, then cut to a length that is no multiple of 4.
fn look_around(r: &mut Random, seed: u64, seen: &mut Seen) {
    let known = Known::random(r);
    let mut map = known.map(r);
    let told = |map: &[u32], byte: u32| format!("byte {byte} of {map:?}; repeat it with KIQSARYN_SEED={seed} KIQSARYN_LOOKUPS=1");
    for _ in 0..40 {
        let byte = known.byte(r);
        let answer = lookup(&map, byte);
        assert_eq!(answer, known.lookup(byte), "{}", told(&map, byte));
        assert_eq!(answer, naive::lookup::lookup(&map, byte).map_err(refusal), "{}", told(&map, byte));
        seen.note(answer);
    }
    if map.is_empty() {
        return;
    }
    damage(r, &mut map);
    if r.once_in(4) {
        map.truncate(map.len() - 1 - r.place(3));
    }
    for _ in 0..10 {
        let byte = known.byte(r);
        let answer = lookup(&map, byte);
        assert_eq!(answer, naive::lookup::lookup(&map, byte).map_err(refusal), "{}", told(&map, byte));
        seen.note(answer);
    }
}

#[test]
fn random_lookups() {
    let (most, seed) = (setting("KIQSARYN_LOOKUPS", LOOKUPS), setting("KIQSARYN_SEED", SEED));
    let mut seen = Seen::default();
    let mut number = 0;
    while seen.lookups < most {
        let seed = seed.wrapping_add(number);
        look_around(&mut Random::new(seed), seed, &mut seen);
        number += 1;
    }
    println!("{number} maps, seed {seed}: {seen:?}");
    if most >= 20_000 {
        let found = [seen.published, seen.unpublished, seen.gaps, seen.to_the_end];
        assert!(found.iter().all(|n| *n >= 500), "every kind of answer is found: {seen:?}");
        assert!([11, 13].iter().all(|k| seen.refused[*k] >= 50), "every refusal is met: {seen:?}");
    }
}
