//! Random rows put to machines and plain files, through the library and through the naive rules: the answer, the whole slice of maps and the
//! whole answer slice after every making, step and replay, for lawful states, damaged ones, short slices and wild rows.
//!
//! By hand, more of them: `KIQSARYN_STEPS=1000000 KIQSARYN_SEED=7 cargo test --offline --test random_machines -- --nocapture`. Each machine has
//! a seed of its own, the seed plus its number, so `KIQSARYN_STEPS=1` with the seed that a failure prints repeats that machine alone.

#[allow(dead_code)]
mod naive;
mod state;

use kiqsaryn::{Header, Refusal, Replayed, Row, BARRIER, COMMIT, READ, RECV, SEND, SYNC, WAIT, WRITE};
use naive::machine::{self, encode, numbers, Cell, Lent};
use naive::random::{setting, Random};
use naive::PROCESSES;
use state::State;

const STEPS: u64 = 300_000;
const SEED: u64 = 20_240_202;

/// How often each answer came.
#[derive(Default, Debug)]
struct Seen {
    made: u64,
    unmade: [u64; 18],
    steps: u64,
    done: [u64; 6],
    pieces: u64,
    refused: [u64; 18],
    replays: u64,
    whole: u64,
    stopped: [u64; 18],
}

fn refusal(number: u32) -> Refusal {
    Refusal::from_number(number).expect("a refusal")
}

fn again(seed: u64) -> String {
    format!("machine of seed {seed}; repeat it with KIQSARYN_SEED={seed} KIQSARYN_STEPS=1")
}

impl State {
    /// Where each map lies in the slice; none where the limits are wild.
    fn parts(&self) -> Vec<std::ops::Range<usize>> {
        let space = 4 * self.header.map_space as usize;
        let maps = if self.model.is_some() { self.header.process_limit as usize + 1 } else { 1 };
        (0..maps.min(PROCESSES as usize + 2)).map(|k| k * space..(k + 1) * space).filter(|part| part.end <= self.maps.len()).collect()
    }
}

// ---- Making

/// A header and a slice, mostly such that a machine is made.
fn state(r: &mut Random) -> State {
    let model = if r.once_in(4) { None } else { Some(if r.once_in(40) { r.pick(&[4, 5, u32::MAX]) } else { r.below(4) }) };
    let process_limit = match r.below(40) {
        0 => r.pick(&[0, PROCESSES + 1, u32::MAX]),
        1 => PROCESSES,
        _ => r.between(1, 4),
    };
    let file = if r.once_in(40) { r.pick(&[64, 65, u32::MAX]) } else { r.below(64) };
    let map_space = match r.below(40) {
        0 if r.once_in(2) => r.pick(&[u32::MAX, 1 << 30, 1 << 29]),
        0 => r.between(100, 400),
        1..=6 => r.below(3),
        7..=20 => r.between(3, 8),
        _ => r.between(9, 40),
    };
    let header = Header { process_limit, file, map_space };
    let len = if model.is_some() { header.maps_len() } else { header.map_len() };
    let mut len = len.unwrap_or(usize::MAX).min(105_000);
    match r.below(30) {
        0 => len = len.saturating_sub(1 + r.place(5)),
        1..=8 => len += r.place(9),
        _ => {}
    }
    let wild = r.once_in(2);
    let maps = (0..len).map(|_| if wild { r.bits() as u32 } else { 7 }).collect();
    State { model, header, maps }
}

/// Lawful maps with random runs in them, also such as no steps leave: two cells that touch, and under every model unpublished bytes.
fn fill(r: &mut Random, state: &mut State) {
    let space = state.header.map_space as usize;
    let base = if r.once_in(5) { u64::from(u32::MAX) - 30 } else { 0 };
    let ends: Vec<u64> = (0..31).map(|k| base + k).collect();
    for (k, part) in state.parts().into_iter().enumerate() {
        let rows = r.pick(&[1, 2, 9, 4096]);
        let sparse = r.between(1, 4);
        let mut cells = Vec::new();
        while cells.len() < 30 {
            let row = if r.once_in(sparse) { 0 } else { r.between(1, rows) };
            let unpublished = row > 0 && k > 0 && r.once_in(2);
            let alike = r.between(1, 4) as usize;
            cells.extend(std::iter::repeat_n(Cell { row, unpublished }, alike));
        }
        cells.truncate(30);
        let mut runs = encode(&ends, &cells);
        runs.truncate(space);
        state.maps[part].copy_from_slice(&numbers(&runs, space));
    }
}

fn compare_make(seed: u64, ours: &mut State, seen: &mut Seen) -> bool {
    let before = ours.clone();
    let mut want = ours.maps.clone();
    let answer = machine::make(ours.model, ours.header, &mut want);
    let told = || format!("{}\nmaking {before:?}", again(seed));
    assert_eq!(ours.make(), answer.map_err(refusal), "{}", told());
    assert!(ours.maps == want, "maps {:?}\n{}", ours.maps, told());
    match answer {
        Ok(()) => seen.made += 1,
        Err(number) => seen.unmade[number as usize] += 1,
    }
    answer.is_ok()
}

// ---- Rows

/// Where the ranges of one machine lie.
struct Ranges {
    base: u32,
    spread: u32,
    longest: u32,
}

fn ranges(r: &mut Random, h: Header) -> Ranges {
    if h.map_space >= 100 {
        return Ranges { base: 0, spread: 4_000, longest: r.pick(&[10, 200]) };
    }
    let base = if r.once_in(5) { u32::MAX - 30 } else { 0 };
    Ranges { base, spread: r.pick(&[6, 20, 30]), longest: r.pick(&[2, 6, 20]) }
}

/// A row of the machine's file, now and then a wild one.
fn row(r: &mut Random, h: Header, ranges: &Ranges) -> Row {
    let process =
        if r.once_in(60) { r.pick(&[h.process_limit, u32::MAX, PROCESSES]) } else { r.below(h.process_limit.clamp(1, PROCESSES)) };
    let kind = match r.below(60) {
        0 => r.pick(&[SEND, RECV, WAIT, BARRIER, BARRIER + 1, u32::MAX]),
        1..=22 => WRITE,
        23..=36 => READ,
        _ => r.between(COMMIT, SYNC),
    };
    let file = if r.once_in(60) { r.pick(&[0, 63, 64, h.file ^ 1, u32::MAX]) } else { h.file };
    let offset = ranges.base.saturating_add(r.below(ranges.spread));
    let length = r.below(ranges.longest + 1);
    let mut row =
        Row { process, kind, file, offset, length: if r.once_in(9) { length } else { length.min(u32::MAX - offset) }, message: 0 };
    if r.once_in(30) {
        (row.offset, row.length) =
            r.pick(&[(0, u32::MAX), (u32::MAX, 0), (u32::MAX, 1), (1, u32::MAX), (1, u32::MAX - 1), (0, 0), (9, 1 << 31)]);
    }
    if r.once_in(100) {
        (row.offset, row.length) = (r.bits() as u32, r.bits() as u32);
    }
    row.message = r.bits() as u32;
    row
}

fn out_slice(r: &mut Random) -> Vec<u32> {
    let len = if r.once_in(3) { r.place(12) } else { 40 + r.place(60) };
    (0..len).map(|_| r.bits() as u32).collect()
}

// ---- Steps

fn compare_step(seed: u64, ours: &mut State, row: Row, number: u32, out: &mut [u32], seen: &mut Seen) {
    let (before, out_before) = (ours.clone(), out.to_vec());
    let (mut maps, mut want) = (ours.maps.clone(), out.to_vec());
    let answer = machine::step(ours.model, ours.header, &mut maps, row, number, &mut want);
    let told = || {
        let files = format!("{}\nstep of {before:?}", again(seed));
        format!("{files}\n{row:?} under number {number}, answer slice {out_before:?}")
    };
    let got = ours.step(row, number, out);
    assert_eq!(got, answer.map_err(refusal), "{}", told());
    assert!(ours.maps == maps, "maps {:?} and not {maps:?}\n{}", ours.maps, told());
    assert!(out == want, "answer slice {out:?} and not {want:?}\n{}", told());
    seen.steps += 1;
    match answer {
        Ok(count) => {
            seen.done[row.kind as usize] += 1;
            seen.pieces += u64::from(count);
        }
        Err(number) => seen.refused[number as usize] += 1,
    }
}

/// One number overwritten: anything, or a neighbour of what stood there, or a neighbour of another number.
fn damage(r: &mut Random, maps: &mut [u32]) {
    if maps.is_empty() {
        return;
    }
    let (k, from) = (r.place(maps.len()), r.place(maps.len()));
    maps[k] = match r.below(5) {
        0 => r.pick(&[0, 1, 2, 4096, 4097, u32::MAX]),
        1 => maps[k].wrapping_add(1),
        2 => maps[k].wrapping_sub(1),
        3 => maps[from],
        _ => maps[k] ^ 1,
    };
}

fn steps(r: &mut Random, seed: u64, ours: &mut State, seen: &mut Seen) {
    let ranges = ranges(r, ours.header);
    for k in 0..r.between(5, 60) {
        let lawful = machine::state(ours.model, ours.header, &ours.maps).is_some();
        let sound = ours.maps.clone();
        if lawful && r.once_in(12) {
            // near the front, where runs stand
            let part = r.pick(&[ours.maps.len(), 8, 16]).min(ours.maps.len());
            damage(r, &mut ours.maps[..part]);
        }
        let number = match r.below(30) {
            0 => r.pick(&[0, 4096, 4097, u32::MAX]),
            1..=9 => r.between(1, 3),
            _ => k + 1,
        };
        let mut out = out_slice(r);
        compare_step(seed, ours, row(r, ours.header, &ranges), number, &mut out, seen);
        if lawful && machine::state(ours.model, ours.header, &ours.maps).is_none() {
            ours.maps = sound;
        }
    }
}

// ---- Replays

/// The numbers of rows, among them rows of other files and of none.
fn trace(r: &mut Random, h: Header, n: usize, tame: bool) -> Vec<u32> {
    let ranges = ranges(r, h);
    let mut rows = Vec::new();
    while rows.len() < 6 * n {
        let mut row = row(r, h, &ranges);
        if tame {
            row.process %= h.process_limit.max(1);
            row.length = row.length.min(u32::MAX - row.offset);
        }
        rows.extend([row.process, row.kind, row.file, row.offset, row.length, row.message]);
    }
    rows
}

/// What a replay is lent besides the maps.
#[derive(Clone, Debug)]
struct Slices {
    rows: Vec<u32>,
    counts: Vec<u32>,
    out: Vec<u32>,
}

/// A replay and the naive one, step by step.
fn compare_replay(seed: u64, ours: &mut State, slices: &mut Slices, first: u32, n: u32, seen: &mut Seen) -> Replayed {
    let (before, slices_before) = (ours.clone(), slices.clone());
    let (mut maps, mut want) = (ours.maps.clone(), slices.clone());
    let lent = Lent { rows: &want.rows, counts: &mut want.counts, out: &mut want.out };
    let (gone, refused) = machine::replay(ours.model, ours.header, &mut maps, lent, first, n);
    let told = || format!("{}\nreplay on {before:?}\nrows {first} to {n} of {slices_before:?}", again(seed));
    let got = ours.replay(&slices.rows, first, n, &mut slices.counts, &mut slices.out);
    assert_eq!(got, Replayed { rows: gone, refusal: refused.map(refusal) }, "{}", told());
    assert!(ours.maps == maps, "maps {:?} and not {maps:?}\n{}", ours.maps, told());
    assert!(slices.counts == want.counts, "counts {:?} and not {:?}\n{}", slices.counts, want.counts, told());
    assert!(slices.out == want.out, "answer slice {:?} and not {:?}\n{}", slices.out, want.out, told());
    seen.replays += 1;
    seen.steps += u64::from(gone.saturating_sub(first));
    match refused {
        None => seen.whole += 1,
        Some(number) => seen.stopped[number as usize] += 1,
    }
    got
}

/// A replay taken up again after each stop, with more room for answers or without the refused row, comes to what one replay of those rows
/// comes to.
fn resumed(r: &mut Random, seed: u64, ours: &mut State, seen: &mut Seen) {
    let n = if ours.header.map_space >= 100 { r.between(100, 400) } else { r.between(1, 60) };
    let tame = r.once_in(2);
    let rows = trace(r, ours.header, n as usize, tame);
    let counts: Vec<u32> = (0..n + 3).map(|_| r.bits() as u32).collect();
    let mut whole = ours.clone();
    let mut slices = Slices { rows, counts, out: Vec::new() };
    let (mut at, mut pieces) = (0, Vec::new());
    while at < n {
        let end = r.between(at, n);
        slices.out = out_slice(r);
        let done = compare_replay(seed, ours, &mut slices, at, end, seen);
        if matches!(done.refusal, Some(Refusal::UnlawfulState | Refusal::ShortSlice)) {
            return;
        }
        let count: u32 = slices.counts[at as usize..done.rows as usize].iter().sum();
        pieces.extend(&slices.out[..3 * count as usize]);
        at = done.rows;
        if done.refusal.is_some_and(|refusal| refusal != Refusal::AnswerSpace || r.once_in(3)) {
            // the refused row becomes one of no file
            slices.rows[6 * at as usize + 1] = r.pick(&[SEND, RECV, WAIT, BARRIER]);
        }
    }
    let counts = slices.counts.clone();
    slices.counts[..n as usize].fill(9);
    slices.out = vec![5; pieces.len() + 4];
    let done = compare_replay(seed, &mut whole, &mut slices, 0, n, seen);
    let same = done == Replayed { rows: n, refusal: None } && whole.maps == ours.maps && slices.counts == counts;
    assert!(same && slices.out[..pieces.len()] == pieces, "a replay in parts and in one\n{}", again(seed));
}

/// A replay with anything as its arguments.
fn wild_replay(r: &mut Random, seed: u64, ours: &mut State, seen: &mut Seen) {
    let long = r.once_in(200);
    let len = if long { 4099 } else { r.below(30) };
    let n = if r.once_in(10) { r.pick(&[len + 1, u32::MAX, 1 << 30]) } else { len.saturating_sub(r.below(2)) };
    let first = if long { r.between(4080, 4096) } else { r.pick(&[0, 0, 1, n / 2, n, n.saturating_add(1), u32::MAX]) };
    let rows = trace(r, ours.header, len as usize, long);
    let counts = (0..len + r.below(2)).map(|_| r.bits() as u32).collect();
    let mut slices = Slices { rows, counts, out: out_slice(r) };
    match r.below(8) {
        0 => slices.rows.truncate(slices.rows.len().saturating_sub(1)),
        1 => slices.counts.truncate(slices.counts.len().saturating_sub(1)),
        2 => damage(r, &mut ours.maps),
        _ => {}
    }
    compare_replay(seed, ours, &mut slices, first, n, seen);
}

#[test]
fn random_machines() {
    let (most, seed) = (setting("KIQSARYN_STEPS", STEPS), setting("KIQSARYN_SEED", SEED));
    let mut seen = Seen::default();
    let mut number = 0;
    while seen.steps < most {
        let seed = seed.wrapping_add(number);
        let r = &mut Random::new(seed);
        let mut ours = state(r);
        let made = compare_make(seed, &mut ours, &mut seen);
        if made && r.once_in(3) {
            fill(r, &mut ours);
        }
        let lawful = ours.clone();
        steps(r, seed, &mut ours, &mut seen);
        if r.once_in(2) {
            ours = lawful;
        }
        resumed(r, seed, &mut ours, &mut seen);
        wild_replay(r, seed, &mut ours, &mut seen);
        number += 1;
    }
    println!("{number} machines, seed {seed}: {seen:?}");
    if most >= 20_000 {
        assert!(seen.done.iter().all(|n| *n >= 500) && seen.pieces >= 5_000, "every kind is done: {seen:?}");
        assert!([10, 11, 13, 14, 15, 16, 17].iter().all(|k| seen.refused[*k] >= 50), "every refusal is met: {seen:?}");
        assert!([1, 2, 10].iter().all(|k| seen.unmade[*k] >= 5), "makings are refused: {seen:?}");
        assert!([1, 10, 11, 13, 14, 16, 17].iter().all(|k| seen.stopped[*k] >= 1) && seen.whole >= 500, "replays stop: {seen:?}");
    }
}
