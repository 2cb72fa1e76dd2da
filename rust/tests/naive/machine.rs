//! The layered machine and the plain file. Bytes between two neighbouring ends of runs and ranges are alike, so they are kept as one cell; a
//! map is decoded into cells, the row is applied cell by cell, and the longest runs of the outcome are encoded.

use super::is_process_limit;
use kiqsaryn::{Header, Row, CLOSE, COMMIT, OPEN, READ, SYNC, WRITE};

pub const END: u64 = u32::MAX as u64;

/// What a byte holds in a map: a row number, 0 if never written, and whether it is unpublished.
#[derive(Clone, Copy, PartialEq, Debug)]
pub struct Cell {
    pub row: u32,
    pub unpublished: bool,
}

pub const NEVER: Cell = Cell { row: 0, unpublished: false };

#[derive(Clone, Copy, PartialEq, Debug)]
pub struct Run {
    pub start: u64,
    pub end: u64,
    pub cell: Cell,
}

/// The runs of a map if it is lawful: longest runs in rising order, then 0.
pub fn decode(map: &[u32]) -> Option<Vec<Run>> {
    let mut runs: Vec<Run> = Vec::new();
    let mut pieces = map.chunks(4);
    for piece in pieces.by_ref() {
        if piece == [0, 0, 0, 0] {
            break;
        }
        let start = u64::from(piece[0]);
        let run = Run { start, end: start + u64::from(piece[1]), cell: Cell { row: piece[2], unpublished: piece[3] == 1 } };
        let right = piece[1] > 0 && run.end <= END && (1..=4096).contains(&piece[2]) && piece[3] <= 1;
        let follows = match runs.last() {
            None => true,
            Some(before) => before.end < run.start || (before.end == run.start && before.cell != run.cell),
        };
        if !right || !follows {
            return None;
        }
        runs.push(run);
    }
    pieces.all(|piece| piece == [0, 0, 0, 0]).then_some(runs)
}

/// The longest runs of cells between these ends, the bytes never written left out.
pub fn encode(ends: &[u64], cells: &[Cell]) -> Vec<Run> {
    let mut runs: Vec<Run> = Vec::new();
    for (k, cell) in cells.iter().enumerate().filter(|(_, cell)| **cell != NEVER) {
        match runs.last_mut() {
            Some(before) if before.end == ends[k] && before.cell == *cell => before.end = ends[k + 1],
            _ => runs.push(Run { start: ends[k], end: ends[k + 1], cell: *cell }),
        }
    }
    runs
}

/// The numbers of a map: its runs, then 0.
pub fn numbers(runs: &[Run], space: usize) -> Vec<u32> {
    let mut map: Vec<u32> = Vec::new();
    for run in runs {
        map.extend([run.start as u32, (run.end - run.start) as u32, run.cell.row, u32::from(run.cell.unpublished)]);
    }
    map.resize(4 * space, 0);
    map
}

/// How many maps a state has: the published one and the processes', or the plain file's.
fn maps_of(model: Option<u32>, h: Header) -> u128 {
    match model {
        Some(_) => u128::from(h.process_limit) + 1,
        None => 1,
    }
}

/// Makes a machine, or a plain file where there is no model.
pub fn make(model: Option<u32>, h: Header, maps: &mut [u32]) -> Result<(), u32> {
    let len = 4 * u128::from(h.map_space) * maps_of(model, h);
    if (maps.len() as u128) < len {
        return Err(1);
    }
    if model.is_some_and(|m| m > 3) || !is_process_limit(h.process_limit) {
        return Err(2);
    }
    if h.file > 63 {
        return Err(10);
    }
    maps[..len as usize].fill(0);
    Ok(())
}

/// The runs of every map of a lawful state.
pub fn state(model: Option<u32>, h: Header, maps: &[u32]) -> Option<Vec<Vec<Run>>> {
    let right = model.is_none_or(|m| m <= 3) && is_process_limit(h.process_limit) && h.file <= 63;
    let len = 4 * u128::from(h.map_space) * maps_of(model, h);
    if !right || (maps.len() as u128) < len {
        return None;
    }
    let space = 4 * h.map_space as usize;
    let all: Option<Vec<Vec<Run>>> = (0..maps_of(model, h) as usize).map(|k| decode(&maps[k * space..(k + 1) * space])).collect();
    all.filter(|all| all[0].iter().all(|run| !run.cell.unpublished))
}

/// Puts a row to a machine, or to a plain file where there is no model. The answer is the count of a read's pieces, or a refusal.
pub fn step(model: Option<u32>, h: Header, maps: &mut [u32], row: Row, number: u32, out: &mut [u32]) -> Result<u32, u32> {
    let runs = state(model, h, maps).ok_or(13u32)?;
    if row.kind > SYNC || row.file != h.file {
        return Err(15);
    }
    if !(1..=4096).contains(&number) {
        return Err(14);
    }
    if row.process >= h.process_limit {
        return Err(10);
    }
    let data = row.kind == READ || row.kind == WRITE;
    let (start, end) = (u64::from(row.offset), u64::from(row.offset) + u64::from(row.length));
    if data && end > END {
        return Err(11);
    }

    let mut ends: Vec<u64> = runs.iter().flatten().flat_map(|run| [run.start, run.end]).collect();
    if data {
        ends.extend([start, end]);
    }
    ends.sort();
    ends.dedup();
    let places = 0..ends.len().saturating_sub(1);
    let mut cells: Vec<Vec<Cell>> = Vec::new();
    for runs in &runs {
        let mut map = vec![NEVER; places.len()];
        for run in runs {
            let place = |byte: u64| ends.partition_point(|end| *end < byte);
            map[place(run.start)..place(run.end)].fill(run.cell);
        }
        cells.push(map);
    }
    let inside: Vec<usize> = places.clone().filter(|k| start <= ends[*k] && ends[*k] < end).collect();

    let view = if model.is_some() { 1 + row.process as usize } else { 0 };
    if row.kind == WRITE {
        for k in &inside {
            cells[view][*k] = Cell { row: number, unpublished: model.is_some() };
        }
    }
    let (publishes, refreshes) = match (model, row.kind) {
        (Some(0), WRITE) | (Some(1), COMMIT) | (Some(2 | 3), CLOSE) => (true, false),
        (Some(0 | 1), READ) | (Some(2 | 3), OPEN) => (false, true),
        (Some(3), SYNC) => (true, true),
        _ => (false, false),
    };
    for k in places {
        if publishes && cells[view][k].unpublished {
            cells[view][k].unpublished = false;
            cells[0][k] = cells[view][k];
        }
        if refreshes && !cells[view][k].unpublished {
            cells[view][k] = cells[0][k];
        }
    }

    let after: Vec<Vec<Run>> = cells.iter().map(|cells| encode(&ends, cells)).collect();
    if after.iter().any(|runs| runs.len() > h.map_space as usize) {
        return Err(16);
    }
    let mut pieces: Vec<[u32; 3]> = Vec::new();
    if row.kind == READ {
        for k in inside {
            let (length, row) = ((ends[k + 1] - ends[k]) as u32, cells[view][k].row);
            match pieces.last_mut() {
                Some(before) if before[2] == row => before[1] += length,
                _ => pieces.push([ends[k] as u32, length, row]),
            }
        }
    }
    if 3 * pieces.len() > out.len() {
        return Err(17);
    }
    let space = h.map_space as usize;
    for (k, runs) in after.iter().enumerate() {
        maps[k * 4 * space..(k + 1) * 4 * space].copy_from_slice(&numbers(runs, space));
    }
    out[..3 * pieces.len()].copy_from_slice(pieces.as_flattened());
    Ok(pieces.len() as u32)
}

/// What a replay lends besides the maps.
pub struct Lent<'a> {
    pub rows: &'a [u32],
    pub counts: &'a mut [u32],
    pub out: &'a mut [u32],
}

/// Puts the rows behind the first ones, up to row n, to a machine or a plain file, step by step. The answer is how many rows are gone
/// through, and the refusal that ended it.
pub fn replay(model: Option<u32>, h: Header, maps: &mut [u32], lent: Lent, first: u32, n: u32) -> (u32, Option<u32>) {
    if (lent.rows.len() as u64) < 6 * u64::from(n) || (lent.counts.len() as u64) < u64::from(n) {
        return (first, Some(1));
    }
    if state(model, h, maps).is_none() {
        return (first, Some(13));
    }
    let mut pieces = 0;
    for k in first..n {
        let row = Row::at(lent.rows, k as usize).expect("six numbers for each row");
        let mut count = 0;
        if row.kind <= SYNC && row.file == h.file {
            match step(model, h, maps, row, k + 1, &mut lent.out[3 * pieces..]) {
                Err(refusal) => return (k, Some(refusal)),
                Ok(c) => count = c,
            }
        }
        lent.counts[k as usize] = count;
        pieces += count as usize;
    }
    (first.max(n), None)
}
