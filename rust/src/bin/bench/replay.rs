//! Replays, next to the same rules over a vector of runs for each map: ranges found by halving, changes made on a copy and swapped in where
//! they fit, the state tested once and written back at the end.

use crate::harness::{timed, Case, Timed, SIZES};
use kiqsaryn::{make, make_plain, replay, replay_plain, Header, Model, Replayed, CLOSE, COMMIT, OPEN, PROCESSES, READ, SYNC, WRITE};
use std::hint::black_box;

// ---- The plain version

#[derive(Clone, Copy, PartialEq)]
struct Run {
    start: u32,
    len: u32,
    row: u32,
    mark: u32,
}

impl Run {
    fn end(self) -> u32 {
        self.start + self.len
    }

    fn continues(self, before: Run) -> bool {
        before.end() == self.start && before.row == self.row && before.mark == self.mark
    }
}

type Map = Vec<Run>;

fn decode(numbers: &[u32]) -> Option<Map> {
    let mut map: Map = Vec::new();
    let mut pieces = numbers.chunks_exact(4);
    for piece in pieces.by_ref() {
        if piece == [0; 4] {
            break;
        }
        let run = Run { start: piece[0], len: piece[1], row: piece[2], mark: piece[3] };
        let right = run.len > 0 && run.start.checked_add(run.len).is_some() && (1..=4096).contains(&run.row) && run.mark <= 1;
        if !right || map.last().is_some_and(|before| before.end() > run.start || run.continues(*before)) {
            return None;
        }
        map.push(run);
    }
    pieces.all(|piece| piece == [0; 4]).then_some(map)
}

fn encode(map: &Map, numbers: &mut [u32]) {
    let (front, rest) = numbers.split_at_mut(4 * map.len());
    for (piece, run) in front.chunks_exact_mut(4).zip(map) {
        piece.copy_from_slice(&[run.start, run.len, run.row, run.mark]);
    }
    rest.fill(0);
}

/// Lays a run over a map, or refuses and changes nothing where that takes more runs than there may be.
fn lay(map: &mut Map, new: Run, space: usize) -> Result<(), u32> {
    if new.len == 0 {
        return Ok(());
    }
    // all runs that meet or touch the new one
    let from = map.partition_point(|run| run.end() < new.start);
    let to = from + map[from..].partition_point(|run| run.start <= new.end());
    let mut pieces = [new; 3];
    let (mut first, mut last) = (1, 1);
    if let Some(run) = map[from..to].first().filter(|run| run.start < new.start) {
        if (run.row, run.mark) == (new.row, new.mark) {
            pieces[1] = Run { start: run.start, len: pieces[1].end() - run.start, ..new };
        } else {
            pieces[0] = Run { len: new.start - run.start, ..*run };
            first = 0;
        }
    }
    if let Some(run) = map[from..to].last().filter(|run| run.end() > new.end()) {
        if (run.row, run.mark) == (new.row, new.mark) {
            pieces[1].len = run.end() - pieces[1].start;
        } else {
            pieces[2] = Run { start: new.end(), len: run.end() - new.end(), ..*run };
            last = 2;
        }
    }
    let pieces = &pieces[first..=last];
    if map.len() - (to - from) + pieces.len() > space {
        return Err(16);
    }
    map.splice(from..to, pieces.iter().copied());
    Ok(())
}

/// The published map with a view's unpublished runs laid over it, where it fits.
fn laid(published: &Map, view: &Map, mark: u32, into: &mut Map, space: usize) -> Result<(), u32> {
    into.clone_from(published);
    for run in view.iter().filter(|run| run.mark == 1) {
        lay(into, Run { mark, ..*run }, usize::MAX)?;
    }
    if into.len() > space {
        return Err(16);
    }
    Ok(())
}

fn clear_marks(view: &mut Map) {
    view.iter_mut().for_each(|run| run.mark = 0);
    view.dedup_by(|run, before| {
        let joined = run.continues(*before);
        before.len += if joined { run.len } else { 0 };
        joined
    });
}

/// The pieces of a range.
fn list(view: &Map, start: u32, end: u32, out: &mut Vec<[u32; 3]>) {
    out.clear();
    let mut push = |start: u32, end: u32, row: u32| match out.last_mut() {
        _ if start == end => {}
        Some(before) if before[2] == row => before[1] += end - start,
        _ => out.push([start, end - start, row]),
    };
    let mut at = start;
    for run in &view[view.partition_point(|run| run.end() <= start)..] {
        if run.start >= end {
            break;
        }
        let (from, to) = (run.start.max(start), run.end().min(end));
        push(at, from, 0);
        push(from, to, run.row);
        at = to;
    }
    push(at, end, 0);
}

/// A machine, or a plain file where there is no model, with room for its changes.
struct Plain {
    model: Option<u32>,
    header: Header,
    maps: Vec<Map>,
    view: Map,
    published: Map,
    pieces: Vec<[u32; 3]>,
}

impl Plain {
    fn over(model: Option<u32>, header: Header, maps: &[u32]) -> Option<Plain> {
        let right = model.is_none_or(|m| m <= 3) && (1..=PROCESSES).contains(&header.process_limit) && header.file <= 63;
        let len = if model.is_some() { header.maps_len() } else { header.map_len() }.filter(|len| right && *len <= maps.len())?;
        let maps: Option<Vec<Map>> = maps[..len].chunks_exact(4 * header.map_space.max(1) as usize).map(decode).collect();
        let maps = maps.filter(|maps| maps.first().is_none_or(|map| map.iter().all(|run| run.mark == 0)))?;
        Some(Plain { model, header, maps, view: Vec::new(), published: Vec::new(), pieces: Vec::new() })
    }

    fn step(&mut self, row: &[u32], number: u32, out: &mut [u32]) -> Result<usize, u32> {
        let &[process, kind, file, offset, length, _] = row else { unreachable!() };
        if kind > SYNC || file != self.header.file {
            return Err(15);
        }
        if !(1..=4096).contains(&number) {
            return Err(14);
        }
        if process >= self.header.process_limit {
            return Err(10);
        }
        if kind <= WRITE && offset.checked_add(length).is_none() {
            return Err(11);
        }
        let space = self.header.map_space as usize;
        let me = if self.model.is_some() { 1 + process as usize } else { 0 };
        let new = Run { start: offset, len: length, row: number, mark: u32::from(self.model.is_some()) };
        match (self.model, kind) {
            (Some(0), WRITE) => {
                self.view.clone_from(&self.maps[me]);
                lay(&mut self.view, new, usize::MAX)?;
                self.publish(me, space)?;
            }
            (_, WRITE) => lay(&mut self.maps[me], new, space)?,
            (Some(0 | 1), READ) => {
                laid(&self.maps[0], &self.maps[me], 1, &mut self.view, space)?;
                list(&self.view, offset, offset + length, &mut self.pieces);
                let count = self.answer(out)?;
                std::mem::swap(&mut self.view, &mut self.maps[me]);
                return Ok(count);
            }
            (_, READ) => {
                list(&self.maps[me], offset, offset + length, &mut self.pieces);
                return self.answer(out);
            }
            (Some(1), COMMIT) | (Some(2 | 3), CLOSE) => {
                self.view.clone_from(&self.maps[me]);
                self.publish(me, space)?;
            }
            (Some(2 | 3), OPEN) => {
                laid(&self.maps[0], &self.maps[me], 1, &mut self.view, space)?;
                std::mem::swap(&mut self.view, &mut self.maps[me]);
            }
            (Some(3), SYNC) => {
                laid(&self.maps[0], &self.maps[me], 0, &mut self.published, space)?;
                std::mem::swap(&mut self.published, &mut self.maps[0]);
                let [published, views @ ..] = &mut self.maps[..] else { unreachable!() };
                views[process as usize].clone_from(published);
            }
            _ => {}
        }
        Ok(0)
    }

    /// Publishes the view at hand and puts it in its place.
    fn publish(&mut self, me: usize, space: usize) -> Result<(), u32> {
        laid(&self.maps[0], &self.view, 0, &mut self.published, space)?;
        clear_marks(&mut self.view);
        if self.view.len() > space {
            return Err(16);
        }
        std::mem::swap(&mut self.published, &mut self.maps[0]);
        std::mem::swap(&mut self.view, &mut self.maps[me]);
        Ok(())
    }

    fn answer(&self, out: &mut [u32]) -> Result<usize, u32> {
        let pieces = self.pieces.as_flattened();
        out.get_mut(..pieces.len()).ok_or(17u32)?.copy_from_slice(pieces);
        Ok(self.pieces.len())
    }
}

#[inline(never)]
fn plain(model: Option<u32>, h: Header, maps: &mut [u32], rows: &[u32], counts: &mut [u32], out: &mut [u32]) -> (usize, u32) {
    let n = rows.len() / 6;
    if counts.len() < n {
        return (0, 1);
    }
    let Some(mut state) = Plain::over(model, h, maps) else {
        return (0, 13);
    };
    let (mut done, mut refusal, mut pieces) = (n, 0, 0);
    for (k, row) in rows.chunks_exact(6).enumerate() {
        let mut count = 0;
        if row[1] <= SYNC && row[2] == h.file {
            match state.step(row, k as u32 + 1, &mut out[3 * pieces..]) {
                Ok(c) => count = c,
                Err(number) => {
                    (done, refusal) = (k, number);
                    break;
                }
            }
        }
        counts[k] = count as u32;
        pieces += count;
    }
    for (map, part) in state.maps.iter().zip(maps.chunks_exact_mut(4 * h.map_space.max(1) as usize)) {
        encode(map, part);
    }
    (done, refusal)
}

// ---- Traces

/// Where writes go.
#[derive(Clone, Copy)]
enum Shape {
    /// Two clips for each process, overwritten in place.
    Clips,
    /// Two clips at each of four places a gigabyte apart, each place for a quarter of the processes.
    Sparse,
    /// So many places far apart.
    Places(u32),
    /// A place of its own for each write.
    Scattered,
}

impl Shape {
    fn name(self) -> String {
        match self {
            Shape::Clips => "clips".to_string(),
            Shape::Sparse => "sparse clips".to_string(),
            Shape::Places(k) => format!("{k} places"),
            Shape::Scattered => "scattered".to_string(),
        }
    }

    /// The range of write k of a process.
    fn range(self, process: u32, k: u32) -> (u32, u32) {
        let far = |k: u32| k.wrapping_mul(2_654_435_761) / 64 * 16;
        match self {
            Shape::Clips => (200 * process + 100 * (k % 2), 90),
            Shape::Sparse => (process % 4 * (1 << 30) + 100 * (k % 2), 90),
            Shape::Places(places) => (far(k % places), 8),
            Shape::Scattered => (far(k), 8),
        }
    }

    /// The range of a read near a write: over a process's clips, over all bytes where these are sparse, or over some sixteen places.
    fn read(self, offset: u32, n: u32) -> (u32, u32) {
        match self {
            Shape::Clips => (offset, 190),
            Shape::Sparse => (0, u32::MAX),
            Shape::Places(places) => (offset, (1 << 30) / (places / 16 + 1)),
            Shape::Scattered => (offset, (1 << 30) / (n / 40 + 1)),
        }
    }

    /// The space of a map for a trace of n rows.
    fn space(self, n: u32) -> u32 {
        match self {
            Shape::Clips | Shape::Sparse => 192,
            Shape::Places(_) | Shape::Scattered => n,
        }
    }
}

/// Two writes, a publishing row, and by the next process a refreshing row and a read.
fn trace(shape: Shape, model: Option<Model>, n: u32) -> Vec<u32> {
    let (publish, refresh) = match model {
        Some(Model::Session) => (CLOSE, OPEN),
        Some(Model::MpiIo) => (SYNC, SYNC),
        _ => (COMMIT, OPEN),
    };
    let mut rows = Vec::new();
    for i in 0..n {
        let p = i / 5 % PROCESSES;
        let next = (p + 1) % PROCESSES;
        let (offset, length) = shape.range(p, i / 5 * 2 + i % 5 % 2);
        let (from, reach) = shape.read(offset, n);
        rows.extend(match i % 5 {
            0 | 1 => [p, WRITE, 1, offset, length, 0],
            2 => [p, publish, 1, 0, 0, 0],
            3 => [next, refresh, 1, 0, 0, 0],
            _ => [next, READ, 1, from, reach, 0],
        });
    }
    rows
}

fn case(shape: Shape, model: Option<Model>, n: usize) -> Timed {
    let rows = trace(shape, model, n as u32);
    let model = model.map(Model::number);
    let h = Header { process_limit: PROCESSES, file: 1, map_space: shape.space(n as u32) };
    let len = if model.is_some() { h.maps_len() } else { h.map_len() }.expect("a length");
    let library = move |rows: &[u32], maps: &mut [u32], counts: &mut [u32], out: &mut [u32]| match model {
        Some(model) => replay(model, h, maps, rows, 0, n as u32, counts, out),
        None => replay_plain(h, maps, rows, 0, n as u32, counts, out),
    };
    let fresh = move |maps: &mut [u32]| match model {
        Some(model) => make(model, h, maps),
        None => make_plain(h, maps),
    };
    let lent = move || (vec![0u32; len], vec![0u32; n], vec![0u32; 3 * 40 * n]);
    let [mut a, mut b] = [lent(), lent()];
    let [ours, theirs, all] = [rows.clone(), rows.clone(), rows];
    Timed {
        library: Box::new(move || {
            fresh(&mut a.0).expect("a machine");
            timed(|| library(black_box(&ours), &mut a.0, &mut a.1, &mut a.2))
        }),
        plain: vec![(
            "vectors of runs",
            Box::new(move || {
                b.0.fill(0);
                timed(|| plain(model, h, &mut b.0, black_box(&theirs), &mut b.1, &mut b.2))
            }),
        )],
        same: Box::new(move || {
            let [mut a, mut b] = [lent(), lent()];
            assert_eq!(library(&all, &mut a.0, &mut a.1, &mut a.2), Replayed { rows: n as u32, refusal: None });
            assert_eq!(plain(model, h, &mut b.0, &all, &mut b.1, &mut b.2), (n, 0));
            assert!(a == b);
            // the runs of the published map, or of the plain file's
            Some(("extents", a.0[..4 * h.map_space as usize].chunks(4).filter(|run| run[1] > 0).count()))
        }),
    }
}

pub fn cases() -> Vec<Case> {
    let models = [Some(Model::Posix), Some(Model::Commit), Some(Model::Session), Some(Model::MpiIo), None];
    let one = |shape: Shape, model: Option<Model>, rows: usize| Case {
        name: format!("{}, {}", model.map_or("plain", Model::name), shape.name()),
        rows,
        make: Box::new(move || case(shape, model, rows)),
    };
    let mut all = Vec::new();
    for shape in [Shape::Clips, Shape::Scattered] {
        for model in models {
            all.extend(SIZES.map(|rows| one(shape, model, rows)));
        }
    }
    for model in [Some(Model::Posix), Some(Model::Commit)] {
        all.extend(SIZES.map(|rows| one(Shape::Sparse, model, rows)));
    }
    for model in [Some(Model::Commit), None] {
        all.extend([16, 64, 256, 1024].map(|places| one(Shape::Places(places), model, 4096)));
    }
    all
}
