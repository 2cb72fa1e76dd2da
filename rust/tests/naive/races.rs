//! Every race of a trace, what a listing answers, and the same rows in another allowed order.

use super::barriers::{is_held, processes};
use super::order::{is_race, Order};
use super::random::Random;
use kiqsaryn::{Row, PAIR, SEND, WAIT};

/// The numbers of the earlier and of the later row.
pub type Pair = (u32, u32);

/// Every race, taken out of all pairs and then put in order: by the later row, then by the earlier one.
pub fn races(rows: &[Row], order: &Order, model: u32) -> Vec<Pair> {
    let mut all = Vec::new();
    for x in 0..rows.len() {
        all.extend((x + 1..rows.len()).filter(|y| is_race(rows, order, model, x, *y)).map(|y| (x as u32 + 1, y as u32 + 1)));
    }
    all.sort_by_key(|(earlier, later)| (*later, *earlier));
    all
}

/// The number of pairs, with these in front of the lent list; or 23, where the list is too short for all, which keeps it.
pub fn list(pairs: &[Pair], list: &mut [u32]) -> Result<u32, u32> {
    let numbers: Vec<u32> = pairs.iter().flat_map(|(earlier, later)| [*earlier, *later]).collect();
    list.get_mut(..numbers.len()).ok_or(23u32)?.copy_from_slice(&numbers);
    Ok(pairs.len() as u32)
}

/// The numbers of a list two by two.
pub fn pairs_of(list: &[u32]) -> Vec<Pair> {
    list.chunks_exact(PAIR).map(|pair| (pair[0], pair[1])).collect()
}

/// Whether pairs rise by the later row and then by the earlier row, which stands before it.
pub fn rise(pairs: &[Pair]) -> bool {
    pairs.iter().all(|(earlier, later)| earlier < later) && pairs.windows(2).all(|w| (w[0].1, w[0].0) < (w[1].1, w[1].0))
}

// ---- Other orders of the same rows

/// The rows in another order: the row that stands at place k is the one that stood at `places[k]`.
pub fn moved(rows: &[Row], places: &[usize]) -> Vec<Row> {
    places.iter().map(|place| rows[*place]).collect()
}

/// Pairs of rows in another order by the numbers that the rows had, the smaller first, in the order in which races are listed.
pub fn by_old_numbers(pairs: &[Pair], places: &[usize]) -> Vec<Pair> {
    let old = |number: u32| places[number as usize - 1] as u32 + 1;
    let mut all: Vec<Pair> = pairs.iter().map(|(a, b)| (old(*a).min(old(*b)), old(*a).max(old(*b)))).collect();
    all.sort_by_key(|(earlier, later)| (*later, *earlier));
    all
}

/// Whether each row has one place, the rows of each process keep their order, each wait stands behind its send, and no process goes on from a barrier
/// before all have arrived.
pub fn is_allowed(rows: &[Row], places: &[usize]) -> bool {
    let mut all = places.to_vec();
    all.sort();
    let (moved, processes) = (moved(rows, places), processes(rows));
    let in_order = |k: usize| !places[..k].iter().any(|place| *place > places[k] && rows[*place].process == moved[k].process);
    let is_sent = |k: usize| moved[k].kind != WAIT || moved[..k].iter().any(|row| row.kind == SEND && row.message == moved[k].message);
    let may_stand = |k: usize| in_order(k) && is_sent(k) && !is_held(moved[k], &moved[..k], &processes);
    all.into_iter().eq(0..rows.len()) && (0..places.len()).all(may_stand)
}

/// Another order of rows, in which each stands behind all that happen before it: the next is any of those that can be, or the one whose process runs
/// ahead, which changes once in so many rows.
pub fn some_order(r: &mut Random, rows: &[Row], order: &Order) -> Vec<usize> {
    let n = rows.len();
    let mut waits_for: Vec<usize> = (0..n).map(|k| (0..n).filter(|j| order.before(*j, k)).count()).collect();
    let mut ready: Vec<usize> = (0..n).filter(|k| waits_for[*k] == 0).collect();
    let (mut places, mut ahead, stays) = (Vec::new(), 0, r.pick(&[1, 3, 10, 1000]));
    while !ready.is_empty() {
        let own = ready.iter().position(|k| rows[*k].process == ahead).filter(|_| !r.once_in(stays));
        let which = own.unwrap_or_else(|| r.place(ready.len()));
        let next = ready.swap_remove(which);
        places.push(next);
        ahead = rows[next].process;
        for k in (0..n).filter(|k| order.before(next, *k)) {
            waits_for[k] -= 1;
            if waits_for[k] == 0 {
                ready.push(k);
            }
        }
    }
    places
}
