//! A lookup in a map of pieces.

use super::machine::{decode, Cell, END, NEVER};
use kiqsaryn::Stretch;

/// What a lookup finds, or the number of its refusal: 13 of the whole map first, then 11 of the byte as a range of length 1. A byte has another cell
/// than the one before it only where a run starts or ends, so these are the bytes to try.
pub fn lookup(map: &[u32], byte: u32) -> Result<Stretch, u32> {
    let runs = if map.len().is_multiple_of(4) { decode(map) } else { None };
    let runs = runs.ok_or(13u32)?;
    let byte = u64::from(byte);
    if byte + 1 > END {
        return Err(11);
    }
    let at = |b: u64| runs.iter().find(|run| run.start <= b && b < run.end).map_or(NEVER, |run| run.cell);
    let edges = runs.iter().flat_map(|run| [run.start, run.end]);
    let next = edges.filter(|edge| byte < *edge && at(*edge) != at(byte)).min().unwrap_or(END);
    Ok(stretch(at(byte), next))
}

/// What stands at a byte, by its cell and the next byte of another.
pub fn stretch(cell: Cell, next: u64) -> Stretch {
    Stretch { number: cell.row, mark: u32::from(cell.unpublished), next: next as u32 }
}
