//! The rules of documents 01 and 02 in the simplest form: records as lists of fields, happens-before as a matrix of pairs, races pair by pair with
//! the chains as they are written, and files byte by byte. It shares types with the library and no code. What the documents leave open is taken
//! as `docs/DECISIONS.md` has it, and a replay, which they do not have, as the library's interface describes it: row by row.

pub mod barriers;
pub mod joining;
pub mod lookup;
pub mod machine;
pub mod order;
pub mod pairs;
pub mod races;
pub mod random;
pub mod reading;
pub mod rows;
pub mod texts;
pub mod wild;
pub mod writing;

/// The largest process limit. The naive version and the tests that make random calls take it from here; the library has its own.
pub const PROCESSES: u32 = 48;

/// Whether a number is a process limit.
pub fn is_process_limit(n: u32) -> bool {
    (1..=PROCESSES).contains(&n)
}
