//! Reading next to the plain version and to csv-core, which finds the fields alone: it copies their bytes and asks no question.
//!
//!     apt install librust-csv-core-dev
//!     (cd crates/kiqsaryn && rt lib)
//!     cd rust/csv-core && cargo run --release --offline

#[path = "../../src/bin/bench/barriers.rs"]
mod barriers;
#[path = "../../src/bin/bench/harness.rs"]
mod harness;
#[allow(dead_code)]
#[path = "../../src/bin/bench/messages.rs"]
mod messages;
#[allow(dead_code)]
#[path = "../../src/bin/bench/reading.rs"]
mod reading;

use csv_core::{ReadRecordResult, Reader};
use harness::{table, timed, Case};
use std::hint::black_box;

/// The records of a text.
#[inline(never)]
fn records(text: &[u8], bytes: &mut [u8], ends: &mut [usize]) -> usize {
    let (mut reader, mut rest, mut count) = (Reader::new(), text, 0);
    loop {
        let (result, read, _, _) = reader.read_record(rest, bytes, ends);
        rest = &rest[read..];
        match result {
            ReadRecordResult::InputEmpty => {}
            ReadRecordResult::Record => count += 1,
            ReadRecordResult::End => return count,
            full => panic!("{full:?}"),
        }
    }
}

/// A case of the benchmark with csv-core's reading of the same text beside it.
fn beside(case: Case) -> Case {
    let Case { name, rows, make } = case;
    let text = reading::text(&name, rows);
    let make = move || {
        let mut timed_case = make();
        let (mut bytes, mut ends) = (vec![0; 1024], vec![0; 16]);
        assert_eq!(records(&text, &mut bytes, &mut ends), rows + 1);
        let run = move || timed(|| records(black_box(&text), &mut bytes, &mut ends));
        timed_case.plain.push(("csv-core, fields alone", Box::new(run)));
        timed_case
    };
    Case { name, rows, make: Box::new(make) }
}

fn main() {
    table("reading", reading::cases().into_iter().map(beside).collect());
}
