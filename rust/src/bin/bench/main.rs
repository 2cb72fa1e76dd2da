//! Times of reading, writing, joining, counts, verdict, lists of races and replay next to plain Rust versions of the same rules, in the same run:
//! `cargo run --release --offline --bin bench`. With words of a case (`bench replay commit scattered 512`) it runs the cases that have them all,
//! and with `--once` before them only the library's call, once, for a profile; with `--once-plain` the first plain version's.

#[allow(dead_code)]
#[path = "../../../tests/naive/mod.rs"]
mod naive;

mod barriers;
mod counts;
mod harness;
mod joining;
mod listing;
mod messages;
mod reading;
mod replay;
mod verdict;
mod writing;

use harness::{table, told};

fn main() {
    let mut words: Vec<String> = std::env::args().skip(1).collect();
    let once = words.first().filter(|word| word.starts_with("--once")).cloned();
    words.drain(..usize::from(once.is_some()));
    for (title, mut cases) in [
        ("reading", reading::cases()),
        ("writing", writing::cases()),
        ("joining", joining::cases()),
        ("counts", counts::cases()),
        ("verdict", verdict::cases()),
        ("listing", listing::cases()),
        ("replay", replay::cases()),
    ] {
        cases.retain(|case| {
            let named = format!("{title} {} {}", case.name, case.rows);
            words.iter().all(|word| named.split([' ', ',']).any(|w| w == word))
        });
        match once.as_deref() {
            None => table(title, cases),
            Some(which) => {
                for case in cases {
                    let mut runs = (case.make)();
                    let time = if which == "--once" { (runs.library)() } else { (runs.plain[0].1)() };
                    println!("{title} {} {}: {}", case.name, case.rows, told(time.as_secs_f64()));
                }
            }
        }
    }
}
