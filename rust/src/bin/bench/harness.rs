//! A case of the benchmark: the library's call and plain versions of it, timed in turns.

use std::time::{Duration, Instant};

/// One call, timed without what prepares it.
pub type Run = Box<dyn FnMut() -> Duration>;

/// The library's call, and plain versions of it by name.
pub struct Timed {
    pub library: Run,
    pub plain: Vec<(&'static str, Run)>,
    /// Compares what all of them leave. It may give a number for a column of its own, and the column's name.
    pub same: Box<dyn FnMut() -> Option<(&'static str, usize)>>,
}

pub struct Case {
    pub name: String,
    pub rows: usize,
    pub make: Box<dyn FnOnce() -> Timed>,
}

pub const SIZES: [usize; 3] = [64, 512, 4096];

/// How long this thread has waited for a core, where the system tells.
fn waited() -> Duration {
    let told = std::fs::read_to_string("/proc/thread-self/schedstat").unwrap_or_default();
    Duration::from_nanos(told.split(' ').nth(1).and_then(|nanos| nanos.parse().ok()).unwrap_or(0))
}

/// The time of a call. A long one is seldom left alone on a busy machine, so its waiting is taken off.
pub fn timed<T>(f: impl FnOnce() -> T) -> Duration {
    let (whole, before) = (Instant::now(), waited());
    let call = Instant::now();
    std::hint::black_box(f());
    let short = call.elapsed();
    let waiting = waited() - before;
    if short < Duration::from_millis(1) {
        short
    } else {
        whole.elapsed().saturating_sub(waiting)
    }
}

/// The best time of each, taken in turns so that all meet the same disturbances.
fn best(case: &mut Timed) -> Vec<f64> {
    let mut runs: Vec<&mut Run> = std::iter::once(&mut case.library).chain(case.plain.iter_mut().map(|(_, run)| run)).collect();
    let mut best = vec![f64::MAX; runs.len()];
    let start = Instant::now();
    for n in 0.. {
        let gone = start.elapsed().as_millis();
        if n >= 1000 || (n >= 15 && gone > 400) || (n >= 3 && gone > 3000) {
            break;
        }
        for (best, run) in best.iter_mut().zip(&mut runs) {
            *best = best.min(run().as_secs_f64());
        }
    }
    best
}

pub fn told(seconds: f64) -> String {
    if seconds < 1e-3 {
        format!("{:.1} us", seconds * 1e6)
    } else {
        format!("{:.2} ms", seconds * 1e3)
    }
}

/// A line for each case: the library's time, how it grew from the size before, and the plain versions' times with its ratio to each.
pub fn table(title: &str, cases: Vec<Case>) {
    let mut before = (String::new(), 0.0);
    for (k, case) in cases.into_iter().enumerate() {
        let mut runs = (case.make)();
        let counted = (runs.same)();
        let times = best(&mut runs);
        if k == 0 {
            let plain: String = runs.plain.iter().map(|(name, _)| format!(" {name} | ratio |")).collect();
            let column = counted.map_or(String::new(), |(name, _)| format!(" {name} |"));
            println!("\n| {title} | rows |{column} library | growth |{plain}");
            println!("|---|---|---|---|{}{}", if column.is_empty() { "" } else { "---|" }, "---|---|".repeat(runs.plain.len()));
        }
        let growth = if before.0 == case.name { format!("{:.1}", times[0] / before.1) } else { String::new() };
        let counted = counted.map_or(String::new(), |(_, n)| format!(" {n} |"));
        let plain: String = times[1..].iter().map(|t| format!(" {} | {:.2} |", told(*t), times[0] / t)).collect();
        println!("| {} | {} |{counted} {} | {growth} |{plain}", case.name, case.rows, told(times[0]));
        before = (case.name, times[0]);
    }
}
