//! `report`: a page to hand over. It needs nothing else to be read or printed, and it is the same whenever it is made of the same trace.

mod bytes;
mod judged;
mod page;
mod pairs;
mod read;
mod stale;
mod style;

use crate::check;
use crate::input::Trace;
use crate::races;
use judged::Judged;
use kiqsaryn::Model;

/// No page shows more races or stale reads under a model: it would be too large for a browser.
const MOST: usize = 10_000;

/// The whole page, with at most so many races and stale reads under each model. An error is a sentence.
pub fn html(trace: &Trace, models: &[Model], limit: usize) -> Result<String, String> {
    let (verdicts, found) = (check::judge(trace, models)?, races::find(trace, models)?);
    let judged = Judged { trace, verdicts, found, limit: limit.min(MOST) };
    let sections = [
        page::head(&judged),
        read::section(trace),
        judged::section(&judged),
        pairs::section(&judged),
        stale::section(&judged)?,
        page::legend(&judged),
    ];
    Ok(page::whole(trace, &sections))
}
