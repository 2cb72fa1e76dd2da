//! `check --json`: what was read, and under each model the verdict and the first race.

use crate::input::Trace;
use crate::json;
use crate::races;
use crate::trace_json::{of_judged, race};
use kiqsaryn::{Model, Verdict};

/// A verdict, how many races there are, and the first.
fn of_model(trace: &Trace, model: Model, verdict: &Verdict) -> Result<String, String> {
    let (word, races, first) = match verdict {
        Verdict::Race { earlier, later } => ("race", races::count(trace, model)?, Some(race(trace, model, (*earlier, *later)))),
        _ => ("free", 0, None),
    };
    Ok(json::object(&[
        ("model", json::string(model.name())),
        ("verdict", json::string(word)),
        ("races", races.to_string()),
        ("first", json::maybe(first)),
    ]))
}

/// The object of one trace, or of one join. An error is a sentence.
pub fn object(trace: &Trace, verdicts: &[(Model, Verdict)]) -> Result<String, String> {
    let models: Result<Vec<String>, String> = verdicts.iter().map(|(model, v)| of_model(trace, *model, v)).collect();
    let mut fields = of_judged(trace);
    fields.push(("models", json::lines(models?)));
    Ok(json::object(&fields))
}
