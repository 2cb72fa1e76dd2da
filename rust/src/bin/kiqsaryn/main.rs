//! The command `kiqsaryn`: reads a trace, or two that it joins, asks the proved library, and prints its answers in words.

mod alike;
mod answers;
mod args;
mod barriers;
mod check;
mod check_json;
mod completions;
mod cure;
mod diagram;
mod explain;
mod fields;
mod found;
mod groups;
mod help;
mod input;
mod json;
mod manual;
mod mend;
mod messages;
mod near;
mod newer;
mod output;
mod posted;
mod races;
mod races_json;
mod recording;
mod refused;
mod refused_json;
mod replay;
mod report;
mod returned;
mod sha256;
mod standard;
mod table;
mod tally;
mod text;
mod trace_json;
mod turns;
mod words;
mod write;

use answers::{answer_each, Answers};
use args::{Choice, Common, Form, Inputs, Output, Reads, Request};
use input::{Loaded, Trace};
use kiqsaryn::Model;
use output::{Failed, Place};
use std::io::{self, ErrorKind, Write};
use std::path::PathBuf;
use std::process::ExitCode;

const FREE: u8 = 0;
const RACE: u8 = 1;
const REFUSED: u8 = 2;
const WRONG: u8 = 3;

/// All that is to be written, and the exit status. Nothing is written before it is complete, save for the answers of `check`, `races` and `replay`,
/// which may be about many traces, or millions of lines long: these are written block by block.
struct Outcome {
    out: String,
    err: String,
    file: Option<PathBuf>,
    /// What is said once `out` is written.
    after: String,
    status: u8,
}

impl Outcome {
    fn out(out: String, status: u8) -> Outcome {
        Outcome { out, err: String::new(), file: None, after: String::new(), status }
    }

    fn err(err: String, status: u8) -> Outcome {
        Outcome { err, ..Outcome::out(String::new(), status) }
    }

    fn failed(sentence: &str) -> Outcome {
        Outcome::err(format!("kiqsaryn: {sentence}\n"), WRONG)
    }
}

/// What is said where output to one of the places, or words on standard error, would go into a trace. Where standard error is the trace, nothing is said.
fn overwriting(common: &Common, places: &[Place]) -> Option<Outcome> {
    let trace = match &common.inputs {
        Inputs::One(_) => "the trace itself",
        Inputs::Two(_) => "one of the traces",
    };
    let overwrites = |place: &&Place| common.inputs.all().iter().any(|input| output::overwrites(&input.source, place));
    Some(match [Place::Error].iter().chain(places).find(overwrites)? {
        Place::File(_) => Outcome::failed(&format!("-o names {trace}; nothing is written")),
        Place::Output => Outcome::failed(&format!("standard output is {trace}; nothing is written")),
        Place::Error => Outcome::err(String::new(), WRONG),
    })
}

/// Loads one trace or the join of two, and does the rest with it if it is accepted. Output to places of which one would overwrite a trace is not
/// begun.
fn with_trace(
    common: &Common,
    places: &[Place],
    refused: impl Fn(&input::Refused) -> Outcome,
    accepted: impl Fn(&Trace) -> Result<Outcome, String>,
) -> Outcome {
    if let Some(outcome) = overwriting(common, places) {
        return outcome;
    }
    let done = match input::load(common) {
        Ok(Loaded::Accepted(trace)) => accepted(&trace),
        Ok(Loaded::Refused(r)) => Ok(refused(&r)),
        Err(e) => Err(e),
    };
    done.unwrap_or_else(|e| Outcome::failed(&e))
}

fn run(request: Request) -> Outcome {
    match request {
        Request::Help(topic) => Outcome::out(help::help(topic), FREE),
        Request::Version => Outcome::out(format!("kiqsaryn {}\n", env!("CARGO_PKG_VERSION")), FREE),
        Request::Manual => Outcome::out(manual::page(), FREE),
        Request::Completions(shell) => Outcome::out(completions::script(shell), FREE),
        Request::Check { each, models, form } => run_check(&each, &models, form),
        Request::Races { each, models, choice, form } => run_races(&each, &models, &choice, form),
        Request::Replay { each, reads, model, form } => run_replay(&each, &reads, model, form),
        Request::Explain { common, row, models } => with_trace(
            &common,
            &[Place::Output],
            |r| Outcome::out(refused::report(r), REFUSED),
            |trace| Ok(Outcome::out(returned::report(trace, row, &models)?, FREE)),
        ),
        Request::Report { common, models, limit, output } => run_report(&common, &models, limit, output),
        Request::Diagram { common, model, crop, output } => with_trace(
            &common,
            &[output.as_deref().map_or(Place::Output, Place::File)],
            |r| Outcome::err(refused::report(r), REFUSED),
            |trace| Ok(Outcome { file: output.clone(), ..Outcome::out(diagram::svg(trace, model, &crop)?, FREE) }),
        ),
        Request::Write { common, out_header, output } => run_write(&common, out_header, output),
        Request::Join { common, models, csv, output: Output::Nowhere, .. } => {
            run_check(&[common], &models, if csv { Form::Csv } else { Form::Words })
        }
        Request::Join { common, models, csv, out_header, output: Output::Standard } => run_join(&common, &models, csv, out_header, None),
        Request::Join { common, models, csv, out_header, output: Output::File(file) } => {
            run_join(&common, &models, csv, out_header, Some(file))
        }
    }
}

// ---- Answers about each of several traces

/// Says of each trace in turn what `answer` writes of it.
fn run_each(each: &[Common], name: &str, form: Form, answer: impl Fn(&mut Answers, &Trace) -> Result<u8, Failed>) -> Outcome {
    if let Some(outcome) = each.iter().find_map(|common| overwriting(common, &[Place::Output])) {
        return outcome;
    }
    match answer_each(each, name, form, answer) {
        Ok(status) => Outcome::out(String::new(), status),
        Err(e) => Outcome::err(not_said(&e), WRONG),
    }
}

fn run_check(each: &[Common], models: &[Model], form: Form) -> Outcome {
    run_each(each, "check", form, |answers, trace| {
        let verdicts = check::judge(trace, models)?;
        match form {
            Form::Words => answers.say(&check::report(trace, &verdicts)?)?,
            Form::Csv => answers.say_lines(&check::csv(&verdicts))?,
            Form::Json => answers.say(&check_json::object(trace, &verdicts)?)?,
        }
        Ok(if check::any_race(&verdicts) { RACE } else { FREE })
    })
}

/// Writes every race under the models. The exit status tells of all of them, whatever is chosen to be shown.
fn run_races(each: &[Common], models: &[Model], choice: &Choice, form: Form) -> Outcome {
    run_each(each, "races", form, |answers, trace| {
        let all = races::find(trace, models)?;
        match form {
            Form::Words => races::report(answers.out(), trace, models, &all, choice)?,
            Form::Csv => {
                let lead = answers.lead()?;
                races::csv(answers.out(), &lead, trace, models, &all, choice)?;
            }
            Form::Json => races_json::put(answers.out(), trace, models, &all, choice)?,
        }
        Ok(if races::any_race(&all) { RACE } else { FREE })
    })
}

fn run_replay(each: &[Common], reads: &Reads, model: Model, form: Form) -> Outcome {
    run_each(each, "replay", form, |answers, trace| {
        match form {
            Form::Json => replay::put_json(answers.out(), trace, reads, model)?,
            _ => replay::put(answers.out(), trace, reads, model)?,
        }
        Ok(FREE)
    })
}

// ---- One trace, or one join

/// The verdicts in the form that is asked for, and the exit status.
fn judged(trace: &Trace, models: &[Model], csv: bool) -> Result<(String, u8), String> {
    let verdicts = check::judge(trace, models)?;
    let words = if csv { check::csv(&verdicts) } else { check::report(trace, &verdicts)? };
    Ok((words, if check::any_race(&verdicts) { RACE } else { FREE }))
}

fn refused_words(r: &input::Refused, csv: bool) -> String {
    if csv {
        refused::csv(r)
    } else {
        refused::report(r)
    }
}

/// Writes the page to hand over. Its exit status is that of `check`.
fn run_report(common: &Common, models: &[Model], limit: u32, output: Option<PathBuf>) -> Outcome {
    with_trace(
        common,
        &[output.as_deref().map_or(Place::Output, Place::File)],
        |r| Outcome::err(refused::report(r), REFUSED),
        |trace| {
            let status = if check::any_race(&check::judge(trace, models)?) { RACE } else { FREE };
            Ok(Outcome { file: output.clone(), ..Outcome::out(report::html(trace, models, limit as usize)?, status) })
        },
    )
}

/// Writes the join of two traces as plain text, to a file or to standard output, and says then what `check` says and what was written: on standard
/// output, or on standard error where standard output has the text.
fn run_join(common: &Common, models: &[Model], csv: bool, header: bool, file: Option<PathBuf>) -> Outcome {
    let to_standard = file.as_deref().is_none_or(output::is_standard);
    with_trace(
        common,
        &[file.as_deref().map_or(Place::Output, Place::File), Place::Output],
        |r| {
            let words = refused_words(r, csv);
            if to_standard {
                Outcome::err(words, REFUSED)
            } else {
                Outcome::out(words, REFUSED)
            }
        },
        |trace| {
            let (mut after, status) = judged(trace, models, csv)?;
            let text = write::text(trace, header)?;
            if !csv {
                let name = file.as_deref().map_or("standard output".to_string(), text::path_name);
                after.push_str(&write::what_was_written(trace, header, &text, &name));
            }
            Ok(Outcome { file: file.clone(), after, ..Outcome::out(text, status) })
        },
    )
}

/// Writes a trace as plain text and says what was read and written: to a file or standard output, and to standard output or standard error.
fn run_write(common: &Common, header: bool, output: Option<PathBuf>) -> Outcome {
    with_trace(
        common,
        &[output.as_deref().map_or(Place::Output, Place::File), Place::Output],
        |r| Outcome::err(refused::report(r), REFUSED),
        |trace| {
            let text = write::text(trace, header)?;
            let name = output.as_deref().map_or("standard output".to_string(), text::path_name);
            let after = write::report(trace, header, &text, &name);
            Ok(Outcome { file: output.clone(), after, ..Outcome::out(text, FREE) })
        },
    )
}

// ---- Output

/// Writes all at once. A failure has exit status 3.
fn finish(outcome: Outcome) -> u8 {
    complain(&outcome.err);
    // Writing to a file may put another one in its place, so this is asked before.
    let to_standard = outcome.file.as_deref().is_none_or(output::is_standard);
    match put(&outcome).and_then(|()| tell(&outcome, to_standard)) {
        Ok(()) => outcome.status,
        Err(words) => {
            complain(&words);
            WRONG
        }
    }
}

/// Writes what goes to standard output or to a file. An error is what is said of it.
fn put(outcome: &Outcome) -> Result<(), String> {
    match &outcome.file {
        Some(path) => output::to_file(path, outcome.out.as_bytes())
            .map_err(|e| unless_closed(&e, format!("cannot write {}: {e}", text::path_name(path)))),
        None => say(&outcome.out).map_err(|e| not_said(&e)),
    }
}

/// Says what is said once all is written: on standard output, or on standard error where standard output has the text.
fn tell(outcome: &Outcome, to_standard: bool) -> Result<(), String> {
    if to_standard {
        complain(&outcome.after);
        return Ok(());
    }
    say(&outcome.after).map_err(|e| unless_closed(&e, format!("cannot write to standard output: {e}; the file is written")))
}

/// Says something on standard output. Where nothing is to be said, nothing fails.
fn say(words: &str) -> io::Result<()> {
    if words.is_empty() {
        return Ok(());
    }
    output::to_standard(words.as_bytes())
}

/// What is said of a failure to write: nothing where the reader has closed the pipe, since that reader wants no more.
fn unless_closed(e: &io::Error, sentence: String) -> String {
    match e.kind() {
        ErrorKind::BrokenPipe => String::new(),
        _ => format!("kiqsaryn: {sentence}\n"),
    }
}

/// What is said of a failure to write to standard output.
fn not_said(e: &io::Error) -> String {
    unless_closed(e, format!("cannot write to standard output: {e}"))
}

/// Says something on standard error. There is no place to tell of a failure.
fn complain(words: &str) {
    let _ = io::stderr().write_all(words.as_bytes());
}

fn main() -> ExitCode {
    let outcome = match args::parse(std::env::args_os().skip(1)) {
        Ok(request) => run(request),
        Err((e, topic)) => Outcome::failed(&format!("{e}\n{}", help::hint(topic))),
    };
    ExitCode::from(finish(outcome))
}
