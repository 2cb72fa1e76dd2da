//! Answers about one trace, or about each of several in turn, on standard output.

use crate::args::{Common, Form, Inputs};
use crate::input::{self, Loaded, Trace};
use crate::output::{Blocks, Failed};
use crate::recording::name_of;
use crate::text::labelled;
use crate::trace_json::of_inputs;
use crate::{complain, json, refused, refused_json, REFUSED, WRONG};
use std::io::{self, Write};

/// The version of the JSON objects. A field may be added to them without a change of it; none is taken away or gets another meaning.
const VERSION: u32 = 1;

/// What is said behind several traces that were judged.
const NOT_BETWEEN: &str = "Races between two traces are not looked for: 'kiqsaryn join' makes one trace of two controllers' traces.";

// ---- Where the answers go

/// Standard output. What parts one answer from the next is written once the next one has something to say.
#[derive(Default)]
pub struct Out {
    blocks: Blocks,
    gap: &'static str,
    /// Whether anything is written at all, and whether anything of this answer is.
    any: bool,
    begun: bool,
}

impl Out {
    /// Begins another answer, behind the gap.
    fn next(&mut self, gap: &'static str) {
        self.gap = gap;
        self.begun = false;
    }
}

impl Write for Out {
    fn write(&mut self, bytes: &[u8]) -> io::Result<usize> {
        if !bytes.is_empty() {
            self.blocks.write_all(std::mem::take(&mut self.gap).as_bytes())?;
            (self.any, self.begun) = (true, true);
        }
        self.blocks.write(bytes)
    }

    fn flush(&mut self) -> io::Result<()> {
        self.blocks.flush()
    }
}

// ---- What became of each trace

/// How many traces were judged, have no row, are refused, and failed.
#[derive(Default)]
struct Tally {
    judged: usize,
    empty: usize,
    refused: usize,
    failed: usize,
}

impl Tally {
    fn all(&self) -> usize {
        self.judged + self.empty + self.refused + self.failed
    }

    /// What became of several traces, as a sentence.
    fn sentence(&self) -> String {
        let parts = [
            (self.judged, "was judged", "were judged, each by itself"),
            (self.empty, "has no row", "have no row"),
            (self.refused, "was refused", "were refused"),
            (self.failed, "failed", "failed"),
        ];
        if self.judged == self.all() {
            return format!("Each of the {} traces was judged by itself.", self.all());
        }
        let parts = parts.iter().filter(|(n, _, _)| *n > 0);
        let parts: Vec<String> = parts.map(|(n, one, many)| format!("{n} {}", if *n == 1 { one } else { many })).collect();
        match self.judged {
            0 => format!("None of the {} traces was judged: {}.", self.all(), parts.join("; ")),
            _ => format!("Of the {} traces {}.", self.all(), parts.join("; ")),
        }
    }

    /// The lines behind several traces.
    fn lines(&self) -> String {
        let more = if self.judged > 1 { format!(" {NOT_BETWEEN}") } else { String::new() };
        labelled("", &format!("{}{more}", self.sentence()))
    }
}

// ---- The answers

/// Where the answers go, and which traces they are about.
pub struct Answers<'a> {
    out: Out,
    form: Form,
    /// The names of the columns of lines with commas.
    columns: &'static str,
    each: &'a [Common],
    /// The names of the traces that are answered about.
    name: String,
    traces: usize,
    tally: Tally,
    /// Whether an object stays without its end.
    cut: bool,
}

impl Answers<'_> {
    /// What is written to.
    pub fn out(&mut self) -> &mut Out {
        &mut self.out
    }

    pub fn say(&mut self, words: &str) -> io::Result<()> {
        self.out.write_all(words.as_bytes())
    }

    /// What each line about this trace starts with: of several traces its name.
    fn name_before(&self) -> String {
        match self.each.len() {
            1 => String::new(),
            _ => format!("{},", field(&self.name)),
        }
    }

    /// Writes the names of the columns, unless they stand before the lines of all traces, and gives what each line about this trace starts with.
    pub fn lead(&mut self) -> io::Result<String> {
        if self.each.len() == 1 {
            self.say(self.columns)?;
        }
        Ok(self.name_before())
    }

    /// Writes lines of which the first has the names of the columns.
    pub fn say_lines(&mut self, lines: &str) -> io::Result<()> {
        let lead = self.lead()?;
        lines.split_inclusive('\n').skip(1).try_for_each(|line| self.say(&format!("{lead}{line}")))
    }

    /// Goes on to the next trace, or the next join.
    fn begin(&mut self, common: &Common) {
        self.name = names(common).join(" and ");
        self.traces += 1;
        self.out.next(match self.form {
            Form::Words if self.out.any => "\n",
            Form::Json if self.traces > 1 => ",\n",
            _ => "",
        });
    }

    fn refuse(&mut self, r: &input::Refused, common: &Common) -> io::Result<()> {
        match self.form {
            Form::Words => self.say(&refused::report(r)),
            Form::Json => self.say(&refused_json::object(r, common)),
            Form::Csv => self.say(&format!("{}{}", self.name_before(), refused::csv(r))),
        }
    }

    /// Tells of a trace that cannot be read, or of which the answer fails, on standard error; an object has it too. An object that is begun already
    /// stays without its end, so that nobody takes it for a whole one.
    fn fail(&mut self, sentence: &str, common: &Common) -> io::Result<()> {
        self.out.flush()?;
        complain(&format!("kiqsaryn: {sentence}\n"));
        self.cut = self.form == Form::Json && self.out.begun;
        if self.form != Form::Json || self.cut {
            return Ok(());
        }
        let mut fields = of_inputs(common);
        fields.push(("failed", json::string(sentence)));
        self.say(&json::object(&fields))
    }

    /// A sentence on a trace that was read; of several it starts with the trace's name.
    fn named(&self, failed: Failed) -> Failed {
        match failed {
            Failed::Sentence(sentence) if self.each.len() > 1 => Failed::Sentence(format!("{}: {sentence}", self.name)),
            failed => failed,
        }
    }

    /// Answers about one trace; the status.
    fn answer(&mut self, common: &Common, answer: &impl Fn(&mut Self, &Trace) -> Result<u8, Failed>) -> io::Result<u8> {
        self.begin(common);
        let done = match input::load(common) {
            Ok(Loaded::Accepted(trace)) => answer(self, &trace).inspect(|_| self.count(&trace)).map_err(|failed| self.named(failed)),
            Ok(Loaded::Refused(r)) => {
                self.tally.refused += 1;
                self.refuse(&r, common).map(|()| REFUSED).map_err(Failed::from)
            }
            Err(sentence) => Err(Failed::Sentence(sentence)),
        };
        match done {
            Ok(status) => Ok(status),
            Err(Failed::Write(e)) => Err(e),
            Err(Failed::Sentence(sentence)) => {
                self.tally.failed += 1;
                self.fail(&sentence, common).map(|()| WRONG)
            }
        }
    }

    /// Writes what stands behind the last answer.
    fn end(&mut self, name: &str) -> io::Result<()> {
        let is_judged = name != "replay" && self.each.iter().all(|common| matches!(common.inputs, Inputs::One(_)));
        match self.form {
            Form::Json => self.say("\n]}\n")?,
            Form::Words if self.each.len() > 1 && is_judged => {
                self.out.next(if self.out.any { "\n" } else { "" });
                self.say(&self.tally.lines())?;
            }
            _ => {}
        }
        self.out.flush()
    }

    /// Counts a trace that was answered about.
    fn count(&mut self, trace: &Trace) {
        match trace.rows().n {
            0 => self.tally.empty += 1,
            _ => self.tally.judged += 1,
        }
    }
}

/// The names of the traces of an answer.
fn names(common: &Common) -> Vec<String> {
    common.inputs.all().iter().map(|input| name_of(&input.source)).collect()
}

/// A name as a field of a line with commas.
fn field(name: &str) -> String {
    if name.contains([',', '"']) {
        format!("\"{}\"", name.replace('"', "\"\""))
    } else {
        name.to_string()
    }
}

/// The names of the columns that a command writes.
fn columns(name: &str) -> &'static str {
    match name {
        "races" => "model,earlier,later\r\n",
        _ => "model,verdict,earlier,later\r\n",
    }
}

/// Answers about each trace in turn. The status is the largest of theirs. An error is a failure to write.
pub fn answer_each(each: &[Common], name: &str, form: Form, answer: impl Fn(&mut Answers, &Trace) -> Result<u8, Failed>) -> io::Result<u8> {
    let (out, columns) = (Out::default(), columns(name));
    let mut answers = Answers { out, form, columns, each, name: String::new(), traces: 0, tally: Tally::default(), cut: false };
    let mut status = 0;
    match form {
        Form::Json => answers.say(&format!("{{\"format\":\"kiqsaryn-{name}\",\"version\":{VERSION},\"traces\":[\n"))?,
        Form::Csv if each.len() > 1 => answers.say(&format!("trace,{columns}"))?,
        _ => {}
    }
    for common in each {
        status = status.max(answers.answer(common, &|answers, trace| answer(answers, trace))?);
        if answers.cut {
            return Ok(status);
        }
    }
    answers.end(name)?;
    Ok(status)
}
