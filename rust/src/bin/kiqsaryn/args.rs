//! The command line. It is read by hand, along the table of commands and options: the command has no dependencies.

use crate::near::nearest;
use crate::table::{self, Command, Opt, Value, COMMANDS, SHELLS};
use kiqsaryn::{Model, FILES, PROCESSES, ROWS};
use std::ffi::OsString;
use std::os::unix::ffi::{OsStrExt, OsStringExt};
use std::path::PathBuf;

#[derive(Clone, Copy, Debug, PartialEq, Eq)]
pub enum Topic {
    All,
    Check,
    Races,
    Replay,
    Explain,
    Report,
    Diagram,
    Write,
    Join,
    Completions,
    Manual,
}

pub enum Source {
    Standard,
    Path(PathBuf),
}

/// A trace, and whether its first record is a header.
pub struct Input {
    pub source: Source,
    pub header: bool,
}

/// One trace, or two that are joined.
pub enum Inputs {
    One(Input),
    Two([Input; 2]),
}

impl Inputs {
    pub fn all(&self) -> &[Input] {
        match self {
            Inputs::One(input) => std::slice::from_ref(input),
            Inputs::Two(inputs) => inputs,
        }
    }
}

/// What a command is told of the trace, or of the two, that it works on.
pub struct Common {
    pub inputs: Inputs,
    pub processes: u32,
    pub mend: Mend,
}

/// In which form a command answers.
#[derive(Clone, Copy, Debug, PartialEq, Eq)]
pub enum Form {
    Words,
    Csv,
    Json,
}

/// Which races are shown: those of a file, those in which a process has a row, and at most so many of them under each model.
#[derive(Clone, Copy)]
pub struct Choice {
    pub file: Option<u32>,
    pub process: Option<u32>,
    pub limit: Option<u32>,
}

/// Which reads `replay` shows: those of a file, the one of a row, those with stale bytes. All where nothing is said.
#[derive(Clone, Copy, Default)]
pub struct Reads {
    pub file: Option<u32>,
    pub row: Option<u32>,
    pub stale: bool,
}

/// What `diagram` draws. Where nothing is said: the first race under the model.
#[derive(Clone, Default)]
pub struct Crop {
    pub all: bool,
    pub race: Option<(u32, u32)>,
    pub rows: Option<(u32, u32)>,
    pub processes: Vec<u32>,
    pub file: Option<u32>,
}

/// What `write` mends before it reads. Nothing where nothing is said.
#[derive(Clone, Copy, Default, PartialEq, Eq, Debug)]
pub struct Mend {
    pub line_ends: bool,
    pub mark: bool,
    pub utf16: bool,
    pub semicolons: bool,
    pub tabs: bool,
    pub spaces: bool,
    pub blank_end: bool,
}

/// Where `join` writes the joined trace.
pub enum Output {
    Nowhere,
    Standard,
    File(PathBuf),
}

#[derive(Clone, Copy, Debug, PartialEq, Eq)]
pub enum Shell {
    Bash,
    Zsh,
}

/// What is to be done. An `output` of none is standard output. `each` has the traces that are taken one after the other.
pub enum Request {
    Help(Topic),
    Version,
    Manual,
    Completions(Shell),
    Check { each: Vec<Common>, models: Vec<Model>, form: Form },
    Races { each: Vec<Common>, models: Vec<Model>, choice: Choice, form: Form },
    Replay { each: Vec<Common>, reads: Reads, model: Model, form: Form },
    Explain { common: Common, row: u32, models: Vec<Model> },
    Report { common: Common, models: Vec<Model>, limit: u32, output: Option<PathBuf> },
    Diagram { common: Common, model: Model, crop: Crop, output: Option<PathBuf> },
    Write { common: Common, out_header: bool, output: Option<PathBuf> },
    Join { common: Common, models: Vec<Model>, csv: bool, out_header: bool, output: Output },
}

const WHY_HEADER: &str = "
  yes: the first record has the names process,kind,file,offset,length,message
  no:  the first record is row 1
It is never guessed: a first row taken for a header would be lost, and a
header taken for a row would be refused or shift every row number.";
const SAY_HEADER: &str = "say --header yes or --header no";
const SAY_HEADERS: &str = "say --headers with yes or no for each trace, the first one's first: --headers yes,no";
const SAY_EITHER: &str =
    "say --header yes or --header no to take each trace by itself, or --headers with a word for each to join the two: \
--headers yes,no";
const HEADER_IS_NOT_FOR_JOIN: &str =
    "--header is for traces by themselves; for a join say --headers with a word for each: --headers yes,no";
const HEADERS_IS_FOR_TWO: &str = "--headers is for two traces; for one say --header yes or --header no";
const SAY_ONE_OF_BOTH: &str = "--header takes each trace by itself, and --headers joins two: say one of them";
const JOIN_TAKES_TWO: &str = "join takes two traces, FIRST and SECOND";
const STANDARD_TWICE: &str = "standard input can be one of the traces, not more";
const SAY_MODEL: &str = "say which model: --model posix, commit, session or mpiio";
/// How many races and stale reads a report shows where no limit is said.
pub const REPORT_LIMIT: u32 = 200;

// ---- What was given

/// The operands, and the options by their long names, in the order in which they were given; not yet held against the command.
struct Given {
    operands: Vec<OsString>,
    options: Vec<(&'static Opt, OsString)>,
    help: bool,
}

/// Splits `--name=value` and `-ovalue`; a name alone has no value yet. A value keeps its bytes.
fn split(arg: &OsString) -> (String, Option<OsString>) {
    let bytes = arg.as_bytes();
    let at = match bytes.iter().position(|b| *b == b'=') {
        Some(at) if bytes.starts_with(b"--") => Some((at, at + 1)),
        _ if !bytes.starts_with(b"--") && bytes.len() > 2 => Some((2, 2)),
        _ => None,
    };
    let text = |bytes: &[u8]| String::from_utf8_lossy(bytes).into_owned();
    match at {
        Some((end, start)) => (text(&bytes[..end]), Some(OsString::from_vec(bytes[start..].to_vec()))),
        None => (text(bytes), None),
    }
}

/// A sentence on an option that the command does not have.
fn no_option(command: &Command, name: &str, arg: &OsString) -> String {
    let names: Vec<&str> = command.options.iter().map(|o| o.name).chain(["--help"]).collect();
    let told = if name.starts_with("--") { name.to_string() } else { arg.to_string_lossy().into_owned() };
    let near = nearest(&told, &names).map_or(String::new(), |near| format!("; did you mean {near}?"));
    format!("{} has no option {told:?}{near}", command.name)
}

/// Takes up the arguments of a command.
fn gather(mut args: impl Iterator<Item = OsString>, command: &Command) -> Result<Given, String> {
    let mut given = Given { operands: Vec::new(), options: Vec::new(), help: false };
    let mut only_operands = false;
    while let Some(arg) = args.next() {
        let is_option = !only_operands && arg != "-" && arg.as_bytes().first() == Some(&b'-');
        if !is_option {
            given.operands.push(arg);
            continue;
        }
        let (name, value) = split(&arg);
        match name.as_str() {
            "--" if value.is_none() => only_operands = true,
            "--help" | "-h" if value.is_none() => given.help = true,
            "--help" => return Err("--help takes no value".to_string()),
            _ => match command.option(&name) {
                None => return Err(no_option(command, &name, &arg)),
                Some(option) => given.take(option, value, &mut args)?,
            },
        }
    }
    Ok(given)
}

impl Given {
    /// Takes up an option with its value, which may be the next argument.
    fn take(&mut self, option: &'static Opt, value: Option<OsString>, args: &mut impl Iterator<Item = OsString>) -> Result<(), String> {
        let name = option.name;
        if option.value == Value::None {
            if value.is_some() {
                return Err(format!("{name} takes no value"));
            }
            self.options.push((option, OsString::new()));
            return Ok(());
        }
        let Some(value) = value.or_else(|| args.next()) else {
            return Err(format!("{name} has no value"));
        };
        if !option.many && self.value(name).is_some() {
            return Err(format!("{name} is given twice"));
        }
        self.options.push((option, value));
        Ok(())
    }

    fn values<'a>(&'a self, name: &'a str) -> impl Iterator<Item = &'a OsString> {
        self.options.iter().filter(move |(option, _)| option.name == name).map(|(_, value)| value)
    }

    fn value(&self, name: &str) -> Option<&OsString> {
        self.options.iter().find(|(option, _)| option.name == name).map(|(_, value)| value)
    }

    fn has(&self, name: &str) -> bool {
        self.value(name).is_some()
    }
}

// ---- Values

/// A plain number of a range.
fn number(name: &str, value: &OsString, from: u32, to: u32) -> Result<u32, String> {
    let word = value.to_str().unwrap_or("");
    let digits = !word.is_empty() && word.bytes().all(|b| b.is_ascii_digit());
    match word.parse::<u32>() {
        Ok(n) if digits && (from..=to).contains(&n) => Ok(n),
        _ => Err(format!("{name} is a number from {from} to {to}, not {value:?}")),
    }
}

/// Two row numbers with a mark between, the smaller first.
fn row_pair(name: &str, value: &OsString, mark: char) -> Result<(u32, u32), String> {
    let wrong = || format!("{name} is two row numbers, as 3{mark}12, not {value:?}");
    let (first, second) = value.to_str().and_then(|word| word.split_once(mark)).ok_or_else(wrong)?;
    let one = |word: &str| number(name, &word.into(), 1, ROWS).map_err(|_| wrong());
    match (one(first)?, one(second)?) {
        (a, b) if a <= b => Ok((a, b)),
        (b, a) => Ok((a, b)),
    }
}

/// A model by its name, in any case, with or without a hyphen: MPI-IO.
fn one_model(value: &OsString) -> Option<Model> {
    let word: String = value.to_str()?.chars().filter(|c| !['-', '_'].contains(c)).collect();
    Model::from_name(&word.to_ascii_lowercase())
}

/// A sentence on a model that there is not.
fn no_model(value: &OsString, names: &str) -> String {
    let all: Vec<&str> = Model::ALL.iter().map(|m| m.name()).collect();
    let near = nearest(&value.to_string_lossy(), &all).map_or(String::new(), |near| format!("; did you mean {near}?"));
    format!("--model is {names}, not {value:?}{near}")
}

/// The answer to a question that is yes or no.
fn yes_or_no(value: &OsString) -> Option<bool> {
    match value.to_str() {
        Some("yes") => Some(true),
        Some("no") => Some(false),
        _ => None,
    }
}

/// The answers for two traces, with a comma between.
fn yes_or_no_twice(value: &OsString) -> Option<[bool; 2]> {
    let (first, second) = value.to_str()?.split_once(',')?;
    Some([yes_or_no(&first.into())?, yes_or_no(&second.into())?])
}

fn source(trace: OsString) -> Source {
    if trace == "-" {
        Source::Standard
    } else {
        Source::Path(PathBuf::from(trace))
    }
}

impl Given {
    /// The file of `-o`; none for standard output.
    fn output(&self) -> Option<PathBuf> {
        self.value("--output").filter(|o| *o != "-").map(PathBuf::from)
    }

    /// The traces and their header words: each by itself, or two that are joined.
    fn inputs(&mut self, command: &Command) -> Result<Vec<Inputs>, String> {
        let traces = std::mem::take(&mut self.operands);
        if traces.len() > command.most {
            return Err(too_many(command));
        }
        if command.topic == Topic::Join && traces.len() != 2 {
            return Err(JOIN_TAKES_TWO.to_string());
        }
        if traces.is_empty() {
            return Err("no TRACE is given".to_string());
        }
        if traces.iter().filter(|trace| *trace == "-").count() > 1 {
            return Err(STANDARD_TWICE.to_string());
        }
        match (self.has("--header"), self.has("--headers")) {
            (true, true) => Err(SAY_ONE_OF_BOTH.to_string()),
            (_, true) => self.joined(traces).map(|two| vec![two]),
            _ if command.topic == Topic::Join => Err([SAY_HEADERS, WHY_HEADER].concat()),
            (true, _) if traces.len() > 1 && !command.takes_each() => Err(HEADER_IS_NOT_FOR_JOIN.to_string()),
            (false, _) if traces.len() > 1 && !command.takes_each() => Err([SAY_HEADERS, WHY_HEADER].concat()),
            _ => self.each(traces),
        }
    }

    /// The traces by themselves, with one header word for all.
    fn each(&self, traces: Vec<OsString>) -> Result<Vec<Inputs>, String> {
        let say = if traces.len() == 2 && !self.has("--header") { SAY_EITHER } else { SAY_HEADER };
        let header = self.value("--header").and_then(yes_or_no).ok_or_else(|| [say, WHY_HEADER].concat())?;
        Ok(traces.into_iter().map(|trace| Inputs::One(Input { source: source(trace), header })).collect())
    }

    /// Two traces that are joined.
    fn joined(&self, traces: Vec<OsString>) -> Result<Inputs, String> {
        let two: [OsString; 2] = traces.try_into().map_err(|_| HEADERS_IS_FOR_TWO.to_string())?;
        let words = self.value("--headers").and_then(yes_or_no_twice).ok_or_else(|| [SAY_HEADERS, WHY_HEADER].concat())?;
        let [first, second] = two;
        Ok(Inputs::Two([Input { source: source(first), header: words[0] }, Input { source: source(second), header: words[1] }]))
    }

    fn mend(&self) -> Mend {
        Mend {
            line_ends: self.has("--line-ends"),
            mark: self.has("--mark"),
            utf16: self.has("--utf-16"),
            semicolons: self.has("--semicolons"),
            tabs: self.has("--tabs"),
            spaces: self.has("--spaces"),
            blank_end: self.has("--blank-end"),
        }
    }

    /// What each trace, or the join of two, is read with.
    fn commons(&mut self, command: &Command) -> Result<Vec<Common>, String> {
        let inputs = self.inputs(command)?;
        let processes = self.value("--processes").map_or(Ok(PROCESSES), |v| number("--processes", v, 1, PROCESSES))?;
        Ok(inputs.into_iter().map(|inputs| Common { inputs, processes, mend: self.mend() }).collect())
    }

    /// The one trace, or the one join, of a command that takes no more.
    fn common(&mut self, command: &Command) -> Result<Common, String> {
        self.commons(command)?.pop().ok_or_else(|| "no TRACE is given".to_string())
    }

    /// The models of `--model`: one, or all.
    fn models(&self) -> Result<Vec<Model>, String> {
        match self.value("--model") {
            None => Ok(Model::ALL.to_vec()),
            Some(word) if word.eq_ignore_ascii_case("all") => Ok(Model::ALL.to_vec()),
            Some(word) => one_model(word).map(|m| vec![m]).ok_or_else(|| no_model(word, "all, posix, commit, session or mpiio")),
        }
    }

    /// The one model of `--model`, if it is said.
    fn model(&self) -> Result<Option<Model>, String> {
        let wrong = |word: &OsString| no_model(word, "posix, commit, session or mpiio");
        self.value("--model").map(|word| one_model(word).ok_or_else(|| wrong(word))).transpose()
    }

    fn number(&self, name: &str, from: u32, to: u32) -> Result<Option<u32>, String> {
        self.value(name).map(|v| number(name, v, from, to)).transpose()
    }

    /// Which races are shown; all where nothing is said.
    fn choice(&self) -> Result<Choice, String> {
        Ok(Choice {
            file: self.number("--file", 0, FILES - 1)?,
            process: self.number("--process", 0, PROCESSES - 1)?,
            limit: self.number("--limit", 0, u32::MAX)?,
        })
    }

    fn reads(&self) -> Result<Reads, String> {
        Ok(Reads { file: self.number("--file", 0, FILES - 1)?, row: self.number("--row", 1, ROWS)?, stale: self.has("--stale") })
    }

    /// What a picture shows. Options that would choose against each other are not taken together.
    fn crop(&self) -> Result<Crop, String> {
        let processes: Result<Vec<u32>, String> = self.values("--process").map(|v| number("--process", v, 0, PROCESSES - 1)).collect();
        let crop = Crop {
            all: self.has("--all"),
            race: self.value("--race").map(|v| row_pair("--race", v, ',')).transpose()?,
            rows: self.value("--rows").map(|v| row_pair("--rows", v, '-')).transpose()?,
            processes: processes?,
            file: self.number("--file", 0, FILES - 1)?,
        };
        if crop.all && (crop.rows.is_some() || !crop.processes.is_empty() || crop.file.is_some()) {
            return Err("--all draws every row; --rows, --process and --file choose some: say one of them".to_string());
        }
        Ok(crop)
    }

    fn form(&self) -> Result<Form, String> {
        match (self.has("--csv"), self.has("--json")) {
            (true, true) => Err("say --csv or --json, not both".to_string()),
            (true, _) => Ok(Form::Csv),
            (_, true) => Ok(Form::Json),
            _ => Ok(Form::Words),
        }
    }

    /// Whether the text that is written has a header: as `--out-header` says, or as the first trace has one.
    fn out_header(&self, common: &Common) -> Result<bool, String> {
        match self.value("--out-header") {
            None => Ok(common.inputs.all()[0].header),
            Some(word) => yes_or_no(word).ok_or_else(|| format!("--out-header is yes or no, not {word:?}")),
        }
    }
}

impl Command {
    /// Whether it takes several traces, each by itself.
    fn takes_each(&self) -> bool {
        self.most > 2
    }
}

fn too_many(command: &Command) -> String {
    match command.most {
        1 => "more than one TRACE is given".to_string(),
        _ => "more than two traces are given".to_string(),
    }
}

// ---- Requests

/// The command of a word. An error is a sentence.
fn command_of(word: &OsString) -> Result<&'static Command, String> {
    let name = word.to_str().unwrap_or("");
    table::named(name).ok_or_else(|| {
        let names: Vec<&str> = COMMANDS.iter().map(|c| c.name).chain(["--help", "--version"]).collect();
        let near = nearest(name, &names).map_or(String::new(), |near| format!("; did you mean {near}?"));
        format!("there is no command {word:?}{near}")
    })
}

/// The request of a command line without the program's name. An error is a sentence, and the help that goes with it.
pub fn parse(args: impl Iterator<Item = OsString>) -> Result<Request, (String, Topic)> {
    let mut args = args;
    let Some(word) = args.next() else {
        return Err(("no command is given".to_string(), Topic::All));
    };
    match word.to_str() {
        Some("--help" | "-h") => return Ok(Request::Help(Topic::All)),
        Some("--version" | "-V") => return Ok(Request::Version),
        _ => {}
    }
    let command = command_of(&word).map_err(|e| (e, Topic::All))?;
    request(command, args).map_err(|e| (e, command.topic))
}

fn request(command: &'static Command, args: impl Iterator<Item = OsString>) -> Result<Request, String> {
    let mut given = gather(args, command)?;
    if given.help {
        return Ok(Request::Help(command.topic));
    }
    match command.topic {
        Topic::All => help_request(given),
        Topic::Completions => completions_request(given),
        Topic::Manual if given.operands.is_empty() => Ok(Request::Manual),
        Topic::Manual => Err("manual takes no more words".to_string()),
        Topic::Check => Ok(Request::Check { each: given.commons(command)?, models: given.models()?, form: given.form()? }),
        Topic::Races => {
            Ok(Request::Races { each: given.commons(command)?, models: given.models()?, choice: given.choice()?, form: given.form()? })
        }
        Topic::Replay => {
            let each = given.commons(command)?;
            let model = given.model()?.ok_or(SAY_MODEL)?;
            Ok(Request::Replay { each, reads: given.reads()?, model, form: given.form()? })
        }
        Topic::Explain => explain_request(command, given),
        Topic::Report => {
            let limit = given.number("--limit", 0, u32::MAX)?.unwrap_or(REPORT_LIMIT);
            Ok(Request::Report { common: given.common(command)?, models: given.models()?, limit, output: given.output() })
        }
        Topic::Diagram => {
            let common = given.common(command)?;
            let model = given.model()?.unwrap_or(Model::Commit);
            Ok(Request::Diagram { common, model, crop: given.crop()?, output: given.output() })
        }
        Topic::Write => {
            let common = given.common(command)?;
            Ok(Request::Write { out_header: given.out_header(&common)?, common, output: given.output() })
        }
        Topic::Join => join_request(command, given),
    }
}

fn help_request(given: Given) -> Result<Request, String> {
    match given.operands.as_slice() {
        [] => Ok(Request::Help(Topic::All)),
        [word] => Ok(Request::Help(command_of(word)?.topic)),
        _ => Err("help takes one COMMAND".to_string()),
    }
}

fn completions_request(given: Given) -> Result<Request, String> {
    match given.operands.as_slice() {
        [word] if word == SHELLS[0] => Ok(Request::Completions(Shell::Bash)),
        [word] if word == SHELLS[1] => Ok(Request::Completions(Shell::Zsh)),
        _ => Err(format!("say which shell: {}", SHELLS.join(" or "))),
    }
}

/// The last operand is the row.
fn explain_request(command: &Command, mut given: Given) -> Result<Request, String> {
    let row = given.operands.pop().filter(|_| !given.operands.is_empty()).ok_or("explain takes a TRACE and a ROW")?;
    let row = number("ROW", &row, 1, ROWS)?;
    Ok(Request::Explain { common: given.common(command)?, row, models: given.models()? })
}

fn join_request(command: &Command, mut given: Given) -> Result<Request, String> {
    let common = given.common(command)?;
    if given.has("--out-header") && !given.has("--output") {
        return Err("--out-header goes with -o".to_string());
    }
    let (models, csv, out_header) = (given.models()?, given.has("--csv"), given.out_header(&common)?);
    let output = match given.has("--output") {
        false => Output::Nowhere,
        true => given.output().map_or(Output::Standard, Output::File),
    };
    Ok(Request::Join { common, models, csv, out_header, output })
}
