//! The commands and their options: one table, from which the command line is read and the help, the man page and the completions are made. In its
//! texts {processes} stands for the largest process limit, {last} for the largest process number, {rows} and {files} for the limits of the library.

use crate::args::Topic;
use kiqsaryn::{FILES, PROCESSES, ROWS};

/// What stands behind an option.
#[derive(Clone, Copy, PartialEq, Eq)]
pub enum Value {
    /// Nothing: the option is a switch.
    None,
    /// One of these words, shown under this name.
    Word(&'static str, &'static [&'static str]),
    /// Anything else, shown under this name.
    Any(&'static str),
    /// A file, shown under this name.
    File(&'static str),
}

/// An option of a command.
#[derive(Clone, Copy)]
pub struct Opt {
    pub name: &'static str,
    /// A shorter name, or an empty one.
    pub short: &'static str,
    pub value: Value,
    /// Whether it can be given more than once.
    pub many: bool,
    pub text: &'static str,
}

/// A way to call a command: its operands, and the options that it cannot do without.
pub struct Usage {
    pub operands: &'static str,
    pub needed: &'static [&'static str],
}

pub struct Command {
    pub topic: Topic,
    pub name: &'static str,
    /// What it does, in a few words.
    pub brief: &'static str,
    pub usages: &'static [Usage],
    /// Paragraphs before the options, and behind them.
    pub about: &'static [&'static str],
    pub options: &'static [Opt],
    pub more: &'static [&'static str],
    pub status: &'static str,
    pub examples: &'static [&'static str],
    /// How many traces it takes at most.
    pub most: usize,
}

pub const YES_NO: &[&str] = &["yes", "no"];
const MODELS: &[&str] = &["posix", "commit", "session", "mpiio"];
const MODELS_OR_ALL: &[&str] = &["posix", "commit", "session", "mpiio", "all"];
pub const SHELLS: &[&str] = &["bash", "zsh"];
/// More traces than a command line holds.
const ANY: usize = usize::MAX;

const fn opt(name: &'static str, value: Value, text: &'static str) -> Opt {
    Opt { name, short: "", value, many: false, text }
}

// ---- Options of several commands

const HEADER: Opt = opt("--header", Value::Word("yes|no", YES_NO), "the first record holds the names (yes) or is row 1 (no)");
const HEADERS: Opt =
    opt("--headers", Value::Any("A,B"), "the same for two traces that are joined: A for the first, B for the second, each yes or no");
const PROCESS_LIMIT: Opt = opt("--processes", Value::Any("N"), "process numbers are below N; 1 to {processes}, {processes} if left out");
const MODEL_OR_ALL: Opt =
    opt("--model", Value::Word("NAME", MODELS_OR_ALL), "posix, commit, session, mpiio (also MPI-IO), in any case, or all; all if left out");
const JSON: Opt = opt("--json", Value::None, "the answers as one JSON object, as docs/JSON.md describes it");
const OUT_HEADER: Opt =
    opt("--out-header", Value::Word("yes|no", YES_NO), "write the names first (yes) or not (no); as the first trace has them if left out");

const fn output(text: &'static str) -> Opt {
    Opt { name: "--output", short: "-o", value: Value::File("FILE"), many: false, text }
}

const TO_FILE: Opt = output("write to FILE; standard output if left out, or for -");

const REPLACED: &str = "FILE is replaced only once all is complete: it is written to a new file beside it, which then takes its name and keeps \
its mode. If FILE is a symbolic link, the file that it leads to is replaced; a pipe or a device is written to as it stands. FILE cannot be a \
trace that is read, under whatever name.";
const BY_ITSELF: &str =
    "Several traces with --header are taken one after the other, each by itself; the exit status is the largest of theirs. \
Two traces with --headers are joined first (kiqsaryn join --help); each row is then shown with its own trace and its number there.";
const TWO_JOINED: &str =
    "Two traces are joined first (kiqsaryn join --help); each row is then shown with its own trace and its number there.";
const STATUS_JUDGED: &str = "0 free, 1 race, 2 refused, 3 wrong command line or file error.";
const STATUS_DONE: &str = "0 done, 2 refused, 3 wrong command line or file error.";

const EACH_OR_JOIN: &[Usage] =
    &[Usage { operands: "TRACE...", needed: &["--header"] }, Usage { operands: "FIRST SECOND", needed: &["--headers"] }];
const ONE_OR_JOIN: &[Usage] =
    &[Usage { operands: "TRACE", needed: &["--header"] }, Usage { operands: "FIRST SECOND", needed: &["--headers"] }];

// ---- The commands

pub const COMMANDS: &[Command] = &[CHECK, RACES, REPLAY, EXPLAIN, REPORT, DIAGRAM, WRITE, JOIN, COMPLETIONS, MANUAL, HELP];

const CHECK: Command = Command {
    topic: Topic::Check,
    name: "check",
    brief: "verdicts, and why rows race",
    usages: EACH_OR_JOIN,
    about: &[
        "Says what was read, to hold against the recorder, then the verdict under each model and how many races there are. For the first race \
         it shows both rows, the bytes they share, and what is missing between them.",
        BY_ITSELF,
    ],
    options: &[
        HEADER,
        HEADERS,
        PROCESS_LIMIT,
        MODEL_OR_ALL,
        opt(
            "--csv",
            Value::None,
            "only the lines model,verdict,earlier,later (CR LF), or refused,NUMBER,PLACE; of two traces their rows in the join, or \
             refused,NUMBER,PLACE,TRACE (1 or 2, 0 for the join); of several by themselves each line behind the trace's name and a comma",
        ),
        JSON,
    ],
    more: &[
        "A verdict names the first race: the one with the smallest later row, then the smallest earlier row. kiqsaryn races shows every race; \
         check again after a repair.",
        "\"Row 2 happens before row 7\" means: both are of one process, or messages and barriers lead from the one to the other: a message from \
         its send to the wait for it, a barrier from each of its rows to all rows behind its rows. The place in the trace alone orders nothing, \
         nor does a recv: it says where the receive was posted, and the message has arrived at the wait.",
    ],
    status: STATUS_JUDGED,
    examples: &[
        "kiqsaryn check shelf.csv --header yes",
        "kiqsaryn check old-shelf.csv --header no --model commit",
        "kiqsaryn check - --header yes --csv < shelf.csv",
        "kiqsaryn check monday.csv tuesday.csv --header yes",
        "kiqsaryn check left.csv right.csv --headers yes,no",
    ],
    most: ANY,
};

const RACES: Command = Command {
    topic: Topic::Races,
    name: "races",
    brief: "every race, in groups",
    usages: EACH_OR_JOIN,
    about: &[
        "Says how many races there are under each model, then shows them in groups: the races of one file between two processes, in the order \
         of their first races. Models with the same races are shown together. Each race has a line: both rows, the earlier one first, who reads \
         or writes which bytes, and the bytes they share. For the first race of a group it says what is missing, as check does.",
        BY_ITSELF,
    ],
    options: &[
        HEADER,
        HEADERS,
        PROCESS_LIMIT,
        MODEL_OR_ALL,
        opt("--file", Value::Any("F"), "show the races of file F alone, 0 to {file}"),
        opt("--process", Value::Any("P"), "show the races in which process P has a row, 0 to {last}"),
        opt(
            "--limit",
            Value::Any("N"),
            "show at most N races under each model, the first ones by later row and then by earlier row; 1000 if left out, and with --csv and \
             --json all. 0 shows the counts and the groups alone",
        ),
        opt(
            "--csv",
            Value::None,
            "only the lines model,earlier,later (CR LF), by later row and then by earlier row, or refused,NUMBER,PLACE; of two traces their \
             rows in the join, or refused,NUMBER,PLACE,TRACE (1 or 2, 0 for the join); of several by themselves each line behind the trace's \
             name and a comma",
        ),
        JSON,
    ],
    more: &[
        "--file, --process and --limit choose what is shown, also with --csv and --json. The counts in words and in JSON and the exit status \
         are always of all races under the models asked for. With --csv nothing tells what was left out.",
        "\"Alike: the same is missing for 2 of the 3 races\" counts the races of the group for which Needed and Missing would say the same as \
         for the first but for row numbers: the same process comes first, with a read or with a write, and the same is not there: the row that \
         publishes, the row that refreshes, both, the order between them, or that order because they stand the other way round in the trace.",
    ],
    status: STATUS_JUDGED,
    examples: &[
        "kiqsaryn races shelf.csv --header yes",
        "kiqsaryn races shelf.csv --header yes --model commit --file 1 --process 3",
        "kiqsaryn races shelf.csv --header yes --limit 0",
        "kiqsaryn races left.csv right.csv --headers yes,no --csv > races.csv",
    ],
    most: ANY,
};

const REPLAY: Command = Command {
    topic: Topic::Replay,
    name: "replay",
    brief: "what each read returned",
    usages: &[
        Usage { operands: "TRACE...", needed: &["--header", "--model"] },
        Usage { operands: "FIRST SECOND", needed: &["--headers", "--model"] },
    ],
    about: &[
        "Puts the rows of each file, in the order of the trace, to the buffers of the model and to one plain file. For each read it lists the \
         bytes and the row that wrote them, in both. STALE marks bytes where the two differ.",
        BY_ITSELF,
    ],
    options: &[
        HEADER,
        HEADERS,
        opt("--model", Value::Word("M", MODELS), "posix, commit, session or mpiio (also MPI-IO), in any case"),
        opt("--file", Value::Any("F"), "the reads of file F alone, 0 to {file}; of every file if left out"),
        opt("--row", Value::Any("N"), "the read of row N alone"),
        opt("--stale", Value::None, "the reads with stale bytes alone"),
        PROCESS_LIMIT,
        JSON,
    ],
    more: &[
        "The last line counts the reads, the bytes read and the stale bytes of all chosen files, whatever is shown of them. It is the one \
         order that was recorded, of two traces the order of the join; check judges every allowed order.",
        "What is told is written as it goes, so that a failure may come behind some lines; it has status 3.",
    ],
    status: STATUS_DONE,
    examples: &[
        "kiqsaryn replay shelf.csv --header yes --model commit",
        "kiqsaryn replay shelf.csv --header yes --file 1 --model commit",
        "kiqsaryn replay shelf.csv --header yes --model MPI-IO --stale",
    ],
    most: ANY,
};

const EXPLAIN: Command = Command {
    topic: Topic::Explain,
    name: "explain",
    brief: "which bytes a read got, and why not newer ones",
    usages: &[
        Usage { operands: "TRACE ROW", needed: &["--header"] },
        Usage { operands: "FIRST SECOND ROW", needed: &["--headers"] },
    ],
    about: &[
        "Says of the read at row ROW which bytes it got under each model, from which row, and what one plain file would give it; and where these \
         differ, why it did not get the newer bytes.",
        TWO_JOINED,
    ],
    options: &[HEADER, HEADERS, PROCESS_LIMIT, MODEL_OR_ALL],
    more: &["It is the one order that was recorded, of two traces the order of the join; check judges every allowed order."],
    status: STATUS_DONE,
    examples: &["kiqsaryn explain shelf.csv 5 --header yes", "kiqsaryn explain shelf.csv 5 --header yes --model commit"],
    most: 2,
};

const REPORT: Command = Command {
    topic: Topic::Report,
    name: "report",
    brief: "a page to hand over (HTML)",
    usages: ONE_OR_JOIN,
    about: &[
        "Writes one HTML page that needs nothing else to be read or printed: what was read, to hold against the recorder, with the SHA-256 of \
         each trace; the verdicts of all models; every race in groups, as races shows them, with a picture of each; and for each read with \
         stale bytes what it returned and what one plain file would have.",
        TWO_JOINED,
    ],
    options: &[
        HEADER,
        HEADERS,
        PROCESS_LIMIT,
        MODEL_OR_ALL,
        opt("--limit", Value::Any("N"), "show at most N races and N stale reads under each model; 200 if left out, and never more than 10000. All are counted still"),
        TO_FILE,
    ],
    more: &[REPLACED],
    status: STATUS_JUDGED,
    examples: &["kiqsaryn report shelf.csv --header yes -o report.html", "kiqsaryn report shelf.csv --header yes --model commit -o commit.html"],
    most: 2,
};

const DIAGRAM: Command = Command {
    topic: Topic::Diagram,
    name: "diagram",
    brief: "a race as a picture (SVG)",
    usages: ONE_OR_JOIN,
    about: &[
        "Draws the first race under the model as an SVG picture for a browser: a lane for each process, the rows from top to bottom in the order \
         of the trace, each message as an arrow from its send to the wait for it, each barrier as a line through its rows, across the lanes; a \
         recv is a hollow box. It shows the two rows, the rows of their processes between, the messages and barriers that matter, and the rows \
         that the explanation names. A trace that is free under the model is drawn whole.",
        "Two traces are joined first; A and B then tell the trace of each row.",
    ],
    options: &[
        HEADER,
        HEADERS,
        opt("--model", Value::Word("M", MODELS), "posix, commit, session or mpiio (also MPI-IO), in any case; commit if left out"),
        opt("--race", Value::Any("E,L"), "the race of rows E and L in the place of the first"),
        opt("--rows", Value::Any("A-B"), "draw rows A to B"),
        Opt { many: true, ..opt("--process", Value::Any("P"), "draw the rows of process P, 0 to {last}; can be given for several") },
        opt("--file", Value::Any("F"), "draw the rows of file F, 0 to {file}, and the messages and barriers of their processes"),
        opt("--all", Value::None, "draw every row"),
        PROCESS_LIMIT,
        TO_FILE,
    ],
    more: &["A picture of more than 32767 pixels in width or height, which no viewer opens, is not drawn.", REPLACED],
    status: STATUS_DONE,
    examples: &[
        "kiqsaryn diagram shelf.csv --header yes -o shelf.svg",
        "kiqsaryn diagram shelf.csv --header yes --race 12,40 -o race.svg",
        "kiqsaryn diagram shelf.csv --header yes --rows 1-200 --process 0 --process 3",
    ],
    most: 2,
};

const WRITE: Command = Command {
    topic: Topic::Write,
    name: "write",
    brief: "the trace as plain text, cleaned",
    usages: &[Usage { operands: "TRACE", needed: &["--header"] }],
    about: &[
        "Writes the rows of a trace as plain text again: no field in quotes, fields that a kind does not use empty, CR LF at the end of every \
         record, also of the last. Only a trace that is accepted is written. Its rows, read again, are the same.",
        "The options from --line-ends to --blank-end mend what other programs do to a trace. Each changes what it names, outside quotes, \
         before the trace is read, and nothing else; none is ever applied unless it is said.",
    ],
    options: &[
        HEADER,
        OUT_HEADER,
        PROCESS_LIMIT,
        opt("--line-ends", Value::None, "take LF alone and CR alone for CR LF"),
        opt("--mark", Value::None, "drop the byte order mark before the first record"),
        opt("--utf-16", Value::None, "take UTF-16 for plain text"),
        opt("--semicolons", Value::None, "take semicolons for commas, where the trace has no comma"),
        opt("--tabs", Value::None, "take tabs for commas, where the trace has no comma"),
        opt("--spaces", Value::None, "drop spaces beside commas and line ends"),
        opt("--blank-end", Value::None, "drop blank lines at the end"),
        TO_FILE,
    ],
    more: &[
        "Once all is written it says how many bytes and rows were read and written, and what was mended: on standard output, or on standard \
         error where the text went to standard output.",
        REPLACED,
    ],
    status: "0 written, 2 refused, 3 wrong command line or file error.",
    examples: &[
        "kiqsaryn write shelf.csv --header yes -o clean.csv",
        "kiqsaryn write old-shelf.csv --header no --out-header yes > shelf.csv",
        "kiqsaryn write saved.csv --header yes --line-ends --semicolons -o shelf.csv",
    ],
    most: 1,
};

const JOIN: Command = Command {
    topic: Topic::Join,
    name: "join",
    brief: "two controllers' traces as one",
    usages: &[Usage { operands: "FIRST SECOND", needed: &["--headers"] }],
    about: &[
        "Joins the traces of two controllers, each of its own processes, into one trace. Says what was read of each, to hold against the \
         recorders, then the verdict on the join under each model; each row of a race is shown with its own trace and its number there.",
        "The next row comes from FIRST, unless FIRST is at its end or its next row is held back; then it comes from SECOND on the same \
         condition. A row is held back if it is a wait whose message no row taken so far has sent, or if its process stands at a barrier where \
         not all processes of both traces have arrived. The verdict is free exactly where it is free for every other order that keeps the rows \
         of each trace in order and holds back the same way.",
    ],
    options: &[
        opt("--headers", Value::Any("A,B"), "the first record holds the names (yes) or is row 1 (no): A for FIRST, B for SECOND"),
        PROCESS_LIMIT,
        MODEL_OR_ALL,
        opt("--csv", Value::None, "only the lines of check --csv"),
        output("write the joined trace as plain text to FILE, as write does; to standard output for -"),
        Opt { text: "write the names first (yes) or not (no); as FIRST has them if left out", ..OUT_HEADER },
    ],
    more: &[
        "FIRST or SECOND, not both, can be - for standard input. Refused are also: two traces of which both have rows of one process (19), two \
         that wait for each other, for a message that none sends or at a barrier where a process is missing (20), and a join that ends with a \
         barrier unfinished (22). The join has at most {rows} rows.",
        "With -o, what is said comes once all is written: on standard output, or on standard error where the text went to standard output.",
        REPLACED,
    ],
    status: STATUS_JUDGED,
    examples: &[
        "kiqsaryn join left.csv right.csv --headers yes,yes",
        "kiqsaryn join left.csv right.csv --headers yes,no --model commit -o both.csv",
    ],
    most: 2,
};

const COMPLETIONS: Command = Command {
    topic: Topic::Completions,
    name: "completions",
    brief: "completions for bash or zsh",
    usages: &[Usage { operands: "bash|zsh", needed: &[] }],
    about: &[
        "Prints what completes the commands and options of kiqsaryn in a shell. bash finds it under the name kiqsaryn in the folder of its \
         completions, zsh under the name _kiqsaryn in a folder of its fpath; ./install puts both in their places.",
    ],
    options: &[],
    more: &[],
    status: "0 done, 3 wrong command line or file error.",
    examples: &["source <(kiqsaryn completions bash)", "kiqsaryn completions zsh > _kiqsaryn"],
    most: 1,
};

const MANUAL: Command = Command {
    topic: Topic::Manual,
    name: "manual",
    brief: "the man page",
    usages: &[Usage { operands: "", needed: &[] }],
    about: &["Prints the man page of kiqsaryn, for man -l."],
    options: &[],
    more: &[],
    status: "0 done, 3 wrong command line or file error.",
    examples: &["kiqsaryn manual > kiqsaryn.1"],
    most: 0,
};

const HELP: Command = Command {
    topic: Topic::All,
    name: "help",
    brief: "the options of a command",
    usages: &[Usage { operands: "[COMMAND]", needed: &[] }],
    about: &["Shows the commands, or the options of one."],
    options: &[],
    more: &[],
    status: "0 done, 3 wrong command line or file error.",
    examples: &["kiqsaryn help check"],
    most: 1,
};

// ---- About all of them

pub const TITLE: &str = "finds storage races in the trace of a storage shelf";
pub const ABOUT: &[&str] = &[
    "TRACE is a CSV file with the fields process,kind,file,offset,length,message and lines that end in CR LF; - reads standard input. It has at \
     most {rows} rows, {processes} processes and {files} files.",
    "--header says whether the first record holds these names (yes) or is row 1 (no). It is always asked and never guessed.",
    "check, races and replay take several traces with --header, each by itself. check, races, replay, explain, report and diagram also take two \
     traces, FIRST SECOND, with --headers in the place of --header, and work on their join.",
];
pub const STATUSES: [(u32, &str); 4] = [
    (0, "free under every model asked for; replay, explain, diagram or write done"),
    (1, "a race under at least one of them"),
    (2, "the trace, or the join of two, is refused"),
    (3, "the command line is wrong, or a file cannot be read or written whole; where a reader has closed its pipe, nothing is said of it"),
];
pub const EXAMPLE: &str = "kiqsaryn check shelf.csv --header yes";

pub fn command(topic: Topic) -> Option<&'static Command> {
    COMMANDS.iter().find(|c| c.topic == topic)
}

pub fn named(name: &str) -> Option<&'static Command> {
    COMMANDS.iter().find(|c| c.name == name)
}

impl Command {
    /// The option of a name, long or short.
    pub fn option(&self, name: &str) -> Option<&'static Opt> {
        self.options.iter().find(|o| o.name == name || (!o.short.is_empty() && o.short == name))
    }
}

/// A text with the library's limits in their places.
pub fn filled(text: &str) -> String {
    let limits = [("{processes}", PROCESSES), ("{last}", PROCESSES - 1), ("{rows}", ROWS), ("{files}", FILES), ("{file}", FILES - 1)];
    limits.iter().fold(text.to_string(), |text, (name, limit)| text.replace(name, &limit.to_string()))
}
