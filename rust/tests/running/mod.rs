//! Programs run as a user runs them.

pub mod folder;
pub mod page;
pub mod pair;
pub mod picture;

use std::io::Write;
use std::path::PathBuf;
use std::process::{Command, Output, Stdio};

pub const EXE: &str = env!("CARGO_BIN_EXE_kiqsaryn");

pub fn examples() -> PathBuf {
    PathBuf::from(concat!(env!("CARGO_MANIFEST_DIR"), "/../examples"))
}

/// The example traces. Each has its outputs beside it, and there is no output without its trace.
pub fn example_traces() -> Vec<PathBuf> {
    let entries = std::fs::read_dir(examples()).expect("the examples");
    let files: Vec<PathBuf> = entries.map(|entry| entry.expect("an entry").path()).collect();
    let with = |extension: &str| files.iter().filter(|f| f.extension().is_some_and(|e| e == extension)).count();
    assert!(with("csv") > 0 && with("csv") == with("out"), "a trace for each output");
    files.into_iter().filter(|f| f.extension().is_some_and(|e| e == "csv")).collect()
}

/// Runs a program with this standard input. A program that does not read all of it is no failure.
pub fn feed(command: &mut Command, input: &[u8]) -> Output {
    let command = command.stdin(Stdio::piped()).stdout(Stdio::piped()).stderr(Stdio::piped());
    let mut child = command.spawn().expect("the program starts");
    let mut stdin = child.stdin.take().expect("a pipe");
    let input = input.to_vec();
    let writer = std::thread::spawn(move || {
        let _ = stdin.write_all(&input);
    });
    let output = child.wait_with_output().expect("the program ends");
    writer.join().expect("the input is written");
    output
}

/// Runs the command `kiqsaryn` in the folder of the examples.
pub fn run(args: &[&str], input: &[u8]) -> Output {
    feed(Command::new(EXE).args(args).current_dir(examples()), input)
}

pub fn status(o: &Output) -> i32 {
    o.status.code().expect("an exit status and no signal")
}

pub fn words_of(bytes: &[u8]) -> String {
    String::from_utf8(bytes.to_vec()).expect("text")
}

pub fn out(o: &Output) -> String {
    words_of(&o.stdout)
}

pub fn err(o: &Output) -> String {
    words_of(&o.stderr)
}

/// Fails unless two texts are the same, and tells the first line that differs.
pub fn same(got: &str, want: &str, what: &str) {
    let (mut got, mut want) = (got.split_inclusive('\n'), want.split_inclusive('\n'));
    for line in 1.. {
        match (got.next(), want.next()) {
            (None, None) => return,
            (a, b) => assert!(a == b, "{what}: line {line} is\n  {}\nand not\n  {}", told(a), told(b)),
        }
    }
}

/// A line that may not be there, with its line end to be seen.
fn told(line: Option<&str>) -> String {
    line.map_or("the end".to_string(), |line| format!("{line:?}"))
}

/// Fails unless a command printed these words, with this status and nothing on standard error, and tells what differs.
pub fn prints(o: &Output, want: &str, expected: i32, what: &str) {
    same(&out(o), want, what);
    same(&err(o), "", what);
    assert_eq!(status(o), expected, "{what}");
}

/// What is said of a refused join but for the lines that name places in its traces.
pub fn without_places(words: &str) -> String {
    let names_place = |line: &&str| line.starts_with("  place: ") || line.trim_start().starts_with("At line ");
    words.split_inclusive('\n').filter(|line| !names_place(line)).collect()
}
