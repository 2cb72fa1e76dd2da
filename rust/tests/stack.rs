//! The stack that the C header names is enough for every exported call, and what the library takes from outside.

#[allow(dead_code)]
mod running;

use running::{feed, out, status};
use std::path::{Path, PathBuf};
use std::process::Command;

/// How many functions the library exports.
const EXPORTS: usize = 17;

/// The bound that c/kiqsaryn.h names for a call, in KB.
fn bound(call: &str) -> usize {
    match call {
        "join" => 270,
        "check_trace" | "judge" | "list_races" | "report" | "write" => 200,
        "fill_counts" | "verdict" | "races" => 18,
        _ => 4,
    }
}

/// What a call that reads a trace may take, in KB: the table of messages and those of the barriers do not stand at the same time.
const READING: usize = 150;

/// A trace with data rows, commits, messages and a barrier, free under commit, whose replay is accepted. The barrier's number is that of the second
/// file's.
fn trace() -> String {
    let mut text = String::from("process,kind,file,offset,length,message\r\n");
    for i in 0..40 {
        let (p, q, at) = (i % 4, (i + 1) % 4, 10 * i);
        text += &format!("{p},write,1,{at},9,\r\n{p},commit,1,,,\r\n{p},send,,,,{i}\r\n");
        text += &format!("{q},recv,,,,{i}\r\n{q},wait,,,,{i}\r\n{q},read,1,{at},9,\r\n");
    }
    (0..4).for_each(|p| text += &format!("{p},barrier,,,,7\r\n"));
    text + "0,commit,1,,,\r\n"
}

#[test]
fn every_call_keeps_to_the_stack_that_the_header_names() {
    let root = Path::new(env!("CARGO_MANIFEST_DIR")).join("..");
    let header = std::fs::read_to_string(root.join("c/kiqsaryn.h")).expect("the header");
    for words in
        ["take up to 200 KB of stack", "kiqsaryn_races up to 18 KB", "kiqsaryn_join up to\n * 270 KB", "every other call less than 4 KB"]
    {
        assert!(header.contains(words), "{words}");
    }
    let program = PathBuf::from(env!("CARGO_TARGET_TMPDIR")).join("stack");
    let source = concat!(env!("CARGO_MANIFEST_DIR"), "/tests/stack.c");
    let built = Command::new("cc")
        .args(["-std=c11", "-Wall", "-Wextra", "-Werror", "-O1", "-I"])
        .arg(root.join("c"))
        .arg(source)
        .arg(root.join("crates/kiqsaryn/out/libkiqsaryn.a"))
        .args(["-lpthread", "-o"])
        .arg(&program)
        .status()
        .expect("cc runs");
    assert!(built.success());
    let run = feed(&mut Command::new(&program), trace().as_bytes());
    assert_eq!(status(&run), 0);
    let told = out(&run);
    assert_eq!(told.lines().count(), EXPORTS);
    for line in told.lines() {
        let (call, bytes) = line.split_once(' ').expect("a call and its bytes");
        let bytes: usize = bytes.parse().expect("a number");
        assert!(bytes < 1024 * bound(call), "{line}");
        assert!(!["check_trace", "judge", "list_races", "report"].contains(&call) || bytes < 1024 * READING, "{line}");
    }
}

/// The instructions of a file's machine code, as `objdump` prints them: those of each function under its name.
fn disassembled(file: &Path) -> Vec<(String, Vec<String>)> {
    let run = Command::new("objdump").args(["-d", "--no-show-raw-insn", "--no-addresses"]).arg(file).output().expect("objdump runs");
    assert!(run.status.success());
    let text = String::from_utf8(run.stdout).expect("plain text");
    let mut functions: Vec<(String, Vec<String>)> = Vec::new();
    for line in text.lines() {
        if let Some(name) = line.strip_prefix('<').and_then(|l| l.strip_suffix(">:")) {
            functions.push((name.to_string(), Vec::new()));
        } else if let (Some((_, all)), true) = (functions.last_mut(), line.starts_with('\t')) {
            all.push(line.split_whitespace().collect::<Vec<_>>().join(" "));
        }
    }
    functions
}

/// The compiler touches the pages of a large frame one by one and counts them in r11, whatever r11 holds. That is right at a function's entry, where
/// r11 holds nothing, and wrong behind early returns, to which the compiler may move it (docs/DECISIONS.md, Forms).
#[test]
fn large_frames_are_made_at_the_entry() {
    let built = Path::new(env!("CARGO_MANIFEST_DIR")).join("../crates");
    let mut large = 0;
    for file in ["kiqsaryn/out/libkiqsaryn.a", "verdict/out/verdict"] {
        for (name, instructions) in disassembled(&built.join(file)) {
            let Some(probe) = instructions.iter().position(|i| i == "mov %rsp,%r11") else {
                continue;
            };
            large += 1;
            let first = &instructions[..probe];
            assert!(first.iter().all(|i| i.starts_with("push ") || i == "endbr64"), "{file}, {name}: {first:?}");
        }
    }
    assert!(large > 1, "the tables by message stand in large frames");
}

/// A caller may have no C library: the archive takes two functions from outside, which a compiler's own code takes too.
#[test]
fn two_names_come_from_outside() {
    let library = Path::new(env!("CARGO_MANIFEST_DIR")).join("../crates/kiqsaryn/out/libkiqsaryn.a");
    let run = Command::new("nm").arg("-u").arg(&library).output().expect("nm runs");
    assert!(run.status.success());
    let text = String::from_utf8(run.stdout).expect("plain text");
    let mut names: Vec<&str> = text.lines().filter_map(|line| line.trim_start().strip_prefix("U ")).collect();
    names.sort();
    names.dedup();
    assert_eq!(names, ["memcpy", "memset"]);
}
