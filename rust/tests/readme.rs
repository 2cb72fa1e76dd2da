//! The commands that README.md shows with what they print: each prints exactly that.

#[allow(dead_code)]
mod running;

use running::{err, feed, out, same, EXE};
use std::path::{Path, PathBuf};
use std::process::Command;

const SHOWN: &str = "    rust/target/release/kiqsaryn ";

/// The indented block behind empty lines.
fn block(lines: &[&str]) -> String {
    let inside = |l: &&&str| l.is_empty() || l.starts_with("    ");
    let lines = lines.iter().skip_while(|l| l.is_empty()).take_while(inside);
    let text = lines.map(|l| l.strip_prefix("    ").unwrap_or(l)).collect::<Vec<_>>().join("\n");
    text.trim_end().to_string() + "\n"
}

fn root() -> PathBuf {
    Path::new(env!("CARGO_MANIFEST_DIR")).join("..")
}

fn readme() -> String {
    std::fs::read_to_string(root().join("README.md")).expect("the file")
}

/// The block behind the only line that ends so.
fn block_behind(end: &str) -> String {
    let text = readme();
    let lines: Vec<&str> = text.lines().collect();
    let at: Vec<usize> = (0..lines.len()).filter(|k| lines[*k].ends_with(end)).collect();
    assert_eq!(at.len(), 1, "lines that end in {end}");
    block(&lines[at[0] + 1..])
}

/// What the program `verdict` prints of the first example stands beside the example as well, and the program's own test compares it.
#[test]
fn the_first_verdicts_are_those_beside_the_example() {
    let beside = std::fs::read_to_string(root().join("examples/commit_missing.out")).expect("the output beside it");
    same(&block_behind("bytes 5 to 14. It prints"), &beside.replace("\r\n", "\n"), "README.md");
}

#[test]
fn the_trace_by_hand_is_cleaned_as_shown() {
    let by_hand = block_behind("no line end behind its last record:").trim_end().replace('\n', "\r\n");
    let o = feed(Command::new(EXE).args(["write", "-", "--header", "no", "--out-header", "yes"]), by_hand.as_bytes());
    assert_eq!(out(&o), block_behind("writes to `clean.csv`").replace('\n', "\r\n"), "{}", err(&o));
}

#[test]
fn every_command_prints_what_stands_behind_it() {
    let text = readme();
    let lines: Vec<&str> = text.lines().collect();
    let mut run = Vec::new();
    for (k, line) in lines.iter().enumerate() {
        let Some(args) = line.strip_prefix(SHOWN) else {
            continue;
        };
        let rest = &lines[k + 1..];
        let behind = rest.iter().find(|l| !l.is_empty()).copied().unwrap_or("");
        if !["prints", "shows what was read, and then"].contains(&behind) {
            continue;
        }
        let at = rest.iter().position(|l| *l == behind).expect("the line was found");
        let want = block(&rest[at + 1..]);
        let o = feed(Command::new(EXE).args(args.split(' ')).current_dir(root()), b"");
        let told = out(&o);
        let same = if behind == "prints" { told == want } else { told.ends_with(&format!("\n\n{want}")) };
        assert!(same && err(&o).is_empty(), "{args} prints\n{told}\nand not\n{want}");
        run.push(args.split(' ').next().expect("a command"));
    }
    assert_eq!(run, ["check", "races", "replay", "explain", "join", "join"], "the commands whose output stands there");
}
