//! The man page and the completions: they hold what `--help` lists, the programs that read them take them, and bash and zsh complete with them.

#![allow(dead_code)]

mod running;

use running::folder::Folder;
use running::{err, feed, out, run, status};
use std::process::Command;

fn printed(args: &[&str]) -> String {
    let o = run(args, b"");
    assert_eq!((status(&o), err(&o).as_str()), (0, ""), "{args:?}");
    out(&o)
}

/// The commands that `--help` lists.
fn commands() -> Vec<String> {
    let text = printed(&["--help"]);
    let list = text.split("\n\n").nth(1).expect("the list of commands");
    let names = list.lines().filter_map(|l| l.strip_prefix("  kiqsaryn ")).filter_map(|l| l.split(' ').next());
    let names: Vec<String> = names.filter(|name| !name.starts_with('-')).map(str::to_string).collect();
    assert!(names.len() > 10, "{names:?}");
    names
}

/// The options that the help of a command lists, long and short.
fn options(command: &str) -> Vec<String> {
    let text = if command == "help" { String::new() } else { printed(&[command, "--help"]) };
    let lists = text.lines().filter_map(|l| l.strip_prefix("  ")).filter(|l| l.starts_with('-'));
    let names = lists.flat_map(|l| l.split("  ").next().unwrap_or("").split(", ").filter_map(|part| part.split(' ').next()));
    names.map(str::to_string).collect()
}

fn long_options(command: &str) -> Vec<String> {
    options(command).into_iter().filter(|name| name.starts_with("--")).chain(["--help".to_string()]).collect()
}

fn is_installed(program: &str) -> bool {
    let found = Command::new(program).arg("--version").output().is_ok();
    if !found {
        eprintln!("{program} is not installed: not tried");
    }
    found
}

// ---- The man page

#[test]
fn the_page_has_every_command_and_option() {
    let page = printed(&["manual"]).replace("\\-", "-");
    for part in
        [".TH KIQSARYN 1 ", "\n.SH NAME\nkiqsaryn - ", "\n.SH SYNOPSIS\n", "\n.SH DESCRIPTION\n", "\n.SH EXIT STATUS\n", "\n.SH EXAMPLES\n"]
    {
        assert!(page.contains(part), "{part} in {page}");
    }
    for command in commands() {
        let from = page.find(&format!("\n.SS kiqsaryn {command}\n")).unwrap_or_else(|| panic!("{command} in {page}"));
        let part = page[from + 1..].split("\n.SS ").next().expect("a part").split("\n.SH ").next().expect("a part");
        for option in options(&command) {
            assert!(part.contains(&format!("\\fB{option}\\fR")), "{option} of {command} in {part}");
        }
    }
    assert!(options("diagram").contains(&"-o".to_string()), "{:?}", options("diagram"));
}

/// No line of the help is left out, whatever its breaks are.
#[test]
fn the_page_says_what_the_help_says() {
    if !is_installed("groff") {
        return;
    }
    let o = feed(Command::new("groff").args(["-man", "-ww", "-Tascii", "-P-cbou"]), printed(&["manual"]).as_bytes());
    assert_eq!((status(&o), err(&o).as_str()), (0, ""), "warnings of groff");
    let flat = |text: &str| text.split_whitespace().collect::<Vec<&str>>().join(" ");
    let page = flat(&out(&o));
    for command in commands().iter().filter(|c| *c != "help") {
        let help = printed(&[command, "--help"]);
        for paragraph in help.split("\n\n").filter(|p| !p.starts_with("  ") && !p.starts_with("Example")) {
            let lines = if paragraph.starts_with("kiqsaryn ") { paragraph.split("\nkiqsaryn").next().unwrap_or("") } else { paragraph };
            assert!(page.contains(&flat(lines)), "{lines} of {command} in {page}");
        }
    }
}

#[test]
fn man_shows_the_page_without_a_warning() {
    if !is_installed("man") {
        return;
    }
    let f = Folder::new("manual");
    f.put("kiqsaryn.1", &printed(&["manual"]), 0o644);
    let o = f.sh("man --warnings -E UTF-8 -l -Tutf8 -Z kiqsaryn.1 > /dev/null");
    assert_eq!((status(&o), err(&o).as_str()), (0, ""));
}

// ---- bash

/// What bash offers for the last of these words.
fn bash(f: &Folder, words: &[&str]) -> Vec<String> {
    let quoted: Vec<String> = words.iter().map(|word| format!("'{word}'")).collect();
    let script = "source kiqsaryn.bash; COMP_WORDS=(\"$@\"); COMP_CWORD=$(($# - 1)); _kiqsaryn; printf '%s\\n' \"${COMPREPLY[@]}\"";
    let o = f.sh(&format!("bash -c '{}' bash {}", script.replace('\'', "'\\''"), quoted.join(" ")));
    assert_eq!((status(&o), err(&o).as_str()), (0, ""), "{words:?}");
    let mut offered: Vec<String> = out(&o).lines().filter(|line| !line.is_empty()).map(str::to_string).collect();
    offered.sort();
    offered
}

fn sorted(words: &[&str]) -> Vec<String> {
    let mut words: Vec<String> = words.iter().map(|word| word.to_string()).collect();
    words.sort();
    words
}

/// Words behind the command's name, and what is offered for the last of them.
const OFFERED: &[(&[&str], &[&str])] = &[
    (&["ch"], &["check"]),
    (&["--v"], &["--version"]),
    (&["check", "--head"], &["--header", "--headers"]),
    (&["check", "--header", ""], &["yes", "no"]),
    (&["check", "--header", "="], &["yes", "no"]),
    (&["check", "--header", "=", "n"], &["no"]),
    (&["check", "--headers", "y"], &["yes,yes", "yes,no"]),
    (&["check", "--model", ""], &["posix", "commit", "session", "mpiio", "all"]),
    (&["replay", "--model", ""], &["posix", "commit", "session", "mpiio"]),
    (&["races", "--limit", ""], &[]),
    (&["check", "t"], &["t.csv", "traces", "two words.csv"]),
    (&["check", "t.csv", "two"], &["two words.csv"]),
    (&["diagram", "t.csv", "-o", "tr"], &["traces"]),
    (&["diagram", "t.csv", "--output", "=", "tr"], &["traces"]),
    (&["write", "--line-ends", "t."], &["t.csv"]),
    (&["completions", ""], &["bash", "zsh"]),
    (&["help", "re"], &["replay", "report"]),
    (&["manual", ""], &[]),
    (&["nothing", "--"], &[]),
];

#[test]
fn bash_completes() {
    if !is_installed("bash") {
        return;
    }
    let f = Folder::new("bash");
    f.put("kiqsaryn.bash", &printed(&["completions", "bash"]), 0o644);
    f.put("two words.csv", "", 0o644);
    f.make_folder("traces");
    let o = f.sh("bash -n kiqsaryn.bash && bash -c 'source kiqsaryn.bash; complete -p kiqsaryn'");
    assert_eq!((out(&o).as_str(), err(&o).as_str()), ("complete -F _kiqsaryn kiqsaryn\n", ""));
    let names = commands();
    let all: Vec<&str> = names.iter().map(String::as_str).chain(["--help", "--version"]).collect();
    assert_eq!(bash(&f, &["kiqsaryn", ""]), sorted(&all));
    for command in &names {
        let mut options = long_options(command);
        options.sort();
        assert_eq!(bash(&f, &["kiqsaryn", command, "-"]), options, "{command}");
    }
    for (words, offered) in OFFERED {
        assert_eq!(bash(&f, &[&["kiqsaryn"], *words].concat()), sorted(offered), "{words:?}");
    }
}

// ---- zsh

/// What the function of zsh asks of zsh for the last of these words: the arguments of `_describe` and `_arguments`, on a line each.
fn zsh(f: &Folder, words: &str) -> String {
    let script = "compdef() { :; }; _describe() { print -rl -- ${(P)4}; }; _arguments() { print -rl -- \"$@\"; }; source ./_kiqsaryn; \
                  words=(\"$@\"); CURRENT=$#; _kiqsaryn";
    let o = f.sh(&format!("zsh -f -c '{}' zsh {words}", script.replace('\'', "'\\''")));
    assert_eq!((status(&o), err(&o).as_str()), (0, ""), "{words}");
    out(&o)
}

#[test]
fn zsh_completes() {
    if !is_installed("zsh") {
        return;
    }
    let f = Folder::new("zsh");
    f.put("_kiqsaryn", &printed(&["completions", "zsh"]), 0o644);
    let o = f.sh("zsh -n _kiqsaryn; head -n 1 _kiqsaryn");
    assert_eq!((out(&o).as_str(), err(&o).as_str()), ("#compdef kiqsaryn\n", ""));
    let first = zsh(&f, "kiqsaryn ''");
    for command in commands() {
        assert!(first.lines().any(|line| line.starts_with(&format!("{command}:"))), "{command} in {first}");
        let asked = zsh(&f, &format!("kiqsaryn {command} ''"));
        for option in options(&command) {
            let names = |line: &str| line.trim_start_matches(|c| c != '-').to_string();
            let is_of =
                |line: &str| [format!("{option}["), format!("{option}=["), format!("{option}+[")].iter().any(|o| line.contains(o.as_str()));
            assert!(asked.lines().any(|line| names(line).starts_with('-') && is_of(line)), "{option} of {command} in {asked}");
        }
    }
    let check = zsh(&f, "kiqsaryn check ''");
    assert!(check.lines().any(|l| l.starts_with("--header=[") && l.ends_with("]:yes|no:(yes no)")), "{check}");
    assert!(check.lines().any(|l| l.starts_with("--model=[") && l.ends_with(":NAME:(posix commit session mpiio all)")), "{check}");
    assert!(check.ends_with("*:trace:_files\n"), "{check}");
    assert!(zsh(&f, "kiqsaryn completions ''").ends_with("1:word:(bash zsh)\n"));
}
