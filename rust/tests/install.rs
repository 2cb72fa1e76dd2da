//! `./install PREFIX`: what it installs works from there, for the shell and for C; what it cannot install it leaves as it was.

#![allow(dead_code)]

mod running;

use running::{err, out, status};
use std::fs::{self, Permissions};
use std::os::unix::fs::{MetadataExt, PermissionsExt};
use std::path::{Path, PathBuf};
use std::process::{Command, Output};

const ROOT: &str = concat!(env!("CARGO_MANIFEST_DIR"), "/..");

/// The files that are installed, and their modes.
const FILES: [(&str, u32); 7] = [
    ("lib/libkiqsaryn.a", 0o644),
    ("include/kiqsaryn.h", 0o644),
    ("bin/kiqsaryn", 0o755),
    ("share/man/man1/kiqsaryn.1", 0o644),
    ("share/doc/kiqsaryn/JSON.md", 0o644),
    ("share/bash-completion/completions/kiqsaryn", 0o644),
    ("share/zsh/site-functions/_kiqsaryn", 0o644),
];

/// A folder of one test, whose name has a space.
struct Scratch(PathBuf);

impl Scratch {
    fn new(name: &str) -> Scratch {
        let path = std::env::temp_dir().join(format!("kiqsaryn install {name} {}", std::process::id()));
        let _ = fs::remove_dir_all(&path);
        fs::create_dir(&path).expect("a folder");
        Scratch(path)
    }

    fn path(&self, name: &str) -> PathBuf {
        self.0.join(name)
    }

    /// Runs a line of the shell in the folder. The script is `$INSTALL`.
    fn sh(&self, line: &str) -> Output {
        let mut shell = Command::new("sh");
        shell.args(["-c", line]).current_dir(&self.0).env("INSTALL", Path::new(ROOT).join("install"));
        shell.env_remove("DESTDIR").output().expect("the shell runs")
    }
}

impl Drop for Scratch {
    fn drop(&mut self) {
        let _ = fs::remove_dir_all(&self.0);
    }
}

/// All files below a folder, and the folders without any, in their order.
fn below(folder: &Path) -> Vec<String> {
    fn walk(folder: &Path, top: &Path, all: &mut Vec<String>) {
        let entries: Vec<PathBuf> = fs::read_dir(folder).expect("a folder").map(|e| e.expect("an entry").path()).collect();
        if entries.is_empty() {
            all.push(format!("{}/", folder.strip_prefix(top).expect("below").display()));
        }
        for path in entries {
            match path.is_dir() {
                true => walk(&path, top, all),
                false => all.push(path.strip_prefix(top).expect("below").display().to_string()),
            }
        }
    }
    let mut all = Vec::new();
    walk(folder, folder, &mut all);
    all.sort();
    all
}

/// Fails unless exactly the files stand below a folder, each with its mode.
fn is_installed(prefix: &Path) {
    let mut names: Vec<&str> = FILES.iter().map(|(name, _)| *name).collect();
    names.sort_unstable();
    assert_eq!(below(prefix), names);
    for (name, mode) in FILES {
        assert_eq!(fs::metadata(prefix.join(name)).expect("a file").mode() & 0o7777, mode, "{name}");
    }
    for folder in ["bin", "lib", "share/man/man1"] {
        assert_eq!(fs::metadata(prefix.join(folder)).expect("a folder").mode() & 0o777, 0o755, "{folder}");
    }
}

/// What is said of the files below a folder.
fn said(prefix: &str) -> String {
    FILES.iter().map(|(name, _)| format!("installed {prefix}/{name}\n")).collect()
}

/// Fails unless nothing is installed and a sentence says why.
fn fails(o: &Output, sentence: &str) {
    assert_eq!((status(o), out(o).as_str()), (1, ""), "{}", err(o));
    let last = err(o).lines().last().map(str::to_string);
    assert_eq!(last.as_deref(), Some(sentence), "{}", err(o));
}

/// One test, so that the command is built once.
#[test]
fn what_is_installed_works() {
    let s = Scratch::new("works");
    let prefix = s.path("to here");
    let o = s.sh("umask 077; \"$INSTALL\" 'to here'");
    assert_eq!((status(&o), err(&o).as_str()), (0, ""));
    assert_eq!(out(&o), said(&prefix.display().to_string()));
    is_installed(&prefix);
    the_command_runs(&s, &prefix);
    c_links(&s, &prefix);
    replaces(&s, &prefix);
    below_destdir(&s);
    leaves_all(&s);
}

fn the_command_runs(s: &Scratch, prefix: &Path) {
    let command = prefix.join("bin/kiqsaryn");
    let printed =
        |args: &[&str]| Command::new(&command).args(args).current_dir(Path::new(ROOT).join("examples")).output().expect("it runs");
    let read = |name: &str| fs::read_to_string(prefix.join(name)).expect("a file");
    assert_eq!(out(&printed(&["--version"])), format!("kiqsaryn {}\n", env!("CARGO_PKG_VERSION")));
    let o = printed(&["check", "commit_missing.csv", "--header", "yes", "--csv"]);
    assert_eq!((status(&o), out(&o)), (1, fs::read_to_string(Path::new(ROOT).join("examples/commit_missing.out")).expect("the output")));
    assert_eq!(out(&printed(&["manual"])), read("share/man/man1/kiqsaryn.1"));
    assert_eq!(out(&printed(&["completions", "bash"])), read("share/bash-completion/completions/kiqsaryn"));
    assert_eq!(out(&printed(&["completions", "zsh"])), read("share/zsh/site-functions/_kiqsaryn"));
    if Command::new("man").arg("--version").output().is_ok() {
        let o = s.sh("MANPATH=\"$PWD/to here/share/man\" MANPAGER=cat MANROFFOPT=-c man kiqsaryn | head -n 5");
        assert!(out(&o).contains("kiqsaryn - finds storage races"), "{}{}", out(&o), err(&o));
    }
}

/// A copy of the example for C, which has no header beside it.
fn c_links(s: &Scratch, prefix: &Path) {
    fs::copy(Path::new(ROOT).join("c/example.c"), s.path("example.c")).expect("a copy");
    assert!(
        fs::read(prefix.join("include/kiqsaryn.h")).expect("a header") == fs::read(Path::new(ROOT).join("c/kiqsaryn.h")).expect("a header")
    );
    let o = s.sh(
        "cc -std=c99 -Wall -Wextra -Werror -pedantic -I 'to here/include' example.c -L 'to here/lib' -lkiqsaryn -o example && ./example",
    );
    assert_eq!(out(&o), fs::read_to_string(Path::new(ROOT).join("c/example.out")).expect("the output"), "{}", err(&o));
}

/// Other versions are replaced, also ones that cannot be written and ones that run.
fn replaces(s: &Scratch, prefix: &Path) {
    fs::write(prefix.join("lib/libkiqsaryn.a"), "old").expect("a file");
    fs::set_permissions(prefix.join("include/kiqsaryn.h"), Permissions::from_mode(0o400)).expect("a mode");
    let runs = "{ sleep 1 | 'to here/bin/kiqsaryn' check - --header no; } > /dev/null 2>&1 &";
    let o = s.sh(&format!("{runs} sleep 0.2; \"$INSTALL\" \"$PWD/to here\""));
    assert_eq!((status(&o), err(&o).as_str()), (0, ""));
    is_installed(prefix);
    assert!(fs::metadata(prefix.join("lib/libkiqsaryn.a")).expect("a file").len() > 1_000);
}

fn below_destdir(s: &Scratch) {
    let o = s.sh("DESTDIR=\"$PWD/stage\" \"$INSTALL\" /usr/local");
    assert_eq!((status(&o), err(&o).as_str()), (0, ""));
    assert_eq!(out(&o), said(&s.path("stage/usr/local").display().to_string()));
    is_installed(&s.path("stage/usr/local"));
    assert_eq!(below(&s.path("stage")).len(), FILES.len());
}

/// Where a file cannot be made, the old ones stay, and no new one is there, nor a folder.
fn leaves_all(s: &Scratch) {
    let usage = "install: say where to: ./install PREFIX, for example ./install /usr/local";
    for args in ["", "''", "a b", "--help"] {
        fails(&s.sh(&format!("\"$INSTALL\" {args}")), usage);
    }
    let at = s.0.display();
    fs::create_dir_all(s.path("half/share/zsh/site-functions/_kiqsaryn")).expect("a folder in the place of a file");
    fs::create_dir_all(s.path("half/bin")).expect("a folder");
    fs::write(s.path("half/bin/kiqsaryn"), "old").expect("a file");
    let before = below(&s.path("half"));
    fails(&s.sh("\"$INSTALL\" half"), &format!("install: {at}/half/share/zsh/site-functions/_kiqsaryn is a folder"));
    assert_eq!((below(&s.path("half")), fs::read(s.path("half/bin/kiqsaryn")).expect("a file")), (before, b"old".to_vec()));
    assert!(!s.path("half/lib").exists() && !s.path("half/include").exists());
    fs::write(s.path("file"), "").expect("a file");
    fails(&s.sh("\"$INSTALL\" file"), &format!("install: the folder {at}/file cannot be made"));
    fails(&s.sh("\"$INSTALL\" /proc/none"), "install: the folder /proc/none cannot be made");
}

/// A repository whose library is missing, with stand-ins for `rt` and `cargo`.
#[test]
fn what_is_missing_is_built() {
    let s = Scratch::new("builds");
    for folder in ["bin", "repo", "repo/c", "repo/crates", "repo/crates/kiqsaryn", "repo/docs", "repo/rust"] {
        fs::create_dir(s.path(folder)).expect("a folder");
    }
    fs::copy(Path::new(ROOT).join("install"), s.path("repo/install")).expect("a copy");
    fs::write(s.path("repo/c/kiqsaryn.h"), "header\n").expect("a file");
    fs::write(s.path("repo/docs/JSON.md"), "text\n").expect("a file");
    let put = |name: &str, text: &str| {
        fs::write(s.path(name), text).expect("a file");
        fs::set_permissions(s.path(name), Permissions::from_mode(0o755)).expect("a mode");
    };
    let line = "PATH=\"$PWD/bin:/usr/bin:/bin\" CARGO_TARGET_DIR=\"$PWD/built\" repo/install out";
    if !Path::new("/usr/bin/rt").exists() && !Path::new("/bin/rt").exists() {
        let missing = format!("{}/repo/crates/kiqsaryn/out/libkiqsaryn.a", s.0.display());
        fails(&s.sh(line), &format!("install: {missing} is missing, and the Rattle toolchain (rt) that makes it is not installed"));
    }
    put("bin/rt", "#!/bin/sh\nexit 1\n");
    put("bin/cargo", "#!/bin/sh\nexit 101\n");
    fails(&s.sh(line), "install: the library is not made");
    put("bin/rt", "#!/bin/sh\n[ \"${PWD##*/}: $*\" = 'kiqsaryn: lib' ] && mkdir -p out && echo library > out/libkiqsaryn.a\n");
    fails(&s.sh(line), "install: the command is not built");
    assert!(!s.path("out").exists());
    put("bin/cargo", "#!/bin/sh\nmkdir -p \"$CARGO_TARGET_DIR/release\" && cp command \"$CARGO_TARGET_DIR/release/kiqsaryn\"\n");
    put("command", "#!/bin/sh\necho \"$@\"\n");
    let o = s.sh(line);
    assert_eq!((status(&o), err(&o).as_str()), (0, ""));
    is_installed(&s.path("out"));
    assert_eq!(fs::read_to_string(s.path("out/lib/libkiqsaryn.a")).expect("a file"), "library\n");
    assert_eq!(fs::read_to_string(s.path("out/share/man/man1/kiqsaryn.1")).expect("a file"), "manual\n");
}
