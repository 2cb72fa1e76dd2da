//! The files of the command `kiqsaryn`: the trace that it reads, standard output, and the picture that `diagram -o` writes, which `write -o`
//! writes its text like. Every test types command lines into a shell.

#[allow(dead_code)]
mod running;

use running::folder::{failed, silent, Folder};
use running::{err, feed, out, status, EXE};
use std::fs::{self, File};
use std::io::{Read, Seek, SeekFrom};
use std::os::unix::fs::{symlink, FileTypeExt, MetadataExt};
use std::path::Path;
use std::process::Command;

/// The picture of the trace, as standard output gets it.
fn picture(f: &Folder) -> Vec<u8> {
    let o = f.sh("kiqsaryn diagram t.csv --header yes");
    assert_eq!(status(&o), 0, "{}", err(&o));
    assert!(o.stdout.starts_with(b"<?xml") && o.stdout.ends_with(b"</svg>\n"));
    o.stdout
}

// ---- The trace is never written over

#[test]
fn a_picture_never_goes_over_its_trace() {
    let f = Folder::new("over");
    f.make_folder("sub");
    fs::hard_link(f.path("t.csv"), f.path("hard.csv")).expect("a hard link");
    symlink("t.csv", f.path("soft.csv")).expect("a link");
    symlink("../soft.csv", f.path("sub/again.csv")).expect("a link");
    symlink(".", f.path("here")).expect("a link");
    let (trace, names) = (f.read("t.csv"), f.names());
    let all = ["t.csv", "./t.csv", "sub/../t.csv", "hard.csv", "soft.csv", "sub/again.csv", "here/hard.csv"];
    for name in all {
        for source in all.iter().flat_map(|t| [t.to_string(), format!("- < {t}"), format!("/dev/stdin < {t}")]) {
            let line = format!("kiqsaryn diagram --header yes -o {name} {source}");
            failed(&f.sh(&line), &line, "-o names the trace itself; nothing is written\n");
        }
    }
    assert_eq!((f.read("t.csv"), f.read("hard.csv"), f.names()), (trace.clone(), trace, names));
}

#[test]
fn standard_output_never_goes_over_the_trace() {
    let f = Folder::new("append");
    fs::hard_link(f.path("t.csv"), f.path("hard.csv")).expect("a hard link");
    let trace = f.read("t.csv");
    let pictures = ["diagram", "diagram -o -", "diagram -o /dev/stdout"];
    let texts = ["write", "write -o -", "write -o /dev/stdout", "write -o new.csv", "write -o new.csv --out-header no"];
    for command in [&["check", "races", "races --csv", "replay --file 1 --model commit"][..], &pictures, &texts].concat() {
        for files in ["t.csv >> t.csv", "t.csv >> hard.csv", "- < t.csv >> hard.csv", "t.csv 1<> t.csv"] {
            let line = format!("kiqsaryn {command} --header yes {files}");
            let words = if command.ends_with("stdout") { "-o names the trace" } else { "standard output is the trace" };
            failed(&f.sh(&line), &line, words);
            assert_eq!(f.read("t.csv"), trace, "{line}");
        }
    }
    assert_eq!(f.names(), ["hard.csv", "t.csv"]);
}

/// Words on standard error would go into the trace, so there are none: not of a refusal, nor of another trace that cannot be read.
#[test]
fn standard_error_never_goes_over_the_trace() {
    let f = Folder::new("append-errors");
    let trace = f.read("t.csv");
    let commands =
        ["check T", "check gone.csv T", "races T --csv", "replay T --model commit", "explain T 5", "report T", "diagram T", "write T"];
    for command in commands {
        for (trace_word, files) in [("t.csv", "2>> t.csv"), ("-", "< t.csv 2>> t.csv"), ("t.csv", ">> t.csv 2>&1")] {
            for header in ["yes", "no"] {
                let line = format!("kiqsaryn {} --header {header} {files}", command.replace('T', trace_word));
                let o = f.sh(&line);
                assert_eq!((out(&o), err(&o), status(&o)), (String::new(), String::new(), 3), "{line}");
                assert_eq!(f.read("t.csv"), trace, "{line}");
            }
        }
    }
    assert_eq!(f.names(), ["t.csv"]);
}

// ---- Files that are written

#[test]
fn a_new_file_has_the_mode_that_the_user_asks_for() {
    let f = Folder::new("new");
    for (umask, mode) in [("022", 0o644), ("027", 0o640), ("077", 0o600), ("000", 0o666)] {
        silent(&f.sh(&format!("umask {umask}; kiqsaryn diagram t.csv --header yes -o p{umask}.svg")));
        assert!(f.read(&format!("p{umask}.svg")) == picture(&f));
        assert_eq!(f.mode(&format!("p{umask}.svg")), mode, "umask {umask}");
    }
    assert_eq!(f.names(), ["p000.svg", "p022.svg", "p027.svg", "p077.svg", "t.csv"]);
}

#[test]
fn an_old_file_is_replaced_and_its_mode_kept() {
    let f = Folder::new("old");
    for mode in [0o600, 0o640, 0o666, 0o755] {
        f.put("p.svg", &"old ".repeat(5_000), mode);
        let _ = fs::remove_file(f.path("other.svg"));
        fs::hard_link(f.path("p.svg"), f.path("other.svg")).expect("a second name of the old file");
        silent(&f.sh("umask 022; kiqsaryn diagram t.csv --header yes -o p.svg"));
        assert!(f.read("p.svg") == picture(&f));
        assert_eq!(f.mode("p.svg"), mode);
        assert!(f.read("other.svg") == "old ".repeat(5_000).as_bytes(), "the old file is not written to");
        assert_eq!(f.names(), ["other.svg", "p.svg", "t.csv"]);
    }
}

/// Root may give files to others, and a file that root replaces stays its owner's.
#[test]
fn a_file_that_root_replaces_stays_its_owners() {
    let f = Folder::new("owner");
    f.put("p.svg", "old", 0o640);
    let mut command = Command::new(EXE);
    command.args(["diagram", "t.csv", "--header", "yes", "-o", "p.svg"]).current_dir(&f.path);
    let owner = |m: fs::Metadata| (m.uid(), m.gid(), m.mode() & 0o7777);
    let before = owner(fs::metadata(f.path("p.svg")).expect("the old file"));
    silent(&feed(&mut command, b""));
    assert_eq!(owner(fs::metadata(f.path("p.svg")).expect("the new file")), before);
    assert!(f.read("p.svg") == picture(&f));
}

/// A link stays, and the file that it leads to is written, whether or not it is there already.
#[test]
fn a_symbolic_link_is_written_through() {
    let f = Folder::new("links");
    f.make_folder("sub");
    f.make_folder("far");
    symlink("../far/p.svg", f.path("sub/p.svg")).expect("a link");
    symlink("sub/p.svg", f.path("first.svg")).expect("a link");
    symlink(f.path("far"), f.path("folder")).expect("a link");
    for (target, written) in [("first.svg", "far/p.svg"), ("sub/p.svg", "far/p.svg"), ("folder/q.svg", "far/q.svg")] {
        for old in [None, Some("old")] {
            let _ = fs::remove_file(f.path(written));
            old.into_iter().for_each(|old| f.put(written, old, 0o604));
            silent(&f.sh(&format!("umask 022; kiqsaryn diagram t.csv --header yes -o {target}")));
            let regular = fs::symlink_metadata(f.path(written)).expect("the file").is_file();
            assert!(regular && f.read(written) == picture(&f), "{target}");
            assert_eq!(f.mode(written), if old.is_some() { 0o604 } else { 0o644 }, "{target}");
        }
    }
    assert_eq!(fs::read_link(f.path("first.svg")).expect("a link"), Path::new("sub/p.svg"));
    assert_eq!(fs::read_link(f.path("sub/p.svg")).expect("a link"), Path::new("../far/p.svg"));
    assert_eq!(out(&f.sh("find . -type f | sort")), "./bin/kiqsaryn\n./far/p.svg\n./far/q.svg\n./t.csv\n");

    symlink("loop.svg", f.path("loop.svg")).expect("a link");
    symlink("nowhere/p.svg", f.path("lost.svg")).expect("a link");
    for target in ["loop.svg", "lost.svg"] {
        let line = format!("kiqsaryn diagram t.csv --header yes -o {target}");
        failed(&f.sh(&line), &line, &format!("cannot write {target}: "));
    }
}

#[test]
fn no_file_is_in_the_way_of_the_new_one() {
    let f = Folder::new("taken");
    let line = "for k in 0 1 2; do echo mine > .kiqsaryn-$$-$k; done; exec kiqsaryn diagram t.csv --header yes -o p.svg";
    silent(&f.sh(line));
    assert!(f.read("p.svg") == picture(&f));
    let taken: Vec<String> = f.names().into_iter().filter(|name| name.starts_with(".kiqsaryn-")).collect();
    assert!(taken.len() == 3 && taken.iter().all(|name| f.read(name) == b"mine\n"), "{taken:?}");
    let long = "p".repeat(255);
    silent(&f.sh(&format!("kiqsaryn diagram t.csv --header yes -o {long}")));
    assert!(f.read(&long) == picture(&f));
}

/// A limit on the length of files ends the writing in its middle.
#[test]
fn a_file_that_cannot_be_written_whole_is_left_as_it_was() {
    let f = Folder::new("short");
    f.put("old.svg", "old", 0o644);
    let names = f.names();
    for target in ["old.svg", "new.svg"] {
        let line = format!("trap '' XFSZ; ulimit -f 1; exec kiqsaryn diagram t.csv --header yes -o {target}");
        failed(&f.sh(&line), &line, &format!("cannot write {target}: File too large"));
        assert_eq!((f.read("old.svg"), f.names()), (b"old".to_vec(), names.clone()));
    }
    for target in [".", "t.csv/", "t.csv/p.svg", "none/p.svg", "''"] {
        let line = format!("kiqsaryn diagram t.csv --header yes -o {target}");
        failed(&f.sh(&line), &line, "cannot write ");
        assert_eq!(f.names(), names, "{line}");
    }
}

#[test]
fn a_refused_trace_leaves_the_file_as_it_was() {
    let f = Folder::new("refused");
    f.put("p.svg", "old", 0o644);
    let o = f.sh("kiqsaryn diagram t.csv --header no -o p.svg");
    assert_eq!((status(&o), out(&o), f.read("p.svg")), (2, String::new(), b"old".to_vec()));
    assert_eq!(f.names(), ["p.svg", "t.csv"]);
}

#[test]
fn what_is_no_regular_file_is_written_to_as_it_stands() {
    let f = Folder::new("special");
    let diagram = "kiqsaryn diagram t.csv --header yes -o";
    let picture = picture(&f);
    silent(&f.sh(&format!("{diagram} /dev/null")));
    assert!(fs::metadata("/dev/null").expect("the null device").file_type().is_char_device());
    let line = format!("{diagram} /dev/full");
    failed(&f.sh(&line), &line, "cannot write /dev/full: No space left on device");
    for line in [format!("{diagram} /dev/stdout | cat"), format!("{diagram} /dev/fd/3 3>&1 >&2 | cat"), format!("{diagram} -")] {
        let o = f.sh(&line);
        assert_eq!((status(&o), err(&o)), (0, String::new()), "{line}");
        assert!(o.stdout == picture, "{line}: {}", out(&o));
    }
    let o = f.sh(&format!("mkfifo pipe; {diagram} pipe & cat pipe; wait $!; test -p pipe"));
    assert!(status(&o) == 0 && o.stdout == picture, "{}", err(&o));
    let o = f.sh(&format!("ln -s pipe link; {diagram} link & cat pipe; wait $!; test -L link && test -p pipe"));
    assert!(status(&o) == 0 && o.stdout == picture, "{}", err(&o));

    // Standard output and other open descriptors, by their names, are files that somebody else has open.
    silent(&f.sh(&format!("{{ echo before; {diagram} /dev/stdout; echo behind; }} > all")));
    assert!(f.read("all") == [b"before\n", &picture[..], b"behind\n"].concat());
    silent(&f.sh(&format!("echo before > log; {diagram} log >> log")));
    assert!(f.read("log") == [b"before\n", &picture[..]].concat());
    silent(&f.sh(&format!("exec 3> three; i=$(stat -c %i three); {diagram} /dev/fd/3; test $i = $(stat -c %i three)")));
    assert!(f.read("three") == picture);
    let o = f.sh(&format!("exec 3<> gone; rm gone; {diagram} /dev/fd/3; cat <&3"));
    assert!(status(&o) == 0 && o.stdout == picture, "{}", err(&o));
    assert_eq!(f.names(), ["all", "link", "log", "pipe", "t.csv", "three"]);
}

// ---- Permissions

#[test]
fn permissions_hold() {
    let f = Folder::new("permissions");
    f.make_folder("shut");
    f.put("old.svg", "old", 0o444);
    f.put("shut/old.svg", "old", 0o666);
    f.put("secret.csv", "0,write,1,0,10,\r\n", 0o000);
    f.set_mode("shut", 0o555);
    for (line, words) in [
        ("kiqsaryn diagram t.csv --header yes -o old.svg", "cannot write old.svg: Permission denied"),
        ("kiqsaryn diagram t.csv --header yes -o shut/old.svg", "cannot write shut/old.svg: no new file can be made beside it: Permission"),
        ("kiqsaryn diagram t.csv --header yes -o shut/new.svg", "cannot write shut/new.svg: no new file can be made beside it: Permission"),
        ("kiqsaryn check secret.csv --header no", "cannot read secret.csv: Permission denied"),
        ("kiqsaryn diagram secret.csv --header no -o new.svg", "cannot read secret.csv: Permission denied"),
    ] {
        failed(&f.sh(line), line, words);
    }
    let left = f.sh("cat old.svg shut/old.svg; ls -A shut");
    f.set_mode("shut", 0o755);
    assert_eq!(out(&left), "oldoldold.svg\n");
    assert_eq!(f.names(), ["old.svg", "secret.csv", "shut", "t.csv"]);
}

// ---- Standard output

/// Every command, with a trace that is accepted and one that is refused.
const COMMANDS: [&str; 11] = [
    "kiqsaryn check t.csv --header yes",
    "kiqsaryn check t.csv --header no --csv",
    "kiqsaryn races t.csv --header yes",
    "kiqsaryn races t.csv --header yes --csv",
    "kiqsaryn races t.csv --header no",
    "kiqsaryn replay t.csv --header yes --file 1 --model commit",
    "kiqsaryn diagram t.csv --header yes",
    "kiqsaryn write t.csv --header yes",
    "kiqsaryn write t.csv --header yes --out-header no -o -",
    "kiqsaryn --help",
    "kiqsaryn --version",
];

#[test]
fn output_that_cannot_be_written_is_an_error() {
    let f = Folder::new("output");
    silent(&f.sh("mkfifo pipe"));
    for command in COMMANDS {
        for (output, why) in [("> /dev/full", "No space left on device"), (">&-", "it is closed"), ("1< /dev/null", "Bad file descriptor")]
        {
            let line = format!("{command} {output}");
            failed(&f.sh(&line), &line, &format!("cannot write to standard output: {why}"));
        }
        let line = format!("exec 3<> pipe 4> pipe 3>&-; {command} >&4");
        let o = f.sh(&line);
        assert_eq!((status(&o), out(&o), err(&o)), (3, String::new(), String::new()), "{line}");
    }
    // Where nothing is to be written, nothing fails.
    silent(&f.sh("kiqsaryn diagram t.csv --header yes -o p.svg >&-"));
    assert!(f.read("p.svg") == picture(&f));
    assert_eq!(status(&f.sh("kiqsaryn diagram t.csv --header no >&-")), 2);
}

#[test]
fn a_reader_that_stops_early_is_told_nothing() {
    let f = Folder::new("head");
    f.put("long.csv", &"0,write,1,0,10,\r\n".repeat(900), 0o644);
    for output in ["", "-o /dev/stdout"] {
        let o = f.sh(&format!("{{ kiqsaryn diagram long.csv --header no {output}; echo $? >&2; }} | head -c 1"));
        assert_eq!(out(&o), "<");
        assert_eq!(err(&o), "3\n", "{output}");
    }
}

// ---- Traces that cannot be read

#[test]
fn a_trace_that_cannot_be_read_is_an_error() {
    let f = Folder::new("reading");
    f.make_folder("sub");
    symlink("sub", f.path("link")).expect("a link");
    for command in ["check", "races", "replay --file 1 --model commit", "diagram", "write"] {
        for (trace, name, why) in [
            ("none.csv", "none.csv", "No such file or directory"),
            ("t.csv/x", "t.csv/x", "Not a directory"),
            ("sub", "sub", "Is a directory"),
            ("link", "link", "Is a directory"),
            ("/proc/self/mem", "/proc/self/mem", "Input/output error"),
            ("- < sub", "standard input", "Is a directory"),
            ("- <&-", "standard input", "it is closed"),
            ("- 0> /dev/null", "standard input", "Bad file descriptor"),
            ("- 0>> t.csv", "standard input", "Bad file descriptor"),
        ] {
            for header in ["yes", "no"] {
                let line = format!("kiqsaryn {command} --header {header} {trace}");
                failed(&f.sh(&line), &line, &format!("cannot read {name}: {why}"));
            }
        }
    }
    // An input without bytes is a trace without rows.
    assert_eq!(status(&f.sh("kiqsaryn check - --header no < /dev/null")), 0);
}

/// The memory of this process from a place shortly before the end of its stack: some bytes can be read, and then none.
fn fails_midway() -> File {
    let maps = fs::read_to_string("/proc/self/maps").expect("the ranges of memory");
    let stack = maps.lines().find(|l| l.ends_with("[stack]")).expect("a stack");
    let end = stack.split(['-', ' ']).nth(1).expect("its end");
    let mut memory = File::open("/proc/self/mem").expect("the memory");
    memory.seek(SeekFrom::Start(u64::from_str_radix(end, 16).expect("a number") - 100)).expect("a place");
    memory
}

#[test]
fn a_read_that_fails_midway_is_an_error() {
    let f = Folder::new("midway");
    let mut bytes = [0; 200];
    let mut memory = fails_midway();
    assert_eq!(memory.read(&mut bytes).expect("some bytes"), 100);
    memory.read(&mut bytes).expect_err("an error behind them");
    for command in ["check", "races --csv", "replay --file 1 --model commit", "diagram", "diagram -o p.svg", "write", "write -o p.csv"] {
        let line = format!("kiqsaryn {command} --header no -");
        let o = f.shell(&line).stdin(fails_midway()).output().expect("the command ends");
        failed(&o, &line, "cannot read standard input: Input/output error");
        assert_eq!(f.names(), ["t.csv"]);
    }
}
