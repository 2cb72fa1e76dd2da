//! A folder for one test, and command lines that are typed into a shell there.

use super::{err, examples, feed, out, status, EXE};
use std::fs::{self, Permissions};
use std::os::unix::fs::{chown, MetadataExt, PermissionsExt};
use std::os::unix::process::CommandExt;
use std::path::PathBuf;
use std::process::{Command, Output};

/// The user `nobody`. Root, whom no permissions bind and who could replace the machine's devices, runs the command lines as this user.
const NOBODY: u32 = 65_534;

fn is_root() -> bool {
    fs::metadata("/proc/self").expect("this process").uid() == 0
}

fn as_nobody(command: &mut Command) -> &mut Command {
    command.uid(NOBODY).gid(NOBODY)
}

/// A folder of one test with the trace `t.csv` in it, and the command in a folder `bin`, where every user can reach it.
pub struct Folder {
    pub path: PathBuf,
    /// Root's command lines run as `nobody`.
    nobody: bool,
}

impl Folder {
    pub fn new(name: &str) -> Folder {
        let path = std::env::temp_dir().join(format!("kiqsaryn-files-{name}-{}", std::process::id()));
        let _ = fs::remove_dir_all(&path);
        fs::create_dir(&path).expect("a folder");
        let nobody = is_root();
        if nobody {
            as_nobody(&mut Command::new("true")).status().expect("root can run programs as another user");
        }
        let f = Folder { path, nobody };
        f.set_mode("", 0o755);
        f.make_folder("bin");
        let copied = Command::new("cp").arg(EXE).arg(f.path("bin/kiqsaryn")).status().expect("a copy");
        assert!(copied.success());
        f.set_mode("bin/kiqsaryn", 0o755);
        f.put("t.csv", &fs::read_to_string(examples().join("commit_missing.csv")).expect("a trace"), 0o644);
        f.give("");
        f
    }

    pub fn path(&self, name: &str) -> PathBuf {
        self.path.join(name)
    }

    /// Makes a file or folder the property of the user that the command lines run as.
    pub fn give(&self, name: &str) {
        if self.nobody {
            chown(self.path(name), Some(NOBODY), Some(NOBODY)).expect("another owner");
        }
    }

    pub fn make_folder(&self, name: &str) {
        fs::create_dir(self.path(name)).expect("a folder");
        self.set_mode(name, 0o755);
        self.give(name);
    }

    pub fn set_mode(&self, name: &str, mode: u32) {
        fs::set_permissions(self.path(name), Permissions::from_mode(mode)).expect("a mode");
    }

    pub fn mode(&self, name: &str) -> u32 {
        fs::metadata(self.path(name)).expect("a file").mode() & 0o7777
    }

    pub fn put(&self, name: &str, contents: &str, mode: u32) {
        fs::write(self.path(name), contents).expect("a file");
        self.set_mode(name, mode);
        self.give(name);
    }

    pub fn put_bytes(&self, name: &str, contents: &[u8]) {
        fs::write(self.path(name), contents).expect("a file");
        self.set_mode(name, 0o644);
        self.give(name);
    }

    pub fn read(&self, name: &str) -> Vec<u8> {
        fs::read(self.path(name)).unwrap_or_else(|e| panic!("{name}: {e}"))
    }

    /// All names in the folder besides the command's: a new file that was not removed would be among them.
    pub fn names(&self) -> Vec<String> {
        let entries = fs::read_dir(&self.path).expect("the folder");
        let names = entries.map(|e| e.expect("an entry").file_name().into_string().expect("a name"));
        let mut names: Vec<String> = names.filter(|name| name != "bin").collect();
        names.sort();
        names
    }

    /// A shell in the folder that finds the command by its name.
    pub fn shell(&self, line: &str) -> Command {
        let path = std::env::var("PATH").unwrap_or_default();
        let mut shell = Command::new("sh");
        shell.args(["-c", line]).current_dir(&self.path).env("PATH", format!("{}:{path}", self.path("bin").display()));
        if self.nobody {
            as_nobody(&mut shell);
        }
        shell
    }

    pub fn sh(&self, line: &str) -> Output {
        feed(&mut self.shell(line), b"")
    }
}

impl Drop for Folder {
    fn drop(&mut self) {
        let _ = fs::remove_dir_all(&self.path);
    }
}

/// Status 0 and no word.
pub fn silent(o: &Output) {
    assert_eq!((status(o), out(o), err(o)), (0, String::new(), String::new()));
}

/// Status 3, nothing on standard output, and one line on standard error that starts so.
pub fn failed(o: &Output, line: &str, words: &str) {
    assert_eq!((status(o), out(o)), (3, String::new()), "{line}: {}", err(o));
    assert!(err(o).starts_with(&format!("kiqsaryn: {words}")) && err(o).lines().count() == 1, "{line}: {}", err(o));
}
