//! Two traces in a folder of their own.

use super::{feed, EXE};
use std::fs;
use std::path::PathBuf;
use std::process::{Command, Output};

/// The folder, with the traces `a.csv` and `b.csv`.
pub struct Pair {
    pub path: PathBuf,
}

impl Pair {
    pub fn new(name: &str, first: &[u8], second: &[u8]) -> Pair {
        let path = PathBuf::from(env!("CARGO_TARGET_TMPDIR")).join(format!("join-{name}"));
        let _ = fs::remove_dir_all(&path);
        fs::create_dir(&path).expect("a folder");
        let pair = Pair { path };
        pair.put(first, second);
        pair
    }

    pub fn put(&self, first: &[u8], second: &[u8]) {
        fs::write(self.path.join("a.csv"), first).expect("a file");
        fs::write(self.path.join("b.csv"), second).expect("a file");
    }

    /// Runs a command on both traces: the command, their header words, and the options behind them.
    pub fn run(&self, command: &str, headers: &str, more: &[&str]) -> Output {
        let args = [&[command, "a.csv", "b.csv", "--headers", headers], more].concat();
        self.feed(&args, b"")
    }

    pub fn feed(&self, args: &[&str], input: &[u8]) -> Output {
        feed(Command::new(EXE).args(args).current_dir(&self.path), input)
    }
}

impl Drop for Pair {
    fn drop(&mut self) {
        let _ = fs::remove_dir_all(&self.path);
    }
}
