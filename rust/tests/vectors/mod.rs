//! The conformance vectors: the folder, the lines of a file, and the words of a line. `vectors/README.md` says what the lines mean.

use std::fmt;
use std::path::PathBuf;

/// The text of a vector file. `KIQSARYN_VECTORS` names its folder, from the repository's root unless it is absolute.
pub fn text(file: &str) -> String {
    let folder = std::env::var_os("KIQSARYN_VECTORS").unwrap_or("vectors".into());
    let path = PathBuf::from(concat!(env!("CARGO_MANIFEST_DIR"), "/..")).join(folder).join(file);
    std::fs::read_to_string(&path).unwrap_or_else(|e| panic!("{}: {e}", path.display()))
}

/// A line of a vector file: its number and its words.
pub struct Line<'a> {
    number: usize,
    pub words: Vec<&'a str>,
}

impl fmt::Display for Line<'_> {
    fn fmt(&self, f: &mut fmt::Formatter) -> fmt::Result {
        write!(f, "line {}, {:.40}", self.number, self.words.join(" "))
    }
}

/// All lines, to be taken one by one; none is left out.
pub fn lines(text: &str) -> impl Iterator<Item = Line<'_>> {
    (1..).zip(text.lines()).map(|(number, line)| Line { number, words: line.split(' ').collect() })
}

/// The files that hold calls of several kinds, and the lines with which these start. Each kind has its own test.
const MIXED: [(&str, &[&str]); 4] = [
    ("barrier.txt", &["T", "J", "W"]),
    ("aimed_joins.txt", &["J", "W"]),
    ("limit48.txt", &["T", "M", "F", "U", "G"]),
    ("races.txt", &["L", "O"]),
];

/// The lines of those calls that start so. In a file of several kinds the calls of the others are left out, and nothing else.
pub fn calls<'a>(file: &str, text: &'a str, start: &'static str) -> impl Iterator<Item = Line<'a>> {
    let starts = MIXED.iter().find(|(name, _)| *name == file).map_or(&[][..], |(_, starts)| starts);
    let mut inside = true;
    lines(text).filter(move |line| {
        if starts.contains(&line.words[0]) {
            inside = line.words[0] == start;
        }
        inside
    })
}

impl Line<'_> {
    /// The line's kind. Fails where the line has not as many words as lines of this kind have.
    pub fn kind(&self, kinds: &[(&'static str, usize)]) -> &'static str {
        let found = kinds.iter().find(|(kind, words)| self.words[0] == *kind && self.words.len() == *words);
        found.unwrap_or_else(|| panic!("{self}: not one of {kinds:?}")).0
    }

    pub fn number(&self, k: usize) -> u32 {
        self.number_in(k, self.words[k])
    }

    /// The number that a part of a word holds.
    fn number_in(&self, k: usize, part: &str) -> u32 {
        let digits = part.bytes().all(|b| b.is_ascii_digit());
        part.parse().ok().filter(|_| digits).unwrap_or_else(|| panic!("{self}: word {k} is no number"))
    }

    /// All numbers behind the kind; `-` alone is none.
    pub fn numbers(&self, kind: &str) -> Vec<u32> {
        assert_eq!(self.words[0], kind, "{self}");
        self.numbers_from(1)
    }

    /// All numbers from a word on; `-` alone is none, and `W*n` is n times W.
    pub fn numbers_from(&self, first: usize) -> Vec<u32> {
        if self.words[first..] == ["-"] {
            return Vec::new();
        }
        let mut all = Vec::new();
        for k in first..self.words.len() {
            let (word, times) = self.repeated(k);
            all.extend(std::iter::repeat_n(self.number_in(k, word), times));
        }
        all
    }

    /// The bytes of a hexadecimal word; `-` is none, and `W*n` is n times W.
    pub fn bytes(&self, k: usize) -> Vec<u8> {
        let (word, times) = self.repeated(k);
        if word == "-" {
            return Vec::new();
        }
        let digits: Option<Vec<u8>> = word.chars().map(|c| c.to_digit(16).map(|d| d as u8)).collect();
        let digits = digits.filter(|d| d.len() % 2 == 0).unwrap_or_else(|| panic!("{self}: word {k} is not hexadecimal"));
        let bytes: Vec<u8> = digits.chunks_exact(2).map(|pair| 16 * pair[0] + pair[1]).collect();
        bytes.repeat(times)
    }

    /// A word and how often it stands there: `W*n` is n times W, and any other word stands there once.
    fn repeated(&self, k: usize) -> (&str, usize) {
        match self.words[k].split_once('*') {
            None => (self.words[k], 1),
            Some((word, times)) => (word, self.number_in(k, times) as usize),
        }
    }
}

/// Fails unless every line of these kinds was run, and one at least.
pub fn all_run(file: &str, text: &str, kinds: &[&str], run: usize) {
    let there = lines(text).filter(|l| kinds.contains(&l.words[0])).count();
    assert!(run > 0 && run == there, "{file}: {run} calls run, and there are {there}");
    println!("{file}: {run} calls run");
}
