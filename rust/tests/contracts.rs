//! `docs/CONTRACTS.md` lists every public function of the libraries with its contract, as the sources have them. The test writes the list anew
//! and compares it with the file; with `KIQSARYN_WRITE` set it replaces the file.

use std::fmt::Write;
use std::path::{Path, PathBuf};

const ABOUT: &str = "# Public functions and their contracts

Every public function of every library, with its contract as the source has it. `x.now` is what a parameter that is lent to be read (`&`) holds,
`x.old` and `x.new` are what one that is lent to be written (`&mut`) holds when the function is called and afterwards, and `result` is the answer.
Between the word `ensures` or `requires` and the brace may stand the clause's name. A function without `requires` answers for every input. Behind the
functions of a crate stand its `impl`s of traits, with what each gives for the words of the trait's clauses. The gate
compares this list with the sources; `KIQSARYN_WRITE=1 cargo test --offline --manifest-path rust/Cargo.toml --test contracts` writes it anew.
";

fn root() -> PathBuf {
    PathBuf::from(concat!(env!("CARGO_MANIFEST_DIR"), "/.."))
}

fn read(path: &Path) -> String {
    std::fs::read_to_string(path).unwrap_or_else(|e| panic!("{}: {e}", path.display()))
}

/// The crates of `crates.txt` that are libraries, in its order. A line is `NAME: ..` or `NAME staticlib: ..`.
fn libraries() -> Vec<String> {
    let text = read(&root().join("crates.txt"));
    let names = text.lines().filter(|l| !l.starts_with('#')).filter_map(|l| l.split_once(':'));
    let names = names.filter_map(|(crate_words, _)| crate_words.split_whitespace().next()).map(str::to_string);
    names.filter(|name| root().join("crates").join(name).join("src/lib.rt").exists()).collect()
}

/// The functions that others can reach: those of the root, of the modules below it that are declared `pub`, and what the root names by `pub use` of
/// its other modules, under the root's path.
fn public_functions(krate: &str) -> Vec<Function> {
    let folder = root().join("crates").join(krate).join("src");
    let text = read(&folder.join("lib.rt"));
    let module = |m: &str| read(&folder.join(format!("{m}.rt")));
    let mut found = functions(krate, &text);
    for m in text.lines().filter_map(|l| l.strip_prefix("pub mod ")?.strip_suffix(';')) {
        found.extend(functions(&format!("{krate}::{m}"), &module(m)));
    }
    for (m, names) in text.lines().filter_map(|l| l.strip_prefix("pub use ")?.strip_suffix(';')?.split_once("::")) {
        if !folder.join(format!("{m}.rt")).exists() {
            continue;
        }
        let names: Vec<&str> = names.trim_matches(['{', '}']).split(", ").collect();
        let of_root = |f: &Function| names.contains(&f.name[krate.len() + 2..].split("::").next().expect("a name"));
        found.extend(functions(krate, &module(m)).into_iter().filter(of_root));
    }
    found
}

struct Function {
    name: String,
    about: String,
    signature: String,
    clauses: Vec<String>,
}

/// One space between words.
fn squeezed(text: &str) -> String {
    let words = text.split_whitespace().collect::<Vec<_>>().join(" ");
    words.replace("( ", "(").replace(", )", ")").replace(",)", ")")
}

/// Where in a text the first line starts whose first word is that of a clause.
fn clause_in(text: &str) -> Option<usize> {
    let mut at = 0;
    for line in text.split_inclusive('\n') {
        let word = line.trim_start().split(|c: char| !c.is_alphanumeric() && c != '_').next();
        if ["ensures", "requires"].iter().any(|w| word == Some(w)) {
            return Some(at);
        }
        at += line.len();
    }
    None
}

/// The place behind the brace that closes the one at a place.
fn closed(text: &str, open: usize) -> usize {
    let mut depth = 0;
    for (k, c) in text[open..].char_indices() {
        match c {
            '{' => depth += 1,
            '}' => depth -= 1,
            _ => {}
        }
        if depth == 0 {
            return open + k + 1;
        }
    }
    panic!("a brace is not closed: {}", &text[open..])
}

/// Whether a declaration without a body ends in a text: a semicolon stands there outside of all brackets.
fn ends_without_body(text: &str) -> bool {
    let mut depth = 0;
    text.chars().any(|c| {
        match c {
            '(' | '[' => depth += 1,
            ')' | ']' => depth -= 1,
            _ => {}
        }
        c == ';' && depth == 0
    })
}

/// The signature and the clauses of the function that a text starts with. A clause is a word, perhaps a name, and braces around what it says, on one
/// line or several; the first braces without such a word are those of the body.
fn parts(text: &str) -> (String, Vec<String>) {
    let (mut signature, mut clauses, mut rest) = (None, Vec::new(), text);
    loop {
        let open = rest.find('{').expect("a function has a body");
        let clause = clause_in(&rest[..open]).filter(|at| !ends_without_body(&rest[..*at]));
        signature.get_or_insert_with(|| squeezed(&rest[..clause.unwrap_or(open)]));
        let Some(at) = clause else {
            return (signature.expect("it was put"), clauses);
        };
        let end = closed(rest, open);
        clauses.push(squeezed(&rest[at..end]));
        rest = &rest[end..];
    }
}

/// The name of a type or trait in the head of its `impl` or `trait`, without parameters and bounds.
fn without_parameters(head: &str) -> &str {
    let head = if head.starts_with('<') { head.split_once("> ").map_or(head, |(_, rest)| rest) } else { head };
    head.trim().split(['<', ':']).next().expect("a name")
}

/// The functions of a file that are `pub`, and those of its public traits, in the file's order, each with the comment above it.
fn functions(path: &str, text: &str) -> Vec<Function> {
    let (mut found, mut about, mut owner) = (Vec::new(), Vec::new(), String::new());
    let (mut at, mut attribute, mut in_trait) = (0, 0, false);
    for whole in text.split_inclusive('\n') {
        let (start, line) = (at, whole.trim_end());
        at += whole.len();
        let word = line.trim_start();
        if let Some(name) = line.strip_suffix(" {").and_then(|l| l.strip_prefix("impl").or_else(|| l.strip_prefix("pub trait "))) {
            owner = format!("{}::", without_parameters(name));
            in_trait = line.starts_with("pub trait ");
        } else if line == "}" {
            owner.clear();
            in_trait = false;
        }
        // An attribute, such as `#[tactic(..)]`, may stand on several lines between the comment and the function.
        if attribute > 0 || word.starts_with("#[") {
            attribute += line.matches('[').count();
            attribute -= line.matches(']').count();
            continue;
        }
        if let Some(comment) = word.strip_prefix("// ") {
            about.push(comment);
            continue;
        }
        let of_trait = word.strip_prefix("fn ").filter(|_| in_trait);
        let rest = word.strip_prefix("pub extern \"C\" fn ").or_else(|| word.strip_prefix("pub fn ")).or(of_trait);
        if let Some(rest) = rest {
            let name = rest.split(['(', '<']).next().expect("a name");
            let (signature, clauses) = parts(&text[start..]);
            found.push(Function { name: format!("{path}::{owner}{name}"), about: about.join(" "), signature, clauses });
        }
        about.clear();
    }
    found
}

/// An `impl` of a trait: its head, the comment above it, and what it gives for the words of the trait's clauses.
struct Given {
    head: String,
    about: String,
    ghosts: Vec<String>,
}

/// What an `impl` gives: its lines `ghost WORD = { .. };`, without those that bring in names.
fn ghosts(block: &str) -> Vec<String> {
    let (mut found, mut at) = (Vec::new(), 0);
    for line in block.split_inclusive('\n') {
        if line.starts_with("    ghost ") && line.contains(" = {") {
            let open = at + line.find('{').expect("a brace");
            found.push(squeezed(&block[at..closed(block, open)]));
        }
        at += line.len();
    }
    found
}

/// The `impl`s of a text that give something, but those of a trait that is private to the crate.
fn impls(text: &str, private: &[String]) -> Vec<Given> {
    let (mut found, mut about, mut at) = (Vec::new(), Vec::new(), 0);
    for whole in text.split_inclusive('\n') {
        let (start, line) = (at, whole.trim_end());
        at += whole.len();
        if let Some(comment) = line.strip_prefix("// ") {
            about.push(comment);
            continue;
        }
        let head = line.strip_suffix(" {").filter(|l| l.starts_with("impl") && l.contains(" for "));
        if let Some(head) = head {
            let block = &text[start..closed(text, start + line.len() - 1)];
            let is_private = private.iter().any(|name| head.contains(&format!("{name} for ")));
            let ghosts = ghosts(block);
            if !is_private && !ghosts.is_empty() {
                found.push(Given { head: head.to_string(), about: about.join(" "), ghosts });
            }
        }
        about.clear();
    }
    found
}

/// The `impl`s of a crate that give something, by file.
fn given(krate: &str) -> Vec<Given> {
    let folder = root().join("crates").join(krate).join("src");
    let mut files: Vec<PathBuf> = std::fs::read_dir(&folder).expect("the sources").map(|file| file.expect("a file").path()).collect();
    files.sort();
    let texts: Vec<String> = files.iter().map(|file| read(file)).collect();
    let private = texts.iter().flat_map(|text| text.lines().filter_map(|l| l.strip_prefix("trait ")));
    let private: Vec<String> = private.map(|name| without_parameters(name.trim_end_matches(" {")).to_string()).collect();
    texts.iter().flat_map(|text| impls(text, &private)).collect()
}

fn listed() -> String {
    let mut out = ABOUT.to_string();
    for krate in libraries() {
        let (found, given) = (public_functions(&krate), given(&krate));
        if found.is_empty() && given.is_empty() {
            continue;
        }
        writeln!(out, "\n## {krate}").expect("a line");
        for f in found {
            writeln!(out, "\n### `{}`\n\n{}\n\n    {}", f.name, f.about, f.signature).expect("a line");
            for clause in f.clauses {
                writeln!(out, "      {clause}").expect("a line");
            }
        }
        for g in given {
            writeln!(out, "\n### `{}`\n", g.head).expect("a line");
            if !g.about.is_empty() {
                writeln!(out, "{}\n", g.about).expect("a line");
            }
            for ghost in g.ghosts {
                writeln!(out, "    {ghost}").expect("a line");
            }
        }
    }
    out
}

#[test]
fn the_list_of_contracts_is_that_of_the_sources() {
    let path = root().join("docs/CONTRACTS.md");
    let want = listed();
    if std::env::var_os("KIQSARYN_WRITE").is_some() {
        std::fs::write(&path, &want).expect("the list is written");
    }
    let have = read(&path);
    for (i, (a, b)) in want.lines().zip(have.lines()).enumerate() {
        assert_eq!(a, b, "docs/CONTRACTS.md, line {}: the source has the first, the list the second", i + 1);
    }
    assert_eq!(want.lines().count(), have.lines().count(), "docs/CONTRACTS.md is as long as the list of the sources");
}

/// What may ask something of its callers: question 22, for callers that have asked question 10 of every row; the code of maps below `extents`, and
/// its entries for callers that know their maps to be lawful; and the step that a kind of file brings along, which `machine_state` takes once it has
/// asked question 13.
const MAY_ASK: [&str; 9] = [
    "barriers",
    "extents_map",
    "extents_lay",
    "extents_pair",
    "extents_weave",
    "extents_publish",
    "extents_refresh",
    "extents::lawful",
    "machine_state::File",
];

/// Every public function has a comment and an `ensures`, and none but those of `MAY_ASK` has a `requires`.
#[test]
fn every_public_function_promises_something() {
    let mut seen = 0;
    for krate in libraries() {
        for f in public_functions(&krate) {
            assert!(!f.about.is_empty(), "{} has no comment", f.name);
            assert!(f.clauses.iter().any(|c| c.starts_with("ensures")), "{} promises nothing", f.name);
            let may_ask = MAY_ASK.iter().any(|m| f.name.strip_prefix(m).is_some_and(|rest| rest.starts_with("::")));
            assert!(may_ask || f.clauses.iter().all(|c| c.starts_with("ensures")), "{} asks something", f.name);
            seen += 1;
        }
    }
    assert!(seen > 0, "there are public functions");
}
