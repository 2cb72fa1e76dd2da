//! The program `verdict` as a user runs it, the function of the library that it prints from, and the naive version: every vector of
//! `vectors/program.txt`. Then the example traces, and traces about as long as the program takes them.

#[allow(dead_code)]
mod naive;
#[allow(dead_code)]
mod running;
#[allow(dead_code)]
mod vectors;

use kiqsaryn::report;
use naive::reading;
use running::{err, example_traces, feed, status};
use std::path::Path;
use std::process::Command;

const PROGRAM: &str = concat!(env!("CARGO_MANIFEST_DIR"), "/../crates/verdict/out/verdict");

/// What the program writes to standard output of a trace on standard input.
fn printed(text: &[u8]) -> Vec<u8> {
    assert!(Path::new(PROGRAM).exists(), "`rt run` in crates/verdict builds {PROGRAM}");
    let o = feed(&mut Command::new(PROGRAM), text);
    assert_eq!((status(&o), err(&o)), (0, String::new()));
    o.stdout
}

fn every_vector(prints: impl Fn(&[u8]) -> Vec<u8>) {
    let text = vectors::text("program.txt");
    let mut run = 0;
    for line in vectors::lines(&text) {
        line.kind(&[("P", 3)]);
        assert_eq!(prints(&line.bytes(1)), line.bytes(2), "{line}");
        run += 1;
    }
    vectors::all_run("program.txt", &text, &["P"], run);
}

#[test]
fn every_program_vector_through_the_program() {
    every_vector(printed);
}

#[test]
fn every_program_vector_through_the_library() {
    every_vector(report);
}

#[test]
fn every_program_vector_through_the_naive_version() {
    every_vector(|text| reading::report(text).into_bytes());
}

#[test]
fn every_example() {
    for path in example_traces() {
        let text = std::fs::read(&path).expect("the trace");
        let want = std::fs::read(path.with_extension("out")).expect("the output beside it");
        assert_eq!(report(&text), want, "{}", path.display());
        assert_eq!(printed(&text), want, "{}", path.display());
    }
}

// ---- Traces of about 8,192 bytes

const NAMES: &[u8] = b"process,kind,file,offset,length,message\r\n";
const ROW: &[u8] = b"0,write,1,0,10,\r\n";

/// A text of this length: one part, then another again and again, then a last one.
fn text(front: &[&[u8]], middle: &[u8], back: &[u8], len: usize) -> Vec<u8> {
    let mut text = front.concat();
    let between = len - text.len() - back.len();
    text.extend(middle.iter().cycle().take(between));
    text.extend(back);
    text
}

/// The parts of a text, and its refusals where it has at most 8,192 bytes and where it has more.
type Case<'a> = (&'a [&'a [u8]], &'a [u8], &'a [u8], [&'a str; 2]);

/// Where reading meets byte 8,193 in a row, that row gets 6, and in the header 5, place 0. A row never starts there: rows that are accepted
/// end long before, since no 128 of them have so many bytes.
#[test]
fn byte_8193_is_not_looked_at() {
    let long = b"0,write,1,0,";
    let cases: &[Case] = &[
        (&[NAMES, long], b"9", b",\r\n", ["10,1", "6,1"]),
        (&[NAMES, ROW, long], b"9", b",\r\n", ["10,2", "6,2"]),
        (&[NAMES, long], b"9", b",", ["10,1", "6,1"]),
        (&[NAMES, long], b"9", b",\r", ["4,1", "6,1"]),
        (&[NAMES, long], b"9", b",\n", ["4,1", "6,1"]),
        (&[NAMES, ROW, ROW], b"a", b"\x00", ["4,3", "6,3"]),
        (&[NAMES, ROW, b"\""], b"a,\r\n\"\"", b"", ["4,2", "6,2"]),
        (&[NAMES, ROW, b"\""], b"a", b"\"", ["7,2", "6,2"]),
        (&[b"\""], b"a", b"", ["4,0", "5,0"]),
        (&[b"process,kind,file,offset,length,message"], b"s", b"\n", ["4,0", "5,0"]),
        (&[b"process,kind,file,offset,length,message"], b"s", b"\r\n", ["5,0", "5,0"]),
    ];
    for (front, middle, back, [within, past]) in cases {
        for (len, answer) in [(8_191, within), (8_192, within), (8_193, past), (8_194, past), (20_000, past)] {
            let text = text(front, middle, back, len);
            let want = format!("refused,{answer}\r\n").into_bytes();
            let told = format!("{len} bytes that start with {}", text[..80].escape_ascii());
            assert_eq!(report(&text), want, "{told}");
            assert_eq!(printed(&text), want, "{told}");
        }
    }
}

/// The program prints the library's report of a text, and that of its first 8,193 bytes where it is longer.
#[test]
fn around_the_limit_the_program_prints_the_librarys_report() {
    let long_traces = [
        text(&[NAMES], ROW, b"", 20_000),
        text(&[NAMES, ROW, b"0,write,1,0,"], b"9", b"", 20_000),
        text(&[NAMES, ROW, b"\""], b"a,\r\n\"\"", b"", 20_000),
        text(&[b"\""], b"process\"\",\r\n", b"", 20_000),
        text(
            &[b"\"process\",\"kind\",\"file\",\"offset\",\"length\",\"message\"\r\n"],
            b"\"7\",\"write\",\"63\",\"0\",\"1\",\"\"\r\n",
            b"",
            20_000,
        ),
    ];
    for (k, long) in long_traces.iter().enumerate() {
        for len in 8_150..=8_250 {
            let want = report(&long[..len]);
            assert_eq!(printed(&long[..len]), want, "trace {k}, {len} bytes");
            assert_eq!(report(&long[..len.min(8_193)]), want, "trace {k}, {len} bytes");
        }
    }
}
