//! Refusals: where a trace is wrong, what stands there, which habit of a file it comes from, and the command that mends it.

#[allow(dead_code)]
mod running;

use running::folder::Folder;
use running::pair::Pair;
use running::{err, examples, feed, out, prints, run, status};
use std::fs;

const NAMES: &str = "process,kind,file,offset,length,message\r\n";

/// The words of a refusal on one line.
fn flat(words: &str) -> String {
    words.split_whitespace().collect::<Vec<_>>().join(" ")
}

/// Fails unless the trace is refused with this number and the words hold the place and what is found there.
fn refused(header: &str, text: &[u8], number: u32, spot: &str, found: &str) {
    let o = run(&["check", "-", "--header", header], text);
    let told = flat(&out(&o));
    let shown = String::from_utf8_lossy(text);
    assert_eq!((status(&o), err(&o)), (2, String::new()), "{shown}: {told}");
    assert!(told.contains(&format!("Refused: number {number}, at ")), "{number} in {told}");
    let [line, byte, column] = spot.split(' ').collect::<Vec<_>>()[..] else { panic!("{spot}") };
    let place = format!("place: standard input, line {line}, byte {byte} (from 0), column {column} ");
    assert!(told.contains(&place), "{place} in {told}");
    assert!(told.contains(found), "{found} in {told}");
}

// ---- Places

#[test]
fn a_malformed_record_is_shown_where_it_stops_being_well_formed() {
    for (text, spot, found) in [
        (&b"0,commit,1,,,\r\n0,read,1,0,1,\n"[..], "2 28 14", "found: a line feed (LF) with no carriage return (CR) before it."),
        (b"0,commit,1,,,\r0,read,1,0,1,\r", "1 13 14", "found: a carriage return (CR) with no line feed (LF) behind it."),
        (b"0,commit,1,,,\r\n0,re\"ad,1,0,1,\r\n", "2 19 5", "found: a quote in the field kind, which does not start with one"),
        (b"0,commit,1,,,\r\n0,\"read\"x,1,0,1,\r\n", "2 23 9", "found: \"x\" behind the closing quote of the field kind"),
        (b"0,commit,1,,,\r\n0,\"read,1,0,1,\r\n", "2 17 3", "found: a quote that opens the field kind, and none closes it"),
        (b"0,commit,1,,,\r\n0,re\xe9d,1,0,1,\r\n", "2 19 5", "found: a byte that is not plain ASCII, 0xE9, in the field kind"),
        (b"0,commit,1,,,\r\n0,read,1,0,1,\x7f\r\n", "2 28 14", "found: a byte that cannot be printed, 0x7F, in the field message"),
        (b"0,commit,1,,,\r\n0,\"re\x00d\",1,0,1,\r\n", "2 20 6", "found: a byte that cannot be printed, 0x00, in the field kind"),
    ] {
        refused("no", text, 4, spot, found);
    }
    // Lines within quotes are counted as an editor counts them.
    refused("no", b"\"0\r\n\",\"0\n\n\",x\"", 4, "4 13 4", "found: a quote in the field file");
    refused("yes", b"process,kind,file,offset,length,message\n", 4, "1 39 40", "found: a line feed (LF)");
}

#[test]
fn a_header_is_shown_at_the_first_name_that_differs() {
    refused("yes", b"", 5, "1 0 1", "found: the trace has no byte");
    refused("yes", b"process,Kind,file,offset,length,message\r\n", 5, "1 8 9", "field: name 2 is \"Kind\", not \"kind\"");
    refused("yes", b"process,\"kind\",file,offset,length,tag\r\n", 5, "1 34 35", "field: name 6 is \"tag\", not \"message\"");
    refused("yes", b"process,kind,file,offset,length\r\n", 5, "1 31 32", "found: 5 fields, and message is missing.");
    refused("yes", b"process,kind,file,offset,length,message,time\r\n", 5, "1 39 40", "found: 7 fields. A record has 6.");
}

#[test]
fn a_record_with_too_few_or_too_many_fields_is_shown_at_its_end_or_at_the_comma() {
    let text = |record: &str| [NAMES, "0,commit,1,,,\r\n", record].concat().into_bytes();
    refused("yes", &text("0,read,1,0,10\r\n"), 7, "3 69 14", "found: 5 fields, and message is missing.");
    refused("yes", &text("0"), 7, "3 57 2", "found: 1 field, and kind is missing.");
    refused("yes", &text("0,read,1,0,10,,\r\n"), 7, "3 70 15", "found: 7 fields. A record has 6.");
    refused("yes", &text("0,read,\"1,2\",0,10,,9,,\r\n"), 7, "3 74 19", "found: 9 fields. A record has 6.");
    refused("yes", &text("\r\n"), 7, "3 56 1", "found: a blank line");
}

#[test]
fn a_kind_that_is_none_is_shown_with_the_one_it_is_like() {
    for (kind, found) in [
        ("Write", "field: kind is \"Write\". Kinds stand in small letters, without spaces: write."),
        (" read", "field: kind is \" read\". Kinds stand in small letters, without spaces: read."),
        ("wirte", "field: kind is \"wirte\". A kind with a similar name is write."),
        ("comit", "field: kind is \"comit\". A kind with a similar name is commit."),
        ("\"rec\"\"v\"", "field: kind is \"rec\"v\". A kind with a similar name is recv."),
        ("flush", "field: kind is \"flush\""),
        ("", "field: kind is empty"),
        (
            "xxxxxxxxxxxxxxxxxxxxxxxxxxxxxxxxxxxxxxxxxxxxxxxxxx",
            "field: kind is \"xxxxxxxxxxxxxxxxxxxxxxxxxxxxxxxxxxxxxxxx ... (cut here)\"",
        ),
    ] {
        let text = [NAMES, "0,", kind, ",1,0,10,\r\n0,read,1,0,10,"].concat();
        refused("yes", text.as_bytes(), 8, "2 43 3", found);
    }
}

#[test]
fn a_field_that_is_empty_or_filled_is_named() {
    for (record, spot, found) in [
        ("0,write,1,,10,", "1 10 11", "field: offset is empty; write uses file, offset and length"),
        ("0,write,1,\"\",10,", "1 10 11", "field: offset is empty; write uses file, offset and length"),
        ("0,read,1,0,10,7", "1 14 15", "field: message is \"7\"; read leaves it empty and uses file, offset and length"),
        ("0,commit,1,0,,", "1 11 12", "field: offset is \"0\"; commit leaves it empty and uses file alone"),
        ("0,send,,,,", "1 10 11", "field: message is empty; send uses message alone"),
        ("0,barrier,1,,,7", "1 10 11", "field: file is \"1\"; barrier leaves it empty and uses message alone"),
        (",open,1,,,", "1 0 1", "field: process is empty; every row names its process"),
    ] {
        refused("no", record.as_bytes(), 9, spot, found);
    }
}

#[test]
fn a_number_that_is_not_plain_or_out_of_range_is_named() {
    for (record, spot, found) in [
        ("0,write,1,5,010,", "1 12 13", "field: length is \"010\": a leading zero"),
        ("00,write,1,5,10,", "1 0 1", "field: process is \"00\": a leading zero"),
        ("0,write,1, 5,10,", "1 10 11", "field: offset is \" 5\": a space stands in front"),
        ("0,write,1,\"5 \",10,", "1 10 11", "field: offset is \"5 \": a space stands behind"),
        ("0,write,1,+5,10,", "1 10 11", "field: offset is \"+5\": a number has no sign"),
        ("0,write,1,-5,10,", "1 10 11", "field: offset is \"-5\": a number has no sign"),
        ("0,write,1,0x10,10,", "1 10 11", "field: offset is \"0x10\": a number is decimal"),
        ("0,write,1,1e3,10,", "1 10 11", "field: offset is \"1e3\": these are not digits alone"),
        ("0,write,1,5.5,10,", "1 10 11", "field: offset is \"5.5\": these are not digits alone"),
        ("48,write,1,5,10,", "1 0 1", "field: process is 48: --processes 48 allows 0 to 47"),
        ("0,write,64,5,10,", "1 8 9", "field: file is 64: files are 0 to 63"),
        ("0,write,1,4294967296,10,", "1 10 11", "field: offset is 4294967296: at most 4294967295"),
        ("0,write,1,0,99999999999999999999999,", "1 12 13", "field: length is 99999999999999999999999: at most 4294967295"),
        ("0,send,,,,65536", "1 10 11", "field: message is 65536: messages and barriers are 0 to 65535"),
    ] {
        refused("no", record.as_bytes(), 10, spot, found);
    }
    let o = run(&["check", "-", "--header", "no", "--processes", "4"], b"4,open,1,,,");
    assert!(flat(&out(&o)).contains("field: process is 4: --processes 4 allows 0 to 3"), "{}", out(&o));
}

#[test]
fn a_range_too_long_and_rows_too_many_are_shown() {
    let sum = "field: length is 10: offset 4294967290 + 10 = 4294967300, at most 4294967295 is allowed";
    refused("no", b"0,write,1,4294967290,10,", 11, "1 21 22", sum);
    let many = "0,commit,1,,,\r\n".repeat(5_000);
    refused("no", many.as_bytes(), 6, "4097 61440 1", "note: a trace has at most 4096 rows.");
    refused("yes", [NAMES, &many].concat().as_bytes(), 6, "4098 61481 1", "note: a trace has at most 4096 rows.");
}

#[test]
fn messages_and_barriers_out_of_order_are_shown_at_their_number() {
    for (text, number, spot, found) in [
        ("0,send,,,,7\r\n2,send,,,,7\r\n", 12, "2 23 11", "note: row 1 sends message 7 already."),
        ("0,recv,,,,7\r\n0,send,,,,7\r\n", 12, "2 23 11", "note: process 0 posts the receive for message 7 itself, at row 1"),
        ("0,recv,,,,7\r\n1,recv,,,,7\r\n", 12, "2 23 11", "note: row 1 posts a receive for message 7 already."),
        ("0,send,,,,7\r\n0,recv,,,,\"7\"\r\n", 12, "2 23 11", "note: process 0 sends message 7 itself, at row 1"),
        ("0,send,,,,7\r\n1,wait,,,,7\r\n", 21, "2 23 11", "note: no row before it posts a receive for message 7."),
        ("1,recv,,,,7\r\n1,wait,,,,7\r\n0,send,,,,7\r\n", 21, "2 23 11", "note: no row before it sends message 7; row 3 does, behind it."),
        ("0,barrier,,,,7\r\n0,barrier,,,,7\r\n", 22, "2 29 14", "note: row 1 arrives at barrier 7 already"),
        ("0,barrier,,,,7\r\n1,open,1,,,\r\n", 22, "2 16 1", "Arrived: process 0 at row 1. Not arrived: process 1."),
        ("0,barrier,,,,7\r\n0,open,1,,,\r\n1,barrier,,,,7\r\n", 22, "2 16 1", "Not arrived: process 1 (row 3, behind it)."),
    ] {
        refused("no", text.as_bytes(), number, spot, found);
    }
}

#[test]
fn a_refused_join_names_the_places_in_its_traces() {
    let pair = Pair::new("places", b"0,open,1,,,\r\n0,send,,,,7\r\n", b"1,send,,,,\"7\"\r\n");
    let told = |pair: &Pair| flat(&out(&pair.run("join", "no,no", &[])));
    let words = told(&pair);
    assert!(words.contains("place: b.csv, line 1, byte 10 (from 0), column 11 the record: row 1 of b.csv:"), "{words}");
    pair.put(b"0,open,1,,,\r\n", b"1,open,1,,,\r\n0,open,1,,,\r\n");
    let words = told(&pair);
    assert!(words.contains("row 1 of a.csv: 0,open,1,,, At line 1, byte 0 (from 0), column 1."), "{words}");
    assert!(words.contains("row 2 of b.csv: 0,open,1,,, At line 2, byte 13 (from 0), column 1."), "{words}");
    pair.put(b"0,recv,,,,7\r\n0,wait,,,,7\r\n", b"1,send,,,,8\r\n");
    let words = told(&pair);
    assert!(words.contains("first: row 2 of a.csv: 0,wait,,,,7 At line 2, byte 23 (from 0), column 11. It waits for"), "{words}");
    pair.put(b"0,barrier,,,,7\r\n", b"1,open,1,,,\r\n");
    let words = told(&pair);
    assert!(words.contains("place: b.csv, line 1, byte 0 (from 0), column 1 the record: row 1 of b.csv"), "{words}");
    pair.put(b"0,open,1,,,\r\n", b"1,open,1,,,\r\n1,opens,1,,,\r\n");
    let words = told(&pair);
    assert!(words.contains("place: b.csv, line 2, byte 15 (from 0), column 3 read:"), "{words}");
}

// ---- Habits of a file, and the command that mends them

/// The example traces of one habit each, with the options that mend it.
const HABITS: [(&str, &str); 9] = [
    ("blank_end", "--blank-end"),
    ("cr", "--line-ends"),
    ("lf", "--line-ends"),
    ("mark", "--mark"),
    ("semicolons", "--semicolons"),
    ("several", "--mark --line-ends --semicolons --spaces --blank-end"),
    ("spaces", "--spaces"),
    ("tabs", "--tabs"),
    ("utf_16", "--utf-16"),
];

/// The command behind `cure:`.
fn cure(told: &str) -> Option<&str> {
    told.lines()
        .find_map(|line| line.strip_prefix("  cure:        kiqsaryn "))
        .map(|line| &told[told.find(line).expect("the line")..][..line.len()])
}

#[test]
fn every_habit_among_the_examples_is_told_and_mended_by_the_command_that_is_told() {
    let entries = fs::read_dir(examples().join("habits")).expect("the examples");
    let mut names: Vec<String> = entries.map(|e| e.expect("an entry").file_name().into_string().expect("a name")).collect();
    names.sort();
    let mut expected: Vec<String> = HABITS.iter().flat_map(|(name, _)| [format!("{name}.check.txt"), format!("{name}.csv")]).collect();
    expected.sort();
    assert_eq!(names, expected);
    let clean = fs::read(examples().join("commit_free.csv")).expect("the clean trace");
    let f = Folder::new("habits");
    for (name, options) in HABITS {
        let trace = fs::read(examples().join(format!("habits/{name}.csv"))).expect("a trace");
        let want = fs::read_to_string(examples().join(format!("habits/{name}.check.txt"))).expect("the output beside it");
        f.put_bytes(&format!("{name}.csv"), &trace);
        let o = f.sh(&format!("kiqsaryn check {name}.csv --header yes"));
        prints(&o, &want, 2, name);
        let told = out(&o);
        let command = cure(&told).unwrap_or_else(|| panic!("no cure in {told}"));
        assert_eq!(command, format!("write {name}.csv --header yes {options} -o mended.csv"));
        assert!(told.ends_with("Mended so, the trace is accepted: 6 rows.\n"), "{told}");
        let o = f.sh(&format!("kiqsaryn {command}"));
        assert_eq!((status(&o), err(&o)), (0, String::new()), "{name}: {}", out(&o));
        let bytes = format!("  {} bytes\n", trace.len());
        assert!(out(&o).contains(&bytes) && options.split(' ').all(|option| out(&o).contains(&format!("\n  {option}: "))), "{}", out(&o));
        assert!(f.read("mended.csv") == clean, "{name} is mended");
        assert!(f.read(&format!("{name}.csv")) == trace, "{name} stays as it is");
        fs::remove_file(f.path("mended.csv")).expect("the file is removed");
        // Without the options nothing is mended.
        let o = f.sh(&format!("kiqsaryn write {name}.csv --header yes"));
        assert_eq!((status(&o), out(&o)), (2, String::new()), "{name}");
        assert_eq!(cure(&err(&o)), Some(command), "{name}");
    }
}

#[test]
fn the_cure_names_the_trace_as_a_shell_takes_it() {
    let f = Folder::new("cure-names");
    let lf = fs::read(examples().join("habits/lf.csv")).expect("a trace");
    for name in ["a b.csv", "it's.csv", "-x.csv", "$(touch no).csv", "b;c&d.csv", "gr\u{fc}n.csv", "mended.csv"] {
        f.put_bytes(name, &lf);
        let mut check = f.shell("kiqsaryn check --header yes -- \"$0\"");
        let o = feed(check.arg(name), b"");
        let told = out(&o);
        let command = cure(&told).unwrap_or_else(|| panic!("no cure in {told} {}", err(&o)));
        let o = f.sh(&format!("kiqsaryn {command}"));
        assert_eq!(status(&o), 0, "{command}: {}", err(&o));
        let mended = command.rsplit(' ').next().expect("a name");
        assert!(mended != name && f.path(mended).exists() && f.read(name) == lf, "{command}");
        fs::remove_file(f.path(mended)).expect("the file is removed");
        fs::remove_file(f.path(name)).expect("the trace is removed");
    }
    assert!(!f.path("no").exists());
    // A mark that turns the line is no more shown here than elsewhere.
    f.put_bytes("a\u{202e}b.csv", &lf);
    let o = f.sh("kiqsaryn check a*b.csv --header yes");
    assert_eq!(cure(&out(&o)), Some("write TRACE --header yes --line-ends -o mended.csv"));
    // The limit on processes and the header word are said again; standard input is -.
    let o = run(&["check", "-", "--header", "no", "--processes", "4"], b"3,open,1,,,\n");
    assert_eq!(cure(&out(&o)), Some("write - --header no --processes 4 --line-ends -o mended.csv"));
    // A file of the name that would be offered is not overwritten.
    f.put("mended.csv", "kept", 0o644);
    f.put_bytes("lf.csv", &lf);
    let o = f.sh("kiqsaryn check lf.csv --header yes");
    assert_eq!(cure(&out(&o)), Some("write lf.csv --header yes --line-ends -o mended-2.csv"));
}

#[test]
fn a_cure_tells_what_the_mended_trace_comes_to() {
    let told = |text: &[u8]| flat(&out(&run(&["check", "-", "--header", "no"], text)));
    let words = told(b"0,open,1,,,\n0,Write,1,0,1,\n");
    assert!(words.ends_with("Mended so, it is refused with 8, at row 2, line 2."), "{words}");
    let words = told(b"0,open,1,,,\r\n0;write;1;0;1;\r\n");
    assert!(words.ends_with("quotes as well. Save it again, as plain text with commas."), "{words}");
    // The refusal has nothing to do with the blank line at the end.
    let words = told(b"0,open,1,,,\r\n0,Write,1,0,1,\r\n\r\n");
    assert!(!words.contains("recognized:") && words.contains("number 8, at row 2"), "{words}");
    // Nor has what is no trace to do with its line ends, and a record that is not well formed for another reason.
    for text in [&b"\x7fELF\x02 \n,\r\0"[..], b"0,\xe9pen,1,,,\n"] {
        let words = told(text);
        assert!(!words.contains("recognized:") && words.contains("number 4, at row 1"), "{words}");
    }
    let words = told(b"0,open,1,,,\r\n0, Write,1,0,1,\r\n");
    assert!(
        words.contains("recognized: spaces beside") && words.ends_with("Mended so, it is refused with 8, at row 2, line 2."),
        "{words}"
    );
    let words = told(b"0,open,1,,,\r\n0,write,1,0,1,\r\n\r\n\r\n\r\n");
    assert!(words.contains("recognized: 3 blank lines at the end cure: kiqsaryn write - --header no --blank-end"), "{words}");
    let words = told("0,open,1,,,\n0,wr\u{ee}te,1,0,1,\n".encode_utf16().flat_map(u16::to_le_bytes).collect::<Vec<u8>>().as_slice());
    assert!(
        words.contains("recognized: UTF-16, two bytes for each character cure: No option of write mends this trace: byte 32"),
        "{words}"
    );
    // Of a trace that was not read to its end it is known that it has too many rows, and not what stands behind that end.
    let words = told("0,open,1,,,\n".repeat(40_000).as_bytes());
    assert!(words.ends_with("Mended so, it is refused with 6, at row 4097, line 4097."), "{words}");
    let words = told(format!("0,open,1,,,\n0,open,1,,,{}\n", " ".repeat(200_000)).as_bytes());
    assert!(words.ends_with("whether it is accepted once mended is not known."), "{words}");
    let words = told(b"0,open,1,,,\n0,open,1,,,\r0,open,1,,,\n");
    assert!(words.contains("recognized: LF alone at the end of 2 lines, CR alone at 1 cure:"), "{words}");
}

#[test]
fn the_other_header_word_is_named_where_the_first_record_reads_so() {
    let told = |header: &str, text: &[u8]| flat(&out(&run(&["check", "-", "--header", header], text)));
    let words = told("yes", b"0,open,1,,,\r\n");
    assert!(words.contains("--header yes says that the first record holds the names. It reads as a row: say --header no."), "{words}");
    let words = told("yes", b"1,wait,,,,7\r\n");
    assert!(words.contains("It reads as a row: say --header no."), "{words}");
    let words = told("yes", b"process,Kind,file,offset,length,message\r\n");
    assert!(!words.contains("It reads as a row"), "{words}");
    let words = told("no", NAMES.as_bytes());
    assert!(words.contains("--header no says that the first record is row 1. It holds the names: say --header yes."), "{words}");
    let words = told("no", b"process,Kind,file,offset,length,message\r\n");
    assert!(!words.contains("It holds the names"), "{words}");
    // The mended trace is asked too, and the trace stays with the word that was said.
    let words = told("yes", b"0,open,1,,,\n");
    let cure = "kiqsaryn write - --header yes --line-ends -o mended.csv Mended so, it is refused with 5, at the header, line 1.";
    assert!(words.ends_with(&format!("{cure} The first record reads as a row: say --header no.")), "{words}");
    let words = told("no", NAMES.replace("\r\n", "\n").as_bytes());
    assert!(words.ends_with("refused with 8, at row 1, line 1. The first record holds the names: say --header yes."), "{words}");
    let pair = Pair::new("words", b"0,open,1,,,\r\n", NAMES.as_bytes());
    let words = flat(&out(&pair.run("join", "no,no", &[])));
    assert!(words.contains("the second trace is row 1. It holds the names: say --headers no,yes."), "{words}");
    // The cure is a command line of write, which has a word for one trace.
    pair.put(b"0,open,1,,,\r\n", NAMES.replace("\r\n", "\n").as_bytes());
    let words = flat(&out(&pair.run("join", "no,no", &[])));
    assert!(words.ends_with("refused with 8, at row 1, line 1. The first record holds the names: say --header yes."), "{words}");
}

/// One of two traces is mended by itself. Where it waits for messages of the other one, `write` would refuse it: the refusal tells so and offers no
/// command.
#[test]
fn the_cure_of_one_of_two_traces_names_that_trace() {
    let pair = Pair::new("cures", b"0,open,1,,,\r\n", b"1,open,1,,,\n1,sync,1,,,\n");
    let told = out(&pair.run("join", "no,no", &[]));
    assert_eq!(cure(&told), Some("write b.csv --header no --line-ends -o mended.csv"), "{told}");
    assert!(flat(&told).ends_with("Mended so, the trace is accepted: 2 rows."), "{told}");
    pair.put(b"0,send,,,,7\r\n", b"1,recv,,,,7\n1,wait,,,,7\n");
    let told = out(&pair.run("join", "no,no", &[]));
    let alone = "cure: Mended by write, it is refused with 21, at row 2, line 2, since write takes it by itself. Save it again";
    assert!(cure(&told).is_none() && flat(&told).contains(alone), "{told}");
    let object = out(&pair.run("check", "no,no", &["--json"]));
    assert!(object.contains("\"cure\":null}"), "{object}");
}

// ---- What write mends

/// Status 0, this text on standard output, and what was mended on standard error.
fn mended(header: &str, options: &[&str], text: &[u8], want: &str, said: &[&str]) {
    let o = run(&[&["write", "-", "--header", header], options].concat(), text);
    let shown = String::from_utf8_lossy(text);
    assert_eq!((out(&o).as_str(), status(&o)), (want, 0), "{options:?} of {shown}: {}", err(&o));
    let part = format!("\nMended:\n{}\nWritten to standard output:\n", said.iter().map(|line| format!("  {line}\n")).collect::<String>());
    assert!(err(&o).contains(&part), "{part} in {}", err(&o));
    assert!(err(&o).contains(&format!("recorder:\n  {} byte", text.len())), "{}", err(&o));
}

#[test]
fn each_option_mends_what_it_names() {
    let clean = "0,open,1,,,\r\n0,write,1,0,10,\r\n";
    let line_ends = &["--line-ends: 2 line ends"];
    mended("no", &["--line-ends"], b"0,open,1,,,\n0,write,1,0,10,\n", clean, line_ends);
    mended("no", &["--line-ends"], b"0,open,1,,,\r0,write,1,0,10,\r", clean, line_ends);
    mended("no", &["--line-ends"], b"0,open,1,,,\r\n0,write,1,0,10,\n", clean, &["--line-ends: 1 line end"]);
    mended("no", &["--line-ends"], b"0,open,1,,,\n0,write,1,0,10,", clean, &["--line-ends: 1 line end"]);
    mended("no", &["--mark"], b"\xef\xbb\xbf0,open,1,,,\r\n0,write,1,0,10,", clean, &["--mark: 1 byte order mark"]);
    mended("no", &["--semicolons"], b"0;open;1;;;\r\n0;write;1;0;10;\r\n", clean, &["--semicolons: 10 semicolons"]);
    mended("no", &["--tabs"], b"0\topen\t1\t\t\t\r\n0\twrite\t1\t0\t10\t\r\n", clean, &["--tabs: 10 tabs"]);
    mended("no", &["--spaces"], b" 0, open ,1,,,  \r\n0,write,1,0, 10, ", clean, &["--spaces: 6 places with spaces"]);
    mended("no", &["--spaces"], b"0 ,\"open\" , \"1\",,,\r\n0,write,1,0,10,", clean, &["--spaces: 3 places with spaces"]);
    mended("no", &["--blank-end"], b"0,open,1,,,\r\n0,write,1,0,10,\r\n\r\n  \r\n\r\n ", clean, &["--blank-end: 4 blank lines"]);
    mended("no", &["--blank-end"], b"0,open,1,,,\r\n0,write,1,0,10,\r\n\n", clean, &["--blank-end: 1 blank line"]);
    for (mark, low_first) in [(false, true), (true, true), (false, false), (true, false)] {
        let units = mark.then_some(0xfeff).into_iter().chain(clean.encode_utf16());
        let text: Vec<u8> = units.flat_map(|u| if low_first { u.to_le_bytes() } else { u.to_be_bytes() }).collect();
        mended("no", &["--utf-16"], &text, clean, &["--utf-16: 30 characters of two bytes"]);
    }
}

#[test]
fn options_go_together_and_one_without_its_habit_changes_nothing() {
    let clean = "0,open,1,,,\r\n0,write,1,0,10,\r\n";
    let all = ["--blank-end", "--tabs", "--spaces", "--semicolons", "--line-ends", "--mark", "--utf-16"];
    let text = "\u{feff}0\topen \t1\t\t\t\n0\twrite\t1\t0\t10\t\n\n";
    let said = [
        "--utf-16: there was none",
        "--mark: 1 byte order mark",
        "--line-ends: 3 line ends",
        "--semicolons: there was none",
        "--tabs: 10 tabs",
        "--spaces: 1 place with spaces",
        "--blank-end: 1 blank line",
    ];
    mended("no", &all, text.as_bytes(), clean, &said);
    let none = said.map(|line| format!("{} there was none", line.split(' ').next().expect("an option")));
    mended("no", &all, clean.as_bytes(), clean, &none.each_ref().map(String::as_str));
    // Commas in quotes are no commas between fields.
    let o = run(&["write", "-", "--header", "no", "--semicolons"], b"0;open;\"1,1\";;;");
    assert!(err(&o).contains("Refused: number 10, at row 1 of the text as mended."), "{}", err(&o));
}

/// What stands in quotes is never changed, so that the library refuses it as it stands.
#[test]
fn nothing_changes_within_quotes() {
    for (options, text, record) in [
        (&["--line-ends"][..], &b"0,open,1,,,\n0,\"o\npen\",1,,,\n"[..], "0,\"o\\npen\",1,,,"),
        (&["--semicolons"], b"0;\"o;pen\";1;;;", "0,\"o;pen\",1,,,"),
        (&["--spaces"], b"0,\" open \",1,,,", "0,\" open \",1,,,"),
        (&["--spaces"], b"0, \"o, \"\" pen\" ,1,,,", "0,\"o, \"\" pen\",1,,,"),
        (&["--blank-end"], b"0,open,1,,,\r\n0,\"open\r\n\r\n", "0,\"open\\r\\n\\r\\n"),
    ] {
        let o = run(&[&["write", "-", "--header", "no"], options].concat(), text);
        assert_eq!((status(&o), out(&o)), (2, String::new()));
        assert!(err(&o).contains(&format!("  the record:  {record}\n")), "{record} in {}", err(&o));
    }
}

#[test]
fn a_refusal_of_a_mended_text_names_the_place_in_the_file() {
    let place = |options: &[&str], text: &[u8]| {
        let o = run(&[&["write", "-", "--header", "no"], options].concat(), text);
        assert_eq!((status(&o), out(&o)), (2, String::new()), "{}", err(&o));
        flat(&err(&o))
    };
    let told = place(&["--line-ends"], b"0,open,1,,,\n0,open,1,,,\n0,close,1,2,,\n");
    assert!(
        told.contains("Refused: number 9, at row 3 of the text as mended. There is no verdict. place: standard input, line 3, byte 34 "),
        "{told}"
    );
    assert!(told.contains("column 11 read: 38 bytes, header no mended: --line-ends: 3 line ends answered No:"), "{told}");
    let told = place(&["--spaces", "--semicolons"], b" 0 ; open ; 1 ; ; ;\r\n0; Close;1;;;");
    assert!(told.contains("number 8, at row 2 of the text as mended.") && told.contains("line 2, byte 24 (from 0), column 4 "), "{told}");
    let wide: Vec<u8> = "\u{feff}0,open,1,,,\r\n0,Close,1,,,".encode_utf16().flat_map(u16::to_le_bytes).collect();
    let told = place(&["--utf-16"], &wide);
    assert!(told.contains("line 2, byte 32 (from 0), column 3 ") && told.contains("the record: 0,Close,1,,,"), "{told}");
    // A byte order mark has no column.
    let told = place(&["--mark"], b"\xef\xbb\xbf0,Open,1,,,");
    assert!(told.contains("line 1, byte 5 (from 0), column 3 "), "{told}");
    // A habit that is left is named with the options that were said.
    let told = place(&["--line-ends"], b"0;open;1;;;\n");
    assert!(told.contains("cure: kiqsaryn write - --header no --line-ends --semicolons -o mended.csv Mended so, the trace is"), "{told}");
    for (options, text, said) in [
        (&["--semicolons"][..], &b"0;open;1;;;\r\n0,open,1,,,"[..], "--semicolons: nothing is mended: commas stand outside quotes as well"),
        (&["--tabs"], b"0\topen\t1,5\t\t", "--tabs: nothing is mended: commas stand outside quotes as well"),
        (&["--utf-16"], b"\xff\xfe0\0,\0\xe9\0", "--utf-16: nothing is mended: byte 6 (from 0) starts a character that is not plain ASCII"),
        (&["--utf-16"], b"\xff\xfe0\0,", "--utf-16: nothing is mended: byte 4 (from 0), the last one, is half a character"),
    ] {
        let told = place(options, text);
        assert!(told.contains(&format!("mended: {said} answered No:")), "{said} in {told}");
    }
}

/// The longest trace in UTF-16 is mended, and one that goes on without end is not read in part.
#[test]
fn what_is_mended_has_a_limit() {
    let row = "\"47\",\"write\",\"63\",\"2147483647\",\"2147483648\",\"\"\r\n".repeat(4096);
    let wide: Vec<u8> = row.encode_utf16().flat_map(u16::to_be_bytes).collect();
    let o = run(&["write", "-", "--header", "no", "--utf-16"], &wide);
    assert!(status(&o) == 0 && err(&o).contains("  4096 rows\n"), "{}", err(&o));
    let o = run(&["write", "-", "--header", "no", "--utf-16"], &[&wide[..], b"\00"].concat());
    assert!(status(&o) == 2 && err(&o).contains("Refused: number 6, at row 4097 of the text as mended."), "{}", err(&o));
    let o = run(&["write", "-", "--header", "no", "--spaces"], &[b' '; 786_497]);
    assert_eq!((status(&o), out(&o)), (3, String::new()));
    assert_eq!(err(&o), "kiqsaryn: standard input has more than 786496 bytes; a trace that long is not mended\n");
    // What is refused because reading stopped is recognized by the part that was read.
    let o = run(&["check", "-", "--header", "no"], &wide);
    assert!(
        out(&o).contains("  cure:        kiqsaryn write - --header no --utf-16 -o mended.csv\n               The trace was not"),
        "{}",
        out(&o)
    );
}

/// No other command takes the options.
#[test]
fn only_write_mends() {
    for command in ["check", "races", "replay", "diagram", "join"] {
        let o = run(&[command, "habits/lf.csv", "--header", "yes", "--line-ends"], b"");
        assert_eq!((status(&o), out(&o)), (3, String::new()), "{command}");
    }
}

// ---- The words about it

/// README.md shows a refusal with its cure as it stands beside the example, and names every option that mends.
#[test]
fn the_refusal_in_the_readme_is_the_one_beside_the_example() {
    let readme = fs::read_to_string(examples().join("../README.md")).expect("the file");
    let beside = fs::read_to_string(examples().join("habits/semicolons.check.txt")).expect("the output beside it");
    let lines: String = beside.lines().map(|line| if line.is_empty() { "\n".to_string() } else { format!("    {line}\n") }).collect();
    assert!(readme.contains(&lines), "{lines}");
    let help = out(&run(&["write", "--help"], b""));
    for (_, options) in HABITS {
        for option in options.split(' ') {
            assert!(readme.contains(&format!("`{option}`")) && help.contains(option), "{option}");
        }
    }
}
