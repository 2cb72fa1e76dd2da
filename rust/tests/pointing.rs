//! Where a refusal points, for every edit of one byte of a small trace, and what mending changes, on random texts. The library refuses; these hold its
//! number against the place and the words.

#![allow(dead_code)]

#[path = "../src/bin/kiqsaryn/args.rs"]
mod args;
#[path = "../src/bin/kiqsaryn/fields.rs"]
mod fields;
#[path = "../src/bin/kiqsaryn/found.rs"]
mod found;
#[path = "../src/bin/kiqsaryn/mend.rs"]
mod mend;
#[path = "../src/bin/kiqsaryn/near.rs"]
mod near;
#[path = "../src/bin/kiqsaryn/recording.rs"]
mod recording;
#[path = "../src/bin/kiqsaryn/standard.rs"]
mod standard;
#[path = "../src/bin/kiqsaryn/table.rs"]
mod table;
#[path = "../src/bin/kiqsaryn/text.rs"]
mod text;

use args::Mend;
use fields::line_and_column;
use found::point;
use kiqsaryn::{check_trace, Checked, Refusal, Settings, ROWS};
use mend::{mend, recognized, Habit};
use recording::record_start;
use std::collections::BTreeSet;

const PROCESSES: u32 = 4;
const NAMES: &str = "process,kind,file,offset,length,message\r\n";
/// A trace with a field in quotes of each kind of row.
const TRACE: &str =
    "0,write,1,\"4294967290\",5,\r\n0,send,,,,\"7\"\r\n1,recv,,,,7\r\n1,wait,,,,7\r\n1,barrier,,,,0\r\n0,barrier,,,,0\r\n1,read,63,5,10,";

/// What the library answers, and how many rows it read.
fn ask(text: &[u8], header: bool) -> Checked {
    let s = Settings { header: u32::from(header), model: 0, row_limit: ROWS, process_limit: PROCESSES, byte_limit: usize::MAX };
    let (mut rows, mut counts) = (vec![0; 6 * ROWS as usize], vec![0; (ROWS * PROCESSES) as usize]);
    check_trace(text, s, &mut rows, &mut counts)
}

/// Fails unless the place is within the refused record or right behind it, and what is wrong there is told. Gives the refusal's number.
fn points(text: &[u8], header: bool) -> Option<u32> {
    let Checked::Refused { refusal, place } = ask(text, header) else {
        return None;
    };
    let shown = String::from_utf8_lossy(text);
    let start = record_start(text, header, place);
    let pointed = point(text, start, refusal, PROCESSES);
    assert!((start..=text.len()).contains(&pointed.at), "{} of {shown:?}: place {} from {start}", refusal.number(), pointed.at);
    let (line, column) = line_and_column(text, pointed.at);
    let ends = text.iter().filter(|b| b"\r\n".contains(b)).count();
    assert!(line >= 1 && line <= ends + 1 && column >= 1 && column <= pointed.at + 1, "{shown:?}: line {line}, column {column}");
    let of_order = [Refusal::MessageOrder, Refusal::WaitOrder, Refusal::BarrierOrder, Refusal::TooManyRows].contains(&refusal);
    assert_eq!(pointed.found.is_none(), of_order, "{} of {shown:?}", refusal.number());
    if of_order {
        assert!(pointed.field.is_some(), "{shown:?}");
    }
    Some(refusal.number())
}

#[test]
fn every_edit_of_one_byte_that_is_refused_is_pointed_at() {
    let mut numbers = BTreeSet::new();
    for (text, header) in [([NAMES, TRACE].concat().into_bytes(), true), (TRACE.as_bytes().to_vec(), false)] {
        assert_eq!(points(&text, header), None);
        for at in 0..=text.len() {
            let (before, behind) = text.split_at(at);
            numbers.extend(points(before, header));
            numbers.extend(points(&[before, behind.get(1..).unwrap_or(&[])].concat(), header));
            for b in 0..=u8::MAX {
                numbers.extend(points(&[before, &[b], behind].concat(), header));
                numbers.extend(points(&[before, &[b], behind.get(1..).unwrap_or(&[])].concat(), header));
            }
        }
    }
    assert_eq!(numbers.into_iter().collect::<Vec<u32>>(), [4, 5, 7, 8, 9, 10, 11, 12, 21, 22]);
}

// ---- Mending

/// Numbers from a fixed seed.
struct Dice(u64);

impl Dice {
    fn below(&mut self, n: u64) -> u64 {
        self.0 ^= self.0 << 13;
        self.0 ^= self.0 >> 7;
        self.0 ^= self.0 << 17;
        (self.0.wrapping_mul(0x2545_f491_4f6c_dd1d) >> 33) % n
    }

    fn one<T: Copy>(&mut self, of: &[T]) -> T {
        of[self.below(of.len() as u64) as usize]
    }
}

/// A text of pieces that mean something to the mending.
fn pieces(dice: &mut Dice) -> Vec<u8> {
    const PIECES: [&[u8]; 16] =
        [b",", b";", b"\t", b" ", b"\r\n", b"\n", b"\r", b"\"", b"\"\"", b"0", b"write", b"7", b"\xef\xbb\xbf", b"\0", b"\xff\xfe", b",,,"];
    (0..dice.below(30)).flat_map(|_| dice.one(&PIECES).to_vec()).collect()
}

fn all() -> Mend {
    Habit::ALL.into_iter().fold(Mend::default(), |mend, habit| habit.with(mend))
}

#[test]
fn mending_changes_nothing_but_what_it_names_and_keeps_lines() {
    let mut dice = Dice(77);
    let kept = |text: &[u8]| text.iter().copied().filter(|b| !b" \r\n,;\t".contains(b)).collect::<Vec<u8>>();
    for _ in 0..40_000 {
        let file = pieces(&mut dice);
        let options = Habit::ALL.into_iter().filter(|_| dice.below(2) == 0).fold(Mend::default(), |mend, habit| habit.with(mend));
        let plain = Mend { utf16: false, mark: false, ..options };
        let mended = mend(file.clone(), plain);
        assert_eq!(kept(&mended.text), kept(&file), "{file:?} {plain:?}");
        for at in 0..=mended.text.len() {
            let (text, place, byte) = mended.origin(at);
            assert!(text == file && place == byte && byte <= file.len(), "{file:?} {plain:?}");
            if at < mended.text.len() && !options.blank_end {
                let lines = [line_and_column(&mended.text, at).0, line_and_column(&file, place).0];
                assert_eq!(lines[0], lines[1], "{file:?} {plain:?} at {at}");
            }
        }
        // Mended once, a text has nothing left to mend.
        let once = mend(file.clone(), options);
        let twice = mend(once.text.clone(), Mend { utf16: false, mark: false, ..options });
        assert_eq!(twice.text, once.text, "{file:?} {options:?}");
        assert_eq!(mend(file.clone(), Mend::default()).text, file);
        recognized(&file);
        mend(file, all());
    }
}

/// An accepted trace that gets some habits is mended to itself by the options that are recognized.
#[test]
fn a_trace_with_habits_is_mended_to_itself() {
    let mut dice = Dice(5);
    let clean = [NAMES, TRACE, "\r\n"].concat();
    for _ in 0..5_000 {
        let mut text = clean.clone();
        if dice.below(2) == 0 {
            text = text.replace(',', dice.one(&[", ", " , ", ",  "]));
        }
        if dice.below(2) == 0 {
            text = text.replace(',', dice.one(&[";", "\t"]));
        }
        text.push_str(&"\r\n".repeat(dice.below(3) as usize));
        if dice.below(2) == 0 {
            text = text.replace("\r\n", dice.one(&["\n", "\r"]));
        }
        let file: Vec<u8> = match dice.below(5) {
            0 => ["\u{feff}", &text].concat().into_bytes(),
            1 => text.encode_utf16().flat_map(u16::to_le_bytes).collect(),
            2 => text.encode_utf16().flat_map(u16::to_be_bytes).collect(),
            3 => ["\u{feff}", &text].concat().encode_utf16().flat_map(u16::to_le_bytes).collect(),
            _ => text.into_bytes(),
        };
        let (options, not) = recognized(&file);
        assert!(not.is_empty(), "{file:?}: {not:?}");
        assert_eq!(String::from_utf8_lossy(&mend(file.clone(), options).text), clean, "{file:?} {options:?}");
    }
}
