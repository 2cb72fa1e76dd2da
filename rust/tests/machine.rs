//! Every vector of `vectors/machine.txt`, and the sequences at the end of `vectors/lookup.txt` and `vectors/limit48.txt`: the answer, the whole slice
//! of maps and the whole answer slice, each call through the naive version too. Then steps with rows of messages.

#[allow(dead_code)]
mod naive;
#[allow(dead_code)]
mod state;
#[allow(dead_code)]
mod vectors;

use kiqsaryn::{Header, Model, Refusal, Row, BARRIER, READ, RECV, SEND, WAIT, WRITE};
use state::State;
use vectors::Line;

/// The state of a line: `M`, a machine, and `F`, a plain file, over a slice that holds `fill` and is to be made; `U` and `G`, the same over a slice of 0
/// that nobody has made.
fn lent(line: &Line) -> (State, u32) {
    let n = |k: usize| line.number(k);
    let model = ["M", "U"].contains(&line.words[0]).then(|| n(2));
    let at = if model.is_some() { 3 } else { 2 };
    let header = Header { process_limit: n(at), file: n(at + 1), map_space: n(at + 2) };
    let fill = if ["M", "F"].contains(&line.words[0]) { n(at + 4) } else { 0 };
    (State { model, header, maps: vec![fill; n(at + 3) as usize] }, fill)
}

/// Makes a machine or a plain file, and answers the words of the answer.
fn made(line: &Line, s: &mut State) -> String {
    let mut maps = s.maps.clone();
    let naive = naive::machine::make(s.model, s.header, &mut maps);
    let made = s.make();
    assert!(made.map_err(Refusal::number) == naive && s.maps == maps, "the naive making of {line}");
    match made {
        Ok(()) => "made".to_string(),
        Err(refusal) => format!("refused {}", refusal.number()),
    }
}

/// Puts the row of a line `S` to a state, with an answer slice that holds `blank`, and answers the words of the answer.
fn stepped(line: &Line, s: &mut State, blank: u32) -> String {
    let n = |k: usize| line.number(k);
    let row = Row { process: n(2), kind: n(3), file: n(4), offset: n(5), length: n(6), message: n(7) };
    let mut out = vec![blank; n(8) as usize];
    let (mut maps, mut pieces) = (s.maps.clone(), out.clone());
    let naive = naive::machine::step(s.model, s.header, &mut maps, row, n(1), &mut pieces);
    let answer = s.step(row, n(1), &mut out);
    assert_eq!(answer.map_err(Refusal::number), naive, "the naive answer of {line}");
    assert!(s.maps == maps && out == pieces, "the naive slices of {line}");
    let count = answer.unwrap_or(0) as usize;
    assert!(out[3 * count..].iter().all(|x| *x == blank), "the answer slice of {line}");
    match answer {
        Err(refusal) => format!("refused {}", refusal.number()),
        Ok(_) if row.kind != READ => "done".to_string(),
        Ok(0) => "list 0 -".to_string(),
        Ok(count) => {
            let pieces: String = out[..3 * count as usize].iter().map(|x| format!(" {x}")).collect();
            format!("list {count}{pieces}")
        }
    }
}

/// Runs the sequences of a file, from the first that is made on.
fn run_sequences(file: &str) {
    let text = vectors::text(file);
    let mut lines = vectors::lines(&text).skip_while(|line| !["M", "F"].contains(&line.words[0])).peekable();
    let mut state = None;
    let mut fill = 0;
    let mut run = 0;
    while let Some(line) = lines.next() {
        let kind = line.kind(&[("M", 8), ("F", 7), ("U", 7), ("G", 6), ("!", 3), ("S", 9)]);
        if ["M", "F", "U", "G"].contains(&kind) {
            let (s, filled) = lent(&line);
            (state, fill) = (Some(s), filled);
        }
        let s = state.as_mut().expect("a state");
        let mut expected = s.maps.clone();
        run += usize::from(kind != "!");
        let answer = match kind {
            "M" | "F" => made(&line, s),
            "S" => stepped(&line, s, fill + 1),
            "!" => {
                s.maps[line.number(1) as usize] = line.number(2);
                continue;
            }
            _ => continue,
        };
        let want = lines.next().expect("an answer");
        assert_eq!(format!("> {answer}"), want.words.join(" "), "the answer of {line}");
        if let Some(slice) = lines.next_if(|l| l.words[0] == "=") {
            expected = slice.numbers("=");
        }
        assert_eq!(s.maps, expected, "the maps of {line}");
    }
    vectors::all_run(file, &text, &["M", "F", "U", "G", "S"], run);
}

#[test]
fn every_machine_vector() {
    run_sequences("machine.txt");
}

#[test]
fn every_sequence_of_the_lookup_vectors() {
    run_sequences("lookup.txt");
}

#[test]
fn every_sequence_of_the_limit_vectors() {
    run_sequences("limit48.txt");
}

/// A machine and a plain file refuse a row that names no file with 15, and change nothing.
#[test]
fn rows_of_messages_are_refused() {
    let header = Header { process_limit: 2, file: 0, map_space: 3 };
    for model in [None].into_iter().chain(Model::ALL.map(|model| Some(model.number()))) {
        let len = if model.is_some() { header.maps_len() } else { header.map_len() };
        let mut s = State { model, header, maps: vec![7; len.expect("a length")] };
        assert_eq!(s.make(), Ok(()), "model {model:?}");
        let write = Row { process: 1, kind: WRITE, offset: 2, length: 3, ..Row::default() };
        assert_eq!(s.step(write, 1, &mut []), Ok(0), "model {model:?}");
        let maps = s.maps.clone();
        for kind in [SEND, RECV, WAIT, BARRIER, BARRIER + 1, u32::MAX] {
            let mut out = [5; 6];
            let row = Row { process: 1, kind, message: 7, ..Row::default() };
            for number in [2, 0, 4097] {
                assert_eq!(s.step(row, number, &mut out), Err(Refusal::NotOfFile), "model {model:?}, kind {kind}, row number {number}");
            }
            assert!(s.maps == maps && out == [5; 6], "model {model:?}, kind {kind}");
        }
    }
}
