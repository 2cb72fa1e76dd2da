//! Every vector of `vectors/races.txt`: the answer, the rows, the counts and the whole list, in one call and in parts, by the library and by the
//! naive version; and for two orders of the same rows that their races are the same pairs. Then lists of every length, the most races that there can
//! be, and calls whose numbers do not fit.

#[allow(dead_code)]
mod naive;
#[allow(dead_code)]
mod vectors;

use kiqsaryn::{check_trace, judge, list_len, list_races, races, verdict};
use kiqsaryn::{Checked, Judged, Listed, Model, Refusal, Row, Settings, Verdict, PAIR, PROCESSES, ROWS, WRITE};
use naive::order::{counts, Order};
use naive::races::{by_old_numbers, is_allowed, pairs_of, rise, Pair};
use naive::reading::check;
use naive::rows::numbers;
use vectors::Line;

const FILE: &str = "races.txt";

fn refused(number: u32, place: u32) -> Listed {
    Listed::Refused { refusal: Refusal::from_number(number).expect("a refusal"), place }
}

// ---- Vectors

/// A call with the numbers of a vector, what it answers, and what it leaves of the list; with 23 also the rows and counts that it keeps.
struct Call {
    line: String,
    s: Settings,
    text: Vec<u8>,
    fill: u32,
    lengths: [usize; 2],
    want: Listed,
    kept: Option<(Vec<u32>, Vec<u32>)>,
    list: Vec<u32>,
}

/// The numbers of a vector's list.
fn pairs_in(line: &Line) -> Vec<u32> {
    let all = line.numbers("P");
    assert!(all.chunks_exact(PAIR).remainder().is_empty() && rise(&pairs_of(&all)), "{line}: no list of races");
    all
}

/// The answer of a line `A`.
fn answer_of(line: &Line) -> Listed {
    match line.words[..] {
        ["A", "refused", _, _] => refused(line.number(2), line.number(3)),
        ["A", "pairs", _] => Listed::Pairs(line.number(2)),
        _ => panic!("{line}: no answer"),
    }
}

impl Call {
    /// The call of a line `L` and of the lines behind it.
    fn new<'a>(line: Line, mut lines: impl Iterator<Item = Line<'a>>) -> Call {
        line.kind(&[("L", 11)]);
        let n = |k: usize| line.number(k);
        let s = Settings { header: n(2), model: n(3), row_limit: n(4), process_limit: n(5), byte_limit: usize::MAX };
        let (lengths, fill) = ([n(6) as usize, n(7) as usize], n(9));
        let mut list = vec![fill + 1; n(8) as usize];
        let mut next = || lines.next().expect("a line behind");
        let (want, mut kept) = (answer_of(&next()), None);
        match want {
            Listed::Pairs(count) => {
                let pairs = pairs_in(&next());
                assert_eq!(pairs.len(), PAIR * count as usize, "{line}");
                list[..pairs.len()].copy_from_slice(&pairs);
            }
            Listed::Refused { refusal: Refusal::ListSpace, .. } => kept = Some((next().numbers("R"), next().numbers("C"))),
            Listed::Refused { .. } => {}
        }
        Call { line: line.to_string(), s, text: line.bytes(10), fill, lengths, want, kept, list }
    }

    /// The slices for rows, counts and races before the call.
    fn lent(&self) -> (Vec<u32>, Vec<u16>, Vec<u32>) {
        let [rows, counts] = self.lengths;
        (vec![self.fill; rows], vec![self.fill as u16; counts], vec![self.fill + 1; self.list.len()])
    }

    /// The rows and counts that the call leaves, as `judge` leaves them: those of the vector, where it has them, or 0, or what was lent.
    fn left(&self) -> (Vec<u32>, Vec<u16>) {
        let (mut rows, mut counts, _) = self.lent();
        let judged = judge(&self.text, self.s, &mut rows, &mut counts);
        match (judged, self.want) {
            (Judged::Refused { refusal, place }, want) => {
                assert_eq!(Listed::Refused { refusal, place }, want, "the verdict on {}", self.line);
                let fill = if refusal.number() <= 3 { self.fill } else { 0 };
                assert!(rows.iter().all(|x| *x == fill) && counts.iter().all(|x| *x == fill as u16), "slices of {}", self.line);
            }
            (Judged::Free { .. }, want) => assert_eq!(want, Listed::Pairs(0), "the verdict on {}", self.line),
            (Judged::Race { earlier, later, .. }, Listed::Pairs(_)) => assert_eq!(self.list[..PAIR], [earlier, later], "{}", self.line),
            (Judged::Race { .. }, want) => assert_eq!(want, refused(23, 0), "{}", self.line),
        }
        if let Some((kept, kept_counts)) = &self.kept {
            assert!(rows[..kept.len()] == *kept && rows[kept.len()..].iter().all(|x| *x == 0), "rows of {}", self.line);
            let (front, behind) = counts.split_at(kept_counts.len());
            assert!(front.iter().map(|x| u32::from(*x)).eq(kept_counts.iter().copied()), "counts of {}", self.line);
            assert!(behind.iter().all(|x| *x == 0), "counts of {}", self.line);
        }
        (rows, counts)
    }

    /// The library in one call.
    fn run_whole(&self) {
        let (mut rows, mut counts, mut list) = self.lent();
        assert_eq!(list_races(&self.text, self.s, &mut rows, &mut counts, &mut list), self.want, "the whole call on {}", self.line);
        assert_eq!(list, self.list, "the list of {}", self.line);
        assert_eq!((rows, counts), self.left(), "rows and counts of {}", self.line);
    }

    /// The library call by call: the rows, then their races.
    fn run_parts(&self) {
        let (mut rows, mut counts, mut list) = self.lent();
        let got = match check_trace(&self.text, self.s, &mut rows, &mut counts) {
            Checked::Refused { refusal, place } => Listed::Refused { refusal, place },
            Checked::Accepted(n) => {
                counts.fill(self.fill as u16);
                races(&rows, n, self.s.process_limit, self.s.model, &mut counts, &mut list)
            }
        };
        assert_eq!(got, self.want, "the parts of {}", self.line);
        assert_eq!(list, self.list, "the list of the parts of {}", self.line);
        assert_eq!((rows, counts), self.left(), "rows and counts of the parts of {}", self.line);
    }

    /// The naive version.
    fn run_naive(&self) {
        let (_, _, mut list) = self.lent();
        let got = match check(&self.text, self.s, self.lengths[0], self.lengths[1]) {
            Err((number, place)) => refused(number, place),
            Ok(rows) => {
                let order = Order::of(&rows);
                let (left, left_counts) = self.left();
                let (numbers, counts) = (numbers(&rows), counts(&rows, &order, self.s.process_limit));
                assert!(
                    left[..numbers.len()] == numbers && left_counts[..counts.len()] == counts,
                    "naive rows and counts of {}",
                    self.line
                );
                let all = naive::races::races(&rows, &order, self.s.model);
                naive::races::list(&all, &mut list).map_or_else(|number| refused(number, 0), Listed::Pairs)
            }
        };
        assert_eq!(got, self.want, "the naive version on {}", self.line);
        assert_eq!(list, self.list, "the naive version's list of {}", self.line);
    }
}

/// Runs every listing.
fn every_listing(run_one: fn(&Call)) {
    let text = vectors::text(FILE);
    let mut lines = vectors::calls(FILE, &text, "L");
    let mut run = 0;
    while let Some(line) = lines.next() {
        run_one(&Call::new(line, &mut lines));
        run += 1;
    }
    vectors::all_run(FILE, &text, &["L"], run);
}

#[test]
fn every_listing_in_one_call() {
    every_listing(Call::run_whole);
}

#[test]
fn every_listing_in_parts() {
    every_listing(Call::run_parts);
}

#[test]
fn every_listing_through_the_naive_version() {
    every_listing(Call::run_naive);
}

/// The races of a text without a header, by the library, with its rows.
fn races_of(text: &[u8], model: u32, process_limit: u32) -> (Vec<Row>, Vec<Pair>) {
    let s = Settings { header: 0, model, row_limit: 128, process_limit, byte_limit: usize::MAX };
    let (mut rows, mut counts, mut list) = (vec![7; 6 * 128], vec![7; 128 * process_limit as usize], vec![7; list_len(128)]);
    let Listed::Pairs(pairs) = list_races(text, s, &mut rows, &mut counts, &mut list) else {
        panic!("no list of {}", text.escape_ascii());
    };
    let read = check(text, s, rows.len(), counts.len()).expect("rows");
    assert!(rows[..6 * read.len()] == numbers(&read));
    (read, pairs_of(&list[..PAIR * pairs as usize]))
}

/// Two orders of the same rows, line `O`: the races of both, and that they are the same pairs of rows. How many of them have the other row first.
fn run_orders(line: &Line, wants: [Vec<Pair>; 2]) -> usize {
    let (model, process_limit) = (line.number(2), line.number(3));
    let places: Vec<usize> = line.numbers_from(6).into_iter().map(|number| number as usize - 1).collect();
    let [(rows, first), (other, second)] = [4, 5].map(|word| races_of(&line.bytes(word), model, process_limit));
    assert_eq!([&first, &second], [&wants[0], &wants[1]], "the races of {line}");
    for (rows, pairs) in [(&rows, &first), (&other, &second)] {
        assert_eq!(naive::races::races(rows, &Order::of(rows), model), *pairs, "the naive races of {line}");
    }
    assert!(is_allowed(&rows, &places) && naive::races::moved(&rows, &places) == other, "the places of {line}");
    assert_eq!(by_old_numbers(&second, &places), first, "the same pairs, {line}");
    second.iter().filter(|(a, b)| places[*a as usize - 1] > places[*b as usize - 1]).count()
}

#[test]
fn every_pair_of_orders() {
    let text = vectors::text(FILE);
    let mut lines = vectors::calls(FILE, &text, "O");
    let (mut run, mut turned) = (0, 0);
    while let Some(line) = lines.next() {
        assert!(line.words.len() > 6 && line.words[0] == "O", "{line}: no two orders");
        let mut pairs = || pairs_of(&pairs_in(&lines.next().expect("pairs")));
        let wants = [pairs(), pairs()];
        turned += run_orders(&line, wants);
        run += 1;
    }
    vectors::all_run(FILE, &text, &["O"], run);
    println!("{turned} pairs have the other row first");
}

// ---- Lists of every length

/// Three processes write one byte: three races.
const THREE: &[u8] = b"0,write,1,5,1,\r\n1,write,1,5,1,\r\n2,write,1,5,1,\r\n";
const THREE_PAIRS: [u32; 6] = [1, 2, 1, 3, 2, 3];
const THREE_COUNTS: [u16; 9] = [1, 0, 0, 0, 1, 0, 0, 0, 1];

/// Settings for a trace without a header, of at most as many rows and processes.
fn settings(model: Model, row_limit: u32, process_limit: u32) -> Settings {
    Settings { header: 0, model: model.number(), row_limit, process_limit, byte_limit: usize::MAX }
}

/// A list with one number less than the pairs have keeps all its numbers, and a longer one those behind the pairs.
#[test]
fn a_list_keeps_what_is_not_written() {
    for (len, model) in (0..10).flat_map(|len| Model::ALL.map(|model| (len, model))) {
        let fits = len >= THREE_PAIRS.len();
        let mut want: Vec<u32> = (70..70 + len as u32).collect();
        let mut lists = [want.clone(), want.clone()];
        if fits {
            want[..THREE_PAIRS.len()].copy_from_slice(&THREE_PAIRS);
        }
        let answer = if fits { Listed::Pairs(3) } else { refused(23, 0) };
        let (mut rows, mut counts) = ([7; 20], [7; 10]);
        assert_eq!(list_races(THREE, settings(model, 3, 3), &mut rows, &mut counts, &mut lists[0]), answer, "{len}, {}", model.name());
        assert_eq!(rows[..12], [0, WRITE, 1, 5, 1, 0, 1, WRITE, 1, 5, 1, 0]);
        assert!(rows[18..] == [0, 0] && counts[..9] == THREE_COUNTS && counts[9] == 0, "{len}");
        counts.fill(7);
        assert_eq!(races(&rows, 3, 3, model.number(), &mut counts, &mut lists[1]), answer, "{len}, {}", model.name());
        assert!(counts[..9] == THREE_COUNTS && counts[9] == 0, "{len}");
        assert_eq!(lists, [want.clone(), want], "{len}, {}", model.name());
    }
}

/// A row's races under a model are listed with those of other rows, whatever stands between; a pair in order under one model may race under another.
#[test]
fn each_model_has_its_own_list() {
    let text = "0,write,1,0,10,\r\n0,commit,1,,,\r\n0,write,1,20,10,\r\n0,close,1,,,\r\n0,write,1,40,10,\r\n0,send,,,,7\r\n\
                1,recv,,,,7\r\n1,wait,,,,7\r\n1,open,1,,,\r\n1,read,1,0,50,\r\n0,write,1,5,1,\r\n";
    let lists: [&[Pair]; 4] = [&[(10, 11)], &[(3, 10), (5, 10), (10, 11)], &[(5, 10), (10, 11)], &[(5, 10), (10, 11)]];
    for (model, want) in Model::ALL.into_iter().zip(lists) {
        assert_eq!(races_of(text.as_bytes(), model.number(), 2).1, want, "{}", model.name());
    }
}

#[test]
fn rows_without_a_race_need_no_list() {
    for model in Model::ALL {
        let (mut rows, mut counts) = ([7; 18], [7; 9]);
        assert_eq!(list_races(b"", settings(model, 3, 3), &mut rows, &mut counts, &mut []), Listed::Pairs(0));
        assert!(rows == [0; 18] && counts == [0; 9]);
        assert_eq!(list_races(&THREE[..16], settings(model, 3, 3), &mut rows, &mut counts, &mut []), Listed::Pairs(0));
        assert_eq!(races(&rows, 1, 3, model.number(), &mut counts, &mut []), Listed::Pairs(0));
        assert_eq!(counts, [1, 0, 0, 0, 0, 0, 0, 0, 0]);
        assert_eq!(races(&rows, 0, 3, model.number(), &mut counts, &mut []), Listed::Pairs(0));
        assert_eq!(counts, [0; 9]);
    }
}

/// The most rows, all writes of one byte by all processes in turn: every pair of rows of two processes races, under every model.
#[test]
fn the_most_races_that_there_can_be() {
    let write = |k: u32| [k % PROCESSES, WRITE, 1, 5, 1, 0];
    let rows: Vec<u32> = (0..ROWS).flat_map(write).collect();
    let want: Vec<u32> = (1..=ROWS).flat_map(|y| (1..y).filter(move |x| (y - x) % PROCESSES != 0).flat_map(move |x| [x, y])).collect();
    let (mut counts, pairs) = (vec![7; (ROWS * PROCESSES) as usize], Listed::Pairs((want.len() / PAIR) as u32));
    for model in Model::ALL.map(Model::number) {
        for (len, answer) in [(list_len(ROWS), pairs), (want.len(), pairs), (want.len() - 1, refused(23, 0))] {
            let mut list = vec![7; len];
            assert_eq!(races(&rows, ROWS, PROCESSES, model, &mut counts, &mut list), answer, "model {model}, {len}");
            let behind = if answer == pairs { want.len() } else { 0 };
            assert!(list[..behind] == want[..behind] && list[behind..].iter().all(|x| *x == 7), "model {model}, {len}");
        }
    }
}

// ---- Calls whose numbers do not fit

/// Three writes of one byte and a list that is too short for their races: 23 comes behind every other question.
#[test]
fn listings_of_wild_arguments_are_refused() {
    let good = settings(Model::Posix, 3, 3);
    let wild = [
        // 1: a slice is too short, whatever else is wrong
        (Settings { row_limit: 4, process_limit: 0, ..good }, 1, 0),
        (Settings { process_limit: 4, model: 4, ..good }, 1, 0),
        (Settings { row_limit: u32::MAX, process_limit: u32::MAX, ..good }, 1, 0),
        // 2: the model or a limit is out of its range
        (Settings { model: 4, header: 2, ..good }, 2, 0),
        (Settings { row_limit: 0, ..good }, 2, 0),
        (Settings { process_limit: 0, ..good }, 2, 0),
        // 3: the header word is neither 0 nor 1
        (Settings { header: 2, ..good }, 3, 0),
        // the text is refused
        (Settings { header: 1, ..good }, 5, 0),
        (Settings { row_limit: 2, ..good }, 6, 3),
        (Settings { byte_limit: 20, ..good }, 6, 2),
        (Settings { process_limit: 2, ..good }, 10, 3),
        (good, 23, 0),
    ];
    for (s, number, place) in wild {
        let (mut rows, mut counts, mut list) = ([7; 18], [7; 9], [7; 5]);
        assert_eq!(list_races(THREE, s, &mut rows, &mut counts, &mut list), refused(number, place), "{s:?}");
        assert_eq!(list, [7; 5], "{s:?}");
        match number {
            1..=3 => assert!(rows == [7; 18] && counts == [7; 9], "{s:?}"),
            23 => assert!(rows[12..] == [2, WRITE, 1, 5, 1, 0] && counts == THREE_COUNTS, "{s:?}"),
            _ => assert!(rows == [0; 18] && counts == [0; 9], "{s:?}"),
        }
    }
}

#[test]
fn races_of_wild_arguments_are_refused() {
    let rows = [0, WRITE, 0, 0, 1, 0, 5, WRITE, 0, 0, 1, 0];
    let many = vec![0; 6 * 4097];
    let wild = [
        // 1: a slice is too short, whatever else is wrong
        (&rows[..], 3, 6, 0, 18, 1),
        (&rows, 2, 6, 0, 11, 1),
        (&rows, 4097, 1, 4, 9, 1),
        (&rows, u32::MAX, u32::MAX, u32::MAX, 12, 1),
        // 2: the model, the number of rows or the process limit is out of its range
        (&rows, 2, 6, 4, 12, 2),
        (&rows, 2, 0, 0, 12, 2),
        (&rows, 2, PROCESSES + 1, 0, 200, 2),
        (&rows, 0, 0, 0, 0, 2),
        (&many, 4097, 1, 0, 4097, 2),
        // 10: the process of row 2 is 5
        (&rows, 2, 5, 0, 10, 10),
        (&rows, 2, 1, 3, 2, 10),
    ];
    for (rows, n, processes, model, len, number) in wild {
        let told = format!("{n} rows, {processes} processes, model {model}, {len} counts");
        for list_len in [0, 1, 2, 9] {
            let (mut counts, mut list) = (vec![7; len], vec![7; list_len]);
            assert_eq!(races(rows, n, processes, model, &mut counts, &mut list), refused(number, 0), "{told}");
            assert!(counts.iter().all(|x| *x == 7) && list.iter().all(|x| *x == 7), "{told}");
        }
    }
    let (mut counts, mut list) = ([7; 13], [7; 3]);
    assert_eq!(races(&rows, 2, 6, 0, &mut counts, &mut list), Listed::Pairs(1));
    assert!(list == [1, 2, 7] && counts == [1, 0, 0, 0, 0, 0, 0, 0, 0, 0, 0, 1, 0]);
    assert_eq!(verdict(&rows, 2, 6, 0, &mut counts), Verdict::Race { earlier: 1, later: 2 });
}
