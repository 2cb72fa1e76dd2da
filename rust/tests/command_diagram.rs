//! Pictures of the command `kiqsaryn`: which rows they show, what is marked in them, how lines go between boxes, and what is too large to draw.

#[allow(dead_code)]
mod naive;
#[allow(dead_code)]
mod running;

use kiqsaryn::{Model, Row, BARRIER, COMMIT, KINDS, PROCESSES, READ, RECV, SEND, WAIT, WRITE};
use naive::random::Random;
use naive::rows::some_rows_within;
use naive::writing;
use running::picture::{keeps_the_rules, lines, row_boxes, well_formed, Line, RowBox};
use running::{err, examples, out, prints, run, status};
use std::collections::BTreeSet;

fn diagram(text: &[u8], more: &[&str]) -> std::process::Output {
    run(&[&["diagram", "-", "--header", "no"], more].concat(), text)
}

/// The picture of a trace that is drawn, which keeps to every rule.
fn picture(text: &[u8], more: &[&str]) -> String {
    let o = diagram(text, more);
    assert_eq!((status(&o), err(&o)), (0, String::new()), "{more:?}");
    keeps_the_rules(&out(&o));
    out(&o)
}

/// Fails unless nothing is drawn for this reason.
fn not_drawn(text: &[u8], more: &[&str], words: &str) {
    let o = diagram(text, more);
    assert_eq!((status(&o), out(&o)), (3, String::new()), "{more:?}");
    assert_eq!(err(&o), format!("kiqsaryn: {words}\n"), "{more:?}");
}

fn numbers(boxes: &[RowBox]) -> BTreeSet<u32> {
    boxes.iter().map(|b| b.number).collect()
}

/// All texts of a picture on one line.
fn words_in(picture: &str) -> String {
    let texts = picture.split("<text").skip(1).filter_map(|part| part.split_once('>')?.1.split('<').next());
    texts.collect::<Vec<&str>>().join(" ")
}

fn drawn(text: &[u8], more: &[&str]) -> Vec<u32> {
    numbers(&row_boxes(&picture(text, more))).into_iter().collect()
}

/// The rows of a trace with their numbers.
fn numbered(rows: &[Row]) -> impl Iterator<Item = (u32, Row)> + '_ {
    (1..).zip(rows.iter().copied())
}

// ---- The examples

#[test]
fn a_picture_is_what_stands_beside_the_example() {
    for name in ["commit_missing", "barrier_commit_too_late"] {
        let o = run(&["diagram", &format!("{name}.csv"), "--header", "yes"], b"");
        let want = std::fs::read_to_string(examples().join(format!("{name}.svg"))).expect("the picture beside it");
        prints(&o, &want, 0, name);
        keeps_the_rules(&out(&o));
    }
}

#[test]
fn a_picture_of_a_strange_name_is_well_formed() {
    for name in ["a&b<c>\"d'.csv", "\u{e9}t\u{e9} \u{65e5}\u{672c}.csv", "x\u{ffff}\u{1}\n.csv"] {
        let path = std::path::PathBuf::from(env!("CARGO_TARGET_TMPDIR")).join(format!("diagram-{name}"));
        std::fs::copy(examples().join("commit_missing.csv"), &path).expect("a copy");
        let o = run(&["diagram", path.to_str().expect("a path"), "--header", "yes"], b"");
        std::fs::remove_file(&path).expect("the copy is removed");
        assert_eq!(status(&o), 0);
        well_formed(&out(&o));
    }
}

/// Colours for a dark screen stand in the style, and paper gets those of a light one.
#[test]
fn a_dark_screen_has_its_own_colours() {
    let picture = picture(b"0,write,1,0,10,\r\n1,read,1,0,10,\r\n", &[]);
    let (light, dark) = picture.split_once("@media screen and (prefers-color-scheme:dark){\n").expect("the dark colours");
    let dark = dark.split_once("\n}\n</style>").expect("their end").0;
    for rule in dark.lines() {
        let selector = rule.split('{').next().expect("a selector");
        let is_of_pictures = selector == "svg.kiqsaryn" || selector.starts_with("svg.kiqsaryn ");
        assert!(is_of_pictures && light.contains(&format!("{selector}{{")), "{rule}");
    }
    for colour in ["fill:#", "stroke:#"] {
        let outside = picture.replace(&picture[picture.find("<style>").expect("a style")..picture.find("</style>").expect("its end")], "");
        assert!(!outside.contains(colour), "{colour}");
    }
}

// ---- Links

/// The message and barrier links that rows ask for, among those that are drawn.
fn links_asked_for(rows: &[Row], boxes: &[RowBox]) -> Vec<(&'static str, u32, u32)> {
    let shown = numbers(boxes);
    let mut links = Vec::new();
    for (send, s) in numbered(rows).filter(|(k, r)| r.kind == SEND && shown.contains(k)) {
        let waits = numbered(rows).filter(|(k, r)| r.kind == WAIT && r.message == s.message && shown.contains(k));
        links.extend(waits.map(|(wait, _)| ("arrow", send, wait)));
    }
    let barriers: BTreeSet<u32> = rows.iter().filter(|r| r.kind == BARRIER).map(|r| r.message).collect();
    for barrier in barriers {
        let mut of_this: Vec<(u32, u32)> = numbered(rows)
            .filter(|(k, r)| r.kind == BARRIER && r.message == barrier && shown.contains(k))
            .map(|(k, r)| (r.process, k))
            .collect();
        of_this.sort_unstable();
        links.extend(of_this.windows(2).map(|two| ("meet", two[0].1, two[1].1)));
    }
    links
}

fn row_box(boxes: &[RowBox], number: u32) -> &RowBox {
    boxes.iter().find(|b| b.number == number).unwrap_or_else(|| panic!("row {number} is drawn"))
}

/// Fails unless the lines of a picture are those that its rows ask for, from edge to edge, and a short one at each row whose message leads away.
fn has_its_links(picture: &str, rows: &[Row]) {
    let boxes = row_boxes(picture);
    let all = lines(picture);
    let of = |class: &str| all.iter().filter(|l| l.class == class).cloned().collect::<Vec<Line>>();
    let links = links_asked_for(rows, &boxes);
    for (class, from, to) in &links {
        let (a, b) = (row_box(&boxes, *from), row_box(&boxes, *to));
        assert_eq!(of(class).iter().filter(|l| l.joins(a, b)).count(), 1, "{class} from row {from} to row {to} in {picture}");
    }
    let away: Vec<&RowBox> = boxes.iter().filter(|b| b.text.contains(", to process ") || b.text.contains(", from process ")).collect();
    for b in &away {
        assert_eq!(of("arrow").iter().filter(|l| l.corners.len() == 2 && l.touches(b)).count(), 1, "{b:?} in {picture}");
    }
    let count = |class: &str| links.iter().filter(|(c, _, _)| *c == class).count();
    assert_eq!(of("arrow").len(), count("arrow") + away.len() + 1, "messages and the legend's in {picture}");
    assert_eq!(of("meet").len(), count("meet") + 1, "barriers and the legend's in {picture}");
    let racing: Vec<&RowBox> = boxes.iter().filter(|b| b.class.ends_with(" racing")).collect();
    let pair = of("pair").iter().filter(|l| racing.len() == 2 && l.joins(racing[0], racing[1])).count();
    assert_eq!((of("pair").len(), pair), if racing.len() == 2 { (2, 1) } else { (1, 0) }, "the race and the legend's in {picture}");
}

/// What the box of a row says of a message or barrier that is drawn whole.
fn says_its_message(b: &RowBox, r: Row, rows: &[Row]) {
    let has = |kind: u32| rows.iter().any(|o| o.kind == kind && o.message == r.message);
    let lack = match r.kind {
        RECV if !has(SEND) => ", not sent",
        SEND | RECV if !has(WAIT) => ", not waited for",
        _ => "",
    };
    let letter = if r.kind == BARRIER { 'b' } else { 'm' };
    assert_eq!(b.text, format!("{} {} {letter}{}{lack}", b.number, KINDS[r.kind as usize], r.message));
    let class = match r.kind {
        RECV => "posted",
        BARRIER => "barrier",
        _ => "message",
    };
    assert_eq!(b.class.split(' ').next(), Some(class), "{b:?}");
}

#[test]
fn a_whole_picture_shows_every_row_message_and_barrier() {
    let r = &mut Random::new(4_242);
    for k in 0..60 {
        let (rows, _) = some_rows_within(r, 150);
        let model = r.pick(&Model::ALL).name();
        let picture = picture(&writing::text(0, &rows), &["--all", "--model", model]);
        let boxes = row_boxes(&picture);
        assert_eq!(numbers(&boxes).len(), rows.len(), "input {k}");
        has_its_links(&picture, &rows);
        for (b, row) in boxes.iter().zip(&rows).filter(|(_, row)| [SEND, RECV, WAIT, BARRIER].contains(&row.kind)) {
            says_its_message(b, *row, &rows);
        }
        assert!(!picture.contains("class=\"gap\"") && !picture.contains(" drawn: "), "{picture}");
        let racing = if picture.contains(&format!(">Race under {model}: ")) { 2 } else { 0 };
        assert_eq!(picture.matches(" racing\"").count(), racing + 1, "the pair and the legend's");
    }
}

#[test]
fn a_picture_of_many_lanes_keeps_every_line_free() {
    let r = &mut Random::new(9);
    for _ in 0..4 {
        let mut text = String::new();
        let mut open = Vec::new();
        for m in 0..120 {
            let p = r.below(PROCESSES);
            let q = (p + 1 + r.below(PROCESSES - 1)) % PROCESSES;
            text.push_str(&format!("{q},recv,,,,{m}\r\n{p},send,,,,{m}\r\n{p},write,1,{},90,\r\n", r.below(2_000)));
            open.push((q, m));
            if r.once_in(2) {
                let (q, m) = open.swap_remove(r.place(open.len()));
                text.push_str(&format!("{q},wait,,,,{m}\r\n"));
            }
        }
        let whole = picture(text.as_bytes(), &["--all"]);
        assert_eq!(row_boxes(&whole).len(), text.lines().count());
        picture(text.as_bytes(), &[]);
    }
}

/// The line of a barrier runs through its boxes from lane to lane, whatever the order in which the processes arrive.
#[test]
fn a_barrier_goes_across_the_lanes() {
    let rows =
        "0,write,1,0,10,\r\n2,barrier,,,,7\r\n0,commit,1,,,\r\n1,open,2,,,\r\n0,barrier,,,,7\r\n1,barrier,,,,7\r\n1,read,1,5,10,\r\n";
    let whole = picture(rows.as_bytes(), &[]);
    let boxes = row_boxes(&whole);
    for (from, to) in [(4, 5), (5, 1)] {
        assert!(lines(&whole).iter().any(|l| l.class == "meet" && l.joins(&boxes[from], &boxes[to])), "{whole}");
    }
    let texts = [1, 4, 5].map(|k| (boxes[k].class.as_str(), boxes[k].text.as_str()));
    assert_eq!(texts, [("barrier", "2 barrier b7"), ("barrier", "5 barrier b7"), ("barrier", "6 barrier b7")]);
    assert!(whole.contains("<title>row 2: process 2 arrives at barrier 7</title>"), "{whole}");
    assert!(whole.contains(">barrier</text>\n") && whole.contains(", b barrier. "), "the legend in {whole}");
    let part = picture(rows.as_bytes(), &["--process", "0", "--process", "1"]);
    assert!(part.contains(">5 barrier b7, 1 not drawn</text>"), "{part}");
    // One process alone has a box and no line.
    let alone = picture(b"3,barrier,,,,7\r\n", &[]);
    assert!(alone.contains(">1 barrier b7</text>") && alone.matches("<path class=\"meet\"").count() == 1, "the legend's in {alone}");
}

/// The picture of a race shows where each of its processes arrives at a barrier, also outside.
#[test]
fn a_barrier_that_comes_too_late_is_drawn() {
    let text = "2,open,3,,,\r\n0,write,1,0,10,\r\n0,commit,1,,,\r\n0,barrier,,,,4\r\n1,read,1,0,5,\r\n1,open,2,,,\r\n1,barrier,,,,4\r\n\
                2,barrier,,,,4\r\n1,read,1,5,5,\r\n";
    let picture = picture(text.as_bytes(), &[]);
    let texts: Vec<String> = row_boxes(&picture).into_iter().map(|b| b.text).collect();
    let barriers = ["4 barrier b4, 1 not drawn", "7 barrier b4, 1 not drawn"];
    assert_eq!(texts, ["2 write f1 0-9", "3 commit f1", barriers[0], "5 read f1 0-4", barriers[1]]);
}

// ---- The picture of a race

/// The sentences of an explanation, each behind its label.
fn sentences(words: &str) -> Vec<(String, String)> {
    let mut all: Vec<(String, String)> = Vec::new();
    for line in words.lines().skip_while(|l| !l.starts_with("Race of ")).take_while(|l| !l.starts_with("There is")) {
        match line.strip_prefix("    ").and_then(|l| l.split_once(": ")).filter(|(label, _)| label.chars().all(|c| c.is_ascii_alphabetic()))
        {
            Some((label, text)) => all.push((label.to_string(), text.trim().to_string())),
            None if line.starts_with("             ") => {
                if let Some((_, text)) = all.last_mut() {
                    text.push_str(&format!(" {}", line.trim()));
                }
            }
            None => {}
        }
    }
    all
}

/// The row numbers that a sentence names, in their order.
fn rows_named(sentence: &str) -> Vec<u32> {
    let words: Vec<&str> = sentence.split([' ', ',', '.', ':', '(', ')']).filter(|w| !w.is_empty()).collect();
    words.windows(2).filter(|two| two[0] == "row").filter_map(|two| two[1].parse().ok()).collect()
}

/// Whether the order comes from one row to another by rows of the picture.
fn leads(rows: &[Row], shown: &BTreeSet<u32>, from: u32, to: u32) -> bool {
    let row = |k: u32| rows[k as usize - 1];
    // Each process, and the row from which on the order is there.
    let mut reached: Vec<(u32, u32)> = vec![(row(from).process, from)];
    let mut at = 0;
    while at < reached.len() {
        let (process, first) = reached[at];
        for k in shown.iter().copied().filter(|k| *k >= first && row(*k).process == process) {
            let goes = |o: u32| match row(k).kind {
                SEND => row(o).kind == WAIT && row(o).message == row(k).message,
                BARRIER => row(o).kind == BARRIER && row(o).message == row(k).message && o != k,
                _ => false,
            };
            for o in shown.iter().copied().filter(|o| goes(*o)) {
                if !reached.iter().any(|(p, first)| *p == row(o).process && *first <= o) {
                    reached.push((row(o).process, o));
                }
            }
        }
        at += 1;
    }
    reached.iter().any(|(p, first)| *p == row(to).process && *first < to)
}

/// Fails unless the picture of a race shows what it has to. Gives whether rows of other processes bring the order.
fn shows_its_race(picture: &str, rows: &[Row], (earlier, later): (u32, u32), words: &str) -> bool {
    let boxes = row_boxes(picture);
    let shown = numbers(&boxes);
    let tag = |k: u32| row_box(&boxes, k).tag.as_str();
    let processes = [earlier, later].map(|k| rows[k as usize - 1].process);
    for (k, r) in numbered(rows) {
        let is_between = (earlier..=later).contains(&k) && processes.contains(&r.process);
        assert!(!is_between || shown.contains(&k), "row {k} in {picture}");
        let is_of_order = [SEND, RECV, WAIT, BARRIER].contains(&r.kind);
        assert!(!shown.contains(&k) || processes.contains(&r.process) || is_of_order, "row {k} in {picture}");
    }
    let mut tagged: BTreeSet<u32> = [earlier, later].into();
    assert_eq!([tag(earlier), tag(later)], ["Race", "Race"]);
    for (label, sentence) in sentences(words) {
        let named = rows_named(&sentence);
        let marked = match label.as_str() {
            "Found" => named.last(),
            "Order" if !sentence.starts_with("no row ") => named.last(),
            "Posted" => named.first(),
            _ => continue,
        };
        let Some(row) = marked.copied().filter(|_| !named.is_empty()) else {
            continue;
        };
        assert_eq!(tag(row), label, "row {row} in {picture}");
        assert!(row_box(&boxes, row).class.ends_with(" named"));
        tagged.insert(row);
        assert!(named.iter().all(|k| shown.contains(k)), "{label}: {sentence} in {picture}");
        if label == "Order" {
            assert!(leads(rows, &shown, row, named[0]), "from row {row} to row {} in {picture}", named[0]);
        }
    }
    assert!(boxes.iter().all(|b| b.tag.is_empty() || tagged.contains(&b.number)), "{picture}");
    boxes.iter().any(|b| !processes.contains(&rows[b.number as usize - 1].process))
}

#[test]
fn a_picture_of_a_race_shows_what_it_is_about() {
    let r = &mut Random::new(77);
    let (mut races, mut through_others) = (0, 0);
    while races < 150 {
        let (rows, _) = some_rows_within(r, 120);
        let text = writing::text(0, &rows);
        let model = r.pick(&Model::ALL).name();
        let check = |more: &[&str]| out(&run(&[&["check", "-", "--header", "no", "--model", model], more].concat(), &text));
        let verdict = check(&["--csv"]);
        let fields: Vec<u32> = verdict.lines().nth(1).unwrap_or("").split(',').filter_map(|w| w.trim().parse().ok()).collect();
        let [earlier, later] = fields[..] else {
            assert_eq!(drawn(&text, &["--model", model]).len(), rows.len(), "a free trace is drawn whole");
            continue;
        };
        let picture = picture(&text, &["--model", model]);
        through_others += u32::from(shows_its_race(&picture, &rows, (earlier, later), &check(&[])));
        has_its_links(&picture, &rows);
        says_how_many(&picture, &rows);
        races += 1;
    }
    assert!(through_others > 0, "{through_others}");
}

/// The order from a send to the later row is drawn by the shortest way, through any number of other processes. A detour by process 9, which comes to
/// process 2 sooner, is not drawn.
#[test]
fn the_way_of_the_order_is_drawn() {
    let r = &mut Random::new(5);
    for others in 0..8 {
        let mut text = "0,write,1,0,10,\r\n0,send,,,,0\r\n".to_string();
        let mut put = |row: String| {
            text.push_str(&row);
            (0..r.below(3)).for_each(|k| text.push_str(&format!("{},read,7,{k},1,\r\n", 20 + k)));
        };
        for k in 0..=others {
            let p = k + 1;
            put(format!("{p},recv,,,,{k}\r\n{p},wait,,,,{k}\r\n"));
            if k == 0 && others > 0 {
                put("1,send,,,,100\r\n9,recv,,,,100\r\n9,wait,,,,100\r\n".to_string());
                put("9,send,,,,101\r\n2,recv,,,,101\r\n2,wait,,,,101\r\n".to_string());
            }
            if k < others {
                put(format!("{p},read,5,0,1,\r\n{p},send,,,,{}\r\n", k + 1));
            }
        }
        put(format!("{},read,1,0,10,\r\n", others + 1));
        let whole = picture(text.as_bytes(), &[]);
        let way: usize = (1..=others).map(|p| whole.matches(&format!(": process {p} ")).count()).sum();
        assert_eq!(way, 2 * others as usize, "{whole}");
        assert!(others == 0 || others == 1 || !whole.contains(": process 9 "), "the detour in {whole}");
        assert_eq!(row_boxes(&whole).iter().filter(|b| b.tag == "Order").map(|b| b.number).collect::<Vec<u32>>(), [2], "{whole}");
    }
}

/// Fails unless a picture that leaves rows out says how many it shows, and in its lanes how many it does not.
fn says_how_many(picture: &str, rows: &[Row]) {
    let boxes = row_boxes(picture);
    let (n, all) = (boxes.len(), rows.len());
    let are = if n == 1 { "is" } else { "are" };
    assert_eq!(picture.contains(&format!(">{n} of {all} rows {are} drawn: ")), n < all, "{picture}");
    let processes: BTreeSet<u32> = boxes.iter().map(|b| rows[b.number as usize - 1].process).collect();
    let hidden = rows.iter().filter(|r| processes.contains(&r.process)).count() - n;
    let gaps =
        picture.split("<text class=\"gap\"").skip(1).filter_map(|part| part.split("... ").nth(1)?.split(' ').next()?.parse::<usize>().ok());
    assert_eq!(gaps.sum::<usize>(), hidden, "{picture}");
}

/// A receive that a third process posts stands in the picture, and the row of that process that would have to come behind a wait for it.
#[test]
fn a_receive_posted_on_the_way_is_drawn_with_its_rows() {
    let rows =
        ["0,write,1,0,4,", "0,send,,,,1", "1,recv,,,,1", "1,read,2,0,4,", "1,send,,,,2", "2,recv,,,,2", "2,wait,,,,2", "2,read,1,0,4,"];
    let text = rows.join("\r\n");
    let picture = picture(text.as_bytes(), &["--model", "posix"]);
    assert!(words_in(&picture).contains("no row of process 1 before row 5 waits for it"), "{picture}");
    let boxes = row_boxes(&picture);
    assert_eq!(numbers(&boxes), BTreeSet::from([1, 2, 3, 5, 6, 7, 8]), "{picture}");
    assert!(lines(&picture).iter().any(|line| line.joins(row_box(&boxes, 5), row_box(&boxes, 7))), "{picture}");
}

/// 400 rows with many races: the first, and any other that is asked for.
#[test]
fn another_race_is_drawn_on_request() {
    let mut text = String::new();
    for k in 0..80 {
        text.push_str(&format!("0,write,1,{},10,\r\n2,read,2,0,4,\r\n1,read,1,{},5,\r\n", 10 * k, 10 * k));
        text.push_str("2,commit,2,,,\r\n0,open,3,,,\r\n");
    }
    let races = out(&run(&["races", "-", "--header", "no", "--model", "commit", "--csv"], text.as_bytes()));
    assert_eq!(races.lines().count(), 81);
    assert_eq!(drawn(text.as_bytes(), &[]), [1, 3]);
    assert_eq!(drawn(text.as_bytes(), &["--race", "396,398"]), [396, 398]);
    assert_eq!(drawn(text.as_bytes(), &["--race", "391,393", "--rows", "388-395"]), (388..=395).collect::<Vec<u32>>());
    let listed = "'kiqsaryn races --model commit' shows which are";
    not_drawn(text.as_bytes(), &["--race", "1,8"], &format!("rows 1 and 8 are no race under commit; {listed}"));
    not_drawn(text.as_bytes(), &["--race", "1,500"], &format!("rows 1 and 500 are no race under commit; {listed}"));
}

/// Ends of messages that are not drawn are named in the box of the other end.
#[test]
fn a_message_that_leads_away_says_where_to() {
    let text =
        "2,send,,,,1\r\n0,write,1,0,10,\r\n1,recv,,,,1\r\n0,send,,,,2\r\n1,wait,,,,1\r\n3,recv,,,,2\r\n1,read,1,0,4,\r\n3,wait,,,,2\r\n";
    let picture = picture(text.as_bytes(), &[]);
    let texts: Vec<String> = row_boxes(&picture).into_iter().map(|b| b.text).collect();
    let want = ["2 write f1 0-9", "3 recv m1", "4 send m2, to process 3, row 8", "5 wait m1, from process 2, row 1", "7 read f1 0-3"];
    assert_eq!(texts, want);
    let words = ">5 of 8 rows are drawn: those of process 0 and process 1 from row 2 to row 7.</text>";
    assert!(picture.contains(words), "{picture}");
}

// ---- Rows that are chosen

#[test]
fn rows_processes_and_a_file_choose() {
    let r = &mut Random::new(31);
    let mut shown = 0;
    for _ in 0..120 {
        let (rows, _) = some_rows_within(r, 100);
        let text = writing::text(0, &rows);
        let first = r.between(1, rows.len() as u32);
        let last = r.between(first, rows.len() as u32);
        let process = rows[r.place(rows.len())].process;
        let range = format!("{first}-{last}");
        let (in_rows, in_process) = (r.once_in(2), r.once_in(2));
        let mut args = Vec::new();
        if in_rows {
            args.extend(["--rows", &range]);
        }
        let process_word = process.to_string();
        if in_process || !in_rows {
            args.extend(["--process", &process_word]);
        }
        let is_in = |k: u32, p: u32| (!in_rows || (first..=last).contains(&k)) && (!(in_process || !in_rows) || p == process);
        let want: Vec<u32> = numbered(&rows).filter(|(k, row)| is_in(*k, row.process)).map(|(k, _)| k).collect();
        if want.is_empty() {
            let words = format!("no row is chosen: rows {first} to {last}; of these, rows of process {process}");
            not_drawn(&text, &args, &words.replace(&format!("rows {first} to {first};"), &format!("row {first};")));
            continue;
        }
        let picture = picture(&text, &args);
        assert_eq!(numbers(&row_boxes(&picture)).into_iter().collect::<Vec<u32>>(), want, "{args:?}");
        has_its_links(&picture, &rows);
        says_how_many(&picture, &rows);
        shown += 1;
    }
    assert!(shown > 60, "{shown}");
}

const CHOICES: &str =
    "0,write,1,0,10,\r\n1,write,2,0,10,\r\n2,open,2,,,\r\n0,send,,,,5\r\n1,recv,,,,5\r\n1,wait,,,,5\r\n2,barrier,,,,1\r\n\
                       1,barrier,,,,1\r\n0,barrier,,,,1\r\n1,read,1,0,10,\r\n2,read,2,0,10,\r\n";

#[test]
fn a_file_is_drawn_with_the_messages_and_barriers_of_its_processes() {
    let text = CHOICES.as_bytes();
    assert_eq!(drawn(text, &["--file", "1"]), [1, 4, 5, 6, 8, 9, 10]);
    assert_eq!(drawn(text, &["--file", "2"]), [2, 3, 5, 6, 7, 8, 11]);
    assert_eq!(drawn(text, &["--file", "2", "--process", "2"]), [3, 7, 11]);
    assert_eq!(drawn(text, &["--file", "1", "--rows", "1-6"]), [1, 4]);
    assert_eq!(drawn(text, &["--process", "0", "--process", "2"]), [1, 3, 4, 7, 9, 11]);
    assert_eq!(drawn(text, &["--all"]), (1..=11).collect::<Vec<u32>>());
    let part = picture(text, &["--rows", "1-5"]);
    assert!(part.contains(">5 of 11 rows are drawn: rows 1 to 5.</text>"), "{part}");
    assert!(
        part.contains(">Row 10 of the race is not drawn.</text>") && part.contains(" with row 10, which is not drawn</text>"),
        "{part}"
    );
    let part = picture(text, &["--rows", "3-5"]);
    assert!(part.contains(">The race is not drawn: row 1 and row 10 are not chosen.</text>"), "{part}");
    assert!(part.contains(">4 send m5, to process 1, row 6</text>") && part.contains(">5 recv m5, wait is row 6</text>"), "{part}");
}

#[test]
fn a_choice_of_nothing_is_a_sentence() {
    let text = CHOICES.as_bytes();
    not_drawn(text, &["--rows", "5-12"], "--rows 5-12: the trace has 11 rows, and rows are counted from 1");
    not_drawn(text, &["--process", "3"], "process 3 has no row; processes 0, 1 and 2 have");
    not_drawn(text, &["--file", "7"], "file 7 has no row; files 1 and 2 have");
    not_drawn(
        text,
        &["--rows", "4-5", "--file", "1"],
        "no row is chosen: rows 4 to 5; of these, rows of file 1, with the messages and barriers of the processes that have such rows",
    );
    not_drawn(b"4,send,,,,5\r\n", &["--file", "7"], "file 7 has no row: no row of the trace is of a file");
    not_drawn(b"4,commit,3,,,\r\n", &["--file", "7"], "file 7 has no row; file 3 has");
    not_drawn(b"4,commit,3,,,\r\n", &["--process", "7"], "process 7 has no row; process 4 has");
    not_drawn(b"", &["--process", "7"], "process 7 has no row: the trace has no row");
    for wrong in [&["--rows", "5"][..], &["--rows", "0-3"], &["--race", "1-2"], &["--all", "--file", "1"]] {
        let o = diagram(text, wrong);
        assert_eq!((status(&o), out(&o)), (3, String::new()), "{wrong:?}");
    }
}

#[test]
fn a_trace_of_no_row_has_a_picture_that_says_so() {
    let picture = picture(b"", &[]);
    assert!(picture.contains(">The trace has no row.</text>") && row_boxes(&picture).is_empty(), "{picture}");
}

// ---- Large traces

/// A trace of 4,096 rows of 48 processes. Where there is to be a race, the first process writes to file 2 at the beginning and commits it at the
/// end, where the second reads it; all other rows are in order.
fn full(racing: bool) -> String {
    let mut text = if racing { "0,write,2,0,10,\r\n" } else { "0,sync,1,,,\r\n" }.to_string();
    for k in 0..818 {
        let (p, q) = (k % PROCESSES, (k + 1) % PROCESSES);
        text.push_str(&format!("{q},recv,,,,{k}\r\n{p},write,1,{},90,\r\n{p},commit,1,,,\r\n", p * 100));
        text.push_str(&format!("{p},send,,,,{k}\r\n{q},wait,,,,{k}\r\n"));
    }
    text.push_str("0,commit,2,,,\r\n");
    text.push_str(&"1,read,2,0,10,\r\n".repeat(4));
    assert_eq!(text.lines().count(), 4096);
    text
}

const HINT: &str = "pixels, and no viewer opens more than 32767: choose rows with --rows A-B, --process or --file\n";

fn too_large(text: &str, more: &[&str]) {
    let o = diagram(text.as_bytes(), more);
    assert_eq!((status(&o), out(&o)), (3, String::new()), "{more:?}");
    assert!(err(&o).starts_with("kiqsaryn: the picture would be ") && err(&o).ends_with(HINT), "{more:?}: {}", err(&o));
}

#[test]
fn a_picture_that_no_viewer_opens_is_not_drawn() {
    too_large(&full(false), &[]);
    too_large(&full(false), &["--all"]);
    too_large(&full(true), &["--all"]);
    too_large(&full(true), &["--rows", "1-2000"]);
    assert_eq!(drawn(full(false).as_bytes(), &["--rows", "3001-3100"]).len(), 100);
}

/// The picture of a race over a whole trace leaves out what it does not need, and says so.
#[test]
fn a_picture_of_a_wide_race_is_folded() {
    let whole = picture(full(true).as_bytes(), &["--model", "commit"]);
    let boxes = row_boxes(&whole);
    let tags: Vec<(u32, &str)> = boxes.iter().filter(|b| !b.tag.is_empty()).map(|b| (b.number, b.tag.as_str())).collect();
    assert_eq!((tags[0], tags[tags.len() - 1]), ((1, "Race"), (4093, "Race")));
    assert!(tags.iter().any(|(_, tag)| *tag == "Found") && tags.iter().any(|(_, tag)| *tag == "Order"), "{tags:?}");
    let words = " of 4096 rows are drawn: those of process 0 and process 1 from row 1 to row 4093";
    assert!(words_in(&whole).contains(words), "{whole}");
    // A thousand rows of both processes between, of which none is needed.
    let filler: String = (0..1_000).map(|k| format!("{},read,9,{k},1,\r\n", k % 2)).collect();
    let text = format!("0,write,1,0,10,\r\n{filler}1,read,1,5,10,\r\n");
    let folded = picture(text.as_bytes(), &[]);
    assert_eq!(numbers(&row_boxes(&folded)), [1, 1002].into());
    assert!(folded.contains("... 500 rows</text>"), "{folded}");
    assert!(words_in(&folded).contains(" need. Between, 1000 rows of process 0 and process 1 are left out. "), "{folded}");
    // Messages are left out where there are too many of them.
    let messages: String =
        (0..1_364).map(|k| format!("{0},recv,,,,{k}\r\n{1},send,,,,{k}\r\n{0},wait,,,,{k}\r\n", k % 2, 1 - k % 2)).collect();
    let text = format!("0,write,1,0,10,\r\n{messages}1,read,1,5,10,\r\n");
    let folded = picture(text.as_bytes(), &[]);
    assert_eq!(numbers(&row_boxes(&folded)), [1, 4092, 4093, 4094].into(), "the race, and the last message to process 1");
    let short: String = filler.lines().take(190).map(|l| format!("{l}\r\n")).collect();
    let text = format!("0,write,1,0,10,\r\n{short}1,read,1,5,10,\r\n");
    assert_eq!(drawn(text.as_bytes(), &[]).len(), 192, "so many are drawn");
}

/// Rows of every kind that has a box of its own look.
#[test]
fn boxes_tell_kinds() {
    let text = "0,write,1,0,1,\r\n0,commit,1,,,\r\n0,read,1,3,0,\r\n0,read,1,3,4,\r\n";
    let boxes = row_boxes(&picture(text.as_bytes(), &[]));
    let looks: Vec<(&str, &str)> = boxes.iter().map(|b| (b.class.as_str(), b.text.as_str())).collect();
    assert_eq!(looks, [("write", "1 write f1 0"), ("share", "2 commit f1"), ("read", "3 read f1 no bytes"), ("read", "4 read f1 3-6")]);
    assert_eq!([KINDS[READ as usize], KINDS[WRITE as usize], KINDS[COMMIT as usize]], ["read", "write", "commit"]);
}
