//! What stands above the lanes: the traces, the verdict, why rows race, which rows are drawn, and what the shapes mean.

use super::crop::Drawn;
use super::draw::{put_arrow, put_line, put_text, rect, IN_BOX};
use super::labels::LETTERS;
use super::layout::{wide, BOX, MARGIN, PADDING};
use super::race::Race;
use crate::input::{Recorded, Trace};
use crate::recording::Recording;
use crate::text::{counted, wrap};
use kiqsaryn::Model;

/// Bytes in a line of text above the lanes, and in the shortened name of a trace.
const TEXT: usize = 100;
const NAME: usize = 70;
/// Sizes in pixels: a line of text, from the margin to the foot of the first line's letters, from the samples to the foot of the letters of the line
/// below them, a sample of a line, from it to its words, and from them to the next sample.
const LINE: usize = 20;
const FIRST: usize = 8;
const LAST: usize = 12;
const SAMPLE: usize = 34;
const BESIDE: usize = 8;
const APART: usize = 14;
/// Letters of the title are larger: so many letters of a line of text are as wide as so many of the title.
const LETTERS_OF_TEXT: usize = 5;
const LETTERS_OF_TITLE: usize = 4;
/// Between the words and the samples, between their lines, and between them and the lanes.
const ABOVE: usize = 6;
const BELOW: usize = 8;

/// The end of a long name.
fn short_name(name: &str) -> String {
    let count = name.chars().count();
    if count <= NAME {
        return name.to_string();
    }
    format!("...{}", name.chars().skip(count - NAME).collect::<String>())
}

/// The title of the picture.
pub fn title(trace: &Trace) -> String {
    match &trace.source {
        Recorded::Alone(recording) => recording.name.clone(),
        Recorded::Joined(join) => join.recordings.each_ref().map(|r| r.name.as_str()).join(" and "),
    }
}

/// Lines, each with its class, and whether samples of the shapes stand below them, and which line is below those.
pub struct Heading {
    lines: Vec<(&'static str, String)>,
    legend: Option<&'static str>,
}

/// What stands in a box.
fn in_a_box(trace: &Trace) -> &'static str {
    match &trace.source {
        Recorded::Alone(_) => {
            "In a box: row number, kind, f file, first-last byte, m message, b barrier. Rows go down in the order of the trace."
        }
        Recorded::Joined(_) => {
            "In a box: row, A or B and the row there, kind, f file, first-last byte, m message, b barrier. Rows go down as joined."
        }
    }
}

/// The boxes of the legend: their classes and what they are.
const BOXES: [(&str, &str); 8] = [
    ("read", "read"),
    ("write", "write"),
    ("share", "commit open close sync"),
    ("message", "send wait"),
    ("posted", "recv"),
    ("barrier", "barrier"),
    ("plain racing", "racing row"),
    ("plain named", "row named above"),
];

/// The lines of the legend, and what they are.
const MESSAGE: &str = "message, from send to wait";
const ARRIVALS: &str = "rows of one barrier";
const PAIR: &str = "the race";
const LEFT_OUT: &str = "... rows left out";

impl Heading {
    /// All that is said above a picture of its own.
    pub fn new(trace: &Trace, model: Model, race: Option<&Race>, drawn: &Drawn) -> Heading {
        let mut heading = Heading { lines: titles(trace), legend: Some(in_a_box(trace)) };
        match race {
            None => heading.say("free", &format!("Free under {}: no two rows race.", model.name())),
            Some(race) => heading.say_race(trace, model, race),
        }
        if !drawn.said.is_empty() {
            heading.say("", &drawn.said);
        }
        if let Some(words) = race.and_then(|race| not_drawn(race, drawn)) {
            heading.say("race", &words);
        }
        heading
    }

    /// What is said above a picture in a page that says the rest.
    pub fn in_page(drawn: &Drawn) -> Heading {
        let mut heading = Heading { lines: Vec::new(), legend: None };
        if !drawn.briefly.is_empty() {
            heading.say("", &drawn.briefly);
        }
        heading
    }

    fn say(&mut self, class: &'static str, text: &str) {
        self.lines.extend(wrap(text, TEXT).into_iter().map(|line| (class, line)));
    }

    /// The race, and why it is one.
    fn say_race(&mut self, trace: &Trace, model: Model, race: &Race) {
        let name = &mut trace.naming(&[]);
        let verdict = format!("Race under {}: {} and {}.", model.name(), name(race.earlier), name(race.later));
        self.say("race", &verdict);
        let Some(words) = &race.words else {
            self.say("race", "no explanation found; please report this trace");
            return;
        };
        self.say("", &format!("Shared: {}.", words.shared));
        words.lines.iter().for_each(|(label, line)| self.say("", &format!("{label}: {line}")));
    }

    /// Where the samples of the shapes start.
    fn below_lines(&self) -> usize {
        MARGIN + LINE * self.lines.len() + ABOVE
    }

    /// Where the lanes can start.
    pub fn bottom(&self) -> usize {
        let legend = if self.legend.is_some() { 2 * (BOX + BELOW) + LINE } else { 0 };
        self.below_lines() + legend + BELOW
    }

    /// Where the widest line ends.
    pub fn right(&self) -> usize {
        let words = self.lines.iter().map(|(class, line)| match *class {
            "big" => (line.len() * LETTERS_OF_TEXT).div_ceil(LETTERS_OF_TITLE),
            _ => line.len(),
        });
        let boxes: usize = BOXES.iter().map(|(_, words)| wide(words.len()) + 2 * PADDING + APART).sum();
        let legend = self.legend.map_or(0, |line| wide(line.len()).max(boxes));
        MARGIN + wide(words.max().unwrap_or(0)).max(legend)
    }

    pub fn put(&self, s: &mut String, id: &str) {
        for (k, (class, line)) in self.lines.iter().enumerate() {
            put_text(s, class, MARGIN, MARGIN + LINE * k + FIRST, line);
        }
        if let Some(line) = self.legend {
            put_legend(s, self.below_lines(), line, id);
        }
    }
}

/// Which rows of a race are not drawn, if one is not.
fn not_drawn(race: &Race, drawn: &Drawn) -> Option<String> {
    let missing: Vec<u32> = [race.earlier, race.later].into_iter().filter(|k| !drawn.rows.contains(k)).collect();
    match missing[..] {
        [] => None,
        [one] => Some(format!("Row {one} of the race is not drawn.")),
        _ => Some(format!("The race is not drawn: row {} and row {} are not chosen.", race.earlier, race.later)),
    }
}

/// The traces and their rows.
fn titles(trace: &Trace) -> Vec<(&'static str, String)> {
    let rows = |n: u32| counted(u64::from(n), "row");
    match &trace.source {
        Recorded::Alone(recording) => vec![("big", format!("{}: {}", short_name(&recording.name), rows(recording.n)))],
        Recorded::Joined(join) => {
            let each = |r: &Recording, letter: char| ("", format!("{letter}: {}, {}", short_name(&r.name), rows(r.n)));
            let [first, second] = &join.recordings;
            vec![("big", format!("Two traces joined: {}", rows(join.n))), each(first, LETTERS[0]), each(second, LETTERS[1])]
        }
    }
}

/// Samples of the shapes, from a height on, and a line below them.
fn put_legend(s: &mut String, y: usize, line: &str, id: &str) {
    let mut x = MARGIN;
    for (class, words) in BOXES {
        let width = wide(words.len()) + 2 * PADDING;
        s.push_str(&rect(class, x, y, width));
        s.push('\n');
        put_text(s, "", x + PADDING, y + IN_BOX, words);
        x += width + APART;
    }
    let y = y + BOX + BELOW;
    let middle = y + BOX / 2;
    let mut x = MARGIN;
    for (class, words) in [("arrow", MESSAGE), ("meet", ARRIVALS), ("pair", PAIR)] {
        let corners = [(x, middle), (x + SAMPLE, middle)];
        match class {
            "arrow" => put_arrow(s, id, &corners),
            _ => put_line(s, class, &corners),
        }
        put_text(s, "", x + SAMPLE + BESIDE, y + IN_BOX, words);
        x += SAMPLE + BESIDE + wide(words.len()) + APART;
    }
    put_text(s, "", x, y + IN_BOX, LEFT_OUT);
    put_text(s, "", MARGIN, y + BOX + BELOW + LAST, line);
}
