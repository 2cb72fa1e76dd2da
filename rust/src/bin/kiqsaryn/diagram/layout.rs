//! Where everything of a picture stands. Each process has a lane and each row a line of its own, so that a line at the height of a row meets no box
//! but the row's. Between the lanes are gutters. A link leaves its first box sideways at the height of that row, turns in the gutter beside the lane of
//! its second box, and comes to that box sideways at its height. In a gutter each link has a track of its own as far as it goes up or down, so that no
//! link passes under a box, and no two links lie on each other.

use super::labels::{letter, Labels};
use super::race::{Mark, Race};
use crate::input::Trace;
use kiqsaryn::{Row, BARRIER, PROCESSES, SEND};
use std::collections::{BTreeMap, BTreeSet};

/// Sizes in pixels: the margin of the picture, a row's line and its box, the line of a gap, and the band of lane heads, which comes again before a
/// screen is full.
pub const MARGIN: usize = 20;
pub const LINE: usize = 30;
pub const BOX: usize = 22;
pub const GAP: usize = 22;
pub const HEAD: usize = 32;
const SCREEN: usize = 700;
/// Between a box and its text, between a lane and the first track beside it, between two tracks, and the length of an arrow from or to a row that is
/// not drawn.
pub const PADDING: usize = 6;
const ASIDE: usize = 24;
const TRACK: usize = 8;
pub const STUB: usize = 18;
/// Between a text in a box and the word that marks the row.
const TAG_GAP: usize = 14;

/// The width of a line of text.
pub fn wide(bytes: usize) -> usize {
    bytes * 15 / 2
}

/// A lane: its process, its left end, its width, and the letter of its trace in a join.
pub struct Lane {
    pub process: u32,
    pub letter: Option<char>,
    pub x: usize,
    pub width: usize,
}

impl Lane {
    pub fn middle(&self) -> usize {
        self.x + self.width / 2
    }

    fn right(&self) -> usize {
        self.x + self.width
    }
}

/// A row's box, as wide as its lane.
pub struct Shape {
    pub number: u32,
    pub row: Row,
    pub label: String,
    pub marks: BTreeSet<Mark>,
    pub lane: usize,
    pub y: usize,
    /// On which side the other end of its message would be, where that is not drawn.
    pub stub: Option<Side>,
}

impl Shape {
    pub fn middle(&self) -> usize {
        self.y + BOX / 2
    }

    /// The words that mark the row.
    pub fn tag(&self) -> String {
        self.marks.iter().map(|m| m.word()).collect::<Vec<&str>>().join(", ")
    }

    fn width(&self) -> usize {
        let tag = self.tag();
        let tag_width = if tag.is_empty() { 0 } else { TAG_GAP + wide(tag.len()) };
        wide(self.label.len()) + tag_width + 2 * PADDING
    }
}

#[derive(Clone, Copy, PartialEq, Eq)]
pub enum Side {
    Left,
    Right,
}

/// What a link is.
#[derive(Clone, Copy, PartialEq, Eq)]
pub enum What {
    Message,
    Barrier,
    Race,
}

/// A link between two boxes, by its corners.
pub struct Link {
    pub what: What,
    pub corners: [(usize, usize); 4],
}

/// How many rows of a lane are left out at a height.
pub struct Gap {
    pub lane: usize,
    pub y: usize,
    pub rows: u32,
}

pub struct Layout {
    pub lanes: Vec<Lane>,
    pub shapes: Vec<Shape>,
    pub links: Vec<Link>,
    pub gaps: Vec<Gap>,
    /// The heights of the bands of lane heads.
    pub heads: Vec<usize>,
    /// Right of all lanes, and below all lines.
    pub right: usize,
    pub bottom: usize,
}

// ---- From top to bottom

/// The lines as they come, from a height on.
struct Lines {
    y: usize,
    heads: Vec<usize>,
    gaps: Vec<Gap>,
    left_out: BTreeMap<usize, u32>,
}

impl Lines {
    /// Takes a line of this height, below a band of heads where the screen would be full with it. Gives where it starts.
    fn take(&mut self, height: usize) -> usize {
        if self.heads.last().is_none_or(|head| self.y + height > head + SCREEN) {
            self.heads.push(self.y);
            self.y += HEAD;
        }
        self.y += height;
        self.y - height
    }

    /// Takes a line that says how many rows are left out in each lane, if any are.
    fn take_gap(&mut self) {
        if self.left_out.is_empty() {
            return;
        }
        let y = self.take(GAP);
        let left_out = std::mem::take(&mut self.left_out);
        self.gaps.extend(left_out.into_iter().map(|(lane, rows)| Gap { lane, y, rows }));
    }
}

// ---- From left to right

/// A link's way up or down in a gutter, between two heights.
struct Run {
    gutter: usize,
    top: usize,
    bottom: usize,
}

/// Gives each run a track of its gutter, such that no two on one track meet, and the number of tracks of each gutter.
fn tracks(runs: &[Run], gutters: usize) -> (Vec<usize>, Vec<usize>) {
    let mut order: Vec<usize> = (0..runs.len()).collect();
    order.sort_by_key(|k| (runs[*k].top, runs[*k].bottom));
    let mut ends: Vec<Vec<usize>> = vec![Vec::new(); gutters];
    let mut chosen = vec![0; runs.len()];
    for k in order {
        let Run { gutter, top, bottom } = runs[k];
        let Some(ends) = ends.get_mut(gutter) else {
            continue;
        };
        let track = ends.iter().position(|end| *end < top).unwrap_or(ends.len());
        match ends.get_mut(track) {
            Some(end) => *end = bottom,
            None => ends.push(bottom),
        }
        chosen[k] = track;
    }
    (chosen, ends.iter().map(Vec::len).collect())
}

/// The run of a link between two boxes: in the gutter beside the lane of the second, on the side of the first. Gutter k is left of lane k.
fn run(a: &Shape, b: &Shape) -> Run {
    let gutter = if a.lane < b.lane { b.lane } else { b.lane + 1 };
    Run { gutter, top: a.middle().min(b.middle()), bottom: a.middle().max(b.middle()) }
}

impl Layout {
    /// Lays out the rows that are drawn, from a height on.
    pub fn new(trace: &Trace, drawn: &BTreeSet<u32>, race: Option<&Race>, top: usize) -> Layout {
        let labels = Labels::new(trace, drawn);
        let lanes = lanes(trace, drawn);
        let mut layout =
            Layout { lanes, shapes: Vec::new(), links: Vec::new(), gaps: Vec::new(), heads: Vec::new(), right: 0, bottom: top };
        layout.place_rows(trace, drawn, &labels, race);
        for shape in &layout.shapes {
            if let Some(lane) = layout.lanes.get_mut(shape.lane) {
                lane.width = lane.width.max(shape.width());
            }
        }
        layout.place_links(&labels, race);
        layout
    }

    /// Gives each row its line.
    fn place_rows(&mut self, trace: &Trace, drawn: &BTreeSet<u32>, labels: &Labels, race: Option<&Race>) {
        let places: BTreeMap<u32, usize> = self.lanes.iter().enumerate().map(|(k, lane)| (lane.process, k)).collect();
        let mut lines = Lines { y: self.bottom, heads: Vec::new(), gaps: Vec::new(), left_out: BTreeMap::new() };
        for (number, row) in trace.rows().all() {
            let Some(lane) = places.get(&row.process).copied() else {
                continue;
            };
            if !drawn.contains(&number) {
                *lines.left_out.entry(lane).or_default() += 1;
                continue;
            }
            lines.take_gap();
            let y = lines.take(LINE) + (LINE - BOX) / 2;
            let marks = race.and_then(|race| race.marks.get(&number)).cloned().unwrap_or_default();
            let stub = labels.far_end(row).map(|(_, far)| if far < row.process { Side::Left } else { Side::Right });
            self.shapes.push(Shape { number, row, label: labels.of(number, row), marks, lane, y, stub });
        }
        lines.take_gap();
        (self.heads, self.gaps, self.bottom) = (lines.heads, lines.gaps, lines.y);
    }

    /// The box of a row, by its place.
    pub fn place(&self, number: u32) -> Option<usize> {
        self.shapes.binary_search_by_key(&number, |shape| shape.number).ok()
    }

    /// The boxes that are linked: the ends of messages, the boxes of a barrier from lane to lane, and the two of the race.
    fn pairs(&self, labels: &Labels, race: Option<&Race>) -> Vec<(What, usize, usize)> {
        let mut pairs = Vec::new();
        let mut barriers: BTreeMap<u32, Vec<(usize, usize)>> = BTreeMap::new();
        for (k, shape) in self.shapes.iter().enumerate() {
            match shape.row.kind {
                SEND => {
                    let wait = labels.wait(shape.row.message).and_then(|wait| self.place(wait));
                    pairs.extend(wait.map(|wait| (What::Message, k, wait)));
                }
                BARRIER => barriers.entry(shape.row.message).or_default().push((shape.lane, k)),
                _ => {}
            }
        }
        for arrivals in barriers.values_mut() {
            arrivals.sort_unstable();
            pairs.extend(arrivals.iter().zip(arrivals.iter().skip(1)).map(|((_, a), (_, b))| (What::Barrier, *a, *b)));
        }
        let ends = race.and_then(|race| Some((self.place(race.earlier)?, self.place(race.later)?)));
        pairs.extend(ends.map(|(a, b)| (What::Race, a, b)));
        pairs
    }

    /// Gives each link its corners, and each lane its place.
    fn place_links(&mut self, labels: &Labels, race: Option<&Race>) {
        let pairs = self.pairs(labels, race);
        let runs: Vec<Run> = pairs.iter().map(|(_, a, b)| run(&self.shapes[*a], &self.shapes[*b])).collect();
        let (chosen, counts) = tracks(&runs, self.lanes.len() + 1);
        let mut right = MARGIN;
        let mut gutters = Vec::new();
        for (k, lane) in self.lanes.iter_mut().enumerate() {
            gutters.push(right + ASIDE);
            let between = if k == 0 { STUB } else { 2 * ASIDE + TRACK * counts[k].saturating_sub(1) };
            lane.x = right + between;
            right = lane.right();
        }
        gutters.push(right);
        self.right = right + STUB;
        let links = pairs.iter().zip(&runs).zip(&chosen).map(|((pair, run), track)| self.link(*pair, gutters[run.gutter] + TRACK * track));
        self.links = links.collect();
    }

    /// A link that goes up or down at this place.
    fn link(&self, (what, from, to): (What, usize, usize), x: usize) -> Link {
        let (a, b) = (&self.shapes[from], &self.shapes[to]);
        let (first, second) = (&self.lanes[a.lane], &self.lanes[b.lane]);
        let (start, end) = if a.lane < b.lane { (first.right(), second.x) } else { (first.x, second.right()) };
        Link { what, corners: [(start, a.middle()), (x, a.middle()), (x, b.middle()), (end, b.middle())] }
    }
}

/// The lanes of the rows that are drawn, wide enough for their heads.
fn lanes(trace: &Trace, drawn: &BTreeSet<u32>) -> Vec<Lane> {
    let mut all: BTreeMap<u32, Lane> = BTreeMap::new();
    for number in drawn {
        let Some(row) = trace.rows().row(*number) else {
            continue;
        };
        let letter = letter(trace, *number).map(|(letter, _)| letter);
        let widest = head(PROCESSES - 1, letter).len();
        all.entry(row.process).or_insert(Lane { process: row.process, letter, x: 0, width: wide(widest) + 2 * PADDING });
    }
    all.into_values().collect()
}

/// The words at the head of a lane.
pub fn head(process: u32, letter: Option<char>) -> String {
    format!("process {process}{}", letter.map_or(String::new(), |letter| format!(" ({letter})")))
}
