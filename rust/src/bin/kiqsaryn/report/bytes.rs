//! The bytes of a read as two bars, one above the other: what it returned, and what one plain file would have.
//!
//! Both bars are cut at the same bytes, so that the parts of a column are about the same bytes. A part is wide enough for its words. Where the bars
//! are wider than the picture then, they go on below.

use super::stale::Part;
use crate::text::{counted, letters, span};

/// The width of the bars, twice that of a letter, and the free space beside the words of a part, in pixels.
const WIDTH: usize = 860;
const TWO_LETTERS: usize = 15;
const BESIDE: usize = 14;
/// The free space around the picture.
const MARGIN: usize = 8;
/// From the top of a strip: the foot of the letters above the first bar, its top, the letters above the second bar, its top, and the letters below it.
const FIRST_WORDS: usize = 13;
const FIRST_BAR: usize = 19;
const SECOND_WORDS: usize = 75;
const SECOND_BAR: usize = 81;
const SCALE: usize = 120;
/// The heights of the bars, and from one strip to the next.
const FIRST_HEIGHT: usize = 38;
const SECOND_HEIGHT: usize = 24;
const STRIP: usize = 138;
/// The free space below the last strip.
const BELOW: usize = 12;
/// The foot of the letters of a bar's two lines, from its top.
const LINE: usize = 16;
const LINES: usize = 15;

fn wide(words: &str) -> usize {
    letters(words) * TWO_LETTERS / 2
}

/// What stands in a column: what was returned, what one plain file has, which bytes these are, how many, and what is said if some are stale.
struct Column {
    words: [String; 2],
    bytes: String,
    length: u64,
    stale: Option<&'static str>,
    left: bool,
}

impl Column {
    fn of(part: &Part) -> Column {
        let writer = |row: u32| if row == 0 { "unwritten".to_string() } else { format!("row {row}") };
        match *part {
            Part::Piece(p) => Column {
                words: [writer(p.row), writer(p.plain)],
                bytes: span(p.start, p.length),
                length: u64::from(p.length),
                stale: p.is_stale().then_some("STALE"),
                left: false,
            },
            Part::Left { start, length, pieces, stale } => {
                let words = counted(pieces as u64, "piece");
                Column {
                    words: [words.clone(), words],
                    bytes: span(start, length),
                    length: u64::from(length),
                    stale: (stale > 0).then_some("some STALE"),
                    left: true,
                }
            }
        }
    }

    /// The width that its words need.
    fn least(&self) -> usize {
        let words = self.words.iter().chain([&self.bytes]).map(|words| wide(words));
        words.chain(self.stale.map(wide)).max().unwrap_or(0) + BESIDE
    }
}

/// A part of a width as its bytes are a part of all.
fn share(width: usize, length: u64, all: u64) -> usize {
    (width as u128 * u128::from(length)).checked_div(u128::from(all)).map_or(0, |share| share as usize)
}

/// The columns of each strip, with their widths, and whether these are to scale.
fn strips(columns: &[Column]) -> (Vec<Vec<(&Column, usize)>>, bool) {
    let all: u64 = columns.iter().map(|c| c.length).sum();
    if columns.iter().all(|c| share(WIDTH, c.length, all) >= c.least()) {
        return (vec![columns.iter().map(|c| (c, share(WIDTH, c.length, all))).collect()], true);
    }
    let mut strips: Vec<Vec<(&Column, usize)>> = vec![Vec::new()];
    let mut taken = 0;
    for column in columns {
        if taken + column.least() > WIDTH {
            strips.push(Vec::new());
            taken = 0;
        }
        taken += column.least();
        strips.iter_mut().last().into_iter().for_each(|strip| strip.push((column, column.least())));
    }
    let last = strips.len() - 1;
    for strip in strips.iter_mut().enumerate().filter(|(k, _)| *k < last || last == 0).map(|(_, strip)| strip) {
        let free = WIDTH.saturating_sub(strip.iter().map(|(_, width)| width).sum());
        let bytes: u64 = strip.iter().map(|(c, _)| c.length).sum();
        strip.iter_mut().for_each(|(c, width)| *width += share(free, c.length, bytes));
    }
    (strips, false)
}

fn put_text(s: &mut String, class: &str, x: usize, y: usize, words: &str) {
    s.push_str(&format!("<text class=\"{class}\" x=\"{x}\" y=\"{y}\">{words}</text>\n"));
}

fn put_box(s: &mut String, class: &str, [x, y, width, height]: [usize; 4]) {
    s.push_str(&format!("<rect class=\"{class}\" x=\"{x}\" y=\"{y}\" width=\"{width}\" height=\"{height}\"/>\n"));
}

/// The class of a part by who wrote it.
fn class(column: &Column, words: &str) -> &'static str {
    match words {
        _ if column.left => "left",
        "unwritten" => "unwritten",
        _ => "written",
    }
}

/// A column from this place on: its parts of both bars, and its bytes.
fn put_column(s: &mut String, column: &Column, x: usize, y: usize, width: usize) {
    let middle = x + width / 2;
    let [ours, plain] = &column.words;
    let first = [x, y + FIRST_BAR, width, FIRST_HEIGHT];
    put_box(s, class(column, ours), first);
    if let Some(stale) = column.stale {
        put_box(s, "hatch", first);
        put_text(s, "stale", middle, y + FIRST_BAR + LINE + LINES, stale);
    }
    let line = if column.stale.is_some() { LINE } else { LINE + LINES / 2 };
    put_text(s, "in", middle, y + FIRST_BAR + line, ours);
    put_box(s, class(column, plain), [x, y + SECOND_BAR, width, SECOND_HEIGHT]);
    put_text(s, "in", middle, y + SECOND_BAR + LINE, plain);
    put_text(s, "scale", middle, y + SCALE, &column.bytes);
}

/// The picture of the read of this number, and whether it is to scale.
pub fn picture(number: u32, models: &str, parts: &[Part]) -> (String, bool) {
    let columns: Vec<Column> = parts.iter().map(Column::of).collect();
    let (strips, to_scale) = strips(&columns);
    let (width, height) = (WIDTH + 2 * MARGIN, STRIP * strips.len().saturating_sub(1) + SCALE + BELOW);
    let size = format!("width=\"{width}\" height=\"{height}\" viewBox=\"0 0 {width} {height}\"");
    let mut s = format!("<svg xmlns=\"http://www.w3.org/2000/svg\" class=\"bytes\" role=\"img\" {size}>\n");
    s.push_str(&format!("<title>What row {number} returned under {models}, above what one plain file would have</title>\n"));
    for (k, strip) in strips.iter().enumerate() {
        let (mut x, y) = (MARGIN, STRIP * k);
        put_text(&mut s, "bar", x, y + FIRST_WORDS, &format!("returned under {models}"));
        put_text(&mut s, "bar", x, y + SECOND_WORDS, "one plain file");
        for (column, width) in strip {
            put_column(&mut s, column, x, y, *width);
            x += width;
        }
    }
    s.push_str("</svg>\n");
    (s, to_scale)
}
