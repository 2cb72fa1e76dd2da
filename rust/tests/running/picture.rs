//! What every picture keeps to.

/// Fails if a text has a bare &.
fn entities(text: &str) {
    for part in text.split('&').skip(1) {
        assert!(["amp;", "lt;", "gt;", "quot;"].iter().any(|e| part.starts_with(e)), "&{part}");
    }
}

/// Fails unless the attributes behind a tag's name stand in quotes, bring nothing from elsewhere, and have no colours.
fn attributes(tag: &str, text: &str) {
    let parts: Vec<&str> = text.split('"').collect();
    assert!(parts.len() % 2 == 1 && parts.last() == Some(&""), "{tag}");
    for pair in parts.chunks_exact(2) {
        let attribute = pair[0].trim_start().strip_suffix('=').expect("an attribute");
        assert!(!attribute.contains("href") && !attribute.contains("src"), "{tag}");
        assert!(!pair[1].contains("http") || attribute == "xmlns", "{tag}");
        assert!(!["fill", "stroke", "style"].contains(&attribute), "colours stand in the style alone: {tag}");
        entities(pair[1]);
    }
}

/// Well-formed XML as far as these pictures use it: tags in pairs, attributes in quotes, no bare & or <, and nothing from elsewhere.
pub fn well_formed(text: &str) {
    let body = text.strip_prefix("<?xml version=\"1.0\" encoding=\"UTF-8\"?>\n").expect("the first line");
    assert!(text.chars().all(|c| c == '\n' || !c.is_control() && !['\u{fffe}', '\u{ffff}'].contains(&c)), "plain text");
    let mut open = Vec::new();
    let mut roots = 0;
    let mut rest = body;
    while let Some(at) = rest.find('<') {
        entities(&rest[..at]);
        assert!(!open.is_empty() || rest[..at].trim().is_empty(), "text outside");
        let end = rest[at..].find('>').expect("a tag's end") + at;
        let tag = &rest[at + 1..end];
        rest = &rest[end + 1..];
        if let Some(name) = tag.strip_prefix('/') {
            assert_eq!(open.pop(), Some(name), "a closing tag");
            continue;
        }
        let (tag, closed) = tag.strip_suffix('/').map_or((tag, false), |t| (t, true));
        let mut parts = tag.splitn(2, ' ');
        let name = parts.next().expect("a name");
        attributes(tag, parts.next().unwrap_or(""));
        roots += u32::from(open.is_empty());
        if !closed {
            open.push(name);
        }
    }
    assert!(open.is_empty() && roots == 1 && rest.trim().is_empty());
    assert!(body.starts_with("<svg "));
}

/// A rectangle of a picture: its left, top, right and bottom, in tenths of pixels.
#[derive(Clone, Copy, Debug)]
pub struct Area {
    pub left: i64,
    pub top: i64,
    pub right: i64,
    pub bottom: i64,
}

const PIXEL: i64 = 10;
/// The width of a letter, that of a letter of the title, and how far letters rise above their line and fall below it.
const LETTER: i64 = 75;
const BIG_LETTER: i64 = 94;
const RISE: i64 = 10 * PIXEL;
const FALL: i64 = 3 * PIXEL;

impl Area {
    fn meets(self, other: Area) -> bool {
        self.left < other.right && other.left < self.right && self.top < other.bottom && other.top < self.bottom
    }

    /// What both areas have, be it without a width or a height.
    fn common(self, other: Area) -> Option<Area> {
        let (left, right) = (self.left.max(other.left), self.right.min(other.right));
        let (top, bottom) = (self.top.max(other.top), self.bottom.min(other.bottom));
        (left <= right && top <= bottom).then_some(Area { left, top, right, bottom })
    }

    fn holds(self, other: Area) -> bool {
        self.left <= other.left && other.right <= self.right && self.top <= other.top && other.bottom <= self.bottom
    }
}

/// A row's box: its row, its area, its class, the text in it, and the words that mark it.
#[derive(Clone, Debug)]
pub struct RowBox {
    pub number: u32,
    pub area: Area,
    pub class: String,
    pub text: String,
    pub tag: String,
}

impl RowBox {
    /// Whether a line ends at a point where it ends at the middle of the left or of the right edge.
    fn is_end(&self, (x, y): (i64, i64)) -> bool {
        let Area { left, top, right, bottom } = self.area;
        (x == left || x == right) && 2 * y == top + bottom
    }
}

/// A line of a picture: its class, and its corners.
#[derive(Clone, Debug)]
pub struct Line {
    pub class: String,
    pub corners: Vec<(i64, i64)>,
}

impl Line {
    /// Whether the line leads from one box to another.
    pub fn joins(&self, from: &RowBox, to: &RowBox) -> bool {
        let ends = self.corners.first().zip(self.corners.last());
        ends.is_some_and(|(first, last)| from.is_end(*first) && to.is_end(*last))
    }

    /// Whether one end of the line is at a box.
    pub fn touches(&self, row: &RowBox) -> bool {
        let ends = self.corners.first().zip(self.corners.last());
        ends.is_some_and(|(first, last)| row.is_end(*first) || row.is_end(*last))
    }

    /// The straight parts of the line, each as an area without a width or without a height.
    fn parts(&self) -> Vec<Area> {
        let area =
            |(a, b): ((i64, i64), (i64, i64))| Area { left: a.0.min(b.0), top: a.1.min(b.1), right: a.0.max(b.0), bottom: a.1.max(b.1) };
        self.corners.windows(2).map(|two| area((two[0], two[1]))).collect()
    }
}

/// The lines of a picture, each piece on its own, without the tips of arrows.
pub fn lines(picture: &str) -> Vec<Line> {
    let point = |word: &str| {
        let (x, y) = word.split_once(' ').expect("two numbers");
        [x, y].map(|n| n.parse::<i64>().expect("a number") * PIXEL)
    };
    let mut all = Vec::new();
    for (tag, _) in tags(picture, "path").into_iter().filter(|(tag, _)| attribute(tag, "class") != "tip") {
        for piece in attribute(tag, "d").split('M').skip(1) {
            let corners = piece.split('L').map(point).map(|[x, y]| (x, y)).collect();
            all.push(Line { class: attribute(tag, "class").to_string(), corners });
        }
    }
    all
}

/// Fails if a line goes askew, meets a box of a row or a text, or lies on another line.
pub fn lines_are_free(picture: &str) {
    let boxes: Vec<Area> = row_boxes(picture).iter().map(|b| b.area).collect();
    let texts: Vec<Area> = tags(picture, "text").into_iter().map(|(tag, text)| area_of_text(tag, text)).collect();
    let parts: Vec<(String, Area)> = lines(picture).iter().flat_map(|l| l.parts().into_iter().map(|p| (l.class.clone(), p))).collect();
    for (k, (class, part)) in parts.iter().enumerate() {
        assert!(part.left == part.right || part.top == part.bottom, "{class} {part:?} in {picture}");
        assert!(!boxes.iter().chain(&texts).any(|area| part.meets(*area)), "{class} {part:?} in {picture}");
        let lies_on = |other: &Area| part.common(*other).is_some_and(|c| c.left < c.right || c.top < c.bottom);
        assert!(!parts[..k].iter().any(|(_, other)| lies_on(other)), "{class} {part:?} in {picture}");
    }
}

/// A screen in pixels: the heads of the lanes come again before it is full.
const SCREEN: i64 = 720 * PIXEL;
/// No viewer opens a picture of more pixels from left to right, or from top to bottom.
pub const LARGEST: i64 = 32_767;

/// Fails if from some row on a screen shows no heads, or if the picture is too large.
pub fn heads_repeat(picture: &str) {
    let mut heads: Vec<i64> =
        tags(picture, "text").into_iter().filter(|(tag, _)| attribute(tag, "class") == "head").map(|(tag, _)| pixels(tag, "y")).collect();
    heads.dedup();
    for row in row_boxes(picture) {
        let above = heads.iter().filter(|y| **y < row.area.top).max();
        assert!(above.is_some_and(|y| row.area.bottom - y <= SCREEN), "row {} in {picture}", row.number);
    }
    let root = tags(picture, "svg")[0].0;
    assert!(pixels(root, "width") <= LARGEST * PIXEL && pixels(root, "height") <= LARGEST * PIXEL, "{root}");
}

/// Fails unless a picture keeps to every rule.
pub fn keeps_the_rules(picture: &str) {
    well_formed(picture);
    nothing_overlaps(picture);
    lines_are_free(picture);
    heads_repeat(picture);
}

/// The value of a tag's attribute.
fn attribute<'a>(tag: &'a str, name: &str) -> &'a str {
    let value = tag.split(&format!(" {name}=\"")).nth(1);
    value.and_then(|rest| rest.split('"').next()).unwrap_or("")
}

fn pixels(tag: &str, name: &str) -> i64 {
    attribute(tag, name).parse::<i64>().unwrap_or_else(|e| panic!("{name} of {tag}: {e}")) * PIXEL
}

/// The tags of a name, each with the text behind it up to the next tag.
fn tags<'a>(picture: &'a str, name: &str) -> Vec<(&'a str, &'a str)> {
    let parts = picture.split('<').filter_map(|part| part.split_once('>'));
    parts.filter(|(tag, _)| tag.split(' ').next() == Some(name)).collect()
}

fn area_of_rect(tag: &str) -> Area {
    let (left, top) = (pixels(tag, "x"), pixels(tag, "y"));
    Area { left, top, right: left + pixels(tag, "width"), bottom: top + pixels(tag, "height") }
}

fn area_of_text(tag: &str, text: &str) -> Area {
    let class = attribute(tag, "class");
    let plain = ["&amp;", "&lt;", "&gt;", "&quot;"].iter().fold(text.to_string(), |s, entity| s.replace(entity, "."));
    let width = plain.len() as i64 * if class == "big" { BIG_LETTER } else { LETTER };
    let (x, y) = (pixels(tag, "x"), pixels(tag, "y"));
    let left = match class {
        "head" | "gap" => x - width / 2,
        "tag" => x - width,
        _ => x,
    };
    Area { left, top: y - RISE, right: left + width, bottom: y + FALL }
}

/// The boxes of the rows, in their order.
pub fn row_boxes(picture: &str) -> Vec<RowBox> {
    let rows = picture.lines().filter(|line| line.starts_with("<g><title>"));
    rows.map(|line| {
        let (rect, text) = (tags(line, "rect"), tags(line, "text"));
        let number = text[0].1.split(' ').next().and_then(|word| word.parse().ok()).expect("the row's number");
        RowBox {
            number,
            area: area_of_rect(rect[0].0),
            class: attribute(rect[0].0, "class").to_string(),
            text: text[0].1.to_string(),
            tag: text.get(1).map_or(String::new(), |(_, tag)| tag.to_string()),
        }
    })
    .collect()
}

/// Fails if boxes or texts lie over each other, save for a text that lies whole in its box, or outside the picture.
pub fn nothing_overlaps(picture: &str) {
    let rects: Vec<Area> = tags(picture, "rect").into_iter().map(|(tag, _)| area_of_rect(tag)).collect();
    let texts: Vec<Area> = tags(picture, "text").into_iter().map(|(tag, text)| area_of_text(tag, text)).collect();
    let (paper, boxes) = rects.split_first().expect("the paper");
    for (k, a) in boxes.iter().enumerate() {
        assert!(paper.holds(*a) && !boxes[..k].iter().any(|b| a.meets(*b)), "{a:?} in {picture}");
    }
    for (k, (a, (tag, text))) in texts.iter().zip(tags(picture, "text")).enumerate() {
        assert!(paper.holds(*a), "{tag} {text} in {picture}");
        assert!(!texts[..k].iter().any(|b| a.meets(*b)), "{tag} {text} in {picture}");
        assert!(!boxes.iter().any(|b| a.meets(*b) && !b.holds(*a)), "{tag} {text} in {picture}");
    }
}
