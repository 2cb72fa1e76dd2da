//! A layout as the elements of a picture. Colours and widths of lines stand in the style, by class.

use super::layout::{head, wide, Layout, Shape, Side, What, BOX, GAP, HEAD, PADDING, STUB};
use super::race::Mark;
use crate::input::Trace;
use crate::text::{counted, describe};
use kiqsaryn::{BARRIER, READ, RECV, SEND, WAIT, WRITE};

/// How far the foot of letters stands below the top of a box, of a gap's line and of a band of heads.
pub const IN_BOX: usize = 15;
const IN_GAP: usize = 15;
const IN_HEAD: usize = 20;
/// The free space above and below the words in a gap's line and in a band of heads, where the line of the lane stops.
const FREE: usize = 3;

/// A text as it stands in an element or an attribute.
pub fn xml(text: &str) -> String {
    let mut s = String::new();
    for c in text.chars() {
        match c {
            '&' => s.push_str("&amp;"),
            '<' => s.push_str("&lt;"),
            '>' => s.push_str("&gt;"),
            '"' => s.push_str("&quot;"),
            // XML does not have these two.
            '\u{fffe}' | '\u{ffff}' => s.push('?'),
            _ => s.push(c),
        }
    }
    s
}

pub fn put_text(s: &mut String, class: &str, x: usize, y: usize, text: &str) {
    let class = if class.is_empty() { String::new() } else { format!(" class=\"{class}\"") };
    s.push_str(&format!("<text{class} x=\"{x}\" y=\"{y}\">{}</text>\n", xml(text)));
}

/// A box of rows, whose width is known, as an element.
pub fn rect(class: &str, x: usize, y: usize, width: usize) -> String {
    format!("<rect class=\"{class}\" x=\"{x}\" y=\"{y}\" width=\"{width}\" height=\"{BOX}\" rx=\"3\"/>")
}

/// A line through these corners.
fn path(corners: &[(usize, usize)]) -> String {
    let words: Vec<String> = corners.iter().map(|(x, y)| format!("{x} {y}")).collect();
    format!("M{}", words.join("L"))
}

/// The name of the arrow tip of a picture.
fn tip(id: &str) -> String {
    if id.is_empty() {
        "tip".to_string()
    } else {
        format!("tip-{id}")
    }
}

/// The tip of the arrows of a picture.
pub fn put_tip(s: &mut String, id: &str) {
    let size =
        "viewBox=\"0 0 8 8\" refX=\"8\" refY=\"4\" markerWidth=\"8\" markerHeight=\"8\" markerUnits=\"userSpaceOnUse\" orient=\"auto\"";
    s.push_str(&format!("<defs><marker id=\"{}\" {size}><path class=\"tip\" d=\"M0 0L8 4L0 8z\"/></marker></defs>\n", xml(&tip(id))));
}

pub fn put_arrow(s: &mut String, id: &str, corners: &[(usize, usize)]) {
    s.push_str(&format!("<path class=\"arrow\" marker-end=\"url(#{})\" d=\"{}\"/>\n", xml(&tip(id)), path(corners)));
}

pub fn put_line(s: &mut String, class: &str, corners: &[(usize, usize)]) {
    s.push_str(&format!("<path class=\"{class}\" d=\"{}\"/>\n", path(corners)));
}

/// The class of a row's box by its kind.
fn class(kind: u32) -> &'static str {
    match kind {
        READ => "read",
        WRITE => "write",
        SEND | WAIT => "message",
        RECV => "posted",
        BARRIER => "barrier",
        _ => "share",
    }
}

/// The class of the frame of a row that is marked.
fn frame(shape: &Shape) -> &'static str {
    if shape.marks.contains(&Mark::Racing) {
        " racing"
    } else if shape.marks.is_empty() {
        ""
    } else {
        " named"
    }
}

/// The line of each lane, from word to word and from box to box, so that it passes under none.
fn put_lanes(s: &mut String, layout: &Layout) {
    let mut stops: Vec<Vec<(usize, usize)>> =
        layout.lanes.iter().map(|_| layout.heads.iter().map(|y| (*y, y + HEAD - FREE)).collect()).collect();
    let gaps = layout.gaps.iter().map(|gap| (gap.lane, (gap.y + FREE, gap.y + GAP - FREE)));
    let boxes = layout.shapes.iter().map(|shape| (shape.lane, (shape.y, shape.y + BOX)));
    for (lane, stop) in gaps.chain(boxes) {
        if let Some(stops) = stops.get_mut(lane) {
            stops.push(stop);
        }
    }
    for (lane, mut stops) in layout.lanes.iter().zip(stops) {
        stops.sort_unstable();
        stops.push((layout.bottom, layout.bottom));
        let x = lane.middle();
        let free = stops.iter().zip(stops.iter().skip(1)).map(|((_, from), (to, _))| (*from, *to)).filter(|(from, to)| from < to);
        let parts: Vec<String> = free.map(|(from, to)| path(&[(x, from), (x, to)])).collect();
        s.push_str(&format!("<path class=\"lane\" d=\"{}\"/>\n", parts.concat()));
    }
}

/// The heads of the lanes, and how many rows are left out where.
fn put_words(s: &mut String, layout: &Layout) {
    for y in &layout.heads {
        for lane in &layout.lanes {
            put_text(s, "head", lane.middle(), y + IN_HEAD, &head(lane.process, lane.letter));
        }
    }
    for gap in &layout.gaps {
        if let Some(lane) = layout.lanes.get(gap.lane) {
            put_text(s, "gap", lane.middle(), gap.y + IN_GAP, &format!("... {}", counted(u64::from(gap.rows), "row")));
        }
    }
}

/// The messages, the barriers, and the line between the two rows that race.
fn put_links(s: &mut String, layout: &Layout, id: &str) {
    for link in &layout.links {
        match link.what {
            What::Message => put_arrow(s, id, &link.corners),
            What::Barrier => put_line(s, "meet", &link.corners),
            What::Race => put_line(s, "pair", &link.corners),
        }
    }
}

/// A short arrow from or to a row whose message leads to a row that is not drawn.
fn put_stub(s: &mut String, layout: &Layout, shape: &Shape, id: &str) {
    let (Some(side), Some(lane)) = (shape.stub, layout.lanes.get(shape.lane)) else {
        return;
    };
    let (near, far) = match side {
        Side::Left => (lane.x, lane.x - STUB),
        Side::Right => (lane.x + lane.width, lane.x + lane.width + STUB),
    };
    let (from, to) = if shape.row.kind == SEND { (near, far) } else { (far, near) };
    put_arrow(s, id, &[(from, shape.middle()), (to, shape.middle())]);
}

/// The boxes of the rows, those that are marked with a frame and a word.
fn put_boxes(s: &mut String, trace: &Trace, layout: &Layout) {
    for shape in &layout.shapes {
        let Some(lane) = layout.lanes.get(shape.lane) else {
            continue;
        };
        let class = format!("{}{}", class(shape.row.kind), frame(shape));
        let y = shape.y + IN_BOX;
        s.push_str(&format!("<g><title>{}: {}</title>", xml(&trace.row_name(shape.number)), xml(&describe(shape.row))));
        s.push_str(&rect(&class, lane.x, shape.y, lane.width));
        s.push_str(&format!("<text x=\"{}\" y=\"{y}\">{}</text>", lane.x + PADDING, xml(&shape.label)));
        if !shape.marks.is_empty() {
            s.push_str(&format!("<text class=\"tag\" x=\"{}\" y=\"{y}\">{}</text>", lane.x + lane.width - PADDING, shape.tag()));
        }
        s.push_str("</g>\n");
    }
}

/// A text beside a row, right of all lanes.
pub struct Note {
    pub row: u32,
    pub text: String,
}

/// The right end of the widest note.
pub fn notes_end(layout: &Layout, notes: &[Note]) -> usize {
    layout.right + notes.iter().map(|note| wide(note.text.len())).max().unwrap_or(0)
}

/// All of a layout. The name tells its arrow tips from those of other pictures in a page.
pub fn put(s: &mut String, trace: &Trace, layout: &Layout, notes: &[Note], id: &str) {
    put_lanes(s, layout);
    put_words(s, layout);
    put_links(s, layout, id);
    layout.shapes.iter().for_each(|shape| put_stub(s, layout, shape, id));
    put_boxes(s, trace, layout);
    for note in notes {
        if let Some(shape) = layout.place(note.row).and_then(|k| layout.shapes.get(k)) {
            put_text(s, "race", layout.right, shape.y + IN_BOX, &note.text);
        }
    }
}
