//! `diagram`: a trace as an SVG picture, or what of it a race is about. Lanes stand side by side, one for each process that has a row in the picture;
//! rows go from top to bottom in the order of the trace.

mod chain;
mod crop;
mod draw;
mod heading;
mod labels;
mod layout;
mod race;
mod style;

use crate::args::Crop;
use crate::check::judge;
use crate::input::Trace;
use crate::races::find;
use crop::Drawn;
use draw::{notes_end, put, put_text, put_tip, xml, Note};
use heading::Heading;
use kiqsaryn::{Model, Verdict, PAIR};
use layout::{Layout, MARGIN};
use race::Race;
pub use style::STYLE;

/// No viewer opens a picture of more pixels from left to right, or from top to bottom.
const LARGEST: usize = 32_767;

/// A picture of a page that has more pixels from left to right keeps its size on a screen: nobody could read it at the width of the page.
const WIDE: usize = 1_600;

/// A picture that is laid out.
struct Picture<'a> {
    trace: &'a Trace,
    title: String,
    heading: Heading,
    layout: Layout,
    notes: Vec<Note>,
    width: usize,
    height: usize,
}

impl<'a> Picture<'a> {
    fn new(trace: &'a Trace, title: String, heading: Heading, drawn: &Drawn, race: Option<&Race>) -> Picture<'a> {
        let layout = Layout::new(trace, &drawn.rows, race, heading.bottom());
        let notes = race.map_or(Vec::new(), |race| notes(trace, race, &layout));
        let width = notes_end(&layout, &notes).max(heading.right()) + MARGIN;
        let height = layout.bottom + MARGIN;
        Picture { trace, title, heading, layout, notes, width, height }
    }

    fn fits(&self) -> bool {
        self.width <= LARGEST && self.height <= LARGEST
    }

    /// That the picture is too large, and what to do.
    fn too_large(&self) -> String {
        let size = format!("the picture would be {} by {} pixels", self.width, self.height);
        format!("{size}, and no viewer opens more than {LARGEST}: choose rows with --rows A-B, --process or --file")
    }

    /// The element `svg`, with a style of its own if one is given.
    fn element(&self, id: &str, style: Option<&str>) -> String {
        let (width, height) = (self.width, self.height);
        let size = format!("width=\"{width}\" height=\"{height}\" viewBox=\"0 0 {width} {height}\"");
        let class = if style.is_none() && width > WIDE { "kiqsaryn wide" } else { "kiqsaryn" };
        let mut s = format!("<svg xmlns=\"http://www.w3.org/2000/svg\" class=\"{class}\" {size}>\n<title>{}</title>\n", xml(&self.title));
        if let Some(style) = style {
            s.push_str(&format!("<style>{style}</style>\n"));
        }
        put_tip(&mut s, id);
        s.push_str(&format!("<rect class=\"paper\" x=\"0\" y=\"0\" width=\"{width}\" height=\"{height}\"/>\n"));
        self.heading.put(&mut s, id);
        put(&mut s, self.trace, &self.layout, &self.notes, id);
        if self.layout.shapes.is_empty() {
            put_text(&mut s, "", MARGIN, self.layout.bottom, NO_ROW);
        }
        s.push_str("</svg>\n");
        s
    }
}

/// What a picture of no row says.
const NO_ROW: &str = "The trace has no row.";

/// What stands beside each row of a race: the bytes that it shares with the other.
fn notes(trace: &Trace, race: &Race, layout: &Layout) -> Vec<Note> {
    let Some(words) = &race.words else {
        return Vec::new();
    };
    let drawn = [(race.earlier, race.later), (race.later, race.earlier)].into_iter().filter(|(row, _)| layout.place(*row).is_some());
    let note = |(row, other): (u32, u32)| {
        let away = if layout.place(other).is_some() { "" } else { ", which is not drawn" };
        Note { row, text: format!("shares {} with {}{away}", words.shared, trace.row_name(other)) }
    };
    drawn.map(note).collect()
}

/// The race that is asked for, or else the first under the model, if there is one. An error is a sentence.
fn race_of(trace: &Trace, model: Model, crop: &Crop) -> Result<Option<(u32, u32)>, String> {
    if let Some((earlier, later)) = crop.race {
        let is_race = |list: &[u32]| list.chunks_exact(PAIR).any(|pair| pair == [earlier, later]);
        return match find(trace, &[model])?.iter().any(|found| is_race(&found.list)) {
            true => Ok(Some((earlier, later))),
            false => {
                Err(format!("rows {earlier} and {later} are no race under {0}; 'kiqsaryn races --model {0}' shows which are", model.name()))
            }
        };
    }
    Ok(match judge(trace, &[model])?.first() {
        Some((_, Verdict::Race { earlier, later })) => Some((*earlier, *later)),
        _ => None,
    })
}

/// The rows that a picture can show, the best choice first. An error is a sentence.
fn choices(trace: &Trace, race: Option<&Race>, crop: &Crop) -> Result<Vec<Drawn>, String> {
    let is_chosen = crop.rows.is_some() || crop.file.is_some() || !crop.processes.is_empty();
    match race {
        _ if is_chosen => Ok(vec![crop::chosen(trace, crop)?]),
        Some(race) if !crop.all => Ok(crop::of_race(trace, race)),
        _ => Ok(vec![crop::all(trace)]),
    }
}

/// The first of the pictures that is not too large. An error is a sentence.
fn first_that_fits<'a>(pictures: impl Iterator<Item = Picture<'a>>) -> Result<Picture<'a>, String> {
    let mut why = NO_ROW.to_string();
    for picture in pictures {
        if picture.fits() {
            return Ok(picture);
        }
        why = picture.too_large();
    }
    Err(why)
}

/// The whole picture. An error is a sentence.
pub fn svg(trace: &Trace, model: Model, crop: &Crop) -> Result<String, String> {
    let race = race_of(trace, model, crop)?.map(|pair| Race::new(trace, model, pair));
    let choices = choices(trace, race.as_ref(), crop)?;
    let pictures = choices.iter().map(|drawn| {
        let heading = Heading::new(trace, model, race.as_ref(), drawn);
        Picture::new(trace, heading::title(trace), heading, drawn, race.as_ref())
    });
    let picture = first_that_fits(pictures)?;
    Ok(format!("<?xml version=\"1.0\" encoding=\"UTF-8\"?>\n{}", picture.element("", Some(STYLE))))
}

/// The picture of one race as an element of a page that holds `STYLE`. The name tells it from the others of the page. An error is a sentence.
pub fn of_race(trace: &Trace, model: Model, pair: (u32, u32), id: &str) -> Result<String, String> {
    let race = Race::new(trace, model, pair);
    let choices = crop::of_race_in_page(trace, &race);
    let title = format!("Race of row {} and row {} under {}", pair.0, pair.1, model.name());
    let pictures = choices.iter().map(|drawn| Picture::new(trace, title.clone(), Heading::in_page(drawn), drawn, Some(&race)));
    Ok(first_that_fits(pictures)?.element(id, None))
}
