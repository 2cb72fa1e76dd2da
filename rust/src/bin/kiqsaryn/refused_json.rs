//! A refusal as a JSON object.

use crate::args::Common;
use crate::cure::cure;
use crate::input::{Refused, TraceRefused, Which};
use crate::json::{self, Field};
use crate::refused;
use crate::text::escape;
use crate::trace_json::{of_inputs, of_two};
use kiqsaryn::Refusal;

/// The most bytes of a record that are shown.
const SHOWN: usize = 200;

/// The question that was answered No, and the row, 0 for the header and for a join of which no single row is wrong.
fn question(refusal: Refusal, place: u32) -> Vec<Field> {
    vec![("number", refusal.number().to_string()), ("row", place.to_string()), ("question", json::string(refusal.question()))]
}

/// Which of two traces is refused: 1 or 2, and 0 for their join. Nothing for a trace by itself.
fn which(which: Which) -> Option<Field> {
    let number = match which {
        Which::Only => return None,
        Which::First => 1,
        Which::Second => 2,
    };
    Some(("trace", number.to_string()))
}

/// Where a trace is refused, what stands there, and the command that mends it where one does.
fn place(r: &TraceRefused) -> Vec<Field> {
    let place = refused::place(r);
    let text = |text: Option<&str>| json::maybe(text.map(json::string));
    let command = cure(r).and_then(|cure| cure.command);
    vec![
        ("line", place.line.to_string()),
        ("byte", place.byte.to_string()),
        ("column", place.column.to_string()),
        ("field", text(place.field)),
        ("found", text(place.found.as_deref())),
        ("record", json::string(&escape(&r.record, SHOWN))),
        ("cure", text(command.as_deref())),
    ]
}

fn of_one(r: &TraceRefused) -> Vec<Field> {
    let mut fields: Vec<Field> = which(r.which).into_iter().collect();
    fields.extend(question(r.refusal, r.place));
    fields.push(("bytes", r.bytes.to_string()));
    fields.extend(place(r));
    fields
}

/// The object of a refused trace, of one of two that is refused, or of a refused join.
pub fn object(r: &Refused, common: &Common) -> String {
    let (mut fields, refused) = match r {
        Refused::Trace(r) => (of_inputs(common), of_one(r)),
        Refused::Join(r) => {
            let mut refused = vec![("trace", "0".to_string())];
            refused.extend(question(r.refusal, r.place));
            (vec![of_two(&r.recordings)], refused)
        }
    };
    fields.push(("refused", json::object(&refused)));
    json::object(&fields)
}
