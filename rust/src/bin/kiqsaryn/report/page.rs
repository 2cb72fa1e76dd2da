//! The page around its sections: what stands above them and below them, and the texts and tables in them.

use super::judged::Judged;
use super::style::STYLE;
use crate::args::REPORT_LIMIT;
use crate::diagram;
use crate::input::{Recorded, Trace};
use crate::recording::Recording;
use crate::text::{counted, letters, PATH};
use kiqsaryn::{Model, PROCESSES};

const VERSION: &str = env!("CARGO_PKG_VERSION");

// ---- Texts and tables

/// A text as it stands in a page.
pub fn text(words: &str) -> String {
    let mut s = String::new();
    for c in words.chars() {
        match c {
            '&' => s.push_str("&amp;"),
            '<' => s.push_str("&lt;"),
            '>' => s.push_str("&gt;"),
            '"' => s.push_str("&quot;"),
            '\'' => s.push_str("&#39;"),
            c => s.push(c),
        }
    }
    s
}

/// Words that name a row, as they stand in a table. A joined row is named with its file, whose name may be longer than a line.
pub fn row_words(trace: &Trace, words: &str) -> String {
    match &trace.source {
        Recorded::Alone(_) => text(words),
        Recorded::Joined(_) => format!("<span class=\"name\">{}</span>", text(words)),
    }
}

/// A section under its heading.
pub fn section(id: &str, heading: &str, body: &str) -> String {
    format!("<section id=\"{id}\">\n<h2>{}</h2>\n{body}</section>\n", text(heading))
}

/// That so many are not shown, and the command that shows them.
pub fn not_shown(n: u64, one: &str, models: &str, command: &str) -> String {
    let is = if n == 1 { "is" } else { "are" };
    format!("<p>{} under {models} {is} not shown here. To see all: <code>{}</code></p>\n", counted(n, one), text(command))
}

/// A paragraph of plain words.
pub fn paragraph(words: &str) -> String {
    format!("<p>{}</p>\n", text(words))
}

/// A table of at most so many lines is not divided between two pages.
const SHORT: usize = 12;

/// A table; the entries of its lines are elements already.
pub fn table(titles: &[&str], lines: &[Vec<String>]) -> String {
    let class = if lines.len() <= SHORT { " class=\"short\"" } else { "" };
    let mut s = format!("<div class=\"scroll\"><table{class}>\n<thead><tr>");
    for title in titles {
        s.push_str(&format!("<th scope=\"col\">{}</th>", text(title)));
    }
    s.push_str("</tr></thead>\n<tbody>\n");
    for line in lines {
        let cells: Vec<String> = line.iter().map(|entry| format!("<td>{entry}</td>")).collect();
        s.push_str(&format!("<tr>{}</tr>\n", cells.concat()));
    }
    s.push_str("</tbody></table></div>\n");
    s
}

// ---- Names

fn recordings(trace: &Trace) -> &[Recording] {
    match &trace.source {
        Recorded::Alone(recording) => std::slice::from_ref(recording),
        Recorded::Joined(join) => &join.recordings,
    }
}

fn title(trace: &Trace) -> String {
    let names: Vec<&str> = recordings(trace).iter().map(|r| r.name.as_str()).collect();
    format!("Storage races in {}", names.join(" and "))
}

/// A name as a shell takes it for one word.
fn shell_word(name: &str) -> String {
    let is_plain = |c: char| c.is_alphanumeric() || "-_./+:@%,".contains(c);
    let name = if name.starts_with('-') { format!("./{name}") } else { name.to_string() };
    match !name.is_empty() && name.chars().all(is_plain) {
        true => name,
        false => format!("'{}'", name.replace('\'', "'\\''")),
    }
}

/// Whether a name is shown as the file has it: no letter of it is escaped, and none is cut off.
fn is_as_the_file_has_it(name: &str) -> bool {
    !name.contains('\\') && letters(name) <= PATH
}

/// A command about the trace, with the options that tell how it was read. A trace that came by standard input has no name of its own.
pub fn command(name: &str, trace: &Trace) -> String {
    let is_named = |r: &Recording| r.name != "standard input" && is_as_the_file_has_it(&r.name);
    let of = |r: &Recording| if is_named(r) { shell_word(&r.name) } else { "TRACE".to_string() };
    let words: Vec<&str> = recordings(trace).iter().map(|r| if r.header { "yes" } else { "no" }).collect();
    let names: Vec<String> = recordings(trace).iter().map(of).collect();
    let option = if words.len() > 1 { "--headers" } else { "--header" };
    let mut s = format!("kiqsaryn {name} {} {option} {}", names.join(" "), words.join(","));
    if trace.processes != PROCESSES {
        s.push_str(&format!(" --processes {}", trace.processes));
    }
    s
}

/// The option for the models, where not all are meant.
fn option_of(models: &[Model]) -> String {
    match models {
        [model] => format!(" --model {}", model.name()),
        _ => String::new(),
    }
}

// ---- The page

const PARTS: [(&str, &str); 5] = [
    ("read", "What was read"),
    ("verdicts", "Verdicts"),
    ("races", "Races"),
    ("stale", "Stale reads"),
    ("legend", "How to read this page"),
];

/// What stands above all.
pub fn head(judged: &Judged) -> String {
    let mut s = format!("<header>\n<h1>{}</h1>\n", text(&title(judged.trace)));
    s.push_str(&format!("<p class=\"summary\">{}</p>\n", text(&judged.summary())));
    s.push_str(&paragraph(&format!(
        "A storage race is a pair of operations that touch the same bytes of a file and that the consistency model of the storage does not \
         order, so that a read may return old bytes. This page shows what was read of the recorded trace, the verdict under each model, {}",
        judged.shown()
    )));
    s.push_str(&paragraph(&format!("Made by kiqsaryn {VERSION}. The same trace gives the same page.")));
    s.push_str("<nav aria-label=\"Parts of this page\"><ul>");
    for (id, name) in PARTS {
        s.push_str(&format!("<li><a href=\"#{id}\">{name}</a></li>"));
    }
    s.push_str("</ul></nav>\n</header>\n");
    s
}

/// The words of this page, and what each means.
const TERMS: [(&str, &str); 8] = [
    ("free", "no two rows race under this model: every read, in every order in which the same processes could have run, returns what one plain file would."),
    ("race", "the two rows touch the same bytes of one file, at least one of them writes, and the model does not order them."),
    ("Needed", "what the model asks for between the two rows."),
    ("Found", "what the trace has of it."),
    ("Missing", "why that is not enough."),
    ("Posted", "a receive that is posted and not waited for in time, where a wait would bring the order."),
    ("Order", "how far the later side knows of the earlier one. The place in the trace alone orders nothing."),
    ("STALE", "the read does not get the bytes that one plain file would give it."),
];

/// What the boxes and lines of the pictures mean.
const MARKS: &str = "A picture of a race shows the two rows, the rows of their processes between, those that the reason names, and those by which \
messages and barriers lead there. Each process has a lane, and the rows go down in the order of the trace. A box tells the row's number, \
    its kind, the file (f), the first and the last byte, the message (m) or the barrier (b). Frames with the word Race are the two rows; frames \
    with Found, Order or Posted are the rows that the reason names behind that word. An arrow is a message, from its send to the wait for it; a \
    thick line is a barrier; a dashed line joins the two rows; three dots stand for rows left out.";

/// What the letters in the pictures of a join mean.
const LETTERS: &str =
    "A and B in a box tell whether the row is of the first or of the second trace, and the number behind it is the row's there.";

/// What the words and pictures mean, and how to make the page again.
pub fn legend(judged: &Judged) -> String {
    let mut s = "<dl class=\"terms\">\n".to_string();
    for (term, meaning) in TERMS {
        s.push_str(&format!("<dt>{term}</dt><dd>{}</dd>\n", text(meaning)));
    }
    s.push_str("</dl>\n");
    s.push_str(&paragraph(MARKS));
    if let Recorded::Joined(_) = &judged.trace.source {
        s.push_str(&paragraph(LETTERS));
    }
    let mut line = command("report", judged.trace) + &option_of(&judged.models());
    if judged.limit != REPORT_LIMIT as usize {
        line.push_str(&format!(" --limit {}", judged.limit));
    }
    s.push_str("<p>To make this page again:</p>\n");
    s.push_str(&format!("<pre>{} -o report.html</pre>\n", text(&line)));
    section("legend", "How to read this page", &s)
}

/// The hatching of stale bytes, which the style names.
const HATCH: &str = "<svg class=\"defs\" aria-hidden=\"true\"><defs><pattern id=\"hatch\" width=\"8\" height=\"8\" \
    patternUnits=\"userSpaceOnUse\"><path d=\"M-2 10L10 -2M-2 2L2 -2M6 10L10 6\"/></pattern></defs></svg>\n";

/// The whole page of its sections.
pub fn whole(trace: &Trace, sections: &[String]) -> String {
    let mut s = "<!doctype html>\n<html lang=\"en\">\n<head>\n<meta charset=\"utf-8\"/>\n".to_string();
    s.push_str("<meta name=\"viewport\" content=\"width=device-width, initial-scale=1\"/>\n");
    s.push_str("<meta name=\"color-scheme\" content=\"light dark\"/>\n");
    s.push_str(&format!("<title>{}</title>\n<style>\n{STYLE}{}</style>\n</head>\n<body>\n", text(&title(trace)), diagram::STYLE));
    s.push_str(&format!("{HATCH}<main>\n{}</main>\n</body>\n</html>\n", sections.concat()));
    s
}
