//! The man page, made from the table of commands and options.

use crate::help::{arguments, placeholder};
use crate::table::{self, filled, Command, Opt, COMMANDS};

/// A text for roff: a hyphen that a user types, a backslash, and a dot or a quote that starts a line are written so that they stay themselves.
fn roff(text: &str) -> String {
    let text = text.replace('\\', "\\e").replace('-', "\\-");
    match text.starts_with(['.', '\'']) {
        true => format!("\\&{text}"),
        false => text,
    }
}

fn paragraphs(texts: &[&str]) -> String {
    texts.iter().map(|text| format!(".PP\n{}\n", roff(&filled(text)))).collect()
}

/// An option with its value, in the types of a man page.
fn option(option: &Opt) -> String {
    let value = match placeholder(option) {
        "" => String::new(),
        value => format!(" \\fI{}\\fR", roff(value)),
    };
    let short = match option.short {
        "" => String::new(),
        short => format!("\\fB{}\\fR{value}, ", roff(short)),
    };
    format!(".TP\n{short}\\fB{}\\fR{value}\n{}\n", roff(option.name), roff(&filled(option.text)))
}

/// Lines that stay as they are typed.
fn lines(lines: &[&str]) -> String {
    let lines: String = lines.iter().map(|line| format!("{}\n", roff(line))).collect();
    format!(".PP\n.nf\n{lines}.fi\n")
}

fn of_command(command: &Command) -> String {
    let mut s = format!(".SS kiqsaryn {}\n", roff(command.name));
    for usage in command.usages {
        let arguments = arguments(command, usage).join(" ");
        s.push_str(&format!(".PP\n\\fBkiqsaryn {}\\fR {}\n", roff(command.name), roff(&arguments)));
    }
    s.push_str(&paragraphs(command.about));
    s.extend(command.options.iter().map(option));
    s.push_str(&paragraphs(command.more));
    s.push_str(&paragraphs(&[&format!("Exit status: {}", command.status)]));
    s.push_str(&paragraphs(&[if command.examples.len() == 1 { "Example:" } else { "Examples:" }]));
    s + &lines(command.examples)
}

/// The whole page.
pub fn page() -> String {
    let mut s = format!(".TH KIQSARYN 1 \"\" \"kiqsaryn {}\" \"User Commands\"\n", env!("CARGO_PKG_VERSION"));
    // No word is broken and no space widened: options and lines with commas stay as they are typed.
    s.push_str(".nh\n.ad l\n");
    s.push_str(&format!(".SH NAME\nkiqsaryn \\- {}\n", roff(table::TITLE)));
    s.push_str(".SH SYNOPSIS\n\\fBkiqsaryn\\fR \\fICOMMAND\\fR [\\fITRACE\\fR...] [\\fIOPTIONS\\fR]\n.br\n");
    s.push_str("\\fBkiqsaryn\\fR \\fB\\-\\-help\\fR | \\fB\\-\\-version\\fR\n");
    s.push_str(".SH DESCRIPTION");
    let about = paragraphs(table::ABOUT);
    s.push_str(about.strip_prefix(".PP").unwrap_or(&about));
    s.push_str(".SH COMMANDS\n");
    s.extend(COMMANDS.iter().map(of_command));
    s.push_str(".SH EXIT STATUS\n");
    s.extend(table::STATUSES.iter().map(|(status, text)| format!(".TP\n\\fB{status}\\fR\n{}\n", roff(text))));
    s.push_str(".SH EXAMPLES");
    let example = lines(&[table::EXAMPLE]);
    s + example.strip_prefix(".PP").unwrap_or(&example)
}
