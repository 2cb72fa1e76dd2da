//! The help texts, made from the table of commands and options.

use crate::args::Topic;
use crate::table::{self, filled, Command, Opt, Usage, Value, COMMANDS};
use crate::text::{labelled, wrap, WIDTH};

/// Where the briefs of the commands start.
const BRIEFS: usize = 16;

/// The name of an option's value, or nothing.
pub fn placeholder(option: &Opt) -> &'static str {
    match option.value {
        Value::None => "",
        Value::Word(name, _) | Value::Any(name) | Value::File(name) => name,
    }
}

/// An option with its value: "--header yes|no", "-o FILE".
fn with_value(option: &Opt) -> String {
    let name = if option.short.is_empty() { option.name } else { option.short };
    let value = match (option.name, placeholder(option)) {
        ("--headers", _) => "yes|no,yes|no",
        (_, value) => value,
    };
    format!("{name} {value}").trim_end().to_string()
}

/// The arguments of one way to call a command: the operands, the options that are needed, and the others in brackets.
pub fn arguments(command: &Command, usage: &Usage) -> Vec<String> {
    let mut all = Vec::new();
    if !usage.operands.is_empty() {
        all.push(usage.operands.to_string());
    }
    all.extend(usage.needed.iter().filter_map(|name| command.option(name)).map(with_value));
    let is_header = |o: &&Opt| ["--header", "--headers"].contains(&o.name);
    let others = command.options.iter().filter(|o| !usage.needed.contains(&o.name) && !is_header(o));
    all.extend(others.map(|o| format!("[{}]{}", with_value(o), if o.many { "..." } else { "" })));
    all
}

/// One way to call a command, its further lines indented.
fn usage(command: &Command, usage: &Usage) -> String {
    let lead = format!("kiqsaryn {} ", command.name);
    let mut lines = vec![lead.trim_end().to_string()];
    for argument in arguments(command, usage) {
        let line = lines.last_mut().map(|line| format!("{line} {argument}")).unwrap_or_default();
        match line.len() <= WIDTH {
            true => lines.pop().map_or((), |_| lines.push(line)),
            false => lines.push(format!("{}{argument}", " ".repeat(lead.len()))),
        }
    }
    lines.join("\n") + "\n"
}

fn paragraphs(texts: &[&str]) -> String {
    texts.iter().map(|text| format!("\n{}\n", wrap(&filled(text), WIDTH).join("\n"))).collect()
}

/// The names of an option with its value, as a list of options shows them.
fn names(option: &Opt) -> String {
    let long = format!("{} {}", option.name, placeholder(option)).trim_end().to_string();
    match option.short {
        "" => long,
        short => format!("{short} {0}, {1} {0}", placeholder(option), option.name),
    }
}

fn options(command: &Command) -> String {
    let width = command.options.iter().map(|o| names(o).len()).max().unwrap_or(0);
    let lines = command.options.iter().map(|o| labelled(&format!("  {:width$}  ", names(o)), &filled(o.text)));
    let lines: String = lines.collect();
    if lines.is_empty() {
        lines
    } else {
        format!("\n{lines}")
    }
}

fn examples(lines: &[&str]) -> String {
    let title = if lines.len() == 1 { "Example" } else { "Examples" };
    let lines: String = lines.iter().map(|line| format!("  {line}\n")).collect();
    format!("\n{title}:\n{lines}")
}

fn of_command(command: &Command) -> String {
    let mut s: String = command.usages.iter().map(|u| usage(command, u)).collect();
    s.push_str(&paragraphs(command.about));
    s.push_str(&options(command));
    s.push_str(&paragraphs(command.more));
    s.push_str(&format!("\nExit status: {}\n", command.status));
    s + &examples(command.examples)
}

fn of_all() -> String {
    let mut s = format!("kiqsaryn - {}\n\n", table::TITLE);
    for command in COMMANDS {
        s.push_str(&format!("  kiqsaryn {:width$} {}\n", command.name, command.brief, width = BRIEFS - 1));
    }
    s.push_str(&format!("  kiqsaryn {:width$} the version\n", "--version", width = BRIEFS - 1));
    s.push_str("\nkiqsaryn COMMAND --help shows the options of a command.\n");
    s.push_str(&paragraphs(table::ABOUT));
    s.push_str("\nExit status:\n");
    s.extend(table::STATUSES.iter().map(|(status, text)| labelled(&format!("  {status}  "), text)));
    s + &examples(&[table::EXAMPLE])
}

pub fn help(topic: Topic) -> String {
    match table::command(topic).filter(|_| topic != Topic::All) {
        Some(command) => of_command(command),
        None => of_all(),
    }
}

/// How to ask for the help that goes with an error.
pub fn hint(topic: Topic) -> String {
    match table::command(topic).filter(|_| topic != Topic::All) {
        Some(command) => format!("kiqsaryn {} --help shows the options.", command.name),
        None => "kiqsaryn --help shows the commands.".to_string(),
    }
}
