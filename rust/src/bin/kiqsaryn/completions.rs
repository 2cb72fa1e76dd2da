//! Completions for bash and zsh, made from the table of commands and options.

use crate::args::Shell;
use crate::table::{filled, Command, Opt, Value, COMMANDS, SHELLS};

pub fn script(shell: Shell) -> String {
    match shell {
        Shell::Bash => bash(),
        Shell::Zsh => zsh(),
    }
}

fn command_names() -> String {
    COMMANDS.iter().map(|c| c.name).chain(["--help", "--version"]).collect::<Vec<&str>>().join(" ")
}

/// The words that a command takes in the place of a file, or none.
fn operands(command: &Command) -> Option<String> {
    match command.name {
        "completions" => Some(SHELLS.join(" ")),
        "help" => Some(COMMANDS.iter().map(|c| c.name).collect::<Vec<&str>>().join(" ")),
        "manual" => Some(String::new()),
        _ => None,
    }
}

/// The words that can stand behind an option, or none where they are not known.
fn words(option: &Opt) -> Vec<&'static str> {
    match option.value {
        Value::Word(_, words) => words.to_vec(),
        Value::Any(_) if option.name == "--headers" => vec!["yes,yes", "yes,no", "no,yes", "no,no"],
        _ => Vec::new(),
    }
}

// ---- bash

/// The names of an option, with a bar between.
fn bash_names(option: &Opt) -> String {
    match option.short {
        "" => option.name.to_string(),
        short => format!("{}|{short}", option.name),
    }
}

/// What completes the value of each option: a file, words, or nothing.
fn bash_values(command: &Command) -> String {
    let mut s = String::new();
    for option in command.options {
        let reply = match option.value {
            Value::None => continue,
            Value::File(_) => "_kiqsaryn_files \"$word\"".to_string(),
            _ => format!("_kiqsaryn_words '{}' \"$word\"", words(option).join(" ")),
        };
        let names = bash_names(option).replace('|', &format!("|{}:", command.name));
        s.push_str(&format!("        {}:{names}) {reply}; return ;;\n", command.name));
    }
    s
}

fn bash_options(command: &Command) -> String {
    let names: Vec<&str> = command.options.iter().map(|o| o.name).chain(["--help"]).collect();
    format!("        {}) options='{}' ;;\n", command.name, names.join(" "))
}

/// What completes the operands of the commands that take no trace.
fn bash_operands(command: &Command) -> Option<String> {
    Some(format!("        {}) _kiqsaryn_words '{}' \"$word\"; return ;;\n", command.name, operands(command)?))
}

/// The functions that offer words, and files whose names may have spaces.
const BASH_REPLIES: &str = "# bash completion for kiqsaryn
_kiqsaryn_words() {
    COMPREPLY=($(compgen -W \"$1\" -- \"$2\"))
}
_kiqsaryn_files() {
    compopt -o filenames 2> /dev/null
    mapfile -t COMPREPLY < <(compgen -f -- \"$1\")
}
";

/// The shell parts words at an equals sign: the option then stands two words before its value.
fn bash() -> String {
    let values: String = COMMANDS.iter().map(bash_values).collect();
    let options: String = COMMANDS.iter().map(bash_options).collect();
    let operands: String = COMMANDS.iter().filter_map(bash_operands).collect();
    format!(
        "{BASH_REPLIES}_kiqsaryn() {{
    local word=${{COMP_WORDS[COMP_CWORD]}} before=${{COMP_WORDS[COMP_CWORD-1]}} command=${{COMP_WORDS[1]}} options=
    COMPREPLY=()
    if ((COMP_CWORD == 1)); then
        _kiqsaryn_words '{}' \"$word\"
        return
    fi
    if [[ $word == = ]]; then
        word=
    elif [[ $before == = ]]; then
        before=${{COMP_WORDS[COMP_CWORD-2]}}
    fi
    case $command:$before in
{values}    esac
    case $command in
{options}    esac
    if [[ $word == -* ]]; then
        _kiqsaryn_words \"$options\" \"$word\"
        return
    fi
    case $command in
{operands}    esac
    _kiqsaryn_files \"$word\"
}}
complete -F _kiqsaryn kiqsaryn
",
        command_names()
    )
}

// ---- zsh

/// A text within single quotes and within the brackets of an option of zsh.
fn zsh_text(text: &str) -> String {
    filled(text).replace('\\', "\\\\").replace('\'', "'\\''").replace('[', "\\[").replace(']', "\\]").replace(':', "\\:")
}

/// An option with its value, which stands behind it as the next word or in the same one.
fn zsh_option(option: &Opt) -> String {
    let value = match option.value {
        Value::None => String::new(),
        Value::File(name) => format!(":{}:_files", zsh_text(name)),
        Value::Word(name, _) | Value::Any(name) => format!(":{}:({})", zsh_text(name), words(option).join(" ")),
    };
    let text = zsh_text(option.text);
    let many = if option.many { "*" } else { "" };
    let equals = if option.value == Value::None { "" } else { "=" };
    match option.short {
        "" => format!("                '{many}{}{equals}[{text}]{value}' \\\n", option.name),
        short => format!("                '({short} {0})'{{{short}+,{0}{equals}}}'[{text}]{value}' \\\n", option.name),
    }
}

fn zsh_command(command: &Command) -> String {
    let options: String = command.options.iter().map(zsh_option).collect();
    let rest = operands(command).map_or("'*:trace:_files'".to_string(), |words| format!("'1:word:({words})'"));
    format!(
        "        {})
            _arguments \\
{options}                '(- *)'{{-h,--help}}'[show the options]' \\
                {rest}
            ;;
",
        command.name
    )
}

fn zsh() -> String {
    let briefs: String = COMMANDS.iter().map(|c| format!("        '{}:{}'\n", c.name, zsh_text(c.brief))).collect();
    let commands: String = COMMANDS.iter().map(zsh_command).collect();
    format!(
        "#compdef kiqsaryn
# zsh completion for kiqsaryn
_kiqsaryn() {{
    local -a commands
    commands=(
{briefs}    )
    if ((CURRENT == 2)); then
        _describe -t commands 'kiqsaryn command' commands
        _arguments '(- *)--help[show the commands]' '(- *)--version[show the version]'
        return
    fi
    local command=$words[2]
    shift words
    ((CURRENT--))
    case $command in
{commands}    esac
}}
if [[ $funcstack[1] == _kiqsaryn ]]; then
    _kiqsaryn \"$@\"
else
    compdef _kiqsaryn kiqsaryn
fi
"
    )
}
