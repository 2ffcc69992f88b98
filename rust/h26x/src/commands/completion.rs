//! Completions of the command line for shells.

use crate::commands::options::{COMMANDS, FILE, GROUPS, Opt, call_of, others};
use std::fmt::Write;

/// What makes the completions of a shell.
pub type Made = fn() -> String;

/// In the order in which the table has the shells.
const MADE: [Made; 3] = [bash, zsh, fish];

/// The shells that there are completions for.
pub fn shells() -> Vec<&'static str> {
    let words = call_of("completion").map_or("", |it| it.words);
    words.split('|').collect()
}

/// What makes the completions of a shell of this name.
pub fn of_shell(name: &str) -> Option<Made> {
    let at = shells().iter().position(|it| *it == name)?;
    MADE.get(at).copied()
}

/// The options of a command.
fn options_of(command: &str) -> impl Iterator<Item = &'static Opt> {
    let groups = GROUPS
        .iter()
        .filter(move |it| it.commands.contains(&command));
    groups.flat_map(|it| it.options)
}

fn all_options() -> impl Iterator<Item = &'static Opt> {
    GROUPS.iter().flat_map(|it| it.options)
}

fn commands() -> String {
    let commands = COMMANDS.into_iter().chain(others());
    commands.collect::<Vec<&str>>().join(" ")
}

fn bash() -> String {
    let mut of_values = String::new();
    for option in all_options().filter(|it| !it.values.is_empty()) {
        let _ = writeln!(
            of_values,
            "        {}) COMPREPLY=($(compgen -W '{}' -- \"$word\")); return ;;",
            option.name,
            option.values.join(" ")
        );
    }
    let has_value = |it: &&Opt| it.value.is_some_and(|of| of != FILE) && it.values.is_empty();
    let with_value = all_options().filter(has_value);
    let mut names: Vec<&str> = with_value.map(|it| it.name).collect();
    names.sort_unstable();
    names.dedup();
    let mut of_commands = String::new();
    for command in COMMANDS {
        let names: Vec<&str> = options_of(command).map(|it| it.name).collect();
        let _ = writeln!(
            of_commands,
            "        {command}) options='{}' ;;",
            names.join(" ")
        );
    }
    format!(
        "# Completions of h26x for bash.
_h26x() {{
    local word=${{COMP_WORDS[COMP_CWORD]}} before=${{COMP_WORDS[COMP_CWORD - 1]}} options=
    COMPREPLY=()
    if [ \"$COMP_CWORD\" -eq 1 ]; then
        COMPREPLY=($(compgen -W '{} --help --version' -- \"$word\"))
        return
    fi
    case $before in
        completion) COMPREPLY=($(compgen -W '{}' -- \"$word\")); return ;;
{of_values}        {}) return ;;
    esac
    case ${{COMP_WORDS[1]}} in
{of_commands}    esac
    case $word in
        -*) COMPREPLY=($(compgen -W \"$options\" -- \"$word\")) ;;
        *) compopt -o filenames 2>/dev/null; COMPREPLY=($(compgen -f -- \"$word\")) ;;
    esac
}}
complete -F _h26x h26x
",
        commands(),
        shells().join(" "),
        names.join("|"),
    )
}

/// A text within single quotes of zsh and fish.
fn quoted(text: &str) -> String {
    text.replace('\'', "'\\''")
}

fn zsh() -> String {
    let mut of_commands = String::new();
    for command in COMMANDS {
        let _ = writeln!(of_commands, "        {command})\n            _arguments \\");
        for option in options_of(command) {
            // In a description brackets and colons have a meaning of their own.
            let about = quoted(option.about)
                .replace(['[', ']'], "")
                .replace(':', "\\:");
            let value = match (option.value, option.values) {
                (None, _) => String::new(),
                (Some(FILE), _) => format!(":{FILE}:_files"),
                (Some(value), []) => format!(":{value}: "),
                (Some(value), values) => format!(":{value}:({})", values.join(" ")),
            };
            let _ = writeln!(
                of_commands,
                "                '{}[{about}]{value}' \\",
                option.name
            );
        }
        let _ = writeln!(
            of_commands,
            "                '*:file:_files'\n            ;;"
        );
    }
    format!(
        "#compdef h26x
# Completions of h26x for zsh.
_h26x() {{
    if (( CURRENT == 2 )); then
        compadd {} --help --version
        return
    fi
    local command=$words[2]
    shift words
    (( CURRENT-- ))
    case $command in
{of_commands}        completion) compadd {} ;;
    esac
}}
if [ \"$funcstack[1]\" = _h26x ]; then
    _h26x \"$@\"
else
    compdef _h26x h26x
fi
",
        commands(),
        shells().join(" "),
    )
}

fn fish() -> String {
    let mut lines = String::from("# Completions of h26x for fish.\n");
    let _ = writeln!(
        lines,
        "complete -c h26x -n __fish_use_subcommand -f -a '{}'",
        commands()
    );
    let _ = writeln!(
        lines,
        "complete -c h26x -n '__fish_seen_subcommand_from completion' -f -a '{}'",
        shells().join(" ")
    );
    for group in &GROUPS {
        for option in group.options {
            let value = match (option.value, option.values) {
                (None, _) => String::new(),
                (Some(FILE), _) => " -r -F".into(),
                (Some(_), []) => " -x".into(),
                (Some(_), values) => format!(" -x -a '{}'", values.join(" ")),
            };
            let _ = writeln!(
                lines,
                "complete -c h26x -n '__fish_seen_subcommand_from {}' -l {}{value} -d '{}'",
                group.commands.join(" "),
                option.name.trim_start_matches('-'),
                quoted(option.about).replace("'\\''", "\\'"),
            );
        }
    }
    lines
}
