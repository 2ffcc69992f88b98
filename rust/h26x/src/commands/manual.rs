//! The manual page, `h26x(1)`, whose options are those of the program.

use crate::commands::options::{CALLS, COMMANDS, Call, GROUPS, Group, Opt};

const PAGE: &str = include_str!("../../h26x.1.in");

pub fn manual() -> String {
    let options: String = GROUPS.iter().map(of_group).collect();
    let calls: Vec<String> = CALLS.iter().map(of_call).collect();
    PAGE.replace("@VERSION@", env!("CARGO_PKG_VERSION"))
        .replace("@CALLS@\n", &calls.join(".br\n"))
        .replace("@OPTIONS@\n", &options)
}

fn of_call(call: &Call) -> String {
    let name = format!(".B h26x {}\n", call.command);
    let words = escaped(call.words);
    match (COMMANDS.contains(&call.command), call.words) {
        (true, _) => format!("{name}.RI [ option \\&...] \" {words}\"\n"),
        (false, "") => name,
        (false, _) => format!("{name}.I {words}\n"),
    }
}

fn of_group(group: &Group) -> String {
    let title = match group.commands.len() == COMMANDS.len() {
        true => "all commands".into(),
        false => group.commands.join(" and "),
    };
    let options: String = group.options.iter().map(of_option).collect();
    format!(".SS Options of {title}\n{options}")
}

fn of_option(option: &Opt) -> String {
    let name = escaped(option.name);
    let about = escaped(option.about);
    match option.shown_value() {
        Some(value) => format!(".TP\n\\fB{name}\\fR \\fI{value}\\fR\n{about}\n"),
        None => format!(".TP\n\\fB{name}\\fR\n{about}\n"),
    }
}

/// A text as roff has it: a hyphen that is to be typed, and no line that begins with a request.
fn escaped(text: &str) -> String {
    let text = text.replace('\\', "\\e").replace('-', "\\-");
    match text.starts_with(['.', '\'']) {
        true => format!("\\&{text}"),
        false => text,
    }
}
