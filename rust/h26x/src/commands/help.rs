//! What `--help` says.

use crate::commands::options::{CALLS, COMMANDS, Call, GROUPS, Group, Opt};

const TITLE: &str = "h26x: H.264, H.265 and H.266 over RTP, in captures\n\n";
const STANDARD: &str =
    "\nA file named - is standard input or standard output: tcpdump -w - | h26x inspect -\n\n";

const END: &str = "
Status: 0 all went well; 1 nothing was written, and a sentence says why; 2 the command is none that
h26x knows; 3 it was done, but packets are lost, refused or cut, or most of them came too late, or
the capture is cut off or damaged.
";

/// Where what an option does begins in its line, and how long lines are.
const COLUMN: usize = 23;
const WIDTH: usize = 100;

pub fn help() -> String {
    let groups: Vec<String> = GROUPS.iter().map(of_group).collect();
    let calls: String = CALLS.iter().map(of_call).collect();
    [TITLE, &calls, STANDARD, &groups.join("\n"), END].concat()
}

/// What `COMMAND --help` says: how it is called, and its options.
pub fn help_of(command: &str) -> String {
    let calls = CALLS.iter().filter(|it| it.command == command);
    let calls: String = calls.map(of_call).collect();
    let groups = GROUPS.iter().filter(|it| it.commands.contains(&command));
    let options: String = groups.flat_map(|it| it.options).map(of_option).collect();
    format!("{calls}\n{options}{END}")
}

fn of_call(call: &Call) -> String {
    let words = format!("h26x {} {}", call.command, call.words);
    format!(
        "    {:<33}{}\n",
        words.trim_end().to_string() + "    ",
        call.about
    )
}

fn of_group(group: &Group) -> String {
    let title = match group.commands.len() == COMMANDS.len() {
        true => "all".into(),
        false => group.commands.join(", "),
    };
    let options: String = group.options.iter().map(of_option).collect();
    format!("{title}\n{options}")
}

fn of_option(option: &Opt) -> String {
    let mut line = match option.shown_value() {
        Some(value) => format!("  {} {value} ", option.name),
        None => format!("  {} ", option.name),
    };
    let mut lines = String::new();
    if line.len() > COLUMN {
        lines = line.trim_end().to_string() + "\n";
        line.clear();
    }
    for word in option.about.split(' ') {
        if line.len() + word.len() > WIDTH {
            lines += line.trim_end();
            lines.push('\n');
            line.clear();
        }
        let missing = COLUMN.saturating_sub(line.len());
        line += &" ".repeat(missing);
        line += word;
        line.push(' ');
    }
    lines + line.trim_end() + "\n"
}
