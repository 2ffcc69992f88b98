//! What is printed on standard output, and what is said on standard error.

use crate::errors::Failure;
use crate::output::standard;
use std::io::{self, Write};
use std::os::unix::ffi::OsStrExt;
use std::path::Path;

pub fn print(text: &str) -> Result<(), Failure> {
    standard::check()?;
    io::stdout()
        .write_all(text.as_bytes())
        .map_err(|error| Failure::printing(&error))
}

/// Says a sentence behind the program's name. Where nobody can hear it, the work goes on.
pub fn say(sentence: &str) {
    let lines: Vec<String> = sentence.split('\n').map(escaped).collect();
    let _ = writeln!(io::stderr(), "h26x: {}", lines.join("\n"));
}

/// A file's name as it can be shown: bytes that are no text stand as `\xff`.
pub fn shown(path: &Path) -> String {
    let mut shown = String::new();
    for chunk in path.as_os_str().as_bytes().utf8_chunks() {
        shown += &escaped(chunk.valid());
        shown.extend(chunk.invalid().iter().map(|byte| format!("\\x{byte:02x}")));
    }
    shown
}

/// A text in which what a terminal acts on stands as `\u{1b}`: controls, and what turns the direction of writing.
fn escaped(text: &str) -> String {
    let is_acted_on = |it: char| {
        it.is_control() || matches!(it, '\u{202a}'..='\u{202e}' | '\u{2066}'..='\u{2069}')
    };
    let mut escaped = String::new();
    for it in text.chars() {
        match is_acted_on(it) {
            true => escaped.extend(it.escape_unicode()),
            false => escaped.push(it),
        }
    }
    escaped
}
