//! Colours of what is printed, where a terminal shows it or the user asks for them.

use std::env;
use std::io::{self, IsTerminal};

#[derive(Clone, Copy, PartialEq, Eq)]
pub enum Color {
    Auto,
    Always,
    Never,
}

/// What text may stand out as, by its code of ECMA-48, 8.3.117.
#[derive(Clone, Copy)]
pub enum Look {
    Title = 1,
    Note = 33,
    Keyframe = 32,
}

#[derive(Clone, Copy)]
pub struct Painter {
    is_on: bool,
}

impl Color {
    pub fn named(word: &str) -> Option<Self> {
        match word {
            "auto" => Some(Color::Auto),
            "always" => Some(Color::Always),
            "never" => Some(Color::Never),
            _ => None,
        }
    }

    /// A painter for standard output.
    pub fn painter(self) -> Painter {
        let is_wanted = || {
            let is_set = |name: &str| env::var_os(name).is_some_and(|it| !it.is_empty());
            let is_dumb = env::var_os("TERM").is_some_and(|it| it == "dumb");
            io::stdout().is_terminal() && !is_set("NO_COLOR") && !is_dumb
        };
        Painter {
            is_on: match self {
                Color::Auto => is_wanted(),
                Color::Always => true,
                Color::Never => false,
            },
        }
    }
}

impl Painter {
    pub fn paint(self, look: Look, text: &str) -> String {
        match self.is_on && !text.is_empty() {
            true => format!("\x1b[{}m{text}\x1b[0m", look as u8),
            false => text.into(),
        }
    }
}
