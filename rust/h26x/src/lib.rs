//! Sends streams of H.264, H.265 and H.266 into captures as RTP, receives them from captures, and says
//! of a capture what is in it. `h26x --help` has the rest.
//!
//! It is a library for the program's `main` and its fuzz target alone.

mod captures;
mod commands;
mod errors;
mod network;
mod output;
mod streams;

use commands::arguments::{self, Command};
use commands::{help, inspect, manual, receive, send};
use errors::Failure;
use output::printing;
use std::ffi::OsString;

const VERSION: &str = concat!("h26x ", env!("CARGO_PKG_VERSION"), "\n");

/// Does what the words behind the program's name say, and answers the status to end with.
pub fn run(words: Vec<OsString>) -> u8 {
    match done(words) {
        Ok(status) => status,
        Err(failure) => {
            if !failure.message.is_empty() {
                printing::say(&failure.message);
            }
            failure.status
        }
    }
}

fn done(words: Vec<OsString>) -> Result<u8, Failure> {
    match arguments::command(words)? {
        Command::Send(asked) => send::send(&asked),
        Command::Receive(mut asked) => receive::receive(&mut asked),
        Command::Inspect(mut asked) => inspect::inspect(&mut asked),
        Command::Help => printing::print(&help::help()).map(|()| 0),
        Command::HelpOf(command) => printing::print(&help::help_of(command)).map(|()| 0),
        Command::Version => printing::print(VERSION).map(|()| 0),
        Command::Manual => printing::print(&manual::manual()).map(|()| 0),
        Command::Completion(made) => printing::print(&made()).map(|()| 0),
    }
}
