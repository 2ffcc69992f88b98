//! What went wrong, in a sentence that says what to do, and the status that the program ends with.

use crate::output::printing::shown;
use std::fmt::Display;
use std::io::{self, ErrorKind};
use std::path::Path;

/// ENAMETOOLONG of Linux, for which `ErrorKind` has a name since Rust 1.87 alone.
const NAME_TOO_LONG: i32 = 36;
/// Nothing was made, or what there is can't be read.
const FAILED: u8 = 1;
/// The words of the command line are none that the program knows.
const USAGE: u8 = 2;
/// What could be made was made, and something is missing in it.
pub const INCOMPLETE: u8 = 3;

/// Why the program ends without success.
#[derive(Debug)]
pub struct Failure {
    pub status: u8,
    /// A sentence for the user; empty where nobody reads it any more.
    pub message: String,
}

impl Failure {
    pub fn usage(message: impl Display) -> Self {
        Failure {
            status: USAGE,
            message: format!("{message}\nh26x --help says how it is called."),
        }
    }

    /// Of a file: what is wrong with it, and what to do.
    pub fn of(path: &Path, message: impl Display) -> Self {
        Failure {
            status: FAILED,
            message: format!("{}: {message}", shown(path)),
        }
    }

    pub fn reading(path: &Path, error: &io::Error) -> Self {
        let what = match error.kind() {
            ErrorKind::NotFound => "there is no such file; check the name and the folder",
            ErrorKind::PermissionDenied => "this user may not read it; change its permissions",
            ErrorKind::IsADirectory => "this is a folder; name a file in it",
            ErrorKind::NotADirectory => "a part of this path is no folder; check the name",
            _ => return Failure::of(path, format!("it can't be read further: {error}")),
        };
        Failure::of(path, what)
    }

    pub fn writing(path: &Path, error: &io::Error) -> Self {
        let what = match error.kind() {
            ErrorKind::StorageFull => {
                "there is no room left where it would stand; free some, or name a file elsewhere"
            }
            ErrorKind::QuotaExceeded => {
                "this user's quota is used up; free some, or name a file elsewhere"
            }
            ErrorKind::FileTooLarge => {
                "it grew longer than files may be there; name a file elsewhere"
            }
            ErrorKind::NotFound => "its folder doesn't exist; make it, or check the name",
            ErrorKind::NotADirectory => "a part of this path is no folder; check the name",
            ErrorKind::IsADirectory => "this is a folder; name a file in it",
            ErrorKind::PermissionDenied => {
                "this user may not write there; change the permissions, or name a file elsewhere"
            }
            ErrorKind::ReadOnlyFilesystem => "nothing can be written there; name a file elsewhere",
            _ if error.raw_os_error() == Some(NAME_TOO_LONG) => {
                "its name is longer than names may be there; give a shorter one"
            }
            _ => return Failure::of(path, format!("it can't be written: {error}")),
        };
        Failure::of(path, what)
    }

    pub fn memory() -> Self {
        Failure {
            status: FAILED,
            message:
                "there is no memory left for packets; a shorter --window or --run-limit needs \
                less"
                    .into(),
        }
    }

    /// Of standard output that isn't there.
    pub fn closed() -> Self {
        Failure {
            status: FAILED,
            message: "standard output is closed, so nothing can be printed; open it".into(),
        }
    }

    /// Of what is printed. Where the reader went away, as `head` does, nobody wants a word more.
    pub fn printing(error: &io::Error) -> Self {
        let message = match error.kind() {
            ErrorKind::BrokenPipe => String::new(),
            _ => format!("what was found can't be printed: {error}"),
        };
        Failure {
            status: FAILED,
            message,
        }
    }
}
