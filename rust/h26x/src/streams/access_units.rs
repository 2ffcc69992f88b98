//! The access units of a stream that is to be sent: in Annex B form, or behind lengths.

use crate::captures::input;
use crate::commands::arguments::Send;
use crate::errors::Failure;
use crate::streams::containers::{self, FRONT, TAKE_OUT};
use emupedestal::ANNEXB_NALUSTART_CODE;
use emupedestal::access_units::{AccessUnitReader, FromLengths};
use std::fs::File;
use std::io::{self, Cursor, ErrorKind, Read};

/// So many access units that can be told by lengths are no chance.
const TELLING: usize = 4;

pub struct AccessUnits<'a> {
    asked: &'a Send,
    /// How many bytes the file has; nothing of a pipe.
    pub len: Option<u64>,
    /// The first bytes.
    front: Vec<u8>,
    reader: AccessUnitReader<Box<dyn Read>>,
}

impl<'a> AccessUnits<'a> {
    pub fn open(asked: &'a Send) -> Result<Self, Failure> {
        let failed = |error: io::Error| Failure::reading(&asked.input, &error);
        let file = input::open(&asked.input).map_err(failed)?;
        let about = file.metadata().map_err(failed)?;
        if about.is_dir() {
            return Err(failed(ErrorKind::IsADirectory.into()));
        }
        let mut front = Vec::new();
        let first = (&file).take(FRONT as u64).read_to_end(&mut front);
        first.map_err(failed)?;
        if let Some(failure) = containers::failure(&asked.input, &front, asked.has_lengths) {
            return Err(failure);
        }
        if !asked.has_lengths && about.is_file() && is_behind_lengths(asked, &front) {
            let what = "this is no stream in Annex B form: from byte 0 on its units stand behind \
                lengths of four bytes; say --lengths";
            return Err(Failure::of(&asked.input, what));
        }
        let whole = Cursor::new(front.clone()).chain(file);
        let from: Box<dyn Read> = match asked.has_lengths {
            true => Box::new(FromLengths::new(whole)),
            false => Box::new(whole),
        };
        Ok(AccessUnits {
            asked,
            len: about.is_file().then_some(about.len()),
            front,
            reader: AccessUnitReader::new(asked.codec, from),
        })
    }

    /// The next access unit in Annex B form; nothing at the end.
    pub fn next_access_unit(&mut self) -> Result<Option<&[u8]>, Failure> {
        let read = self.reader.next_access_unit();
        read.map_err(|error| failure(self.asked, &self.front, &error))
    }

    /// How many bytes of the stream stand before what is answered next.
    pub fn position(&self) -> u64 {
        self.reader.position()
    }
}

/// Whether the first access units of a file, which doesn't begin as Annex B has it, can be told by
/// lengths.
fn is_behind_lengths(asked: &Send, front: &[u8]) -> bool {
    if front.len() < 4 || front.starts_with(&ANNEXB_NALUSTART_CODE) {
        return false;
    }
    let Ok(file) = File::open(&asked.input) else {
        return false;
    };
    let mut reader = AccessUnitReader::new(asked.codec, FromLengths::new(file));
    (0..TELLING).all(|_| reader.next_access_unit().is_ok())
}

/// Why a stream can't be read further.
fn failure(asked: &Send, front: &[u8], error: &io::Error) -> Failure {
    let what = match error.kind() {
        ErrorKind::InvalidData | ErrorKind::UnexpectedEof if asked.has_lengths => {
            wrong_lengths(front, error)
        }
        ErrorKind::InvalidData => format!(
            "this is no stream in Annex B form: {error}. Take the stream out of an MP4 or Matroska \
             file first ({TAKE_OUT}), or say --lengths where its units stand behind lengths of \
             four bytes"
        ),
        _ => return Failure::reading(&asked.input, error),
    };
    Failure::of(&asked.input, what)
}

/// What is wrong with a stream of units behind lengths that begins so, and what to do.
fn wrong_lengths(front: &[u8], error: &io::Error) -> String {
    match front {
        [0, 0, 1, ..] | [0, 0, 0, 1, ..] => format!(
            "{error}; the file begins with a start code, at byte 0. If it is a stream in Annex B \
             form, leave --lengths out; if not, copy it again"
        ),
        _ if error.kind() == ErrorKind::UnexpectedEof => {
            format!("the stream is cut off: {error}. Copy the file again")
        }
        _ => format!(
            "{error}. Copy the file again where it is damaged; where it is an MP4 or Matroska file, \
             take the stream out of it first ({TAKE_OUT}), and leave --lengths out"
        ),
    }
}
