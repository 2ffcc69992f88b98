//! Access units of a stream that is read piece by piece.

use super::{Scanner, is_zero, without_zeros};
use crate::Codec;
use std::io::{self, ErrorKind, Read};
use std::mem;

/// How many bytes are asked for at a time.
const PIECE: usize = 1 << 20;
/// How many bytes an access unit has at most, unless a caller says otherwise.
const LIMIT: usize = 256 << 20;
const NO_START_CODE: &str = "no start code at the front of the stream";

/// Reads a stream in Annex B form and answers its access units, one after the other. It holds a piece
/// of the stream: 4 MiB, or where an access unit is longer up to twice its length and 2 MiB more.
///
/// It does its own buffering: give it the file itself, or where the file has units behind lengths a
/// [`FromLengths`](super::FromLengths) of it.
#[derive(Debug)]
pub struct AccessUnitReader<R> {
    from: R,
    scanner: Scanner,
    limit: usize,
    /// What was read stands in front, `filled` bytes; the rest is room.
    buffer: Vec<u8>,
    filled: usize,
    /// Where the access unit begins that is answered next; before its start code is found up to where
    /// zeros were seen.
    begin: usize,
    /// Whether the first start code was found.
    is_begun: bool,
    /// Whether the end of the stream was read.
    is_whole: bool,
    /// How many bytes of the stream no longer stand in the buffer.
    passed: u64,
}

impl<R: Read> AccessUnitReader<R> {
    /// A reader that takes no access unit longer than 256 MiB.
    pub fn new(codec: Codec, from: R) -> Self {
        AccessUnitReader::with_limit(codec, from, LIMIT)
    }

    /// A reader that takes no access unit longer than so many bytes, its start codes and the zeros
    /// behind it with it, but for what it reads at a time (1 MiB); and no more zeros before the first.
    pub fn with_limit(codec: Codec, from: R, limit: usize) -> Self {
        AccessUnitReader {
            from,
            scanner: Scanner::new(codec),
            limit,
            buffer: Vec::new(),
            filled: 0,
            begin: 0,
            is_begun: false,
            is_whole: false,
            passed: 0,
        }
    }

    /// The next access unit, from its first start code, `00 00 01`, up to its last byte that isn't a
    /// zero; nothing at the stream's end.
    ///
    /// # Errors
    ///
    /// Those of reading, after which the call can be made again; and `InvalidData` where the stream
    /// begins with something else than a start code (zeros may stand before it, as many as an access
    /// unit may have bytes), or an access unit is longer than the limit.
    pub fn next_access_unit(&mut self) -> io::Result<Option<&[u8]>> {
        loop {
            let found = self
                .scanner
                .next_begin(&self.buffer[..self.filled], self.is_whole);
            let end = match found {
                Some(at) if !self.is_begun => {
                    self.pass_zeros(at)?;
                    self.is_begun = true;
                    continue;
                }
                Some(at) => at,
                None if !self.is_whole => {
                    self.fill()?;
                    continue;
                }
                None if !self.is_begun => {
                    return self.pass_zeros(self.filled).map(|()| None);
                }
                None if self.begin == self.filled => return Ok(None),
                None => self.filled,
            };
            let begin = mem::replace(&mut self.begin, end);
            let len = without_zeros(&self.buffer[begin..end]);
            return Ok(Some(&self.buffer[begin..begin + len]));
        }
    }

    /// How many bytes of the stream stand before what is answered next.
    pub fn position(&self) -> u64 {
        self.passed + self.begin as u64
    }

    /// Passes over what stands before the first start code, up to a place: only zeros may.
    fn pass_zeros(&mut self, to: usize) -> io::Result<()> {
        if !is_zero(&self.buffer[self.begin..to]) {
            return Err(invalid(NO_START_CODE));
        }
        self.begin = to;
        Ok(())
    }

    /// Reads once more, behind what is still wanted.
    fn fill(&mut self) -> io::Result<()> {
        if !self.is_begun {
            self.pass_zeros(self.scanner.at)?;
        }
        self.check_limit()?;
        if self.buffer.len() - self.filled < PIECE {
            self.make_room();
        }
        let read = loop {
            match self.from.read(&mut self.buffer[self.filled..]) {
                Err(error) if error.kind() == ErrorKind::Interrupted => {}
                other => break other?,
            }
        };
        self.filled += read;
        self.is_whole = read == 0;
        Ok(())
    }

    fn check_limit(&self) -> io::Result<()> {
        let at = self.position();
        if self.filled - self.begin > self.limit {
            return Err(invalid(&format!(
                "the access unit at byte {at} is longer than the limit"
            )));
        }
        if !self.is_begun && at > self.limit as u64 {
            let what = format!("{at} zeros stand before the first start code, more than the limit");
            return Err(invalid(&what));
        }
        Ok(())
    }

    /// Moves what is still wanted to the front, and makes the buffer longer where that is not enough.
    fn make_room(&mut self) {
        let begin = mem::take(&mut self.begin);
        self.buffer.copy_within(begin..self.filled, 0);
        self.filled -= begin;
        self.scanner.at -= begin;
        self.passed += begin as u64;
        if self.buffer.len() - self.filled < PIECE {
            let len = (self.buffer.len() * 2).max(4 * PIECE);
            self.buffer.resize(len, 0);
        }
    }
}

fn invalid(what: &str) -> io::Error {
    io::Error::new(ErrorKind::InvalidData, what)
}
