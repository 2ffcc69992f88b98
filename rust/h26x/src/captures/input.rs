//! A file, or a pipe whose front can be read again, through one buffer.

use crate::captures::packed::Bytes;
use crate::commands::words::STANDARD;
use crate::errors::Failure;
use std::fs::File;
use std::io::{self, ErrorKind, Read, Seek};
use std::os::fd::AsFd;
use std::path::{Path, PathBuf};

/// How many bytes are asked for at a time: as many as a processor keeps near.
const PIECE: usize = 1 << 17;
/// How many bytes of a pipe are kept at most, so that they can be read again.
pub const FRONT: usize = 8 << 20;

pub struct Input {
    path: PathBuf,
    bytes: Bytes,
    /// Where in a file its first byte is; nothing of a pipe.
    base: Option<u64>,
    /// Whether what is taken of a pipe stays in the buffer.
    is_kept: bool,
    /// What was read and not yet taken stands at `begin..end`; the rest is room.
    buffer: Vec<u8>,
    begin: usize,
    end: usize,
    /// Where in the file `begin` is, in bytes.
    position: u64,
    /// Where in the file the record begins that was begun last.
    record: u64,
    len: Option<u64>,
    /// Whether what is packed can't be unpacked further.
    is_broken: bool,
}

impl Input {
    /// Opens a file or a pipe; `-` is standard input.
    pub fn open(path: &Path) -> Result<Self, Failure> {
        let failed = |error: io::Error| Failure::reading(path, &error);
        let mut file = open(path).map_err(failed)?;
        let about = file.metadata().map_err(failed)?;
        if about.is_dir() {
            return Err(Failure::of(path, "this is a folder; name a file in it"));
        }
        let base = match about.is_file() {
            true => Some(file.stream_position().map_err(failed)?),
            false => None,
        };
        let len = base.map(|base| about.len().saturating_sub(base));
        Input::of(path, file, base, len)
    }

    /// What is read from here, which begins at `base` unless it is a pipe.
    pub fn of(
        path: &Path,
        file: File,
        base: Option<u64>,
        len: Option<u64>,
    ) -> Result<Self, Failure> {
        let bytes = Bytes::of(file).map_err(|error| Failure::reading(path, &error))?;
        Ok(Input {
            path: path.into(),
            // What is packed has as many bytes as nobody knows.
            len: len.filter(|_| !bytes.is_packed()),
            is_broken: false,
            bytes,
            base,
            is_kept: base.is_none(),
            buffer: vec![0; 2 * PIECE],
            begin: 0,
            end: 0,
            position: 0,
            record: 0,
        })
    }

    pub fn path(&self) -> &Path {
        &self.path
    }

    /// How many bytes there are; nothing of a pipe and of what is packed, where nobody knows.
    pub fn len(&self) -> Option<u64> {
        self.len
    }

    /// Begins again with the first byte. A pipe does so once, and keeps nothing from then on.
    pub fn rewind(&mut self) -> Result<(), Failure> {
        match self.base {
            Some(base) => {
                self.bytes
                    .seek(base)
                    .map_err(|error| Failure::reading(&self.path, &error))?;
                self.end = 0;
            }
            None => self.is_kept = false,
        }
        (self.begin, self.position, self.record) = (0, 0, 0);
        self.is_broken &= self.base.is_none();
        Ok(())
    }

    /// Whether what was asked for last is missing since it can't be unpacked.
    pub fn is_broken(&self) -> bool {
        self.is_broken
    }

    pub fn is_pipe(&self) -> bool {
        self.base.is_none()
    }

    /// Whether no more of a pipe is kept.
    pub fn is_front_full(&self) -> bool {
        self.is_kept && self.begin >= FRONT
    }

    /// What was read and not yet taken.
    pub fn buffered(&self) -> &[u8] {
        &self.buffer[self.begin..self.end]
    }

    /// A record of the capture begins with the next byte.
    pub fn begin_record(&mut self) {
        self.record = self.position;
    }

    /// Where in the file the record begins that was begun last.
    pub fn record(&self) -> u64 {
        self.record
    }

    /// The next bytes, which stay to be taken; fewer where the file ends before.
    pub fn peek(&mut self, count: usize) -> Result<&[u8], Failure> {
        while self.end - self.begin < count && self.fill(count)? {}
        let end = self.end.min(self.begin + count);
        Ok(&self.buffer[self.begin..end])
    }

    /// Takes the next bytes; nothing where the file ends before.
    pub fn take(&mut self, count: usize) -> Result<Option<&[u8]>, Failure> {
        if self.end - self.begin < count && self.peek(count)?.len() < count {
            return Ok(None);
        }
        let begin = self.begin;
        self.pass(count);
        Ok(Some(&self.buffer[begin..begin + count]))
    }

    /// Takes the next bytes as an array.
    pub fn take_array<const N: usize>(&mut self) -> Result<Option<[u8; N]>, Failure> {
        Ok(self.take(N)?.and_then(|bytes| bytes.first_chunk().copied()))
    }

    fn pass(&mut self, count: usize) {
        self.begin += count;
        self.position += count as u64;
    }

    /// Passes over so many bytes; false where the file ends before, or no more of a pipe is kept.
    pub fn skip(&mut self, count: u64) -> Result<bool, Failure> {
        let buffered = (self.end - self.begin) as u64;
        if count <= buffered {
            self.pass(count as usize);
            return Ok(true);
        }
        match (self.base, self.len) {
            (Some(base), Some(len)) => self.seek(base, len, count),
            _ => self.read_over(count),
        }
    }

    /// Passes over so many bytes of a file of this length.
    fn seek(&mut self, base: u64, len: u64, count: u64) -> Result<bool, Failure> {
        let to = self.position.checked_add(count).filter(|to| *to <= len);
        let Some(to) = to else {
            return Ok(false);
        };
        self.bytes
            .seek(base + to)
            .map_err(|error| Failure::reading(&self.path, &error))?;
        (self.begin, self.end, self.position) = (0, 0, to);
        Ok(true)
    }

    /// Passes over so many bytes of a pipe, piece by piece.
    fn read_over(&mut self, mut count: u64) -> Result<bool, Failure> {
        while count > 0 {
            if self.is_front_full() {
                return Ok(false);
            }
            let piece = self.peek(count.min(PIECE as u64) as usize)?.len();
            if piece == 0 {
                return Ok(false);
            }
            self.pass(piece);
            count -= piece as u64;
        }
        Ok(true)
    }

    /// Reads once; false at the end of the file. There is room for `count` bytes in all afterwards.
    fn fill(&mut self, count: usize) -> Result<bool, Failure> {
        if self.begin + count.max(PIECE) > self.buffer.len() {
            if !self.is_kept {
                self.buffer.copy_within(self.begin..self.end, 0);
                (self.begin, self.end) = (0, self.end - self.begin);
            }
            let room = match self.is_kept {
                true => self.begin + count.max(PIECE),
                false => count,
            };
            if self.buffer.len() < room {
                self.buffer.resize(room, 0);
            }
        }
        loop {
            match self.bytes.read(&mut self.buffer[self.end..]) {
                Ok(read) => {
                    self.end += read;
                    return Ok(read > 0);
                }
                Err(error) if error.kind() == ErrorKind::Interrupted => {}
                Err(error) if self.bytes.is_packed() && is_damage(&error) => {
                    self.is_broken = true;
                    return Ok(false);
                }
                Err(error) => return Err(Failure::reading(&self.path, &error)),
            }
        }
    }
}

/// Whether bytes can't be unpacked for what they are.
fn is_damage(error: &io::Error) -> bool {
    use ErrorKind::{InvalidData, InvalidInput, UnexpectedEof};
    matches!(error.kind(), InvalidData | InvalidInput | UnexpectedEof)
}

/// Opens what is read; `-` is standard input, as it was given to the program.
pub fn open(path: &Path) -> io::Result<File> {
    if path == Path::new(STANDARD) {
        return Ok(io::stdin().as_fd().try_clone_to_owned()?.into());
    }
    File::open(path)
}
