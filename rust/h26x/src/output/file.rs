//! A file that stands under its name once it is whole, and not before.

use crate::commands::words::STANDARD;
use crate::errors::Failure;
use crate::output::attributes;
use crate::output::parts;
use crate::output::standard;
use std::fs::{self, File, Metadata, OpenOptions};
use std::io::{self, ErrorKind, Write};
use std::os::unix::fs::OpenOptionsExt;
use std::path::{Path, PathBuf};
use std::process;

/// How many bytes are gathered before they are written.
const GATHERED: usize = 1 << 20;
/// The names of standard output, which a shell may have opened as a file.
const STANDARD_OUTPUT: [&str; 4] = [STANDARD, "/dev/stdout", "/dev/fd/1", "/proc/self/fd/1"];

/// So many links name one another at most, as Linux has it.
const MOST_LINKS: usize = 40;
/// The mode of a file that its owner alone reads and writes.
const OWN: u32 = 0o600;

pub struct Output {
    /// As the user names it.
    path: PathBuf,
    target: PathBuf,
    /// Where it is written until it is whole; nothing where it is written straight.
    beside: Option<PathBuf>,
    to: Box<dyn Write>,
    /// Bytes that are to be written next. Whoever appends to it calls `pass_on` behind.
    pub gathered: Vec<u8>,
    written: u64,
}

impl Output {
    /// A file beside this path, unless that is standard output, a device or a pipe. `input` may not be
    /// the same file.
    pub fn create(path: &Path, input: &Path) -> Result<Self, Failure> {
        if STANDARD_OUTPUT.iter().any(|it| path == Path::new(it)) {
            standard::check()?;
            return Ok(Output::standard(path));
        }
        let failed = |error| Failure::writing(path, &error);
        let there = match fs::metadata(path) {
            Err(error) if error.kind() != ErrorKind::NotFound => return Err(failed(error)),
            other => other.ok(),
        };
        if there.as_ref().is_some_and(fs::Metadata::is_dir) {
            return Err(failed(ErrorKind::IsADirectory.into()));
        }
        let real = fs::canonicalize(path).ok();
        if real.is_some() && real == fs::canonicalize(input).ok() {
            return Err(Failure::of(
                path,
                "this is the input too; name another file",
            ));
        }
        match (there, real) {
            (Some(there), Some(real)) if there.is_file() => Output::replace(path, real, &there),
            // A device or a pipe, or a file that is open and has no name any more.
            (Some(_), _) => {
                let file = OpenOptions::new().write(true).open(path).map_err(failed)?;
                Ok(Output::of(path, path.into(), None, Box::new(file)))
            }
            (None, _) => {
                let target = linked(path).map_err(failed)?;
                let (beside, file) = create_beside(&target, path, None)?;
                Ok(Output::of(path, target, Some(beside), Box::new(file)))
            }
        }
    }

    /// A file in the place of one that is there, with its owner, its mode and its access list. Where `path` is a
    /// link, what it names is replaced, and not the link.
    fn replace(path: &Path, target: PathBuf, there: &Metadata) -> Result<Self, Failure> {
        // Nobody else reads it before it has those.
        let (beside, file) = create_beside(&target, path, Some(OWN))?;
        let kept = attributes::keep(&target, there, &file);
        let output = Output::of(path, target, Some(beside), Box::new(file));
        kept.map(|()| output).map_err(|error| {
            let what = format!(
                "its owner, mode and access list can't be kept where it is replaced ({error}); \
                 remove it first, or name another file"
            );
            Failure::of(path, what)
        })
    }

    /// Standard output, which goes on behind what is there already, as the shell opened it.
    fn standard(path: &Path) -> Self {
        Output::of(path, path.into(), None, Box::new(io::stdout()))
    }

    fn of(path: &Path, target: PathBuf, beside: Option<PathBuf>, to: Box<dyn Write>) -> Self {
        Output {
            path: path.into(),
            target,
            beside,
            to,
            gathered: Vec::with_capacity(4 * GATHERED),
            written: 0,
        }
    }

    /// Writes what is gathered, once it is enough.
    pub fn pass_on(&mut self) -> Result<(), Failure> {
        if self.gathered.len() < GATHERED {
            return Ok(());
        }
        self.write_out()
    }

    /// Writes what is gathered.
    pub fn write_out(&mut self) -> Result<(), Failure> {
        if self.gathered.is_empty() {
            return Ok(());
        }
        self.to
            .write_all(&self.gathered)
            .and_then(|()| self.to.flush())
            .map_err(|error| Failure::writing(&self.path, &error))?;
        self.written += self.gathered.len() as u64;
        self.gathered.clear();
        Ok(())
    }

    /// Writes the rest, and gives the file its name. Answers how many bytes it has.
    pub fn finish(mut self) -> Result<u64, Failure> {
        self.write_out()?;
        if let Some(beside) = &self.beside {
            fs::rename(beside, &self.target)
                .map_err(|error| Failure::writing(&self.path, &error))?;
            parts::forget(beside);
            self.beside = None;
        }
        Ok(self.written)
    }
}

/// What a link names in the end, through other links, that isn't there yet; of what is no link the path itself.
fn linked(path: &Path) -> io::Result<PathBuf> {
    let mut target = path.to_owned();
    for _ in 0..MOST_LINKS {
        match fs::read_link(&target) {
            Ok(link) => target = target.with_file_name(link),
            Err(_) => return Ok(target),
        }
    }
    Err(io::Error::from_raw_os_error(libc::ELOOP))
}

/// A new file beside this one, whose name the user gives as `path`, with this mode, or the one of new files. Its own
/// name is short, whatever the other is.
fn create_beside(
    target: &Path,
    path: &Path,
    mode: Option<u32>,
) -> Result<(PathBuf, File), Failure> {
    if target.file_name().is_none() {
        return Err(Failure::of(path, "this is no name of a file; name one"));
    }
    let mut options = OpenOptions::new();
    options.write(true).create_new(true);
    if let Some(mode) = mode {
        options.mode(mode);
    }
    let mut number = process::id();
    loop {
        let beside = target.with_file_name(format!(".h26x.{number}.part"));
        match parts::remember(&beside, || options.open(&beside)) {
            Ok(file) => return Ok((beside, file)),
            // One that was killed had this number, or one has it on another machine.
            Err(error) if error.kind() == ErrorKind::AlreadyExists => {
                number = number.wrapping_add(1)
            }
            Err(error) => return Err(Failure::writing(path, &error)),
        }
    }
}

/// What is not whole is removed.
impl Drop for Output {
    fn drop(&mut self) {
        if let Some(beside) = &self.beside {
            let _ = fs::remove_file(beside);
            parts::forget(beside);
        }
    }
}
