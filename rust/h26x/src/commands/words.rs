//! The words of the command line, as files and options.

use crate::commands::options::{COMMANDS, Opt, call_of, commands_with, of_command, one_of_these};
use crate::errors::Failure;
use crate::streams::codecs::{named, of_path};
use emupedestal::Codec;
use std::ffi::OsString;
use std::path::{Path, PathBuf};

/// What stands for standard input and standard output.
pub const STANDARD: &str = "-";

/// The words behind the name of the command: files, and options with their values.
pub struct Words {
    command: &'static str,
    files: Vec<PathBuf>,
    options: Vec<(&'static str, String)>,
}

impl Words {
    pub fn of(
        command: &'static str,
        mut words: impl Iterator<Item = OsString>,
    ) -> Result<Self, Failure> {
        let (mut files, mut options) = (Vec::new(), Vec::new());
        let mut are_files = false;
        while let Some(word) = words.next() {
            let option = word
                .to_str()
                .filter(|it| !are_files && it.starts_with('-') && *it != STANDARD);
            match option {
                Some("--") => are_files = true,
                Some(option) => options.push(read(command, option, &mut words)?),
                None => files.push(word.into()),
            }
        }
        options.sort();
        match options.windows(2).find(|pair| pair[0].0 == pair[1].0) {
            Some(pair) => Err(Failure::usage(format!("{} is given twice", pair[0].0))),
            None => Ok(Words {
                command,
                files,
                options,
            }),
        }
    }

    /// Whether an option is given; it stays to be asked for.
    pub fn has(&self, name: &str) -> bool {
        self.options.iter().any(|it| it.0 == name)
    }

    /// Whether an option without a value is given.
    pub fn flag(&mut self, name: &str) -> bool {
        self.value(name).is_some()
    }

    pub fn value(&mut self, name: &str) -> Option<String> {
        let at = self.options.iter().position(|it| it.0 == name)?;
        Some(self.options.remove(at).1)
    }

    /// The number of an option, from `least` to `most`.
    pub fn number(&mut self, name: &str, least: u64, most: u64) -> Result<Option<u64>, Failure> {
        let Some(value) = self.value(name) else {
            return Ok(None);
        };
        let number = match value.strip_prefix("0x") {
            Some(digits) => u64::from_str_radix(digits, 16),
            None => value.parse(),
        };
        match number {
            Ok(number) if (least..=most).contains(&number) => Ok(Some(number)),
            _ => Err(Failure::usage(format!(
                "{name} {value}: give a number from {least} to {most}"
            ))),
        }
    }

    /// The value of an option that has few.
    pub fn one_of<T>(
        &mut self,
        name: &str,
        read: impl Fn(&str) -> Option<T>,
    ) -> Result<Option<T>, Failure> {
        let Some(value) = self.value(name) else {
            return Ok(None);
        };
        let values = of_command(self.command, name).map_or(&[][..], |it| it.values);
        let unknown = || Failure::usage(format!("{name} {value}: give {}", one_of_these(values)));
        read(&value).ok_or_else(unknown).map(Some)
    }

    pub fn codec(&mut self) -> Result<Option<Codec>, Failure> {
        self.one_of("--codec", named)
    }

    /// The codec that is given, or that the ending of a stream's file tells.
    pub fn codec_of(&mut self, stream: &Path) -> Result<Option<Codec>, Failure> {
        Ok(self.codec()?.or_else(|| of_path(stream)))
    }

    pub fn files<const N: usize>(&mut self) -> Result<[PathBuf; N], Failure> {
        let files = std::mem::take(&mut self.files);
        let command = self.command;
        let words = call_of(command).map_or("", |it| it.words);
        let said = format!("give the files as in: h26x {command} {words}");
        files.try_into().map_err(|_| Failure::usage(said))
    }
}

/// An option of a command, with its value, which may be the next word.
fn read(
    command: &str,
    option: &str,
    words: &mut impl Iterator<Item = OsString>,
) -> Result<(&'static str, String), Failure> {
    let (name, value) = match option.split_once('=') {
        Some((name, value)) => (name, Some(value)),
        None => (option, None),
    };
    let name = if name == "-h" { "--help" } else { name };
    let known = of_command(command, name).ok_or_else(|| unknown(command, name))?;
    let value = match (known, value) {
        (Opt { value: None, .. }, Some(_)) => {
            return Err(Failure::usage(format!("{name} has no value; leave it out")));
        }
        (Opt { value: None, .. }, None) => String::new(),
        (_, Some(value)) => value.into(),
        (_, None) => {
            let next = words.next().and_then(|it| it.into_string().ok());
            next.ok_or_else(|| Failure::usage(format!("{name} lacks its value")))?
        }
    };
    Ok((known.name, value))
}

/// Says that an option stands where the command should, or that no command has it.
pub fn before_command(option: &str) -> Failure {
    let name = option.split_once('=').map_or(option, |it| it.0);
    match commands_with(name)[..] {
        [] => unknown("", name),
        _ => Failure::usage(format!(
            "{name} stands behind the command: {}",
            one_of_these(&COMMANDS)
        )),
    }
}

/// Says that a command hasn't this option, and which have.
pub fn unknown(command: &str, name: &str) -> Failure {
    let commands = commands_with(name);
    Failure::usage(match commands[..] {
        [] => format!("there is no option {name}"),
        _ => format!(
            "{name} is no option of {command}; {} it",
            match commands[..] {
                [one] => format!("{one} has"),
                _ => format!("{} have", commands.join(" and ")),
            }
        ),
    })
}
