//! Writes the access units of a stream in the form that is asked for.

use crate::commands::arguments::Receive;
use crate::errors::Failure;
use crate::output::file::Output;
use crate::output::mp4::Mp4;
use crate::output::written::Written;
use crate::streams::sets::Sets;
use crate::streams::told::Told;
use emupedestal::Codec;
use std::path::{Path, PathBuf};

enum Form {
    /// Units alone, with parameter sets that may have to stand before the first picture.
    Units(Sets),
    Mp4(Box<Mp4>),
}

pub struct Writer {
    form: Form,
    is_clean: bool,
    path: PathBuf,
}

impl Writer {
    pub fn new(asked: &Receive, codec: Codec, path: &Path) -> Self {
        let sets = &asked.looking.sets;
        let form = match asked.written {
            Written::Mp4 => Form::Mp4(Box::new(Mp4::new(codec, sets))),
            other => Form::Units(Sets::new(codec, sets, other.has_lengths())),
        };
        Writer {
            form,
            is_clean: asked.is_clean,
            path: path.into(),
        }
    }

    /// Writes an access unit.
    pub fn write(&mut self, told: Told<'_>, output: &mut Output) -> Result<(), Failure> {
        match (told, &mut self.form) {
            (Told::Anew, Form::Mp4(mp4)) => mp4.begin_anew(),
            (Told::Unit(unit, _), _) if self.is_clean && !unit.is_clean => {}
            (Told::Unit(unit, _), Form::Units(sets)) => {
                output.gathered.extend_from_slice(&unit.bytes);
                if sets.are_put_into(&mut output.gathered) {
                    return output.pass_on();
                }
            }
            (Told::Unit(unit, time), Form::Mp4(mp4)) => {
                if !mp4.take(unit, time, &mut output.gathered) {
                    return Err(self.no_sets());
                }
                return output.pass_on();
            }
            _ => {}
        }
        Ok(())
    }

    /// Whether what is gathered may go.
    pub fn may_go(&mut self, gathered: &mut Vec<u8>) -> bool {
        match &mut self.form {
            Form::Units(sets) => sets.are_put_into(gathered),
            Form::Mp4(_) => true,
        }
    }

    /// Writes the rest.
    pub fn finish(&mut self, gathered: &mut Vec<u8>) -> Result<(), Failure> {
        let is_written = match &mut self.form {
            Form::Units(sets) => {
                sets.put_into(gathered);
                true
            }
            Form::Mp4(mp4) => mp4.finish(gathered),
        };
        if is_written {
            Ok(())
        } else {
            Err(self.no_sets())
        }
    }

    fn no_sets(&self) -> Failure {
        let what = "an MP4 file needs the parameter sets, and the stream has none that can be read; \
            give its session description (--sdp), or name a file that ends with .h264, .h265 or .h266";
        Failure::of(&self.path, what)
    }

    /// What is to be said of parameter sets.
    pub fn told(&self) -> Option<String> {
        match &self.form {
            Form::Units(sets) => sets.told(),
            Form::Mp4(_) => None,
        }
    }
}
