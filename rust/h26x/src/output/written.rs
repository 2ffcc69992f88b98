//! The forms in which a stream is written, which a file's ending tells.

use crate::errors::Failure;
use crate::output::printing::shown;
use crate::streams::codecs::of_path;
use std::path::Path;

/// Endings of files of MP4, and such that may have anything in them.
const MP4: [&str; 2] = ["mp4", "m4v"];
const ANY: [&str; 6] = ["bin", "raw", "bit", "es", "annexb", "avcc"];

#[derive(Clone, Copy, PartialEq, Eq)]
pub enum Written {
    /// Units behind start codes, or behind lengths.
    AnnexB,
    Lengths,
    /// Fragmented MP4, with the times of pictures.
    Mp4,
}

impl Written {
    pub fn units(has_lengths: bool) -> Self {
        match has_lengths {
            true => Written::Lengths,
            false => Written::AnnexB,
        }
    }

    /// The form that a file's ending tells; an ending of another one is refused.
    pub fn of_path(path: &Path, has_lengths: bool) -> Result<Self, Failure> {
        let ending = path
            .extension()
            .map(|it| it.to_string_lossy().to_lowercase());
        let ending = ending.unwrap_or_default();
        if MP4.contains(&&*ending) {
            return match has_lengths {
                true => Err(Failure::usage(
                    "--lengths: MP4 has its units behind lengths anyway; leave it out",
                )),
                false => Ok(Written::Mp4),
            };
        }
        let is_of_units = ending.is_empty() || of_path(path).is_some() || ANY.contains(&&*ending);
        match is_of_units {
            true => Ok(Written::units(has_lengths)),
            false => Err(Failure::usage(format!(
                "{}: .{ending} can't be written; name a file that ends with .mp4, or of units alone \
                 with .h264, .h265 or .h266",
                shown(path)
            ))),
        }
    }

    pub fn has_lengths(self) -> bool {
        self != Written::AnnexB
    }
}
