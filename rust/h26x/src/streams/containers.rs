//! Files that have streams in them, and are none.

use crate::captures::input;
use crate::errors::Failure;
use std::fs;
use std::io::Read;
use std::path::Path;

/// How many bytes at the front tell what a file is.
pub const FRONT: usize = 12;
/// How a stream is taken out of a file.
pub const TAKE_OUT: &str = "ffmpeg -i IN -c copy -bsf:v h264_mp4toannexb OUT.h264, or \
    hevc_mp4toannexb, vvc_mp4toannexb";

/// What a file is that begins so, where it has streams in it.
pub fn container(front: &[u8]) -> Option<&'static str> {
    match front {
        [_, _, _, _, b'f', b't', b'y', b'p', ..] => Some("an MP4 file"),
        [_, _, _, _, b's', b't', b'y', b'p', ..] => Some("a segment of MP4"),
        [_, _, _, _, b'm', b'o', b'o', b'v', ..] => Some("a QuickTime file"),
        [0x1a, 0x45, 0xdf, 0xa3, ..] => Some("a Matroska or WebM file"),
        [b'F', b'L', b'V', 1, ..] => Some("an FLV file"),
        [b'R', b'I', b'F', b'F', _, _, _, _, b'A', b'V', b'I', b' '] => Some("an AVI file"),
        _ => None,
    }
}

/// Says of a file that begins so what it is, and what to do.
pub fn failure(path: &Path, front: &[u8], has_lengths: bool) -> Option<Failure> {
    let what = container(front)?;
    let and = if has_lengths {
        ", and leave --lengths out"
    } else {
        ""
    };
    let said = format!("this is {what}; take the stream out of it first ({TAKE_OUT}){and}");
    Some(Failure::of(path, said))
}

/// Refuses a file with streams in it, where it is one that can be looked into.
pub fn check_container(path: &Path, has_lengths: bool) -> Result<(), Failure> {
    let mut front = Vec::new();
    let is_file = fs::metadata(path).is_ok_and(|it| it.is_file());
    if let (true, Ok(file)) = (is_file, input::open(path)) {
        // What can't be read is told where it is needed.
        let _ = file.take(FRONT as u64).read_to_end(&mut front);
    }
    failure(path, &front, has_lengths).map_or(Ok(()), Err)
}
