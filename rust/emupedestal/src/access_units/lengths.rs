//! Units behind lengths, read as units behind start codes.

use super::start_code;
use crate::ANNEXB_NALUSTART_CODE;
use std::io::{self, ErrorKind, Read};

/// How many bytes a unit has at most, unless a caller says otherwise.
const LIMIT: u32 = 256 << 20;

/// Reads units behind lengths of four bytes, as MP4 files have them (ISO/IEC 14496-15), and gives
/// them in Annex B form, each behind a start code of four bytes: what an
/// [`AccessUnitReader`](super::AccessUnitReader) reads. Byte N of the one stream is byte N of the
/// other, but for those of lengths. It holds nothing of the stream.
///
/// Zeros at a unit's end are of no unit in Annex B form.
///
/// # Errors
///
/// `read` has those of reading, and where a unit can't be told by its length one that says at which
/// byte of the stream, which comes behind all that is before it and stays:
///
/// - `InvalidData` where a length is 0 or over the limit, or a unit holds a start code, `00 00 01`
///   (no unit does; the stream may be in Annex B form already);
/// - `UnexpectedEof` where the stream ends inside a length or a unit.
///
/// ```
/// use emupedestal::Codec;
/// use emupedestal::access_units::{AccessUnitReader, FromLengths};
///
/// let stream = [0, 0, 0, 3, 0x65, 0x88, 7, 0, 0, 0, 4, 0x41, 0x9a, 7, 9];
/// let mut reader = AccessUnitReader::new(Codec::H264, FromLengths::new(&stream[..]));
/// assert_eq!(reader.next_access_unit()?, Some(&[0, 0, 1, 0x65, 0x88, 7][..]));
/// assert_eq!(reader.next_access_unit()?, Some(&[0, 0, 1, 0x41, 0x9a, 7, 9][..]));
/// assert_eq!(reader.next_access_unit()?, None);
/// # Ok::<(), std::io::Error>(())
/// ```
#[derive(Debug)]
pub struct FromLengths<R> {
    from: R,
    limit: u32,
    /// How many bytes were passed on.
    position: u64,
    /// Where the length stands of the unit that comes.
    begin: u64,
    length: [u8; 4],
    /// How many bytes of the length came.
    known: usize,
    /// How many bytes of the unit came, and how many zeros at the end of these, 2 at most.
    came: u32,
    zeros: usize,
    refusal: Option<(ErrorKind, String)>,
}

impl<R: Read> FromLengths<R> {
    /// A reader that takes no unit longer than 256 MiB.
    pub fn new(from: R) -> Self {
        FromLengths::with_limit(from, LIMIT)
    }

    /// A reader that takes no unit longer than so many bytes.
    pub fn with_limit(from: R, limit: u32) -> Self {
        FromLengths {
            from,
            limit,
            position: 0,
            begin: 0,
            length: [0; 4],
            known: 0,
            came: 0,
            zeros: 0,
            refusal: None,
        }
    }

    /// Passes bytes on, up to a refusal, with start codes in the place of lengths; how many.
    fn pass(&mut self, bytes: &mut [u8]) -> usize {
        let mut passed = 0;
        while passed < bytes.len() && self.refusal.is_none() {
            let rest = &mut bytes[passed..];
            let count = match self.known {
                0..4 => self.pass_length(&mut rest[0]),
                _ => self.pass_unit(rest),
            };
            self.position += count as u64;
            passed += count;
        }
        passed
    }

    /// Passes on a byte of a length.
    fn pass_length(&mut self, byte: &mut u8) -> usize {
        if self.known == 0 {
            (self.begin, self.came, self.zeros) = (self.position, 0, 0);
        }
        self.length[self.known] = std::mem::replace(byte, ANNEXB_NALUSTART_CODE[self.known]);
        self.known += 1;
        if self.known == 4 {
            self.check_length();
        }
        1
    }

    fn check_length(&mut self) {
        let (begin, len, limit) = (self.begin, self.unit_len(), self.limit);
        if len == 0 {
            let what = format!("the length at byte {begin} is 0");
            self.refuse(ErrorKind::InvalidData, what);
        } else if len > limit {
            let what = format!(
                "the length at byte {begin} says that its unit has {len} bytes, more than the \
                 {limit} that one may have"
            );
            self.refuse(ErrorKind::InvalidData, what);
        }
    }

    fn unit_len(&self) -> u32 {
        u32::from_be_bytes(self.length)
    }

    /// Passes on what there is of a unit, up to a start code; how many bytes.
    fn pass_unit(&mut self, rest: &[u8]) -> usize {
        let left = (self.unit_len() - self.came) as usize;
        let piece = &rest[..rest.len().min(left)];
        if let Some((before, code)) = self.code_in(piece) {
            let (begin, at) = (self.begin, self.position + code as u64 - before as u64);
            let what = format!(
                "the unit behind the length at byte {begin} holds a start code, at byte {at}, \
                 which no unit does"
            );
            self.refuse(ErrorKind::InvalidData, what);
            return code;
        }
        self.zeros = match piece.iter().rev().take_while(|it| **it == 0).count() {
            all if all == piece.len() => (self.zeros + all).min(2),
            some => some.min(2),
        };
        self.came += piece.len() as u32;
        if piece.len() == left {
            self.known = 0;
        }
        piece.len()
    }

    /// Where a start code stands in a piece of a unit, and how many of its zeros before the piece.
    fn code_in(&self, piece: &[u8]) -> Option<(usize, usize)> {
        match (self.zeros, piece) {
            (2, [1, ..]) => Some((2, 0)),
            (1.., [0, 1, ..]) => Some((1, 0)),
            _ => start_code(piece, 0).map(|at| (0, at)),
        }
    }

    /// Refuses a stream that ends inside a length or a unit.
    fn check_end(&mut self) {
        let (begin, len, came) = (self.begin, self.unit_len(), self.came);
        let what = match self.known {
            0 => return,
            1..4 => format!("the length at byte {begin} is not whole"),
            _ => format!(
                "the length at byte {begin} says that its unit has {len} bytes, of which {came} \
                 are there"
            ),
        };
        self.refuse(ErrorKind::UnexpectedEof, what);
    }

    fn refuse(&mut self, kind: ErrorKind, what: String) {
        self.refusal = Some((kind, what));
    }
}

impl<R: Read> Read for FromLengths<R> {
    fn read(&mut self, to: &mut [u8]) -> io::Result<usize> {
        let mut passed = 0;
        if self.refusal.is_none() && !to.is_empty() {
            let read = self.from.read(to)?;
            passed = self.pass(&mut to[..read]);
            if read == 0 {
                self.check_end();
            }
        }
        match &self.refusal {
            Some((kind, what)) if passed == 0 => Err(io::Error::new(*kind, what.as_str())),
            _ => Ok(passed),
        }
    }
}
