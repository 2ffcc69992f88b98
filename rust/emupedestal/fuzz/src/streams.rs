//! Streams cut into units and access units, and units behind lengths.

use crate::input::Input;
use crate::text::text_of;
use emupedestal::access_units::{AccessUnitReader, FromLengths, access_units};
use emupedestal::{Codec, units};
use std::io::{self, ErrorKind, Read};

/// Gives bytes in pieces, and between two of them an error once and again.
struct Pieces<'a> {
    rest: &'a [u8],
    /// How long the pieces are, over and over.
    lens: &'a [u8],
    count: usize,
}

impl Read for Pieces<'_> {
    fn read(&mut self, to: &mut [u8]) -> io::Result<usize> {
        let len = *self
            .lens
            .get(self.count % self.lens.len().max(1))
            .unwrap_or(&255);
        self.count += 1;
        match len {
            0 if self.count % 3 == 0 => Err(ErrorKind::WouldBlock.into()),
            0 => Err(ErrorKind::Interrupted.into()),
            _ => {
                let len = usize::from(len).min(to.len()).min(self.rest.len());
                let (front, rest) = self.rest.split_at(len);
                to[..len].copy_from_slice(front);
                self.rest = rest;
                Ok(len)
            }
        }
    }
}

/// Pieces of the lengths that an input says, at least one of which isn't 0, and then of the rest of the input.
fn pieces_of<'a>(input: &mut Input<'a>) -> Pieces<'a> {
    let lens = input.bytes();
    let lens = if lens.iter().all(|len| *len == 0) {
        &[255][..]
    } else {
        lens
    };
    Pieces {
        rest: input.rest(),
        lens,
        count: 0,
    }
}

fn start_code(bytes: &[u8]) -> Option<usize> {
    bytes.windows(3).position(|it| it == [0, 0, 1])
}

fn without_zeros(bytes: &[u8]) -> &[u8] {
    let len = bytes
        .iter()
        .rposition(|byte| *byte != 0)
        .map_or(0, |last| last + 1);
    &bytes[..len]
}

/// Whether bytes are start codes, one behind the other and none, each with the zeros before it.
fn are_start_codes(bytes: &[u8]) -> bool {
    let mut rest = bytes;
    while let Some(zeros) = rest.iter().position(|byte| *byte != 0) {
        if zeros < 2 || rest[zeros] != 1 {
            return false;
        }
        rest = &rest[zeros + 1..];
    }
    rest.is_empty()
}

/// The units of a payload stand in it in order, hold no start code, and as a text they are cut the same.
pub fn check_units(codec: Codec, payload: &[u8]) {
    let found: Vec<&[u8]> = units(codec, payload).collect();
    let mut rest = payload;
    for (i, unit) in found.iter().enumerate() {
        assert!(!unit.is_empty() && start_code(unit).is_none());
        let between = &rest[..unit.as_ptr() as usize - rest.as_ptr() as usize];
        if i > 0 {
            assert!(
                !between.is_empty() && are_start_codes(between),
                "start codes between them"
            );
        }
        rest = &rest[between.len() + unit.len()..];
    }
    assert!(found.is_empty() || are_start_codes(rest), "none is left");
    match start_code(payload) {
        None => assert_eq!(found.concat(), payload),
        Some(_) if codec != Codec::H266 => {
            let before_last = found.len().saturating_sub(1);
            assert!(
                found[..before_last]
                    .iter()
                    .all(|unit| !unit.ends_with(&[0]))
            );
        }
        Some(_) => {}
    }
    let text = text_of(false, &found);
    assert_eq!(units(codec, &text).collect::<Vec<_>>(), found);
}

/// A stream that is read in pieces has the same access units as the whole one.
pub fn check_access_units(codec: Codec, mut input: Input) {
    let pieces = pieces_of(&mut input);
    let stream = pieces.rest;
    let whole: Vec<&[u8]> = access_units(codec, stream).collect();
    assert_eq!(whole.concat(), stream, "nothing is left out");
    assert!(whole.iter().all(|it| !it.is_empty()));

    let mut reader = AccessUnitReader::new(codec, pieces);
    let mut read = Vec::new();
    let end = loop {
        match reader.next_access_unit() {
            Ok(Some(unit)) => read.push(unit.to_vec()),
            Ok(None) => break Ok(()),
            Err(error) if error.kind() == ErrorKind::WouldBlock => {}
            Err(error) => break Err(error.kind()),
        }
    };
    let begins = match start_code(stream) {
        Some(at) => without_zeros(&stream[..at]).is_empty(),
        None => without_zeros(stream).is_empty(),
    };
    if begins {
        let wanted = whole
            .iter()
            .filter_map(|it| Some(without_zeros(&it[start_code(it)?..])));
        assert_eq!(end, Ok(()));
        assert!(
            read.iter().map(Vec::as_slice).eq(wanted),
            "in pieces it is the same"
        );
        assert_eq!(reader.next_access_unit().expect("the end"), None);
    } else {
        assert_eq!((end, read.len()), (Err(ErrorKind::InvalidData), 0));
    }
}

/// What must come of units behind lengths: bytes, and the error behind them.
fn from_lengths(stream: &[u8], limit: u32) -> (Vec<u8>, Option<ErrorKind>) {
    let mut text = Vec::new();
    let mut rest = stream;
    while !rest.is_empty() {
        let Some((len, behind)) = rest.split_first_chunk::<4>() else {
            text.extend_from_slice(&[0; 3][..rest.len()]);
            return (text, Some(ErrorKind::UnexpectedEof));
        };
        text.extend_from_slice(&[0, 0, 0, 1]);
        let len = u32::from_be_bytes(*len);
        if len == 0 || len > limit {
            return (text, Some(ErrorKind::InvalidData));
        }
        let (unit, behind) = behind.split_at(behind.len().min(len as usize));
        if let Some(at) = start_code(unit) {
            text.extend_from_slice(&unit[..at]);
            return (text, Some(ErrorKind::InvalidData));
        }
        text.extend_from_slice(unit);
        if unit.len() < len as usize {
            return (text, Some(ErrorKind::UnexpectedEof));
        }
        rest = behind;
    }
    (text, None)
}

/// Units behind lengths come behind start codes, up to the first that can't be told.
pub fn check_lengths(mut input: Input) {
    let limit = u32::from(input.word());
    let pieces = pieces_of(&mut input);
    let (wanted, refusal) = from_lengths(pieces.rest, limit);
    let mut reader = FromLengths::with_limit(pieces, limit);
    let mut text = Vec::new();
    let mut room = [0; 300];
    let end = loop {
        match reader.read(&mut room) {
            Ok(0) => break None,
            Ok(count) => text.extend_from_slice(&room[..count]),
            Err(error)
                if matches!(error.kind(), ErrorKind::WouldBlock | ErrorKind::Interrupted) => {}
            Err(error) => break Some(error.kind()),
        }
    };
    assert_eq!(end, refusal);
    // Zeros of a start code within a unit may have been given out before the code was whole.
    let zeros = text
        .strip_prefix(&wanted[..])
        .expect("all that is before it");
    let most = if refusal == Some(ErrorKind::InvalidData) {
        2
    } else {
        0
    };
    assert!(zeros.len() <= most && without_zeros(zeros).is_empty());
    if let Some(kind) = refusal {
        let again = reader.read(&mut room).map_err(|it| it.kind());
        assert_eq!(again, Err(kind), "it stays");
    }
}
