//! What is answered to a row, as text.

use crate::proved::h26x_codec::Codec;
use crate::proved::h26x_core::{CodecExtra, PacketError};
use std::fmt::Debug;

/// The words of an answer.
#[derive(Default)]
pub(super) struct Said {
    words: Vec<String>,
}

impl Said {
    /// All words.
    pub(super) fn words(&self) -> &[String] {
        &self.words
    }

    /// A word as it is.
    pub(super) fn word(&mut self, word: &str) {
        self.words.push(word.to_owned());
    }

    /// What a value is as text.
    pub(super) fn value<T: Debug>(&mut self, value: T) {
        self.words.push(format!("{value:?}"));
    }

    /// Bytes in hexadecimal, `-` for none.
    pub(super) fn bytes(&mut self, bytes: &[u8]) {
        self.words.push(match bytes {
            [] => "-".to_owned(),
            bytes => bytes.iter().map(|byte| format!("{byte:02x}")).collect(),
        });
    }

    /// Each packet.
    pub(super) fn packets(&mut self, packets: &[Vec<u8>]) {
        for packet in packets {
            self.bytes(packet);
        }
    }

    /// Yes or no.
    pub(super) fn fact(&mut self, is_so: bool) {
        self.word(if is_so { "yes" } else { "no" });
    }

    /// What is told of keyframes, behind the codec where that is another than this one.
    pub(super) fn told(&mut self, codec: Option<Codec>, extra: CodecExtra) {
        let (told_of, is_keyframe) = match extra {
            CodecExtra::None => return self.word("nothing"),
            CodecExtra::H264(told) => (Codec::H264, told.is_keyframe),
            CodecExtra::H265(told) => (Codec::H265, told.is_keyframe),
            CodecExtra::H266(told) => (Codec::H266, told.is_keyframe),
        };
        if codec != Some(told_of) {
            self.value(told_of);
        }
        self.word(if is_keyframe { "key" } else { "no-key" });
    }

    /// A number, `-` for none.
    pub(super) fn number<T: Debug>(&mut self, number: Option<T>) {
        match number {
            Some(number) => self.value(number),
            None => self.word("-"),
        }
    }

    /// Why a call is refused, with its numbers.
    pub(super) fn refused(&mut self, error: PacketError) {
        match error {
            PacketError::ErrShortPacket => self.word("short"),
            PacketError::ErrH265CorruptedPacket => self.word("h265-corrupted"),
            PacketError::ErrH266CorruptedPacket => self.word("h266-corrupted"),
            PacketError::ErrH265PACIPHESTooLong => self.word("extension-too-long"),
            PacketError::AvcUnitTooLong => self.word("unit-too-long"),
            PacketError::OutOfMemory => self.word("out-of-memory"),
            PacketError::NaluTypeIsNotHandled(nalu_type) => {
                self.word("type");
                self.value(nalu_type);
            }
            PacketError::StapASizeLargerThanBuffer(size, left) => {
                self.word("size");
                self.value(size);
                self.word("of");
                self.value(left);
            }
        }
    }

    /// What became of a packet.
    pub(super) fn outcome(&mut self, outcome: Result<(), PacketError>) {
        match outcome {
            Ok(()) => self.word("taken"),
            Err(error) => self.refused(error),
        }
    }
}
