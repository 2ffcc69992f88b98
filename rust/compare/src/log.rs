//! What calls answered, in words that both sides have.

use emupedestal::{Codec, CodecExtra, H265Payload, PacketError, Received as Became};
use std::fmt::{Debug, Write};

/// The code of a refusal in `h26x.h`, and its numbers.
pub type Outcome = (u32, usize, usize);

/// What became of a packet with a number, and the number that it speaks of, as `h26x.h` has them.
pub type Received = (u32, u16);

/// A part of a packet that is shown, and the number before it.
pub type Part = (Option<u16>, Vec<u8>);

/// A packet of H.265 in numbers, and its parts.
pub type Shows = (u32, u16, u16, Vec<Part>);

/// What calls answered.
#[derive(Debug, Default, PartialEq, Eq)]
pub struct Log {
    pub calls: u64,
    lines: Vec<String>,
}

impl Log {
    pub fn say(&mut self, of: &str, answer: impl Debug) {
        self.calls += 1;
        let mut line = String::new();
        write!(line, "{of}: {answer:?}").expect("memory");
        self.lines.push(line);
    }

    /// A sum of the answers (FNV-1a).
    pub fn sum(&self) -> u64 {
        let bytes = self
            .lines
            .iter()
            .flat_map(|line| line.bytes().chain([b'\n']));
        bytes.fold(0xcbf2_9ce4_8422_2325, |sum: u64, byte| {
            (sum ^ u64::from(byte)).wrapping_mul(0x0100_0000_01b3)
        })
    }

    /// The first line that differs.
    pub fn difference(&self, other: &Log) -> String {
        let both = self.lines.iter().zip(&other.lines);
        let at = both.take_while(|(a, b)| a == b).count();
        let line = |log: &Log| log.lines.get(at).cloned().unwrap_or_default();
        format!(
            "line {at}\n  crate   {}\n  library {}",
            line(self),
            line(other)
        )
    }
}

pub fn number(codec: Codec) -> u32 {
    match codec {
        Codec::H264 => 264,
        Codec::H265 => 265,
        Codec::H266 => 266,
    }
}

pub fn code(error: PacketError) -> Outcome {
    match error {
        PacketError::ErrShortPacket => (1, 0, 0),
        PacketError::NaluTypeIsNotHandled(nalu_type) => (2, nalu_type.into(), 0),
        PacketError::StapASizeLargerThanBuffer(length, left) => (3, length, left),
        PacketError::ErrH265CorruptedPacket => (4, 0, 0),
        PacketError::ErrH265PACIPHESTooLong => (5, 0, 0),
        PacketError::ErrH266CorruptedPacket => (6, 0, 0),
        PacketError::AvcUnitTooLong => (7, 0, 0),
        PacketError::OutOfMemory => (8, 0, 0),
        _ => (u32::MAX, 0, 0),
    }
}

pub fn outcome(answer: Result<(), PacketError>) -> Outcome {
    answer.map_or_else(code, |()| (0, 0, 0))
}

pub fn became(it: Became) -> Received {
    match it {
        Became::InOrder => (0, 0),
        Became::Gap(count) => (1, count),
        Became::TooLong(count) => (2, count),
        Became::Late(count) => (3, count),
    }
}

/// What is told of units of a codec; 9 where it is told of another one's.
pub fn told(codec: Codec, extra: CodecExtra) -> u8 {
    match (codec, extra) {
        (_, CodecExtra::None) => 0,
        (Codec::H264, CodecExtra::H264(it)) => 1 + u8::from(it.is_keyframe),
        (Codec::H265, CodecExtra::H265(it)) => 1 + u8::from(it.is_keyframe),
        (Codec::H266, CodecExtra::H266(it)) => 1 + u8::from(it.is_keyframe),
        _ => 9,
    }
}

pub fn shows(payload: &H265Payload) -> Shows {
    match payload {
        H265Payload::H265SingleNALUnitPacket(p) => (
            1,
            p.payload_header().0,
            0,
            vec![(p.donl(), p.payload().to_vec())],
        ),
        H265Payload::H265FragmentationUnitPacket(p) => {
            let parts = vec![(p.donl(), p.payload().to_vec())];
            (2, p.payload_header().0, p.fu_header().0.into(), parts)
        }
        H265Payload::H265AggregationPacket(p) => {
            let first = p.first_unit().map(|it| it.donl());
            let others = p.other_units().iter().map(|it| it.dond().map(u16::from));
            let units = p.nal_units().into_iter().map(<[u8]>::to_vec);
            (
                3,
                0,
                0,
                first.into_iter().chain(others).zip(units).collect(),
            )
        }
        H265Payload::H265PACIPacket(p) => {
            let parts = [p.phes(), p.payload()].map(|it| (None, it.to_vec()));
            (4, p.payload_header().0, p.fields(), parts.into())
        }
    }
}
