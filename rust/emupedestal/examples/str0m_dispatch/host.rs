//! A media server's own payload layer: its errors, extras and traits, and a codec that it has itself. The traits have
//! the methods of str0m 0.25.0, which `tools/compare-with-str0m` looks up in that crate.

use std::fmt;
use std::panic::UnwindSafe;

/// A codec of the server.
#[derive(Debug, Clone, Copy, PartialEq, Eq)]
pub enum Codec {
    H264,
    H265,
    H266,
    Opus,
}

/// Why a call is refused. The last two are what emupedestal adds.
#[derive(Debug, Clone, Copy, PartialEq, Eq)]
pub enum PacketError {
    ErrShortPacket,
    NaluTypeIsNotHandled(u8),
    StapASizeLargerThanBuffer(usize, usize),
    ErrH265CorruptedPacket,
    ErrH265PACIPHESTooLong,
    ErrH266CorruptedPacket,
    AvcUnitTooLong,
    OutOfMemory,
    /// Any error that a later version has.
    Other,
}

/// What is told of a frame: of video, whether it is a keyframe.
#[derive(Debug, Clone, Copy, PartialEq, Eq)]
pub enum CodecExtra {
    None,
    H264 { is_keyframe: bool },
    H265 { is_keyframe: bool },
    H266 { is_keyframe: bool },
    Opus,
}

impl CodecExtra {
    /// Whether decoding can begin here.
    pub fn is_keyframe(&self) -> bool {
        match self {
            CodecExtra::None => false,
            CodecExtra::H264 { is_keyframe }
            | CodecExtra::H265 { is_keyframe }
            | CodecExtra::H266 { is_keyframe } => *is_keyframe,
            CodecExtra::Opus => true,
        }
    }
}

/// Cuts a frame into RTP payloads.
pub trait Packetizer: fmt::Debug {
    fn packetize(&mut self, mtu: usize, b: &[u8]) -> Result<Vec<Vec<u8>>, PacketError>;

    fn is_marker(&mut self, data: &[u8], previous: Option<&[u8]>, last: bool) -> bool;

    fn marks_talkspurt(&self) -> bool {
        false
    }

    fn nackable(&self) -> bool {
        true
    }
}

/// Puts a frame together from RTP payloads.
pub trait Depacketizer: fmt::Debug {
    fn out_size_hint(&self, packets_size: usize) -> Option<usize>;

    fn depacketize(
        &mut self,
        packet: &[u8],
        out: &mut Vec<u8>,
        codec_extra: &mut CodecExtra,
    ) -> Result<(), PacketError>;

    fn is_partition_head(&self, packet: &[u8]) -> bool;

    fn is_partition_tail(&self, marker: bool, packet: &[u8]) -> bool;
}

/// The boxes in which the server keeps them, one for each stream.
pub type BoxedPacketizer = Box<dyn Packetizer + Send + Sync + UnwindSafe>;
pub type BoxedDepacketizer = Box<dyn Depacketizer + Send + Sync + UnwindSafe>;

/// Audio of which a packet holds a frame.
#[derive(Debug)]
pub struct Opus;

impl Packetizer for Opus {
    fn packetize(&mut self, _mtu: usize, b: &[u8]) -> Result<Vec<Vec<u8>>, PacketError> {
        Ok(vec![b.to_vec()])
    }

    fn is_marker(&mut self, _data: &[u8], _previous: Option<&[u8]>, last: bool) -> bool {
        last
    }

    fn nackable(&self) -> bool {
        false
    }
}

impl Depacketizer for Opus {
    fn out_size_hint(&self, packets_size: usize) -> Option<usize> {
        Some(packets_size)
    }

    fn depacketize(
        &mut self,
        packet: &[u8],
        out: &mut Vec<u8>,
        codec_extra: &mut CodecExtra,
    ) -> Result<(), PacketError> {
        if packet.is_empty() {
            return Err(PacketError::ErrShortPacket);
        }
        out.extend_from_slice(packet);
        *codec_extra = CodecExtra::Opus;
        Ok(())
    }

    fn is_partition_head(&self, _packet: &[u8]) -> bool {
        true
    }

    fn is_partition_tail(&self, _marker: bool, _packet: &[u8]) -> bool {
        true
    }
}
