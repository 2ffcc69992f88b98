//! What the server adds: which of its codecs are emupedestal's, and its errors and extras for those of
//! emupedestal.

use super::host::{self, BoxedDepacketizer, BoxedPacketizer, Codec, CodecExtra, PacketError};
use emupedestal::{
    H264CodecExtra, H264Depacketizer, H264Packetizer, H265CodecExtra, H265Depacketizer,
    H265Packetizer, H266CodecExtra, H266Depacketizer, H266Packetizer,
};

/// A box with an end of H.265 or H.266, which has decoding order numbers or none.
macro_rules! numbered {
    ($behind:ident, $end:ident, $sprop_max_don_diff:expr) => {{
        let mut end = $end::default();
        end.with_donl($sprop_max_don_diff.unwrap_or(0) > 0);
        Box::new($behind(end))
    }};
}

/// A packetizer of a stream, as a session description has it.
pub fn packetizer(codec: Codec, sprop_max_don_diff: Option<u32>) -> BoxedPacketizer {
    match codec {
        Codec::H264 => Box::new(Sends(H264Packetizer::default())),
        Codec::H265 => numbered!(Sends, H265Packetizer, sprop_max_don_diff),
        Codec::H266 => numbered!(Sends, H266Packetizer, sprop_max_don_diff),
        Codec::Opus => Box::new(host::Opus),
    }
}

/// A depacketizer of a stream, as a session description has it.
pub fn depacketizer(codec: Codec, sprop_max_don_diff: Option<u32>) -> BoxedDepacketizer {
    match codec {
        Codec::H264 => Box::new(Receives(H264Depacketizer::default())),
        Codec::H265 => numbered!(Receives, H265Depacketizer, sprop_max_don_diff),
        Codec::H266 => numbered!(Receives, H266Depacketizer, sprop_max_don_diff),
        Codec::Opus => Box::new(host::Opus),
    }
}

/// A packetizer of emupedestal behind the server's trait.
#[derive(Debug)]
struct Sends<P>(P);

impl<P: emupedestal::Packetizer> host::Packetizer for Sends<P> {
    fn packetize(&mut self, mtu: usize, b: &[u8]) -> Result<Vec<Vec<u8>>, PacketError> {
        Ok(self.0.packetize(mtu, b)?)
    }

    fn is_marker(&mut self, data: &[u8], previous: Option<&[u8]>, last: bool) -> bool {
        self.0.is_marker(data, previous, last)
    }

    fn marks_talkspurt(&self) -> bool {
        self.0.marks_talkspurt()
    }

    fn nackable(&self) -> bool {
        self.0.nackable()
    }
}

/// A depacketizer of emupedestal behind the server's trait.
#[derive(Debug)]
struct Receives<D>(D);

impl<D: emupedestal::Depacketizer> host::Depacketizer for Receives<D> {
    fn out_size_hint(&self, packets_size: usize) -> Option<usize> {
        self.0.out_size_hint(packets_size)
    }

    fn depacketize(
        &mut self,
        packet: &[u8],
        out: &mut Vec<u8>,
        codec_extra: &mut CodecExtra,
    ) -> Result<(), PacketError> {
        let mut extra = told(*codec_extra);
        self.0.depacketize(packet, out, &mut extra)?;
        tell(extra, codec_extra);
        Ok(())
    }

    fn is_partition_head(&self, packet: &[u8]) -> bool {
        self.0.is_partition_head(packet)
    }

    fn is_partition_tail(&self, marker: bool, packet: &[u8]) -> bool {
        self.0.is_partition_tail(marker, packet)
    }
}

/// What was told of a frame, as emupedestal has it. What another codec told counts for nothing there.
fn told(extra: CodecExtra) -> emupedestal::CodecExtra {
    use emupedestal::CodecExtra::{H264, H265, H266, None};
    match extra {
        CodecExtra::H264 { is_keyframe } => H264(H264CodecExtra { is_keyframe }),
        CodecExtra::H265 { is_keyframe } => H265(H265CodecExtra { is_keyframe }),
        CodecExtra::H266 { is_keyframe } => H266(H266CodecExtra { is_keyframe }),
        CodecExtra::None | CodecExtra::Opus => None,
    }
}

/// What emupedestal tells, as the server has it. Where it tells nothing, what was told stays.
fn tell(told: emupedestal::CodecExtra, extra: &mut CodecExtra) {
    *extra = match told {
        emupedestal::CodecExtra::H264(told) => CodecExtra::H264 {
            is_keyframe: told.is_keyframe,
        },
        emupedestal::CodecExtra::H265(told) => CodecExtra::H265 {
            is_keyframe: told.is_keyframe,
        },
        emupedestal::CodecExtra::H266(told) => CodecExtra::H266 {
            is_keyframe: told.is_keyframe,
        },
        _ => return,
    };
}

/// `AvcUnitTooLong` and `OutOfMemory` are those that a server with str0m's errors hasn't.
impl From<emupedestal::PacketError> for PacketError {
    fn from(error: emupedestal::PacketError) -> Self {
        use emupedestal::PacketError as Theirs;
        match error {
            Theirs::ErrShortPacket => PacketError::ErrShortPacket,
            Theirs::NaluTypeIsNotHandled(t) => PacketError::NaluTypeIsNotHandled(t),
            Theirs::StapASizeLargerThanBuffer(len, left) => {
                PacketError::StapASizeLargerThanBuffer(len, left)
            }
            Theirs::ErrH265CorruptedPacket => PacketError::ErrH265CorruptedPacket,
            Theirs::ErrH265PACIPHESTooLong => PacketError::ErrH265PACIPHESTooLong,
            Theirs::ErrH266CorruptedPacket => PacketError::ErrH266CorruptedPacket,
            Theirs::AvcUnitTooLong => PacketError::AvcUnitTooLong,
            Theirs::OutOfMemory => PacketError::OutOfMemory,
            _ => PacketError::Other,
        }
    }
}
