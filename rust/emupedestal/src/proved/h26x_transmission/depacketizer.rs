// Made from crates/h26x_transmission/src/depacketizer.rt by tools/to-rust.

//! A depacketizer of any codec, or a caller's own.

use crate::Codec;
use crate::H264Depacketizer;
use crate::H265Depacketizer;
use crate::H266Depacketizer;
use crate::{CodecExtra, Depacketizer, PacketError};
use alloc::{boxed::Box, vec::Vec};
use core::panic::UnwindSafe;

/// A depacketizer of one of the codecs (RFC 6184, RFC 7798, RFC 9328), or a caller's own in a box.
///
/// Every call goes to the depacketizer that it holds.
#[derive(Debug)]
pub enum CodecDepacketizer {
    /// Receives H.264 (RFC 6184).
    H264(H264Depacketizer),
    /// Receives H.265 (RFC 7798).
    H265(H265Depacketizer),
    /// Receives H.266 (RFC 9328).
    H266(H266Depacketizer),
    /// A caller's own depacketizer. Nothing is known of it but the laws of [`Depacketizer`].
    Boxed(Box<dyn Depacketizer + Send + Sync + UnwindSafe>),
}

impl CodecDepacketizer {
    /// A depacketizer of a codec that reads packets without decoding order numbers, writes start
    /// codes and has no run open; of H.265 it shows the empty single NAL unit packet.
    #[inline]
    pub fn new(codec: Codec) -> Self {
        match codec {
            Codec::H264 => CodecDepacketizer::H264(H264Depacketizer::new()),
            Codec::H265 => CodecDepacketizer::H265(H265Depacketizer::new()),
            Codec::H266 => CodecDepacketizer::H266(H266Depacketizer::new()),
        }
    }

    /// Gives up the open run of a codec, if there is one, and gives its buffer back, and of H.265 the
    /// memory that is kept for what `payload` will show; one in a box stays as it is. It takes no
    /// memory.
    ///
    /// A run grows by every fragment until one ends it: a caller that will not hold so much calls
    /// this. Fragments that follow without a start are accepted and complete nothing. A run that ends
    /// leaves its buffer for later ones, if that has 2^20 bytes at most.
    #[inline]
    pub fn give_up_run(&mut self) {
        match self {
            CodecDepacketizer::H264(it) => it.give_up_run(),
            CodecDepacketizer::H265(it) => it.give_up_run(),
            CodecDepacketizer::H266(it) => it.give_up_run(),
            CodecDepacketizer::Boxed(_) => {}
        }
    }
}

impl Depacketizer for CodecDepacketizer {
    /// How many bytes the units of packets of this many bytes may take when they are written. Of a
    /// codec: these bytes, four more, and four for each whole 1200 of them; at most `usize::MAX`.
    fn out_size_hint(&self, packets_size: usize) -> Option<usize> {
        match self {
            CodecDepacketizer::H264(it) => it.out_size_hint(packets_size),
            CodecDepacketizer::H265(it) => it.out_size_hint(packets_size),
            CodecDepacketizer::H266(it) => it.out_size_hint(packets_size),
            CodecDepacketizer::Boxed(it) => it.out_size_hint(packets_size),
        }
    }

    /// Appends the units that `packet` completes to `out`, and tells of them in `codec_extra`, as
    /// the depacketizer that it holds does. One of H.265 then shows the packet.
    ///
    /// A refusal leaves `out`, `codec_extra` and what later answers depend on, and of H.265 what is
    /// shown; the errors are those of the depacketizer that it holds.
    fn depacketize(
        &mut self,
        packet: &[u8],
        out: &mut Vec<u8>,
        codec_extra: &mut CodecExtra,
    ) -> Result<(), PacketError> {
        match self {
            CodecDepacketizer::H264(it) => it.depacketize(packet, out, codec_extra),
            CodecDepacketizer::H265(it) => it.depacketize(packet, out, codec_extra),
            CodecDepacketizer::H266(it) => it.depacketize(packet, out, codec_extra),
            CodecDepacketizer::Boxed(it) => it.depacketize(packet, out, codec_extra),
        }
    }

    /// Whether `packet` may be the first of an access unit, as the depacketizer that it holds says.
    fn is_partition_head(&self, packet: &[u8]) -> bool {
        match self {
            CodecDepacketizer::H264(it) => it.is_partition_head(packet),
            CodecDepacketizer::H265(it) => it.is_partition_head(packet),
            CodecDepacketizer::H266(it) => it.is_partition_head(packet),
            CodecDepacketizer::Boxed(it) => it.is_partition_head(packet),
        }
    }

    /// Whether `packet` is the last of an access unit, with the marker bit of its RTP packet given,
    /// as the depacketizer that it holds says.
    fn is_partition_tail(&self, marker: bool, packet: &[u8]) -> bool {
        match self {
            CodecDepacketizer::H264(it) => it.is_partition_tail(marker, packet),
            CodecDepacketizer::H265(it) => it.is_partition_tail(marker, packet),
            CodecDepacketizer::H266(it) => it.is_partition_tail(marker, packet),
            CodecDepacketizer::Boxed(it) => it.is_partition_tail(marker, packet),
        }
    }
}
