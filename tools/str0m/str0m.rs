//! str0m's files, as they are, and what they need of the rest of str0m: stubs of our own.

use h264::H264CodecExtra;
use h265::H265CodecExtra;
use h266::H266CodecExtra;

/// What these files implement, with str0m's signatures.
pub trait Packetizer: std::fmt::Debug {
    fn packetize(&mut self, mtu: usize, b: &[u8]) -> Result<Vec<Vec<u8>>, PacketError>;
    fn is_marker(&mut self, data: &[u8], previous: Option<&[u8]>, last: bool) -> bool;
}

/// The same of depacketizers.
pub trait Depacketizer: std::fmt::Debug {
    fn out_size_hint(&self, packets_size: usize) -> Option<usize>;
    fn depacketize(
        &mut self,
        packet: &[u8],
        out: &mut Vec<u8>,
        codec_extra: &mut CodecExtra,
    ) -> Result<(), PacketError>;
    fn is_partition_head(&self, packet: &[u8]) -> bool;
    fn is_partition_tail(&self, marker: bool, packet: &[u8]) -> bool;
}

include!(concat!(env!("OUT_DIR"), "/str0m.rs"));

/// Why a call is refused: the errors that these files name.
#[derive(Debug, Clone, Copy, PartialEq, Eq)]
pub enum PacketError {
    ErrShortPacket,
    NaluTypeIsNotHandled(u8),
    StapASizeLargerThanBuffer(usize, usize),
    ErrH265CorruptedPacket,
    ErrInvalidH265PacketType,
    ErrH265PACIPHESTooLong,
    ErrH266CorruptedPacket,
}

/// What is told of the units that were written: the variants of these files.
#[derive(Debug, Clone, Copy, PartialEq, Eq)]
pub enum CodecExtra {
    None,
    H264(H264CodecExtra),
    H265(H265CodecExtra),
    H266(H266CodecExtra),
}
