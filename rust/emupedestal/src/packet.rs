//! The two traits of the payload layer, as in str0m.

use crate::{CodecExtra, PacketError};
use alloc::vec::Vec;
use core::fmt;

/// Cuts encoded video into RTP payloads.
pub trait Packetizer: fmt::Debug {
    /// The RTP payloads of `b`, in order, each of at most `mtu` bytes.
    ///
    /// `b` is one NAL unit, or units behind start codes (Annex B). `mtu` doesn't count RTP's header
    /// and what is below it. Of H.265 and H.266 the largest packet size holds too, 1200 bytes at
    /// first, whatever the `mtu`: set it by `with_max_packet_size`.
    ///
    /// # Errors
    ///
    /// `OutOfMemory` alone, which leaves the packetizer as it is: the call can be made again.
    ///
    /// # What isn't sent
    ///
    /// Of what an encoder made [`packetize_units`](crate::H264Packetizer::packetize_units) sends every
    /// unit. Here some aren't sent, and no call says so, where
    ///
    /// - **a parameter set fits no packet**: sets are not fragmented. They go in one packet where they
    ///   fit it together, else each alone, and one that is longer than the limit (less 2 bytes where
    ///   packets bear decoding order numbers) is dropped. Set the limit above the longest set, or give
    ///   the sets to the peer in the session description, or send them by `packetize_unit`;
    /// - **there are several sets of a kind** before a picture: the latest of each kind goes, whatever
    ///   their ids. Send each by `packetize_unit`, or in the session description;
    /// - **a set comes alone**: a PPS waits until there is an SPS, an SPS until there is a PPS, and a
    ///   VPS until there are both, and pictures go without them meanwhile. Where an encoder changes
    ///   one alone, give the others again before it;
    /// - the unit is an access unit delimiter, or of H.266 of type 28 or 29;
    /// - **the limit is too small for fragments**: a unit that is longer than the limit is dropped
    ///   where that is under 3 bytes, or of H.265 and H.266 under 6 where packets bear decoding order
    ///   numbers. Under 4 bytes a call of H.265 and H.266 does nothing.
    ///
    /// A unit of H.265 or H.266 that is a bare header of two bytes, as an end of sequence, is sent, but
    /// depacketizers here refuse its packet as `ErrShortPacket`, which changes nothing. Leave it out,
    /// or pass over that refusal.
    fn packetize(&mut self, mtu: usize, b: &[u8]) -> Result<Vec<Vec<u8>>, PacketError>;

    /// Whether a packet bears the marker bit; `last` tells that it is the last of its access unit.
    ///
    /// Where an access unit is given to several calls of `packetize`, only the last packet of the last
    /// call is that.
    fn is_marker(&mut self, data: &[u8], previous: Option<&[u8]>, last: bool) -> bool;

    /// Whether the marker bit stands for the beginning of speech.
    fn marks_talkspurt(&self) -> bool {
        false
    }

    /// Whether a lost packet is worth asking for again.
    fn nackable(&self) -> bool {
        true
    }
}

/// Puts units together from RTP payloads.
///
/// It sees no sequence numbers: where a packet is missing between two fragments, what it writes of
/// their unit is damaged. [`SequencedDepacketizer`](crate::SequencedDepacketizer) sees them.
pub trait Depacketizer: fmt::Debug {
    /// About how many bytes the units of packets of this many bytes take when they are written: these
    /// bytes, four more, and four for each whole 1200 of them.
    ///
    /// It is no bound, since each unit of a short packet or an aggregate has four bytes before it: 50
    /// packets of 100 bytes write 5200, and the hint is 5020. Take it for a first size of a `Vec`,
    /// which grows, and not for a buffer that doesn't.
    fn out_size_hint(&self, packets_size: usize) -> Option<usize>;

    /// Takes a packet, and appends the units that it completes to `out`, each with four bytes before
    /// it: a start code, or its length.
    ///
    /// Begin `codec_extra` with `None` for each access unit: it tells of a keyframe where a packet
    /// completes a unit of one, or where it told so before. A recovery point without such a picture,
    /// as of intra refresh or of gradual decoding refresh, is none: look for it in the units.
    ///
    /// # Errors
    ///
    /// A packet that ends before what its type asks for, one with the forbidden bit set, one of a type
    /// that isn't read, a unit too long for its length, and want of memory: see [`PacketError`]. A
    /// refused packet changes nothing: not `out`, not `codec_extra`, not the depacketizer. The next one
    /// is taken as if it hadn't come, so pass it over and go on. One refused for want of memory can be
    /// given again.
    ///
    /// # Where packets are missing
    ///
    /// Nothing in a payload tells it: the unit is written without the data of the fragments that are
    /// missing, and `Ok(())` is answered. Give packets with their sequence numbers to a
    /// [`SequencedDepacketizer`](crate::SequencedDepacketizer), or call `give_up_run` wherever one is
    /// missing.
    ///
    /// # What a peer can make it hold
    ///
    /// The data of an open unit (the reassembly buffer): there is no limit, so a peer that starts a
    /// unit and never ends it makes the buffer as long as all that it sends. One of 2^20 bytes at most
    /// is kept for later units. `give_up_run` frees it; a `SequencedDepacketizer` has a limit.
    fn depacketize(
        &mut self,
        packet: &[u8],
        out: &mut Vec<u8>,
        codec_extra: &mut CodecExtra,
    ) -> Result<(), PacketError>;

    /// Whether a packet may be the first of an access unit: one of two bytes or more that is no
    /// fragment, or the first of its unit. So several packets of an access unit may be.
    fn is_partition_head(&self, packet: &[u8]) -> bool;

    /// Whether a packet is told to be the last of an access unit; `marker` is its marker bit.
    ///
    /// Of H.264 it is the marker. Of a fragment of H.265 or H.266 it is E, whatever the marker, and the
    /// marker of every other packet. E ends a unit, so an access unit has several such packets where
    /// several of its units are fragmented, as a long SEI message before a picture or the picture's
    /// slices. Whoever wants the end of the access unit looks at the marker alone.
    fn is_partition_tail(&self, marker: bool, packet: &[u8]) -> bool;
}
