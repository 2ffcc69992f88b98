//! H.264, H.265 and H.266 as RTP payloads (RFC 6184, RFC 7798, RFC 9328): ordinary safe Rust, made from
//! sources that are proved to meet their contracts.
//!
//! A packetizer cuts encoded video into RTP payloads within a limit, and a depacketizer puts the
//! units together again, whatever packets a stranger sends. The traits and types are those of str0m's
//! payload layer. RTP's header, retransmissions (RTX) and redundant payloads (RED) are read and written by [`rtp`]. An
//! [`RtpSender`](rtp_sender::RtpSender) and an [`RtpReceiver`](rtp_receiver::RtpReceiver) stand over it.
//!
//! ```
//! use emupedestal::{CodecExtra, Depacketizer, H264Depacketizer, H264Packetizer, Packing};
//!
//! // An SPS, a PPS and a slice of an IDR picture, behind start codes.
//! let frame = [
//!     0, 0, 0, 1, 0x67, 0x42, 0xc0, 0x1f, 0, 0, 0, 1, 0x68, 0xce, 0, 0, 0, 1, 0x65, 0x88, 0x84,
//! ];
//! let mut packetizer = H264Packetizer::default();
//! let packets = packetizer.packetize_access_unit(Packing::Together, 1200, &frame)?;
//! assert_eq!(packets.len(), 1); // all three in a STAP-A
//!
//! let mut depacketizer = H264Depacketizer::default();
//! let (mut out, mut extra) = (Vec::new(), CodecExtra::None);
//! for packet in &packets {
//!     depacketizer.depacketize(packet, &mut out, &mut extra)?;
//! }
//! assert_eq!(out, frame);
//! assert!(matches!(extra, CodecExtra::H264(told) if told.is_keyframe));
//! # Ok::<(), Box<dyn std::error::Error>>(())
//! ```
//!
//! [`packetize_units`](H264Packetizer::packetize_units) says when to send so, and when by [`Packetizer::packetize`].
//!
//! A depacketizer is given packets as they come. Where some of them may be missing, which over a
//! network is always, give them to a [`SequencedDepacketizer`] with their sequence numbers: it writes
//! no unit of which a packet is missing, and no peer makes it hold more than a limit and a packet.
//!
//! [`CodecPacketizer`] and [`CodecDepacketizer`] are those of a codec that is chosen while the program runs, or a
//! caller's own in a box; [`take_all`] gives many packets to one, and [`transmission`] has payloads go through both
//! ends. [`H264ProfileLevel`], [`H265ProfileTierLevel`] and [`H266ProfileTierLevel`] read profiles and levels out of SDP,
//! and with the feature `sdp` the module `sdp` all parameters of a format.
//!
//! An [`AccessUnitReceiver`] takes packets as a network brings them and gives out pictures, each with what is
//! known of it. It is a [`ReorderBuffer`], which puts packets in their order, and an [`AccessUnitAssembler`] behind it.
//! [`access_units`] cuts a stream in Annex B form, or behind lengths, into access units, also one that is read piece by
//! piece.
//!
//! No call panics on bytes, whatever they are.
//!
//! # What a real stream meets
//!
//! Each of these stands, with what to do, at the call that it is of.
//!
//! - Parameter sets that fit no packet are dropped, and of several sets of a kind before a picture the
//!   latest goes; no call says so: [`Packetizer::packetize`]. By
//!   [`packetize_units`](H264Packetizer::packetize_units) every unit goes, or the first that can't is named.
//! - Packets of H.265 and H.266 have at most 1200 bytes, whatever the `mtu`, unless
//!   [`with_max_packet_size`](H265Packetizer::with_max_packet_size) says so.
//! - Where a packet is lost, its unit is written damaged; a [`SequencedDepacketizer`] leaves such units
//!   out: [`Depacketizer::depacketize`].
//! - A refused packet is that packet's alone: pass it over ([`PacketError`]).
//! - A stranger's unit may hold a start code, of which a reader of its Annex B text finds another unit:
//!   [`Codec::is_plain_unit`], asked of units behind lengths (`is_avc`).
//! - A peer that ends no unit makes a depacketizer hold all that it sends:
//!   [`give_up_run`](H264Depacketizer::give_up_run), [`SequencedDepacketizer::new`].
//! - The hint of a size is no bound ([`Depacketizer::out_size_hint`]), and an access unit of H.265 or
//!   H.266 may have several packets that are told to be its last
//!   ([`Depacketizer::is_partition_tail`]).
//! - A keyframe is a picture where decoding can begin at once; other recovery points are none
//!   ([`CodecExtra`]).
//!
//! # Words
//!
//! *Numbers* are decoding order numbers: DON, of which packets bear DONL and DOND where
//! `sprop-max-don-diff` is over 0. Those of RTP's header are sequence numbers. The *open unit* is what
//! came so far of a unit in fragments: its reassembly buffer, also called the run. *Sets* are parameter
//! sets: VPS, SPS and PPS. *Behind lengths* are units as MP4 files have them (AVC format), and behind
//! start codes those of Annex B.
//!
//! # Threads
//!
//! Every type is `Send`, `Sync` and `UnwindSafe`, and all but [`CodecPacketizer`] and
//! [`CodecDepacketizer`], in whose boxes anything may be, are `RefUnwindSafe`.
//!
//! # Memory
//!
//! Where there is none, [`Packetizer::packetize`] and its like, [`Depacketizer::depacketize`],
//! [`SequencedDepacketizer::receive`], [`ReorderBuffer::push`] and [`AccessUnitAssembler::receive`] answer
//! `OutOfMemory` and change nothing; `clone` has no such answer and panics or aborts.
//!
//! # Features
//!
//! - `std`, on unless it is turned off: streams that are read ([`access_units`]), and `from_fmtp`. Without it
//!   the crate needs `alloc` alone.
//! - `sdp`: payload types and format parameters of SDP (the module `sdp`), by the crate `data-encoding`.
//! - `serde`: its traits for profiles, tiers and levels, header words, [`Codec`] and [`CodecExtra`], and parameters of
//!   SDP as the texts that they are.
//!
//! # What is proved
//!
//! The sources in Rattle, Rust with contracts, of which `tools/to-rust` of the repository made the modules
//! below `proved`, for targets of 64 bits: no index is out of range, no sum wraps, each call ends, what is
//! sent is received, and over a network that loses, repeats and delays packets nothing damaged is written.
//! On targets of 32 bits it is only tested.
//!
//! Trusted are that translation, which drops contracts and writes fallible calls as std has them, rustc with
//! std, memchr, and of base64 data-encoding. The modules beside `proved` are written by hand and only tested. All is compared with the
//! proved library, built by Rattle's own compiler, by drawn calls.

#![cfg_attr(not(feature = "std"), no_std)]
#![forbid(unsafe_code)]
#![warn(missing_docs)]

#[cfg(target_pointer_width = "16")]
compile_error!("`usize` has 64 bits where this is proved, and 32 where it is only tested");

extern crate alloc;

pub mod access_unit_receiver;
pub mod access_units;
mod assembler;
mod codec;
mod codec_depacketizer;
mod codec_packetizer;
mod depacketizer;
pub mod h265_types;
pub mod h266_types;
mod look;
mod packet;
mod packetizer;
mod packets;
mod profile;
// What the layer doesn't import stays, as it was proved, and so do forms that Rust has shorter.
#[allow(missing_docs, unused_imports)]
#[cfg_attr(not(all(feature = "std", feature = "sdp")), allow(dead_code))]
#[allow(clippy::explicit_auto_deref, clippy::explicit_counter_loop)]
#[allow(clippy::manual_find, clippy::manual_map, clippy::manual_range_contains)]
#[allow(clippy::manual_unwrap_or_default, clippy::mem_replace_option_with_some)]
#[allow(clippy::needless_lifetimes)]
#[allow(clippy::needless_range_loop, clippy::nonminimal_bool)]
#[allow(clippy::ptr_arg, clippy::question_mark, clippy::too_many_arguments)]
mod proved;
pub mod rtp;
pub mod rtp_receiver;
pub mod rtp_sender;
#[cfg(feature = "sdp")]
pub mod sdp;
mod sequenced;
mod shown;
mod support;
pub mod transmission;

#[cfg(all(test, feature = "std"))]
mod tests;

pub use access_unit_receiver::{AccessUnitConfig, AccessUnitReceiver, NackTimes};
pub use assembler::AccessUnitAssembler;
pub use depacketizer::{H264Depacketizer, H265Depacketizer, H266Depacketizer};
pub use look::{AvcUnits, Units, avc_units, detect_keyframe, next_unit, set_lowest_header, units};
pub use packet::{Depacketizer, Packetizer};
pub use packetizer::{H264Packetizer, H265Packetizer, H266Packetizer};
pub use packets::{PacketIter, Packets};
pub use profile::{H264LevelIdc, H264Profile, H264ProfileIdc, H264ProfileLevel};
pub use profile::{H265Level, H265Profile, H265ProfileTierLevel, H265Tier};
pub use profile::{H266Level, H266Profile, H266ProfileTierLevel, H266Tier};
pub use profile::{Numbered, ProfileTierLevel};
pub use proved::h26x_assembler::AccessUnit;
pub use proved::h26x_codec::Codec;
pub use proved::h26x_core::{
    ANNEXB_NALUSTART_CODE, AUD_NALU_TYPE, FILLER_NALU_TYPE, FU_END_BITMASK, FU_START_BITMASK,
    FUA_HEADER_SIZE, FUA_NALU_TYPE, FUB_NALU_TYPE, IDR_NALU_TYPE, NALU_REF_IDC_BITMASK,
    NALU_TYPE_BITMASK, OUTPUT_STAP_AHEADER, PPS_NALU_TYPE, SPS_NALU_TYPE, STAPA_HEADER_SIZE,
    STAPA_NALU_LENGTH_SIZE, STAPA_NALU_TYPE,
};
pub use proved::h26x_core::{
    CodecExtra, H264CodecExtra, H265CodecExtra, H266CodecExtra, PacketError,
};
pub use proved::h26x_core::{H265FragmentationUnitHeader, H265NALUHeader, H265TSCI};
pub use proved::h26x_core::{H266FragmentationUnitHeader, H266NALUHeader};
pub use proved::h26x_packetizer::{EveryUnitError, PacketsSize, Packing, RefusedUnit, WhyRefused};
pub use proved::h26x_receiver::Received;
pub use proved::h26x_reorder::{
    HeldPacket, NotHeld, NotHeldReason, Pushed, ReorderBuffer, RtpPacket,
};
pub use proved::h26x_transmission::{CodecDepacketizer, CodecPacketizer};
pub use proved::h264_payload::{detect_h264_keyframe, detect_h264_nalu};
pub use proved::h265_packets::{
    H265AggregationPacket, H265AggregationUnit, H265AggregationUnitFirst,
    H265FragmentationUnitPacket, H265PACIPacket, H265Payload, H265SingleNALUnitPacket,
};
pub use proved::h265_payload::detect_h265_keyframe;
pub use proved::h266_payload::detect_h266_keyframe;
pub use sequenced::SequencedDepacketizer;
pub use transmission::take_all;

/// The examples of the package's README are run as those of this page.
#[cfg(doctest)]
#[doc = include_str!("../README.md")]
struct Readme;
