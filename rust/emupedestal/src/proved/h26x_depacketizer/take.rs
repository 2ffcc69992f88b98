// Made from crates/h26x_depacketizer/src/take.rt by tools/to-rust.

//! What a packet brings to a depacketizer, for every codec (RFC 6184, 7; RFC 7798, 6; RFC 9328, 6).

use crate::proved::h26x_core::{CodecExtra, PacketError};
use crate::proved::h26x_depacketizer::aggregate::write_units;
use crate::proved::h26x_depacketizer::byte_stream::{is_too_long, write_headed, write_unit};
use crate::proved::h26x_depacketizer::extra::told;
use crate::proved::h26x_depacketizer::parts::Parts;
use crate::proved::h26x_depacketizer::reader::PacketReader;
use crate::proved::h26x_depacketizer::reassembly::{Fragment, take_fragment};
use crate::proved::h26x_depacketizer::run::OpenRun;
use crate::proved::h26x_depacketizer::sink::UnitSink;
use crate::proved::h26x_payload::PayloadFormat;

/// The bytes of the unit that a fragment completes, at most `usize::MAX`; 0 where it completes none.
fn fragment_completes<C: PayloadFormat>(
    codec: C,
    fragment: Fragment<'_>,
    run_len: Option<usize>,
) -> usize {
    if !fragment.end {
        return 0;
    }
    let data = match run_len {
        _ if fragment.start => 0,
        Some(len) => len,
        None => return 0,
    };
    data.saturating_add(fragment.body.len())
        .saturating_add(codec.header_len())
}

/// The bytes of the unit that a packet completes, at most `usize::MAX`; 0 where it completes none,
/// and for an aggregate, whose lengths have two bytes.
fn completed_len<C: PacketReader>(
    codec: C,
    packet: &[u8],
    parts: Parts<'_>,
    run_len: Option<usize>,
) -> usize {
    match parts {
        Parts::Whole => packet.len(),
        Parts::Unit { body, .. } => body.len().saturating_add(codec.header_len()),
        Parts::Aggregate { .. } => 0,
        Parts::Fragment(fragment) => fragment_completes(codec, fragment, run_len),
    }
}

/// Whether a packet completes a unit of over `u32::MAX` bytes, where units are written behind
/// lengths. The open run, if there is one, holds so many bytes.
#[inline]
pub(crate) fn completes_long_unit<C: PacketReader>(
    codec: C,
    is_avc: bool,
    packet: &[u8],
    parts: Parts<'_>,
    run_len: Option<usize>,
) -> bool {
    is_avc && is_too_long(completed_len(codec, packet, parts, run_len))
}

/// Refuses a packet that completes a unit of over `u32::MAX` bytes, where units are written behind
/// lengths of four bytes (ISO/IEC 14496-15). The open run, if there is one, holds so many bytes. It
/// takes no memory.
#[inline]
pub(crate) fn check_lengths<C: PacketReader>(
    codec: C,
    is_avc: bool,
    packet: &[u8],
    parts: Parts<'_>,
    run_len: Option<usize>,
) -> Result<(), PacketError> {
    if completes_long_unit(codec, is_avc, packet, parts, run_len) {
        return Err(PacketError::AvcUnitTooLong);
    }
    Ok(())
}

/// Takes the parts of a packet: writes the units that it completes, tells of them, and keeps its
/// run.
///
/// Its clauses speak of the parts, which the match takes apart; those of `take_packet` of the
/// packet that was read as them.
#[inline(always)]
pub(crate) fn take_parts<C: PacketReader, W: UnitSink>(
    codec: C,
    is_avc: bool,
    packet: &[u8],
    parts: Parts<'_>,
    run: &mut OpenRun,
    out: &mut W,
    codec_extra: &mut CodecExtra,
) -> Result<(), PacketError> {
    match parts {
        Parts::Whole => {
            write_unit(is_avc, packet, out)?;
            *codec_extra = told(codec, *codec_extra, codec.is_key(packet));
            Ok(())
        }
        Parts::Unit { head, body } => {
            let head_len = codec.header_len();
            write_headed(is_avc, head, head_len, body, out)?;
            *codec_extra = told(codec, *codec_extra, codec.is_key(&head[..head_len]));
            Ok(())
        }
        Parts::Aggregate { bytes, size } => {
            write_units(codec, is_avc, bytes, size, out, codec_extra)
        }
        Parts::Fragment(fragment) => take_fragment(codec, is_avc, fragment, run, out, codec_extra),
    }
}

/// Takes a packet that was read: writes the units that it completes, behind start codes or behind
/// their lengths, tells of them, and keeps its run.
///
/// Behind lengths a unit over `u32::MAX` bytes is refused; else memory may lack. A fragment that
/// doesn't start while no run is open takes none. A refusal leaves everything.
#[inline(always)]
pub(crate) fn take_packet<C: PacketReader, W: UnitSink>(
    codec: C,
    is_avc: bool,
    packet: &[u8],
    parts: Parts<'_>,
    run: &mut OpenRun,
    out: &mut W,
    codec_extra: &mut CodecExtra,
) -> Result<(), PacketError> {
    take_parts(codec, is_avc, packet, parts, run, out, codec_extra)
}
