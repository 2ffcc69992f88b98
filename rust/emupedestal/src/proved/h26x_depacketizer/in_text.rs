// Made from crates/h26x_depacketizer/src/in_text.rt by tools/to-rust.

//! What a packet brings to the text of an access unit that is open, with the open run in it (RFC 6184,
//! 7; RFC 7798, 6; RFC 9328, 6).

use crate::proved::h26x_core::{CodecExtra, PacketError};
use crate::proved::h26x_depacketizer::extra::told;
use crate::proved::h26x_depacketizer::open_text::OpenText;
use crate::proved::h26x_depacketizer::parts::Parts;
use crate::proved::h26x_depacketizer::reader::PacketReader;
use crate::proved::h26x_depacketizer::reassembly::Fragment;
use crate::proved::h26x_depacketizer::take::completes_long_unit;

/// How a packet meets the run that is open in a text, and leaves one.
#[derive(Debug, Clone, Copy)]
pub struct RunRule {
    /// Whether the packet is the next one: where it isn't, the run is given up once it is taken.
    pub is_next: bool,
    /// Whether a run that stays open may stand inside.
    pub may_be_inside: bool,
}

/// Takes a fragment that goes on with the run that is inside.
#[inline]
fn take_fragment_inside<C: PacketReader>(
    codec: C,
    is_avc: bool,
    fragment: Fragment<'_>,
    text: &mut OpenText,
    codec_extra: &mut CodecExtra,
) -> Result<(), PacketError> {
    if !fragment.end {
        return text.extend_run(fragment.body);
    }
    let head = &fragment.head[..codec.header_len()];
    text.end_run(is_avc, head, fragment.body)?;
    *codec_extra = told(codec, *codec_extra, codec.is_key(head));
    Ok(())
}

/// Takes the parts of a packet while the run stands aside, where it is put first. A unit that is too
/// long is refused before that takes memory.
#[inline(always)]
fn take_parts_aside<C: PacketReader>(
    codec: C,
    is_avc: bool,
    packet: &[u8],
    parts: Parts<'_>,
    text: &mut OpenText,
    codec_extra: &mut CodecExtra,
) -> Result<(), PacketError> {
    if text.is_run_inside() {
        if completes_long_unit(codec, is_avc, packet, parts, text.open_run_len()) {
            return Err(PacketError::AvcUnitTooLong);
        }
        text.put_aside()?;
    }
    text.take_aside(codec, is_avc, packet, parts, codec_extra)
}

/// Takes a fragment: a start begins a run inside, where it may stay there; one that is neither a start
/// nor the next one gives up the run.
#[inline(always)]
fn take_fragment_in_text<C: PacketReader>(
    codec: C,
    is_avc: bool,
    rule: RunRule,
    packet: &[u8],
    fragment: Fragment<'_>,
    text: &mut OpenText,
    codec_extra: &mut CodecExtra,
) -> Result<(), PacketError> {
    let header_len = codec.header_len();
    if fragment.start {
        if fragment.end || !rule.may_be_inside {
            let parts = Parts::Fragment(fragment);
            return take_parts_aside(codec, is_avc, packet, parts, text, codec_extra);
        }
        return text.begin_run(&fragment.head[..header_len], fragment.body);
    }
    if !rule.is_next {
        text.close_run();
        return Ok(());
    }
    if (fragment.end || rule.may_be_inside) && text.holds_run(header_len) {
        return take_fragment_inside(codec, is_avc, fragment, text, codec_extra);
    }
    let parts = Parts::Fragment(fragment);
    take_parts_aside(codec, is_avc, packet, parts, text, codec_extra)
}

/// Takes a packet that is no fragment: a run that is open is put aside, or given up.
#[inline(always)]
fn take_whole_in_text<C: PacketReader>(
    codec: C,
    is_avc: bool,
    is_next: bool,
    packet: &[u8],
    parts: Parts<'_>,
    text: &mut OpenText,
    codec_extra: &mut CodecExtra,
) -> Result<(), PacketError> {
    take_parts_aside(codec, is_avc, packet, parts, text, codec_extra)?;
    if !is_next {
        text.close_run();
    }
    Ok(())
}

/// Takes the parts of a packet. Its clauses speak of these; those of `take_in_text` of the packet
/// that was read as them.
#[inline(always)]
fn take_parts_in_text<C: PacketReader>(
    codec: C,
    is_avc: bool,
    rule: RunRule,
    packet: &[u8],
    parts: Parts<'_>,
    text: &mut OpenText,
    codec_extra: &mut CodecExtra,
) -> Result<(), PacketError> {
    match parts {
        Parts::Fragment(fragment) => {
            take_fragment_in_text(codec, is_avc, rule, packet, fragment, text, codec_extra)
        }
        Parts::Whole | Parts::Unit { .. } | Parts::Aggregate { .. } => {
            let is_next = rule.is_next;
            take_whole_in_text(codec, is_avc, is_next, packet, parts, text, codec_extra)
        }
    }
}

/// Takes a packet that was read, as `take_packet` does, where the open run stands in the text: writes
/// the units that it completes behind the text, tells of them, and keeps its run, by the rule.
///
/// Behind lengths a unit over `u32::MAX` bytes is refused; else memory may lack. A refusal leaves
/// everything.
#[inline(always)]
pub(crate) fn take_in_text<C: PacketReader>(
    codec: C,
    is_avc: bool,
    rule: RunRule,
    packet: &[u8],
    parts: Parts<'_>,
    text: &mut OpenText,
    codec_extra: &mut CodecExtra,
) -> Result<(), PacketError> {
    take_parts_in_text(codec, is_avc, rule, packet, parts, text, codec_extra)
}
