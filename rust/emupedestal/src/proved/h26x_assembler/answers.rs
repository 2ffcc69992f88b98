// Made from crates/h26x_assembler/src/answers.rt by tools/to-rust.

//! What is known of a packet by its number and by what was answered for it.

use crate::proved::h26x_core::{PacketError, is_next};
use crate::proved::h26x_receiver::Received;
use crate::proved::h26x_reorder::RtpPacket;

/// Whether the marker of the last packet ended an access unit of this timestamp.
#[inline]
fn is_closed_at(closed: Option<u32>, timestamp: u32) -> bool {
    match closed {
        Some(closed) => closed == timestamp,
        None => false,
    }
}

/// Whether it is known that nothing of its access unit is missing before a packet.
#[inline]
pub(crate) fn is_following(
    is_gap: bool,
    closed: Option<u32>,
    expected: Option<u16>,
    packet: &RtpPacket<'_>,
) -> bool {
    !is_gap && !is_closed_at(closed, packet.timestamp) && is_next(expected, packet.sequence)
}

/// Whether a packet was taken.
#[inline]
pub(crate) fn was_taken(received: &Result<Received, PacketError>) -> bool {
    match received {
        Ok(received) => received.is_taken(),
        Err(_) => false,
    }
}

/// Whether a packet that was taken follows the one before it, no unit lacks its end or its start by
/// it, and it left no run that was too long.
#[inline]
pub(crate) fn is_sound(
    follows: bool,
    is_broken: bool,
    received: &Result<Received, PacketError>,
) -> bool {
    match received {
        Ok(Received::TooLong(_)) => false,
        _ => !is_broken && follows,
    }
}
