// Made from crates/h26x_access_units/src/short.rt by tools/to-rust.

//! The short ways of the packets that most are: one that goes on with the access unit that is open, and
//! the sole one of an access unit.

use crate::proved::h26x_access_units::counts::Counts;
use crate::proved::h26x_access_units::due::{
    note_in_order, note_received, pass_refused, take_begun,
};
use crate::proved::h26x_access_units::framing::{Framing, Shown, bears_slice};
use crate::proved::h26x_access_units::numbers::{NumbersSoFar, is_timestamp};
use crate::proved::h26x_assembler::{AccessUnit, AccessUnitAssembler};
use crate::proved::h26x_core::{PacketError, is_next};
use crate::proved::h26x_depacketizer::RunDepacketizer;
use crate::proved::h26x_receiver::Received;
use crate::proved::h26x_reorder::RtpPacket;
use alloc::vec::Vec;

/// Whether a packet was taken in order.
#[inline(always)]
fn is_in_order(received: Received) -> bool {
    matches!(received, Received::InOrder)
}

/// Whether a packet goes on with the access unit that is open: it is the next one, has no marker, and
/// a slice of its timestamp came.
#[inline(always)]
fn goes_on<D: RunDepacketizer>(
    assembler: &AccessUnitAssembler<D>,
    framing: Framing,
    numbers: &NumbersSoFar,
    packet: &RtpPacket<'_>,
) -> bool {
    !packet.marker
        && !packet.payload.is_empty()
        && framing.has_slice
        && is_next(assembler.packets.expected, packet.sequence)
        && assembler.unit.is_at(packet.timestamp)
        && !is_timestamp(numbers.marked, packet.timestamp)
}

/// Takes a packet that goes on with the access unit that is open, as [`take_begun`] does.
#[inline(always)]
fn take_on<D: RunDepacketizer>(
    assembler: &mut AccessUnitAssembler<D>,
    ended: &mut Vec<AccessUnit>,
    framing: &mut Framing,
    numbers: &mut NumbersSoFar,
    counts: &mut Counts,
    packet: &RtpPacket<'_>,
) -> Result<Received, PacketError> {
    match assembler.go_on(packet) {
        Ok(received) => {
            assembler.forget_marker();
            let at = *framing;
            let text = assembler.is_text_given_up;
            if is_in_order(received) {
                note_in_order(framing, numbers, counts, at, packet, text);
                return Ok(received);
            }
            note_received(
                framing, numbers, counts, at, packet, received, false, false, text,
            );
            Ok(received)
        }
        Err(error) => {
            let error = pass_refused(assembler, ended, numbers, counts, packet, error);
            Err(error)
        }
    }
}

/// Whether a packet is the sole one of its access unit: it is the next one, none is open, and it bears
/// a slice and a marker that is believed.
#[inline(always)]
fn is_sole<D: RunDepacketizer>(
    assembler: &AccessUnitAssembler<D>,
    framing: Framing,
    numbers: &NumbersSoFar,
    packet: &RtpPacket<'_>,
) -> bool {
    packet.marker
        && !packet.payload.is_empty()
        && !framing.marks_slices
        && is_next(assembler.packets.expected, packet.sequence)
        && !assembler.unit.is_open()
        && !is_timestamp(numbers.marked, packet.timestamp)
        && bears_slice(&assembler.packets.depacketizer, packet.payload)
}

/// Takes a packet that is the sole one of its access unit, as [`take_begun`] does.
#[inline(always)]
fn take_sole<D: RunDepacketizer>(
    assembler: &mut AccessUnitAssembler<D>,
    ended: &mut Vec<AccessUnit>,
    framing: &mut Framing,
    numbers: &mut NumbersSoFar,
    counts: &mut Counts,
    packet: &RtpPacket<'_>,
) -> Result<Received, PacketError> {
    match assembler.begin(packet, ended) {
        Ok(received) => {
            assembler.forget_marker();
            let shown = Shown {
                has_slice: true,
                first: None,
            };
            let at = framing.with(false, false, shown);
            let text = assembler.is_text_given_up;
            if is_in_order(received) {
                note_in_order(framing, numbers, counts, at, packet, text);
                return Ok(received);
            }
            note_received(
                framing, numbers, counts, at, packet, received, false, false, text,
            );
            Ok(received)
        }
        Err(error) => {
            let error = pass_refused(assembler, ended, numbers, counts, packet, error);
            Err(error)
        }
    }
}

/// Takes a packet that is due as [`take_begun`] does. Where this is compiled the two short ways ask
/// nothing twice.
#[inline(always)]
pub(crate) fn take_due<D: RunDepacketizer>(
    assembler: &mut AccessUnitAssembler<D>,
    ended: &mut Vec<AccessUnit>,
    framing: &mut Framing,
    numbers: &mut NumbersSoFar,
    counts: &mut Counts,
    packet: &RtpPacket<'_>,
) -> Result<Received, PacketError> {
    if goes_on(assembler, *framing, numbers, packet) {
        return take_on(assembler, ended, framing, numbers, counts, packet);
    }
    if is_sole(assembler, *framing, numbers, packet) {
        return take_sole(assembler, ended, framing, numbers, counts, packet);
    }
    take_begun(assembler, ended, framing, numbers, counts, packet)
}
