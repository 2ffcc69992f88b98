// Made from crates/h26x_reorder/src/reorder.rt by tools/to-rust.

//! A list of packets, put in the order of their sequence numbers.

use crate::proved::h26x_reorder::order::NumberOrder;
use crate::proved::h26x_reorder::packet::RtpPacket;
use crate::support::AllocError;
use crate::support::TryVec;
use alloc::vec::Vec;

/// Takes a packet.
#[inline]
fn try_push<'a, 'b>(
    order: &mut NumberOrder<&'a RtpPacket<'b>>,
    packet: &'a RtpPacket<'b>,
) -> Result<(), AllocError> {
    if let Ok((due, place)) = order.place_of(packet.sequence) {
        order.put(due, place, packet)?;
    }
    Ok(())
}

/// Appends every packet that may go.
#[inline]
fn pop_ready<'a, 'b>(order: &mut NumberOrder<&'a RtpPacket<'b>>, out: &mut Vec<&'a RtpPacket<'b>>) {
    while let Some(packet) = order.pop() {
        out.push(packet);
    }
}

/// Appends every packet that is held.
fn pop_all<'a, 'b>(order: &mut NumberOrder<&'a RtpPacket<'b>>, out: &mut Vec<&'a RtpPacket<'b>>) {
    while let Some(packet) = order.pop_first() {
        out.push(packet);
    }
}

/// Puts packets in the order of their sequence numbers, as `reorder_all` does, and copies none.
pub(crate) fn ordered<'a, 'b>(
    window: u16,
    packets: &'a [RtpPacket<'b>],
) -> Result<Vec<&'a RtpPacket<'b>>, AllocError> {
    let mut order = NumberOrder::new(window);
    let mut out = Vec::try_with_room(packets.len())?;
    for packet in packets {
        try_push(&mut order, packet)?;
        pop_ready(&mut order, &mut out);
    }
    pop_all(&mut order, &mut out);
    Ok(out)
}
