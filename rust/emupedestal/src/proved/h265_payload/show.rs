// Made from crates/h265_payload/src/show.rt by tools/to-rust.

//! What `payload` shows of a packet.

use crate::proved::h26x_core::{H265FragmentationUnitHeader, H265NALUHeader};
use crate::proved::h26x_depacketizer::Parts;
use crate::proved::h265_packets::{
    H265AggregationPacket, H265AggregationUnitFirst, H265FragmentationUnitPacket, H265PACIPacket,
    H265Payload, H265SingleNALUnitPacket,
};
use crate::proved::h265_payload::aggregate::first_other;
use crate::proved::h265_payload::codec::header_of;
use crate::proved::h265_payload::spare::Spare;
use crate::support::AllocError;
use core::mem;

/// DONL, where packets bear it and it is there.
#[inline]
fn donl_of(has_donl: bool, bytes: &[u8]) -> Option<u16> {
    if has_donl && bytes.len() >= 2 {
        Some(u16::from_be_bytes([bytes[0], bytes[1]]))
    } else {
        None
    }
}

/// What stands behind DONL.
#[inline]
fn behind_donl(has_donl: bool, bytes: &[u8]) -> &[u8] {
    if !has_donl {
        return bytes;
    }
    if bytes.len() < 2 {
        return &[];
    }
    &bytes[2..]
}

/// What stands behind a packet's words and number.
#[inline]
fn data_of(has_donl: bool, packet: &[u8]) -> &[u8] {
    let header = header_of(packet);
    if header.is_fragmentation_unit() {
        let marks = H265FragmentationUnitHeader(packet[2]);
        behind_donl(has_donl && marks.s(), &packet[3..])
    } else if header.is_paci_packet() {
        &packet[4..]
    } else {
        behind_donl(has_donl, &packet[2..])
    }
}

/// Gets ready in the spare memory all that a packet is shown by: the units of an aggregate, or the
/// data of another packet.
#[inline(always)]
pub(crate) fn prepare(
    has_donl: bool,
    packet: &[u8],
    parts: Parts<'_>,
    spare: &mut Spare,
) -> Result<(), AllocError> {
    match parts {
        Parts::Aggregate { bytes, .. } => prepare_aggregate(has_donl, bytes, spare),
        Parts::Whole | Parts::Unit { .. } | Parts::Fragment(_) => {
            spare.put_data(data_of(has_donl, packet))
        }
    }
}

/// Gets the units of an aggregate ready: the first of them is the data.
fn prepare_aggregate(has_donl: bool, bytes: &[u8], spare: &mut Spare) -> Result<(), AllocError> {
    let Some(first) = first_other(has_donl, bytes) else {
        return Ok(());
    };
    spare.put_data(first.unit)?;
    prepare_others(has_donl, first.behind, spare)
}

/// Gets the units of an aggregate behind the first ready.
fn prepare_others(has_donl: bool, bytes: &[u8], spare: &mut Spare) -> Result<(), AllocError> {
    spare.keep_others();
    let mut count = 0;
    let mut rest = bytes;
    while let Some(other) = first_other(has_donl, rest) {
        spare.put_other(count, other.dond, other.unit)?;
        count += 1;
        rest = other.behind;
    }
    spare.limit_others(count);
    Ok(())
}

/// Shows a packet for which all is ready. What was shown before is changed in place where it is of
/// the same kind, and its memory is spare then; that of its data only if it isn't too much.
#[inline]
pub(crate) fn show(
    has_donl: bool,
    packet: &[u8],
    parts: Parts<'_>,
    payload: &mut H265Payload,
    spare: &mut Spare,
) {
    match parts {
        Parts::Aggregate { .. } => {
            let donl = donl_of(has_donl, &packet[2..]);
            show_aggregate(donl, has_donl, payload, spare);
        }
        Parts::Whole | Parts::Unit { .. } | Parts::Fragment(_) => {
            show_words(has_donl, packet, payload, spare);
        }
    }
    spare.limit_data();
}

/// Shows this; the memory of what was shown before is spare then.
#[inline]
fn put(shown: H265Payload, payload: &mut H265Payload, spare: &mut Spare) {
    spare.keep(mem::replace(payload, shown));
}

/// Shows an aggregate whose units are ready, and keeps the memory of a few of those from before.
fn show_aggregate(donl: Option<u16>, has_donl: bool, payload: &mut H265Payload, spare: &mut Spare) {
    if let H265Payload::H265AggregationPacket(it) = payload {
        it.set(donl, &mut spare.data, &mut spare.others, has_donl);
        spare.keep_others();
        return;
    }
    let first = H265AggregationUnitFirst::of(donl, spare.remove_data());
    let shown = H265AggregationPacket::of(Some(first), spare.remove_others(), has_donl);
    put(H265Payload::H265AggregationPacket(shown), payload, spare);
}

/// Shows a packet that is no aggregate, whose data stand in the spare memory.
#[inline]
fn show_words(has_donl: bool, packet: &[u8], payload: &mut H265Payload, spare: &mut Spare) {
    let header = H265NALUHeader::new(packet[0], packet[1]);
    if header.is_fragmentation_unit() {
        let marks = H265FragmentationUnitHeader(packet[2]);
        let donl = donl_of(has_donl && marks.s(), &packet[3..]);
        show_fragment(header, marks, donl, has_donl, payload, spare);
    } else if header.is_paci_packet() {
        let fields = u16::from_be_bytes([packet[2], packet[3]]);
        show_paci(header, fields, payload, spare);
    } else {
        let donl = donl_of(has_donl, &packet[2..]);
        show_single(header, donl, has_donl, payload, spare);
    }
}

/// Shows a single packet of these parts, with the data in the spare memory.
#[inline]
fn show_single(
    header: H265NALUHeader,
    donl: Option<u16>,
    has_donl: bool,
    payload: &mut H265Payload,
    spare: &mut Spare,
) {
    if let H265Payload::H265SingleNALUnitPacket(it) = payload {
        it.set(header, donl, &mut spare.data, has_donl);
        return;
    }
    let shown = H265SingleNALUnitPacket::of(header, donl, spare.remove_data(), has_donl);
    put(H265Payload::H265SingleNALUnitPacket(shown), payload, spare);
}

/// Shows a fragment of these parts, with the data in the spare memory.
#[inline]
fn show_fragment(
    header: H265NALUHeader,
    marks: H265FragmentationUnitHeader,
    donl: Option<u16>,
    has_donl: bool,
    payload: &mut H265Payload,
    spare: &mut Spare,
) {
    if let H265Payload::H265FragmentationUnitPacket(it) = payload {
        it.set(header, marks, donl, &mut spare.data, has_donl);
        return;
    }
    let shown = H265FragmentationUnitPacket::of(header, marks, donl, spare.remove_data(), has_donl);
    put(
        H265Payload::H265FragmentationUnitPacket(shown),
        payload,
        spare,
    );
}

/// Shows a PACI packet of these words, with its extension and payload in the spare memory.
fn show_paci(header: H265NALUHeader, fields: u16, payload: &mut H265Payload, spare: &mut Spare) {
    if let H265Payload::H265PACIPacket(it) = payload {
        it.set(header, fields, &mut spare.data);
        return;
    }
    let shown = H265PACIPacket::of(header, fields, spare.remove_data());
    put(H265Payload::H265PACIPacket(shown), payload, spare);
}
