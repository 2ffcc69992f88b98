// Made from crates/h26x_c/src/shown.rt by tools/to-rust.

//! The calls on the packet that a depacketizer or a receiver of H.265 shows.

use crate::proved::h26x_c::const_handle::ConstHandle;
use crate::proved::h26x_codec::AnyDepacketizer;
use crate::proved::h26x_codes::code::{NOT_OF_THIS_CODEC, OK, WRONG_END};
use crate::proved::h26x_codes::copy::copy_where_room;
use crate::proved::h26x_endpoint::endpoint::Endpoint;
use crate::proved::h265_packets::{H265AggregationPacket, H265AggregationUnit, H265Payload};
use core::mem::MaybeUninit;

/// What is told where no number was read before a part.
const NO_NUMBER: u32 = 65536;

/// A packet in numbers (RFC 7798, 4.4).
#[repr(C)]
#[derive(Clone, Copy)]
pub struct Shown {
    pub kind: u32,
    pub header: u16,
    pub word: u16,
    pub parts: usize,
}

/// The packet that was accepted last, in numbers.
pub fn h26x_h265_shown(d: &ConstHandle, shown: &mut MaybeUninit<Shown>) -> u32 {
    match d.get() {
        Endpoint::Receiving(it) => show(&it.depacketizer, shown),
        Endpoint::Sequenced(it) => show(it.depacketizer(), shown),
        _ => WRONG_END,
    }
}

/// Writes the packet that a depacketizer shows in numbers, where its codec shows packets.
fn show(depacketizer: &AnyDepacketizer, shown: &mut MaybeUninit<Shown>) -> u32 {
    match depacketizer.shown() {
        Some(packet) => {
            shown.write(in_numbers(packet));
            OK
        }
        None => NOT_OF_THIS_CODEC,
    }
}

/// Copies a part of that packet, counted from 0, where there is room for it, and writes the number
/// that was read before it; the part's length.
pub fn h26x_h265_part_copy(
    d: &ConstHandle,
    i: usize,
    to: &mut [u8],
    number: &mut MaybeUninit<u32>,
) -> usize {
    match d.get() {
        Endpoint::Receiving(it) => copy_part(shown_part(&it.depacketizer, i), to, number),
        Endpoint::Sequenced(it) => copy_part(shown_part(it.depacketizer(), i), to, number),
        _ => copy_part(Part::part_without_don(&[]), to, number),
    }
}

/// Copies a part where there is room for it, and writes its number; its length.
fn copy_part(part: Part<'_>, to: &mut [u8], number: &mut MaybeUninit<u32>) -> usize {
    number.write(part.number.map_or(NO_NUMBER, u32::from));
    copy_where_room(part.bytes, to)
}

/// A packet in numbers.
fn in_numbers(packet: &H265Payload) -> Shown {
    let (kind, header, word, parts) = match packet {
        H265Payload::H265SingleNALUnitPacket(it) => (1, it.payload_header().0, 0, 1),
        H265Payload::H265FragmentationUnitPacket(it) => {
            (2, it.payload_header().0, u16::from(it.fu_header().0), 1)
        }
        H265Payload::H265AggregationPacket(it) => (3, 0, 0, count_of(it)),
        H265Payload::H265PACIPacket(it) => (4, it.payload_header().0, it.fields(), 2),
    };
    Shown {
        kind,
        header,
        word,
        parts,
    }
}

/// How many units an aggregation packet has.
fn count_of(packet: &H265AggregationPacket) -> usize {
    usize::from(packet.first_unit().is_some()) + packet.other_units().len()
}

/// A part of a packet, and the number that was read before it.
#[derive(Clone, Copy)]
struct Part<'a> {
    number: Option<u16>,
    bytes: &'a [u8],
}

impl<'a> Part<'a> {
    /// Bytes before which no number was read.
    fn part_without_don(bytes: &'a [u8]) -> Self {
        Part {
            number: None,
            bytes,
        }
    }
}

/// A part of what a depacketizer shows, counted from 0; without bytes past the last one, and where
/// nothing is shown.
fn shown_part(depacketizer: &AnyDepacketizer, i: usize) -> Part<'_> {
    match depacketizer.shown() {
        Some(packet) => part_of(packet, i),
        None => Part::part_without_don(&[]),
    }
}

/// A part of a packet, counted from 0; past the last one without bytes.
fn part_of(packet: &H265Payload, i: usize) -> Part<'_> {
    match (packet, i) {
        (H265Payload::H265SingleNALUnitPacket(it), 0) => Part {
            number: it.donl(),
            bytes: it.payload(),
        },
        (H265Payload::H265FragmentationUnitPacket(it), 0) => Part {
            number: it.donl(),
            bytes: it.payload(),
        },
        (H265Payload::H265AggregationPacket(it), _) => unit_of(it, i),
        (H265Payload::H265PACIPacket(it), 0) => Part::part_without_don(it.phes()),
        (H265Payload::H265PACIPacket(it), 1) => Part::part_without_don(it.payload()),
        _ => Part::part_without_don(&[]),
    }
}

/// A unit of an aggregation packet, counted from 0; past the last one without bytes.
fn unit_of(packet: &H265AggregationPacket, i: usize) -> Part<'_> {
    match packet.first_unit() {
        Some(unit) if i == 0 => Part {
            number: unit.donl(),
            bytes: unit.nal_unit(),
        },
        Some(_) => other_unit_of(packet.other_units(), i - 1),
        None => other_unit_of(packet.other_units(), i),
    }
}

/// A unit behind the first, counted from 0; past the last one without bytes.
fn other_unit_of(units: &[H265AggregationUnit], i: usize) -> Part<'_> {
    match units.get(i) {
        Some(unit) => Part {
            number: unit.dond().map(u16::from),
            bytes: unit.nal_unit(),
        },
        None => Part::part_without_don(&[]),
    }
}
