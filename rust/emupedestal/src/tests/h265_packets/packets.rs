//! The packets of H.265 themselves (RFC 7798, 4.4): equality and buffers.

use crate::proved::h26x_core::{H265FragmentationUnitHeader, H265NALUHeader};
use crate::proved::h265_packets::{
    H265AggregationPacket, H265AggregationUnit, H265AggregationUnitFirst,
    H265FragmentationUnitPacket, H265PACIPacket, H265Payload, H265SingleNALUnitPacket,
};

fn first(donl: u16, unit: &[u8]) -> H265AggregationUnitFirst {
    H265AggregationUnitFirst::of(Some(donl), unit.to_vec())
}

fn other(dond: u8, unit: &[u8]) -> H265AggregationUnit {
    let mut it = H265AggregationUnit::empty();
    it.set(Some(dond), unit).expect("memory");
    it
}

/// A single packet of type 19.
fn single(donl: Option<u16>) -> H265SingleNALUnitPacket {
    H265SingleNALUnitPacket::of(H265NALUHeader(0x2601), donl, vec![0xaa, 0xbb], true)
}

/// The first fragment of a unit of type 19.
fn fragment(donl: Option<u16>) -> H265FragmentationUnitPacket {
    H265FragmentationUnitPacket::of(
        H265NALUHeader(0x6201),
        H265FragmentationUnitHeader(0x93),
        donl,
        vec![0xaa],
        true,
    )
}

/// The units of an aggregate of a VPS, an SPS and a PPS.
const UNITS: [&[u8]; 3] = [
    &[0x40, 0x01, 0x0c],
    &[0x42, 0x01],
    &[0x44, 0x01, 0xc1, 0x72],
];

fn aggregate() -> H265AggregationPacket {
    let others = vec![other(0, UNITS[1]), other(255, UNITS[2])];
    H265AggregationPacket::of(Some(first(7, UNITS[0])), others, true)
}

/// Three bytes of TSCI, and a payload.
const TSCI_AND_PAYLOAD: [u8; 32] = [
    0x11, 0x22, 0x33, 0xaa, 0, 0, 0, 0, 0, 0, 0, 0, 0, 0, 0, 0, 0, 0, 0, 0, 0, 0, 0, 0, 0, 0, 0, 0,
    0, 0, 0, 0xbb,
];

/// A PACI packet with these fields.
fn paci(fields: u16) -> H265PACIPacket {
    H265PACIPacket::of(H265NALUHeader(0x6401), fields, TSCI_AND_PAYLOAD.to_vec())
}

#[test]
fn empty_packets() {
    let packet = H265SingleNALUnitPacket::empty();
    assert_eq!(
        H265Payload::empty(),
        H265Payload::H265SingleNALUnitPacket(packet)
    );
    let units = H265AggregationPacket::empty();
    assert!(units.try_nal_units().expect("memory").is_empty());
}

/// By the number and by the mark of the setting.
#[test]
fn equal_single_packets() {
    let mut packet = single(None);
    for (mark, donl, is_equal) in [
        (true, Some(0), false),
        (true, None, true),
        (false, None, false),
        (true, None, true),
    ] {
        packet.with_donl(mark);
        assert_eq!(packet == single(donl), is_equal);
    }
    assert_ne!(packet, H265SingleNALUnitPacket::empty());
}

#[test]
fn equal_fragments() {
    let mut packet = fragment(None);
    for (mark, donl, is_equal) in [
        (true, Some(0), false),
        (true, None, true),
        (false, None, false),
    ] {
        packet.with_donl(mark);
        assert_eq!(packet == fragment(donl), is_equal);
    }
    assert_ne!(packet, H265FragmentationUnitPacket::empty());
}

#[test]
fn equal_aggregates() {
    let mut packet = aggregate();
    for mark in [true, false] {
        packet.with_donl(mark);
        assert_eq!(packet == aggregate(), mark);
    }
    assert_ne!(packet, H265AggregationPacket::empty());
}

#[test]
fn equal_units_of_aggregates() {
    let (vps, sps) = (first(0, &[0x40, 0x01]), other(0, &[0x42, 0x01]));
    for (number, last, is_equal) in [(0, 0x01, true), (1, 0x01, false), (0, 0x02, false)] {
        assert_eq!(vps == first(u16::from(number), &[0x40, last]), is_equal);
        assert_eq!(sps == other(number, &[0x42, last]), is_equal);
    }
}

#[test]
fn equal_pacis() {
    let packet = paci(0x2638);
    assert_eq!(packet, paci(0x2638));
    assert_ne!(packet, paci(0x2628));
    assert_ne!(H265Payload::H265PACIPacket(packet), H265Payload::empty());
}

#[test]
fn buffers_of_packets() {
    for (packet, want) in [
        (
            H265Payload::H265SingleNALUnitPacket(single(None)),
            Some(vec![0xaa, 0xbb]),
        ),
        (
            H265Payload::H265FragmentationUnitPacket(fragment(None)),
            Some(vec![0xaa]),
        ),
        (
            H265Payload::H265PACIPacket(paci(0x2638)),
            Some(TSCI_AND_PAYLOAD.to_vec()),
        ),
        (
            H265Payload::H265AggregationPacket(aggregate()),
            Some(UNITS[0].to_vec()),
        ),
        (
            H265Payload::H265AggregationPacket(H265AggregationPacket::empty()),
            None,
        ),
    ] {
        assert_eq!(packet.into_buffer(), want);
    }
}
