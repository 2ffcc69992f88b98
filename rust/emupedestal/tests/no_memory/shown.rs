//! The packets that H.265 shows: their copies and their parts.

use crate::PacketError;
use crate::ends::{Copied, is_copied};
use crate::proved::h26x_core::{CodecExtra, Depacketizer};
use crate::proved::h265_packets::{
    H265AggregationPacket, H265AggregationUnit, H265AggregationUnitFirst,
    H265FragmentationUnitPacket, H265PACIPacket, H265Payload, H265SingleNALUnitPacket,
};
use crate::proved::h265_payload::H265Depacketizer;
use crate::refusing::{insist, insist_on, some_refused, without_memory};

macro_rules! copied {
    ($($name:ident),*) => {
        $(impl Copied for $name {
            fn copied(&self) -> Result<Self, PacketError> {
                self.try_clone()
            }
        })*
    };
}

copied!(
    H265SingleNALUnitPacket,
    H265FragmentationUnitPacket,
    H265AggregationPacket,
    H265AggregationUnitFirst,
    H265AggregationUnit,
    H265PACIPacket,
    H265Payload
);

/// A depacketizer that shows a packet with numbers.
fn showing(packet: &[u8]) -> H265Depacketizer {
    let mut depacketizer = H265Depacketizer::new();
    depacketizer.with_donl(true);
    depacketizer
        .depacketize(packet, &mut Vec::new(), &mut CodecExtra::None)
        .expect("a packet that is taken");
    depacketizer
}

const SINGLE: [u8; 6] = [0x26, 1, 0, 7, 0xaa, 0xbb];

const FRAGMENT: [u8; 6] = [0x62, 1, 0x93, 0, 7, 0xaa];

/// A VPS and an SPS with their numbers.
const AGGREGATE: [u8; 14] = [0x60, 1, 0, 7, 0, 3, 0x40, 1, 0x0c, 0, 0, 2, 0x42, 1];

/// A PACI packet with TSCI.
const PACI: [u8; 8] = [0x64, 1, 0x26, 0x38, 0x11, 0x22, 0x33, 0xaa];

/// What is shown, and the packet that it is.
#[test]
fn copies() {
    for packet in [&SINGLE[..], &FRAGMENT, &AGGREGATE, &PACI] {
        let depacketizer = showing(packet);
        some_refused(|| is_copied(depacketizer.payload()));
        some_refused(|| match depacketizer.payload() {
            H265Payload::H265SingleNALUnitPacket(it) => is_copied(it),
            H265Payload::H265FragmentationUnitPacket(it) => is_copied(it),
            H265Payload::H265AggregationPacket(it) => is_copied(it),
            H265Payload::H265PACIPacket(it) => is_copied(it),
        });
    }
}

#[test]
fn copies_of_units() {
    let depacketizer = showing(&AGGREGATE);
    let H265Payload::H265AggregationPacket(shown) = depacketizer.payload() else {
        panic!("no aggregate is shown");
    };
    some_refused(|| is_copied(shown.first_unit().expect("a unit")));
    assert_eq!(shown.other_units().len(), 1);
    some_refused(|| is_copied(&shown.other_units()[0]));
}

/// Sets units in the place of others, which a refusal leaves. One that is no longer has room.
#[test]
fn units_set() {
    let mut unit = H265AggregationUnit::empty();
    let mut set = |bytes: &[u8]| {
        let before = unit.try_clone().expect("a copy");
        let answer = insist(&mut unit, |it| it.set(Some(7), bytes), |it| *it == before);
        assert_eq!(answer, Ok(()));
        assert_eq!((unit.dond(), unit.nal_unit()), (Some(7), bytes));
    };
    some_refused(|| set(&[0x42; 40]));
    some_refused(|| set(&[0x43; 90]));
    let answer = without_memory(|| unit.set(None, &[0x44; 40]));
    assert_eq!(
        (answer, unit.dond(), unit.nal_unit()),
        (Ok(()), None, &[0x44; 40][..])
    );
}

/// What is shown before any packet, and an aggregate of no unit.
#[test]
fn empty_packets() {
    is_copied(&H265Payload::empty());
    let H265Payload::H265SingleNALUnitPacket(single) = H265Payload::empty() else {
        panic!("another packet is shown");
    };
    is_copied(&single);
    let packet = H265AggregationPacket::empty();
    is_copied(&packet);
    assert!(
        insist_on(|| packet.try_nal_units())
            .expect("units")
            .is_empty()
    );
}

/// A PACI packet is packed; a refusal leaves the buffer.
#[test]
fn pacis_packed() {
    let (unit, phes) = ([0x26, 1, 0xaa], [0x11, 0x22, 0x33]);
    let mut buf = vec![1, 2];
    some_refused(|| {
        let pack = |buf: &mut Vec<u8>| H265PACIPacket::packetize(&unit, &phes, buf);
        let packet = insist(&mut buf, pack, |buf| *buf == [1, 2]);
        assert_eq!(packet.expect("a packet"), PACI);
    });
    assert_eq!(buf, PACI);
}

#[test]
fn a_refusal_without_memory() {
    let mut buf = Vec::new();
    let packed =
        without_memory(|| H265PACIPacket::packetize(&[0x26, 1, 0xaa], &[0xbb; 32], &mut buf));
    assert_eq!(packed, Err(PacketError::ErrH265PACIPHESTooLong));
}

#[test]
fn single_packets_without_memory() {
    without_memory(|| {
        let mut packet = H265SingleNALUnitPacket::empty();
        packet.with_donl(true);
        let shown = (
            packet.payload_header().0,
            packet.donl(),
            packet.payload().len(),
        );
        assert!(shown == (0, None, 0));
    });
}

#[test]
fn fragments_without_memory() {
    without_memory(|| {
        let mut packet = H265FragmentationUnitPacket::empty();
        packet.with_donl(true);
        let words = (packet.payload_header().0, packet.fu_header().0);
        assert!(words == (0, 0) && (packet.donl(), packet.payload().len()) == (None, 0));
    });
}

#[test]
fn aggregates_without_memory() {
    without_memory(|| {
        let mut packet = H265AggregationPacket::empty();
        packet.with_donl(true);
        assert!(packet.first_unit().is_none() && packet.other_units().is_empty());
        let (mut unit, mut others) = (Vec::new(), Vec::new());
        packet.set(Some(7), &mut unit, &mut others, true);
        let (first, others) = packet.into_units();
        assert!(first.map(|unit| unit.donl()) == Some(Some(7)) && others.is_empty());
    });
}

#[test]
fn units_without_memory() {
    without_memory(|| {
        let first = H265AggregationUnitFirst::empty();
        assert!((first.donl(), first.nalu_size(), first.nal_unit().len()) == (None, 0, 0));
        let other = H265AggregationUnit::empty();
        assert!((other.dond(), other.nalu_size(), other.nal_unit().len()) == (None, 0, 0));
    });
}

#[test]
fn pacis_without_memory() {
    without_memory(|| {
        let packet = H265PACIPacket::empty();
        let words = (packet.payload_header().0, packet.ctype(), packet.phs_size());
        let parts = (packet.phes().len(), packet.payload().len(), packet.tsci());
        assert!(words == (0, 0, 0) && parts == (0, 0, None));
        let flags = [
            packet.a(),
            packet.f0(),
            packet.f1(),
            packet.f2(),
            packet.y(),
        ];
        assert!(flags == [false; 5]);
    });
}
