//! What a depacketizer of H.265 shows of a packet that it accepted, beside the packet's bytes (RFC 7798, 4.4).

use crate::text::{Kind, kind_of};
use emupedestal::{Codec, H265Payload};

/// A number of two bytes at a place, where packets bear numbers.
fn number_at(donl: bool, packet: &[u8], place: usize) -> Option<u16> {
    let word = packet.get(place..place + 2)?;
    donl.then(|| u16::from_be_bytes([word[0], word[1]]))
}

/// Looks whether what is shown is the packet; `units` are those that it completed.
pub fn check(donl: bool, packet: &[u8], units: &[&[u8]], shown: &H265Payload) {
    let word = u16::from_be_bytes([packet[0], packet[1]]);
    match (kind_of(Codec::H265, packet), shown) {
        (Kind::Single, H265Payload::H265SingleNALUnitPacket(it)) => {
            let number = number_at(donl, packet, 2);
            let data = if donl { 4 } else { 2 };
            assert_eq!((it.payload_header().0, it.donl()), (word, number));
            assert_eq!(it.payload(), &packet[data..]);
        }
        (Kind::Fragment(marks), H265Payload::H265FragmentationUnitPacket(it)) => {
            let number = number_at(donl && marks.starts, packet, 3);
            let data = if number.is_some() { 5 } else { 3 };
            assert_eq!((it.payload_header().0, it.donl()), (word, number));
            assert_eq!(
                (it.fu_header().0, it.fu_header().fu_type()),
                (packet[2], marks.unit_type)
            );
            assert_eq!(it.payload(), &packet[data..]);
        }
        (Kind::Aggregate, H265Payload::H265AggregationPacket(it)) => {
            let first = it.first_unit().expect("a first unit");
            assert_eq!(first.donl(), number_at(donl, packet, 2));
            assert!(
                it.other_units()
                    .iter()
                    .all(|unit| unit.dond().is_some() == donl)
            );
            assert_eq!(it.nal_units(), units);
        }
        (Kind::Paci, H265Payload::H265PACIPacket(it)) => {
            assert_eq!(it.payload_header().0, word);
            assert_eq!(it.fields(), u16::from_be_bytes([packet[2], packet[3]]));
            assert_eq!([it.phes(), it.payload()].concat(), &packet[4..]);
            assert_eq!(it.phes().len(), usize::from(it.phs_size()));
        }
        (kind, shown) => panic!("{kind:?} is shown as {shown:?}"),
    }
}
