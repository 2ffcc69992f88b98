//! The packets that a depacketizer of H.265 shows, and PACI packets made here.

use crate::tests::{bytes, received, refuses, writes};
use crate::{
    H265AggregationPacket, H265AggregationUnit, H265AggregationUnitFirst, H265Depacketizer,
    H265FragmentationUnitHeader, H265FragmentationUnitPacket, H265NALUHeader, H265PACIPacket,
    H265Payload, H265SingleNALUnitPacket, H265TSCI, PacketError,
};
use std::ptr;

/// What is shown after a packet, which is accepted, of a depacketizer with numbers or without.
#[track_caller]
fn shown(numbers: bool, packet: &str) -> H265Payload {
    let mut end = H265Depacketizer::default();
    end.with_donl(numbers);
    received(&mut end, &[packet]);
    end.payload().clone()
}

#[test]
fn nothing_is_shown_of_a_new_end() {
    let end = H265Depacketizer::default();
    let H265Payload::H265SingleNALUnitPacket(single) = end.payload() else {
        panic!("not a single NAL unit packet");
    };
    assert_eq!(single.payload_header(), H265NALUHeader(0));
    assert_eq!((single.donl(), single.payload()), (None, [].as_slice()));
}

#[test]
fn single_nal_unit_packets() {
    for (numbers, packet, donl, payload) in [
        (false, "2601af", None, "af"),
        (false, "020100", None, "00"),
        (true, "0201 ffff aa", Some(0xffff), "aa"),
        (true, "0201 0000 aabb", Some(0), "aabb"),
    ] {
        let H265Payload::H265SingleNALUnitPacket(single) = shown(numbers, packet) else {
            panic!("not a single NAL unit packet: {packet}");
        };
        let header = bytes(packet);
        assert_eq!(
            single.payload_header(),
            H265NALUHeader::new(header[0], header[1])
        );
        assert_eq!(single.donl(), donl, "{packet}");
        assert_eq!(single.payload(), bytes(payload), "{packet}");
    }
}

#[test]
fn fragments() {
    for (numbers, packet, fu_header, donl, payload) in [
        (false, "620193aabb", 0x93, None, "aabb"),
        (false, "620113aa", 0x13, None, "aa"),
        (true, "620193 0102 aa", 0x93, Some(0x0102), "aa"),
        (true, "620153 0102", 0x53, None, "0102"),
    ] {
        let H265Payload::H265FragmentationUnitPacket(fragment) = shown(numbers, packet) else {
            panic!("not a fragment: {packet}");
        };
        assert_eq!(fragment.payload_header(), H265NALUHeader(0x6201));
        assert_eq!(
            fragment.fu_header(),
            H265FragmentationUnitHeader(fu_header),
            "{packet}"
        );
        assert_eq!(fragment.donl(), donl, "{packet}");
        assert_eq!(fragment.payload(), bytes(payload), "{packet}");
    }
}

#[test]
fn aggregates() {
    let units = [bytes("0201aa"), bytes("2601afaf"), bytes("0201bb")];
    for (numbers, packet, donl, donds) in [
        (
            false,
            "6001 0003 0201aa 0004 2601afaf 0003 0201bb",
            None,
            [None, None],
        ),
        (
            true,
            "6001 0005 0003 0201aa 00 0004 2601afaf ff 0003 0201bb",
            Some(5),
            [Some(0), Some(255)],
        ),
    ] {
        let H265Payload::H265AggregationPacket(aggregate) = shown(numbers, packet) else {
            panic!("not an aggregate: {packet}");
        };
        assert_eq!(aggregate.nal_units(), units);
        let first = aggregate.first_unit().expect("a first unit");
        assert_eq!((first.donl(), first.nalu_size()), (donl, 3));
        let others = aggregate.other_units();
        assert_eq!(
            others.iter().map(|unit| unit.dond()).collect::<Vec<_>>(),
            donds
        );
        assert_eq!(
            others
                .iter()
                .map(|unit| unit.nalu_size())
                .collect::<Vec<_>>(),
            [4, 3]
        );
        assert_eq!(
            (first.nal_unit(), others[1].nal_unit()),
            (&units[0][..], &units[2][..])
        );
    }
}

#[test]
fn paci_packets() {
    let H265Payload::H265PACIPacket(paci) = shown(true, "6409 a63f 112233 aabb") else {
        panic!("not a PACI packet");
    };
    assert_eq!(paci.payload_header(), H265NALUHeader(0x6409));
    assert_eq!((paci.a(), paci.ctype(), paci.phs_size()), (true, 19, 3));
    assert_eq!(paci.fields(), 0xa63f);
    assert!(paci.f0() && paci.f1() && paci.f2() && paci.y());
    assert_eq!(
        (paci.phes(), paci.payload()),
        (&bytes("112233")[..], &bytes("aabb")[..])
    );
    assert_eq!(paci.tsci(), Some(H265TSCI(0x11223300)));

    let H265Payload::H265PACIPacket(paci) = shown(false, "6401 0230 112233 aa") else {
        panic!("not a PACI packet");
    };
    assert!(!(paci.a() || paci.f0() || paci.f1() || paci.f2() || paci.y()));
    assert_eq!((paci.tsci(), paci.phs_size()), (None, 3));

    let H265Payload::H265PACIPacket(paci) = shown(false, "6401 0228 1122 aa") else {
        panic!("not a PACI packet");
    };
    assert_eq!(
        (paci.f0(), paci.tsci(), paci.phes()),
        (true, None, &bytes("1122")[..])
    );
}

#[test]
fn a_packed_paci_packet() {
    let mut buf = vec![7; 3];
    let packed = H265PACIPacket::packetize(&bytes("2601aa"), &bytes("112233"), &mut buf);
    assert_eq!(
        (packed.as_ref(), &buf),
        (Ok(&buf), &bytes("64012638112233aa"))
    );
}

#[test]
fn a_refused_packet_is_not_shown() {
    let mut end = H265Depacketizer::default();
    writes(&mut end, &["2601af"], "00000001 2601af");
    let before = end.payload().clone();
    refuses(&mut end, "6201", PacketError::ErrShortPacket);
    assert_eq!(end.payload(), &before);
    writes(&mut end, &["2601ae"], "00000001 2601ae");
    assert_ne!(end.payload(), &before);
}

/// It stays where it is until then, and a copy of the end has its own.
#[test]
fn what_is_shown_is_kept_until_the_next_packet() {
    let mut end = H265Depacketizer::default();
    writes(&mut end, &["2601af"], "00000001 2601af");
    let first = end.payload();
    assert!(ptr::eq(first, end.payload()));
    let copy = end.clone();
    assert!(!ptr::eq(copy.payload(), end.payload()));
    assert_eq!(copy.payload(), end.payload());
    writes(&mut end, &["620193aa"], "");
    assert!(matches!(
        end.payload(),
        H265Payload::H265FragmentationUnitPacket(_)
    ));
    assert_ne!(copy.payload(), end.payload());
}

/// What was asked of an end makes it no other.
#[test]
fn what_is_shown_counts_once_it_was_asked_for_or_not() {
    let (mut asked, mut other) = (H265Depacketizer::default(), H265Depacketizer::default());
    for end in [&mut asked, &mut other] {
        writes(end, &["2601af"], "00000001 2601af");
    }
    asked.payload();
    assert_eq!(asked, other);
}

/// Packets without parts, as those of `default` are, and the mark that equality alone sees.
#[test]
fn packets_of_nothing_and_marks() {
    let none = H265Payload::H265SingleNALUnitPacket(H265SingleNALUnitPacket::default());
    assert_eq!(H265Payload::default(), none);
    assert_eq!(H265Depacketizer::default().payload(), &none);

    macro_rules! marks {
        ($name:ident) => {
            let mut packet = $name::default();
            packet.with_donl(true);
            assert_ne!(packet, $name::default());
            packet.with_donl(false);
            assert_eq!(packet, $name::default());
        };
    }
    marks!(H265SingleNALUnitPacket);
    marks!(H265FragmentationUnitPacket);
    marks!(H265AggregationPacket);

    let fragment = H265FragmentationUnitPacket::default();
    assert_eq!(fragment.payload_header(), H265NALUHeader(0));
    assert_eq!(fragment.fu_header(), H265FragmentationUnitHeader(0));
    assert_eq!((fragment.donl(), fragment.payload()), (None, &[][..]));
    let aggregate = H265AggregationPacket::default();
    assert_eq!(aggregate.first_unit(), None);
    assert!(aggregate.other_units().is_empty() && aggregate.nal_units().is_empty());
    let first = H265AggregationUnitFirst::default();
    assert_eq!((first.donl(), first.nalu_size()), (None, 0));
    let other = H265AggregationUnit::default();
    assert_eq!((other.dond(), other.nalu_size()), (None, 0));
    let paci = H265PACIPacket::default();
    assert_eq!((paci.fields(), paci.tsci()), (0, None));
    assert!(paci.phes().is_empty() && paci.payload().is_empty());
}

/// Of a packet that bears no number itself the mark alone tells the setting.
#[test]
fn shown_packets_have_the_mark_of_the_setting() {
    for (packet, marked) in [("620113aa", true), ("6201 13 bb", false)] {
        let H265Payload::H265FragmentationUnitPacket(mut fragment) = shown(marked, packet) else {
            panic!("not a fragment: {packet}");
        };
        let H265Payload::H265FragmentationUnitPacket(other) = shown(!marked, packet) else {
            panic!("not a fragment: {packet}");
        };
        assert_eq!((fragment.donl(), other.donl()), (None, None));
        assert_ne!(fragment, other);
        fragment.with_donl(!marked);
        assert_eq!(fragment, other);
    }
    // The setting of a later call makes what is shown no other.
    let mut end = H265Depacketizer::default();
    writes(&mut end, &["620193aa"], "");
    end.with_donl(true);
    assert_eq!(end.payload(), &shown(false, "620193aa"));
}
