//! Packets put in their order, and access units from them (RFC 3550, 5.1 and A.1; RFC 6184, 5.1). Expected
//! units are written out by hand.

use crate::tests::bytes;
use crate::{
    AccessUnit, AccessUnitAssembler, Codec, CodecExtra, H264CodecExtra, HeldPacket, NotHeldReason,
    PacketError, Pushed, Received, ReorderBuffer, RtpPacket, SequencedDepacketizer,
};

fn packet(sequence: u16, timestamp: u32, marker: bool, payload: &[u8]) -> RtpPacket<'_> {
    RtpPacket {
        sequence,
        timestamp,
        marker,
        payload,
    }
}

/// The sequence numbers of what may go, and of all where `to_the_end` is set.
fn popped(buffer: &mut ReorderBuffer, to_the_end: bool) -> Vec<u16> {
    let mut out = Vec::new();
    while let Some(held) = buffer.pop() {
        out.push(held.sequence);
    }
    while to_the_end && let_first(buffer, &mut out) {}
    out
}

fn let_first(buffer: &mut ReorderBuffer, out: &mut Vec<u16>) -> bool {
    let first = buffer.pop_first();
    out.extend(first.iter().map(|held| held.sequence));
    first.is_some()
}

fn push(buffer: &mut ReorderBuffer, sequence: u16) -> Pushed {
    buffer.push(&packet(sequence, 0, false, &[7])).unwrap()
}

#[test]
fn packets_are_put_in_order_across_the_end_of_numbers() {
    let mut buffer = ReorderBuffer::new(4);
    for sequence in [65534, 0, 65535, 1] {
        assert_eq!(push(&mut buffer, sequence), Pushed::Held);
    }
    assert_eq!(popped(&mut buffer, true), [65534, 65535, 0, 1]);
    assert!(buffer.is_empty());
    assert_eq!(push(&mut buffer, 3), Pushed::Held);
    assert_eq!(push(&mut buffer, 3), Pushed::Twice);
    assert_eq!(push(&mut buffer, 1), Pushed::Late(1));
    assert_eq!(buffer.len(), 1);
    assert!(popped(&mut buffer, false).is_empty());
    assert_eq!(push(&mut buffer, 2), Pushed::Held);
    assert_eq!(popped(&mut buffer, false), [2, 3]);
}

#[test]
fn a_packet_that_is_missing_is_waited_for_as_long_as_the_window() {
    let mut buffer = ReorderBuffer::new(3);
    for sequence in [7, 8, 9, 10] {
        push(&mut buffer, sequence);
    }
    assert_eq!(popped(&mut buffer, true), [7, 8, 9, 10]);
    push(&mut buffer, 12);
    push(&mut buffer, 13);
    assert!(popped(&mut buffer, false).is_empty());
    push(&mut buffer, 14);
    assert_eq!(popped(&mut buffer, false), [12, 13, 14]);
    buffer.restart();
    assert_eq!(push(&mut buffer, 3), Pushed::Held);
}

#[test]
#[should_panic]
fn a_window_of_none() {
    ReorderBuffer::new(0);
}

#[test]
#[should_panic]
fn a_window_past_the_largest() {
    ReorderBuffer::new((1 << 14) + 1);
}

#[test]
fn a_held_packet_is_the_one_pushed() {
    let mut buffer = ReorderBuffer::new(1);
    let given = packet(9, 90, true, &[1, 2, 3]);
    buffer.push(&given).unwrap();
    let mut copy = buffer.clone();
    let held = buffer.pop_first().unwrap();
    assert_eq!(held.packet(), given);
    let wanted = HeldPacket {
        sequence: 9,
        timestamp: 90,
        marker: true,
        payload: vec![1, 2, 3],
    };
    assert_eq!(held, wanted);
    assert_eq!(copy.pop_first(), Some(wanted));
}

/// What packets with these numbers, timestamps, markers and payloads bring, and what became of the last.
#[test]
fn a_packet_by_value_is_held_or_comes_back() {
    let mut buffer = ReorderBuffer::new(4);
    let memory = vec![0x61, 1, 2];
    let place = memory.as_ptr();
    buffer
        .push_held(HeldPacket::new(9, 3000, true, memory))
        .unwrap();
    let twice = buffer
        .push_held(HeldPacket::new(9, 3000, true, vec![5]))
        .unwrap_err();
    assert_eq!(twice.reason, NotHeldReason::Twice);
    assert_eq!(twice.to_string(), "a packet with its number is held");
    assert_eq!(twice.packet.into_payload(), [5]);
    let held = buffer.pop_first().unwrap();
    assert_eq!(held.packet(), packet(9, 3000, true, &[0x61, 1, 2]));
    // Nothing was copied.
    let memory = held.into_payload();
    assert_eq!(memory.as_ptr(), place);
    let late = buffer
        .push_held(HeldPacket::new(7, 0, false, Vec::new()))
        .unwrap_err();
    assert_eq!(late.reason, NotHeldReason::Late(3));
    assert_eq!(
        late.to_string(),
        "the packet is 3 behind the one that is due"
    );
}

#[test]
fn memory_that_is_given_back_is_written_again() {
    let mut assembler = AccessUnitAssembler::new(Codec::H264, 100, 100);
    let mut units = Vec::new();
    assembler
        .receive(&packet(1, 0, true, &[0x61, 1, 2, 3]), &mut units)
        .unwrap();
    let unit = units.pop().unwrap();
    let place = unit.bytes.as_ptr();
    assembler.give_back(unit);
    assembler
        .receive(&packet(2, 3000, true, &[0x61, 4]), &mut units)
        .unwrap();
    assert_eq!(units[0].bytes, [0, 0, 0, 1, 0x61, 4]);
    assert_eq!(units[0].bytes.as_ptr(), place);
}

fn received(
    assembler: &mut AccessUnitAssembler,
    packets: &[(u16, u32, bool, &str)],
) -> (Vec<AccessUnit>, Received) {
    let (mut units, mut last) = (Vec::new(), Received::InOrder);
    for (sequence, timestamp, marker, payload) in packets {
        let payload = bytes(payload);
        let packet = packet(*sequence, *timestamp, *marker, &payload);
        last = assembler.receive(&packet, &mut units).unwrap();
    }
    (units, last)
}

fn unit(timestamp: u32, text: &str, is_keyframe: bool, is_whole: bool) -> AccessUnit {
    AccessUnit {
        timestamp,
        bytes: bytes(text),
        extra: CodecExtra::H264(H264CodecExtra { is_keyframe }),
        is_whole,
    }
}

#[test]
fn units_end_at_markers_and_at_other_timestamps() {
    let mut assembler = AccessUnitAssembler::new(Codec::H264, 100, 1000);
    assert_eq!(assembler.codec(), Codec::H264);
    let packets = [
        (7, 10, false, "65aa"),
        (8, 10, true, "65bb"),
        (9, 20, false, "7c8101"),
        (10, 20, false, "7c4102"),
        (11, 30, true, "61cc"),
    ];
    let (units, last) = received(&mut assembler, &packets);
    assert_eq!(last, Received::InOrder);
    // Whether a packet came before the first isn't known.
    let wanted = [
        unit(10, "0000000165aa 0000000165bb", true, false),
        unit(20, "00000001610102", false, true),
        unit(30, "0000000161cc", false, true),
    ];
    assert_eq!(units, wanted);
}

#[test]
fn a_unit_of_which_a_packet_is_missing_is_left_out() {
    let mut assembler = AccessUnitAssembler::new(Codec::H264, 100, 1000);
    received(&mut assembler, &[(7, 10, true, "65aa")]);
    let (units, last) = received(
        &mut assembler,
        &[(8, 20, false, "7c8101"), (10, 20, true, "7c4103")],
    );
    assert_eq!(last, Received::Gap(1));
    assert_eq!((units.len(), units[0].is_whole), (1, false));
    assert!(units[0].bytes.is_empty());
    let (units, last) = received(&mut assembler, &[(9, 20, false, "7c0102")]);
    assert_eq!((units.len(), last), (0, Received::Late(2)));
    let (units, _) = received(&mut assembler, &[(11, 30, true, "61dd")]);
    assert_eq!(units, [unit(30, "0000000161dd", false, true)]);
}

#[test]
fn numbers_that_bear_nothing_are_passed_over() {
    let mut assembler = AccessUnitAssembler::new(Codec::H264, 100, 1000);
    received(
        &mut assembler,
        &[(7, 10, true, "65aa"), (8, 20, false, "7c8101")],
    );
    // Padding within a fragmented unit: nothing is missing.
    assert_eq!(assembler.skip(9), Received::InOrder);
    assert_eq!(assembler.skip(9), Received::Late(1));
    let (units, last) = received(&mut assembler, &[(10, 20, true, "7c4102")]);
    assert_eq!(last, Received::InOrder);
    assert_eq!(units, [unit(20, "00000001610102", false, true)]);
    // Behind a gap nothing is known to be whole, nor of what the next packet in order brings.
    received(&mut assembler, &[(11, 30, false, "61cc")]);
    assert_eq!(assembler.skip(13), Received::Gap(1));
    let (units, _) = received(
        &mut assembler,
        &[(14, 40, true, "61dd"), (15, 50, true, "61ee")],
    );
    let wanted = [
        unit(30, "0000000161cc", false, false),
        unit(40, "0000000161dd", false, false),
        unit(50, "0000000161ee", false, true),
    ];
    assert_eq!(units, wanted);
}

#[test]
fn limits_ends_and_refusals() {
    let mut assembler = AccessUnitAssembler::new(Codec::H264, 2, 9);
    let (_, last) = received(&mut assembler, &[(1, 10, false, "7c85010203")]);
    assert_eq!((last, assembler.run_len()), (Received::TooLong(0), 0));
    received(&mut assembler, &[(2, 10, false, "65aabb")]);
    assert_eq!(assembler.unit_len(), 7);
    received(&mut assembler, &[(3, 10, false, "65cc")]);
    assert_eq!(assembler.unit_len(), 0);
    let mut units = Vec::new();
    let refused = assembler.receive(&packet(4, 10, false, &[]), &mut units);
    assert_eq!(
        (refused, units.len()),
        (Err(PacketError::ErrShortPacket), 0)
    );
    assembler.finish(&mut units).unwrap();
    assert_eq!((units.len(), units[0].is_whole), (1, false));
    received(&mut assembler, &[(9, 20, false, "65aa")]);
    assembler.restart();
    assert_eq!(assembler.unit_len(), 0);
    assembler.finish(&mut units).unwrap();
    assert_eq!(units.len(), 1);
}

#[test]
fn settings_and_copies() {
    let mut assembler = AccessUnitAssembler::new(Codec::H265, 100, 1000);
    assembler.with_donl(true);
    assembler.set_avc(true);
    let (units, _) = received(&mut assembler, &[(1, 10, true, "02010007aa")]);
    assert_eq!(units[0].bytes, bytes("00000003 0201aa"));
    received(&mut assembler, &[(2, 20, false, "620193 0008 bb")]);
    let mut copy = assembler.clone();
    assert_eq!((copy.run_len(), &copy), (1, &assembler));
    let end = [(3, 20, true, "620153cc")];
    assert_eq!(received(&mut copy, &end), received(&mut assembler, &end));
    received(&mut copy, &[(4, 30, true, "02010009dd")]);
    assert_ne!(copy, assembler);
}

#[test]
fn payloads_are_not_printed() {
    let secret = [0x65, 211, 212, 213];
    let mut buffer = ReorderBuffer::new(2);
    buffer.push(&packet(1, 2, true, &secret)).unwrap();
    let mut assembler = AccessUnitAssembler::new(Codec::H265, 100, 1000);
    let mut units = Vec::new();
    assembler
        .receive(&packet(1, 2, false, &bytes("620193d3d4d5")), &mut units)
        .unwrap();
    let mut shows = SequencedDepacketizer::new(Codec::H265, 100);
    shows
        .receive(
            1,
            &bytes("620193d3d4d5"),
            &mut Vec::new(),
            &mut CodecExtra::None,
        )
        .unwrap();
    let mut packets = crate::Packets::with_headroom(0);
    let mut sends = crate::H264Packetizer::default();
    sends.packetize_into(100, &secret, &mut packets).unwrap();
    crate::Packetizer::packetize(&mut sends, 100, &[0x67, 211, 212, 213]).unwrap();
    for text in [
        format!("{buffer:?}"),
        format!("{:?}", packet(1, 2, true, &secret)),
        format!("{:?}", unit(1, "65d3d4d5", true, true)),
        format!("{assembler:?}"),
        format!("{:?}", shows.shown()),
        format!("{packets:?} {:?}", packets.iter()),
        format!("{sends:?}"),
        format!("{:?}", crate::units(Codec::H264, &secret)),
    ] {
        assert!(!text.contains("211") && text.contains(" bytes"), "{text}");
    }
}
