//! Packetizers and depacketizers of a codec that is chosen while the program runs, or in a box.

use crate::tests::{bytes, payload, refuses, sends, writes};
use crate::{
    Codec, CodecDepacketizer, CodecExtra, CodecPacketizer, Depacketizer, H264CodecExtra,
    H265CodecExtra, H265Payload, H266CodecExtra, PacketError, Packetizer, Packets, PacketsSize,
};

const CODECS: [Codec; 3] = [Codec::H264, Codec::H265, Codec::H266];

/// Sends payloads of up to 4 bytes as they are, and takes such packets.
#[derive(Debug)]
struct Plain;

impl Packetizer for Plain {
    fn packetize(&mut self, mtu: usize, b: &[u8]) -> Result<Vec<Vec<u8>>, PacketError> {
        if b.len() > 4 {
            return Err(PacketError::OutOfMemory);
        }
        Ok(b.chunks(mtu).map(<[u8]>::to_vec).collect())
    }

    fn is_marker(&mut self, data: &[u8], previous: Option<&[u8]>, last: bool) -> bool {
        last && previous.is_none() && data == [9]
    }

    fn marks_talkspurt(&self) -> bool {
        true
    }

    fn nackable(&self) -> bool {
        false
    }
}

impl Depacketizer for Plain {
    fn out_size_hint(&self, packets_size: usize) -> Option<usize> {
        packets_size.checked_sub(1)
    }

    fn depacketize(
        &mut self,
        packet: &[u8],
        out: &mut Vec<u8>,
        codec_extra: &mut CodecExtra,
    ) -> Result<(), PacketError> {
        if packet.is_empty() {
            return Err(PacketError::ErrShortPacket);
        }
        out.extend_from_slice(packet);
        *codec_extra = CodecExtra::None;
        Ok(())
    }

    fn is_partition_head(&self, packet: &[u8]) -> bool {
        packet == [1]
    }

    fn is_partition_tail(&self, marker: bool, packet: &[u8]) -> bool {
        !marker && packet == [2]
    }
}

/// What the first units after settings bear, as `sprop-max-don-diff` gives them (RFC 7798, 7.1; RFC
/// 9328, 7.2).
#[test]
fn numbers_by_the_session_description() {
    const ONE: &str = "02010000aa";
    for (codec, calls) in [
        (Codec::H265, [(Some(1), ONE), (None, "02010001aa")]),
        (Codec::H265, [(Some(0), "0201aa"), (None, "0201aa")]),
        (Codec::H265, [(None, "0201aa"), (Some(u32::MAX), ONE)]),
        (Codec::H265, [(Some(2), ONE), (Some(0), "02010001aa")]),
        (Codec::H265, [(Some(2), ONE), (Some(2), ONE)]),
        (Codec::H266, [(Some(1), ONE), (None, "02010001aa")]),
        (Codec::H266, [(Some(0), "0201aa"), (None, "0201aa")]),
        (Codec::H264, [(Some(1), "0201aa"), (Some(1), "0201aa")]),
    ] {
        let mut end = CodecPacketizer::from(codec);
        for (max_don_diff, packet) in calls {
            end.configure_for(max_don_diff);
            sends(&mut end, 100, &bytes("0201aa"), &[packet]);
        }
    }
}

/// They begin at 0 each time that they are turned on (RFC 7798, 4.6; RFC 9328, 4.4).
#[test]
fn numbers_on_and_off() {
    const ONE: &str = "02010000aa";
    for codec in CODECS {
        let has_numbers = codec != Codec::H264;
        let (numbered, second) = match has_numbers {
            true => (ONE, "02010001aa"),
            false => ("0201aa", "0201aa"),
        };
        let mut end = CodecPacketizer::new(codec);
        end.with_donl(true);
        sends(&mut end, 100, &bytes("0201aa"), &[numbered]);
        sends(&mut end, 100, &bytes("0201aa"), &[second]);
        end.with_donl(true);
        sends(&mut end, 100, &bytes("0201aa"), &[numbered]);
        end.with_donl(false);
        sends(&mut end, 100, &bytes("0201aa"), &["0201aa"]);

        let mut end = CodecDepacketizer::new(codec);
        end.with_donl(true);
        let kept = if has_numbers { "" } else { "0000" };
        writes(&mut end, &[ONE], &format!("00000001 0201{kept}aa"));
        end.with_donl(false);
        writes(&mut end, &[ONE], "00000001 02010000aa");
    }
}

/// A STAP-A has a byte before its sets, and an aggregate of the others two, with two before each set (RFC
/// 6184, 5.7.1; RFC 7798, 4.4.2; RFC 9328, 4.3.2).
#[test]
fn sizes_before_a_call() {
    for (codec, units, sets) in [
        (Codec::H264, &["6701", "6802", "6503"][..], 1 + 2 * (2 + 2)),
        (
            Codec::H265,
            &["40010c", "420101", "4401c1", "2601af"],
            2 + 3 * (2 + 3),
        ),
        (
            Codec::H266,
            &["0079bb", "0081cc", "0039dd"],
            2 + 2 * (2 + 3),
        ),
    ] {
        let (end, payload) = (CodecPacketizer::new(codec), payload(units));
        let picture = bytes(units.last().unwrap()).len();
        for headroom in [0, 12] {
            let size = PacketsSize {
                packets: 2,
                bytes: 2 * headroom + sets + picture,
            };
            // Nothing waits after the first time either.
            for _ in 0..2 {
                assert_eq!(end.packets_size(1200, &payload, headroom), Ok(Some(size)));
            }
        }
        let none = PacketsSize {
            packets: 0,
            bytes: 0,
        };
        assert_eq!(end.packets_size(1200, &[], 12), Ok(Some(none)));
        let much = end.packets_size(1200, &payload, usize::MAX).unwrap();
        assert_eq!(much.unwrap().bytes, usize::MAX);
    }
    let end = CodecPacketizer::Boxed(Box::new(Plain));
    assert_eq!(end.packets_size(4, &[1, 2], 0), Ok(None));
}

/// Packets as they are wanted, by both calls of one payload or one unit.
#[track_caller]
fn makes(end: &mut CodecPacketizer, is_unit: bool, mtu: usize, payload: &[u8], wanted: &[&str]) {
    let wanted: Vec<Vec<u8>> = wanted.iter().map(|packet| bytes(packet)).collect();
    let made = match is_unit {
        true => end.packetize_unit(mtu, payload),
        false => end.packetize(mtu, payload),
    };
    assert_eq!(made, Ok(wanted.clone()));
    let mut packets = Packets::with_headroom(3);
    let made = match is_unit {
        true => end.packetize_unit_into(mtu, payload, &mut packets),
        false => end.packetize_into(mtu, payload, &mut packets),
    };
    assert_eq!(made, Ok(()));
    assert_eq!(packets.iter().collect::<Vec<_>>(), wanted);
    let headroom = 3 * wanted.len();
    assert_eq!(packets.bytes().len(), headroom + wanted.concat().len());
}

#[test]
fn packets_of_each_codec() {
    for (codec, unit, fragments) in [
        (Codec::H264, "6501020304", &["7c850102", "7c450304"][..]),
        (Codec::H265, "2601aabb", &["2601aabb"]),
        (
            Codec::H265,
            "2601aabbcc",
            &["620193aa", "620113bb", "620153cc"],
        ),
        (
            Codec::H266,
            "0039aabbcc",
            &["00e987aa", "00e907bb", "00e947cc"],
        ),
    ] {
        let mut end = CodecPacketizer::new(codec);
        makes(&mut end, false, 4, &bytes(unit), fragments);
        makes(&mut end, true, 4, &bytes(unit), fragments);
        assert!(end.is_marker(&[9], Some(&[8]), true) && !end.is_marker(&[9], None, false));
        assert!(!end.marks_talkspurt() && end.nackable());
    }
}

/// Sets wait, one that is sent as it is goes now, and then they go before a picture.
#[test]
fn sets_wait_while_units_are_sent_as_they_are() {
    for (codec, sets, unit, picture, packets) in [
        (
            Codec::H264,
            &["6701", "6802"][..],
            "6709",
            "6503",
            ["780002670100026802", "6503"],
        ),
        (
            Codec::H265,
            &["40010c", "420101", "4401c1"],
            "420109",
            "2601af",
            ["6001000340010c000342010100034401c1", "2601af"],
        ),
        (
            Codec::H266,
            &["0079bb", "0081cc"],
            "0079bc",
            "0039dd",
            ["00e100030079bb00030081cc", "0039dd"],
        ),
    ] {
        let mut end = CodecPacketizer::new(codec);
        sends(&mut end, 1200, &payload(sets), &[]);
        makes(&mut end, true, 1200, &bytes(unit), &[unit]);
        sends(&mut end, 1200, &bytes(picture), &packets);
    }
}

#[test]
fn the_largest_packet_size() {
    for (codec, unit, wanted) in [
        (Codec::H264, "65aabbccdd", &["65aabbccdd"][..]),
        (
            Codec::H265,
            "2601aabbcc",
            &["620193aa", "620113bb", "620153cc"],
        ),
        (
            Codec::H266,
            "0039aabbcc",
            &["00e987aa", "00e907bb", "00e947cc"],
        ),
    ] {
        let mut end = CodecPacketizer::new(codec);
        end.with_max_packet_size(4);
        sends(&mut end, 1500, &bytes(unit), wanted);
    }
}

#[test]
#[should_panic(expected = "a largest packet size is 4 or more")]
fn a_largest_packet_size_without_room_for_data() {
    CodecPacketizer::new(Codec::H265).with_max_packet_size(3);
}

#[test]
fn a_packetizer_in_a_box() {
    let mut end = CodecPacketizer::Boxed(Box::new(Plain));
    end.configure_for(Some(1));
    end.with_donl(true);
    end.with_max_packet_size(3);
    makes(&mut end, false, 3, &bytes("0201aabb"), &["0201aa", "bb"]);
    makes(&mut end, true, 4, &bytes("000001aa"), &["000001aa"]);
    makes(&mut end, false, 4, &[], &[]);
    assert!(end.is_marker(&[9], None, true) && !end.is_marker(&[9], Some(&[9]), true));
    assert!(end.marks_talkspurt() && !end.nackable());
}

#[test]
fn a_refusal_in_a_box_leaves_the_packets() {
    let mut end = CodecPacketizer::Boxed(Box::new(Plain));
    let mut packets = Packets::with_headroom(1);
    end.packetize_into(2, &[1, 2, 3], &mut packets).unwrap();
    packets.bytes_mut()[0] = 7;
    let before = packets.clone();
    let refused = Err(PacketError::OutOfMemory);
    assert_eq!(end.packetize_into(2, &[0; 5], &mut packets), refused);
    assert_eq!(end.packetize_unit_into(2, &[0; 5], &mut packets), refused);
    assert_eq!(packets, before);
    // What stands before a packet is the caller's, and its memory is used again.
    end.packetize_into(2, &[4, 5], &mut packets).unwrap();
    assert_eq!(
        (packets.ends(), packets.bytes()),
        (&[3][..], &[7, 4, 5][..])
    );
}

#[test]
fn units_of_each_codec() {
    for (codec, packets, wanted) in [
        (Codec::H264, ["7c8501", "7c4502"], "00000001 650102"),
        (Codec::H265, ["620193aa", "620153bb"], "00000001 2601aabb"),
        (Codec::H266, ["00e987aa", "00e947bb"], "00000001 0039aabb"),
    ] {
        let mut end = CodecDepacketizer::from(codec);
        writes(&mut end, &packets, wanted);
        writes(&mut end, &packets[..1], "");
        end.give_up_run();
        writes(&mut end, &packets[1..], "");
        refuses(&mut end, "", PacketError::ErrShortPacket);
        assert_eq!(end.out_size_hint(5000), Some(5020));
        assert!(end.is_partition_head(&bytes(packets[0])));
        assert!(!end.is_partition_head(&bytes(packets[1])));
        assert!(end.is_partition_tail(true, &bytes(packets[1])));
        let is_tail = end.is_partition_tail(false, &bytes(packets[1]));
        assert_eq!(is_tail, codec != Codec::H264);
    }
}

#[test]
fn settings_of_the_one_within() {
    let mut end = CodecDepacketizer::new(Codec::H265);
    let CodecDepacketizer::H265(it) = &mut end else {
        panic!("of H.265");
    };
    it.with_donl(true);
    it.is_avc = true;
    writes(&mut end, &["02010005aa"], "00000003 0201aa");
}

#[test]
fn lengths_and_start_codes() {
    for (codec, packet) in [
        (Codec::H264, "65aa"),
        (Codec::H265, "2601aa"),
        (Codec::H266, "0039aa"),
    ] {
        let mut end = CodecDepacketizer::new(codec);
        end.set_avc(true);
        let length = format!("{:08x}", bytes(packet).len());
        writes(&mut end, &[packet], &(length + packet));
        end.set_avc(false);
        writes(&mut end, &[packet], &format!("00000001 {packet}"));
    }
}

#[test]
fn what_is_shown() {
    let mut end = CodecDepacketizer::new(Codec::H265);
    writes(&mut end, &["620193aa"], "");
    let Some(H265Payload::H265FragmentationUnitPacket(shown)) = end.shown() else {
        panic!("a fragment");
    };
    assert_eq!(
        (shown.fu_header().fu_type(), shown.payload()),
        (19, &[0xaa][..])
    );
    for end in [
        CodecDepacketizer::new(Codec::H264),
        CodecDepacketizer::new(Codec::H266),
        CodecDepacketizer::Boxed(Box::new(Plain)),
    ] {
        assert_eq!(end.shown(), None);
    }
}

#[test]
fn names_of_codecs() {
    assert_eq!(
        CODECS.map(|codec| codec.to_string()),
        ["H264", "H265", "H266"]
    );
    assert_eq!(format!("{:>6}", Codec::H265), "  H265");
}

#[test]
fn keyframes_that_are_told_of() {
    assert!(!CodecExtra::None.is_keyframe());
    for is_keyframe in [false, true] {
        for extra in [
            CodecExtra::H264(H264CodecExtra { is_keyframe }),
            CodecExtra::H265(H265CodecExtra { is_keyframe }),
            CodecExtra::H266(H266CodecExtra { is_keyframe }),
        ] {
            assert_eq!(extra.is_keyframe(), is_keyframe);
        }
    }
}

#[test]
fn a_depacketizer_in_a_box() {
    let mut end = CodecDepacketizer::Boxed(Box::new(Plain));
    end.with_donl(true);
    end.set_avc(true);
    writes(&mut end, &["7c8501", "aa"], "7c8501aa");
    end.give_up_run();
    refuses(&mut end, "", PacketError::ErrShortPacket);
    assert_eq!(
        (end.out_size_hint(5), end.out_size_hint(0)),
        (Some(4), None)
    );
    assert!(end.is_partition_head(&[1]) && !end.is_partition_head(&[2]));
    assert!(end.is_partition_tail(false, &[2]) && !end.is_partition_tail(true, &[2]));
}

#[test]
fn debug_text_names_the_codec() {
    for codec in CODECS {
        let begin = format!("{codec:?}({codec:?}");
        let text = format!("{:?}", CodecPacketizer::new(codec));
        assert!(text.starts_with(&format!("{begin}Packetizer")), "{text}");
        let text = format!("{:?}", CodecDepacketizer::new(codec));
        assert!(text.starts_with(&format!("{begin}Depacketizer")), "{text}");
    }
    let text = format!("{:?}", CodecPacketizer::Boxed(Box::new(Plain)));
    assert_eq!(text, "Boxed(Plain)");
}
