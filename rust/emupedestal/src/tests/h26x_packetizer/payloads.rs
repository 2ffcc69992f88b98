//! Single packets, fragments, aggregates and limits (RFC 6184, 5.6 to 5.8; RFC 7798, 4.4; RFC 9328,
//! 4.3).

use crate::tests::{bytes, payload, sends};
use crate::{Codec, CodecPacketizer, PacketError, Packets, PacketsSize};
use crate::{H264Packetizer, H265Packetizer, H266Packetizer, Packetizer};

/// A unit of this header and so many bytes `aa` behind it.
fn long_unit(header: &str, data: usize) -> Vec<u8> {
    [bytes(header), vec![0xaa; data]].concat()
}

fn lengths(packets: &[Vec<u8>]) -> Vec<usize> {
    packets.iter().map(Vec::len).collect()
}

#[test]
fn h264_units_that_fit_go_alone() {
    let end = &mut H264Packetizer::default();
    sends(end, 4, &bytes("65010203"), &["65010203"]);
    sends(end, 5, &payload(&["90", "90"]), &["90", "90"]);
    sends(end, 5, &bytes("0cff80"), &["0cff80"]); // filler data
}

#[test]
fn h264_fragments() {
    let end = &mut H264Packetizer::default();
    sends(end, 3, &bytes("65010203"), &["7c8501", "7c0502", "7c4503"]);
    sends(
        end,
        5,
        &payload(&["00010203040506070809101112131415"]),
        &[
            "1c80010203",
            "1c00040506",
            "1c00070809",
            "1c00101112",
            "1c40131415",
        ],
    );
    // The forbidden bit is no part of the indicator (RFC 6184, 5.8).
    sends(
        end,
        5,
        &bytes("e5010203040506"),
        &["7c85010203", "7c45040506"],
    );
}

#[test]
fn h264_sets_wait_and_go_in_a_stap_a() {
    let end = &mut H264Packetizer::default();
    sends(end, 1500, &bytes("070001"), &[]);
    sends(end, 1500, &bytes("080203"), &[]);
    sends(
        end,
        1500,
        &bytes("050405"),
        &["78000307000100030802 03", "050405"],
    );
    sends(end, 1500, &bytes("050405"), &["050405"]);
}

#[test]
fn h264_sets_that_pass_the_limit_together_go_alone() {
    let sets_and_slice = payload(&["070001", "080203", "050405"]);
    let end = &mut H264Packetizer::default();
    sends(
        end,
        11,
        &sets_and_slice,
        &["7800030700010003080203", "050405"],
    );
    sends(end, 10, &sets_and_slice, &["070001", "080203", "050405"]);
    sends(
        end,
        3,
        &payload(&["07000102", "080203", "050405"]),
        &["080203", "050405"],
    );
}

#[test]
fn nothing_is_sent() {
    let end = &mut H264Packetizer::default();
    sends(end, 1, &bytes("909090"), &[]);
    sends(end, 0, &bytes("6501"), &[]);
    sends(end, 5, &[], &[]);
    sends(end, 5, &bytes("090000"), &[]); // an access unit delimiter
    sends(end, 2, &bytes("65010203"), &[]);
    sends(&mut H265Packetizer::default(), 3, &bytes("0201aa"), &[]);
    sends(&mut H265Packetizer::default(), 9, &bytes("460150"), &[]); // a delimiter, type 35
    sends(&mut H266Packetizer::default(), 3, &bytes("0009aa"), &[]);
    sends(&mut H266Packetizer::default(), 9, &bytes("00a128"), &[]); // a delimiter, type 20
}

#[test]
fn h265_fragments() {
    let end = &mut H265Packetizer::default();
    sends(
        end,
        4,
        &bytes("2601aabbcc"),
        &["620193aa", "620113bb", "620153cc"],
    );
}

#[test]
fn h265_sets_go_in_an_aggregate_or_alone() {
    let units = payload(&["40010c", "420101", "4401c1", "2601af"]);
    let aggregate = "6001 0003 40010c 0003 420101 0003 4401c1";
    let end = &mut H265Packetizer::default();
    sends(end, 17, &units, &[aggregate, "2601af"]);
    sends(end, 16, &units, &["40010c", "420101", "4401c1", "2601af"]);
}

/// By hand: an FU-A has two bytes before its data, and fragments of the others three (RFC 6184, 5.8; RFC 7798,
/// 4.4.3; RFC 9328, 4.3.3); with numbers the first has two more.
#[test]
fn sizes_of_fragments() {
    fn size(made: Result<PacketsSize, PacketError>) -> (usize, usize) {
        let PacketsSize { packets, bytes } = made.unwrap();
        (packets, bytes)
    }
    let h264 = H264Packetizer::default();
    let unit = bytes("6501020304");
    assert_eq!(size(h264.packets_size(4, &unit, 0)), (2, 2 * (2 + 2)));
    assert_eq!(size(h264.packets_size(4, &unit, 2)), (2, 2 * (2 + 2 + 2)));
    assert_eq!(size(h264.packets_size(2, &unit, 2)), (0, 0));
    let mut h265 = H265Packetizer::default();
    let unit = bytes("2601aabbcc");
    assert_eq!(size(h265.packets_size(4, &unit, 1)), (3, 3 * (1 + 3 + 1)));
    h265.with_donl(true);
    h265.with_lowest_header(true);
    assert_eq!(size(h265.packets_size(6, &unit, 0)), (2, 3 + 2 + 1 + 3 + 2));
    let mut h266 = H266Packetizer::default();
    let unit = [&bytes("0039")[..], &[0xaa; 1199]].concat();
    assert_eq!(size(h266.packets_size(5000, &unit, 0)), (2, 1200 + 5));
    h266.with_max_packet_size(1201);
    assert_eq!(size(h266.packets_size(5000, &unit, 0)), (1, 1201));
    // Sets that came in such a call don't wait.
    let sets = payload(&["0079bb", "0081cc"]);
    assert_eq!(size(h266.packets_size(1200, &sets, 0)), (0, 0));
    sends(&mut h266, 1200, &bytes("0039dd"), &["0039dd"]);
}

/// Sets of layer 0 and temporal id 1 before a slice of layer 1 and temporal id 3 (RFC 7798, 4.4.2).
#[test]
fn h265_sets_with_the_header_of_sets() {
    let units = payload(&["4001", "4201", "4401", "020baa"]);
    let (sent, wanted) = (
        "600b 0002 4001 0002 4201 0002 4401",
        "6001 0002 4001 0002 4201 0002 4401",
    );
    let end = &mut H265Packetizer::default();
    sends(end, 1200, &units, &[sent, "020baa"]);
    end.with_lowest_header(true);
    sends(end, 1200, &units, &[wanted, "020baa"]);
    sends(&mut end.clone(), 1200, &units, &[wanted, "020baa"]);

    let mut packets = Packets::with_headroom(12);
    end.packetize_into(1200, &units, &mut packets).unwrap();
    assert_eq!(packets.len(), 2);
    assert_eq!(
        (&packets[0], &packets[1]),
        (&bytes(wanted)[..], &bytes("020baa")[..])
    );
    assert_eq!(packets.bytes()[..12], [0; 12]);

    // F of a set is that of the packet, and F of the slice isn't.
    let sets = ["c001", "4201", "4401"];
    let with_f = "e001 0002 c001 0002 4201 0002 4401";
    sends(
        end,
        1200,
        &payload(&[&sets[..], &["020baa"]].concat()),
        &[with_f, "020baa"],
    );
    sends(
        end,
        1200,
        &payload(&["4001", "4201", "4401", "820baa"]),
        &[wanted, "820baa"],
    );

    // A unit of type 48 that a payload brings is no packet of sets.
    let of_type_48 = "600b 0002 4001 0002 4201";
    sends(end, 1200, &bytes(of_type_48), &[of_type_48]);

    end.with_donl(true);
    let numbered = "6001 0000 0002 4001 00 0002 4201 00 0002 4401";
    sends(end, 1200, &units, &[numbered, "020b 0003 aa"]);
    end.with_donl(false);
    end.with_lowest_header(false);
    sends(end, 1200, &units, &[sent, "020baa"]);
}

/// Of any codec: that of H.265 alone changes.
#[test]
fn any_codecs_sets_with_the_header_of_sets() {
    let mut end = CodecPacketizer::new(Codec::H265);
    end.with_lowest_header(true);
    let units = payload(&["4201", "4401", "0203aa"]);
    sends(
        &mut end,
        1200,
        &units,
        &["6001 0002 4201 0002 4401", "0203aa"],
    );
    let mut end = CodecPacketizer::new(Codec::H264);
    end.with_lowest_header(true);
    sends(
        &mut end,
        1200,
        &payload(&["070001", "080203", "050405"]),
        &["7800030700010003080203", "050405"],
    );
}

#[test]
fn h266_fragments() {
    let end = &mut H266Packetizer::default();
    let packets = end.packetize(100, &long_unit("0001", 99)).unwrap();
    assert_eq!(lengths(&packets), [100, 5]);
    assert!(packets[0].starts_with(&bytes("00e980")));
    assert_eq!(packets[1], bytes("00e940aaaa"));
    assert_eq!(
        end.packetize(200, &long_unit("0049", 2998)).unwrap().len(),
        16
    );
}

#[test]
fn h266_sets_go_in_an_aggregate() {
    let end = &mut H266Packetizer::default();
    sends(
        end,
        1200,
        &payload(&["0071aa", "0079bb", "0081cc", "0039dd"]),
        &["00e1 0003 0071aa 0003 0079bb 0003 0081cc", "0039dd"],
    );
    // The lowest layer and temporal id of the units (RFC 9328, 4.3.2).
    sends(
        end,
        1200,
        &payload(&["027abb", "0183cc", "0039dd"]),
        &["01e2 0003 027abb 0003 0183cc", "0039dd"],
    );
}

#[test]
fn zeros_before_a_start_code() {
    let zeros = bytes("000001 0009aa00 00000001 0011bb");
    sends(
        &mut H266Packetizer::default(),
        1200,
        &zeros,
        &["0009aa00", "0011bb"],
    );
    sends(
        &mut H265Packetizer::default(),
        1200,
        &zeros,
        &["0009aa", "0011bb"],
    );
}

#[test]
fn the_largest_packet_size() {
    let unit = long_unit("2601", 1199);
    let end = &mut H265Packetizer::default();
    let packets = end.packetize(5000, &unit).unwrap();
    assert_eq!(lengths(&packets), [1200, 5]);
    assert!(packets[0].starts_with(&bytes("620193")));
    assert_eq!(packets[1], bytes("620153aaaa"));

    end.with_max_packet_size(4);
    sends(
        end,
        5000,
        &bytes("2601aabbcc"),
        &["620193aa", "620113bb", "620153cc"],
    );
    end.with_max_packet_size(u16::MAX);
    assert_eq!(end.packetize(5000, &unit), Ok(vec![unit.clone()]));

    let end = &mut H266Packetizer::default();
    end.with_max_packet_size(u16::MAX);
    let packets = end.packetize(70000, &long_unit("0009", 65534)).unwrap();
    assert_eq!(lengths(&packets), [65535, 5]);
    assert!(packets[0].starts_with(&bytes("00e981")));
    assert_eq!(packets[1], bytes("00e941aaaa"));
}

#[test]
#[should_panic(expected = "a largest packet size is 4 or more")]
fn a_largest_packet_size_without_room_for_data() {
    H266Packetizer::default().with_max_packet_size(3);
}

#[test]
fn markers() {
    fn check(mut end: impl Packetizer) {
        assert!(end.is_marker(&[0x65], None, true));
        assert!(!end.is_marker(&[0x65], Some(&[0x68]), false));
        assert!(!end.marks_talkspurt());
        assert!(end.nackable());
    }
    check(H264Packetizer::default());
    check(H265Packetizer::default());
    check(H266Packetizer::default());
}

/// How many packets a unit of eight bytes has at limits from 0 to 10: a fragment's header takes two
/// bytes of H.264, three of the others, and a number two more of the first.
#[test]
fn packets_at_each_limit() {
    fn counts(mut end: impl Packetizer, unit: &str) -> Vec<usize> {
        let unit = bytes(unit);
        (0..=10)
            .map(|mtu| end.packetize(mtu, &unit).unwrap().len())
            .collect()
    }
    let numbers_off = [0, 0, 0, 0, 6, 3, 2, 2, 1, 1, 1];
    let numbers_on = [0, 0, 0, 0, 0, 0, 3, 2, 2, 2, 1];
    let h264 = counts(H264Packetizer::default(), "6501020304050607");
    assert_eq!(h264, [0, 0, 0, 7, 4, 3, 2, 2, 1, 1, 1]);

    let (h265, h266) = ("0201010203040506", "0009010203040506");
    assert_eq!(counts(H265Packetizer::default(), h265), numbers_off);
    assert_eq!(counts(H266Packetizer::default(), h266), numbers_off);
    let (mut first, mut second) = (H265Packetizer::default(), H266Packetizer::default());
    first.with_donl(true);
    second.with_donl(true);
    assert_eq!(counts(first, h265), numbers_on);
    assert_eq!(counts(second, h266), numbers_on);
}
