//! Packets of every unit of an access unit: aggregates, refusals and settings (RFC 6184, 5.7.1; RFC 7798, 4.4.2; RFC
//! 9328, 4.3.2).

use crate::tests::{bytes, payload, sends};
use crate::{Codec, CodecPacketizer, EveryUnitError, Packets, PacketsSize, Packing};
use crate::{H264Packetizer, H265Packetizer, H266Packetizer, RefusedUnit, WhyRefused};
use crate::{detect_keyframe, units};
use std::error::Error;

const ALL_PACKINGS: [Packing; 4] = [
    Packing::Together,
    Packing::BeforeSlices,
    Packing::Apart,
    Packing::Single,
];

fn all_bytes(of: &[&str]) -> Vec<Vec<u8>> {
    of.iter().map(|hex| bytes(hex)).collect()
}

fn slices(of: &[Vec<u8>]) -> Vec<&[u8]> {
    of.iter().map(Vec::as_slice).collect()
}

/// Units behind start codes.
fn joined(of: &[Vec<u8>]) -> Vec<u8> {
    of.iter()
        .flat_map(|unit| [&[0, 0, 1], &unit[..]].concat())
        .collect()
}

/// Sends units by each of the four calls, from the same state, and compares their packets, and the sizes that were told
/// before, with what is wanted.
#[track_caller]
fn sends_units(
    end: &mut CodecPacketizer,
    packing: Packing,
    mtu: usize,
    units: &[&str],
    wanted: &[&str],
) {
    let wanted = all_bytes(wanted);
    let list = all_bytes(units);
    let text = payload(units);
    let mut others = [clone_of(end), clone_of(end), clone_of(end)];
    let size = PacketsSize {
        packets: wanted.len(),
        bytes: wanted.iter().map(|packet| 3 + packet.len()).sum(),
    };
    let told = end.units_size(packing, mtu, &slices(&list), 3);
    assert_eq!(told, Ok(Some(size)));
    let told = end.access_unit_size(packing, mtu, &text, 3);
    assert_eq!(told, Ok(Some(size)));
    let made = end.packetize_units(packing, mtu, &slices(&list));
    assert_eq!(made, Ok(Some(wanted.clone())));

    let mut packets = Packets::with_headroom(3);
    let [units_into, of_text, text_into] = &mut others;
    let answer = units_into.packetize_units_into(packing, mtu, &slices(&list), &mut packets);
    assert_eq!(answer, Ok(Some(())));
    assert_eq!(packets.iter().collect::<Vec<_>>(), wanted);
    let made = of_text.packetize_access_unit(packing, mtu, &text);
    assert_eq!(made, Ok(Some(wanted.clone())));
    let answer = text_into.packetize_access_unit_into(packing, mtu, &text, &mut packets);
    assert_eq!(answer, Ok(Some(())));
    assert_eq!(packets.iter().collect::<Vec<_>>(), wanted);
    // The same number is next, and the same sets wait.
    let states = others.map(|it| format!("{it:?}"));
    assert_eq!(states, [(); 3].map(|()| format!("{end:?}")));
}

fn clone_of(end: &CodecPacketizer) -> CodecPacketizer {
    match end {
        CodecPacketizer::H264(it) => CodecPacketizer::H264(it.clone()),
        CodecPacketizer::H265(it) => CodecPacketizer::H265(it.clone()),
        CodecPacketizer::H266(it) => CodecPacketizer::H266(it.clone()),
        CodecPacketizer::Boxed(_) => unreachable!("no test clones one"),
    }
}

/// With numbers, or without.
fn packetizer(codec: Codec, has_donl: bool) -> CodecPacketizer {
    let mut end = CodecPacketizer::new(codec);
    end.with_donl(has_donl);
    end
}

/// Delimiter, SPS, PPS and two slices of H.264, with NRI 0, 1, 1, 2 and 0.
const H264_UNITS: [&str; 5] = ["0910", "2742", "28ce", "419a07", "019a08"];

#[test]
fn a_stap_a_has_the_greatest_nri() {
    let end = &mut packetizer(Codec::H264, false);
    let wanted = "58 0002 0910 0002 2742 0002 28ce 0003 419a07 0003 019a08";
    sends_units(end, Packing::Together, 23, &H264_UNITS, &[wanted]);
    let sets = "38 0002 0910 0002 2742 0002 28ce";
    let slices = "58 0003 419a07 0003 019a08";
    sends_units(
        end,
        Packing::Together,
        22,
        &H264_UNITS,
        &["58 0002 0910 0002 2742 0002 28ce 0003 419a07", "019a08"],
    );
    sends_units(end, Packing::Together, 13, &H264_UNITS, &[sets, slices]);
}

/// Layers 1, 2 and 1, temporal ids 3, 2 and 4.
#[test]
fn an_ap_has_the_lowest_layer_and_temporal_id() {
    let units = ["420b", "4412", "020caa"];
    let end = &mut packetizer(Codec::H265, false);
    let wanted = "600a 0002 420b 0002 4412 0003 020caa";
    sends_units(end, Packing::Together, 15, &units, &[wanted]);
    let two = "600a 0002 420b 0002 4412";
    sends_units(end, Packing::Together, 14, &units, &[two, "020caa"]);

    let units = ["017b", "0282", "010caa"];
    let end = &mut packetizer(Codec::H266, false);
    let wanted = "01e2 0002 017b 0002 0282 0003 010caa";
    sends_units(end, Packing::Together, 15, &units, &[wanted]);
    let two = "01e2 0002 017b 0002 0282";
    sends_units(end, Packing::Together, 14, &units, &[two, "010caa"]);
}

/// DONL is that of the first unit, and each DOND of H.265 is 0: the next number. H.266 has no DOND.
#[test]
fn each_unit_takes_a_number() {
    let units = ["4201", "4401", "0203aa"];
    let end = &mut packetizer(Codec::H265, true);
    let wanted = "6001 0000 0002 4201 00 0002 4401 00 0003 0203aa";
    sends_units(end, Packing::Together, 19, &units, &[wanted]);
    let long = ["4201", "4401", "0203aabbccddee"];
    let two = "6001 0003 0002 4201 00 0002 4401";
    sends_units(
        end,
        Packing::Together,
        13,
        &long,
        &[two, "0203 0005 aabbccddee"],
    );
    sends_units(end, Packing::Apart, 13, &["0203aa"], &["0203 0006 aa"]);
    sends_units(
        end,
        Packing::Together,
        6,
        &["0203aabbccddee", "0203ff"],
        &[
            "6203 81 0007 aa",
            "6203 01 bbccdd",
            "6203 41 ee",
            "0203 0008 ff",
        ],
    );
    sends(end, 1200, &bytes("0203aa"), &["0203 0009 aa"]);

    let units = ["0079", "0081", "000baa"];
    let end = &mut packetizer(Codec::H266, true);
    let wanted = "00e1 0000 0002 0079 0002 0081 0003 000baa";
    sends_units(end, Packing::Together, 17, &units, &[wanted]);
    let two = "00e1 0003 0002 0079 0002 0081";
    sends_units(end, Packing::Together, 16, &units, &[two, "000b 0005 aa"]);
    sends(end, 1200, &bytes("000baa"), &["000b 0006 aa"]);
}

#[test]
fn numbers_go_round() {
    let end = &mut packetizer(Codec::H265, true);
    let unit: &[u8] = &[0x02, 0x03, 0xaa];
    let many = vec![unit; 65535];
    end.packetize_units(Packing::Together, 1200, &many).unwrap();
    sends_units(
        end,
        Packing::Together,
        1200,
        &["0203bb", "0203cc"],
        &["6003 ffff 0003 0203bb 00 0003 0203cc"],
    );
    sends(end, 1200, &bytes("0203aa"), &["0203 0001 aa"]);
}

#[test]
fn each_packing() {
    let end = &mut packetizer(Codec::H264, false);
    let sets = "38 0002 0910 0002 2742 0002 28ce";
    let (first, second) = ("419a07", "019a08");
    sends_units(
        end,
        Packing::BeforeSlices,
        1200,
        &H264_UNITS,
        &[sets, first, second],
    );
    sends_units(end, Packing::Apart, 1200, &H264_UNITS, &H264_UNITS);
    sends_units(end, Packing::Single, 1200, &H264_UNITS, &H264_UNITS);
    // Behind a slice as before one.
    let units = ["419a07", "0605", "0c80", "019a08"];
    sends_units(
        end,
        Packing::BeforeSlices,
        1200,
        &units,
        &["419a07", "18 0002 0605 0002 0c80", "019a08"],
    );
    // A slice that is longer than a packet goes in fragments, but of `Single`.
    for packing in &ALL_PACKINGS[..3] {
        sends_units(end, *packing, 4, &["6501020304"], &["7c850102", "7c450304"]);
    }

    let end = &mut packetizer(Codec::H265, false);
    let units = ["4201", "4401", "2601af", "0203aa"];
    let sets = "6001 0002 4201 0002 4401";
    sends_units(
        end,
        Packing::BeforeSlices,
        1200,
        &units,
        &[sets, "2601af", "0203aa"],
    );
    let end = &mut packetizer(Codec::H266, false);
    let units = ["0079", "0081", "0041af", "000baa"];
    let sets = "00e1 0002 0079 0002 0081";
    sends_units(
        end,
        Packing::BeforeSlices,
        1200,
        &units,
        &[sets, "0041af", "000baa"],
    );
}

#[test]
fn no_units_and_an_end_of_sequence() {
    for codec in [Codec::H264, Codec::H265, Codec::H266] {
        sends_units(
            &mut packetizer(codec, false),
            Packing::Together,
            1200,
            &[],
            &[],
        );
    }
    let end = &mut packetizer(Codec::H265, false);
    let wanted = "6001 0003 0201aa 0002 4a01";
    sends_units(end, Packing::Together, 1200, &["0201aa", "4a01"], &[wanted]);
    sends_units(end, Packing::Apart, 1200, &["4a01"], &["4a01"]);
}

/// A length in an aggregate has two bytes, so one of 65536 goes alone.
#[test]
fn a_unit_too_long_for_a_length_goes_alone() {
    let mut end = H264Packetizer::default();
    let mut lengths = |len: usize| -> Vec<usize> {
        let long = vec![0x65; len];
        let units: [&[u8]; 3] = [&[0x06, 5], &long, &[0x0c, 0x80]];
        let made = end.packetize_units(Packing::Together, 100_000, &units);
        made.unwrap().iter().map(Vec::len).collect()
    };
    assert_eq!(lengths(65535), [1 + 3 * 2 + 2 + 65535 + 2]);
    assert_eq!(lengths(65536), [2, 65536, 2]);
}

/// The zeros before a start code are its own, of H.266 at most three; a text without one is one unit.
#[test]
fn units_of_an_access_unit() {
    let text = bytes("00000001 4201 000000 000001 4401 00000000 000001 0203aa");
    let mut end = H265Packetizer::default();
    let made = end.packetize_access_unit(Packing::Together, 1200, &text);
    assert_eq!(
        made,
        Ok(all_bytes(&["6001 0002 4201 0002 4401 0003 0203aa"]))
    );
    let text = bytes("000001 0009aa00 00000001 0011bb");
    let mut end = H266Packetizer::default();
    let made = end.packetize_access_unit(Packing::Together, 1200, &text);
    assert_eq!(made, Ok(all_bytes(&["00e1 0004 0009aa00 0003 0011bb"])));
    let mut end = H264Packetizer::default();
    let made = end.packetize_access_unit(Packing::Together, 1200, &bytes("6588"));
    assert_eq!(made, Ok(all_bytes(&["6588"])));
}

/// A unit of a list may hold what looks like a start code.
#[test]
fn units_are_sent_as_they_are() {
    let mut end = H264Packetizer::default();
    let unit = bytes("65 000001 67");
    let made = end.packetize_units(Packing::Together, 1200, &[&unit, &unit]);
    let wanted = "78 0005 6500000167 0005 6500000167";
    assert_eq!(made, Ok(all_bytes(&[wanted])));
}

#[test]
fn sets_that_wait_stay() {
    let mut end = H264Packetizer::default();
    sends(&mut end, 1200, &payload(&["6742", "68ce"]), &[]);
    let units: [&[u8]; 2] = [&[0x67, 0x4d], &[0x65, 0x88]];
    let made = end.packetize_units(Packing::Together, 1200, &units);
    assert_eq!(made, Ok(all_bytes(&["78 0002 674d 0002 6588"])));
    let wanted = ["78 0002 6742 0002 68ce", "6588"];
    sends(&mut end, 1200, &bytes("6588"), &wanted);
}

#[test]
fn a_box_has_no_such_call() {
    let mut end = CodecPacketizer::Boxed(Box::new(H264Packetizer::default()));
    let unit: &[u8] = &[0x65, 0x88];
    let mut packets = Packets::default();
    for _ in 0..2 {
        end.packetize_into(1200, unit, &mut packets).unwrap();
        assert_eq!(packets.len(), 1);
        let answer = end.packetize_units_into(Packing::Together, 1200, &[unit], &mut packets);
        assert_eq!((answer, packets.len()), (Ok(None), 0));
        end.packetize_into(1200, unit, &mut packets).unwrap();
        let answer = end.packetize_access_unit_into(Packing::Apart, 1200, unit, &mut packets);
        assert_eq!((answer, packets.len()), (Ok(None), 0));
    }
    assert_eq!(
        end.packetize_units(Packing::Together, 1200, &[unit]),
        Ok(None)
    );
    assert_eq!(
        end.packetize_access_unit(Packing::Together, 1200, unit),
        Ok(None)
    );
    let told = end.units_size(Packing::Together, 1200, &[unit], 0);
    assert_eq!(told, Ok(None));
    let told = end.access_unit_size(Packing::Together, 1200, unit, 0);
    assert_eq!(told, Ok(None));
}

/// Of three codecs, with numbers and without.
#[test]
fn sizes_are_those_of_the_packets() {
    for (codec, [set, slice, end_of_sequence]) in [
        (Codec::H264, ["6742aa", "61070707", "0a"]),
        (Codec::H265, ["420107", "02030707", "4a01"]),
        (Codec::H266, ["007907", "000b0707", "00a9"]),
    ] {
        let mut units = all_bytes(&[set, slice, slice, set, slice, slice, end_of_sequence]);
        units[2].resize(300, 7);
        units[5].resize(90, 7);
        let (units, text) = (slices(&units), joined(&units));
        for packing in &ALL_PACKINGS[..3] {
            for (limit, headroom) in [(6, 0), (7, 1), (20, 3), (100, 12), (400, 5), (5000, 64)] {
                for has_donl in [false, true] {
                    let mut end = packetizer(codec, has_donl);
                    let told = end.units_size(*packing, limit, &units, headroom);
                    let of_text = end.access_unit_size(*packing, limit, &text, headroom);
                    assert_eq!(of_text, told);
                    let mut packets = Packets::with_headroom(headroom);
                    end.packetize_units_into(*packing, limit, &units, &mut packets)
                        .unwrap();
                    let size = PacketsSize {
                        packets: packets.len(),
                        bytes: packets.bytes().len(),
                    };
                    assert_eq!(told, Ok(Some(size)), "{codec} {packing:?} {limit}");
                    let told = end.units_size(*packing, limit, &units, usize::MAX).unwrap();
                    assert_eq!(told.map(|it| it.bytes), Some(usize::MAX));
                }
            }
        }
    }
}

/// The list of an access unit's units grows.
#[test]
fn access_units_of_many_units() {
    for count in [15, 16, 17, 64, 65, 300] {
        let list: Vec<Vec<u8>> = (0..count)
            .map(|i| [&[0x61][..], &[0xaa; 9][..i % 10]].concat())
            .collect();
        let text = joined(&list);
        assert_eq!(units(Codec::H264, &text).count(), count);
        let made = H264Packetizer::default().packetize_access_unit(Packing::Apart, 100, &text);
        assert_eq!(made, Ok(list));
    }
}

/// A forwarder finds keyframes behind other units of an aggregate.
#[test]
fn keyframes_in_aggregates_are_detected() {
    for (codec, units) in [
        (Codec::H264, ["0605", "419a", "6588"]),
        (Codec::H265, ["4e01", "0203aa", "2601af"]),
        (Codec::H266, ["00b9", "000baa", "0041af"]),
    ] {
        let list = all_bytes(&units);
        let of = |count: usize| {
            let mut end = packetizer(codec, false);
            let made = end.packetize_units(Packing::Together, 1200, &slices(&list)[..count]);
            let made = made.unwrap().unwrap();
            assert_eq!(made.len(), 1);
            detect_keyframe(codec, &made[0])
        };
        assert_eq!((of(2), of(3)), (false, true), "{codec}");
    }
}

/// Gives units of which the one at `place` can't go, by each of the calls: it is named, and nothing changes.
#[track_caller]
fn refuses_units(
    codec: Codec,
    (packing, mtu): (Packing, usize),
    units: &[&str],
    (place, len, why): (usize, usize, WhyRefused),
) {
    let wanted = EveryUnitError::Unit(RefusedUnit { place, len, why });
    let list = all_bytes(units);
    let (list, text) = (slices(&list), payload(units));
    let (unit, numbered) = match codec {
        Codec::H264 => ("61aa", ["61aa", "61aa"]),
        Codec::H265 => ("0203aa", ["0203 0000 aa", "0203 0001 aa"]),
        Codec::H266 => ("000baa", ["000b 0000 aa", "000b 0001 aa"]),
    };
    let (mut end, unit) = (packetizer(codec, true), bytes(unit));
    let mut packets = Packets::with_headroom(2);
    end.packetize_into(1200, &unit, &mut packets).unwrap();
    let before = packets.clone();
    assert_eq!(before[0], bytes(numbered[0]));

    assert_eq!(end.packetize_units(packing, mtu, &list), Err(wanted));
    assert_eq!(end.units_size(packing, mtu, &list, 2), Err(wanted));
    let refused = end.packetize_units_into(packing, mtu, &list, &mut packets);
    assert_eq!((refused, &packets), (Err(wanted), &before));
    // No unit between start codes is empty.
    if len > 0 {
        assert_eq!(end.packetize_access_unit(packing, mtu, &text), Err(wanted));
        assert_eq!(end.access_unit_size(packing, mtu, &text, 2), Err(wanted));
        let refused = end.packetize_access_unit_into(packing, mtu, &text, &mut packets);
        assert_eq!((refused, &packets), (Err(wanted), &before));
    }
    sends(&mut end, 1200, &unit, &[numbered[1]]);
}

#[test]
fn units_that_cannot_go() {
    use WhyRefused::{Forbidden, OfPacketType, WithoutHeader};
    for packing in ALL_PACKINGS {
        let at = (packing, 1200);
        refuses_units(Codec::H264, at, &["0605", ""], (1, 0, WithoutHeader));
        refuses_units(
            Codec::H265,
            at,
            &["0203aa", "4201", "44"],
            (2, 1, WithoutHeader),
        );
        refuses_units(Codec::H266, at, &["01", "000baa"], (0, 1, WithoutHeader));
        refuses_units(Codec::H264, at, &["0605", "e588"], (1, 2, Forbidden));
        refuses_units(Codec::H265, at, &["4201", "820301"], (1, 3, Forbidden));
        refuses_units(Codec::H266, at, &["800baa"], (0, 3, Forbidden));
        for nal_type in [0, 24, 25, 26, 27, 28, 29, 30, 31] {
            let unit = format!("{:02x}88", 0x60 + nal_type);
            refuses_units(Codec::H264, at, &["6588", &unit], (1, 2, OfPacketType));
        }
        for nal_type in 48..=50 {
            let unit = format!("{:02x}01aa", nal_type << 1);
            refuses_units(Codec::H265, at, &["4201", &unit], (1, 3, OfPacketType));
        }
        for nal_type in 28..=29 {
            let unit = format!("00{:02x}", nal_type << 3 | 1);
            refuses_units(Codec::H266, at, &[&unit, "000baa"], (0, 2, OfPacketType));
        }
        // The first of two is named, and F of one of a packet's type.
        refuses_units(Codec::H264, at, &["6588", "f801", "00"], (1, 2, Forbidden));
    }
}

/// A fragment has room for data from 3 bytes on of H.264; of the others with numbers from 6 on.
#[test]
fn units_that_are_too_long() {
    use WhyRefused::TooLong;
    let (h265, h266) = (["0203aa", "0203aabb"], ["000baa", "000baabb"]);
    for packing in &ALL_PACKINGS[..3] {
        refuses_units(
            Codec::H264,
            (*packing, 2),
            &["61aa", "650102"],
            (1, 3, TooLong),
        );
        refuses_units(Codec::H264, (*packing, 0), &["61"], (0, 1, TooLong));
        refuses_units(Codec::H265, (*packing, 5), &h265, (1, 4, TooLong));
        refuses_units(Codec::H266, (*packing, 5), &h266, (1, 4, TooLong));
    }
    let (single, long) = (Packing::Single, ["61aa", "6501020304", "65010203"]);
    refuses_units(Codec::H264, (single, 4), &long, (1, 5, TooLong));
    refuses_units(Codec::H265, (single, 5), &h265, (1, 4, TooLong));
    refuses_units(Codec::H266, (single, 5), &h266, (1, 4, TooLong));
    let fits = ["61aa", "65010203"];
    sends_units(&mut packetizer(Codec::H264, false), single, 4, &fits, &fits);
}

/// That of H.265 and H.266 is 1200 bytes, whatever the `mtu`, until it is set.
#[test]
fn the_largest_packet_size_is_the_limit() {
    let long = [&[0x02, 0x03][..], &[0xaa; 600]].concat();
    let mut end = H265Packetizer::default();
    let lengths = |end: &mut H265Packetizer| -> Vec<usize> {
        let made = end.packetize_units(Packing::Together, 5000, &[&long, &long]);
        made.unwrap().iter().map(Vec::len).collect()
    };
    assert_eq!(lengths(&mut end), [602, 602]);
    end.with_max_packet_size(1210);
    assert_eq!(lengths(&mut end), [2 + 2 * (2 + 602)]);
}

#[test]
fn texts_of_refusals() {
    let unit = |why| {
        EveryUnitError::Unit(RefusedUnit {
            place: 2,
            len: 5,
            why,
        })
    };
    for (error, text) in [
        (
            unit(WhyRefused::WithoutHeader),
            "unit 2 of 5 bytes has no whole header",
        ),
        (
            unit(WhyRefused::Forbidden),
            "unit 2 of 5 bytes has the forbidden bit set",
        ),
        (
            unit(WhyRefused::OfPacketType),
            "unit 2 of 5 bytes has a type of packets",
        ),
        (
            unit(WhyRefused::TooLong),
            "unit 2 of 5 bytes is too long for a packet",
        ),
        (EveryUnitError::OutOfMemory, "out of memory"),
    ] {
        let error: Box<dyn Error> = Box::new(error);
        assert_eq!(error.to_string(), text);
    }
}

#[test]
fn memory_of_packets_is_used_again() {
    let (mut end, mut packets) = (H264Packetizer::default(), Packets::with_headroom(12));
    let long = vec![0x65; 1000];
    let mut place = |count: usize| {
        let units = vec![&long[..]; count];
        end.packetize_units_into(Packing::Together, 100, &units, &mut packets)
            .unwrap();
        (packets.len(), packets.bytes().as_ptr())
    };
    // An FU-A of 100 bytes bears 98 of the 999 behind the header.
    let (count, before) = place(3);
    assert_eq!((count, place(2)), (33, (22, before)));
}
