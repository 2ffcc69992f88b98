//! Detection, heads, tails, hints, and the units of a payload.

use crate::tests::bytes;
use crate::{
    Codec, Depacketizer, H264Depacketizer, H265Depacketizer, H266Depacketizer,
    detect_h264_keyframe, detect_h264_nalu, detect_h265_keyframe, detect_h266_keyframe,
    detect_keyframe, set_lowest_header, units,
};

#[track_caller]
fn all(answer: impl Fn(&[u8]) -> bool, wanted: bool, packets: &[&str]) {
    for packet in packets {
        assert_eq!(answer(&bytes(packet)), wanted, "{packet}");
    }
}

#[test]
fn keyframes_of_each_codec() {
    for (codec, of_codec, key, other) in [
        (
            Codec::H264,
            detect_h264_keyframe as fn(&[u8]) -> bool,
            ["650000", "7c850000"],
            ["410000", "7c050000"],
        ),
        (
            Codec::H265,
            detect_h265_keyframe,
            ["2a01aa", "620193aa"],
            ["2c01aa", "620113aa"],
        ),
        (
            Codec::H266,
            detect_h266_keyframe,
            ["0049aa", "00e987aa"],
            ["0051aa", "00e907aa"],
        ),
    ] {
        let of_any = |p: &[u8]| detect_keyframe(codec, p);
        for detect in [&of_codec as &dyn Fn(&[u8]) -> bool, &of_any] {
            all(detect, true, &key);
            all(detect, false, &other);
            all(detect, false, &[""]);
        }
    }
    assert!(detect_h264_nalu(&bytes("650000"), 5));
}

/// In aggregates with numbers too: RFC 7798, 4.4.2 has a DONL and a DOND, RFC 9328, 4.3.2 a DONL.
#[test]
fn keyframes_that_begin() {
    for (codec, key, other) in [
        (
            Codec::H264,
            ["7c850000", "18 0002 67aa 0002 65bb"],
            ["7c050000", "18 0002 67aa 0002 41bb"],
        ),
        (
            Codec::H265,
            ["62019307aaaa", "6001 0007 0003 0201aa 00 0003 2601af"],
            [
                "6001 0007 0003 0201aa 26 0003 0201af",
                "6001 0003 0201aa 0003 2601af",
            ],
        ),
        (
            Codec::H266,
            ["00e98707aaaa", "00e1 0007 0003 0079aa 0003 0041af"],
            [
                "00e1 0007 0003 0079aa 0003 0001af",
                "00e1 0003 0079aa 0003 0041af",
            ],
        ),
    ] {
        let begins = |p: &[u8]| codec.begins_keyframe(true, p);
        all(begins, true, &key);
        all(begins, false, &other);
        all(begins, false, &[""]);
    }
    assert!(Codec::H265.begins_keyframe(false, &bytes("6001 0003 0201aa 0003 2601af")));
}

/// RFC 7798, 4.4.2: the layer and the temporal id are the lowest of the units, and F is set where one has it.
#[test]
fn lowest_headers() {
    let sets = "600b 0002 4001 0002 4201 0002 4401";
    let numbered = "6000 0009 0002 430b 00 0002 c512";
    for (codec, has_donl, packet, wanted) in [
        (
            Codec::H265,
            false,
            sets,
            "6001 0002 4001 0002 4201 0002 4401",
        ),
        (
            Codec::H265,
            true,
            numbered,
            "e10a 0009 0002 430b 00 0002 c512",
        ),
        // What is no aggregate of H.265 stays.
        (Codec::H265, true, sets, sets),
        (Codec::H265, false, "600b 0002 4001 00", "600b 0002 4001 00"),
        (
            Codec::H265,
            false,
            "020b 0002 4001 0002 4201",
            "020b 0002 4001 0002 4201",
        ),
        (Codec::H265, false, "", ""),
        (Codec::H264, false, sets, sets),
        (Codec::H266, false, sets, sets),
    ] {
        let mut packet = bytes(packet);
        set_lowest_header(codec, has_donl, &mut packet);
        assert_eq!(packet, bytes(wanted));
    }
}

#[test]
fn heads() {
    let h264 = H264Depacketizer::default();
    all(
        |p| h264.is_partition_head(p),
        true,
        &["0100", "1800", "1c80", "1d80", "7c85"],
    );
    all(
        |p| h264.is_partition_head(p),
        false,
        &["", "65", "1c40", "1d40"],
    );
    let h265 = H265Depacketizer::default();
    all(
        |p| h265.is_partition_head(p),
        true,
        &["8001", "0201", "620193"],
    );
    all(
        |p| h265.is_partition_head(p),
        false,
        &["", "02", "6201", "620113"],
    );
    let h266 = H266Depacketizer::default();
    all(
        |p| h266.is_partition_head(p),
        true,
        &["8001", "0009", "00e987"],
    );
    all(
        |p| h266.is_partition_head(p),
        false,
        &["", "00", "00e9", "00e947"],
    );
}

#[test]
fn tails() {
    let h264 = H264Depacketizer::default();
    all(
        |p| h264.is_partition_tail(true, p),
        true,
        &["65", "7c85", ""],
    );
    all(
        |p| h264.is_partition_tail(false, p),
        false,
        &["65", "7c45", ""],
    );
    let h265 = H265Depacketizer::default();
    all(
        |p| h265.is_partition_tail(true, p),
        true,
        &["0201", "620153"],
    );
    all(
        |p| h265.is_partition_tail(true, p),
        false,
        &["", "02", "620113aa"],
    );
    all(|p| h265.is_partition_tail(false, p), true, &["620153"]);
    all(
        |p| h265.is_partition_tail(false, p),
        false,
        &["0201", "6201"],
    );
    let h266 = H266Depacketizer::default();
    all(
        |p| h266.is_partition_tail(true, p),
        true,
        &["0009", "00e947"],
    );
    all(
        |p| h266.is_partition_tail(true, p),
        false,
        &["", "00", "00e907aa"],
    );
    all(|p| h266.is_partition_tail(false, p), true, &["00e947"]);
    all(
        |p| h266.is_partition_tail(false, p),
        false,
        &["0009", "00e9"],
    );
}

#[test]
fn hints() {
    fn check(end: impl Depacketizer) {
        for (size, hint) in [(0, 4), (1199, 1203), (1200, 1208), (usize::MAX, usize::MAX)] {
            assert_eq!(end.out_size_hint(size), Some(hint));
        }
    }
    check(H264Depacketizer::default());
    check(H265Depacketizer::default());
    check(H266Depacketizer::default());
}

fn cut(codec: Codec, payload: &[u8]) -> Vec<&[u8]> {
    units(codec, payload).collect()
}

#[test]
fn units_between_start_codes() {
    for (payload, all_zeros, at_most_three) in [
        ("", &[][..], &[][..]),
        ("000001", &[], &[]),
        ("000000", &["000000"], &["000000"]),
        ("bb 000001 aa", &["aa"], &["aa"]),
        ("000001 01aa", &["01aa"], &["01aa"]),
        ("000001 000001 aa", &["aa"], &["aa"]),
        ("00000000 01 aa", &["aa"], &["aa"]),
        (
            "000001 aa 00000000 01 bb00",
            &["aa", "bb00"],
            &["aa00", "bb00"],
        ),
    ] {
        let payload = bytes(payload);
        let wanted = |units: &[&str]| units.iter().map(|unit| bytes(unit)).collect::<Vec<_>>();
        assert_eq!(cut(Codec::H264, &payload), wanted(all_zeros));
        assert_eq!(cut(Codec::H265, &payload), wanted(all_zeros));
        assert_eq!(cut(Codec::H266, &payload), wanted(at_most_three));
    }
}

#[test]
fn units_are_slices_of_the_payload() {
    let payload = bytes("000001 aa 000001 aa");
    let mut left = units(Codec::H264, &payload);
    assert!(std::ptr::eq(left.next().unwrap(), &payload[3..4]));
    assert!(std::ptr::eq(left.next().unwrap(), &payload[7..8]));
    assert_eq!((left.next(), left.next()), (None, None));
}

#[test]
fn many_units() {
    let wanted: Vec<[u8; 2]> = (0..1000_u32).map(|i| [0x41, i as u8 | 1]).collect();
    let payload: Vec<u8> = wanted.iter().flat_map(|u| [0, 0, 1, u[0], u[1]]).collect();
    assert_eq!(cut(Codec::H264, &payload), wanted);
}

#[test]
fn plain_units() {
    let h264 = |unit: &[u8]| Codec::H264.is_plain_unit(unit);
    all(
        h264,
        true,
        &["01", "77", "6588", "41 0000 02", "41 0000 03 01", "0900aa"],
    );
    // F; types 0, 24, 28 and 31; start codes, three zeros, a zero at the end.
    all(
        h264,
        false,
        &["", "81", "6088", "78 0001 65", "7c85aa", "1f"],
    );
    all(
        h264,
        false,
        &[
            "41aa 000001 6588",
            "41aa 00000001 6588",
            "41 000001",
            "41 000000 02",
            "4100",
            "41aa 0000",
        ],
    );
    let h265 = |unit: &[u8]| Codec::H265.is_plain_unit(unit);
    all(h265, true, &["0001", "5fff", "4201aa", "2801 0000 03"]);
    all(
        h265,
        false,
        &["", "26", "8001aa", "6001aa", "620193aa", "6401aa", "7e01"],
    );
    all(h265, false, &["2601 000001 26", "2601 000000 02", "260100"]);
    // Z too.
    let h266 = |unit: &[u8]| Codec::H266.is_plain_unit(unit);
    all(h266, true, &["0001", "3fdf", "0079aa", "0009 0000 02"]);
    all(
        h266,
        false,
        &["", "00", "8001aa", "4001aa", "00e1aa", "00e987aa", "00f9"],
    );
    all(h266, false, &["0041 000001 41", "0041 000000 02", "004100"]);
}
