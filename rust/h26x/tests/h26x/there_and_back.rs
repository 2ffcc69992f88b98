//! The small streams, sent and received again.

use crate::lengths::check_lengths;
use crate::program::{Folder, cut, small_streams};

/// Whether a unit is sent: those of types that packets have are not (RFC 6184, 5.2; RFC 7798, 4.4; RFC
/// 9328, 4.3).
fn is_sent(codec: &str, unit: &[u8]) -> bool {
    match codec {
        "h264" => matches!(unit[0] & 0x1f, 1..=23),
        "h265" => !matches!(unit[0] >> 1 & 0x3f, 48..=50),
        _ => !matches!(unit[1] >> 3, 28 | 29),
    }
}

/// The units of a stream that are sent.
pub fn sent(codec: &str, stream: &[u8]) -> Vec<Vec<u8>> {
    let mut units = cut(stream);
    units.retain(|unit| is_sent(codec, unit));
    units
}

/// Sends a stream, receives it, and compares all units; and so behind lengths.
#[track_caller]
fn there_and_back(codec: &str, stream: &[u8], sending: &[&str], receiving: &[&str]) -> Vec<u8> {
    let folder = Folder::new();
    let (input, back) = (format!("in.{codec}"), format!("back.{codec}"));
    folder.write(&input, stream);
    folder
        .run(&[&["send", &input, "out.pcap", "--seed", "1"], sending].concat())
        .says(0, &[]);
    folder
        .run(&[&["receive", "out.pcap", &back], receiving].concat())
        .says(0, &[]);
    folder
        .run(&[&["inspect", "out.pcap", "--summary"], receiving].concat())
        .says(0, &[]);
    assert_eq!(
        folder.names().len(),
        3,
        "nothing else stays: {:?}",
        folder.names()
    );
    let back = folder.read(&back);
    assert_eq!(cut(&back), sent(codec, stream));
    check_lengths(&folder, codec, sending, receiving);
    back
}

/// All access units of a stream that came without a loss are whole and clean, from the first one on.
#[test]
fn all_that_came_is_clean() {
    for (codec, stream) in small_streams() {
        let folder = Folder::new();
        let input = format!("in.{codec}");
        folder.write(&input, &stream);
        folder.run(&["send", &input, "out.pcap"]).says(0, &[]);
        let ran = folder.run(&["inspect", "out.pcap", "--json"]);
        let totals = ran.out.lines().last().expect("totals");
        let totals: serde_json::Value = serde_json::from_str(totals).expect("an object");
        assert_ne!(totals["access_units"], 0, "{codec}");
        for what in ["whole", "clean"] {
            assert_eq!(totals[what], totals["access_units"], "{codec}: {totals}");
        }
    }
}

#[test]
fn small_streams_come_back() {
    for (codec, stream) in small_streams() {
        there_and_back(codec, &stream, &[], &[]);
    }
}

#[test]
fn in_small_packets_that_begin_anywhere() {
    for (codec, stream) in small_streams() {
        let sending = [
            "--mtu",
            "100",
            "--sequence",
            "65530",
            "--payload-type=102",
            "--ssrc",
            "0xffffffff",
        ];
        there_and_back(
            codec,
            &stream,
            &sending,
            &["--ssrc=4294967295", "--payload-type", "102"],
        );
    }
}

#[test]
fn with_decoding_order_numbers() {
    for (codec, stream) in &small_streams()[1..] {
        there_and_back(codec, stream, &["--donl"], &["--donl"]);
        there_and_back(codec, stream, &["--donl", "--mtu", "60"], &["--donl"]);
    }
}

#[test]
fn in_packets_longer_than_ethernet_has() {
    for (codec, stream) in small_streams() {
        there_and_back(codec, &stream, &["--mtu", "9000"], &[]);
    }
}

/// Sets that str0m's `packetize` drops or leaves behind: two PPS, one alone, and one longer than a packet.
#[test]
fn every_parameter_set_comes() {
    let long_set = [&[0x67, 0x42][..], &[7; 300]].concat();
    let units: [&[u8]; 13] = [
        &[0x67, 0x42, 1],
        &[0x68, 0xc1],
        &[0x68, 0xc2],
        &[0x65, 0x88, 1],
        &[0x68, 0xc3],
        &[0x41, 0x9a, 2],
        &long_set,
        &[0x68, 0xc4],
        &[0x65, 0x88, 3],
        &[0x68, 0xc5],
        &[0x41, 0x9a, 4],
        &[0x67, 0x42, 5],
        &[0x68, 0xc6],
    ];
    let stream: Vec<u8> = units
        .iter()
        .flat_map(|unit| [&[0, 0, 0, 1], *unit].concat())
        .collect();
    let back = there_and_back("h264", &stream, &["--mtu", "200"], &[]);
    assert_eq!(back, stream);
}

/// A set and a delimiter in one packet, with the lowest temporal id (RFC 7798, 4.4.2), and behind them
/// half a header, which is left out: the marker is on that packet.
#[test]
fn a_marker_behind_which_units_are_left_out() {
    let folder = Folder::new();
    folder.write(
        "in.h265",
        &[0, 0, 1, 0x42, 1, 9, 0, 0, 1, 0x46, 1, 0x50, 0, 0, 1, 0x02],
    );
    folder
        .run(&["send", "in.h265", "out.pcap"])
        .says(0, &["1 access unit in 1 packet", "left out: 1 unit"]);
    let capture = folder.read("out.pcap");
    let rtp = &capture[24 + 16 + 14 + 20 + 8..];
    let together = [0x60, 1, 0, 3, 0x42, 1, 9, 0, 3, 0x46, 1, 0x50];
    assert_eq!((rtp[1], &rtp[12..]), (0x80 | 96, &together[..]));
}

/// By `packetize` of str0m a delimiter isn't sent, and of two PPS the last one.
#[test]
fn as_str0m() {
    let units: [&[u8]; 5] = [
        &[0x09, 0xf0],
        &[0x67, 0x42, 1],
        &[0x68, 0xc1],
        &[0x68, 0xc2],
        &[0x65, 0x88, 1],
    ];
    let stream = units.map(|unit| [&[0, 0, 0, 1], unit].concat()).concat();
    let folder = Folder::new();
    folder.write("in.h264", &stream);
    for (option, said, back) in [
        (
            "--as-str0m",
            ["1 access unit in 2 packets", "left out: 1 unit"],
            &[1, 3, 4][..],
        ),
        (
            "--sequence=7",
            ["1 access unit in 1 packet", "left out: 0 units"],
            &[0, 1, 2, 3, 4],
        ),
        (
            "--no-delimiters",
            ["1 access unit in 1 packet", "left out: 1 unit"],
            &[1, 2, 3, 4],
        ),
    ] {
        folder
            .run(&["send", "in.h264", "out.pcap", option])
            .says(0, &said);
        folder
            .run(&["receive", "out.pcap", "back.h264"])
            .says(0, &[]);
        let back: Vec<_> = back.iter().map(|i| units[*i].to_vec()).collect();
        assert_eq!(cut(&folder.read("back.h264")), back);
    }
}

/// A stream of some megabytes, so that each buffer is filled more than once.
#[test]
fn a_longer_stream() {
    let picture = |i: usize| {
        let bytes = (0..i * 700).map(|n| (n % 251 + 1) as u8);
        [0, 0, 0, 1, 0x41, 0x9a].into_iter().chain(bytes)
    };
    let stream: Vec<u8> = (1..150).flat_map(picture).collect();
    assert!(stream.len() > 7_000_000);
    let back = there_and_back("h264", &stream, &[], &[]);
    assert!(back == stream, "the same bytes");
}

/// The header of IPv4 has a checksum such that its sixteen-bit words make 0xffff in one's complement
/// (RFC 791, 3.1; RFC 1071, 1).
#[test]
fn checksums() {
    let folder = Folder::new();
    let slices = (0..60).flat_map(|i| [&[0, 0, 1, 0x41, 0x9a][..], &vec![7; i * 1000]].concat());
    folder.write("in.h264", &slices.collect::<Vec<u8>>());
    let sending = ["send", "in.h264", "out.pcap", "--mtu", "65000"];
    folder.run(&sending).says(0, &[]);
    let capture = folder.read("out.pcap");
    let (mut at, mut packets) = (24, 0);
    while at < capture.len() {
        let words = capture[at + 16 + 14..][..20].chunks(2);
        let sum: u32 = words
            .map(|it| u32::from(it[0]) << 8 | u32::from(it[1]))
            .sum();
        assert_eq!((sum & 0xffff) + (sum >> 16), 0xffff);
        let len = capture[at + 8..at + 12].try_into().expect("four bytes");
        at += 16 + u32::from_le_bytes(len) as usize;
        packets += 1;
    }
    assert_eq!(packets, 60);
}

/// An access unit's packets have one timestamp, and its last the marker: here two slices of a picture,
/// for which one packet has no room.
#[test]
fn markers_and_timestamps() {
    let folder = Folder::new();
    let stream = [
        0, 0, 1, 0x65, 0x88, 1, 0, 0, 1, 0x65, 0x42, 2, 0, 0, 1, 0x41, 0x9a, 3, 0, 0, 1, 0x41,
        0x9a, 4,
    ];
    folder.write("in.264", &stream);
    folder
        .run(&["send", "in.264", "out.pcap", "--fps=30000/1001", "--mtu=10"])
        .says(0, &["3 access units in 4 packets"]);
    let capture = folder.read("out.pcap");
    let records: Vec<&[u8]> = capture[24..].chunks(16 + 14 + 20 + 8 + 12 + 3).collect();
    let rtp = records.iter().map(|record| &record[16 + 14 + 20 + 8..]);
    let told: Vec<_> = rtp
        .map(|rtp| (rtp[1], u32::from_be_bytes([rtp[4], rtp[5], rtp[6], rtp[7]])))
        .collect();
    // 90000 * 1001 / 30000 ticks a picture.
    assert_eq!(told, [(96, 0), (0xe0, 0), (0xe0, 3003), (0xe0, 6006)]);
}

/// Lengths of four bytes, the highest first (ISO/IEC 14496-15).
#[test]
fn units_behind_lengths() {
    let folder = Folder::new();
    folder.write(
        "in.h264",
        &[0, 0, 1, 0x65, 0x88, 1, 0, 0, 1, 0x41, 0x9a, 2, 3],
    );
    folder.run(&["send", "in.h264", "out.pcap"]).says(0, &[]);
    folder
        .run(&["receive", "out.pcap", "back", "--codec", "avc", "--lengths"])
        .says(0, &[]);
    assert_eq!(
        folder.read("back"),
        [0, 0, 0, 3, 0x65, 0x88, 1, 0, 0, 0, 4, 0x41, 0x9a, 2, 3]
    );
}

#[test]
fn what_stands_under_the_name_is_replaced() {
    let folder = Folder::new();
    let stream = [0, 0, 0, 1, 0x65, 0x88, 1, 2];
    folder.write("in.h264", &stream);
    folder.write("back.h264", &[9; 100]);
    folder.run(&["send", "in.h264", "out.pcap"]).says(0, &[]);
    folder
        .run(&["receive", "out.pcap", "back.h264"])
        .says(0, &[]);
    assert_eq!(folder.read("back.h264"), stream);
}
