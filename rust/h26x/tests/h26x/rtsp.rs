//! Packets of RTP between the messages of RTSP, in connections of TCP (RFC 2326, 10.12).

use crate::build::{Rtp, ethernet, ipv4, pcap};
use crate::program::{Folder, cut};

fn slice(number: u16) -> Rtp {
    let payload = [&[0x41, 0x9a, 1][..], &[number as u8 | 1; 60]].concat();
    Rtp::new(number, u32::from(number) * 90, true, &payload)
}

fn units(numbers: impl IntoIterator<Item = u16>) -> Vec<u8> {
    let unit = |number| [vec![0, 0, 0, 1], slice(number).payload].concat();
    numbers.into_iter().flat_map(unit).collect()
}

/// A packet behind `$`, its channel and its length.
fn interleaved(channel: u8, packet: &[u8]) -> Vec<u8> {
    let len = packet.len() as u16;
    [&[b'$', channel][..], &len.to_be_bytes(), packet].concat()
}

/// What a server sends: messages, packets of these numbers, and RTCP beside them.
fn served(numbers: impl IntoIterator<Item = u16>) -> Vec<u8> {
    let body = "v=0\r\nm=video $ 0 RTP/AVP 96\r\n";
    let described = format!(
        "RTSP/1.0 200 OK\r\nCSeq: 2\r\nContent-Type: application/sdp\r\ncontent-length: {}\r\n\r\n{body}",
        body.len()
    );
    let mut bytes = [described.as_bytes(), b"RTSP/1.0 200 OK\r\nCSeq: 3\r\n\r\n"].concat();
    for number in numbers {
        bytes.extend(interleaved(0, &slice(number).bytes()));
        if number % 7 == 0 {
            let report = [&[0x80, 200, 0, 6, 1, 2, 3, 4][..], &[b'$'; 20]].concat();
            bytes.extend(interleaved(1, &report));
        }
        if number % 10 == 9 {
            bytes.extend(b"RTSP/1.0 200 OK\r\nCSeq: 4\r\n\r\n");
        }
    }
    bytes
}

/// The frame of a segment that begins with this number.
fn segment(sequence: u32, flags: u8, bytes: &[u8]) -> Vec<u8> {
    let mut tcp = vec![2, 42, 0x9c, 0x40];
    tcp.extend(sequence.to_be_bytes());
    tcp.extend([0, 0, 0, 0, 0x50, flags, 0xff, 0xff, 0, 0, 0, 0]);
    tcp.extend(bytes);
    let mut packet = ipv4(&[], 0x4000, &tcp);
    packet[9] = 6;
    ethernet(&[], 0x0800, &packet)
}

/// Segments of so many bytes each, the first with this number.
fn segments(first: u32, bytes: &[u8], len: usize) -> Vec<Vec<u8>> {
    let chunks = bytes.chunks(len).enumerate();
    chunks
        .map(|(i, it)| segment(first.wrapping_add((i * len) as u32), 0x18, it))
        .collect()
}

#[track_caller]
fn receives(frames: &[Vec<u8>], wanted: impl IntoIterator<Item = u16>, status: i32) {
    let folder = Folder::new();
    folder.write("in.pcap", &pcap(frames));
    let ran = folder.run(&["receive", "in.pcap", "out.h264"]);
    ran.says(status, &["to 192.0.2.2 port 40000"]);
    assert!(folder.read("out.h264") == units(wanted), "{ran:#?}");
}

/// However the bytes are cut into segments, also where their numbers begin anew.
#[test]
fn in_segments_of_any_length() {
    let bytes = served(0..50);
    for len in [20, 79, 80, 536, 1460, 20_000] {
        let first = 0u32.wrapping_sub(1000);
        receives(&segments(first, &bytes, len), 0..50, 0);
    }
}

/// Segments that come twice, in part again, and in another order.
#[test]
fn in_any_order() {
    let bytes = served(0..50);
    let mut frames = segments(7, &bytes, 200);
    frames.swap(3, 4);
    frames.swap(8, 5);
    frames.insert(9, frames[6].clone());
    let overlapping = segment(7 + 1000, 0x18, &bytes[1000..1500]);
    frames.insert(8, overlapping);
    receives(&frames, 0..50, 0);
}

/// A segment that isn't in the capture: what is whole before and behind it is taken, and nothing that is
/// put together of both.
#[test]
fn with_a_segment_missing() {
    let bytes = served(0..100);
    let all = units(0..100);
    let known = cut(&all);
    for missing in 4..20 {
        let mut frames = segments(7, &bytes, 300);
        frames.remove(missing);
        let folder = Folder::new();
        folder.write("in.pcap", &pcap(&frames));
        let ran = folder.run(&["receive", "in.pcap", "out.h264"]);
        ran.says(3, &["lost: "]);
        let back = cut(&folder.read("out.h264"));
        // 300 bytes have parts of five packets at most, and one more is needed to know where packets
        // begin.
        assert!(
            (known.len() - 7..known.len()).contains(&back.len()),
            "{ran:#?}"
        );
        assert!(back.iter().all(|unit| known.contains(unit)), "{ran:#?}");
        assert_eq!(back.last(), known.last());
    }
}

/// A connection that begins anew on the same ports, and one of which the capture has no front.
#[test]
fn connections_that_begin_anew() {
    let bytes = served(0..20);
    let mut frames = vec![segment(99, 2, &[])];
    frames.extend(segments(100, &bytes, 500));
    frames.push(segment(5_000_000, 2, &[]));
    frames.extend(segments(5_000_001, &served(20..40), 500));
    receives(&frames, 0..40, 0);
    // From the middle of a packet on: the first segment that begins with one is the first that is read.
    let mut packets: Vec<Vec<u8>> = (0..30).map(|i| interleaved(0, &slice(i).bytes())).collect();
    packets[0].drain(..20);
    let (mut at, mut frames) = (0, Vec::new());
    for packet in packets {
        frames.push(segment(at, 0x18, &packet));
        at += packet.len() as u32;
    }
    receives(&frames, 1..30, 0);
}

/// Bytes that are none of RTSP's stop nothing.
#[test]
fn bytes_that_make_no_sense() {
    let mut bytes = served(0..20);
    bytes.extend([0xff; 100]);
    bytes.extend([b'$', 0, 0xff, 0xff, 0x80]);
    bytes.extend(served(20..40));
    receives(&segments(7, &bytes, 500), 0..40, 0);
    // What looks as the front of a packet, behind which none follows.
    let mut bytes = served(0..20);
    bytes.extend([0xff, 0xff, b'$', 0, 0, 40, 0x80]);
    bytes.extend((20..40).flat_map(|it| interleaved(0, &slice(it).bytes())));
    receives(&segments(7, &bytes, 500), 0..40, 0);
    let endless = [&b"RTSP/1.0 200 OK\r\n"[..], &[b'a'; 200_000]].concat();
    let bytes = [&served(0..20)[..], &endless, &served(20..40)].concat();
    receives(&segments(7, &bytes, 1400), 0..40, 0);
    let body = b"RTSP/1.0 200 OK\r\nContent-Length: 99999999999999999999999\r\n\r\n";
    let bytes = [&served(0..20)[..], body, &served(20..40)].concat();
    receives(&segments(7, &bytes, 1400), 0..40, 0);
}

/// Bodies of messages are passed over by the first line of their header that says how long they are, however it is
/// written; and a message in what was taken for a header has a length of its own.
#[test]
fn lengths_of_bodies() {
    let body: Vec<u8> = (500..503)
        .flat_map(|it| interleaved(0, &slice(it).bytes()))
        .collect();
    let len = body.len();
    for header in [
        format!("RTSP/1.0 200 OK\r\nContent-Length: {len}\r\n\r\n"),
        format!("RTSP/1.0 200 OK\nCSeq: 1\ncontent-length :+{len}\t\r\nContent-Length: 7\r\n\r\n"),
        format!(
            "RTSP/1.0 200 OK\r\n \u{85}CONTENT-LENGTH\u{a0}:{len}\r\nA: Content-Length: 1\r\n\r\n"
        ),
        format!("Content-Length:{len}\r\nContent-Length: 1\r\n\r\n"),
    ] {
        let served = [
            served(0..20),
            header.into_bytes(),
            body.clone(),
            served(20..40),
        ]
        .concat();
        for segment in [20, 61, 500, 60_000] {
            receives(&segments(7, &served, segment), 0..40, 0);
        }
    }
    // The first is too long for a message, in whose header packets stand, and another that has a body.
    let packets: Vec<u8> = (20..40)
        .flat_map(|it| interleaved(0, &slice(it).bytes()))
        .collect();
    let inner = format!("RTSP/1.0 200 OK\r\nContent-Length: {len}\r\n\r\n");
    let bytes = [
        served(0..20),
        b"RTSP/1.0 200 OK\r\nContent-Length: 999999\r\nA: ".to_vec(),
        packets,
        inner.into_bytes(),
        body,
        served(40..60),
    ]
    .concat();
    receives(&segments(7, &bytes, 60_000), 0..60, 0);
}

/// Segments of which the capture has only a front.
#[test]
fn segments_that_are_cut() {
    let frames = segments(7, &served(0..50), 1000);
    let cut: Vec<Vec<u8>> = frames
        .iter()
        .map(|it| it[..200.min(it.len())].to_vec())
        .collect();
    let folder = Folder::new();
    folder.write("in.pcap", &pcap(&cut));
    let ran = folder.run(&["inspect", "in.pcap"]);
    ran.says(1, &["TCP segments with only a front in the capture"]);
}
