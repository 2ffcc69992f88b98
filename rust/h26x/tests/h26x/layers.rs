//! What lies below RTP, and RTP's own header.

use crate::build::{
    Order, Rtp, THREE_UNITS, ethernet, ipv4, ipv6, pcap, pcap_of, three_packets, udp,
};
use crate::program::Folder;

/// Receives the three packets out of a capture with this link type and these frames.
#[track_caller]
fn is_received(link: u32, frame: impl Fn(&[u8]) -> Vec<u8>) {
    is_received_as(link, |rtp| frame(&ipv4(&[], 0x4000, &udp(&rtp.bytes()))));
}

#[track_caller]
fn is_received_as(link: u32, frame: impl Fn(&Rtp) -> Vec<u8>) {
    let frames: Vec<Vec<u8>> = three_packets().iter().map(frame).collect();
    let folder = Folder::new();
    folder.write(
        "in.pcap",
        &pcap_of(Order::Little, 0xa1b2_c3d4, link, &frames),
    );
    let ran = folder.run(&["receive", "in.pcap", "out.h264"]);
    ran.says(0, &["SSRC 0x01020304, payload type 96", "port 5004"]);
    assert_eq!(folder.read("out.h264"), THREE_UNITS);
}

#[test]
fn link_layers() {
    is_received(1, |ip| ethernet(&[], 0x0800, ip));
    is_received(101, <[u8]>::to_vec);
    is_received(228, <[u8]>::to_vec);
    // The address family of IPv4 is 2, in either byte order.
    is_received(0, |ip| [&[2, 0, 0, 0], ip].concat());
    is_received(108, |ip| [&[0, 0, 0, 2], ip].concat());
    // Packet type, ARPHRD_ETHER, an address of 6 bytes in 8, protocol.
    is_received(113, |ip| {
        [&[0, 4, 0, 1, 0, 6, 2, 0, 0, 0, 0, 1, 0, 0, 8, 0], ip].concat()
    });
    // Protocol, reserved, interface, ARPHRD_ETHER, packet type, an address of 6 bytes in 8.
    is_received(276, |ip| {
        [
            &[8, 0, 0, 0, 0, 0, 0, 2, 0, 1, 4, 6, 2, 0, 0, 0, 0, 1, 0, 0],
            ip,
        ]
        .concat()
    });
}

#[test]
fn tags() {
    is_received(1, |ip| ethernet(&[0x81, 0x00, 0x60, 0x05], 0x0800, ip));
    is_received(1, |ip| {
        ethernet(
            &[0x88, 0xa8, 0x00, 0x64, 0x81, 0x00, 0x00, 0x65],
            0x0800,
            ip,
        )
    });
    is_received(1, |ip| {
        ethernet(
            &[0x91, 0x00, 0x00, 0x64, 0x81, 0x00, 0x00, 0x65],
            0x0800,
            ip,
        )
    });
    is_received(113, |ip| {
        [
            &[
                0, 4, 0, 1, 0, 6, 2, 0, 0, 0, 0, 1, 0, 0, 0x81, 0, 0, 5, 8, 0,
            ],
            ip,
        ]
        .concat()
    });
}

/// A short frame is padded to 60 bytes, which are of no datagram.
#[test]
fn padded_frames() {
    is_received(1, |ip| {
        let mut frame = ethernet(&[], 0x0800, ip);
        frame.resize(frame.len().max(90), 0xee);
        frame
    });
}

#[test]
fn ip_headers() {
    let data = |rtp: &Rtp| udp(&rtp.bytes());
    // Options of IPv4: router alert (RFC 2113).
    is_received_as(101, |rtp| ipv4(&[0x94, 4, 0, 0], 0, &data(rtp)));
    is_received_as(101, |rtp| ipv6(17, &data(rtp)));
    is_received_as(229, |rtp| ipv6(17, &data(rtp)));
    is_received_as(1, |rtp| ethernet(&[], 0x86dd, &ipv6(17, &data(rtp))));
    // Hop-by-hop options of 8 bytes, destination options of 16, and then UDP (RFC 8200, 4).
    let options = [
        &[60, 0, 1, 4, 0, 0, 0, 0][..],
        &[17, 1, 1, 12, 0, 0, 0, 0, 0, 0, 0, 0, 0, 0, 0, 0],
    ]
    .concat();
    is_received_as(101, |rtp| ipv6(0, &[&options[..], &data(rtp)].concat()));
    // A fragment header of a packet that is whole (RFC 6946).
    is_received_as(101, |rtp| {
        ipv6(44, &[&[17, 0, 0, 0, 0, 0, 0, 9], &data(rtp)[..]].concat())
    });
    // A routing header, and an authentication header of 24 bytes (RFC 4302, 2).
    let routing = [51, 0, 4, 0, 0, 0, 0, 0];
    let authentication = [&[17, 4, 0, 0][..], &[0; 20]].concat();
    is_received_as(101, |rtp| {
        ipv6(43, &[&routing[..], &authentication, &data(rtp)].concat())
    });
}

/// Contributing sources, an extension and padding (RFC 3550, 5.1 and 5.3.1).
#[test]
fn rtp_headers() {
    is_received_as(101, |rtp| {
        let mut bytes = rtp.bytes();
        bytes[0] = 0x80 | 0x20 | 0x10 | 2;
        let sources = [9, 9, 9, 9, 8, 8, 8, 8];
        let extension = [0xbe, 0xde, 0, 1, 0x10, 0xff, 0, 0];
        bytes.splice(12..12, sources.into_iter().chain(extension));
        bytes.extend([0, 0, 0, 4]);
        ipv4(&[], 0, &udp(&bytes))
    });
}

/// Frames of a host that has the kernel cut datagrams (UDP_SEGMENT) hold several packets of one length,
/// of which the last may be shorter. A packet in whose payload the SSRC stands is one.
#[test]
fn datagrams_of_several_packets() {
    let ssrc = [1, 2, 3, 4];
    for len in [20, 63, 64, 65, 1200] {
        let payload = |front: [u8; 2], len: usize| -> Vec<u8> {
            let rest = ssrc.into_iter().cycle().skip(2).take(len);
            front.into_iter().chain(rest).collect()
        };
        // An SPS, an IDR slice in four fragments across 65536, and one that stands alone.
        let packets = [
            Rtp::new(65533, 0, false, &payload([0x67, 0x42], len)),
            Rtp::new(65534, 0, false, &payload([0x7c, 0x85], len)),
            Rtp::new(65535, 0, false, &payload([0x7c, 0x05], len)),
            Rtp::new(0, 0, false, &payload([0x7c, 0x05], len)),
            Rtp::new(1, 0, true, &payload([0x7c, 0x45], len / 3)),
            Rtp::new(2, 3600, true, &payload([0x41, 0x9a], len)),
        ];
        let datagram = |packets: &[Rtp]| {
            let bytes: Vec<u8> = packets.iter().flat_map(Rtp::bytes).collect();
            ethernet(&[], 0x0800, &ipv4(&[], 0, &udp(&bytes)))
        };
        let folder = Folder::new();
        let cut: Vec<Vec<u8>> = packets.chunks(1).map(datagram).collect();
        folder.write("cut.pcap", &pcap(&cut));
        folder.write(
            "joined.pcap",
            &pcap(&[datagram(&packets[..5]), datagram(&packets[5..])]),
        );
        for name in ["cut", "joined"] {
            let (from, to) = (format!("{name}.pcap"), format!("{name}.h264"));
            folder
                .run(&["receive", &from, &to])
                .says(0, &["6 packets", "2 access units"]);
        }
        assert_eq!(folder.read("joined.h264"), folder.read("cut.h264"));
    }
}

/// Where the end of such a datagram wasn't captured, it is the last packet that isn't taken.
#[test]
fn a_datagram_of_several_packets_that_is_cut() {
    let packets = three_packets();
    let bytes: Vec<u8> = packets.iter().flat_map(Rtp::bytes).collect();
    let mut frame = ethernet(&[], 0x0800, &ipv4(&[], 0, &udp(&bytes)));
    frame.pop();
    let folder = Folder::new();
    folder.write("in.pcap", &pcap(&[frame]));
    let part = "1 packet: not taken, with only a front in the capture";
    folder
        .run(&["receive", "in.pcap", "out.h264"])
        .says(3, &["3 packets", part]);
    assert_eq!(folder.read("out.h264"), THREE_UNITS[..8]);
}

/// A datagram whose length is 0 goes up to the end of its IP packet, and not of the frame.
#[test]
fn datagrams_without_a_length() {
    let without = |rtp: &Rtp| {
        let mut datagram = udp(&rtp.bytes());
        datagram[4..6].fill(0);
        datagram
    };
    is_received_as(101, |rtp| {
        [ipv4(&[], 0, &without(rtp)), vec![0xee; 9]].concat()
    });
    is_received_as(101, |rtp| [ipv6(17, &without(rtp)), vec![0xee; 9]].concat());
}

/// Packets whose header makes no sense are none of RTP (RFC 3550, A.1): another version, padding of no
/// bytes or of more than there are, an extension or sources that don't fit.
#[test]
fn rtp_headers_that_make_no_sense() {
    for (first, last) in [
        (0x40, 3),
        (0xa0, 0),
        (0xa0, 5),
        (0x90, 3),
        (0x82, 3),
        (0x8f, 3),
    ] {
        let mut frames: Vec<Vec<u8>> = three_packets().iter().map(crate::build::frame).collect();
        // 4 bytes: no room for an extension of 0x4103 words, nor for two sources.
        let mut bytes = Rtp::new(2, 9000, true, &[0x41, 0x9a, 0x41, last]).bytes();
        bytes[0] = first;
        frames.push(ethernet(&[], 0x0800, &ipv4(&[], 0, &udp(&bytes))));
        let folder = Folder::new();
        folder.write("in.pcap", &pcap(&frames));
        let ran = folder.run(&["receive", "in.pcap", "out.h264"]);
        ran.says(0, &["3 packets"]);
        assert_eq!(folder.read("out.h264"), THREE_UNITS);
    }
}

/// IP packets whose lengths make no sense hold nothing, and the rest of the capture is read.
#[test]
fn ip_headers_that_make_no_sense() {
    let mut frames: Vec<Vec<u8>> = three_packets()
        .iter()
        .map(|it| ipv4(&[], 0, &udp(&it.bytes())))
        .collect();
    let whole = frames[0].clone();
    let six = ipv6(17, &udp(&three_packets()[0].bytes()));
    // The header's length, and the packet's.
    for (at, byte) in [(0, 0x44), (0, 0x4f), (0, 0x50), (3, 2), (3, 19), (3, 21)] {
        let mut packet = whole.clone();
        packet[at] = byte;
        frames.push(packet);
    }
    // Each front of a packet, and headers that go on behind the end.
    frames.extend((0..28).map(|len| whole[..len].to_vec()));
    frames.extend((0..48).map(|len| six[..len].to_vec()));
    for next in [0, 43, 44, 51, 60] {
        frames.push(ipv6(next, &[]));
        frames.push(ipv6(next, &[next, 255, 0, 0, 0, 0, 0, 0]));
    }
    let folder = Folder::new();
    folder.write(
        "in.pcap",
        &pcap_of(Order::Little, 0xa1b2_c3d4, 101, &frames),
    );
    folder
        .run(&["receive", "in.pcap", "out.h264"])
        .says(0, &["3 packets"]);
    assert_eq!(folder.read("out.h264"), THREE_UNITS);
}

/// Frames whose end was not captured: none of them is taken.
#[test]
fn frames_that_are_cut() {
    let mut frames: Vec<Vec<u8>> = three_packets().iter().map(crate::build::frame).collect();
    frames[1].pop();
    let folder = Folder::new();
    folder.write("in.pcap", &pcap(&frames));
    let ran = folder.run(&["receive", "in.pcap", "out.h264"]);
    ran.says(
        3,
        &[
            "with only a front in the capture",
            "1 unit: left out, for want of a packet",
        ],
    );
    assert_eq!(folder.read("out.h264"), THREE_UNITS[..8]);
}

/// RTCP on the same port is none of the stream (RFC 5761, 4), and neither is STUN.
#[test]
fn other_packets_on_the_port() {
    let mut frames: Vec<Vec<u8>> = three_packets().iter().map(crate::build::frame).collect();
    let report = [&[0x80, 200, 0, 6, 1, 2, 3, 4][..], &[0; 20]].concat();
    let stun = [&[0, 1, 0, 0, 0x21, 0x12, 0xa4, 0x42][..], &[5; 12]].concat();
    for (at, datagram) in [(1, report), (2, stun)] {
        frames.insert(at, ethernet(&[], 0x0800, &ipv4(&[], 0, &udp(&datagram))));
    }
    let folder = Folder::new();
    folder.write("in.pcap", &pcap(&frames));
    let ran = folder.run(&["receive", "in.pcap", "out.h264"]);
    ran.says(0, &[]);
    assert!(!ran.err.contains("passing over"), "{ran:#?}");
    assert_eq!(folder.read("out.h264"), THREE_UNITS);
}

/// The stream with the most packets that follow one another is taken, or the one that is asked for.
#[test]
fn streams_are_chosen() {
    let one = three_packets();
    let mut frames: Vec<Vec<u8>> = one.iter().map(crate::build::frame).collect();
    for (i, packet) in one[..2].iter().enumerate() {
        let mut bytes = Rtp::new(100 + i as u16, 0, true, &packet.payload).bytes();
        bytes[1] = 0x80 | 111;
        bytes[11] = 9;
        frames.push(ethernet(&[], 0x0800, &ipv4(&[], 0, &udp(&bytes))));
    }
    // More datagrams that could be RTP, of which none follows another.
    let mut noise = Rtp::new(7, 0, false, &[1, 2, 3]).bytes();
    noise[11] = 0xff;
    for _ in 0..5 {
        frames.insert(0, ethernet(&[], 0x0800, &ipv4(&[], 0, &udp(&noise))));
    }
    let folder = Folder::new();
    folder.write("in.pcap", &pcap(&frames));
    let ran = folder.run(&["receive", "in.pcap", "out.h264"]);
    let other = "SSRC 0x01020309, payload type 111, to 192.0.2.2 port 5004";
    ran.says(0, &["receiving SSRC 0x01020304", "passing over", other]);
    assert_eq!(folder.read("out.h264"), THREE_UNITS);
    for chosen in [["--payload-type", "111"], ["--ssrc", "0x01020309"]] {
        let ran = folder.run(&[&["receive", "in.pcap", "other.h264"][..], &chosen].concat());
        ran.says(3, &[&format!("receiving {other}"), "1 unit: left out"]);
        assert_eq!(folder.read("other.h264"), THREE_UNITS[..8]);
    }
    folder
        .run(&["receive", "in.pcap", "no.h264", "--port", "5005"])
        .says(1, &["none of its RTP streams", other]);
    let noise = ["receive", "in.pcap", "noise.h264", "--ssrc", "0x010203ff"];
    folder
        .run(&noise)
        .says(0, &["4 packets: passed over, come twice"]);
    assert_eq!(folder.read("noise.h264"), [0, 0, 0, 1, 1, 2, 3]);
}
