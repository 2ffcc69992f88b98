//! Packets within packets, and what a capture has that isn't read.

use crate::build::{THREE_UNITS, ethernet, ipv4, ipv6, pcap, three_packets, udp};
use crate::program::Folder;

/// Receives the three packets out of frames of Ethernet, whose IP packets are put into something.
#[track_caller]
fn is_received(frame: impl Fn(&[u8]) -> Vec<u8>) {
    for of_six in [false, true] {
        let packet = |bytes: Vec<u8>| match of_six {
            true => ipv6(17, &udp(&bytes)),
            false => ipv4(&[], 0x4000, &udp(&bytes)),
        };
        let packets = three_packets();
        let frames = packets.iter().map(|it| frame(&packet(it.bytes())));
        let folder = Folder::new();
        folder.write("in.pcap", &pcap(&frames.collect::<Vec<_>>()));
        folder
            .run(&["receive", "in.pcap", "out.h264"])
            .says(0, &["SSRC 0x01020304", "port 5004"]);
        assert_eq!(folder.read("out.h264"), THREE_UNITS);
    }
}

fn is_six(packet: &[u8]) -> bool {
    packet[0] >> 4 == 6
}

fn ether_type(packet: &[u8]) -> [u8; 2] {
    if is_six(packet) { [0x86, 0xdd] } else { [8, 0] }
}

/// An IPv4 packet of another protocol.
fn carrying(protocol: u8, data: &[u8]) -> Vec<u8> {
    let mut packet = ipv4(&[], 0, data);
    packet[9] = protocol;
    packet
}

/// A session of PPPoE (RFC 2516, 4), also behind a tag.
#[test]
fn pppoe() {
    let session = |packet: &[u8]| {
        let len = (packet.len() + 2) as u16;
        let protocol = if is_six(packet) { [0, 0x57] } else { [0, 0x21] };
        [&[0x11, 0, 0, 1][..], &len.to_be_bytes(), &protocol, packet].concat()
    };
    is_received(|packet| ethernet(&[], 0x8864, &session(packet)));
    is_received(|packet| ethernet(&[0x81, 0, 0, 5], 0x8864, &session(packet)));
}

/// One label, three of them, and an Ethernet frame behind a control word (RFC 3032, RFC 4448).
#[test]
fn mpls() {
    let (label, last) = ([0, 1, 0, 64], [0, 1, 1, 64]);
    is_received(|packet| ethernet(&[], 0x8847, &[&last, packet].concat()));
    is_received(|packet| ethernet(&[], 0x8848, &[&label, &label, &last, packet].concat()));
    is_received(|packet| {
        let [high, low] = ether_type(packet);
        let frame = ethernet(&[], u16::from_be_bytes([high, low]), packet);
        ethernet(&[], 0x8847, &[&last, &[0; 4], &frame[..]].concat())
    });
}

/// GRE without and with a checksum, a key and a number (RFC 2784, RFC 2890), and with frames of Ethernet.
#[test]
fn gre() {
    let over = |gre: Vec<u8>| ethernet(&[], 0x0800, &carrying(47, &gre));
    is_received(|packet| over([&[0, 0], &ether_type(packet), packet].concat()));
    is_received(|packet| {
        let options = [0xff; 12];
        over([&[0xb0, 0][..], &ether_type(packet), &options, packet].concat())
    });
    is_received(|packet| {
        over([&[0x20, 0][..], &ether_type(packet), &[0, 0, 0, 9], packet].concat())
    });
    is_received(|packet| {
        let [high, low] = ether_type(packet);
        let frame = ethernet(&[], u16::from_be_bytes([high, low]), packet);
        over([&[0, 0, 0x65, 0x58], &frame[..]].concat())
    });
}

/// VXLAN (RFC 7348, 5), over IPv4 and over IPv6, and IP within IP (RFC 2003, RFC 2473).
#[test]
fn vxlan_and_ip_in_ip() {
    let vxlan = |packet: &[u8]| {
        let [high, low] = ether_type(packet);
        let frame = ethernet(&[], u16::from_be_bytes([high, low]), packet);
        let mut datagram = udp(&[&[8, 0, 0, 0, 0, 0, 1, 0], &frame[..]].concat());
        datagram[2..4].copy_from_slice(&4789u16.to_be_bytes());
        datagram
    };
    is_received(|packet| ethernet(&[], 0x0800, &ipv4(&[], 0, &vxlan(packet))));
    is_received(|packet| ethernet(&[], 0x86dd, &ipv6(17, &vxlan(packet))));
    let protocol = |packet: &[u8]| if is_six(packet) { 41 } else { 4 };
    is_received(|packet| ethernet(&[], 0x0800, &carrying(protocol(packet), packet)));
    is_received(|packet| ethernet(&[], 0x86dd, &ipv6(protocol(packet), packet)));
    // A tunnel within a tunnel, in fragments.
    is_received(|packet| {
        let gre = [&[0, 0], &ether_type(packet), packet].concat();
        ethernet(&[], 0x0800, &ipv4(&[], 0, &vxlan(&carrying(47, &gre))))
    });
}

/// Headers that are cut off, and IP in IP without an end, hold nothing, and the rest is read.
#[test]
fn tunnels_that_make_no_sense() {
    let mut frames: Vec<Vec<u8>> = three_packets().iter().map(crate::build::frame).collect();
    let packet = ipv4(&[], 0, &udp(&three_packets()[0].bytes()));
    let pppoe = [&[0x11, 0, 0, 1, 0, 60, 0, 0x21][..], &packet].concat();
    let mpls = [&[0, 1, 0, 64, 0, 1, 1, 64][..], &packet].concat();
    let gre = [&[0xb0, 0, 8, 0][..], &[0; 12], &packet].concat();
    let headers = 20 + 8;
    for len in 0..8 + headers {
        frames.push(ethernet(&[], 0x8864, &pppoe[..len.min(pppoe.len())]));
        frames.push(ethernet(&[], 0x8847, &mpls[..len]));
        frames.push(ethernet(&[], 0x0800, &carrying(47, &gre[..8 + len])));
    }
    frames.push(ethernet(&[], 0x8847, &[0; 400]));
    frames.push(ethernet(&[], 0x8100, &[0x81, 0].repeat(200)));
    let nested = (0..100).fold(packet, |inner, _| carrying(4, &inner));
    frames.push(ethernet(&[], 0x0800, &nested));
    let folder = Folder::new();
    folder.write("in.pcap", &pcap(&frames));
    folder
        .run(&["receive", "in.pcap", "out.h264"])
        .says(0, &["3 packets"]);
    assert_eq!(folder.read("out.h264"), THREE_UNITS);
}

/// What a capture without a stream has is named.
#[test]
fn what_is_not_read_is_named() {
    let tcp = ethernet(
        &[],
        0x0800,
        &carrying(6, &[&[0x50; 20][..], b"GET / HTTP/1.1"].concat()),
    );
    let esp = ethernet(&[], 0x0800, &carrying(50, &[7; 40]));
    let arp = ethernet(&[], 0x0806, &[0; 28]);
    let other = ethernet(&[], 0x1234, &[0; 28]);
    let dns = ethernet(&[], 0x0800, &ipv4(&[], 0, &udp(&[1; 30])));
    for (frames, said) in [
        (
            vec![&tcp, &arp, &tcp],
            "there is no RTP stream in it: the capture has TCP only",
        ),
        (
            vec![&esp, &esp, &esp, &arp, &tcp, &tcp, &other],
            "it has 7 frames: 3 of ESP, which is encrypted, 2 of TCP, 1 of ARP, 1 of EtherType \
             0x1234",
        ),
        (
            vec![&dns, &dns, &tcp],
            "it has 3 frames: 2 of UDP, 1 of TCP; no two packets of RTP follow one another",
        ),
    ] {
        let folder = Folder::new();
        let frames: Vec<Vec<u8>> = frames.into_iter().cloned().collect();
        folder.write("in.pcap", &pcap(&frames));
        folder.run(&["inspect", "in.pcap"]).says(1, &[said]);
    }
}
