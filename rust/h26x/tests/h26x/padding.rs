//! Packets that have padding alone (RFC 3550, 5.1), as senders put them between pictures to try how much
//! a path carries.

use crate::build::{Rtp, THREE_UNITS, ethernet, ipv4, pcap, three_packets, udp};
use crate::program::Folder;

/// A packet of so many bytes of padding.
fn padding(sequence: u16, timestamp: u32, len: u8) -> Vec<u8> {
    let mut payload = vec![0; usize::from(len) - 1];
    payload.push(len);
    let mut bytes = Rtp::new(sequence, timestamp, false, &payload).bytes();
    bytes[0] |= 0x20;
    bytes
}

fn capture(packets: &[Vec<u8>]) -> Vec<u8> {
    let frame = |packet: &Vec<u8>| ethernet(&[], 0x0800, &ipv4(&[], 0, &udp(packet)));
    pcap(&packets.iter().map(frame).collect::<Vec<_>>())
}

/// They stand between packets, within a unit too, and are more than these.
#[test]
fn between_packets() {
    let [set, first, last] = <[Rtp; 3]>::try_from(three_packets()).ok().expect("three");
    let numbered = |packet: &Rtp, sequence| {
        Rtp {
            sequence,
            ..packet.clone()
        }
        .bytes()
    };
    let mut packets = vec![numbered(&set, 65535)];
    packets.extend((0..4).map(|i| padding(i, 9000, 255)));
    packets.push(numbered(&first, 4));
    packets.extend((5..9).map(|i| padding(i, 9000, 1)));
    packets.push(numbered(&last, 9));
    packets.extend((10..14).map(|i| padding(i, 9000, 20)));
    let folder = Folder::new();
    folder.write("in.pcap", &capture(&packets));
    let told = "12 packets: of padding alone (RFC 3550, 5.1)";
    folder
        .run(&["receive", "in.pcap", "out.h264"])
        .says(0, &[told, "15 packets of 12 bytes, 1 access unit"]);
    assert_eq!(folder.read("out.h264"), THREE_UNITS);
    let ran = folder.run(&["inspect", "in.pcap"]);
    ran.says(
        0,
        &[
            told,
            "    0     0.001000        9000       0  padding     255 bytes\n",
            "    5     0.006000        9000       0  padding     1 byte\n",
        ],
    );
    assert!(!ran.out.contains("refused"), "{ran:#?}");
    // One that is lost is a packet that is lost.
    packets.remove(2);
    folder.write("in.pcap", &capture(&packets));
    folder
        .run(&["inspect", "in.pcap", "--summary"])
        .says(3, &["lost: 1 packet: 1 before 2"]);
}
