//! Packets in one buffer.

use crate::tests::{bytes, payload};
use crate::{H264Packetizer, H265Packetizer, H266Packetizer, Packets};

/// Compares packets with what is wanted, by each way to look at them.
#[track_caller]
fn holds(packets: &Packets, wanted: &[&str]) {
    let wanted: Vec<Vec<u8>> = wanted.iter().map(|packet| bytes(packet)).collect();
    assert_eq!(packets.iter().collect::<Vec<_>>(), wanted);
    assert_eq!(packets.iter().len(), wanted.len());
    assert_eq!(
        (packets.len(), packets.is_empty()),
        (wanted.len(), wanted.is_empty())
    );
    assert_eq!(packets.bytes(), wanted.concat());
    assert_eq!(
        packets.ends().last().copied().unwrap_or(0),
        packets.bytes().len()
    );
    for (i, packet) in wanted.iter().enumerate() {
        assert_eq!(packets.get(i), Some(&packet[..]));
        assert_eq!(&packets[i], &packet[..]);
    }
    assert_eq!(packets.get(wanted.len()), None);
}

#[test]
fn packets_of_the_last_call_alone() {
    let mut packets = Packets::default();
    holds(&packets, &[]);
    let mut end = H264Packetizer::default();
    end.packetize_into(4, &bytes("6501020304"), &mut packets)
        .unwrap();
    holds(&packets, &["7c850102", "7c450304"]);
    end.packetize_into(1500, &payload(&["070001", "080203"]), &mut packets)
        .unwrap();
    holds(&packets, &[]);
    end.packetize_into(1500, &bytes("050405"), &mut packets)
        .unwrap();
    holds(&packets, &["7800030700010003080203", "050405"]);
}

#[test]
fn packets_of_each_codec() {
    let mut packets = Packets::default();
    let mut h265 = H265Packetizer::default();
    h265.packetize_into(4, &bytes("2601aabbcc"), &mut packets)
        .unwrap();
    holds(&packets, &["620193aa", "620113bb", "620153cc"]);
    let mut h266 = H266Packetizer::default();
    h266.packetize_into(4, &bytes("0039aabbcc"), &mut packets)
        .unwrap();
    holds(&packets, &["00e987aa", "00e907bb", "00e947cc"]);
}

#[test]
fn units_as_they_are() {
    let mut packets = Packets::default();
    let mut h264 = H264Packetizer::default();
    h264.packetize_into(1500, &payload(&["070001", "080203"]), &mut packets)
        .unwrap();
    h264.packetize_unit_into(1500, &bytes("65000001"), &mut packets)
        .unwrap();
    holds(&packets, &["65000001"]);
    assert_eq!(
        h264.packetize_unit(4, &bytes("6501020304")).unwrap(),
        [bytes("7c850102"), bytes("7c450304")]
    );
    // The sets still wait.
    h264.packetize_into(1500, &bytes("050405"), &mut packets)
        .unwrap();
    holds(&packets, &["7800030700010003080203", "050405"]);
}

#[test]
fn each_packet_behind_its_headroom() {
    let mut packets = Packets::with_headroom(2);
    assert_eq!((packets.headroom(), packets.bytes().len()), (2, 0));
    let mut end = H264Packetizer::default();
    end.packetize_into(4, &bytes("6501020304"), &mut packets)
        .unwrap();
    assert_eq!(
        packets.iter().collect::<Vec<_>>(),
        [bytes("7c850102"), bytes("7c450304")]
    );
    assert_eq!(packets.ends(), [6, 12]);
    packets.datagram_mut(1)[..2].copy_from_slice(&[0x80, 0xe0]);
    packets.bytes_mut()[1] = 0x60;
    assert_eq!(packets.bytes(), bytes("00607c850102 80e07c450304"));
    // What stands in the headroom is the caller's, and a later call leaves it.
    end.packetize_into(4, &bytes("65aabbccdd"), &mut packets)
        .unwrap();
    assert_eq!(packets.bytes(), bytes("00607c85aabb 80e07c45ccdd"));
    let mut same = packets.clone();
    assert_eq!(same, packets);
    same.bytes_mut()[0] = 1;
    assert_ne!(same, packets);
    assert_ne!(Packets::with_headroom(1), Packets::default());
    assert_eq!(format!("{packets:?}"), "[4 bytes, 4 bytes]");
}

#[test]
fn memory_is_used_again() {
    let (mut end, mut packets) = (H264Packetizer::default(), Packets::default());
    end.packetize_into(100, &[0x65; 1000], &mut packets)
        .unwrap();
    let before = packets.bytes().as_ptr();
    end.packetize_into(100, &[0x65; 900], &mut packets).unwrap();
    assert_eq!((packets.len(), packets.bytes().as_ptr()), (10, before));
}

#[test]
#[should_panic(expected = "a packet with this number")]
fn no_packet_past_the_last() {
    let _ = &Packets::default()[0];
}
