//! RTP's header, elements of extensions, RTX and RED: bytes by the figures of RFC 3550, 5.1, RFC 8285, 4.2 and 4.3,
//! RFC 4588, 4, and RFC 2198, 3. Statistics by RFC 3550, A.1, A.3 and A.8, and RTCP by the figures of RFC 3550, 6.4.1 and
//! 6.4.2, RFC 4585, 6.1 and 6.2.1, and RFC 5104, 4.3.1.

use crate::rtp::{
    FullIntraRequest, GenericNack, NackPair, NackWritten, PictureLoss, ReceiverReport, RedError,
    RedPayload, ReportBlock, RtpDatagram, RtpError, RtpExtension, RtpHeader, RtpStatistics,
    RtpWriteError, RtxPayload, is_rtcp, split_rtcp, write_nack, write_red,
};
use crate::tests::bytes;

/// A packet with a CSRC, an extension of one word and a byte of padding.
const WHOLE: &str = "b1ff ffff 00000000 ffffffff 0a0b0c0d bede0001 10aa0000 41 01";

#[test]
fn packets() {
    let whole = bytes(WHOLE);
    let extension = RtpExtension {
        profile: 0xbede,
        bytes: &[0x10, 0xaa, 0, 0],
    };
    let packet = RtpDatagram {
        header: RtpHeader {
            marker: true,
            payload_type: 127,
            sequence: 65535,
            timestamp: 0,
            ssrc: u32::MAX,
            csrcs: &[10, 11, 12, 13],
            extension: Some(extension),
        },
        payload: &[0x41],
        padding: &[1],
    };
    assert_eq!(RtpDatagram::read(&whole), Ok(packet));
    let mut room = [0; 30];
    assert_eq!(packet.write(&mut room), Ok(26));
    assert_eq!((&room[..26], &room[26..]), (&whole[..], &[0; 4][..]));
    assert_eq!(
        packet.write(&mut room[..25]),
        Err(RtpWriteError::NoRoom(26))
    );
    // The header alone, before a payload that begins at byte 26.
    assert_eq!(packet.header.write_before(true, 26, &mut room), Ok(2));
    assert_eq!(&room[2..26], &whole[..24]);
}

#[test]
fn refused_packets() {
    for (packet, fault) in [
        ("8060 0001 00000000 000000", RtpError::TooShort),
        ("4160 0001 00000000 00000000", RtpError::OtherVersion(1)),
        (
            "b160 0001 00000000 00000000 0a0b00",
            RtpError::CsrcsPastTheEnd,
        ),
        (
            "b060 0001 00000000 00000000 bede0001 000000",
            RtpError::ExtensionPastTheEnd,
        ),
        ("a060 0001 00000000 00000000 4100", RtpError::PaddingOfZero),
        ("a060 0001 00000000 00000000 4103", RtpError::PaddingTooLong),
    ] {
        assert_eq!(RtpDatagram::read(&bytes(packet)), Err(fault));
    }
}

#[test]
fn unwritten_packets() {
    let whole = bytes(WHOLE);
    let packet = RtpDatagram::read(&whole).expect("a packet");
    let of = |header| RtpDatagram { header, ..packet }.write(&mut [0; 64]);
    let header = packet.header;
    let payload_type = 128;
    assert_eq!(
        of(RtpHeader {
            payload_type,
            ..header
        }),
        Err(RtpWriteError::PayloadType)
    );
    let csrcs = &[1, 2, 3];
    assert_eq!(of(RtpHeader { csrcs, ..header }), Err(RtpWriteError::Csrcs));
    let extension = Some(RtpExtension {
        profile: 0,
        bytes: csrcs,
    });
    assert_eq!(
        of(RtpHeader {
            extension,
            ..header
        }),
        Err(RtpWriteError::Extension)
    );
    let padding = &[0, 3];
    assert_eq!(
        RtpDatagram { padding, ..packet }.write(&mut [0; 64]),
        Err(RtpWriteError::Padding)
    );
}

#[test]
fn elements() {
    let of = |profile, hex| {
        let bytes = bytes(hex);
        let extension = RtpExtension {
            profile,
            bytes: &bytes,
        };
        let elements = extension.elements();
        elements
            .map(|it| (it.id, it.bytes.to_vec()))
            .collect::<Vec<_>>()
    };
    let last = (3, vec![0xd0, 0xd1, 0xd2, 0xd3]);
    let one_byte = of(0xbede, "10aa 21bbcc 0000 33d0d1d2d3");
    assert_eq!(
        one_byte,
        [(1, vec![0xaa]), (2, vec![0xbb, 0xcc]), last.clone()]
    );
    let two_bytes = of(0x1000, "0100 0201bb 00 0304d0d1d2d3");
    assert_eq!(two_bytes, [(1, vec![]), (2, vec![0xbb]), last]);
    assert_eq!(of(0xbede, "10aa f000 20bb"), [(1, vec![0xaa])]);
    assert_eq!(of(0x1010, "10aa0000"), []);
}

#[test]
fn rtcp() {
    for (second, wanted) in [
        (0xbf, false),
        (0xc0, true),
        (0xc8, true),
        (0xdf, true),
        (0xe0, false),
    ] {
        assert_eq!(is_rtcp(&[0x80, second]), wanted);
    }
    assert!(!is_rtcp(&[0xc8]));
}

#[test]
fn retransmissions() {
    let resent = bytes("80e1 0005 00000009 00000002 1234 65");
    let resent = RtpDatagram::read(&resent).expect("a packet");
    let original = resent.original(96, 1).expect("one");
    let wanted = bytes("80e0 1234 00000009 00000001 65");
    assert_eq!(RtpDatagram::read(&wanted), Ok(original));
    let mut room = [0; 32];
    let len = original.write_rtx(97, 5, 2, &mut room).expect("room");
    assert_eq!(RtpDatagram::read(&room[..len]), Ok(resent));
    let padding = bytes("a061 0005 00000009 00000002 01");
    let padding = RtpDatagram::read(&padding).expect("a packet");
    assert_eq!(padding.original(96, 1), None);
    let payload = RtxPayload::read(&[0x12, 0x34]).expect("an empty one");
    assert_eq!((payload.sequence, payload.payload.len()), (0x1234, 0));
}

#[test]
fn redundant_payloads() {
    let bytes_of_two = bytes("87028002 05 aabb cc");
    let red = RedPayload::read(&bytes_of_two).expect("a payload");
    assert_eq!((red.payload_type, red.primary), (5, &[0xcc][..]));
    let blocks: Vec<_> = red.blocks.collect();
    let [block] = blocks[..] else {
        panic!("{} blocks", blocks.len());
    };
    assert_eq!((block.payload_type, block.timestamp_offset), (7, 160));
    assert_eq!(block.bytes, [0xaa, 0xbb]);
    assert!(block.is_of(&[120, 7]) && !block.is_of(&[120]));
    for (payload, fault) in [
        ("", RedError::HeadersPastTheEnd),
        ("87028002", RedError::HeadersPastTheEnd),
        ("870280", RedError::HeadersPastTheEnd),
        ("87028002 05 aa", RedError::BlocksPastTheEnd),
    ] {
        assert_eq!(RedPayload::read(&bytes(payload)).err(), Some(fault));
    }
    let mut room = [0; 4];
    assert_eq!(write_red(96, &[0x65], &mut room), Ok(2));
    assert_eq!(room, [0x60, 0x65, 0, 0]);
}

/// What is counted of packets of these numbers, which all come 100 ticks behind their timestamps.
fn counted(numbers: &[u16]) -> RtpStatistics {
    let mut statistics = RtpStatistics::default();
    for number in numbers {
        statistics.receive(100, *number, 0, 10);
    }
    statistics
}

#[test]
fn numbers_that_are_counted() {
    let mut statistics = counted(&[65534, 0, 65535, 2]);
    assert_eq!((statistics.expected, statistics.received), (5, 4));
    assert_eq!(
        (statistics.extended_highest(), statistics.lost()),
        (0x1_0002, 1)
    );
    assert_eq!(
        (statistics.bytes, statistics.interarrival_jitter()),
        (40, 0)
    );
    let first = statistics.report(9, 7, 8);
    assert_eq!((first.fraction_lost, first.lost), (51, 1));
    assert_eq!(
        (first.ssrc, first.last_sender_report, first.delay),
        (9, 7, 8)
    );
    // Of three more one comes.
    statistics.receive(100, 5, 0, 10);
    assert_eq!(statistics.report(9, 0, 0).fraction_lost, 170);
    assert_eq!(statistics.lost(), 3);
    // None more.
    assert_eq!(statistics.report(9, 0, 0).fraction_lost, 0);
    statistics.recover();
    assert_eq!((statistics.recovered, statistics.lost()), (1, 3));
}

#[test]
fn numbers_that_jump() {
    for (number, counts) in [(3006, true), (3007, false), (65444, true), (65443, false)] {
        let mut statistics = counted(&[7]);
        assert_eq!(statistics.receive(100, number, 0, 10), counts, "{number}");
        assert_eq!(statistics.received, 1 + u64::from(counts));
    }
    let anew = counted(&[7, 8, 5000, 5001]);
    assert_eq!((anew.extended_highest(), anew.received), (5001, 1));
    assert_eq!(anew.lost(), 0);
    let other = counted(&[7, 5000, 9001]);
    assert_eq!((other.extended_highest(), other.received), (7, 1));
    // More than were expected came.
    let twice = counted(&[7, 7, 7]);
    assert_eq!(twice.lost(), -2);
}

#[test]
fn jitter() {
    let mut statistics = RtpStatistics::new();
    statistics.receive(1000, 1, 0, 0);
    assert_eq!(statistics.jitter, 0);
    statistics.receive(4160, 2, 3000, 0);
    assert_eq!(
        (statistics.jitter, statistics.interarrival_jitter()),
        (160, 10)
    );
    statistics.receive(7000, 3, 6000, 0);
    assert_eq!(
        (statistics.jitter, statistics.interarrival_jitter()),
        (310, 19)
    );
    // Clocks go round at 2^32.
    let mut statistics = RtpStatistics::new();
    statistics.receive(u32::MAX - 15, 1, 0, 0);
    statistics.receive(16, 2, 0, 0);
    assert_eq!(statistics.jitter, 32);
}

#[test]
fn feedback() {
    let mut room = [0; 33];
    let pli = PictureLoss {
        sender: 0x0102_0304,
        media: 0xa1a2_a3a4,
    };
    assert_eq!(pli.write(&mut room), Ok(12));
    assert_eq!(room[..13], bytes("81ce0002 01020304 a1a2a3a4 00"));
    assert_eq!(PictureLoss::read(&room[..12]), Some(pli));
    assert_eq!(PictureLoss::read(&room[..13]), None);
    assert_eq!(pli.write(&mut room[..11]), Err(RtpWriteError::NoRoom(12)));
    let fir = FullIntraRequest {
        sender: 1,
        media: 0xa1a2_a3a4,
        number: 7,
    };
    assert_eq!(fir.write(&mut room), Ok(20));
    let wanted = "84ce0004 00000001 00000000 a1a2a3a4 07000000";
    assert_eq!(room[..20], bytes(wanted));
    assert_eq!(FullIntraRequest::read(&room[..20]), Some(fir));
    assert_eq!(FullIntraRequest::read(&room[..12]), None);
    let block = ReportBlock {
        ssrc: 2,
        fraction_lost: 0x40,
        lost: -2,
        highest: 0x0002_0003,
        jitter: 0x44,
        last_sender_report: 0xa1a2_a3a4,
        delay: 0x0001_0000,
    };
    let report = ReceiverReport { sender: 1, block };
    assert_eq!(report.write(&mut room), Ok(32));
    let wanted = "81c90007 00000001 00000002 40fffffe 00020003 00000044 a1a2a3a4 00010000";
    assert_eq!(room[..32], bytes(wanted));
    assert_eq!(ReceiverReport::read(&room[..32]), Some(report));
    assert_eq!(PictureLoss::read(&room[..32]), None);
    for (lost, written) in [(1 << 23, (1 << 23) - 1), (i32::MIN, -1 << 23)] {
        let block = ReportBlock { lost, ..block };
        ReceiverReport { sender: 1, block }
            .write(&mut room)
            .unwrap();
        let read = ReceiverReport::read(&room[..32]).expect("a report");
        assert_eq!(read.block.lost, written);
    }
}

/// The pairs of numbers, as they are written and read.
fn pairs_of(numbers: &[u16]) -> Vec<(u16, u16)> {
    let mut room = [0; 64];
    let written = write_nack(1, 2, numbers, &mut room).expect("room");
    assert_eq!(written.count, numbers.len());
    let nack = GenericNack::read(&room[..written.size]).expect("a NACK");
    assert_eq!((nack.sender, nack.media), (1, 2));
    let mut copied = [9; 20];
    assert_eq!(nack.pairs.copy_numbers(&mut copied), numbers.len());
    assert_eq!(copied[..numbers.len()], *numbers);
    assert!(copied[numbers.len()..].iter().all(|it| *it == 9));
    nack.pairs.map(|it| (it.first, it.following)).collect()
}

#[test]
fn nack_pairs() {
    assert_eq!(pairs_of(&[5, 6, 21]), [(5, 0x8001)]);
    assert_eq!(pairs_of(&[5, 22]), [(5, 0), (22, 0)]);
    assert_eq!(pairs_of(&[65535, 0]), [(65535, 1)]);
    assert_eq!(pairs_of(&[5, 8, 6]), [(5, 4), (6, 0)]);
    let all: Vec<u16> = (65530..=65535).chain(0..=10).collect();
    assert_eq!(pairs_of(&all), [(65530, 0xffff)]);
    let pair = NackPair {
        first: 65530,
        following: 0xffff,
    };
    assert!(pair.numbers().eq(all));
}

#[test]
fn nacks() {
    let written = |size, count| Ok(NackWritten { size, count });
    let mut room = [9; 24];
    let numbers = [5, 6, 0x1234, 7];
    assert_eq!(
        write_nack(0x0102_0304, 0xa1a2_a3a4, &numbers, &mut room[..23]),
        written(20, 3)
    );
    let packet = bytes("81cd0004 01020304 a1a2a3a4 00050001 12340000");
    assert_eq!((&room[..20], &room[20..]), (&packet[..], &[9; 4][..]));
    assert_eq!(write_nack(1, 2, &numbers[3..], &mut room), written(16, 1));
    assert_eq!(write_nack(1, 2, &[], &mut room[..0]), written(0, 0));
    assert_eq!(
        write_nack(1, 2, &[5], &mut room[..15]),
        Err(RtpWriteError::NoRoom(16))
    );
    // There are more numbers than places for them.
    let nack = GenericNack::read(&packet).expect("a NACK");
    let mut copied = [9; 2];
    assert_eq!((nack.pairs.copy_numbers(&mut copied), copied), (3, [5, 6]));
    // Another format, packet type and length, padding, and no pair.
    for other in [
        "8fcd0003 00000001 00000002 00050000",
        "81ce0003 00000001 00000002 00050000",
        "81cd0004 00000001 00000002 00050000",
        "a1cd0003 00000001 00000002 00000004",
        "81cd0002 00000001 00000002",
        "",
    ] {
        assert!(GenericNack::read(&bytes(other)).is_none());
    }
}

#[test]
fn compounds() {
    let report = "81c90007 00000001 00000002 40fffffe 00020003 00000044 a1a2a3a4 00010000";
    let nack = "81cd0003 00000001 a1a2a3a4 00058001";
    let pli = "81ce0002 01020304 a1a2a3a4";
    let all = bytes(&format!("{report}{nack}{pli}"));
    let (first, rest) = split_rtcp(&all).expect("a report");
    assert_eq!((first, rest), all.split_at(32));
    let (second, third) = split_rtcp(rest).expect("a NACK");
    assert_eq!((second, third), rest.split_at(16));
    assert!(GenericNack::read(second).is_some());
    assert_eq!(split_rtcp(third), Some((third, &[][..])));
    assert!(PictureLoss::read(third).is_some());
    // Cut anywhere, each is there or none.
    for len in 0..32 {
        assert_eq!(split_rtcp(&all[..len]), None);
    }
    assert_eq!(split_rtcp(&all[..40]), Some(all[..40].split_at(32)));
    // Without a word behind its first; another version; longer than the datagram.
    assert!(split_rtcp(&bytes("80cb0000")).is_some());
    for other in [
        "01cb0000",
        "41cb0000",
        "c1cb0000",
        "81cb00",
        "81cb0001",
        "81ce0100 01020304",
        "",
    ] {
        assert_eq!(split_rtcp(&bytes(other)), None);
    }
}
