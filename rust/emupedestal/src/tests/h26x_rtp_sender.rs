//! RTP packets of access units (RFC 3550, 5.1), what is held of them, and what goes again (RFC 4588, 4).

use crate::rtp::{GenericNack, RtpDatagram, RtpExtension, RtpWriteError, write_nack};
use crate::rtp_receiver::{RtpPayloadTypes, RtpReceiver, RtpSources};
use crate::rtp_sender::{RtpSendError, RtpSender, RtpStream, SentCount};
use crate::{AccessUnitConfig, Codec, H264Packetizer, NackTimes, Packets, Packing};

const MEDIA: RtpStream = RtpStream {
    ssrc: 1,
    payload_type: 96,
    sequence: 65534,
};
const RTX: RtpStream = RtpStream {
    ssrc: 2,
    payload_type: 97,
    sequence: 65535,
};

/// The packets of one unit, of three bytes of it each, behind a headroom.
fn packets(headroom: usize) -> Packets {
    let mut packets = Packets::with_headroom(headroom);
    let unit: &[u8] = &[0x65, 1, 2, 3, 4, 5, 6, 7];
    H264Packetizer::default()
        .packetize_units_into(Packing::Together, 5, &[unit], &mut packets)
        .unwrap();
    packets
}

/// The RTP packets that stand in a buffer.
fn datagrams(packets: &mut Packets, start: usize) -> Vec<Vec<u8>> {
    (0..packets.len())
        .map(|i| packets.datagram_mut(i)[start..].to_vec())
        .collect()
}

#[test]
fn headers_and_numbers() {
    let mut sender = RtpSender::new(MEDIA, None, 1000);
    let mut packets = packets(14);
    let start = sender.send(0x0102_0304, None, &mut packets).unwrap();
    let head = |marker: u8, sequence: [u8; 2]| {
        [
            0x80,
            marker + 96,
            sequence[0],
            sequence[1],
            1,
            2,
            3,
            4,
            0,
            0,
            0,
            1,
        ]
    };
    let expected = [
        [&head(0, [255, 254])[..], &[0x7c, 0x85, 1, 2, 3]].concat(),
        [&head(0, [255, 255])[..], &[0x7c, 0x05, 4, 5, 6]].concat(),
        [&head(128, [0, 0])[..], &[0x7c, 0x45, 7]].concat(),
    ];
    assert_eq!(
        (start, datagrams(&mut packets, start)),
        (2, expected.to_vec())
    );
    assert_eq!(sender.media().sequence, 1);
    let count = SentCount {
        packets: 3,
        bytes: 13,
    };
    assert_eq!((sender.sent(), sender.resent().packets), (count, 0));

    // Without RTX the same goes again, and counts.
    let mut memory = [0; 64];
    let len = sender.resend(65535, &mut memory).unwrap().unwrap();
    assert_eq!(memory[..len], expected[1]);
    assert_eq!(
        sender.sent(),
        SentCount {
            packets: 4,
            bytes: 18
        }
    );
}

#[test]
fn an_extension_goes_again() {
    let mut sender = RtpSender::new(MEDIA, Some(RTX), 1000);
    let extension = RtpExtension {
        profile: 0xbede,
        bytes: &[0x31, 7, 8, 0],
    };
    let mut packets = packets(20);
    let start = sender.send(9, Some(extension), &mut packets).unwrap();
    let sent = datagrams(&mut packets, start);
    let original = RtpDatagram::read(&sent[2]).unwrap();
    assert_eq!((start, original.header.extension), (0, Some(extension)));
    let mut memory = [0; 64];
    for (number, sequence) in [(0, 65535), (0, 0)] {
        let len = sender.resend(number, &mut memory).unwrap().unwrap();
        let resent = RtpDatagram::read(&memory[..len]).unwrap();
        assert_eq!((resent.header.sequence, resent.header.ssrc), (sequence, 2));
        assert_eq!(resent.original(96, 1), Some(original));
    }
    assert_eq!(
        sender.resent(),
        SentCount {
            packets: 2,
            bytes: 10
        }
    );
    assert_eq!(
        (sender.sent().packets, sender.rtx().unwrap().sequence),
        (3, 1)
    );
}

#[test]
fn the_oldest_goes_first() {
    let mut memory = [0; 64];
    let mut held = |history: usize| {
        let mut sender = RtpSender::new(MEDIA, None, history);
        sender.send(9, None, &mut packets(12)).unwrap();
        [65533, 65534, 65535, 0, 1].map(|it| sender.resend(it, &mut memory).unwrap().is_some())
    };
    // Payloads of 5, 5 and 3 bytes.
    assert_eq!(held(13), [false, true, true, true, false]);
    assert_eq!(held(12), [false, false, true, true, false]);
    assert_eq!(held(3), [false, false, false, true, false]);
    assert_eq!(held(2), [false; 5]);
}

#[test]
fn a_refusal_leaves_all() {
    let mut sender = RtpSender::new(MEDIA, Some(RTX), 1000);
    let mut few = packets(11);
    let before = few.bytes().to_vec();
    let refused = RtpSendError::Header(RtpWriteError::NoRoom(12));
    assert_eq!(sender.send(9, None, &mut few), Err(refused));
    assert_eq!((few.bytes(), sender.media()), (&before[..], MEDIA));
    let long = [0; 260];
    let extension = |bytes| Some(RtpExtension { profile: 0, bytes });
    let refused = |error| Err(RtpSendError::Header(error));
    assert_eq!(
        sender.send(9, extension(&long), &mut packets(400)),
        refused(RtpWriteError::NoRoom(276))
    );
    assert!(
        sender
            .send(9, extension(&long[..256]), &mut packets(400))
            .is_ok()
    );
    assert_eq!(
        sender.send(9, extension(&long[..3]), &mut packets(400)),
        refused(RtpWriteError::Extension)
    );
    // A retransmission of 272 + 7 bytes.
    let mut memory = [7; 279];
    assert_eq!(
        sender.resend(65534, &mut memory[..278]),
        Err(RtpWriteError::NoRoom(279))
    );
    assert_eq!((memory, sender.rtx()), ([7; 279], Some(RTX)));
    assert_eq!(sender.resend(65534, &mut memory), Ok(Some(279)));
    assert_eq!(sender.resend(65533, &mut memory), Ok(None));
}

/// A drawn number below another.
fn draw(state: &mut u64, below: u64) -> u64 {
    *state = state
        .wrapping_mul(6364136223846793005)
        .wrapping_add(1442695040888963407);
    (*state >> 33) % below
}

/// The units of an access unit: parameter sets and a keyframe first, then slices.
fn drawn_units(state: &mut u64, place: usize) -> Vec<Vec<u8>> {
    let mut slice = vec![if place == 0 { 0x65 } else { 0x61 }, 0x88];
    slice.extend((0..draw(state, 6000)).map(|it| it as u8 | 1));
    if place == 0 {
        vec![
            vec![0x67, 0x42, 0xc0, 0x1f],
            vec![0x68, 0xce, 0x3c, 0x80],
            slice,
        ]
    } else {
        vec![slice]
    }
}

/// A sender and a receiver, between whom each packet, sent or sent again, is lost with one chance in four: by NACKs
/// every access unit comes whole, with RTX and without.
#[test]
fn every_access_unit_comes_whole() {
    for (seed, rtx) in [(1, Some(RTX)), (2, None), (3, Some(RTX))] {
        let (sent, received) = session(seed, rtx);
        assert_eq!((sent.len(), sent), (received.len(), received));
    }
}

fn session(seed: u64, rtx: Option<RtpStream>) -> (Vec<Vec<u8>>, Vec<Vec<u8>>) {
    let mut state = seed;
    let mut sender = RtpSender::new(MEDIA, rtx, 1 << 20);
    let types = RtpPayloadTypes {
        media: 96,
        rtx: rtx.map(|it| it.payload_type),
        red: None,
        rtx_of_red: None,
        fec: None,
    };
    let mut receiver = RtpReceiver::new(Codec::H264, types, AccessUnitConfig::default());
    receiver.follow(RtpSources {
        media: Some(1),
        rtx: rtx.map(|it| it.ssrc),
    });
    let mut packetizer = H264Packetizer::default();
    let mut packets = Packets::with_headroom(12);
    let (mut sent, mut received) = (Vec::new(), Vec::new());
    for place in 0..200 {
        let now = place as u32 * 40;
        if place < 180 {
            let units = drawn_units(&mut state, place);
            let slices: Vec<&[u8]> = units.iter().map(|it| &it[..]).collect();
            packetizer
                .packetize_units_into(Packing::Together, 1188, &slices, &mut packets)
                .unwrap();
            let start = sender.send(now * 90, None, &mut packets).unwrap();
            for datagram in datagrams(&mut packets, start) {
                // What comes behind tells what is missing: the first and the last access unit come.
                if place == 0 || place == 179 || draw(&mut state, 4) > 0 {
                    receiver.push(now, now * 90, &datagram).unwrap();
                }
            }
            sent.push(
                units
                    .iter()
                    .flat_map(|it| [&[0, 0, 0, 1], &it[..]].concat())
                    .collect(),
            );
        }
        for datagram in asked_again(&mut sender, &mut receiver, now) {
            if draw(&mut state, 4) > 0 {
                receiver.push(now, now * 90, &datagram).unwrap();
            }
        }
        while let Some(unit) = receiver.next(now).unwrap() {
            assert!(unit.is_whole && unit.is_clean, "{place}: {unit:?}");
            received.push(unit.bytes.clone());
        }
    }
    receiver.finish();
    while let Some(unit) = receiver.next(0).unwrap() {
        received.push(unit.bytes.clone());
    }
    (sent, received)
}

/// What goes again for what a receiver asks for, by the NACK that it sends.
fn asked_again(sender: &mut RtpSender, receiver: &mut RtpReceiver, now: u32) -> Vec<Vec<u8>> {
    let times = NackTimes {
        first: 0,
        again: 40,
        most: 255,
    };
    let numbers = receiver.nacks(now, times, 1000).unwrap();
    let mut rtcp = [0; 4096];
    let written = write_nack(3, 1, &numbers, &mut rtcp).unwrap();
    let Some(nack) = GenericNack::read(&rtcp[..written.size]) else {
        return Vec::new();
    };
    let asked = nack.pairs.flat_map(|it| it.numbers());
    let mut datagram = [0; 1500];
    asked
        .map(|number| {
            let len = sender.resend(number, &mut datagram).unwrap().expect("held");
            datagram[..len].to_vec()
        })
        .collect()
}
