//! Datagrams of a stream, with RTX (RFC 4588, 4), RED (RFC 2198, 3), FEC in RED (RFC 5109, 14.2) and padding alone.

use crate::access_unit_receiver::Pushed;
use crate::rtp::{RedError, RtpError};
use crate::rtp_receiver::{
    NoMedia, RtpPayloadTypes, RtpPushError, RtpPushed, RtpReceiver, RtpSources, RtpTaken,
};
use crate::{AccessUnitConfig, Codec, NackTimes};

const TYPES: RtpPayloadTypes = RtpPayloadTypes {
    media: 96,
    rtx: Some(97),
    red: Some(98),
    rtx_of_red: Some(99),
    fec: Some(100),
};

/// A slice of a picture that others refer to, and one of a keyframe behind its parameter sets.
const SLICE: [u8; 3] = [0x61, 0x9a, 1];
const KEY: [u8; 15] = [
    0x78, 0, 4, 0x67, 0x42, 0xc0, 0x1f, 0, 2, 0x68, 0xce, 0, 2, 0x65, 0x88,
];

fn receiver() -> RtpReceiver {
    RtpReceiver::new(Codec::H264, TYPES, AccessUnitConfig::default())
}

/// A packet with the marker, of this payload type, number, timestamp and SSRC.
fn datagram(payload_type: u8, sequence: u8, timestamp: u8, ssrc: u8, payload: &[u8]) -> Vec<u8> {
    let mut bytes = vec![
        0x80,
        0x80 | payload_type,
        0,
        sequence,
        0,
        0,
        0,
        timestamp,
        0,
        0,
        0,
        ssrc,
    ];
    bytes.extend_from_slice(payload);
    bytes
}

fn taken(sequence: u16, is_recovered: bool, no_media: Option<NoMedia>) -> RtpPushed {
    RtpPushed::Packet(RtpTaken {
        sequence,
        is_recovered,
        no_media,
        pushed: Pushed::Held,
    })
}

#[test]
fn originals_of_one_stream() {
    let mut receiver = receiver();
    let red = [&[96][..], &SLICE].concat();
    let resent = [&[0, 9][..], &SLICE].concat();
    let resent_red = [&[0, 10, 96][..], &SLICE].concat();
    let pushes = [
        (datagram(96, 7, 1, 1, &KEY), taken(7, false, None)),
        (datagram(98, 8, 2, 1, &red), taken(8, false, None)),
        (datagram(96, 11, 5, 1, &SLICE), taken(11, false, None)),
        (datagram(97, 200, 3, 2, &resent), taken(9, true, None)),
        (datagram(99, 201, 4, 2, &resent_red), taken(10, true, None)),
        (
            datagram(98, 12, 5, 1, &[100, 1]),
            taken(12, false, Some(NoMedia::Fec)),
        ),
        (
            datagram(96, 13, 5, 1, &[]),
            taken(13, false, Some(NoMedia::Padding)),
        ),
        (
            datagram(101, 14, 5, 1, &[1]),
            taken(14, false, Some(NoMedia::OtherPayloadType(101))),
        ),
        (datagram(96, 15, 6, 1, &SLICE), taken(15, false, None)),
    ];
    let mut units = Vec::new();
    for (datagram, told) in pushes {
        assert_eq!(receiver.push(0, 0, &datagram), Ok(told));
        while let Some(unit) = receiver.next(0).unwrap() {
            assert!(unit.is_clean);
            units.push(unit.timestamp);
        }
    }
    assert_eq!(units, [1, 2, 3, 4, 5, 6]);
    let known = RtpSources {
        media: Some(1),
        rtx: Some(2),
    };
    assert_eq!(receiver.sources(), known);
    let statistics = receiver.statistics();
    assert_eq!((statistics.received, statistics.recovered), (7, 2));
    assert_eq!(receiver.report(0, 0).unwrap().lost, 2);
    assert_eq!((receiver.counts().lost, receiver.counts().skipped), (0, 3));
}

#[test]
fn what_changes_nothing() {
    let mut receiver = receiver();
    let resent = [&[0, 7][..], &SLICE].concat();
    let other = datagram(97, 200, 1, 2, &resent);
    assert_eq!(receiver.push(0, 0, &other), Ok(RtpPushed::OtherSource(2)));
    receiver.push(0, 0, &datagram(96, 7, 1, 1, &KEY)).unwrap();
    let told = [
        (datagram(72, 8, 1, 1, &[]), Ok(RtpPushed::Rtcp)),
        (datagram(96, 8, 1, 3, &SLICE), Ok(RtpPushed::NewSource(3))),
        (other, Ok(RtpPushed::OtherSource(2))),
        (datagram(97, 8, 1, 1, &[0]), Ok(RtpPushed::Probe)),
        (vec![0x80, 96], Err(RtpPushError::Rtp(RtpError::TooShort))),
        (
            datagram(98, 8, 1, 1, &[0xe0]),
            Err(RtpPushError::Red(RedError::HeadersPastTheEnd)),
        ),
    ];
    for (datagram, told) in told {
        assert_eq!(receiver.push(0, 0, &datagram), told);
        assert_eq!(
            (receiver.statistics().received, receiver.sources().rtx),
            (1, None)
        );
    }
    receiver.follow(RtpSources {
        media: Some(3),
        rtx: None,
    });
    let told = receiver.push(0, 0, &datagram(96, 8, 1, 3, &SLICE));
    assert_eq!(told, Ok(taken(8, false, None)));
}

#[test]
fn what_is_asked_for() {
    let mut receiver = receiver();
    let mut take = |now: u32, sequence: u8, timestamp: u8, payload: &[u8]| {
        let datagram = datagram(96, sequence, timestamp, 1, payload);
        receiver.push(now, 0, &datagram).unwrap();
        while receiver.next(now).unwrap().is_some() {}
        let times = NackTimes {
            first: 10,
            again: 50,
            most: 2,
        };
        let asked = receiver.nacks(now, times, 8).unwrap();
        (asked, receiver.keyframe_wanted(now, 100))
    };
    assert_eq!(take(0, 7, 1, &KEY), (vec![], false));
    assert_eq!(take(5, 9, 3, &SLICE), (vec![], false));
    assert_eq!(take(15, 10, 4, &SLICE), (vec![8], false));
    assert_eq!(take(60, 11, 5, &SLICE), (vec![], false));
    assert_eq!(take(65, 12, 6, &SLICE), (vec![8], false));
    receiver.finish();
    while receiver.next(70).unwrap().is_some() {}
    assert!(receiver.keyframe_wanted(70, 100));
    assert!(!receiver.keyframe_wanted(169, 100));
    assert!(receiver.keyframe_wanted(170, 100));
    receiver
        .push(171, 0, &datagram(96, 20, 9, 1, &KEY))
        .unwrap();
    while receiver.next(171).unwrap().is_some() {}
    assert!(!receiver.keyframe_wanted(300, 100));
}
