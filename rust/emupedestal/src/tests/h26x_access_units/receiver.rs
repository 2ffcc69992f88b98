//! Access units of packets that a network loses, repeats and reorders (RFC 3550, 5.1 and A.1). Expected units are
//! written out by hand, and drawn packets go through a buffer and a receiver beside it.

use crate::access_unit_receiver::{
    AccessUnitConfig, AccessUnitReceiver, NotPushedReason, Pushed, ReceivedAccessUnit,
};
use crate::tests::bytes;
use crate::{
    AccessUnitAssembler, Codec, CodecExtra, H264CodecExtra, HeldPacket, PacketError, ReorderBuffer,
    RtpPacket,
};

fn config(window: u16, max_wait: u32) -> AccessUnitConfig {
    AccessUnitConfig {
        window,
        far: 0,
        max_wait,
        held_limit: 1000,
        run_limit: 1000,
        unit_limit: 1000,
        ..AccessUnitConfig::default()
    }
}

fn receiver(window: u16, max_wait: u32) -> AccessUnitReceiver {
    AccessUnitReceiver::new(Codec::H264, config(window, max_wait))
}

fn push(
    it: &mut AccessUnitReceiver,
    now: u32,
    packet: (u16, u32, bool, &str),
) -> Result<Pushed, PacketError> {
    let (sequence, timestamp, marker, payload) = packet;
    let payload = bytes(payload);
    it.push(
        now,
        &RtpPacket {
            sequence,
            timestamp,
            marker,
            payload: &payload,
        },
    )
}

/// All access units that have ended at a tick.
fn units(it: &mut AccessUnitReceiver, now: u32) -> Vec<ReceivedAccessUnit> {
    core::iter::from_fn(|| it.next(now).unwrap()).collect()
}

/// Of each its timestamp, numbers, how many are missing, and whether it is whole and clean.
fn told(units: &[ReceivedAccessUnit]) -> Vec<(u32, u16, u16, u32, bool, bool)> {
    let of = |it: &ReceivedAccessUnit| {
        (
            it.timestamp,
            it.first,
            it.last,
            it.missing,
            it.is_whole,
            it.is_clean,
        )
    };
    units.iter().map(of).collect()
}

#[test]
fn units_before_their_access_unit_has_ended() {
    let mut it = receiver(8, u32::MAX);
    let so_far = |it: &AccessUnitReceiver| it.units_so_far().map(|units| units.bytes.to_vec());
    assert_eq!(so_far(&it), None);
    for (packet, wanted) in [
        ((7, 3000, false, "7c858802"), ""),
        ((8, 3000, false, "7c450506"), "00000001 6588020506"),
        (
            (9, 3000, false, "6540"),
            "00000001 6588020506 00000001 6540",
        ),
    ] {
        push(&mut it, 0, packet).unwrap();
        assert!(units(&mut it, 0).is_empty());
        assert_eq!(so_far(&it), Some(bytes(wanted)));
    }
    let told = it.units_so_far().unwrap();
    let key = CodecExtra::H264(H264CodecExtra { is_keyframe: true });
    assert_eq!((told.timestamp, told.extra), (3000, key));
    // One that has ended is given out before the next is shown.
    push(&mut it, 0, (10, 6000, false, "6101")).unwrap();
    assert_eq!(so_far(&it), None);
    let unit = it.next(0).unwrap().unwrap();
    assert_eq!(unit.bytes, bytes("00000001 6588020506 00000001 6540"));
    assert_eq!(so_far(&it), Some(bytes("00000001 6101")));
    it.restart();
    assert_eq!(so_far(&it), None);
}

#[test]
fn packets_in_any_order_across_the_end_of_numbers() {
    let mut it = receiver(2, u32::MAX);
    for packet in [
        (65534, 10, true, "65aa"),
        (0, 20, true, "7c4102"),
        (65535, 20, false, "7c8101"),
        (1, 30, true, "61cc"),
    ] {
        assert_eq!(push(&mut it, 0, packet), Ok(Pushed::Held));
    }
    let units = units(&mut it, 0);
    // Whether a packet came before the first isn't known.
    let wanted = [
        (10, 65534, 65534, 0, false, false),
        (20, 65535, 0, 0, true, false),
        (30, 1, 1, 0, true, false),
    ];
    assert_eq!(told(&units), wanted);
    assert_eq!(units[1].bytes, bytes("00000001 610102"));
    assert_eq!(
        units[0].extra,
        CodecExtra::H264(H264CodecExtra { is_keyframe: true })
    );
    let counts = it.counts();
    assert_eq!((counts.taken, counts.units, counts.whole), (4, 3, 2));
}

#[test]
fn a_packet_that_is_missing_is_waited_for_so_long() {
    // The clock goes round within the wait.
    let start = u32::MAX - 5;
    let mut it = AccessUnitReceiver::new(
        Codec::H264,
        AccessUnitConfig {
            begin_wait: u32::MAX,
            ..config(100, 10)
        },
    );
    push(&mut it, start, (7, 10, true, "65aa")).unwrap();
    assert_eq!(it.deadline(), Some(start.wrapping_add(10)));
    assert!(units(&mut it, start.wrapping_add(9)).is_empty());
    assert_eq!(
        told(&units(&mut it, start.wrapping_add(10))),
        [(10, 7, 7, 0, false, false)]
    );
    assert_eq!(it.deadline(), None);
    // Of 8 and 9, which are missing, 9 comes late.
    push(&mut it, 20, (10, 30, true, "61cc")).unwrap();
    push(&mut it, 25, (13, 40, true, "61dd")).unwrap();
    assert_eq!(it.missing().unwrap(), [8, 9, 11, 12]);
    push(&mut it, 26, (11, 40, false, "61ee")).unwrap();
    push(&mut it, 26, (12, 40, false, "")).unwrap();
    assert_eq!(it.missing().unwrap(), [8, 9]);
    assert_eq!(it.deadline(), Some(30));
    assert!(units(&mut it, 29).is_empty());
    let wanted = [(30, 10, 10, 2, false, false), (40, 11, 13, 0, true, false)];
    assert_eq!(told(&units(&mut it, 30)), wanted);
    assert_eq!(
        push(&mut it, 31, (9, 20, true, "61bb")),
        Ok(Pushed::Late(5))
    );
    assert_eq!((it.counts().lost, it.counts().late), (2, 1));
}

#[test]
fn padding_is_not_missing() {
    let mut it = receiver(1, u32::MAX);
    push(&mut it, 0, (1, 10, true, "65aa")).unwrap();
    push(&mut it, 0, (2, 20, false, "7c8101")).unwrap();
    assert_eq!(push(&mut it, 0, (3, 20, false, "")), Ok(Pushed::Held));
    assert_eq!(it.skip(0, 4), Ok(Pushed::Held));
    push(&mut it, 0, (5, 20, true, "7c4102")).unwrap();
    let units = units(&mut it, 0);
    assert_eq!(told(&units[1..]), [(20, 2, 5, 0, true, false)]);
    assert_eq!(units[1].bytes, bytes("00000001 610102"));
    assert_eq!((it.counts().skipped, it.counts().lost), (2, 0));
}

#[test]
fn markers_on_each_slice_and_timestamps_that_go_on() {
    let mut it = receiver(1, u32::MAX);
    for packet in [
        (1, 10, true, "65aa"),
        (2, 20, true, "61bb"),
        (3, 20, true, "614c"),
        (4, 30, false, "61dd"),
        (5, 30, true, "616e"),
        (6, 40, true, "61ff"),
    ] {
        push(&mut it, 0, packet).unwrap();
    }
    let units = units(&mut it, 0);
    let continues: Vec<bool> = units.iter().map(|it| it.continues).collect();
    assert_eq!(continues, [false, false, true, false]);
    // The second part of a picture isn't known to be whole, as the first isn't, of which nobody knows yet. From then on
    // the next timestamp tells where an access unit ends.
    assert!(!units[2].is_whole);
    assert_eq!(told(&units[3..]), [(30, 4, 5, 0, true, false)]);
    assert_eq!(it.counts().unbelieved, 3);
}

#[test]
fn the_end_of_a_stream_and_another_sender() {
    let mut it = receiver(100, u32::MAX);
    push(&mut it, 0, (7, 10, true, "65aa")).unwrap();
    push(&mut it, 0, (9, 20, false, "61bb")).unwrap();
    assert_eq!(told(&units(&mut it, 0)), [(10, 7, 7, 0, false, false)]);
    it.finish();
    assert_eq!(told(&units(&mut it, 0)), [(20, 9, 9, 1, false, false)]);
    push(&mut it, 0, (40000, 30, false, "61cc")).unwrap();
    it.restart();
    it.finish();
    assert!(units(&mut it, 0).is_empty());
    assert_eq!(it.deadline(), None);
}

#[test]
fn more_bytes_than_the_limit() {
    let mut it = AccessUnitReceiver::new(
        Codec::H264,
        AccessUnitConfig {
            begin_wait: u32::MAX,
            held_limit: 5,
            ..config(100, u32::MAX)
        },
    );
    push(&mut it, 0, (7, 10, true, "61010203")).unwrap();
    assert!(units(&mut it, 0).is_empty());
    push(&mut it, 0, (8, 20, true, "61040506")).unwrap();
    assert_eq!(push(&mut it, 0, (9, 30, true, "61")), Ok(Pushed::Full));
    // The first goes, and then no more wait than the limit.
    assert_eq!(told(&units(&mut it, 0)).len(), 2);
    assert_eq!(push(&mut it, 0, (9, 30, true, "61")), Ok(Pushed::Held));
}

/// Two slices make 12 bytes, of which the third is no part: it bears the marker.
#[test]
fn texts_longer_than_the_limit() {
    for (unit_limit, len, given_up) in [(12, 18, 0), (11, 6, 1)] {
        let limits = AccessUnitConfig {
            unit_limit,
            ..config(1, u32::MAX)
        };
        let mut it = AccessUnitReceiver::new(Codec::H264, limits);
        let mut ended = Vec::new();
        for (sequence, marker) in [(7, false), (8, false), (9, true)] {
            push(&mut it, 0, (sequence, 10, marker, "6101")).unwrap();
            ended.extend(units(&mut it, 0));
        }
        assert_eq!((ended.len(), ended[0].bytes.len()), (1, len));
        assert_eq!(it.counts().texts_given_up, given_up);
    }
}

/// A limit lowered while a unit comes in fragments: the text before them goes, and the unit is put together.
#[test]
fn a_limit_lowered_inside_a_unit() {
    let mut it = receiver(1, u32::MAX);
    let slice = "61000102030405060708090a0b0c0d0e0f";
    push(&mut it, 0, (7, 10, false, slice)).unwrap();
    push(&mut it, 0, (8, 10, false, "7c810203")).unwrap();
    assert!(units(&mut it, 0).is_empty());
    let lower = AccessUnitConfig {
        unit_limit: 20,
        ..it.config()
    };
    it.set_config(lower);
    push(&mut it, 0, (9, 10, false, "7c0104")).unwrap();
    assert!(units(&mut it, 0).is_empty());
    push(&mut it, 0, (10, 10, true, "7c4105")).unwrap();
    let ended = units(&mut it, 0);
    assert_eq!(ended[0].bytes, bytes("00000001 6102030405"));
    assert_eq!((ended.len(), ended[0].is_whole), (1, false));
    assert_eq!(it.counts().texts_given_up, 1);
}

#[test]
fn packets_by_value() {
    let mut it = receiver(1, u32::MAX);
    let packet = HeldPacket::new(7, 10, true, bytes("610102"));
    assert_eq!(it.push_held(0, packet).unwrap(), Pushed::Held);
    let twice = it
        .push_held(0, HeldPacket::new(7, 10, true, bytes("6103")))
        .unwrap_err();
    assert_eq!(twice.reason, NotPushedReason::Twice);
    assert_eq!(
        twice.to_string(),
        "a packet with its number waits or was taken"
    );
    assert_eq!(twice.packet.into_payload(), bytes("6103"));
    assert_eq!(units(&mut it, 0)[0].bytes, bytes("00000001 610102"));
    let late = it
        .push_held(0, HeldPacket::new(6, 10, true, bytes("61")))
        .unwrap_err();
    assert_eq!(late.reason, NotPushedReason::Late(2));
}

#[test]
fn strays_and_a_stream_that_begins_anew() {
    let limits = AccessUnitConfig {
        far: 3000,
        ..config(1, u32::MAX)
    };
    let mut it = AccessUnitReceiver::new(Codec::H264, limits);
    push(&mut it, 0, (7, 10, true, "65aa")).unwrap();
    assert_eq!(units(&mut it, 0).len(), 1);
    // A stray makes nothing late: 8 is due, and 3008 is 3000 ahead of it.
    assert_eq!(
        push(&mut it, 0, (3008, 90, true, "61ee")),
        Ok(Pushed::Stray)
    );
    assert_eq!(push(&mut it, 0, (8, 20, false, "61bb")), Ok(Pushed::Held));
    assert!(units(&mut it, 0).is_empty());
    // A sender that begins anew far behind: the first waits alone, the second begins the stream, and what was open
    // ends.
    assert_eq!(
        push(&mut it, 0, (45000, 30, true, "65cc")),
        Ok(Pushed::Stray)
    );
    assert_eq!(
        push(&mut it, 0, (45001, 40, true, "61dd")),
        Ok(Pushed::Anew)
    );
    let units = units(&mut it, 0);
    let numbers: Vec<_> = units.iter().map(|it| (it.timestamp, it.first)).collect();
    assert_eq!(numbers, [(20, 8), (30, 45000), (40, 45001)]);
    assert_eq!((it.counts().stray, it.counts().anew), (2, 1));
}

/// An access unit of which nothing stands has ended and wasn't asked for, and then the sender begins anew, far behind or
/// ahead: none of its packets is late, and no number is lost.
#[test]
fn a_stream_that_begins_anew_behind_nothing() {
    for number in [20_000, 50_000] {
        let limits = AccessUnitConfig {
            far: 100,
            ..config(1, u32::MAX)
        };
        let mut it = AccessUnitReceiver::new(Codec::H264, limits);
        push(&mut it, 0, (40_000, 10, true, "65aa")).unwrap();
        assert_eq!(units(&mut it, 0).len(), 1);
        push(&mut it, 0, (40_001, 20, true, "7c4501")).unwrap();
        let first = (number, 30, false, "65aa");
        assert_eq!(push(&mut it, 0, first), Ok(Pushed::Stray));
        let second = (number + 1, 30, true, "6540");
        assert_eq!(push(&mut it, 0, second), Ok(Pushed::Anew));
        let wanted = [(30, number, number + 1, 0, false, false)];
        assert_eq!(told(&units(&mut it, 0)), wanted);
        assert_eq!((it.counts().late, it.counts().lost), (0, 0));
    }
}

#[test]
#[should_panic(expected = "a window has 1 to 16384 packets")]
fn a_window_that_is_none() {
    receiver(0, 0);
}

/// A step of a generator by Marsaglia (xorshift).
fn draw(state: &mut u64) -> u64 {
    *state ^= *state << 13;
    *state ^= *state >> 7;
    *state ^= *state << 17;
    *state
}

/// A packet at about a place, up to five places behind it: its number says what it is.
fn drawn_packet(state: &mut u64, place: u16) -> RtpPacket<'static> {
    let jump = (draw(state) % 6) as u16;
    let sequence = 65500u16.wrapping_add(place).wrapping_sub(jump);
    let of = u64::from(sequence).wrapping_mul(0x9e37_79b9) >> 3;
    let payloads: [&[u8]; 6] = [
        &[0x61, 1],
        &[0x7c, 0x81, 2],
        &[0x7c, 0x01, 3],
        &[0x7c, 0x41, 4],
        &[0x65, 5],
        &[0x7f, 6],
    ];
    RtpPacket {
        sequence,
        timestamp: u32::from(sequence / 4),
        marker: sequence % 4 == 3 && of % 5 > 0,
        payload: payloads[(of % 6) as usize],
    }
}

/// Drawn packets, lost, twice and in another order: with no time, no far number and no empty payload it gives what a
/// buffer and a receiver behind it give, but for access units without bytes.
#[test]
fn drawn_packets_beside_a_buffer_and_a_receiver() {
    let mut state = 0x9e37_79b9_7f4a_7c15;
    for round in 0..200 {
        let window = 1 + (draw(&mut state) % 9) as u16;
        let limits = AccessUnitConfig {
            begin_wait: u32::MAX,
            held_limit: usize::MAX,
            ..config(window, u32::MAX)
        };
        let mut it = AccessUnitReceiver::new(Codec::H264, limits);
        let (mut buffer, mut assembler) = (
            ReorderBuffer::new(window),
            AccessUnitAssembler::new(Codec::H264, 1000, 1000),
        );
        let (mut got, mut wanted) = (Vec::new(), Vec::new());
        for place in 0..60u16 {
            let packet = drawn_packet(&mut state, round + place);
            it.push(0, &packet).unwrap();
            buffer.push(&packet).unwrap();
            got.extend(units(&mut it, 0));
            while let Some(held) = buffer.pop() {
                let _ = assembler.receive(&held.packet(), &mut wanted);
            }
        }
        it.finish();
        got.extend(units(&mut it, 0));
        while let Some(held) = buffer.pop_first() {
            let _ = assembler.receive(&held.packet(), &mut wanted);
        }
        assembler.finish(&mut wanted).unwrap();
        let parts = |timestamp, bytes: &[u8], extra| (timestamp, bytes.to_vec(), extra);
        let got: Vec<_> = got
            .iter()
            .map(|it| parts(it.timestamp, &it.bytes, it.extra))
            .collect();
        let wanted: Vec<_> = wanted
            .iter()
            .filter(|it| !it.bytes.is_empty())
            .map(|it| parts(it.timestamp, &it.bytes, it.extra))
            .collect();
        assert_eq!(got, wanted, "round {round}");
    }
}
