//! A stream as a network brings it, step by step.

use crate::proved::h26x_access_units::{
    AccessUnitConfig, AccessUnitReceiver, Pushed, ReceivedAccessUnit, Receives,
};
use crate::proved::h26x_codec::{AnyDepacketizer, AnyPayloadDepacketizer, Codec};
use crate::proved::h26x_depacketizer::RunDepacketizer;
use crate::proved::h26x_reorder::RtpPacket;
use crate::proved::h264_payload::H264Depacketizer;

/// The settings of the tests: a window of 4 packets, a wait of 100 ticks, at the beginning too, 20 bytes; a number so
/// far from the one due is a stray.
fn config(far: u16) -> AccessUnitConfig {
    AccessUnitConfig {
        window: 4,
        far,
        far_behind: 0,
        max_wait: 100,
        begin_wait: u32::MAX,
        held_limit: 20,
        run_limit: 1000,
        unit_limit: 1000,
        ..AccessUnitConfig::default()
    }
}

/// What a caller does, and what it is to see.
enum Step<'a> {
    /// A packet comes at a tick, and is answered so.
    Push(u32, u16, u32, bool, &'a [u8], Pushed),
    /// A number comes at a tick that bears nothing.
    Skip(u32, u16, Pushed),
    /// At a tick there is an access unit: its timestamp, how many bytes it has, whether it is whole,
    /// clean and goes on, its first and last number, and how many are missing.
    Unit(u32, u32, usize, [bool; 3], u16, u16, u32),
    /// At a tick there is none.
    None(u32),
    /// The deadline.
    Deadline(Option<u32>),
    /// The numbers that are missing.
    Missing(&'a [u16]),
    /// The stream ends, or another one begins.
    Finish,
    Restart,
}

/// Whether an access unit is the one that is wanted.
fn is_wanted(unit: &ReceivedAccessUnit, timestamp: u32, len: usize, told: [bool; 3]) -> bool {
    unit.timestamp == timestamp
        && unit.bytes.len() == len
        && unit.is_whole == told[0]
        && unit.is_clean == told[1]
        && unit.continues == told[2]
}

/// Does the steps, and compares what comes of each.
#[track_caller]
fn walk(far: u16, steps: &[Step<'_>]) {
    let depacketizer = H264Depacketizer::new();
    let mut receiver = AccessUnitReceiver::new(depacketizer, config(far));
    for (place, step) in steps.iter().enumerate() {
        let is_as_wanted = match step {
            Step::Push(now, sequence, timestamp, marker, payload, answer) => {
                let packet = RtpPacket {
                    sequence: *sequence,
                    timestamp: *timestamp,
                    marker: *marker,
                    payload,
                };
                receiver.try_push(*now, &packet) == Ok(*answer)
            }
            Step::Skip(now, sequence, answer) => receiver.skip(*now, *sequence) == Ok(*answer),
            Step::Unit(now, timestamp, len, told, first, last, missing) => {
                match receiver.next(*now).expect("memory") {
                    Some(unit) => {
                        let is_it = is_wanted(&unit, *timestamp, *len, *told)
                            && unit.first == *first
                            && unit.last == *last
                            && unit.missing == *missing;
                        receiver.give_back(unit);
                        is_it
                    }
                    None => false,
                }
            }
            Step::None(now) => receiver.next(*now).is_ok_and(|unit| unit.is_none()),
            Step::Deadline(at) => receiver.deadline() == *at,
            Step::Missing(numbers) => receiver.missing().as_deref() == Ok(*numbers),
            Step::Finish => {
                receiver.finish();
                true
            }
            Step::Restart => {
                receiver.restart();
                true
            }
        };
        assert!(is_as_wanted, "step {place}");
    }
}

/// Parameter sets and a keyframe's first slice in one packet, such a slice alone, another slice, and the fragments of
/// a keyframe's slice of three bytes (RFC 6184, 5.6 to 5.8).
const SETS_AND_KEY: &[u8] = &[
    0x78, 0, 4, 0x67, 0x42, 0xc0, 0x1f, 0, 2, 0x68, 0xce, 0, 2, 0x65, 0x88,
];

const KEY: &[u8] = &[0x65, 0x88];

const SLICE: &[u8] = &[0x61, 2];

const START: &[u8] = &[0x7c, 0x85, 1];

const MIDDLE: &[u8] = &[0x7c, 0x05, 2];

const END: &[u8] = &[0x7c, 0x45, 3];

const LONG: &[u8] = &[0x61, 2, 2, 2, 2, 2, 2, 2, 2, 2, 2, 2, 2, 2, 2];

const NOTHING: &[u8] = &[];

#[test]
fn a_stream_that_begins_waits() {
    walk(
        0,
        &[
            Step::Deadline(None),
            Step::Push(7, 65534, 0, true, SETS_AND_KEY, Pushed::Held),
            Step::None(7),
            Step::Deadline(Some(107)),
            Step::None(106),
            Step::Unit(107, 0, 20, [true, true, false], 65534, 65534, 0),
            Step::Push(108, 65535, 3000, true, KEY, Pushed::Held),
            Step::Unit(108, 3000, 6, [true, true, false], 65535, 65535, 0),
            Step::Push(109, 0, 6000, true, SLICE, Pushed::Held),
            Step::Unit(109, 6000, 6, [true, true, false], 0, 0, 0),
            Step::None(109),
            // Another one begins in the middle of a fragmented unit: nothing of that is written.
            Step::Restart,
            Step::Push(110, 700, 9000, false, MIDDLE, Pushed::Held),
            Step::Push(110, 701, 9000, true, END, Pushed::Held),
            Step::Push(110, 702, 12000, true, KEY, Pushed::Held),
            // Whether any before the first is missing isn't known.
            Step::Missing(&[]),
            Step::None(209),
            // Nothing of the first is written, so that it isn't given out; no parameter sets came.
            Step::Unit(210, 12000, 6, [true, false, false], 702, 702, 0),
        ],
    );
}

#[test]
fn packets_missing_late_and_twice() {
    walk(
        0,
        &[
            Step::Push(0, 10, 0, true, SETS_AND_KEY, Pushed::Held),
            Step::Unit(100, 0, 20, [true, true, false], 10, 10, 0),
            // The middle fragment comes last, the first one twice.
            Step::Push(100, 11, 3000, false, START, Pushed::Held),
            Step::None(100),
            Step::Push(101, 13, 3000, true, END, Pushed::Held),
            Step::Push(101, 13, 3000, true, END, Pushed::Twice),
            Step::Push(101, 11, 3000, false, START, Pushed::Twice),
            Step::None(101),
            Step::Missing(&[12]),
            Step::Push(102, 12, 3000, false, MIDDLE, Pushed::Held),
            Step::Missing(&[]),
            Step::Unit(102, 3000, 8, [true, true, false], 11, 13, 0),
            // 14 and 16 are missing: 18 is a window, less one, ahead of 15.
            Step::Push(103, 15, 6000, true, SLICE, Pushed::Held),
            Step::Push(104, 17, 9000, true, SLICE, Pushed::Held),
            Step::Missing(&[14, 16]),
            Step::None(104),
            Step::Push(105, 18, 12000, true, SLICE, Pushed::Held),
            Step::Unit(105, 6000, 6, [false, false, false], 15, 15, 1),
            Step::None(105),
            Step::Deadline(Some(204)),
            Step::Unit(204, 9000, 6, [false, false, false], 17, 17, 1),
            Step::Unit(204, 12000, 6, [true, false, false], 18, 18, 0),
            Step::None(204),
            Step::Push(205, 16, 9000, true, SLICE, Pushed::Late(3)),
        ],
    );
}

#[test]
fn markers_and_numbers_that_bear_nothing() {
    walk(
        0,
        &[
            Step::Push(0, 10, 0, true, SETS_AND_KEY, Pushed::Held),
            Step::Unit(100, 0, 20, [true, true, false], 10, 10, 0),
            // Padding alone in a fragmented unit, and a number of another payload type.
            Step::Push(100, 11, 6000, false, START, Pushed::Held),
            Step::Push(100, 12, 6000, true, NOTHING, Pushed::Held),
            Step::Skip(100, 13, Pushed::Held),
            Step::Push(100, 14, 6000, false, MIDDLE, Pushed::Held),
            Step::Push(100, 15, 6000, false, END, Pushed::Held),
            // No marker: the next timestamp ends it.
            Step::Push(100, 16, 9000, true, SLICE, Pushed::Held),
            Step::Unit(100, 6000, 8, [true, true, false], 11, 15, 0),
            Step::Unit(100, 9000, 6, [true, true, false], 16, 16, 0),
            Step::None(100),
            // Equal timestamps without a marker are one; behind a marker a picture's first slice begins another.
            Step::Push(102, 17, 18000, false, SETS_AND_KEY, Pushed::Held),
            Step::Push(102, 18, 18000, false, SLICE, Pushed::Held),
            Step::Push(102, 19, 21000, true, SLICE, Pushed::Held),
            Step::Push(102, 20, 21000, true, KEY, Pushed::Held),
            Step::Unit(102, 18000, 26, [true, true, false], 17, 18, 0),
            Step::Unit(102, 21000, 6, [true, true, false], 19, 19, 0),
            Step::Unit(102, 21000, 6, [true, true, false], 20, 20, 0),
            Step::None(102),
            // A marker on a middle fragment: neither half is written, nor given out.
            Step::Push(102, 21, 24000, false, START, Pushed::Held),
            Step::Push(102, 22, 24000, true, MIDDLE, Pushed::Held),
            Step::Push(102, 23, 24000, false, END, Pushed::Held),
            Step::Push(102, 24, 27000, true, SLICE, Pushed::Held),
            Step::Unit(102, 27000, 6, [true, false, false], 24, 24, 0),
            Step::None(102),
            // A marker on each slice: once that shows it is another timestamp that ends an access unit.
            Step::Push(103, 25, 30000, true, SETS_AND_KEY, Pushed::Held),
            Step::Unit(103, 30000, 20, [true, true, false], 25, 25, 0),
            Step::Push(103, 26, 30000, true, SLICE, Pushed::Held),
            Step::Push(103, 27, 30000, true, SLICE, Pushed::Held),
            Step::None(103),
            Step::Push(103, 28, 33000, true, SLICE, Pushed::Held),
            Step::Unit(103, 30000, 12, [false, true, true], 26, 27, 0),
            Step::None(103),
        ],
    );
}

/// Whether the access unit that these packets make, the last with a marker, is told to be whole behind
/// one that was, and how many bytes it has.
fn told<D: RunDepacketizer>(
    depacketizer: D,
    key: &[u8],
    payloads: &[&[u8]],
) -> Option<(bool, bool, usize)> {
    let settings = AccessUnitConfig {
        held_limit: 1000,
        has_sets: true,
        ..config(0)
    };
    let mut receiver = AccessUnitReceiver::new(depacketizer, settings);
    let packet = RtpPacket {
        sequence: 65534,
        timestamp: 0,
        marker: true,
        payload: key,
    };
    receiver.try_push(0, &packet).expect("memory");
    let mut sequence: u16 = 65535;
    for (place, payload) in payloads.iter().enumerate() {
        let packet = RtpPacket {
            sequence,
            timestamp: 3000,
            marker: place + 1 == payloads.len(),
            payload,
        };
        receiver.try_push(0, &packet).expect("memory");
        sequence = sequence.wrapping_add(1);
    }
    receiver.finish();
    receiver.next(0).expect("memory");
    let unit = receiver.next(0).expect("memory");
    unit.map(|it| (it.is_whole, it.is_clean, it.bytes.len()))
}

#[test]
fn starts_in_a_row() {
    // A unit alone, and of another one the start, a middle part, the end, and both at once, by the
    // codec and whether packets bear numbers (RFC 6184, 5.8; RFC 7798, 4.4.3; RFC 9328, 4.3.3).
    let h264: [&[u8]; 5] = [KEY, START, MIDDLE, END, &[0x7c, 0xc5, 9]];
    let h265: [&[u8]; 5] = [
        &[0x26, 1, 0xac],
        &[0x62, 1, 0x93, 1],
        &[0x62, 1, 0x13, 2],
        &[0x62, 1, 0x53, 3],
        &[0x62, 1, 0xd3, 9],
    ];
    let h265_numbered: [&[u8]; 5] = [
        &[0x26, 1, 0, 7, 0xac],
        &[0x62, 1, 0x93, 0, 8, 1],
        &[0x62, 1, 0x13, 2],
        &[0x62, 1, 0x53, 3],
        &[0x62, 1, 0xd3, 0, 9, 9],
    ];
    let h266: [&[u8]; 5] = [
        &[0, 0x39, 0xc0],
        &[0, 0xe9, 0x87, 1],
        &[0, 0xe9, 0x07, 2],
        &[0, 0xe9, 0x47, 3],
        &[0, 0xe9, 0xc7, 9],
    ];
    let h266_numbered: [&[u8]; 5] = [
        &[0, 0x39, 0, 7, 0xc0],
        &[0, 0xe9, 0x87, 0, 8, 1],
        &[0, 0xe9, 0x07, 2],
        &[0, 0xe9, 0x47, 3],
        &[0, 0xe9, 0xc7, 0, 9, 9],
    ];
    for (codec, has_donl, head, [key, start, middle, end, both]) in [
        (Codec::H264, false, 1, h264),
        (Codec::H265, false, 2, h265),
        (Codec::H265, true, 2, h265_numbered),
        (Codec::H266, false, 2, h266),
        (Codec::H266, true, 2, h266_numbered),
    ] {
        let one = 4 + head;
        let wanted: [(&[&[u8]], bool, usize); 6] = [
            (&[start, middle, end], true, one + 3),
            (&[start, key, middle, end], true, 2 * one + 4),
            (&[start, end, start, end], true, 2 * (one + 2)),
            (&[start, start, end], false, one + 2),
            (&[start, middle, start, middle, end], false, one + 3),
            (&[start, both], false, one + 1),
        ];
        for (payloads, is_whole, len) in wanted {
            let want = Some((is_whole, is_whole, len));
            let mut any = AnyDepacketizer::new(codec);
            any.with_donl(has_donl);
            assert_eq!(told(any, key, payloads), want, "{codec:?}");
            let mut plain = AnyPayloadDepacketizer::new(codec);
            plain.with_donl(has_donl);
            assert_eq!(told(plain, key, payloads), want, "{codec:?}");
        }
    }
}

#[test]
fn limits_ends_and_restarts() {
    walk(
        0,
        &[
            // 15 bytes wait, then 30, which is past 20: none more, and the first are due.
            Step::Push(0, 10, 0, false, LONG, Pushed::Held),
            Step::None(0),
            Step::Push(0, 11, 0, false, LONG, Pushed::Held),
            Step::Push(0, 12, 0, true, LONG, Pushed::Full),
            Step::None(0),
            Step::Push(0, 12, 0, true, LONG, Pushed::Held),
            Step::Unit(0, 0, 57, [false, false, false], 10, 12, 0),
            // At the end what waits is due, and the open access unit ends.
            Step::Push(0, 14, 3000, false, KEY, Pushed::Held),
            Step::None(0),
            Step::Finish,
            Step::Unit(0, 3000, 6, [false, false, false], 14, 14, 1),
            Step::None(0),
            // Ticks that go round.
            Step::Push(0xffff_fff0, 5, 0, true, KEY, Pushed::Held),
            Step::Deadline(Some(0x54)),
            Step::None(0x53),
            Step::Unit(0x54, 0, 6, [false, false, false], 5, 5, 0),
            // A sender that begins anew 20,000 back.
            Step::Push(0x55, 45541, 3000, true, KEY, Pushed::Late(20_001)),
            Step::Restart,
            Step::Push(0x55, 45541, 3000, true, KEY, Pushed::Held),
            Step::Finish,
            Step::Unit(0x55, 3000, 6, [false, false, false], 45541, 45541, 0),
        ],
    );
}

#[test]
fn texts_given_up_are_counted() {
    // Two slices make 12 bytes, of which the third is no part: it bears the marker.
    for (unit_limit, given_up, len) in [(12, 0, 18), (11, 1, 6)] {
        let settings = AccessUnitConfig {
            unit_limit,
            ..config(0)
        };
        let mut receiver = AccessUnitReceiver::new(H264Depacketizer::new(), settings);
        for (sequence, marker) in [(10, false), (11, false), (12, true)] {
            let packet = RtpPacket {
                sequence,
                timestamp: 0,
                marker,
                payload: SLICE,
            };
            receiver.try_push(0, &packet).expect("memory");
        }
        receiver.finish();
        let unit = receiver.next(0).expect("memory");
        assert!(unit.is_some_and(|it| it.bytes.len() == len));
        assert!(receiver.counts().texts_given_up == given_up);
    }
}

#[test]
fn strays_and_a_stream_that_begins_anew() {
    walk(
        100,
        &[
            Step::Push(0, 10, 0, true, KEY, Pushed::Held),
            Step::Unit(100, 0, 6, [false, false, false], 10, 10, 0),
            // 11 is due: 110 is 99 ahead, and 111 a stray, and so is 10,111 in its place.
            Step::Push(100, 111, 3000, true, SLICE, Pushed::Stray),
            Step::Push(100, 10_111, 3000, true, SLICE, Pushed::Stray),
            Step::Push(100, 112, 3000, true, SLICE, Pushed::Stray),
            Step::Push(100, 11, 3000, false, SLICE, Pushed::Held),
            Step::None(100),
            // A sender that begins anew 20,000 back: the open access unit ends.
            Step::Push(100, 45_547, 6000, true, KEY, Pushed::Stray),
            Step::Push(100, 45_548, 9000, true, SLICE, Pushed::Anew),
            Step::Unit(100, 3000, 6, [false, false, false], 11, 11, 0),
            Step::None(100),
            Step::Unit(200, 6000, 6, [false, false, false], 45_547, 45_547, 0),
            Step::Unit(200, 9000, 6, [true, false, false], 45_548, 45_548, 0),
            Step::None(200),
            // A stray goes with the stream's end: the next one begins with the number behind it.
            Step::Push(200, 10, 12000, true, SLICE, Pushed::Stray),
            Step::Finish,
            Step::None(200),
            Step::Push(200, 11, 15000, true, SLICE, Pushed::Held),
            Step::Finish,
            Step::Unit(200, 15000, 6, [false, false, false], 11, 11, 0),
            Step::None(200),
        ],
    );
}

#[test]
fn strays_by_the_newest_that_waits() {
    walk(
        6,
        &[
            // 7 is due, so 13 is 6 ahead of it, and 1 ahead of the newest.
            Step::Push(0, 10, 0, true, KEY, Pushed::Held),
            Step::Push(0, 11, 3000, true, SLICE, Pushed::Held),
            Step::Push(0, 12, 6000, true, SLICE, Pushed::Held),
            Step::Push(0, 13, 9000, true, SLICE, Pushed::Held),
            Step::Unit(0, 0, 6, [false, false, false], 10, 10, 0),
            Step::Unit(0, 3000, 6, [true, false, false], 11, 11, 0),
            Step::Unit(0, 6000, 6, [true, false, false], 12, 12, 0),
            Step::Unit(0, 9000, 6, [true, false, false], 13, 13, 0),
            // 14 is due, and none waits. Both wait, though the first alone is past 20 bytes.
            Step::Push(0, 20, 12000, true, &[0x61; 25], Pushed::Stray),
            Step::Push(0, 21, 15000, true, SLICE, Pushed::Anew),
            Step::Unit(0, 12000, 29, [false, false, false], 20, 20, 0),
            Step::Unit(0, 15000, 6, [true, false, false], 21, 21, 0),
            // 22 is due: 31 is 9 ahead of it, and 5 of the newest, and 23 is between them.
            Step::Push(0, 26, 21000, true, SLICE, Pushed::Held),
            Step::Push(0, 31, 24000, true, SLICE, Pushed::Held),
            Step::Push(0, 37, 27000, true, SLICE, Pushed::Stray),
            Step::Push(0, 23, 18000, true, SLICE, Pushed::Held),
            Step::Push(0, 16, 27000, true, SLICE, Pushed::Stray),
            Step::Push(0, 17, 27000, true, SLICE, Pushed::Late(5)),
            Step::Unit(0, 18000, 6, [false, false, false], 23, 23, 1),
            Step::Unit(0, 21000, 6, [false, false, false], 26, 26, 2),
            Step::None(0),
        ],
    );
}

#[test]
fn a_window_sent_backwards() {
    walk(
        0,
        &[
            Step::Push(0, 10, 0, true, KEY, Pushed::Held),
            Step::Unit(100, 0, 6, [false, false, false], 10, 10, 0),
            Step::Push(101, 14, 12000, true, SLICE, Pushed::Held),
            Step::Push(102, 13, 9000, true, SLICE, Pushed::Held),
            Step::Push(103, 12, 6000, true, SLICE, Pushed::Held),
            Step::None(103),
            Step::Missing(&[11]),
            Step::Push(104, 11, 3000, true, SLICE, Pushed::Held),
            // The one that came first waits longest, though those before it go first.
            Step::Unit(104, 3000, 6, [true, false, false], 11, 11, 0),
            Step::Deadline(Some(201)),
            Step::Push(105, 17, 18000, true, SLICE, Pushed::Held),
            Step::Unit(105, 6000, 6, [true, false, false], 12, 12, 0),
            Step::Push(106, 16, 15000, true, SLICE, Pushed::Held),
            Step::Push(106, 12, 6000, true, SLICE, Pushed::Twice),
            Step::Unit(106, 9000, 6, [true, false, false], 13, 13, 0),
            Step::Deadline(Some(201)),
            Step::Unit(106, 12000, 6, [true, false, false], 14, 14, 0),
            Step::None(106),
            Step::Deadline(Some(205)),
            Step::Unit(205, 15000, 6, [false, false, false], 16, 16, 1),
            Step::Unit(205, 18000, 6, [true, false, false], 17, 17, 0),
            Step::Deadline(None),
            Step::None(205),
        ],
    );
}
