//! How much memory a peer can make receivers hold, by packets that no packetizer sends: aggregates in which
//! each unit is long once, of many units and of empty ones, and units that never end. And how much calls ask
//! for: nothing for a packet that isn't kept, and for longer units and payloads no more than in proportion.

use emupedestal::access_unit_receiver::{AccessUnitConfig, AccessUnitReceiver, Pushed};
use emupedestal::{
    AccessUnit, AccessUnitAssembler, Codec, CodecExtra, CodecPacketizer, Packetizer, Packets,
    ReorderBuffer, RtpPacket, SequencedDepacketizer,
};
use std::alloc::{GlobalAlloc, Layout, System};
use std::cell::Cell;

/// The longest packet that UDP brings, and the limit on an open unit.
const PACKET: usize = 65507;
const RUN_LIMIT: usize = 1000;
/// How many bytes a receiver of H.265 may hold for what it shows of packets.
const SHOWN_MOST: usize = 3 << 20;
/// An open unit and the packet that is taken, in a buffer that grew to twice its length.
const RUN_MOST: usize = 2 * (RUN_LIMIT + PACKET);
const SMALL: usize = 4096;

thread_local! {
    static HELD: Cell<isize> = const { Cell::new(0) };
    /// The bytes of blocks that were made larger or smaller, and so may have been copied.
    static RESIZED: Cell<usize> = const { Cell::new(0) };
    /// How often memory was asked for, and how many bytes of it.
    static REQUESTS: Cell<usize> = const { Cell::new(0) };
    static ASKED: Cell<usize> = const { Cell::new(0) };
}

struct Counting;

fn count(bytes: usize, sign: isize) {
    HELD.set(HELD.get() + sign * bytes as isize);
}

fn count_request(bytes: usize) {
    count(bytes, 1);
    REQUESTS.set(REQUESTS.get() + 1);
    ASKED.set(ASKED.get() + bytes);
}

// SAFETY: memory is the system's.
unsafe impl GlobalAlloc for Counting {
    unsafe fn alloc(&self, layout: Layout) -> *mut u8 {
        count_request(layout.size());
        // SAFETY: the caller's.
        unsafe { System.alloc(layout) }
    }

    unsafe fn dealloc(&self, at: *mut u8, layout: Layout) {
        count(layout.size(), -1);
        // SAFETY: the caller's.
        unsafe { System.dealloc(at, layout) }
    }

    unsafe fn realloc(&self, at: *mut u8, layout: Layout, size: usize) -> *mut u8 {
        count(layout.size(), -1);
        count_request(size);
        RESIZED.set(RESIZED.get() + layout.size());
        // SAFETY: the caller's.
        unsafe { System.realloc(at, layout, size) }
    }
}

#[global_allocator]
static COUNTING: Counting = Counting;

/// An aggregate of so many units, as long as a packet may be: that at one place takes all that is left, the
/// others so many bytes (RFC 6184, 5.7.1; RFC 7798, 4.4.2; RFC 9328, 4.3.2).
fn aggregate(codec: Codec, units: usize, at: usize, others: usize) -> Vec<u8> {
    let header: &[u8] = match codec {
        Codec::H264 => &[0x78],
        Codec::H265 => &[0x60, 1],
        Codec::H266 => &[0, 0xe1],
    };
    let mut packet = header.to_vec();
    let len = PACKET - header.len() - 2 * units - others * (units - 1);
    for i in 0..units {
        let unit = if i == at { len } else { others };
        packet.extend((unit as u16).to_be_bytes());
        packet.resize(packet.len() + unit, 0x0a);
    }
    packet
}

/// A fragment as long as a packet may be, which starts a unit or goes on with one (RFC 6184, 5.8; RFC 7798,
/// 4.4.3; RFC 9328, 4.3.3).
fn fragment(codec: Codec, starts: bool) -> Vec<u8> {
    let s = if starts { 0x80 } else { 0 };
    let mut packet = match codec {
        Codec::H264 => vec![0x7c, 5 | s],
        Codec::H265 => vec![0x62, 1, 0x13 | s],
        Codec::H266 => vec![0, 0xe9, 7 | s],
    };
    packet.resize(PACKET, 0x2a);
    packet
}

fn single(codec: Codec, len: usize) -> Vec<u8> {
    let first = match codec {
        Codec::H264 => 0x65,
        Codec::H265 => 0x26,
        Codec::H266 => 0,
    };
    let mut packet = vec![first];
    packet.resize(len, 0x0a);
    packet
}

/// A receiver, and how many bytes it holds and held at most.
struct Receiving {
    codec: Codec,
    receiver: SequencedDepacketizer,
    sequence: u16,
    out: Vec<u8>,
    held: isize,
    most: isize,
}

impl Receiving {
    fn give(&mut self, packet: &[u8]) {
        self.out.clear();
        let before = HELD.get();
        let answer =
            self.receiver
                .receive(self.sequence, packet, &mut self.out, &mut CodecExtra::None);
        self.held += HELD.get() - before;
        self.most = self.most.max(self.held);
        assert!(answer.is_ok_and(|it| it.is_taken()), "{answer:?}");
        self.sequence = self.sequence.wrapping_add(1);
    }

    fn give_all(&mut self) {
        let codec = self.codec;
        let shortest = if codec == Codec::H266 { 2 } else { 0 };
        // Each place is long in both lists that are shown by turns; then they get short, and long again.
        for _ in 0..2 {
            for at in 1..=256 {
                for _ in 0..2 {
                    self.give(&aggregate(codec, 257, at, shortest));
                }
            }
            for units in [3, (PACKET - 2) / (2 + shortest) - 1] {
                for _ in 0..2 {
                    self.give(&aggregate(codec, units, 1, shortest));
                }
            }
            for i in 0..4 {
                self.give(&fragment(codec, i == 0));
            }
            self.give(&single(codec, PACKET));
        }
        // What is kept at most for later aggregates, and then none come.
        for units in [34, 34, 3, 34, 34] {
            self.give(&aggregate(codec, units, 0, 1400));
        }
        for _ in 0..100 {
            self.give(&single(codec, 3));
        }
    }
}

#[test]
fn no_peer_makes_a_receiver_hold_more() {
    for codec in [Codec::H264, Codec::H265, Codec::H266] {
        let shown = if codec == Codec::H265 { SHOWN_MOST } else { 0 };
        let mut it = Receiving {
            codec,
            receiver: SequencedDepacketizer::new(codec, RUN_LIMIT),
            sequence: 0,
            // Twice as long as a packet is what it writes at most, so that this memory stays.
            out: Vec::with_capacity(2 * PACKET + RUN_LIMIT),
            held: 0,
            most: 0,
        };
        it.give_all();
        let most = (RUN_MOST + shown + SMALL) as isize;
        assert!(it.most <= most, "{codec:?}: {} of {most}", it.most);
        let before = HELD.get();
        it.receiver.restart();
        it.held += HELD.get() - before;
        // What is shown is of three bytes, in a buffer that had the longest packet.
        let last = if codec == Codec::H265 { 2 * PACKET } else { 0 };
        let most = (last + SMALL) as isize;
        assert!(it.held <= most, "{codec:?}: {} of {most}", it.held);
    }
}

/// A run's buffer is at most twice as large as its data, and when it has ended of `KEPT` bytes.
#[test]
fn a_long_unit_leaves_no_long_buffer() {
    const KEPT: usize = 1 << 20;
    const FRAGMENTS: usize = 50;
    for codec in [Codec::H264, Codec::H265, Codec::H266] {
        let shown = if codec == Codec::H265 { 4 * PACKET } else { 0 };
        let mut receiver = SequencedDepacketizer::new(codec, usize::MAX);
        let mut out = Vec::with_capacity((FRAGMENTS + 1) * PACKET);
        let mut packet = fragment(codec, true);
        let before = HELD.get();
        for i in 1..=FRAGMENTS {
            let ends = i == FRAGMENTS;
            packet[if codec == Codec::H264 { 1 } else { 2 }] |= if ends { 0x40 } else { 0 };
            let answer = receiver.receive(i as u16, &packet, &mut out, &mut CodecExtra::None);
            assert!(answer.is_ok_and(|it| it.is_taken()), "{answer:?}");
            let run = if ends { 0 } else { i * PACKET };
            let held = (HELD.get() - before) as usize;
            assert!(
                held <= KEPT.max(2 * run) + shown + SMALL,
                "{codec:?}: {held} at {i}"
            );
            packet = fragment(codec, false);
        }
        assert!(out.len() > 3 * KEPT, "{codec:?}");
    }
}

/// An assembler of access units shows no packet: once one was given out nothing is kept of its packets.
#[test]
fn a_receiver_of_access_units_keeps_nothing_to_show() {
    for codec in [Codec::H264, Codec::H265, Codec::H266] {
        let packets = [
            single(codec, PACKET),
            aggregate(codec, 257, 3, 2),
            aggregate(codec, 34, 0, 1400),
            single(codec, 3),
        ];
        let mut units = Vec::with_capacity(2);
        let before = HELD.get();
        let mut receiver = AccessUnitAssembler::new(codec, RUN_LIMIT, usize::MAX);
        for (sequence, payload) in (0..).zip(&packets) {
            let packet = RtpPacket {
                sequence,
                timestamp: 0,
                marker: true,
                payload,
            };
            receiver.receive(&packet, &mut units).unwrap();
            assert_eq!(units.len(), 1, "{codec:?}");
            units.clear();
            assert_eq!(HELD.get() - before, 0, "{codec:?}");
        }
    }
}

/// Of the memory that is given back the largest within the limit is kept, and the next access unit is
/// written there.
#[test]
fn one_access_unit_that_was_given_back_is_kept() {
    for codec in [Codec::H264, Codec::H265, Codec::H266] {
        let limit = 5000;
        let mut receiver = AccessUnitAssembler::new(codec, RUN_LIMIT, limit);
        let before = HELD.get();
        for room in [100, limit, 4000, limit + 1, 200] {
            receiver.give_back(AccessUnit {
                timestamp: 0,
                bytes: Vec::with_capacity(room),
                extra: CodecExtra::None,
                is_whole: true,
            });
        }
        assert_eq!(HELD.get() - before, limit as isize, "{codec:?}");
        let packet = RtpPacket {
            sequence: 0,
            timestamp: 0,
            marker: true,
            payload: &single(codec, 100),
        };
        let mut units = Vec::new();
        receiver.receive(&packet, &mut units).unwrap();
        assert_eq!(units[0].bytes.capacity(), limit, "{codec:?}");
    }
}

/// Memory of a long access unit is kept as long as one of the last 64 that were given back needed it, and
/// is none behind a restart.
#[test]
fn memory_of_a_long_access_unit_goes() {
    const LONG: usize = 1 << 22;
    let given = |len: usize| AccessUnit {
        timestamp: 0,
        bytes: vec![0; len],
        extra: CodecExtra::None,
        is_whole: true,
    };
    for codec in [Codec::H264, Codec::H265, Codec::H266] {
        let mut receiver = AccessUnitAssembler::new(codec, RUN_LIMIT, 2 * LONG);
        let before = HELD.get();
        receiver.give_back(given(LONG));
        for _ in 0..32 {
            receiver.give_back(given(100));
        }
        assert_eq!(HELD.get() - before, LONG as isize, "{codec:?}");
        for _ in 0..32 {
            receiver.give_back(given(100));
        }
        assert!(HELD.get() - before <= SMALL as isize, "{codec:?}");
        receiver.give_back(given(LONG));
        receiver.restart();
        assert_eq!(HELD.get(), before, "{codec:?}");
    }
}

/// A run that is too long goes, and the text before it stays where it is, with its memory: else each such
/// packet would have all of the text copied.
#[test]
fn a_run_that_is_too_long_leaves_the_text_in_place() {
    for codec in [Codec::H264, Codec::H265, Codec::H266] {
        let mut receiver = AccessUnitAssembler::new(codec, RUN_LIMIT, 1 << 20);
        let mut units = Vec::new();
        let mut sequence = 0;
        let mut resized_by = |payload: &[u8]| {
            let before = RESIZED.get();
            let packet = RtpPacket {
                sequence,
                timestamp: 0,
                marker: false,
                payload,
            };
            receiver.receive(&packet, &mut units).unwrap();
            sequence = sequence.wrapping_add(1);
            RESIZED.get() - before
        };
        for _ in 0..20 {
            resized_by(&single(codec, PACKET));
        }
        let long = &fragment(codec, true)[..2 * RUN_LIMIT];
        // The first may find no room behind the text.
        resized_by(long);
        for _ in 0..100 {
            assert_eq!(resized_by(long), 0, "{codec:?}");
        }
    }
}

/// The limits on an open unit and on an open access unit, and the packets that reach the first.
const LONG_RUN: usize = 1 << 22;
const LONG_UNIT: usize = 1 << 23;
const PACKETS_OF_A_LONG_RUN: usize = LONG_RUN / PACKET;

/// A receiver of access units in whose open access unit a short unit stands, and behind it a run of so many
/// packets; what it held before that; and the number that is due.
fn receiver_with_run(codec: Codec, packets: usize) -> (AccessUnitReceiver, isize, u16) {
    let config = AccessUnitConfig {
        window: 1,
        far: 0,
        held_limit: LONG_UNIT,
        run_limit: LONG_RUN,
        unit_limit: LONG_UNIT,
        ..AccessUnitConfig::default()
    };
    let mut receiver = AccessUnitReceiver::new(codec, config);
    let before = HELD.get();
    let mut sequence = 0;
    push(&mut receiver, &mut sequence, &single(codec, 7000));
    let begun = fragment(codec, true);
    let more = fragment(codec, false);
    for i in 0..packets {
        push(
            &mut receiver,
            &mut sequence,
            if i == 0 { &begun } else { &more },
        );
    }
    drop((begun, more));
    (receiver, before, sequence)
}

/// Gives a receiver a packet with the next number, which ends no access unit.
fn push(receiver: &mut AccessUnitReceiver, sequence: &mut u16, payload: &[u8]) {
    let packet = RtpPacket {
        sequence: *sequence,
        timestamp: 1,
        marker: false,
        payload,
    };
    receiver.push(0, &packet).unwrap();
    assert!(receiver.next(0).unwrap().is_none());
    *sequence = sequence.wrapping_add(1);
}

/// Why a unit goes, of how many packets more, and what makes it go.
type Goes = (&'static str, usize, fn(&mut AccessUnitReceiver, u16, Codec));

/// A unit that goes, since it is too long, since a packet of it is missing, or since one is refused, takes the
/// memory with it that it had in an access unit.
#[test]
fn a_long_unit_that_goes_leaves_a_short_access_unit() {
    for codec in [Codec::H264, Codec::H265, Codec::H266] {
        let goes: [Goes; 6] = [
            ("too long", 1, |receiver, mut sequence, codec| {
                push(receiver, &mut sequence, &fragment(codec, false));
            }),
            ("a gap", 0, |receiver, sequence, _| {
                receiver.skip(0, sequence.wrapping_add(1)).unwrap();
                assert!(receiver.next(0).unwrap().is_none());
            }),
            ("a gap before a unit", 0, |receiver, sequence, codec| {
                push(receiver, &mut sequence.wrapping_add(2), &single(codec, 9));
            }),
            ("a gap before a start", 0, |receiver, sequence, codec| {
                let start = &fragment(codec, true)[..9];
                push(receiver, &mut sequence.wrapping_add(2), start);
            }),
            ("a gap before a fragment", 0, |receiver, sequence, codec| {
                let more = &fragment(codec, false)[..9];
                push(receiver, &mut sequence.wrapping_add(2), more);
            }),
            ("a refusal", 0, |receiver, mut sequence, codec| {
                let refused: &[u8] = match codec {
                    Codec::H264 => &[0x7c],
                    Codec::H265 => &[0x62, 1],
                    Codec::H266 => &[0, 0xe9],
                };
                push(receiver, &mut sequence, refused);
                assert_eq!(receiver.counts().refused, 1, "{codec:?}");
            }),
        ];
        for (why, more, go) in goes {
            let (mut receiver, before, sequence) =
                receiver_with_run(codec, PACKETS_OF_A_LONG_RUN + more - 1);
            let held = (HELD.get() - before) as usize;
            assert!(held > LONG_RUN - 2 * PACKET, "{codec:?}, {why}: {held}");
            go(&mut receiver, sequence, codec);
            let held = (HELD.get() - before) as usize;
            assert!(held <= 7000 + SMALL, "{codec:?}, {why}: {held}");
        }
    }
}

/// A text past its limit goes with its memory.
#[test]
fn a_long_access_unit_leaves_nothing() {
    for codec in [Codec::H264, Codec::H265, Codec::H266] {
        let (mut receiver, before, mut sequence) = receiver_with_run(codec, 0);
        let unit = single(codec, PACKET);
        let before = before + unit.capacity() as isize;
        for _ in 1..LONG_UNIT / PACKET {
            push(&mut receiver, &mut sequence, &unit);
        }
        let held = HELD.get() - before;
        assert!(
            held > (LONG_UNIT - 2 * PACKET) as isize,
            "{codec:?}: {held}"
        );
        push(&mut receiver, &mut sequence, &unit);
        let held = HELD.get() - before;
        assert!(held <= SMALL as isize, "{codec:?}: {held}");
    }
}

/// Packets that are late, come twice or find no room aren't copied.
#[test]
fn a_packet_that_is_not_kept_takes_no_memory() {
    let payload = vec![1; 1000];
    let packet = |sequence| RtpPacket {
        sequence,
        timestamp: 0,
        marker: false,
        payload: &payload,
    };
    let mut buffer = ReorderBuffer::new(64);
    for sequence in [100, 110, 120] {
        buffer.push(&packet(sequence)).unwrap();
    }
    let before = (REQUESTS.get(), HELD.get());
    for _ in 0..1000 {
        for sequence in [0, 30, 100, 110, 120] {
            buffer.push(&packet(sequence)).unwrap();
        }
    }
    assert_eq!((REQUESTS.get(), HELD.get()), before);

    let config = AccessUnitConfig {
        window: 64,
        held_limit: 3000,
        ..AccessUnitConfig::default()
    };
    let mut receiver = AccessUnitReceiver::new(Codec::H264, config);
    for sequence in [100, 110, 120, 130] {
        receiver.push(0, &packet(sequence)).unwrap();
    }
    let before = (REQUESTS.get(), HELD.get());
    for _ in 0..1000 {
        for sequence in [30, 100, 110, 120, 130, 140] {
            let pushed = receiver.push(0, &packet(sequence)).unwrap();
            assert_ne!(pushed, Pushed::Held, "{sequence}");
        }
    }
    assert_eq!((REQUESTS.get(), HELD.get()), before);
}

/// Memory that is given back takes the next packets, and the next access unit.
#[test]
fn memory_given_back_is_used_again() {
    let payload = single(Codec::H264, 1000);
    let packet = |sequence: u16| RtpPacket {
        sequence,
        timestamp: u32::from(sequence / 2),
        marker: sequence % 2 == 1,
        payload: &payload,
    };
    let mut buffer = ReorderBuffer::new(64);
    let mut before = 0;
    for sequence in 0..64 * 3 {
        if sequence == 64 {
            before = REQUESTS.get();
        }
        buffer.push(&packet(sequence)).unwrap();
        if sequence % 64 == 63 {
            while let Some(held) = buffer.pop_first() {
                buffer.give_back(held);
            }
        }
    }
    assert_eq!(REQUESTS.get(), before);

    // Each second packet comes first, and waits.
    let mut receiver = AccessUnitReceiver::new(Codec::H264, AccessUnitConfig::default());
    for sequence in 0..1000u16 {
        if sequence == 600 {
            before = REQUESTS.get();
        }
        receiver.push(0, &packet(sequence ^ 1)).unwrap();
        while let Some(unit) = receiver.next(0).unwrap() {
            receiver.give_back(unit);
        }
    }
    assert_eq!(receiver.counts().units, 500);
    assert_eq!(REQUESTS.get(), before);
}

/// What a run of so many packets asks for, in a depacketizer and in an access unit.
#[test]
fn a_long_unit_asks_in_proportion() {
    const DATA: usize = 1000;
    for codec in [Codec::H264, Codec::H265, Codec::H266] {
        let begun = &fragment(codec, true)[..DATA];
        let more = &fragment(codec, false)[..DATA];
        for fragments in [1000, 4000] {
            let packet = |i| if i == 0 { begun } else { more };
            let mut receiver = SequencedDepacketizer::new(codec, usize::MAX);
            let mut out = Vec::new();
            let before = (REQUESTS.get(), ASKED.get());
            for i in 0..fragments {
                let answer = receiver.receive(i as u16, packet(i), &mut out, &mut CodecExtra::None);
                answer.unwrap();
            }
            let shown = if codec == Codec::H265 { DATA } else { 0 };
            let (requests, asked) = (REQUESTS.get() - before.0, ASKED.get() - before.1);
            let most = 4 * fragments * DATA + 4 * shown + SMALL;
            assert!(
                requests <= 40 && asked <= most,
                "{codec:?}: {requests} requests of {asked} bytes for {fragments}"
            );

            let mut receiver = AccessUnitAssembler::new(codec, usize::MAX, usize::MAX);
            let mut units = Vec::new();
            let before = (REQUESTS.get(), ASKED.get());
            for i in 0..fragments {
                let packet = RtpPacket {
                    sequence: i as u16,
                    timestamp: 0,
                    marker: false,
                    payload: packet(i),
                };
                receiver.receive(&packet, &mut units).unwrap();
            }
            let (requests, asked) = (REQUESTS.get() - before.0, ASKED.get() - before.1);
            assert!(
                requests <= 40 && asked <= 4 * fragments * DATA + SMALL,
                "{codec:?}: {requests} requests of {asked} bytes for {fragments}"
            );
        }
    }
}

/// A payload's packets take as much memory as their bytes and places, at most twice that where a list grows, and
/// what is asked for is in proportion too.
#[test]
fn packets_take_memory_in_proportion() {
    /// A list's place of a packet.
    const PLACE: usize = 24;
    for codec in [Codec::H264, Codec::H265, Codec::H266] {
        // One unit, and many of 96 bytes.
        for of_one in [true, false] {
            let mut asked_before = [usize::MAX / 8; 2];
            for len in [300_000, 1_200_000] {
                let unit = single(codec, if of_one { len } else { 96 });
                let payload = [&[0, 0, 0, 1][..], &unit].concat();
                let payload = payload.repeat(len / unit.len());
                let mut packetizer = CodecPacketizer::new(codec);
                let before = (HELD.get(), ASKED.get());
                let packets = packetizer.packetize(1200, &payload).unwrap();
                let held = (HELD.get() - before.0) as usize;
                let asked = ASKED.get() - before.1;
                let bytes: usize = packets.iter().map(Vec::len).sum();
                let most = bytes + 2 * PLACE * packets.len() + SMALL;
                assert!(held <= most, "{codec:?}: {held} for {bytes}");

                let mut packets = Packets::with_headroom(12);
                let before = (HELD.get(), ASKED.get());
                packetizer
                    .packetize_into(1200, &payload, &mut packets)
                    .unwrap();
                let held = (HELD.get() - before.0) as usize;
                let asked = [asked, ASKED.get() - before.1];
                let most = 2 * (packets.bytes().len() + 8 * packets.len()) + SMALL;
                assert!(held <= most, "{codec:?}: {held} of {most}");
                for (asked, before) in asked.iter().zip(asked_before) {
                    assert!(*asked <= 5 * before, "{codec:?}: {asked}, and {before}");
                }
                asked_before = asked;
            }
        }
    }
}

/// What is read of a text of SDP, and what is left where it is refused.
#[cfg(feature = "sdp")]
#[test]
fn formats_of_sdp() {
    use emupedestal::sdp::{H264Parameters, read_units};

    const LEN: usize = 1 << 20;
    /// A name, a value and a place in a list that doubles for each `a;`.
    const EACH: usize = 64;
    for (part, end) in [
        ("a", ""),
        ("a;", ""),
        (";", ""),
        ("a=b;", ""),
        ("{;}", ""),
        ("a;", ";max-fs=a"),
        ("a=b;", "max-fs=1;max-fs=1"),
        ("a;", "{"),
    ] {
        let text = part.repeat(LEN / part.len()) + end;
        let before = HELD.get();
        let read = text.parse::<H264Parameters>();
        let held = (HELD.get() - before) as usize;
        assert_eq!(read.is_ok(), end.is_empty(), "{part}{end}");
        let most = if read.is_ok() { SMALL + EACH * LEN } else { 0 };
        assert!(held <= most, "{part}{end}: {held} bytes");
    }
    for (part, end) in [("AA==,", "AA=="), ("AAAA", ""), ("AA==,", "A")] {
        let text = part.repeat(LEN / part.len()) + end;
        let before = HELD.get();
        let read = read_units(&text);
        let held = (HELD.get() - before) as usize;
        let most = if read.is_ok() { SMALL + EACH * LEN } else { 0 };
        assert!(
            held <= most && read.is_ok() == (end != "A"),
            "{part}{end}: {held} bytes"
        );
    }
}
