use crate::ends::{
    Answer, Ended, Receiver, SHORT, ask_depacketizer, ask_packetizer, copy_of, fragment,
    longer_fragment, packetizer, send, send_nothing, text_of_fragments,
};
use crate::proved::h26x_core::{CodecExtra, H266CodecExtra, PacketError};
use crate::proved::h266_payload::{H266Depacketizer, H266Packetizer, detect_h266_keyframe};
use crate::refusing::{some_refused, without_memory};

const KEY: CodecExtra = CodecExtra::H266(H266CodecExtra { is_keyframe: true });

const NO_KEY: CodecExtra = CodecExtra::H266(H266CodecExtra { is_keyframe: false });

/// A VPS, an SPS, a PPS and a key unit.
const UNITS: [u8; 24] = [
    0, 0, 1, 0, 0x71, 0xaa, 0, 0, 1, 0, 0x79, 0xbb, 0, 0, 1, 0, 0x81, 0xcc, 0, 0, 1, 0, 0x39, 0xdd,
];

/// The sets in one aggregate.
const AGGREGATE: [u8; 17] = [
    0, 0xe1, 0, 3, 0, 0x71, 0xaa, 0, 3, 0, 0x79, 0xbb, 0, 3, 0, 0x81, 0xcc,
];

/// An SPS and a PPS of several layers, and a key unit.
const LAYERS: [u8; 18] = [
    0, 0, 1, 2, 0x7a, 0xbb, 0, 0, 1, 1, 0x83, 0xcc, 0, 0, 1, 0, 0x39, 0xdd,
];

/// The sets of these in one aggregate.
const OF_LAYERS: [u8; 12] = [1, 0xe2, 0, 3, 2, 0x7a, 0xbb, 0, 3, 1, 0x83, 0xcc];

/// The SPS and the PPS in one aggregate with numbers, and the key unit.
const NUMBERED: [&[u8]; 2] = [
    &[0, 0xe1, 0, 0, 0, 3, 0, 0x79, 0xbb, 0, 3, 0, 0x81, 0xcc],
    &[0, 0x39, 0, 2, 0xdd],
];

/// Whether units are numbered, a payload, and its packets.
type Row<'a> = (bool, &'a [u8], [&'a [u8]; 2]);

#[test]
fn sets() {
    let key: &[u8] = &[0, 0x39, 0xdd];
    let rows: [Row<'_>; 3] = [
        (false, &UNITS, [&AGGREGATE, key]),
        (false, &LAYERS, [&OF_LAYERS, key]),
        (true, &UNITS[6..], NUMBERED),
    ];
    for (has_donl, payload, packets) in rows {
        let mut it: H266Packetizer = packetizer(has_donl);
        some_refused(|| send(&mut it, 1200, payload, &packets));
    }
}

fn receiver() -> Receiver<H266Depacketizer> {
    Receiver::new(H266Depacketizer::new())
}

/// A start, a middle and an end, each longer than what there is room for by then.
#[test]
fn fragments() {
    let mut it = receiver();
    some_refused(|| it.take_or_stay(&fragment(&[0, 0xe9, 0x87], 0xaa)));
    some_refused(|| it.take_or_stay(&longer_fragment(&[0, 0xe9, 7], 0xbb)));
    some_refused(|| it.take_or_stay(&fragment(&[0, 0xe9, 0x47], 0xcc)));
    it.has(&text_of_fragments(&[0, 0, 0, 1, 0, 0x39]), KEY);
}

/// A run of fragments, the first with its number, and an end behind its end.
const ENDED: Ended = Ended {
    before: &[&[0, 0xe9, 0x87, 0, 5, 0xaa], &[0, 0xe9, 7, 0xbb]],
    end: &[0, 0xe9, 0x47],
    behind: &[&[0, 0xe9, 0x47]],
    written: &[0, 0, 0, 1, 0, 0x39, 0xaa, 0xbb],
    told: KEY,
};

#[test]
fn ends() {
    let mut it = receiver();
    it.depacketizer.with_donl(true);
    it.take_end(&ENDED);
}

/// The units of the aggregate behind start codes.
const TEXT: [u8; 21] = [
    0, 0, 0, 1, 0, 0x71, 0xaa, 0, 0, 0, 1, 0, 0x79, 0xbb, 0, 0, 0, 1, 0, 0x81, 0xcc,
];

#[test]
fn aggregates() {
    let mut it = receiver();
    some_refused(|| it.take_or_stay(&AGGREGATE));
    it.has(&TEXT, NO_KEY);
}

/// A packetizer for which sets wait, and its copy: both then send the same.
#[test]
fn copies_of_packetizers() {
    let mut it: H266Packetizer = packetizer(true);
    send(&mut it, 1200, &UNITS[6..18], &[]);
    some_refused(|| drop(copy_of(&it)));
    send(&mut copy_of(&it), 1200, &UNITS[18..], &NUMBERED);
    send(&mut it, 1200, &UNITS[18..], &NUMBERED);
}

/// Limits and payloads that nothing is sent of, with numbers or without.
pub const UNSENT: [(usize, &[u8]); 4] = [
    (1500, &[]),
    (3, &[0, 9, 0xaa]),
    (1500, &[0, 0xa1, 0x50]),
    (1500, &[0, 0, 1, 0, 0xe1, 0xaa, 0, 0, 1, 0, 0xe9, 0xaa]),
];

#[test]
fn sending_without_memory() {
    let mut it: H266Packetizer = without_memory(|| packetizer(true));
    without_memory(|| it.with_max_packet_size(1400));
    send_nothing(&mut it, &UNSENT);
    without_memory(|| it.with_donl(false));
    send_nothing(&mut it, &UNSENT);
    let copy = without_memory(|| it.try_clone());
    ask_packetizer(&mut copy.expect("a copy"), &[0]);
}

const CORRUPTED: Answer = Err(PacketError::ErrH266CorruptedPacket);

/// Packets of which nothing is kept or written, and their answers.
pub const UNWRITTEN: [(&[u8], Answer); 8] = [
    (&[0, 0xe9, 7, 0xaa], Ok(())),
    (&[0, 0xe9, 0x40, 0xaa, 0xbb], Ok(())),
    (&[], SHORT),
    (&[0, 9], SHORT),
    (&[0x80, 1, 0xaa, 0xbb], CORRUPTED),
    (&[0, 0xe1, 0, 3, 0, 0x71, 0xaa], SHORT),
    (&[0, 0xe1, 0, 3, 0, 9, 0xaa, 0, 3, 0, 9], SHORT),
    (&[0, 0xe1, 0, 3, 0, 9, 0xaa, 0, 2, 0, 0xe1], CORRUPTED),
];

/// The same with numbers.
pub const UNWRITTEN_NUMBERED: [(&[u8], Answer); 4] = [
    (&[0, 0xe9, 0x47, 0xaa], Ok(())),
    (&[0, 0x39, 0, 2], SHORT),
    (&[0, 0xe9, 0x87, 0], SHORT),
    (&[0, 0xe1, 0], SHORT),
];

#[test]
fn receiving_without_memory() {
    let mut it = without_memory(receiver);
    it.take_nothing(&UNWRITTEN);
    without_memory(|| {
        it.depacketizer.give_up_run();
        it.depacketizer.with_donl(true);
    });
    it.take_nothing(&UNWRITTEN_NUMBERED);
}

#[test]
fn questions_without_memory() {
    ask_depacketizer(&H266Depacketizer::new(), &[0, 9]);
    without_memory(|| assert!(detect_h266_keyframe(&[0, 0xe1, 0, 2, 0, 9, 0, 2, 0, 0x39])));
}
