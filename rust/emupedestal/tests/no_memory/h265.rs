use crate::ends::Answer;
use crate::ends::{
    Ended, Receiver, SHORT, ask_depacketizer, ask_packetizer, copy_of, fragment, longer_fragment,
    packetizer, send, send_nothing, text_of_fragments,
};
use crate::proved::h26x_core::{CodecExtra, H265CodecExtra, PacketError};
use crate::proved::h265_packets::H265Payload;
use crate::proved::h265_payload::{H265Depacketizer, H265Packetizer, detect_h265_keyframe};
use crate::refusing::{insist_on, insist_or_go_on, some_refused, without_memory};

const KEY: CodecExtra = CodecExtra::H265(H265CodecExtra { is_keyframe: true });

const NO_KEY: CodecExtra = CodecExtra::H265(H265CodecExtra { is_keyframe: false });

/// A VPS, an SPS, a PPS and a key unit.
const UNITS: [u8; 24] = [
    0, 0, 1, 0x40, 1, 0x0c, 0, 0, 1, 0x42, 1, 1, 0, 0, 1, 0x44, 1, 0xc1, 0, 0, 1, 0x26, 1, 0xaf,
];

/// The sets in one aggregate, and the key unit.
const TOGETHER: [&[u8]; 2] = [
    &[
        0x60, 1, 0, 3, 0x40, 1, 0x0c, 0, 3, 0x42, 1, 1, 0, 3, 0x44, 1, 0xc1,
    ],
    &[0x26, 1, 0xaf],
];

/// Each unit alone.
const ALONE: [&[u8]; 4] = [
    &[0x40, 1, 0x0c],
    &[0x42, 1, 1],
    &[0x44, 1, 0xc1],
    &[0x26, 1, 0xaf],
];

/// The sets in one aggregate with numbers, and the key unit.
const NUMBERED: [&[u8]; 2] = [
    &[
        0x60, 1, 0, 0, 0, 3, 0x40, 1, 0x0c, 0, 0, 3, 0x42, 1, 1, 0, 0, 3, 0x44, 1, 0xc1,
    ],
    &[0x26, 1, 0, 3, 0xaf],
];

fn receiver(has_donl: bool) -> Receiver<H265Depacketizer> {
    let mut depacketizer = H265Depacketizer::new();
    depacketizer.with_donl(has_donl);
    Receiver::new(depacketizer)
}

/// A unit for which there is no room, one alone and one in fragments, with numbers.
#[test]
fn numbered_units() {
    let mut it: H265Packetizer = packetizer(true);
    send(&mut it, 5, &[2, 1, 0xaa, 0xbb], &[]);
    some_refused(|| send(&mut it, 5, &[2, 1, 0xaa], &[&[2, 1, 0, 0, 0xaa]]));
    let fragments: [&[u8]; 2] = [&[0x62, 1, 0x81, 0, 1, 0xaa], &[0x62, 1, 0x41, 0xbb, 0xcc]];
    some_refused(|| send(&mut it, 6, &[2, 1, 0xaa, 0xbb, 0xcc], &fragments));
}

#[test]
fn sets() {
    let rows: [(bool, usize, &[&[u8]]); 3] = [
        (false, 17, &TOGETHER),
        (false, 16, &ALONE),
        (true, 100, &NUMBERED),
    ];
    for (has_donl, mtu, packets) in rows {
        let mut it: H265Packetizer = packetizer(has_donl);
        some_refused(|| send(&mut it, mtu, &UNITS, packets));
    }
}

/// A start, a middle and an end. What each shows passes what there is room for by then, but that of the end.
#[test]
fn fragments() {
    let mut it = receiver(false);
    let end = fragment(&[0x62, 1, 0x53], 0xcc);
    some_refused(|| it.take_or_stay(&fragment(&[0x62, 1, 0x93], 0xaa)));
    some_refused(|| it.take_or_stay(&longer_fragment(&[0x62, 1, 0x13], 0xbb)));
    some_refused(|| it.take_or_stay(&end));
    it.has(&text_of_fragments(&[0, 0, 0, 1, 0x26, 1]), KEY);
    match it.depacketizer.payload() {
        H265Payload::H265FragmentationUnitPacket(shown) => assert_eq!(shown.payload(), &end[3..]),
        shown => panic!("{shown:?}"),
    }
}

/// A run that goes on over an aggregate and a PACI packet.
const ENDED: Ended = Ended {
    before: &[
        &[0x62, 1, 0x93, 0xaa],
        &[0x60, 1, 0, 3, 2, 1, 0xbb, 0, 3, 2, 1, 0xcc],
        &[0x64, 1, 2, 0, 0xdd],
    ],
    end: &[0x62, 1, 0x53, 0xee],
    behind: &[],
    written: &[
        0, 0, 0, 1, 2, 1, 0xbb, 0, 0, 0, 1, 2, 1, 0xcc, 0, 0, 0, 1, 2, 1, 0xdd, 0, 0, 0, 1, 0x26,
        1, 0xaa, 0xee,
    ],
    told: KEY,
};

#[test]
fn ends() {
    receiver(false).take_end(&ENDED);
}

/// An aggregate of two units, and a byte that is ignored.
const AGGREGATE: [u8; 14] = [0x60, 1, 0, 3, 2, 1, 0xaa, 0, 2, 2, 1, 0, 9, 2];

/// The units of the aggregate that is shown; asked for, each request refused before.
#[track_caller]
fn shows_units(depacketizer: &H265Depacketizer, want: &[&[u8]]) {
    let H265Payload::H265AggregationPacket(shown) = depacketizer.payload() else {
        panic!("no aggregate is shown");
    };
    some_refused(|| assert_eq!(insist_on(|| shown.try_nal_units()).expect("units"), want));
}

#[test]
fn aggregates() {
    let mut it = receiver(false);
    some_refused(|| it.take_or_stay(&AGGREGATE));
    it.has(&[0, 0, 0, 1, 2, 1, 0xaa, 0, 0, 0, 1, 2, 1], NO_KEY);
    shows_units(&it.depacketizer, &[&[2, 1, 0xaa], &[2, 1]]);
}

/// An aggregate of four units, each longer than those in its place in the one above.
const LONGER: [u8; 57] = [
    0x60, 1, 0, 12, 2, 1, 1, 1, 1, 1, 1, 1, 1, 1, 1, 1, 0, 10, 2, 1, 2, 2, 2, 2, 2, 2, 2, 2, 0, 11,
    2, 1, 3, 3, 3, 3, 3, 3, 3, 3, 3, 0, 14, 2, 1, 4, 4, 4, 4, 4, 4, 4, 4, 4, 4, 4, 4,
];

/// A longer aggregate behind a shorter one, or two; a refusal leaves what is shown, and so it does where there are
/// buffers to use again.
#[test]
fn a_longer_aggregate() {
    let before: [&[&[u8]]; 2] = [&[&AGGREGATE], &[&AGGREGATE, &AGGREGATE]];
    for packets in before {
        let mut it = receiver(false);
        it.take_each(packets);
        some_refused(|| it.take_or_stay(&LONGER));
        let units: [&[u8]; 4] = [
            &LONGER[4..16],
            &LONGER[18..28],
            &LONGER[30..41],
            &LONGER[43..],
        ];
        shows_units(&it.depacketizer, &units);
    }
}

/// A shorter aggregate has no unit of the longer one before, also where there was no memory to keep that's buffers.
#[test]
fn a_shorter_aggregate() {
    let mut it = receiver(false);
    for _ in 0..2 {
        for packet in [&LONGER[..], &LONGER, &AGGREGATE] {
            let before = it.depacketizer.try_clone().expect("a copy");
            let kept = |it: &Receiver<_>| it.depacketizer == before;
            let answer = insist_or_go_on(&mut it, |it| it.take_once(packet), kept);
            assert_eq!(answer, Ok(()));
        }
        shows_units(&it.depacketizer, &[&[2, 1, 0xaa], &[2, 1]]);
    }
}

/// A PACI packet with TSCI.
#[test]
fn pacis() {
    let mut it = receiver(false);
    some_refused(|| it.take_or_stay(&[0x64, 1, 0x26, 0x38, 0x11, 0x22, 0x33, 0xaa]));
    it.has(&[0, 0, 0, 1, 0x26, 1, 0xaa], KEY);
}

#[test]
fn numbered_units_taken() {
    let mut it = receiver(true);
    some_refused(|| it.take_or_stay(&[0x26, 1, 0, 5, 0xaf]));
    it.has(&[0, 0, 0, 1, 0x26, 1, 0xaf], KEY);
}

/// A packetizer for which sets wait, and its copy: both then send the same.
#[test]
fn copies_of_packetizers() {
    let mut it: H265Packetizer = packetizer(true);
    send(&mut it, 100, &UNITS[..18], &[]);
    some_refused(|| drop(copy_of(&it)));
    send(&mut copy_of(&it), 100, &UNITS[18..], &NUMBERED);
    send(&mut it, 100, &UNITS[18..], &NUMBERED);
}

/// A depacketizer with an open run, which its copy then ends.
#[test]
fn copies_of_depacketizers() {
    let mut it = receiver(false);
    it.take(&[0x62, 1, 0x93, 0xaa]);
    some_refused(|| assert_eq!(copy_of(&it.depacketizer), it.depacketizer));
    it.depacketizer = copy_of(&it.depacketizer);
    it.take(&[0x62, 1, 0x53, 0xbb]);
    it.has(&[0, 0, 0, 1, 0x26, 1, 0xaa, 0xbb], KEY);
}

/// Limits and payloads that nothing is sent of, with numbers or without.
pub const UNSENT: [(usize, &[u8]); 4] = [
    (1500, &[]),
    (3, &[2, 1, 0xaa]),
    (1500, &[0x46, 1, 0x50]),
    (1500, &[0, 0, 1, 0x46, 1, 0x50, 0, 0, 1, 0x46, 1, 0x50]),
];

#[test]
fn sending_without_memory() {
    let mut it: H265Packetizer = without_memory(|| packetizer(true));
    without_memory(|| it.with_max_packet_size(1400));
    send_nothing(&mut it, &UNSENT);
    without_memory(|| it.with_donl(false));
    send_nothing(&mut it, &UNSENT);
    let copy = without_memory(|| it.try_clone());
    ask_packetizer(&mut copy.expect("a copy"), &[2]);
}

/// Packets that are refused, and why.
pub const REFUSED: [(&[u8], Answer); 7] = [
    (&[], SHORT),
    (&[2, 1], SHORT),
    (&[0x82, 1, 0xaa], CORRUPTED),
    (&[0xe2, 1, 0x93, 0xaa], CORRUPTED),
    (&[0x62, 1, 0x93], SHORT),
    (&[0x60, 1, 0, 3, 2, 1, 0xaa, 0], SHORT),
    (&[0x64, 1, 0x26, 0x38, 0x11, 0x22, 0x33], SHORT),
];

const CORRUPTED: Answer = Err(PacketError::ErrH265CorruptedPacket);

/// Packets that are refused with numbers.
pub const REFUSED_NUMBERED: [(&[u8], Answer); 3] = [
    (&[0x26, 1, 0, 5], SHORT),
    (&[0x60, 1, 0], SHORT),
    (&[0x62, 1, 0x93, 0, 7], SHORT),
];

#[test]
fn receiving_without_memory() {
    let mut it = without_memory(|| receiver(false));
    it.take_nothing(&REFUSED);
    without_memory(|| {
        it.depacketizer.give_up_run();
        it.depacketizer.with_donl(true);
    });
    it.take_nothing(&REFUSED_NUMBERED);
    without_memory(|| assert!(*it.depacketizer.payload() == H265Payload::empty()));
}

#[test]
fn questions_without_memory() {
    ask_depacketizer(&H265Depacketizer::new(), &[2, 1]);
    without_memory(|| {
        assert!(detect_h265_keyframe(&[0x60, 1, 0, 2, 2, 1, 0, 2, 0x26, 1]));
    });
}
