use crate::ends::{
    Answer, Ended, Receiver, SHORT, ask_depacketizer, ask_packetizer, copy_of, filled, is_copied,
    send, send_nothing,
};
use crate::proved::h26x_core::{CodecExtra, H264CodecExtra, PacketError};
use crate::proved::h264_payload::{
    H264Depacketizer, H264Packetizer, detect_h264_keyframe, detect_h264_nalu,
};
use crate::refusing::{some_refused, without_memory};

const KEY: CodecExtra = CodecExtra::H264(H264CodecExtra { is_keyframe: true });

const NO_KEY: CodecExtra = CodecExtra::H264(H264CodecExtra { is_keyframe: false });

/// A STAP-A of an SPS of 25 bytes and a PPS of 6, as an encoder writes them.
const SETS: [u8; 36] = [
    0x78, 0, 25, 0x67, 0x64, 0, 0x1e, 0xac, 0xd9, 0x40, 0xa0, 0x2f, 0xf9, 0x61, 0, 0, 3, 0, 0x7d,
    0, 0, 0x17, 0x6a, 0x0f, 0x16, 0x2d, 0x96, 0x60, 0, 6, 0x68, 0xeb, 0xe3, 0xcb, 0x22, 0xc0,
];

/// An SPS, another in its place, a PPS, and a unit behind them.
#[test]
fn sets() {
    let mut packetizer = H264Packetizer::new();
    for set in [&[7, 0, 1], &SETS[3..28], &SETS[30..]] {
        some_refused(|| send(&mut packetizer, 1500, set, &[]));
    }
    some_refused(|| send(&mut packetizer, 1500, &[5, 4, 5], &[&SETS, &[5, 4, 5]]));
}

/// A unit behind an SPS and a PPS that wait.
#[test]
fn a_unit_behind_sets() {
    let mut packetizer = H264Packetizer::new();
    send(&mut packetizer, 1500, &[7, 0, 1], &[]);
    send(&mut packetizer, 1500, &[8, 2, 3], &[]);
    let sets: &[u8] = &[0x78, 0, 3, 7, 0, 1, 0, 3, 8, 2, 3];
    some_refused(|| send(&mut packetizer, 1500, &[5, 4, 5], &[sets, &[5, 4, 5]]));
}

/// A PPS, and a unit of seven bytes behind it.
const SET_AND_UNIT: [u8; 15] = [0, 0, 1, 8, 9, 0, 0, 1, 0x65, 1, 2, 3, 4, 5, 6];

/// The unit in fragments, and with the SPS that comes then its PPS.
#[test]
fn fragments() {
    let mut packetizer = H264Packetizer::new();
    let fragments: [&[u8]; 2] = [&[0x7c, 0x85, 1, 2, 3], &[0x7c, 0x45, 4, 5, 6]];
    some_refused(|| send(&mut packetizer, 5, &SET_AND_UNIT, &fragments));
    some_refused(|| send(&mut packetizer, 9, &[7, 6], &[]));
    let sets: &[u8] = &[0x78, 0, 2, 7, 6, 0, 2, 8, 9];
    some_refused(|| send(&mut packetizer, 9, &[5], &[sets, &[5]]));
}

fn receiver(is_avc: bool) -> Receiver<H264Depacketizer> {
    let mut depacketizer = H264Depacketizer::new();
    depacketizer.is_avc = is_avc;
    Receiver::new(depacketizer)
}

/// What is written of these units: behind their lengths, which are under 256, or behind start codes.
fn written(is_avc: bool, units: &[&[u8]]) -> Vec<u8> {
    let mut written = Vec::new();
    for unit in units {
        written.extend([0, 0, 0, if is_avc { unit.len() as u8 } else { 1 }]);
        written.extend_from_slice(unit);
    }
    written
}

/// A start, a later one in its place, and behind a middle fragment sets, a unit and the end. Each is longer than what
/// there is room for by then.
#[test]
fn units() {
    for is_avc in [false, true] {
        let mut it = receiver(is_avc);
        let (start, middle) = (filled(&[0x7c, 0x85], 42, 9), filled(&[0x7c, 0x05], 102, 8));
        let other = [0x61; 60];
        let packets: [&[u8]; 5] = [&[0x7c, 0x85, 1], &start, &middle, &SETS, &other];
        for packet in packets {
            some_refused(|| it.take(packet));
        }
        some_refused(|| it.take(&[0x7c, 0x45, 2]));
        let unit = [&[0x65], &start[2..], &middle[2..], &[2]].concat();
        let units: [&[u8]; 4] = [&SETS[3..28], &SETS[30..], &other, &unit];
        it.has(&written(is_avc, &units), KEY);
    }
}

/// A STAP-A of an SPS and a PPS, and a byte that is ignored.
const STAP: [u8; 26] = [
    0x78, 0, 0x0f, 0x67, 0x42, 0xc0, 0x1f, 0x1a, 0x32, 0x35, 1, 0x40, 0x7a, 0x40, 0x3c, 0x22, 0x11,
    0xa8, 0, 5, 0x68, 0x1a, 0x34, 0xe3, 0xc8, 0,
];

/// Its units behind start codes.
const STAP_TEXT: [u8; 28] = [
    0, 0, 0, 1, 0x67, 0x42, 0xc0, 0x1f, 0x1a, 0x32, 0x35, 1, 0x40, 0x7a, 0x40, 0x3c, 0x22, 0x11,
    0xa8, 0, 0, 0, 1, 0x68, 0x1a, 0x34, 0xe3, 0xc8,
];

/// Its units behind their lengths.
const STAP_IN_AVC: [u8; 28] = [
    0, 0, 0, 0x0f, 0x67, 0x42, 0xc0, 0x1f, 0x1a, 0x32, 0x35, 1, 0x40, 0x7a, 0x40, 0x3c, 0x22, 0x11,
    0xa8, 0, 0, 0, 5, 0x68, 0x1a, 0x34, 0xe3, 0xc8,
];

/// A unit in fragments.
const FRAGMENTS: [&[u8]; 5] = [
    &[0x1c, 0x80, 1, 2, 3],
    &[0x1c, 0, 4, 5, 6],
    &[0x1c, 0, 7, 8, 9],
    &[0x1c, 0, 0x10, 0x11, 0x12],
    &[0x1c, 0x40, 0x13, 0x14, 0x15],
];

/// This unit behind its length.
const UNIT_IN_AVC: [u8; 20] = [
    0, 0, 0, 0x10, 0, 1, 2, 3, 4, 5, 6, 7, 8, 9, 0x10, 0x11, 0x12, 0x13, 0x14, 0x15,
];

/// Whether units are written behind lengths, packets, and what is written of them.
type Row<'a> = (bool, &'a [&'a [u8]], &'a [u8]);

#[test]
fn packets_without_a_key_unit() {
    let rows: [Row<'_>; 3] = [
        (false, &[&STAP], &STAP_TEXT),
        (true, &[&STAP], &STAP_IN_AVC),
        (true, &FRAGMENTS, &UNIT_IN_AVC),
    ];
    for (is_avc, packets, written) in rows {
        let mut it = receiver(is_avc);
        some_refused(|| it.take_each(packets));
        it.has(written, NO_KEY);
    }
}

/// A run, and fragments that come behind its end.
const ENDED_ONCE: Ended = Ended {
    before: &[&[0x7c, 0x85, 1]],
    end: &[0x7c, 0x45, 2],
    behind: &[&[0x7c, 0x45, 3], &[0x7c, 0x05, 4]],
    written: &[0, 0, 0, 1, 0x65, 1, 2],
    told: KEY,
};

/// A run that begins twice, and goes on over a unit.
const BEGUN_TWICE: Ended = Ended {
    before: &[&[0x7c, 0x85, 1], &[0x7c, 0x85, 9], &[0x61, 0xff]],
    end: &[0x7c, 0x45, 2],
    behind: &[],
    written: &[0, 0, 0, 1, 0x61, 0xff, 0, 0, 0, 1, 0x65, 9, 2],
    told: KEY,
};

#[test]
fn ends() {
    receiver(false).take_end(&ENDED_ONCE);
    receiver(false).take_end(&BEGUN_TWICE);
}

/// A packetizer for which sets wait.
#[test]
fn copies_of_packetizers() {
    let mut it = H264Packetizer::new();
    send(&mut it, 9, &[7, 1], &[]);
    send(&mut it, 9, &[8, 2], &[]);
    some_refused(|| drop(copy_of(&it)));
    let sets: &[u8] = &[0x78, 0, 2, 7, 1, 0, 2, 8, 2];
    send(&mut copy_of(&it), 9, &[5, 3], &[sets, &[5, 3]]);
}

/// A depacketizer with an open run.
#[test]
fn copies_of_depacketizers() {
    let mut it = receiver(false);
    it.take(&[0x7c, 0x85, 1]);
    some_refused(|| is_copied(&it.depacketizer));
}

/// Limits and payloads that nothing is sent of.
pub const UNSENT: [(usize, &[u8]); 4] = [
    (0, &[0x65, 1]),
    (1500, &[]),
    (1500, &[9, 0x30]),
    (1500, &[0, 0, 1, 9, 0x30, 0, 0, 1, 0x29]),
];

#[test]
fn sending_without_memory() {
    let mut packetizer = without_memory(H264Packetizer::new);
    send_nothing(&mut packetizer, &UNSENT);
    let copy = without_memory(|| packetizer.try_clone());
    ask_packetizer(&mut copy.expect("a copy"), &[0x65]);
}

/// Packets of which nothing is kept or written, and their answers.
pub const UNWRITTEN: [(&[u8], Answer); 7] = [
    (&[0x7c, 0x05, 1], Ok(())),
    (&[0x7c, 0x45, 1], Ok(())),
    (&[0x78, 0, 0], Ok(())),
    (&[], SHORT),
    (&[0x7c], SHORT),
    (&[0xff], Err(PacketError::NaluTypeIsNotHandled(31))),
    (
        &[0x78, 0, 2, 0x67],
        Err(PacketError::StapASizeLargerThanBuffer(2, 1)),
    ),
];

#[test]
fn receiving_without_memory() {
    let mut it = without_memory(|| receiver(false));
    it.take_nothing(&UNWRITTEN);
    without_memory(|| it.depacketizer.give_up_run());
    it.depacketizer.is_avc = true;
    it.take_nothing(&UNWRITTEN);
}

#[test]
fn questions_without_memory() {
    ask_depacketizer(&H264Depacketizer::new(), &[0x65, 1]);
    without_memory(|| {
        assert!(detect_h264_keyframe(&[0x78, 0, 2, 0x67, 1, 0, 2, 0x65, 1]));
        assert!(detect_h264_nalu(&SETS, 8));
    });
}
