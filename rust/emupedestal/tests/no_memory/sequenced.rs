//! Packets with their sequence numbers: one that is refused for memory leaves all, and can be given again.

use crate::PacketError;
use crate::ends::{fragment, longer_fragment};
use crate::proved::h26x_codec::{AnyDepacketizer, Codec};
use crate::proved::h26x_core::{CodecExtra, H264CodecExtra, H265CodecExtra, H266CodecExtra};
use crate::proved::h26x_depacketizer::RunDepacketizer;
use crate::proved::h26x_receiver::{Received, SequencedDepacketizer, receive_all};
use crate::proved::h264_payload::H264Depacketizer;
use crate::proved::h265_payload::H265Depacketizer;
use crate::proved::h266_payload::H266Depacketizer;
use crate::refusing::{insist, refused_at, some_refused, without_memory};

/// What a codec's first, middle and last fragment of a unit begin with, and what is written and told of fragments of
/// 43, 103 and 43 bytes: how the text begins, how long it is, and that it is of a keyframe.
pub struct Unit {
    pub codec: Codec,
    pub start: [u8; 3],
    pub middle: [u8; 3],
    pub end: [u8; 3],
    pub front: &'static [u8],
    pub len: usize,
    pub told: CodecExtra,
}

pub static UNITS: [Unit; 3] = [
    Unit {
        codec: Codec::H264,
        start: [0x7c, 0x85, 1],
        middle: [0x7c, 0x05, 2],
        end: [0x7c, 0x45, 3],
        front: &[0, 0, 0, 1, 0x65, 1, 0xaa],
        len: 188,
        told: CodecExtra::H264(H264CodecExtra { is_keyframe: true }),
    },
    Unit {
        codec: Codec::H265,
        start: [0x62, 1, 0x93],
        middle: [0x62, 1, 0x13],
        end: [0x62, 1, 0x53],
        front: &[0, 0, 0, 1, 0x26, 1, 0xaa],
        len: 186,
        told: CodecExtra::H265(H265CodecExtra { is_keyframe: true }),
    },
    Unit {
        codec: Codec::H266,
        start: [0, 0xe9, 0x87],
        middle: [0, 0xe9, 0x07],
        end: [0, 0xe9, 0x47],
        front: &[0, 0, 0, 1, 0, 0x39, 0xaa],
        len: 186,
        told: CodecExtra::H266(H266CodecExtra { is_keyframe: true }),
    },
];

/// A receiver, and what it wrote and told.
struct Receiver {
    it: SequencedDepacketizer<AnyDepacketizer>,
    out: Vec<u8>,
    told: CodecExtra,
}

impl Receiver {
    /// One of a codec to which nothing was given.
    fn new(codec: Codec) -> Self {
        Receiver {
            it: SequencedDepacketizer::new(AnyDepacketizer::new(codec), 1000),
            out: Vec::new(),
            told: CodecExtra::None,
        }
    }

    /// Takes a packet.
    fn receive_once(&mut self, sequence: u16, packet: &[u8]) -> Answer {
        self.it
            .receive(sequence, packet, &mut self.out, &mut self.told)
    }

    /// Takes a packet, each request refused before, and compares the answer; a refusal leaves what was written and
    /// told, the number that is expected, and the run.
    #[track_caller]
    fn receive(&mut self, sequence: u16, packet: &[u8], want: Received) {
        let before = (self.out.clone(), self.told, self.it.expected);
        let depacketizer = self.it.depacketizer.try_clone().expect("a copy");
        let kept = |it: &Self| {
            it.it.depacketizer.is_same(&depacketizer)
                && it.out == before.0
                && (it.told, it.it.expected) == (before.1, before.2)
        };
        let received = insist(self, |it| it.receive_once(sequence, packet), kept);
        assert_eq!(received, Ok(want));
    }

    /// Compares what was written and told with a unit.
    #[track_caller]
    fn has(&self, unit: &Unit) {
        assert!(self.out.starts_with(unit.front), "{:?}", self.out);
        assert_eq!((self.out.len(), self.told), (unit.len, unit.told));
    }
}

/// Two fragments of a unit whose end is missing, and the fragments of one behind the gap.
#[test]
fn packets() {
    for unit in &UNITS {
        let start = fragment(&unit.start, 0xaa);
        let middle = longer_fragment(&unit.middle, 0xbb);
        let end = fragment(&unit.end, 0xcc);
        let mut it = Receiver::new(unit.codec);
        some_refused(|| it.receive(65534, &start, Received::InOrder));
        some_refused(|| it.receive(65535, &middle, Received::InOrder));
        some_refused(|| it.receive(1, &start, Received::Gap(1)));
        some_refused(|| it.receive(2, &middle, Received::InOrder));
        some_refused(|| it.receive(3, &end, Received::InOrder));
        it.has(unit);
    }
}

/// A packet from behind a gap while a run is open. Where memory lacks for it the run stays, and the end of its unit,
/// whose turn it is, completes it.
#[test]
fn a_packet_ahead() {
    for unit in &UNITS {
        let start = fragment(&unit.start, 0xaa);
        let middle = longer_fragment(&unit.middle, 0xbb);
        let end = fragment(&unit.end, 0xcc);
        for request in 0.. {
            let mut it = Receiver::new(unit.codec);
            it.receive(65534, &start, Received::InOrder);
            it.receive(65535, &middle, Received::InOrder);
            let (answer, was_refused) = refused_at(request, true, || it.receive_once(9, &start));
            if !was_refused {
                assert_eq!((answer, it.out.as_slice()), (Ok(Received::Gap(9)), &[][..]));
                assert!(request > 0);
                break;
            }
            assert_eq!(answer, Err(PacketError::OutOfMemory));
            it.receive(0, &end, Received::InOrder);
            it.has(unit);
        }
    }
}

/// A list. Without room for the answers nothing is taken, and the list can be given again; so can the packet where
/// memory lacks for it.
#[test]
fn a_list() {
    let packets = [(7, vec![0x65, 1])];
    for request in 0.. {
        let mut it = Receiver::new(Codec::H264);
        let (answers, was_refused) = refused_at(request, true, || {
            receive_all(&mut it.it, &packets, &mut it.out, &mut it.told)
        });
        match answers.as_deref() {
            Ok([IN_ORDER]) => assert!(!was_refused),
            Ok([Err(PacketError::OutOfMemory)]) => {
                it.receive(7, &packets[0].1, Received::InOrder);
            }
            Err(PacketError::OutOfMemory) => {
                let answers = receive_all(&mut it.it, &packets, &mut it.out, &mut it.told);
                assert_eq!(answers.as_deref(), Ok(&[IN_ORDER][..]));
            }
            answers => panic!("{answers:?}"),
        }
        assert_eq!(it.out, [0, 0, 0, 1, 0x65, 1]);
        if !was_refused {
            assert!(request > 1);
            return;
        }
    }
}

/// Fragments without a start, one that is late, and one that is refused.
#[test]
fn receiving_without_memory() {
    without_memory(|| {
        let mut it = Receiver::new(Codec::H264);
        let middle = [0x7c, 0x05, 1];
        let answers = [
            it.receive_once(9, &middle),
            it.receive_once(12, &middle),
            it.receive_once(9, &middle),
            it.receive_once(20, &[]),
        ];
        it.it.restart();
        let want = [
            IN_ORDER,
            Ok(Received::Gap(2)),
            Ok(Received::Late(4)),
            Err(PacketError::ErrShortPacket),
        ];
        assert!(answers == want && it.it.expected.is_none());
    });
}

type Answer = Result<Received, PacketError>;

const IN_ORDER: Answer = Ok(Received::InOrder);

/// A unit of H.264.
const UNIT: &[u8] = &[0x61, 9];

/// The three fragments of another one.
const START: &[u8] = &[0x7c, 0x85, 1];

const MIDDLE: &[u8] = &[0x7c, 0x05, 2];

const END: &[u8] = &[0x7c, 0x45, 3];

/// What is written of the first, and of the second.
const WRITTEN: &[u8] = &[0, 0, 0, 1, 0x61, 9];

const WRITTEN_OF_FRAGMENTS: &[u8] = &[0, 0, 0, 1, 0x65, 1, 2, 3];

/// Packets with their numbers for a fresh receiver, what is answered for each, and what is written of them.
struct Row {
    codec: Codec,
    run_limit: usize,
    packets: &'static [(u16, &'static [u8], Answer)],
    written: &'static [u8],
}

static ROWS: [Row; 12] = [
    // The first fragment, the middle one or the last is lost.
    Row {
        codec: Codec::H264,
        run_limit: 100,
        packets: &[
            (65535, UNIT, IN_ORDER),
            (1, MIDDLE, Ok(Received::Gap(1))),
            (2, END, IN_ORDER),
            (3, UNIT, IN_ORDER),
        ],
        written: &[0, 0, 0, 1, 0x61, 9, 0, 0, 0, 1, 0x61, 9],
    },
    Row {
        codec: Codec::H264,
        run_limit: 100,
        packets: &[
            (65535, START, IN_ORDER),
            (1, END, Ok(Received::Gap(1))),
            (2, UNIT, IN_ORDER),
        ],
        written: WRITTEN,
    },
    Row {
        codec: Codec::H264,
        run_limit: 100,
        packets: &[
            (65534, START, IN_ORDER),
            (65535, MIDDLE, IN_ORDER),
            (1, UNIT, Ok(Received::Gap(1))),
            (2, END, IN_ORDER),
        ],
        written: WRITTEN,
    },
    // One that comes twice, and one that comes late.
    Row {
        codec: Codec::H264,
        run_limit: 100,
        packets: &[
            (65534, START, IN_ORDER),
            (65534, START, Ok(Received::Late(1))),
            (65535, MIDDLE, IN_ORDER),
            (65000, END, Ok(Received::Late(536))),
            (0, END, IN_ORDER),
        ],
        written: WRITTEN_OF_FRAGMENTS,
    },
    // A refused packet ahead leaves the open run and the number that is expected.
    Row {
        codec: Codec::H264,
        run_limit: 100,
        packets: &[
            (7, START, IN_ORDER),
            (20, &[], Err(PacketError::ErrShortPacket)),
            (8, MIDDLE, IN_ORDER),
            (9, END, IN_ORDER),
        ],
        written: WRITTEN_OF_FRAGMENTS,
    },
    // The fragments before the last hold two bytes.
    Row {
        codec: Codec::H264,
        run_limit: 2,
        packets: &[
            (0, START, IN_ORDER),
            (1, MIDDLE, IN_ORDER),
            (2, END, IN_ORDER),
        ],
        written: WRITTEN_OF_FRAGMENTS,
    },
    Row {
        codec: Codec::H264,
        run_limit: 1,
        packets: &[
            (0, START, IN_ORDER),
            (1, MIDDLE, Ok(Received::TooLong(0))),
            (2, END, IN_ORDER),
            (3, UNIT, IN_ORDER),
        ],
        written: WRITTEN,
    },
    Row {
        codec: Codec::H264,
        run_limit: 0,
        packets: &[
            (0, START, Ok(Received::TooLong(0))),
            (5, START, Ok(Received::TooLong(4))),
        ],
        written: &[],
    },
    // Units between fragments leave the run open.
    Row {
        codec: Codec::H264,
        run_limit: 2,
        packets: &[
            (0, START, IN_ORDER),
            (1, UNIT, IN_ORDER),
            (2, MIDDLE, IN_ORDER),
            (3, UNIT, IN_ORDER),
            (4, MIDDLE, Ok(Received::TooLong(0))),
        ],
        written: &[0, 0, 0, 1, 0x61, 9, 0, 0, 0, 1, 0x61, 9],
    },
    // Up to half of the circle of numbers ahead is a gap.
    Row {
        codec: Codec::H264,
        run_limit: 100,
        packets: &[
            (0, UNIT, IN_ORDER),
            (32768, UNIT, Ok(Received::Gap(32767))),
            (1, UNIT, Ok(Received::Late(32768))),
            (32769, UNIT, IN_ORDER),
        ],
        written: &[
            0, 0, 0, 1, 0x61, 9, 0, 0, 0, 1, 0x61, 9, 0, 0, 0, 1, 0x61, 9,
        ],
    },
    Row {
        codec: Codec::H265,
        run_limit: 100,
        packets: &[
            (65535, &[0x62, 1, 0x93, 1], IN_ORDER),
            (0, &[0x62, 1, 0x53, 2], IN_ORDER),
            (1, &[0x62, 1, 0x93, 1], IN_ORDER),
            (3, &[0x62, 1, 0x53, 2], Ok(Received::Gap(1))),
        ],
        written: &[0, 0, 0, 1, 0x26, 1, 1, 2],
    },
    Row {
        codec: Codec::H266,
        run_limit: 100,
        packets: &[
            (65535, &[0, 0xe9, 0x87, 1], IN_ORDER),
            (0, &[0, 0xe9, 0x47, 2], IN_ORDER),
            (1, &[0, 0xe9, 0x87, 1], IN_ORDER),
            (3, &[0, 0xe9, 0x47, 2], Ok(Received::Gap(1))),
        ],
        written: &[0, 0, 0, 1, 0, 0x39, 1, 2],
    },
];

/// The packets of a row have their answers, and this is written of them.
#[track_caller]
fn receives<D: RunDepacketizer>(depacketizer: D, row: &Row) {
    let mut receiver = SequencedDepacketizer::new(depacketizer, row.run_limit);
    let (mut out, mut told) = (Vec::new(), CodecExtra::None);
    for (sequence, packet, answer) in row.packets {
        let received = receiver.receive(*sequence, packet, &mut out, &mut told);
        assert_eq!(received, *answer, "{sequence}");
    }
    assert_eq!(out, row.written);
}

/// By one of any codec, and by that of the codec itself.
#[test]
fn packets_lost_twice_late_and_refused() {
    for row in &ROWS {
        receives(AnyDepacketizer::new(row.codec), row);
        match row.codec {
            Codec::H264 => receives(H264Depacketizer::new(), row),
            Codec::H265 => receives(H265Depacketizer::new(), row),
            Codec::H266 => receives(H266Depacketizer::new(), row),
        }
    }
}

/// Two fragments of a unit with the one between lost, and a unit, as a list for a receiver that writes units behind
/// lengths.
#[test]
fn all_packets_of_a_list() {
    let packets = [(3, START.to_vec()), (5, END.to_vec()), (6, UNIT.to_vec())];
    let mut depacketizer = H264Depacketizer::new();
    depacketizer.is_avc = true;
    let mut receiver = SequencedDepacketizer::new(depacketizer, 100);
    let (mut out, mut told) = (Vec::new(), CodecExtra::None);
    let answers = receive_all(&mut receiver, &packets, &mut out, &mut told);
    let want: [Answer; 3] = [IN_ORDER, Ok(Received::Gap(1)), IN_ORDER];
    assert_eq!(answers.as_deref(), Ok(&want[..]));
    let no_key = CodecExtra::H264(H264CodecExtra { is_keyframe: false });
    assert_eq!((out, told), (vec![0, 0, 0, 2, 0x61, 9], no_key));
}

/// A start, and the end behind it once the receiver was told to begin anew: whatever its number, it is in order and
/// completes nothing.
#[test]
fn a_peer_that_begins_anew() {
    for sequence in [8, 6] {
        let mut it = Receiver::new(Codec::H264);
        assert_eq!(it.receive_once(7, START), IN_ORDER);
        it.it.restart();
        assert_eq!(it.receive_once(sequence, END), IN_ORDER);
        assert!(it.out.is_empty());
    }
}
