//! Access units of packets with their timestamps and markers: a packet that is refused for memory leaves all, and can
//! be given again.

use crate::PacketError;
use crate::ends::{fragment, longer_fragment};
use crate::proved::h26x_assembler::{AccessUnit, AccessUnitAssembler, assemble_all};
use crate::proved::h26x_codec::{AnyPayloadDepacketizer, Codec};
use crate::proved::h26x_core::CodecExtra;
use crate::proved::h26x_receiver::{Received, SequencedDepacketizer};
use crate::proved::h26x_reorder::RtpPacket;
use crate::refusing::{insist, refused_at, some_refused, without_memory};
use crate::sequenced::{UNITS, Unit};

/// A receiver, and the access units that it gave out.
struct Receiver {
    it: AccessUnitAssembler<AnyPayloadDepacketizer>,
    out: Vec<AccessUnit>,
}

/// A packet, and what is answered for it.
type Row<'a> = (u16, u32, bool, &'a [u8], Received);

impl Receiver {
    /// One of a codec to which nothing was given.
    fn new(codec: Codec) -> Self {
        let depacketizer = AnyPayloadDepacketizer::new(codec);
        Receiver {
            it: AccessUnitAssembler::new(SequencedDepacketizer::new(depacketizer, 1000), 1000),
            out: Vec::new(),
        }
    }

    /// Takes a packet, each request refused before, and compares the answer; a refusal leaves what was given out, what
    /// is open, and the number that is expected.
    #[track_caller]
    fn receive(&mut self, &(sequence, timestamp, marker, payload, want): &Row<'_>) {
        let packet = RtpPacket {
            sequence,
            timestamp,
            marker,
            payload,
        };
        let before = (
            self.out.clone(),
            self.it.unit.clone(),
            self.it.packets.expected,
        );
        let kept = |it: &Self| {
            it.out == before.0 && it.it.unit == before.1 && it.it.packets.expected == before.2
        };
        let received = insist(self, |it| it.it.receive(&packet, &mut it.out), kept);
        assert_eq!(received, Ok(want), "{sequence}");
    }

    /// Ends the stream, each request refused before; a refusal leaves what is open, and the number that is expected.
    #[track_caller]
    fn end(&mut self) {
        self.out.shrink_to_fit();
        let before = (self.it.unit.clone(), self.it.packets.expected);
        let kept = |it: &Self| it.it.unit == before.0 && it.it.packets.expected == before.1;
        some_refused(|| assert_eq!(insist(self, |it| it.it.finish(&mut it.out), kept), Ok(())));
        assert!(self.it.unit.units_so_far().is_none() && self.it.packets.expected.is_none());
    }
}

/// Compares an access unit: its timestamp, whether it has the text of a unit or none, and whether it is known to be
/// whole.
#[track_caller]
fn is_unit(given: &AccessUnit, unit: &Unit, (timestamp, has_text, is_whole): (u32, bool, bool)) {
    assert_eq!((given.timestamp, given.is_whole), (timestamp, is_whole));
    if has_text {
        let has_len = given.bytes.len() == unit.len;
        assert!(has_len && given.bytes.starts_with(unit.front) && given.extra == unit.told);
    } else {
        assert!(given.bytes.is_empty() && given.extra == CodecExtra::None);
    }
}

/// Two access units of three fragments each, the second of which is known to be whole, the beginning of a third whose
/// end is missing, and the middle of a fourth.
#[test]
fn access_units() {
    for unit in &UNITS {
        let start = fragment(&unit.start, 0xaa);
        let middle = longer_fragment(&unit.middle, 0xbb);
        let end = fragment(&unit.end, 0xcc);
        let rows: [Row<'_>; 9] = [
            (65534, 3000, false, &start, Received::InOrder),
            (65535, 3000, false, &middle, Received::InOrder),
            (0, 3000, true, &end, Received::InOrder),
            (1, 6000, false, &start, Received::InOrder),
            (2, 6000, false, &middle, Received::InOrder),
            (3, 6000, true, &end, Received::InOrder),
            (4, 9000, false, &start, Received::InOrder),
            (6, 12000, false, &middle, Received::Gap(1)),
            (6, 12000, false, &middle, Received::Late(1)),
        ];
        let mut it = Receiver::new(unit.codec);
        some_refused(|| {
            for row in &rows {
                it.receive(row);
            }
            it.end();
        });
        let want = [
            (3000, true, false),
            (6000, true, true),
            (9000, false, false),
            (12000, false, false),
        ];
        assert_eq!(it.out.len(), want.len());
        for (given, want) in it.out.iter().zip(want) {
            is_unit(given, unit, want);
        }
    }
}

/// An access unit in which a unit comes between the fragments of another, whose run is put aside, and one whose last
/// packet, a middle fragment, leaves a run; the memory of the first is given back before the second begins.
#[test]
fn access_units_with_a_unit_between() {
    let rows: [Row<'_>; 6] = [
        (0, 3000, false, &[0x7c, 0x85, 1], Received::InOrder),
        (1, 3000, false, &[0x61, 5], Received::InOrder),
        (2, 3000, true, &[0x7c, 0x45, 3], Received::InOrder),
        (3, 6000, false, &[0x7c, 0x85, 1, 2], Received::InOrder),
        (4, 6000, true, &[0x7c, 0x05, 4], Received::InOrder),
        (5, 9000, true, &[0x7c, 0x45, 6], Received::InOrder),
    ];
    let mut it = Receiver::new(Codec::H264);
    let mut texts = Vec::new();
    some_refused(|| {
        for row in &rows {
            it.receive(row);
            if let Some(unit) = it.out.pop() {
                assert_eq!(unit.timestamp, row.1);
                texts.push(unit.bytes.clone());
                it.it.give_back(unit);
            }
        }
    });
    let text = vec![0, 0, 0, 1, 0x61, 5, 0, 0, 0, 1, 0x65, 1, 3];
    assert_eq!(texts, [text, vec![], vec![]]);
    assert_eq!(it.it.unit.run_len(), 0);
    it.end();
}

/// A list in another order, of which one packet comes twice. Without room nothing is taken, and the list can be given
/// again; so can the packets where memory lacks for one.
#[test]
fn a_list() {
    let packet = |sequence, timestamp, payload| RtpPacket {
        sequence,
        timestamp,
        marker: true,
        payload,
    };
    let packets: [RtpPacket<'_>; 3] = [
        packet(0, 6000, &[0x61, 2]),
        packet(65535, 3000, &[0x65, 1]),
        packet(0, 6000, &[0x61, 2]),
    ];
    let lacks = Err(PacketError::OutOfMemory);
    for request in 0.. {
        let mut it = Receiver::new(Codec::H264);
        let (answers, was_refused) = refused_at(request, true, || {
            assemble_all(&mut it.it, 4, &packets, &mut it.out)
        });
        let is_given = answers.is_ok();
        if !is_given {
            assert!(it.out.is_empty() && it.it.packets.expected.is_none());
        }
        let is_whole = answers.is_ok_and(|answers| !answers.contains(&lacks));
        assert_eq!(is_whole, !was_refused);
        if !is_whole {
            if is_given {
                it.it.restart();
                it.out.clear();
            }
            let answers = assemble_all(&mut it.it, 4, &packets, &mut it.out);
            assert!(!answers.expect("answers").contains(&lacks));
        }
        it.end();
        assert!(it.out.len() == 2 && !it.out[0].is_whole && it.out[1].is_whole);
        assert_eq!(it.out[1].bytes, [0, 0, 0, 1, 0x61, 2]);
        if !was_refused {
            assert!(request > 0);
            return;
        }
    }
}

/// What is made or begun anew.
#[test]
fn receivers_without_memory() {
    without_memory(|| {
        let mut it = Receiver::new(Codec::H264);
        assert!(it.it.unit.units_so_far().is_none() && it.it.unit.bytes_len() == 0);
        it.it.restart();
        assert!(it.out.is_empty());
    });
}
