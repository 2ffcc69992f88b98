//! Drawn packets, and what plain models say becomes of them. Each model is the slow thing that is plainly right.

use crate::PacketError;
use crate::proved::h26x_codec::{AnyDepacketizer, Codec};
use crate::proved::h26x_core::{CodecExtra, H264CodecExtra, H265CodecExtra, H266CodecExtra};
use crate::proved::h26x_receiver::{Received, SequencedDepacketizer};
use crate::proved::h26x_reorder::{HeldPacket, Pushed, ReorderBuffer, RtpPacket};
use crate::proved::h26x_transmission::{CodecDepacketizer, CodecPacketizer, carry, take_all};

/// Drawn numbers, of a linear congruence (Numerical Recipes).
struct Draws {
    state: u32,
}

impl Draws {
    /// A number below this one.
    fn below(&mut self, count: u32) -> u32 {
        self.state = self
            .state
            .wrapping_mul(1_664_525)
            .wrapping_add(1_013_904_223);
        (self.state >> 16) % count
    }
}

/// A unit's type, its header, and what is told of it.
struct UnitKind {
    unit_type: u8,
    header: &'static [u8],
    told: CodecExtra,
}

/// What fragments of a codec begin with, before marks and type; a unit that isn't a key unit and one that is; and
/// packets that are refused.
struct Format {
    codec: Codec,
    head: &'static [u8],
    other: UnitKind,
    key: UnitKind,
    refused: &'static [(&'static [u8], PacketError)],
}

static FORMATS: [Format; 3] = [
    Format {
        codec: Codec::H264,
        head: &[0x7c],
        other: UnitKind {
            unit_type: 1,
            header: &[0x61],
            told: CodecExtra::H264(H264CodecExtra { is_keyframe: false }),
        },
        key: UnitKind {
            unit_type: 5,
            header: &[0x65],
            told: CodecExtra::H264(H264CodecExtra { is_keyframe: true }),
        },
        refused: &[
            (&[0x7c], PacketError::ErrShortPacket),
            (&[0x7f, 1], PacketError::NaluTypeIsNotHandled(31)),
            (
                &[0x78, 0, 5, 1],
                PacketError::StapASizeLargerThanBuffer(5, 1),
            ),
        ],
    },
    Format {
        codec: Codec::H265,
        head: &[0x62, 1],
        other: UnitKind {
            unit_type: 1,
            header: &[0x02, 1],
            told: CodecExtra::H265(H265CodecExtra { is_keyframe: false }),
        },
        key: UnitKind {
            unit_type: 19,
            header: &[0x26, 1],
            told: CodecExtra::H265(H265CodecExtra { is_keyframe: true }),
        },
        refused: &[
            (&[0x62, 1, 0x93], PacketError::ErrShortPacket),
            (&[0x82, 1, 0xaa], PacketError::ErrH265CorruptedPacket),
            (&[], PacketError::ErrShortPacket),
        ],
    },
    Format {
        codec: Codec::H266,
        head: &[0, 0xe9],
        other: UnitKind {
            unit_type: 1,
            header: &[0, 0x09],
            told: CodecExtra::H266(H266CodecExtra { is_keyframe: false }),
        },
        key: UnitKind {
            unit_type: 7,
            header: &[0, 0x39],
            told: CodecExtra::H266(H266CodecExtra { is_keyframe: true }),
        },
        refused: &[
            (&[0, 0xe9], PacketError::ErrShortPacket),
            (&[0x80, 1, 0xaa, 0xbb], PacketError::ErrH266CorruptedPacket),
            (&[0, 9], PacketError::ErrShortPacket),
        ],
    },
];

impl Format {
    /// A unit of which kind is sent.
    fn kind(&self, is_key: bool) -> &UnitKind {
        if is_key { &self.key } else { &self.other }
    }

    /// What is told once a unit was written: whether a key unit was among all.
    fn told_after(&self, told: CodecExtra, is_key: bool) -> CodecExtra {
        self.kind(is_key || told == self.key.told).told
    }
}

/// Units of drawn lengths, each behind a start code, none of which has a zero byte, and their limits.
fn calls(format: &Format, draws: &mut Draws, is_key: bool) -> Vec<(usize, Vec<u8>)> {
    let mut calls = Vec::new();
    for _ in 0..12 {
        let mut payload = [&[0, 0, 0, 1], format.kind(is_key).header].concat();
        for _ in 0..2 + draws.below(90) {
            payload.push(1 + draws.below(255) as u8);
        }
        calls.push((20 + draws.below(40) as usize, payload));
    }
    calls
}

/// Payloads are carried, their packets taken again as a list, and what was made, written and told compared.
#[test]
fn units_carried() {
    for (format, is_key) in FORMATS.iter().flat_map(|it| [(it, false), (it, true)]) {
        let calls = calls(format, &mut Draws { state: 5 }, is_key);
        let text: Vec<u8> = calls
            .iter()
            .flat_map(|(_, payload)| payload.clone())
            .collect();
        let told = format.told_after(CodecExtra::None, is_key);
        let mut p = CodecPacketizer::new(format.codec);
        let mut d = CodecDepacketizer::new(format.codec);
        let (mut out, mut extra) = (Vec::new(), CodecExtra::None);
        let carried = carry(&mut p, &mut d, &calls, &mut out, &mut extra).expect("packets");
        assert_eq!(carried.made.as_slice(), [true; 12]);
        assert_eq!((&out, extra), (&text, told));
        let mut d = CodecDepacketizer::new(format.codec);
        let (mut out, mut extra) = (Vec::new(), CodecExtra::None);
        let packets = carried.packets.as_slice();
        let outcomes = take_all(&mut d, packets, &mut out, &mut extra).expect("outcomes");
        assert_eq!(outcomes, vec![Ok(()); packets.len()]);
        assert_eq!((out, extra), (text, told));
    }
}

/// The place of a packet among those sent that has the number 65436: the numbers go round.
const FIRST: u32 = 130_972;

/// The places of the packets held, in no order.
struct PlainBuffer {
    window: u32,
    due: Option<u32>,
    held: Vec<u32>,
}

impl PlainBuffer {
    /// Takes the packet of a place.
    fn push(&mut self, place: u32) -> Pushed {
        let due = self.due.unwrap_or(place + 1 - self.window);
        if place < due {
            return Pushed::Late((due - place) as u16);
        }
        self.due = Some(due);
        if self.held.contains(&place) {
            return Pushed::Twice;
        }
        self.held.push(place);
        Pushed::Held
    }

    /// Takes out the first packet: at the end, or where it is due or the window has passed it.
    fn pop(&mut self, is_end: bool) -> Option<u32> {
        let first = *self.held.iter().min()?;
        let newest = *self.held.iter().max()?;
        let is_passed = newest - first >= self.window - 1;
        if !is_end && !is_passed && self.due != Some(first) {
            return None;
        }
        self.held.retain(|place| *place != first);
        self.due = Some(first + 1);
        Some(first)
    }
}

/// The packet of a place, with these bytes.
fn packet_of(place: u32, payload: &[u8]) -> RtpPacket<'_> {
    RtpPacket {
        sequence: place as u16,
        timestamp: place.wrapping_mul(3000),
        marker: place % 3 == 0,
        payload,
    }
}

/// Compares a packet that was given out, or none, with that of a place.
#[track_caller]
fn compare(held: Option<HeldPacket>, place: Option<u32>) {
    let bytes = place.map(u32::to_be_bytes).unwrap_or_default();
    let held = held.as_ref().map(|held| held.packet());
    assert_eq!(held, place.map(|place| packet_of(place, &bytes)));
}

/// Gives the packets of places to a buffer, takes out what may go, and at the end the rest.
#[track_caller]
fn compare_pushed(window: u16, places: &[u32]) {
    let mut buffer = ReorderBuffer::new(window);
    let mut plain = PlainBuffer {
        window: u32::from(window),
        due: None,
        held: Vec::new(),
    };
    for place in places {
        let pushed = buffer.try_push(&packet_of(*place, &place.to_be_bytes()));
        assert_eq!(pushed, Ok(plain.push(*place)), "{place}");
        for _ in 0..3 {
            compare(buffer.pop(), plain.pop(false));
        }
    }
    for _ in places {
        compare(buffer.pop_first(), plain.pop(true));
    }
    assert!(buffer.is_empty());
}

/// Packets that come in any order, some of them never, twice or late.
#[test]
fn packets_in_any_order() {
    let mut draws = Draws { state: 7 };
    let places: Vec<u32> = (FIRST..FIRST + 200)
        .map(|sent| sent + draws.below(16))
        .collect();
    compare_pushed(12, &places);
}

/// Packets that come from both ends by turns, for which the list is parted.
#[test]
fn packets_from_both_ends() {
    let places: Vec<u32> = (0..120)
        .flat_map(|ahead| [FIRST + ahead, FIRST + 240 - ahead])
        .collect();
    compare_pushed(1000, &places);
}

/// How many bytes an open run may hold.
const LIMIT: usize = 30;

/// The marks of a fragment that begins a unit, and of one that ends it.
const START: u8 = 0x80;

const END: u8 = 0x40;

/// The open run, and what was written and told.
struct PlainReceiver {
    is_open: bool,
    run: Vec<u8>,
    out: Vec<u8>,
    told: CodecExtra,
}

impl PlainReceiver {
    /// Takes a fragment before which so many packets are missing.
    fn take(
        &mut self,
        format: &Format,
        marks: u8,
        is_key: bool,
        data: &[u8],
        missing: u16,
    ) -> Received {
        if missing > 0 || marks == START {
            self.is_open = marks == START;
            self.run.clear();
        }
        if self.is_open {
            self.run.extend_from_slice(data);
        }
        if self.is_open && marks == END {
            self.out.extend_from_slice(&[0, 0, 0, 1]);
            self.out.extend_from_slice(format.kind(is_key).header);
            self.out.extend_from_slice(&self.run);
            self.told = format.told_after(self.told, is_key);
            self.is_open = false;
        }
        if self.is_open && self.run.len() > LIMIT {
            self.is_open = false;
            return Received::TooLong(missing);
        }
        match missing {
            0 => Received::InOrder,
            missing => Received::Gap(missing),
        }
    }
}

/// A receiver, its plain form, the number that is next, and whether the latest unit begun is a key unit.
struct Receivers {
    it: SequencedDepacketizer<AnyDepacketizer>,
    out: Vec<u8>,
    told: CodecExtra,
    plain: PlainReceiver,
    next: u16,
    is_key: bool,
}

impl Receivers {
    /// Those of a codec.
    fn new(codec: Codec) -> Self {
        Receivers {
            it: SequencedDepacketizer::new(AnyDepacketizer::new(codec), LIMIT),
            out: Vec::new(),
            told: CodecExtra::None,
            plain: PlainReceiver {
                is_open: false,
                run: Vec::new(),
                out: Vec::new(),
                told: CodecExtra::None,
            },
            next: 65_500,
            is_key: false,
        }
    }

    /// Gives a packet, and compares the answer, and what was written and told.
    #[track_caller]
    fn give(&mut self, number: u16, packet: &[u8], want: Result<Received, PacketError>) {
        let got = self
            .it
            .receive(number, packet, &mut self.out, &mut self.told);
        assert_eq!(got, want, "{number}");
        assert_eq!((&self.out, self.told), (&self.plain.out, self.plain.told));
    }

    /// Gives a drawn fragment, behind some that are lost.
    fn give_fragment(&mut self, format: &Format, draws: &mut Draws) {
        let missing = match self.it.expected {
            None => 0,
            Some(_) => draws.below(16).saturating_sub(13) as u16,
        };
        let marks = [START, END, 0, 0][draws.below(4) as usize];
        if marks == START {
            self.is_key = draws.below(3) == 0;
        }
        let is_key = self.is_key;
        let byte = draws.below(256) as u8;
        let data = vec![byte; 1 + draws.below(40) as usize];
        let head = [format.head, &[marks | format.kind(is_key).unit_type]].concat();
        let number = self.next.wrapping_add(missing);
        self.next = number.wrapping_add(1);
        let want = self.plain.take(format, marks, is_key, &data, missing);
        self.give(number, &[head, data].concat(), Ok(want));
    }
}

/// Fragments with their sequence numbers, some lost and some late, and packets that are refused, beside the bytes of one
/// open run.
#[test]
fn packets_received() {
    for format in &FORMATS {
        let mut draws = Draws { state: 3 };
        let mut it = Receivers::new(format.codec);
        it.give(65_499, &[], Err(PacketError::ErrShortPacket));
        for _ in 0..120 {
            it.give_fragment(format, &mut draws);
            let behind = 1 + draws.below(9) as u16;
            let (next, late) = (it.next, it.next.wrapping_sub(behind));
            for (packet, error) in format.refused {
                it.give(next, packet, Err(*error));
                it.give(late, packet, Ok(Received::Late(behind)));
            }
        }
    }
}
