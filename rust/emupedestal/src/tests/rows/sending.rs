//! A packetizer, whose packets go to a list, to memory of the caller or to a buffer.

use super::Answers;
use super::row::{Words, bytes, number, word};
use super::said::Said;
use super::settings::Settings;
use crate::proved::h26x_codec::{AnyPacketizer, Codec, PacketBuffer};
use crate::proved::h26x_core::Packetizer;
use crate::proved::h26x_packetizer::{PacketsSize, Placement};
use crate::tests::h26x_packetizer::buffers::has;
use std::mem;

/// How bytes are sent: as a payload, in which units are searched, or as one unit as it is.
#[derive(Clone, Copy, PartialEq)]
pub(super) enum How {
    Payload,
    Unit,
}

/// What is sent, within which limit, and how often.
pub(super) struct Sending {
    pub(super) how: How,
    pub(super) limit: usize,
    pub(super) bytes: Vec<u8>,
    pub(super) times: usize,
    /// Whether the packets are counted, and not said.
    is_counted: bool,
}

impl Sending {
    /// What a call of this name sends, if it is one that sends.
    pub(super) fn read(name: &str, words: &mut Words<'_>) -> Option<Sending> {
        let (how, is_counted) = match name {
            "pack" | "repeat" => (How::Payload, false),
            "count" => (How::Payload, true),
            "unit" => (How::Unit, false),
            _ => return None,
        };
        let times = if name == "repeat" { number(words) } else { 1 };
        Some(Sending {
            how,
            limit: number(words),
            bytes: bytes(words),
            times,
            is_counted,
        })
    }

    /// Says packets, or how many there are, where none is longer than the limit.
    pub(super) fn say(&self, said: &mut Said, packets: &[Vec<u8>]) {
        if !self.is_counted {
            return said.packets(packets);
        }
        assert!(packets.iter().all(|packet| packet.len() <= self.limit));
        said.value(packets.len());
    }
}

/// Where packets go.
#[derive(Clone, Copy)]
pub(super) enum Way {
    /// To a list each time.
    List,
    /// To memory of the caller, each behind so many bytes.
    Memory(usize),
    /// To one buffer, each behind so many bytes.
    Buffer(usize),
}

/// A packetizer, the one that it was copied from, and where its packets go.
pub(super) struct Sender {
    packetizer: AnyPacketizer,
    other: AnyPacketizer,
    way: Way,
    buffer: PacketBuffer,
    /// The packets that the buffer had when they came.
    kept: Vec<Vec<u8>>,
}

impl Sender {
    pub(super) fn new(way: Way) -> Self {
        let headroom = match way {
            Way::List => 0,
            Way::Memory(headroom) | Way::Buffer(headroom) => headroom,
        };
        Sender {
            packetizer: AnyPacketizer::new(Codec::H264, false),
            other: AnyPacketizer::new(Codec::H264, false),
            way,
            buffer: PacketBuffer::new(headroom),
            kept: Vec::new(),
        }
    }

    /// Makes one, and begins with an empty buffer.
    fn make(&mut self, settings: Settings) {
        self.packetizer = settings.any_packetizer();
        self.buffer.clear();
        self.kept.clear();
    }

    /// Appends the packets of what is sent once to the buffer.
    fn append(&mut self, it: &Sending) -> Vec<Vec<u8>> {
        let (limit, bytes, to) = (it.limit, &it.bytes, &mut self.buffer);
        let before = to.len();
        match it.how {
            How::Payload => self.packetizer.packetize_into(limit, bytes, to),
            How::Unit => self.packetizer.packetize_unit_into(limit, bytes, to),
        }
        .expect("memory");
        let sent: Vec<_> = (before..to.len())
            .map(|place| to.packet(place).to_vec())
            .collect();
        self.kept.extend(sent.clone());
        sent
    }

    /// The packets of what is sent once.
    fn send(&mut self, it: &Sending) -> Vec<Vec<u8>> {
        match self.way {
            Way::Memory(headroom) => place(&mut self.packetizer, it, headroom),
            Way::List => list(&mut self.packetizer, it),
            Way::Buffer(_) => self.append(it),
        }
    }

    /// Goes on with a copy.
    fn copy(&mut self) {
        let copy = self.packetizer.try_clone().expect("memory");
        self.other = mem::replace(&mut self.packetizer, copy);
    }
}

impl Answers for Sender {
    fn answer(&mut self, name: &str, words: &mut Words<'_>, said: &mut Said) {
        if let Some(it) = Sending::read(name, words) {
            let mut packets = Vec::new();
            for _ in 0..it.times {
                packets = self.send(&it);
            }
            // All that came before still lie in the buffer as they should.
            has(&self.buffer, &self.kept);
            return it.say(said, &packets);
        }
        match name {
            "packetizer" => self.make(Settings::read(words)),
            "copy" => self.copy(),
            "other" => mem::swap(&mut self.packetizer, &mut self.other),
            "size" => self.packetizer.with_max_packet_size(size(words)),
            _ => panic!("no call {name}"),
        }
    }
}

/// The largest packet size that the next word says, 4 or more.
pub(super) fn size(words: &mut Words<'_>) -> u16 {
    let size = word(words).parse().ok().filter(|size| *size >= 4);
    size.expect("a size of a packet")
}

/// The packets of what is sent, in a list.
fn list(packetizer: &mut AnyPacketizer, it: &Sending) -> Vec<Vec<u8>> {
    let (limit, bytes) = (it.limit, &it.bytes);
    match (it.how, packetizer) {
        (How::Payload, AnyPacketizer::H264(to)) => to.packetize(limit, bytes),
        (How::Payload, AnyPacketizer::H265(to)) => to.packetize(limit, bytes),
        (How::Payload, AnyPacketizer::H266(to)) => to.packetize(limit, bytes),
        (How::Unit, AnyPacketizer::H264(to)) => to.packetize_unit(limit, bytes),
        (How::Unit, AnyPacketizer::H265(to)) => to.packetize_unit(limit, bytes),
        (How::Unit, AnyPacketizer::H266(to)) => to.packetize_unit(limit, bytes),
    }
    .expect("memory")
}

/// Copies the packets of what is sent to memory of the caller, if they fit.
fn place_in(
    packetizer: &mut AnyPacketizer,
    it: &Sending,
    headroom: usize,
    to: &mut [u8],
    ends: &mut [usize],
) -> Placement {
    let (limit, bytes) = (it.limit, &it.bytes);
    match it.how {
        How::Payload => packetizer.packetize_to_memory(limit, bytes, headroom, to, ends),
        How::Unit => packetizer.packetize_unit_to_memory(limit, bytes, headroom, to, ends),
    }
    .expect("memory")
}

/// What stands in memory before packets go there, and in what they leave.
const FILL: u8 = 0xee;

/// The packets of what is sent, in memory that just holds them; in what is one byte short, or has room for one end
/// fewer, nothing is put.
fn place(packetizer: &mut AnyPacketizer, it: &Sending, headroom: usize) -> Vec<Vec<u8>> {
    let told = packetizer.packets_size(it.limit, &it.bytes, headroom);
    let (Placement::Placed(size) | Placement::NoRoom(size)) =
        place_in(packetizer, it, headroom, &mut [], &mut []);
    // (of a unit no size is told)
    assert!(it.how == How::Unit || told == Ok(size), "{told:?} {size:?}");
    if size.packets == 0 {
        return Vec::new();
    }
    let (mut to, mut ends) = (vec![FILL; size.bytes], vec![0; size.packets]);
    let (short, few) = (size.bytes - 1, size.packets - 1);
    let without_byte = place_in(packetizer, it, headroom, &mut to[..short], &mut ends);
    let without_end = place_in(packetizer, it, headroom, &mut to, &mut ends[..few]);
    assert_eq!([without_byte, without_end], [Placement::NoRoom(size); 2]);
    assert!(to.iter().all(|byte| *byte == FILL), "packets without room");
    let placed = place_in(packetizer, it, headroom, &mut to, &mut ends);
    assert_eq!(placed, Placement::Placed(size));
    packets_in(&to, &ends, headroom, size)
}

/// The packets that lie in memory, each behind what it left free.
fn packets_in(to: &[u8], ends: &[usize], headroom: usize, size: PacketsSize) -> Vec<Vec<u8>> {
    let (mut packets, mut start) = (Vec::new(), 0);
    for end in ends {
        let (free, packet) = to[start..*end].split_at(headroom);
        assert!(free.iter().all(|byte| *byte == FILL), "headroom written");
        packets.push(packet.to_vec());
        start = *end;
    }
    assert_eq!((start, packets.len()), (size.bytes, size.packets));
    packets
}
