//! Random cases: streams of units of all types and sizes around each border, their packets whole,
//! cut, with wrong bits, lost, doubled and out of order, and packets that no packetizer makes.

use crate::answers::{Codec, Extra, Facts};
use crate::case::{Case, Step};
use crate::pair::{Pair, ours, theirs};
use crate::random::Random;

/// The most packets of a case that come from its own payloads.
const MOST_PACKETS: usize = 40;

/// The case with this number.
pub fn case(seed: u64, number: u64) -> Case {
    let mut random = Random::of_case(seed, number);
    let codec = random.of(&Codec::ALL);
    let has_donl = codec != Codec::H264 && random.one_in(2);
    let pair = if random.one_in(2) { ours } else { theirs };
    let mut making = Making {
        codec,
        has_donl,
        max_packet_size: 1200,
        pair: pair(codec),
        random,
        steps: Vec::new(),
        queue: Vec::new(),
    };
    making.settings();
    making.calls();
    Case {
        codec,
        steps: making.steps,
    }
}

/// A case that is being made.
struct Making {
    codec: Codec,
    has_donl: bool,
    /// The largest packet size.
    max_packet_size: u16,
    /// Makes packets to receive, of one of the crates.
    pair: Box<dyn Pair>,
    random: Random,
    steps: Vec<Step>,
    /// Packets that are sent and not yet given to a depacketizer.
    queue: Vec<Vec<u8>>,
}

impl Making {
    fn settings(&mut self) {
        if self.has_donl {
            self.pair.with_donl(true);
            self.steps.push(Step::Donl(true));
        }
        if self.random.one_in(4) {
            self.steps.push(Step::Avc(true));
        }
        if self.codec != Codec::H264 && self.random.one_in(6) {
            self.max_packet_size = self.any_max_packet_size();
            self.pair.with_max_packet_size(self.max_packet_size);
            self.steps.push(Step::MaxPacketSize(self.max_packet_size));
        }
    }

    /// A largest packet size.
    fn any_max_packet_size(&mut self) -> u16 {
        let random = &mut self.random;
        match random.below(4) {
            0 => random.between(4, 16) as u16,
            1 => random.between(4, 1300) as u16,
            2 => random.between(1195, 1210) as u16,
            _ => random.between(1201, 3000) as u16,
        }
    }

    fn calls(&mut self) {
        if self.has_donl && self.random.one_in(10_000) {
            self.send_many();
        }
        let many = self.random.one_in(200);
        let count = if many { 60 } else { 5 };
        for _ in 0..self.random.between(1, count) {
            match self.random.below(8) {
                0..3 => self.send(),
                3 => self.send_sets(),
                4..7 => self.receive_any(),
                _ => self.other(),
            }
            if self.random.one_in(3) {
                self.deliver();
            }
        }
        self.deliver();
    }

    /// Any of the calls that neither send nor receive.
    fn other(&mut self) {
        let step = match self.random.below(9) {
            0 => Step::Copy,
            1 | 2 => Step::Same,
            3 => Step::GiveUp,
            4 => Step::Avc(self.random.one_in(2)),
            5 => Step::Told(self.extra()),
            6 if self.codec == Codec::H265 => self.paci_call(),
            7 if self.codec != Codec::H264 => {
                self.has_donl = self.random.one_in(2);
                self.pair.with_donl(self.has_donl);
                Step::Donl(self.has_donl)
            }
            8 if self.codec != Codec::H264 => {
                self.max_packet_size = self.any_max_packet_size();
                self.pair.with_max_packet_size(self.max_packet_size);
                Step::MaxPacketSize(self.max_packet_size)
            }
            _ => Step::Same,
        };
        self.steps.push(step);
    }

    fn extra(&mut self) -> Extra {
        match self.random.below(4) {
            0 => Extra::None,
            1 => Extra::Told(self.codec, true),
            2 => Extra::Told(self.codec, false),
            _ => Extra::Told(self.random.of(&Codec::ALL), self.random.one_in(2)),
        }
    }

    fn paci_call(&mut self) -> Step {
        let unit = match self.random.below(4) {
            0 => self.bytes(3),
            _ => self.unit(),
        };
        let extension = match self.random.below(4) {
            0 => self.random.between(28, 34),
            _ => self.random.below(6),
        };
        let extension = (0..extension).map(|_| self.random.byte()).collect();
        Step::Paci { unit, extension }
    }

    // ---- Sending ----

    /// Sends a payload of any units.
    fn send(&mut self) {
        let count = self.random.of(&[1, 1, 1, 2, 2, 3, 4, 6]);
        let units: Vec<Vec<u8>> = (0..count).map(|_| self.unit()).collect();
        self.send_units(&units);
    }

    /// Sends so many units that the next numbers are around 65536.
    fn send_many(&mut self) {
        let header = self.header(Kind::Other);
        let unit = [&[0, 0, 1], &header[..], &[7]].concat();
        let payload = unit.repeat(self.random.between(65_525, 65_540));
        let limit = 20;
        let _ = self.pair.packetize(limit, &payload);
        self.steps.push(Step::Pack { limit, payload });
    }

    /// Sends parameter sets and a unit behind them, at a limit around what they take.
    fn send_sets(&mut self) {
        let mut units = Vec::new();
        for kind in [Kind::Vps, Kind::Sps, Kind::Pps] {
            if kind != Kind::Vps || self.random.one_in(2) {
                units.push(self.unit_of(kind));
            }
        }
        if self.codec == Codec::H264 && self.random.one_in(400) {
            // Around the longest that a length of 16 bits names.
            let len = self.random.between(65_530, 65_541);
            units[self.random.below(2)].resize(len, 7);
        }
        if self.random.one_in(4) {
            units.swap(0, 1);
        }
        units.push(self.unit_of(Kind::Other));
        self.send_units(&units);
    }

    fn send_units(&mut self, units: &[Vec<u8>]) {
        let limit = self.limit(units);
        let payload = self.payload(units);
        if self.random.one_in(4) {
            self.steps.push(Step::Carry { limit, payload });
            return;
        }
        let packets = self.pair.packetize(limit, &payload);
        self.queue.extend(packets.into_iter().flatten());
        self.queue.truncate(MOST_PACKETS);
        self.steps.push(Step::Pack { limit, payload });
    }

    /// A limit: of few bytes, around one of the units, around all of them, around 1200, or any.
    fn limit(&mut self, units: &[Vec<u8>]) -> usize {
        let any = self.random.below(units.len());
        let unit = units[any].len();
        let sets: usize = units[..units.len() - 1]
            .iter()
            .map(|set| 2 + set.len())
            .sum();
        let random = &mut self.random;
        let all = units.iter().map(|unit| 2 + unit.len()).sum();
        if all > 65_000 {
            return random.of(&[65_535, 65_540, all, all + 2, all + 5, usize::MAX]);
        }
        if self.max_packet_size > 1200 && random.one_in(2) {
            return random.between(1195, 3000);
        }
        match random.below(16) {
            0..3 => random.below(14),
            3..7 => (unit + random.below(9)).saturating_sub(4),
            7..11 => sets + random.below(9),
            11 => random.between(1194, 1206),
            12 => random.between(1201, 3000),
            13 => random.of(&[65535, 65536, 70000, usize::MAX]),
            _ => random.between(6, 60),
        }
        .max(random.below(5))
    }

    /// Units behind start codes, or one alone.
    fn payload(&mut self, units: &[Vec<u8>]) -> Vec<u8> {
        if units.len() == 1 && self.random.one_in(3) {
            return units[0].clone();
        }
        let mut payload = Vec::new();
        if self.random.one_in(12) {
            payload.extend(self.bytes(4));
        }
        for unit in units {
            let zeros = self.random.of(&[2, 2, 2, 3, 3, 3, 4, 5]);
            payload.extend(vec![0; zeros]);
            payload.push(1);
            payload.extend(unit);
        }
        if self.random.one_in(10) {
            payload.extend(vec![0; self.random.below(4)]);
        }
        payload
    }

    fn unit(&mut self) -> Vec<u8> {
        let kinds = [
            Kind::Other,
            Kind::Other,
            Kind::Other,
            Kind::Vps,
            Kind::Sps,
            Kind::Pps,
            Kind::Delimiter,
            Kind::Any,
        ];
        let kind = self.random.of(&kinds);
        self.unit_of(kind)
    }

    /// A unit of a kind, of a length around some border.
    fn unit_of(&mut self, kind: Kind) -> Vec<u8> {
        let random = &mut self.random;
        let len = match random.below(32) {
            _ if self.max_packet_size > 1200 && random.one_in(6) => random.between(1190, 2500),
            0..20 => random.below(10),
            20..27 => random.below(40),
            27 => random.between(1190, 1206),
            28 => random.between(1200, 2500),
            _ => random.below(14),
        };
        let mut unit = self.header(kind);
        unit.extend((0..len).map(|_| self.content()));
        if !self.random.one_in(4) {
            escape(&mut unit);
        }
        if self.random.one_in(40) {
            unit.truncate(1);
        }
        unit
    }

    fn content(&mut self) -> u8 {
        match self.random.below(4) {
            0 => self.random.byte(),
            _ => self.random.of(&[0, 0, 1, 2, 3, 0x65, 0xff]),
        }
    }

    /// Up to so many bytes.
    fn bytes(&mut self, most: usize) -> Vec<u8> {
        let len = self.random.below(most + 1);
        (0..len).map(|_| self.content()).collect()
    }

    /// The header of a unit of a kind.
    fn header(&mut self, kind: Kind) -> Vec<u8> {
        let nalu_type = self.nalu_type(kind);
        self.header_of(nalu_type)
    }

    /// A header with this type; its other fields are mostly the usual ones.
    fn header_of(&mut self, nalu_type: u8) -> Vec<u8> {
        let any = self.random.one_in(4);
        let fields = if any { self.random.word() } else { 1 };
        let [_, _, high, low] = fields.to_be_bytes();
        // F is set once in 12 times.
        let f = if any && self.random.one_in(3) {
            0x80
        } else {
            0
        };
        match self.codec {
            Codec::H264 => vec![f | low & 0x60 | nalu_type],
            Codec::H265 => vec![f | nalu_type << 1 | high & 1, low],
            Codec::H266 => vec![f | high & 0x7f, nalu_type << 3 | low & 7],
        }
    }

    fn nalu_type(&mut self, kind: Kind) -> u8 {
        let random = &mut self.random;
        let types = if self.codec == Codec::H265 { 64 } else { 32 };
        match (kind, self.codec) {
            (Kind::Vps, Codec::H265) => 32,
            (Kind::Vps, Codec::H266) => 14,
            (Kind::Sps, codec) => [7, 33, 15][codec as usize],
            (Kind::Pps, codec) => [8, 34, 16][codec as usize],
            (Kind::Delimiter, codec) => [9, 35, 20][codec as usize],
            (Kind::Other, Codec::H264) => random.of(&[1, 1, 2, 5, 5, 6, 12]),
            (Kind::Other, Codec::H265) => random.of(&[0, 1, 1, 15, 16, 19, 20, 21, 22, 39]),
            (Kind::Other, Codec::H266) => random.of(&[0, 0, 1, 6, 7, 8, 9, 10, 23]),
            _ => random.below(types) as u8,
        }
    }

    // ---- Receiving ----

    /// Gives the packets that were sent, some of them wrongly.
    fn deliver(&mut self) {
        let packets = std::mem::take(&mut self.queue);
        let careless = self.random.of(&[0, 0, 12, 4]);
        let mut held: Option<Vec<u8>> = None;
        for packet in packets {
            if careless == 0 || !self.random.one_in(careless) {
                self.give(packet);
            } else {
                self.give_wrongly(packet, &mut held);
            }
            if self.random.one_in(24) {
                self.other();
            }
        }
        if let Some(packet) = held {
            self.give(packet);
        }
        if self.random.one_in(6) {
            self.steps.push(Step::Same);
        }
    }

    fn give(&mut self, packet: Vec<u8>) {
        self.steps.push(Step::Unpack(packet));
    }

    /// Gives a packet twice, or later, or not at all, or cut, longer, or with a wrong bit.
    fn give_wrongly(&mut self, mut packet: Vec<u8>, held: &mut Option<Vec<u8>>) {
        let len = packet.len();
        match self.random.below(8) {
            0 => {
                self.give(packet.clone());
                self.give(packet);
            }
            1 => {
                if let Some(earlier) = held.replace(packet) {
                    self.give(earlier);
                }
            }
            2 | 3 => {}
            4 => {
                packet.truncate(self.random.below(len + 1));
                self.give(packet);
            }
            5 => {
                packet.extend(self.bytes(4));
                self.give(packet);
            }
            _ if len == 0 => self.give(packet),
            6 => {
                let place = self.random.below(len.min(6));
                packet[place] ^= 1 << self.random.below(8);
                self.give(packet);
            }
            _ => {
                let place = self.random.below(len);
                packet[place] ^= 1 << self.random.below(8);
                self.give(packet);
            }
        }
    }

    /// Gives some packets that need not come from a packetizer.
    fn receive_any(&mut self) {
        for _ in 0..self.random.between(1, 5) {
            let packet = match self.random.below(8) {
                0..3 => self.fragment(),
                3..5 => self.aggregate(),
                5 if self.codec == Codec::H265 => self.paci(),
                6 => self.bytes(8),
                _ => self.single(),
            };
            self.give(packet);
        }
    }

    fn single(&mut self) -> Vec<u8> {
        let mut packet = self.header(Kind::Any);
        packet.extend(self.bytes(5));
        packet
    }

    fn fragment(&mut self) -> Vec<u8> {
        let mut packet = self.header_of([28, 49, 29][self.codec as usize]);
        let kind = self.random.of(&[Kind::Other, Kind::Any]);
        let marks = self.random.of(&[0x80, 0x80, 0x00, 0x40, 0x40, 0xc0, 0x20]);
        packet.push(marks | self.nalu_type(kind));
        packet.extend(self.bytes(6));
        packet
    }

    /// An aggregate, in which a length may be wrong.
    fn aggregate(&mut self) -> Vec<u8> {
        let mut packet = self.header_of([24, 48, 28][self.codec as usize]);
        for i in 0..self.random.below(5) {
            if self.has_donl {
                let donl = match (self.codec, i) {
                    (_, 0) => 2,
                    (Codec::H265, _) => 1,
                    _ => 0,
                };
                packet.extend((0..donl).map(|_| self.random.byte()));
            }
            let mut unit = match self.random.below(5) {
                0 => self.bytes(2),
                1 => self.single(),
                _ => [self.header(Kind::Other), self.bytes(3)].concat(),
            };
            let off = if self.random.one_in(16) { 1 } else { 0 };
            packet.extend(((unit.len() + off) as u16).to_be_bytes());
            packet.append(&mut unit);
        }
        if self.random.one_in(6) {
            packet.extend(self.bytes(3));
        }
        packet
    }

    fn paci(&mut self) -> Vec<u8> {
        let mut packet = self.header_of(50);
        let extension = self.random.of(&[0, 0, 1, 2, 3, 3, 4, 5, 31]);
        let kind = self.random.of(&[Kind::Other, Kind::Any]);
        let a = u8::from(self.random.one_in(8)) << 7;
        packet.push(a | self.nalu_type(kind) << 1 | (extension >> 4) as u8);
        packet.push((extension << 4) as u8 | self.random.byte() & 0xf);
        packet.extend((0..extension).map(|_| self.random.byte()));
        packet.extend(self.bytes(6));
        packet
    }
}

/// Leaves no start code within a unit, as encoders do: no byte under 4 stands behind two zeros.
fn escape(unit: &mut [u8]) {
    for i in 2..unit.len() {
        if unit[i - 2..i] == [0, 0] {
            unit[i] |= 4;
        }
    }
}

/// What a unit is made to be.
#[derive(Debug, Clone, Copy, PartialEq, Eq)]
enum Kind {
    Vps,
    Sps,
    Pps,
    Delimiter,
    Other,
    Any,
}
