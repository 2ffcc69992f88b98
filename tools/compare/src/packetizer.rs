//! What calls of `packetize` leave, and what ours has to answer to the next one, by the words of
//! docs/DEFINITIONS.md.

use crate::answers::{Codec, Facts};
use crate::rules::{self, Limits, Rule, Rules};

/// What str0m's packetizers of H.265 and H.266 have as their largest packet.
pub const THEIR_SIZE: usize = 1200;

/// A packetizer after some calls: of ours, and what parts str0m's from it.
#[derive(Debug, Clone)]
pub struct PacketizerModel {
    codec: Codec,
    has_donl: bool,
    max_packet_size: usize,
    /// The VPS, the SPS and the PPS that wait.
    sets: [Option<Vec<u8>>; 3],
    /// The number of the next unit, of ours and of str0m.
    next_don: u16,
    their_next_don: u16,
    /// Why these differ.
    because: Rules,
}

/// What a unit is to a packetizer.
enum Kind {
    Skipped,
    Set(usize),
    Other,
}

impl PacketizerModel {
    pub fn new(codec: Codec) -> Self {
        PacketizerModel {
            codec,
            has_donl: false,
            max_packet_size: THEIR_SIZE,
            sets: [None, None, None],
            next_don: 0,
            their_next_don: 0,
            because: Rules::default(),
        }
    }

    pub fn with_donl(&mut self, has_donl: bool) {
        self.has_donl = has_donl;
        (self.next_don, self.their_next_don) = (0, 0);
        self.because = Rules::default();
    }

    pub fn with_max_packet_size(&mut self, bytes: u16) {
        self.max_packet_size = bytes.into();
    }

    /// The `mtu` for str0m, to which a largest size under 1200 is a lesser `mtu`.
    pub fn their_mtu(&self, mtu: usize) -> usize {
        match self.codec {
            Codec::H264 => mtu,
            _ => mtu.min(self.max_packet_size),
        }
    }

    /// Whether a call makes a packet of each unit that is sent, as it is, and of nothing else: no set
    /// waits and none is there, packets bear no has_donl, and no unit is over the limit.
    pub fn sends_as_they_are(&self, mtu: usize, payload: &[u8]) -> bool {
        let limits = self.limits(mtu);
        let fits = |unit: &&[u8]| match self.kind(unit) {
            Kind::Skipped => true,
            Kind::Set(_) => false,
            Kind::Other => unit.len() <= limits.theirs,
        };
        let waits = self.sets.iter().any(Option::is_some);
        mtu >= 4 && !self.has_donl && !waits && units(self.codec, payload).iter().all(fits)
    }

    /// Whether a unit is sent by such a call.
    pub fn is_sent(&self, unit: &[u8]) -> bool {
        matches!(self.kind(unit), Kind::Other)
    }

    /// What a call has to answer, and the rules of which a predicate holds.
    pub fn send(&mut self, mtu: usize, payload: &[u8]) -> (Vec<Vec<u8>>, Rules) {
        let (mut packets, mut rules) = (Vec::new(), Rules::default());
        let least = if self.codec == Codec::H264 { 1 } else { 4 };
        if mtu < least {
            return (packets, rules);
        }
        let limits = self.limits(mtu);
        let because = self.because;
        for unit in units(self.codec, payload) {
            match self.kind(unit) {
                Kind::Skipped => {}
                Kind::Set(i) => self.sets[i] = Some(unit.to_vec()),
                Kind::Other => {
                    if self.sets[1].is_some() && self.sets[2].is_some() {
                        let sets = self.sets.each_mut().map(Option::take);
                        let sets: Vec<Vec<u8>> = sets.into_iter().flatten().collect();
                        self.send_sets(&sets, unit, limits, &mut packets, &mut rules);
                    }
                    self.send_unit(unit, limits, &mut packets, &mut rules);
                }
            }
        }
        if self.has_donl && !packets.is_empty() {
            rules.add(because);
            rules.add(self.because);
        }
        (packets, rules)
    }

    fn limits(&self, mtu: usize) -> Limits {
        let (ours, theirs) = match self.codec {
            Codec::H264 => (mtu, mtu),
            _ => (
                mtu.min(self.max_packet_size),
                mtu.min(self.max_packet_size).min(THEIR_SIZE),
            ),
        };
        let donl = if self.has_donl { 2 } else { 0 };
        Limits { ours, theirs, donl }
    }

    fn kind(&self, unit: &[u8]) -> Kind {
        let Some(nalu_type) = self.codec.type_of(unit) else {
            return Kind::Skipped;
        };
        match (self.codec, nalu_type) {
            (Codec::H264, 9) | (Codec::H265, 35) | (Codec::H266, 20 | 28 | 29) => Kind::Skipped,
            (Codec::H265, 32) | (Codec::H266, 14) => Kind::Set(0),
            (Codec::H264, 7) | (Codec::H265, 33) | (Codec::H266, 15) => Kind::Set(1),
            (Codec::H264, 8) | (Codec::H265, 34) | (Codec::H266, 16) => Kind::Set(2),
            _ => Kind::Other,
        }
    }

    /// Sends the sets that waited, before the unit behind them.
    fn send_sets(
        &mut self,
        sets: &[Vec<u8>],
        behind: &[u8],
        limits: Limits,
        packets: &mut Vec<Vec<u8>>,
        rules: &mut Rules,
    ) {
        let lens: Vec<usize> = sets.iter().map(Vec::len).collect();
        let packet = self.sets_len(&lens);
        if self.codec == Codec::H264 {
            let (sps, pps) = (lens[0], lens[1]);
            rules.add_if(
                rules::stap_length_is_cut(sps, pps, limits.ours),
                Rule::StapLengthCut,
            );
            rules.add_if(
                rules::sets_are_dropped(sps, pps, limits.ours),
                Rule::SetsDropped,
            );
        }
        let parted = rules::size_parts_sets(packet, &lens, limits);
        rules.add_if(parted, Rule::MaxPacketSize);
        let fits_ours = packet <= limits.ours && lens.iter().all(|len| *len <= 65535);
        let fits_theirs = packet <= limits.theirs;
        let mut passed = false;
        if fits_ours {
            packets.push(self.sets_packet(sets, behind));
            self.next_don = self.next_don.wrapping_add(sets.len() as u16);
        }
        for set in sets {
            let alone = set.len() + limits.donl <= limits.ours;
            if !fits_ours && alone {
                packets.push(self.single(set));
            }
            let theirs = fits_theirs || self.fits_theirs(set, limits);
            self.their_next_don = self.their_next_don.wrapping_add(theirs.into());
            passed |= !fits_theirs && rules::donl_passes_limit(self.codec, set.len(), limits);
        }
        rules.add_if(passed, Rule::DonlPassesLimit);
        self.note(passed, parted);
    }

    /// The length of one packet of sets of these lengths.
    fn sets_len(&self, lens: &[usize]) -> usize {
        let sets: usize = lens.iter().map(|len| 2 + len).sum();
        let donl = match (self.codec, self.has_donl) {
            (Codec::H265, true) => 2 + lens.len() - 1,
            (Codec::H266, true) => 2,
            _ => 0,
        };
        self.codec.header_len() + donl + sets
    }

    /// One packet of sets.
    fn sets_packet(&self, sets: &[Vec<u8>], behind: &[u8]) -> Vec<u8> {
        let mut packet = match self.codec {
            Codec::H264 => vec![0x78],
            Codec::H265 => vec![behind[0] & 0x81 | 48 << 1, behind[1]],
            Codec::H266 => {
                let lowest = |of: fn(&[u8]) -> u8| sets.iter().map(|set| of(set)).min();
                let f = sets.iter().fold(0, |f, set| f | set[0] & 0x80);
                let layer = lowest(|set| set[0] & 0x3f).unwrap_or(0);
                let tid = lowest(|set| set[1] & 7).unwrap_or(0).max(1);
                vec![f | layer, 28 << 3 | tid]
            }
        };
        if self.has_donl {
            packet.extend(self.next_don.to_be_bytes());
        }
        for (i, set) in sets.iter().enumerate() {
            if i > 0 && self.has_donl && self.codec == Codec::H265 {
                packet.push(0);
            }
            packet.extend((set.len() as u16).to_be_bytes());
            packet.extend(set);
        }
        packet
    }

    /// Whether str0m sends a unit as one packet.
    fn fits_theirs(&self, unit: &[u8], limits: Limits) -> bool {
        let donl = match self.codec {
            Codec::H265 => 0,
            _ => limits.donl,
        };
        unit.len() + donl <= limits.theirs
    }

    /// Notes why numbers may differ from now on.
    fn note(&mut self, passes: bool, parted: bool) {
        self.because.add_if(passes, Rule::DonlPassesLimit);
        self.because.add_if(parted, Rule::MaxPacketSize);
        if self.next_don == self.their_next_don {
            self.because = Rules::default();
        }
    }

    /// A single packet; it counts on.
    fn single(&mut self, unit: &[u8]) -> Vec<u8> {
        let mut packet = unit.to_vec();
        if self.has_donl {
            packet.splice(2..2, self.next_don.to_be_bytes());
        }
        self.next_don = self.next_don.wrapping_add(1);
        packet
    }

    /// Sends a unit that is no set: alone, in fragments, or not at all.
    fn send_unit(
        &mut self,
        unit: &[u8],
        limits: Limits,
        packets: &mut Vec<Vec<u8>>,
        rules: &mut Rules,
    ) {
        let header = self.codec.header_len() + 1;
        let passes = rules::donl_passes_limit(self.codec, unit.len(), limits);
        let parted = rules::size_parts_unit(unit.len(), limits);
        rules.add_if(passes, Rule::DonlPassesLimit);
        rules.add_if(parted, Rule::MaxPacketSize);
        if unit.len() + limits.donl <= limits.ours {
            let packet = self.single(unit);
            packets.push(packet);
        } else if limits.ours > header + limits.donl {
            self.fragment(unit, limits.ours - header, packets);
        }
        let theirs = self.fits_theirs(unit, limits) || limits.theirs > header + limits.donl;
        self.their_next_don = self.their_next_don.wrapping_add(theirs.into());
        self.note(passes, parted);
    }

    /// The fragments of a unit, with so many bytes behind each one's header.
    fn fragment(&mut self, unit: &[u8], room: usize, packets: &mut Vec<Vec<u8>>) {
        let mut data = Vec::new();
        if self.has_donl {
            data.extend(self.next_don.to_be_bytes());
        }
        data.extend(&unit[self.codec.header_len()..]);
        let last = data.chunks(room).count() - 1;
        for (i, piece) in data.chunks(room).enumerate() {
            let marks = u8::from(i == 0) << 7 | u8::from(i == last) << 6;
            let mut packet = self.fragment_header(unit, marks);
            packet.extend(piece);
            packets.push(packet);
        }
        self.next_don = self.next_don.wrapping_add(1);
    }

    fn fragment_header(&self, unit: &[u8], marks: u8) -> Vec<u8> {
        match self.codec {
            Codec::H264 => vec![unit[0] & 0x60 | 28, marks | unit[0] & 0x1f],
            Codec::H265 => vec![
                unit[0] & 0x81 | 49 << 1,
                unit[1],
                marks | unit[0] >> 1 & 0x3f,
            ],
            Codec::H266 => vec![unit[0], 29 << 3 | unit[1] & 7, marks | unit[1] >> 3],
        }
    }
}

/// The units of a payload.
pub fn units(codec: Codec, payload: &[u8]) -> Vec<&[u8]> {
    let codes = start_codes(codec, payload);
    if codes.is_empty() {
        return Vec::from_iter((!payload.is_empty()).then_some(payload));
    }
    let ends = codes.iter().skip(1).map(|(begin, _)| *begin);
    let pieces = codes.iter().zip(ends.chain([payload.len()]));
    let units = pieces.map(|((_, begin), end)| &payload[*begin..end]);
    units.filter(|unit| !unit.is_empty()).collect()
}

/// Where each start code of a payload begins and ends.
fn start_codes(codec: Codec, payload: &[u8]) -> Vec<(usize, usize)> {
    let (mut codes, mut zeros) = (Vec::new(), 0);
    for (i, byte) in payload.iter().enumerate() {
        match byte {
            0 => zeros += 1,
            1 if zeros >= 2 => {
                let mine = if codec == Codec::H266 {
                    zeros.min(3)
                } else {
                    zeros
                };
                codes.push((i - mine, i + 1));
                zeros = 0;
            }
            _ => zeros = 0,
        }
    }
    codes
}
