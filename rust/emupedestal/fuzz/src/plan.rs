//! What a packetizer sends, by the words of its documents: which units go, together or alone, how many packets they
//! take, and which sets wait.

use crate::text::{header_len, type_of};
use emupedestal::{Codec, units};

/// What goes together: a unit, or sets in one packet.
pub struct Item {
    pub units: Vec<Vec<u8>>,
    pub packets: usize,
    /// Of sets of H.265 in one packet, whether F is set in the unit behind them, whose header the packet takes.
    pub takes_f: bool,
}

impl Item {
    fn alone(unit: &[u8], packets: usize) -> Self {
        Item {
            units: vec![unit.to_vec()],
            packets,
            takes_f: false,
        }
    }

    /// Whether packets can carry all of it.
    pub fn is_carried(&self, codec: Codec) -> bool {
        !self.takes_f && self.units.iter().all(|unit| is_carried(codec, unit))
    }
}

/// What a unit is to a packetizer.
#[derive(PartialEq, Eq)]
enum Role {
    Skipped,
    /// A VPS, an SPS or a PPS, by its place.
    Set(usize),
    Other,
}

fn role_of(codec: Codec, unit: &[u8]) -> Role {
    let Some(unit_type) = type_of(codec, unit) else {
        return Role::Skipped;
    };
    let (skipped, sets): (&[u8], [u8; 3]) = match codec {
        // There is no VPS; no unit has that type.
        Codec::H264 => (&[9], [255, 7, 8]),
        Codec::H265 => (&[35], [32, 33, 34]),
        Codec::H266 => (&[20, 28, 29], [14, 15, 16]),
    };
    match sets.iter().position(|it| *it == unit_type) {
        Some(place) => Role::Set(place),
        None if skipped.contains(&unit_type) => Role::Skipped,
        None => Role::Other,
    }
}

/// Whether packets can carry a unit: F is clear, its type is one of a unit's own, and of H.265 and H.266 something
/// stands behind its header.
fn is_carried(codec: Codec, unit: &[u8]) -> bool {
    let Some(unit_type) = type_of(codec, unit) else {
        return false;
    };
    let is_own = match codec {
        Codec::H264 => matches!(unit_type, 1..=23),
        Codec::H265 => !matches!(unit_type, 48..=50),
        Codec::H266 => !matches!(unit_type, 28 | 29),
    };
    is_own && unit[0] & 0x80 == 0 && (codec == Codec::H264 || unit.len() > 2)
}

/// A packetizer as its documents have it.
pub struct Plan {
    codec: Codec,
    donl: bool,
    max_size: usize,
    /// The VPS, the SPS and the PPS that wait.
    waiting: [Option<Vec<u8>>; 3],
}

impl Plan {
    pub fn new(codec: Codec, donl: bool) -> Self {
        let max_size = if codec == Codec::H264 {
            usize::MAX
        } else {
            1200
        };
        Plan {
            codec,
            donl,
            max_size,
            waiting: [None, None, None],
        }
    }

    /// Sets the largest packet size, of H.265 and H.266.
    pub fn set_max_size(&mut self, bytes: u16) {
        if self.codec != Codec::H264 {
            self.max_size = bytes.into();
        }
    }

    /// The longest that a packet may be; nothing where a call does nothing.
    pub fn limit(&self, mtu: usize) -> Option<usize> {
        let least = if self.codec == Codec::H264 { 1 } else { 4 };
        (mtu >= least).then_some(mtu.min(self.max_size))
    }

    /// What goes of a payload.
    pub fn payload(&mut self, mtu: usize, payload: &[u8]) -> Vec<Item> {
        let mut items = Vec::new();
        let Some(limit) = self.limit(mtu) else {
            return items;
        };
        for unit in units(self.codec, payload) {
            match role_of(self.codec, unit) {
                Role::Skipped => {}
                Role::Set(place) => self.waiting[place] = Some(unit.to_vec()),
                Role::Other => {
                    if let [_, Some(_), Some(_)] = &self.waiting {
                        let sets = std::mem::take(&mut self.waiting);
                        let sets = sets.into_iter().flatten().collect();
                        items.extend(self.sets(limit, sets, unit));
                    }
                    items.extend(self.alone(limit, unit));
                }
            }
        }
        items
    }

    /// What goes of a unit as it is.
    pub fn unit(&self, mtu: usize, unit: &[u8]) -> Vec<Item> {
        let limit = self
            .limit(mtu)
            .filter(|_| unit.len() >= header_len(self.codec));
        limit
            .and_then(|limit| self.alone(limit, unit))
            .into_iter()
            .collect()
    }

    /// How many bytes a number takes.
    fn number(&self) -> usize {
        if self.donl { 2 } else { 0 }
    }

    /// Sets in one packet where they fit it, else each that fits alone; `unit` is what stands behind them.
    fn sets(&self, limit: usize, sets: Vec<Vec<u8>>, unit: &[u8]) -> Vec<Item> {
        let is_h265 = self.codec == Codec::H265;
        let of_all: usize = sets.iter().map(|set| 2 + set.len()).sum();
        let donds = if is_h265 && self.donl {
            sets.len() - 1
        } else {
            0
        };
        let have_lengths = sets.iter().all(|set| set.len() <= 0xffff);
        if have_lengths && header_len(self.codec) + self.number() + of_all + donds <= limit {
            return vec![Item {
                units: sets,
                packets: 1,
                takes_f: is_h265 && unit[0] & 0x80 != 0,
            }];
        }
        let fits = |set: &&Vec<u8>| set.len() + self.number() <= limit;
        sets.iter()
            .filter(fits)
            .map(|set| Item::alone(set, 1))
            .collect()
    }

    /// A unit in one packet, or in as few fragments as there can be; nothing where these have no room for data.
    fn alone(&self, limit: usize, unit: &[u8]) -> Option<Item> {
        let (number, header) = (self.number(), header_len(self.codec));
        if unit.len() + number <= limit {
            return Some(Item::alone(unit, 1));
        }
        let first = limit
            .checked_sub(header + 1 + number)
            .filter(|room| *room > 0)?;
        let data = number + unit.len() - header;
        Some(Item::alone(unit, data.div_ceil(first + number)))
    }
}
