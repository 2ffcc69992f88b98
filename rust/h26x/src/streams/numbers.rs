//! Whether packets bear decoding order numbers, told by what stands where they would (RFC 7798, 4.4; RFC
//! 9328, 4.3). Nothing in a packet says it.

use crate::streams::payload::{fragment, is_numbered_aggregate as is_aggregate};
use emupedestal::Codec;
use emupedestal::access_units::{is_slice_type, unit_type};

/// Numbers of packets that follow one another are nearer than this.
const NEAR: u16 = 16;
/// A number that is higher by no more rises, also where units are left out or sent in another order.
const RISE: u16 = 255;
/// How many pairs of packets have to be seen before their numbers tell anything.
const FEW: u64 = 4;
const TELLING: u64 = 8;

/// The packets of a stream, taken with numbers or without.
pub struct Numbers {
    codec: Codec,
    has_donl: bool,
    /// What the last packet has where its number would be.
    last: Option<u16>,
    /// How many pairs of such packets came; in how many of them the second is higher by little, and by a
    /// bit more.
    pairs: u64,
    near: u64,
    rising: u64,
    /// Whether the next slice is the first of its access unit.
    begins: bool,
    /// Whether one came that could not begin with these bits.
    is_no_slice: bool,
    /// Aggregates that were taken, and those that were refused and are sound in the other way.
    taken: u64,
    otherwise: u64,
}

impl Numbers {
    pub fn new(codec: Codec, has_donl: bool) -> Self {
        Numbers {
            codec,
            has_donl,
            last: None,
            pairs: 0,
            near: 0,
            rising: 0,
            begins: false,
            is_no_slice: false,
            taken: 0,
            otherwise: 0,
        }
    }

    /// An access unit is over.
    pub fn end_access_unit(&mut self) {
        self.begins = true;
    }

    /// A packet was taken.
    pub fn take(&mut self, packet: &[u8]) {
        self.taken += u64::from(is_aggregate(self.codec, packet));
        let Some((number, unit_type)) = number(self.codec, packet) else {
            return;
        };
        if let Some(last) = self.last.replace(number) {
            let ahead = number.wrapping_sub(last);
            self.pairs += 1;
            self.near += u64::from((1..=NEAR).contains(&ahead));
            self.rising += u64::from((1..=RISE).contains(&ahead));
        }
        if is_slice_type(self.codec, unit_type) && std::mem::take(&mut self.begins) {
            // The first bit of the first slice is 1 (H.265, 7.3.6.1; H.266, 7.3.7).
            self.is_no_slice |= number < 0x8000;
        }
    }

    /// A packet was refused.
    pub fn refuse(&mut self, packet: &[u8]) {
        let is_other = is_aggregate(self.codec, packet)
            && is_sound_aggregate(self.codec, !self.has_donl, packet);
        self.otherwise += u64::from(is_other);
    }

    /// What to do, where the packets look as if it were the other way.
    pub fn advice(&self) -> Option<&'static str> {
        let are_aggregates_refused = self.otherwise > 0 && self.taken == 0;
        if self.has_donl {
            let is_wrong = self.pairs >= FEW && self.rising * 4 < self.pairs;
            return (are_aggregates_refused || is_wrong).then_some(
                "its packets look as if they bore no decoding order numbers: try it without --donl",
            );
        }
        let is_wrong = self.pairs >= TELLING && self.near * 4 >= self.pairs * 3 && self.is_no_slice;
        (are_aggregates_refused || is_wrong)
            .then_some("its packets look as if they bore decoding order numbers: try --donl")
    }
}

/// What a packet has where its number would be, and the type of its unit; nothing of later fragments
/// and of PACI packets.
fn number(codec: Codec, packet: &[u8]) -> Option<(u16, u8)> {
    let (at, unit_type) = match (codec, unit_type(codec, packet)?) {
        (Codec::H264, _) | (Codec::H265, 50) => return None,
        (_, of_packet) => match fragment(codec, packet) {
            Some(it) if it.is_first => (3, it.unit_type),
            Some(_) => return None,
            None => (2, of_packet),
        },
    };
    let number = packet.get(at..)?.first_chunk()?;
    Some((u16::from_be_bytes(*number), unit_type))
}

/// Whether an aggregate has two units or more behind their sizes, and nothing else, where packets bear
/// numbers or where they don't.
fn is_sound_aggregate(codec: Codec, has_donl: bool, packet: &[u8]) -> bool {
    let (first, between) = match (codec, has_donl) {
        (_, false) => (2, 0),
        (Codec::H265, true) => (4, 1),
        (_, true) => (4, 0),
    };
    let mut rest = packet.get(first..);
    let mut units = 0;
    while let Some([high, low, behind @ ..]) = rest {
        let size = usize::from(u16::from_be_bytes([*high, *low]));
        let Some(behind) = behind.get(size..).filter(|_| size > 2) else {
            return false;
        };
        units += 1;
        rest = match behind.is_empty() {
            true => return units > 1,
            false => behind.get(between..),
        };
    }
    false
}
