//! Packets of every unit of an access unit.

use super::{H264Packetizer, H265Packetizer, H266Packetizer, make_into};
use crate::proved::h26x_codec::refused_among_all;
use crate::proved::h26x_cut;
use crate::support::{AllocError, TryVec};
use crate::{Codec, EveryUnitError, Packets, PacketsSize, Packing, WhyRefused};
use alloc::vec::Vec;
use core::error::Error;
use core::fmt;

impl fmt::Display for EveryUnitError {
    fn fmt(&self, f: &mut fmt::Formatter<'_>) -> fmt::Result {
        let unit = match self {
            EveryUnitError::Unit(unit) => unit,
            EveryUnitError::OutOfMemory => return f.write_str("out of memory"),
        };
        let why = match unit.why {
            WhyRefused::WithoutHeader => "has no whole header",
            WhyRefused::Forbidden => "has the forbidden bit set",
            WhyRefused::OfPacketType => "has a type of packets",
            WhyRefused::TooLong => "is too long for a packet",
        };
        write!(f, "unit {} of {} bytes {why}", unit.place, unit.len)
    }
}

impl Error for EveryUnitError {}

/// Fewer units than so many take no memory: few access units have more.
const FEW_UNITS: usize = 16;

/// What a call answers of the units of an access unit in Annex B form, a refused one by its place among
/// all.
fn with_units<T>(
    codec: Codec,
    delimiters: bool,
    access_unit: &[u8],
    call: impl FnOnce(&[&[u8]]) -> Result<T, EveryUnitError>,
) -> Result<T, EveryUnitError> {
    if delimiters {
        return with_sent(codec, |_| true, access_unit, call);
    }
    let sends = |unit: &&[u8]| !codec.is_delimiter(unit);
    with_sent(codec, sends, access_unit, call)
        .map_err(|error| refused_among_all(codec, delimiters, access_unit, error))
}

/// What a call answers of those of them that are sent, a refused one by its place among these.
fn with_sent<T>(
    codec: Codec,
    sends: impl Fn(&&[u8]) -> bool,
    access_unit: &[u8],
    call: impl FnOnce(&[&[u8]]) -> Result<T, EveryUnitError>,
) -> Result<T, EveryUnitError> {
    let mut units = h26x_cut::units(access_unit, codec.zero_rule()).filter(sends);
    let Some(first) = units.next() else {
        return call(&[]);
    };
    // (most streams have one unit here: no list is filled for it)
    let Some(second) = units.next() else {
        return call(&[first]);
    };
    let mut few = [first; FEW_UNITS];
    few[1] = second;
    for count in 2..FEW_UNITS {
        match units.next() {
            Some(unit) => few[count] = unit,
            None => return call(&few[..count]),
        }
    }
    call(&all_of(&few, units)?)
}

/// The first units, and those behind them.
#[cold]
#[inline(never)]
fn all_of<'a>(
    first: &[&'a [u8]],
    rest: impl Iterator<Item = &'a [u8]>,
) -> Result<Vec<&'a [u8]>, AllocError> {
    let mut all = Vec::try_with_room(4 * first.len())?;
    all.extend_from_slice(first);
    for unit in rest {
        all.try_push(unit)?;
    }
    Ok(all)
}

macro_rules! every_unit {
    ($name:ident, $codec:ident) => {
        impl $name {
            /// The RTP payloads of the NAL units of one access unit: every unit, in order, as it is.
            ///
            /// A unit stands without its start code, and none is looked for in it. Those that
            /// `packing` lets share a packet go together where they fit (RFC 6184, 5.7.1; RFC 7798,
            /// 4.4.2; RFC 9328, 4.3.2), and one that is longer than a packet goes in fragments. No
            /// sender that brings these units needs fewer packets than by [`Packing::Together`].
            /// `mtu` and the largest packet size count as in
            /// [`packetize`](crate::Packetizer::packetize), and with decoding order numbers each unit
            /// takes one.
            ///
            /// # Which call
            ///
            /// This one, or [`packetize_access_unit`](Self::packetize_access_unit), for what an encoder
            /// made; `packetize` for what str0m sends. One stream uses one of them: sets that wait in
            /// the packetizer stay, and go before the next picture that `packetize` gets.
            /// A call takes one access unit, since a packet has one timestamp. Where a packet is lost,
            /// so are all units in it: by [`Packing::Apart`] slices are lost one by one.
            ///
            /// # Errors
            ///
            /// The first unit that can't go, by its place from 0 and its length in bytes: without a
            /// whole header (of one byte of H.264, two of the others), with F set, of a type that no unit has,
            /// or too long where no fragment may go or has room for data. Nothing is sent then. Else
            /// `OutOfMemory` alone. Both leave the packetizer as it is.
            ///
            /// A unit of H.265 or H.266 that is a bare header of two bytes, as an end of sequence, goes
            /// in an aggregate where it can. Depacketizers here refuse it alone, as
            /// [`packetize`](crate::Packetizer::packetize) tells.
            pub fn packetize_units(
                &mut self,
                packing: Packing,
                mtu: usize,
                units: &[&[u8]],
            ) -> Result<Vec<Vec<u8>>, EveryUnitError> {
                self.inner.packetize_units(packing, mtu, units)
            }

            /// The packets of [`packetize_units`](Self::packetize_units) in the place of those in
            /// `packets`, whose memory is used again. A refusal leaves `packets`.
            pub fn packetize_units_into(
                &mut self,
                packing: Packing,
                mtu: usize,
                units: &[&[u8]],
                packets: &mut Packets,
            ) -> Result<(), EveryUnitError> {
                make_into(packets, |headroom, to, ends| {
                    self.inner
                        .packetize_units_to_memory(packing, mtu, units, headroom, to, ends)
                })
            }

            /// How many packets [`packetize_units_into`](Self::packetize_units_into) would make of units,
            /// and how many bytes they take with `headroom` bytes before each. Nothing changes, and units
            /// are refused as there.
            pub fn units_size(
                &self,
                packing: Packing,
                mtu: usize,
                units: &[&[u8]],
                headroom: usize,
            ) -> Result<PacketsSize, EveryUnitError> {
                self.inner.units_size(packing, mtu, units, headroom)
            }

            /// Sets whether the calls that take an access unit send access unit delimiters and filler data,
            /// of which a decoder needs nothing ([`Codec::is_delimiter`]). They do at first; else an access
            /// unit is sent as if these units weren't there, but that a unit that can't go is told by its
            /// place among all. A stream of H.266 of several layers has to have its delimiters (H.266,
            /// 7.4.2.4). Calls that take a list of units send those of the list.
            pub fn with_delimiters(&mut self, delimiters: bool) {
                self.delimiters = delimiters;
            }

            /// The RTP payloads of the units of one access unit in Annex B form, cut as
            /// [`units`](crate::units) does, as [`packetize_units`](Self::packetize_units) makes and
            /// refuses them; [`with_delimiters`](Self::with_delimiters) says whether all are sent. An empty
            /// text has none.
            pub fn packetize_access_unit(
                &mut self,
                packing: Packing,
                mtu: usize,
                access_unit: &[u8],
            ) -> Result<Vec<Vec<u8>>, EveryUnitError> {
                with_units(Codec::$codec, self.delimiters, access_unit, |units| {
                    self.packetize_units(packing, mtu, units)
                })
            }

            /// The packets of [`packetize_access_unit`](Self::packetize_access_unit) in the place of
            /// those in `packets`, whose memory is used again. A refusal leaves `packets`.
            pub fn packetize_access_unit_into(
                &mut self,
                packing: Packing,
                mtu: usize,
                access_unit: &[u8],
                packets: &mut Packets,
            ) -> Result<(), EveryUnitError> {
                with_units(Codec::$codec, self.delimiters, access_unit, |units| {
                    self.packetize_units_into(packing, mtu, units, packets)
                })
            }

            /// How many packets [`packetize_access_unit_into`](Self::packetize_access_unit_into) would
            /// make of an access unit, and how many bytes they take with `headroom` bytes before each.
            /// Nothing changes, and units are refused as there.
            pub fn access_unit_size(
                &self,
                packing: Packing,
                mtu: usize,
                access_unit: &[u8],
                headroom: usize,
            ) -> Result<PacketsSize, EveryUnitError> {
                with_units(Codec::$codec, self.delimiters, access_unit, |units| {
                    self.units_size(packing, mtu, units, headroom)
                })
            }
        }
    };
}

every_unit!(H264Packetizer, H264);
every_unit!(H265Packetizer, H265);
every_unit!(H266Packetizer, H266);
