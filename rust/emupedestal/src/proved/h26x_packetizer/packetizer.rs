// Made from crates/h26x_packetizer/src/packetizer.rt by tools/to-rust.

//! The packets of payloads, for every codec.

use crate::proved::h26x_core::{PacketError, Packetizer};
use crate::proved::h26x_packetizer::buffer::{Appending, PacketBuffer};
use crate::proved::h26x_packetizer::packet_parts::PacketParts;
use crate::proved::h26x_packetizer::placement::{PacketsSize, Placement, place, size_of};
use crate::proved::h26x_packetizer::sink::PacketSink;
use crate::proved::h26x_packetizer::units::{Outgoing, push_outgoing};
use crate::proved::h26x_packetizer::update::Update;
use crate::proved::h26x_payload::{DonlFormat, PayloadFormat, Sets, UnitKind};
use crate::support::TrySlice;
use alloc::vec::Vec;

/// The largest packet size of a new packetizer, in bytes.
const FIRST_LARGEST: u16 = 1200;

/// What a payload has brought so far: whether the sets from before were sent, and the sets since.
#[derive(Clone, Copy)]
pub struct Brought<'a> {
    are_sent: bool,
    vps: Option<&'a [u8]>,
    sps: Option<&'a [u8]>,
    pps: Option<&'a [u8]>,
}

/// Sends the units of payloads (RFC 6184, 5 and 6.3; RFC 7798, 4.4 and 5; RFC 9328, 4.3 and 5).
///
/// A unit that fits goes alone, a longer one in fragments. Parameter sets wait, each the latest of
/// its kind, and go before the next other unit once there are an SPS and a PPS.
pub struct PayloadPacketizer<C: PayloadFormat> {
    pub(crate) codec: C,
    vps: Option<Vec<u8>>,
    sps: Option<Vec<u8>>,
    pps: Option<Vec<u8>>,
    pub(crate) next_don: u16,
    max_packet_size: u16,
}

/// Of bytes it tells how many there are.
impl<C: PayloadFormat> core::fmt::Debug for PayloadPacketizer<C> {
    fn fmt(&self, f: &mut core::fmt::Formatter<'_>) -> core::fmt::Result {
        use crate::support::Count;
        f.debug_struct("PayloadPacketizer")
            .field("codec", &self.codec)
            .field("vps", &self.vps.as_ref().map(|it| Count(it.len())))
            .field("sps", &self.sps.as_ref().map(|it| Count(it.len())))
            .field("pps", &self.pps.as_ref().map(|it| Count(it.len())))
            .field("next_don", &self.next_don)
            .field("max_packet_size", &self.max_packet_size)
            .finish()
    }
}

/// The latest set, if one waits.
fn newest_of<'a>(
    old: &'a Option<Vec<u8>>,
    are_sent: bool,
    brought: Option<&'a [u8]>,
) -> Option<&'a [u8]> {
    match brought {
        Some(set) => Some(set),
        None => {
            if are_sent {
                None
            } else {
                match old {
                    Some(set) => Some(set.as_slice()),
                    None => None,
                }
            }
        }
    }
}

/// A copy of a set, if there is one.
fn copied(set: Option<&[u8]>) -> Result<Option<Vec<u8>>, PacketError> {
    match set {
        Some(set) => Ok(Some(set.try_to_vec()?)),
        None => Ok(None),
    }
}

/// Puts the latest set in place.
fn replace_set(set: &mut Option<Vec<u8>>, are_sent: bool, brought: Option<Vec<u8>>) {
    if are_sent || brought.is_some() {
        *set = brought;
    }
}

impl<C: PayloadFormat> PayloadPacketizer<C> {
    /// A packetizer for which nothing waits.
    pub fn new() -> Self {
        PayloadPacketizer::with_codec(C::new())
    }

    /// A packetizer of this setting for which nothing waits.
    pub fn with_codec(codec: C) -> Self {
        PayloadPacketizer {
            codec,
            vps: None,
            sps: None,
            pps: None,
            next_don: 0,
            max_packet_size: FIRST_LARGEST,
        }
    }

    /// A packetizer with the same setting, sets that wait, next number and largest packet size.
    /// `OutOfMemory` is its only error.
    pub fn try_clone(&self) -> Result<Self, PacketError> {
        let vps = copied(self.vps.as_deref())?;
        let sps = copied(self.sps.as_deref())?;
        let pps = copied(self.pps.as_deref())?;
        Ok(PayloadPacketizer {
            codec: self.codec,
            vps,
            sps,
            pps,
            next_don: self.next_don,
            max_packet_size: self.max_packet_size,
        })
    }

    /// The limit of a call.
    pub(crate) fn limit(&self, mtu: usize) -> usize {
        if self.codec.has_max_packet_size() {
            mtu.min(usize::from(self.max_packet_size))
        } else {
            mtu
        }
    }

    /// What goes out when this unit of a payload comes, with the sets that wait then.
    fn next_outgoing<'a>(&'a self, unit: &'a [u8], brought: &mut Brought<'a>) -> Outgoing<'a> {
        match self.codec.kind_of(unit) {
            UnitKind::Skipped => Outgoing::Nothing,
            UnitKind::Vps => {
                brought.vps = Some(unit);
                Outgoing::Nothing
            }
            UnitKind::Sps => {
                brought.sps = Some(unit);
                Outgoing::Nothing
            }
            UnitKind::Pps => {
                brought.pps = Some(unit);
                Outgoing::Nothing
            }
            UnitKind::Other => {
                let vps = newest_of(&self.vps, brought.are_sent, brought.vps);
                let sps = newest_of(&self.sps, brought.are_sent, brought.sps);
                let pps = newest_of(&self.pps, brought.are_sent, brought.pps);
                match (sps, pps) {
                    (Some(sps), Some(pps)) => {
                        *brought = Brought {
                            are_sent: true,
                            vps: None,
                            sps: None,
                            pps: None,
                        };
                        Outgoing::SetsAndUnit(Sets { vps, sps, pps })
                    }
                    _ => Outgoing::Unit,
                }
            }
        }
    }

    /// Appends the packets of a payload, and tells what it brought and the next number.
    fn push_payload<'a, S: PacketSink<'a>>(
        &'a self,
        limit: usize,
        b: &'a [u8],
        made: &mut S,
    ) -> Result<(Brought<'a>, u16), PacketError> {
        let mut brought = Brought {
            are_sent: false,
            vps: None,
            sps: None,
            pps: None,
        };
        let mut don = self.next_don;
        for unit in self.codec.units_in(b) {
            let outgoing = self.next_outgoing(unit, &mut brought);
            don = push_outgoing(self.codec, limit, don, unit, outgoing, made)?;
        }
        Ok((brought, don))
    }

    /// Appends the packets of a payload, and tells what the call changes.
    fn prepare<'a, S: PacketSink<'a>>(
        &'a self,
        mtu: usize,
        b: &'a [u8],
        made: &mut S,
    ) -> Result<Update, PacketError> {
        if mtu < self.codec.least_mtu() {
            return Ok(Update::number(self.next_don));
        }
        let (brought, next_don) = self.push_payload(self.limit(mtu), b, made)?;
        let vps = copied(brought.vps)?;
        let sps = copied(brought.sps)?;
        let pps = copied(brought.pps)?;
        let next_don = if self.codec.has_donl() {
            next_don
        } else {
            self.next_don
        };
        Ok(Update {
            are_sent: brought.are_sent,
            vps,
            sps,
            pps,
            next_don,
        })
    }

    /// Carries out a call.
    pub(crate) fn commit(&mut self, update: Update) {
        replace_set(&mut self.vps, update.are_sent, update.vps);
        replace_set(&mut self.sps, update.are_sent, update.sps);
        replace_set(&mut self.pps, update.are_sent, update.pps);
        self.next_don = update.next_don;
    }

    /// Appends the packets of a payload to a buffer, in order, each within the limit of the call and
    /// behind its headroom, which the limit doesn't count.
    ///
    /// They are those of [`packetize`](Packetizer::packetize), and what waits afterwards is what waits
    /// after it. `OutOfMemory` is its only error, and leaves everything.
    pub fn packetize_into(
        &mut self,
        mtu: usize,
        b: &[u8],
        into: &mut PacketBuffer,
    ) -> Result<(), PacketError> {
        let mut made = Appending::from_buffer(into);
        match self.prepare(mtu, b, &mut made) {
            Ok(update) => {
                made.finish(into)?;
                self.commit(update);
                Ok(())
            }
            Err(e) => {
                made.give_up(into);
                Err(e)
            }
        }
    }

    /// How much memory the packets of a payload take, each behind `headroom` bytes, as
    /// [`packetize_to_memory`](PayloadPacketizer::packetize_to_memory) would place them now. Nothing
    /// changes. `OutOfMemory` is its only error.
    pub fn packets_size<'a>(
        &'a self,
        mtu: usize,
        b: &'a [u8],
        headroom: usize,
    ) -> Result<PacketsSize, PacketError> {
        let mut made: Vec<PacketParts<'a>> = Vec::new();
        self.prepare(mtu, b, &mut made)?;
        Ok(size_of(&made, headroom))
    }

    /// Copies the packets of a payload to memory where they fit, and tells what the call changes.
    fn prepare_placed<'a>(
        &'a self,
        mtu: usize,
        b: &'a [u8],
        headroom: usize,
        to: &mut [u8],
        ends: &mut [usize],
    ) -> Result<(Placement, Update), PacketError> {
        let mut made: Vec<PacketParts<'a>> = Vec::new();
        let update = self.prepare(mtu, b, &mut made)?;
        Ok((place(&made, headroom, to, ends), update))
    }

    /// Copies the packets of a payload straight to memory of the caller, one behind the other, each
    /// behind `headroom` bytes that stay as they are, and writes to `ends` where each ends.
    ///
    /// They are those of [`packetize`](Packetizer::packetize), and what waits afterwards is what waits
    /// after it. Where they don't fit in `to`, or their ends in `ends`, nothing is done, and the answer
    /// says how much room they want. `OutOfMemory` is its only error, and leaves everything.
    pub fn packetize_to_memory(
        &mut self,
        mtu: usize,
        b: &[u8],
        headroom: usize,
        to: &mut [u8],
        ends: &mut [usize],
    ) -> Result<Placement, PacketError> {
        let (placement, update) = self.prepare_placed(mtu, b, headroom, to, ends)?;
        if let Placement::Placed(_) = placement {
            self.commit(update);
        }
        Ok(placement)
    }
}

impl<C: DonlFormat> PayloadPacketizer<C> {
    /// Turns decoding order numbers on, which begin at 0, or off (RFC 7798, 4.6; RFC 9328, 4.4).
    /// Sets that wait stay.
    pub fn with_donl(&mut self, has_donl: bool) {
        self.codec = self.codec.with_donl(has_donl);
        self.next_don = 0;
    }

    /// Sets the largest packet size, in bytes, 4 or more: no packet of a later call is longer. It
    /// is 1200 at first.
    ///
    /// # Panics
    ///
    /// Unless `4 <= n`.
    pub fn with_max_packet_size(&mut self, n: u16) {
        assert!(4 <= n);
        self.max_packet_size = n;
    }
}

impl<C: PayloadFormat> Packetizer for PayloadPacketizer<C> {
    /// The packets of a payload, in order, each within the limit of the call.
    ///
    /// Sets that wait from earlier calls go before the first unit that makes them due. Where no
    /// fragment has room for data a longer unit is dropped. A payload of skipped units alone, or
    /// any under the least `mtu`, has no packets, takes no memory and changes nothing.
    ///
    /// `OutOfMemory` is its only error, and leaves everything.
    fn packetize(&mut self, mtu: usize, b: &[u8]) -> Result<Vec<Vec<u8>>, PacketError> {
        let mut made = Vec::new();
        let update = self.prepare(mtu, b, &mut made)?;
        self.commit(update);
        Ok(made)
    }

    /// The marker bit stands on the last packet of an access unit (RFC 6184, 5.1; RFC 7798, 4.1;
    /// RFC 9328, 4.1).
    fn is_marker(&mut self, _data: &[u8], _previous: Option<&[u8]>, last: bool) -> bool {
        last
    }

    /// The marker bit marks no talkspurt.
    fn marks_talkspurt(&self) -> bool {
        false
    }

    /// A receiver may ask for a lost packet again (RFC 4585, 6.2.1).
    fn nackable(&self) -> bool {
        true
    }
}
