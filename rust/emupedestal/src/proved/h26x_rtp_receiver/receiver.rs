// Made from crates/h26x_rtp_receiver/src/receiver.rt by tools/to-rust.

//! A receiver that takes datagrams and gives out access units.

use crate::proved::h26x_access_units::{
    AccessUnitConfig, AccessUnitReceiver, Counts, NackTimes, Nacks, Pushed, ReceivedAccessUnit,
    Receives,
};
use crate::proved::h26x_assembler::UnitsSoFar;
use crate::proved::h26x_core::PacketError;
use crate::proved::h26x_depacketizer::RunDepacketizer;
use crate::proved::h26x_reorder::RtpPacket;
use crate::proved::h26x_rtp::{ReportBlock, RtpDatagram, RtpHeader, RtpStatistics, is_rtcp};
use crate::proved::h26x_rtp_receiver::keyframes::KeyframeRequests;
use crate::proved::h26x_rtp_receiver::original::RtpOriginal;
use crate::proved::h26x_rtp_receiver::payload_types::{RtpPayloadTypes, StreamTypes};
use crate::proved::h26x_rtp_receiver::pushed::{RtpPushError, RtpPushed, RtpTaken};
use crate::proved::h26x_rtp_receiver::sources::{RtpSources, bears_missing};
use alloc::vec::Vec;

/// Takes the datagrams of one stream as they come and gives out access units.
#[derive(Debug)]
pub struct RtpReceiver<D: RunDepacketizer> {
    types: StreamTypes,
    sources: RtpSources,
    receiver: AccessUnitReceiver<D>,
    statistics: RtpStatistics,
    nacks: Nacks,
    keyframes: KeyframeRequests,
}

/// What a receiver of datagrams is to contracts.
pub trait ReceivesRtp {
    /// What its receiver of access units has counted.
    fn counts(&self) -> Counts;
}

impl<D: RunDepacketizer> ReceivesRtp for RtpReceiver<D> {
    fn counts(&self) -> Counts {
        self.receiver.counts()
    }
}

impl<D: RunDepacketizer> RtpReceiver<D> {
    /// A receiver of the stream of these payload types over a depacketizer, which follows the SSRC of
    /// the first packet of the codec or of RED. It takes no memory.
    pub(crate) fn new(depacketizer: D, types: RtpPayloadTypes, config: AccessUnitConfig) -> Self {
        RtpReceiver {
            types: StreamTypes::new(types),
            sources: RtpSources::none(),
            receiver: AccessUnitReceiver::new(depacketizer, config),
            statistics: RtpStatistics::new(),
            nacks: Nacks::new(),
            keyframes: KeyframeRequests::none(),
        }
    }

    /// Follows these sources from now on, as those of a new SSRC, or of a session description: all that
    /// waits or is open is dropped, as by `restart` of an `AccessUnitReceiver`, and statistics begin
    /// anew. What its receiver of access units has counted stays.
    pub fn follow(&mut self, sources: RtpSources) {
        self.sources = sources;
        self.receiver.restart();
        self.statistics = RtpStatistics::new();
        self.nacks.clear();
        self.keyframes = KeyframeRequests::none();
    }

    /// The SSRCs that are followed, as far as they are known.
    pub fn sources(&self) -> RtpSources {
        self.sources
    }

    /// Whether a packet is of the stream.
    fn is_followed(&self, packet: RtpDatagram<'_>) -> Result<bool, PacketError> {
        match self.sources.tell(self.types.all(), packet) {
            Some(is_followed) => Ok(is_followed),
            None => {
                let missing = self.receiver.missing()?;
                Ok(bears_missing(&missing, packet))
            }
        }
    }

    /// What is told of a packet of another source.
    fn other_source(&self, header: RtpHeader<'_>) -> RtpPushed {
        if self.types.all().begins(header.payload_type) {
            RtpPushed::NewSource(header.ssrc)
        } else {
            RtpPushed::OtherSource(header.ssrc)
        }
    }

    /// Takes a datagram that came at this tick, `now` of the receiver's ticks, and `arrival` of the
    /// timestamps' clock, for the jitter: a packet of the stream is given to an `AccessUnitReceiver`,
    /// RTX and RED undone. One that bears nothing of the codec has a number of the stream all the same,
    /// as padding, FEC or another payload type. Where the SSRC of retransmissions isn't known, it is
    /// that of the first that bears a missing number (RFC 4588, 5.3): where several streams of a
    /// session may miss the same number at a time, `follow` is to tell it. Without memory all stays as
    /// it was.
    pub fn try_push(
        &mut self,
        now: u32,
        arrival: u32,
        datagram: &[u8],
    ) -> Result<RtpPushed, RtpPushError> {
        if self.types.may_be_plain(datagram) {
            if let Ok(packet) = RtpDatagram::read(datagram) {
                if self.is_plain(packet) {
                    return self.push_plain(now, arrival, packet);
                }
            }
        }
        self.push_datagram(now, arrival, datagram)
    }

    /// Takes any datagram.
    #[inline(never)]
    fn push_datagram(
        &mut self,
        now: u32,
        arrival: u32,
        datagram: &[u8],
    ) -> Result<RtpPushed, RtpPushError> {
        if is_rtcp(datagram) {
            return Ok(RtpPushed::Rtcp);
        }
        match RtpDatagram::read(datagram) {
            Ok(packet) => self.push_packet(now, arrival, packet),
            Err(e) => Err(RtpPushError::Rtp(e)),
        }
    }

    /// Takes an RTP packet.
    fn push_packet(
        &mut self,
        now: u32,
        arrival: u32,
        packet: RtpDatagram<'_>,
    ) -> Result<RtpPushed, RtpPushError> {
        match self.is_followed(packet) {
            Ok(true) => self.push_followed(now, arrival, packet),
            Ok(false) => Ok(self.other_source(packet.header)),
            Err(e) => Err(RtpPushError::Packet(e)),
        }
    }

    /// Whether a packet of the SSRC that is followed bears the codec's payload by itself, as nearly all
    /// do: neither RTX nor RED is to be undone.
    #[inline(always)]
    fn is_plain(&self, packet: RtpDatagram<'_>) -> bool {
        let header = packet.header;
        self.sources.is_media(header.ssrc)
            && self.types.is_plain(header.payload_type)
            && !packet.payload.is_empty()
    }

    /// Takes a packet that bears the codec's payload by itself.
    #[inline(always)]
    fn push_plain(
        &mut self,
        now: u32,
        arrival: u32,
        packet: RtpDatagram<'_>,
    ) -> Result<RtpPushed, RtpPushError> {
        self.push_itself(now, arrival, packet)
    }

    /// Takes a packet that brings itself, whose SSRC is known.
    #[inline(always)]
    fn push_itself(
        &mut self,
        now: u32,
        arrival: u32,
        packet: RtpDatagram<'_>,
    ) -> Result<RtpPushed, RtpPushError> {
        let header = packet.header;
        let payload = packet.payload;
        let original = RtpPacket {
            sequence: header.sequence,
            timestamp: header.timestamp,
            marker: header.marker,
            payload,
        };
        match self.receiver.try_push(now, &original) {
            Ok(pushed) => {
                self.statistics
                    .receive(arrival, header.sequence, header.timestamp, payload.len());
                Ok(RtpPushed::Packet(RtpTaken {
                    sequence: header.sequence,
                    is_recovered: false,
                    no_media: None,
                    pushed,
                }))
            }
            Err(e) => Err(RtpPushError::Packet(e)),
        }
    }

    /// Takes an RTP packet of the stream.
    fn push_followed(
        &mut self,
        now: u32,
        arrival: u32,
        packet: RtpDatagram<'_>,
    ) -> Result<RtpPushed, RtpPushError> {
        match RtpOriginal::read(self.types.all(), packet) {
            Ok(Some(original)) => self.push_original(now, arrival, packet, original),
            Ok(None) => Ok(RtpPushed::Probe),
            Err(e) => Err(RtpPushError::Red(e)),
        }
    }

    /// Takes what an RTP packet of the stream brings.
    fn push_original(
        &mut self,
        now: u32,
        arrival: u32,
        packet: RtpDatagram<'_>,
        original: RtpOriginal<'_>,
    ) -> Result<RtpPushed, RtpPushError> {
        match self.receiver.try_push(now, &original.packet) {
            Ok(pushed) => {
                self.sources = self.sources.with(packet.header.ssrc);
                self.count(arrival, packet, original.is_recovered, pushed);
                Ok(RtpPushed::Packet(RtpTaken {
                    sequence: original.packet.sequence,
                    is_recovered: original.is_recovered,
                    no_media: original.no_media,
                    pushed,
                }))
            }
            Err(e) => Err(RtpPushError::Packet(e)),
        }
    }

    /// Counts a packet of the stream.
    fn count(&mut self, arrival: u32, packet: RtpDatagram<'_>, is_recovered: bool, pushed: Pushed) {
        if !is_recovered {
            let header = packet.header;
            let size = packet.payload.len();
            self.statistics
                .receive(arrival, header.sequence, header.timestamp, size);
        } else if is_kept(pushed) {
            self.statistics.recover();
        }
    }

    /// The next access unit, if one has ended at this tick, as of an `AccessUnitReceiver`. Call it
    /// until it gives out none, after each `push`, and at `deadline`.
    #[inline]
    pub fn next(&mut self, now: u32) -> Result<Option<ReceivedAccessUnit>, PacketError> {
        let unit = self.receiver.next(now);
        if let Ok(Some(unit)) = &unit {
            self.keyframes = self.keyframes.after(unit.is_clean, unit.is_disposable);
        }
        unit
    }

    /// The numbers to ask for at this tick by a NACK, which count as asked for: the first so many of
    /// those that are due, as `Nacks` tells them (RFC 4585, 6.2.1).
    pub fn nacks(
        &mut self,
        now: u32,
        times: NackTimes,
        most: usize,
    ) -> Result<Vec<u16>, PacketError> {
        let missing = self.receiver.missing()?;
        self.nacks.due(&missing, times, now, most)
    }

    /// Whether to ask for a keyframe at this tick, by a PLI or a FIR, which then counts as asked for:
    /// by the access units that were given out no decoder can go on, and none was asked for in the last
    /// `again` ticks, in which it may be on its way: a round trip and a keyframe at least.
    pub fn keyframe_wanted(&mut self, now: u32, again: u32) -> bool {
        self.keyframes.ask(again, now)
    }

    /// What is counted of the packets of the SSRC that is followed (RFC 3550, 6.4.1).
    pub fn statistics(&self) -> RtpStatistics {
        self.statistics
    }

    /// What is reported of the SSRC that is followed, if it is known, with the part of packets that was
    /// lost since the last report; the last two are 0 where no sender report came (RFC 3550, 6.4.1).
    pub fn report(&mut self, last_sender_report: u32, delay: u32) -> Option<ReportBlock> {
        let ssrc = self.sources.media?;
        Some(self.statistics.report(ssrc, last_sender_report, delay))
    }

    /// At the end of the stream: all that waits is due, and then the open access unit ends.
    pub fn finish(&mut self) {
        self.receiver.finish();
    }

    /// Takes back an access unit that was given out, for its memory.
    pub fn give_back(&mut self, unit: ReceivedAccessUnit) {
        self.receiver.give_back(unit);
    }

    /// The NAL units that came whole so far of the access unit that is open, as those of an
    /// `AccessUnitReceiver`.
    pub fn units_so_far(&self) -> Option<UnitsSoFar<'_>> {
        self.receiver.units_so_far()
    }

    /// When to call `next` again at the latest, in the receiver's ticks, if packets wait.
    pub fn deadline(&self) -> Option<u32> {
        self.receiver.deadline()
    }

    /// The settings of what waits.
    pub fn config(&self) -> AccessUnitConfig {
        self.receiver.config()
    }

    /// Has other settings from now on.
    pub(crate) fn set_config(&mut self, config: AccessUnitConfig) {
        self.receiver.set_config(config);
    }
}

/// Whether a packet of which this became is kept.
fn is_kept(pushed: Pushed) -> bool {
    match pushed {
        Pushed::Late(_) | Pushed::Twice | Pushed::Full => false,
        Pushed::Held | Pushed::Stray | Pushed::Jumped | Pushed::Anew => true,
    }
}
