// Made from crates/h26x_handles/src/rtp_receiver.rt by tools/to-rust.

//! A receiver of access units, of datagrams as a socket brings them, and the access unit that had no
//! room where it was to be written.

use crate::proved::h26x_access_units::{AccessUnitConfig, Counts, NackTimes, ReceivedAccessUnit};
use crate::proved::h26x_assembler::UnitsSoFar;
use crate::proved::h26x_codec::{AnyPayloadDepacketizer, Codec};
use crate::proved::h26x_codes::copy::{copy_first, copy_where_room};
use crate::proved::h26x_core::PacketError;
use crate::proved::h26x_handles::access_units::{NextAnswer, told_of};
use crate::proved::h26x_rtp::{ReportBlock, RtpStatistics};
use crate::proved::h26x_rtp_receiver::{
    ReceivesRtp, RtpPayloadTypes, RtpPushError, RtpPushed, RtpReceiver, RtpSources,
};

/// A receiver of datagrams of a codec's stream, and the access unit that had no room where it was to be
/// written.
pub struct RtpReceiverEndpoint {
    codec: Codec,
    receiver: RtpReceiver<AnyPayloadDepacketizer>,
    left: Option<ReceivedAccessUnit>,
}

/// What such an endpoint is to contracts.
pub trait GivesRtpUnits {
    /// What was counted.
    fn counts(&self) -> Counts;
}

impl GivesRtpUnits for RtpReceiverEndpoint {
    fn counts(&self) -> Counts {
        self.receiver.counts()
    }
}

impl RtpReceiverEndpoint {
    /// A receiver of the stream of these payload types, which follows the SSRC of the first packet of
    /// the codec or of RED.
    pub(crate) fn new(
        codec: Codec,
        has_donl: bool,
        is_avc: bool,
        types: RtpPayloadTypes,
        config: AccessUnitConfig,
    ) -> Self {
        let mut depacketizer = AnyPayloadDepacketizer::new(codec);
        depacketizer.with_donl(has_donl);
        depacketizer.is_avc = is_avc;
        RtpReceiverEndpoint {
            codec,
            receiver: RtpReceiver::new(depacketizer, types, config),
            left: None,
        }
    }

    /// Has other settings from now on; the answer is whether the window is in range, where nothing
    /// changes if not.
    pub fn set_config(&mut self, config: AccessUnitConfig) -> bool {
        if config.window == 0 || config.window > 1 << 14 {
            return false;
        }
        self.receiver.set_config(config);
        true
    }

    /// Follows these sources from now on: all that waits or is open is dropped, and statistics begin
    /// anew. The access unit that had no room stays.
    pub fn follow(&mut self, sources: RtpSources) {
        self.receiver.follow(sources);
    }

    /// The SSRCs that are followed, as far as they are known.
    pub fn sources(&self) -> RtpSources {
        self.receiver.sources()
    }

    /// Takes a datagram that came at this tick, and at this one of the timestamps' clock. A refusal
    /// leaves all as it was.
    pub fn try_push(
        &mut self,
        now: u32,
        arrival: u32,
        datagram: &[u8],
    ) -> Result<RtpPushed, RtpPushError> {
        self.receiver.try_push(now, arrival, datagram)
    }

    /// The next access unit, if one has ended at this tick: the one that had no room, or what the
    /// receiver gives out. It goes to the caller's memory where there is room for it, and else is kept
    /// for the next call. Without memory the packet for which it lacks is due still.
    pub fn next(&mut self, now: u32, to: &mut [u8]) -> Result<NextAnswer, PacketError> {
        if let Some(unit) = self.left.take() {
            return Ok(self.give(unit, to));
        }
        let Some(unit) = self.receiver.next(now)? else {
            return Ok(NextAnswer::NothingYet);
        };
        Ok(self.give(unit, to))
    }

    /// Gives out an access unit where there is room for it, and takes its memory back; else keeps it.
    fn give(&mut self, unit: ReceivedAccessUnit, to: &mut [u8]) -> NextAnswer {
        let told = told_of(&unit);
        if copy_where_room(&unit.bytes, to) > to.len() {
            self.left = Some(unit);
            return NextAnswer::NoRoom(told);
        }
        self.receiver.give_back(unit);
        NextAnswer::Written(told)
    }

    /// When to ask for the next access unit at the latest, in the caller's ticks, if packets wait.
    pub fn deadline(&self) -> Option<u32> {
        self.receiver.deadline()
    }

    /// What came whole so far of the access unit that is open.
    pub fn units_so_far(&self) -> Option<UnitsSoFar<'_>> {
        if self.left.is_some() {
            return None;
        }
        self.receiver.units_so_far()
    }

    /// Copies the missing numbers that are to be asked for at this tick, in order, as many as there is
    /// room for, which count as asked for; how many they are.
    pub fn nacks(
        &mut self,
        now: u32,
        times: NackTimes,
        to: &mut [u16],
    ) -> Result<usize, PacketError> {
        let asked = self.receiver.nacks(now, times, to.len())?;
        Ok(copy_first(&asked, to))
    }

    /// Whether to ask for a keyframe at this tick, which then counts as asked for.
    pub fn keyframe_wanted(&mut self, now: u32, again: u32) -> bool {
        self.receiver.keyframe_wanted(now, again)
    }

    /// What is counted of the packets of the SSRC that is followed.
    pub fn statistics(&self) -> RtpStatistics {
        self.receiver.statistics()
    }

    /// What is reported of the SSRC that is followed, if it is known.
    pub fn report(&mut self, last_sender_report: u32, delay: u32) -> Option<ReportBlock> {
        self.receiver.report(last_sender_report, delay)
    }

    /// At the end of the stream: all that waits is due, and then the open access unit ends.
    pub fn finish(&mut self) {
        self.receiver.finish();
    }
}
