//! The datagrams of one stream as a socket brings them, and out of them access units: RTX (RFC 4588) and RED (RFC 2198)
//! are undone, and it is told which numbers and when a keyframe to ask for (RFC 4585), and what to report (RFC 3550).
//!
//! ```
//! use emupedestal::rtp::{RtpDatagram, RtpHeader};
//! use emupedestal::rtp_receiver::{RtpPayloadTypes, RtpPushed, RtpReceiver, RtpSources};
//! use emupedestal::{AccessUnitConfig, Codec};
//!
//! let types = RtpPayloadTypes { media: 96, rtx: Some(97), red: None, rtx_of_red: None, fec: None };
//! let mut receiver = RtpReceiver::new(Codec::H264, types, AccessUnitConfig::default());
//! receiver.follow(RtpSources { media: Some(1), rtx: Some(2) });
//! let header = RtpHeader {
//!     marker: true,
//!     payload_type: 96,
//!     sequence: 7,
//!     timestamp: 3000,
//!     ssrc: 1,
//!     csrcs: &[],
//!     extension: None,
//! };
//! // Parameter sets and a keyframe in one packet, which comes as a retransmission alone.
//! let key = [0x78, 0, 4, 0x67, 0x42, 0xc0, 0x1f, 0, 2, 0x68, 0xce, 0, 2, 0x65, 0x88];
//! let sent = RtpDatagram { header, payload: &key, padding: &[] };
//! let mut datagram = [0; 1500];
//! let len = sent.write_rtx(97, 500, 2, &mut datagram)?;
//! match receiver.push(0, 0, &datagram[..len])? {
//!     RtpPushed::Packet(taken) => assert!(taken.is_recovered && taken.sequence == 7),
//!     other => panic!("{other:?}"),
//! }
//! let unit = receiver.next(0)?.unwrap();
//! assert!(unit.is_whole && unit.is_clean);
//! assert!(!receiver.keyframe_wanted(0, 500));
//! # Ok::<(), Box<dyn std::error::Error>>(())
//! ```

use crate::access_unit_receiver::{
    AccessUnitConfig, Counts, NackTimes, ReceivedAccessUnit, UnitsSoFar, check_window,
};
use crate::proved::h26x_codec::AnyPayloadDepacketizer;
use crate::proved::h26x_rtp_receiver::ReceivesRtp as _;
use crate::proved::h26x_rtp_receiver::RtpReceiver as Receiver;
use crate::rtp::{ReportBlock, RtpStatistics};
use crate::{Codec, PacketError};
use alloc::vec::Vec;

pub use crate::proved::h26x_rtp_receiver::{
    NoMedia, RtpOriginal, RtpPayloadTypes, RtpPushError, RtpPushed, RtpSources, RtpTaken,
};

/// A receiver of the datagrams of one stream of any codec: an [`AccessUnitReceiver`](crate::AccessUnitReceiver) that is
/// given the packets which datagrams bring.
///
/// `now` is the caller's clock, in ticks of his own, which goes round at 2^32 and never goes back. Push what comes; take
/// access units until there is none; and do so again when [`deadline`](Self::deadline) says.
#[derive(Debug)]
pub struct RtpReceiver {
    inner: Receiver<AnyPayloadDepacketizer>,
    codec: Codec,
}

impl RtpReceiver {
    /// A receiver that follows the SSRC of the first packet of the codec or of RED, reads no decoding order numbers and
    /// writes start codes.
    ///
    /// # Panics
    ///
    /// Where the window is 0 or over 16384.
    pub fn new(codec: Codec, types: RtpPayloadTypes, config: AccessUnitConfig) -> Self {
        Self::with_settings(codec, false, false, types, config)
    }

    /// The same, with whether packets bear decoding order numbers (those of H.264 bear none), and whether units are
    /// written behind lengths of four bytes.
    ///
    /// # Panics
    ///
    /// Where the window is 0 or over 16384.
    pub fn with_settings(
        codec: Codec,
        has_donl: bool,
        is_avc: bool,
        types: RtpPayloadTypes,
        config: AccessUnitConfig,
    ) -> Self {
        check_window(&config);
        let mut depacketizer = AnyPayloadDepacketizer::new(codec);
        depacketizer.with_donl(has_donl);
        depacketizer.is_avc = is_avc;
        RtpReceiver {
            inner: Receiver::new(depacketizer, types, config),
            codec,
        }
    }

    /// Its codec.
    pub fn codec(&self) -> Codec {
        self.codec
    }

    /// Follows these SSRCs from now on, as a session description tells them, or a new one: all that waits or is open is
    /// dropped, and statistics begin anew. What was counted by [`counts`](Self::counts) stays.
    pub fn follow(&mut self, sources: RtpSources) {
        self.inner.follow(sources);
    }

    /// The SSRCs that are followed, as far as they are known.
    pub fn sources(&self) -> RtpSources {
        self.inner.sources()
    }

    /// Takes a datagram that came at this tick, and at `arrival` of the timestamps' clock (90 kHz), for the jitter: a
    /// packet of the stream is taken as by `push` of an [`AccessUnitReceiver`](crate::AccessUnitReceiver), RTX and RED
    /// undone; one that bears nothing of the codec, as padding, FEC or another payload type, as by `skip`. Nothing else
    /// changes anything.
    ///
    /// Where the SSRC of retransmissions isn't known, it is that of the first that bears a missing number (RFC 4588,
    /// 5.3). Where several streams of a session may miss the same number at a time, as in simulcast, tell it to
    /// [`follow`](Self::follow).
    ///
    /// After an error all stays as it was.
    #[inline]
    pub fn push(
        &mut self,
        now: u32,
        arrival: u32,
        datagram: &[u8],
    ) -> Result<RtpPushed, RtpPushError> {
        self.inner.try_push(now, arrival, datagram)
    }

    /// The next access unit, if one has ended at this tick. Call it until there is none. The error is `OutOfMemory`
    /// alone: the packet for which memory lacks is due still.
    #[inline]
    pub fn next(&mut self, now: u32) -> Result<Option<ReceivedAccessUnit>, PacketError> {
        self.inner.next(now)
    }

    /// The NAL units that came whole so far of the access unit that is open, as those of an
    /// [`AccessUnitReceiver`](crate::AccessUnitReceiver::units_so_far).
    pub fn units_so_far(&self) -> Option<UnitsSoFar<'_>> {
        self.inner.units_so_far()
    }

    /// The missing numbers that are to be asked for at this tick, in order, up to `room` of them (NACK, RFC 4585,
    /// 6.2.1): each is asked for as `times` says, and counts as asked for. The error is `OutOfMemory` alone: nothing
    /// counts as asked for then.
    pub fn nacks(
        &mut self,
        now: u32,
        times: NackTimes,
        room: usize,
    ) -> Result<Vec<u16>, PacketError> {
        self.inner.nacks(now, times, room)
    }

    /// Whether to ask for a keyframe at this tick, by a PLI or a FIR, which then counts as asked for: by the access units
    /// that were given out no decoder can go on, and none was asked for in the last `again` ticks, in which it may be on
    /// its way: a round trip and a keyframe at least.
    pub fn keyframe_wanted(&mut self, now: u32, again: u32) -> bool {
        self.inner.keyframe_wanted(now, again)
    }

    /// What is counted of the packets of the SSRC that is followed (RFC 3550, 6.4.1).
    pub fn statistics(&self) -> RtpStatistics {
        self.inner.statistics()
    }

    /// What is reported of the SSRC that is followed, if it is known, with the part of packets that was lost since the
    /// last report; both arguments are 0 where no sender report came (RFC 3550, 6.4.1).
    pub fn report(&mut self, last_sender_report: u32, delay: u32) -> Option<ReportBlock> {
        self.inner.report(last_sender_report, delay)
    }

    /// When to call [`next`](Self::next) again at the latest, if packets wait and there is a `max_wait`, or of a stream
    /// that begins a `begin_wait`.
    pub fn deadline(&self) -> Option<u32> {
        self.inner.deadline()
    }

    /// At the end of the stream: all that waits is due, and then the open access unit ends, not known to be whole.
    /// [`next`](Self::next) gives all of it.
    pub fn finish(&mut self) {
        self.inner.finish();
    }

    /// The settings of what waits.
    pub fn config(&self) -> AccessUnitConfig {
        self.inner.config()
    }

    /// Has other settings from now on, for what waits and is open too.
    ///
    /// # Panics
    ///
    /// Where the window is 0 or over 16384.
    pub fn set_config(&mut self, config: AccessUnitConfig) {
        check_window(&config);
        self.inner.set_config(config);
    }

    /// What its receiver of access units has counted since it was made.
    pub fn counts(&self) -> Counts {
        self.inner.counts()
    }

    /// Takes an access unit's memory back, for a later one.
    #[inline]
    pub fn give_back(&mut self, unit: ReceivedAccessUnit) {
        self.inner.give_back(unit);
    }
}
