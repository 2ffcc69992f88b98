//! Access units over a network: packets as they come, in any order, some lost and some twice, and out of
//! them pictures, each with what is known of it.
//!
//! ```
//! use emupedestal::{AccessUnitConfig, AccessUnitReceiver, Codec, RtpPacket};
//!
//! let config = AccessUnitConfig { window: 4, max_wait: 100, ..AccessUnitConfig::default() };
//! let mut receiver = AccessUnitReceiver::new(Codec::H264, config);
//! // Parameter sets and a keyframe in one packet, and the second fragment of a unit of the next picture.
//! let key = [0x78, 0, 4, 0x67, 0x42, 0xc0, 0x1f, 0, 2, 0x68, 0xce, 0, 2, 0x65, 0x88];
//! let packet = RtpPacket { sequence: 7, timestamp: 3000, marker: true, payload: &key };
//! receiver.push(0, &packet)?;
//! let packet = RtpPacket { sequence: 9, timestamp: 6000, marker: true, payload: &[0x7c, 0x41, 2] };
//! receiver.push(0, &packet)?;
//! // The first access unit begins with its parameter sets, so nothing of it is missing.
//! let first = receiver.next(0)?.unwrap();
//! assert!(first.is_whole && first.is_clean);
//! assert!(receiver.next(0)?.is_none());
//! assert_eq!((receiver.missing()?, receiver.deadline()), (vec![8], Some(100)));
//! let packet = RtpPacket { sequence: 8, timestamp: 6000, marker: false, payload: &[0x7c, 0x81, 1] };
//! receiver.push(10, &packet)?;
//! let second = receiver.next(10)?.unwrap();
//! assert_eq!(second.bytes, [0, 0, 0, 1, 0x61, 1, 2]);
//! assert_eq!((second.first, second.last, second.is_clean), (8, 9, true));
//! # Ok::<(), emupedestal::PacketError>(())
//! ```

use crate::proved::h26x_access_units::AccessUnitReceiver as Units;
use crate::proved::h26x_access_units::Nacks;
use crate::proved::h26x_access_units::Receives as _;
use crate::proved::h26x_codec::AnyPayloadDepacketizer;
use crate::{Codec, HeldPacket, PacketError, RtpPacket};
use alloc::vec::Vec;
use core::fmt;

pub use crate::proved::h26x_access_units::{
    AccessUnitConfig, Counts, NackTimes, NotPushed, NotPushedReason, Pushed, ReceivedAccessUnit,
};
pub use crate::proved::h26x_assembler::UnitsSoFar;

/// A window of 512 packets and no limit on the time; nothing waits at the beginning of a stream; a number 3000 or
/// more ahead and 100 or more behind is a stray (RFC 3550, A.1); 8 MB for what waits and for an open access unit, and 4 MB for an open unit.
impl Default for AccessUnitConfig {
    fn default() -> Self {
        AccessUnitConfig {
            window: 512,
            far: 3000,
            far_behind: 100,
            max_wait: u32::MAX,
            begin_wait: 0,
            held_limit: 8_000_000,
            run_limit: 4_000_000,
            unit_limit: 8_000_000,
            has_sets: false,
        }
    }
}

impl fmt::Display for NotPushed {
    fn fmt(&self, f: &mut fmt::Formatter<'_>) -> fmt::Result {
        match self.reason {
            NotPushedReason::Late(behind) => {
                write!(f, "the packet is {behind} behind the one that is due")
            }
            NotPushedReason::Twice => f.write_str("a packet with its number waits or was taken"),
            NotPushedReason::Full => f.write_str("more bytes wait than the limit"),
            NotPushedReason::OutOfMemory => f.write_str("out of memory"),
        }
    }
}

impl core::error::Error for NotPushed {}

/// A receiver of any codec that takes packets as a network brings them and gives out access units: a
/// [`ReorderBuffer`](crate::ReorderBuffer) with a time and a limit on bytes, and a
/// [`AccessUnitAssembler`](crate::AccessUnitAssembler) behind it.
///
/// `now` is the caller's clock, in ticks of his own, which goes round at 2^32 and never goes back. Push what
/// comes; take access units until there is none; and do so again when [`deadline`](Self::deadline) says.
#[derive(Debug)]
pub struct AccessUnitReceiver {
    inner: Units<AnyPayloadDepacketizer>,
    nacks: Nacks,
    codec: Codec,
}

pub(crate) fn check_window(config: &AccessUnitConfig) {
    assert!(
        (1..=1 << 14).contains(&config.window),
        "a window has 1 to 16384 packets"
    );
}

impl AccessUnitReceiver {
    /// A receiver that takes any sequence number as the first, reads no decoding order numbers and writes start
    /// codes.
    ///
    /// # Panics
    ///
    /// Where the window is 0 or over 16384.
    pub fn new(codec: Codec, config: AccessUnitConfig) -> Self {
        Self::with_settings(codec, false, false, config)
    }

    /// The same, with whether packets bear decoding order numbers (those of H.264 bear none), and whether units
    /// are written behind lengths of four bytes.
    ///
    /// # Panics
    ///
    /// Where the window is 0 or over 16384.
    pub fn with_settings(
        codec: Codec,
        has_donl: bool,
        is_avc: bool,
        config: AccessUnitConfig,
    ) -> Self {
        check_window(&config);
        let mut depacketizer = AnyPayloadDepacketizer::new(codec);
        depacketizer.with_donl(has_donl);
        depacketizer.is_avc = is_avc;
        AccessUnitReceiver {
            inner: Units::new(depacketizer, config),
            nacks: Nacks::new(),
            codec,
        }
    }

    /// Its codec.
    pub fn codec(&self) -> Codec {
        self.codec
    }

    /// The settings.
    pub fn config(&self) -> AccessUnitConfig {
        self.inner.config()
    }

    /// Has other settings from now on, for what waits and is open too. It takes no memory.
    ///
    /// # Panics
    ///
    /// Where the window is 0 or over 16384.
    pub fn set_config(&mut self, config: AccessUnitConfig) {
        check_window(&config);
        self.inner.set_config(config);
    }

    /// Takes a packet that came at this tick, and copies it if it is to wait: the one that is due is taken at
    /// once where none waits, none is known to be missing before it, and no access unit that ended is left. One without
    /// a payload came and bears nothing, as for [`skip`](Self::skip). The error is `OutOfMemory` alone; all stays as it
    /// was then, and the packet can be given again.
    #[inline]
    pub fn push(&mut self, now: u32, packet: &RtpPacket<'_>) -> Result<Pushed, PacketError> {
        self.inner.try_push(now, packet)
    }

    /// Takes a packet that has memory of its own, and copies nothing of it, but of a stray. One that doesn't wait comes
    /// back as it was given, with the reason.
    pub fn push_held(&mut self, now: u32, packet: HeldPacket) -> Result<Pushed, NotPushed> {
        self.inner.push_held(now, packet)
    }

    /// Passes over a number that came and bears nothing of the stream, as that of padding alone, of forward
    /// error correction or of another payload type: so it isn't missing.
    pub fn skip(&mut self, now: u32, sequence: u16) -> Result<Pushed, PacketError> {
        self.inner.skip(now, sequence)
    }

    /// The next access unit, if one has ended at this tick. Call it until there is none. A packet that is
    /// refused is passed over and counted. One without bytes isn't given out: what is missing of it is told with the
    /// next one.
    ///
    /// The error is `OutOfMemory` alone: the packet for which memory lacks is due still.
    #[inline]
    pub fn next(&mut self, now: u32) -> Result<Option<ReceivedAccessUnit>, PacketError> {
        self.inner.next(now)
    }

    /// The NAL units that came whole so far of the access unit that is open, for who decodes each as soon as it is
    /// complete: none where [`next`](Self::next) hasn't given out what ended before. Later packets put units behind
    /// these, until `next` gives out the access unit, with what is told of the whole. A text of more than `unit_limit`
    /// bytes is given up.
    ///
    /// ```rust
    /// # use emupedestal::{AccessUnitReceiver, Codec, RtpPacket};
    /// # let mut receiver = AccessUnitReceiver::new(Codec::H264, Default::default());
    /// # fn decode(_units: &[u8]) {}
    /// # let packet = RtpPacket { sequence: 7, timestamp: 0, marker: false, payload: &[0x65, 1] };
    /// // how many bytes of the access unit were decoded
    /// let mut decoded = 0;
    /// receiver.push(0, &packet)?;
    /// # assert!(receiver.next(0)?.is_none());
    /// if let Some(unit) = receiver.units_so_far() {
    ///     decode(&unit.bytes[decoded..]);
    ///     decoded = unit.bytes.len();
    /// }
    /// # assert_eq!(decoded, 6);
    /// # Ok::<(), emupedestal::PacketError>(())
    /// ```
    pub fn units_so_far(&self) -> Option<UnitsSoFar<'_>> {
        self.inner.units_so_far()
    }

    /// The numbers that are missing before packets that wait, in order: those to ask the sender for again (NACK, RFC
    /// 4585, 6.2.1). Of a stream that begins none is missing before the first packet that waits. The error is
    /// `OutOfMemory` alone.
    pub fn missing(&self) -> Result<Vec<u16>, PacketError> {
        self.inner.missing()
    }

    /// The numbers of [`missing`](Self::missing) that are to be asked for at this tick, in order, up to `room` of
    /// them: each is asked for as `times` says, and counts as asked for. Others are due at the next call. A number
    /// counts as missing since the first of the calls in a row that found it so: call it as often as `first` and
    /// `again` ask for. The error is `OutOfMemory` alone: nothing counts as asked for then.
    pub fn nacks(
        &mut self,
        now: u32,
        times: NackTimes,
        room: usize,
    ) -> Result<Vec<u16>, PacketError> {
        let missing = self.inner.missing()?;
        self.nacks.due(&missing, times, now, room)
    }

    /// When to call [`next`](Self::next) again at the latest, if packets wait and there is a `max_wait`, or of a
    /// stream that begins a `begin_wait`.
    pub fn deadline(&self) -> Option<u32> {
        self.inner.deadline()
    }

    /// Says the number of the first packet of the stream, as a peer tells it (RTP-Info of RTSP, RFC 2326, 12.33):
    /// packets from it on are waited for, and the first access unit is known to be whole where they came. `false`
    /// where a packet came before; nothing is changed then.
    pub fn begin_at(&mut self, sequence: u16) -> bool {
        self.inner.begin_at(sequence)
    }

    /// At the end of a stream: all that waits is due, and once it was taken the open access unit ends, not known
    /// to be whole. [`next`](Self::next) gives all of it, and then any number is the next.
    pub fn finish(&mut self) {
        self.inner.finish();
    }

    /// For another sender (SSRC): drops all that waits or is open, and takes any number as the next. What was
    /// counted stays.
    pub fn restart(&mut self) {
        self.inner.restart();
        self.nacks.clear();
    }

    /// What was counted since it was made.
    pub fn counts(&self) -> Counts {
        self.inner.counts()
    }

    /// Takes an access unit's memory back, for a later one: of those that are given back the largest of at most
    /// `unit_limit` bytes is kept.
    #[inline]
    pub fn give_back(&mut self, unit: ReceivedAccessUnit) {
        self.inner.give_back(unit);
    }
}
