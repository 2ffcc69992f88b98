//! The packetizers.

mod every_unit;

use crate::proved::h26x_core::Packetizer as _;
use crate::proved::h26x_packetizer::{PacketsSize, PayloadPacketizer, Placement};
use crate::proved::h264_payload::H264;
use crate::proved::h265_payload::H265Sending;
use crate::proved::h266_payload::H266;
use crate::support::AllocError;
use crate::{PacketError, Packetizer, Packets};
use alloc::vec::Vec;

/// Makes packets in the place of those in `packets`, whose room grows where they don't fit.
fn make_into<E: From<AllocError>>(
    packets: &mut Packets,
    mut make: impl FnMut(usize, &mut [u8], &mut [usize]) -> Result<Placement, E>,
) -> Result<(), E> {
    loop {
        let headroom = packets.headroom();
        let (bytes, ends) = packets.room();
        match make(headroom, bytes, ends)? {
            Placement::Placed(PacketsSize { packets: count, .. }) => {
                packets.take(count);
                return Ok(());
            }
            Placement::NoRoom(PacketsSize {
                packets: count,
                bytes,
            }) => packets.try_grow(count, bytes)?,
        }
    }
}

macro_rules! packetizer {
    ($(#[$doc:meta])* $name:ident, $codec:ty) => {
        $(#[$doc])*
        ///
        /// `clone` copies the parameter sets that wait, the next number and the settings. It panics
        /// where memory lacks.
        #[derive(Debug)]
        pub struct $name {
            inner: PayloadPacketizer<$codec>,
            delimiters: bool,
        }

        /// As [`new`](Self::new).
        impl Default for $name {
            fn default() -> Self {
                $name::new()
            }
        }

        impl Clone for $name {
            fn clone(&self) -> Self {
                $name {
                    inner: self.inner.try_clone().expect("memory"),
                    delimiters: self.delimiters,
                }
            }
        }

        impl $name {
            /// A packetizer for which nothing waits, without decoding order numbers.
            #[inline]
            pub fn new() -> Self {
                $name {
                    inner: PayloadPacketizer::new(),
                    delimiters: true,
                }
            }

            /// The RTP payloads of `b` as [`Packetizer::packetize`] makes them, in the place of those
            /// in `packets`, whose memory is used again.
            ///
            /// It is the faster call: it asks for no memory for each packet. What stands there of
            /// limits, of errors and of what isn't sent holds here too. A refusal leaves `packets`.
            pub fn packetize_into(
                &mut self,
                mtu: usize,
                b: &[u8],
                packets: &mut Packets,
            ) -> Result<(), PacketError> {
                make_into(packets, |headroom, to, ends| {
                    self.inner.packetize_to_memory(mtu, b, headroom, to, ends)
                })
            }

            /// How many packets [`packetize_into`](Self::packetize_into) would make of `b`, and how many
            /// bytes they take with `headroom` bytes before each. Nothing changes. `OutOfMemory` is the
            /// only error.
            pub fn packets_size(
                &self,
                mtu: usize,
                b: &[u8],
                headroom: usize,
            ) -> Result<PacketsSize, PacketError> {
                self.inner.packets_size(mtu, b, headroom)
            }

            /// The RTP payloads of one NAL unit as it is: no start code is looked for in it, and
            /// whatever its kind it is sent now, itself or in fragments.
            ///
            /// So whoever has units need not join them, and may send parameter sets himself: several
            /// of a kind, again every second, or longer than a packet. Sets that wait stay.
            ///
            /// There are no packets where no fragment has room for data, as
            /// [`Packetizer::packetize`] says, or the unit has no whole header: one byte of H.264, two
            /// of the others. `OutOfMemory` is the only error, and leaves the packetizer as it is.
            pub fn packetize_unit(
                &mut self,
                mtu: usize,
                unit: &[u8],
            ) -> Result<Vec<Vec<u8>>, PacketError> {
                self.inner.packetize_unit(mtu, unit)
            }

            /// The packets of [`packetize_unit`](Self::packetize_unit) in the place of those in
            /// `packets`, whose memory is used again. A refusal leaves `packets`.
            pub fn packetize_unit_into(
                &mut self,
                mtu: usize,
                unit: &[u8],
                packets: &mut Packets,
            ) -> Result<(), PacketError> {
                make_into(packets, |headroom, to, ends| {
                    self.inner
                        .packetize_unit_to_memory(mtu, unit, headroom, to, ends)
                })
            }
        }

        impl Packetizer for $name {
            fn packetize(&mut self, mtu: usize, b: &[u8]) -> Result<Vec<Vec<u8>>, PacketError> {
                self.inner.packetize(mtu, b)
            }

            fn is_marker(&mut self, data: &[u8], previous: Option<&[u8]>, last: bool) -> bool {
                self.inner.is_marker(data, previous, last)
            }
        }
    };
}

packetizer! {
    /// Sends H.264 NAL units (RFC 6184, 5 and 6.3): single NAL unit packets, FU-A and STAP-A.
    ///
    /// An SPS and a PPS wait for the next unit that is neither, and go before it, in one STAP-A
    /// where that fits. Access unit delimiters aren't sent.
    ///
    /// ```
    /// use emupedestal::{H264Packetizer, Packetizer};
    ///
    /// let mut packetizer = H264Packetizer::default();
    /// let packets = packetizer.packetize(5, &[0, 0, 1, 0x65, 1, 2, 3, 4, 5, 6])?;
    /// // Two fragments (RFC 6184, 5.8): the first bears S, the last E.
    /// assert_eq!(packets, [[0x7c, 0x85, 1, 2, 3], [0x7c, 0x45, 4, 5, 6]]);
    /// # Ok::<(), emupedestal::PacketError>(())
    /// ```
    H264Packetizer, H264
}

packetizer! {
    /// Sends H.265 NAL units (RFC 7798, 4.4): single NAL unit packets, FUs and APs.
    ///
    /// A VPS, an SPS and a PPS wait for the next unit that is none of them, and go before it, in
    /// one AP where that fits. Access unit delimiters aren't sent. No packet has more than 1200
    /// bytes, whatever the `mtu`, unless [`with_max_packet_size`](Self::with_max_packet_size) says
    /// so.
    ///
    /// ```
    /// use emupedestal::{H265Packetizer, Packetizer};
    ///
    /// let mut packetizer = H265Packetizer::default();
    /// packetizer.with_max_packet_size(1400);
    /// let packets = packetizer.packetize(1400, &[0, 0, 0, 1, 0x26, 0x01, 0xaf])?;
    /// assert_eq!(packets, [[0x26, 0x01, 0xaf]]);
    /// # Ok::<(), emupedestal::PacketError>(())
    /// ```
    H265Packetizer, H265Sending
}

packetizer! {
    /// Sends H.266 NAL units (RFC 9328, 4.3): single NAL unit packets, FUs and APs.
    ///
    /// A VPS, an SPS and a PPS wait for the next unit that is none of them, and go before it, in
    /// one AP where that fits. Access unit delimiters and units of types 28 and 29 aren't sent. No
    /// packet has more than 1200 bytes, whatever the `mtu`, unless
    /// [`with_max_packet_size`](Self::with_max_packet_size) says so.
    ///
    /// ```
    /// use emupedestal::{H266Packetizer, Packetizer};
    ///
    /// let mut packetizer = H266Packetizer::default();
    /// packetizer.with_donl(true);
    /// let packets = packetizer.packetize(1200, &[0x00, 0x39, 0xdd])?;
    /// // The decoding order number stands behind the unit's header (RFC 9328, 4.3.1).
    /// assert_eq!(packets, [[0x00, 0x39, 0x00, 0x00, 0xdd]]);
    /// # Ok::<(), emupedestal::PacketError>(())
    /// ```
    H266Packetizer, H266
}

macro_rules! numbered {
    ($name:ident) => {
        impl $name {
            /// Turns decoding order numbers (DONL and DOND) on, which begin at 0, or off (RFC 7798,
            /// 4.6; RFC 9328, 4.4). Parameter sets that wait stay.
            ///
            /// A receiver learns of it by `sprop-max-don-diff` of the session description, over 0
            /// (RFC 7798, 7.1; RFC 9328, 7.2): nothing in a packet tells it. Turned on again, they
            /// begin at 0 again.
            pub fn with_donl(&mut self, has_donl: bool) {
                self.inner.with_donl(has_donl);
            }

            /// Sets the largest packet size, in bytes, as the `mtu` counts them: no packet of a later
            /// call is longer, whatever its `mtu`. It is 1200 at first.
            ///
            /// A parameter set that is longer is dropped, and no call says so, as
            /// [`Packetizer::packetize`] tells: choose it above the longest set. Where packets bear
            /// decoding order numbers, a fragment has room for data from 6 bytes on.
            ///
            /// # Panics
            ///
            /// Where `n` is under 4: no fragment has room for data then.
            pub fn with_max_packet_size(&mut self, n: u16) {
                assert!(n >= 4, "a largest packet size is 4 or more");
                self.inner.with_max_packet_size(n);
            }
        }
    };
}

impl H265Packetizer {
    /// Sets whether parameter sets that go in one packet (4.4.2) have the header that RFC 7798 asks
    /// for: the lowest layer and the lowest temporal id of the sets in it. It is off at first, and then
    /// they have those of the unit behind them, as str0m's have.
    ///
    /// Where a forwarder drops packets by temporal id, turn it on: else sets before a slice of a high
    /// one are dropped with it. Receivers read both alike.
    ///
    /// ```
    /// use emupedestal::{H265Packetizer, Packetizer};
    ///
    /// // An SPS and a PPS of temporal id 1, and a slice of 3.
    /// let payload = [0, 0, 1, 0x42, 0x01, 0, 0, 1, 0x44, 0x01, 0, 0, 1, 0x02, 0x03, 0xaa];
    /// let mut packetizer = H265Packetizer::default();
    /// assert_eq!(packetizer.packetize(1200, &payload)?[0][..2], [0x60, 0x03]);
    /// packetizer.with_lowest_header(true);
    /// assert_eq!(packetizer.packetize(1200, &payload)?[0][..2], [0x60, 0x01]);
    /// # Ok::<(), emupedestal::PacketError>(())
    /// ```
    pub fn with_lowest_header(&mut self, is_lowest: bool) {
        self.inner.with_lowest_header(is_lowest);
    }
}

numbered!(H265Packetizer);
numbered!(H266Packetizer);
