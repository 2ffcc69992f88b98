//! The depacketizers.

use crate::proved::h26x_core::Depacketizer as _;
use crate::proved::{h264_payload, h265_payload, h266_payload};
use crate::{CodecExtra, Depacketizer, H265Payload, PacketError};
use alloc::vec::Vec;

macro_rules! depacketizer {
    ($(#[$doc:meta])* $name:ident, $proved:ty) => {
        $(#[$doc])*
        ///
        /// `clone` copies the settings and the open unit. It panics where memory lacks.
        #[derive(Debug, PartialEq, Eq)]
        pub struct $name {
            /// Whether units are written behind lengths of four bytes, as MP4 files have them
            /// (ISO/IEC 14496-15: `avc1`, `hvc1`, `vvc1`), and not behind start codes. False at
            /// first.
            ///
            /// A unit has the form that is set when the packet comes that completes it.
            pub is_avc: bool,
            /// Its own setting is false between calls.
            inner: $proved,
        }

        /// As [`new`](Self::new).
        impl Default for $name {
            fn default() -> Self {
                $name::new()
            }
        }

        impl Clone for $name {
            fn clone(&self) -> Self {
                $name {
                    is_avc: self.is_avc,
                    inner: self.inner.try_clone().expect("memory"),
                }
            }
        }

        impl $name {
            /// A depacketizer with no unit open, which writes start codes and reads no decoding order
            /// numbers.
            #[inline]
            pub fn new() -> Self {
                $name {
                    is_avc: false,
                    inner: <$proved>::new(),
                }
            }

            /// How many bytes of data the open unit holds; 0 where none is open.
            pub fn run_len(&self) -> usize {
                self.inner.run_len()
            }

            /// Gives up the open unit and frees its buffer (the reassembly buffer), and of H.265 what
            /// is kept for what it shows. It takes no memory.
            ///
            /// A fragment that starts a unit opens it, each later one adds its data, and it stays open
            /// until a fragment ends it or another starts one. There is no limit, so a peer that never
            /// ends a unit makes the buffer as long as all that it sends; one of 2^20 bytes at most is
            /// kept for later units. So a caller calls this
            ///
            /// - where a packet is missing by its sequence number: else the unit is written without
            ///   that one's data;
            /// - past a limit of its own on [`run_len`](Self::run_len).
            ///
            /// What follows of the unit is accepted and completes nothing, and the next start begins
            /// anew. A [`SequencedDepacketizer`](crate::SequencedDepacketizer) does both by itself.
            pub fn give_up_run(&mut self) {
                self.inner.give_up_run();
            }
        }

        impl Depacketizer for $name {
            fn out_size_hint(&self, packets_size: usize) -> Option<usize> {
                self.inner.out_size_hint(packets_size)
            }

            fn depacketize(
                &mut self,
                packet: &[u8],
                out: &mut Vec<u8>,
                codec_extra: &mut CodecExtra,
            ) -> Result<(), PacketError> {
                self.take(packet, out, codec_extra)
            }

            fn is_partition_head(&self, packet: &[u8]) -> bool {
                self.inner.is_partition_head(packet)
            }

            fn is_partition_tail(&self, marker: bool, packet: &[u8]) -> bool {
                self.inner.is_partition_tail(marker, packet)
            }
        }
    };
}

depacketizer! {
    /// Writes the NAL units of H.264 packets (RFC 6184, 5 and 7), each behind `00 00 00 01`, or
    /// behind its length where `is_avc` is set.
    ///
    /// Two are equal where `is_avc` and the open unit are.
    ///
    /// ```
    /// use emupedestal::{CodecExtra, Depacketizer, H264Depacketizer};
    ///
    /// let mut depacketizer = H264Depacketizer::default();
    /// let (mut out, mut extra) = (Vec::new(), CodecExtra::None);
    /// for packet in [&[0x7c, 0x85, 1, 2, 3], &[0x7c, 0x45, 4, 5, 6]] {
    ///     depacketizer.depacketize(packet, &mut out, &mut extra)?;
    /// }
    /// assert_eq!(out, [0, 0, 0, 1, 0x65, 1, 2, 3, 4, 5, 6]);
    /// assert!(matches!(extra, CodecExtra::H264(told) if told.is_keyframe));
    /// # Ok::<(), emupedestal::PacketError>(())
    /// ```
    H264Depacketizer, h264_payload::H264Depacketizer
}

depacketizer! {
    /// Writes the NAL units of H.265 packets (RFC 7798, 4.4), each behind `00 00 00 01`, or behind
    /// its length where `is_avc` is set.
    ///
    /// Two are equal where the settings, the open unit and the packet accepted last are.
    ///
    /// ```
    /// use emupedestal::{CodecExtra, Depacketizer, H265Depacketizer};
    ///
    /// let mut depacketizer = H265Depacketizer::default();
    /// let (mut out, mut extra) = (Vec::new(), CodecExtra::None);
    /// depacketizer.depacketize(&[0x26, 0x01, 0xaf], &mut out, &mut extra)?;
    /// assert_eq!(out, [0, 0, 0, 1, 0x26, 0x01, 0xaf]);
    /// # Ok::<(), emupedestal::PacketError>(())
    /// ```
    H265Depacketizer, h265_payload::H265Depacketizer
}

depacketizer! {
    /// Writes the NAL units of H.266 packets (RFC 9328, 4.3), each behind `00 00 00 01`, or behind
    /// its length where `is_avc` is set.
    ///
    /// Two are equal where the settings and the open unit are.
    ///
    /// ```
    /// use emupedestal::{CodecExtra, Depacketizer, H266Depacketizer};
    ///
    /// let mut depacketizer = H266Depacketizer::default();
    /// depacketizer.with_donl(true);
    /// let (mut out, mut extra) = (Vec::new(), CodecExtra::None);
    /// depacketizer.depacketize(&[0x00, 0x39, 0x00, 0x02, 0xdd], &mut out, &mut extra)?;
    /// assert_eq!(out, [0, 0, 0, 1, 0x00, 0x39, 0xdd]);
    /// # Ok::<(), emupedestal::PacketError>(())
    /// ```
    H266Depacketizer, h266_payload::H266Depacketizer
}

impl H265Depacketizer {
    #[inline(always)]
    fn take(
        &mut self,
        packet: &[u8],
        out: &mut Vec<u8>,
        codec_extra: &mut CodecExtra,
    ) -> Result<(), PacketError> {
        self.inner.is_avc = self.is_avc;
        let taken = self.inner.depacketize(packet, out, codec_extra);
        self.inner.is_avc = false;
        taken
    }
}

/// Each form has code of its own, without a branch on it. Of H.265 that is dearer: what it shows is got ready
/// behind calls then.
macro_rules! each_form_apart {
    ($name:ident) => {
        impl $name {
            #[inline(always)]
            fn take(
                &mut self,
                packet: &[u8],
                out: &mut Vec<u8>,
                codec_extra: &mut CodecExtra,
            ) -> Result<(), PacketError> {
                if self.is_avc {
                    self.inner.depacketize_as(true, packet, out, codec_extra)
                } else {
                    self.inner.depacketize_as(false, packet, out, codec_extra)
                }
            }
        }
    };
}

each_form_apart!(H264Depacketizer);
each_form_apart!(H266Depacketizer);

macro_rules! numbered {
    ($name:ident) => {
        impl $name {
            /// Sets whether packets bear decoding order numbers (DONL and DOND): where
            /// `sprop-max-don-diff` is over 0 (RFC 7798, 7.1; RFC 9328, 7.2). An open unit stays open.
            ///
            /// Nothing in a packet tells it. Set otherwise than the sender's, numbers are read as
            /// bytes of units, or bytes of units as numbers.
            pub fn with_donl(&mut self, value: bool) {
                self.inner.with_donl(value);
            }
        }
    };
}

numbered!(H265Depacketizer);
numbered!(H266Depacketizer);

impl H265Depacketizer {
    /// The packet that was accepted last (RFC 7798, 4.4); before any, a single NAL unit packet with a
    /// header of 0 and no bytes. A refused packet isn't shown.
    ///
    /// It keeps a copy of each packet for this, in memory of those before: a buffer as large as the
    /// longest, and of aggregates' units at most 32 in each of three lists, none of which had over 1500
    /// bytes. `give_up_run` frees it.
    ///
    /// ```
    /// use emupedestal::{CodecExtra, Depacketizer, H265Depacketizer, H265Payload};
    ///
    /// let mut depacketizer = H265Depacketizer::default();
    /// let packet = [0x62, 0x01, 0x93, 0xaa];
    /// depacketizer.depacketize(&packet, &mut Vec::new(), &mut CodecExtra::None)?;
    /// let H265Payload::H265FragmentationUnitPacket(shown) = depacketizer.payload() else { panic!() };
    /// assert!(shown.fu_header().s() && !shown.fu_header().e());
    /// assert_eq!((shown.fu_header().fu_type(), shown.payload()), (19, [0xaa].as_slice()));
    /// # Ok::<(), emupedestal::PacketError>(())
    /// ```
    pub fn payload(&self) -> &H265Payload {
        self.inner.payload()
    }
}
