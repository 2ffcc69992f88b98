//! The endpoints of the three codecs, by the same calls.

use emupedestal::{
    Codec, Depacketizer, H264Depacketizer, H264Packetizer, H265Depacketizer, H265Packetizer,
    H265Payload, H266Depacketizer, H266Packetizer, PacketError, Packetizer, Packets,
    detect_h264_keyframe, detect_h265_keyframe, detect_h266_keyframe,
};

/// A depacketizer of one of the codecs.
pub trait Taking: Depacketizer + Clone + PartialEq + Default {
    const CODEC: Codec;

    fn set_avc(&mut self, value: bool);

    /// Of H.264 it does nothing.
    fn set_donl(&mut self, _value: bool) {}

    fn run(&self) -> usize;
    fn give_up(&mut self);

    /// The packet that is shown, of H.265.
    fn shown(&self) -> Option<&H265Payload> {
        None
    }

    /// Whether a packet is known to hold or to begin a unit of a keyframe.
    fn detects(packet: &[u8]) -> bool;

    /// One with these settings.
    fn with_settings(donl: bool, avc: bool) -> Self {
        let mut made = Self::default();
        made.set_avc(avc);
        made.set_donl(donl);
        made
    }
}

/// A packetizer of one of the codecs.
pub trait Sending: Packetizer + Clone + Default {
    const CODEC: Codec;

    fn set_donl(&mut self, _value: bool) {}
    fn set_max_size(&mut self, _bytes: u16) {}
    fn make_into(
        &mut self,
        mtu: usize,
        bytes: &[u8],
        packets: &mut Packets,
    ) -> Result<(), PacketError>;
    fn make_unit(&mut self, mtu: usize, unit: &[u8]) -> Result<Vec<Vec<u8>>, PacketError>;
    fn make_unit_into(
        &mut self,
        mtu: usize,
        unit: &[u8],
        packets: &mut Packets,
    ) -> Result<(), PacketError>;
}

/// What an end of H.265 or H.266 has beside the other calls.
macro_rules! numbered {
    (taking) => {
        fn set_donl(&mut self, value: bool) {
            self.with_donl(value);
        }
    };
    (sending) => {
        fn set_donl(&mut self, value: bool) {
            self.with_donl(value);
        }

        fn set_max_size(&mut self, bytes: u16) {
            self.with_max_packet_size(bytes);
        }
    };
}

macro_rules! ends {
    ($codec:expr, $depacketizer:ident { $($taking:tt)* }, $packetizer:ident { $($sending:tt)* }, $detects:ident) => {
        impl Taking for $depacketizer {
            const CODEC: Codec = $codec;

            fn set_avc(&mut self, value: bool) {
                self.is_avc = value;
            }

            fn run(&self) -> usize {
                self.run_len()
            }

            fn give_up(&mut self) {
                self.give_up_run();
            }

            fn detects(packet: &[u8]) -> bool {
                $detects(packet)
            }

            $($taking)*
        }

        impl Sending for $packetizer {
            const CODEC: Codec = $codec;

            fn make_into(
                &mut self,
                mtu: usize,
                bytes: &[u8],
                packets: &mut Packets,
            ) -> Result<(), PacketError> {
                self.packetize_into(mtu, bytes, packets)
            }

            fn make_unit(&mut self, mtu: usize, unit: &[u8]) -> Result<Vec<Vec<u8>>, PacketError> {
                self.packetize_unit(mtu, unit)
            }

            fn make_unit_into(
                &mut self,
                mtu: usize,
                unit: &[u8],
                packets: &mut Packets,
            ) -> Result<(), PacketError> {
                self.packetize_unit_into(mtu, unit, packets)
            }

            $($sending)*
        }
    };
}

ends!(
    Codec::H264,
    H264Depacketizer {},
    H264Packetizer {},
    detect_h264_keyframe
);
ends!(
    Codec::H265,
    H265Depacketizer {
        numbered!(taking);

        fn shown(&self) -> Option<&H265Payload> {
            Some(self.payload())
        }
    },
    H265Packetizer {
        numbered!(sending);
    },
    detect_h265_keyframe
);
ends!(
    Codec::H266,
    H266Depacketizer {
        numbered!(taking);
    },
    H266Packetizer {
        numbered!(sending);
    },
    detect_h266_keyframe
);
