//! The pairs of emupedestal.

use super::Pair;
use crate::answers::{Codec, Extra, NO_NUMBER, Shown, Why};
use emupedestal::{
    CodecExtra, Depacketizer, H264CodecExtra, H264Depacketizer, H264Packetizer,
    H265AggregationPacket, H265CodecExtra, H265Depacketizer, H265FragmentationUnitPacket,
    H265PACIPacket, H265Packetizer, H265Payload, H265SingleNALUnitPacket, H266CodecExtra,
    H266Depacketizer, H266Packetizer, PacketError, Packetizer,
};

/// What the pairs of all codecs have here.
macro_rules! everywhere {
    () => {
        fn set_avc(&mut self, is_avc: bool) {
            self.depacketizer.is_avc = is_avc;
        }

        fn give_up_run(&mut self) {
            self.depacketizer.give_up_run();
        }

        copied!();
    };
}

/// The call of packetizers with a largest packet size.
macro_rules! sized {
    () => {
        fn with_max_packet_size(&mut self, size: u16) {
            self.packetizer.with_max_packet_size(size);
        }
    };
}

pairs!(
    ours,
    {
        everywhere!();
        same!(H264Depacketizer, |other, _, is_avc| other.is_avc = is_avc);
    },
    {
        everywhere!();
        sized!();
        same!(H265Depacketizer, |other, has_donl, is_avc| {
            other.with_donl(has_donl);
            other.is_avc = is_avc;
        });
    },
    {
        everywhere!();
        sized!();
    },
    { _ => Why::Other }
);
