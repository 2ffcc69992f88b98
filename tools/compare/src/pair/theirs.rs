//! The pairs of str0m.

use super::Pair;
use crate::answers::{Codec, Extra, NO_NUMBER, Shown, Why};
use crate::str0m::h264::{H264CodecExtra, H264Depacketizer, H264Packetizer};
use crate::str0m::h265::{
    H265AggregationPacket, H265CodecExtra, H265Depacketizer, H265FragmentationUnitPacket,
    H265PACIPacket, H265Packetizer, H265Payload, H265SingleNALUnitPacket,
};
use crate::str0m::h266::{H266CodecExtra, H266Depacketizer, H266Packetizer};
use crate::str0m::{CodecExtra, Depacketizer, PacketError, Packetizer};

pairs!(
    theirs,
    {
        copied!();
        same!(H264Depacketizer, |other, _, is_avc| other.is_avc = is_avc);

        fn set_avc(&mut self, is_avc: bool) {
            self.depacketizer.is_avc = is_avc;
        }
    },
    {
        copied!();
        same!(H265Depacketizer, |other, has_donl, _| other
            .with_donl(has_donl));
    },
    {},
    { PacketError::ErrInvalidH265PacketType => Why::WrongType265 }
);
