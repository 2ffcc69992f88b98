//! New packetizers and depacketizers of both crates. All are called through their traits' objects,
//! so that neither's calls are compiled into the loop that times them.

use crate::format::Format;
use crate::str0m;
use emupedestal::{Codec, PacketError, Packets};

/// A packetizer of emupedestal, with the calls that make packets in one buffer: of a payload, and of
/// a unit as it is.
pub trait Ours: emupedestal::Packetizer {
    fn make_into(&mut self, mtu: usize, b: &[u8], to: &mut Packets) -> Result<(), PacketError>;
    fn make_unit_into(
        &mut self,
        mtu: usize,
        unit: &[u8],
        to: &mut Packets,
    ) -> Result<(), PacketError>;
}

macro_rules! ours {
    ($name:ident) => {
        impl Ours for emupedestal::$name {
            fn make_into(
                &mut self,
                mtu: usize,
                b: &[u8],
                to: &mut Packets,
            ) -> Result<(), PacketError> {
                self.packetize_into(mtu, b, to)
            }

            fn make_unit_into(
                &mut self,
                mtu: usize,
                unit: &[u8],
                to: &mut Packets,
            ) -> Result<(), PacketError> {
                self.packetize_unit_into(mtu, unit, to)
            }
        }
    };
}

ours!(H264Packetizer);
ours!(H265Packetizer);
ours!(H266Packetizer);

/// An object of this type, with DONL where it is asked for.
macro_rules! object {
    ($name:path) => {
        Box::<$name>::default()
    };
    ($name:path, $has_donl:expr) => {{
        let mut object = Box::<$name>::default();
        object.with_donl($has_donl);
        object
    }};
}

/// Our packetizer.
pub fn packetizer(format: Format) -> Box<dyn Ours> {
    match format.codec {
        Codec::H264 => object!(emupedestal::H264Packetizer),
        Codec::H265 => object!(emupedestal::H265Packetizer, format.has_donl),
        Codec::H266 => object!(emupedestal::H266Packetizer, format.has_donl),
    }
}

/// Our depacketizer.
pub fn depacketizer(format: Format) -> Box<dyn emupedestal::Depacketizer> {
    match format.codec {
        Codec::H264 => object!(emupedestal::H264Depacketizer),
        Codec::H265 => object!(emupedestal::H265Depacketizer, format.has_donl),
        Codec::H266 => object!(emupedestal::H266Depacketizer, format.has_donl),
    }
}

/// str0m's packetizer.
pub fn their_packetizer(format: Format) -> Box<dyn str0m::Packetizer> {
    match format.codec {
        Codec::H264 => object!(str0m::h264::H264Packetizer),
        Codec::H265 => object!(str0m::h265::H265Packetizer, format.has_donl),
        Codec::H266 => object!(str0m::h266::H266Packetizer, format.has_donl),
    }
}

/// str0m's depacketizer.
pub fn their_depacketizer(format: Format) -> Box<dyn str0m::Depacketizer> {
    match format.codec {
        Codec::H264 => object!(str0m::h264::H264Depacketizer),
        Codec::H265 => object!(str0m::h265::H265Depacketizer, format.has_donl),
        Codec::H266 => object!(str0m::h266::H266Depacketizer, format.has_donl),
    }
}
