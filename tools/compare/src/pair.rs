//! A packetizer and a depacketizer of one codec, of both crates behind one trait.

use crate::answers::{Extra, Shown, Why};

/// A packetizer and a depacketizer of one codec.
pub trait Pair {
    fn packetize(&mut self, mtu: usize, payload: &[u8]) -> Result<Vec<Vec<u8>>, Why>;

    fn is_marker(&mut self, packet: &[u8], previous: Option<&[u8]>, last: bool) -> bool;

    fn depacketize(
        &mut self,
        packet: &[u8],
        out: &mut Vec<u8>,
        extra: &mut Extra,
    ) -> Result<(), Why>;

    fn is_head(&self, packet: &[u8]) -> bool;

    fn is_tail(&self, marker: bool, packet: &[u8]) -> bool;

    fn hint(&self, len: usize) -> Option<usize>;

    /// Turns DONL on or off for both.
    fn with_donl(&mut self, _has_donl: bool) {}

    /// Has units written behind lengths, or behind start codes.
    fn set_avc(&mut self, _is_avc: bool) {}

    /// Sets the largest packet size.
    fn with_max_packet_size(&mut self, _bytes: u16) {}

    /// Gives up the open run.
    fn give_up_run(&mut self) {}

    /// Puts copies in the place of both.
    fn copy(&mut self) {}

    /// What the depacketizer shows of the packet that it accepted last.
    fn shown(&self) -> Option<Shown> {
        None
    }

    /// Whether the depacketizer is equal to a new one with these settings, to which these packets
    /// were given.
    fn is_same_as(&self, _has_donl: bool, _is_avc: bool, _packets: &[Vec<u8>]) -> Option<bool> {
        None
    }
}

/// What both crates have alike: `$new` makes a pair, and `why` reads an error. Behind each codec stand
/// the calls that not every pair has, and behind these the errors that one crate has alone.
macro_rules! pairs {
    ($new:ident, { $($h264:tt)* }, { $($h265:tt)* }, { $($h266:tt)* }, { $($error:tt)* }) => {
        pair!(H264, H264Packetizer, H264Depacketizer, { $($h264)* });
        pair!(H265, H265Packetizer, H265Depacketizer, { donl!(); shown!(); $($h265)* });
        pair!(H266, H266Packetizer, H266Depacketizer, { donl!(); $($h266)* });
        extras!();
        shown_packets!();

        pub fn $new(codec: Codec) -> Box<dyn Pair> {
            match codec {
                Codec::H264 => Box::<H264>::default(),
                Codec::H265 => Box::<H265>::default(),
                Codec::H266 => Box::<H266>::default(),
            }
        }

        pub fn why(error: PacketError) -> Why {
            match error {
                PacketError::ErrShortPacket => Why::Short,
                PacketError::NaluTypeIsNotHandled(t) => Why::NotHandled(t),
                PacketError::StapASizeLargerThanBuffer(len, left) => Why::StapATooLong(len, left),
                PacketError::ErrH265CorruptedPacket => Why::Corrupted265,
                PacketError::ErrH265PACIPHESTooLong => Why::ExtensionTooLong,
                PacketError::ErrH266CorruptedPacket => Why::Corrupted266,
                $($error)*
            }
        }
    };
}

/// The pair of a codec, with the calls that only some have.
macro_rules! pair {
    ($name:ident, $packetizer:ident, $depacketizer:ident, { $($more:tt)* }) => {
        #[derive(Default)]
        struct $name {
            packetizer: $packetizer,
            depacketizer: $depacketizer,
        }

        impl Pair for $name {
            fn packetize(&mut self, mtu: usize, payload: &[u8]) -> Result<Vec<Vec<u8>>, Why> {
                self.packetizer.packetize(mtu, payload).map_err(why)
            }

            fn is_marker(&mut self, packet: &[u8], previous: Option<&[u8]>, last: bool) -> bool {
                self.packetizer.is_marker(packet, previous, last)
            }

            fn depacketize(
                &mut self,
                packet: &[u8],
                out: &mut Vec<u8>,
                extra: &mut Extra,
            ) -> Result<(), Why> {
                let mut told = told(*extra);
                let taken = self.depacketizer.depacketize(packet, out, &mut told);
                *extra = extra_of(told);
                taken.map_err(why)
            }

            fn is_head(&self, packet: &[u8]) -> bool {
                self.depacketizer.is_partition_head(packet)
            }

            fn is_tail(&self, marker: bool, packet: &[u8]) -> bool {
                self.depacketizer.is_partition_tail(marker, packet)
            }

            fn hint(&self, len: usize) -> Option<usize> {
                self.depacketizer.out_size_hint(len)
            }

            $($more)*
        }
    };
}

/// The call of codecs with DONL.
macro_rules! donl {
    () => {
        fn with_donl(&mut self, has_donl: bool) {
            self.packetizer.with_donl(has_donl);
            self.depacketizer.with_donl(has_donl);
        }
    };
}

/// The call that puts copies in the place of both.
macro_rules! copied {
    () => {
        fn copy(&mut self) {
            self.packetizer = self.packetizer.clone();
            self.depacketizer = self.depacketizer.clone();
        }
    };
}

/// Whether a depacketizer is equal to a new one, on which `$setting` is done first.
macro_rules! same {
    ($depacketizer:ident, $setting:expr) => {
        fn is_same_as(&self, has_donl: bool, is_avc: bool, packets: &[Vec<u8>]) -> Option<bool> {
            let mut other = $depacketizer::default();
            let set: fn(&mut $depacketizer, bool, bool) = $setting;
            set(&mut other, has_donl, is_avc);
            for packet in packets {
                let (mut out, mut extra) = (Vec::new(), told(Extra::None));
                // One that is refused here is refused there too, and changes neither.
                let _ = other.depacketize(packet, &mut out, &mut extra);
            }
            Some(self.depacketizer == other)
        }
    };
}

/// What a depacketizer of H.265 shows.
macro_rules! shown {
    () => {
        fn shown(&self) -> Option<Shown> {
            Some(match &self.depacketizer.payload() {
                H265Payload::H265SingleNALUnitPacket(p) => shown_single(p),
                H265Payload::H265FragmentationUnitPacket(p) => shown_fragment(p),
                H265Payload::H265AggregationPacket(p) => shown_aggregate(p),
                H265Payload::H265PACIPacket(p) => shown_paci(p),
            })
        }
    };
}

/// The calls of each kind of packet that H.265 shows.
macro_rules! shown_packets {
    () => {
        fn shown_single(p: &H265SingleNALUnitPacket) -> Shown {
            let number = p.donl().map_or(NO_NUMBER, u32::from);
            Shown {
                kind: "single",
                words: vec![p.payload_header().0.into(), number],
                parts: vec![p.payload().to_vec()],
                tsci: None,
            }
        }

        fn shown_fragment(p: &H265FragmentationUnitPacket) -> Shown {
            let number = p.donl().map_or(NO_NUMBER, u32::from);
            let fu = p.fu_header();
            Shown {
                kind: "fragment",
                words: vec![p.payload_header().0.into(), fu.0.into(), number],
                parts: vec![p.payload().to_vec()],
                tsci: None,
            }
        }

        fn shown_aggregate(p: &H265AggregationPacket) -> Shown {
            let mut parts: Vec<Vec<u8>> = p.nal_units().iter().map(|unit| unit.to_vec()).collect();
            let mut words = Vec::new();
            if let Some(first) = p.first_unit() {
                words.push(first.donl().map_or(NO_NUMBER, u32::from));
                words.push(first.nalu_size().into());
                parts.push(first.nal_unit().to_vec());
            }
            for other in p.other_units() {
                words.push(other.dond().map_or(NO_NUMBER, u32::from));
                words.push(other.nalu_size().into());
                parts.push(other.nal_unit().to_vec());
            }
            Shown {
                kind: "aggregate",
                words,
                parts,
                tsci: None,
            }
        }

        fn shown_paci(p: &H265PACIPacket) -> Shown {
            let bits = [p.a(), p.f0(), p.f1(), p.f2(), p.y()].map(u32::from);
            let fields = [
                p.payload_header().0.into(),
                p.ctype().into(),
                p.phs_size().into(),
            ];
            Shown {
                kind: "paci",
                words: [&fields[..], &bits].concat(),
                parts: vec![p.phes().to_vec(), p.payload().to_vec()],
                tsci: p.tsci().map(|tsci| tsci.0),
            }
        }
    };
}

/// What is told, in the crate's form and back.
macro_rules! extras {
    () => {
        fn told(extra: Extra) -> CodecExtra {
            match extra {
                Extra::None => CodecExtra::None,
                Extra::Told(Codec::H264, is_keyframe) => {
                    CodecExtra::H264(H264CodecExtra { is_keyframe })
                }
                Extra::Told(Codec::H265, is_keyframe) => {
                    CodecExtra::H265(H265CodecExtra { is_keyframe })
                }
                Extra::Told(Codec::H266, is_keyframe) => {
                    CodecExtra::H266(H266CodecExtra { is_keyframe })
                }
            }
        }

        #[allow(unreachable_patterns)]
        fn extra_of(told: CodecExtra) -> Extra {
            match told {
                CodecExtra::H264(e) => Extra::Told(Codec::H264, e.is_keyframe),
                CodecExtra::H265(e) => Extra::Told(Codec::H265, e.is_keyframe),
                CodecExtra::H266(e) => Extra::Told(Codec::H266, e.is_keyframe),
                _ => Extra::None,
            }
        }
    };
}

// Behind the macros, which they use.
mod ours;
mod theirs;

pub use ours::{ours, why as our_why};
pub use theirs::{theirs, why as their_why};
