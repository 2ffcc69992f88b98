//! What is asked of a packetizer and a depacketizer of any codec.

use crate::PacketError;
use crate::proved::h26x_core::{CodecExtra, Depacketizer, Packetizer};
use crate::proved::h26x_depacketizer::{PacketReader, PayloadDepacketizer};
use crate::proved::h26x_packetizer::PayloadPacketizer;
use crate::proved::h26x_payload::{DonlFormat, PayloadFormat};
use crate::proved::h265_payload::H265Depacketizer;
use crate::refusing::{insist, insist_on, some_refused, without_memory};
use std::fmt::Debug;

/// An answer of a call that brings nothing back.
pub type Answer = Result<(), PacketError>;

pub const SHORT: Answer = Err(PacketError::ErrShortPacket);

/// What can be copied, where there is memory.
pub trait Copied: Sized {
    fn copied(&self) -> Result<Self, PacketError>;
}

impl<C: PayloadFormat> Copied for PayloadPacketizer<C> {
    fn copied(&self) -> Result<Self, PacketError> {
        self.try_clone()
    }
}

impl<C: PacketReader> Copied for PayloadDepacketizer<C> {
    fn copied(&self) -> Result<Self, PacketError> {
        self.try_clone()
    }
}

impl Copied for H265Depacketizer {
    fn copied(&self) -> Result<Self, PacketError> {
        self.try_clone()
    }
}

/// A copy, each request of which was refused before.
#[track_caller]
pub fn copy_of<T: Copied>(it: &T) -> T {
    insist_on(|| it.copied()).expect("a copy")
}

/// A copy equals what it is of.
#[track_caller]
pub fn is_copied<T: Copied + PartialEq + Debug>(it: &T) {
    assert_eq!(copy_of(it), *it);
}

/// A packetizer that numbers units, or doesn't.
pub fn packetizer<C: DonlFormat>(has_donl: bool) -> PayloadPacketizer<C> {
    let mut packetizer = PayloadPacketizer::new();
    packetizer.with_donl(has_donl);
    packetizer
}

/// Sends a payload, each request refused before, and compares its packets.
#[track_caller]
pub fn send<P: Packetizer>(packetizer: &mut P, mtu: usize, payload: &[u8], want: &[&[u8]]) {
    let packets = insist(packetizer, |it| it.packetize(mtu, payload), |_| true);
    assert_eq!(packets.expect("packets"), want);
}

/// Sends payloads of which nothing is sent: no memory is asked for.
#[track_caller]
pub fn send_nothing<P: Packetizer>(packetizer: &mut P, payloads: &[(usize, &[u8])]) {
    for (mtu, payload) in payloads {
        let packets = without_memory(|| packetizer.packetize(*mtu, payload));
        assert_eq!(packets.as_deref(), Ok(&[][..]), "{payload:?}");
    }
}

/// A depacketizer, and what it wrote and told.
pub struct Receiver<D: Depacketizer> {
    pub depacketizer: D,
    pub out: Vec<u8>,
    pub told: CodecExtra,
}

impl<D: Depacketizer> Receiver<D> {
    /// One to which nothing was given.
    pub fn new(depacketizer: D) -> Self {
        Receiver {
            depacketizer,
            out: Vec::new(),
            told: CodecExtra::None,
        }
    }

    /// Takes a packet.
    pub fn take_once(&mut self, packet: &[u8]) -> Answer {
        self.depacketizer
            .depacketize(packet, &mut self.out, &mut self.told)
    }

    /// Takes a packet, each request refused before; a refusal leaves what was written and told.
    #[track_caller]
    pub fn take(&mut self, packet: &[u8]) {
        let before = (self.out.clone(), self.told);
        let kept = |it: &Self| it.out == before.0 && it.told == before.1;
        assert_eq!(insist(self, |it| it.take_once(packet), kept), Ok(()));
    }

    /// Takes packets, one after the other.
    #[track_caller]
    pub fn take_each(&mut self, packets: &[&[u8]]) {
        for packet in packets {
            self.take(packet);
        }
    }

    /// Compares what was written and told.
    #[track_caller]
    pub fn has(&self, written: &[u8], told: CodecExtra) {
        assert_eq!((self.out.as_slice(), self.told), (written, told));
    }

    /// Gives packets of which nothing is kept or written, and compares the answers: no memory is asked for.
    #[track_caller]
    pub fn take_nothing(&mut self, packets: &[(&[u8], Answer)]) {
        for (packet, want) in packets {
            assert_eq!(
                without_memory(|| self.take_once(packet)),
                *want,
                "{packet:?}"
            );
        }
        self.has(&[], CodecExtra::None);
    }
}

impl<D: Depacketizer + Copied + PartialEq + Debug> Receiver<D> {
    /// Takes a packet, each request refused before; a refusal leaves the open run, what is shown, and what was written
    /// and told.
    #[track_caller]
    pub fn take_or_stay(&mut self, packet: &[u8]) {
        let depacketizer = self.depacketizer.copied().expect("a copy");
        let (out, told) = (self.out.clone(), self.told);
        let kept = |it: &Self| it.depacketizer == depacketizer && it.out == out && it.told == told;
        assert_eq!(insist(self, |it| it.take_once(packet), kept), Ok(()));
    }

    /// Takes packets, one that ends the open run, and others; and compares what is written and told of them. Where the
    /// end is refused, the run is still open.
    #[track_caller]
    pub fn take_end(mut self, ended: &Ended) {
        self.take_each(ended.before);
        some_refused(|| self.take_or_stay(ended.end));
        self.take_each(ended.behind);
        self.has(ended.written, ended.told);
    }
}

/// Packets, one that ends the open run, and others; and what is written and told of them.
pub struct Ended {
    pub before: &'static [&'static [u8]],
    pub end: &'static [u8],
    pub behind: &'static [&'static [u8]],
    pub written: &'static [u8],
    pub told: CodecExtra,
}

/// Asks a packetizer what takes no memory.
#[track_caller]
pub fn ask_packetizer<P: Packetizer>(packetizer: &mut P, packet: &[u8]) {
    without_memory(|| {
        assert!(packetizer.is_marker(packet, None, true));
        assert!(!packetizer.marks_talkspurt() && packetizer.nackable());
    });
}

/// Asks a depacketizer what takes no memory.
#[track_caller]
pub fn ask_depacketizer<D: Depacketizer>(depacketizer: &D, packet: &[u8]) {
    without_memory(|| {
        assert!(depacketizer.out_size_hint(1200) == Some(1208));
        assert!(depacketizer.is_partition_head(packet));
        assert!(depacketizer.is_partition_tail(true, packet));
    });
}

/// What a packet begins with, and a byte that many others are.
pub fn filled(head: &[u8], len: usize, byte: u8) -> Vec<u8> {
    let mut packet = vec![byte; len];
    packet[..head.len()].copy_from_slice(head);
    packet
}

/// A fragment of 43 bytes.
pub fn fragment(head: &[u8; 3], byte: u8) -> Vec<u8> {
    filled(head, 43, byte)
}

/// A fragment of 103 bytes.
pub fn longer_fragment(head: &[u8; 3], byte: u8) -> Vec<u8> {
    filled(head, 103, byte)
}

/// The text of a unit of 40 bytes `aa`, 100 bytes `bb` and 40 bytes `cc` behind its start code and header.
pub fn text_of_fragments(front: &[u8; 6]) -> Vec<u8> {
    [&front[..], &[0xaa; 40], &[0xbb; 100], &[0xcc; 40]].concat()
}
