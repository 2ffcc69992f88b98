//! A depacketizer, whose units go to a list of bytes or to memory of the caller.

use super::row::{Words, bytes, bytes_of, number, word};
use super::said::Said;
use super::settings::{Settings, codec_of};
use super::{Answers, shown};
use crate::proved::h26x_codec::{AnyDepacketizer, Codec};
use crate::proved::h26x_core::{CodecExtra, Depacketizer, PacketError};
use crate::proved::h26x_depacketizer::MemorySink;
use crate::proved::h264_payload::{detect_h264_keyframe, detect_h264_nalu};
use crate::proved::h265_packets::H265Payload;
use crate::proved::h265_payload::detect_h265_keyframe;
use crate::proved::h266_payload::detect_h266_keyframe;
use crate::tests::{Answer, told};

/// Where units go.
#[derive(Clone, Copy)]
pub(super) enum Way {
    /// To a list of bytes.
    List,
    /// To memory of the caller.
    Memory,
}

/// A depacketizer.
pub(super) struct Receiver {
    depacketizer: AnyDepacketizer,
    way: Way,
}

impl Receiver {
    pub(super) fn new(way: Way) -> Self {
        Receiver {
            depacketizer: AnyDepacketizer::new(Codec::H264),
            way,
        }
    }

    /// Makes one as the words say, which takes packets.
    fn make(&mut self, words: &mut Words<'_>) {
        let (settings, packets) = Settings::with_packets(words);
        self.depacketizer = settings.any_depacketizer();
        let (mut out, mut extra) = (Vec::new(), CodecExtra::None);
        for packet in packets {
            self.take(&packet, &mut out, &mut extra);
        }
    }

    /// Takes a packet.
    fn take(&mut self, packet: &[u8], out: &mut Vec<u8>, extra: &mut CodecExtra) {
        let taken = give(self.way, &mut self.depacketizer, packet, out, extra);
        assert_eq!(taken, Ok(()), "{packet:?}");
    }

    /// Says what is written of packets behind what stood there, and told.
    fn say_taken(&mut self, words: &mut Words<'_>, said: &mut Said, before: (Vec<u8>, CodecExtra)) {
        let (mut out, mut extra) = before;
        for word in words {
            self.take(&bytes_of(word), &mut out, &mut extra);
        }
        said.bytes(&out);
        said.told(Some(self.depacketizer.codec()), extra);
    }

    /// Says why a packet is refused, which leaves what stood there and the state.
    fn say_refused(&mut self, packet: &[u8], said: &mut Said) {
        let before = self.copy();
        let stood = told(Codec::H264, true);
        let (mut out, mut extra) = (vec![0x11], stood);
        let given = give(
            self.way,
            &mut self.depacketizer,
            packet,
            &mut out,
            &mut extra,
        );
        assert_eq!((out, extra), (vec![0x11], stood));
        assert!(self.depacketizer.is_same(&before));
        said.refused(given.expect_err("a refusal"));
    }

    fn copy(&self) -> AnyDepacketizer {
        self.depacketizer.try_clone().expect("memory")
    }

    /// Whether it is the same as its copy, or as one that is made so.
    fn is_like(&self, words: &mut Words<'_>) -> bool {
        if words.clone().eq(["copy"]) {
            words.next();
            return self.depacketizer.is_same(&self.copy());
        }
        let mut other = Receiver::new(self.way);
        other.make(words);
        self.depacketizer.is_same(&other.depacketizer)
    }

    fn shown(&self) -> &H265Payload {
        self.depacketizer.shown().expect("something shown")
    }

    /// Sets whether packets bear numbers.
    fn set_numbers(&mut self, words: &mut Words<'_>) {
        self.depacketizer.with_donl(word(words) == "on");
    }
}

impl Answers for Receiver {
    fn answer(&mut self, name: &str, words: &mut Words<'_>, said: &mut Said) {
        match name {
            "depacketizer" => self.make(words),
            "take" => self.say_taken(words, said, (Vec::new(), CodecExtra::None)),
            "take-behind" => {
                let extra = extra_of(words);
                let before = (bytes(words), extra);
                self.say_taken(words, said, before);
            }
            "refuse" => self.say_refused(&bytes(words), said),
            "like" => said.fact(self.is_like(words)),
            "copy" => self.depacketizer = self.copy(),
            "numbers" => self.set_numbers(words),
            "shown" => shown::say(said, self.shown()),
            "shown-units" => shown::say_units(said, self.shown()),
            "shown-copy" => said.fact(shown::is_copied(self.shown())),
            "paci" => shown::pack(words, said),
            "cuts" => said.fact(are_cuts_right(words)),
            "hint" => said.number(self.depacketizer.out_size_hint(number(words))),
            "has-type" => {
                let nalu_type = number(words);
                said.fact(detect_h264_nalu(&bytes(words), nalu_type));
            }
            name => said.fact(is_so(&self.depacketizer, name, &bytes(words))),
        }
    }
}

/// What is told before, by a codec and `key` or `no-key`.
fn extra_of(words: &mut Words<'_>) -> CodecExtra {
    let (codec, is_keyframe) = (codec_of(word(words)), word(words) == "key");
    codec.map_or(CodecExtra::None, |codec| told(codec, is_keyframe))
}

/// What is said of a packet.
fn is_so(depacketizer: &AnyDepacketizer, name: &str, packet: &[u8]) -> bool {
    match name {
        "head" => depacketizer.is_partition_head(packet),
        "tail" => depacketizer.is_partition_tail(false, packet),
        "marked-tail" => depacketizer.is_partition_tail(true, packet),
        "key" => match depacketizer.codec() {
            Codec::H264 => detect_h264_keyframe(packet),
            Codec::H265 => detect_h265_keyframe(packet),
            Codec::H266 => detect_h266_keyframe(packet),
        },
        _ => panic!("no call {name}"),
    }
}

/// Room for all that a row writes.
const ROOM: usize = 200_000;

/// Gives a packet to a depacketizer. Memory of the caller has no room at first, which changes nothing where something is
/// to be written.
fn give(
    way: Way,
    depacketizer: &mut AnyDepacketizer,
    packet: &[u8],
    out: &mut Vec<u8>,
    extra: &mut CodecExtra,
) -> Answer {
    if matches!(way, Way::List) {
        return depacketizer.depacketize(packet, out, extra);
    }
    let mut sink = MemorySink::new(&mut []);
    let taken = depacketizer.depacketize_into(packet, &mut sink, extra);
    if !sink.lacks_room() {
        assert_eq!(sink.len(), 0, "bytes outside of the memory");
        return taken;
    }
    assert_eq!(taken, Err(PacketError::OutOfMemory), "taken without room");
    let mut memory = vec![0; ROOM];
    let mut sink = MemorySink::new(&mut memory);
    let taken = depacketizer.depacketize_into(packet, &mut sink, extra);
    assert!(!sink.lacks_room(), "no room for a row");
    let len = sink.len();
    out.extend_from_slice(&memory[..len]);
    taken
}

/// Whether each packet cut to each of its lengths, where it is refused, leaves all as it was, so that the whole packet
/// is then taken, or refused, as by a fresh depacketizer.
fn are_cuts_right(words: &mut Words<'_>) -> bool {
    let (settings, packets) = Settings::with_packets(words);
    packets.iter().all(|packet| {
        let fresh = || settings.any_depacketizer();
        let whole = answer_of(&mut fresh(), packet);
        (0..packet.len()).all(|len| {
            let mut depacketizer = fresh();
            let (taken, out, extra) = answer_of(&mut depacketizer, &packet[..len]);
            let is_kept = out.is_empty() && extra == CodecExtra::None;
            taken.is_ok() || is_kept && answer_of(&mut depacketizer, packet) == whole
        })
    })
}

/// What a depacketizer answers to a packet, writes of it and tells.
fn answer_of(depacketizer: &mut AnyDepacketizer, packet: &[u8]) -> (Answer, Vec<u8>, CodecExtra) {
    let (mut out, mut extra) = (Vec::new(), CodecExtra::None);
    let taken = depacketizer.depacketize(packet, &mut out, &mut extra);
    (taken, out, extra)
}
