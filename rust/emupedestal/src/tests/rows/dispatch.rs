//! Packetizers and depacketizers chosen while the program runs, one in a box among them.

use super::plain::Plain;
use super::row::{Words, bytes, bytes_of, number, number_of, word};
use super::said::Said;
use super::sending::{How, Sending, size};
use super::settings::Settings;
use super::{Answers, shown};
use crate::{
    Codec, CodecDepacketizer, CodecExtra, CodecPacketizer, Depacketizer, Packetizer, Packets,
};
use std::mem;

/// Where packets go: to a list each time, or to one buffer, each behind so many bytes.
#[derive(Clone, Copy)]
pub(super) enum Way {
    List,
    Buffer(usize),
}

/// A packetizer, the one that it was copied from, and where its packets go.
pub(super) struct Sender {
    packetizer: CodecPacketizer,
    other: CodecPacketizer,
    way: Way,
    buffer: Packets,
}

impl Sender {
    pub(super) fn new(way: Way) -> Self {
        let headroom = match way {
            Way::List => 0,
            Way::Buffer(headroom) => headroom,
        };
        Sender {
            packetizer: CodecPacketizer::new(Codec::H264),
            other: CodecPacketizer::new(Codec::H264),
            way,
            buffer: Packets::with_headroom(headroom),
        }
    }

    /// The packets of what is sent once.
    fn send(&mut self, it: &Sending) -> Vec<Vec<u8>> {
        let (limit, bytes) = (it.limit, &it.bytes);
        match (self.way, it.how) {
            (Way::Buffer(_), _) => return self.place(it),
            (Way::List, How::Payload) => self.packetizer.packetize(limit, bytes),
            (Way::List, How::Unit) => self.packetizer.packetize_unit(limit, bytes),
        }
        .expect("memory")
    }

    /// The same, in the buffer.
    fn place(&mut self, it: &Sending) -> Vec<Vec<u8>> {
        let (limit, bytes, to) = (it.limit, &it.bytes, &mut self.buffer);
        match it.how {
            How::Payload => self.packetizer.packetize_into(limit, bytes, to),
            How::Unit => self.packetizer.packetize_unit_into(limit, bytes, to),
        }
        .expect("memory");
        to.iter().map(<[u8]>::to_vec).collect()
    }

    /// Sends, and says the packets of the last time.
    fn say_sent(&mut self, it: &Sending, said: &mut Said) {
        let mut packets = Vec::new();
        for _ in 0..it.times {
            packets = self.send(it);
        }
        it.say(said, &packets);
    }

    /// Whether a packet bears the marker, behind another or none.
    fn is_marker(&mut self, words: &mut Words<'_>) -> bool {
        let (packet, before) = (bytes(words), word(words));
        let previous = bytes_of(before);
        let previous = (before != "-").then_some(&previous[..]);
        let is_last = word(words) == "last";
        self.packetizer.is_marker(&packet, previous, is_last)
    }
}

impl Answers for Sender {
    fn answer(&mut self, name: &str, words: &mut Words<'_>, said: &mut Said) {
        if let Some(it) = Sending::read(name, words) {
            return self.say_sent(&it, said);
        }
        match name {
            "packetizer" => self.packetizer = Settings::read(words).packetizer(),
            "copy" => {
                let copy = copy_of(&self.packetizer);
                self.other = mem::replace(&mut self.packetizer, copy);
            }
            "other" => mem::swap(&mut self.packetizer, &mut self.other),
            "size" => self.packetizer.with_max_packet_size(size(words)),
            "configure" => self.packetizer.configure_for(distance(words)),
            "marker" => said.fact(self.is_marker(words)),
            "nackable" => said.fact(self.packetizer.nackable()),
            "talkspurt" => said.fact(self.packetizer.marks_talkspurt()),
            _ => panic!("no call {name}"),
        }
    }
}

/// What a session description says of numbers: nothing, or a distance.
fn distance(words: &mut Words<'_>) -> Option<u32> {
    match word(words) {
        "none" => None,
        word => Some(number_of(word)),
    }
}

fn copy_of(packetizer: &CodecPacketizer) -> CodecPacketizer {
    match packetizer {
        CodecPacketizer::H264(it) => CodecPacketizer::H264(it.clone()),
        CodecPacketizer::H265(it) => CodecPacketizer::H265(it.clone()),
        CodecPacketizer::H266(it) => CodecPacketizer::H266(it.clone()),
        CodecPacketizer::Boxed(_) => CodecPacketizer::Boxed(Box::new(Plain)),
    }
}

/// A depacketizer, and its codec, none in a box.
pub(super) struct Receiver {
    depacketizer: CodecDepacketizer,
    codec: Option<Codec>,
}

impl Receiver {
    pub(super) fn new() -> Self {
        Receiver {
            depacketizer: CodecDepacketizer::new(Codec::H264),
            codec: Some(Codec::H264),
        }
    }

    fn make(&mut self, settings: Settings) {
        self.codec = settings.codec;
        self.depacketizer = settings.depacketizer();
    }

    /// Says what becomes of a packet, what is written of it, and told.
    fn take(&mut self, packet: &[u8], said: &mut Said) {
        let (mut out, mut extra) = (Vec::new(), CodecExtra::None);
        let taken = self.depacketizer.depacketize(packet, &mut out, &mut extra);
        said.outcome(taken);
        said.bytes(&out);
        said.told(self.codec, extra);
    }

    /// Says the units of the aggregate that one of H.265 shows.
    fn say_units(&self, said: &mut Said) {
        match &self.depacketizer {
            CodecDepacketizer::H265(it) => shown::say_units(said, it.payload()),
            it => panic!("{it:?} shows nothing"),
        }
    }
}

impl Answers for Receiver {
    fn answer(&mut self, name: &str, words: &mut Words<'_>, said: &mut Said) {
        let it = &mut self.depacketizer;
        match name {
            "depacketizer" => self.make(Settings::read(words)),
            "packet" => self.take(&bytes(words), said),
            "give-up" => it.give_up_run(),
            "units" => self.say_units(said),
            "head" => said.fact(it.is_partition_head(&bytes(words))),
            "tail" => said.fact(it.is_partition_tail(false, &bytes(words))),
            "marked-tail" => said.fact(it.is_partition_tail(true, &bytes(words))),
            "hint" => said.number(it.out_size_hint(number(words))),
            _ => panic!("no call {name}"),
        }
    }
}
