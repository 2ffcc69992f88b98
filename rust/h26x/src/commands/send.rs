//! Sends a stream into a capture.

use crate::captures::frames::{HEADROOM, MARKER, write_headers};
use crate::captures::rtp::Rtp;
use crate::commands::arguments::Send;
use crate::errors::Failure;
use crate::network::sink::Sink;
use crate::output::file::Output;
use crate::output::printing::{say, shown};
use crate::output::progress::Progress;
use crate::streams::access_units::AccessUnits;
use crate::streams::chooser::counted;
use crate::streams::codecs::{Likeness, name, word};
use crate::streams::description::Description;
use emupedestal::access_units::unit_type;
use emupedestal::{Codec, CodecPacketizer, Packets, Packing, units};

const TICKS_A_SECOND: u128 = 90_000;
const MICROS_A_SECOND: u128 = 1_000_000;
/// So many access units are read for a description before they are sent.
const MOST_BEFORE: usize = 64;

struct Sender<'a> {
    asked: &'a Send,
    packetizer: CodecPacketizer,
    packets: Packets,
    sink: Sink,
    sequence: u16,
    likeness: Likeness,
    /// What a session description says of it, and the file of that.
    description: Option<(Description, Output)>,
    access_units: u64,
    /// Where the last packet of this access unit stands in what is gathered.
    last: Option<usize>,
    sent: u64,
    /// Units that are not sent.
    left_out: u64,
}

/// Sends, and answers the status to end with.
pub fn send(asked: &Send) -> Result<u8, Failure> {
    let mut access_units = AccessUnits::open(asked)?;
    let mut progress = Progress::new(Some("sending"), access_units.len);
    let mut sender = Sender::new(asked)?;
    for access_unit in sender.describe_first(&mut access_units)? {
        sender.send(&access_unit)?;
    }
    while let Some(access_unit) = access_units.next_access_unit()? {
        sender.send(access_unit)?;
        progress.at(access_units.position());
    }
    drop(progress);
    sender.finish()
}

impl<'a> Sender<'a> {
    fn new(asked: &'a Send) -> Result<Self, Failure> {
        let mut packetizer = CodecPacketizer::new(asked.codec);
        packetizer.configure_for(asked.has_donl.then_some(1));
        packetizer.with_max_packet_size(asked.mtu);
        let sink = Sink::new(asked)?;
        let described = asked.description.as_ref();
        let description = described.map(|path| Output::create(path, &asked.input));
        let description = description.transpose()?;
        Ok(Sender {
            asked,
            packetizer,
            packets: Packets::with_headroom(HEADROOM),
            sink,
            sequence: asked.sequence,
            likeness: Likeness::default(),
            description: description.map(|to| (Description::new(asked.codec), to)),
            access_units: 0,
            last: None,
            sent: 0,
            left_out: 0,
        })
    }

    /// Writes the description of what goes over the network before it goes, since a receiver needs it;
    /// answers the first access units, which were read for it.
    fn describe_first(&mut self, from: &mut AccessUnits<'_>) -> Result<Vec<Vec<u8>>, Failure> {
        let mut first = Vec::new();
        if !self.sink.is_network() {
            return Ok(first);
        }
        let Some((mut description, mut to)) = self.description.take() else {
            return Ok(first);
        };
        while let Some(access_unit) = from.next_access_unit()? {
            let units = units(self.asked.codec, access_unit);
            units.for_each(|it| description.look(it));
            first.push(access_unit.to_vec());
            if description.is_whole() || first.len() >= MOST_BEFORE {
                break;
            }
        }
        let text = description.text(self.asked)?;
        to.gathered.extend_from_slice(text.as_bytes());
        to.finish()?;
        Ok(first)
    }

    fn send(&mut self, access_unit: &[u8]) -> Result<(), Failure> {
        let sendable = self.look(access_unit);
        let mtu = self.asked.mtu.into();
        match self.asked.is_as_str0m {
            true => {
                let made = self
                    .packetizer
                    .packetize_into(mtu, access_unit, &mut self.packets);
                made.map_err(|error| Failure::of(&self.asked.input, error))?;
            }
            false => {
                let together = Packing::Together;
                let to = &mut self.packets;
                let made = self
                    .packetizer
                    .packetize_units_into(together, mtu, &sendable, to);
                made.map_err(|error| Failure::of(&self.asked.input, error))?;
            }
        }
        self.write();
        if let Some(last) = self.last.take() {
            self.sink.gathered()[last + MARKER] |= 0x80;
        }
        self.access_units += 1;
        self.sink.pass_on()
    }

    /// Looks at the units of an access unit; answers those that are sent.
    fn look<'b>(&mut self, access_unit: &'b [u8]) -> Vec<&'b [u8]> {
        let mut sendable = Vec::new();
        for unit in units(self.asked.codec, access_unit) {
            self.likeness.add(unit);
            if let Some((description, _)) = &mut self.description {
                description.look(unit);
            }
            match self.asked.sends(unit) {
                true => sendable.push(unit),
                false => self.left_out += 1,
            }
        }
        sendable
    }

    /// Writes the packets of a call.
    fn write(&mut self) {
        let picture = u128::from(self.access_units) * u128::from(self.asked.frames.1);
        let at = |a_second: u128| picture * a_second / u128::from(self.asked.frames.0);
        for i in 0..self.packets.len() {
            let packet = Rtp {
                marker: false,
                payload_type: self.asked.payload_type,
                sequence: self.sequence,
                timestamp: at(TICKS_A_SECOND) as u32,
                ssrc: self.asked.ssrc,
                extension: None,
                payload: &[],
                padding: 0,
            };
            let record = self.packets.datagram_mut(i);
            write_headers(record, at(MICROS_A_SECOND) as u64, self.asked.port, &packet);
            self.sequence = self.sequence.wrapping_add(1);
        }
        let before = self.packets.ends().iter().rev().nth(1).unwrap_or(&0);
        if !self.packets.is_empty() {
            self.last = Some(self.sink.gathered().len() + before);
        }
        self.sent += self.packets.len() as u64;
        self.sink.gathered().extend_from_slice(self.packets.bytes());
    }

    fn finish(self) -> Result<u8, Failure> {
        let Send { codec, input, .. } = self.asked;
        if let Some(other) = self.likeness.other_than(*codec) {
            let what = format!(
                "this stream is no {}: its units look as those of {} do; say --codec {}",
                name(*codec),
                name(other),
                word(other)
            );
            return Err(Failure::of(input, what));
        }
        if self.sent == 0 {
            let what = "there is no unit in it that can be sent";
            return Err(Failure::of(input, what));
        }
        let mut description = self.description;
        if let Some((description, to)) = &mut description {
            let text = description.text(self.asked)?;
            to.gathered.extend_from_slice(text.as_bytes());
        }
        let written = self.sink.finish()?;
        description.map(|(_, to)| to.finish()).transpose()?;
        say(&format!(
            "{}: {} in {}, {}; left out: {}",
            shown(input),
            counted(self.access_units, "access unit"),
            counted(self.sent, "packet"),
            written,
            counted(self.left_out, "unit")
        ));
        Ok(0)
    }
}

impl Send {
    /// Whether a unit is sent: not one without a whole header, nor with its forbidden bit set, nor of a
    /// type that packets have; nor, as str0m has it or where that is asked for, a delimiter.
    fn sends(&self, unit: &[u8]) -> bool {
        if !self.has_delimiters && self.codec.is_delimiter(unit) {
            return false;
        }
        let is_forbidden = unit.first().is_some_and(|first| first & 0x80 != 0);
        let Some(it) = unit_type(self.codec, unit) else {
            return false;
        };
        match (self.codec, self.is_as_str0m) {
            (Codec::H264, true) => it != 9,
            (Codec::H265, true) => it != 35,
            (Codec::H266, true) => !matches!(it, 20 | 28 | 29),
            (Codec::H264, false) => !is_forbidden && matches!(it, 1..=23),
            (Codec::H265, false) => !is_forbidden && !matches!(it, 48..=50),
            (Codec::H266, false) => !is_forbidden && !matches!(it, 28 | 29),
        }
    }
}
