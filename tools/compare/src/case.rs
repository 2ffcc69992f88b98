//! A case: calls on a new packetizer and a new depacketizer of one codec.

use crate::answers::{Codec, Extra, Facts};
use std::fmt::Write;

/// Calls on a new pair of a codec, one after the other.
#[derive(Debug, Clone)]
pub struct Case {
    pub codec: Codec,
    pub steps: Vec<Step>,
}

/// A call, or some on the same bytes.
#[derive(Debug, Clone)]
pub enum Step {
    /// Packetizes a payload.
    Pack { limit: usize, payload: Vec<u8> },
    /// Packetizes a payload, and depacketizes the packets that ours makes.
    Carry { limit: usize, payload: Vec<u8> },
    /// Depacketizes a packet, and asks all else that can be asked of it.
    Unpack(Vec<u8>),
    /// Turns DONL on or off.
    Donl(bool),
    /// Has units written behind lengths, or behind start codes.
    Avc(bool),
    /// Sets the largest packet size, of ours alone.
    MaxPacketSize(u16),
    /// What was told so far is this.
    Told(Extra),
    /// Gives up the open run, of ours alone.
    GiveUp,
    /// Goes on with copies.
    Copy,
    /// Compares the depacketizer with a new one that was given the last accepted packet alone.
    Same,
    /// Makes a PACI packet.
    Paci { unit: Vec<u8>, extension: Vec<u8> },
}

impl Case {
    /// The calls as lines of the program `h26x_tool`; those that it has no line for stand behind a
    /// `#`.
    pub fn lines(&self) -> String {
        let mut lines = format!("codec {}\n", self.codec.name());
        for step in &self.steps {
            let line = self.line(step);
            writeln!(lines, "{line}").expect("a text takes it");
        }
        lines
    }

    fn line(&self, step: &Step) -> String {
        let on = |on: &bool| if *on { "on" } else { "off" };
        match step {
            Step::Pack { limit, payload } => format!("pack {limit} {}", hex(payload)),
            Step::Carry { limit, payload } => format!("carry {limit} {}", hex(payload)),
            Step::Unpack(packet) => format!("unpack {}", hex(packet)),
            Step::Donl(has_donl) => format!("donl {}", on(has_donl)),
            Step::Avc(is_avc) if self.codec == Codec::H264 => format!("avc {}", on(is_avc)),
            Step::Avc(is_avc) => format!("# is_avc = {is_avc}"),
            Step::MaxPacketSize(size) => format!("size {size}"),
            Step::Told(extra) => format!("# extra = {extra:?}"),
            Step::GiveUp => "# give_up_run".into(),
            Step::Copy => "# clone".into(),
            Step::Same => "# ==".into(),
            Step::Paci { unit, extension } => {
                format!("# paci {} {}", hex(unit), hex(extension))
            }
        }
    }
}

/// Bytes as two digits each; `-` stands for none.
pub fn hex(bytes: &[u8]) -> String {
    if bytes.is_empty() {
        return "-".into();
    }
    let mut digits = String::with_capacity(2 * bytes.len());
    for byte in bytes {
        write!(digits, "{byte:02x}").expect("a text takes it");
    }
    digits
}
