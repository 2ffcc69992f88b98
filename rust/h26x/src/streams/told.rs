//! What is told of a stream that is received.

use crate::captures::packets::Captured;
use crate::errors::Failure;
use emupedestal::access_unit_receiver::ReceivedAccessUnit;

pub type Outcome = Result<(), Failure>;
/// What takes what is told.
pub type Tell<'a> = dyn FnMut(Told<'_>) -> Outcome + 'a;

/// What is told of a stream, one after the other.
pub enum Told<'a> {
    /// A packet came, and not by RTX, in the order of the capture.
    Came(&'a Captured<'a>),
    /// A packet, once it was its turn.
    Packet(&'a Captured<'a>, Fate),
    /// An access unit, behind its last packet, and when the latest of its packets was captured.
    Unit(&'a ReceivedAccessUnit, u64),
    /// A packet that came twice while another was waited for.
    Twice(u16),
    /// A packet that was sent again, by RTX, though it had come or was no longer waited for.
    Again(u16),
    /// A packet whose number is far from all others.
    Stray(u16),
    /// The sender began anew with the number that follows.
    Anew,
}

/// What became of a packet.
pub struct Fate {
    pub became: Became,
    /// How many before it are lost.
    pub lost: u32,
    /// Whether it came behind a later one.
    pub is_moved: bool,
}

pub enum Became {
    /// Whether a unit is given up with it.
    Taken {
        gave_up: bool,
    },
    TooLong,
    Late(u16),
    Refused(String),
    /// The capture has only its front.
    Cut,
    /// It has padding alone.
    Padding,
}
