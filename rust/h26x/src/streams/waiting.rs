//! Packets that wait in a receiver, in the order of their numbers, so that it can be told what becomes of
//! each: the receiver says how many it has taken.

use crate::captures::packets::Captured;
use crate::captures::rtp::Rtp;
use std::collections::VecDeque;
use std::ops::Range;

/// A packet with memory of its own.
pub struct Kept {
    packet: Captured<'static>,
    datagram: Vec<u8>,
    /// Where in it the payload stands.
    payload: Range<usize>,
    /// Whether it came behind a later one.
    pub is_moved: bool,
}

impl Kept {
    pub fn new(packet: &Captured<'_>) -> Self {
        // (that of a packet that RTX or RED bears ends there too)
        let end = packet.datagram.len() - usize::from(packet.rtp.padding);
        let rtp = Rtp {
            extension: None,
            payload: &[],
            ..packet.rtp
        };
        Kept {
            packet: Captured {
                rtp,
                datagram: &[],
                ..*packet
            },
            datagram: packet.datagram.to_vec(),
            payload: end - packet.rtp.payload.len()..end,
            is_moved: false,
        }
    }

    pub fn sequence(&self) -> u16 {
        self.packet.rtp.sequence
    }

    pub fn packet(&self) -> Captured<'_> {
        let rtp = Rtp {
            payload: &self.datagram[self.payload.clone()],
            ..self.packet.rtp
        };
        Captured {
            rtp,
            datagram: &self.datagram,
            ..self.packet
        }
    }
}

#[derive(Default)]
pub struct Waiting(VecDeque<Kept>);

impl Waiting {
    pub fn is_empty(&self) -> bool {
        self.0.is_empty()
    }

    /// Puts a packet in its place, where this number is the one that is due.
    pub fn put(&mut self, packet: &Captured<'_>, due: u16) {
        let mut kept = Kept::new(packet);
        let ahead = |sequence: u16| sequence.wrapping_sub(due);
        let of_it = ahead(kept.sequence());
        let place = self.0.partition_point(|it| ahead(it.sequence()) < of_it);
        kept.is_moved = place < self.0.len();
        self.0.insert(place, kept);
    }

    pub fn pop(&mut self) -> Option<Kept> {
        self.0.pop_front()
    }
}
