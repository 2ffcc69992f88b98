// Made from crates/h26x_rtp_sender/src/history.rt by tools/to-rust.

//! The last packets that were sent, by their numbers.

use crate::proved::h26x_rtp_sender::sent::SentPacket;
use crate::support::AllocError;
use alloc::collections::VecDeque;

/// How many packets are held at most: half of the circle of sequence numbers.
const MOST_PACKETS: usize = 0x8000;

/// The last packets that were sent, the oldest first, whose payloads have so many bytes at most.
#[derive(Debug)]
pub struct PacketHistory {
    bound: usize,
    /// How many bytes the payloads have.
    size: usize,
    packets: VecDeque<SentPacket>,
}

/// Whether a packet of so many bytes more has a place.
fn has_place(bound: usize, size: usize, count: usize, more: usize) -> bool {
    more <= bound - size && count < MOST_PACKETS
}

/// Drops the oldest packet; how many bytes its payload had.
fn drop_oldest(packets: &mut VecDeque<SentPacket>) -> usize {
    match packets.pop_front() {
        Some(packet) => packet.payload.len(),
        None => 0,
    }
}

/// Puts a packet behind the others, of which the oldest go until there is a place for it; how many
/// bytes the payloads have then.
fn hold(
    bound: usize,
    size: usize,
    packets: &mut VecDeque<SentPacket>,
    packet: SentPacket,
) -> usize {
    let mut held = size;
    let more = packet.payload.len();
    while !packets.is_empty() && !has_place(bound, held, packets.len(), more) {
        held -= drop_oldest(packets);
    }
    if !has_place(bound, held, packets.len(), more) {
        return held;
    }
    packets.push_back(packet);
    held + more
}

/// Puts packets behind the others, each as `hold`; how many bytes the payloads have then.
fn hold_all(
    bound: usize,
    size: usize,
    packets: &mut VecDeque<SentPacket>,
    made: VecDeque<SentPacket>,
) -> usize {
    let mut held = size;
    let mut rest = made;
    while let Some(packet) = rest.pop_front() {
        held = hold(bound, held, packets, packet);
    }
    held
}

/// The packet of a number, of packets up to the one before `next`.
fn packet_of(packets: &VecDeque<SentPacket>, next: u16, number: u16) -> Option<&SentPacket> {
    let back = usize::from(next.wrapping_sub(number));
    if back == 0 || packets.len() < back {
        return None;
    }
    Some(&packets[packets.len() - back])
}

impl PacketHistory {
    /// None is held yet.
    pub(crate) fn new(bound: usize) -> Self {
        PacketHistory {
            bound,
            size: 0,
            packets: VecDeque::new(),
        }
    }

    /// Takes packets behind the others, of which the last are held. Want of memory leaves all.
    pub(crate) fn take(&mut self, made: VecDeque<SentPacket>) -> Result<(), AllocError> {
        self.packets.try_reserve(made.len())?;
        self.size = hold_all(self.bound, self.size, &mut self.packets, made);
        Ok(())
    }

    /// The packet of a number, if it is held, where `next` is the number behind the last.
    pub(crate) fn find(&self, next: u16, number: u16) -> Option<&SentPacket> {
        packet_of(&self.packets, next, number)
    }
}
