// Made from crates/h26x_access_units/src/jitter.rt by tools/to-rust.

//! Packets that wait for those before them, by a window, by time and by bytes.

use crate::proved::h26x_access_units::arrival::{Arrival, from_at, let_go};
use crate::proved::h26x_access_units::config::AccessUnitConfig;
use crate::proved::h26x_access_units::pushed::{
    NotPushed, NotPushedReason, Pushed, as_not_pushed, reason_of,
};
use crate::proved::h26x_reorder::{self, HeldPacket, ReorderBuffer, RtpPacket};
use crate::support::AllocError;
use crate::support::TryVec;
use alloc::collections::VecDeque;
use alloc::vec::Vec;

/// How far numbers are out of order at most (RFC 3550, A.1).
const MAX_MISORDER: u16 = 100;

/// Appends numbers from one on, so many.
fn append_numbers(numbers: &mut Vec<u16>, first: u16, count: u16) -> Result<(), AllocError> {
    let mut number = first;
    for _ in 0..count {
        numbers.try_push(number)?;
        number = number.wrapping_add(1);
    }
    Ok(())
}

/// Packets that wait for those before them, in the order of their sequence numbers (RFC 3550, 5.1),
/// as in a [`ReorderBuffer`]: until those have come, or a window of packets has passed, or one has
/// waited for so long, or more bytes wait than a limit.
#[derive(Debug)]
pub struct JitterBuffer {
    config: AccessUnitConfig,
    buffer: ReorderBuffer,
    arrivals: VecDeque<Arrival>,
    from: u16,
    bytes: usize,
    has_begun: bool,
    is_over: bool,
}

impl JitterBuffer {
    /// One in which no packet waits, and that takes any number as the first. It takes no memory.
    pub(crate) fn new(config: AccessUnitConfig) -> Self {
        JitterBuffer {
            config,
            buffer: ReorderBuffer::new(config.window),
            arrivals: VecDeque::new(),
            from: 0,
            bytes: 0,
            has_begun: false,
            is_over: false,
        }
    }

    /// The settings.
    pub fn config(&self) -> AccessUnitConfig {
        self.config
    }

    /// Has another limit on the bytes that wait from now on.
    pub(crate) fn set_held_limit(&mut self, limit: usize) {
        self.config.held_limit = limit;
    }

    /// Has other settings from now on.
    pub(crate) fn set_config(&mut self, config: AccessUnitConfig) {
        self.config = config;
        self.buffer.set_window(config.window);
    }

    /// The number that is due, if a packet came.
    #[inline]
    pub(crate) fn due(&self) -> Option<u16> {
        self.buffer.due()
    }

    /// Whether a number is so far ahead of the newest that waits, or of the one that is due where none
    /// waits, and so far behind the one that is due, that it is a stray (RFC 3550, A.1).
    pub fn is_far(&self, number: u16) -> bool {
        let far = self.config.far;
        match self.buffer.due() {
            Some(due) if far != 0 && number.wrapping_sub(due) >= far => {
                let newest = self.buffer.newest(due);
                let is_between = number.wrapping_sub(due) <= newest.wrapping_sub(due);
                let ahead = number.wrapping_sub(newest);
                let behind = due.wrapping_sub(number);
                !is_between && ahead >= far && behind >= self.far_back()
            }
            _ => false,
        }
    }

    /// How far behind the number that is due one is at least that is too far.
    fn far_back(&self) -> u16 {
        match self.config.far_behind {
            0 => self.config.far,
            behind => behind,
        }
    }

    /// How far ahead of those that wait a packet is taken as it comes.
    fn reach(&self) -> u16 {
        self.config.window.max(MAX_MISORDER)
    }

    /// Whether a number is more than a window, and than 100, ahead of the newest that waits, or of the
    /// one that is due where none waits, and not late. One that is near the one that is due isn't,
    /// whatever waits.
    #[inline]
    pub fn is_ahead(&self, number: u16) -> bool {
        match self.buffer.due() {
            Some(due)
                if number.wrapping_sub(due) > MAX_MISORDER && self.buffer.is_beyond(number) =>
            {
                number.wrapping_sub(self.buffer.newest(due)) > self.reach()
            }
            _ => false,
        }
    }

    /// Whether a number is near another one: no more than a window, or than 100, ahead of it or behind.
    pub(crate) fn is_near(&self, other: u16, number: u16) -> bool {
        let reach = self.reach();
        number.wrapping_sub(other) <= reach || other.wrapping_sub(number) <= reach
    }

    /// How many packets wait.
    pub fn len(&self) -> usize {
        self.buffer.len()
    }

    /// Whether none waits.
    pub fn is_empty(&self) -> bool {
        self.buffer.is_empty()
    }

    /// How many bytes wait with so many more, where these may wait.
    fn bytes_with(&self, len: usize) -> Option<usize> {
        if self.bytes > self.config.held_limit {
            None
        } else {
            self.bytes.checked_add(len)
        }
    }

    /// Takes a packet that came at this tick, and copies it if it is to wait. Without memory all stays
    /// as it was, and the packet can be given again; one that isn't to wait wants none.
    #[inline]
    pub(crate) fn try_push(
        &mut self,
        now: u32,
        packet: &RtpPacket<'_>,
    ) -> Result<Pushed, AllocError> {
        let bytes = match self.bytes_with(packet.payload.len()) {
            Some(bytes) => bytes,
            None => return Ok(Pushed::Full),
        };
        if self.arrivals.try_reserve(1).is_err() {
            return match self.buffer.answer_to(packet.sequence) {
                crate::proved::h26x_reorder::Pushed::Held => Err(AllocError),
                crate::proved::h26x_reorder::Pushed::Late(count) => Ok(Pushed::Late(count)),
                crate::proved::h26x_reorder::Pushed::Twice => Ok(Pushed::Twice),
            };
        }
        match self.buffer.try_push(packet)? {
            crate::proved::h26x_reorder::Pushed::Held => {
                self.bytes = bytes;
                self.from = from_at(&self.arrivals, self.from, self.buffer.due());
                self.arrivals.push_back(Arrival {
                    number: packet.sequence,
                    at: now,
                });
                Ok(Pushed::Held)
            }
            crate::proved::h26x_reorder::Pushed::Late(count) => Ok(Pushed::Late(count)),
            crate::proved::h26x_reorder::Pushed::Twice => Ok(Pushed::Twice),
        }
    }

    /// Whether what waits stays within the limit with a packet that waited alone, or none waits.
    fn has_room_for(&self, stray: &RtpPacket<'_>) -> bool {
        match self.config.held_limit.checked_sub(self.bytes) {
            Some(left) => self.is_empty() || stray.payload.len() <= left,
            None => self.is_empty(),
        }
    }

    /// Takes a packet that is more than a window ahead, near one that waited alone, and this one with
    /// it, where there is room. The answer is whether it waits: not where more bytes wait than the
    /// limit.
    pub(crate) fn push_with(
        &mut self,
        now: u32,
        stray: &RtpPacket<'_>,
        packet: &RtpPacket<'_>,
    ) -> Result<bool, AllocError> {
        if self.bytes_with(packet.payload.len()).is_none() {
            return Ok(false);
        }
        let has_room = self.has_room_for(stray);
        if has_room && self.buffer.are_beyond(stray.sequence, packet.sequence) {
            self.push_two(now, stray, packet)?;
        } else if has_room && self.buffer.are_beyond(packet.sequence, stray.sequence) {
            self.push_two(now, packet, stray)?;
        } else {
            let _ = self.try_push(now, packet)?;
        }
        Ok(true)
    }

    /// Takes two packets that come behind all others. Without memory for both all stays as it was.
    fn push_two(
        &mut self,
        now: u32,
        first: &RtpPacket<'_>,
        second: &RtpPacket<'_>,
    ) -> Result<(), AllocError> {
        let Some(with_first) = self.bytes.checked_add(first.payload.len()) else {
            return Err(AllocError);
        };
        let Some(bytes) = with_first.checked_add(second.payload.len()) else {
            return Err(AllocError);
        };
        self.arrivals.try_reserve(2)?;
        self.buffer.push_two(first, second)?;
        self.bytes = bytes;
        self.from = from_at(&self.arrivals, self.from, self.buffer.due());
        self.arrivals.push_back(Arrival {
            number: first.sequence,
            at: now,
        });
        self.arrivals.push_back(Arrival {
            number: second.sequence,
            at: now,
        });
        Ok(())
    }

    /// Takes a packet that has memory of its own, and copies nothing of it. One that doesn't wait comes
    /// back as it was given, with the reason, and all stays as it was.
    pub fn push_held(&mut self, now: u32, packet: HeldPacket) -> Result<(), NotPushed> {
        let bytes = match self.bytes_with(packet.payload.len()) {
            Some(bytes) => bytes,
            None => {
                return Err(NotPushed {
                    packet,
                    reason: NotPushedReason::Full,
                });
            }
        };
        if self.arrivals.try_reserve(1).is_err() {
            let reason = reason_of(self.buffer.answer_to(packet.sequence));
            return Err(NotPushed { packet, reason });
        }
        let arrival = Arrival {
            number: packet.sequence,
            at: now,
        };
        match self.buffer.push_held(packet) {
            Ok(()) => {
                self.bytes = bytes;
                self.from = from_at(&self.arrivals, self.from, self.buffer.due());
                self.arrivals.push_back(arrival);
                Ok(())
            }
            Err(not_held) => Err(NotPushed {
                packet: not_held.packet,
                reason: as_not_pushed(not_held.reason),
            }),
        }
    }

    /// Whether a packet with this number needn't wait: none does, and it is the one that is due.
    #[inline]
    pub fn goes_straight(&self, number: u16) -> bool {
        self.buffer.goes_straight(number)
    }

    /// The packet with this number, which needn't wait, was taken: it is as if it had waited and gone.
    #[inline]
    pub(crate) fn pass(&mut self, number: u16) {
        self.buffer.pass(number);
        self.from = number.wrapping_add(1);
        self.has_begun = true;
    }

    /// Takes back a packet that doesn't wait, for its memory, as [`ReorderBuffer::give_back`] does.
    #[inline(always)]
    pub fn give_back(&mut self, packet: HeldPacket) {
        self.buffer.give_back(packet);
    }

    /// Whether the first packet isn't to wait for those before it.
    #[inline]
    fn is_pressed(&self, now: u32) -> bool {
        self.is_over || self.bytes > self.config.held_limit || self.has_waited(now)
    }

    /// For how long a packet waits at most: one that begins the stream for its own time.
    #[inline]
    fn longest_wait(&self) -> u32 {
        if self.has_begun || self.config.max_wait < self.config.begin_wait {
            self.config.max_wait
        } else {
            self.config.begin_wait
        }
    }

    /// Whether the packet that waits longest has waited long enough.
    #[inline]
    fn has_waited(&self, now: u32) -> bool {
        let longest = self.longest_wait();
        if longest == u32::MAX {
            return false;
        }
        match self.arrivals.front() {
            Some(arrival) => now.wrapping_sub(arrival.at) >= longest,
            None => false,
        }
    }

    /// The packet that is due at this tick, if one is. It stays until it is popped.
    #[inline]
    pub fn first_due(&self, now: u32) -> Option<&HeldPacket> {
        let first = self.buffer.first()?;
        if self.buffer.may_go(first.sequence) || self.is_pressed(now) {
            Some(first)
        } else {
            None
        }
    }

    /// The packet that is due at some tick, where one is known to be: the first.
    #[inline(always)]
    pub(crate) fn known_due(&self) -> Option<&HeldPacket> {
        self.buffer.first()
    }

    /// The first packet, due or not.
    #[inline(always)]
    pub fn pop_first(&mut self) -> Option<HeldPacket> {
        let due = self.buffer.due().unwrap_or(0);
        match self.buffer.pop_first() {
            Some(packet) => {
                self.from = let_go(&mut self.arrivals, self.from, due, packet.sequence);
                self.bytes -= packet.payload.len();
                self.has_begun = true;
                Some(packet)
            }
            None => None,
        }
    }

    /// Drops the first packet, due or not, and keeps its memory, as [`ReorderBuffer::give_back`] does.
    pub fn drop_first(&mut self) {
        if let Some(packet) = self.pop_first() {
            self.give_back(packet);
        }
    }

    /// The number from which on others may be missing: of a stream that begins that of the first
    /// packet that waits.
    pub(crate) fn awaited(&self) -> Option<u16> {
        if self.has_begun {
            return self.buffer.due();
        }
        match self.buffer.first() {
            Some(packet) => Some(packet.sequence),
            None => self.buffer.due(),
        }
    }

    /// The numbers that are missing before packets that wait, in order, from the one that is due on:
    /// for a NACK (RFC 4585, 6.2.1). Of a stream that begins none is missing before the first packet
    /// that waits.
    pub(crate) fn missing(&self) -> Result<Vec<u16>, AllocError> {
        let mut numbers = Vec::new();
        let mut from = match self.awaited() {
            Some(number) => number,
            None => return Ok(numbers),
        };
        for place in 0..self.buffer.len() {
            let number = self.buffer.number_at(place);
            append_numbers(&mut numbers, from, number.wrapping_sub(from))?;
            from = number.wrapping_add(1);
        }
        Ok(numbers)
    }

    /// When a packet will have waited for as long as one may, in the caller's ticks: none where none
    /// waits, or no time is set.
    pub fn deadline(&self) -> Option<u32> {
        match self.arrivals.front() {
            Some(arrival) => {
                let longest = self.longest_wait();
                if longest == u32::MAX {
                    None
                } else {
                    Some(arrival.at.wrapping_add(longest))
                }
            }
            None => None,
        }
    }

    /// Has this number due, where no packet came: a peer tells the number of its first packet, as in
    /// the RTP-Info of RTSP (RFC 2326, 12.33). The answer is whether none came, no number was told
    /// before, and the stream hasn't ended.
    pub fn begin_at(&mut self, number: u16) -> bool {
        if self.is_over {
            return false;
        }
        if self.buffer.due().is_some() {
            return false;
        }
        self.buffer.begin_at(number);
        self.from = number;
        self.has_begun = true;
        true
    }

    /// Whether a packet is due at this tick.
    #[inline(always)]
    pub(crate) fn has_due(&self, now: u32) -> bool {
        match self.buffer.first() {
            Some(first) => self.buffer.may_go(first.sequence) || self.is_pressed(now),
            None => false,
        }
    }

    /// Whether the stream has ended.
    pub fn is_over(&self) -> bool {
        self.is_over
    }

    /// At the end of a stream: all that waits is due.
    pub fn finish(&mut self) {
        self.is_over = true;
    }

    /// Drops all that waits, and takes any number as the next: for another sender.
    pub fn restart(&mut self) {
        self.buffer.restart();
        self.arrivals.clear();
        self.bytes = 0;
        self.has_begun = false;
        self.is_over = false;
    }
}
