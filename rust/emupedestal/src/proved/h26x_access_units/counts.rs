// Made from crates/h26x_access_units/src/counts.rt by tools/to-rust.

//! What a receiver counts.

use crate::proved::h26x_access_units::numbers::missing_told;
use crate::proved::h26x_access_units::pushed::{NotPushedReason, Pushed};
use crate::proved::h26x_receiver::Received;
use crate::proved::h26x_reorder::RtpPacket;

/// What a receiver has counted since it was made. Each count stays at 2^64 - 1.
#[derive(Debug, Clone, Copy, PartialEq, Eq, Hash)]
pub struct Counts {
    /// Packets that were taken, and not refused.
    pub taken: u64,
    /// Numbers that are missing before packets that were taken, and before numbers that were skipped or
    /// refused, these with them.
    pub lost: u64,
    /// Packets that came after their place was passed.
    pub late: u64,
    /// Packets that came while one with their number waited.
    pub twice: u64,
    /// Packets whose number was too far from the one that was due.
    pub stray: u64,
    /// Packets that were refused for what they are.
    pub refused: u64,
    /// Numbers that came and bear nothing.
    pub skipped: u64,
    /// Packets that were refused and bear nothing to be written: of a type that carries no unit of
    /// the stream (a STAP-B, an FU-B, a PACSI), or an end of sequence of two bytes. Nothing is lost
    /// by them.
    pub no_unit: u64,
    /// How often the stream began anew.
    pub anew: u64,
    /// Access units that were given out.
    pub units: u64,
    /// Those of them that are known to be whole.
    pub whole: u64,
    /// NAL units that were given up, since they were longer than the limit.
    pub units_given_up: u64,
    /// Texts of access units that were given up, since they were longer than the limit.
    pub texts_given_up: u64,
    /// Access units that began, by their units, at the timestamp of the one before.
    pub still: u64,
    /// Markers of packets that were taken that weren't believed: no slice of the access unit had come,
    /// or the sender marks each slice.
    pub unbelieved: u64,
}

impl Counts {
    /// Nothing was counted.
    pub(crate) fn none() -> Self {
        Counts {
            taken: 0,
            lost: 0,
            late: 0,
            twice: 0,
            stray: 0,
            refused: 0,
            skipped: 0,
            no_unit: 0,
            anew: 0,
            units: 0,
            whole: 0,
            units_given_up: 0,
            texts_given_up: 0,
            still: 0,
            unbelieved: 0,
        }
    }

    /// Counts what became of a packet that was given to a receiver.
    pub(crate) fn try_push(&mut self, pushed: Pushed) {
        match pushed {
            Pushed::Late(_) => self.late = self.late.saturating_add(1),
            Pushed::Twice => self.twice = self.twice.saturating_add(1),
            Pushed::Stray => self.stray = self.stray.saturating_add(1),
            Pushed::Anew => self.anew = self.anew.saturating_add(1),
            Pushed::Held | Pushed::Jumped | Pushed::Full => {}
        }
    }

    /// Counts a packet that comes back.
    pub(crate) fn not_pushed(&mut self, reason: NotPushedReason) {
        match reason {
            NotPushedReason::Late(_) => self.late = self.late.saturating_add(1),
            NotPushedReason::Twice => self.twice = self.twice.saturating_add(1),
            NotPushedReason::Full | NotPushedReason::OutOfMemory => {}
        }
    }

    /// Counts packets of old numbers that are dropped, or numbers that are missing before a packet.
    pub(crate) fn drop(&mut self, dropped: usize) {
        self.lost = self.lost.saturating_add(dropped as u64);
    }

    /// Counts a packet that was refused: so many numbers are missing up to it, its own with them.
    pub(crate) fn refuse(&mut self, missing: u32) {
        self.refused = self.refused.saturating_add(1);
        self.lost = self.lost.saturating_add(u64::from(missing));
    }

    /// Counts what became of a packet with a payload; where it was taken, whether a text was given up.
    #[inline(always)]
    fn answer(&mut self, received: Received, text: bool) {
        match received {
            Received::Late(_) => self.late = self.late.saturating_add(1),
            Received::InOrder => self.take(0, 0, text),
            Received::Gap(missing) => self.take(u64::from(missing), 0, text),
            Received::TooLong(missing) => self.take(u64::from(missing), 1, text),
        }
    }

    /// Counts a packet that was taken. It is part of each of its calls, so that nothing is added of one
    /// in order.
    #[inline(always)]
    fn take(&mut self, missing: u64, given_up: u64, text: bool) {
        self.taken = self.taken.saturating_add(1);
        self.lost = self.lost.saturating_add(missing);
        self.units_given_up = self.units_given_up.saturating_add(given_up);
        self.texts_given_up = self.texts_given_up.saturating_add(u64::from(text));
    }

    /// Counts what became of a number that bears nothing.
    fn skip(&mut self, received: Received) {
        match received {
            Received::Late(_) => self.late = self.late.saturating_add(1),
            _ => {
                let missing = u64::from(missing_told(received));
                self.skipped = self.skipped.saturating_add(1);
                self.lost = self.lost.saturating_add(missing);
            }
        }
    }

    /// Counts what became of a packet that was due, and not refused; where it was taken, whether a text
    /// was given up.
    #[inline(always)]
    pub(crate) fn note(&mut self, packet: &RtpPacket<'_>, received: Received, text: bool) {
        if packet.payload.is_empty() {
            self.skip(received);
        } else {
            self.answer(received, text);
        }
    }

    /// Counts a packet that is refused and bears nothing to be written, by what became of its number.
    pub(crate) fn pass(&mut self, received: Received) {
        match received {
            Received::Late(_) => self.late = self.late.saturating_add(1),
            _ => {
                let missing = u64::from(missing_told(received));
                self.no_unit = self.no_unit.saturating_add(1);
                self.lost = self.lost.saturating_add(missing);
            }
        }
    }

    /// Counts whether an access unit began at the timestamp of the one before, and whether a marker
    /// isn't believed.
    #[inline]
    pub(crate) fn frame(&mut self, still: bool, unbelieved: bool) {
        self.still = self.still.saturating_add(u64::from(still));
        self.unbelieved = self.unbelieved.saturating_add(u64::from(unbelieved));
    }

    /// Counts an access unit that is given out.
    pub(crate) fn unit(&mut self, is_whole: bool) {
        self.units = self.units.saturating_add(1);
        self.whole = self.whole.saturating_add(u64::from(is_whole));
    }
}
