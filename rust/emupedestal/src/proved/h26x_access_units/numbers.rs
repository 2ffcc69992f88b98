// Made from crates/h26x_access_units/src/numbers.rt by tools/to-rust.

//! The sequence numbers of the packets of access units.

use crate::proved::h26x_receiver::Received;
use crate::proved::h26x_reorder::RtpPacket;

/// The sequence numbers of the packets of an access unit.
#[derive(Debug, Clone, Copy, PartialEq, Eq)]
pub struct AccessUnitNumbers {
    /// The timestamp of its packets.
    pub timestamp: u32,
    /// The number of the first packet that came of it.
    pub first: u16,
    /// The number of the last one.
    pub last: u16,
    /// How many numbers are missing between the access unit before and the end of this one.
    pub missing: u32,
    /// Whether a marker ended one of its timestamp right before it.
    pub continues: bool,
    /// Whether its first packet follows one that was taken, with no number missing between them.
    pub follows: bool,
    /// Whether a packet was taken before it since the beginning: all is counted that is missing.
    pub is_counted: bool,
}

impl AccessUnitNumbers {
    /// Those of an access unit of which no packet came.
    pub(crate) const NONE: Self = AccessUnitNumbers {
        timestamp: 0,
        first: 0,
        last: 0,
        missing: 0,
        continues: false,
        follows: false,
        is_counted: false,
    };
}

/// The numbers of the access unit that is open, and of those that ended last.
#[derive(Debug, Clone, Copy, PartialEq, Eq)]
pub(crate) struct NumbersSoFar {
    /// Those of the access unit that is open.
    pub unit: Option<AccessUnitNumbers>,
    /// The timestamp of the access unit that the packet before ended by its marker.
    pub marked: Option<u32>,
    /// Whether what comes next may follow: a packet was taken, or the first number is told, since the
    /// beginning, or since an access unit ended behind missing numbers.
    pub has_begun: bool,
    /// Whether a packet was taken since the beginning.
    pub has_taken: bool,
    /// How many are missing since the last packet, before numbers that were skipped.
    pub skipped_gap: u32,
    /// How many were missing of access units that weren't given out, to be told with the next one that
    /// begins.
    pub carried: u32,
    /// Those of the access unit that another timestamp ended, until it is given out.
    pub ended: Option<AccessUnitNumbers>,
    /// Those of the access unit that the marker ended, until it is given out.
    pub ended_by_marker: Option<AccessUnitNumbers>,
}

/// How many numbers are missing up to a packet that was refused, its own with them, by what is told of
/// those before it.
pub(crate) fn missing_with(received: Received) -> u32 {
    match received {
        Received::Late(_) => 0,
        answer => u32::from(missing_told(answer)) + 1,
    }
}

/// How many numbers an answer tells to be missing.
pub(crate) fn missing_told(received: Received) -> u16 {
    match received {
        Received::Gap(missing) | Received::TooLong(missing) => missing,
        Received::InOrder | Received::Late(_) => 0,
    }
}

/// Whether it is this timestamp.
#[inline]
pub(crate) fn is_timestamp(marked: Option<u32>, timestamp: u32) -> bool {
    match marked {
        Some(marked) => marked == timestamp,
        None => false,
    }
}

impl NumbersSoFar {
    /// Before any packet.
    pub(crate) fn none() -> Self {
        NumbersSoFar {
            unit: None,
            marked: None,
            has_begun: false,
            has_taken: false,
            skipped_gap: 0,
            carried: 0,
            ended: None,
            ended_by_marker: None,
        }
    }

    /// The numbers of an access unit that a packet begins, before which so many are missing.
    #[inline(always)]
    fn begun(&self, packet: &RtpPacket<'_>, missing: u32) -> AccessUnitNumbers {
        AccessUnitNumbers {
            timestamp: packet.timestamp,
            first: packet.sequence,
            last: packet.sequence,
            missing: missing.saturating_add(self.carried),
            continues: is_timestamp(self.marked, packet.timestamp),
            follows: self.has_begun && missing == 0,
            is_counted: self.has_taken,
        }
    }

    /// A packet came, before which so many are missing: its access unit is open, and another one ended.
    #[inline]
    fn go_on(&mut self, packet: &RtpPacket<'_>, missing: u32) {
        match &mut self.unit {
            Some(unit) if unit.timestamp == packet.timestamp => {
                unit.last = packet.sequence;
                unit.missing = unit.missing.saturating_add(missing);
                self.ended = None;
            }
            _ => {
                self.ended = self.unit;
                self.unit = Some(self.begun(packet, missing));
                self.carried = 0;
            }
        }
    }

    /// A packet with a marker came, before which so many are missing: its access unit ended, whose
    /// numbers are written where they stay.
    #[inline(always)]
    fn end_with(&mut self, packet: &RtpPacket<'_>, missing: u32) {
        match self.unit {
            Some(unit) if unit.timestamp == packet.timestamp => {
                self.ended = None;
                self.ended_by_marker = Some(AccessUnitNumbers {
                    last: packet.sequence,
                    missing: unit.missing.saturating_add(missing),
                    ..unit
                });
            }
            unit => {
                self.ended = unit;
                self.ended_by_marker = Some(self.begun(packet, missing));
                self.carried = 0;
            }
        }
        self.marked = Some(packet.timestamp);
        self.unit = None;
    }

    /// A number was skipped or refused, and so many are missing up to it.
    pub(crate) fn skip(&mut self, missing: u32) {
        self.skipped_gap = self.skipped_gap.saturating_add(missing);
    }

    /// A packet was taken, and so many are missing before it.
    #[inline(always)]
    pub(crate) fn take(&mut self, packet: &RtpPacket<'_>, missing: u16) {
        let missing = self.skipped_gap.saturating_add(u32::from(missing));
        self.skipped_gap = 0;
        if packet.marker {
            self.end_with(packet, missing);
        } else {
            self.go_on(packet, missing);
            self.marked = None;
            self.ended_by_marker = None;
        }
        self.has_begun = true;
        self.has_taken = true;
    }

    /// Notes what became of a packet that was due, and not refused.
    #[inline(always)]
    pub(crate) fn note(&mut self, packet: &RtpPacket<'_>, received: Received) {
        if packet.payload.is_empty() {
            self.skip(u32::from(missing_told(received)));
        } else if received.is_taken() {
            self.take(packet, missing_told(received));
        }
    }

    /// The access unit that is open ended behind numbers that are missing, so many.
    pub(crate) fn miss(&mut self, missing: u32) {
        self.ended = self.unit;
        self.unit = None;
        self.marked = None;
        self.has_begun = false;
        self.skip(missing);
    }

    /// The access unit that is open ended by itself, as by a marker.
    pub(crate) fn close(&mut self) {
        self.marked = match self.unit {
            Some(unit) => Some(unit.timestamp),
            None => None,
        };
        self.ended = self.unit;
        self.unit = None;
    }

    /// Where an access unit begins at the timestamp of the one before, that it doesn't go on with that.
    #[inline]
    pub(crate) fn stand(&mut self, stands_still: bool) {
        if stands_still {
            self.marked = None;
        }
    }

    /// As many more are missing before the access unit that is given out next.
    pub(crate) fn carry(&mut self, missing: u32) {
        if let Some(ended) = &mut self.ended_by_marker {
            ended.missing = ended.missing.saturating_add(missing);
        } else if let Some(unit) = &mut self.unit {
            unit.missing = unit.missing.saturating_add(missing);
        } else {
            self.carried = self.carried.saturating_add(missing);
        }
    }

    /// The number of the first packet is told.
    pub(crate) fn begin(&mut self) {
        self.has_begun = true;
    }

    /// The stream has ended, and with it the access unit that is open.
    pub(crate) fn finish(&mut self) {
        *self = NumbersSoFar {
            unit: None,
            marked: None,
            has_begun: false,
            has_taken: false,
            skipped_gap: 0,
            carried: 0,
            ended: self.unit,
            ended_by_marker: None,
        };
    }

    /// Those of the first access unit that ended, which is given out.
    pub(crate) fn give(&mut self) -> AccessUnitNumbers {
        match self.ended {
            Some(numbers) => {
                self.ended = None;
                numbers
            }
            None => {
                let numbers = self.ended_by_marker.unwrap_or(AccessUnitNumbers::NONE);
                self.ended_by_marker = None;
                numbers
            }
        }
    }
}
