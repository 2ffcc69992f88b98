// Made from crates/h26x_rtp/src/statistics.rt by tools/to-rust.

//! What is counted of the packets of one source (RFC 3550, 6.4.1, A.1, A.3 and A.8).

use crate::proved::h26x_rtp::report::ReportBlock;

/// A number so far ahead of the highest jumps (RFC 3550, A.1).
const MAX_DROPOUT: u16 = 3000;

/// A number so far behind the highest jumps, if it doesn't go on (RFC 3550, A.1).
const MAX_MISORDER: u16 = 100;

/// What is counted of the packets of one source, an SSRC, for the report blocks of a receiver (RFC
/// 3550, 6.4.1). A source is taken with its first packet: its SSRC is known from signalling, so that it
/// needn't come two packets in sequence (A.1 with MIN_SEQUENTIAL 1). Counts stay at 2^64 - 1.
#[derive(Debug, Clone, Copy, PartialEq, Eq)]
pub struct RtpStatistics {
    /// The number of the first packet, or of that with which the source began anew; 0 before any came.
    pub base: u16,
    /// The highest number that came, which goes round at 65536.
    pub highest: u16,
    /// The number behind the last that jumped: with it the source begins anew.
    pub after_jump: Option<u16>,
    /// How many numbers there are from the first to the highest.
    pub expected: u64,
    /// How many packets came since the source began, those that came twice as often as they came.
    pub received: u64,
    /// How many bytes of payload came, without header and padding (RFC 3550, 6.4.1, "octet count").
    pub bytes: u64,
    /// How many packets came as retransmissions (RFC 4588); in `received` they aren't counted.
    pub recovered: u64,
    /// The transit time of the last packet, in ticks of the timestamps' clock (RFC 3550, A.8).
    pub transit: Option<u32>,
    /// Sixteen times the interarrival jitter, in these ticks (RFC 3550, A.8).
    pub jitter: u64,
    /// `expected` at the last report.
    pub expected_before: u64,
    /// `received` at the last report.
    pub received_before: u64,
}

/// How many packets were lost, in 24 bits (RFC 3550, A.3).
fn lost_of(expected: u64, received: u64) -> i32 {
    if received <= expected {
        (expected - received).min(0x7f_ffff) as i32
    } else {
        -((received - expected).min(0x80_0000) as i32)
    }
}

/// Whether so many 256ths of packets were lost at least: without a division, of which those of 128 bits
/// are calls.
fn are_lost(part: u8, lost: u64, expected: u64) -> bool {
    u128::from(part) * u128::from(expected) <= u128::from(lost) * 256
}

/// The part of packets that was lost, in 256ths (RFC 3550, A.3).
fn fraction_of(expected: u64, received: u64) -> u8 {
    if expected <= received {
        return 0;
    }
    let mut part = 0;
    while part < 255 && are_lost(part + 1, expected - received, expected) {
        part += 1;
    }
    part
}

/// By how much two transit times differ (RFC 3550, A.8).
#[inline(always)]
fn difference(before: u32, transit: u32) -> u32 {
    let ahead = transit.wrapping_sub(before);
    let behind = before.wrapping_sub(transit);
    ahead.min(behind)
}

/// Sixteen times the jitter, by a transit time more (RFC 3550, A.8).
#[inline(always)]
fn jitter_after(before: Option<u32>, transit: u32, jitter: u64) -> u64 {
    match before {
        Some(before) => {
            let more = u64::from(difference(before, transit));
            jitter.saturating_add(more) - jitter.saturating_add(8) / 16
        }
        None => jitter,
    }
}

impl RtpStatistics {
    /// Nothing was counted.
    pub fn new() -> Self {
        RtpStatistics {
            base: 0,
            highest: 0,
            after_jump: None,
            expected: 0,
            received: 0,
            bytes: 0,
            recovered: 0,
            transit: None,
            jitter: 0,
            expected_before: 0,
            received_before: 0,
        }
    }

    /// Whether a number goes on behind the highest.
    #[inline(always)]
    fn goes_on(&self, number: u16) -> bool {
        number.wrapping_sub(self.highest) < MAX_DROPOUT
    }

    /// Whether a number is far from the highest.
    fn jumps(&self, number: u16) -> bool {
        !self.goes_on(number) && self.highest.wrapping_sub(number) >= MAX_MISORDER
    }

    /// Whether the source begins with this number.
    fn begins(&self, number: u16) -> bool {
        if self.received == 0 {
            return true;
        }
        self.jumps(number) && self.after_jump == Some(number)
    }

    /// Begins with this number.
    fn begin(&mut self, number: u16) {
        self.base = number;
        self.highest = number;
        self.after_jump = None;
        self.expected = 1;
        self.received = 1;
        self.transit = None;
        self.expected_before = 0;
        self.received_before = 0;
    }

    /// Counts one packet as received.
    #[inline(always)]
    fn count_one(&mut self) {
        self.received = self.received.saturating_add(1);
    }

    /// Counts a packet's number; whether the packet counts (RFC 3550, A.1).
    #[inline(always)]
    fn count_number(&mut self, number: u16) -> bool {
        if self.received != 0 && self.goes_on(number) {
            let ahead = number.wrapping_sub(self.highest);
            self.highest = number;
            self.expected = self.expected.saturating_add(u64::from(ahead));
            self.count_one();
            return true;
        }
        self.count_other(number)
    }

    /// Counts a number that doesn't go on behind the highest, or the first.
    #[inline(never)]
    fn count_other(&mut self, number: u16) -> bool {
        if self.begins(number) {
            self.begin(number);
            return true;
        }
        if self.jumps(number) {
            self.after_jump = Some(number.wrapping_add(1));
            return false;
        }
        self.count_one();
        true
    }

    /// Counts the arrival of a packet.
    #[inline(always)]
    fn count_arrival(&mut self, transit: u32, size: usize) {
        self.bytes = self.bytes.saturating_add(size as u64);
        self.jitter = jitter_after(self.transit, transit, self.jitter);
        self.transit = Some(transit);
    }

    /// Counts a packet that came, by its number, its timestamp and the bytes of its payload; whether it
    /// counts: one whose number jumps does only where it follows the one that jumped last (RFC 3550,
    /// A.1). `arrival` is when it came, in ticks of the timestamps' clock, which go round at 2^32.
    #[inline(always)]
    pub fn receive(&mut self, arrival: u32, sequence: u16, timestamp: u32, size: usize) -> bool {
        let counts = self.count_number(sequence);
        if counts {
            self.count_arrival(arrival.wrapping_sub(timestamp), size);
        }
        counts
    }

    /// Counts a packet that came as a retransmission, with another SSRC (RFC 4588), or was restored by
    /// other means.
    pub fn recover(&mut self) {
        self.recovered = self.recovered.saturating_add(1);
    }

    /// The extended highest number: how often numbers went round, and the highest, in 16 bits each (RFC
    /// 3550, 6.4.1).
    pub fn extended_highest(&self) -> u32 {
        let behind = self.expected.saturating_sub(1) % (1 << 32);
        u32::from(self.base).wrapping_add(behind as u32)
    }

    /// How many packets were lost since the source began, below zero where more came than were
    /// expected; -2^23 to 2^23 - 1 (RFC 3550, 6.4.1 and A.3).
    pub fn lost(&self) -> i32 {
        lost_of(self.expected, self.received)
    }

    /// The interarrival jitter, in ticks of the timestamps' clock (RFC 3550, 6.4.1 and A.8).
    pub fn interarrival_jitter(&self) -> u32 {
        (self.jitter / 16).min(0xffff_ffff) as u32
    }

    /// What is reported of the source, with the part of packets that was lost since the last report
    /// (RFC 3550, 6.4.1 and A.3). `last_sender_report` and `delay` are 0 where no sender report came.
    pub fn report(&mut self, ssrc: u32, last_sender_report: u32, delay: u32) -> ReportBlock {
        let expected = self.expected.saturating_sub(self.expected_before);
        let received = self.received.saturating_sub(self.received_before);
        self.expected_before = self.expected;
        self.received_before = self.received;
        ReportBlock {
            ssrc,
            fraction_lost: fraction_of(expected, received),
            lost: self.lost(),
            highest: self.extended_highest(),
            jitter: self.interarrival_jitter(),
            last_sender_report,
            delay,
        }
    }
}
