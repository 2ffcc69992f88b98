//! How much of a stream came in which time, and how evenly.

use crate::captures::packets::Captured;
use crate::streams::spread::Spread;
use emupedestal::access_unit_receiver::ReceivedAccessUnit;

/// How many ticks a second timestamps count (RFC 6184, 8.2.1; RFC 7798, 7.1; RFC 9328, 7.1).
pub const TICKS_A_SECOND: f64 = 90_000.0;
const NANOS_A_SECOND: f64 = 1e9;

/// A time in ticks of the timestamps' clock, which goes round at 2^32.
pub fn ticks(nanos: u64) -> u32 {
    (u128::from(nanos) * 90_000 / 1_000_000_000) as u32
}

#[derive(Default)]
pub struct Rates {
    /// When the first and the last packet was captured, in nanoseconds.
    ends: Option<(u64, u64)>,
    pub jitter: Jitter,
    /// The lengths of access units in Annex B form.
    pub sizes: Spread,
    /// Ticks between the timestamps of keyframes that follow one another.
    pub intervals: Spread,
    keyframe: Option<u32>,
}

impl Rates {
    /// A packet came, in the order of the capture.
    pub fn come(&mut self, packet: &Captured<'_>) {
        let (first, last) = self.ends.unwrap_or((packet.time, packet.time));
        self.ends = Some((first.min(packet.time), last.max(packet.time)));
        self.jitter.come(packet);
    }

    pub fn unit(&mut self, unit: &ReceivedAccessUnit, is_keyframe: bool) {
        self.sizes.add(unit.bytes.len() as u64);
        if is_keyframe && self.keyframe != Some(unit.timestamp) {
            let before = self.keyframe.replace(unit.timestamp);
            let ticks = before.map(|it| unit.timestamp.wrapping_sub(it));
            // A later keyframe never has the earlier timestamp.
            let ticks = ticks.filter(|it| *it < 1 << 31);
            ticks.iter().for_each(|it| self.intervals.add((*it).into()));
        }
    }

    /// The sender begins anew, with another timestamp.
    pub fn begin_anew(&mut self) {
        self.jitter.transit = None;
        self.keyframe = None;
    }

    /// How many seconds are between the first and the last packet.
    pub fn seconds(&self) -> f64 {
        let (first, last) = self.ends.unwrap_or_default();
        (last - first) as f64 / NANOS_A_SECOND
    }

    /// How many of so many are in a second; nothing where no time passed.
    pub fn a_second(&self, count: u64) -> Option<f64> {
        let seconds = self.seconds();
        (seconds > 0.0).then(|| count as f64 / seconds)
    }
}

/// The interarrival jitter (RFC 3550, A.8), in ticks of the timestamp.
#[derive(Default)]
pub struct Jitter {
    /// When the last packet came, and its timestamp.
    transit: Option<(u64, u32)>,
    last: f64,
    greatest: f64,
}

impl Jitter {
    /// A packet came, in the order of the capture.
    pub fn come(&mut self, packet: &Captured<'_>) {
        let (now, timestamp) = (packet.time, packet.rtp.timestamp);
        let Some((time, before)) = self.transit.replace((now, timestamp)) else {
            return;
        };
        let sign = if now < time { -1.0 } else { 1.0 };
        let nanos = sign * now.abs_diff(time) as f64;
        let sent = f64::from(timestamp.wrapping_sub(before) as i32);
        let difference = (nanos * TICKS_A_SECOND / NANOS_A_SECOND - sent).abs();
        self.last += (difference - self.last) / 16.0;
        self.greatest = self.greatest.max(self.last);
    }

    /// What it is behind the last packet, in seconds.
    pub fn seconds(&self) -> f64 {
        self.last / TICKS_A_SECOND
    }

    /// What it was at most.
    pub fn greatest(&self) -> f64 {
        self.greatest / TICKS_A_SECOND
    }
}
