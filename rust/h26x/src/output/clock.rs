//! The time of pictures in a recording, by their timestamps, which go round at 2^32 and may jump.

use crate::streams::rates::TICKS_A_SECOND;

/// A timestamp that is so many ticks further than the capture's time says doesn't go on from the one before: a
/// minute.
const FAR: i64 = 60 * 90_000;

/// No recording is so long.
const MOST: i64 = 1 << 60;

/// Ticks of 1/90000 s since the first picture.
#[derive(Default)]
pub struct Clock {
    /// The timestamp of the last picture, when it came in nanoseconds, and its ticks.
    last: Option<(u32, u64, i64)>,
    is_anew: bool,
}

impl Clock {
    /// The sender begins anew: its next timestamp is any.
    pub fn begin_anew(&mut self) {
        self.is_anew = true;
    }

    /// The ticks of another picture, of this timestamp, which came at this time. Where its timestamp says nothing,
    /// the time does.
    pub fn ticks(&mut self, timestamp: u32, time: u64) -> i64 {
        let is_anew = std::mem::take(&mut self.is_anew);
        let ticks = self.last.map_or(0, |(before, came, ticks)| {
            let sign = if time < came { -1.0 } else { 1.0 };
            let passed = sign * time.abs_diff(came) as f64 * TICKS_A_SECOND / 1e9;
            let ahead = i64::from(timestamp.wrapping_sub(before) as i32);
            let is_far = ahead.abs() > FAR && (ahead - passed as i64).abs() > FAR;
            let is_untold = is_anew || is_far || ahead == 0;
            let further = if is_untold {
                (passed as i64).max(1)
            } else {
                ahead
            };
            ticks.saturating_add(further).clamp(-MOST, MOST)
        });
        self.last = Some((timestamp, time, ticks));
        ticks
    }
}

#[cfg(test)]
mod tests {
    use super::*;

    const SECOND: u64 = 1_000_000_000;

    #[test]
    fn timestamps() {
        let mut clock = Clock::default();
        assert_eq!(clock.ticks(u32::MAX - 2999, 7), 0);
        assert_eq!(clock.ticks(0, 8), 3000);
        // A picture that is shown before the one that was sent before.
        assert_eq!(clock.ticks(u32::MAX - 1499, 9), 1500);
        // An hour in which nothing came, and a sender that begins anew two seconds later.
        assert_eq!(
            clock.ticks(3600 * 90_000, 3600 * SECOND),
            3000 + 3600 * 90_000
        );
        clock.begin_anew();
        assert_eq!(clock.ticks(5, 3602 * SECOND), 3000 + 3602 * 90_000);
        assert_eq!(clock.ticks(3005, 3602 * SECOND + 1), 6000 + 3602 * 90_000);
        // A timestamp that jumps by itself: what passed counts.
        assert_eq!(
            clock.ticks(1 << 30, 3603 * SECOND + 1),
            6000 + 3603 * 90_000
        );
        // One that stands still.
        let ticks = clock.ticks(1 << 30, 3604 * SECOND + 1);
        assert_eq!(ticks, 6000 + 3604 * 90_000);
    }
}
