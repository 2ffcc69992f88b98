// Made from crates/h26x_rtp_receiver/src/keyframes.rt by tools/to-rust.

//! When a keyframe is asked for (PLI, RFC 4585, 6.3.1; FIR, RFC 5104, 4.3.1).

/// Whether a decoder that is given the access units can go on, and when a keyframe was asked for.
#[derive(Debug, Clone, Copy, PartialEq, Eq)]
pub(crate) struct KeyframeRequests {
    /// Whether an access unit was given out.
    pub has_begun: bool,
    /// Whether a decoder can go on behind it.
    pub goes_on: bool,
    /// The tick at which a keyframe was last asked for.
    pub asked: Option<u32>,
}

impl KeyframeRequests {
    /// Before any access unit.
    pub(crate) fn none() -> Self {
        KeyframeRequests {
            has_begun: false,
            goes_on: false,
            asked: None,
        }
    }

    /// Once an access unit was given out, of which this is told.
    pub(crate) fn after(self, is_clean: bool, is_disposable: bool) -> Self {
        KeyframeRequests {
            has_begun: true,
            goes_on: is_clean || (is_disposable && self.goes_on),
            ..self
        }
    }

    /// Whether a keyframe is to be asked for at this tick.
    fn is_due(self, again: u32, now: u32) -> bool {
        if !self.has_begun || self.goes_on {
            return false;
        }
        match self.asked {
            Some(at) => now.wrapping_sub(at) >= again,
            None => true,
        }
    }

    /// Whether a keyframe is to be asked for at this tick, as it then is.
    pub(crate) fn ask(&mut self, again: u32, now: u32) -> bool {
        let is_due = self.is_due(again, now);
        if is_due {
            self.asked = Some(now);
        }
        is_due
    }
}
