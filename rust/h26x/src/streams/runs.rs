//! Follows units in fragments, so that it can be told which are left out: those of which a packet is missing,
//! and those that grow too long. The receiver gives them up.

use crate::captures::rtp::Rtp;
use crate::streams::payload::fragment;
use emupedestal::Codec;

/// The unit whose fragments come.
#[derive(Clone, Copy, PartialEq, Eq)]
enum Run {
    None,
    /// So many bytes of it came.
    Open(usize),
    GivenUp,
}

/// What became of units in fragments with a packet that was taken.
#[derive(Clone, Copy, PartialEq, Eq)]
pub enum Left {
    None,
    /// The one that was open is given up.
    GivenUp,
    /// That of the packet is longer than the limit.
    TooLong,
}

pub struct Runs {
    codec: Codec,
    has_donl: bool,
    limit: usize,
    run: Run,
    /// Of the packet that was taken last.
    timestamp: Option<u32>,
    /// Whether a packet behind that one is missing.
    is_gap: bool,
    pub given_up: u64,
    pub too_long: u64,
}

impl Runs {
    pub fn new(codec: Codec, has_donl: bool, limit: usize) -> Self {
        Runs {
            codec,
            has_donl,
            limit,
            run: Run::None,
            timestamp: None,
            is_gap: false,
            given_up: 0,
            too_long: 0,
        }
    }

    /// A packet is missing, or wasn't taken.
    pub fn break_off(&mut self) {
        self.is_gap = true;
    }

    /// Takes a packet. A unit that is open goes on with the next packet, of the same timestamp.
    pub fn take(&mut self, rtp: &Rtp<'_>) -> Left {
        let is_other = self.timestamp.replace(rtp.timestamp) != Some(rtp.timestamp);
        let is_gap = std::mem::take(&mut self.is_gap);
        let gave_up = (is_gap || is_other) && self.give_up();
        if self.follow(rtp) {
            self.too_long += 1;
            self.run = Run::GivenUp;
            return Left::TooLong;
        }
        if gave_up { Left::GivenUp } else { Left::None }
    }

    /// Gives up the unit that is open; whether one is.
    pub fn give_up(&mut self) -> bool {
        let is_open = matches!(self.run, Run::Open(_));
        if is_open {
            self.given_up += 1;
            self.run = Run::GivenUp;
        }
        is_open
    }

    /// Follows a packet; whether its unit is too long. One whose first fragment is missing is given up as
    /// well, and one within which an access unit ends.
    fn follow(&mut self, rtp: &Rtp<'_>) -> bool {
        let Some(fragment) = fragment(self.codec, rtp.payload) else {
            if rtp.marker {
                self.give_up();
            }
            return false;
        };
        let before = match self.run {
            _ if fragment.is_first => {
                self.give_up();
                Some(0)
            }
            Run::Open(len) => Some(len),
            Run::None => {
                self.given_up += 1;
                None
            }
            Run::GivenUp => None,
        };
        // The number of a unit is in its first fragment.
        let number = if fragment.is_first && self.has_donl {
            2
        } else {
            0
        };
        let len = before.map(|before| before + fragment.len.saturating_sub(number));
        self.run = match len {
            _ if fragment.is_last => Run::None,
            Some(len) => Run::Open(len),
            None => Run::GivenUp,
        };
        matches!(self.run, Run::Open(len) if len > self.limit)
    }
}
