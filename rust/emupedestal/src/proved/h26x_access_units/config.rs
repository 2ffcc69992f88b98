// Made from crates/h26x_access_units/src/config.rt by tools/to-rust.

//! A caller's settings.

/// A caller's settings of a receiver of access units: for how long it waits for a packet that is
/// missing, and how much memory it holds.
#[derive(Debug, Clone, Copy, PartialEq, Eq, Hash)]
pub struct AccessUnitConfig {
    /// Packets that are missing before one that waits are waited for until one came so many places,
    /// less one, ahead of it, 1 to 2^14.
    pub window: u16,
    /// A number so far or farther ahead of the newest that waits (where none waits, of the one that is
    /// due), and `far_behind` behind the one due, is a stray, which waits alone until the number behind
    /// it comes (RFC 3550, A.1, MAX_DROPOUT, 3000 there); 0: none is.
    pub far: u16,
    /// How far behind the one that is due a stray is at least (RFC 3550, A.1, MAX_MISORDER, 100 there);
    /// 0: as `far`. None of the last 1024 numbers that the stream passed is one.
    pub far_behind: u16,
    /// A packet that is missing is waited for so long at most after one behind it came, in the
    /// caller's ticks, which go round at 2^32; `u32::MAX`: by the window alone.
    pub max_wait: u32,
    /// A packet that begins the stream, or with which it begins anew, waits for so long, and no longer
    /// than `max_wait`, for those before it, in the caller's ticks; 0: it doesn't wait.
    pub begin_wait: u32,
    /// How many bytes of payloads may wait. Past that none is waited for.
    pub held_limit: usize,
    /// How many bytes an open NAL unit may hold from a packet to the next.
    pub run_limit: usize,
    /// How many bytes an open access unit may hold from a packet to the next.
    pub unit_limit: usize,
    /// Whether the decoder has the parameter sets, as from `sprop-*` of a session description, so that
    /// it can begin with a keyframe that bears none.
    pub has_sets: bool,
}
