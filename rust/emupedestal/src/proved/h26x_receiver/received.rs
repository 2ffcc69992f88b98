// Made from crates/h26x_receiver/src/received.rt by tools/to-rust.

//! What became of a packet that was not refused.

/// What became of a packet that was not refused. Sequence numbers go round at 65536 (RFC 3550,
/// 5.1).
#[derive(Debug, Clone, Copy, PartialEq, Eq, Hash)]
pub enum Received {
    /// It was taken: it is the one that was expected, or the first of all.
    InOrder,

    /// It was taken: so many before it are missing, and the run that was open was given up.
    Gap(u16),

    /// It was taken, with so many missing before it, and the run that it left open held more bytes
    /// than the limit: this run was given up.
    TooLong(u16),

    /// It was not taken: its number is so far behind the one that is expected. It came late, or
    /// twice; `Late(1)` is the number of the packet that was taken last.
    Late(u16),
}

impl Received {
    /// The answer for a packet that was taken.
    pub(crate) fn taken(missing: u16, is_long: bool) -> Self {
        if is_long {
            Received::TooLong(missing)
        } else if missing == 0 {
            Received::InOrder
        } else {
            Received::Gap(missing)
        }
    }

    /// Whether the packet was taken, and was not late.
    pub fn is_taken(self) -> bool {
        !matches!(self, Received::Late(_))
    }
}
