// Made from crates/h26x_reorder/src/pushed.rt by tools/to-rust.

//! What became of a packet that was given to a buffer.

/// What became of a packet that was given to a buffer.
#[derive(Debug, Clone, Copy, PartialEq, Eq, Hash)]
pub enum Pushed {
    /// It is held, until those before it have come or the window has passed.
    Held,

    /// It is not held: its number is so far behind the one that is due.
    Late(u16),

    /// It is not held: a packet with its number is.
    Twice,
}
