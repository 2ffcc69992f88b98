// Made from crates/h26x_access_units/src/way.rt by tools/to-rust.

//! What a packet's number is to a receiver.

/// What a packet's number is to what a receiver took and to what waits.
#[derive(Debug, Clone, Copy, PartialEq, Eq)]
pub(crate) enum Way {
    /// It was taken, and is among the last 1024 that the stream passed.
    Repeat,
    /// It is too far from the one that is due and from those that wait.
    Far,
    /// It is more than a window, and than 100, ahead.
    Ahead,
    /// It is within the window, or late.
    Window,
}
