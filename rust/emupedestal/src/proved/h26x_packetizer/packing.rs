// Made from crates/h26x_packetizer/src/packing.rt by tools/to-rust.

//! Which units of a list share packets.

/// Which units of a list share packets, where every unit goes.
#[derive(Debug, Clone, Copy, PartialEq, Eq)]
pub enum Packing {
    /// Those that fit one packet.
    Together,
    /// Of these, those that are no slices: a slice goes out at once.
    BeforeSlices,
    /// None.
    Apart,
    /// None, and no unit goes in fragments (packetization-mode 0 of H.264: RFC 6184, 6.2).
    Single,
}
