// Made from crates/h26x_profile/src/bit_pattern.rt by tools/to-rust.

//! Patterns of the bits of a byte.

/// A pattern of the eight bits of a byte, as the flags of constraints of an H.264 profile are
/// written (RFC 6184, section 8.1, table 5). The first place is bit 7; `x` takes either bit.
#[derive(Clone, Copy)]
pub struct BitPattern {
    pub(crate) places: [u8; 8],
}

impl BitPattern {
    /// Whether each place takes its bit of the value.
    pub fn matches(&self, value: u8) -> bool {
        let places = self.places;
        takes(places[0], value >> 7 & 1)
            & takes(places[1], value >> 6 & 1)
            & takes(places[2], value >> 5 & 1)
            & takes(places[3], value >> 4 & 1)
            & takes(places[4], value >> 3 & 1)
            & takes(places[5], value >> 2 & 1)
            & takes(places[6], value >> 1 & 1)
            & takes(places[7], value & 1)
    }
}

/// Whether a place of a pattern takes this bit.
fn takes(place: u8, bit: u8) -> bool {
    place == b'x' || (place == b'0' && bit == 0) || (place == b'1' && bit == 1)
}
