// Made from crates/h26x_transmission/src/carried.rt by tools/to-rust.

//! What a transmission has made: its packets, and which calls were made.

use alloc::vec::Vec;
/// What a transmission made.
#[derive(Clone, PartialEq, Eq, Hash)]
pub struct Carried {
    /// The packets of all calls, in order.
    pub packets: Vec<Vec<u8>>,
    /// Of each call whether it was made; where memory lacked it was not.
    pub made: Vec<bool>,
}

/// Of bytes it tells how many there are.
impl core::fmt::Debug for Carried {
    fn fmt(&self, f: &mut core::fmt::Formatter<'_>) -> core::fmt::Result {
        use crate::support::Counts;
        f.debug_struct("Carried")
            .field("packets", &Counts(&self.packets))
            .field("made", &self.made)
            .finish()
    }
}
